//! Compares the estimator's training in two calls through C linkage (`libestimator.a`) with the
//! ported Rust: a batch that is cut into parts, accumulated and applied, with the Rust's one step
//! on the whole batch; and single calls of both kinds, in the number of refusal, the gradients or
//! the model, and all lent memory with its guards.

#[path = "proved/calls.rs"]
mod proved;

use kan_oracle::calls::Kind;
use kan_oracle::compared::Column;
use kan_oracle::drawn_calls::chains::SIGHTS;
use kan_oracle::drawn_calls::Maker;
use kan_oracle::program::Program;
use kan_oracle::settled_calls::split::settled_split;
use std::process::ExitCode;

fn main() -> ExitCode {
    let program = Program {
        kinds: &[Kind::Accumulate, Kind::Apply],
        gives: Column::gives,
        chosen: Some(settled_split),
        round: Maker::chains_round,
        sights: &SIGHTS,
        made: proved::made,
    };
    program.run()
}
