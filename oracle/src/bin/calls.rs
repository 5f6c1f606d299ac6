//! Compares the estimator's calls through C linkage (`libestimator.a`) with the rules' reading over the ported Rust:
//! the number of refusal, what it carries, and all lent memory, guards on both sides of it included.

#[path = "proved/calls.rs"]
mod proved;

use kan_oracle::calls::FIRST_KINDS;
use kan_oracle::compared::Column;
use kan_oracle::drawn_calls::Maker;
use kan_oracle::program::Program;
use kan_oracle::settled_calls::settled_calls;
use std::process::ExitCode;

fn main() -> ExitCode {
    let program = Program {
        kinds: &FIRST_KINDS,
        gives: Column::gives,
        chosen: Some(settled_calls),
        round: Maker::first_kinds,
        sights: &[],
        made: proved::made,
    };
    program.run()
}
