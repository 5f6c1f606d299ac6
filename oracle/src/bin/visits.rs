//! Compares the estimator's visit map through C linkage (`libestimator.a`) with the ported Rust's own basis values and
//! slopes at the numbers that each edge reads: the map, the number of refusal, what it carries, and all lent memory with its
//! guards.

#[path = "proved/calls.rs"]
mod proved;

use kan_oracle::calls::Kind;
use kan_oracle::compared::Column;
use kan_oracle::drawn_calls::visits::MARKED_BY_SLOPE;
use kan_oracle::drawn_calls::Maker;
use kan_oracle::program::Program;
use kan_oracle::settled_calls::visits::settled_visits;
use std::process::ExitCode;

fn main() -> ExitCode {
    let program = Program {
        kinds: &[Kind::Visits],
        gives: Column::gives,
        chosen: Some(settled_visits),
        round: Maker::visits_round,
        sights: &[MARKED_BY_SLOPE],
        made: proved::made,
    };
    program.run()
}
