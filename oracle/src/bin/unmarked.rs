//! Compares pairs of models that differ only in coefficients which the estimator's visit map does not mark: each call through C
//! linkage (`libestimator.a`) with the ported Rust, and the answers for both models with each other.

#[path = "proved/calls.rs"]
mod proved;

use kan_oracle::drawn_calls::unmarked::{gives, ASKED, SIGHTS};
use kan_oracle::drawn_calls::Maker;
use kan_oracle::program::Program;
use std::process::ExitCode;

fn main() -> ExitCode {
    let program = Program {
        kinds: &ASKED,
        gives,
        chosen: None,
        round: Maker::unmarked_round,
        sights: &SIGHTS,
        made: proved::made,
    };
    program.run()
}
