//! Compares the estimator's training through C linkage (`libestimator.a`) with the ported Rust's own steps: the model
//! after every step bit by bit, the steps done, the number of refusal, and all lent memory with its guards.

#[path = "proved/calls.rs"]
mod proved;

use kan_oracle::calls::Kind;
use kan_oracle::compared::Column;
use kan_oracle::drawn_calls::Maker;
use kan_oracle::program::Program;
use kan_oracle::settled_calls::training::settled_training;
use std::process::ExitCode;

fn main() -> ExitCode {
    let program = Program {
        kinds: &[Kind::TrainStep, Kind::Train],
        gives: Column::gives,
        chosen: Some(settled_training),
        round: Maker::training_round,
        sights: &[],
        made: proved::made,
    };
    program.run()
}
