//! Rounds of drawn calls: which one it is, and where its calls go.

use crate::compared::Compared;
use crate::outcomes::Outcomes;

/// A round of drawn calls, which belongs to the seed whatever was drawn before.
#[derive(Clone, Copy)]
pub struct Round {
    pub seed: u64,
    pub number: u64,
}

/// Takes the calls of a round, and what shows between them.
pub struct Comparison<'a, C: Compared> {
    pub round: Round,
    pub outcomes: &'a mut Outcomes<C>,
    /// Whether each call is printed with all arguments.
    pub printed: bool,
}

impl<C: Compared> Comparison<'_, C> {
    /// Has a call compared; the answer is the reading's.
    pub fn compare(&mut self, call: &C) -> C {
        if self.printed {
            print!("{call}");
        }
        let round = self.round;
        let read = self.outcomes.compare(call, || round.place());
        if self.printed {
            let (number, carried) = read.answer();
            println!("    reading {number} carrying {carried}");
        }
        read
    }

    /// Counts something that a long run must meet.
    pub fn meet(&mut self, sight: &'static str) {
        if self.printed {
            println!("{sight}");
        }
        self.outcomes.meet(sight);
    }

    /// Tells in what a call parts from another that it should agree with.
    pub fn differ(&mut self, call: &C, lines: Vec<String>) {
        let round = self.round;
        self.outcomes.differ(call, || round.place(), lines);
    }
}

impl Round {
    fn place(self) -> String {
        let Round { seed, number } = self;
        format!("seed {seed} round {number}")
    }
}
