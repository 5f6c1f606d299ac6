//! Drawn calls of training.

use super::{Maker, NOT_FINITE};
use crate::calls::{Call, Kind};
use crate::reading::Configuration;
use crate::rounds::Comparison;

/// Large models take fewer steps, as each costs time.
const MOST_STEPS: usize = 60;
const MOST_STEPPED: usize = 6000;

impl Maker {
    /// One drawn training, at once and then step by step, until it is refused or all steps are made.
    pub fn training_round(&mut self, comparison: &mut Comparison<Call>) {
        let train = self.call(Kind::Train, comparison.round);
        let at_once = comparison.compare(&train);
        let mut step = train.clone();
        step.kind = Kind::TrainStep;
        let mut done = 0;
        while done < train.steps.max(1) {
            let read = comparison.compare(&step);
            if read.number != 0 {
                break;
            }
            step.model = read.model;
            done += 1;
        }
        if train.steps > 0 {
            let alike = at_once.model.difference(&step.model).is_none();
            assert!(alike && at_once.done.contents() == [done], "both readings");
        }
    }

    /// Half of all have no fault but those of the configuration and of the rate, so that many steps are made.
    pub(super) fn train(&mut self, call: &mut Call, sound: &Configuration) {
        if self.once_in(2) {
            self.sound_training(call, sound);
        } else {
            call.model = self.model(sound);
            self.batch(call, sound);
            let (gradients, work) = self.room(sound);
            call.gradients = self.lend_filled(gradients);
            call.work = self.lend_filled(work);
        }
        call.steps = self.step_count(sound);
        call.rate = self.rate();
    }

    fn sound_training(&mut self, call: &mut Call, sound: &Configuration) {
        let model = self.parameters(sound);
        let rows = self.whole(1, 5);
        let inputs = self.finite_inputs(sound, rows);
        let targets = self.finite_targets(rows * sound.output_width());
        call.model = self.lend(&model);
        call.inputs = self.lend(&inputs);
        call.targets = self.lend(&targets);
        call.gradients = self.lend_filled(sound.parameters());
        call.work = self.lend_filled(2 * sound.nodes());
    }

    /// Lengths of the gradients and of the work, now and then too short.
    fn room(&mut self, sound: &Configuration) -> (usize, usize) {
        let (gradients, work) = (sound.parameters(), 2 * sound.nodes());
        let longer = (gradients + self.whole(0, 3), work + self.whole(0, 3));
        match self.draws.whole(1, 40) {
            1 => (self.whole(0, gradients - 1), longer.1),
            2 => (gradients - 1, longer.1),
            3 => (longer.0, self.whole(0, work - 1)),
            4 => (longer.0, work - 1),
            // The room of one width less, or of the two slices in turn.
            5 => (longer.0, work - sound.output_width()),
            6 => (work, gradients),
            7..=20 => (gradients, work),
            _ => longer,
        }
    }

    fn step_count(&mut self, sound: &Configuration) -> usize {
        let most = (MOST_STEPPED / sound.parameters()).clamp(3, MOST_STEPS);
        match self.draws.whole(1, 40) {
            1..=3 => 0,
            4..=10 => 1,
            11..=18 => self.whole(most / 2, most),
            _ => self.whole(2, most.min(9)),
        }
    }

    /// Good rates of all sizes, and bad ones.
    pub(super) fn rate(&mut self) -> f32 {
        let bad = self.any_of(&[0.0, -0.0, -1.0, -1e-45]);
        let far = self.any_of(&[1e-45, 1e-40, f32::MIN_POSITIVE, 3e38, f32::MAX]);
        let not_finite = self.any_of(&NOT_FINITE);
        match self.draws.whole(1, 30) {
            1 => bad,
            2 => not_finite,
            3 => self.draws.pattern(),
            4..=6 => far,
            7..=12 => self.draws.power_of_ten(),
            13..=18 => 1.0 / self.draws.power_of_ten(),
            _ => self.draws.between(0.0, 1.0),
        }
    }
}
