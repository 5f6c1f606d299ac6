//! Drawn chains of training in two calls: a batch is cut into parts, each is accumulated on the
//! same model from where the one before left off, and what was gathered is applied once. That must
//! end as one step of the Rust on the whole batch. Besides, drawn calls of both kinds with faults,
//! on gradients that hold anything.

use super::{Maker, NOT_FINITE};
use crate::calls::{Call, Kind};
use crate::compared::Compared;
use crate::lent::{Cell, Lent};
use crate::reading::{Configuration, MOST_TARGETS};
use crate::rounds::{Comparison, Round};
use std::ops::Range;

/// What every long run meets.
pub const SIGHTS: [&str; 9] = [
    JOINED,
    BY_ROWS,
    STOPPED,
    NOT_MOVED,
    BAD_RATE,
    KEPT_ZERO,
    TURNED_ZERO,
    NOT_NUMBERS,
    OVERFLOWN,
];
const JOINED: &str = "chains of two parts and more end as one step on the joined batch";
const BY_ROWS: &str = "of these have parts of one row alone";
const STOPPED: &str = "chains stop at 20 behind an accepted part, as that step does";
const NOT_MOVED: &str = "chains of two parts and more end with 23, as that step does";
const BAD_RATE: &str = "chains of two parts and more end with 19, as that step does";
const KEPT_ZERO: &str = "accepted calls leave a -0.0 among the gradients as it is";
const TURNED_ZERO: &str = "accepted calls make +0.0 of a -0.0 among the gradients";
const NOT_NUMBERS: &str = "accepted calls add to an infinity or a NaN";
const OVERFLOWN: &str = "accepted calls leave an infinity or a NaN among finite gradients";

const MOST_PARTS: usize = 6;
/// Larger networks are left to the single calls, as each parameter costs time.
const MOST_CHAINED: usize = 600;
/// The part of a round's draws that a chain has; no single call has it.
const CHAIN: u64 = 1;

/// A step on a whole batch, and the rows of the parts that it is cut into.
struct Chain {
    joined: Call,
    parts: Vec<Range<usize>>,
}

impl Chain {
    /// The part as a call of its own, which adds to these gradients.
    fn accumulate(&self, part: &Range<usize>, gradients: Lent<f32>, work: Lent<f32>) -> Call {
        let joined = &self.joined;
        let widths = joined.widths.contents();
        let rows = |flat: &Lent<f32>, width: usize| {
            Lent::new(&flat.contents()[part.start * width..part.end * width])
        };
        let mut call = Call::new(Kind::Accumulate, widths, joined.grid);
        call.model = joined.model.clone();
        call.inputs = rows(&joined.inputs, widths[0]);
        call.targets = rows(&joined.targets, widths[widths.len() - 1]);
        call.total = joined.targets.len();
        call.gradients = gradients;
        call.work = work;
        call
    }

    fn apply(&self, gradients: Lent<f32>) -> Call {
        let joined = &self.joined;
        let mut call = Call::new(Kind::Apply, joined.widths.contents(), joined.grid);
        call.model = joined.model.clone();
        call.rate = joined.rate;
        call.gradients = gradients;
        call
    }

    fn has_parts(&self) -> bool {
        self.parts.len() > 1
    }

    /// In what the end of the chain parts from a step on the joined batch. 19 comes before 20 in a
    /// step, and no call that accumulates has it.
    fn parted(&self, end: &Call, step: &Call) -> Vec<String> {
        let (number, wanted) = (end.number, step.number);
        let is_stopped = end.kind == Kind::Accumulate;
        if is_stopped && number == 20 && (wanted == 19 || wanted == 20) {
            return Vec::new();
        }
        let mut lines = Vec::new();
        if is_stopped || number != wanted {
            let parts = &self.parts;
            lines.push(format!("chain of {parts:?} {number}, one step {wanted}"));
        }
        if let Some((place, own, other)) = end.model.difference(&step.model) {
            lines.push(format!("model[{place}]: chain {own:x}, one step {other:x}"));
        }
        lines
    }

    /// What of the sights this end shows, beside a step on the joined batch.
    fn shown(&self, end: &Call, step: &Call, accepted: usize) -> Vec<&'static str> {
        let is_applied = end.kind == Kind::Apply && self.has_parts();
        let by_rows = self.parts.iter().all(|part| part.len() == 1);
        let sights = [
            (is_applied && end.number == 0, JOINED),
            (is_applied && end.number == 0 && by_rows, BY_ROWS),
            (is_applied && end.number == 23, NOT_MOVED),
            (is_applied && end.number == 19, BAD_RATE),
            (step.number == 20 && accepted > 0, STOPPED),
        ];
        let shown = sights.into_iter().filter(|(is_shown, _)| *is_shown);
        shown.map(|(_, sight)| sight).collect()
    }
}

impl Maker {
    /// One chain, and one drawn call of each kind.
    pub fn chains_round(&mut self, comparison: &mut Comparison<Call>) {
        let chain = self.chain(comparison.round);
        self.follow(&chain, comparison);
        let accumulate = self.call(Kind::Accumulate, comparison.round);
        let read = comparison.compare(&accumulate);
        for sight in added_to(&accumulate, &read) {
            comparison.meet(sight);
        }
        let apply = self.call(Kind::Apply, comparison.round);
        comparison.compare(&apply);
    }

    /// Makes all calls of a chain, until one is refused.
    fn follow(&mut self, chain: &Chain, comparison: &mut Comparison<Call>) {
        let mut gradients = Lent::new(&vec![0.0; chain.joined.model.len()]);
        let needed = 2 * chain.joined.widths.contents().iter().sum::<usize>();
        let mut accepted = 0;
        let mut stopped = None;
        for part in &chain.parts {
            let length = needed + self.whole(0, 2);
            let work = self.lend_filled(length);
            let call = chain.accumulate(part, gradients.clone(), work);
            let read = comparison.compare(&call);
            if read.number != 0 {
                stopped = Some(read);
                break;
            }
            gradients = read.gradients;
            accepted += 1;
        }
        let end = match stopped {
            Some(refused) => refused,
            None => comparison.compare(&chain.apply(gradients)),
        };
        let step = chain.joined.clone().read();
        let lines = chain.parted(&end, &step);
        if !lines.is_empty() {
            comparison.differ(&chain.joined, lines);
            return;
        }
        for sight in chain.shown(&end, &step, accepted) {
            comparison.meet(sight);
        }
    }

    fn chain(&mut self, round: Round) -> Chain {
        self.begin(round, CHAIN);
        let sound = self.small_network();
        let rows = match self.draws.whole(1, 10) {
            1 => self.whole(7, 14),
            _ => self.whole(1, 6),
        };
        let mut joined = Call::new(Kind::TrainStep, &sound.widths, sound.grid);
        joined.model = Lent::new(&self.parameters(&sound));
        joined.inputs = Lent::new(&self.finite_inputs(&sound, rows));
        joined.targets = Lent::new(&self.finite_targets(rows * sound.output_width()));
        joined.rate = self.rate();
        joined.gradients = Lent::new(&vec![0.0; sound.parameters()]);
        joined.work = Lent::new(&vec![0.0; 2 * sound.nodes()]);
        let parts = self.parts(rows);
        Chain { joined, parts }
    }

    fn small_network(&mut self) -> Configuration {
        loop {
            let config = self.accepted_on(Maker::grid);
            if config.parameters() <= MOST_CHAINED {
                return config;
            }
        }
    }

    /// Rows cut into 1 to 6 parts, often into single ones.
    fn parts(&mut self, rows: usize) -> Vec<Range<usize>> {
        let most = rows.min(MOST_PARTS);
        let count = if self.once_in(3) {
            most
        } else {
            self.whole(1, most)
        };
        let mut parts = Vec::new();
        let mut begin = 0;
        for behind in (0..count).rev() {
            // Every part behind this one keeps a row.
            let end = match behind {
                0 => rows,
                _ => self.whole(begin + 1, rows - behind),
            };
            parts.push(begin..end);
            begin = end;
        }
        parts
    }

    /// Half of all have no fault but those of the configuration and of the total.
    pub(super) fn accumulate(&mut self, call: &mut Call, sound: &Configuration) {
        let (parameters, work) = (sound.parameters(), 2 * sound.nodes());
        if self.once_in(2) {
            let rows = self.whole(1, 5);
            let (model, inputs) = (self.parameters(sound), self.finite_inputs(sound, rows));
            let targets = self.finite_targets(rows * sound.output_width());
            call.model = self.lend(&model);
            call.inputs = self.lend(&inputs);
            call.targets = self.lend(&targets);
            call.gradients = self.gathered(parameters);
            call.work = self.lend_filled(work);
        } else {
            call.model = self.model(sound);
            self.batch(call, sound);
            let length = self.gradients_length(sound);
            call.gradients = self.gathered(length);
            let length = self.node_work(work);
            call.work = self.lend_filled(length);
        }
        call.total = self.total(call.targets.len());
    }

    pub(super) fn apply(&mut self, call: &mut Call, sound: &Configuration) {
        if self.once_in(2) {
            let model = self.parameters(sound);
            call.model = self.lend(&model);
            call.gradients = self.gathered(sound.parameters());
        } else {
            call.model = self.model(sound);
            let length = self.gradients_length(sound);
            call.gradients = self.gathered(length);
        }
        call.rate = self.rate();
    }

    /// The number of target values of this batch and of others; now and then none that is accepted.
    fn total(&mut self, own: usize) -> usize {
        match self.draws.whole(1, 20) {
            1 => 0,
            2 => MOST_TARGETS + 1,
            3 => self.whole(MOST_TARGETS + 1, usize::MAX - 1),
            4 => usize::MAX,
            5 => MOST_TARGETS,
            6 | 7 => self.whole(1, MOST_TARGETS),
            8 => 1,
            9..=14 => own + self.whole(0, 9),
            _ => own.max(1),
        }
    }

    fn gradients_length(&mut self, sound: &Configuration) -> usize {
        let needed = sound.parameters();
        match self.draws.whole(1, 30) {
            1 => needed - 1,
            2 => needed + 1,
            3 => 0,
            4 => 2 * sound.nodes(),
            5 => self.whole(0, 2 * needed),
            _ => needed,
        }
    }

    fn node_work(&mut self, needed: usize) -> usize {
        match self.draws.whole(1, 30) {
            1 => needed - 1,
            2 => self.whole(0, needed - 1),
            // One number for each node.
            3 => needed / 2,
            4..=15 => needed,
            _ => needed + self.whole(0, 3),
        }
    }

    /// What earlier batches may have added up to, and what nobody would have gathered.
    fn gathered(&mut self, length: usize) -> Lent<f32> {
        let kind = self.draws.whole(1, 12);
        let size = self.draws.power_of_ten();
        let numbers: Vec<f32> = (0..length).map(|_| self.sum(kind, size)).collect();
        self.lend(&numbers)
    }

    fn sum(&mut self, kind: u64, size: f32) -> f32 {
        let draws = &mut self.draws;
        match kind {
            1..=3 => 0.0,
            4 => -0.0,
            5 => draws.sign() * 0.0,
            6 => draws.pattern(),
            7 => draws.finite(),
            8 => draws.sign() * size,
            9 => match draws.whole(1, 8) {
                1 => NOT_FINITE[draws.whole(0, 2) as usize],
                2 => -0.0,
                _ => draws.between(-1.0, 1.0),
            },
            10 => draws.of_any_size(),
            _ => draws.between(-1.0, 1.0),
        }
    }
}

/// What of the sights an accepted call shows in the gradients that it adds to.
fn added_to(before: &Call, after: &Call) -> Vec<&'static str> {
    if after.number != 0 {
        return Vec::new();
    }
    let (old, new) = (before.gradients.contents(), after.gradients.contents());
    let negative_zero = (-0.0_f32).bits();
    let any = |shows: fn(f32, f32, u64) -> bool| {
        let mut both = old.iter().zip(new);
        both.any(|(&old, &new)| shows(old, new, negative_zero))
    };
    let is_finite = old.iter().all(|x| x.is_finite());
    let sights = [
        (
            any(|old, new, zero| old.bits() == zero && new.bits() == zero),
            KEPT_ZERO,
        ),
        (
            any(|old, new, zero| old.bits() == zero && new.bits() == 0),
            TURNED_ZERO,
        ),
        (!is_finite, NOT_NUMBERS),
        (is_finite && any(|_, new, _| !new.is_finite()), OVERFLOWN),
    ];
    let shown = sights.into_iter().filter(|(is_shown, _)| *is_shown);
    shown.map(|(_, sight)| sight).collect()
}
