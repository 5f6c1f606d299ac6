//! Chosen calls of training.

use super::{base, beside_a_knot, chain, edge, fan, infinite, largest_models, pair};
use super::{grouped, settled, with_faults, writes, Group, Model};
use super::{MARKED_BY_SLOPE, NAN, OLD_WORK, UNMARKED};
use crate::calls::{bits, Call, Kind};
use crate::lent::Lent;
use crate::reading::MOST_TARGETS;
use crate::settled::{Chosen, Settled};

/// All chosen calls of the program `training`.
pub fn settled_training(large: bool) -> Chosen<Call> {
    const USUAL: &[Group<Call>] = &[
        examples,
        faulty_configurations,
        lengths,
        orders,
        rates,
        later_refusals,
        infinite_slopes,
        slopes_beside_zero,
        zero_slopes,
        largest_networks,
        many_targets,
    ];
    grouped(USUAL, &[most_rows, most_targets], large)
}

impl Model {
    fn train(&self, inputs: &[f32], targets: &[f32], steps: usize, rate: f32) -> Call {
        let mut call = Call::new(Kind::Train, &self.config.widths, self.config.grid);
        call.model = Lent::new(&self.parameters);
        call.inputs = Lent::new(inputs);
        call.targets = Lent::new(targets);
        call.steps = steps;
        call.rate = rate;
        call.gradients = Lent::new(&vec![OLD_WORK; self.config.parameters() + 1]);
        call.work = Lent::new(&vec![OLD_WORK; 2 * self.config.nodes() + 1]);
        call
    }
}

/// The same training as a single step.
fn as_step(train: &Call) -> Call {
    let mut step = train.clone();
    step.kind = Kind::TrainStep;
    step.steps = 0;
    step
}

/// Training that ends with this many steps done and this model.
fn trains(call: Call, number: u32, done: u64, model: &[u64]) -> Settled<Call> {
    let written = [&[done], model].concat();
    writes(call, number, 0, &written)
}

/// A single step, by both calls.
fn steps_to(train: Call, model: &[u64]) -> [Settled<Call>; 2] {
    let step = writes(as_step(&train), 0, 0, model);
    [step, trains(train, 0, 1, model)]
}

/// Accepted, and the model stays.
fn unmoved(train: Call) -> Settled<Call> {
    let model = bits(&train.model);
    trains(train, 0, 0, &model)
}

/// Refused before any step, by both calls: the model stays.
fn refused(train: Call, number: u32) -> [Settled<Call>; 2] {
    let model = bits(&train.model);
    let step = writes(as_step(&train), number, 0, &model);
    [step, trains(train, number, 0, &model)]
}

fn examples() -> Vec<Settled<Call>> {
    let zero = base(0.0);
    let after_one = [0, 0x3f80_0000, 0, 0x3e2a_aaab, 0x3f2a_aaab, 0x3e2a_aaab, 0];
    let after_three = [
        0x3eef_ab24,
        0x3f9f_4600,
        0x0000_0000,
        0x3d01_67d4,
        0x3f3a_0540,
        0x3f3a_0540,
        0x3d01_67d4,
    ];
    let of_two_rows = [
        0x402c_8bfc,
        0x3f8f_00f3,
        0x0000_0000,
        0x3cb9_001b,
        0x3f04_f813,
        0x3f04_f813,
        0x3e23_fced,
    ];
    let two_rows = zero.train(&[0.5, 3.0], &[1.0, -1.0], 2, 0.5);
    let mut calls = vec![
        trains(zero.train(&[0.5], &[1.0], 3, 0.5), 0, 3, &after_three),
        trains(two_rows, 0, 2, &of_two_rows),
        unmoved(zero.train(&[0.5], &[1.0], 0, 0.5)),
    ];
    calls.extend(steps_to(zero.train(&[0.0], &[1.0], 1, 0.5), &after_one));
    calls
}

fn all_refused(cases: impl IntoIterator<Item = (Call, u32)>) -> Vec<Settled<Call>> {
    let cases = cases.into_iter();
    cases.flat_map(|(c, number)| refused(c, number)).collect()
}

/// Every refusal of the configuration.
fn faulty_configurations() -> Vec<Settled<Call>> {
    let train = base(0.0).train(&[0.0, 0.5], &[1.0, 2.0], 2, 0.5);
    let calls = [as_step(&train), train];
    calls.iter().flat_map(with_faults).collect()
}

/// Lengths that are wrong, several at a time; inputs, targets and rate are too.
fn lengths() -> Vec<Settled<Call>> {
    let (zero, inf) = (base(0.0), infinite());
    let lent = |model: &Model, gradients: usize, work: usize| {
        let mut call = model.train(&[], &[NAN], 2, 0.0);
        call.gradients = Lent::new(&vec![OLD_WORK; gradients]);
        call.work = Lent::new(&vec![OLD_WORK; work]);
        call
    };
    let mut short_model = lent(&zero, 6, 4);
    short_model.model = Lent::new(&zero.parameters[..6]);
    let mut no_domain = short_model.clone();
    no_domain.grid.hi = -1.0;
    all_refused([
        (no_domain, 4),
        (short_model, 8),
        (lent(&inf, 6, 4), 9),
        (lent(&inf, 7, 3), 9),
        (lent(&inf, 0, 0), 9),
        (lent(&inf, 7, 4), 11),
    ])
}

/// Batches and rates with two faults and more: the first in the order is told.
fn orders() -> Vec<Settled<Call>> {
    let (zero, inf, big, two, wide) = (base(0.0), infinite(), base(3e38), pair(), fan(2));
    let steep = base(1e38);
    let mut calls = all_refused([
        (inf.train(&[], &[1.0], 1, 0.0), 11),
        (zero.train(&[], &[1.0], 1, 0.0), 12),
        (zero.train(&[NAN], &[NAN, 1.0], 1, 0.0), 12),
        (zero.train(&[], &[], 0, 0.0), 13),
        (zero.train(&[NAN], &[NAN], 1, 0.0), 15),
        (two.train(&[0.0, 0.5, 0.5], &[NAN, 1.0], 1, 0.0), 14),
        (two.train(&[0.0, 0.5, 0.5], &[1.0], 1, 0.0), 12),
        (two.train(&[0.0, NAN, 0.5], &[NAN, 1.0], 1, 0.0), 15),
        (wide.train(&[0.5, 0.5], &[NAN, 1.0, 1.0], 1, 0.0), 17),
        (wide.train(&[0.5, 0.5], &[1.0, 1.0, NAN], 1, 0.0), 16),
        (zero.train(&[0.0], &[1.0], 0, 0.0), 19),
        (big.train(&[100.0], &[0.0], 1, -0.0), 19),
        (big.train(&[100.0], &[0.0], 1, NAN), 19),
        (big.train(&[100.0], &[0.0], 3, 1.0), 20),
        (steep.train(&[0.5, 100.0], &[-3e38, 0.0], 1, 10.0), 20),
        (steep.train(&[0.5], &[-3e38], 1, 10.0), 23),
    ]);
    // No step, no 20.
    calls.push(unmoved(big.train(&[100.0], &[0.0], 0, 1.0)));
    calls
}

fn rates() -> Vec<Settled<Call>> {
    let zero = base(0.0);
    let at = |rate: f32| zero.train(&[0.0], &[1.0], 1, rate);
    let bad = [
        0.0,
        -0.0,
        -1.0,
        -1e-45,
        NAN,
        f32::INFINITY,
        f32::NEG_INFINITY,
    ];
    let mut calls = all_refused(bad.map(|rate| (at(rate), 19)));
    for good in [1e-45, 1e-40, f32::MIN_POSITIVE, 1e-10, 1e10] {
        calls.extend([as_step(&at(good)), at(good)].map(|call| settled(call, 0, 0)));
    }
    calls.extend(all_refused([3e38, f32::MAX].map(|rate| (at(rate), 23))));
    // Gradients that are infinite, and NaN where an infinity meets a zero of the basis or of the spline.
    for input in [0.5, 0.0, 4.0, -4.0, 1e-16] {
        calls.extend(refused(zero.train(&[input], &[-3.4e38], 1, 1e-40), 23));
    }
    // Nothing is infinite but the product of upstream and spline weight, and all it meets are zeros of the basis.
    let heavy = edge(&[0.0, 3e38]);
    calls.extend(refused(heavy.train(&[9.0], &[-2.0], 1, 1e-40), 23));
    calls
}

/// Refused at a later step: the earlier steps are kept and told.
fn later_refusals() -> Vec<Settled<Call>> {
    let zero = base(0.0);
    let after_two = [
        0x0000_0000,
        0xf1c9_f2cc,
        0x0000_0000,
        0xdfe7_4be7,
        0xe0e7_4be7,
        0xdfe7_4be7,
        0x0000_0000,
    ];
    let fast = |steps: usize| zero.train(&[0.0], &[1.0], steps, 1e10);
    let mut calls: Vec<_> = [10, 3, usize::MAX]
        .map(|steps| trains(fast(steps), 20, 2, &after_two))
        .into();
    calls.push(trains(fast(2), 0, 2, &after_two));
    // After one step the model is that of the single step, and its gradients are too large for another.
    let after_one = [0, 0x3f80_0000, 0, 0x5fe7_4be6, 0x60e7_4be6, 0x5fe7_4be6, 0];
    let faster = |steps: usize| zero.train(&[0.0], &[1.0], steps, 1e20);
    calls.extend(steps_to(faster(1), &after_one));
    calls.push(trains(faster(2), 23, 1, &after_one));
    calls.push(trains(faster(usize::MAX), 23, 1, &after_one));
    calls
}

/// Infinite slopes that are not used, and such that are.
fn infinite_slopes() -> Vec<Settled<Call>> {
    let (tiny, plain) = ((0.0, 2e-40), [0.0, 1.0, 0.0, 0.0, 0.0, 0.0, 0.0]);
    let after_one = [0, 0x3f80_0000, 0x3e2a_aaab, 0x3f2a_aaab, 0x3e2a_aaab, 0, 0];
    let one = chain(tiny, &[plain]).train(&[0.0], &[1.0], 1, 0.5);
    let two = chain(tiny, &[plain; 2]).train(&[0.0], &[1.0], 1, 0.5);
    let mut calls = Vec::from(steps_to(one, &after_one));
    calls.extend(refused(two, 23));
    calls
}

/// A step of D87's model with this coefficient, which stays as it is; the first edge moves to these parameters.
fn steps_beside_a_knot(place: usize, coefficient: f32, first: [u64; 7]) -> [Settled<Call>; 2] {
    let second = [
        0x3f00_0000,
        0x3f80_0000,
        0,
        0x3e2a_aaab,
        0x3f2a_aaab,
        0x3e2a_aaab,
        0,
    ];
    let model = beside_a_knot().edited(place, coefficient);
    let mut after_one = [first, second].concat();
    after_one[place] = u64::from(coefficient.to_bits());
    steps_to(model.train(&[1.0], &[1.0], 1, 0.5), &after_one)
}

/// The first edge of D87's model after a step.
const MOVED: [u64; 7] = [
    0x3e3b_26a8,
    0x3f80_0000,
    0,
    0,
    0x3d2a_aaab,
    0x3e2a_aaab,
    0x3d2a_aaab,
];

/// The last coefficient meets a value of zero and a slope that is not: the first edge's step depends on it.
pub(super) fn slopes_beside_zero() -> Vec<Settled<Call>> {
    let moved_far = [
        0x493e_c6fd,
        0x3f80_0000,
        0,
        0,
        0x482d_f93b,
        0x492d_f93b,
        0x482d_f93b,
    ];
    [(0.0, MOVED), (1e38, moved_far)]
        .into_iter()
        .flat_map(|(number, first)| steps_beside_a_knot(MARKED_BY_SLOPE, number, first))
        .collect()
}

/// Another coefficient meets a value and a slope of zero: no step depends on it.
pub(super) fn zero_slopes() -> Vec<Settled<Call>> {
    [1e38, -0.0]
        .into_iter()
        .flat_map(|number| steps_beside_a_knot(UNMARKED, number, MOVED))
        .collect()
}

fn largest_networks() -> Vec<Settled<Call>> {
    let mut calls = Vec::new();
    for model in largest_models() {
        let inputs = vec![0.375; model.config.input_width()];
        let targets = vec![0.5; model.config.output_width()];
        let train = model.train(&inputs, &targets, 2, 0.125);
        calls.push(settled(as_step(&train), 0, 0));
        calls.push(settled(train, 0, 0));
    }
    calls
}

/// One target value too many, in few rows: 2^24 + 1 is 673 × 24,929. The checks before 18 come first, that of the rate
/// comes after it.
fn many_targets() -> Vec<Settled<Call>> {
    let model = fan(673);
    let inputs = vec![0.0; 24_929];
    let mut targets = vec![1.0; MOST_TARGETS + 1];
    let mut calls = Vec::from(refused(model.train(&inputs, &targets, 1, 0.0), 18));
    targets[MOST_TARGETS] = NAN;
    calls.push(settled(model.train(&inputs, &targets, 1, 0.0), 17, 0));
    targets.truncate(MOST_TARGETS);
    calls.push(settled(model.train(&inputs, &targets, 1, 0.0), 16, 0));
    calls
}

/// One row too many.
fn most_rows() -> Vec<Settled<Call>> {
    let model = base(0.0);
    let inputs = vec![0.0; MOST_TARGETS + 1];
    let mut targets = vec![1.0; MOST_TARGETS + 1];
    let mut calls = Vec::from(refused(model.train(&inputs, &targets, 1, 0.0), 18));
    targets[MOST_TARGETS] = NAN;
    calls.push(settled(model.train(&inputs, &targets, 1, 0.0), 17, 0));
    calls
}

/// As many target values as are accepted, in 2^24 rows and in 2^12.
fn most_targets() -> Vec<Settled<Call>> {
    let targets = vec![1.0; MOST_TARGETS];
    let rows = base(0.0).train(&vec![0.0; MOST_TARGETS], &targets, 1, 0.5);
    let columns = fan(4096).train(&[0.25; 4096], &targets, 1, 0.5);
    let calls = [as_step(&rows), rows, columns];
    calls.map(|call| settled(call, 0, 0)).into()
}
