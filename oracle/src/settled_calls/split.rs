//! Chosen calls of training in two calls.

use super::{all_headed, grouped, headed, settled, writes, Group, Model};
use super::{base, beside_a_knot, chain, edge, fan, infinite, largest_models, pair};
use super::{FAULTY, MARKED_BY_SLOPE, NAN, OLD_OUTPUT, OLD_WORK};
use crate::calls::{bits, Call, Kind};
use crate::lent::Lent;
use crate::ported::Grid;
use crate::reading::MOST_TARGETS;
use crate::settled::{Chosen, Settled};

const INF: f32 = f32::INFINITY;
/// The bits of NaN, whichever it is, and of other numbers that answers hold.
const ANY_NAN: u64 = 0x7fc0_0000;
const INF_BITS: u64 = 0x7f80_0000;
const NEGATIVE_ZERO: u64 = 0x8000_0000;
const ONE: u64 = 0x3f80_0000;

/// All chosen calls of the program `chains`.
pub fn settled_split(large: bool) -> Chosen<Call> {
    const USUAL: &[Group<Call>] = &[overflows, largest_networks, many_targets];
    let stored = stored_split();
    Box::new(stored.chain(grouped(USUAL, &[most_rows, most_targets], large)))
}

/// Those of them that are stored as cases of the program `model_vectors`.
pub fn stored_split() -> Chosen<Call> {
    const STORED: &[Group<Call>] = &[
        two_batches,
        negative_zeros,
        other_starts,
        totals,
        hidden_layers,
        later_rows,
        orders,
        lengths,
        applied,
        bad_rates,
        refused_updates,
        applied_orders,
        faulty_configurations,
    ];
    grouped(STORED, &[], false)
}

impl Model {
    /// Gradients +0.0, work one longer than needed.
    fn accumulate(&self, inputs: &[f32], targets: &[f32], total: usize) -> Call {
        let mut call = Call::new(Kind::Accumulate, &self.config.widths, self.config.grid);
        call.model = Lent::new(&self.parameters);
        call.inputs = Lent::new(inputs);
        call.targets = Lent::new(targets);
        call.total = total;
        call.gradients = Lent::new(&vec![0.0; self.config.parameters()]);
        call.work = Lent::new(&vec![OLD_WORK; 2 * self.config.nodes() + 1]);
        call
    }

    fn apply(&self, gradients: &[f32], rate: f32) -> Call {
        let mut call = Call::new(Kind::Apply, &self.config.widths, self.config.grid);
        call.model = Lent::new(&self.parameters);
        call.gradients = Lent::new(gradients);
        call.rate = rate;
        call
    }
}

/// The call with other gradients.
fn onto(mut call: Call, gradients: &[f32]) -> Call {
    call.gradients = Lent::new(gradients);
    call
}

fn with_work(mut call: Call, length: usize) -> Call {
    call.work = Lent::new(&vec![OLD_WORK; length]);
    call
}

fn numbers<const N: usize>(words: [u64; N]) -> [f32; N] {
    words.map(|word| f32::from_bits(word as u32))
}

fn accepted(call: Call, written: &[u64]) -> Settled<Call> {
    writes(call, 0, 0, written)
}

/// Refused: gradients and model stay.
fn refused(call: Call, number: u32) -> Settled<Call> {
    let stays = match call.kind {
        Kind::Apply => bits(&call.model),
        _ => bits(&call.gradients),
    };
    writes(call, number, 0, &stays)
}

/// D72's gradients after its first batch, after both, and the model that they make of Z.
const FIRST: [u64; 7] = [0, 0, 0, 0xbe2a_aaab, 0xbf2a_aaab, 0xbe2a_aaab, 0];
const BOTH: [u64; 7] = [
    0x3e9f_597f,
    0,
    0,
    0xbe15_5556,
    0xbe40_0002,
    0x3ea0_0000,
    0x3caa_aaab,
];
const STEPPED: [u64; 7] = [
    0xbe1f_597f,
    ONE,
    0,
    0x3d95_5556,
    0x3dc0_0002,
    0xbe20_0000,
    0xbc2a_aaab,
];

fn two_batches() -> Vec<Settled<Call>> {
    let zero = base(0.0);
    let first = zero.accumulate(&[0.0], &[1.0], 2);
    let second = onto(zero.accumulate(&[0.5], &[-1.0], 2), &numbers(FIRST));
    let joined = zero.accumulate(&[0.0, 0.5], &[1.0, -1.0], 2);
    let applied = zero.apply(&numbers(BOTH), 0.5);
    all_headed(vec![
        (
            "D72: Z, gradients +0.0, input 0, target 1, of 2 target values in all",
            accepted(first, &FIRST),
        ),
        (
            "D72: then input 0.5, target -1, on the same gradients",
            accepted(second, &BOTH),
        ),
        ("D72: both rows at once", accepted(joined, &BOTH)),
        (
            "D72: applied at rate 0.5, as one step on both rows",
            accepted(applied, &STEPPED),
        ),
    ])
}

fn negative_zeros() -> Vec<Settled<Call>> {
    let zero = base(0.0);
    let unsigned = edge(&[0.0, 1.0, -0.0, -0.0, -0.0, -0.0, -0.0]);
    let down = [
        NEGATIVE_ZERO,
        NEGATIVE_ZERO,
        NEGATIVE_ZERO,
        0xbeaa_aaab,
        0xbfaa_aaab,
        0xbeaa_aaab,
        NEGATIVE_ZERO,
    ];
    let up = [0, 0, 0, 0x3eaa_aaab, 0x3faa_aaab, 0x3eaa_aaab, 0];
    let at = |model: &Model, target: f32| onto(model.accumulate(&[0.0], &[target], 1), &[-0.0; 7]);
    all_headed(vec![
        (
            "D73: Z, gradients -0.0, input 0, target 1: -0.0 is added to four of them",
            accepted(at(&zero, 1.0), &down),
        ),
        (
            "The same, target -1: +0.0 is added, and none stays -0.0",
            accepted(at(&zero, -1.0), &up),
        ),
        (
            "Z with coefficients -0.0, all else as D73: the spline is a sum from +0.0",
            accepted(at(&unsigned, 1.0), &down),
        ),
    ])
}

/// Slices that hold anything: nothing is refused for it.
fn other_starts() -> Vec<Settled<Call>> {
    let zero = base(0.0);
    let call = zero.accumulate(&[0.0], &[1.0], 2);
    let infinite = [INF, -INF, 3e38, -INF, INF, -3e38, 1e-45];
    let stays = [
        INF_BITS,
        0xff80_0000,
        0x7f61_b1e6,
        0xff80_0000,
        INF_BITS,
        0xff61_b1e6,
        0x0000_0001,
    ];
    headed(
        "Z, gradients infinite, huge and tiny, input 0, target 1, total 2: all stay",
        vec![accepted(onto(call, &infinite), &stays)],
    )
}

fn totals() -> Vec<Settled<Call>> {
    let zero = base(0.0);
    let rows = |total: usize| zero.accumulate(&[0.0, 0.0], &[1.0, 1.0], total);
    let row = |total: usize| zero.accumulate(&[0.0], &[1.0], total);
    let of_1 = [0, 0, 0, 0xbf2a_aaab, 0xc02a_aaab, 0xbf2a_aaab, 0];
    let of_most = [0, 0, 0, 0xb2aa_aaab, 0xb3aa_aaab, 0xb2aa_aaab, 0];
    all_headed(vec![
        (
            "D80: Z, inputs 0, 0, targets 1, 1, total 1: accepted; the scale is 2",
            accepted(rows(1), &of_1),
        ),
        (
            "Z, input 0, target 1, total 16,777,216: the scale is 2^-23",
            accepted(row(MOST_TARGETS), &of_most),
        ),
        (
            "D76: totals of 0, 16,777,217 and 2^64 - 1 are 28",
            refused(row(0), 28),
        ),
        ("", refused(row(MOST_TARGETS + 1), 28)),
        ("", refused(row(usize::MAX), 28)),
        (
            "A total of 3: the scale is rounded",
            accepted(row(3), &OF_A_THIRD),
        ),
    ])
}

/// Gradients of Z at 0 with target 1 and a total of 3.
const OF_A_THIRD: [u64; 7] = [0, 0, 0, 0xbde3_8e3a, 0xbee3_8e3a, 0xbde3_8e3a, 0];

/// D87's model, whose last coefficient meets a slope alone: layer 0 depends on it.
fn hidden_layers() -> Vec<Settled<Call>> {
    let gathered = |number: f32| {
        let model = beside_a_knot().edited(MARKED_BY_SLOPE, number);
        model.accumulate(&[1.0], &[1.0], 1)
    };
    let near = accepted(gathered(0.0), &BESIDE_A_KNOT);
    let far = accepted(gathered(1e38), &BESIDE_A_KNOT_FAR);
    let two = accepted(
        pair().accumulate(&[0.25, 0.5, -0.5, 1.0], &[1.0, -3.0], 3),
        &OF_TWO_INPUTS,
    );
    all_headed(vec![
        (
            "D87: [1, 1, 1], base weights 2e-16 and 0.5, input 1, target 1, total 1",
            near,
        ),
        ("D87: with the last coefficient 1e38", far),
        (
            "A21, inputs 0.25, 0.5 and -0.5, 1, targets 1, -3, total 3",
            two,
        ),
    ])
}

const BESIDE_A_KNOT: [u64; 14] = [
    0xbebb_26a8,
    0,
    0,
    0,
    0xbdaa_aaab,
    0xbeaa_aaab,
    0xbdaa_aaab,
    0xa528_9215,
    0,
    0,
    0xbeaa_aaab,
    0xbfaa_aaab,
    0xbeaa_aaab,
    0,
];
const BESIDE_A_KNOT_FAR: [u64; 14] = [
    0xc9be_c6fd,
    0,
    0,
    0,
    0xc8ad_f93b,
    0xc9ad_f93b,
    0xc8ad_f93b,
    0xa528_9215,
    0,
    0,
    0xbeaa_aaab,
    0xbfaa_aaab,
    0xbeaa_aaab,
    0,
];
const OF_TWO_INPUTS: [u64; 14] = [
    0xbef2_f1b2,
    0x3c02_1d10,
    0x3d2a_79e3,
    0x3f68_9664,
    0x3f08_81db,
    0xbe34_f3c8,
    0xbaec_8153,
    0x3f9f_56da,
    0xbba0_5d4c,
    0,
    0xbc6c_8153,
    0x3a79_e000,
    0x3f7f_f54c,
    0x3ea3_15d8,
];

/// 20 in a later row: what the rows before it would have added is not there.
fn later_rows() -> Vec<Settled<Call>> {
    let steep = base(1e38);
    let old = [OLD_OUTPUT; 7];
    let last = onto(steep.accumulate(&[0.5, 100.0], &[0.0, 0.0], 2), &old);
    let first = onto(steep.accumulate(&[100.0, 0.5], &[0.0, 0.0], 2), &old);
    all_headed(vec![
        (
            "D75: base weight 1e38, inputs 0.5, 100: 20, gradients stay 5.0, work is swept",
            refused(last, 20),
        ),
        ("The same rows in turn", refused(first, 20)),
    ])
}

/// Batches, totals and rows with two faults and more: the first in the order is told.
fn orders() -> Vec<Settled<Call>> {
    let (zero, inf, big, two, wide) = (base(0.0), infinite(), base(3e38), pair(), fan(2));
    let cases = [
        (inf.accumulate(&[], &[1.0], 0), 11),
        (zero.accumulate(&[], &[1.0], 0), 12),
        (zero.accumulate(&[NAN], &[NAN, 1.0], 0), 12),
        (zero.accumulate(&[], &[], 0), 13),
        (zero.accumulate(&[NAN], &[NAN], 0), 15),
        (two.accumulate(&[0.0, 0.5, 0.5], &[NAN, 1.0], 0), 14),
        (two.accumulate(&[0.0, 0.5, 0.5], &[1.0], 0), 12),
        (two.accumulate(&[0.0, NAN, 0.5], &[NAN, 1.0], 0), 15),
        (wide.accumulate(&[0.5, 0.5], &[NAN, 1.0, 1.0], 0), 17),
        (wide.accumulate(&[0.5, 0.5], &[1.0, 1.0, NAN], 0), 16),
        (zero.accumulate(&[0.0], &[NAN], 0), 17),
        (big.accumulate(&[100.0], &[0.0], 0), 28),
        (big.accumulate(&[100.0], &[0.0], MOST_TARGETS + 1), 28),
        (big.accumulate(&[100.0], &[0.0], 1), 20),
    ];
    let calls = cases.map(|(call, number)| refused(call, number)).into();
    headed(
        "Two faults and more: the first is told, before a total of 0 (D77: 28 before 20)",
        calls,
    )
}

/// Lengths that are wrong, several at a time, before an infinite parameter, NaN and a total of 0.
fn lengths() -> Vec<Settled<Call>> {
    let inf = infinite();
    let lent = |gradients: usize, work: usize| {
        let call = inf.accumulate(&[], &[NAN], 0);
        with_work(onto(call, &vec![OLD_OUTPUT; gradients]), work)
    };
    let mut short_model = lent(6, 3);
    short_model.model = Lent::new(&inf.parameters[..6]);
    let zero = base(0.0);
    let enough = with_work(zero.accumulate(&[0.0], &[1.0], 2), 4);
    all_headed(vec![
        (
            "A model one short is 8, before the work is 9",
            refused(short_model, 8),
        ),
        (
            "D79: work of 3 where 4 are needed is 9, before the gradients are 10",
            refused(lent(6, 3), 9),
        ),
        ("No work and no gradients", refused(lent(0, 0), 9)),
        (
            "Gradients one short, one too many, and none: 10, and the work is swept",
            refused(lent(6, 4), 10),
        ),
        ("", refused(lent(8, 5), 10)),
        ("", refused(lent(0, 4), 10)),
        (
            "The infinite parameter is 11, before the batch",
            refused(lent(7, 4), 11),
        ),
        ("Work of 4, no longer than needed", accepted(enough, &FIRST)),
    ])
}

fn applied() -> Vec<Settled<Call>> {
    let unsigned = edge(&[-0.0; 7]);
    let numbers = edge(&[1.0, -1.0, 3e38, 1e-45, 0.1, -0.0, 2.0]);
    let gradients = [1.0, 1.0, -1.0, 3.0, 0.3, 0.0, -3e38];
    all_headed(vec![
        (
            "Parameters -0.0, rate 1: gradients -0.0 make them +0.0, +0.0 leave them",
            accepted(unsigned.apply(&[-0.0; 7], 1.0), &[0; 7]),
        ),
        (
            "",
            accepted(unsigned.apply(&[0.0; 7], 1.0), &[NEGATIVE_ZERO; 7]),
        ),
        (
            "Numbers of all sizes at rate 0.1: a product and a difference, each rounded",
            accepted(numbers.apply(&gradients, 0.1), &APPLIED),
        ),
        (
            "Rate 1e-45, the smallest",
            accepted(numbers.apply(&gradients, 1e-45), &APPLIED_SLOWLY),
        ),
    ])
}

const APPLIED: [u64; 7] = [
    0x3f66_6666,
    0xbf8c_cccd,
    0x7f61_b1e6,
    0xbe99_999a,
    0x3d8f_5c29,
    NEGATIVE_ZERO,
    0x7db4_8e52,
];
const APPLIED_SLOWLY: [u64; 7] = [
    ONE,
    0xbf80_0000,
    0x7f61_b1e6,
    0x8000_0002,
    0x3dcc_cccd,
    NEGATIVE_ZERO,
    0x4000_0002,
];

fn bad_rates() -> Vec<Settled<Call>> {
    let zero = base(0.0);
    let bad = [0.0, -0.0, -1.0, -1e-45, NAN, INF, -INF];
    let calls = bad.map(|rate| refused(zero.apply(&[INF; 7], rate), 19));
    headed(
        "Rates that are not above 0 or not finite are 19, before the infinite gradients are 23",
        calls.into(),
    )
}

fn refused_updates() -> Vec<Settled<Call>> {
    let (zero, largest) = (base(0.0), edge(&[f32::MAX; 7]));
    let largest_model = Lent::new(&largest.parameters);
    let at = |place: usize, gradient: f32| {
        let mut gradients = [0.5; 7];
        gradients[place] = gradient;
        gradients
    };
    let not_finite = [
        zero.apply(&at(0, INF), 1e-45),
        zero.apply(&at(3, -INF), 1.0),
        zero.apply(&at(6, NAN), 1.0),
    ];
    let too_large = [
        zero.apply(&at(6, 1e20), 1e20),
        zero.apply(&[f32::MAX; 7], f32::MAX),
        largest.apply(&at(6, -2e31), 1.0),
    ];
    let refused = |calls: [Call; 3]| calls.map(|call| refused(call, 23)).into();
    let to_largest = accepted(largest.apply(&[-1e31; 7], 1.0), &bits(&largest_model));
    let mut calls = headed(
        "D78: an infinite gradient at any rate, and a NaN among others: 23, the model stays",
        refused(not_finite),
    );
    calls.extend(headed(
        "Products and differences that are too large: 23",
        refused(too_large),
    ));
    calls.extend(headed(
        "Differences that round to the largest number are accepted",
        vec![to_largest],
    ));
    calls
}

fn applied_orders() -> Vec<Settled<Call>> {
    let (zero, inf) = (base(0.0), infinite());
    let mut short_model = inf.apply(&[NAN; 6], 0.0);
    short_model.model = Lent::new(&inf.parameters[..6]);
    all_headed(vec![
        (
            "A model one short is 8, before gradients one short",
            refused(short_model, 8),
        ),
        (
            "D78: gradients one short are 10, before a rate of 0; one too many and none too",
            refused(zero.apply(&[NAN; 6], 0.0), 10),
        ),
        ("", refused(inf.apply(&[NAN; 8], 0.0), 10)),
        ("", refused(inf.apply(&[], 0.0), 10)),
        (
            "D78: an infinite parameter is 11, before a rate of 0",
            refused(inf.apply(&[NAN; 7], 0.0), 11),
        ),
        (
            "D78: a gradient of NaN and rate 0: 19; and rate 1: 23",
            refused(zero.apply(&[NAN; 7], 0.0), 19),
        ),
        ("", refused(zero.apply(&[NAN; 7], 1.0), 23)),
    ])
}

/// Every refusal of the configuration, with all that could be refused later.
fn faulty_configurations() -> Vec<Settled<Call>> {
    let faulty = |kind: Kind| {
        FAULTY.map(|(widths, intervals, (lo, hi), number, carried)| {
            let mut call = Call::new(kind, widths, Grid::new(intervals, lo, hi));
            call.model = Lent::new(&[INF; 3]);
            call.gradients = Lent::new(&[OLD_OUTPUT; 2]);
            if kind == Kind::Accumulate {
                call.inputs = Lent::new(&[NAN]);
            }
            let settled = refused(call, number);
            Settled { carried, ..settled }
        })
    };
    let mut calls = headed(
        "Every refusal of the configuration, before all that could be refused later",
        faulty(Kind::Accumulate).into(),
    );
    calls.extend(headed(
        "The same of applying, at rate 0",
        faulty(Kind::Apply).into(),
    ));
    calls
}

/// Gradients that become infinite or NaN: accepted, and then refused by what applies them.
fn overflows() -> Vec<Settled<Call>> {
    let zero = base(0.0);
    let gathered = [
        INF_BITS, ANY_NAN, ANY_NAN, INF_BITS, INF_BITS, INF_BITS, INF_BITS,
    ];
    // D74, its infinities met by others, NaN before, and infinity times zeros of the basis alone.
    let huge = zero.accumulate(&[0.5], &[-3.4e38], 1);
    let against = onto(huge.clone(), &[-INF; 7]);
    let first = zero.accumulate(&[0.0], &[1.0], 2);
    let not_a_number = onto(first, &[NAN, 0.0, NAN, NAN, 0.0, 0.0, 0.0]);
    let some_nan = [ANY_NAN, 0, ANY_NAN, ANY_NAN, FIRST[4], FIRST[5], 0];
    let heavy = edge(&[0.0, 3e38]).accumulate(&[9.0], &[-2.0], 1);
    let narrow = chain((0.0, 2e-40), &[[0.0, 1.0, 0.0, 0.0, 0.0, 0.0, 0.0]; 2]);
    let mut calls = vec![
        accepted(huge, &gathered),
        accepted(against, &[ANY_NAN; 7]),
        accepted(not_a_number, &some_nan),
        accepted(heavy, &HEAVY),
        settled(narrow.accumulate(&[0.0], &[1.0], 1), 0, 0),
    ];
    for rate in [1e-45, 1.0] {
        calls.push(refused(zero.apply(&numbers(gathered), rate), 23));
    }
    calls
}

/// The base weight's gradient, the spline weight's, and the coefficients'.
const HEAVY: [u64; 7] = [0x420f_fb74, 0, ANY_NAN, ANY_NAN, ANY_NAN, ANY_NAN, ANY_NAN];

fn largest_networks() -> Vec<Settled<Call>> {
    let mut calls = Vec::new();
    for model in largest_models() {
        let inputs = vec![0.375; 2 * model.config.input_width()];
        let targets = vec![0.5; 2 * model.config.output_width()];
        let gradients = vec![0.25; model.config.parameters()];
        let call = model.accumulate(&inputs, &targets, 3 * targets.len());
        calls.push(settled(onto(call, &gradients), 0, 0));
        calls.push(settled(model.apply(&gradients, 0.125), 0, 0));
    }
    calls
}

/// One target value too many, in few rows: 2^24 + 1 is 673 × 24,929. The checks before 18 come
/// first, that of the total comes after it.
fn many_targets() -> Vec<Settled<Call>> {
    let model = fan(673);
    let inputs = vec![0.0; 24_929];
    let mut targets = vec![1.0; MOST_TARGETS + 1];
    let mut calls = vec![refused(model.accumulate(&inputs, &targets, 0), 18)];
    targets[MOST_TARGETS] = NAN;
    calls.push(refused(model.accumulate(&inputs, &targets, 0), 17));
    targets.truncate(MOST_TARGETS);
    calls.push(refused(model.accumulate(&inputs, &targets, 0), 16));
    calls
}

/// One row too many.
fn most_rows() -> Vec<Settled<Call>> {
    let model = base(0.0);
    let inputs = vec![0.0; MOST_TARGETS + 1];
    let mut targets = vec![1.0; MOST_TARGETS + 1];
    let mut calls = vec![refused(model.accumulate(&inputs, &targets, 0), 18)];
    targets[MOST_TARGETS] = NAN;
    calls.push(refused(model.accumulate(&inputs, &targets, 0), 17));
    calls
}

/// As many target values as are accepted, in 2^24 rows and in 2^12.
fn most_targets() -> Vec<Settled<Call>> {
    let targets = vec![1.0; MOST_TARGETS];
    let rows = base(0.0).accumulate(&vec![0.0; MOST_TARGETS], &targets, MOST_TARGETS);
    let columns = fan(4096).accumulate(&[0.25; 4096], &targets, MOST_TARGETS);
    [rows, columns].map(|call| settled(call, 0, 0)).into()
}
