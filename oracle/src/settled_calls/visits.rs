//! Chosen calls of the visit map.

use super::training::{slopes_beside_zero, zero_slopes};
use super::{all_headed, grouped, headed, settled, writes, Group, Model};
use super::{base, beside_a_knot, chain, infinite, initial, largest_models, pair};
use super::{FAULTY, MARKED_BY_SLOPE, NAN, UNMARKED};
use crate::calls::{Call, Kind};
use crate::lent::Lent;
use crate::ported::Grid;
use crate::settled::{Chosen, Settled};

const OLD_MARK: u8 = 7;

/// All chosen calls of the program `visits`; none is large.
pub fn settled_visits(large: bool) -> Chosen<Call> {
    let maps = stored_visits().filter(|settled| settled.call.kind == Kind::Visits);
    Box::new(maps.chain(grouped(&[largest_networks], &[], large)))
}

/// Those of them that are stored as cases of the program `model_vectors`, and the training that some of them speak of.
pub fn stored_visits() -> Chosen<Call> {
    const STORED: &[Group<Call>] = &[
        marks,
        refusals,
        faulty_configurations,
        marked_by_slope,
        trained_by_slope,
        unmarked,
        trained_unmarked,
        unlike_slopes,
        outside_infinite_knots,
    ];
    grouped(STORED, &[], false)
}

impl Model {
    fn visits(&self, inputs: &[f32]) -> Call {
        let mut call = self.call(Kind::Visits);
        call.inputs = Lent::new(inputs);
        call.map = Lent::new(&vec![OLD_MARK; self.config.parameters()]);
        call
    }
}

fn maps(call: Call, map: &[u64]) -> Settled<Call> {
    writes(call, 0, 0, map)
}

/// Refused with a map of this many cells, which hold this.
fn refused(call: Call, (number, carried): (u32, usize), cell: u8) -> Settled<Call> {
    let map = vec![u64::from(cell); call.map.len()];
    writes(call, number, carried, &map)
}

fn marks() -> Vec<Settled<Call>> {
    let (zero, two) = (base(0.0), pair());
    let at = |x: f32, map: &[u64]| maps(zero.visits(&[x]), map);
    let middle = [1, 1, 0, 1, 1, 1, 0];
    let beside = [1, 1, 0, 1, 1, 1, 1];
    let outside = [1, 1, 0, 0, 0, 0, 0];
    let rows = maps(zero.visits(&[4.0, 0.0, -5.0]), &middle);
    let (left, right) = ([middle, outside].concat(), [outside, middle].concat());
    all_headed(vec![
        (
            "Z at 0: the first basis value and the last are 0 there, and so are their slopes",
            at(0.0, &middle),
        ),
        (
            "D81: Z at 1e-16: the last basis value rounds to 0, and its slope, which is not 0, marks it",
            at(1e-16, &beside),
        ),
        (
            "D82: Z at 4 and at -4, outside all knots: the weights alone",
            at(4.0, &outside),
        ),
        ("", at(-4.0, &outside)),
        ("Three rows: what any of them touches", rows),
        (
            "D83: no rows: nothing is touched, the weights neither",
            maps(zero.visits(&[]), &[0; 7]),
        ),
        (
            "A21: each edge by its own input",
            maps(two.visits(&[0.0, 9.0]), &left),
        ),
        ("", maps(two.visits(&[9.0, 0.0]), &right)),
        ("A21, no rows", maps(two.visits(&[]), &[0; 14])),
    ])
}

fn refusals() -> Vec<Settled<Call>> {
    let (zero, inf, big, two) = (base(0.0), infinite(), base(3e38), pair());
    let mut no_map = inf.visits(&[NAN]);
    no_map.map = Lent::new(&[OLD_MARK; 6]);
    let mut long_map = zero.visits(&[]);
    long_map.map = Lent::new(&[OLD_MARK; 8]);
    let mut short_work = no_map.clone();
    short_work.second = Lent::null();
    let mut short_first = no_map.clone();
    short_first.first = Lent::null();
    let mut short_model = short_work.clone();
    short_model.model = Lent::new(&zero.parameters[..6]);
    let batch = |inputs: &[f32]| two.visits(inputs);
    all_headed(vec![
        (
            "D84: Z at 0 and NaN: 15 carrying 1, and no mark stays",
            refused(zero.visits(&[0.0, NAN]), (15, 1), 0),
        ),
        (
            "NaN in row 0",
            refused(zero.visits(&[NAN, 0.0]), (15, 0), 0),
        ),
        (
            "D85: INF at NaN: 11, and the map is unchanged",
            refused(inf.visits(&[NAN]), (11, 0), OLD_MARK),
        ),
        (
            "D85: the same with a map of 6 bytes: 10, and it is unchanged",
            refused(no_map, (10, 0), OLD_MARK),
        ),
        (
            "A map of 8 bytes for 7 parameters",
            refused(long_map, (10, 0), OLD_MARK),
        ),
        (
            "No second work slice is 9, before the map is 10; nothing is touched",
            refused(short_work, (9, 0), OLD_MARK),
        ),
        (
            "No first work slice",
            refused(short_first, (9, 0), OLD_MARK),
        ),
        (
            "A model one short is 8, before the work is 9",
            refused(short_model, (8, 0), OLD_MARK),
        ),
        (
            "D86: BIG at 0 and 100: 20 carrying 1, and no mark stays",
            refused(big.visits(&[0.0, 100.0]), (20, 1), 0),
        ),
        (
            "Row 1 is 20, before row 2 is 15",
            refused(big.visits(&[0.0, 100.0, NAN]), (20, 1), 0),
        ),
        (
            "A21: a short last row is 14 carrying 1, before its NaN is 15",
            refused(batch(&[0.5; 3]), (14, 1), 0),
        ),
        ("", refused(batch(&[0.5, 0.5, NAN]), (14, 1), 0)),
        (
            "A21: NaN in row 0 is 15, before the short last row",
            refused(batch(&[NAN, 0.5, 0.5]), (15, 0), 0),
        ),
    ])
}

/// Every refusal of the configuration, before a model that is short, work that is not there, and a map that is short.
fn faulty_configurations() -> Vec<Settled<Call>> {
    let calls = FAULTY.map(|(widths, intervals, (lo, hi), number, carried)| {
        let mut call = Call::new(Kind::Visits, widths, Grid::new(intervals, lo, hi));
        call.model = Lent::new(&[f32::INFINITY; 3]);
        call.inputs = Lent::new(&[NAN]);
        call.map = Lent::new(&[OLD_MARK; 2]);
        refused(call, (number, carried), OLD_MARK)
    });
    headed(
        "Every refusal of the configuration, with a model and a map that are too short, no work, an infinite parameter and NaN",
        calls.into(),
    )
}

/// The marks of D87's model at 1.
const BESIDE_A_KNOT: [u64; 14] = [1, 1, 0, 0, 1, 1, 1, 1, 1, 0, 1, 1, 1, 1];

/// D87's model with another number at this place: the map is the same.
fn maps_beside_a_knot(place: usize, number: f32) -> Settled<Call> {
    let model = beside_a_knot().edited(place, number);
    maps(model.visits(&[1.0]), &BESIDE_A_KNOT)
}

fn marked_by_slope() -> Vec<Settled<Call>> {
    let calls = [0.0, 1e38].map(|number| maps_beside_a_knot(MARKED_BY_SLOPE, number));
    headed(
        "D87: [1, 1, 1], base weights 2e-16 and 0.5, at 1: the last coefficient, 0 or 1e38, is marked by its slope alone",
        calls.into(),
    )
}

fn trained_by_slope() -> Vec<Settled<Call>> {
    headed(
        "D87, a step of training and training of one step: the first parameter depends on the last, which the map marks",
        slopes_beside_zero(),
    )
}

fn unmarked() -> Vec<Settled<Call>> {
    let calls = [1e38, -0.0].map(|number| maps_beside_a_knot(UNMARKED, number));
    headed(
        "D87 with the first coefficient of layer 1, which the map does not mark, 1e38 or -0.0: the same map",
        calls.into(),
    )
}

fn trained_unmarked() -> Vec<Settled<Call>> {
    headed(
        "The same, a step of training and training of one step: that coefficient stays, and all else becomes what D87's model becomes",
        zero_slopes(),
    )
}

/// A value of zero beside a slope that is not, and slopes that are infinite or NaN.
fn unlike_slopes() -> Vec<Settled<Call>> {
    let plain = [0.0, 1.0, 0.0, 0.0, 0.0, 0.0, 0.0];
    let narrow = chain((0.0, 2e-40), &[plain; 2]);
    let (lo, hi) = (f32::from_bits(0x77), f32::from_bits(0x87));
    let subnormal = initial(&[1, 1], Grid::new(4, lo, hi), 0);
    all_headed(vec![
        (
            "D87 with base weight 0 in layer 1",
            maps_beside_a_knot(7, 0.0),
        ),
        (
            "D88: [1, 1, 1], domain [0, 2e-40], at 0: slopes are infinite or NaN, values are not",
            maps(narrow.visits(&[0.0]), &[1, 1, 1, 1, 1, 0, 0].repeat(2)),
        ),
        (
            "[1, 1], g 4, domain 77 to 87 (bits), at 79: values 0 beside slopes of -infinity (the first) and infinity (the fourth)",
            maps(
                subnormal.visits(&[f32::from_bits(0x79)]),
                &[1, 1, 1, 1, 1, 1, 0, 0, 0],
            ),
        ),
    ])
}

/// Below the first knot where the last knots are infinite: the Rust's last slope is NaN there, and by R6.3 it is 0.
fn outside_infinite_knots() -> Vec<Settled<Call>> {
    let half = f32::from_bits(0x7eff_ffff);
    let model = initial(&[1, 1], Grid::new(25, -half, half), 0);
    let mut marks = [0; 30];
    marks[..2].fill(1);
    headed(
        "B41a: [1, 1], g 25, domain feffffff to 7effffff (bits), at -3e38, below knots of which the last are infinite: the weights alone",
        vec![maps(model.visits(&[-3e38]), &marks)],
    )
}

fn largest_networks() -> Vec<Settled<Call>> {
    let models = largest_models().into_iter();
    let calls = models.map(|model| {
        let inputs = vec![0.375; 2 * model.config.input_width()];
        settled(model.visits(&inputs), 0, 0)
    });
    calls.collect()
}
