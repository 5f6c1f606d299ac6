//! Chosen calls with the answers that are settled for them: number, what is carried, and the numbers written.

pub mod images;
pub mod npy;
pub mod split;
pub mod training;
pub mod visits;

use crate::calls::{bits, Call, Kind};
use crate::lent::Lent;
use crate::ported::Grid;
use crate::reading::{self, Configuration, MOST_TARGETS};
use crate::settled::{Chosen, Settled};

/// What work and outputs hold before a call.
const OLD_WORK: f32 = 9.0;
const OLD_OUTPUT: f32 = 5.0;
const NAN: f32 = f32::NAN;

/// Widths, intervals and domain, and what they are refused with: the number, and what it carries.
type Faulty = (&'static [usize], usize, (f32, f32), u32, usize);

/// Every refusal of the configuration.
const FAULTY: [Faulty; 10] = [
    (&[], 1, (-1.0, 1.0), 1, 0),
    (&[1], 1, (-1.0, 1.0), 1, 0),
    (&[1, 0], 1, (-1.0, 1.0), 1, 0),
    (&[1 << 32, 1 << 32], 0, (-1.0, 1.0), 2, 0),
    (&[1, 1], 0, (1.0, 1.0), 3, 0),
    (&[1, 1], 67_108_862, (-1.0, 1.0), 4, 0),
    (&[1 << 31, 1 << 31], 1, (1.0, 1.0), 5, 0),
    (&[1 << 31, 1 << 30, 1 << 31, 1 << 31], 1, (-1.0, 1.0), 6, 0),
    (&[1, 1], 249_996, (1.0, 1.0), 7, 250_001),
    (&[1, 1], 2, (NAN, 1.0), 4, 0),
];

/// The call with each of these configurations.
fn with_faults(call: &Call) -> impl Iterator<Item = Settled<Call>> + '_ {
    FAULTY
        .iter()
        .map(|&(widths, intervals, (lo, hi), number, carried)| {
            let mut call = call.clone();
            call.widths = Lent::new(widths);
            call.grid = Grid::new(intervals, lo, hi);
            settled(call, number, carried)
        })
}

/// A network and its parameters.
#[derive(Clone)]
struct Model {
    config: Configuration,
    parameters: Vec<f32>,
}

/// [1, 1], g 2, [-1, 1] with these parameters at the front, the rest 0.
fn edge(front: &[f32]) -> Model {
    let mut parameters = front.to_vec();
    parameters.resize(7, 0.0);
    let config = Configuration::new(&[1, 1], Grid::new(2, -1.0, 1.0));
    Model { config, parameters }
}

/// All coefficients 0: the base alone, by its weight.
fn base(weight: f32) -> Model {
    edge(&[weight, 1.0])
}

/// Some spline.
fn spline() -> Model {
    edge(&[0.0, 1.0, 0.0, 0.25, 0.5, 0.125])
}

/// The same with an infinite coefficient.
fn infinite() -> Model {
    edge(&[0.0, 1.0, 0.0, 0.25, 0.5, 0.125, f32::INFINITY])
}

/// Two inputs: [2, 1], g 2, [-1, 1], as seed 7 has it.
fn pair() -> Model {
    let words = [
        0xbe1f_8b2a_u32,
        0x3f80_0000,
        0xbc1e_56bd,
        0x3c03_523f,
        0x3ad9_6599,
        0xba79_5766,
        0xbba4_366b,
        0xbd39_a2d6,
        0x3f80_0000,
        0xbb61_57de,
        0xbbef_b147,
        0xbae3_b1d2,
        0xbc01_e7ce,
        0x3c16_b109,
    ];
    Model {
        config: Configuration::new(&[2, 1], Grid::new(2, -1.0, 1.0)),
        parameters: words.map(f32::from_bits).to_vec(),
    }
}

/// One input and this many outputs, all parameters 0.
fn fan(outputs: usize) -> Model {
    let config = Configuration::new(&[1, outputs], Grid::new(1, -1.0, 1.0));
    let parameters = vec![0.0; config.parameters()];
    Model { config, parameters }
}

/// One edge a layer, g 2, with these parameters.
fn chain(domain: (f32, f32), edges: &[[f32; 7]]) -> Model {
    let widths = vec![1; edges.len() + 1];
    Model {
        config: Configuration::new(&widths, Grid::new(2, domain.0, domain.1)),
        parameters: edges.concat(),
    }
}

/// D87: at 1, the second edge reads a number so close to its middle knot that a value is zero and its slope is not.
fn beside_a_knot() -> Model {
    let plain = [0.0, 1.0, 0.0, 0.0, 0.0, 0.0, 0.0];
    let mut model = chain((-1.0, 1.0), &[plain; 2]);
    (model.parameters[0], model.parameters[7]) = (2e-16, 0.5);
    model
}

/// Where the second edge of that model has the coefficient which such a slope marks, and the first one, which nothing marks.
const MARKED_BY_SLOPE: usize = 13;
const UNMARKED: usize = 9;

/// Most intervals, the widest and the deepest: 250,000 parameters or hardly fewer.
fn largest_models() -> [Model; 4] {
    let deep = vec![1; 41_667];
    let shapes: [(&[usize], usize); 4] = [
        (&[1, 1], 249_995),
        (&[41_666, 1], 1),
        (&[1, 41_666], 1),
        (&deep, 1),
    ];
    shapes.map(|(widths, intervals)| initial(widths, Grid::new(intervals, -1.0, 1.0), 5))
}

/// The network that belongs to a seed.
fn initial(widths: &[usize], grid: Grid, seed: u64) -> Model {
    let config = Configuration::new(widths, grid);
    let mut parameters = vec![0.0; config.parameters()];
    reading::initialise(&config, seed, &mut parameters).expect("an accepted configuration");
    Model { config, parameters }
}

impl Model {
    /// The model with another number at this place.
    fn edited(mut self, place: usize, number: f32) -> Self {
        self.parameters[place] = number;
        self
    }

    fn call(&self, kind: Kind) -> Call {
        let mut call = Call::new(kind, &self.config.widths, self.config.grid);
        call.model = Lent::new(&self.parameters);
        call.first = Lent::new(&vec![OLD_WORK; self.config.widest() + 1]);
        call.second = call.first.clone();
        call
    }

    fn predict(&self, inputs: &[f32], outputs: usize) -> Call {
        let mut call = self.call(Kind::Predict);
        call.inputs = Lent::new(inputs);
        call.outputs = Lent::new(&vec![OLD_OUTPUT; outputs]);
        call
    }

    fn loss(&self, inputs: &[f32], targets: &[f32]) -> Call {
        let mut call = self.call(Kind::Loss);
        call.inputs = Lent::new(inputs);
        call.targets = Lent::new(targets);
        call
    }
}

fn settled<C>(call: C, number: u32, carried: usize) -> Settled<C> {
    Settled {
        heading: "",
        call,
        number,
        carried,
        written: None,
    }
}

fn writes<C>(call: C, number: u32, carried: usize, written: &[u64]) -> Settled<C> {
    Settled {
        written: Some(written.to_vec()),
        ..settled(call, number, carried)
    }
}

/// Calls with what the stored lists say of them.
fn headed<C>(heading: &'static str, mut calls: Vec<Settled<C>>) -> Vec<Settled<C>> {
    calls[0].heading = heading;
    calls
}

/// Calls with what the stored lists say of each.
fn all_headed<C>(calls: Vec<(&'static str, Settled<C>)>) -> Vec<Settled<C>> {
    let calls = calls.into_iter();
    calls
        .flat_map(|(heading, call)| headed(heading, vec![call]))
        .collect()
}

/// Some of the chosen calls. They are made group by group, as some take much memory.
type Group<C> = fn() -> Vec<Settled<C>>;

/// The calls of all groups, the large ones too where they are asked for.
fn grouped<C: 'static>(
    usual: &'static [Group<C>],
    long: &'static [Group<C>],
    large: bool,
) -> Chosen<C> {
    let asked = if large { long } else { &[] };
    Box::new(usual.iter().chain(asked).flat_map(|group| group()))
}

/// All chosen calls of the program `calls`.
pub fn settled_calls(large: bool) -> Chosen<Call> {
    const USUAL: &[Group<Call>] = &[
        checks,
        domain_checks,
        initialisations,
        predictions,
        losses,
        faulty_configurations,
        largest_networks,
        many_targets,
    ];
    grouped(USUAL, &[most_rows, most_targets], large)
}

fn check(widths: &[usize], intervals: usize, (lo, hi): (f32, f32)) -> Call {
    Call::new(Kind::Check, widths, Grid::new(intervals, lo, hi))
}

fn refused(widths: &[usize], intervals: usize, domain: (f32, f32), number: u32) -> Settled<Call> {
    settled(check(widths, intervals, domain), number, 0)
}

fn counted(
    widths: &[usize],
    intervals: usize,
    domain: (f32, f32),
    parameters: u64,
) -> Settled<Call> {
    writes(check(widths, intervals, domain), 0, 0, &[parameters])
}

fn checks() -> Vec<Settled<Call>> {
    let (usual, point) = ((-1.0, 1.0), (1.0, 1.0));
    let (p31, p32) = (1 << 31, 1 << 32);
    vec![
        refused(&[], 1, usual, 1),
        refused(&[1], 1, usual, 1),
        refused(&[0], 0, usual, 1),
        refused(&[p32, p32, 0], 1, usual, 1),
        refused(&[p32, p32], 0, usual, 2),
        refused(&[1, p32, p32], 1, point, 2),
        refused(&[1, 1], 0, point, 3),
        refused(&[1, 1], (1 << 63) - 8, usual, 4),
        refused(&[1, 1], (1 << 63) - 7, usual, 3),
        refused(&[1, 1], usize::MAX, usual, 3),
        refused(&[p31, p31], 67_108_862, usual, 4),
        refused(&[p31, p31], 67_108_861, usual, 5),
        refused(&[p31, p31], 1, (NAN, 1.0), 5),
        refused(&[1 << 30, p31, p31], 1, usual, 5),
        refused(&[p31, 1 << 30, p31, p31], 1, usual, 6),
        refused(&[1, 1], 67_108_862, usual, 4),
        settled(check(&[1, 1], 67_108_861, usual), 7, 67_108_866),
        counted(&[1, 1], 249_995, usual, 250_000),
        settled(check(&[1, 1], 249_996, point), 7, 250_001),
        settled(check(&[41_667, 1], 1, usual), 7, 250_002),
        counted(&[2, 3, 1], 2, usual, 63),
    ]
}

fn domain_checks() -> Vec<Settled<Call>> {
    let (tiny, long) = ((0.0, f32::from_bits(1)), (8388608.0, 8388611.0));
    let huge = (-1.7e38, 1.7e38);
    vec![
        refused(&[1, 1], 2, (-0.0, 0.0), 4),
        refused(&[1, 1], 2, (1.0, -1.0), 4),
        refused(&[1, 1], 2, (f32::NEG_INFINITY, 1.0), 4),
        refused(&[1, 1], 2, (NAN, 1.0), 4),
        counted(&[1, 1], 1, tiny, 6),
        refused(&[1, 1], 2, tiny, 4),
        counted(&[1, 1], 4, long, 9),
        refused(&[1, 1], 6, long, 4),
        counted(&[1, 1], 1000, huge, 1005),
        refused(&[1, 1], 3, huge, 4),
    ]
}

fn initialise(widths: &[usize], intervals: usize, seed: u64, length: usize) -> Call {
    let mut call = Call::new(Kind::Initialise, widths, Grid::new(intervals, -1.0, 1.0));
    call.seed = seed;
    call.model = Lent::new(&vec![NAN; length]);
    call
}

fn initialisations() -> Vec<Settled<Call>> {
    let of_0 = [
        0x3f44_4152,
        0x3f80_0000,
        0xbab3_7ec7,
        0xbc1b_2d9d,
        0x3c1a_4c72,
        0xbc00_fe09,
        0xbb62_53d9,
    ];
    let of_7 = bits(&Lent::new(&pair().parameters));
    vec![
        writes(initialise(&[1, 1], 2, 0, 7), 0, 0, &of_0),
        writes(initialise(&[2, 1], 2, 7, 14), 0, 0, &of_7),
        settled(initialise(&[1, 1], 2, 0, 6), 8, 0),
        settled(initialise(&[1, 1], 2, 0, 0), 8, 0),
        settled(initialise(&[1, 1], 0, 0, 6), 3, 0),
        settled(initialise(&[1, 1], 249_996, 0, 250_000), 7, 250_001),
        // The largest models, and the largest widths that a root is taken of.
        settled(initialise(&[1, 1], 249_995, 1, 250_000), 0, 0),
        settled(initialise(&[41_666, 1], 1, 2, 249_996), 0, 0),
        settled(initialise(&[1, 41_666], 1, 3, 249_996), 0, 0),
        settled(initialise(&[200, 200, 8], 1, u64::MAX, 249_600), 0, 0),
    ]
}

fn predictions() -> Vec<Settled<Call>> {
    let (s, big, inf, two) = (spline(), base(3e38), infinite(), pair());
    let mut short_work = s.predict(&[0.0], 0);
    short_work.first = Lent::null();
    let mut short_model = s.predict(&[0.0], 1);
    short_model.model = Lent::new(&s.parameters[..6]);
    short_model.first = Lent::null();
    let mut early_work = inf.predict(&[0.0], 1);
    early_work.second = Lent::null();
    let (old, at_0) = (0x40a0_0000, 0x3eca_aaab);
    vec![
        writes(s.predict(&[], 0), 0, 0, &[]),
        writes(s.predict(&[], 1), 10, 0, &[old]),
        writes(s.predict(&[0.0, 0.5], 2), 0, 0, &[at_0, 0x3e9c_0000]),
        writes(s.predict(&[0.0, NAN, 0.5], 3), 15, 1, &[at_0, old, old]),
        writes(s.predict(&[0.0, NAN], 1), 10, 0, &[old]),
        writes(inf.predict(&[0.0, NAN], 1), 10, 0, &[old]),
        writes(inf.predict(&[0.0, NAN], 2), 11, 0, &[old, old]),
        settled(short_work, 9, 0),
        settled(short_model, 8, 0),
        settled(early_work, 9, 0),
        writes(big.predict(&[0.0, 100.0, NAN], 3), 20, 1, &[0, old, old]),
        writes(two.predict(&[0.5, 0.5, 0.5], 2), 14, 1, &[0xbd88_c7ab, old]),
        writes(two.predict(&[0.5, 0.5, 0.5], 1), 10, 0, &[old]),
        settled(two.predict(&[0.5, 0.5, NAN], 2), 14, 1),
        writes(two.predict(&[NAN, 0.5, 0.5], 2), 15, 0, &[old, old]),
        settled(infinite_knots(0.0), 20, 0),
        writes(infinite_knots(-1.72e38), 0, 0, &[0]),
    ]
}

/// The last of strictly rising knots is infinite.
fn infinite_knots(input: f32) -> Call {
    let grid = Grid::new(1000, -1.697e38, 1.697e38);
    initial(&[1, 1], grid, 0).predict(&[input], 1)
}

fn losses() -> Vec<Settled<Call>> {
    let (zero, inf, two) = (base(0.0), infinite(), pair());
    let (steep, less_steep, wide) = (base(1e18), base(1.4e17), fan(2));
    let batch = [0.25, 0.5, -0.5, 1.0, 0.0, 0.75];
    let mut short_work = inf.loss(&[], &[]);
    short_work.second = Lent::null();
    let mut short_model = short_work.clone();
    short_model.model = Lent::new(&inf.parameters[..6]);
    vec![
        writes(zero.loss(&[0.0], &[1.0]), 0, 0, &[0x3f80_0000]),
        settled(zero.loss(&[], &[]), 13, 0),
        settled(zero.loss(&[], &[1.0]), 12, 0),
        settled(zero.loss(&[NAN], &[1.0, 1.0]), 12, 0),
        settled(zero.loss(&[NAN], &[NAN]), 15, 0),
        settled(inf.loss(&[NAN], &[]), 11, 0),
        settled(short_work, 9, 0),
        settled(short_model, 8, 0),
        settled(two.loss(&[0.0, 0.5, 0.5], &[NAN, 1.0]), 14, 0),
        settled(two.loss(&[0.0, 0.5, 0.5], &[1.0]), 12, 0),
        settled(wide.loss(&[0.5, 0.5], &[NAN, 1.0, 1.0]), 17, 0),
        settled(wide.loss(&[0.5, 0.5], &[1.0, 1.0, 1.0]), 16, 0),
        settled(steep.loss(&[100.0, 3e38], &[0.0, 0.0]), 21, 0),
        settled(steep.loss(&[3e38, 100.0], &[0.0, 0.0]), 20, 0),
        writes(less_steep.loss(&[100.0], &[0.0]), 0, 0, &[0x7f13_743a]),
        settled(less_steep.loss(&[100.0, 100.0], &[0.0, 0.0]), 22, 0),
        settled(less_steep.loss(&[100.0, 100.0, 3e38], &[0.0; 3]), 22, 0),
        writes(two.loss(&batch, &[1.0, 2.0, -3.0]), 0, 0, &[0x4094_b3bb]),
    ]
}

/// Every refusal of the configuration by every call that is lent floats.
fn faulty_configurations() -> Vec<Settled<Call>> {
    let model = spline();
    let calls = [
        initialise(&[1, 1], 2, 0, 7),
        model.predict(&[0.0, 0.5], 2),
        model.loss(&[0.0, 0.5], &[1.0, 2.0]),
    ];
    calls.iter().flat_map(with_faults).collect()
}

fn largest_networks() -> Vec<Settled<Call>> {
    let mut calls = Vec::new();
    for model in largest_models() {
        let inputs = vec![0.375; 2 * model.config.input_width()];
        let out = model.config.output_width();
        calls.push(settled(model.predict(&inputs, 2 * out), 0, 0));
        calls.push(settled(model.loss(&inputs, &vec![0.5; 2 * out]), 0, 0));
    }
    calls
}

/// One target value too many, in few rows: 2^24 + 1 is 673 × 24,929. The checks before 18 still come first.
fn many_targets() -> Vec<Settled<Call>> {
    let model = fan(673);
    let inputs = vec![0.0; 24_929];
    let mut targets = vec![1.0; MOST_TARGETS + 1];
    let many = settled(model.loss(&inputs, &targets), 18, 0);
    targets[MOST_TARGETS] = NAN;
    let not_finite = settled(model.loss(&inputs, &targets), 17, 0);
    targets.truncate(MOST_TARGETS);
    let short = settled(model.loss(&inputs, &targets), 16, 0);
    vec![many, not_finite, short]
}

/// One row too many.
fn most_rows() -> Vec<Settled<Call>> {
    let model = base(0.0);
    let inputs = vec![0.0; MOST_TARGETS + 1];
    let mut targets = vec![1.0; MOST_TARGETS + 1];
    let many = settled(model.loss(&inputs, &targets), 18, 0);
    targets[MOST_TARGETS] = NAN;
    vec![many, settled(model.loss(&inputs, &targets), 17, 0)]
}

/// As many target values as are accepted, in 2^24 rows and in 2^12. All errors are 1, and so is their mean.
fn most_targets() -> Vec<Settled<Call>> {
    let targets = vec![1.0; MOST_TARGETS];
    let rows = base(0.0).loss(&vec![0.0; MOST_TARGETS], &targets);
    let columns = fan(4096).loss(&[0.0; 4096], &targets);
    [rows, columns]
        .map(|call| writes(call, 0, 0, &[0x3f80_0000]))
        .into()
}
