//! Drawn calls: sound ones, and ones with faults of every kind, several at a time, so that the checks' order shows.

pub mod chains;
mod images;
pub mod npy;
mod training;
pub mod unmarked;
pub mod visits;

use crate::bits::beside;
use crate::calls::{Call, Kind, FIRST_KINDS};
use crate::compared::Compared;
use crate::draws::Draws;
use crate::grids::{accepted_families, drawn_grid};
use crate::inputs::{drawn_input, exponential_inputs};
use crate::lent::{Cell, Lent};
use crate::nans;
use crate::ported::Grid;
use crate::reading::{self, Configuration, STUCK_INTERVALS};
use crate::rounds::{Comparison, Round};

const MOST_PARAMETERS: usize = 250_000;
/// Larger models are left to the chosen calls, as each parameter costs time.
const MOST_DRAWN: usize = 3000;
const NOT_FINITE: [f32; 3] = [f32::NAN, f32::INFINITY, f32::NEG_INFINITY];

pub struct Maker {
    draws: Draws,
    /// Apart from the other draws, so that a call is the same but for its NaN.
    nans: Draws,
    chosen_grids: Vec<Grid>,
    /// Where E and SiLU turn, among others.
    chosen_inputs: Vec<f32>,
}

impl Maker {
    pub fn new() -> Self {
        let families = accepted_families();
        Maker {
            draws: Draws::new(0),
            nans: Draws::new(0),
            chosen_grids: families.into_iter().flat_map(|f| f.grids).collect(),
            chosen_inputs: exponential_inputs(),
        }
    }

    /// One drawn call of each kind of the program `calls`.
    pub fn first_kinds(&mut self, comparison: &mut Comparison<Call>) {
        for kind in FIRST_KINDS {
            comparison.compare(&self.call(kind, comparison.round));
        }
    }

    /// Draws from here on belong to the seed, the round and the part of it.
    fn begin(&mut self, round: Round, part: u64) {
        let Round { seed, number } = round;
        let seed = Draws::new(seed).word() ^ Draws::new(4 * number + part).word();
        self.draws = Draws::new(seed);
        self.nans = Draws::new(!seed);
    }

    /// Half of all calls find NaN in what they leave alone.
    fn with_nans<C: Compared>(&mut self, call: C) -> C {
        let draws = &mut self.nans;
        if draws.whole(1, 2) == 1 {
            let answer = call.expected();
            call.with_nans(answer, &mut |_| nans::drawn(draws))
        } else {
            call
        }
    }

    /// The call of this kind that belongs to the round.
    fn call(&mut self, kind: Kind, round: Round) -> Call {
        self.begin(round, kind as u64);
        let sound = self.sound();
        let faulty = match kind {
            Kind::Check => !self.once_in(4),
            _ => self.once_in(6),
        };
        let config = self.configuration(&sound, faulty);
        let mut call = Call::new(kind, &config.widths, config.grid);
        if config.widths.is_empty() {
            call.widths = self.lend(&[]);
        }
        match kind {
            Kind::Check => (),
            Kind::Initialise => self.initialise(&mut call, &sound),
            Kind::Predict => self.predict(&mut call, &sound),
            Kind::Loss => self.loss(&mut call, &sound),
            Kind::TrainStep | Kind::Train => self.train(&mut call, &sound),
            Kind::Visits => self.visits(&mut call, &sound),
            Kind::Accumulate => self.accumulate(&mut call, &sound),
            Kind::Apply => self.apply(&mut call, &sound),
        }
        self.with_nans(call)
    }

    /// Whether a thing that happens once in so many times happens now.
    fn once_in(&mut self, times: u64) -> bool {
        self.draws.whole(1, times) == 1
    }

    fn whole(&mut self, first: usize, last: usize) -> usize {
        self.draws.whole(first as u64, last as u64) as usize
    }

    fn any_of<T: Copy>(&mut self, choices: &[T]) -> T {
        choices[self.whole(0, choices.len() - 1)]
    }

    /// Nothing is lent as the null pointer half of the time.
    fn lend<T: Cell>(&mut self, contents: &[T]) -> Lent<T> {
        if contents.is_empty() && self.once_in(2) {
            Lent::null()
        } else {
            Lent::new(contents)
        }
    }

    /// Old contents of memory: any bits.
    fn lend_filled(&mut self, length: usize) -> Lent<f32> {
        let contents: Vec<f32> = (0..length).map(|_| self.draws.pattern()).collect();
        self.lend(&contents)
    }

    fn initialise(&mut self, call: &mut Call, sound: &Configuration) {
        call.seed = match self.draws.whole(1, 4) {
            1 => self.draws.whole(0, 9),
            2 => u64::MAX - self.draws.whole(0, 9),
            _ => self.draws.word(),
        };
        let length = self.model_length(sound);
        call.model = self.lend_filled(length);
    }

    fn predict(&mut self, call: &mut Call, sound: &Configuration) {
        self.model_and_work(call, sound);
        let inputs = self.inputs(sound);
        let (width, out) = (sound.input_width(), sound.output_width());
        let rows = inputs.len() / width + usize::from(inputs.len() % width != 0);
        let length = match self.draws.whole(1, 40) {
            1 => rows * out + 1,
            2 => (rows * out).saturating_sub(1),
            3 => inputs.len() / width * out,
            4 => (rows + 1) * out,
            5 => 0,
            6 => inputs.len(),
            _ => rows * out,
        };
        call.inputs = self.lend(&inputs);
        call.outputs = self.lend_filled(length);
    }

    fn loss(&mut self, call: &mut Call, sound: &Configuration) {
        self.model_and_work(call, sound);
        self.batch(call, sound);
    }

    fn batch(&mut self, call: &mut Call, sound: &Configuration) {
        let inputs = self.inputs(sound);
        let width = sound.input_width();
        let rows = inputs.len() / width + usize::from(inputs.len() % width != 0);
        let targets = self.targets(sound, rows);
        call.inputs = self.lend(&inputs);
        call.targets = self.lend(&targets);
    }

    fn model(&mut self, sound: &Configuration) -> Lent<f32> {
        let length = self.model_length(sound);
        let mut model = self.parameters(sound);
        model.resize(length, 0.25);
        if self.once_in(14) {
            self.spoil(&mut model);
        }
        self.lend(&model)
    }

    fn model_and_work(&mut self, call: &mut Call, sound: &Configuration) {
        call.model = self.model(sound);
        let (first, second) = self.work_lengths(sound.widest());
        call.first = self.lend_filled(first);
        call.second = self.lend_filled(second);
    }

    fn model_length(&mut self, sound: &Configuration) -> usize {
        let needed = sound.parameters();
        match self.draws.whole(1, 60) {
            1 => needed - 1,
            2 => needed + 1,
            3 => 0,
            4 => self.whole(0, 2 * needed),
            _ => needed,
        }
    }

    fn work_lengths(&mut self, needed: usize) -> (usize, usize) {
        let longer = (needed + self.whole(0, 3), needed + self.whole(0, 3));
        let short = self.whole(0, needed - 1);
        match self.draws.whole(1, 30) {
            1 => (short, longer.1),
            2 => (longer.0, short),
            3 => (short, needed - 1),
            4..=15 => (needed, needed),
            _ => longer,
        }
    }

    /// One number becomes not finite, if there is one.
    fn spoil(&mut self, numbers: &mut [f32]) {
        if !numbers.is_empty() {
            let place = self.whole(0, numbers.len() - 1);
            numbers[place] = self.any_of(&NOT_FINITE);
        }
    }

    fn parameters(&mut self, sound: &Configuration) -> Vec<f32> {
        let kind = self.draws.whole(1, 10);
        let size = self.draws.power_of_ten();
        let mut model = vec![0.0; sound.parameters()];
        if kind <= 3 {
            // Refused where the drawn grid is: then the parameters do not matter.
            let _ = reading::initialise(sound, self.draws.word(), &mut model);
            return model;
        }
        let draws = &mut self.draws;
        for parameter in &mut model {
            *parameter = match kind {
                4..=6 => draws.between(-2.0, 2.0),
                7 => draws.finite(),
                8 => draws.sign() * size,
                9 => draws.sign() * 0.0,
                _ => draws.of_any_size(),
            };
        }
        model
    }

    /// Rows with faults here and there; the last may be short.
    fn inputs(&mut self, sound: &Configuration) -> Vec<f32> {
        let width = sound.input_width();
        let rows = self.row_count();
        let mut inputs = self.finite_inputs(sound, rows);
        self.shorten(&mut inputs, width);
        if self.once_in(10) {
            self.spoil(&mut inputs);
        }
        inputs
    }

    fn finite_inputs(&mut self, sound: &Configuration, rows: usize) -> Vec<f32> {
        let knots = sound.grid.knots();
        (0..rows * sound.input_width())
            .map(|_| self.input(&sound.grid, &knots))
            .collect()
    }

    fn input(&mut self, grid: &Grid, knots: &[f32]) -> f32 {
        let input = if self.once_in(8) {
            let place = self.whole(0, self.chosen_inputs.len() - 1);
            self.chosen_inputs[place]
        } else {
            drawn_input(&mut self.draws, grid, knots)
        };
        if input.is_finite() {
            input
        } else {
            self.draws.between(-1.0, 1.0)
        }
    }

    fn targets(&mut self, sound: &Configuration, rows: usize) -> Vec<f32> {
        let width = sound.output_width();
        let rows = match self.draws.whole(1, 30) {
            1 => rows + 1,
            2 => rows.saturating_sub(1),
            3 => 0,
            _ => rows,
        };
        let mut targets = self.finite_targets(rows * width);
        self.shorten(&mut targets, width);
        if self.once_in(10) {
            self.spoil(&mut targets);
        }
        targets
    }

    fn finite_targets(&mut self, count: usize) -> Vec<f32> {
        let kind = self.draws.whole(1, 8);
        let draws = &mut self.draws;
        (0..count)
            .map(|_| match kind {
                // The square of the largest here is near the largest f32 number.
                1 => draws.between(-1.85e19, 1.85e19),
                2 => draws.finite(),
                3 => draws.sign() * 0.0,
                _ => draws.between(-10.0, 10.0),
            })
            .collect()
    }

    fn row_count(&mut self) -> usize {
        match self.draws.whole(1, 20) {
            1 => 0,
            2 => self.whole(7, 20),
            _ => self.whole(1, 6),
        }
    }

    /// Now and then the last row loses some of its numbers, but not all.
    fn shorten(&mut self, flat: &mut Vec<f32>, width: usize) {
        if width > 1 && !flat.is_empty() && self.once_in(9) {
            let lost = self.whole(1, width - 1);
            flat.truncate(flat.len() - lost);
        }
    }

    /// A small network, sound but for some of the grids.
    fn sound(&mut self) -> Configuration {
        self.sound_on(Maker::grid)
    }

    /// The same on a grid that is drawn in this way.
    fn sound_on(&mut self, grid: fn(&mut Maker) -> Grid) -> Configuration {
        loop {
            let layers = match self.draws.whole(1, 20) {
                1..=8 => 1,
                9..=15 => 2,
                16..=18 => 3,
                _ => self.whole(4, 6),
            };
            let widest = if self.once_in(15) { 16 } else { 4 };
            let widths: Vec<usize> = (0..=layers).map(|_| self.whole(1, widest)).collect();
            let config = Configuration::new(&widths, grid(self));
            if config.parameters() <= MOST_DRAWN {
                return config;
            }
        }
    }

    fn grid(&mut self) -> Grid {
        match self.draws.whole(1, 8) {
            1 | 2 => {
                let place = self.whole(0, self.chosen_grids.len() - 1);
                self.chosen_grids[place]
            }
            3 => self.grid_about_a_power(),
            4 => self.grid_near_the_largest(),
            _ => drawn_grid(&mut self.draws),
        }
    }

    /// Hardly more than half a step of f32 for an interval, or less, where the steps on both sides differ: one end may
    /// move and the other not.
    fn grid_about_a_power(&mut self) -> Grid {
        let intervals = self.whole(1, 12);
        let exponent = self.draws.whole(1, 254) as u32;
        let power = self.draws.sign() * f32::from_bits(exponent << 23);
        let below = self.whole(0, intervals) as i64;
        let above = self.whole(0, intervals) as i64;
        Grid::new(intervals, beside(power, -below), beside(power, above))
    }

    /// The outermost knots on one side are close to the largest number, or past it.
    fn grid_near_the_largest(&mut self) -> Grid {
        let intervals = self.whole(1, 12);
        let outer = self.draws.between(2e38, f32::MAX);
        let inner = outer - self.draws.between(0.0, 1.7e38);
        if self.once_in(2) {
            Grid::new(intervals, inner, outer)
        } else {
            Grid::new(intervals, -outer, -inner)
        }
    }

    /// The sound configuration, or one made from it by one fault or two.
    fn configuration(&mut self, sound: &Configuration, faulty: bool) -> Configuration {
        let mut config = sound.clone();
        if faulty {
            self.disturb(&mut config);
            if self.once_in(2) {
                self.disturb(&mut config);
            }
        }
        config
    }

    /// A fault of the configuration, or something close to it.
    fn disturb(&mut self, config: &mut Configuration) {
        match self.draws.whole(1, 9) {
            1 => config.widths.truncate(self.whole(0, 1)),
            2 if !config.widths.is_empty() => {
                let place = self.whole(0, config.widths.len() - 1);
                config.widths[place] = 0;
            }
            3 => {
                let product = 1_u128 << 64;
                self.set_neighbours(config, product);
            }
            4 => config.grid.intervals = self.endless_intervals(),
            5 => config.grid.intervals = self.stuck_intervals(),
            6 => {
                let per_edge = config.grid.intervals as u128 + 5;
                self.set_neighbours(config, (1 << 64) / per_edge);
            }
            7 => self.set_running_total(config),
            8 => self.set_total(config),
            _ => self.disturb_domain(&mut config.grid),
        }
    }

    /// Two neighbouring widths whose product is close to this one.
    fn set_neighbours(&mut self, config: &mut Configuration, product: u128) {
        if config.widths.len() < 2 {
            config.widths = vec![1, 1];
        }
        let place = self.whole(0, config.widths.len() - 2);
        let one = match self.draws.whole(1, 3) {
            1 => 1 << self.draws.whole(1, 32),
            2 => self.draws.whole(2, 1 << 32),
            _ => self.draws.whole(2, 9),
        };
        let other = (product / u128::from(one)) as u64;
        let other = other.wrapping_add(self.draws.whole(0, 2)).wrapping_sub(1);
        let swapped = self.once_in(2);
        let (left, right) = if swapped { (other, one) } else { (one, other) };
        config.widths[place] = left as usize;
        config.widths[place + 1] = right as usize;
    }

    /// Layers of which each has fewer than 2^64 parameters, but not all of them together.
    fn set_running_total(&mut self, config: &mut Configuration) {
        let per_edge = (config.grid.intervals as u128 + 5) as u64;
        let edges = u64::MAX / per_edge.max(1);
        let part = self.draws.whole(2, 5);
        let wide = (edges / part + self.draws.whole(0, 2)) as usize;
        let count = self.whole(2, 6);
        // A width of 1 between two wide ones, so that all products are alike.
        config.widths = (0..=count)
            .map(|i| if i % 2 == 0 { 1 } else { wide })
            .collect();
    }

    /// One layer of about 250,000 parameters, or of more.
    fn set_total(&mut self, config: &mut Configuration) {
        let per_edge = config.grid.intervals.saturating_add(5);
        let near = MOST_PARAMETERS / per_edge + self.whole(0, 2);
        match self.draws.whole(1, 4) {
            1 => config.widths = vec![1, near],
            2 => {
                config.widths = vec![1, 1];
                config.grid.intervals = MOST_PARAMETERS - 6 + self.whole(0, 3);
            }
            3 => config.widths = vec![self.whole(1, 1 << 20), self.whole(1, 1 << 20)],
            _ => config.widths.push(near),
        }
    }

    /// 0, or about 2^63 - 8 and above.
    fn endless_intervals(&mut self) -> usize {
        let most = (1 << 63) - 8;
        match self.draws.whole(1, 4) {
            1 => 0,
            2 => most - 1 + self.whole(0, 2),
            3 => usize::MAX - self.whole(0, 9),
            _ => self.whole(most, usize::MAX - 1),
        }
    }

    /// About the first count at which 2/g no longer moves -1, and far above.
    fn stuck_intervals(&mut self) -> usize {
        if self.once_in(2) {
            STUCK_INTERVALS - 2 + self.whole(0, 4)
        } else {
            let bits = self.draws.whole(20, 62);
            self.whole(1 << bits, 2 << bits)
        }
    }

    fn disturb_domain(&mut self, grid: &mut Grid) {
        let bad = self.any_of(&NOT_FINITE);
        let (lo, hi) = (grid.lo, grid.hi);
        (grid.lo, grid.hi) = match self.draws.whole(1, 9) {
            1 => (bad, hi),
            2 => (lo, bad),
            3 => (hi, lo),
            4 => (lo, lo),
            5 => (-0.0, 0.0),
            6 => (self.draws.pattern(), self.draws.pattern()),
            7 => (-3.4e38, 3.4e38),
            8 => (f32::NAN, f32::NAN),
            // Too few steps of f32 for the intervals.
            _ => (1e6, beside(1e6, self.whole(1, 4) as i64)),
        };
    }
}

impl Default for Maker {
    fn default() -> Self {
        Maker::new()
    }
}
