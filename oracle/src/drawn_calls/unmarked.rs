//! Drawn pairs of models that differ only in coefficients which the map of the first does not mark: every call answers both
//! alike, and a training step leaves those coefficients as they were (R17.4).

use super::visits::MARKED_BY_SLOPE;
use super::Maker;
use crate::calls::{cells, Call, Kind};
use crate::compared::{Compared, Line};
use crate::lent::{Cell, Lent};
use crate::ported::Grid;
use crate::reading::Configuration;
use crate::rounds::{Comparison, Round};

/// What both models are asked.
pub const ASKED: [Kind; 5] = [
    Kind::Predict,
    Kind::Loss,
    Kind::TrainStep,
    Kind::Accumulate,
    Kind::Visits,
];

/// What every long run meets. The last two show why slopes mark: a coefficient that only a slope marks can decide a step.
pub const SIGHTS: [&str; 5] = [PAIRS, EDITED, MARKED_BY_SLOPE, EDITED_BY_SLOPE, PARTED];
const PAIRS: &str = "pairs of models, one for each accepted map";
const EDITED: &str = "pairs differ, in unmarked coefficients alone";
const EDITED_BY_SLOPE: &str = "further pairs differ in such coefficients alone";
const PARTED: &str = "further pairs are told apart by a training step of the Rust";

const OLD: f32 = 9.0;

/// On which lines these calls end: networks are sound, and nothing more is asked where a map is refused.
pub fn gives(kind: Kind, line: Line) -> bool {
    let lines: &[Line] = match kind {
        Kind::Visits => &[0, 20],
        Kind::Loss => &[0, 13, 21, 22],
        Kind::TrainStep => &[0, 13, 19, 23],
        Kind::Accumulate => &[0, 13],
        _ => &[0],
    };
    lines.contains(&line)
}

/// The call as one of another kind; it has all that each of them takes.
fn asked(call: &Call, kind: Kind) -> Call {
    Call {
        kind,
        ..call.clone()
    }
}

/// A call, and the same but for some coefficients of its model.
struct Pair {
    first: Call,
    second: Call,
    /// The places of those coefficients.
    edited: Vec<usize>,
}

impl Pair {
    fn new(first: &Call, second: Call) -> Self {
        let models = [&first.model, &second.model].map(Lent::contents);
        let places = 0..models[0].len();
        let edited = places.filter(|&i| models[0][i].bits() != models[1][i].bits());
        Pair {
            first: first.clone(),
            edited: edited.collect(),
            second,
        }
    }

    fn is_edited(&self) -> bool {
        !self.edited.is_empty()
    }

    /// Makes every call on both models; all answers must be alike.
    fn compare(&self, comparison: &mut Comparison<Call>) {
        for kind in ASKED {
            let mut lines = self.parted(kind, |call| comparison.compare(call));
            if !lines.is_empty() {
                lines.push(format!("second model {}", cells(&self.second.model)));
                comparison.differ(&asked(&self.first, kind), lines);
            }
        }
    }

    /// In what the answers for both models part, but for the coefficients that each must have kept.
    fn parted(&self, kind: Kind, mut answer: impl FnMut(&Call) -> Call) -> Vec<String> {
        let mut lines = Vec::new();
        let [first, second] = [&self.first, &self.second].map(|call| {
            let mut answer = answer(&asked(call, kind));
            lines.extend(self.take_kept(call, &mut answer));
            answer
        });
        lines.extend(first.differences(&second, ["first model", "second model"]));
        lines
    }

    /// Takes the edited coefficients out of an answer, and tells which of them were not kept.
    fn take_kept(&self, before: &Call, after: &mut Call) -> Vec<String> {
        let (before, after) = (before.model.contents(), after.model.contents_mut());
        let mut lines = Vec::new();
        for &place in &self.edited {
            let (was, is) = (before[place].bits(), after[place].bits());
            if was != is {
                lines.push(format!("model[{place}]: was {was:x}, is {is:x}"));
            }
            after[place] = 0.0;
        }
        lines
    }
}

/// The places of coefficients that an accepted map does not mark. Without a row it does not mark weights either.
fn unmarked_coefficients(map: &Call) -> Vec<usize> {
    let per_edge = map.grid.intervals + 5;
    let marks = map.map.contents();
    let places = 0..marks.len();
    places
        .filter(|place| place % per_edge >= 2 && marks[*place] == 0)
        .collect()
}

impl Maker {
    /// The map of a drawn model; where it is accepted, a second model, and all calls on both.
    pub fn unmarked_round(&mut self, comparison: &mut Comparison<Call>) {
        let first = self.whole_call(comparison.round);
        let map = comparison.compare(&first);
        if map.number != 0 {
            return;
        }
        comparison.meet(PAIRS);
        self.edit_by_slope(&first, &map, comparison);
        let second = self.edited(&first, &unmarked_coefficients(&map));
        let pair = Pair::new(&first, second);
        if pair.is_edited() {
            comparison.meet(EDITED);
            pair.compare(comparison);
        }
    }

    /// Where slopes alone mark coefficients: whether a training step tells models apart that differ there.
    fn edit_by_slope(&mut self, first: &Call, map: &Call, comparison: &mut Comparison<Call>) {
        let places = map.marked_by_slope();
        if places.is_empty() {
            return;
        }
        comparison.meet(MARKED_BY_SLOPE);
        let pair = Pair::new(first, self.edited(first, &places));
        if pair.is_edited() {
            comparison.meet(EDITED_BY_SLOPE);
            let parted = pair.parted(Kind::TrainStep, |call| call.clone().read());
            if !parted.is_empty() {
                comparison.meet(PARTED);
            }
        }
    }

    /// The call with new numbers at some of these places of its model, or at all.
    fn edited(&mut self, call: &Call, places: &[usize]) -> Call {
        let mut edited = call.clone();
        let all = self.once_in(2);
        for &place in places {
            if all || self.once_in(2) {
                edited.model.contents_mut()[place] = self.draws.of_any_size();
            }
        }
        edited
    }

    /// A call of the map on a sound network, with all that the other kinds take.
    fn whole_call(&mut self, round: Round) -> Call {
        self.begin(round, 0);
        let is_close = self.once_in(2);
        let grid = if is_close {
            Maker::grid_about_zero
        } else {
            Maker::grid
        };
        let sound = self.accepted_on(grid);
        let mut model = self.parameters(&sound);
        let rows = self.row_count();
        let mut inputs = self.finite_inputs(&sound, rows);
        if is_close {
            self.bring_close(&sound, &mut model, &mut inputs);
        }
        let targets = self.finite_targets(rows * sound.output_width());
        let mut call = Call::new(Kind::Visits, &sound.widths, sound.grid);
        call.model = self.lend(&model);
        call.inputs = self.lend(&inputs);
        call.targets = self.lend(&targets);
        call.rate = self.rate();
        call.total = targets.len().max(1);
        lend_room(&mut call, &sound, rows);
        call
    }

    /// A small network that is accepted, on a grid that is drawn in this way.
    pub(super) fn accepted_on(&mut self, grid: fn(&mut Maker) -> Grid) -> Configuration {
        loop {
            let config = self.sound_on(grid);
            if config.grid.is_accepted() {
                return config;
            }
        }
    }

    /// A knot lies at zero: numbers can come closer to it than to any other, so close that a value is zero and a slope is not.
    fn grid_about_zero(&mut self) -> Grid {
        let size = match self.draws.whole(1, 6) {
            1 => self.draws.power_of_ten(),
            2 => 1.0 / self.draws.power_of_ten(),
            _ => self.draws.between(0.5, 5.0),
        };
        let half = self.whole(1, 5);
        match self.draws.whole(1, 3) {
            1 => Grid::new(half, 0.0, size),
            2 => Grid::new(half, -size, 0.0),
            _ => Grid::new(2 * half, -size, size),
        }
    }

    /// Inputs close to zero, and weights with which the layers before the last answer such numbers.
    fn bring_close(&mut self, sound: &Configuration, model: &mut [f32], inputs: &mut [f32]) {
        for input in inputs {
            if self.once_in(3) {
                *input = self.close_to_zero(&sound.grid);
            }
        }
        let per_edge = sound.grid.intervals + 5;
        let ends = &sound.widths[sound.widths.len() - 2..];
        let hidden = model.len() - ends[0] * ends[1] * per_edge;
        // No weight becomes infinite.
        let small = self.close_to_zero(&sound.grid).clamp(-1.0, 1.0);
        for edge in model[..hidden].chunks_mut(per_edge) {
            edge[0] *= small;
            edge[1] *= small;
        }
    }

    fn close_to_zero(&mut self, grid: &Grid) -> f32 {
        let part = 10f64.powi(-(self.whole(12, 24) as i32));
        let size = f64::from(grid.hi) - f64::from(grid.lo);
        self.draws.sign() * (size * part) as f32
    }
}

/// Work, outputs and a map, as long as they must be.
fn lend_room(call: &mut Call, sound: &Configuration, rows: usize) {
    let old = |length: usize| Lent::new(&vec![OLD; length]);
    call.first = old(sound.widest());
    call.second = old(sound.widest());
    call.outputs = old(rows * sound.output_width());
    call.gradients = old(sound.parameters());
    call.work = old(2 * sound.nodes());
    call.map = Lent::new(&vec![OLD as u8; sound.parameters()]);
}
