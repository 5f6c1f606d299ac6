//! One call on a network with everything that is lent to it: before, after, and what two ends of it differ in.

use crate::compared::{Column, Compared, Differences, Line, Names};
use crate::compared::{DEFAULT_4, LATER_20, LATER_23};
use crate::lent::{Cell, Lent};
use crate::nans::{fill, first_not_finite, NanAt};
use crate::ported::Grid;
use crate::reading::split::{self, Gathering};
use crate::reading::training::{self, Lesson, Room};
use crate::reading::visits;
use crate::reading::{self, Batch, Configuration, Refusal, Work, STUCK_INTERVALS};
use std::fmt::{self, Display};

#[derive(Clone, Copy, Debug, PartialEq)]
pub enum Kind {
    Check,
    Initialise,
    Predict,
    Loss,
    TrainStep,
    Train,
    Visits,
    Accumulate,
    Apply,
}

/// The kinds that the program `calls` makes.
pub const FIRST_KINDS: [Kind; 4] = [Kind::Check, Kind::Initialise, Kind::Predict, Kind::Loss];

/// Longer buffers are shown in part.
const SHOWN: usize = 600;

/// A call of any kind; what a kind does not take is empty and stays as it is.
#[derive(Clone)]
pub struct Call {
    pub kind: Kind,
    pub widths: Lent<usize>,
    pub grid: Grid,
    pub seed: u64,
    pub model: Lent<f32>,
    pub inputs: Lent<f32>,
    pub targets: Lent<f32>,
    pub steps: usize,
    pub rate: f32,
    pub total: usize,
    pub first: Lent<f32>,
    pub second: Lent<f32>,
    pub gradients: Lent<f32>,
    pub work: Lent<f32>,
    pub outputs: Lent<f32>,
    pub map: Lent<u8>,
    pub parameters: Lent<usize>,
    pub loss: Lent<f32>,
    pub done: Lent<usize>,
    pub carried: Lent<usize>,
    /// The number that the call gave.
    pub number: u32,
}

impl Call {
    pub fn new(kind: Kind, widths: &[usize], grid: Grid) -> Self {
        Call {
            kind,
            widths: Lent::new(widths),
            grid,
            seed: 0,
            model: Lent::null(),
            inputs: Lent::null(),
            targets: Lent::null(),
            steps: 0,
            rate: 0.0,
            total: 0,
            first: Lent::null(),
            second: Lent::null(),
            gradients: Lent::null(),
            work: Lent::null(),
            outputs: Lent::null(),
            map: Lent::null(),
            parameters: Lent::number(),
            loss: Lent::number(),
            done: Lent::number(),
            carried: Lent::number(),
            number: 0,
        }
    }

    fn read_check(&mut self, config: &Configuration) -> Result<(), Refusal> {
        self.parameters.contents_mut()[0] = reading::check(config)?;
        Ok(())
    }

    fn read_predict(&mut self, config: &Configuration) -> Result<(), Refusal> {
        let work = Work {
            first: self.first.contents_mut(),
            second: self.second.contents_mut(),
        };
        let (model, inputs) = (self.model.contents(), self.inputs.contents());
        reading::predict(config, model, inputs, work, self.outputs.contents_mut())
    }

    fn read_loss(&mut self, config: &Configuration) -> Result<(), Refusal> {
        let work = Work {
            first: self.first.contents_mut(),
            second: self.second.contents_mut(),
        };
        let batch = Batch {
            inputs: self.inputs.contents(),
            targets: self.targets.contents(),
        };
        self.loss.contents_mut()[0] = reading::loss(config, self.model.contents(), batch, work)?;
        Ok(())
    }

    /// The answer is told with the steps that were done.
    fn read_training(
        &mut self,
        config: &Configuration,
        steps: usize,
    ) -> (usize, Result<(), Refusal>) {
        let lesson = Lesson {
            batch: Batch {
                inputs: self.inputs.contents(),
                targets: self.targets.contents(),
            },
            steps,
            rate: self.rate,
        };
        let room = Room {
            gradients: self.gradients.contents_mut(),
            work: self.work.contents_mut(),
        };
        training::train(config, self.model.contents_mut(), lesson, room)
    }

    fn read_train(&mut self, config: &Configuration) -> Result<(), Refusal> {
        let (done, answer) = self.read_training(config, self.steps);
        self.done.contents_mut()[0] = done;
        answer
    }

    fn read_visits(&mut self, config: &Configuration) -> Result<(), Refusal> {
        let work = Work {
            first: self.first.contents_mut(),
            second: self.second.contents_mut(),
        };
        let (model, inputs) = (self.model.contents(), self.inputs.contents());
        visits::map(config, model, inputs, work, self.map.contents_mut())
    }

    /// By `accumulate` itself, or by its checks alone.
    fn read_accumulate(
        &mut self,
        config: &Configuration,
        read: fn(&Configuration, &[f32], Gathering, Room) -> Result<(), Refusal>,
    ) -> Result<(), Refusal> {
        let gathering = Gathering {
            batch: Batch {
                inputs: self.inputs.contents(),
                targets: self.targets.contents(),
            },
            total: self.total,
        };
        let room = Room {
            gradients: self.gradients.contents_mut(),
            work: self.work.contents_mut(),
        };
        read(config, self.model.contents(), gathering, room)
    }

    fn read_apply(&mut self, config: &Configuration) -> Result<(), Refusal> {
        let (model, gradients) = (self.model.contents_mut(), self.gradients.contents());
        split::apply(config, model, gradients, self.rate)
    }

    /// Of an accepted map, the places of coefficients that it marks by their slopes alone.
    pub fn marked_by_slope(&self) -> Vec<usize> {
        let config = Configuration::new(self.widths.contents(), self.grid);
        let (model, inputs) = (self.model.contents(), self.inputs.contents());
        visits::marked_by_slope(&config, model, inputs, self.map.contents())
    }
}

impl Compared for Call {
    type Kind = Kind;

    fn kind(&self) -> Kind {
        self.kind
    }

    fn read(mut self) -> Self {
        let config = Configuration::new(self.widths.contents(), self.grid);
        let answer = match self.kind {
            Kind::Check => self.read_check(&config),
            Kind::Initialise => reading::initialise(&config, self.seed, self.model.contents_mut()),
            Kind::Predict => self.read_predict(&config),
            Kind::Loss => self.read_loss(&config),
            Kind::TrainStep => self.read_training(&config, 1).1,
            Kind::Train => self.read_train(&config),
            Kind::Visits => self.read_visits(&config),
            Kind::Accumulate => self.read_accumulate(&config, split::accumulate),
            Kind::Apply => self.read_apply(&config),
        };
        let (number, carried) = reading::told(answer);
        self.number = number;
        self.carried.contents_mut()[0] = carried;
        self
    }

    fn differences(&self, other: &Call, names: Names) -> Vec<String> {
        let mut lines = Differences::new(names);
        lines.compare_numbers(self.number, other.number);
        let numbers = [
            ("carried", &self.carried, &other.carried),
            ("parameters", &self.parameters, &other.parameters),
            ("done", &self.done, &other.done),
            ("widths", &self.widths, &other.widths),
        ];
        for (name, own, others) in numbers {
            lines.compare(name, own, others);
        }
        for ((name, own), (_, others)) in self.floats().into_iter().zip(other.floats()) {
            if self.summed() == Some(name) {
                lines.compare(name, &own.with_one_nan(), &others.with_one_nan());
            } else {
                lines.compare(name, own, others);
            }
        }
        lines.compare("map", &self.map, &other.map);
        lines.all()
    }

    fn answer(&self) -> (u32, usize) {
        (self.number, self.carried.contents()[0])
    }

    fn line(&self) -> Line {
        let is_later = self.kind == Kind::Train && self.steps() > 0;
        match self.number {
            4 if self.grid.intervals >= STUCK_INTERVALS => DEFAULT_4,
            20 if is_later => LATER_20,
            23 if is_later => LATER_23,
            number => number as Line,
        }
    }

    fn written(&self) -> Vec<u64> {
        match self.kind {
            Kind::Check => bits(&self.parameters),
            Kind::Initialise | Kind::TrainStep | Kind::Apply => bits(&self.model),
            Kind::Predict => bits(&self.outputs),
            Kind::Loss => bits(&self.loss),
            Kind::Train => [bits(&self.done), bits(&self.model)].concat(),
            Kind::Visits => bits(&self.map),
            Kind::Accumulate => bits(&self.gradients.with_one_nan()),
        }
    }

    fn floats(&self) -> Vec<(&'static str, &Lent<f32>)> {
        vec![
            ("model", &self.model),
            ("inputs", &self.inputs),
            ("targets", &self.targets),
            ("first", &self.first),
            ("second", &self.second),
            ("gradients", &self.gradients),
            ("work", &self.work),
            ("outputs", &self.outputs),
            ("loss", &self.loss),
        ]
    }

    fn summed(&self) -> Option<&'static str> {
        (self.kind == Kind::Accumulate && self.number == 0).then_some("gradients")
    }

    /// Of training, the answer of no steps: what they meet does not come from numbers that are not finite.
    fn expected(&self) -> (u32, usize) {
        let mut call = self.clone();
        match self.kind {
            Kind::TrainStep | Kind::Train => {
                call.kind = Kind::Train;
                call.steps = 0;
            }
            Kind::Accumulate => {
                let config = Configuration::new(call.widths.contents(), call.grid);
                return reading::told(call.read_accumulate(&config, split::checks));
            }
            _ => (),
        }
        call.read().answer()
    }

    fn with_nans(mut self, (number, row): (u32, usize), nan_at: NanAt) -> Self {
        let (model, inputs, targets, gradients) = (
            self.unread_model(number),
            self.unread_inputs(number, row),
            self.unread_targets(number),
            self.unread_gradients(number),
        );
        fill(&mut self.model, model, nan_at);
        fill(&mut self.inputs, inputs, nan_at);
        fill(&mut self.targets, targets, nan_at);
        fill(&mut self.first, 0, nan_at);
        fill(&mut self.second, 0, nan_at);
        fill(&mut self.gradients, gradients, nan_at);
        fill(&mut self.work, 0, nan_at);
        fill(&mut self.outputs, 0, nan_at);
        if self.kind == Kind::Loss {
            fill(&mut self.loss, 0, nan_at);
        }
        self
    }

    fn steps(&self) -> u64 {
        match self.kind {
            Kind::TrainStep => u64::from(self.number == 0),
            Kind::Train => self.done.contents()[0] as u64,
            _ => 0,
        }
    }
}

/// From which place on the numbers that a call reads do not decide its answer, which has this number.
impl Call {
    fn unread_model(&self, number: u32) -> usize {
        match number {
            _ if self.kind == Kind::Initialise => 0,
            1..=10 => 0,
            11 => first_not_finite(&self.model),
            _ => self.model.len(),
        }
    }

    /// Prediction and the map look at a row once those before it are done, and carry the one that they refuse.
    fn is_by_rows(&self) -> bool {
        matches!(self.kind, Kind::Predict | Kind::Visits)
    }

    fn unread_inputs(&self, number: u32, row: usize) -> usize {
        let width = self.widths.contents().first();
        match (number, width) {
            (1..=13, _) => 0,
            (14, Some(width)) => short_row(&self.inputs, *width),
            (15, _) => first_not_finite(&self.inputs),
            (20, Some(width)) if self.is_by_rows() => (row + 1) * width,
            _ => self.inputs.len(),
        }
    }

    fn unread_targets(&self, number: u32) -> usize {
        let width = self.widths.contents().last();
        match (number, width) {
            (1..=15, _) => 0,
            (16, Some(width)) => short_row(&self.targets, *width),
            (17, _) => first_not_finite(&self.targets),
            _ => self.targets.len(),
        }
    }

    /// What an accepted call adds to, or applies, is left as it is. Any NaN that is applied is 23.
    fn unread_gradients(&self, number: u32) -> usize {
        match (self.kind, number) {
            (Kind::Accumulate | Kind::Apply, 0) => self.gradients.len(),
            _ => 0,
        }
    }
}

/// Where the short row of a batch begins.
fn short_row(batch: &Lent<f32>, width: usize) -> usize {
    batch.len() - batch.len() % width
}

/// The bits of all lent cells.
pub fn bits<T: Cell>(lent: &Lent<T>) -> Vec<u64> {
    lent.contents().iter().map(|cell| cell.bits()).collect()
}

impl Column for Kind {
    fn gives(self, line: Line) -> bool {
        let beyond_configuration: &[Line] = match self {
            Kind::Check => &[],
            Kind::Initialise => &[8],
            Kind::Predict | Kind::Visits => &[8, 9, 10, 11, 14, 15, 20],
            Kind::Loss => &[8, 9, 11, 12, 13, 14, 15, 16, 17, 18, 20, 21, 22],
            Kind::TrainStep => &[8, 9, 11, 12, 13, 14, 15, 16, 17, 18, 19, 20, 23],
            Kind::Train => &[
                8, 9, 11, 12, 13, 14, 15, 16, 17, 18, 19, 20, LATER_20, 23, LATER_23,
            ],
            Kind::Accumulate => &[8, 9, 10, 11, 12, 13, 14, 15, 16, 17, 18, 20, 28],
            Kind::Apply => &[8, 10, 11, 19, 23],
        };
        line <= 7 || line == DEFAULT_4 || beyond_configuration.contains(&line)
    }

    /// A check is lent none, accepted initialisation writes all, and what is applied is finite.
    fn leaves_floats(self, line: Line) -> bool {
        match self {
            Kind::Check => false,
            Kind::Initialise | Kind::Apply => line != 0 && self.gives(line),
            _ => self.gives(line),
        }
    }
}

impl Display for Kind {
    fn fmt(&self, formatter: &mut fmt::Formatter<'_>) -> fmt::Result {
        formatter.pad(match self {
            Kind::Check => "check",
            Kind::Initialise => "initialise",
            Kind::Predict => "predict",
            Kind::Loss => "loss",
            Kind::TrainStep => "train_step",
            Kind::Train => "train",
            Kind::Visits => "visits",
            Kind::Accumulate => "accumulate",
            Kind::Apply => "apply",
        })
    }
}

/// All arguments in hexadecimal, floats as their bits.
impl Display for Call {
    fn fmt(&self, formatter: &mut fmt::Formatter<'_>) -> fmt::Result {
        let Grid { intervals, lo, hi } = self.grid;
        let (lo, hi, seed) = (lo.to_bits(), hi.to_bits(), self.seed);
        let (steps, rate, total) = (self.steps, self.rate.to_bits(), self.total);
        writeln!(
            formatter,
            "kan_{} widths {}",
            self.kind,
            cells(&self.widths)
        )?;
        write!(
            formatter,
            "    intervals {intervals:x} lo {lo:x} hi {hi:x} seed {seed:x} steps {steps:x} "
        )?;
        writeln!(formatter, "rate {rate:x} total {total:x}")?;
        for (name, buffer) in self.floats() {
            writeln!(formatter, "    {name} {}", cells(buffer))?;
        }
        writeln!(formatter, "    map {}", cells(&self.map))
    }
}

/// The length and the first cells of a buffer.
pub fn cells<T: Cell>(buffer: &Lent<T>) -> String {
    if buffer.is_null() {
        return "null".to_owned();
    }
    let shown = buffer.contents().iter().take(SHOWN);
    let words: Vec<String> = shown.map(|cell| format!("{:x}", cell.bits())).collect();
    let more = if buffer.len() > SHOWN { " .." } else { "" };
    format!("{}: {}{more}", buffer.len(), words.join(" "))
}
