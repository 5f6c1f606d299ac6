//! One call on a model image with everything that is lent to it: before, after, and what two ends of it differ in.

use crate::calls::{bits, cells};
use crate::compared::{Column, Compared, Differences, Line, Names, DEFAULT_4};
use crate::lent::Lent;
use crate::nans::{fill, first_not_finite, NanAt};
use crate::ported::Grid;
use crate::reading::images::{self, Description, Word};
use crate::reading::{self, Configuration, Refusal, STUCK_INTERVALS};
use std::fmt::{self, Display};

#[derive(Clone, Copy, Debug, PartialEq)]
pub enum Kind {
    Write,
    Read,
    Unpack,
}

pub const KINDS: [Kind; 3] = [Kind::Write, Kind::Read, Kind::Unpack];

/// A call of any kind; what a kind does not take is empty and stays as it is.
#[derive(Clone)]
pub struct ImageCall {
    pub kind: Kind,
    pub image: Lent<u8>,
    /// The writer's configuration and model; widths and parameters as they are unpacked.
    pub widths: Lent<usize>,
    pub grid: Grid,
    pub model: Lent<f32>,
    /// The numbers of the description: g, both ends, K and P.
    pub intervals: Lent<usize>,
    pub ends: [Lent<f32>; 2],
    pub width_count: Lent<usize>,
    pub parameters: Lent<usize>,
    pub carried: Lent<usize>,
    /// The number that the call gave.
    pub number: u32,
}

impl ImageCall {
    pub fn new(kind: Kind, image: Lent<u8>) -> Self {
        ImageCall {
            kind,
            image,
            widths: Lent::null(),
            grid: Grid::new(0, 0.0, 0.0),
            model: Lent::null(),
            intervals: Lent::number(),
            ends: [Lent::number(), Lent::number()],
            width_count: Lent::number(),
            parameters: Lent::number(),
            carried: Lent::number(),
            number: 0,
        }
    }

    fn read_write(&mut self) -> Result<(), Refusal> {
        let config = Configuration::new(self.widths.contents(), self.grid);
        images::write(&config, self.model.contents(), self.image.contents_mut())
    }

    fn read_description(&mut self) -> Result<(), Refusal> {
        let Description { config, parameters } = images::read(self.image.contents())?;
        self.intervals.contents_mut()[0] = config.grid.intervals;
        self.ends[0].contents_mut()[0] = config.grid.lo;
        self.ends[1].contents_mut()[0] = config.grid.hi;
        self.width_count.contents_mut()[0] = config.widths.len();
        self.parameters.contents_mut()[0] = parameters;
        Ok(())
    }

    fn read_unpack(&mut self) -> Result<(), Refusal> {
        let (widths, model) = (self.widths.contents_mut(), self.model.contents_mut());
        images::unpack(self.image.contents(), widths, model)
    }

    /// From which place on the parameters do not decide the writer's answer, which has this number.
    fn unread_model(&self, number: u32) -> usize {
        match number {
            1..=10 => 0,
            11 => first_not_finite(&self.model),
            _ => self.model.len(),
        }
    }

    /// The intervals that the configuration is checked with.
    fn given_intervals(&self) -> usize {
        match self.kind {
            Kind::Write => self.grid.intervals,
            _ => images::trailer(self.image.contents(), Word::Intervals) as usize,
        }
    }
}

impl Compared for ImageCall {
    type Kind = Kind;

    fn kind(&self) -> Kind {
        self.kind
    }

    fn read(mut self) -> Self {
        let answer = match self.kind {
            Kind::Write => self.read_write(),
            Kind::Read => self.read_description(),
            Kind::Unpack => self.read_unpack(),
        };
        let (number, carried) = reading::told(answer);
        self.number = number;
        self.carried.contents_mut()[0] = carried;
        self
    }

    fn differences(&self, other: &ImageCall, names: Names) -> Vec<String> {
        let mut lines = Differences::new(names);
        lines.compare_numbers(self.number, other.number);
        let numbers = [
            ("carried", &self.carried, &other.carried),
            ("intervals", &self.intervals, &other.intervals),
            ("width count", &self.width_count, &other.width_count),
            ("parameters", &self.parameters, &other.parameters),
            ("widths", &self.widths, &other.widths),
        ];
        for (name, own, others) in numbers {
            lines.compare(name, own, others);
        }
        for ((name, own), (_, others)) in self.floats().into_iter().zip(other.floats()) {
            lines.compare(name, own, others);
        }
        lines.compare("image", &self.image, &other.image);
        lines.all()
    }

    fn answer(&self) -> (u32, usize) {
        (self.number, self.carried.contents()[0])
    }

    fn line(&self) -> Line {
        match self.number {
            4 if self.given_intervals() >= STUCK_INTERVALS => DEFAULT_4,
            number => number as Line,
        }
    }

    fn written(&self) -> Vec<u64> {
        match self.kind {
            Kind::Write => bits(&self.image),
            Kind::Read => [
                bits(&self.intervals),
                bits(&self.ends[0]),
                bits(&self.ends[1]),
                bits(&self.width_count),
                bits(&self.parameters),
            ]
            .concat(),
            Kind::Unpack => [bits(&self.widths), bits(&self.model)].concat(),
        }
    }

    fn floats(&self) -> Vec<(&'static str, &Lent<f32>)> {
        let [lo, hi] = &self.ends;
        vec![("lo", lo), ("hi", hi), ("model", &self.model)]
    }

    fn with_nans(mut self, (number, _): (u32, usize), nan_at: NanAt) -> Self {
        match self.kind {
            Kind::Write => {
                let unread = self.unread_model(number);
                fill(&mut self.model, unread, nan_at);
            }
            Kind::Read => self.ends.iter_mut().for_each(|end| fill(end, 0, nan_at)),
            Kind::Unpack => fill(&mut self.model, 0, nan_at),
        }
        self
    }
}

impl Column for Kind {
    fn gives(self, line: Line) -> bool {
        let beyond_configuration: &[Line] = match self {
            Kind::Write => &[8, 10, 11],
            Kind::Read => &[11, 24, 25, 26, 27],
            Kind::Unpack => &[10, 11, 24, 25, 26, 27],
        };
        // Words of 32 bits have no product of 2^64 or more.
        let by_configuration =
            (line <= 7 || line == DEFAULT_4) && (line != 2 || self == Kind::Write);
        by_configuration || beyond_configuration.contains(&line)
    }

    /// Accepted, the reader and unpacking write all, and the writer's parameters are finite.
    fn leaves_floats(self, line: Line) -> bool {
        line != 0 && self.gives(line)
    }
}

impl Display for Kind {
    fn fmt(&self, formatter: &mut fmt::Formatter<'_>) -> fmt::Result {
        formatter.pad(match self {
            Kind::Write => "write",
            Kind::Read => "read",
            Kind::Unpack => "unpack",
        })
    }
}

/// All arguments in hexadecimal, floats as their bits.
impl Display for ImageCall {
    fn fmt(&self, formatter: &mut fmt::Formatter<'_>) -> fmt::Result {
        let Grid { intervals, lo, hi } = self.grid;
        let (lo, hi) = (lo.to_bits(), hi.to_bits());
        writeln!(
            formatter,
            "kan_image_{} widths {}",
            self.kind,
            cells(&self.widths)
        )?;
        if self.kind == Kind::Write {
            writeln!(formatter, "    intervals {intervals:x} lo {lo:x} hi {hi:x}")?;
        }
        writeln!(formatter, "    model {}", cells(&self.model))?;
        writeln!(formatter, "    image {}", cells(&self.image))
    }
}
