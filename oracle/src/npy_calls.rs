//! One call on a layer's NPY file with everything that is lent to it: before, after, and what two ends of it differ in.

use crate::calls::{bits, cells};
use crate::compared::{Column, Compared, Differences, Line, Names, DEFAULT_4};
use crate::lent::Lent;
use crate::nans::{fill, first_not_finite, NanAt};
use crate::ported::Grid;
use crate::reading::{self, npy, Configuration, STUCK_INTERVALS};
use std::fmt::{self, Display};

#[derive(Clone, Copy, Debug, PartialEq)]
pub enum Kind {
    Write,
    Read,
}

pub const KINDS: [Kind; 2] = [Kind::Write, Kind::Read];

#[derive(Clone)]
pub struct NpyCall {
    pub kind: Kind,
    pub widths: Lent<usize>,
    pub grid: Grid,
    pub model: Lent<f32>,
    pub layer: usize,
    pub file: Lent<u8>,
    pub carried: Lent<usize>,
    /// The number that the call gave.
    pub number: u32,
}

impl NpyCall {
    pub fn new(kind: Kind, config: &Configuration, layer: usize, file: Lent<u8>) -> Self {
        NpyCall {
            kind,
            widths: Lent::new(&config.widths),
            grid: config.grid,
            model: Lent::null(),
            layer,
            file,
            carried: Lent::number(),
            number: 0,
        }
    }

    /// From which place on the parameters do not decide the answer, which has this number. Where the file's numbers are
    /// not finite, all parameters are.
    fn unread_model(&self, number: u32) -> usize {
        match number {
            1..=10 | 37 => 0,
            11 => first_not_finite(&self.model),
            _ => self.model.len(),
        }
    }
}

impl Compared for NpyCall {
    type Kind = Kind;

    fn kind(&self) -> Kind {
        self.kind
    }

    fn read(mut self) -> Self {
        let config = Configuration::new(self.widths.contents(), self.grid);
        let (model, file) = (&mut self.model, &mut self.file);
        let answer = match self.kind {
            Kind::Write => npy::write(&config, model.contents(), self.layer, file.contents_mut()),
            Kind::Read => npy::read(&config, model.contents_mut(), self.layer, file.contents()),
        };
        let (number, carried) = reading::told(answer);
        self.number = number;
        self.carried.contents_mut()[0] = carried;
        self
    }

    fn differences(&self, other: &NpyCall, names: Names) -> Vec<String> {
        let mut lines = Differences::new(names);
        lines.compare_numbers(self.number, other.number);
        lines.compare("carried", &self.carried, &other.carried);
        lines.compare("widths", &self.widths, &other.widths);
        lines.compare("model", &self.model, &other.model);
        lines.compare("file", &self.file, &other.file);
        lines.all()
    }

    fn answer(&self) -> (u32, usize) {
        (self.number, self.carried.contents()[0])
    }

    fn line(&self) -> Line {
        match self.number {
            4 if self.grid.intervals >= STUCK_INTERVALS => DEFAULT_4,
            number => number as Line,
        }
    }

    fn written(&self) -> Vec<u64> {
        match self.kind {
            Kind::Write => bits(&self.file),
            Kind::Read => bits(&self.model),
        }
    }

    fn floats(&self) -> Vec<(&'static str, &Lent<f32>)> {
        vec![("model", &self.model)]
    }

    fn with_nans(mut self, (number, _): (u32, usize), nan_at: NanAt) -> Self {
        let unread = self.unread_model(number);
        fill(&mut self.model, unread, nan_at);
        self
    }
}

impl Column for Kind {
    fn gives(self, line: Line) -> bool {
        let beyond_configuration: &[Line] = match self {
            Kind::Write => &[8, 10, 11, 37],
            Kind::Read => &[8, 11, 29, 30, 37],
        };
        line <= 7 || line == DEFAULT_4 || beyond_configuration.contains(&line)
    }

    /// Where the file is looked at, or written, all parameters are finite.
    fn leaves_floats(self, line: Line) -> bool {
        self.gives(line) && ![0, 29, 30].contains(&line)
    }
}

impl Display for Kind {
    fn fmt(&self, formatter: &mut fmt::Formatter<'_>) -> fmt::Result {
        formatter.pad(match self {
            Kind::Write => "write",
            Kind::Read => "read",
        })
    }
}

/// All arguments in hexadecimal, floats as their bits; of a file that is read, what of it is text once more as such.
impl Display for NpyCall {
    fn fmt(&self, formatter: &mut fmt::Formatter<'_>) -> fmt::Result {
        let Grid { intervals, lo, hi } = self.grid;
        let (lo, hi) = (lo.to_bits(), hi.to_bits());
        let widths = cells(&self.widths);
        writeln!(formatter, "kan_npy_{} widths {widths}", self.kind)?;
        let layer = self.layer;
        writeln!(
            formatter,
            "    intervals {intervals:x} lo {lo:x} hi {hi:x} layer {layer:x}"
        )?;
        writeln!(formatter, "    model {}", cells(&self.model))?;
        writeln!(formatter, "    file {}", cells(&self.file))?;
        if self.kind == Kind::Write {
            return Ok(());
        }
        let shown = self.file.contents().iter().take(200);
        let text: String = shown.map(|&byte| byte.escape_ascii().to_string()).collect();
        writeln!(formatter, "    file as text {text}")
    }
}
