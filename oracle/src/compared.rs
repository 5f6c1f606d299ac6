//! What all compared calls have in common: a kind, two ways of being made, and a line of the table on which they end.

use crate::lent::{Cell, Lent};
use crate::nans::NanAt;
use std::fmt::Display;

/// A line of the table: a number of refusal, 0 for accepted calls, or one of those below.
pub type Line = usize;

/// Up to the largest refusal of R3.1, 37, and accepted calls; some numbers between are none.
const NUMBERS: usize = 38;
/// 4 with the domain [-1, 1].
pub const DEFAULT_4: Line = NUMBERS;
/// 20 and 23 after at least one step of the same call.
pub const LATER_20: Line = NUMBERS + 1;
pub const LATER_23: Line = NUMBERS + 2;
/// So many lines are there.
pub const LINES: usize = NUMBERS + 3;

/// A kind of call: a column of the table.
pub trait Column: Copy + PartialEq + Display + Sync + 'static {
    /// Whether a call of this kind can end on this line.
    fn gives(self, line: Line) -> bool;

    /// Whether one that does can leave floats alone that it was lent, without having asked whether they are finite.
    fn leaves_floats(self, line: Line) -> bool;
}

/// A call with everything that is lent to it, before it is made or after.
pub trait Compared: Clone + Display {
    type Kind: Column;

    fn kind(&self) -> Self::Kind;

    /// The call as the rules have it.
    fn read(self) -> Self;

    /// Everything in which two ends differ, as lines in which they have these names.
    fn differences(&self, other: &Self, names: Names) -> Vec<String>;

    /// The number that the call gave, and what it carried.
    fn answer(&self) -> (u32, usize);

    fn line(&self) -> Line;

    /// The bits of what a call of its kind writes, for the settled answers.
    fn written(&self) -> Vec<u64>;

    /// All lent floats by name.
    fn floats(&self) -> Vec<(&'static str, &Lent<f32>)>;

    /// The name of the lent floats to which this call has added. A NaN there may be one that a sum
    /// gave, and then its bits are the machine's choice.
    fn summed(&self) -> Option<&'static str> {
        None
    }

    /// The answer that the call will give, as far as that tells which of the lent floats decide it.
    fn expected(&self) -> (u32, usize) {
        self.clone().read().answer()
    }

    /// The same call with NaN in all lent floats that do not decide this answer of it: what is only written, and what lies
    /// behind the fault that it is refused for.
    fn with_nans(self, answer: (u32, usize), nan_at: NanAt) -> Self;

    /// The training steps that were made.
    fn steps(&self) -> u64 {
        0
    }
}

/// What two ends that are compared are called, in their order.
pub type Names = [&'static str; 2];

/// The lines that tell in what two ends of a call differ.
pub struct Differences {
    names: Names,
    lines: Vec<String>,
}

impl Differences {
    pub fn new(names: Names) -> Self {
        let lines = Vec::new();
        Differences { names, lines }
    }

    /// Adds a line where the numbers of refusal differ.
    pub fn compare_numbers(&mut self, a: u32, b: u32) {
        let [one, other] = self.names;
        if a != b {
            self.lines.push(format!("number: {one} {a}, {other} {b}"));
        }
    }

    /// Adds a line where the cells of one buffer differ.
    pub fn compare<T: Cell>(&mut self, name: &str, a: &Lent<T>, b: &Lent<T>) {
        let [one, other] = self.names;
        if let Some((place, a, b)) = a.difference(b) {
            let line = format!("{name}[{place}]: {one} {a:x}, {other} {b:x}");
            self.lines.push(line);
        }
    }

    pub fn all(self) -> Vec<String> {
        self.lines
    }
}

/// All lines, the particular ones beside their numbers: 4 with the domain [-1, 1] before the other 4.
pub fn lines_in_order() -> impl Iterator<Item = Line> {
    let to_20 = (0..4).chain([DEFAULT_4]).chain(4..=20).chain([LATER_20]);
    to_20.chain(21..=23).chain([LATER_23]).chain(24..NUMBERS)
}

pub fn line_name(line: Line) -> String {
    match line {
        0 => "accepted".to_owned(),
        4 => "4, given".to_owned(),
        DEFAULT_4 => "4, [-1, 1]".to_owned(),
        LATER_20 => "20, later".to_owned(),
        LATER_23 => "23, later".to_owned(),
        number => number.to_string(),
    }
}
