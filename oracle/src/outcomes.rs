//! How often each call gave each number, and the differences between the archive and the reading.

use crate::compared::{line_name, lines_in_order, Compared, Line, Names, LINES};
use crate::kept::Kept;
use crate::settled::Settled;
use std::collections::BTreeMap;

/// Differences that are printed.
const SHOWN: usize = 10;
const BOTH_WAYS: Names = ["proved", "reading"];

pub struct Outcomes<C: Compared> {
    kinds: &'static [C::Kind],
    /// Whether a call of a kind can end on a line.
    gives: fn(C::Kind, Line) -> bool,
    /// The call as the archive makes it.
    made: fn(C) -> C,
    /// For each kind, how often each line was met.
    counts: Vec<[u64; LINES]>,
    kept: Kept,
    steps: u64,
    /// How often rounds met what they look for.
    met: BTreeMap<&'static str, u64>,
    different: u64,
    shown: Vec<String>,
}

impl<C: Compared> Outcomes<C> {
    pub fn new(
        kinds: &'static [C::Kind],
        gives: fn(C::Kind, Line) -> bool,
        made: fn(C) -> C,
    ) -> Self {
        Outcomes {
            kinds,
            gives,
            made,
            counts: vec![[0; LINES]; kinds.len()],
            kept: Kept::new(kinds.len()),
            steps: 0,
            met: BTreeMap::new(),
            different: 0,
            shown: Vec::new(),
        }
    }

    /// Makes the call both ways; the answer is the reading's.
    pub fn compare(&mut self, call: &C, at: impl FnOnce() -> String) -> C {
        let read = call.clone().read();
        let proved = (self.made)(call.clone());
        let kind = call.kind();
        let column = self.kinds.iter().position(|&known| known == kind);
        let column = column.expect("a kind of this table");
        self.counts[column][read.line()] += 1;
        self.steps += read.steps();
        let mut differences = proved.differences(&read, BOTH_WAYS);
        differences.extend(self.kept.count(column, read.line(), call, &proved));
        if !differences.is_empty() {
            self.differ(call, at, differences);
        }
        read
    }

    /// The same for a chosen call; the reading is held to what is settled.
    pub fn compare_settled(&mut self, settled: &Settled<C>, at: impl Fn() -> String) {
        let read = self.compare(&settled.call, &at);
        if let Some(fault) = settled.fault(&read) {
            self.differ(&settled.call, at, vec![fault]);
        }
    }

    /// Counts a call that is not as it should be, and keeps the lines that say so.
    pub fn differ(&mut self, call: &C, at: impl FnOnce() -> String, lines: Vec<String>) {
        self.different += 1;
        if self.shown.len() < SHOWN {
            let lines = lines.join("\n    ");
            self.shown.push(format!("{}: {call}    {lines}", at()));
        }
    }

    pub fn meet(&mut self, sight: &'static str) {
        *self.met.entry(sight).or_default() += 1;
    }

    /// Takes over what was counted elsewhere.
    pub fn absorb(&mut self, other: Outcomes<C>) {
        for (own, others) in self.counts.iter_mut().zip(other.counts) {
            for (count, more) in own.iter_mut().zip(others) {
                *count += more;
            }
        }
        self.kept.absorb(other.kept);
        self.steps += other.steps;
        for (sight, more) in other.met {
            *self.met.entry(sight).or_default() += more;
        }
        self.different += other.different;
        self.shown.extend(other.shown);
        self.shown.truncate(SHOWN);
    }

    pub fn calls(&self) -> u64 {
        self.counts.iter().flatten().sum()
    }

    pub fn kept(&self) -> &Kept {
        &self.kept
    }

    pub fn steps(&self) -> u64 {
        self.steps
    }

    pub fn met(&self, sight: &str) -> u64 {
        self.met.get(sight).copied().unwrap_or(0)
    }

    pub fn different(&self) -> u64 {
        self.different
    }

    pub fn print(&self) {
        let heads = self.kinds.iter().map(|kind| format!("{kind:>11}"));
        println!("{:<12}{}", "number", heads.collect::<String>());
        for line in self.lines() {
            let columns = self.kinds.iter().zip(&self.counts);
            let counts = columns.map(|(&kind, counts)| match counts[line] {
                0 if !(self.gives)(kind, line) => format!("{:>11}", "-"),
                count => format!("{count:>11}"),
            });
            println!("{:<12}{}", line_name(line), counts.collect::<String>());
        }
        self.kept.print();
        self.print_differences();
    }

    pub fn print_differences(&self) {
        for difference in &self.shown {
            println!("{difference}");
        }
    }

    /// Names what should have come and did not; whether there is any.
    pub fn print_missing(&self) -> bool {
        let mut missing = false;
        for (&kind, counts) in self.kinds.iter().zip(&self.counts) {
            for line in self.lines() {
                if (self.gives)(kind, line) && counts[line] == 0 {
                    println!("no {kind} gave {}", line_name(line));
                    missing = true;
                }
            }
        }
        missing
    }

    /// All lines that some call can give or gave.
    fn lines(&self) -> impl Iterator<Item = Line> + '_ {
        lines_in_order().filter(|&line| {
            let mut columns = self.kinds.iter().zip(&self.counts);
            columns.any(|(&kind, counts)| (self.gives)(kind, line) || counts[line] > 0)
        })
    }
}
