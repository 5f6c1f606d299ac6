//! Comparisons counted: how many, how many of NaN, and the first differences in full.

use crate::bits::{alike, hex};

const SHOWN: usize = 10;

pub struct Tally {
    name: &'static str,
    compared: u64,
    nans: u64,
    different: u64,
    shown: Vec<String>,
    /// Where docs/DIFFERENCES.md says that the Rust parts from the rules, how often it did, and the first time.
    line: &'static str,
    parted: u64,
    first_parted: Option<String>,
}

impl Tally {
    pub fn new(name: &'static str) -> Self {
        Tally {
            name,
            compared: 0,
            nans: 0,
            different: 0,
            shown: Vec::new(),
            line: "",
            parted: 0,
            first_parted: None,
        }
    }

    /// A tally of answers in which the Rust may part from the rules, by this line of docs/DIFFERENCES.md.
    pub fn with_line(name: &'static str, line: &'static str) -> Self {
        Tally {
            line,
            ..Tally::new(name)
        }
    }

    /// Counts one answer of the proved code beside the one that is expected, mostly the ported Rust's.
    pub fn compare(&mut self, proved: f32, expected: f32, at: impl FnOnce() -> String) {
        self.compared += 1;
        self.nans += u64::from(expected.is_nan());
        if alike(proved, expected) {
            return;
        }
        self.different += 1;
        if self.shown.len() < SHOWN {
            let (proved, expected) = (hex(proved), hex(expected));
            self.shown
                .push(format!("{}: proved {proved}, expected {expected}", at()));
        }
    }

    /// The same where the Rust may part from the rules, which the proved code follows.
    pub fn compare_parted(
        &mut self,
        proved: f32,
        document: f32,
        rust: f32,
        at: impl Fn() -> String,
    ) {
        self.compare(proved, document, &at);
        if !alike(document, rust) {
            self.parted += 1;
            let (document, rust) = (hex(document), hex(rust));
            self.first_parted
                .get_or_insert_with(|| format!("{}: Rust {rust}, rules {document}", at()));
        }
    }

    /// How often the Rust parted from the rules.
    pub fn parted(&self) -> u64 {
        self.parted
    }

    /// Takes over what another tally of the same name has counted.
    pub fn absorb(&mut self, other: Tally) {
        self.compared += other.compared;
        self.nans += other.nans;
        self.different += other.different;
        self.shown.extend(other.shown);
        self.shown.truncate(SHOWN);
        self.parted += other.parted;
        self.first_parted = self.first_parted.take().or(other.first_parted);
    }

    pub fn print(&self) {
        println!(
            "{:<24} {:>11} compared {:>10} NaN {:>4} differences",
            self.name, self.compared, self.nans, self.different
        );
        for line in &self.shown {
            println!("    {line}");
        }
        if let Some(first) = &self.first_parted {
            let Tally { parted, line, .. } = self;
            println!("    {parted} known differences, docs/DIFFERENCES.md: {line}; first {first}");
        }
    }

    pub fn is_alike(&self) -> bool {
        self.different == 0
    }
}
