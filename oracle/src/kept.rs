//! NaN that calls left alone, with its bits: how many, in which memory, and after which answers.

use crate::compared::{line_name, lines_in_order, Column, Compared, Line, LINES};
use crate::nans::is_signalling;
use std::collections::BTreeMap;

pub struct Kept {
    /// For each kind, how many quiet ones and how many signalling ones were left alone by calls that ended on a line.
    by_line: Vec<[[u64; 2]; LINES]>,
    /// How many of both in each lent buffer.
    by_buffer: BTreeMap<&'static str, Vec<u64>>,
}

impl Kept {
    pub fn new(columns: usize) -> Self {
        Kept {
            by_line: vec![[[0; 2]; LINES]; columns],
            by_buffer: BTreeMap::new(),
        }
    }

    /// Counts what one call left alone, and tells of NaN with other bits than before: no call
    /// writes a NaN but as a sum, so that one that lies elsewhere afterwards lay there already.
    pub fn count<C: Compared>(
        &mut self,
        column: usize,
        line: Line,
        before: &C,
        after: &C,
    ) -> Vec<String> {
        let mut changed = Vec::new();
        let both = before.floats().into_iter().zip(after.floats());
        for ((name, old), (_, new)) in both.filter(|((name, _), _)| after.summed() != Some(name)) {
            let mut counts = [0; 2];
            let pairs = old.contents().iter().zip(new.contents());
            for (place, (old, new)) in pairs.enumerate().filter(|(_, (_, new))| new.is_nan()) {
                let (was, is) = (old.to_bits(), new.to_bits());
                if was == is {
                    counts[usize::from(is_signalling(*new))] += 1;
                } else {
                    changed.push(format!("{name}[{place}]: was {was:x}, is NaN {is:x}"));
                }
            }
            self.add(name, column, line, counts);
        }
        changed.truncate(1);
        changed
    }

    fn add(&mut self, name: &'static str, column: usize, line: Line, counts: [u64; 2]) {
        if counts == [0; 2] {
            return;
        }
        let columns = self.by_line.len();
        let buffer = self.by_buffer.entry(name);
        buffer.or_insert_with(|| vec![0; columns])[column] += counts[0] + counts[1];
        let line = &mut self.by_line[column][line];
        *line = [line[0] + counts[0], line[1] + counts[1]];
    }

    /// Takes over what was counted elsewhere.
    pub fn absorb(&mut self, other: Kept) {
        let own = self.by_line.iter_mut().flatten().flatten();
        for (count, more) in own.zip(other.by_line.iter().flatten().flatten()) {
            *count += more;
        }
        for (name, counts) in other.by_buffer {
            let columns = counts.len();
            let own = self.by_buffer.entry(name);
            let own = own.or_insert_with(|| vec![0; columns]);
            for (count, more) in own.iter_mut().zip(counts) {
                *count += more;
            }
        }
    }

    pub fn all(&self) -> u64 {
        self.by_line.iter().flatten().flatten().sum()
    }

    fn signalling(&self) -> u64 {
        let lines = self.by_line.iter().flatten();
        lines.map(|[_, signalling]| signalling).sum()
    }

    /// One line for each buffer.
    pub fn print(&self) {
        println!("NaN left alone with their bits:");
        for (name, counts) in &self.by_buffer {
            let counts = counts.iter().map(|count| format!("{count:>11}"));
            println!("{name:<12}{}", counts.collect::<String>());
        }
        println!("{} in all, {} signalling", self.all(), self.signalling());
    }

    /// Names the answers after which a NaN can be left alone and none was, quiet or signalling; whether there is any.
    pub fn print_missing<K: Column>(&self, kinds: &[K]) -> bool {
        let mut missing = false;
        for (kind, lines) in kinds.iter().zip(&self.by_line) {
            for line in lines_in_order().filter(|&line| kind.leaves_floats(line)) {
                for (count, name) in lines[line].iter().zip(["quiet", "signalling"]) {
                    if *count == 0 {
                        let line = line_name(line);
                        println!("no {kind} left a {name} NaN alone, giving {line}");
                        missing = true;
                    }
                }
            }
        }
        missing
    }
}
