//! Calls as lines of the stored lists, which the program `model_vectors` replays: a tag, and then words in hexadecimal, the
//! arguments, the answer and all that the call leaves in what it was lent.

use crate::calls::{bits, Call, Kind};
use crate::compared::Compared;
use crate::image_calls::{self, ImageCall};
use crate::lent::{Cell, Lent};
use crate::npy_calls::{self, NpyCall};
use crate::ported::Grid;

/// A call that the stored lists have a form for; more than one line where more than one proved call takes it.
pub trait Stored: Compared {
    /// The lines of this call, as the reading of it ends.
    fn lines(&self, read: &Self) -> Vec<String>;
}

fn line(tag: char, parts: &[Vec<u64>]) -> String {
    let words = parts.iter().flatten().map(|word| format!(" {word:x}"));
    format!("{tag}{}", words.collect::<String>())
}

fn length<T: Cell>(lent: &Lent<T>) -> Vec<u64> {
    vec![lent.len() as u64]
}

fn list<T: Cell>(lent: &Lent<T>) -> Vec<u64> {
    [length(lent), bits(lent)].concat()
}

fn float(x: f32) -> u64 {
    u64::from(x.to_bits())
}

fn configuration(widths: &Lent<usize>, grid: Grid) -> Vec<u64> {
    let Grid { intervals, lo, hi } = grid;
    [list(widths), vec![intervals as u64, float(lo), float(hi)]].concat()
}

fn answer<C: Compared>(read: &C) -> Vec<u64> {
    let (number, carried) = read.answer();
    vec![u64::from(number), carried as u64]
}

impl Stored for Call {
    fn lines(&self, read: &Call) -> Vec<String> {
        let first = [configuration(&self.widths, self.grid), list(&self.model)];
        let (tag, more) = match self.kind {
            Kind::Visits => ('V', self.visit_words(read)),
            Kind::TrainStep => ('O', self.training_words(read, &[], &[])),
            Kind::Train => {
                let (steps, done) = (self.steps as u64, bits(&read.done));
                ('T', self.training_words(read, &[steps], &done))
            }
            Kind::Accumulate => ('A', self.accumulate_words(read)),
            Kind::Apply => ('X', self.apply_words(read)),
            kind => panic!("no list has a form for {kind}"),
        };
        vec![line(tag, &[first.concat(), more])]
    }
}

impl Call {
    fn visit_words(&self, read: &Call) -> Vec<u64> {
        let lent = [length(&self.first), length(&self.second), length(&self.map)];
        let left = [bits(&read.first), bits(&read.second), bits(&read.map)];
        [
            list(&self.inputs),
            lent.concat(),
            answer(read),
            left.concat(),
        ]
        .concat()
    }

    fn accumulate_words(&self, read: &Call) -> Vec<u64> {
        let batch = [list(&self.inputs), list(&self.targets)].concat();
        let asked = [vec![self.total as u64], list(&self.gradients)].concat();
        let lent = length(&self.work);
        let left = [bits(&read.gradients), bits(&read.work)].concat();
        [batch, asked, lent, answer(read), left].concat()
    }

    /// The gradients are only read.
    fn apply_words(&self, read: &Call) -> Vec<u64> {
        let asked = [list(&self.gradients), vec![float(self.rate)]].concat();
        [asked, answer(read), bits(&read.model)].concat()
    }

    /// What one of the two calls asks and answers more than the other stands behind the rate and the answer.
    fn training_words(&self, read: &Call, asked: &[u64], answered: &[u64]) -> Vec<u64> {
        let lent = [length(&self.gradients), length(&self.work)].concat();
        let left = [bits(&read.model), bits(&read.gradients), bits(&read.work)];
        let batch = [list(&self.inputs), list(&self.targets)].concat();
        let rate = vec![float(self.rate)];
        let told = [&answer(read)[..], answered].concat();
        [batch, lent, rate, asked.to_vec(), told, left.concat()].concat()
    }
}

impl Stored for ImageCall {
    fn lines(&self, read: &ImageCall) -> Vec<String> {
        match self.kind {
            image_calls::Kind::Write => vec![self.write_line(read)],
            image_calls::Kind::Read => vec![self.description_line(read), self.part_line(read)],
            image_calls::Kind::Unpack => vec![self.unpack_line(read)],
        }
    }
}

impl ImageCall {
    fn write_line(&self, read: &ImageCall) -> String {
        let asked = [configuration(&self.widths, self.grid), list(&self.model)];
        let lent = length(&self.image);
        line(
            'W',
            &[asked.concat(), lent, answer(read), bits(&read.image)],
        )
    }

    fn description_line(&self, read: &ImageCall) -> String {
        let described = match read.number {
            0 => read.written(),
            _ => Vec::new(),
        };
        line('H', &[list(&self.image), answer(read), described])
    }

    /// The reader hands back the parameters' bytes, none of a refused image.
    fn part_line(&self, read: &ImageCall) -> String {
        let bytes = match read.number {
            0 => 4 * read.parameters.contents()[0],
            _ => 0,
        };
        let told = vec![u64::from(read.number), bytes as u64];
        let part = bits(&self.image)[..bytes].to_vec();
        line('J', &[list(&self.image), told, part])
    }

    fn unpack_line(&self, read: &ImageCall) -> String {
        let lent = [length(&self.widths), length(&self.model)].concat();
        let left = [bits(&read.widths), bits(&read.model)].concat();
        line('Y', &[list(&self.image), lent, answer(read), left])
    }
}

impl Stored for NpyCall {
    fn lines(&self, read: &NpyCall) -> Vec<String> {
        let network = [configuration(&self.widths, self.grid), list(&self.model)].concat();
        let layer = vec![self.layer as u64];
        let (tag, file) = match self.kind {
            npy_calls::Kind::Write => ('N', length(&self.file)),
            npy_calls::Kind::Read => ('R', list(&self.file)),
        };
        vec![line(
            tag,
            &[network, layer, file, answer(read), read.written()],
        )]
    }
}
