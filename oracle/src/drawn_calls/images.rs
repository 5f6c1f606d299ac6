//! Drawn calls of the model image: written ones, and damaged copies that are read.

use super::{Maker, MOST_PARAMETERS, NOT_FINITE};
use crate::image_calls::{ImageCall, Kind};
use crate::lent::Lent;
use crate::reading::images::{self, Word, TRAILER};
use crate::reading::{Configuration, STUCK_INTERVALS};
use crate::rounds::Comparison;

/// Damaged copies of each image, each of them read.
const COPIES: u64 = 24;
/// Of them so many are unpacked as well.
const UNPACKED: u64 = 6;

const WORDS: [Word; 8] = [
    Word::FirstDistance,
    Word::WidthsDistance,
    Word::Widths,
    Word::Intervals,
    Word::Lo,
    Word::Hi,
    Word::Degree,
    Word::Version,
];

/// Words at which some rule turns.
const CHOSEN_WORDS: [u32; 22] = [
    0,
    1,
    2,
    3,
    4,
    28,
    32,
    36,
    40,
    249_995,
    249_996,
    (1 << 24) + 1,
    STUCK_INTERVALS as u32 - 1,
    STUCK_INTERVALS as u32,
    1 << 30,
    1 << 31,
    u32::MAX,
    0x7f80_0000,
    0xff80_0000,
    0x7fc0_0000,
    0x3f80_0000,
    0x7f7f_ffff,
];

impl Maker {
    /// A model written, then damaged copies of a sound image of it read and unpacked.
    pub fn images_round(&mut self, comparison: &mut Comparison<ImageCall>) {
        self.begin(comparison.round, 0);
        let sound = self.sound_image_config();
        let write = self.write_call(&sound);
        comparison.compare(&self.with_nans(write));
        let model = self.parameters(&sound);
        let good = images::image(&sound, &model);
        for copy in 0..COPIES {
            let bytes = self.damaged(&good, &sound);
            let image = self.lend_image(&bytes);
            if copy < UNPACKED {
                let unpack = self.unpack_call(image.clone(), &sound);
                comparison.compare(&self.with_nans(unpack));
            }
            let read = ImageCall::new(Kind::Read, image);
            comparison.compare(&self.with_nans(read));
        }
    }

    /// Mostly one whose grid is accepted, so that the checks behind it are met.
    pub(super) fn sound_image_config(&mut self) -> Configuration {
        loop {
            let sound = self.sound();
            if sound.grid.is_accepted() || self.once_in(20) {
                return sound;
            }
        }
    }

    fn write_call(&mut self, sound: &Configuration) -> ImageCall {
        let faulty = self.once_in(6);
        let config = self.configuration(sound, faulty);
        let needed = images::length(sound);
        let length = match self.draws.whole(1, 20) {
            1 => needed - 1,
            2 => needed + 1,
            3 => needed - 4,
            4 => 0,
            5 => 4 * sound.parameters(),
            _ => needed,
        };
        let old: Vec<u8> = (0..length).map(|_| self.draws.word() as u8).collect();
        let mut call = ImageCall::new(Kind::Write, self.lend_image(&old));
        call.widths = self.lend(&config.widths);
        call.grid = config.grid;
        call.model = self.model(sound);
        call
    }

    fn unpack_call(&mut self, image: Lent<u8>, sound: &Configuration) -> ImageCall {
        let (mut widths, mut parameters) = (sound.widths.len(), sound.parameters());
        match self.draws.whole(1, 20) {
            1 => widths -= 1,
            2 => widths += 1,
            3 => widths = 0,
            4 => parameters -= 1,
            5 => parameters += 1,
            6 => parameters = 0,
            7 => (widths, parameters) = (parameters, widths),
            _ => (),
        }
        let old: Vec<usize> = (0..widths).map(|_| self.draws.word() as usize).collect();
        let mut call = ImageCall::new(Kind::Unpack, image);
        call.widths = self.lend(&old);
        call.model = self.lend_filled(parameters);
        call
    }

    /// The first byte lies anywhere in a word.
    pub(super) fn lend_image(&mut self, bytes: &[u8]) -> Lent<u8> {
        if bytes.is_empty() {
            return self.lend(bytes);
        }
        Lent::behind(self.whole(5, 12), bytes)
    }

    /// The image as it is, or with one fault or several.
    fn damaged(&mut self, good: &[u8], sound: &Configuration) -> Vec<u8> {
        let mut bytes = good.to_vec();
        let faults = match self.draws.whole(1, 20) {
            1..=3 => 0,
            4..=13 => 1,
            14..=18 => 2,
            _ => 3,
        };
        for _ in 0..faults {
            self.damage(&mut bytes, sound);
        }
        bytes
    }

    fn damage(&mut self, bytes: &mut Vec<u8>, sound: &Configuration) {
        match self.draws.whole(1, 16) {
            1..=4 => {
                let word = self.any_of(&WORDS);
                self.replace(bytes, word);
            }
            5 => self.other_count(bytes),
            6 => self.huge_count(bytes),
            7 => self.other_width(bytes, sound),
            8 => self.huge_layers(bytes, sound),
            9 => self.other_intervals(bytes, sound),
            10 => self.other_domain(bytes, sound),
            11 | 12 => self.other_parameter(bytes, sound),
            13 => self.shorter(bytes),
            14 | 15 => self.longer(bytes),
            _ => self.any_byte(bytes),
        }
    }

    /// A trailer's word becomes a chosen one, one close to the old one, or any.
    fn replace(&mut self, bytes: &mut [u8], word: Word) {
        let old = old_word(bytes, word);
        let length = bytes.len() as u32;
        let new = match self.draws.whole(1, 6) {
            1 | 2 => self.any_of(&CHOSEN_WORDS),
            3 => old.wrapping_add(self.any_of(&[1, 4, u32::MAX, u32::MAX - 3])),
            4 => old ^ 1 << self.whole(0, 31),
            5 => length.wrapping_add(self.any_of(&[0, 1, 4, u32::MAX, u32::MAX - 3])),
            _ => self.draws.word() as u32,
        };
        set_word(bytes, word, new);
    }

    /// Another K with the distance that belongs to it: parameters are read as widths, or widths as parameters.
    fn other_count(&mut self, bytes: &mut [u8]) {
        let old = old_word(bytes, Word::Widths);
        let chosen = [0, 1, 2, old.wrapping_sub(1), old.wrapping_add(1), 30_000];
        let all = bytes.len().saturating_sub(TRAILER) as u32 / 4;
        let new = match self.draws.whole(1, 4) {
            1 => all.wrapping_add(self.whole(0, 2) as u32).wrapping_sub(1),
            _ => self.any_of(&chosen),
        };
        set_word(bytes, Word::Widths, new);
        set_word(
            bytes,
            Word::WidthsDistance,
            new.wrapping_mul(4).wrapping_add(32),
        );
    }

    /// A K whose distance is right only modulo 2^32.
    fn huge_count(&mut self, bytes: &mut [u8]) {
        let old = old_word(bytes, Word::Widths);
        let more = self.any_of(&[1 << 30, 2 << 30, 3 << 30]);
        set_word(bytes, Word::Widths, old.wrapping_add(more));
    }

    fn other_width(&mut self, bytes: &mut [u8], sound: &Configuration) {
        let place = self.whole(0, sound.widths.len() - 1);
        let near = (sound.widths[place] as u32).wrapping_add(self.any_of(&[1, u32::MAX]));
        let new = match self.draws.whole(1, 4) {
            1 => 0,
            2 => near,
            3 => self.any_of(&CHOSEN_WORDS),
            _ => self.draws.word() as u32,
        };
        set_width(bytes, sound, place, new);
    }

    /// Layers of nearly 2^64 parameters, or more: one is too large, or only all of them together.
    fn huge_layers(&mut self, bytes: &mut [u8], sound: &Configuration) {
        let per_edge = sound.grid.intervals as u64 + 5;
        let edges = u64::MAX / per_edge;
        let part = self.any_of(&[1, 1, 2, 3]);
        let wide = self.draws.whole(1 << 31, u64::from(u32::MAX));
        let other = edges / part / wide + self.draws.whole(0, 1);
        let ends = [wide as u32, other.min(u64::from(u32::MAX)) as u32];
        for place in 0..sound.widths.len() {
            set_width(bytes, sound, place, ends[place % 2]);
        }
    }

    fn other_intervals(&mut self, bytes: &mut [u8], sound: &Configuration) {
        let near = sound.grid.intervals + self.whole(0, 2);
        let new = match self.draws.whole(1, 5) {
            1 => 0,
            2 => STUCK_INTERVALS - 2 + self.whole(0, 3),
            3 => MOST_PARAMETERS - 8 + self.whole(0, 6),
            4 => self.whole(STUCK_INTERVALS, u32::MAX as usize),
            _ => near.saturating_sub(1),
        };
        set_word(bytes, Word::Intervals, new as u32);
    }

    fn other_domain(&mut self, bytes: &mut [u8], sound: &Configuration) {
        let mut grid = sound.grid;
        self.disturb_domain(&mut grid);
        set_word(bytes, Word::Lo, grid.lo.to_bits());
        set_word(bytes, Word::Hi, grid.hi.to_bits());
    }

    /// A parameter by its bits: mostly not finite, of any pattern.
    fn other_parameter(&mut self, bytes: &mut [u8], sound: &Configuration) {
        let place = 4 * self.whole(0, sound.parameters() - 1);
        let special = self.any_of(&NOT_FINITE).to_bits();
        let payload = self.draws.word() as u32 & 0x807f_ffff;
        let new = match self.draws.whole(1, 5) {
            1 => special,
            2 | 3 => 0x7f80_0000 | payload,
            4 => 0x7f00_0000 | payload,
            _ => payload,
        };
        put(bytes, place, new);
    }

    /// Without some bytes of the front or of the end.
    fn shorter(&mut self, bytes: &mut Vec<u8>) {
        let most = bytes.len();
        let lost = match self.draws.whole(1, 4) {
            1 => self.whole(0, most),
            2 => most - self.whole(0, most.min(40)),
            3 => 4.min(most),
            _ => self.whole(0, most.min(9)),
        };
        if self.once_in(3) {
            bytes.truncate(most - lost);
        } else {
            bytes.drain(..lost);
        }
    }

    /// With some bytes more in front or at the end; now and then the first distance knows of them.
    fn longer(&mut self, bytes: &mut Vec<u8>) {
        let count = if self.once_in(3) {
            4
        } else {
            self.whole(1, 12)
        };
        let more: Vec<u8> = (0..count).map(|_| self.draws.word() as u8).collect();
        if self.once_in(4) {
            bytes.extend(more);
        } else {
            bytes.splice(..0, more);
            if self.once_in(2) {
                let length = bytes.len() as u32;
                set_word(bytes, Word::FirstDistance, length);
            }
        }
    }

    pub(super) fn any_byte(&mut self, bytes: &mut [u8]) {
        if !bytes.is_empty() {
            let place = self.whole(0, bytes.len() - 1);
            bytes[place] = self.draws.word() as u8;
        }
    }
}

/// The trailer's word, or 0 where the image is too short for one.
fn old_word(bytes: &[u8], word: Word) -> u32 {
    if bytes.len() < TRAILER {
        return 0;
    }
    images::trailer(bytes, word)
}

fn set_word(bytes: &mut [u8], word: Word, value: u32) {
    let behind = TRAILER - 4 * word as usize;
    if bytes.len() >= behind {
        put(bytes, bytes.len() - behind, value);
    }
}

/// A width, where it stood before the image was damaged: counted from the end.
fn set_width(bytes: &mut [u8], sound: &Configuration, place: usize, value: u32) {
    let behind = TRAILER + 4 * (sound.widths.len() - place);
    if bytes.len() >= behind {
        put(bytes, bytes.len() - behind, value);
    }
}

/// A word at a place, as far as there are bytes.
fn put(bytes: &mut [u8], place: usize, value: u32) {
    for (byte, new) in bytes.iter_mut().skip(place).zip(value.to_le_bytes()) {
        *byte = new;
    }
}
