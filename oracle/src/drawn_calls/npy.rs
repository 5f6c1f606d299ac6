//! Drawn calls of a layer's NPY file: written ones, and files whose headers are put together from tokens, in all the ways
//! that the rules allow and in some that they do not.

use super::{Maker, NOT_FINITE};
use crate::npy_calls::{Kind, NpyCall};
use crate::reading::npy::{self, Layer, MAGIC, TEXT};
use crate::reading::Configuration;
use crate::rounds::Comparison;

/// Files of each round that are read.
const FILES: u64 = 12;
/// The longest text that two bytes can tell the length of.
const LONGEST_TEXT: usize = 65_535;

const OTHER_HEADER: &str = "accepted files with another header than the writer's";
const LONG_HEADER: &str = "accepted files with a header of 60,000 bytes or more";
const WRAPPED: &str = "files refused with 30 for a size that is right modulo 2^64 alone";
const MALFORMED_AND_OTHER: &str =
    "files refused with 29 that are of another type, order or shape too";

/// What rounds look for besides the answers.
pub const SIGHTS: [&str; 4] = [OTHER_HEADER, LONG_HEADER, WRAPPED, MALFORMED_AND_OTHER];

const TYPES: [&str; 12] = [
    ">f4", "=f4", "|f4", "f4", "<f8", "<f2", "<i4", "<F4", "<f4 ", " <f4", "float32", "",
];

/// Tokens that belong to no header, or stand at no place of it where they are put.
const ODD_TOKENS: [&str; 40] = [
    "",
    ",",
    ",,",
    ":",
    "{",
    "}",
    "(",
    ")",
    "[",
    "]",
    "()",
    "(,)",
    "0",
    "00",
    "05",
    "-5",
    "+5",
    "5.",
    "5L",
    "1_0",
    "0x5",
    "²",
    "true",
    "false",
    "TRUE",
    "None",
    "Truely",
    "TrueFalse",
    "descr",
    "\t",
    "\n",
    "\u{a0}",
    "\\",
    "'descr'",
    "\"shape'",
    "'<f4",
    "b'<f4'",
    "'sh\\ape'",
    "'<f\t4'",
    "'<f4\u{7f}'",
];

/// Bytes that separate tokens elsewhere.
const OTHER_GAPS: [&str; 6] = ["\t", "\n", "\r", "\0", "\u{b}", "\u{a0}"];

/// What a header is drawn to be.
struct Drawn {
    text: Vec<u8>,
    /// Whether type, order or shape are others.
    is_other: bool,
    /// Whether a size differs from the layer's by a multiple of 2^64, and nothing else is other.
    is_wrapped: bool,
}

impl Maker {
    /// A model's layer written, then files for the same layer read.
    pub fn npy_round(&mut self, comparison: &mut Comparison<NpyCall>) {
        self.begin(comparison.round, 0);
        let sound = self.sound_image_config();
        let write = self.npy_write(&sound);
        comparison.compare(&self.with_nans(write));
        for _ in 0..FILES {
            let number = self.whole(0, sound.widths.len() - 2);
            let layer = Layer::of(&sound, number).expect("a layer of the network");
            let drawn = self.npy_header(layer);
            let file = self.npy_file(&drawn.text, layer);
            let mut call = self.npy_call(Kind::Read, &sound, number, &file);
            call.model = self.model(&sound);
            let read = comparison.compare(&self.with_nans(call));
            if let Some(sight) = seen(&drawn, &file, layer, read.number) {
                comparison.meet(sight);
            }
        }
    }

    fn npy_write(&mut self, sound: &Configuration) -> NpyCall {
        let number = self.whole(0, sound.widths.len() - 2);
        let layer = Layer::of(sound, number).expect("a layer of the network");
        let needed = npy::FRONT + layer.body();
        let length = match self.draws.whole(1, 20) {
            1 => needed - 1,
            2 => needed + 1,
            3 => needed + 4,
            4 => 0,
            5 => layer.body(),
            _ => needed,
        };
        let old: Vec<u8> = (0..length).map(|_| self.draws.word() as u8).collect();
        let mut call = self.npy_call(Kind::Write, sound, number, &old);
        call.model = self.model(sound);
        call
    }

    /// The call for a layer that is there, or for one that is not; now and then with a faulty configuration.
    fn npy_call(
        &mut self,
        kind: Kind,
        sound: &Configuration,
        layer: usize,
        bytes: &[u8],
    ) -> NpyCall {
        let faulty = self.once_in(12);
        let config = self.configuration(sound, faulty);
        let layers = sound.widths.len() - 1;
        let asked = match self.draws.whole(1, 80) {
            1 => layers,
            2 => layers + 1,
            3 => usize::MAX - self.whole(0, 1),
            4 => self.whole(layers, usize::MAX - 1),
            _ => layer,
        };
        let file = self.lend_image(bytes);
        let mut call = NpyCall::new(kind, &config, asked, file);
        if config.widths.is_empty() {
            call.widths = self.lend(&[]);
        }
        call
    }

    /// The dictionary, spaces and the last byte.
    fn npy_header(&mut self, layer: Layer) -> Drawn {
        let (mut tokens, is_other, is_wrapped) = self.npy_tokens(layer);
        if self.once_in(4) {
            self.damage_tokens(&mut tokens);
        }
        let mut text = self.joined(&tokens).into_bytes();
        let room = LONGEST_TEXT - 1 - text.len();
        let spaces = match self.draws.whole(1, 40) {
            1 => self.whole(0, room),
            2 => room - self.whole(0, room.min(4)),
            3..=20 => 0,
            _ => self.whole(0, 80),
        };
        text.resize(text.len() + spaces, b' ');
        match self.draws.whole(1, 60) {
            1 => (),
            2 => text.extend(b"\r"),
            3 => text.extend(b"\n\n"),
            4 => text.extend(b"\n "),
            _ => text.extend(b"\n"),
        }
        text.truncate(LONGEST_TEXT);
        Drawn {
            text,
            is_other,
            is_wrapped,
        }
    }

    /// All tokens of a dictionary; whether it is of another type, order or shape; and whether only by a size that wraps.
    fn npy_tokens(&mut self, layer: Layer) -> (Vec<String>, bool, bool) {
        let (descr, other_type) = self.drawn_type();
        let descr = vec![self.quoted(&descr)];
        let is_fortran = self.once_in(16);
        let (shape, other_shape, wraps) = self.drawn_shape(layer);
        let order = if is_fortran { "True" } else { "False" };
        let mut entries = vec![
            self.entry("descr", descr),
            self.entry("fortran_order", vec![order.to_owned()]),
            self.entry("shape", shape),
        ];
        for last in [2, 1] {
            entries.swap(last, self.whole(0, last));
        }
        self.damage_entries(&mut entries);
        let mut tokens = vec!["{".to_owned()];
        tokens.extend(entries.join(&",".to_owned()));
        if self.once_in(2) {
            tokens.push(",".to_owned());
        }
        tokens.push("}".to_owned());
        let only_wraps = wraps && !other_type && !is_fortran;
        (tokens, other_type || is_fortran || other_shape, only_wraps)
    }

    fn entry(&mut self, key: &str, value: Vec<String>) -> Vec<String> {
        [vec![self.quoted(key), ":".to_owned()], value].concat()
    }

    /// Now and then an entry is lost, stands once more, or stands in another's place.
    fn damage_entries(&mut self, entries: &mut Vec<Vec<String>>) {
        let (place, other) = (self.whole(0, 2), self.whole(0, 2));
        match self.draws.whole(1, 60) {
            1 => drop(entries.remove(place)),
            2 => entries.push(entries[other].clone()),
            3 => entries[place] = entries[other].clone(),
            _ => (),
        }
    }

    fn quoted(&mut self, content: &str) -> String {
        let quote = if self.once_in(2) { '\'' } else { '"' };
        format!("{quote}{content}{quote}")
    }

    /// The type, and whether it is another one. One of them holds a quote, which ends the string if it is of its kind.
    fn drawn_type(&mut self) -> (String, bool) {
        match self.draws.whole(1, 20) {
            1 => (self.any_of(&TYPES).to_owned(), true),
            2 => ("<f4'".to_owned(), true),
            _ => ("<f4".to_owned(), false),
        }
    }

    /// The tokens of a shape, whether it is another one, and whether it is so only by a size that wraps.
    fn drawn_shape(&mut self, layer: Layer) -> (Vec<String>, bool, bool) {
        let right = layer.shape().map(|size| size.to_string()).to_vec();
        let mut sizes = right.clone();
        let mut wraps = false;
        match self.draws.whole(1, 40) {
            1 => sizes.clear(),
            2 => sizes.truncate(self.whole(1, 2)),
            3 => sizes.push("1".to_owned()),
            4 => sizes.reverse(),
            5..=8 => {
                let place = self.whole(0, 2);
                let size = layer.shape()[place];
                (sizes[place], wraps) = self.other_size(size);
            }
            _ => (),
        }
        let mut tokens = vec!["(".to_owned()];
        for (place, size) in sizes.iter().enumerate() {
            if place > 0 {
                tokens.push(",".to_owned());
            }
            tokens.push(size.clone());
        }
        if !sizes.is_empty() && self.once_in(2) {
            tokens.push(",".to_owned());
        }
        tokens.push(")".to_owned());
        (tokens, sizes != right, wraps)
    }

    /// Another size than this one, and whether it is the same modulo 2^64.
    fn other_size(&mut self, size: usize) -> (String, bool) {
        let wide = size as u128;
        let round = (1 << 64) * u128::from(self.draws.whole(1, 1 << 40));
        let other = match self.draws.whole(1, 8) {
            1 => 0,
            2 => wide + 1,
            3 => wide - 1,
            4 => wide * 10,
            5 => u128::from(self.draws.word()),
            6 => return (format!("{}{size}", "1".repeat(self.whole(1, 400))), false),
            _ => return ((wide + round).to_string(), true),
        };
        (other.to_string(), false)
    }

    /// A token lost, doubled, moved, or one that does not belong there.
    fn damage_tokens(&mut self, tokens: &mut Vec<String>) {
        let last = tokens.len() - 1;
        let place = self.whole(0, last);
        match self.draws.whole(1, 6) {
            1 => drop(tokens.remove(place)),
            2 => tokens.insert(place, tokens[place].clone()),
            3 => tokens.swap(place, self.whole(0, last)),
            4 => tokens.insert(place, self.any_of(&ODD_TOKENS).to_owned()),
            5 => tokens[place] = self.any_of(&ODD_TOKENS).to_owned(),
            _ => {
                let end = tokens[place].len() - 1;
                tokens[place].truncate(end);
            }
        }
    }

    /// The tokens with gaps between them: none, as the writer has them, or of any number of spaces.
    fn joined(&mut self, tokens: &[String]) -> String {
        let kind = self.draws.whole(1, 3);
        let odd = self.once_in(30).then(|| self.whole(0, tokens.len() - 1));
        let mut text = String::new();
        for (place, token) in tokens.iter().enumerate() {
            if odd == Some(place) {
                text += self.any_of(&OTHER_GAPS);
            }
            text += token;
            text += &match kind {
                1 => String::new(),
                2 if token == "," || token == ":" => " ".to_owned(),
                2 => String::new(),
                _ => " ".repeat(self.whole(0, 3)),
            };
        }
        let is_moved = self.once_in(60);
        format!("{}{text}", if is_moved { " " } else { "" })
    }

    /// All bytes: magic, length, text and body, now and then damaged.
    fn npy_file(&mut self, text: &[u8], layer: Layer) -> Vec<u8> {
        let body = self.npy_body(layer);
        let mut bytes = npy::file(text, &body);
        if self.once_in(12) {
            self.damage_front(&mut bytes);
        }
        match self.draws.whole(1, 30) {
            1 => bytes.truncate(self.whole(0, bytes.len())),
            2 => self.any_byte(&mut bytes),
            3 => {
                let most = bytes.len().min(TEXT + text.len()) - 1;
                let place = self.whole(0, most);
                bytes[place] ^= 1 << self.whole(0, 7);
            }
            _ => (),
        }
        bytes
    }

    /// Finite numbers of any size, but for one here and there; mostly as many as there should be.
    fn npy_body(&mut self, layer: Layer) -> Vec<u8> {
        let count = layer.body() / 4;
        let mut numbers: Vec<f32> = (0..count).map(|_| self.draws.of_any_size()).collect();
        if self.once_in(10) {
            let place = self.whole(0, count - 1);
            let payload = self.draws.word() as u32 & 0x807f_ffff;
            numbers[place] = match self.draws.whole(1, 3) {
                1 => self.any_of(&NOT_FINITE),
                2 => f32::from_bits(0x7f80_0000 | payload),
                _ => f32::from_bits(0x7f00_0000 | payload),
            };
        }
        let words = numbers.into_iter().map(f32::to_bits);
        let mut body: Vec<u8> = words.flat_map(u32::to_le_bytes).collect();
        match self.draws.whole(1, 60) {
            1 => body.truncate(body.len() - 1),
            2 => body.truncate(body.len() - 4),
            3 => body.push(self.draws.word() as u8),
            4 => body.extend([0; 4]),
            5 => body.clear(),
            _ => (),
        }
        body
    }

    /// Other bytes before the text: the magic, the version, or the length.
    fn damage_front(&mut self, bytes: &mut Vec<u8>) {
        match self.draws.whole(1, 10) {
            1 => bytes[self.whole(0, MAGIC.len() - 1)] ^= 1 << self.whole(0, 7),
            2 => bytes[6] = self.any_of(&[0, 2, 3]),
            3 => bytes[7] = 1,
            4 => {
                bytes.remove(self.whole(0, TEXT - 1));
            }
            _ => {
                let length = self.other_length(bytes);
                bytes[8..TEXT].copy_from_slice(&length.to_le_bytes());
            }
        }
    }

    fn other_length(&mut self, bytes: &[u8]) -> u16 {
        let length = u16::from_le_bytes([bytes[8], bytes[9]]);
        match self.draws.whole(1, 6) {
            1 => length.wrapping_add(1),
            2 => length.wrapping_sub(1),
            3 => length.swap_bytes(),
            4 => length.wrapping_add(self.any_of(&[4, 20, 256])),
            5 => (bytes.len() - TEXT).min(LONGEST_TEXT) as u16,
            _ => self.any_of(&[0, 1, u16::MAX]),
        }
    }
}

/// What of the things that a long run must meet this call is.
fn seen(drawn: &Drawn, file: &[u8], layer: Layer, number: u32) -> Option<&'static str> {
    let text = &drawn.text;
    let is_whole = file.get(TEXT..TEXT + text.len()) == Some(text);
    match number {
        0 if text.len() >= 60_000 => Some(LONG_HEADER),
        0 if !text.starts_with(npy::dictionary(layer.shape()).as_bytes()) => Some(OTHER_HEADER),
        30 if drawn.is_wrapped && is_whole => Some(WRAPPED),
        29 if drawn.is_other => Some(MALFORMED_AND_OTHER),
        _ => None,
    }
}
