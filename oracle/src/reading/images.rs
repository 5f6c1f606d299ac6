//! The model image, version 1: its bytes, and the checks of its reader and its writer.

use super::{is_finite, refuse, Configuration, Refusal};
use crate::ported::Grid;

/// R13.2: the trailer, eight words.
pub const TRAILER: usize = 32;
pub const LONGEST: usize = 8_388_608;
const VERSION: u32 = 1;
const DEGREE: u32 = 3;

/// The trailer's words in their order.
#[derive(Clone, Copy, Debug)]
pub enum Word {
    FirstDistance,
    WidthsDistance,
    Widths,
    Intervals,
    Lo,
    Hi,
    Degree,
    Version,
}

/// What the second image call answers.
#[derive(Debug)]
pub struct Description {
    pub config: Configuration,
    pub parameters: usize,
}

/// R13.2: an image is 32 + 4K + 4P bytes long.
pub fn length(config: &Configuration) -> usize {
    TRAILER + 4 * config.widths.len() + 4 * config.parameters()
}

/// R13.1, R13.2: words of 4 bytes: P parameters as bits, the K widths, the trailer; for an accepted configuration with
/// its parameters.
pub fn image(config: &Configuration, model: &[f32]) -> Vec<u8> {
    let mut words: Vec<u32> = model.iter().map(|x| x.to_bits()).collect();
    words.extend(config.widths.iter().map(|&width| width as u32));
    words.extend([
        length(config) as u32,
        (TRAILER + 4 * config.widths.len()) as u32,
        config.widths.len() as u32,
        config.grid.intervals as u32,
        config.grid.lo.to_bits(),
        config.grid.hi.to_bits(),
        DEGREE,
        VERSION,
    ]);
    words.into_iter().flat_map(u32::to_le_bytes).collect()
}

/// R3.4: the writer refuses in the order configuration, 8, 10, 11.
pub fn write(config: &Configuration, model: &[f32], bytes: &mut [u8]) -> Result<(), Refusal> {
    config.accepted()?;
    if model.len() != config.parameters() {
        return refuse(8);
    }
    if bytes.len() != length(config) {
        return refuse(10);
    }
    if !is_finite(model) {
        return refuse(11);
    }
    bytes.copy_from_slice(&image(config, model));
    Ok(())
}

/// The word at a place of the bytes.
pub fn word_at(bytes: &[u8], place: usize) -> u32 {
    let word = [0, 1, 2, 3].map(|byte| bytes[place + byte]);
    u32::from_le_bytes(word)
}

/// A word of the trailer, for an image of 32 bytes or more.
pub fn trailer(bytes: &[u8], word: Word) -> u32 {
    word_at(bytes, bytes.len() - TRAILER + 4 * word as usize)
}

/// R13.3: the reader's checks in their order.
pub fn read(bytes: &[u8]) -> Result<Description, Refusal> {
    if bytes.len() > LONGEST {
        return refuse(24);
    }
    if bytes.len() < TRAILER {
        return refuse(27);
    }
    let version = trailer(bytes, Word::Version);
    if version != VERSION {
        return Err(Refusal {
            number: 25,
            carried: version as usize,
        });
    }
    if trailer(bytes, Word::Degree) != DEGREE {
        return refuse(26);
    }
    let widths = trailer(bytes, Word::Widths) as usize;
    let distance = trailer(bytes, Word::WidthsDistance) as usize;
    if distance != TRAILER + 4 * widths || distance > bytes.len() {
        return refuse(27);
    }
    let config = described(bytes, bytes.len() - distance, widths);
    config.accepted()?;
    let parameters = config.parameters();
    let first_distance = trailer(bytes, Word::FirstDistance) as usize;
    if bytes.len() != length(&config) || first_distance != bytes.len() {
        return refuse(27);
    }
    if !is_finite(&parameters_of(bytes, parameters)) {
        return refuse(11);
    }
    Ok(Description { config, parameters })
}

/// So many widths from a place on, and the trailer's grid.
fn described(bytes: &[u8], place: usize, count: usize) -> Configuration {
    let widths: Vec<usize> = (0..count)
        .map(|width| word_at(bytes, place + 4 * width) as usize)
        .collect();
    let intervals = trailer(bytes, Word::Intervals) as usize;
    let ends = [Word::Lo, Word::Hi].map(|end| f32::from_bits(trailer(bytes, end)));
    Configuration::new(&widths, Grid::new(intervals, ends[0], ends[1]))
}

/// The first words of an image as floats.
fn parameters_of(bytes: &[u8], count: usize) -> Vec<f32> {
    let words = (0..count).map(|parameter| word_at(bytes, 4 * parameter));
    words.map(f32::from_bits).collect()
}

/// The reader's checks, then 10 where a lent length is not K or not P; then widths and parameters are copied.
pub fn unpack(bytes: &[u8], widths: &mut [usize], model: &mut [f32]) -> Result<(), Refusal> {
    let Description { config, parameters } = read(bytes)?;
    if widths.len() != config.widths.len() || model.len() != parameters {
        return refuse(10);
    }
    widths.copy_from_slice(&config.widths);
    model.copy_from_slice(&parameters_of(bytes, parameters));
    Ok(())
}
