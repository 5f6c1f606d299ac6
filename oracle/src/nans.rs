//! NaN of all kinds, for memory that a call must leave alone. The proofs know one NaN alone, so that which bits of it stay
//! in memory is left to comparison runs.

use crate::draws::Draws;
use crate::lent::Lent;
use std::hint::black_box;

/// In turns quiet and signalling, and of both signs in every four: those that processors make, those of the smallest and the
/// largest bits, and others.
pub const CHOSEN: [u32; 16] = [
    0x7fc0_0000,
    0xff80_0001,
    0xffc0_0000,
    0x7f80_0001,
    0x7fc0_0001,
    0xffbf_ffff,
    0xffff_ffff,
    0x7fbf_ffff,
    0x7fff_ffff,
    0xff92_3456,
    0xffc1_2345,
    0x7faa_aaaa,
    0x7fd5_5555,
    0xffa0_0000,
    0xffea_aaaa,
    0x7f81_2345,
];

/// The bit that tells a quiet NaN from a signalling one.
const QUIET: u32 = 0x0040_0000;

pub fn is_signalling(nan: f32) -> bool {
    nan.to_bits() & QUIET == 0
}

/// The NaN for a cell at this place of a buffer.
pub type NanAt<'a> = &'a mut dyn FnMut(usize) -> f32;

/// The chosen ones in their order, which begins anew in every buffer, behind so many that are passed over.
pub fn chosen(passed: usize) -> impl Fn(usize) -> f32 {
    move |place| f32::from_bits(CHOSEN[(passed + place) % CHOSEN.len()])
}

/// A chosen one, or any.
pub fn drawn(draws: &mut Draws) -> f32 {
    let drawn = 0x7f80_0000 | draws.word() as u32;
    let place = draws.whole(0, CHOSEN.len() as u64 - 1);
    let is_infinite = drawn & 0x007f_ffff == 0;
    if is_infinite || draws.whole(1, 2) == 1 {
        chosen(0)(place as usize)
    } else {
        f32::from_bits(drawn)
    }
}

/// Puts NaN into all cells from a place on.
pub fn fill(lent: &mut Lent<f32>, from: usize, nan_at: NanAt) {
    let cells = lent.contents_mut().iter_mut().skip(from);
    for (place, cell) in cells.enumerate() {
        *cell = nan_at(place);
    }
}

/// Where the first number lies that is not finite; the length, where there is none.
pub fn first_not_finite(lent: &Lent<f32>) -> usize {
    let numbers = lent.contents();
    let place = numbers.iter().position(|x| !x.is_finite());
    place.unwrap_or(numbers.len())
}

/// Stops the program unless lending and copying keep a NaN's bits: a processor may change them where a float passes through
/// its registers, as the x87 makes a signalling NaN quiet, and then nothing could be said of the archive.
pub fn demand_kept() {
    for pattern in CHOSEN {
        let lent = Lent::new(&[black_box(f32::from_bits(pattern))]);
        let copied = black_box(lent.clone()).contents()[0].to_bits();
        assert_eq!(copied, pattern, "copying changes a NaN's bits");
    }
}
