//! Inputs that tell one reading of the rules from another: chosen ones and drawn ones.

use crate::bits::beside;
use crate::draws::Draws;
use crate::ported::Grid;

/// Where E, SiLU or its derivative turn, each of use with either sign.
const TURNS: [u32; 15] = [
    0x42cf_f1b4, // E(-x) is the last above +0.0
    0x42ae_ac4f, // E(-x) is the last normal number
    0x42b1_7217, // E(x) is the last finite number
    0x42b2_0000, // 89
    0x42d0_0000, // 104
    0x4185_1592, // 1 + E(-x) becomes 1
    0x33a0_0000, // E(x) leaves 1
    0x3300_0000, // E(-x) leaves 1
    0x3c80_0000, // 2^-6
    0x3f00_0000, // 0.5
    0x3f80_0000, // 1
    0x4000_0000, // 2
    0x4120_0000, // 10
    0x0080_0000, // the smallest normal number
    0x7f7f_ffff, // the largest number
];

/// Inputs of E, SiLU and its derivative: zero, tiny, at and beside the turns, and drawn ones.
pub fn exponential_inputs() -> Vec<f32> {
    let mut inputs = vec![0.0, beside(0.0, 1), beside(0.0, 1000), 1e-40, 1e-16, 1e-8];
    for bits in TURNS {
        inputs.extend((-2..=2).map(|steps| beside(f32::from_bits(bits), steps)));
    }
    let opposite: Vec<f32> = inputs.iter().map(|x| -x).collect();
    inputs.extend(opposite);
    let mut draws = Draws::new(1);
    inputs.extend((0..100).map(|_| draws.between(-104.0, 89.0)));
    inputs.extend((0..40).map(|_| draws.between(-4.0, 4.0)));
    inputs.extend((0..40).map(|_| draws.number()));
    without_repeats(inputs)
}

/// Inputs at and beside knots, inside, at both ends, outside, near zero and not finite.
pub fn basis_inputs(grid: &Grid) -> Vec<f32> {
    let knots = grid.knots();
    let (last, middle) = (knots.len() - 1, knots.len() / 2);
    let mut inputs = vec![grid.lo, grid.hi, knots[1], knots[last - 1]];
    for index in [0, middle, last] {
        inputs.extend([-1, 0, 1].map(|steps| beside(knots[index], steps)));
    }
    for index in [3, last - 3] {
        inputs.extend([-1, 1].map(|steps| beside(knots[index], steps)));
    }
    let mut draws = Draws::new(grid.intervals as u64);
    inputs.extend((0..3).map(|_| draws.between(grid.lo, grid.hi)));
    inputs.push(draws.between(knots[0], grid.lo));
    inputs.extend([0.0, -0.0, 1e-16, beside(0.0, 1), -3e-40, -3e38, 3e38]);
    inputs.extend([f32::INFINITY, f32::NEG_INFINITY]);
    without_repeats(inputs)
}

/// The numbers in order of first appearance; NaN, which no list holds, is left out.
fn without_repeats(numbers: Vec<f32>) -> Vec<f32> {
    let mut kept: Vec<f32> = Vec::new();
    for x in numbers {
        let is_new = kept.iter().all(|seen| seen.to_bits() != x.to_bits());
        if is_new && !x.is_nan() {
            kept.push(x);
        }
    }
    kept
}

/// An input of a drawn kind, NaN among them.
pub fn drawn_input(draws: &mut Draws, grid: &Grid, knots: &[f32]) -> f32 {
    let last = knots.len() - 1;
    let knot = knots[draws.whole(0, last as u64) as usize];
    match draws.whole(1, 10) {
        1 => knot,
        2 => beside(knot, draws.whole(0, 6) as i64 - 3),
        3 => beside(grid.lo, draws.whole(0, 200) as i64 - 100),
        4 => draws.between(knots[0], knots[last]),
        5 => draws.pattern(),
        6 => draws.sign() / draws.power_of_ten(),
        7 => draws.sign() * 0.0,
        _ => draws.between(grid.lo, grid.hi),
    }
}
