//! E, the exponential (R7.1 to R7.4), in whole numbers; and `expf`, by which `f32::exp` reaches it.

use crate::whole::Whole;

pub const NAN_BITS: u32 = 0x7fc0_0000;

thread_local! {
    static TABLE: [u64; 256] = table();
}

/// R7.1: +infinity for x >= 89, +0.0 for x <= -104, a NaN for a NaN. R7.2: otherwise all is whole numbers, divisions
/// rounding down. A shift to the right divides so.
pub fn exponential(x: f32) -> f32 {
    if x.is_nan() {
        return f32::from_bits(NAN_BITS);
    }
    if x >= 89.0 {
        return f32::INFINITY;
    }
    if x <= -104.0 {
        return 0.0;
    }
    let q = i128::from(scaled(x)) * 1_549_082_005;
    let k = (q >> 56) as i32;
    let i = (q >> 48) as usize % 256;
    let f = (q as u64 % (1 << 48)) >> 16;
    let a = (f * 2_977_044_472) >> 32;
    let h = (a * a) >> 41;
    let g = ((1 << 40) + a + h) >> 8;
    nearest(TABLE.with(|t| t[i]) * g, k - 62)
}

/// Takes the place of the platform's function in every program that links this crate.
#[no_mangle]
pub extern "C" fn expf(x: f32) -> f32 {
    exponential(x)
}

/// R7.2: X is x · 2^26, its fraction dropped toward zero, for x of size below 128.
fn scaled(x: f32) -> i64 {
    let exponent = (x.to_bits() >> 23) & 0xff;
    let fraction = i64::from(x.to_bits() & 0x7f_ffff);
    // A subnormal's X is 0 in any case, so its missing leading bit does not matter.
    let significand = fraction + (1 << 23);
    let size = if exponent >= 124 {
        significand << (exponent - 124)
    } else {
        significand >> (124 - exponent).min(63)
    };
    if x.is_sign_negative() {
        -size
    } else {
        size
    }
}

/// R7.4: the f32 nearest to product · 2^scale, ties to even, subnormals kept, +infinity from 2^128 - 2^103 on, for a
/// product of at least 2^24.
fn nearest(product: u64, scale: i32) -> f32 {
    let length = 64 - product.leading_zeros() as i32;
    // The step between neighbouring f32 numbers here is 2^step.
    let step = (length + scale - 24).max(-149);
    let dropped = (step - scale) as u32;
    let product = u128::from(product);
    if dropped > 100 {
        return 0.0;
    }
    let kept = product >> dropped;
    let rest = product - (kept << dropped);
    let half = 1 << (dropped - 1);
    let up = rest > half || (rest == half && kept % 2 == 1);
    // The leading bit of a normal number, and a carry out of the rounding, add 1 to the exponent.
    let bits = ((step + 149) as u128 * (1 << 23)) + kept + u128::from(up);
    f32::from_bits(bits.min(0x7f80_0000) as u32)
}

/// R7.3: T[i] is the largest whole number t with t^256 <= 2^(7680 + i).
pub fn table() -> [u64; 256] {
    let mut entries = [0; 256];
    for (i, entry) in entries.iter_mut().enumerate() {
        for bit in (0..31).rev() {
            let longer = *entry + (1 << bit);
            if power_256(longer).at_most_power_of_two(7680 + i) {
                *entry = longer;
            }
        }
    }
    entries
}

fn power_256(number: u64) -> Whole {
    (0..8).fold(Whole::from(number), |power, _| power.squared())
}
