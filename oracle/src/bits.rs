//! The bits of f32 numbers: how they are written, compared, and what lies beside them.

use crate::exponential::NAN_BITS;

/// Bits in hexadecimal without leading zeros; every NaN is written alike.
pub fn hex(x: f32) -> String {
    format!("{:x}", if x.is_nan() { NAN_BITS } else { x.to_bits() })
}

/// Same bits, or both NaN: which NaN it is depends on the platform.
pub fn alike(a: f32, b: f32) -> bool {
    a.to_bits() == b.to_bits() || (a.is_nan() && b.is_nan())
}

/// The f32 number that lies so many steps above x, or below it; at most an infinity.
pub fn beside(x: f32, steps: i64) -> f32 {
    let size = i64::from(x.to_bits() & 0x7fff_ffff);
    let place = if x.is_sign_negative() { -size } else { size };
    let moved = (place + steps).clamp(-0x7f80_0000, 0x7f80_0000);
    let bits = moved.unsigned_abs() as u32;
    f32::from_bits(if moved < 0 { bits | 1 << 31 } else { bits })
}
