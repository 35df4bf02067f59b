//! The scope's words for tenths, as request 4/12 has them, by 128-bit integers. It knows nothing of the library.

use std::cmp::Ordering;

/// The whole number nearest to 10 x, at an exact half the even one, for an x between -2^53 and 2^53: of the two whole numbers
/// that have 10 x between them the one that is less far away.
pub fn tenths(x: f64) -> i64 {
    let field = x.to_bits() >> 52 & 0x7FF;
    let fraction = x.to_bits() & ((1 << 52) - 1);
    // x is its digits / 2^shift in size
    let (digits, shift) = match field {
        0 => (fraction, 1074),
        _ => (fraction | 1 << 52, 1075 - field),
    };
    let size = 10 * i128::from(digits);
    let ten = if x.is_sign_negative() { -size } else { size };
    // ten times the digits is below 2^57, so that from 120 on it is as near to 0
    let unit = 1_i128 << shift.min(120);
    let below = ten.div_euclid(unit);
    let to_below = ten - below * unit;
    let nearest = match to_below.cmp(&(unit - to_below)) {
        Ordering::Less => below,
        Ordering::Greater => below + 1,
        Ordering::Equal => below + below.rem_euclid(2),
    };
    nearest as i64
}
