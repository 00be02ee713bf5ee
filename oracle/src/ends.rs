//! Target ends by document 02: the product is made in f32 as in the Rust, then
//! rounded to the nearest sample, where the Rust truncates it.

use crate::sheet::{Segment, Sheet};

/// The whole number nearest to an f32, an exact half going up. Below zero, and
/// for NaN, it is 0; from 2 to the power of 64 on it is the largest.
///
/// Worked out in whole numbers: the f32 is its significand times a power of two.
pub fn nearest(x: f32) -> usize {
    let bits = x.to_bits();
    let is_negative = bits >> 31 == 1;
    let exponent = (bits >> 23 & 0xFF) as i32;
    let mantissa = (bits & 0x7F_FFFF) as usize;
    let is_nan = exponent == 0xFF && mantissa != 0;
    let (significand, power) = match exponent {
        0 => (mantissa, -149),
        _ => (mantissa + (1 << 23), exponent - 150),
    };
    match power {
        _ if is_negative || is_nan => 0,
        41.. => usize::MAX,
        0..=40 => significand << power,
        -24..=-1 => {
            let one = 1 << -power;
            let rest = significand % one;
            significand / one + usize::from(2 * rest >= one)
        }
        // Below a half: a significand has 24 bits.
        _ => 0,
    }
}

/// The products of a pair's two target ends.
pub fn of_pair(left: f32, right: f32, rate: u32) -> [f32; 2] {
    let rate = rate as f32;
    [left * rate, (left + right) / 2.0 * rate]
}

/// Those of all pairs of a sheet, in unit order.
pub fn products(sheet: &Sheet, rate: u32) -> Vec<f32> {
    let end = |segment: &Segment| segment.end.as_f32();
    let pairs = sheet.segments.windows(2);
    pairs
        .flat_map(|pair| of_pair(end(&pair[0]), end(&pair[1]), rate))
        .collect()
}

/// Whether the end of a product is not the one that the Rust has.
pub fn is_moved(product: f32) -> bool {
    nearest(product) != product as usize
}

pub fn is_whole(product: f32) -> bool {
    product.fract() == 0.0
}

/// Whether a product is an exact half that goes up.
pub fn is_half(product: f32) -> bool {
    product > 0.0 && product.fract() == 0.5
}
