//! Inputs for `oracle floats`: places where rounding or a limit decides, then
//! random ones.

use crate::end_checks;
use crate::rng::Rng;

/// f64 bits for the conversion to f32: at least `count` of them.
pub fn narrowing(rng: &mut Rng, count: u64, each: &mut dyn FnMut(u64)) {
    let mut given = 0;
    let mut give = |bits: u64| {
        given += 1;
        each(bits);
    };
    for exponent in 0..=2047u64 {
        for sign in [0, 1 << 63] {
            for mantissa in mantissas(rng, exponent) {
                give(sign | exponent << 52 | mantissa);
            }
        }
    }
    while given < count {
        let bits = rng.word();
        // Every second one lies where f32 has values.
        let near = bits & !(0x7FF << 52) | (rng.between(865, 1155) as u64) << 52;
        let word = if given % 2 == 0 { bits } else { near };
        given += 1;
        each(word);
    }
}

/// Mantissas at the ties of the places where the conversion may round a number
/// with this exponent field.
fn mantissas(rng: &mut Rng, exponent: u64) -> Vec<u64> {
    let full = (1u64 << 52) - 1;
    let mut all = vec![0, 1, full, full - 1, 1 << 51, (1 << 51) - 1, (1 << 51) + 1];
    // A normal f32 drops 29 bits, a subnormal one more for each step below.
    let dropped = 29 + 897u64.saturating_sub(exponent);
    for place in [29, dropped - 1, dropped, dropped + 1] {
        if place <= 52 {
            around_ties(rng, place as u32, &mut all);
        }
    }
    all.sort_unstable();
    all.dedup();
    all
}

/// Mantissas whose last `dropped` bits are around one half, for even and odd
/// numbers above them, and for those that carry into the exponent.
fn around_ties(rng: &mut Rng, dropped: u32, all: &mut Vec<u64>) {
    let half = 1u64 << (dropped - 1);
    let most = (1u64 << (52 - dropped)) - 1;
    let any = rng.word() & most;
    for kept in [0, 1, most, most & !1, any, any ^ 1] {
        for low in [0, 1, half - 1, half, half + 1, 2 * half - 1] {
            all.push((kept & most) << dropped | low & (2 * half - 1));
        }
    }
}

/// f64 bits for the conversions to whole numbers.
pub fn whole_f64(rng: &mut Rng, count: u64, each: &mut dyn FnMut(u64)) {
    for value in LIMITS {
        for sign in [1.0, -1.0] {
            let bits = (sign * value).to_bits();
            for step in 0..=40 {
                each(bits.wrapping_add(step).wrapping_sub(20));
            }
        }
    }
    for _ in 0..count {
        let bits = rng.word();
        let exponent = rng.between(1018, 1092) as u64;
        let near = bits & !(0x7FF << 52) | exponent << 52;
        let value = match rng.below(4) {
            0 => bits,
            1 => f64::from_bits(near).trunc().to_bits(),
            _ => near,
        };
        each(value);
    }
}

/// Values at which a conversion may change its way.
const LIMITS: [f64; 24] = [
    0.0,
    0.5,
    1.0,
    1.5,
    2.0,
    127.0,
    255.0,
    32_767.0,
    32_767.5,
    32_768.0,
    65_535.0,
    65_536.0,
    16_777_215.0,
    16_777_216.0,
    16_777_217.0,
    2_147_483_647.0,
    2_147_483_648.0,
    4_294_967_296.0,
    9_007_199_254_740_992.0,
    9_223_372_036_854_775_808.0,
    18_446_744_073_709_551_616.0,
    f32::MIN_POSITIVE as f64,
    f32::MAX as f64,
    f64::INFINITY,
];

/// 32-bit words near limits, read as floats or as whole numbers.
pub fn edge_words(rng: &mut Rng) -> Vec<u32> {
    let mut all = Vec::new();
    for value in LIMITS {
        let bits = (value as f32).to_bits();
        all.extend(around(bits).chain(around(bits | 1 << 31)));
    }
    for power in 0..32 {
        let number = 1u32 << power;
        all.extend(around(number).chain(around(number.wrapping_neg())));
    }
    for _ in 0..20_000 {
        // One half in the bits that a float with 24 bits drops.
        let shift = rng.between(1, 8);
        let kept = rng.u32() >> shift;
        let tie = kept << shift | 1 << (shift - 1);
        all.extend([tie, tie.wrapping_sub(1), tie.wrapping_add(1)]);
        // A multiple of 16384.
        let multiple = rng.u32() << 14;
        all.extend([multiple, multiple.wrapping_sub(1), multiple.wrapping_add(1)]);
    }
    all.extend(end_checks::words(rng));
    all
}

fn around(word: u32) -> impl Iterator<Item = u32> {
    (0..=80).map(move |step| word.wrapping_add(step).wrapping_sub(40))
}

/// Three floats: ties, absorbed differences, special values, any bits.
pub fn triple(rng: &mut Rng) -> [f32; 3] {
    match rng.below(5) {
        0 => [0; 3].map(|_| f32::from_bits(rng.u32())),
        1 => [0; 3].map(|_| rng.below(16) as f32 * 0.5 - 4.0),
        2 => {
            let p = (rng.unit() * 1000.0) as f32;
            let d = (rng.unit() * 100.0) as f32;
            [p, p - d, p + d]
        }
        3 => [0; 3].map(|_| rng.pick(&SPECIAL)),
        _ => [0; 3].map(|_| (16_777_208 + rng.below(20)) as f32 * 4.0),
    }
}

const SPECIAL: [f32; 12] = [
    0.0,
    -0.0,
    1.0,
    -1.0,
    f32::MAX,
    f32::MIN,
    f32::INFINITY,
    f32::NEG_INFINITY,
    f32::NAN,
    f32::from_bits(1),
    f32::from_bits(0x8000_0001),
    f32::MIN_POSITIVE,
];

/// Pairs of words for a product: all pairs at limits, then random ones.
pub fn factors(rng: &mut Rng, count: u64, each: &mut dyn FnMut(u32, u32)) {
    let mut limits = vec![0, 3, 16_383, 16_385];
    for power in 0..32 {
        let number = 1u32 << power;
        limits.extend([number, number - 1, number.wrapping_neg(), !number]);
    }
    for a in &limits {
        for b in &limits {
            each(*a, *b);
        }
    }
    for _ in 0..count {
        each(factor(rng), factor(rng));
    }
}

fn factor(rng: &mut Rng) -> u32 {
    match rng.below(3) {
        0 => rng.u32(),
        1 => rng.below(70_000) as u32,
        _ => (rng.below(70_000) as u32).wrapping_neg(),
    }
}
