//! Good call sheets: speech-like ones, and ones with odd times and pitches.

use super::voices::Vocabulary;
use super::MAX_COUNT;
use crate::rng::Rng;
use crate::sheet::{Segment, Sheet, Target, Value};

/// Pitches that a contour should not have but may.
const ODD_F0: [f32; 12] = [
    0.0,
    -0.0,
    -100.0,
    f32::from_bits(1),
    -f32::from_bits(1),
    f32::MIN_POSITIVE,
    1.0e-20,
    1.0e10,
    1.0e20,
    3.0e38,
    -3.0e38,
    f32::MAX,
];

/// Times that a sheet should not have but may.
const ODD_TIME: [f32; 12] = [
    0.0,
    -0.0,
    -1.0,
    f32::from_bits(1),
    -f32::from_bits(1),
    1.0e-30,
    1.0e-6,
    100.0,
    20_000_000.0,
    1.0e20,
    f32::MAX,
    f32::MIN,
];

/// A good sheet for a voice of the given rate.
pub fn sheet(rng: &mut Rng, words: &Vocabulary, rate: u32) -> Sheet {
    let mut sheet = Sheet::default();
    let odd = rng.below(10);
    let seconds = length(rng) / f64::from(rate);
    add_segments(rng, &mut sheet, words, seconds);
    add_targets(rng, &mut sheet, rate, 0.0, seconds);
    match odd {
        0 => make_times_odd(rng, &mut sheet),
        1 | 2 => make_targets_odd(rng, &mut sheet),
        3 => add_huge_pitch(rng, &mut sheet),
        _ => {}
    }
    sheet
}

/// A sheet that begins with `old`.
pub fn longer(rng: &mut Rng, old: &Sheet, words: &Vocabulary, rate: u32) -> Sheet {
    let mut sheet = old.clone();
    let from = old.targets.last().map_or(0.0, |t| t.pos.as_f32().into());
    let seconds = length(rng) / f64::from(rate);
    if !rng.once_in(6) {
        add_segments(rng, &mut sheet, words, seconds);
    }
    if !rng.once_in(6) {
        add_targets(rng, &mut sheet, rate, from, seconds);
    }
    // The old segments keep their followers.
    for (segment, old) in sheet.segments.iter_mut().zip(&old.segments) {
        segment.follower = old.follower;
    }
    sheet
}

/// How many samples a sheet is to last.
fn length(rng: &mut Rng) -> f64 {
    let longest = rng.pick(&[100, 2000, 6000, 12_000]);
    rng.between(1, longest) as f64
}

fn add_segments(rng: &mut Rng, sheet: &mut Sheet, words: &Vocabulary, seconds: f64) {
    let count = match rng.below(8) {
        0 => rng.below(3),
        1 => rng.between(30, 90),
        _ => rng.between(2, 14),
    };
    let mut time = sheet.segments.last().map_or(0.0, |s| s.end.as_f32().into());
    for _ in 0..count {
        time += seconds / count as f64 * (0.4 + 1.2 * rng.unit());
        sheet.segments.push(Segment {
            name: rng.pick(&words.phones),
            end: time_value(rng, time),
            follower: 0,
        });
    }
    set_followers(rng, &mut sheet.segments);
}

pub(super) fn set_followers(rng: &mut Rng, segments: &mut [Segment]) {
    let count = segments.len();
    for (i, segment) in segments.iter_mut().enumerate() {
        segment.follower = match rng.below(6) {
            0 => 0,
            1 => rng.between(1, count),
            2 => i + 1,
            _ => (i + 2) % (count + 1),
        };
    }
}

/// Mostly the time as a float, now and then something that is rounded, absent
/// or earlier.
pub(super) fn time_value(rng: &mut Rng, time: f64) -> Value {
    match rng.below(24) {
        0 => Value::Absent,
        1 => Value::Whole(time as i32),
        2 => Value::float((time * 0.8) as f32),
        _ => Value::float(time as f32),
    }
}

fn add_targets(rng: &mut Rng, sheet: &mut Sheet, rate: u32, from: f64, seconds: f64) {
    let count = match rng.below(8) {
        0 => rng.below(3),
        1 => rng.between(20, 60),
        _ => rng.between(2, 12),
    };
    let mut time = from;
    let mut period = rng.between(20, 160) as f64;
    for i in 0..count {
        let first = i == 0 && !rng.once_in(8);
        if !first || from != 0.0 {
            time += seconds / count as f64 * 2.0 * rng.unit();
        }
        period = (period * (0.7 + 0.6 * rng.unit())).clamp(12.0, 400.0);
        sheet.targets.push(Target {
            pos: time_value(rng, time),
            f0: pitch_value(rng, f64::from(rate) / period),
        });
    }
}

pub(super) fn pitch_value(rng: &mut Rng, f0: f64) -> Value {
    match rng.below(24) {
        0 => Value::Absent,
        1 | 2 => Value::Whole(f0 as i32),
        _ => Value::float(f0 as f32),
    }
}

pub(super) fn make_times_odd(rng: &mut Rng, sheet: &mut Sheet) {
    for segment in &mut sheet.segments {
        if rng.once_in(4) {
            segment.end = odd_value(rng, &ODD_TIME);
        }
    }
}

pub(super) fn make_targets_odd(rng: &mut Rng, sheet: &mut Sheet) {
    for target in &mut sheet.targets {
        if rng.once_in(5) {
            target.pos = odd_value(rng, &ODD_TIME);
        }
        if rng.once_in(4) {
            target.f0 = odd_value(rng, &ODD_F0);
        }
    }
    if rng.once_in(3) {
        rng.shuffle(&mut sheet.targets);
    }
}

fn odd_value(rng: &mut Rng, floats: &[f32]) -> Value {
    match rng.below(6) {
        0 => Value::Whole(rng.pick(&[0, -1, 1, i32::MIN, i32::MAX, 16_777_217])),
        1 => Value::Absent,
        2 => Value::Float(finite_bits(rng)),
        _ => Value::float(rng.pick(floats)),
    }
}

fn finite_bits(rng: &mut Rng) -> u32 {
    let bits = rng.u32();
    match f32::from_bits(bits).is_finite() {
        true => bits,
        false => bits & 0x807F_FFFF,
    }
}

/// Puts targets behind the others at which time cannot advance: at a second or
/// more, a step of 1/f0 is lost in time's last bit.
fn add_huge_pitch(rng: &mut Rng, sheet: &mut Sheet) {
    let at = 1.0 + rng.unit() as f32;
    let f0 = rng.pick(&[1.0e17, 1.0e20, 1.0e30, 3.0e38]);
    let low = 1.0 + rng.unit() as f32 * 4.0;
    for (pos, f0) in [(0.0, low), (at, low), (at + 1.0, f0), (at + 9.0, f0)] {
        sheet.targets.push(Target {
            pos: Value::float(pos),
            f0: Value::float(f0),
        });
    }
}

/// The largest sheet: 4,096 segments and 4,096 targets.
pub fn largest(words: &Vocabulary) -> Sheet {
    let mut sheet = Sheet::default();
    for i in 0..MAX_COUNT {
        sheet.segments.push(Segment {
            name: words.phones[i % words.phones.len()].clone(),
            end: Value::float(i as f32 * 0.001),
            follower: (i + 2) % (MAX_COUNT + 1),
        });
        sheet.targets.push(Target {
            pos: Value::float(i as f32 * 0.001),
            f0: Value::float(100.0 + (i % 50) as f32),
        });
    }
    sheet
}

/// A sheet of so many segments, each followed by any of them or by none.
pub fn long(rng: &mut Rng, words: &Vocabulary, count: usize) -> Sheet {
    let mut sheet = Sheet::default();
    for i in 0..count {
        sheet.segments.push(Segment {
            name: rng.pick(&words.phones),
            end: Value::float(i as f32 * 0.001),
            follower: rng.between(0, count),
        });
    }
    sheet
}
