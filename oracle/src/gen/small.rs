//! Small voices and sheets: a few hundred bytes, a few segments and short
//! periods, so that the definitions can be computed on a call of them.

use super::sheets::{make_targets_odd, make_times_odd, pitch_value, set_followers, time_value};
use super::voices::{
    add_entry, odd_names, order_entries, residual_byte, row_value, sample_rate, scales, Extent,
    Vocabulary, VoiceSpec,
};
use crate::rng::Rng;
use crate::sheet::{Segment, Sheet, Target, Value};
use crate::voicefile::Header;

const VOWELS: [&str; 3] = ["aa", "ah", "iy"];
const CONSONANTS: [&str; 6] = ["pau", "k", "t", "s", "w", "r"];
const UNKNOWN: [&str; 4] = ["", "xx", "a-b", "_"];

/// What a voice is to have.
#[derive(Clone, Copy, Debug, PartialEq, Eq)]
pub struct Shape {
    pub g721: bool,
    pub sizes: bool,
}

pub fn shape(rng: &mut Rng) -> Shape {
    Shape {
        g721: rng.once_in(2),
        sizes: rng.once_in(2),
    }
}

/// Two to four phones, a vowel and a consonant among them.
pub fn vocabulary(rng: &mut Rng) -> Vocabulary {
    let mut phones = vec![rng.pick(&VOWELS), rng.pick(&CONSONANTS)];
    if rng.once_in(2) {
        phones.push(rng.pick(&CONSONANTS));
    }
    match rng.below(6) {
        0 => phones.push(rng.pick(&UNKNOWN)),
        1 => phones.push("ah"),
        _ => {}
    }
    phones.sort();
    phones.dedup();
    Vocabulary {
        phones: phones.into_iter().map(String::from).collect(),
    }
}

/// A good voice of a shape over a vocabulary.
pub fn voice(rng: &mut Rng, words: &Vocabulary, shape: Shape) -> VoiceSpec {
    let mut spec = empty(rng, shape);
    let count = rng.between(1, 5);
    add_frames(rng, &mut spec, count);
    let after = rng.pick(&[0, 0, 3]);
    spec.residual.extend(rng.bytes(after));
    add_entries(rng, &mut spec, words);
    order_entries(rng, &mut spec.entries);
    spec
}

/// A G.721 voice whose first period is long, so that the decoder's state goes
/// far, or a tone, so that it detects one.
pub fn long_voice(rng: &mut Rng, words: &Vocabulary, is_tone: bool) -> VoiceSpec {
    let shape = Shape {
        g721: true,
        sizes: rng.once_in(2),
    };
    let mut spec = voice(rng, words, shape);
    let length = rng.between(100, 140);
    let stored = match is_tone {
        true => tone(rng, length),
        false => (0..length).map(|_| residual_byte(rng, 3)).collect(),
    };
    lengthen(&mut spec, &stored);
    if let Some(sizes) = &mut spec.sizes {
        sizes[0] = rng.between(length, 255) as u8;
    }
    spec.entries.truncate(1);
    spec.entries[0].start = 0;
    spec.entries[0].halves = [1, spec.header.frames as u8 - 1];
    spec
}

/// Codes of a tone, long enough for the decoder to detect it, and then others.
fn tone(rng: &mut Rng, length: usize) -> Vec<u8> {
    let pair = rng.pick(&[[0x11, 0xEE], [0x22, 0xDD], [0x33, 0xCC]]);
    let mut codes: Vec<u8> = (0..90).map(|i| pair[i % 2]).collect();
    while codes.len() < length {
        codes.push(rng.pick(&[0x77, 0x78, 0x88, 0x87, 0x70]));
    }
    codes
}

/// Puts bytes before those of the first period.
fn lengthen(spec: &mut VoiceSpec, bytes: &[u8]) {
    let start = spec.offsets[0] as usize;
    spec.residual.splice(start..start, bytes.iter().copied());
    for offset in &mut spec.offsets[1..] {
        *offset += bytes.len() as u32;
    }
}

/// A voice that extends `old` by a few frames and entries.
pub fn extension(rng: &mut Rng, old: &VoiceSpec, words: &Vocabulary) -> VoiceSpec {
    let mut spec = old.clone();
    let used = old.offsets.last().map_or(0, |offset| *offset as usize);
    spec.residual.truncate(used);
    let count = rng.below(3);
    add_frames(rng, &mut spec, count);
    for _ in 0..rng.below(3) {
        add_pair(rng, &mut spec, words);
    }
    add_entry(rng, &mut spec, b"!");
    order_entries(rng, &mut spec.entries);
    spec.header.f0_mean = rng.u32();
    spec
}

fn empty(rng: &mut Rng, shape: Shape) -> VoiceSpec {
    let (coeff_min, coeff_range) = scales(rng);
    let before = rng.pick(&[0, 0, 0, 5]);
    VoiceSpec {
        header: Header {
            frames: 0,
            order: order(rng),
            rate: sample_rate(rng),
            coeff_min: coeff_min.to_bits(),
            coeff_range: coeff_range.to_bits(),
            codec: shape.g721.into(),
            stretch: rng.u32(),
            f0_mean: rng.u32(),
            f0_deviation: rng.u32(),
            fold: rng.below(2) as u32,
        },
        rows: Vec::new(),
        sizes: shape.sizes.then(Vec::new),
        offsets: vec![before],
        residual: rng.bytes(before as usize),
        entries: Vec::new(),
    }
}

fn order(rng: &mut Rng) -> u32 {
    match rng.below(16) {
        0 => rng.between(5, 10) as u32,
        1 => rng.pick(&[16, 31, 32]),
        _ => rng.below(5) as u32,
    }
}

fn add_frames(rng: &mut Rng, spec: &mut VoiceSpec, count: usize) {
    let manner = rng.pick(&[0, 1, 1, 2, 3]);
    let bytes = rng.below(5);
    let g721 = spec.header.codec == 1;
    for _ in 0..count {
        for _ in 0..spec.header.order {
            let value = row_value(rng, &spec.header, manner);
            spec.rows.push(value);
        }
        let length = stored_length(rng, g721);
        if let Some(sizes) = &mut spec.sizes {
            sizes.push(size_byte(rng, g721, length));
        }
        let stored = (0..length).map(|_| residual_byte(rng, bytes));
        spec.residual.extend(stored);
        spec.offsets.push(spec.residual.len() as u32);
    }
    spec.header.frames += count as u32;
}

/// Mu-law bytes, or bytes of two G.721 codes each, of which eight lead in.
fn stored_length(rng: &mut Rng, g721: bool) -> usize {
    match (rng.below(10), g721) {
        (0, _) => 0,
        (_, false) => rng.between(1, 9),
        (_, true) => rng.between(2, 9),
    }
}

/// What the stored bytes hold, or less, or more.
fn size_byte(rng: &mut Rng, g721: bool, stored: usize) -> u8 {
    let held = match g721 {
        false => stored,
        true => (2 * stored).saturating_sub(8),
    };
    let size = match rng.below(5) {
        0 => rng.below(16),
        1 => held + rng.below(4),
        2 => held.saturating_sub(rng.below(4)),
        _ => held,
    };
    size as u8
}

fn add_entries(rng: &mut Rng, spec: &mut VoiceSpec, words: &Vocabulary) {
    for _ in 0..rng.between(1, 5) {
        add_pair(rng, spec, words);
    }
    if rng.once_in(4) {
        for name in odd_names(rng, Extent::Small) {
            add_entry(rng, spec, name.as_bytes());
        }
    }
}

/// An entry for a pair of phones, as they are or in a cluster.
fn add_pair(rng: &mut Rng, spec: &mut VoiceSpec, words: &Vocabulary) {
    let left = rng.pick(&words.phones);
    let right = rng.pick(&words.phones);
    let between = rng.pick(&["-", "-", "_-_"]);
    add_entry(rng, spec, format!("{left}{between}{right}").as_bytes());
}

/// A good sheet for a voice of the given rate.
pub fn sheet(rng: &mut Rng, words: &Vocabulary, rate: u32) -> Sheet {
    let mut sheet = Sheet::default();
    let count = match rng.below(14) {
        0 => rng.below(2),
        _ => rng.between(2, 4),
    };
    add_segments(rng, &mut sheet, words, rate, count);
    let count = rng.below(5);
    add_targets(rng, &mut sheet, rate, count);
    match rng.below(16) {
        0 => make_times_odd(rng, &mut sheet),
        1 => make_targets_odd(rng, &mut sheet),
        _ => {}
    }
    sheet
}

/// A good sheet with some times and pitches that speech does not have.
pub fn odd_sheet(rng: &mut Rng, words: &Vocabulary, rate: u32) -> Sheet {
    let mut sheet = sheet(rng, words, rate);
    make_targets_odd(rng, &mut sheet);
    if rng.once_in(4) {
        make_times_odd(rng, &mut sheet);
    }
    sheet
}

/// A sheet that begins with `old`.
pub fn longer(rng: &mut Rng, old: &Sheet, words: &Vocabulary, rate: u32) -> Sheet {
    let mut sheet = old.clone();
    let count = rng.below(3);
    add_segments(rng, &mut sheet, words, rate, count);
    for (segment, old) in sheet.segments.iter_mut().zip(&old.segments) {
        segment.follower = old.follower;
    }
    let count = rng.below(3);
    add_targets(rng, &mut sheet, rate, count);
    sheet
}

fn add_segments(rng: &mut Rng, sheet: &mut Sheet, words: &Vocabulary, rate: u32, count: usize) {
    let last = sheet.segments.last();
    let mut time = last.map_or(0.0, |segment| segment.end.as_f32().into());
    for _ in 0..count {
        time += rng.between(2, 24) as f64 / f64::from(rate);
        sheet.segments.push(Segment {
            name: rng.pick(&words.phones),
            end: time_value(rng, time),
            follower: 0,
        });
    }
    set_followers(rng, &mut sheet.segments);
}

fn add_targets(rng: &mut Rng, sheet: &mut Sheet, rate: u32, count: usize) {
    let last = sheet.targets.last();
    let mut time = last.map_or(0.0, |target| target.pos.as_f32().into());
    for _ in 0..count {
        if !sheet.targets.is_empty() || rng.once_in(6) {
            time += rng.between(1, 40) as f64 / f64::from(rate);
        }
        let period = 2.0 + 14.0 * rng.unit();
        sheet.targets.push(Target {
            pos: time_value(rng, time),
            f0: pitch_value(rng, f64::from(rate) / period),
        });
    }
}

/// Gives a sheet targets so low that its marks lie far apart, up to some
/// millions: there it shows how exactly each mark is worked out.
pub fn set_far_targets(rng: &mut Rng, sheet: &mut Sheet, rate: u32) {
    let seconds = |samples: f64| samples / f64::from(rate);
    let mut time = 0.0;
    sheet.targets.clear();
    for _ in 0..rng.between(2, 5) {
        let period = 50_000.0 + 700_000.0 * rng.unit();
        sheet.targets.push(Target {
            pos: Value::float(time as f32),
            f0: Value::float((1.0 / seconds(period)) as f32),
        });
        time += seconds(2_000_000.0 * rng.unit());
    }
}
