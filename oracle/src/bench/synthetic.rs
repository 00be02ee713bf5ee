//! Voices and sheets of the extent of real ones, for a machine without them.

use crate::gen::voices::{self, EntrySpec, VoiceSpec};
use crate::gen::PHONES;
use crate::real::Files;
use crate::rng::Rng;
use crate::sheet::{self, Segment, Sheet, Target, Value};
use crate::speech::Speech;

// As flite's voices cmu_us_kal and cmu_us_kal16 have them.
const FRAMES: usize = 18_950;
const ENTRIES: usize = 1_623;
/// Frames of an entry; the last entries have those that are left over.
const HALVES: [u8; 2] = [5, 6];

/// A wider voice has so many times the frames and entries.
const WIDER: [usize; 3] = [1, 2, 3];

const SHEETS: usize = 20;
const SEGMENTS: usize = 40;
/// Of a segment and from target to target, in seconds.
const SEGMENT: f32 = 0.08;
const TARGETS: f32 = 0.17;

/// An 8 kHz G.721 voice of order 10, and a 16 kHz mu-law voice of order 16.
pub fn voices(seed: u64) -> Vec<(String, Files)> {
    [true, false]
        .map(|g721| {
            let rng = &mut Rng::for_case(seed, 9_500_000);
            let name = match g721 {
                true => "generated, 8 kHz G.721",
                false => "generated, 16 kHz mu-law",
            };
            let files = Files {
                voice: voices::file(&voice(rng, g721).sections()),
                sheets: (0..SHEETS)
                    .map(|i| (format!("sheet {i}"), sheet::write(&sheet(rng))))
                    .collect(),
            };
            (name.to_string(), files)
        })
        .into()
}

fn voice(rng: &mut Rng, g721: bool) -> VoiceSpec {
    let mut spec = voices::plain(FRAMES as u32, vec![0]);
    spec.header.order = if g721 { 10 } else { 16 };
    spec.header.rate = if g721 { 8_000 } else { 16_000 };
    spec.header.codec = u32::from(g721);
    spec.header.coeff_min = (-4.0f32).to_bits();
    spec.header.coeff_range = 8.0f32.to_bits();
    // Coefficients near 0, so that the outputs stay within 16 bits.
    spec.rows = (0..FRAMES * spec.header.order as usize)
        .map(|_| 32_268 + rng.below(1_000) as u16)
        .collect();
    let mut speech = Speech::new();
    let mut sizes = Vec::new();
    for _ in 0..FRAMES {
        let stored = match g721 {
            true => speech.period(rng),
            false => {
                let length = rng.between(130, 210);
                rng.bytes(length)
            }
        };
        sizes.push((2 * stored.len()).saturating_sub(8) as u8);
        spec.residual.extend(stored);
        spec.offsets.push(spec.residual.len() as u32);
    }
    spec.sizes = g721.then_some(sizes);
    spec.entries = entries();
    spec
}

/// The mu-law voice, and the same several times as large: its frames repeated,
/// and as many entries more, which no sheet names. The sheets are the same.
pub fn wider(seed: u64) -> Vec<(usize, Files)> {
    let rng = &mut Rng::for_case(seed, 9_500_001);
    let voice = voice(rng, false);
    let sheets: Vec<(String, Vec<u8>)> = (0..SHEETS)
        .map(|i| (format!("sheet {i}"), sheet::write(&sheet(rng))))
        .collect();
    let files = |times| {
        let voice = voices::file(&widened(&voice, times).sections());
        (
            times,
            Files {
                voice,
                sheets: sheets.clone(),
            },
        )
    };
    WIDER.map(files).into()
}

fn widened(voice: &VoiceSpec, times: usize) -> VoiceSpec {
    let mut wide = voice.clone();
    wide.header.frames *= times as u32;
    for turn in 1..times {
        let before = wide.residual.len() as u32;
        wide.rows.extend(&voice.rows);
        wide.residual.extend(&voice.residual);
        wide.offsets
            .extend(voice.offsets[1..].iter().map(|offset| before + offset));
        let more = voice
            .entries
            .iter()
            .enumerate()
            .map(|(i, entry)| EntrySpec {
                name: format!("~{turn}-{i:04}").into_bytes(),
                ..entry.clone()
            });
        wide.entries.extend(more);
    }
    wide
}

/// Pairs of phones in the order of their names.
fn entries() -> Vec<EntrySpec> {
    let pairs = phones().flat_map(|left| phones().map(move |right| format!("{left}-{right}")));
    let mut names: Vec<String> = pairs.take(ENTRIES).collect();
    names.sort();
    let step = FRAMES / ENTRIES;
    let entry = |(i, name): (usize, String)| EntrySpec {
        name: name.into_bytes(),
        start: (i * step) as u16,
        halves: HALVES,
    };
    names.into_iter().enumerate().map(entry).collect()
}

/// The names of an index of the extent of flite's, in order.
pub fn index() -> Vec<Vec<u8>> {
    entries().into_iter().map(|entry| entry.name).collect()
}

/// As many phones as give that many pairs, apart from those of the last phone.
fn phones() -> impl Iterator<Item = &'static str> {
    PHONES.into_iter().take(41)
}

fn sheet(rng: &mut Rng) -> Sheet {
    let names: Vec<&str> = phones().take(ENTRIES / 41).collect();
    let segments: Vec<Segment> = (0..SEGMENTS)
        .map(|i| Segment {
            name: rng.pick(&names).to_string(),
            end: Value::float((i + 1) as f32 * SEGMENT),
            follower: if i % 3 == 2 || i + 1 == SEGMENTS {
                0
            } else {
                i + 2
            },
        })
        .collect();
    let targets = (0..)
        .map(|i| i as f32 * TARGETS)
        .take_while(|pos| *pos <= SEGMENTS as f32 * SEGMENT)
        .map(|pos| Target {
            pos: Value::float(pos),
            f0: Value::float(80.0 + 30.0 * rng.unit() as f32),
        })
        .collect();
    Sheet { segments, targets }
}

/// A sheet several times over, each after the one before.
pub fn repeated(sheet: &Sheet, times: usize) -> Sheet {
    let length = sheet
        .segments
        .last()
        .map_or(0.0, |segment| segment.end.as_f32());
    let mut long = Sheet::default();
    for turn in 0..times {
        let later = |value: Value| Value::float(value.as_f32() + length * turn as f32);
        let before = long.segments.len();
        for segment in &sheet.segments {
            long.segments.push(Segment {
                name: segment.name.clone(),
                end: later(segment.end),
                follower: match segment.follower {
                    0 => 0,
                    number => before + number,
                },
            });
        }
        for target in &sheet.targets {
            long.targets.push(Target {
                pos: later(target.pos),
                f0: target.f0,
            });
        }
    }
    long
}
