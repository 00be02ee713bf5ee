//! One call in every setting, and calls that fill a buffer of document 01's
//! program or need one element more.

use super::record::{Stored, BUFFERS, PROGRAM};
use crate::call::{Join, Settings};
use crate::gen::damaged_calls::{entry, two_periods};
use crate::gen::voices::{file, plain, VoiceSpec};
use crate::sheet::{write, Segment, Sheet, Target, Value};

pub fn all() -> Vec<Stored> {
    let voice = file(&two_periods(8000).sections());
    let sheet = write(&example());
    let mut calls = every_setting("document 01's example", &voice, &sheet, Settings::loose());
    calls.extend(either_codec(Settings::loose()));
    for (voice, sheet) in by_program() {
        calls.extend(edge(&voice, &sheet, PROGRAM));
    }
    for sheet in [marks(1.0), marks(1.000_000_1)] {
        let voice = two_periods(8000);
        calls.extend(edge(&voice, &sheet, Settings::new(Join::Modified)));
    }
    calls
}

/// One call of either codec in each of these settings.
pub fn either_codec(settings: Vec<Settings>) -> Vec<Stored> {
    let kind = "spoken, one call in every setting";
    let sheet = write(&folded());
    let calls = |codec| {
        let voice = file(&four_periods(codec).sections());
        every_setting(kind, &voice, &sheet, settings.clone())
    };
    [0, 1].into_iter().flat_map(calls).collect()
}

fn every_setting(kind: &str, voice: &[u8], sheet: &[u8], settings: Vec<Settings>) -> Vec<Stored> {
    let call = |settings| Stored::new(kind, voice, sheet, settings, BUFFERS);
    settings.into_iter().filter_map(call).collect()
}

/// Document 01's example sheet.
fn example() -> Sheet {
    named(&["pau", "aa"])
}

/// A voice of order 2 whose `pau-ah` is another entry than its `pau-aa`.
fn four_periods(codec: u32) -> VoiceSpec {
    let mut voice = bytes_of(&[8, 9, 10, 11], 2, [1, 1]);
    voice.header.codec = codec;
    voice.rows = vec![
        50_000, 20_001, 45_003, 22_222, 20_000, 40_404, 31_000, 32_767,
    ];
    voice.residual = (0..38).map(|i| (i * 37 + 3) as u8).collect();
    voice.entries.push(entry("pau-ah", 2, [1, 1]));
    voice
}

/// A sheet that fold changes, with marks for the modified join.
fn folded() -> Sheet {
    let mut sheet = named(&["pau", "ah"]);
    sheet.segments[0].end = Value::float(0.002);
    sheet.segments[1].end = Value::float(0.004);
    let target = |(pos, f0)| Target {
        pos: Value::float(pos),
        f0: Value::Whole(f0),
    };
    sheet.targets = [(0.0, 1000), (0.004, 700)].map(target).to_vec();
    sheet
}

fn edge(voice: &VoiceSpec, sheet: &Sheet, settings: Settings) -> Option<Stored> {
    let voice = file(&voice.sections());
    Stored::new(
        "buffers of the program, full and one short",
        &voice,
        &write(sheet),
        settings,
        BUFFERS,
    )
}

/// Each buffer full, then an element short.
fn by_program() -> Vec<(VoiceSpec, Sheet)> {
    let mut calls = vec![
        (bytes_of(&[2048, 2048], 0, [1, 1]), example()),
        (bytes_of(&[2048, 2049], 0, [1, 1]), example()),
        (bytes_of(&[0; 4], 0, [2, 2]), pairs(256)),
        (bytes_of(&[0; 5], 0, [3, 2]), pairs(205)),
        (bytes_of(&[4; 2], 32, [1, 1]), pairs(16)),
        (bytes_of(&[4; 3], 32, [2, 1]), pairs(11)),
        (g721(512), example()),
        (g721(513), example()),
        (entries(1024), example()),
        (entries(1025), example()),
    ];
    // The last mark is 16,777,215 with 1,205 pairs.
    let late = || bytes_of(&[13_923], 0, [1, 0]);
    calls.extend([(late(), pairs(1205)), (late(), pairs(1206))]);
    calls
}

/// A mu-law voice with a period of each of these sizes and one entry, `pau-aa`.
fn bytes_of(sizes: &[usize], order: usize, halves: [u8; 2]) -> VoiceSpec {
    let mut voice = plain(sizes.len() as u32, vec![0]);
    voice.header.order = order as u32;
    voice.header.coeff_min = (-1.0f32).to_bits();
    voice.header.coeff_range = 2.0f32.to_bits();
    voice.rows = vec![34_000; order * sizes.len()];
    for size in sizes {
        let end = voice.residual.len() + size;
        voice.residual.resize(end, 0xFF);
        voice.offsets.push(end as u32);
    }
    if let Some(byte) = voice.residual.get_mut(1) {
        *byte = 0x9F;
    }
    voice.entries[0].halves = halves;
    voice
}

/// A G.721 voice with one long period and one of a byte.
fn g721(bytes: usize) -> VoiceSpec {
    let mut voice = bytes_of(&[bytes, 1], 0, [1, 1]);
    voice.header.codec = 1;
    voice
}

/// A voice of so many entries.
fn entries(count: usize) -> VoiceSpec {
    let mut voice = bytes_of(&[4, 4], 0, [1, 1]);
    let numbered = |number: usize| entry(&number.to_string(), 0, [1, 1]);
    voice.entries = (0..count).map(numbered).collect();
    voice
}

/// So many pairs without names.
fn pairs(count: usize) -> Sheet {
    named(&vec![""; count + 1])
}

fn named(names: &[&str]) -> Sheet {
    let segment = |name: &&str| Segment {
        name: name.to_string(),
        end: Value::Absent,
        follower: 0,
    };
    Sheet {
        segments: names.iter().map(segment).collect(),
        targets: Vec::new(),
    }
}

/// 1,024 marks a second up to a time, of which few are taken.
fn marks(time: f32) -> Sheet {
    let target = |pos| Target {
        pos: Value::float(pos),
        f0: Value::Whole(1024),
    };
    let mut sheet = named(&["pau", "aa"]);
    sheet.segments[1].end = Value::float(0.01);
    sheet.targets = vec![target(0.0), target(time)];
    sheet
}
