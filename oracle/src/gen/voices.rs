//! Good voices of every shape, and voices that extend them.

use super::text::WHITE_SPACE;
use super::PHONES;
use crate::rng::Rng;
use crate::voicefile::{Header, MAGIC};
use std::collections::BTreeSet;

/// The phones that one voice and its sheets share, so that sheets find names.
pub struct Vocabulary {
    pub phones: Vec<String>,
}

pub fn vocabulary(rng: &mut Rng) -> Vocabulary {
    let odd = ["", "xx", "k_", "_w", "a-b", "~", "!", "-", "AH"];
    let mut phones = BTreeSet::new();
    for _ in 0..rng.between(1, 4) {
        phones.insert(rng.pick(&PHONES).to_string());
        phones.insert(
            rng.pick(&["pau", "aa", "ah", "k", "w", "t", "s"])
                .to_string(),
        );
    }
    if rng.once_in(4) {
        phones.insert(rng.pick(&odd).to_string());
    }
    Vocabulary {
        phones: phones.into_iter().collect(),
    }
}

#[derive(Clone, Debug)]
pub struct EntrySpec {
    pub name: Vec<u8>,
    pub start: u16,
    pub halves: [u8; 2],
}

/// A voice before it is written.
#[derive(Clone, Debug)]
pub struct VoiceSpec {
    pub header: Header,
    /// `order` values per frame.
    pub rows: Vec<u16>,
    pub sizes: Option<Vec<u8>>,
    /// One more than there are frames.
    pub offsets: Vec<u32>,
    pub residual: Vec<u8>,
    pub entries: Vec<EntrySpec>,
}

#[derive(Clone, Debug)]
pub struct Section {
    pub name: Vec<u8>,
    pub data: Vec<u8>,
}

impl Section {
    pub fn new(name: &str, data: Vec<u8>) -> Section {
        Section {
            name: name.as_bytes().to_vec(),
            data,
        }
    }

    pub fn bytes(&self) -> Vec<u8> {
        let mut bytes = vec![self.name.len() as u8];
        bytes.extend(&self.name);
        bytes.extend((self.data.len() as u32).to_le_bytes());
        bytes.extend(&self.data);
        bytes
    }
}

/// A whole file.
pub fn file(sections: &[Section]) -> Vec<u8> {
    let mut bytes = MAGIC.to_vec();
    for section in sections {
        bytes.extend(section.bytes());
    }
    bytes
}

pub fn header_data(header: &Header) -> Vec<u8> {
    words(&[
        header.frames,
        header.order,
        header.rate,
        header.coeff_min,
        header.coeff_range,
        header.codec,
        header.stretch,
        header.f0_mean,
        header.f0_deviation,
        header.fold,
    ])
}

pub fn words(words: &[u32]) -> Vec<u8> {
    words.iter().flat_map(|word| word.to_le_bytes()).collect()
}

pub fn entry_data(entry: &EntrySpec) -> Vec<u8> {
    let mut data = vec![entry.name.len() as u8];
    data.extend(&entry.name);
    data.extend(entry.start.to_le_bytes());
    data.extend(entry.halves);
    data
}

pub fn index_data(entries: &[EntrySpec]) -> Vec<u8> {
    let mut data = words(&[entries.len() as u32]);
    data.extend(entries.iter().flat_map(entry_data));
    data
}

impl VoiceSpec {
    /// The sections of the voice and nothing more.
    pub fn sections(&self) -> Vec<Section> {
        let lpc = self.rows.iter().flat_map(|q| q.to_le_bytes()).collect();
        let mut sections = vec![
            Section::new("sts.header", header_data(&self.header)),
            Section::new("sts.lpc", lpc),
            Section::new("sts.resoffs", words(&self.offsets)),
            Section::new("sts.res", self.residual.clone()),
            Section::new("dip.index", index_data(&self.entries)),
        ];
        if let Some(sizes) = &self.sizes {
            sections.push(Section::new("sts.ressize", sizes.clone()));
        }
        sections
    }

    fn has(&self, name: &[u8]) -> bool {
        self.entries.iter().any(|entry| entry.name == name)
    }
}

/// A mu-law voice of order 0 at rate 8000 with one entry, as in document 01's
/// printed example.
pub fn plain(frames: u32, offsets: Vec<u32>) -> VoiceSpec {
    VoiceSpec {
        header: Header {
            frames,
            order: 0,
            rate: 8000,
            coeff_min: 0,
            coeff_range: 0,
            codec: 0,
            stretch: 0,
            f0_mean: 0,
            f0_deviation: 0,
            fold: 0,
        },
        rows: Vec::new(),
        sizes: None,
        offsets,
        residual: Vec::new(),
        entries: vec![EntrySpec {
            name: b"pau-aa".to_vec(),
            start: 0,
            halves: [1, 0],
        }],
    }
}

/// How large a voice may become.
#[derive(Clone, Copy, Debug, PartialEq, Eq)]
pub enum Extent {
    /// A few frames and entries, so that a file can be cut at every byte.
    Small,
    /// Up to some hundreds of frames.
    Any,
}

/// A good voice over a vocabulary. With `covering`, every pair of its phones
/// has both names that it may try.
pub fn voice(rng: &mut Rng, words: &Vocabulary, extent: Extent, covering: bool) -> VoiceSpec {
    let frames = frame_count(rng, extent);
    let order = lpc_order(rng);
    let (coeff_min, coeff_range) = scales(rng);
    let codec = rng.below(2) as u32;
    let mut spec = VoiceSpec {
        header: Header {
            frames: frames as u32,
            order,
            rate: sample_rate(rng),
            coeff_min: coeff_min.to_bits(),
            coeff_range: coeff_range.to_bits(),
            codec,
            stretch: rng.u32(),
            f0_mean: rng.u32(),
            f0_deviation: rng.u32(),
            fold: rng.pick(&[0, 1, 2, u32::MAX]),
        },
        rows: Vec::new(),
        sizes: rng.once_in(2).then(Vec::new),
        offsets: vec![rng.pick(&[0, 0, 0, 5])],
        residual: Vec::new(),
        entries: Vec::new(),
    };
    let start = spec.offsets[0] as usize;
    spec.residual = rng.bytes(start);
    add_frames(rng, &mut spec, frames);
    let after = rng.pick(&[0, 0, 3]);
    spec.residual.extend(rng.bytes(after));
    add_entries(rng, &mut spec, words, covering, extent);
    order_entries(rng, &mut spec.entries);
    spec
}

fn lpc_order(rng: &mut Rng) -> u32 {
    match rng.below(4) {
        0 => rng.between(0, 32) as u32,
        _ => rng.pick(&[0, 1, 2, 4, 10, 10, 16, 31, 32]),
    }
}

fn frame_count(rng: &mut Rng, extent: Extent) -> usize {
    match (extent, rng.below(6)) {
        (Extent::Small, _) => rng.between(1, 6),
        (_, 0) => rng.between(1, 3),
        (_, 1 | 2) => rng.between(4, 20),
        (_, 3 | 4) => rng.between(21, 120),
        _ => rng.between(121, 620),
    }
}

pub(super) fn sample_rate(rng: &mut Rng) -> u32 {
    match rng.below(4) {
        0 => rng.pick(&[1, 2, 3, 100, 44_100, 47_999, 48_000]),
        1 => rng.between(1, 48_000) as u32,
        _ => rng.pick(&[8000, 11_025, 16_000, 22_050]),
    }
}

/// coeff_min and coeff_range: like those of real voices, at the limits, or
/// anything between.
pub(super) fn scales(rng: &mut Rng) -> (f32, f32) {
    let edges = [
        0.0,
        -0.0,
        16.0,
        -16.0,
        15.999_999,
        f32::MIN_POSITIVE,
        f32::from_bits(1),
        1.0e-5,
    ];
    match rng.below(6) {
        0 => (rng.pick(&edges), rng.pick(&edges)),
        1 => (wide(rng), wide(rng)),
        2 => (0.0, 0.0),
        3 => (-0.25, 0.5),
        4 => (-1.0, 2.0),
        _ => (-2.5 - rng.unit() as f32, 5.0 + rng.unit() as f32),
    }
}

fn wide(rng: &mut Rng) -> f32 {
    (rng.unit() * 32.0 - 16.0) as f32
}

/// Adds frames behind those that a voice has: rows, sizes, offsets, residual.
fn add_frames(rng: &mut Rng, spec: &mut VoiceSpec, count: usize) {
    let manner = rng.below(4);
    let bytes = rng.below(5);
    for _ in 0..count {
        let row: Vec<u16> = (0..spec.header.order)
            .map(|_| row_value(rng, &spec.header, manner))
            .collect();
        spec.rows.extend(row);

        let length = stored_length(rng, spec.header.codec);
        let size = size_byte(rng, spec.header.codec, length);
        if let Some(sizes) = &mut spec.sizes {
            sizes.push(size);
        }
        spec.residual
            .extend((0..length).map(|_| residual_byte(rng, bytes)));
        spec.offsets.push(spec.residual.len() as u32);
    }
}

/// One stored row value. In most manners the filter stays quiet enough for its
/// samples to say something; in others it runs to its limits.
pub(super) fn row_value(rng: &mut Rng, header: &Header, manner: usize) -> u16 {
    let min = f32::from_bits(header.coeff_min);
    let range = f32::from_bits(header.coeff_range);
    let zero = (-min / range * 65_535.0).clamp(0.0, 65_535.0);
    match manner {
        0 => rng.u32() as u16,
        1 if range != 0.0 => (zero + wide(rng) * 60.0) as u16,
        2 if range != 0.0 => (zero + wide(rng) * 300.0) as u16,
        _ => rng.pick(&[0, 1, 32_767, 32_768, 65_534, 65_535]),
    }
}

fn stored_length(rng: &mut Rng, codec: u32) -> usize {
    let samples = match rng.below(12) {
        0 => 0,
        1 => rng.between(1, 16),
        2 => rng.between(200, 300),
        _ => rng.between(17, 110),
    };
    match codec {
        0 => samples,
        _ if rng.once_in(16) => 0,
        _ => (samples + 8) / 2 - rng.below(4),
    }
}

/// A period's size byte: what the stored bytes hold, or less, or more.
fn size_byte(rng: &mut Rng, codec: u32, stored: usize) -> u8 {
    let held = match codec {
        0 => stored,
        _ => (2 * stored).saturating_sub(8),
    };
    let size = match rng.below(10) {
        0 => rng.below(256),
        1 => held + rng.below(10),
        2 => held.saturating_sub(rng.below(10)),
        3 => rng.pick(&[0, 255]),
        _ => held,
    };
    size.min(255) as u8
}

pub(super) fn residual_byte(rng: &mut Rng, manner: usize) -> u8 {
    match manner {
        0 | 1 => rng.byte(),
        2 => rng.pick(&[0xFF, 0x7F, 0xFE, 0x7E, 0xF0, 0x70, 0xE4]),
        3 => rng.pick(&[0x77, 0x77, 0x77, 0x78, 0x88, 0x87]),
        _ => rng.pick(&[0x00, 0x80, 0x0F, 0xF0, 0xFF]),
    }
}

fn add_entries(
    rng: &mut Rng,
    spec: &mut VoiceSpec,
    words: &Vocabulary,
    covering: bool,
    extent: Extent,
) {
    for left in &words.phones {
        for right in &words.phones {
            if covering || rng.below(4) > 0 {
                add_entry(rng, spec, format!("{left}-{right}").as_bytes());
            }
            if covering || rng.once_in(3) {
                add_entry(rng, spec, format!("{left}_-_{right}").as_bytes());
            }
        }
    }
    for name in odd_names(rng, extent) {
        add_entry(rng, spec, name.as_bytes());
    }
    if extent == Extent::Small && !covering {
        spec.entries.truncate(4);
    }
    if spec.entries.is_empty() {
        add_entry(rng, spec, b"pau-aa");
    }
}

/// Names that no sheet tries, some of them before all others in the order.
pub(super) fn odd_names(rng: &mut Rng, extent: Extent) -> Vec<String> {
    let long = "n".repeat(255);
    let umlauts = "\u{E9}-\u{F6}".to_string();
    let kana = "\u{65E5}\u{672C}-\u{8A9E}".to_string();
    let last = "\u{10FFFF}".to_string();
    let all = [String::new(), "-".to_string(), umlauts, kana, last, long];
    let usable = if extent == Extent::Small { 5 } else { 6 };
    let count = rng.below(3);
    (0..count).map(|_| rng.pick(&all[..usable])).collect()
}

pub(super) fn add_entry(rng: &mut Rng, spec: &mut VoiceSpec, name: &[u8]) {
    if spec.has(name) {
        return;
    }
    let (start, halves) = periods(rng, spec.header.frames as usize);
    spec.entries.push(EntrySpec {
        name: name.to_vec(),
        start,
        halves,
    });
}

/// A start and two halves that end within the frames.
fn periods(rng: &mut Rng, frames: usize) -> (u16, [u8; 2]) {
    let start = rng.below(frames.min(65_535) + 1);
    let left = frames - start;
    let longest = match rng.below(12) {
        0 | 1 => 0,
        2 => 255,
        _ => 6,
    };
    let (start, first) = match rng.below(8) {
        0 => (start, 0),
        1 => (frames.min(65_535), 0),
        _ => (start, rng.below(left.min(longest) + 1)),
    };
    let left = frames - start - first;
    let second = match rng.below(12) {
        0 => left.min(255),
        1 | 2 => 0,
        _ => rng.below(left.min(longest) + 1),
    };
    (start as u16, [first as u8, second as u8])
}

/// Sorted, sorted backwards, or in no order.
pub(super) fn order_entries(rng: &mut Rng, entries: &mut [EntrySpec]) {
    entries.sort_by(|a, b| a.name.cmp(&b.name));
    match rng.below(3) {
        0 => {}
        1 => entries.reverse(),
        _ => rng.shuffle(entries),
    }
}

/// The sections of a voice with all that a file may carry besides: tails,
/// other sections, later sections of the same names, a backend.
pub fn with_extras(rng: &mut Rng, spec: &VoiceSpec) -> Vec<Section> {
    let mut sections = spec.sections();
    for section in &mut sections {
        if rng.once_in(3) {
            let count = rng.between(1, 5);
            section.data.extend(rng.bytes(count));
        }
    }
    if rng.once_in(2) {
        sections.push(Section::new("voice.backend", backend_text(rng)));
    }
    rng.shuffle(&mut sections);
    for _ in 0..rng.pick(&[0, 0, 1, 3]) {
        insert_other(rng, &mut sections);
    }
    for _ in 0..rng.pick(&[0, 0, 1, 2]) {
        insert_repeat(rng, &mut sections);
    }
    sections
}

fn backend_text(rng: &mut Rng) -> Vec<u8> {
    let mut space = || -> String {
        let count = rng.below(3);
        (0..count).map(|_| rng.pick(&WHITE_SPACE)).collect()
    };
    format!("{}diphone{}", space(), space()).into_bytes()
}

fn insert_other(rng: &mut Rng, sections: &mut Vec<Section>) {
    let names = ["", "sts", "sts.header2", "STS.LPC", "\u{3B1}", "dip.index "];
    let name = rng.pick(&names);
    let count = rng.below(20);
    let section = Section::new(name, rng.bytes(count));
    let at = rng.below(sections.len() + 1);
    sections.insert(at, section);
}

/// Puts one more section of a name somewhere behind the first. It is not read,
/// so its data may be anything.
fn insert_repeat(rng: &mut Rng, sections: &mut Vec<Section>) {
    let of = rng.below(sections.len());
    let name = sections[of].name.clone();
    let count = rng.below(50);
    let data = rng.bytes(count);
    let first = sections.iter().position(|section| section.name == name);
    let at = rng.between(first.unwrap_or(of) + 1, sections.len());
    sections.insert(at, Section { name, data });
}

/// A voice that extends `old`: more frames and entries, another tail of the
/// residual, other values where the header's may differ.
pub fn extension(rng: &mut Rng, old: &VoiceSpec) -> VoiceSpec {
    let mut spec = old.clone();
    let used = *old.offsets.last().unwrap_or(&0) as usize;
    spec.residual.truncate(used);
    let more = rng.pick(&[0, 1, 5, 40]);
    add_frames(rng, &mut spec, more);
    spec.header.frames += more as u32;
    let after = rng.below(9);
    spec.residual.extend(rng.bytes(after));
    for number in 0..rng.pick(&[0, 1, 7]) {
        let left = rng.pick(&PHONES);
        add_entry(rng, &mut spec, format!("{left}-{number}").as_bytes());
        add_entry(rng, &mut spec, format!("!{number}").as_bytes());
        add_entry(rng, &mut spec, format!("{left}-aa").as_bytes());
    }
    order_entries(rng, &mut spec.entries);
    spec.header.stretch = rng.u32();
    spec.header.f0_mean = rng.u32();
    spec.header.f0_deviation = rng.u32();
    spec.header.fold = rng.u32();
    spec
}

/// The voice with so many entries, in name order or with two neighbours exchanged.
/// The new names stand before, between and behind the old ones.
pub fn widened(rng: &mut Rng, old: &VoiceSpec, count: usize, ordered: bool) -> VoiceSpec {
    let mut spec = old.clone();
    for number in spec.entries.len()..count {
        let first = char::from(rng.between(33, 126) as u8);
        let mut entry = rng.pick(&old.entries);
        entry.name = format!("{first}.{number:06}").into_bytes();
        spec.entries.push(entry);
    }
    spec.entries.sort_by(|a, b| a.name.cmp(&b.name));
    if !ordered {
        let at = rng.between(1, count - 1);
        spec.entries.swap(at - 1, at);
    }
    spec
}
