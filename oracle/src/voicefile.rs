//! A voice file, read as document 01 words it: refusals 1 to 7 in strict
//! order, with the limits that the document adds to the Rust.

use crate::refusal::Refusal;
use std::ops::Range;

pub const MAGIC: &[u8; 8] = b"FLRSDAT\x01";
const HEADER_BYTES: usize = 40;
const MAX_ORDER: u32 = 32;
const MAX_RATE: u32 = 48_000;
const MAX_SCALE: f32 = 16.0;
const MAX_RESIDUAL: usize = 16_777_215;

/// The header, floats by their bits.
#[derive(Clone, Copy, Debug, PartialEq, Eq)]
pub struct Header {
    pub frames: u32,
    pub order: u32,
    pub rate: u32,
    pub coeff_min: u32,
    pub coeff_range: u32,
    pub codec: u32,
    pub stretch: u32,
    pub f0_mean: u32,
    pub f0_deviation: u32,
    pub fold: u32,
}

/// One entry of the index.
#[derive(Clone, Debug, PartialEq, Eq)]
pub struct Entry<'a> {
    /// The file offset of the entry's name-length byte.
    pub at: usize,
    pub name: &'a str,
    pub start: usize,
    pub first_half: usize,
    pub second_half: usize,
}

impl Entry<'_> {
    pub fn middle(&self) -> usize {
        self.start + self.first_half
    }

    pub fn end(&self) -> usize {
        self.middle() + self.second_half
    }
}

/// An opened voice.
pub struct Voice<'a> {
    pub header: Header,
    lpc: &'a [u8],
    offsets: &'a [u8],
    sizes: Option<&'a [u8]>,
    residual: &'a [u8],
    /// In name order.
    pub index: Vec<Entry<'a>>,
}

/// Opens a voice file or refuses it with 1 to 7.
pub fn open(bytes: &[u8]) -> Result<Voice<'_>, Refusal> {
    if !bytes.starts_with(MAGIC) {
        return Err(Refusal::Magic);
    }
    let sections = Sections::walk(bytes)?;
    check_backend(&sections)?;
    let header = sections.needed("sts.header")?;
    let lpc = sections.needed("sts.lpc")?;
    let offsets = sections.needed("sts.resoffs")?;
    let residual = sections.needed("sts.res")?;
    let index = sections.needed("dip.index")?;

    let header = read_header(&bytes[header])?;
    let mut voice = Voice {
        header,
        lpc: &bytes[lpc],
        offsets: &bytes[offsets],
        sizes: sections.first("sts.ressize").map(|place| &bytes[place]),
        residual: &bytes[residual],
        index: Vec::new(),
    };
    voice.check_tables()?;
    voice.index = read_index(bytes, index, header.frames as usize)?;
    Ok(voice)
}

/// The sections of a file in file order.
struct Sections<'a> {
    bytes: &'a [u8],
    all: Vec<(&'a str, Range<usize>)>,
}

impl<'a> Sections<'a> {
    fn walk(bytes: &'a [u8]) -> Result<Sections<'a>, Refusal> {
        let mut all = Vec::new();
        let mut cursor = Cursor::new(bytes, MAGIC.len()..bytes.len());
        while cursor.left() > 0 {
            let (name, data) = walk_one(&mut cursor).ok_or(Refusal::Section)?;
            all.push((name, data));
        }
        Ok(Sections { bytes, all })
    }

    /// The first section of a name counts.
    fn first(&self, name: &str) -> Option<Range<usize>> {
        let found = self.all.iter().find(|(other, _)| *other == name);
        found.map(|(_, place)| place.clone())
    }

    fn needed(&self, name: &str) -> Result<Range<usize>, Refusal> {
        self.first(name).ok_or(Refusal::Missing)
    }
}

fn walk_one<'a>(cursor: &mut Cursor<'a>) -> Option<(&'a str, Range<usize>)> {
    let name = cursor.name()?;
    let length = cursor.u32()? as usize;
    let start = cursor.at;
    cursor.take(length)?;
    Some((name, start..start + length))
}

/// Without the section the voice is a diphone voice; with it the trimmed text
/// must say so.
fn check_backend(sections: &Sections) -> Result<(), Refusal> {
    let Some(place) = sections.first("voice.backend") else {
        return Ok(());
    };
    match std::str::from_utf8(&sections.bytes[place]) {
        Ok(text) if text.trim() == "diphone" => Ok(()),
        _ => Err(Refusal::Backend),
    }
}

fn read_header(data: &[u8]) -> Result<Header, Refusal> {
    if data.len() < HEADER_BYTES {
        return Err(Refusal::Header);
    }
    let header = Header {
        frames: u32_at(data, 0),
        order: u32_at(data, 1),
        rate: u32_at(data, 2),
        coeff_min: u32_at(data, 3),
        coeff_range: u32_at(data, 4),
        codec: u32_at(data, 5),
        stretch: u32_at(data, 6),
        f0_mean: u32_at(data, 7),
        f0_deviation: u32_at(data, 8),
        fold: u32_at(data, 9),
    };
    let within = header.frames >= 1
        && header.order <= MAX_ORDER
        && (1..=MAX_RATE).contains(&header.rate)
        && is_scale(header.coeff_min)
        && is_scale(header.coeff_range)
        && header.codec <= 1;
    within.then_some(header).ok_or(Refusal::Header)
}

/// Finite and from -16 to 16. A NaN is in no range.
pub fn is_scale(bits: u32) -> bool {
    (-MAX_SCALE..=MAX_SCALE).contains(&f32::from_bits(bits))
}

impl<'a> Voice<'a> {
    fn check_tables(&self) -> Result<(), Refusal> {
        let frames = self.frames();
        let consistent = self.residual.len() <= MAX_RESIDUAL
            && self.lpc.len() >= frames * self.order() * 2
            && self.sizes.is_none_or(|sizes| sizes.len() >= frames)
            && self.offsets.len() >= (frames + 1) * 4
            && (0..frames).all(|i| self.offset(i) <= self.offset(i + 1))
            && self.offset(frames) <= self.residual.len();
        consistent.then_some(()).ok_or(Refusal::Tables)
    }

    pub fn frames(&self) -> usize {
        self.header.frames as usize
    }

    pub fn order(&self) -> usize {
        self.header.order as usize
    }

    pub fn is_g721(&self) -> bool {
        self.header.codec == 1
    }

    pub fn has_sizes(&self) -> bool {
        self.sizes.is_some()
    }

    fn offset(&self, i: usize) -> usize {
        u32_at(self.offsets, i) as usize
    }

    /// The stored bytes of a period.
    pub fn stored(&self, period: usize) -> &'a [u8] {
        &self.residual[self.offset(period)..self.offset(period + 1)]
    }

    /// A period's samples: its size byte, else its offset gap.
    pub fn samples(&self, period: usize) -> usize {
        match self.sizes {
            Some(sizes) => sizes[period].into(),
            None => self.offset(period + 1) - self.offset(period),
        }
    }

    /// A period's row of values as stored.
    pub fn row(&self, period: usize) -> Vec<u16> {
        let width = self.order() * 2;
        self.lpc[period * width..(period + 1) * width]
            .chunks(2)
            .map(|pair| u16::from_le_bytes([pair[0], pair[1]]))
            .collect()
    }

    /// The stored bytes of the longest period.
    pub fn longest(&self) -> usize {
        (0..self.frames())
            .map(|period| self.stored(period).len())
            .max()
            .unwrap_or(0)
    }

    /// The entry of a name.
    pub fn find(&self, name: &str) -> Option<&Entry<'a>> {
        self.index.iter().find(|entry| entry.name == name)
    }

    /// Whether this voice extends `old`, as document 01 words it.
    pub fn extends(&self, old: &Voice) -> bool {
        let frames = old.frames();
        let used = old.offset(frames);
        self.same_kind(old)
            && self.frames() >= frames
            && (0..frames).all(|period| self.row(period) == old.row(period))
            && (0..frames).all(|period| self.samples(period) == old.samples(period))
            && (0..=frames).all(|i| self.offset(i) == old.offset(i))
            && self.residual[..used] == old.residual[..used]
            && old.index.iter().all(|entry| self.has_entry(entry))
    }

    fn same_kind(&self, old: &Voice) -> bool {
        let key = |voice: &Voice| {
            let h = voice.header;
            let scales = (h.coeff_min, h.coeff_range);
            (h.rate, h.order, scales, h.codec, voice.sizes.is_some())
        };
        key(self) == key(old)
    }

    fn has_entry(&self, wanted: &Entry) -> bool {
        self.find(wanted.name).is_some_and(|entry| {
            (entry.start, entry.first_half, entry.second_half)
                == (wanted.start, wanted.first_half, wanted.second_half)
        })
    }
}

fn read_index(bytes: &[u8], place: Range<usize>, frames: usize) -> Result<Vec<Entry<'_>>, Refusal> {
    let mut cursor = Cursor::new(bytes, place);
    let count = cursor.u32().ok_or(Refusal::Index)?;
    let mut index = Vec::new();
    for _ in 0..count {
        let entry = read_entry(&mut cursor).ok_or(Refusal::Index)?;
        if entry.end() > frames {
            return Err(Refusal::Index);
        }
        index.push(entry);
    }
    index.sort_by(|a, b| a.name.as_bytes().cmp(b.name.as_bytes()));
    let twice = index.windows(2).any(|pair| pair[0].name == pair[1].name);
    if twice || index.is_empty() {
        return Err(Refusal::Index);
    }
    Ok(index)
}

fn read_entry<'a>(cursor: &mut Cursor<'a>) -> Option<Entry<'a>> {
    let at = cursor.at;
    let name = cursor.name()?;
    let fixed = cursor.take(4)?;
    Some(Entry {
        at,
        name,
        start: u16::from_le_bytes([fixed[0], fixed[1]]).into(),
        first_half: fixed[2].into(),
        second_half: fixed[3].into(),
    })
}

/// A place in a part of a file. A read past the part's end gives nothing.
struct Cursor<'a> {
    bytes: &'a [u8],
    at: usize,
    end: usize,
}

impl<'a> Cursor<'a> {
    fn new(bytes: &'a [u8], part: Range<usize>) -> Cursor<'a> {
        Cursor {
            bytes,
            at: part.start,
            end: part.end,
        }
    }

    fn left(&self) -> usize {
        self.end - self.at
    }

    fn take(&mut self, count: usize) -> Option<&'a [u8]> {
        if count > self.left() {
            return None;
        }
        let taken = &self.bytes[self.at..self.at + count];
        self.at += count;
        Some(taken)
    }

    fn u32(&mut self) -> Option<u32> {
        self.take(4).map(|data| u32_at(data, 0))
    }

    /// A length byte and that many bytes of UTF-8.
    fn name(&mut self) -> Option<&'a str> {
        let length = self.take(1)?[0];
        std::str::from_utf8(self.take(length.into())?).ok()
    }
}

/// Number `i` of a table of little-endian u32.
fn u32_at(data: &[u8], i: usize) -> u32 {
    let at = i * 4;
    u32::from_le_bytes([data[at], data[at + 1], data[at + 2], data[at + 3]])
}
