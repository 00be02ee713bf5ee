//! A call sheet, read and written as document 01 words it, and document 02 its
//! texts. Reading stops at the first 8, 9 or 17 in reading order.

use crate::pitches;
use crate::refusal::Refusal;
use crate::texts::{Text, MAX_TEXT};
use std::ops::Range;

const MAX_COUNT: usize = 4096;
const MAX_NAME: usize = 32;

#[derive(Clone, Copy, Debug, PartialEq, Eq)]
pub enum Value {
    Whole(i32),
    /// By its bits.
    Float(u32),
    Absent,
    /// Read as the float that it stands for.
    Text(Text),
}

impl Value {
    pub fn float(x: f32) -> Value {
        Value::Float(x.to_bits())
    }

    pub fn text(bytes: &[u8]) -> Value {
        Value::Text(Text::new(bytes).expect("a text of at most 12 bytes"))
    }

    pub fn as_f32(self) -> f32 {
        match self.as_read() {
            Value::Whole(n) => n as f32,
            Value::Float(bits) => f32::from_bits(bits),
            _ => 0.0,
        }
    }

    /// A text as the float that it stands for; all else as it is.
    pub fn as_read(self) -> Value {
        match self {
            Value::Text(text) => Value::Float(text.bits()),
            other => other,
        }
    }
}

#[derive(Clone, Debug, PartialEq, Eq)]
pub struct Segment {
    pub name: String,
    pub end: Value,
    /// 0 for none, else the number, from 1, of the next segment in the
    /// syllable.
    pub follower: usize,
}

#[derive(Clone, Copy, Debug, PartialEq, Eq)]
pub struct Target {
    pub pos: Value,
    pub f0: Value,
}

#[derive(Clone, Debug, Default, PartialEq, Eq)]
pub struct Sheet {
    pub segments: Vec<Segment>,
    pub targets: Vec<Target>,
}

impl Sheet {
    /// Whether this sheet begins with `other`, as they are read.
    pub fn begins_with(&self, other: &Sheet) -> bool {
        let [longer, other] = [self, other].map(Sheet::as_read);
        longer.segments.starts_with(&other.segments) && longer.targets.starts_with(&other.targets)
    }

    /// The sheet with its texts as the floats that they stand for.
    pub fn as_read(&self) -> Sheet {
        let mut sheet = self.clone();
        sheet.each_value(|value| *value = value.as_read());
        sheet
    }

    /// Every value in reading order.
    pub fn values(&self) -> Vec<Value> {
        let mut values = Vec::new();
        self.clone().each_value(|value| values.push(*value));
        values
    }

    /// Goes through the values in reading order.
    pub fn each_value(&mut self, mut each: impl FnMut(&mut Value)) {
        for segment in &mut self.segments {
            each(&mut segment.end);
        }
        for target in &mut self.targets {
            each(&mut target.pos);
            each(&mut target.f0);
        }
    }

    /// The targets as (pos, f0), each as it is counted.
    pub fn contour(&self) -> Vec<(f32, f32)> {
        let pair = |target: &Target| (target.pos.as_f32(), target.f0.as_f32());
        pitches::filled(self).targets.iter().map(pair).collect()
    }
}

/// Reads a sheet or refuses it with 8, 9 or 17. Its texts stay texts.
pub fn read(bytes: &[u8]) -> Result<Sheet, Refusal> {
    Reader::new(bytes).sheet()
}

/// The texts of a sheet, up to where it is refused, and where their values stand.
pub fn texts(bytes: &[u8]) -> Vec<(Range<usize>, Text)> {
    let mut reader = Reader::new(bytes);
    let _ = reader.sheet();
    reader.texts
}

struct Reader<'a> {
    whole: &'a [u8],
    rest: &'a [u8],
    texts: Vec<(Range<usize>, Text)>,
}

impl<'a> Reader<'a> {
    fn new(bytes: &'a [u8]) -> Reader<'a> {
        Reader {
            whole: bytes,
            rest: bytes,
            texts: Vec::new(),
        }
    }

    fn sheet(&mut self) -> Result<Sheet, Refusal> {
        let mut sheet = Sheet::default();
        let count = self.group_up_to(MAX_COUNT)?;
        for _ in 0..count {
            let name = self.name()?;
            let end = self.value()?;
            let follower = self.group_up_to(count)?;
            sheet.segments.push(Segment {
                name,
                end,
                follower,
            });
        }
        for _ in 0..self.group_up_to(MAX_COUNT)? {
            let pos = self.value()?;
            let f0 = self.value()?;
            sheet.targets.push(Target { pos, f0 });
        }
        match self.rest {
            [] => Ok(sheet),
            _ => Err(Refusal::Sheet),
        }
    }

    fn take(&mut self, count: usize) -> Result<&'a [u8], Refusal> {
        let (taken, rest) = self.rest.split_at_checked(count).ok_or(Refusal::Sheet)?;
        self.rest = rest;
        Ok(taken)
    }

    fn byte(&mut self) -> Result<u8, Refusal> {
        self.take(1).map(|taken| taken[0])
    }

    fn word(&mut self) -> Result<[u8; 4], Refusal> {
        self.take(4).map(|b| [b[0], b[1], b[2], b[3]])
    }

    /// Groups of seven bits: at most five, the last one 0 only if it is alone.
    fn group(&mut self) -> Result<u64, Refusal> {
        let mut number = 0;
        for place in 0..5 {
            let byte = self.byte()?;
            number += u64::from(byte % 128) << (7 * place);
            if byte < 128 {
                let shortest = byte != 0 || place == 0;
                return shortest.then_some(number).ok_or(Refusal::Sheet);
            }
        }
        Err(Refusal::Sheet)
    }

    fn group_up_to(&mut self, limit: usize) -> Result<usize, Refusal> {
        let number = self.group()? as usize;
        (number <= limit).then_some(number).ok_or(Refusal::Sheet)
    }

    fn name(&mut self) -> Result<String, Refusal> {
        let length = self.group_up_to(MAX_NAME)?;
        let name = self.take(length)?;
        if !name.iter().all(|byte| (33..=126).contains(byte)) {
            return Err(Refusal::Sheet);
        }
        Ok(name.iter().map(|byte| char::from(*byte)).collect())
    }

    fn value(&mut self) -> Result<Value, Refusal> {
        match self.byte()? {
            0 => Ok(Value::Whole(i32::from_le_bytes(self.word()?))),
            1 => {
                let bits = u32::from_le_bytes(self.word()?);
                let finite = f32::from_bits(bits).is_finite();
                finite
                    .then_some(Value::Float(bits))
                    .ok_or(Refusal::NotFinite)
            }
            2 => Ok(Value::Absent),
            3 => self.text().map(Value::Text),
            _ => Err(Refusal::Sheet),
        }
    }

    /// A text behind its kind.
    fn text(&mut self) -> Result<Text, Refusal> {
        let start = self.place() - 1;
        let length = usize::from(self.byte()?);
        if length > MAX_TEXT {
            return Err(Refusal::LongText);
        }
        let text = Text::new(self.take(length)?).expect("at most 12 bytes");
        self.texts.push((start..self.place(), text));
        Ok(text)
    }

    /// How many bytes were read.
    fn place(&self) -> usize {
        self.whole.len() - self.rest.len()
    }
}

/// What a piece of a written sheet stands for.
#[derive(Clone, Copy, Debug, PartialEq, Eq)]
pub enum Place {
    SegmentCount,
    NameLength,
    Name,
    Follower,
    TargetCount,
    Value,
}

/// A written sheet in pieces, in reading order.
pub fn pieces(sheet: &Sheet) -> Vec<(Place, Vec<u8>)> {
    let mut all = vec![(Place::SegmentCount, group(sheet.segments.len()))];
    for segment in &sheet.segments {
        all.push((Place::NameLength, group(segment.name.len())));
        all.push((Place::Name, segment.name.clone().into_bytes()));
        all.push((Place::Value, value(segment.end)));
        all.push((Place::Follower, group(segment.follower)));
    }
    all.push((Place::TargetCount, group(sheet.targets.len())));
    for target in &sheet.targets {
        all.push((Place::Value, value(target.pos)));
        all.push((Place::Value, value(target.f0)));
    }
    all
}

pub fn write(sheet: &Sheet) -> Vec<u8> {
    pieces(sheet).into_iter().flat_map(|(_, b)| b).collect()
}

/// A number in its shortest form.
pub fn group(mut number: usize) -> Vec<u8> {
    let mut bytes = Vec::new();
    while number >= 128 {
        bytes.push((number % 128) as u8 + 128);
        number /= 128;
    }
    bytes.push(number as u8);
    bytes
}

pub fn value(value: Value) -> Vec<u8> {
    let with = |kind: u8, word: [u8; 4]| [&[kind][..], &word[..]].concat();
    match value {
        Value::Whole(n) => with(0, n.to_le_bytes()),
        Value::Float(bits) => with(1, bits.to_le_bytes()),
        Value::Absent => vec![2],
        Value::Text(text) => [&[3, text.bytes().len() as u8], text.bytes()].concat(),
    }
}
