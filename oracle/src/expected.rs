//! What a call must show: where it is spoken by the Rust, where it is refused
//! by document 01.

use crate::call::{self, Settings};
use crate::departure::Departure;
use crate::diphone::DiphoneVoice;
use crate::dsp;
use crate::empty_boxes::Boxes;
use crate::lent::{Buffers, WIDTHS};
use crate::pairs;
use crate::period_report::{self, Line};
use crate::reference::{self, Filled, Fitness, Parsed};
use crate::refusal::Refusal;
use crate::sheet::{self, Sheet};
use crate::taking::{Taken, Taking, Tally};
use crate::text_calls::Typed;
use crate::voicefile::{self, Voice};

pub const SHORT_BUFFER: usize = 13;

/// Every number that a call can answer.
pub fn answers() -> impl Iterator<Item = usize> {
    (0..=SHORT_BUFFER).chain([Refusal::MissingPair, Refusal::LongText].map(Refusal::number))
}

/// The most that a call may make.
#[derive(Clone, Copy, Debug, PartialEq, Eq)]
pub struct Most {
    pub marks: usize,
    pub samples: usize,
}

impl Most {
    pub const ANY: Most = Most {
        marks: usize::MAX,
        samples: usize::MAX,
    };
}

/// What a call gives apart from its buffers' lengths.
pub enum Given {
    Spoken(Spoken),
    Refused(Refusal),
}

pub struct Spoken {
    /// Rate, periods, samples, marks, order, entries.
    pub summary: [usize; 6],
    /// The bytes that it fills, buffer by buffer.
    pub filled: Buffers,
    /// The elements that each buffer must have room for.
    pub needed: [usize; 6],
    pub periods: Vec<Vec<i16>>,
    pub lines: Vec<Line>,
    pub tally: Tally,
    pub departure: Departure,
    /// Where the sheet has targets without a pitch.
    pub boxes: Option<Boxes>,
    /// Where it has texts.
    pub typed: Option<Typed>,
}

/// What a pull shows: its number, and every byte of its slice afterwards.
pub type Shown = (i64, Vec<u8>);

/// What the call and its pulls show.
pub struct Expected {
    pub number: usize,
    pub summary: Vec<usize>,
    pub buffers: Buffers,
    pub periods: Vec<Vec<i16>>,
    pub pulled: Vec<Shown>,
}

/// Nothing where the call makes more than `most`.
pub fn given(voice: &[u8], sheet: &[u8], settings: Settings, most: Most) -> Option<Given> {
    match read(voice, sheet, settings, most.marks) {
        Err(refusal) => refusal.map(Given::Refused),
        Ok((read, sheet, marks)) => {
            let spoken = speak(voice, &read, &sheet, settings, &marks)?;
            let small = spoken.summary[2] <= most.samples;
            small.then_some(Given::Spoken(spoken))
        }
    }
}

/// The voice, the sheet and the marks by document 01, or its refusal, with 16
/// where the Rust finds no name too. An error without a refusal says that there
/// are more marks than `most`.
fn read<'a>(
    file: &'a [u8],
    sheet: &[u8],
    settings: Settings,
    most: usize,
) -> Result<(Voice<'a>, Sheet, Vec<usize>), Option<Refusal>> {
    let voice = voicefile::open(file)?;
    let sheet = sheet::read(sheet)?;
    let mut marks = Vec::new();
    let made = call::make_marks(&voice, &sheet, settings, &mut marks);
    let missing = settings.strict && {
        let pairs = pairs::agreed(&parsed(file), &voice, &sheet, settings);
        call::is_missing(&pairs)
    };
    let refused = made == Err(Refusal::MissingPair);
    assert_eq!(missing, refused, "16 by the Rust and by document 01");
    if marks.len() > most {
        return Err(None);
    }
    made?;
    Ok((voice, sheet, marks))
}

/// A good voice as the Rust parses it.
fn parsed(file: &[u8]) -> Box<DiphoneVoice> {
    match reference::parse(file) {
        Parsed::Voice(rust) => rust,
        _ => panic!("the Rust does not open a good voice"),
    }
}

/// The call as the Rust speaks it, with empty pitch boxes filled in, in the
/// modified join from rounded target ends. Nothing where that would take long.
fn speak(
    file: &[u8],
    voice: &Voice,
    sheet: &Sheet,
    settings: Settings,
    marks: &[usize],
) -> Option<Spoken> {
    let fitness = reference::fitness(voice, sheet, settings, marks);
    if fitness == Fitness::TakesLong {
        return None;
    }
    let rust = parsed(file);
    let filled = reference::fill(&rust, sheet, settings);
    assert_eq!(filled.marks, marks, "marks of the Rust and of document 01");
    // If it is not fit: fewer than two segments, where document 01 gives zero
    // periods.
    let (periods, departure) = match fitness {
        Fitness::Fit => {
            let periods = reference::speak(&rust, sheet, settings, &filled);
            let departure = Departure::of(&rust, sheet, settings, &filled, &periods);
            (periods, departure)
        }
        _ => Default::default(),
    };
    let boxes = Boxes::of(voice, &rust, sheet, settings, &filled, &periods);
    let taking = Taking::new(voice, &rust, &filled, settings.join);
    Some(Spoken {
        departure,
        boxes,
        typed: Typed::of(voice, sheet, settings),
        ..spoken(voice, &filled, periods, &taking)
    })
}

/// How it stands to the Rust's own is still to come.
fn spoken(read: &Voice, filled: &Filled, periods: Vec<Vec<i16>>, taking: &Taking) -> Spoken {
    let taken = &taking.expected;
    let residual = &filled.taken.residual;
    let lengths: Vec<usize> = periods.iter().map(Vec::len).collect();
    assert_eq!(taken.sizes, lengths, "sizes and lengths of the periods");
    let index: Vec<usize> = read.index.iter().map(|entry| entry.at).collect();
    let rows: Vec<usize> = taken.rows.iter().map(|q| usize::from(*q)).collect();
    Spoken {
        summary: [
            read.header.rate as usize,
            taken.sizes.len(),
            residual.len(),
            filled.marks.len(),
            read.order(),
            index.len(),
        ],
        needed: [
            index.len(),
            filled.marks.len(),
            taken.sizes.len(),
            rows.len(),
            residual.len(),
            decode_room(read),
        ],
        filled: [
            packed(&index, WIDTHS[0]),
            packed(&filled.marks, WIDTHS[1]),
            packed(&taken.sizes, WIDTHS[2]),
            packed(&rows, WIDTHS[3]),
            residual.clone(),
            decoded(read, taken),
        ],
        periods,
        lines: lines(filled, taken),
        tally: taking.tally(filled),
        departure: Departure::default(),
        boxes: None,
        typed: None,
    }
}

/// Little-endian numbers of a width.
pub fn packed(numbers: &[usize], width: usize) -> Vec<u8> {
    let bytes = |number: &usize| number.to_le_bytes()[..width].to_vec();
    numbers.iter().flat_map(bytes).collect()
}

/// Twice the bytes of the longest period, 0 for mu-law.
fn decode_room(voice: &Voice) -> usize {
    match voice.is_g721() {
        true => 2 * voice.longest(),
        false => 0,
    }
}

/// The report's lines. A period begins at the mark before its own, the first
/// one at 0, and the last ends with the samples.
fn lines(filled: &Filled, taken: &Taken) -> Vec<Line> {
    let lines = period_report::lines(&taken.takers, &taken.sizes);
    let firsts: Vec<usize> = lines.iter().map(|line| line[2]).collect();
    let begins: Vec<usize> = [&[0], &filled.marks[..]].concat();
    assert!(begins.starts_with(&firsts), "firsts, and the marks before");
    let samples = lines.last().map_or(0, |[_, _, first, size]| first + size);
    assert_eq!(
        filled.taken.residual.len(),
        samples,
        "samples of all periods"
    );
    lines
}

/// What of the decode buffer is written: each taken period of size above 0 is
/// decoded to its front, over the one before.
fn decoded(read: &Voice, taken: &Taken) -> Vec<u8> {
    let mut front = Vec::new();
    if !read.is_g721() {
        return front;
    }
    for (number, size) in taken.numbers.iter().zip(&taken.sizes) {
        if *size > 0 {
            front = over(&dsp::access::decode_adpcm(read.stored(*number)), &front);
        }
    }
    front
}

/// A buffer whose front was filled.
pub fn over(new: &[u8], old: &[u8]) -> Vec<u8> {
    let rest = old.get(new.len()..).unwrap_or(&[]);
    [new, rest].concat()
}

/// A refused call leaves all, and nothing is pulled after it.
pub fn refused(number: usize, lent: &Buffers) -> Expected {
    Expected {
        number,
        summary: Vec::new(),
        buffers: lent.clone(),
        periods: Vec::new(),
        pulled: Vec::new(),
    }
}

impl Given {
    /// The number of a call that is refused; 13 where all but its buffers is
    /// in order.
    pub fn number(&self) -> usize {
        match self {
            Given::Refused(refusal) => refusal.number(),
            Given::Spoken(_) => SHORT_BUFFER,
        }
    }

    /// The elements that each buffer needs; some number where it does not
    /// matter.
    pub fn needed(&self) -> [usize; 6] {
        match self {
            Given::Refused(_) => [1; 6],
            Given::Spoken(spoken) => spoken.needed,
        }
    }
}

impl Spoken {
    /// Whether each buffer has enough whole elements.
    pub fn fits(&self, lent: &Buffers) -> bool {
        self.fits_in(&std::array::from_fn(|i| lent[i].len()))
    }

    /// The same, of buffers of so many bytes.
    pub fn fits_in(&self, lengths: &[usize; 6]) -> bool {
        (0..6).all(|i| self.needed[i] <= lengths[i] / WIDTHS[i])
    }

    /// With buffers that are long enough, and a slice for each pull.
    pub fn with(&self, lent: &Buffers, slices: &[Vec<u8>]) -> Expected {
        Expected {
            number: 0,
            summary: self.summary.to_vec(),
            buffers: std::array::from_fn(|i| over(&self.filled[i], &lent[i])),
            periods: self.periods.clone(),
            pulled: pulled(&self.periods, slices),
        }
    }
}

/// Document 01's plain machine on the Rust's periods.
fn pulled(periods: &[Vec<i16>], slices: &[Vec<u8>]) -> Vec<Shown> {
    let mut count = 0;
    let mut shown = Vec::new();
    for slice in slices {
        let answer = match periods.get(count) {
            None => (-1, slice.clone()),
            Some(period) if slice.len() / 2 < period.len() => (-14, slice.clone()),
            Some(period) => {
                count += 1;
                let samples: Vec<u8> = period.iter().flat_map(|s| s.to_le_bytes()).collect();
                (period.len() as i64, over(&samples, slice))
            }
        };
        shown.push(answer);
    }
    shown
}
