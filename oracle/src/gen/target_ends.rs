//! Sheets whose target ends lie where rounding and truncating part, and sheets
//! where they cannot.

use super::sheets;
use super::small::{self, Shape};
use super::voices::{self, sample_rate, Extent, Vocabulary, VoiceSpec};
use crate::call::modified_marks;
use crate::departure::RATES;
use crate::ends::{is_whole, of_pair};
use crate::rng::Rng;
use crate::sheet::{Sheet, Value};

/// What the products of the ends are like.
#[derive(Clone, Copy, Debug, PartialEq, Eq)]
pub enum Manner {
    /// Whole numbers.
    Whole,
    /// The same, of whole seconds and halves of one.
    Seconds,
    /// Exact halves, and one f32 beside them.
    Half,
    BesideHalf,
    /// From 0 to 2.
    Low,
    /// Half of them below zero, most of these from -0.5 on.
    BelowZero,
    /// From 2 to the power of 22 on: where f32 has halves, where it has whole
    /// numbers alone, and past the limit.
    High,
    /// Half a sample before a mark, or less.
    BeforeMark,
    /// Of any of these, each by itself.
    Mixed,
}

pub const MANNERS: [Manner; 12] = [
    Manner::Whole,
    Manner::Half,
    Manner::BeforeMark,
    Manner::Seconds,
    Manner::BesideHalf,
    Manner::Whole,
    Manner::Low,
    Manner::BelowZero,
    Manner::BeforeMark,
    Manner::Whole,
    Manner::High,
    Manner::Mixed,
];

impl Manner {
    pub fn name(self) -> &'static str {
        match self {
            Manner::Whole => "whole numbers",
            Manner::Seconds => "whole seconds and halves",
            Manner::Half => "exact halves",
            Manner::BesideHalf => "beside halves",
            Manner::Low => "from 0 to 2",
            Manner::BelowZero => "some below zero",
            Manner::High => "high",
            Manner::BeforeMark => "before marks",
            Manner::Mixed => "mixed",
        }
    }
}

/// Draws for an end before one is taken that is not of the manner.
const MOST_DRAWS: usize = 60;

/// The longest segment, in samples: of a small sheet, and of any.
const SHORT: usize = 24;
const LONG: usize = 300;

/// A voice and a sheet by their number.
pub fn numbered(rng: &mut Rng, number: u64) -> (Manner, VoiceSpec, Sheet) {
    super::in_turn(rng, number, &MANNERS, any, little)
}

/// A voice of any extent, and a sheet.
fn any(rng: &mut Rng, manner: Manner) -> (VoiceSpec, Sheet) {
    let words = voices::vocabulary(rng);
    let covering = rng.once_in(2);
    let mut spec = voices::voice(rng, &words, Extent::Any, covering);
    spec.header.rate = rate(rng, manner);
    let mut sheet = sheets::sheet(rng, &words, spec.header.rate);
    set_ends(rng, &mut sheet, &spec, manner, LONG);
    (spec, sheet)
}

/// A voice of a few hundred bytes, and a sheet.
pub fn little(rng: &mut Rng, shape: Shape, manner: Manner) -> (VoiceSpec, Sheet) {
    let words = small::vocabulary(rng);
    let mut spec = small::voice(rng, &words, shape);
    spec.header.rate = rate(rng, manner);
    let mut sheet = small::sheet(rng, &words, spec.header.rate);
    set_ends(rng, &mut sheet, &spec, manner, SHORT);
    (spec, sheet)
}

/// A sheet that begins with `old`, of any manner.
pub fn longer(rng: &mut Rng, old: &Sheet, spec: &VoiceSpec) -> Sheet {
    let names = old.segments.iter().map(|segment| segment.name.clone());
    let words = Vocabulary {
        phones: names.chain(["pau".to_string()]).collect(),
    };
    let mut sheet = sheets::longer(rng, old, &words, spec.header.rate);
    let manner = rng.pick(&MANNERS);
    set_ends(rng, &mut sheet, spec, manner, LONG);
    for (segment, old) in sheet.segments.iter_mut().zip(&old.segments) {
        segment.end = old.end;
    }
    sheet
}

fn rate(rng: &mut Rng, manner: Manner) -> u32 {
    match manner {
        Manner::Seconds => rng.pick(&[1, 2, 4, 10, 100]),
        _ if rng.once_in(3) => sample_rate(rng),
        _ => rng.pick(&RATES),
    }
}

/// Gives the segments other ends.
fn set_ends(rng: &mut Rng, sheet: &mut Sheet, spec: &VoiceSpec, manner: Manner, longest: usize) {
    let mut marks = Vec::new();
    // Where they are refused, those before that are near enough.
    let _ = modified_marks(spec.header.rate, &sheet.contour(), &mut marks);
    let mut ends = Ends {
        rate: spec.header.rate,
        longest,
        marks,
        before: 0.0,
        place: 0,
    };
    for segment in &mut sheet.segments {
        segment.end = ends.next(rng, manner);
    }
}

/// The ends of a sheet, one after the other.
struct Ends {
    rate: u32,
    longest: usize,
    marks: Vec<usize>,
    /// The end before, and a sample near it.
    before: f32,
    place: usize,
}

impl Ends {
    fn next(&mut self, rng: &mut Rng, manner: Manner) -> Value {
        let end = match manner {
            Manner::Whole | Manner::Seconds => self.whole(rng, manner == Manner::Seconds),
            Manner::BeforeMark => self.before_mark(rng),
            Manner::Mixed => {
                let [single @ .., _] = MANNERS;
                let manner = rng.pick(&single);
                return self.next(rng, manner);
            }
            other => self.with(|ends| ends.product(rng, other)),
        };
        self.before = end;
        match end {
            end if manner == Manner::Seconds && is_whole(end) => Value::Whole(end as i32),
            end => Value::float(end),
        }
    }

    /// An end of which both products with the end before are whole numbers: the
    /// end before, if no other is found.
    fn whole(&mut self, rng: &mut Rng, seconds: bool) -> f32 {
        for _ in 0..MOST_DRAWS {
            let place = self.place + rng.between(2, self.longest);
            let end = match seconds {
                true => Some(self.before + rng.pick(&[0.5, 1.0, 1.5, 2.0, 3.0])),
                false => time(place as f32, self.rate),
            };
            let is_whole = |end: &f32| {
                let [_, middle] = of_pair(self.before, *end, self.rate);
                [of_pair(*end, *end, self.rate)[0], middle]
                    .into_iter()
                    .all(is_whole)
            };
            if let Some(end) = end.filter(is_whole) {
                self.place = place;
                return end;
            }
        }
        self.before
    }

    /// An end half a sample before a mark, or less: its own product, or that of
    /// the middle between it and the end before.
    fn before_mark(&mut self, rng: &mut Rng) -> f32 {
        let skipped = self
            .marks
            .iter()
            .filter(|mark| **mark <= self.place)
            .count();
        let left = &self.marks[skipped..];
        let Some(mark) = left.get(rng.below(3).min(left.len().saturating_sub(1))) else {
            return self.with(|ends| ends.product(rng, Manner::Half));
        };
        self.place = *mark;
        let product = *mark as f32 - rng.pick(&[0.5, 0.5, 0.25, 0.001]);
        let end = time(product, self.rate).unwrap_or(product / self.rate as f32);
        match rng.once_in(2) {
            true => 2.0 * end - self.before,
            false => end,
        }
    }

    /// An end with a product that is drawn, or near one.
    fn with(&mut self, mut product: impl FnMut(&mut Ends) -> f32) -> f32 {
        let mut last = 0.0;
        for _ in 0..MOST_DRAWS {
            last = product(self);
            if let Some(end) = time(last, self.rate) {
                return end;
            }
        }
        last / self.rate as f32
    }

    fn product(&mut self, rng: &mut Rng, manner: Manner) -> f32 {
        match manner {
            Manner::Low => {
                let half = rng.pick(&[0.5f32, 1.5]);
                rng.pick(&[half, half.next_down(), half.next_up(), 0.25, 1.0])
            }
            Manner::BelowZero if rng.once_in(2) => {
                rng.pick(&[-0.5, -0.25, -0.0, -0.500_000_06, -1.5, -30.5])
            }
            Manner::High => {
                let power = 2.0f32.powi(rng.pick(&[22, 23, 23, 24]));
                let steps = rng.between(0, 8) as u32;
                f32::from_bits(power.to_bits() - 5 + steps)
            }
            other => {
                self.place += rng.between(1, self.longest - 2);
                let half = (self.place + rng.below(3)) as f32 + 0.5;
                match other {
                    Manner::BesideHalf => rng.pick(&[half.next_down(), half.next_up()]),
                    _ => half,
                }
            }
        }
    }
}

/// A time whose product is just this, if it is one of those near.
pub fn time(product: f32, rate: u32) -> Option<f32> {
    near(product / rate as f32).find(|time| time * rate as f32 == product)
}

/// An f32 and those beside it.
pub fn near(x: f32) -> impl Iterator<Item = f32> {
    let steps = [0, 1, -1, 2, -2, 3, -3];
    steps
        .into_iter()
        .map(move |step| f32::from_bits(x.to_bits().wrapping_add_signed(step)))
}
