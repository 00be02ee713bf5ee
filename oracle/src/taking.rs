//! Which unit takes each mark of a call, and what it takes of the voice.
//!
//! In the Rust a unit takes all marks up to its target end. Here, in the simple
//! join, each mark goes to the unit whose period made it. The two differ on the
//! list alone: periods without samples at the head of a later unit. There the
//! maker's unit is expected, everywhere else the Rust.

use crate::call::Join;
use crate::diphone::access::{self, Excitation, PlainUnit};
use crate::diphone::DiphoneVoice;
use crate::gen::voices::{file, plain};
use crate::period_report;
use crate::reference::{self, Filled, Parsed};
use crate::voicefile::Voice;
use std::ops::Range;

/// What is taken, mark by mark.
#[derive(Clone, Debug, Default, PartialEq, Eq)]
pub struct Taken {
    /// The unit that takes the mark, by its place in the list of units.
    pub takers: Vec<usize>,
    /// The unit's period that is nearest, by its number in the voice.
    pub numbers: Vec<usize>,
    pub sizes: Vec<usize>,
    /// The rows of these periods, values as stored.
    pub rows: Vec<u16>,
}

impl Taken {
    /// Where the row of a mark stands.
    fn row_place(&self, mark: usize) -> Range<usize> {
        let order = self.rows.len() / self.sizes.len();
        mark * order..(mark + 1) * order
    }

    fn row(&self, mark: usize) -> &[u16] {
        &self.rows[self.row_place(mark)]
    }
}

/// What the marks of a call take.
pub struct Taking {
    pub by_rust: Taken,
    pub expected: Taken,
    /// The marks that are on the list.
    listed: Vec<bool>,
}

impl Taking {
    pub fn new(voice: &Voice, rust: &DiphoneVoice, filled: &Filled, join: Join) -> Taking {
        let by_rust = by_rust(voice, rust, filled);
        let mut taking = Taking {
            listed: vec![false; by_rust.sizes.len()],
            expected: by_rust.clone(),
            by_rust,
        };
        if join == Join::Simple && filled.marks.len() > 1 {
            taking.listed = listed(voice, &filled.units);
            taking.give_to_makers(rust, &filled.units);
            let again = by_rule(voice, &filled.units);
            assert!(taking.expected == again, "by the list, and by the rule");
        }
        taking
    }

    /// Gives the marks on the list to the units that made them. The others the
    /// Rust gives them too.
    fn give_to_makers(&mut self, rust: &DiphoneVoice, units: &[PlainUnit]) {
        let taken = &mut self.expected;
        for (i, maker) in makers(units).into_iter().enumerate() {
            let taker = taken.takers[i];
            if !self.listed[i] {
                assert_eq!(maker, taker, "who takes a mark off the list");
                continue;
            }
            assert!(taker < maker, "who takes a mark on the list");
            assert_eq!(0, taken.sizes[i], "a size on the list");
            let number = access::nearest_period(rust, &units[maker], 0.0);
            let row = access::period_coefficients(rust, number);
            taken.takers[i] = maker;
            taken.numbers[i] = number;
            let place = taken.row_place(i);
            taken.rows[place].copy_from_slice(&row);
        }
    }
}

/// The marks of a simple join that are on the list: those of a unit that is not
/// the first, whose period has no samples, nor has any before it in the unit.
fn listed(voice: &Voice, units: &[PlainUnit]) -> Vec<bool> {
    let mut listed = Vec::new();
    for (number, unit) in units.iter().enumerate() {
        let mut at_head = number > 0;
        for period in periods(unit) {
            at_head = at_head && voice.samples(period) == 0;
            listed.push(at_head);
        }
    }
    listed
}

/// The unit whose period made each mark of a simple join.
fn makers(units: &[PlainUnit]) -> Vec<usize> {
    let numbered = units.iter().enumerate();
    numbered
        .flat_map(|(number, unit)| periods(unit).map(move |_| number))
        .collect()
}

fn periods(unit: &PlainUnit) -> Range<usize> {
    unit.first_period..unit.last_period
}

/// The simple join by its rule alone: unit by unit as many marks as it has
/// periods, each with the period nearest to its place. The pace is 1 in a unit
/// with samples, so places are whole numbers.
fn by_rule(voice: &Voice, units: &[PlainUnit]) -> Taken {
    let mut taken = Taken::default();
    for (number, unit) in units.iter().enumerate() {
        let mut place = 0;
        for size in periods(unit).map(|period| voice.samples(period)) {
            let nearest = nearest(voice, unit, place);
            taken.takers.push(number);
            taken.numbers.push(nearest);
            taken.sizes.push(size);
            taken.rows.extend(voice.row(nearest));
            place += size;
        }
    }
    taken
}

/// The unit's first period whose start is nearer to the place than its end, or
/// its last.
fn nearest(voice: &Voice, unit: &PlainUnit, place: usize) -> usize {
    let mut start = 0;
    for period in periods(unit) {
        let end = start + voice.samples(period);
        if place.abs_diff(start) < place.abs_diff(end) {
            return period;
        }
        start = end;
    }
    unit.last_period - 1
}

/// What the Rust takes. Its rows must be those of the periods that it finds
/// nearest.
fn by_rust(voice: &Voice, rust: &DiphoneVoice, filled: &Filled) -> Taken {
    let takers = takers(filled);
    let numbers = numbers(voice, rust, filled, &takers);
    let rows: Vec<u16> = numbers.iter().flat_map(|n| voice.row(*n)).collect();
    assert!(filled.taken.rows == rows, "rows of the taken periods");
    Taken {
        takers,
        numbers,
        sizes: filled.taken.sizes.clone(),
        rows,
    }
}

/// The unit that takes each mark in the Rust, whose own `build_excitation`
/// tells it. It goes once more over the call's marks and target ends, with
/// labels in place of the voice: unit n has one period, number n, without
/// samples, whose row is the one value n. A row is written for each mark as it
/// is taken, so it names the unit that takes it.
pub fn takers(filled: &Filled) -> Vec<usize> {
    if filled.marks.len() < 2 {
        return Vec::new();
    }
    let again = labelled(&filled.units, &filled.marks);
    let sizes = &filled.taken.sizes;
    assert_eq!(*sizes, again.sizes, "sizes taken, and with labels");
    again.rows.into_iter().map(usize::from).collect()
}

fn labelled(units: &[PlainUnit], marks: &[usize]) -> Excitation {
    let count = u16::try_from(units.len()).expect("two units for each of 4,095 pairs");
    let mut labels = plain(count.into(), vec![0; units.len() + 1]);
    labels.header.order = 1;
    labels.rows = (0..count).collect();
    let Parsed::Voice(voice) = reference::parse(&file(&labels.sections())) else {
        panic!("the Rust does not open a voice of labels");
    };
    let labelled = |(number, unit): (usize, &PlainUnit)| PlainUnit {
        first_period: number,
        last_period: number + 1,
        target_end: unit.target_end,
    };
    let units: Vec<PlainUnit> = units.iter().enumerate().map(labelled).collect();
    access::build_excitation(&voice, &units, marks)
}

/// The period that the Rust finds nearest for each mark, as document 01 words
/// the place in the unit that takes it.
fn numbers(voice: &Voice, rust: &DiphoneVoice, filled: &Filled, takers: &[usize]) -> Vec<usize> {
    let mut numbers = Vec::new();
    let mut sizes = filled.taken.sizes.iter();
    for share in takers.chunk_by(|a, b| a == b) {
        let unit = &filled.units[share[0]];
        let pace = pace(voice, &filled.units, share[0]);
        let mut place = 0.0f32;
        for size in sizes.by_ref().take(share.len()) {
            numbers.push(access::nearest_period(rust, unit, place));
            place += *size as f32 * pace;
        }
    }
    numbers
}

/// The samples of a unit for each one of its span.
fn pace(voice: &Voice, units: &[PlainUnit], number: usize) -> f32 {
    let samples: usize = periods(&units[number]).map(|p| voice.samples(p)).sum();
    let before = number.checked_sub(1).map_or(0, |n| units[n].target_end);
    let span = units[number].target_end.saturating_sub(before).max(1);
    samples as f32 / span as f32
}

/// What the taking of a call's marks was like.
#[derive(Clone, Copy, Debug, Default, PartialEq, Eq)]
pub struct Tally {
    /// Marks on the list, those of them behind another one of their unit, and
    /// units whose marks are all on it.
    pub listed: usize,
    pub in_runs: usize,
    pub whole: usize,
    /// Report lines that are not the Rust's, those of them with another pair,
    /// and those that the Rust gives to a unit two before or more.
    pub lines: usize,
    pub pairs: usize,
    pub far: usize,
    /// Rows that are not the Rust's.
    pub rows: usize,
    /// Marks taken by a unit without periods.
    pub by_empty: usize,
    /// Units that took no mark.
    pub idle: usize,
    /// Marks that no unit took.
    pub left_over: usize,
}

impl Taking {
    /// All 0 where a call has too few marks for a period.
    pub fn tally(&self, filled: &Filled) -> Tally {
        if filled.marks.len() < 2 {
            return Tally::default();
        }
        let takers = &self.expected.takers;
        let mut tally = self.differences();
        tally.idle = filled.units.len();
        tally.left_over = filled.marks.len() - takers.len();
        let mut listed = self.listed.iter();
        for share in takers.chunk_by(|a, b| a == b) {
            let on_list = listed.by_ref().take(share.len());
            let on_list = on_list.filter(|is_listed| **is_listed).count();
            let is_empty = periods(&filled.units[share[0]]).is_empty();
            tally.listed += on_list;
            tally.in_runs += on_list.saturating_sub(1);
            tally.whole += usize::from(on_list == share.len());
            tally.by_empty += if is_empty { share.len() } else { 0 };
            tally.idle -= 1;
        }
        tally
    }

    /// How the expected lines and rows differ from the Rust's.
    fn differences(&self) -> Tally {
        let [theirs, ours] = [&self.by_rust, &self.expected];
        let lines = |taken: &Taken| period_report::lines(&taken.takers, &taken.sizes);
        let mut tally = Tally::default();
        for (i, (their, our)) in lines(theirs).iter().zip(lines(ours)).enumerate() {
            tally.lines += usize::from(*their != our);
            tally.pairs += usize::from(their[0] != our[0]);
            tally.far += usize::from(theirs.takers[i] + 1 < ours.takers[i]);
            tally.rows += usize::from(theirs.row(i) != ours.row(i));
        }
        tally
    }
}
