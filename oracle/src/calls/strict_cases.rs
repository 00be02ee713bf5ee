//! The strict calls that are compared. Each list has numbers of its own, so that
//! no other call depends on them.

use super::cases::{settings, small_good, Generator, LONG, PAIRS, WIDE};
use super::Call;
use crate::call::{Settings, JOINS};
use crate::gen::damaged_calls::{self, LabelledCall};
use crate::gen::shaped::{self, without_names, Manner, Shaped, MANNERS};
use crate::gen::{damaged_sheets, damaged_voices, small, strict_calls, voices};
use crate::rng::Rng;
use crate::sheet::write;
use crate::statements::drafts::STRICT;
use std::ops::Range;

/// Random voices and sheets that are damaged in every way.
const DAMAGED_VOICES: u64 = 1;
const DAMAGED_SHEETS: u64 = 3;

/// Manners of wide voices and of long sheets.
const WHOLE: [Manner; 2] = [Manner::Plain, Manner::LacksLast];

fn strictly(rng: &mut Rng) -> Settings {
    settings(rng).strictly(true)
}

/// A call of a shaped voice, with what a file may carry besides now and then.
fn call(rng: &mut Rng, about: String, settings: Settings, (spec, sheet): Shaped) -> Call {
    let sections = match rng.once_in(2) {
        true => spec.sections(),
        false => voices::with_extras(rng, &spec),
    };
    Call {
        about,
        voice: voices::file(&sections),
        sheet: write(&sheet),
        settings,
    }
}

/// Of three calls one of any extent and one small one, their voices shaped in
/// each manner in turn, and one small one of each kind in turn.
pub fn generated(
    seed: u64,
    numbers: Range<u64>,
    generator: &Generator,
    mut check: impl FnMut(&mut Rng, Call),
) {
    for case in numbers {
        let rng = &mut Rng::for_case(seed, 10_000_000 + case);
        let number = case / 3;
        let drawn = match case % 3 {
            2 => generator.small(rng, number, STRICT),
            _ => None,
        };
        let call = drawn.unwrap_or_else(|| {
            let manner = MANNERS[number as usize % MANNERS.len()];
            let settings = strictly(rng);
            let shaped = match case % 3 {
                0 => shaped::any(rng, settings.fold, manner),
                _ => shaped::little(rng, settings.fold, manner),
            };
            call(rng, format!("{manner:?}"), settings, shaped)
        });
        let about = format!("strict case {case}, {}", call.about);
        check(rng, Call { about, ..call });
    }
}

/// Every damage of some voices and sheets. The sheets come with voices in which
/// no pair finds a name.
pub fn unfit(seed: u64, mut check: impl FnMut(&mut Rng, Call)) {
    for case in 0..DAMAGED_VOICES {
        let rng = &mut Rng::for_case(seed, 9_800_000 + case);
        for damaged in damaged_voices::of_random_voice(rng) {
            let mut call = small_good(rng);
            call.voice = damaged.case.bytes;
            call.about = format!("strict, damaged voice {case}, {}", damaged.case.reason);
            call.settings.strict = true;
            check(rng, call);
        }
    }
    for case in 0..DAMAGED_SHEETS {
        let rng = &mut Rng::for_case(seed, 9_810_000 + case);
        let words = small::vocabulary(rng);
        let sheet = damaged_sheets::small(rng, &words.phones);
        for damaged in damaged_sheets::of_sheet(&sheet) {
            let mut call = small_good(rng);
            call.voice = without_names(&call.voice);
            call.sheet = damaged.bytes;
            call.about = format!("strict, damaged sheet {case}, {}", damaged.reason);
            call.settings.strict = true;
            check(rng, call);
        }
    }
}

/// The strict calls with their labels, and the calls at a limit: as they are,
/// and those that are refused also with voices in which no pair finds a name.
pub fn at_limits(seed: u64, mut check: impl FnMut(&mut Rng, Call)) {
    let rng = &mut Rng::for_case(seed, 9_820_000);
    let limits = damaged_calls::all();
    let refused = limits.iter().filter(|limit| limit.label.is_some());
    let lacking: Vec<LabelledCall> = refused
        .map(|limit| LabelledCall {
            voice: without_names(&limit.voice),
            reason: format!("{}, without names", limit.reason),
            ..limit.clone()
        })
        .collect();
    for limit in [strict_calls::all(), limits, lacking].concat() {
        let call = Call {
            about: format!("strict, {}", limit.reason),
            voice: limit.voice,
            sheet: limit.sheet,
            settings: limit.settings.strictly(true),
        };
        check(rng, call);
    }
}

/// Voices of many entries, in order and not, each with sheets of many pairs.
pub fn wide(seed: u64, mut check: impl FnMut(&mut Rng, Call)) {
    for (case, count) in WIDE.into_iter().enumerate() {
        let rng = &mut Rng::for_case(seed, 9_830_000 + case as u64);
        for (manner, ordered) in WHOLE
            .map(|manner| [(manner, true), (manner, false)])
            .concat()
        {
            let settings = strictly(rng);
            let (spec, sheet) = shaped::long(rng, settings.fold, manner, PAIRS);
            let spec = voices::widened(rng, &spec, count, ordered);
            let about = format!("strict, {count} entries, in order: {ordered}, {manner:?}");
            let call = call(rng, about, settings, (spec, sheet));
            check(rng, call);
        }
    }
}

/// Sheets of many segments whose followers are anywhere.
pub fn long(seed: u64, mut check: impl FnMut(&mut Rng, Call)) {
    for (case, count) in LONG.into_iter().enumerate() {
        let rng = &mut Rng::for_case(seed, 9_840_000 + case as u64);
        for (join, manner) in JOINS
            .map(|join| WHOLE.map(|manner| (join, manner)))
            .concat()
        {
            let settings = Settings {
                join,
                ..strictly(rng)
            };
            let shaped = shaped::long(rng, settings.fold, manner, count);
            let about = format!("strict, {count} segments, {join:?}, {manner:?}");
            let call = call(rng, about, settings, shaped);
            check(rng, call);
        }
    }
}
