//! Calls with texts. They have numbers of their own, so that no other call depends
//! on them.

use super::cases::{labelled, small_good};
use super::pitch_cases::with_longer;
use super::{Bench, Call};
use crate::call::Settings;
use crate::gen::{damaged_texts, typed, typed_calls};
use crate::rng::Rng;
use std::ops::Range;

/// Random sheets that are damaged in every way.
const DAMAGED_SHEETS: u64 = 3;

/// In each manner in turn. Each with a longer sheet.
pub fn generated(seed: u64, numbers: Range<u64>, bench: &mut Bench) {
    for case in numbers {
        let rng = &mut Rng::for_case(seed, 13_000_000 + case);
        let (manner, spec, sheet) = typed::numbered(rng, case);
        let longer = typed::longer(rng, &sheet, &spec);
        let about = format!("typed case {case}, {}", manner.name());
        with_longer(rng, &about, &spec, [&sheet, &longer], bench);
    }
}

/// The calls for which it is given what each text stands for.
pub fn by_values(seed: u64, mut check: impl FnMut(&mut Rng, Call)) {
    let rng = &mut Rng::for_case(seed, 9_960_000);
    for call in typed_calls::all() {
        let about = format!("texts, {:?}", call.settings.join);
        check(rng, labelled(&about, call));
    }
}

/// Texts that are too long or cut short, and other damages of sheets with texts, in
/// every setting.
pub fn unfit(seed: u64, mut check: impl FnMut(&mut Rng, Call)) {
    for case in 0..DAMAGED_SHEETS {
        let rng = &mut Rng::for_case(seed, 9_970_000 + case);
        let mut damaged = damaged_texts::of_random_sheet(rng);
        if case == 0 {
            damaged.extend(damaged_texts::limits());
        }
        for damaged in damaged {
            let call = Call {
                about: format!("damaged texts {case}, {}", damaged.reason),
                sheet: damaged.bytes,
                settings: rng.pick(&Settings::all()),
                ..small_good(rng)
            };
            check(rng, call);
        }
    }
}
