//! Calls with target ends where rounding shows, and where it cannot. They have
//! numbers of their own, so that no other call depends on them.

use super::cases::{labelled, mostly_modified};
use super::Call;
use crate::gen::{end_calls, target_ends, voices};
use crate::rng::Rng;
use crate::sheet::write;
use std::ops::Range;

/// In each manner in turn, mostly in the modified join.
pub fn generated(seed: u64, numbers: Range<u64>, mut check: impl FnMut(&mut Rng, Call)) {
    for case in numbers {
        let rng = &mut Rng::for_case(seed, 11_000_000 + case);
        let (manner, spec, sheet) = target_ends::numbered(rng, case);
        let call = Call {
            about: format!("ends case {case}, {}", manner.name()),
            voice: voices::file(&spec.sections()),
            sheet: write(&sheet),
            settings: mostly_modified(rng),
        };
        check(rng, call);
    }
}

/// The calls whose target ends are given by their products.
pub fn by_products(seed: u64, mut check: impl FnMut(&mut Rng, Call)) {
    let rng = &mut Rng::for_case(seed, 9_900_000);
    for call in end_calls::all() {
        let about = format!("ends, {:?}", call.settings.join);
        check(rng, labelled(&about, call));
    }
}
