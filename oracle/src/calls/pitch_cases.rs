//! Calls with targets without a pitch, and sheets that begin others. They have
//! numbers of their own, so that no other call depends on them.

use super::archive;
use super::cases::{labelled, mostly_modified};
use super::guarded::Guarded;
use super::planning::{lengths, request};
use super::{check, Bench, Call};
use crate::call::JOINS;
use crate::expected::{given, Given, Most};
use crate::gen::voices::{self, VoiceSpec};
use crate::gen::{pitch_calls, pitches};
use crate::lent::Room;
use crate::pitches::goes_on;
use crate::rng::Rng;
use crate::sheet::{write, Sheet};
use std::ops::Range;

/// The buffer of the marks among those of a plan.
const MARKS: usize = 1;

/// In each manner in turn. Each with a longer sheet.
pub fn generated(seed: u64, numbers: Range<u64>, bench: &mut Bench) {
    for case in numbers {
        let rng = &mut Rng::for_case(seed, 12_000_000 + case);
        let (manner, spec, sheet) = pitches::numbered(rng, case);
        let longer = pitches::longer(rng, &sheet, &spec);
        let about = format!("pitches case {case}, {}", manner.name());
        with_longer(rng, &about, &spec, [&sheet, &longer], bench);
    }
}

/// A call, mostly in the modified join, and one of a longer sheet beside it.
pub fn with_longer(
    rng: &mut Rng,
    about: &str,
    spec: &VoiceSpec,
    [sheet, longer]: [&Sheet; 2],
    bench: &mut Bench,
) {
    let settings = mostly_modified(rng);
    let voice = voices::file(&spec.sections());
    let [first, second] = [sheet, longer].map(|sheet| Call {
        about: about.to_string(),
        voice: voice.clone(),
        sheet: write(sheet),
        settings,
    });
    check(rng, &first, bench);
    begins(rng, [&first, &second], goes_on(sheet, longer), bench);
}

/// The calls whose f0s are given.
pub fn by_f0s(seed: u64, mut check: impl FnMut(&mut Rng, Call)) {
    let rng = &mut Rng::for_case(seed, 9_950_000);
    for call in pitch_calls::all() {
        let about = format!("pitches, {:?}", call.settings.join);
        check(rng, labelled(&about, call));
    }
}

/// Where neither call is refused, the marks left in the buffer of the first begin
/// those of the second.
fn begins(rng: &mut Rng, calls: [&Call; 2], goes_on: bool, bench: &mut Bench) {
    let [Some(first), Some(longer)] = calls.map(|call| marks(rng, call, bench)) else {
        return;
    };
    let Call {
        about, settings, ..
    } = calls[0];
    bench.report.check(longer.starts_with(&first), || {
        format!("{about}: the marks of a longer sheet begin otherwise")
    });
    let [none, simple, modified] = JOINS.map(|join| join == settings.join);
    let more = longer.len() > first.len();
    bench
        .counts
        .begun([none, simple, modified, more, modified && goes_on]);
}

/// The bytes of the marks that a spoken call leaves; they are the Rust's.
fn marks(rng: &mut Rng, call: &Call, bench: &mut Bench) -> Option<Vec<u8>> {
    let given = given(&call.voice, &call.sheet, call.settings, Most::ANY)?;
    let Given::Spoken(spoken) = given else {
        return None;
    };
    let request = request(rng, call);
    let lengths = lengths(rng, &spoken.needed, Room::Exact)?;
    let mut buffers = lengths.map(|length| Guarded::new(rng, length));
    archive::plan(&request, &mut buffers);
    let marks = buffers[MARKS].bytes().to_vec();
    bench.report.check(marks == spoken.filled[MARKS], || {
        format!("{}: marks of this sheet or a longer one", call.about)
    });
    Some(marks)
}
