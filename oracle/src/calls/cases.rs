//! The calls that are compared.

use super::Call;
use crate::call::{Filter, Join, Settings};
use crate::expected::{given, Given, SHORT_BUFFER};
use crate::gen::damaged_calls::{self, LabelledCall};
use crate::gen::voices::{self, Extent};
use crate::gen::{damaged_sheets, damaged_voices, empty_heads, sheets, small};
use crate::rng::Rng;
use crate::sheet::write;
use crate::statements::drafts::{draft, Draft, Limits, STRICT};
use crate::statements::kinds::{self, Kind};
use crate::store;

/// Draws for one call of a kind before another is made instead.
const MOST_DRAWS: usize = 300;

/// Random voices and sheets that are damaged in every way.
const DAMAGED_VOICES: u64 = 3;
const DAMAGED_SHEETS: u64 = 6;

/// Entries of wide voices. The check of a simple join has room for 4,096
/// places: those of all entries, of every second, third and so on.
pub const WIDE: [usize; 9] = [
    4_095, 4_096, 4_097, 4_098, 8_191, 8_192, 8_193, 12_289, 20_001,
];

/// Segments of a wide voice's sheet.
pub const PAIRS: usize = 120;

/// Segments of long sheets. The place of every 16th is kept for followers.
pub const LONG: [usize; 9] = [15, 16, 17, 18, 33, 257, 1_000, 4_095, 4_096];

/// Voices with periods without samples at the heads of units, ten of each
/// order.
const EMPTY_HEADS: u64 = 330;

/// Draws calls by their number.
pub struct Generator {
    kinds: Vec<Kind>,
    limits: Limits,
}

impl Generator {
    pub fn new() -> Generator {
        let mut kinds = kinds::all();
        // Many marks are among the calls at a limit.
        kinds.retain(|kind| !matches!(kind, Kind::ManyMarks { .. }));
        Generator {
            kinds,
            limits: Limits::new(),
        }
    }

    /// Every other call is of any extent; the rest are small, of each kind in
    /// turn.
    pub fn call(&self, rng: &mut Rng, case: u64) -> Call {
        let number = case / 2;
        let round = number / self.kinds.len() as u64;
        let small = match case % 2 {
            0 => None,
            _ => self.small(rng, number, round % STRICT),
        };
        let about = format!("case {case}");
        match small {
            None => good(rng, about),
            Some(call) => Call {
                about: format!("{about}, {} in round {round}", call.about),
                ..call
            },
        }
    }

    /// A small call of the kind of a number, as it is in a round.
    pub fn small(&self, rng: &mut Rng, number: u64, round: u64) -> Option<Call> {
        let kind = self.kinds[number as usize % self.kinds.len()].in_round(round);
        let draft = (0..MOST_DRAWS).find_map(|_| {
            let draft = draft(rng, kind, &self.limits)?.in_round(round);
            is_of(rng, kind, &draft).then_some(draft)
        })?;
        Some(Call {
            about: format!("{kind:?} {}", draft.reason),
            voice: draft.voice,
            sheet: draft.sheet,
            settings: draft.settings,
        })
    }
}

/// Whether a call is of its kind. Its buffers are still to come.
fn is_of(rng: &mut Rng, kind: Kind, draft: &Draft) -> bool {
    let given = given(&draft.voice, &draft.sheet, draft.settings, kind.most());
    let number = |given: &Given| match (kind, given) {
        (_, Given::Refused(refusal)) => refusal.number(),
        (Kind::Short(_), _) => SHORT_BUFFER,
        _ => 0,
    };
    given.is_some_and(|given| kinds::is_of(rng, kind, &draft.voice, &given, number(&given)))
}

/// Mostly calls that speak. Half of them name fixed, a quarter no filter.
pub fn settings(rng: &mut Rng) -> Settings {
    use Filter::{Fixed, Float};
    use Join::{Modified, None, Simple};
    Settings {
        join: rng.pick(&[
            None, Simple, Simple, Simple, Modified, Modified, Modified, Modified,
        ]),
        filter: rng.pick(&[Some(Fixed), Some(Float), Some(Fixed), Option::None]),
        fold: rng.once_in(2),
        strict: false,
    }
}

/// At least five of six in the modified join, one of three strict.
pub fn mostly_modified(rng: &mut Rng) -> Settings {
    let drawn = settings(rng).strictly(rng.once_in(3));
    match rng.once_in(6) {
        true => drawn,
        false => Settings {
            join: Join::Modified,
            ..drawn
        },
    }
}

/// A call that carries its number.
pub fn labelled(about: &str, call: LabelledCall) -> Call {
    Call {
        about: format!("{about}, {}", call.reason),
        voice: call.voice,
        sheet: call.sheet,
        settings: call.settings,
    }
}

fn good(rng: &mut Rng, about: String) -> Call {
    let words = voices::vocabulary(rng);
    let covering = rng.once_in(2);
    let spec = voices::voice(rng, &words, Extent::Any, covering);
    let sheet = sheets::sheet(rng, &words, spec.header.rate);
    Call {
        about,
        voice: voices::file(&voices::with_extras(rng, &spec)),
        sheet: write(&sheet),
        settings: settings(rng),
    }
}

/// A small good voice and sheet.
pub fn small_good(rng: &mut Rng) -> Call {
    let words = small::vocabulary(rng);
    let shape = small::shape(rng);
    let spec = small::voice(rng, &words, shape);
    let sheet = small::sheet(rng, &words, spec.header.rate);
    Call {
        about: String::new(),
        voice: voices::file(&spec.sections()),
        sheet: write(&sheet),
        settings: settings(rng),
    }
}

/// Every damage of some voices, each with a sheet of any sort.
pub fn unfit_voices(seed: u64, mut check: impl FnMut(&mut Rng, Call)) {
    for case in 0..DAMAGED_VOICES {
        let rng = &mut Rng::for_case(seed, 9_000_000 + case);
        let voices = damaged_voices::of_random_voice(rng);
        for voice in voices {
            let mut call = small_good(rng);
            call.voice = voice.case.bytes;
            if rng.once_in(4) {
                call.sheet.pop();
            }
            call.about = format!("damaged voice {case}, {}", voice.case.reason);
            check(rng, call);
        }
    }
}

/// Every damage of some sheets, and sheets at their limits.
pub fn unfit_sheets(seed: u64, mut check: impl FnMut(&mut Rng, Call)) {
    for case in 0..DAMAGED_SHEETS {
        let rng = &mut Rng::for_case(seed, 9_100_000 + case);
        let words = small::vocabulary(rng);
        let sheet = damaged_sheets::small(rng, &words.phones);
        for damaged in damaged_sheets::of_sheet(&sheet) {
            let mut call = small_good(rng);
            call.sheet = damaged.bytes;
            call.about = format!("damaged sheet {case}, {}", damaged.reason);
            check(rng, call);
        }
    }
    let rng = &mut Rng::for_case(seed, 9_200_000);
    for limit in damaged_sheets::limits() {
        let mut call = small_good(rng);
        call.sheet = limit.bytes;
        call.about = format!("sheet at a limit, {}", limit.reason);
        check(rng, call);
    }
}

/// Calls at the limits of slopes, marks and target ends.
pub fn at_limits(seed: u64, mut check: impl FnMut(&mut Rng, Call)) {
    let rng = &mut Rng::for_case(seed, 9_300_000);
    for limit in damaged_calls::all() {
        check(rng, labelled("call at a limit", limit));
    }
}

/// Voices of many entries, in order and not, each with a sheet of many pairs.
pub fn wide(seed: u64, mut check: impl FnMut(&mut Rng, Call)) {
    for (case, count) in WIDE.into_iter().enumerate() {
        let rng = &mut Rng::for_case(seed, 9_400_000 + case as u64);
        for ordered in [true, false] {
            let words = voices::vocabulary(rng);
            let covering = rng.once_in(2);
            let spec = voices::voice(rng, &words, Extent::Small, covering);
            let wide = voices::widened(rng, &spec, count, ordered);
            let call = Call {
                about: format!("{count} entries, in order: {ordered}"),
                voice: voices::file(&wide.sections()),
                sheet: write(&sheets::long(rng, &words, PAIRS)),
                settings: Settings {
                    join: Join::Simple,
                    ..settings(rng)
                },
            };
            check(rng, call);
        }
    }
}

/// Sheets of many segments whose followers are anywhere, on voices that have
/// every name they try.
pub fn long(seed: u64, mut check: impl FnMut(&mut Rng, Call)) {
    for (case, count) in LONG.into_iter().enumerate() {
        let rng = &mut Rng::for_case(seed, 9_500_000 + case as u64);
        for join in [Join::Simple, Join::Modified] {
            let words = voices::vocabulary(rng);
            let spec = voices::voice(rng, &words, Extent::Small, true);
            let call = Call {
                about: format!("{count} segments, {join:?}"),
                voice: voices::file(&spec.sections()),
                sheet: write(&sheets::long(rng, &words, count)),
                settings: Settings {
                    join,
                    ..settings(rng)
                },
            };
            check(rng, call);
        }
    }
}

/// Calls in which periods without samples stand at the heads of units, four of
/// five in the simple join.
pub fn empty_heads(seed: u64, mut check: impl FnMut(&mut Rng, Call)) {
    for case in 0..EMPTY_HEADS {
        let rng = &mut Rng::for_case(seed, 9_600_000 + case);
        let words = voices::vocabulary(rng);
        let spec = empty_heads::voice(rng, &words, case);
        let sheet = sheets::sheet(rng, &words, spec.header.rate);
        let join = match case % 5 {
            4 => Join::Modified,
            _ => Join::Simple,
        };
        let call = Call {
            about: format!("empty heads {case}"),
            voice: voices::file(&spec.sections()),
            sheet: write(&sheet),
            settings: Settings {
                join,
                ..settings(rng)
            },
        };
        check(rng, call);
    }
}

/// The calls that `oracle store` writes.
pub fn stored(seed: u64, mut check: impl FnMut(&mut Rng, Call)) {
    for (number, stored) in (0..).zip(store::calls(seed, store::CALLS)) {
        let rng = &mut Rng::for_case(seed, 9_700_000 + number);
        let call = Call {
            about: format!("stored call {number}, {}", stored.kind),
            voice: stored.voice,
            sheet: stored.sheet,
            settings: stored.settings,
        };
        check(rng, call);
    }
}
