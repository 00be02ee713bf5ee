//! A call of each kind, before its buffers and slices are drawn.

use super::kinds::Kind;
use crate::call::{Filter, Join, Settings};
use crate::gen::damaged_calls::{self, entry, LabelledCall};
use crate::gen::shaped::without_names;
use crate::gen::small::{self, Shape};
use crate::gen::target_ends::{self, Manner};
use crate::gen::voices::{file, plain, with_extras, Vocabulary, VoiceSpec};
use crate::gen::{damaged_sheets, damaged_voices, end_calls, pitch_calls, pitches};
use crate::gen::{typed, typed_calls, Labelled};
use crate::lent::{Room, NAMES};
use crate::refusal::Refusal;
use crate::rng::Rng;
use crate::sheet::{write, Segment, Sheet, Value};
use std::collections::BTreeMap;

/// The longest files that a call is made of.
const MOST_VOICE: usize = 640;
const MOST_SHEET: usize = 140;

/// The round through the kinds in which no call names float, the strict one
/// behind it, the one of target ends behind that, the one of targets without a
/// pitch, and the one of texts.
pub const UNNAMED: u64 = 3;
pub const STRICT: u64 = 4;
pub const ENDS: u64 = 5;
pub const PITCHES: u64 = 6;
pub const TYPED: u64 = 7;

/// A call before its buffers and slices are drawn.
pub struct Draft {
    pub voice: Vec<u8>,
    pub sheet: Vec<u8>,
    pub settings: Settings,
    pub room: Room,
    /// What was done to it, if something was.
    pub reason: String,
}

impl Draft {
    /// The call as it is in a round through the kinds: it names no filter where
    /// it was drawn with float, or it is strict.
    pub fn in_round(mut self, round: u64) -> Draft {
        if round == UNNAMED && self.settings.filter_in() == Filter::Float {
            self.settings.filter = None;
        }
        self.settings.strict |= round == STRICT;
        self
    }
}

/// The calls at a limit that are small, those whose target ends are given by their
/// products, those with targets without a pitch whose f0s are given, and those with
/// texts of which it is given what they stand for.
pub struct Limits {
    calls: Vec<LabelledCall>,
    ends: Vec<LabelledCall>,
    pitches: Vec<LabelledCall>,
    typed: Vec<LabelledCall>,
}

impl Limits {
    pub fn new() -> Limits {
        let mut calls = damaged_calls::all();
        calls.retain(|call| call.voice.len() <= MOST_VOICE && call.sheet.len() <= MOST_SHEET);
        Limits {
            calls,
            ends: end_calls::some(),
            pitches: pitch_calls::small(),
            typed: typed_calls::small(),
        }
    }

    /// One of those with this label.
    fn pick(&self, rng: &mut Rng, label: Option<Refusal>) -> Draft {
        let labelled: Vec<&LabelledCall> = self.calls.iter().filter(|c| c.label == label).collect();
        let call = labelled[rng.below(labelled.len())];
        at_limit(rng, call)
    }

    /// The one with this reason.
    fn named(&self, rng: &mut Rng, reason: &str) -> Draft {
        let call = self.calls.iter().find(|call| call.reason == reason);
        at_limit(rng, call.expect("a small call with this reason"))
    }
}

fn at_limit(rng: &mut Rng, call: &LabelledCall) -> Draft {
    Draft {
        voice: call.voice.clone(),
        sheet: call.sheet.clone(),
        settings: call.settings,
        room: rng.pick(&[Room::Exact, Room::Longer]),
        reason: call.reason.clone(),
    }
}

/// A call that may be of a kind. Nothing where it is too large or its kind
/// cannot be had from what was drawn.
pub fn draft(rng: &mut Rng, kind: Kind, limits: &Limits) -> Option<Draft> {
    let draft = match kind {
        Kind::Spoken(settings, shape) | Kind::Missing(settings, shape) => {
            good(rng, settings, shape)
        }
        Kind::FarMarks => far_marks(rng),
        Kind::LongPeriod { tone } => long_period(rng, tone),
        Kind::OneMark => simple_call(rng),
        Kind::Rounding => float_call(rng),
        Kind::Extended => extended(rng),
        Kind::Inside => inside(rng, limits)?,
        Kind::AtLimit(reason) => limits.named(rng, reason),
        Kind::Voice(cause) => unfit_voice(rng, |case| case.label == Some(cause))?,
        Kind::Sheet(cause) => unfit_sheet(rng, cause)?,
        Kind::Call(cause) => unfit_call(rng, cause, limits),
        Kind::ManyMarks { too_many } => return Some(many_marks(rng, too_many)),
        Kind::Short(buffer) => short(rng, buffer),
        Kind::Several => several(rng, limits)?,
        Kind::MissingBefore(cause) => lacking(limits.pick(rng, Some(cause))),
        Kind::Ends(settings, shape, manner) => ends(rng, settings, shape, manner),
        Kind::AtEnds(number) => at_limit(rng, &limits.ends[number % limits.ends.len()]),
        Kind::Pitches(settings, shape, manner) => without_pitch(rng, settings, shape, manner),
        Kind::AtPitches(number) => at_limit(rng, &limits.pitches[number % limits.pitches.len()]),
        Kind::Typed(settings, shape, manner) => with_texts(rng, settings, shape, manner),
        Kind::AtTyped(number) => at_limit(rng, &limits.typed[number % limits.typed.len()]),
    };
    let small = draft.voice.len() <= MOST_VOICE && draft.sheet.len() <= MOST_SHEET;
    small.then_some(draft)
}

fn any_settings(rng: &mut Rng) -> Settings {
    rng.pick(&Settings::named())
}

/// A good voice as a file, with what a file may carry besides.
fn good_file(rng: &mut Rng, spec: &VoiceSpec) -> Vec<u8> {
    match rng.once_in(3) {
        true => file(&spec.sections()),
        false => file(&with_extras(rng, spec)),
    }
}

fn good(rng: &mut Rng, settings: Settings, shape: Shape) -> Draft {
    let words = small::vocabulary(rng);
    let spec = small::voice(rng, &words, shape);
    let sheet = small::sheet(rng, &words, spec.header.rate);
    drafted(rng, &spec, &sheet, settings)
}

fn ends(rng: &mut Rng, settings: Settings, shape: Shape, manner: Manner) -> Draft {
    let (spec, sheet) = target_ends::little(rng, shape, manner);
    Draft {
        reason: manner.name().to_string(),
        ..drafted(rng, &spec, &sheet, settings)
    }
}

fn without_pitch(
    rng: &mut Rng,
    settings: Settings,
    shape: Shape,
    manner: pitches::Manner,
) -> Draft {
    let (spec, sheet) = pitches::little(rng, shape, manner);
    Draft {
        reason: manner.name().to_string(),
        ..drafted(rng, &spec, &sheet, settings)
    }
}

fn with_texts(rng: &mut Rng, settings: Settings, shape: Shape, manner: typed::Manner) -> Draft {
    let (spec, sheet) = typed::little(rng, shape, manner);
    Draft {
        reason: manner.name().to_string(),
        ..drafted(rng, &spec, &sheet, settings)
    }
}

fn drafted(rng: &mut Rng, spec: &VoiceSpec, sheet: &Sheet, settings: Settings) -> Draft {
    Draft {
        voice: good_file(rng, spec),
        sheet: write(sheet),
        settings,
        room: rng.pick(&[Room::Exact, Room::Longer, Room::Longer]),
        reason: String::new(),
    }
}

fn any_good(rng: &mut Rng) -> Draft {
    let settings = any_settings(rng);
    let shape = small::shape(rng);
    good(rng, settings, shape)
}

fn float_call(rng: &mut Rng) -> Draft {
    let settings = Settings {
        filter: Some(Filter::Float),
        ..any_settings(rng)
    };
    let shape = small::shape(rng);
    good(rng, settings, shape)
}

fn any_voice(rng: &mut Rng) -> (Vocabulary, VoiceSpec) {
    let words = small::vocabulary(rng);
    let shape = small::shape(rng);
    let spec = small::voice(rng, &words, shape);
    (words, spec)
}

fn far_marks(rng: &mut Rng) -> Draft {
    let (words, spec) = any_voice(rng);
    let mut sheet = small::sheet(rng, &words, spec.header.rate);
    small::set_far_targets(rng, &mut sheet, spec.header.rate);
    let settings = Settings {
        join: Join::Modified,
        ..any_settings(rng)
    };
    drafted(rng, &spec, &sheet, settings)
}

/// A call of the simple join, whose marks are all taken.
fn simple_call(rng: &mut Rng) -> Draft {
    let settings = Settings {
        join: Join::Simple,
        ..any_settings(rng)
    };
    let shape = small::shape(rng);
    good(rng, settings, shape)
}

fn long_period(rng: &mut Rng, tone: bool) -> Draft {
    let words = small::vocabulary(rng);
    let spec = small::long_voice(rng, &words, tone);
    let sheet = small::sheet(rng, &words, spec.header.rate);
    let settings = any_settings(rng);
    drafted(rng, &spec, &sheet, settings)
}

fn extended(rng: &mut Rng) -> Draft {
    let (words, old) = any_voice(rng);
    let rate = old.header.rate;
    let spec = small::extension(rng, &old, &words);
    let sheet = small::sheet(rng, &words, rate);
    let sheet = small::longer(rng, &sheet, &words, rate);
    let settings = any_settings(rng);
    drafted(rng, &spec, &sheet, settings)
}

fn inside(rng: &mut Rng, limits: &Limits) -> Option<Draft> {
    match rng.once_in(3) {
        true => Some(limits.pick(rng, None)),
        false => Some(Draft {
            room: Room::Longer,
            ..unfit_voice(rng, |case| case.label.is_none())?
        }),
    }
}

/// A damaged voice of those that `wanted` takes, with a sheet of any sort.
fn unfit_voice(rng: &mut Rng, wanted: impl Fn(&Labelled) -> bool) -> Option<Draft> {
    let cases = damaged_voices::of_random_voice(rng);
    let cases = cases.into_iter().map(|voice| voice.case);
    let case = spread(rng, cases.filter(wanted).collect(), MOST_VOICE)?;
    Some(Draft {
        voice: case.bytes,
        room: Room::Any,
        reason: case.reason,
        ..any_good(rng)
    })
}

fn damaged_sheet(rng: &mut Rng, cause: Refusal) -> Option<Labelled> {
    let Vocabulary { phones } = small::vocabulary(rng);
    let sheet = damaged_sheets::small(rng, &phones);
    let mut cases = damaged_sheets::of_sheet(&sheet);
    cases.retain(|case| case.label == Some(cause));
    spread(rng, cases, MOST_SHEET)
}

fn unfit_sheet(rng: &mut Rng, cause: Refusal) -> Option<Draft> {
    let case = damaged_sheet(rng, cause)?;
    Some(Draft {
        sheet: case.bytes,
        room: Room::Any,
        reason: case.reason,
        ..any_good(rng)
    })
}

/// A call at a limit, or a good voice with an odd sheet, whatever that gives.
fn unfit_call(rng: &mut Rng, cause: Refusal, limits: &Limits) -> Draft {
    if rng.once_in(40) {
        return limits.pick(rng, Some(cause));
    }
    let (words, spec) = any_voice(rng);
    let sheet = small::odd_sheet(rng, &words, spec.header.rate);
    let settings = any_settings(rng);
    Draft {
        reason: "an odd sheet".to_string(),
        ..drafted(rng, &spec, &sheet, settings)
    }
}

/// The call with a voice in which no pair finds a name.
fn lacking(draft: Draft) -> Draft {
    Draft {
        voice: without_names(&draft.voice),
        reason: format!("no name, and {}", draft.reason),
        ..draft
    }
}

/// 1,024 pairs of 64 periods make 65,536 marks; one more pair has one period.
fn many_marks(rng: &mut Rng, too_many: bool) -> Draft {
    let mut spec = plain(64, vec![0; 65]);
    spec.sizes = Some(rng.bytes(64));
    spec.entries = vec![entry("-", 0, [32, 32]), entry("-!", 0, [0, 1])];
    let mut sheet = Sheet::default();
    sheet.segments = vec![unnamed(); 1025];
    if too_many {
        sheet.segments.push(Segment {
            name: "!".to_string(),
            ..unnamed()
        });
    }
    let settings = Settings {
        join: Join::Simple,
        ..any_settings(rng)
    };
    Draft {
        room: Room::Any,
        reason: format!("{} marks", 65_536 + usize::from(too_many)),
        ..drafted(rng, &spec, &sheet, settings)
    }
}

fn unnamed() -> Segment {
    Segment {
        name: String::new(),
        end: Value::Absent,
        follower: 0,
    }
}

fn short(rng: &mut Rng, buffer: usize) -> Draft {
    Draft {
        room: Room::Short(buffer),
        reason: format!("{} too short", NAMES[buffer]),
        ..any_good(rng)
    }
}

/// Two causes or more.
fn several(rng: &mut Rng, limits: &Limits) -> Option<Draft> {
    match rng.below(3) {
        0 => unfit_voice(rng, |case| case.reason.starts_with("causes")),
        1 => unfit_voice_and_sheet(rng),
        _ => Some(unfit_call_and_buffers(rng, limits)),
    }
}

fn unfit_voice_and_sheet(rng: &mut Rng) -> Option<Draft> {
    let cause = rng.pick(&[Refusal::Sheet, Refusal::NotFinite]);
    let sheet = damaged_sheet(rng, cause)?;
    let voice = unfit_voice(rng, |case| case.label.is_some())?;
    Some(Draft {
        sheet: sheet.bytes,
        reason: format!("{}, and {}", voice.reason, sheet.reason),
        ..voice
    })
}

fn unfit_call_and_buffers(rng: &mut Rng, limits: &Limits) -> Draft {
    let cause = rng.pick(&[Refusal::Slope, Refusal::TooFar]);
    let call = limits.pick(rng, Some(cause));
    Draft {
        room: Room::Any,
        reason: format!("{}, and buffers of any length", call.reason),
        ..call
    }
}

/// One of the cases of at most so many bytes: first one sort of damage, then
/// one of that sort.
fn spread(rng: &mut Rng, mut cases: Vec<Labelled>, most: usize) -> Option<Labelled> {
    cases.retain(|case| case.bytes.len() <= most);
    let mut sorts: BTreeMap<String, Vec<Labelled>> = BTreeMap::new();
    for case in cases {
        sorts.entry(sort_of(&case.reason)).or_default().push(case);
    }
    let mut sorts: Vec<Vec<Labelled>> = sorts.into_values().collect();
    if sorts.is_empty() {
        return None;
    }
    let sort = rng.below(sorts.len());
    let case = rng.below(sorts[sort].len());
    Some(sorts[sort].swap_remove(case))
}

/// The first words of a reason that have letters alone.
fn sort_of(reason: &str) -> String {
    let is_plain = |word: &&str| word.chars().all(|c| c.is_alphabetic() || ":._".contains(c));
    let words: Vec<&str> = reason.split(' ').filter(is_plain).take(3).collect();
    words.join(" ")
}
