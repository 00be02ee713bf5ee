//! The kinds of calls that a run goes through.

use super::drafts::{ENDS, PITCHES, STRICT, TYPED};
use super::rounding;
use crate::call::{Filter, Join, Settings};
use crate::empty_boxes::Boxes;
use crate::expected::{Given, Most, Spoken, SHORT_BUFFER};
use crate::gen::damaged_voices::CAUSES;
use crate::gen::small::Shape;
use crate::gen::target_ends::{Manner, MANNERS};
use crate::gen::{pitches, typed};
use crate::refusal::Refusal;
use crate::rng::Rng;
use crate::text_calls::Typed;

/// The most that a call may make, so that it is computed in about a second.
const SMALL: Most = Most {
    marks: 32,
    samples: 120,
};
const LONG: Most = Most {
    marks: 12,
    samples: 300,
};

/// Rounds through the kinds before they begin again.
const ROUNDS: u64 = TYPED + 1;

#[derive(Clone, Copy, Debug, PartialEq, Eq)]
pub enum Kind {
    /// Spoken, by the settings and the voice's shape.
    Spoken(Settings, Shape),
    /// Spoken, with marks that lie far apart.
    FarMarks,
    /// Spoken, with a long G.721 period, of any codes or of a tone.
    LongPeriod {
        tone: bool,
    },
    /// Spoken, with one mark, which gives no period.
    OneMark,
    /// Spoken, by samples that tell how the float filter rounds.
    Rounding,
    /// Spoken, a longer sheet on an extended voice.
    Extended,
    /// Spoken, a voice or a call just inside a limit.
    Inside,
    /// The call at a limit that has this reason, spoken or refused.
    AtLimit(&'static str),
    /// Refused for its voice, with 1 to 7.
    Voice(Refusal),
    /// Refused for its sheet, with 8 or 9.
    Sheet(Refusal),
    /// Refused for its slopes, marks or target ends.
    Call(Refusal),
    /// Refused with 12, one mark too many, or with all marks for its buffers.
    ManyMarks {
        too_many: bool,
    },
    /// Refused with 13 for one buffer.
    Short(usize),
    /// Refused, with several causes.
    Several,
    /// Strict, and refused with 16; the second with another cause behind it.
    Missing(Settings, Shape),
    MissingBefore(Refusal),
    /// Spoken, with target ends of a manner.
    Ends(Settings, Shape, Manner),
    /// The call of this number whose target ends are given by their products,
    /// spoken or refused.
    AtEnds(usize),
    /// Spoken, with targets without a pitch in a manner.
    Pitches(Settings, Shape, pitches::Manner),
    /// The call of this number with targets without a pitch whose f0s are given,
    /// spoken or refused.
    AtPitches(usize),
    /// Spoken, with texts in a manner.
    Typed(Settings, Shape, typed::Manner),
    /// The call of this number with texts of which it is given what each stands for,
    /// spoken or refused.
    AtTyped(usize),
}

impl Kind {
    /// The kind in a round through all: in the strict one half of those that are
    /// spoken are refused with 16 instead, and so are those refused for a call's
    /// slopes, marks or target ends.
    pub fn in_round(self, round: u64) -> Kind {
        match self {
            other if round != STRICT => other,
            Kind::Spoken(settings, shape) if shape.g721 == shape.sizes => {
                Kind::Missing(settings, shape)
            }
            Kind::Call(cause) => Kind::MissingBefore(cause),
            other => other,
        }
    }

    /// The most that a call of this kind may make.
    pub fn most(self) -> Most {
        match self {
            Kind::LongPeriod { .. } => LONG,
            Kind::ManyMarks { .. } => Most::ANY,
            _ => SMALL,
        }
    }
}

/// Every kind, mixed.
pub fn all() -> Vec<Kind> {
    let mut kinds = spoken_kinds();
    kinds.extend([Kind::FarMarks; 3]);
    kinds.extend([false, true].map(|tone| Kind::LongPeriod { tone }));
    kinds.push(Kind::Rounding);
    kinds.extend([Kind::Extended; 3]);
    kinds.extend([Kind::Inside; 2]);
    kinds.extend(AT_LIMITS.map(Kind::AtLimit));
    kinds.extend(CAUSES.map(Kind::Voice));
    kinds.extend([Refusal::Sheet, Refusal::NotFinite].map(Kind::Sheet));
    kinds.extend([Refusal::Slope, Refusal::TooFar].map(Kind::Call));
    kinds.extend([true, false].map(|too_many| Kind::ManyMarks { too_many }));
    kinds.extend((0..6).map(Kind::Short));
    kinds.extend([Kind::Several; 4]);
    kinds.push(Kind::OneMark);
    Rng::new(0).shuffle(&mut kinds);
    kinds
}

/// The kind of a call by its number, and the round through all kinds that it is
/// in. One round has target ends where rounding shows instead, one targets without
/// a pitch, one texts.
pub fn of(number: u64) -> (Kind, u64) {
    let kinds = all();
    let round = number / kinds.len() as u64 % ROUNDS;
    let place = number as usize % kinds.len();
    let kind = match round {
        ENDS => ends(kinds.len())[place],
        PITCHES => pitches(kinds.len())[place],
        TYPED => typed(kinds.len())[place],
        _ => kinds[place].in_round(round),
    };
    (kind, round)
}

/// The manners of target ends in turn; the rest of so many kinds by their products.
fn ends(count: usize) -> Vec<Kind> {
    let kind = |number: usize, settings, shape| {
        let [i, j] = [number / SHAPES.len(), number % SHAPES.len()];
        Kind::Ends(settings, shape, MANNERS[(i + 3 * j) % MANNERS.len()])
    };
    modified(count, kind, Kind::AtEnds)
}

/// The manners of targets without a pitch in turn; the rest by their f0s.
fn pitches(count: usize) -> Vec<Kind> {
    let kind = |number: usize, settings, shape| {
        Kind::Pitches(
            settings,
            shape,
            pitches::MANNERS[number % pitches::MANNERS.len()],
        )
    };
    modified(count, kind, Kind::AtPitches)
}

/// The manners of texts in turn; the rest by what each text stands for.
fn typed(count: usize) -> Vec<Kind> {
    let kind = |number: usize, settings, shape| {
        Kind::Typed(
            settings,
            shape,
            typed::MANNERS[number % typed::MANNERS.len()],
        )
    };
    modified(count, kind, Kind::AtTyped)
}

/// Every setting of the modified join with every shape, numbered; the rest of so
/// many kinds from a list.
fn modified(
    count: usize,
    kind: impl Fn(usize, Settings, Shape) -> Kind,
    listed: fn(usize) -> Kind,
) -> Vec<Kind> {
    let mut kinds = Vec::new();
    let modified = |settings: &Settings| settings.join == Join::Modified;
    for settings in Settings::all().into_iter().filter(modified) {
        for shape in SHAPES {
            kinds.push(kind(kinds.len(), settings, shape));
        }
    }
    kinds.extend((0..count - kinds.len()).map(listed));
    Rng::new(0).shuffle(&mut kinds);
    kinds
}

/// Calls of `gen/damaged_calls.rs` at a limit and just past it.
const AT_LIMITS: [&str; 9] = [
    "slope at f32's largest",
    "slope just below the tie",
    "slope at the tie to infinity",
    "left target end at the limit",
    "left target end one above",
    "middle target end at the limit",
    "middle target end one above",
    "first mark at the limit",
    "first mark one above the limit",
];

/// Every setting that names a filter with every shape; of join none, which says
/// little, each setting once.
fn spoken_kinds() -> Vec<Kind> {
    let mut kinds = Vec::new();
    for settings in Settings::named() {
        for shape in SHAPES {
            let Shape { g721, sizes } = shape;
            let first = g721 == settings.fold && sizes == (settings.filter_in() == Filter::Float);
            if settings.join != Join::None || first {
                kinds.push(Kind::Spoken(settings, shape));
            }
        }
    }
    kinds
}

const SHAPES: [Shape; 4] = [
    shape(false, false),
    shape(false, true),
    shape(true, false),
    shape(true, true),
];

const fn shape(g721: bool, sizes: bool) -> Shape {
    Shape { g721, sizes }
}

/// Whether a call that gets this number is one of the kind. Most spoken calls
/// are to have periods.
pub fn is_of(rng: &mut Rng, kind: Kind, voice: &[u8], given: &Given, number: usize) -> bool {
    match (kind, given) {
        (Kind::AtLimit(_) | Kind::AtEnds(_) | Kind::AtPitches(_) | Kind::AtTyped(_), _) => true,
        (Kind::Voice(cause) | Kind::Sheet(cause) | Kind::Call(cause), _) => {
            number == cause.number()
        }
        (Kind::ManyMarks { too_many: true }, _) => number == Refusal::TooManyMarks.number(),
        (Kind::ManyMarks { .. } | Kind::Short(_), _) => number == SHORT_BUFFER,
        (Kind::Several, _) => number != 0,
        (Kind::Missing(..) | Kind::MissingBefore(_), _) => number == Refusal::MissingPair.number(),
        (_, Given::Spoken(spoken)) => number == 0 && is_spoken(rng, kind, voice, spoken),
        _ => false,
    }
}

fn is_spoken(rng: &mut Rng, kind: Kind, voice: &[u8], call: &Spoken) -> bool {
    let periods = call.periods.len();
    match kind {
        Kind::Spoken(settings, _) => settings.join == Join::None || periods > 1 || rng.once_in(150),
        Kind::Inside => periods > 0 || rng.once_in(4),
        Kind::FarMarks => call.needed[1] > 2,
        Kind::OneMark => call.needed[1] == 1,
        Kind::Rounding => rounding::shows(voice, call),
        Kind::Ends(_, _, manner) => periods > 1 && has_ends(call, manner),
        Kind::Pitches(_, _, manner) => periods > 1 && has_empty_boxes(call, manner),
        Kind::Typed(_, _, manner) => periods > 1 && has_texts(call, manner),
        _ => periods > 1,
    }
}

/// Whether the target ends of a call are of a manner. Where it allows, the
/// samples are not the Rust's own.
fn has_ends(call: &Spoken, manner: Manner) -> bool {
    let departure = &call.departure;
    match manner {
        Manner::Whole | Manner::Seconds => departure.has_whole_products(),
        Manner::BesideHalf => departure.is_beside_half(),
        Manner::BelowZero => departure.is_below_zero(),
        Manner::High => true,
        Manner::Half => departure.has_half() && departure.shows(),
        Manner::Low | Manner::BeforeMark | Manner::Mixed => departure.shows(),
    }
}

/// Whether the marks and samples of a call are not the Rust's own, where its manner
/// allows that.
fn has_empty_boxes(call: &Spoken, manner: pitches::Manner) -> bool {
    let boxes = call.boxes.as_ref();
    match manner {
        pitches::Manner::Zero => boxes.is_some(),
        pitches::Manner::Tiny => boxes.is_some_and(Boxes::has_other_marks),
        _ => boxes.is_some_and(Boxes::shows),
    }
}

/// Whether a call has texts, and a tie is told by its marks or ends, where its
/// manner is that.
fn has_texts(call: &Spoken, manner: typed::Manner) -> bool {
    let typed = call.typed.as_ref();
    match manner {
        typed::Manner::Tie => typed.is_some_and(Typed::shows_tie),
        _ => typed.is_some(),
    }
}
