//! `oracle statements`: small calls and what they must show, as statements for
//! the definitions. A check of the file computes them.

mod about;
mod antt;
pub mod drafts;
pub mod kinds;
mod rounding;

use crate::args::Args;
use crate::call::Settings;
use crate::expected::{self, Expected, Given};
use crate::lent::{self, Buffers};
use crate::rng::Rng;
use drafts::{Draft, Limits, UNNAMED};
use kinds::Kind;
use std::ops::Range;

/// Calls in a run that is not told otherwise.
const CALLS: u64 = 30;

/// Draws for one call before something must be wrong.
const MOST_DRAWS: usize = 20_000;

/// A call as it is made.
pub struct Call {
    pub voice: Vec<u8>,
    pub sheet: Vec<u8>,
    pub settings: Settings,
    pub lent: Buffers,
    slices: Vec<Vec<u8>>,
}

/// A call, what it is, and what it must show.
pub struct Drawn {
    pub call: Call,
    pub about: String,
    shown: Expected,
}

pub fn run(args: &Args) -> bool {
    let Some(out) = &args.out else {
        eprintln!("oracle statements: --out FILE says where they go");
        return false;
    };
    let limits = Limits::new();
    let end = args.from + args.count.unwrap_or(CALLS);
    let mut text = antt::HEAD.to_string();
    for number in args.from..end {
        let drawn = drawn(args.seed, number, &limits);
        text += &antt::statement(number, &drawn.about, &drawn.call, &drawn.shown);
    }
    if let Err(error) = std::fs::write(out, text) {
        eprintln!("oracle statements: {out}: {error}");
        return false;
    }
    println!(
        "oracle statements: seed {}, calls {} to {}",
        args.seed,
        args.from,
        end - 1
    );
    true
}

/// The numbers of the first round with calls that name no filter.
pub fn unnamed_round() -> Range<u64> {
    let kinds = kinds::all().len() as u64;
    UNNAMED * kinds..(UNNAMED + 1) * kinds
}

/// The call of one number. It depends on the seed and the number only.
pub fn drawn(seed: u64, number: u64, limits: &Limits) -> Drawn {
    let (kind, round) = kinds::of(number);
    let rng = &mut Rng::for_case(seed, 3_000_000 + number);
    for _ in 0..MOST_DRAWS {
        let draft = drafts::draft(rng, kind, limits).map(|draft| draft.in_round(round));
        if let Some(drawn) = draft.and_then(|draft| judged(rng, kind, draft)) {
            return drawn;
        }
    }
    panic!("no call {number} of {kind:?} in {MOST_DRAWS} draws");
}

/// The call with its buffers and slices. Nothing where it is not of its kind.
fn judged(rng: &mut Rng, kind: Kind, draft: Draft) -> Option<Drawn> {
    let given = expected::given(&draft.voice, &draft.sheet, draft.settings, kind.most())?;
    let lent = lent::lend(rng, &given.needed(), draft.room)?;
    let (slices, shown) = match &given {
        Given::Spoken(spoken) if spoken.fits(&lent) => {
            let slices = lent::slices(rng, &spoken.periods);
            let shown = spoken.with(&lent, &slices);
            (slices, shown)
        }
        other => (vec![vec![1, 2]], expected::refused(other.number(), &lent)),
    };
    if !kinds::is_of(rng, kind, &draft.voice, &given, shown.number) {
        return None;
    }
    let about = about::about(kind, &draft, &shown);
    let call = Call {
        voice: draft.voice,
        sheet: draft.sheet,
        settings: draft.settings,
        lent,
        slices,
    };
    Some(Drawn { call, about, shown })
}
