//! One call asked for in two ways, by other settings or another sheet, on equal
//! buffers: whatever they are lent, they show the same.

use super::archive::{self, Lent, Request, NEED_BYTES};
use super::guarded::Guarded;
use super::planning::lengths;
use super::Bench;
use crate::expected::Given;
use crate::lent::{length, slices, Room};
use crate::period_report::LINE_BYTES;
use crate::rng::Rng;

/// The buffers behind the plan's eight, by their numbers.
const NEED: usize = 8;
const LINES: usize = 9;
pub const BUFFERS: usize = 10;

/// What is lent: to the plan, the need, the report and each pull.
#[derive(Clone)]
pub struct Buffers {
    plan: [Guarded; 8],
    need: Guarded,
    lines: Guarded,
    slices: Vec<Guarded>,
}

/// What a function shows: its answer, and what it may write, afterwards.
#[derive(Clone)]
pub struct Shown {
    pub name: &'static str,
    pub answer: i64,
    left: Vec<Guarded>,
}

/// Plans and pulls that were made twice.
pub struct Made {
    pub plans: usize,
    pub pulls: usize,
}

/// Both calls with equal buffers: exact, longer, one too short, of any length.
/// The second must show what the first does.
pub fn compare(
    rng: &mut Rng,
    about: &str,
    given: &Given,
    requests: [&Request; 2],
    bench: &mut Bench,
) -> Made {
    let mut made = Made { plans: 0, pulls: 0 };
    let short = Room::Short(rng.below(BUFFERS));
    for room in [Room::Exact, Room::Longer, short, Room::Any] {
        let Some(lent) = lend(rng, given, room) else {
            continue;
        };
        let [expected, found] = requests.map(|request| shown(request, lent.clone()));
        let about = format!("{about}: {room:?}");
        for (expected, found) in expected.iter().zip(&found) {
            equal(expected, found, &about, bench);
        }
        made.plans += 1;
        made.pulls += lent.slices.len();
    }
    made
}

/// Nothing where a buffer that needs no byte is to be too short.
pub fn lend(rng: &mut Rng, given: &Given, room: Room) -> Option<Buffers> {
    let needed = given.needed();
    let plan = lengths(rng, &needed, room)?;
    let need = length(rng, 1, NEED_BYTES, room, NEED)?;
    let lines = length(rng, needed[2], LINE_BYTES, room, LINES)?;
    let slices = match given {
        Given::Spoken(spoken) => slices(rng, &spoken.periods),
        Given::Refused(_) => slices(rng, &[]),
    };
    Some(Buffers {
        plan: plan.map(|length| Guarded::new(rng, length)),
        need: Guarded::new(rng, need),
        lines: Guarded::new(rng, lines),
        slices: slices
            .iter()
            .map(|slice| Guarded::holding(rng, slice, 0))
            .collect(),
    })
}

/// Buffers without a byte, and no slice.
pub fn none(rng: &mut Rng) -> Buffers {
    Buffers {
        plan: [0; 8].map(|length| Guarded::new(rng, length)),
        need: Guarded::new(rng, 0),
        lines: Guarded::new(rng, 0),
        slices: Vec::new(),
    }
}

/// The need, the report and the plan, then the pulls on what is left of it.
fn shown(request: &Request, mut lent: Buffers) -> Vec<Shown> {
    let mut all = planned(request, &mut lent).to_vec();
    let filled = Lent::of(&lent.plan);
    let [.., mut state, _] = lent.plan;
    for mut slice in lent.slices {
        let answer = archive::pull(&mut state, &filled, &mut slice);
        all.push(Shown {
            name: "a pull",
            answer,
            left: vec![state.clone(), slice],
        });
    }
    all
}

/// The need, the report and the plan.
pub fn planned(request: &Request, lent: &mut Buffers) -> [Shown; 3] {
    let need = archive::need(request, &mut lent.need);
    let report = archive::report(request, &mut lent.lines);
    let plan = archive::plan(request, &mut lent.plan);
    all_with([need, report, plan].map(i64::from), lent)
}

/// These answers, and the buffers as they are.
pub fn all_with(answers: [i64; 3], lent: &Buffers) -> [Shown; 3] {
    let [need, report, plan] = answers;
    let one = |name, answer, left: &[Guarded]| Shown {
        name,
        answer,
        left: left.to_vec(),
    };
    [
        one("need", need, std::slice::from_ref(&lent.need)),
        one("report", report, std::slice::from_ref(&lent.lines)),
        one("plan", plan, &lent.plan),
    ]
}

pub fn equal(expected: &Shown, found: &Shown, about: &str, bench: &mut Bench) {
    let name = expected.name;
    let report = &mut bench.report;
    report.equal(&expected.answer, &found.answer, || {
        format!("{about}: {name}")
    });
    for (expected, found) in expected.left.iter().zip(&found.left) {
        report.check(expected == found, || {
            let difference = expected.difference(found);
            format!("{about}: {name}: {difference}")
        });
    }
}
