//! A strict call beside the same one that is not. Unless it is refused with 16,
//! they show the same. A call that is refused with 16 leaves every byte, and the
//! one that is not strict gets its own answer.

use super::archive::Request;
use super::planning::request;
use super::strict_counts::Behind;
use super::twins::{self, Buffers};
use super::{Bench, Call};
use crate::expected::{self, Given, Most, SHORT_BUFFER};
use crate::lent::Room;
use crate::refusal::Refusal;
use crate::rng::Rng;

/// The bit of the settings that is strict.
const STRICT: u32 = 32;

const MISSING: i64 = Refusal::MissingPair as i64;
const SHORT: i64 = SHORT_BUFFER as i64;

pub fn compare(rng: &mut Rng, call: &Call, given: &Given, bench: &mut Bench) {
    let strict = request(rng, call);
    let loose = Request {
        settings: strict.settings & !STRICT,
        ..strict
    };
    let about = format!("{}: strict", call.about);
    let requests = [&loose, &strict];
    match given {
        Given::Refused(Refusal::MissingPair) => refused(rng, call, &about, requests, bench),
        _ => {
            let made = twins::compare(rng, &about, given, requests, bench);
            bench.counts.strict.twins(&made);
        }
    }
    bench.counts.strict.call(call, given);
}

/// A call that is refused with 16, in buffers that are exact, longer, too short
/// or of any length for the one that is not strict, and in none.
fn refused(rng: &mut Rng, call: &Call, about: &str, requests: [&Request; 2], bench: &mut Bench) {
    let settings = call.settings.strictly(false);
    let Some(given) = expected::given(&call.voice, &call.sheet, settings, Most::ANY) else {
        bench.counts.not_compared += 1;
        return;
    };
    let mut behind = Behind::of(&given);
    let short = Room::Short(rng.below(twins::BUFFERS));
    for room in [Room::Exact, Room::Longer, short, Room::Any] {
        if let Some(lent) = twins::lend(rng, &given, room) {
            let enough = matches!(room, Room::Exact | Room::Longer);
            let about = format!("{about}: {room:?}");
            in_buffers(&lent, enough, requests, &about, &mut behind, bench);
        }
    }
    let about = format!("{about}: no byte lent");
    let lent = twins::none(rng);
    in_buffers(&lent, false, requests, &about, &mut behind, bench);
    bench.counts.strict.behind(&behind);
}

/// The strict call answers 16 and leaves these buffers. The other one gets its
/// number, or 13 if they may not be long enough.
fn in_buffers(
    lent: &Buffers,
    enough: bool,
    requests: [&Request; 2],
    about: &str,
    behind: &mut Behind,
    bench: &mut Bench,
) {
    let [loose, strict] = requests.map(|request| twins::planned(request, &mut lent.clone()));
    let left = twins::all_with([MISSING; 3], lent);
    for (expected, found) in left.iter().zip(&strict) {
        twins::equal(expected, found, about, bench);
    }
    let number = behind.number as i64;
    for found in loose {
        let short = found.answer == SHORT && number == 0;
        let holds = found.answer == number || short && !enough;
        bench.report.check(holds, || {
            let (name, answer) = (found.name, found.answer);
            format!("{about}: not strict: {name}: expected {number}, found {answer}")
        });
        behind.short += usize::from(short);
    }
}
