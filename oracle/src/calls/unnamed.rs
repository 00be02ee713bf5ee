//! A call that names no filter beside the same one that names float.

use super::archive::Request;
use super::planning::request;
use super::{twins, Bench, Call};
use crate::expected::Given;
use crate::rng::Rng;

/// The bits of the settings that name float.
const FLOAT: u32 = 8;

pub fn compare(rng: &mut Rng, call: &Call, given: &Given, bench: &mut Bench) {
    let unnamed = request(rng, call);
    let named = Request {
        settings: unnamed.settings | FLOAT,
        ..unnamed
    };
    let about = format!("{}: no filter named", call.about);
    let made = twins::compare(rng, &about, given, [&named, &unnamed], bench);
    let spoken = usize::from(matches!(given, Given::Spoken(_)));
    bench
        .counts
        .pairs([spoken, 1 - spoken, made.plans, made.pulls]);
}
