//! A call whose sheet has texts beside the same one with the floats that they stand
//! for.

use super::archive::Request;
use super::planning::request;
use super::{twins, Bench, Call};
use crate::expected::Given;
use crate::rng::Rng;
use crate::sheet::{self, value, Value};
use crate::texts::Text;
use std::ops::Range;

/// With every text replaced, and with some of them. Where the sheet is refused those
/// before that are.
pub fn compare(rng: &mut Rng, call: &Call, given: &Given, bench: &mut Bench) {
    let texts = sheet::texts(&call.sheet);
    if texts.is_empty() {
        return;
    }
    let mut some = texts.clone();
    some.retain(|_| rng.once_in(2));
    let spoken = usize::from(matches!(given, Given::Spoken(_)));
    bench.counts.twins([spoken, 1 - spoken, 0, 0, 0, 0]);
    for (every, replaced) in [(1, texts), (0, some)] {
        if replaced.is_empty() {
            continue;
        }
        let sheet = with_floats(&call.sheet, &replaced);
        let texts = request(rng, call);
        let floats = Request {
            sheet: &sheet,
            ..texts
        };
        let about = format!("{}: {} texts", call.about, replaced.len());
        let made = twins::compare(rng, &about, given, [&floats, &texts], bench);
        bench
            .counts
            .twins([0, 0, every, 1 - every, made.plans, made.pulls]);
    }
}

/// The sheet with these texts as floats.
fn with_floats(sheet: &[u8], texts: &[(Range<usize>, Text)]) -> Vec<u8> {
    let mut sheet = sheet.to_vec();
    for (place, text) in texts.iter().rev() {
        sheet.splice(place.clone(), value(Value::Float(text.bits())));
    }
    sheet
}
