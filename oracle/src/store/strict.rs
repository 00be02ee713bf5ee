//! Strict calls, spoken and refused.

use super::edges;
use super::record::{Stored, BUFFERS};
use crate::call::Settings;
use crate::gen::damaged_calls::LabelledCall;
use crate::gen::strict_calls;

/// One call of either codec in every strict setting, calls that are spoken, or
/// refused for a pair or another cause, and some of these with no room at all.
pub fn all() -> Vec<Stored> {
    let mut calls = edges::either_codec(Settings::strict());
    for (number, call) in strict_calls::some().iter().enumerate() {
        calls.extend(stored("strict", call, BUFFERS));
        if number % 4 == 0 {
            calls.extend(stored("strict", call, [0; 6]));
        }
    }
    calls
}

/// A call of a sort.
pub fn stored(sort: &str, call: &LabelledCall, lent: [usize; 6]) -> Option<Stored> {
    let LabelledCall { voice, sheet, .. } = call;
    let stored = Stored::new("", voice, sheet, call.settings, lent)?;
    let kind = match stored.number {
        0 => format!("{sort}, spoken"),
        number => format!("{sort}, refused {number}"),
    };
    Some(Stored { kind, ..stored })
}
