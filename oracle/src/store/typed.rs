//! Calls with texts.

use super::record::{Stored, BUFFERS};
use super::strict::stored;
use crate::call::Join;
use crate::gen::damaged_calls::LabelledCall;
use crate::gen::typed_calls;
use crate::refusal::Refusal;

/// All of the modified join, and of the others one that is spoken and those that are
/// refused with 17. Some of the simple join have the settings of document 01's
/// program.
pub fn all() -> Vec<Stored> {
    let stored = |call| stored("texts", call, BUFFERS);
    let (modified, others) = typed_calls::all()
        .into_iter()
        .partition::<Vec<LabelledCall>, _>(|call| call.settings.join == Join::Modified);
    let is_long = |call: &&LabelledCall| call.label == Some(Refusal::LongText);
    let is_first = |join| move |call: &&LabelledCall| call.settings.join == join;
    let first = [Join::None, Join::Simple].map(|join| others.iter().find(is_first(join)));
    let others = first
        .into_iter()
        .flatten()
        .chain(others.iter().filter(is_long));
    modified.iter().chain(others).filter_map(stored).collect()
}
