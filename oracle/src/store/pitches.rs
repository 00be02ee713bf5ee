//! Calls with targets without a pitch.

use super::record::{Stored, BUFFERS};
use super::strict::stored;
use crate::gen::pitch_calls;

pub fn all() -> Vec<Stored> {
    let calls = pitch_calls::some();
    let stored = |call| stored("pitches", call, BUFFERS);
    calls.iter().filter_map(stored).collect()
}
