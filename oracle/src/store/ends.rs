//! Calls with target ends by their products.

use super::record::{Stored, BUFFERS};
use super::strict::stored;
use crate::gen::end_calls;

pub fn all() -> Vec<Stored> {
    let calls = end_calls::some();
    let stored = |call| stored("ends", call, BUFFERS);
    calls.iter().filter_map(stored).collect()
}
