//! Voices, sheets and calls made from a seed: good ones, and damaged ones that
//! carry the number document 01 gives them.

pub mod damaged_calls;
pub mod damaged_sheets;
pub mod damaged_texts;
pub mod damaged_voices;
pub mod empty_heads;
pub mod end_calls;
pub mod pitch_calls;
pub mod pitches;
pub mod shaped;
pub mod sheets;
pub mod small;
pub mod strict_calls;
pub mod target_ends;
pub mod text;
pub mod typed;
pub mod typed_calls;
pub mod voices;

use crate::refusal::Refusal;
use crate::rng::Rng;
use crate::sheet::Sheet;
use small::Shape;
use voices::VoiceSpec;

// Document 01's limits, written out here once more: a wrong limit in a reader
// then shows as a label that it does not give.
pub const MAX_RESIDUAL: usize = 16_777_215;
pub const MAX_COUNT: usize = 4096;
pub const MAX_NAME: usize = 32;
pub const MAX_TEXT: usize = 12;
pub const MAX_PLACE: usize = 16_777_215;
pub const MAX_MARKS: usize = 65_536;

/// A file with the answer that it must get.
pub struct Labelled {
    pub bytes: Vec<u8>,
    /// Nothing where it lies just inside the limits and is accepted.
    pub label: Option<Refusal>,
    pub reason: String,
}

/// A voice and a sheet by their number: the manners in turn, of any extent and
/// small.
fn in_turn<M: Copy>(
    rng: &mut Rng,
    number: u64,
    manners: &[M],
    any: fn(&mut Rng, M) -> (VoiceSpec, Sheet),
    little: fn(&mut Rng, Shape, M) -> (VoiceSpec, Sheet),
) -> (M, VoiceSpec, Sheet) {
    let manner = manners[number as usize / 2 % manners.len()];
    let (spec, sheet) = match number % 2 {
        0 => any(rng, manner),
        _ => {
            let shape = small::shape(rng);
            little(rng, shape, manner)
        }
    };
    (manner, spec, sheet)
}

/// The fifty phones of phoneset.rs.
#[rustfmt::skip]
pub const PHONES: [&str; 50] = [
    "aa", "ae", "ah", "ao", "aw", "ax", "axr", "ay", "b", "ch", "d", "dh", "dx", "eh", "el", "em",
    "en", "er", "ey", "f", "g", "hh", "hv", "ih", "iy", "jh", "k", "l", "m", "n", "nx", "ng", "ow",
    "oy", "p", "r", "s", "sh", "t", "th", "uh", "uw", "v", "w", "y", "z", "zh", "pau", "h#", "brth",
];
