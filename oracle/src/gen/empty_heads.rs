//! Voices with periods of no samples at the heads of their units.

use super::voices::{self, residual_byte, row_value, Extent, Vocabulary, VoiceSpec};
use crate::rng::Rng;

/// The voice of a number: every order, either codec, with and without sizes.
/// Each entry has periods of its own.
pub fn voice(rng: &mut Rng, words: &Vocabulary, number: u64) -> VoiceSpec {
    let covering = !rng.once_in(4);
    let mut spec = voices::voice(rng, words, Extent::Small, covering);
    spec.header.order = (number % 33) as u32;
    spec.header.codec = (number % 2) as u32;
    spec.sizes = (number % 4 < 2).then(Vec::new);
    clear_frames(&mut spec);
    let manner = rng.below(4);
    for entry in 0..spec.entries.len() {
        spec.entries[entry].start = spec.header.frames as u16;
        spec.entries[entry].halves = [0, 1].map(|_| {
            let half = half(rng);
            for is_empty in &half {
                add_frame(rng, &mut spec, *is_empty, manner);
            }
            half.len() as u8
        });
    }
    // A voice has one frame at least.
    add_frame(rng, &mut spec, false, manner);
    spec
}

fn clear_frames(spec: &mut VoiceSpec) {
    spec.header.frames = 0;
    spec.rows.clear();
    spec.offsets.truncate(1);
    spec.residual.truncate(spec.offsets[0] as usize);
}

/// For each period of a half whether it is empty.
fn half(rng: &mut Rng) -> Vec<bool> {
    let count = match rng.once_in(40) {
        true => rng.between(5, 120),
        false => rng.between(1, 4),
    };
    let head = vec![true; count];
    let mut behind = vec![false];
    for _ in 0..rng.below(4) {
        behind.push(rng.once_in(3));
    }
    match rng.below(8) {
        0 | 1 => Vec::new(),
        2 | 3 => head,
        4..=6 => [head, behind].concat(),
        _ => behind,
    }
}

/// Adds a frame behind the others. The low byte of the first value of its row
/// is that of its number, so that rows near each other differ.
fn add_frame(rng: &mut Rng, spec: &mut VoiceSpec, is_empty: bool, manner: usize) {
    for i in 0..spec.header.order {
        let value = row_value(rng, &spec.header, manner);
        let number = spec.header.frames as u16;
        spec.rows.push(match i {
            0 => value & 0xFF00 | number & 0xFF,
            _ => value,
        });
    }
    let most = if rng.once_in(6) { 255 } else { 24 };
    let any = rng.below(most);
    let size = if is_empty { 0 } else { rng.between(1, most) };
    let length = match &mut spec.sizes {
        Some(sizes) => {
            sizes.push(size as u8);
            any
        }
        None => size,
    };
    let stored = (0..length).map(|_| residual_byte(rng, manner));
    spec.residual.extend(stored);
    spec.offsets.push(spec.residual.len() as u32);
    spec.header.frames += 1;
}
