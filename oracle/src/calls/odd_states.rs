//! Filter states that no call leaves: impossible ones, and possible ones at
//! any place of what was lent.

use super::archive::{Lent, STATE_BYTES};
use super::machine::State;
use crate::rng::Rng;

/// Scales outside the header's limits.
const UNFIT_SCALES: [f32; 6] = [
    16.000_002,
    -16.000_002,
    f32::INFINITY,
    f32::NEG_INFINITY,
    f32::NAN,
    f32::MAX,
];

/// Every way in which a state can be impossible, with its bytes.
pub fn impossible(rng: &mut Rng, state: &State, lent: &Lent) -> Vec<(&'static str, Vec<u8>)> {
    let periods = lent.sizes.len() as u64 / 4;
    let samples = lent.excitation.len() as u64;
    let scale = rng.pick(&UNFIT_SCALES).to_bits();
    let far = rng.pick(&[1, 2, 1 << 32, u64::MAX / 2]);
    let short = rng.pick(&[0, 1, 36, STATE_BYTES - 1, STATE_BYTES - 1]);
    let mut all = vec![("a state slice too short", state.bytes()[..short].to_vec())];
    let mut add = |what: &'static str, change: &dyn Fn(&mut State)| {
        let mut changed = state.clone();
        change(&mut changed);
        all.push((what, changed.bytes()));
    };
    add("filter 2", &|s| s.filter = 2);
    add("a filter far above", &|s| s.filter = u32::MAX);
    add("order 33", &|s| s.order = 33);
    add("order 33 and its ring place", &|s| {
        (s.order, s.ring_place) = (33, 33)
    });
    add("an order far above", &|s| s.order = u32::MAX);
    add("a ring place above the order", &|s| {
        s.ring_place = s.order + 1
    });
    add("a ring place far above", &|s| s.ring_place = u32::MAX);
    add("a period past the sizes", &|s| s.period = periods + far);
    add("a period at the end of numbers", &|s| s.period = u64::MAX);
    add("a sample place past the excitation", &|s| {
        s.sample_place = samples + far
    });
    add("a sample place at the end of numbers", &|s| {
        s.sample_place = u64::MAX
    });
    add("coeff_min outside the limits", &|s| s.coeff_min = scale);
    add("coeff_range outside the limits", &|s| s.coeff_range = scale);
    add("coeff_min a NaN", &|s| s.coeff_min = 0x7F80_0001);
    all
}

/// The rows cut within or before the row of a state's next period. Nothing
/// where that row has no bytes.
pub fn cut_rows(rng: &mut Rng, state: &State, lent: &Lent) -> Option<Lent> {
    let width = 2 * state.order as usize;
    let start = width * state.period as usize;
    if width == 0 || lent.rows.len() < start + width {
        return None;
    }
    let within = start + rng.below(width);
    let before = rng.below(start + 1);
    let length = rng.pick(&[start, start + width - 1, start + width - 2, within, before]);
    let mut cut = lent.clone();
    cut.rows.truncate(length);
    Some(cut)
}

/// A possible state at any place, with any history.
pub fn possible(rng: &mut Rng, state: &State, lent: &Lent) -> State {
    let periods = lent.sizes.len() / 4;
    let samples = lent.excitation.len();
    let mut odd = state.clone();
    odd.filter = rng.below(2) as u32;
    odd.ring_place = rng.below(odd.order as usize + 1) as u32;
    odd.period = rng.below(periods + 1) as u64;
    odd.sample_place = rng.below(samples + 1) as u64;
    if rng.once_in(4) {
        odd.sample_place = (samples - rng.below(samples.min(9) + 1)) as u64;
    }
    for (place, word) in odd.history.iter_mut().enumerate() {
        *word = match place <= state.order as usize {
            true => history_word(rng),
            false => 0x1234_5678 + place as u32,
        };
    }
    odd
}

/// Whole numbers and floats such as a history has, and any bits.
fn history_word(rng: &mut Rng) -> u32 {
    match rng.below(8) {
        0 => rng.u32(),
        1 => rng.pick(&[0, 0x7FFF_FFFF, 0x8000_0000, 0xFF80_0001]),
        2..=4 => i32::from(rng.u32() as i16) as u32,
        _ => (rng.unit() as f32 * 60_000.0 - 30_000.0).to_bits(),
    }
}

/// Sizes, rows and excitation cut anywhere, also within an element.
pub fn cut_anywhere(rng: &mut Rng, lent: &Lent) -> Lent {
    let mut cut = lent.clone();
    for bytes in [&mut cut.sizes, &mut cut.rows, &mut cut.excitation] {
        if rng.once_in(3) {
            let length = rng.below(bytes.len() + 1);
            bytes.truncate(length);
        }
    }
    cut
}
