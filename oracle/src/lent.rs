//! The buffers that a call is lent, and the sample slices of its pulls.

use crate::rng::Rng;

/// The lent buffers as bytes: index, marks, sizes, rows, excitation, decoded.
pub type Buffers = [Vec<u8>; 6];

pub const NAMES: [&str; 6] = ["index", "marks", "sizes", "rows", "excitation", "decoded"];

/// The bytes of one element.
pub const WIDTHS: [usize; 6] = [8, 4, 4, 2, 1, 1];

/// How long the buffers of a call are.
#[derive(Clone, Copy, Debug, PartialEq, Eq)]
pub enum Room {
    /// Exactly long enough.
    Exact,
    /// Exactly long enough or longer, each by itself.
    Longer,
    /// This one a byte to an element too short, the others not.
    Short(usize),
    /// Whatever.
    Any,
}

/// Buffers of filler bytes for a call that needs so many elements of each.
/// Nothing where a buffer that needs none is to be too short.
pub fn lend(rng: &mut Rng, needed: &[usize; 6], room: Room) -> Option<Buffers> {
    let mut lent = Buffers::default();
    for (i, buffer) in lent.iter_mut().enumerate() {
        let length = length(rng, needed[i], WIDTHS[i], room, i)?;
        *buffer = filler(rng, length);
    }
    Some(lent)
}

/// The bytes of buffer `i`, which needs so many elements of a width. Nothing
/// where it needs none and is to be too short.
pub fn length(rng: &mut Rng, needed: usize, width: usize, room: Room, i: usize) -> Option<usize> {
    let exact = needed * width;
    let length = match room {
        Room::Short(short) if short == i => exact.checked_sub(missing(rng, width))?,
        Room::Exact => exact,
        Room::Any => rng.below(12),
        _ => exact + rng.pick(&[0, 1, width, width + 3, 3 * width - 1]),
    };
    Some(length)
}

/// One byte to one element.
fn missing(rng: &mut Rng, width: usize) -> usize {
    let some = rng.between(1, width);
    rng.pick(&[1, some, width])
}

/// Bytes other than 0 and 255, which a call itself often writes.
pub fn filler(rng: &mut Rng, length: usize) -> Vec<u8> {
    (0..length).map(|_| rng.between(1, 254) as u8).collect()
}

/// Slices for some pulls of a call with these periods: too short, exact, longer,
/// of odd length, empty, and after the last period.
pub fn slices(rng: &mut Rng, periods: &[Vec<i16>]) -> Vec<Vec<u8>> {
    let mut slices = Vec::new();
    let to_the_end = rng.below(3) > 0;
    let count = match to_the_end {
        true => periods.len(),
        false => rng.below(periods.len().min(4) + 1),
    };
    for period in &periods[..count] {
        let exact = 2 * period.len();
        if exact > 0 && rng.once_in(3) {
            let some = rng.below(exact);
            let short = rng.pick(&[0, exact - 1, exact - 2, some]);
            slices.push(filler(rng, short));
        }
        let long = exact + rng.pick(&[0, 0, 1, 2, 5]);
        slices.push(filler(rng, long));
    }
    if to_the_end {
        for _ in 0..rng.between(1, 2) {
            let any = rng.below(6);
            slices.push(filler(rng, any));
        }
    }
    slices
}
