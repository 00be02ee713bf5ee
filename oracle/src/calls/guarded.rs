//! A lent buffer between guard bytes, in which every byte can be told apart
//! from what a call writes.

use crate::lent::filler;
use crate::rng::Rng;

const GUARD: usize = 24;
/// Filler bytes before they repeat.
const PATTERN: usize = 251;

#[derive(Clone, PartialEq, Eq)]
pub struct Guarded {
    /// The guards with the buffer between them.
    arena: Vec<u8>,
    start: usize,
    length: usize,
    /// A buffer without bytes may come with a null pointer.
    null: bool,
}

impl Guarded {
    /// A buffer of filler bytes at any alignment.
    pub fn new(rng: &mut Rng, length: usize) -> Guarded {
        let start = GUARD + rng.below(8);
        let pattern = filler(rng, PATTERN);
        let arena = pattern.iter().copied().cycle();
        Guarded {
            arena: arena.take(start + length + GUARD).collect(),
            start,
            length,
            null: length == 0 && rng.once_in(2),
        }
    }

    /// A buffer with these bytes at its front and filler behind them.
    pub fn holding(rng: &mut Rng, bytes: &[u8], longer: usize) -> Guarded {
        Guarded::new(rng, bytes.len() + longer).filled(bytes)
    }

    pub fn bytes(&self) -> &[u8] {
        &self.arena[self.start..self.start + self.length]
    }

    pub fn length(&self) -> usize {
        self.length
    }

    pub fn pointer(&mut self) -> *mut u8 {
        match self.null {
            true => std::ptr::null_mut(),
            false => self.arena[self.start..].as_mut_ptr(),
        }
    }

    /// This buffer with its front filled and all else as it is.
    pub fn filled(&self, new: &[u8]) -> Guarded {
        let mut after = self.clone();
        after.arena[self.start..self.start + new.len()].copy_from_slice(new);
        after
    }

    /// The first byte in which the buffer is not as expected.
    pub fn difference(&self, found: &Guarded) -> String {
        let pairs = self.arena.iter().zip(&found.arena).enumerate();
        let differing = pairs.into_iter().find(|(_, (a, b))| a != b);
        match differing {
            None => "no byte differs".to_string(),
            Some((i, (expected, byte))) => format!(
                "byte {} of {}: expected {expected}, found {byte}",
                i as i64 - self.start as i64,
                self.length
            ),
        }
    }
}
