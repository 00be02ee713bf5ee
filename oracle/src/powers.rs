//! How many of the fifteen powers of two are not above a number: `quan` of
//! libprobe.a beside the Rust's search through its table.

use crate::dsp::access;
use crate::probe;
use crate::rng::Rng;

/// Every number from -NEAR to NEAR is compared.
const NEAR: i32 = 70_000;

/// Random numbers of any size, and as many of every length in bits.
const RANDOM: u64 = 1_000_000;

/// How many mismatches are printed.
const SHOWN: u64 = 5;

/// The comparison so far: numbers, mismatches, and how often the Rust gave each
/// answer.
#[derive(Default)]
struct Tally {
    count: u64,
    wrong: u64,
    answers: [u64; 16],
}

impl Tally {
    fn compare(&mut self, val: i32) {
        let (rust, archive) = (access::quan(val), probe::probe_quan(val));
        self.count += 1;
        self.answers[rust as usize] += 1;
        if i64::from(rust) != i64::from(archive) {
            self.wrong += 1;
            if self.wrong <= SHOWN {
                println!("oracle: mismatch: quan: {val}: Rust {rust}, archive {archive}");
            }
        }
    }

    /// Prints one line. True if there was no mismatch and every answer was met.
    fn print(&self, which: &str) -> bool {
        let missing = self.answers.iter().filter(|met| **met == 0).count();
        println!(
            "  quan: {} numbers, {which}, {} mismatches; {} of 16 answers met",
            self.count,
            self.wrong,
            16 - missing
        );
        self.wrong == 0 && missing == 0
    }
}

/// Every number, or those that matter.
pub fn agree(seed: u64, all: bool) -> bool {
    match all {
        true => on_all().print("all of them"),
        false => on_some(seed).print(&format!("-{NEAR} to {NEAR}, edges, seed {seed}")),
    }
}

/// The numbers near 0, those at and beside every power of two of 32 bits, the
/// limits, and random ones.
fn on_some(seed: u64) -> Tally {
    let mut tally = Tally::default();
    for val in -NEAR..=NEAR {
        tally.compare(val);
    }
    for bit in 0..32 {
        let power = 1i32.wrapping_shl(bit);
        for beside in -2..=2 {
            tally.compare(power.wrapping_add(beside));
            tally.compare(power.wrapping_neg().wrapping_add(beside));
        }
    }
    for val in [i32::MIN, i32::MIN + 1, i32::MAX - 1, i32::MAX] {
        tally.compare(val);
    }
    let mut rng = Rng::for_case(seed, 0);
    for _ in 0..RANDOM {
        tally.compare(rng.u32() as i32);
        let bits = rng.below(32) as u32;
        tally.compare(rng.u32() as i32 >> bits);
    }
    tally
}

/// All 2^32 numbers.
fn on_all() -> Tally {
    let mut tally = Tally::default();
    for val in i32::MIN..=i32::MAX {
        tally.compare(val);
    }
    tally
}
