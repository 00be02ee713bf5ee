//! `oracle codecs --codes FILE`: what a voice's own codes cost on either side.
//!
//! The file has periods one after the other: the number of packed bytes as two
//! bytes, little-endian, then these. `tools/voice-codes.c` makes it.

use crate::dsp;
use crate::probe;
use std::time::{Duration, Instant};

/// Rounds over the whole file in a run that is not told otherwise.
const ROUNDS: u64 = 30;

/// Periods that one side decodes before the other's turn: short enough for
/// other work on the machine to fall on both sides alike.
const SLICE: usize = 50;

/// One slice's periods, and what each round took: the Rust, the archive.
struct Slice {
    periods: Vec<Vec<u8>>,
    times: [Vec<Duration>; 2],
}

/// Every round decodes all slices, each period from a fresh state, so that no
/// branch is foreseen from the round before.
pub fn run(file: &str, rounds: Option<u64>) -> bool {
    let rounds = rounds.unwrap_or(ROUNDS).max(1);
    println!("oracle codecs: codes {file}, {rounds} rounds");
    let periods = match periods(file) {
        Ok(periods) => periods,
        Err(message) => {
            println!("oracle: {message}");
            return false;
        }
    };
    let codes = 2 * periods.iter().map(Vec::len).sum::<usize>();
    let longest = periods.iter().map(Vec::len).max().unwrap_or(0);
    println!("  {codes} codes in {} periods", periods.len());
    let mut slices: Vec<Slice> = periods
        .chunks(SLICE)
        .map(|periods| Slice {
            periods: periods.to_vec(),
            times: [Vec::new(), Vec::new()],
        })
        .collect();
    let mut rust = Vec::with_capacity(2 * longest);
    let mut archive = vec![0; 2 * longest];
    let wrong = mismatches(&periods, &mut rust, &mut archive);
    for _ in 0..rounds {
        for slice in &mut slices {
            let start = Instant::now();
            for packed in &slice.periods {
                dsp::decode_adpcm(packed, &mut rust);
            }
            slice.times[0].push(start.elapsed());
            let start = Instant::now();
            for packed in &slice.periods {
                probe::decode_adpcm(packed, &mut archive);
            }
            slice.times[1].push(start.elapsed());
        }
    }
    for (name, place) in [("best", 0), ("median", rounds as usize / 2)] {
        let [rust, archive] = [0, 1].map(|side| each(&mut slices, side, place, codes));
        println!(
            "  decode_adpcm: {name}: {rust:.1} ns a code in the Rust, \
             {archive:.1} ns in the archive, ratio {:.3}",
            archive / rust
        );
    }
    println!("oracle codecs: {wrong} mismatches");
    wrong == 0
}

/// The time of a code where each slice took its time of that place among the
/// rounds, in ascending order.
fn each(slices: &mut [Slice], side: usize, place: usize, codes: usize) -> f64 {
    let mut sum = Duration::ZERO;
    for slice in slices {
        slice.times[side].sort();
        sum += slice.times[side][place];
    }
    sum.as_nanos() as f64 / codes as f64
}

/// How many periods come out differently.
fn mismatches(periods: &[Vec<u8>], rust: &mut Vec<u8>, archive: &mut [u8]) -> usize {
    let mut wrong = 0;
    for packed in periods {
        dsp::decode_adpcm(packed, rust);
        probe::decode_adpcm(packed, archive);
        if rust[..] != archive[..2 * packed.len()] {
            wrong += 1;
            println!("oracle: mismatch: decode_adpcm: {packed:02x?}");
        }
    }
    wrong
}

fn periods(file: &str) -> Result<Vec<Vec<u8>>, String> {
    let bytes = std::fs::read(file).map_err(|error| format!("{file}: {error}"))?;
    let mut rest = &bytes[..];
    let mut periods = Vec::new();
    while let [low, high, after @ ..] = rest {
        let length = u16::from_le_bytes([*low, *high]) as usize;
        let packed = after.get(..length).ok_or(format!("{file}: cut short"))?;
        periods.push(packed.to_vec());
        rest = &after[length..];
    }
    match rest.is_empty() && !periods.is_empty() {
        true => Ok(periods),
        false => Err(format!("{file}: no whole number of periods")),
    }
}
