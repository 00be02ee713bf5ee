//! `oracle codecs`: mu-law and the G.721 decoder of libprobe.a beside the
//! Rust's: every byte, every sample, and packed codes of several kinds, each
//! decoded from a fresh state. `accuracy` has how far mu-law moves a sample,
//! `powers` the decoder's count of powers of two.

use crate::accuracy;
use crate::args::Args;
use crate::dsp;
use crate::powers;
use crate::probe;
use crate::rng::Rng;
use crate::speech::Speech;
#[cfg(feature = "probe_state")]
use crate::states;
use crate::voicecodes;
use std::time::{Duration, Instant};

/// Codes in a run that is not told otherwise.
const COUNT: u64 = 2_000_000;

/// The longest period that is decoded at once, in packed bytes, but for the
/// held codes.
const LONGEST: usize = 4_096;

/// Packed bytes of one held code: long enough for every delay to settle.
const HELD: usize = 10_000;

/// Bytes of the archive's buffer past the output.
const SPARE: usize = 3;

/// How often a period is decoded on each side.
const PASSES: usize = 3;

/// Speech-like periods that are decoded in one go.
const BATCH: u64 = 36;

pub fn run(args: &Args) -> bool {
    if let Some(file) = &args.codes {
        return voicecodes::run(file, args.count);
    }
    let count = args.count.unwrap_or(COUNT).max(1);
    println!("oracle codecs: seed {}, count {count}", args.seed);
    let mut agreed = bytes_and_samples();
    agreed &= accuracy::agree();
    agreed &= powers::agree(args.seed, args.all);
    #[cfg(feature = "probe_state")]
    {
        agreed &= states::agree(args.seed);
    }
    let mut tally = Tally::default();
    for code in 0..16u8 {
        tally.compare("held", &[vec![code << 4 | code; HELD]]);
    }
    let mut periods = 16;
    let mut speech = Speech::new();
    while tally.codes < count {
        let mut rng = Rng::for_case(args.seed, periods);
        if periods % 5 == 0 {
            let batch: Vec<_> = (0..BATCH).map(|_| speech.period(&mut rng)).collect();
            tally.compare("speech-like", &batch);
            periods += BATCH;
        } else {
            let (kind, packed) = period(&mut rng);
            tally.compare(kind, &[packed]);
            periods += 1;
        }
    }
    println!(
        "  decode_adpcm: {} codes in {periods} periods, {} mismatches",
        tally.codes, tally.wrong
    );
    for time in &tally.times {
        println!(
            "  decode_adpcm: {} codes: {:.1} ns a code in the Rust, {:.1} ns in the archive",
            time.kind,
            each(time.rust, time.codes),
            each(time.archive, time.codes)
        );
    }
    agreed &= tally.wrong == 0;
    let end = if agreed { "all equal" } else { "mismatches" };
    println!("oracle codecs: {end}");
    agreed
}

fn each(time: Duration, codes: u64) -> f64 {
    time.as_nanos() as f64 / codes as f64
}

/// All 256 bytes decoded, all 65,536 samples encoded.
fn bytes_and_samples() -> bool {
    let mut wrong = 0;
    for byte in 0..=u8::MAX {
        let (rust, archive) = (dsp::ulaw_to_i16(byte), probe::probe_ulaw_to_i16(byte));
        if rust != archive {
            wrong += 1;
            println!("oracle: mismatch: ulaw_to_i16: byte {byte}: Rust {rust}, archive {archive}");
        }
    }
    for sample in i16::MIN..=i16::MAX {
        let (rust, archive) = (dsp::i16_to_ulaw(sample), probe::probe_i16_to_ulaw(sample));
        if rust != archive {
            wrong += 1;
            println!(
                "oracle: mismatch: i16_to_ulaw: sample {sample}: Rust {rust}, archive {archive}"
            );
        }
    }
    println!("  ulaw_to_i16: 256 bytes; i16_to_ulaw: 65536 samples; {wrong} mismatches");
    wrong == 0
}

/// The packed codes of a period, and what kind they are.
pub fn period(rng: &mut Rng) -> (&'static str, Vec<u8>) {
    let length = 1 + rng.below(LONGEST);
    let (a, b) = (rng.byte() & 15, rng.byte() & 15);
    let mut codes = Vec::with_capacity(2 * length);
    let kind = rng.below(4);
    for i in 0..2 * length {
        codes.push(match kind {
            0 => rng.byte() & 15,
            1 => [a, b][i % 2],
            2 => (i / (1 + a as usize * 16) % 16) as u8,
            _ => [a, b, rng.byte() & 15][i / 97 % 3],
        });
    }
    let packed = codes.chunks(2).map(|two| two[0] << 4 | two[1]).collect();
    (["random", "alternating", "climbing", "runs"][kind], packed)
}

#[derive(Default)]
struct Tally {
    codes: u64,
    wrong: u64,
    times: Vec<Time>,
}

/// What one kind of codes took.
struct Time {
    kind: &'static str,
    codes: u64,
    rust: Duration,
    archive: Duration,
}

impl Tally {
    fn time(&mut self, kind: &'static str) -> &mut Time {
        let known = self.times.iter().position(|time| time.kind == kind);
        let at = known.unwrap_or(self.times.len());
        if known.is_none() {
            self.times.push(Time {
                kind,
                codes: 0,
                rust: Duration::ZERO,
                archive: Duration::ZERO,
            });
        }
        &mut self.times[at]
    }

    /// Decodes periods both ways, one side after the other, and counts the
    /// fastest of a few passes for each.
    fn compare(&mut self, kind: &'static str, periods: &[Vec<u8>]) {
        let room = |more| move |packed: &Vec<u8>| 2 * packed.len() + more;
        let mut rust = Vec::from_iter(periods.iter().map(room(0)).map(Vec::with_capacity));
        let filler = |len| vec![0xA5; len];
        let mut archive = Vec::from_iter(periods.iter().map(room(SPARE)).map(filler));
        let mut times = [Duration::MAX; 2];
        for _ in 0..PASSES {
            let start = Instant::now();
            for (packed, out) in periods.iter().zip(&mut rust) {
                dsp::decode_adpcm(packed, out);
            }
            times[0] = times[0].min(start.elapsed());
            let start = Instant::now();
            for (packed, out) in periods.iter().zip(&mut archive) {
                probe::decode_adpcm(packed, out);
            }
            times[1] = times[1].min(start.elapsed());
        }
        let codes = periods.iter().map(room(0)).sum::<usize>() as u64;
        self.codes += codes;
        let time = self.time(kind);
        time.codes += codes;
        time.rust += times[0];
        time.archive += times[1];
        for ((packed, rust), archive) in periods.iter().zip(&rust).zip(&archive) {
            self.check(kind, packed, rust, archive);
        }
    }

    /// The archive's output stands in a buffer with room to spare, which it
    /// must leave as it was.
    fn check(&mut self, kind: &str, packed: &[u8], rust: &[u8], archive: &[u8]) {
        let (front, rest) = archive.split_at(2 * packed.len());
        let first = rust.iter().zip(front).position(|(a, b)| a != b);
        if first.is_some() || rest != [0xA5; SPARE] || rust.len() != front.len() {
            self.wrong += 1;
            println!(
                "oracle: mismatch: decode_adpcm: {kind} codes, first at {first:?}, {packed:02x?}"
            );
        }
    }
}
