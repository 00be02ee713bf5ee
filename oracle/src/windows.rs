//! `oracle windows`: the source of a period in its window, and the period
//! nearest to a place, beside the Rust.

use crate::args::Args;
use crate::diphone::access::{self, PlainUnit};
use crate::diphone::DiphoneVoice;
use crate::gen::voices::{self, Extent, VoiceSpec};
use crate::probe_take;
use crate::reference::{self, Parsed};
use crate::report::Report;
use crate::rng::Rng;

/// Voices in a run that is not told otherwise; periods and units of each.
const CASES: u64 = 2_000;
const PERIODS: usize = 20;
const UNITS: usize = 20;

#[derive(Default)]
struct Counts {
    windows: u64,
    shorter: u64,
    bytes: u64,
    nearest: u64,
    empty: u64,
    last: u64,
}

pub fn run(args: &Args) -> bool {
    let mut report = Report::default();
    let mut counts = Counts::default();
    let cases = args.count.unwrap_or(CASES);
    for case in args.from..args.from + cases {
        let rng = &mut Rng::for_case(args.seed, 8_000_000 + case);
        let words = voices::vocabulary(rng);
        let spec = voices::voice(rng, &words, Extent::Any, false);
        let file = voices::file(&spec.sections());
        let Parsed::Voice(rust) = reference::parse(&file) else {
            report.check(false, || "the Rust does not open it".to_string());
            continue;
        };
        for _ in 0..PERIODS {
            check_window(rng, &spec, &file, &rust, &mut report, &mut counts);
        }
        for _ in 0..UNITS {
            check_nearest(rng, &spec, &file, &rust, &mut report, &mut counts);
        }
    }
    print(args.seed, cases, &report, &counts);
    report.failures == 0
}

/// The bytes that a call's decode buffer needs.
fn decode_room(spec: &VoiceSpec) -> usize {
    let gaps = spec.offsets.windows(2).map(|pair| (pair[1] - pair[0]) as usize);
    let longest = gaps.take(spec.header.frames as usize).max().unwrap_or(0);
    match spec.header.codec {
        0 => 0,
        _ => 2 * longest,
    }
}

/// A window of some size, often near the period's samples.
fn size_near(rng: &mut Rng, samples: usize) -> usize {
    match rng.below(4) {
        0 => rng.below(4),
        1 => (samples + rng.below(5)).saturating_sub(2),
        2 => rng.below(samples + 1),
        _ => rng.below(3 * samples + 20),
    }
}

fn check_window(
    rng: &mut Rng,
    spec: &VoiceSpec,
    file: &[u8],
    rust: &DiphoneVoice,
    report: &mut Report,
    counts: &mut Counts,
) {
    let frames = spec.header.frames as usize;
    let period = rng.below(frames);
    let samples = access::period_samples(rust, period);
    let size = size_near(rng, samples);
    let room = decode_room(spec);
    let slack = rng.below(10);

    // In the Rust the excitation is filled with 255 first, and a period of
    // size 0 is not copied.
    let mut theirs = vec![255; size];
    let decoded = match size {
        0 => Vec::new(),
        _ => access::copy_residual(rust, period, &mut theirs),
    };
    let mut window = rng.bytes(size);
    let mut buffer = rng.bytes(room + slack);
    let mut front = buffer.clone();
    front[..decoded.len()].copy_from_slice(&decoded);
    let done = probe_take::window(file, period, &mut window, &mut buffer);
    report.check(done, || format!("period {period} of {frames}"));
    report.equal(&theirs, &window, || format!("a window of {size}, {samples} samples"));
    report.equal(&front, &buffer, || "the decode buffer".to_string());
    counts.windows += 1;
    counts.shorter += u64::from(samples < size);
    counts.bytes += size as u64;

    let none = probe_take::window(file, frames, &mut window, &mut buffer);
    report.check(!none, || "a period past the last".to_string());
    if room > 0 {
        let short = probe_take::window(file, period, &mut window, &mut buffer[..room - 1]);
        report.check(!short, || "a decode buffer that is too short".to_string());
    }
    report.equal(&(theirs, front), &(window, buffer), || "left as it was".to_string());
}

/// A place in a unit: exactly between two period borders, at one, or anywhere.
fn place_in(rng: &mut Rng, rust: &DiphoneVoice, first: usize, last: usize) -> f32 {
    let upto = rng.between(first, last);
    let border: usize = (first..upto).map(|p| access::period_samples(rust, p)).sum();
    let next = match upto < last {
        true => border + access::period_samples(rust, upto),
        false => border,
    };
    match rng.below(8) {
        0 => 0.0,
        1 => border as f32,
        2 | 3 => (border + next) as f32 / 2.0,
        4 => f32::from_bits(((border + next) as f32 / 2.0).to_bits().saturating_sub(1)),
        5 => f32::from_bits(((border + next) as f32 / 2.0).to_bits() + 1),
        6 => (rng.unit() * 1.2 * next as f64) as f32,
        _ => f32::from_bits(rng.u32()),
    }
}

fn check_nearest(
    rng: &mut Rng,
    spec: &VoiceSpec,
    file: &[u8],
    rust: &DiphoneVoice,
    report: &mut Report,
    counts: &mut Counts,
) {
    let frames = spec.header.frames as usize;
    let first = match rng.once_in(20) {
        true => frames,
        false => rng.below(frames),
    };
    let longest = (frames - first).min(rng.pick(&[1, 3, 20, 255]));
    let last = first + longest - rng.below(longest.min(3) + 1);
    let unit = PlainUnit {
        first_period: first,
        last_period: last,
        target_end: 0,
    };
    let place = place_in(rng, rust, first, last);
    let theirs = access::nearest_period(rust, &unit, place);
    let ours = probe_take::nearest_period(file, first, last, place);
    report.equal(&theirs, &ours, || format!("place {place} in periods {first}..{last}"));
    counts.nearest += 1;
    counts.empty += u64::from(first == last);
    counts.last += u64::from(theirs + 1 == last);

    let past = probe_take::nearest_period(file, first, frames + 1, place);
    report.equal(&frames, &past, || "a unit past the frames".to_string());
}

fn print(seed: u64, cases: u64, report: &Report, counts: &Counts) {
    println!("oracle windows: seed {seed}, {cases} voices");
    println!(
        "  windows: {}, of them longer than the period: {}, bytes: {}",
        counts.windows, counts.shorter, counts.bytes
    );
    println!(
        "  places: {}, in empty units: {}, answered by the last period: {}",
        counts.nearest, counts.empty, counts.last
    );
    println!(
        "oracle windows: {} checks, {} mismatches",
        report.checks, report.failures
    );
}
