//! `oracle openings`: `diphone_open` beside document 01's reading and the Rust,
//! on good and damaged voices.

use crate::args::Args;
use crate::diphone::access;
use crate::diphone::DiphoneVoice;
use crate::diphone_c::{self, VOICE_BYTES};
use crate::gen::damaged_voices::{self, InRust};
use crate::gen::voices::{self, EntrySpec, Extent, VoiceSpec};
use crate::reference::{self, Parsed};
use crate::probe_voice;
use crate::refusal::{numbered, ByNumber, Refusal, LAST};
use crate::report::Report;
use crate::rng::Rng;
use crate::voicefile::{self, Voice};
use std::time::Instant;

/// Good voices, and voices damaged in every way, in a run that is not told
/// otherwise.
const CASES: u64 = 2_000;
const DAMAGED_VOICES: u64 = 12;

/// Periods of a voice that are read one by one.
const PERIODS: usize = 40;

const SHORT_BUFFER: usize = 13;
const GUARD: u8 = 0xA5;

#[derive(Default)]
struct Counts {
    opened: u64,
    entries: u64,
    /// Periods read one by one.
    periods: u64,
    /// By the number answered; 0 counts the voices opened.
    answers: ByNumber,
    rust_opens: ByNumber,
}

pub fn run(args: &Args) -> bool {
    let mut report = Report::default();
    let mut counts = Counts::default();
    let cases = args.count.unwrap_or(CASES);
    for case in args.from..args.from + cases {
        let rng = &mut Rng::for_case(args.seed, 4_000_000 + case);
        let words = voices::vocabulary(rng);
        let covering = rng.once_in(2);
        let spec = voices::voice(rng, &words, Extent::Any, covering);
        let file = voices::file(&voices::with_extras(rng, &spec));
        check(rng, &file, InRust::Opened, &mut report, &mut counts);
    }
    for case in 0..DAMAGED_VOICES {
        let rng = &mut Rng::for_case(args.seed, 1_000_000 + case);
        for voice in damaged_voices::of_random_voice(rng) {
            check(rng, &voice.case.bytes, voice.in_rust, &mut report, &mut counts);
        }
    }
    let rng = &mut Rng::for_case(args.seed, 5_000_000);
    for voice in damaged_voices::large() {
        check(rng, &voice.case.bytes, voice.in_rust, &mut report, &mut counts);
    }
    time(args.seed, &mut report);
    print(args.seed, cases, &report, &counts);
    report.failures == 0
}

/// One voice file with buffers of several lengths.
fn check(rng: &mut Rng, file: &[u8], in_rust: InRust, report: &mut Report, counts: &mut Counts) {
    match voicefile::open(file) {
        Err(refusal) => refused(rng, file, refusal, in_rust, report, counts),
        Ok(voice) => opened(rng, file, &voice, report, counts),
    }
}

/// A refusal has its number whatever the buffers are, and touches none.
fn refused(
    rng: &mut Rng,
    file: &[u8],
    refusal: Refusal,
    in_rust: InRust,
    report: &mut Report,
    counts: &mut Counts,
) {
    let lengths = rng.pick(&[[0, 0], [4096, 64], [0, 56], [8, 55]]);
    untouched(file, lengths, refusal.number(), report, counts);
    if in_rust == InRust::NotCalled {
        return;
    }
    let rust_opens = matches!(reference::parse(file), Parsed::Voice(_));
    counts.rust_opens[refusal.number()] += u64::from(rust_opens);
    let added = in_rust == InRust::Opened;
    report.equal(&added, &rust_opens, || {
        format!("refusal {}: opened by the Rust", refusal.number())
    });
}

/// The answer is a number, and both buffers are as they were.
fn untouched(
    file: &[u8],
    lengths: [usize; 2],
    number: usize,
    report: &mut Report,
    counts: &mut Counts,
) {
    let mut buffers = lengths.map(|length| vec![GUARD; length]);
    let [index, record] = &mut buffers;
    let answer = diphone_c::open(file, index, record) as usize;
    report.equal(&number, &answer, || format!("answer with buffers of {lengths:?} bytes"));
    counts.answers[answer.min(LAST)] += 1;
    let kept = buffers.iter().flatten().all(|byte| *byte == GUARD);
    report.check(kept, || format!("refusal {number} writes"));
}

fn opened(rng: &mut Rng, file: &[u8], voice: &Voice, report: &mut Report, counts: &mut Counts) {
    counts.opened += 1;
    counts.entries += voice.index.len() as u64;
    let step = voice.frames().div_ceil(PERIODS);
    counts.periods += voice.frames().div_ceil(step) as u64;
    let room = 8 * voice.index.len();
    untouched(file, [room - 1, VOICE_BYTES], SHORT_BUFFER, report, counts);
    untouched(file, [room, VOICE_BYTES - 1], SHORT_BUFFER, report, counts);

    let lengths = [room, VOICE_BYTES].map(|least| least + rng.below(20));
    let [mut index, mut record] = lengths.map(|length| rng.bytes(length));
    let expected = expected(voice, &index, &record);
    let answer = diphone_c::open(file, &mut index, &mut record);
    counts.answers[(answer as usize).min(LAST)] += 1;
    report.equal(&0, &answer, || "a good voice".to_string());
    report.equal(&expected, &(index.clone(), record), || "index and record".to_string());
    match reference::parse(file) {
        Parsed::Voice(rust) => beside_rust(file, voice, &rust, &index, report),
        _ => report.check(false, || "the Rust does not open it".to_string()),
    }
}

/// The index and the record that an opening leaves.
fn expected(voice: &Voice, index: &[u8], record: &[u8]) -> (Vec<u8>, Vec<u8>) {
    let mut sorted: Vec<u8> = Vec::new();
    for entry in &voice.index {
        sorted.extend((entry.at as u64).to_le_bytes());
    }
    sorted.extend(&index[sorted.len()..]);
    let room = if voice.is_g721() { 2 * voice.longest() } else { 0 };
    let mut filled = voices::header_data(&voice.header);
    filled.extend((voice.index.len() as u64).to_le_bytes());
    filled.extend((room as u64).to_le_bytes());
    filled.extend(&record[filled.len()..]);
    (sorted, filled)
}

/// The entries at the offsets of the index are the Rust's, in its order, and
/// so are some of the periods: samples, residual and row.
fn beside_rust(
    file: &[u8],
    voice: &Voice,
    rust: &DiphoneVoice,
    index: &[u8],
    report: &mut Report,
) {
    let names = access::index(rust);
    report.equal(&names.len(), &voice.index.len(), || "number of entries".to_string());
    for (entry, offset) in names.iter().zip(index.chunks(8)) {
        let at = u64::from_le_bytes(offset.try_into().unwrap_or_default()) as usize;
        let stored = entry_at(file, at);
        report.equal(entry, &stored, || "entry in sorted order".to_string());
    }
    // Each reading opens the file again, so of a long voice only some are read.
    let step = voice.frames().div_ceil(PERIODS);
    for period in (0..voice.frames()).step_by(step) {
        beside_period(file, rust, period, report);
    }
    let past = probe_voice::period_samples(file, voice.frames());
    report.equal(&0, &past, || "past the frames".to_string());
}

fn beside_period(file: &[u8], rust: &DiphoneVoice, period: usize, report: &mut Report) {
    let residual = access::period_residual(rust, period);
    let row: Vec<u8> = access::period_coefficients(rust, period)
        .iter()
        .flat_map(|value| value.to_le_bytes())
        .collect();
    let samples = access::period_samples(rust, period);
    let ours = probe_voice::period_samples(file, period);
    report.equal(&samples, &ours, || format!("samples of period {period}"));
    let mut room = vec![0; residual.len()];
    let length = probe_voice::residual(file, period, &mut room);
    report.check(length == residual.len() && room == residual, || {
        format!("residual of period {period}")
    });
    let mut room = vec![0; row.len()];
    let length = probe_voice::row(file, period, &mut room);
    report.check(length == row.len() && room == row, || format!("row of period {period}"));
}

fn entry_at(file: &[u8], at: usize) -> access::Entry {
    let name_end = at + 1 + usize::from(file[at]);
    access::Entry {
        name: String::from_utf8_lossy(&file[at + 1..name_end]).into_owned(),
        start: u16::from_le_bytes([file[name_end], file[name_end + 1]]).into(),
        first_half: file[name_end + 2].into(),
        second_half: file[name_end + 3].into(),
    }
}

/// Opens a voice as large as the real ones, many times on either side.
fn time(seed: u64, report: &mut Report) {
    const FRAMES: u32 = 18_950;
    const ENTRIES: usize = 1_623;
    const RUNS: usize = 400;
    let rng = &mut Rng::for_case(seed, 6_000_000);
    let file: &'static [u8] = Box::leak(large_voice(rng, FRAMES, ENTRIES).into_boxed_slice());
    let mut index = vec![0; 8 * ENTRIES];
    let mut record = vec![0; VOICE_BYTES];
    let mut best = [f64::INFINITY; 2];
    for _ in 0..RUNS {
        let start = Instant::now();
        let answer = diphone_c::open(file, &mut index, &mut record);
        best[0] = best[0].min(start.elapsed().as_secs_f64());
        report.equal(&0, &answer, || "the large voice".to_string());
        let start = Instant::now();
        let parsed = DiphoneVoice::parse(file);
        best[1] = best[1].min(start.elapsed().as_secs_f64());
        report.check(parsed.is_ok(), || "the Rust opens the large voice".to_string());
    }
    println!(
        "  {FRAMES} frames, {ENTRIES} entries in order: {:.1} µs here, {:.1} µs in the Rust (best of {RUNS})",
        best[0] * 1e6,
        best[1] * 1e6
    );
}

/// A G.721 voice whose entries stand in order.
fn large_voice(rng: &mut Rng, frames: u32, entries: usize) -> Vec<u8> {
    let mut spec: VoiceSpec = voices::plain(frames, Vec::new());
    spec.header.order = 10;
    spec.header.codec = 1;
    spec.rows = (0..frames * 10).map(|_| rng.u32() as u16).collect();
    spec.sizes = Some(rng.bytes(frames as usize));
    spec.offsets = (0..=frames).map(|i| i * 50).collect();
    spec.residual = rng.bytes(frames as usize * 50);
    let mut names: Vec<Vec<u8>> = (0..entries)
        .map(|i| format!("{}{}-{}", letter(i / 676), letter(i / 26), letter(i)).into_bytes())
        .collect();
    names.sort();
    spec.entries = names
        .into_iter()
        .enumerate()
        .map(|(i, name)| EntrySpec {
            name,
            start: (i * 11) as u16,
            halves: [5, 6],
        })
        .collect();
    voices::file(&spec.sections())
}

fn letter(i: usize) -> char {
    char::from(b'a' + (i % 26) as u8)
}

fn print(seed: u64, cases: u64, report: &Report, counts: &Counts) {
    println!("oracle openings: seed {seed}, {cases} good voices");
    println!(
        "  opened: {} ({} entries, {} periods read)",
        counts.opened, counts.entries, counts.periods
    );
    println!("  answers by number: {}", numbered(&counts.answers));
    println!(
        "  refused here and opened by the Rust, limits added by document 01: {}",
        numbered(&counts.rust_opens)
    );
    println!(
        "oracle openings: {} checks, {} mismatches",
        report.checks, report.failures
    );
}
