//! `oracle worst`: the files known to cost most, each opened or called here and
//! in the Rust, in one process and in turn. `--out FOLDER` writes them.

use super::synthetic;
use super::timed::{prepare, requests, thread_seconds, Room};
use crate::args::Args;
use crate::call::{Join, Settings};
use crate::calls::archive;
use crate::diphone::DiphoneVoice;
use crate::diphone_c::{self, VOICE_BYTES};
use crate::gen::voices::{self, EntrySpec, VoiceSpec};
use crate::gen::{MAX_COUNT, PHONES};
use crate::reference;
use crate::rng::Rng;
use crate::sheet::{self, Segment, Sheet, Value};
use std::fs;
use std::hint::black_box;
use std::rc::Rc;

/// How often each file is taken on either side.
const ROUNDS: u64 = 3;

pub fn run(args: &Args) -> bool {
    let rounds = args.count.unwrap_or(ROUNDS).max(1) as usize;
    let rng = &mut Rng::for_case(args.seed, 9_600_000);
    println!("oracle worst: best of {rounds} rounds, ms: here, strict here, the Rust");
    for (name, spec) in indexes(rng) {
        let voice = voices::file(&spec.sections());
        keep(args, &format!("{name}.flv"), &voice);
        opened(name, spec.entries.len(), &voice, rounds);
    }
    for (name, spec, sheet) in calls(rng) {
        let voice = voices::file(&spec.sections());
        keep(args, &format!("{name}.flv"), &voice);
        keep(args, &format!("{name}.sht"), &sheet::write(&sheet));
        for join in [Join::Simple, Join::Modified] {
            called(name, &voice, &sheet, join, rounds);
        }
    }
    true
}

fn keep(args: &Args, name: &str, bytes: &[u8]) {
    if let Some(folder) = &args.out {
        fs::create_dir_all(folder).expect("a folder");
        fs::write(format!("{folder}/{name}"), bytes).expect("a file");
    }
}

/// A voice of few periods with these names.
fn voice(names: Vec<Vec<u8>>) -> VoiceSpec {
    let mut spec = voices::plain(2, vec![0, 1, 2]);
    spec.residual = vec![0xff; 2];
    spec.entries = names
        .into_iter()
        .map(|name| EntrySpec {
            name,
            start: 0,
            halves: [1, 1],
        })
        .collect();
    spec
}

fn numbered(count: usize) -> Vec<Vec<u8>> {
    (0..count).map(|i| format!("{i:07}").into_bytes()).collect()
}

/// Indexes that cost most to open.
fn indexes(rng: &mut Rng) -> Vec<(&'static str, VoiceSpec)> {
    let sorted = numbered(100_000);
    let descending: Vec<Vec<u8>> = sorted.iter().rev().cloned().collect();
    let mut mixed = sorted.clone();
    rng.shuffle(&mut mixed);
    let mut last_twice = mixed.clone();
    last_twice.push(mixed[99_999].clone());
    let long = |i: usize| [vec![b'a'; 244], format!("{i:07}").into_bytes()].concat();
    let mut appended = synthetic::index();
    appended.push(b"aa-appended".to_vec());
    vec![
        ("sorted", voice(sorted)),
        ("descending", voice(descending)),
        ("mixed", voice(mixed)),
        ("last-twice", voice(last_twice)),
        ("all-the-same", voice(vec![b"same".to_vec(); 100_000])),
        ("long-alike", voice((0..10_000).rev().map(long).collect())),
        ("appended", voice(appended)),
    ]
}

fn opened(name: &str, count: usize, voice: &[u8], rounds: usize) {
    let leaked: &'static [u8] = Box::leak(voice.to_vec().into_boxed_slice());
    let (mut index, mut record) = (vec![0; 8 * count], vec![0; VOICE_BYTES]);
    let mut best = [f64::MAX; 2];
    let mut answer = 0;
    for _ in 0..rounds {
        best[0] = best[0].min(seconds(|| {
            answer = diphone_c::open(voice, &mut index, &mut record)
        }));
        best[1] = best[1].min(seconds(|| drop(DiphoneVoice::parse(leaked))));
    }
    println!(
        "  open {name:13} {count:8} names, answer {answer}: {:10.3} {:10.3}",
        best[0] * 1e3,
        best[1] * 1e3
    );
}

/// Phones of the sheets that go with voices of many entries.
const FORTY: &[&str] = PHONES.split_at(40).0;

/// Calls that cost most. In the last one the last pair alone finds no name.
fn calls(rng: &mut Rng) -> Vec<(&'static str, Rc<VoiceSpec>, Sheet)> {
    let [unsorted, wide] = wide_voices(rng);
    let next = |i: usize| if i + 1 < MAX_COUNT { i + 2 } else { 0 };
    let far = |i: usize| 1 + i * 1_543 % MAX_COUNT;
    let lacking = |mut sheet: Sheet| {
        sheet.segments[MAX_COUNT - 1].name = "q".to_string();
        sheet
    };
    let consonants = vec![("k".to_string(), MAX_COUNT); MAX_COUNT];
    let few = |names: &[&str]| {
        let names = names.iter().map(|name| name.as_bytes().to_vec());
        Rc::new(voice(names.collect()))
    };
    let long = Rc::new(long_periods());
    vec![
        ("wide-unsorted", unsorted.clone(), random(rng, next)),
        ("followers", few(&["k-k", "k_-_k"]), sheet(consonants)),
        ("far-followers", few(&["k-k"]), random(rng, far)),
        ("long-periods", long, sheet(alternating())),
        ("wide", wide.clone(), random(rng, next)),
        ("wide-far", wide.clone(), random(rng, far)),
        ("unsorted-far", unsorted, random(rng, far)),
        ("last-missing", wide, lacking(random(rng, far))),
    ]
}

/// Voices with the plain names of all pairs among many others, in any order and
/// in order.
fn wide_voices(rng: &mut Rng) -> [Rc<VoiceSpec>; 2] {
    let pair = |left: &str, right: &str| format!("{left}-{right}").into_bytes();
    let pairs = FORTY
        .iter()
        .flat_map(|left| FORTY.iter().map(move |right| pair(left, right)));
    let mut wide = numbered(1_500_000);
    wide.extend(pairs.clone());
    wide.sort();
    let mut unsorted = numbered(10_000);
    unsorted.extend(pairs);
    rng.shuffle(&mut unsorted);
    [unsorted, wide].map(|names| Rc::new(voice(names)))
}

/// The longest sheet, of any of these phones.
fn random(rng: &mut Rng, follower: fn(usize) -> usize) -> Sheet {
    let segments = (0..MAX_COUNT).map(|i| (rng.pick(FORTY).to_string(), follower(i)));
    sheet(segments.collect())
}

fn sheet(segments: Vec<(String, usize)>) -> Sheet {
    let segment = |(i, (name, follower)): (usize, (String, usize))| Segment {
        name,
        end: Value::float((i + 1) as f32 * 0.01),
        follower,
    };
    Sheet {
        segments: segments.into_iter().enumerate().map(segment).collect(),
        targets: Vec::new(),
    }
}

/// A G.721 voice with two periods of 20,000 codes whose sizes say one sample.
fn long_periods() -> VoiceSpec {
    let mut spec = voice(vec![b"b-b".to_vec(), b"b-d".to_vec(), b"d-b".to_vec()]);
    spec.header.codec = 1;
    spec.residual = vec![0x5a; 20_000];
    spec.offsets = vec![0, 10_000, 20_000];
    spec.sizes = Some(vec![1, 1]);
    spec
}

fn alternating() -> Vec<(String, usize)> {
    (0..400)
        .map(|i| (["b", "d"][i % 2].to_string(), 0))
        .collect()
}

fn called(name: &str, voice: &[u8], sheet: &Sheet, join: Join, rounds: usize) {
    let bytes = sheet::write(sheet);
    let settings = Settings::new(join);
    let requests = requests(voice, &bytes, settings);
    let mut room = Room::new(&mut Rng::new(1), &requests[0]);
    let answer = archive::need(&requests[1], &mut room.need);
    let leaked: &'static [u8] = Box::leak(voice.to_vec().into_boxed_slice());
    let utt = reference::prepared(sheet, settings);
    let mut best = [f64::MAX; 5];
    for round in 0..rounds {
        let mut costs = [0.0; 5];
        // Which of the two comes first changes from round to round.
        for side in [round % 2, 1 - round % 2] {
            costs[2 * side] = seconds(|| archive::need(&requests[side], &mut room.need));
            costs[2 * side + 1] = seconds(|| archive::plan(&requests[side], &mut room.buffers));
        }
        costs[4] = seconds(|| {
            let rust = DiphoneVoice::parse(leaked).expect("a voice");
            prepare(&rust, &utt, join)
        });
        best = std::array::from_fn(|i| best[i].min(costs[i]));
    }
    let [need, plan, strict_need, strict_plan, rust] = best.map(|seconds| seconds * 1e3);
    println!(
        "  call {name:13} {join:?}, {:7} entries, {:4} segments, {:4} marks: need {need:8.3}, \
         plan {plan:8.3}; strict, answer {answer}: {strict_need:8.3}, {strict_plan:8.3}; {rust:8.3}",
        room.elements[0],
        sheet.segments.len(),
        room.elements[1],
    );
}

fn seconds<T>(run: impl FnOnce() -> T) -> f64 {
    let start = thread_seconds();
    black_box(run());
    thread_seconds() - start
}
