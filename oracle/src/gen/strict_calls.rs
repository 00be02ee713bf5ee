//! Strict calls with the number that each must get: pairs that find a name and
//! pairs that find none, alone and with other causes before and behind them.

use super::damaged_calls::{entry, sheet, two_periods, LabelledCall};
use super::voices::{file, plain, VoiceSpec};
use super::MAX_MARKS;
use crate::call::{Join, Settings, JOINS, NAMED};
use crate::refusal::Refusal;
use crate::sheet::{write, Segment, Sheet, Target, Value};

/// Two names of 32 bytes, and one that differs from the second in its last byte.
const LONG: [&str; 3] = [
    "an-open-name-of-thirty-two-bytes",
    "a-second-name-of-32-bytes-like-a",
    "a-second-name-of-32-bytes-like-b",
];

/// A voice's names, phones each with its follower, and whether a pair of them
/// finds none.
struct Row {
    reason: &'static str,
    names: Vec<String>,
    segments: &'static [(&'static str, usize)],
    fold: bool,
    missing: bool,
}

/// Phones without followers.
const FOUR: &[(&str, usize)] = &[("pau", 0), ("aa", 0), ("k", 0), ("pau", 0)];
const AA: &[(&str, usize)] = &[("pau", 0), ("aa", 0)];
const AH: &[(&str, usize)] = &[("pau", 0), ("ah", 0)];
const EMPTY: &[(&str, usize)] = &[("", 0), ("", 0)];
const THIRTY_TWO: &[(&str, usize)] = &[(LONG[0], 0), (LONG[1], 0)];
/// A cluster, and what looks like one.
const CLUSTER: &[(&str, usize)] = &[("k", 2), ("w", 0), ("aa", 0)];
const ALONE: &[(&str, usize)] = &[("k", 0), ("w", 0), ("aa", 0)];
const AFTER_VOWEL: &[(&str, usize)] = &[("aa", 2), ("k", 0)];
const BEFORE_VOWEL: &[(&str, usize)] = &[("k", 2), ("aa", 0)];
const BEFORE_UNKNOWN: &[(&str, usize)] = &[("k", 2), ("xx", 0)];
const AFTER_UNKNOWN: &[(&str, usize)] = &[("xx", 2), ("k", 0)];
const FAR_FOLLOWER: &[(&str, usize)] = &[("k", 3), ("aa", 0), ("w", 0)];

fn row(reason: &'static str, names: &[&str], segments: &'static [(&'static str, usize)]) -> Row {
    Row {
        reason,
        names: names.iter().map(|name| name.to_string()).collect(),
        segments,
        fold: false,
        missing: false,
    }
}

fn folded(row: Row) -> Row {
    Row { fold: true, ..row }
}

fn found() -> Vec<Row> {
    let long = format!("{}-{}", LONG[0], LONG[1]);
    vec![
        row("every pair found", &["pau-aa", "aa-k", "k-pau"], FOUR),
        row("found in the sorted first entry", &["pau-aa", "z"], AA),
        row("cluster found by its plain name", &["k-w", "w-aa"], CLUSTER),
        row("cluster found by its own name", &["k_-_w", "w-aa"], CLUSTER),
        row(
            "cluster by a far follower",
            &["k_-_aa", "aa-w"],
            FAR_FOLLOWER,
        ),
        row(
            "cluster of an unknown phone",
            &["xx_-_k", "z"],
            AFTER_UNKNOWN,
        ),
        folded(row("found with fold", &["pau-aa"], AH)),
        row("found without fold", &["pau-ah"], AH),
        row("names of 32 bytes found", &[&long], THIRTY_TWO),
        row("empty phones found", &["-"], EMPTY),
        row("no segment", &["z"], &[]),
        row("one segment", &["z"], &[("pau", 0)]),
    ]
}

fn missing() -> Vec<Row> {
    let long = format!("{}-{}", LONG[0], LONG[2]);
    let near = ["pau-a", "pau-ab", "pau-aaa", "pau-aa-", "au-aa", "paa-aa"];
    let near_cluster = ["k__w", "k_-w", "k-_w", "k_-_w_", "w-aa"];
    let rows = vec![
        row("first pair missing", &["aa-k", "k-pau"], FOUR),
        row("middle pair missing", &["pau-aa", "k-pau"], FOUR),
        row("last pair missing", &["pau-aa", "aa-k"], FOUR),
        row("every pair missing", &["z"], FOUR),
        row("names near the missing one", &near, AA),
        row("cluster without either name", &near_cluster, CLUSTER),
        row("no follower, no cluster", &["k_-_w", "w-aa"], ALONE),
        row("a vowel, no cluster", &["aa_-_k"], AFTER_VOWEL),
        row("followed by a vowel, no cluster", &["k_-_aa"], BEFORE_VOWEL),
        row("unknown follower, no cluster", &["k_-_xx"], BEFORE_UNKNOWN),
        row("missing without fold", &["pau-aa"], AH),
        folded(row("missing with fold", &["pau-ah"], AH)),
        row("names of 32 bytes missing", &[&long], THIRTY_TWO),
        row("empty phones missing", &["", "--"], EMPTY),
    ];
    let lacks = |row: Row| Row {
        missing: true,
        ..row
    };
    rows.into_iter().map(lacks).collect()
}

/// Every call: each row in every join, other causes behind a pair, and unfit
/// files.
pub fn all() -> Vec<LabelledCall> {
    let numbered = || (0..).zip(found().into_iter().chain(missing()));
    let mut calls = Vec::new();
    for join in JOINS {
        calls.extend(numbered().map(|(number, row)| row.call(number, join)));
    }
    for join in JOINS {
        calls.extend(behind(join));
    }
    calls.extend(unfit_files());
    calls
}

/// Of each row one call: those that find a name in the joins that speak, the
/// others in all three, in turn. Then the other causes in the join that meets
/// them, and unfit files.
pub fn some() -> Vec<LabelledCall> {
    let speaking = [Join::Simple, Join::Modified];
    let found = (0..).zip(found()).zip(speaking.into_iter().cycle());
    let missing = (0..).zip(missing()).zip(JOINS.into_iter().cycle());
    let mut calls: Vec<LabelledCall> = found
        .chain(missing)
        .map(|((number, row), join)| row.call(number, join))
        .collect();
    calls.extend(behind(Join::Modified));
    calls.extend(unfit_files());
    calls
}

impl Row {
    /// The call of a row by its number, which also says what its filter and its
    /// codec are.
    fn call(&self, number: usize, join: Join) -> LabelledCall {
        let settings = Settings {
            join,
            filter: NAMED[number / 2 % NAMED.len()],
            fold: self.fold,
            strict: true,
        };
        let voice = voice(&self.names, number as u32 % 2);
        LabelledCall {
            voice: file(&voice.sections()),
            sheet: write(&spoken(self.segments)),
            settings,
            label: self.missing.then_some(Refusal::MissingPair),
            reason: format!("strict, {}", self.reason),
        }
    }
}

/// A voice of three periods with these names. Entries near each other differ.
fn voice(names: &[String], codec: u32) -> VoiceSpec {
    let mut voice = plain(3, vec![0, 6, 13, 21]);
    voice.header.codec = codec;
    voice.header.order = 1;
    voice.header.coeff_min = (-1.0f32).to_bits();
    voice.header.coeff_range = 2.0f32.to_bits();
    voice.rows = vec![40_000, 20_001, 31_003];
    voice.residual = (0..21).map(|i| (i * 37 + 3) as u8).collect();
    let one = |(number, name): (usize, &String)| {
        let start = (number % 3) as u16;
        entry(name, start, [1, u8::from(start < 2)])
    };
    voice.entries = names.iter().enumerate().map(one).collect();
    voice
}

/// A sheet of these segments that every join speaks.
fn spoken(segments: &[(&str, usize)]) -> Sheet {
    let end = |i: usize| i as f32 * 0.001;
    let segment = |(i, (name, follower)): (usize, &(&str, usize))| Segment {
        name: name.to_string(),
        end: Value::float(end(i + 1)),
        follower: *follower,
    };
    let target = |(pos, f0)| Target {
        pos: Value::float(pos),
        f0: Value::Whole(f0),
    };
    let targets = [(0.0, 2000), (end(segments.len()), 1500)];
    Sheet {
        segments: segments.iter().enumerate().map(segment).collect(),
        targets: targets.map(target).to_vec(),
    }
}

/// A cause of the modified join, behind a pair that finds its name and behind
/// one that finds none.
fn behind(join: Join) -> Vec<LabelledCall> {
    let many = MAX_MARKS as f32;
    let far = 2.0f32.powi(-24);
    let causes = [
        (sheet(&[0.0, 1.0e9], &[]), Refusal::TooFar, "a target end"),
        (
            sheet(&[0.1, 0.2], &[(0.0, 0.0), (1.0e-3, f32::MAX)]),
            Refusal::Slope,
            "a slope",
        ),
        (
            sheet(&[0.5, 1.5], &[(0.0, many), (1.000_000_1, many)]),
            Refusal::TooManyMarks,
            "too many marks",
        ),
        (
            sheet(&[0.1, 0.2], &[(0.0, far), (1.0, far)]),
            Refusal::TooFar,
            "a mark",
        ),
    ];
    let mut calls = Vec::new();
    for (sheet, cause, what) in causes {
        let found = (join == Join::Modified).then_some(cause);
        for (name, label) in [("pau-aa", found), ("pau-a", Some(Refusal::MissingPair))] {
            let mut voice = two_periods(8000);
            voice.entries[0].name = name.into();
            calls.push(LabelledCall {
                voice: file(&voice.sections()),
                sheet: write(&sheet),
                settings: Settings::new(join).strictly(true),
                label,
                reason: format!("strict, {what} behind {name}"),
            });
        }
    }
    calls
}

/// Unfit voices and sheets, with a pair that finds no name.
fn unfit_files() -> Vec<LabelledCall> {
    let lacking = |names: &[&str]| {
        let names: Vec<String> = names.iter().map(|name| name.to_string()).collect();
        file(&voice(&names, 0).sections())
    };
    let good = spoken(AA);
    let mut not_finite = good.clone();
    not_finite.targets[1].f0 = Value::float(f32::NAN);
    let left_over = [write(&good), vec![0]].concat();
    let cut = lacking(&["z"]);
    let cases = [
        (Vec::new(), write(&good), Refusal::Magic),
        (
            cut[..cut.len() - 1].to_vec(),
            write(&good),
            Refusal::Section,
        ),
        (lacking(&["z", "z"]), write(&good), Refusal::Index),
        (lacking(&[]), write(&good), Refusal::Index),
        (lacking(&["z"]), left_over, Refusal::Sheet),
        (lacking(&["z"]), write(&not_finite), Refusal::NotFinite),
    ];
    let call = |(number, (voice, sheet, label)): (usize, (Vec<u8>, Vec<u8>, Refusal))| {
        let join = JOINS[number % JOINS.len()];
        LabelledCall {
            voice,
            sheet,
            settings: Settings::new(join).strictly(true),
            label: Some(label),
            reason: format!("strict, {label:?} before a missing pair"),
        }
    };
    cases.into_iter().enumerate().map(call).collect()
}
