//! `oracle self`: the generators and the two readers checked without any
//! archive.

use crate::args::Args;
use crate::call::{self, Settings, JOINS, NAMED};
use crate::empty_boxes::Boxes;
use crate::end_checks;
use crate::examples;
use crate::expected::{self, Given, Most, SHORT_BUFFER};
use crate::gen::damaged_calls::{self, LabelledCall};
use crate::gen::damaged_voices::{self, DamagedVoice, InRust};
use crate::gen::{
    damaged_sheets, damaged_texts, end_calls, pitch_calls, shaped, sheets, strict_calls,
    typed_calls, voices, Labelled,
};
use crate::good;
use crate::pitch_checks;
use crate::reference::{self, Fitness, Parsed};
use crate::refusal::{numbered, shown, ByNumber, Refusal};
use crate::report::Report;
use crate::report_examples;
use crate::rng::Rng;
use crate::sheet;
use crate::text_calls::Typed;
use crate::text_checks;
use crate::voicefile;

/// Good cases (a voice, its extension, sheets and their calls) in a run that
/// is not told otherwise.
const CASES: u64 = 80;

/// Voices with periods without samples at the heads of units.
const EMPTY_HEADS: u64 = 40;

/// Voices shaped to what the pairs of a sheet find.
const SHAPED: u64 = 120;

/// Voices with sheets whose target ends are of each manner in turn.
const ENDS: u64 = 72;

/// Voices with sheets that have targets without a pitch in each manner in turn.
const PITCHES: u64 = 120;

/// Voices with sheets that have texts in each manner in turn.
const TYPED: u64 = 64;

/// Random voices and sheets that are damaged in every way.
const DAMAGED_VOICES: u64 = 12;
const DAMAGED_SHEETS: u64 = 40;

#[derive(Default)]
struct Counts {
    /// Damages by their number; 0 counts those just inside a limit.
    damages: ByNumber,
    /// Damaged voices that the Rust refuses, by number.
    rust_refuses: ByNumber,
    /// Damaged voices that the Rust opens: the limits that document 01 added.
    rust_opens: ByNumber,
    rust_panics: u64,
    not_called: u64,
    limit_calls: u64,
    limit_calls_spoken: u64,
    /// Strict calls by their number.
    strict: ByNumber,
}

pub fn run(args: &Args) -> bool {
    let mut report = Report::default();
    let mut counts = Counts::default();
    let mut good_counts = good::Counts::default();
    examples::run(&mut report);
    report_examples::run(&mut report);
    end_checks::run(args.seed, &mut report);
    pitch_checks::run(&mut report);
    text_checks::run(args.seed, &mut report);
    for case in 0..args.count.unwrap_or(CASES) {
        good::run(args.seed, case, &mut report, &mut good_counts);
    }
    for case in 0..EMPTY_HEADS {
        good::run_empty_heads(args.seed, case, &mut report, &mut good_counts);
    }
    for case in 0..SHAPED {
        good::run_shaped(args.seed, case, &mut report, &mut good_counts);
    }
    for case in 0..ENDS {
        good::run_ends(args.seed, case, &mut report, &mut good_counts);
    }
    for case in 0..PITCHES {
        good::run_pitches(args.seed, case, &mut report, &mut good_counts);
    }
    for case in 0..TYPED {
        good::run_typed(args.seed, case, &mut report, &mut good_counts);
    }
    check_voices(args.seed, &mut report, &mut counts);
    check_sheets(args.seed, &mut report, &mut counts);
    check_calls(&mut report, &mut counts);
    check_strict(&mut report, &mut counts);
    check_ends(&mut report, &mut counts, &mut good_counts);
    check_pitches(&mut report, &mut counts, &mut good_counts);
    check_typed(&mut report, &mut counts, &mut good_counts);
    check_reached(&mut report, &counts.damages, &good_counts);
    print(args.seed, &report, &counts, &good_counts);
    report.failures == 0
}

fn check_voices(seed: u64, report: &mut Report, counts: &mut Counts) {
    for case in 0..DAMAGED_VOICES {
        let rng = &mut Rng::for_case(seed, 1_000_000 + case);
        for voice in damaged_voices::of_random_voice(rng) {
            check_voice(&voice, report, counts);
        }
    }
    for voice in damaged_voices::large() {
        check_voice(&voice, report, counts);
    }
}

fn check_voice(voice: &DamagedVoice, report: &mut Report, counts: &mut Counts) {
    let found = voicefile::open(&voice.case.bytes).err();
    check_label(&voice.case, found, report, counts);
    if voice.in_rust == InRust::NotCalled {
        counts.not_called += 1;
        return;
    }
    let number = voice.case.label.map_or(0, Refusal::number);
    let reason = &voice.case.reason;
    let large = reference::states_large_count(&voice.case.bytes);
    report.check(!large, || format!("{reason}: the Rust must not be called"));
    let opened = match reference::parse(&voice.case.bytes) {
        Parsed::Voice(_) => true,
        Parsed::Refused => false,
        Parsed::Panicked => {
            counts.rust_panics += 1;
            false
        }
    };
    match opened {
        true => counts.rust_opens[number] += 1,
        false => counts.rust_refuses[number] += 1,
    }
    report.equal(&(voice.in_rust == InRust::Opened), &opened, || {
        format!("{reason}: opened by the Rust")
    });
}

/// The reader gives exactly the label.
fn check_label(case: &Labelled, found: Option<Refusal>, report: &mut Report, counts: &mut Counts) {
    counts.damages[case.label.map_or(0, Refusal::number)] += 1;
    report.check(case.label == found, || {
        let (label, found) = (shown(case.label), shown(found));
        format!("{}: label {label}, read {found}", case.reason)
    });
}

fn check_sheets(seed: u64, report: &mut Report, counts: &mut Counts) {
    let mut cases = damaged_sheets::limits();
    cases.extend(damaged_texts::limits());
    for case in 0..DAMAGED_SHEETS {
        let rng = &mut Rng::for_case(seed, 2_100_000 + case);
        cases.extend(damaged_texts::of_random_sheet(rng));
        let rng = &mut Rng::for_case(seed, 2_000_000 + case);
        let words = voices::vocabulary(rng);
        let small = damaged_sheets::small(rng, &words.phones);
        cases.extend(damaged_sheets::of_sheet(&small));
        let largest = sheets::largest(&words);
        let found = sheet::read(&sheet::write(&largest));
        report.check(found == Ok(largest), || "the largest sheet".into());
    }
    for case in &cases {
        let found = sheet::read(&case.bytes).err();
        check_label(case, found, report, counts);
    }
}

fn check_calls(report: &mut Report, counts: &mut Counts) {
    for case in damaged_calls::all() {
        let found = check_call(&case, report, counts);
        counts.limit_calls += 1;
        if found.is_none() {
            counts.limit_calls_spoken += u64::from(run_accepted(&case, report));
        }
    }
}

/// A call gets its label by document 01.
fn check_call(case: &LabelledCall, report: &mut Report, counts: &mut Counts) -> Option<Refusal> {
    let found = refusal(&case.voice, &case.sheet, case.settings);
    counts.damages[case.label.map_or(0, Refusal::number)] += 1;
    report.check(case.label == found, || {
        let (label, found) = (shown(case.label), shown(found));
        format!("{}: label {label}, found {found}", case.reason)
    });
    found
}

/// Strict calls get their labels by document 01, and with the names that the
/// Rust finds. So do calls at a limit whose voices have no name that is tried.
fn check_strict(report: &mut Report, counts: &mut Counts) {
    let lacking = damaged_calls::all().into_iter().map(without_names);
    for case in strict_calls::all().into_iter().chain(lacking) {
        check_call(&case, report, counts);
        let given = expected::given(&case.voice, &case.sheet, case.settings, Most::ANY);
        let found = match given {
            Some(Given::Refused(refusal)) => Some(refusal),
            _ => None,
        };
        counts.strict[found.map_or(0, Refusal::number)] += 1;
        report.equal(&case.label, &found, || format!("{}: given", case.reason));
    }
}

/// Calls with target ends by their products get their labels; those that are
/// spoken are.
fn check_ends(report: &mut Report, counts: &mut Counts, good: &mut good::Counts) {
    for case in end_calls::all() {
        check_call(&case, report, counts);
        match expected::given(&case.voice, &case.sheet, case.settings, Most::ANY) {
            Some(Given::Spoken(spoken)) => good.departure.add(&spoken.departure),
            _ => report.check(case.label.is_some(), || format!("{}: given", case.reason)),
        }
    }
}

/// Calls with targets without a pitch get their labels; those that are spoken are.
fn check_pitches(report: &mut Report, counts: &mut Counts, good: &mut good::Counts) {
    for case in pitch_calls::all() {
        let LabelledCall {
            voice,
            sheet,
            settings,
            ..
        } = &case;
        let found = check_call(&case, report, counts);
        let number = found.map_or(0, Refusal::number);
        let boxes = match expected::given(voice, sheet, *settings, Most::ANY) {
            Some(Given::Spoken(spoken)) => spoken.boxes,
            _ => Boxes::refused(voice, sheet, *settings, number),
        };
        report.check(boxes.is_some(), || format!("{}: boxes", case.reason));
        boxes.iter().for_each(|boxes| good.boxes.add(boxes));
    }
}

/// Calls with texts get their labels; those that are spoken are.
fn check_typed(report: &mut Report, counts: &mut Counts, good: &mut good::Counts) {
    for case in typed_calls::all() {
        let LabelledCall {
            voice,
            sheet,
            settings,
            ..
        } = &case;
        let number = check_call(&case, report, counts).map_or(0, Refusal::number);
        let given = expected::given(voice, sheet, *settings, Most::ANY);
        let typed = match given {
            Some(Given::Spoken(spoken)) => spoken.typed.filter(|_| number == 0),
            _ => Typed::refused(sheet, *settings, number).filter(|_| number > 0),
        };
        report.check(typed.is_some(), || format!("{}: texts", case.reason));
        typed.iter().for_each(|typed| good.typed.add(typed));
    }
}

/// The strict call with no name in its voice: refused with 16 if it has a pair
/// and its files are good.
fn without_names(call: LabelledCall) -> LabelledCall {
    let pairs = sheet::read(&call.sheet).is_ok_and(|sheet| sheet.segments.len() > 1);
    let label = match call.label {
        Some(refusal) if refusal <= Refusal::NotFinite => Some(refusal),
        _ => pairs.then_some(Refusal::MissingPair),
    };
    LabelledCall {
        voice: shaped::without_names(&call.voice),
        settings: call.settings.strictly(true),
        label,
        ..call
    }
}

/// The refusal of a whole call, 13 apart: the voice, the sheet, the call.
fn refusal(voice: &[u8], sheet: &[u8], settings: Settings) -> Option<Refusal> {
    let answer = voicefile::open(voice).and_then(|voice| {
        let sheet = sheet::read(sheet)?;
        call::marks(&voice, &sheet, settings)
    });
    answer.err()
}

/// Speaks an accepted call at a limit with the Rust. False if it cannot be.
fn run_accepted(case: &LabelledCall, report: &mut Report) -> bool {
    let (Ok(voice), Ok(sheet)) = (voicefile::open(&case.voice), sheet::read(&case.sheet)) else {
        return false;
    };
    let Ok(marks) = call::marks(&voice, &sheet, case.settings) else {
        return false;
    };
    if reference::fitness(&voice, &sheet, case.settings, &marks) != Fitness::Fit {
        return false;
    }
    let spoken = match reference::parse(&case.voice) {
        Parsed::Voice(rust) => reference::quietly(|| {
            let filled = reference::fill(&rust, &sheet, case.settings);
            reference::speak(&rust, &sheet, case.settings, &filled);
            filled.marks
        }),
        _ => None,
    };
    report.check(spoken == Some(marks), || {
        format!("{}: the Rust panics or makes other marks", case.reason)
    });
    true
}

/// Every number but 13 must have been met, the list, pairs of every sort and
/// strict calls of either.
fn check_reached(report: &mut Report, damages: &ByNumber, good: &good::Counts) {
    for number in expected::answers().filter(|number| *number != SHORT_BUFFER) {
        let met = damages[number] > 0;
        report.check(met, || format!("number {number} was not reached"));
    }
    let met = [&good.listed[..], &good.found, &good.strict, &good.begun].concat();
    report.check(!met.contains(&0), || {
        format!("the list, pairs, strict, sheets that begin others: {met:?}")
    });
    good.departure.check_reached(report);
    good.boxes.check_reached(report);
    good.typed.check_reached(report);
    report.check(!good.alike.contains(&0), || {
        "no text beside its float".into()
    });
}

fn print(seed: u64, report: &Report, counts: &Counts, good: &good::Counts) {
    println!("oracle self: seed {seed}");
    print_good(good);
    print_damages(counts);
    print_calls(good);
    println!(
        "oracle self: {} checks, {} mismatches",
        report.checks, report.failures
    );
}

fn print_good(good: &good::Counts) {
    println!(
        "  good voices: {} ({} G.721, {} with sizes), half of them extensions",
        good.voices, good.g721, good.with_sizes
    );
    println!("  good sheets: {}", good.sheets);
    let [first, second, none] = good.found;
    println!("  pairs: {first} found the first name tried, {second} the second, {none} none");
    let [same, lacking] = good.strict;
    println!("  strict calls: {same} as if not strict, {lacking} refused with 16");
}

fn print_damages(counts: &Counts) {
    println!("  just inside a limit: {}", counts.damages[0]);
    println!("  damages by number: {}", by_number(&counts.damages));
    println!(
        "  damaged voices that the Rust refuses too: {} ({} by a panic)",
        by_number(&counts.rust_refuses),
        counts.rust_panics
    );
    println!(
        "  damaged voices that the Rust opens, limits added by document 01: {}",
        by_number(&counts.rust_opens)
    );
    println!(
        "  damaged voices that the Rust is not given (memory for the stated count): {}",
        counts.not_called
    );
    println!(
        "  calls at a limit: {}, of them {} spoken by the Rust",
        counts.limit_calls, counts.limit_calls_spoken
    );
    println!(
        "  strict calls, 0 not refused: {}",
        numbered(&counts.strict)
    );
}

fn print_calls(good: &good::Counts) {
    for (j, join) in JOINS.iter().enumerate() {
        for (f, named) in NAMED.into_iter().enumerate() {
            let [calls, periods, samples] = good.spoken[j][f];
            let filter = call::filter_name(named);
            println!(
                "  join {join:?}, {filter}: {calls} calls, {periods} periods, \
                 {samples} samples"
            );
        }
    }
    let total = |i: usize| good.spoken.iter().flatten().map(|n| n[i]).sum::<u64>();
    println!("  periods: {}, samples: {}", total(1), total(2));
    println!("  random calls refused: {}", by_number(&good.refused));
    let [still, many, long] = good.guarded;
    println!(
        "  calls not given to the Rust: {still} time cannot advance, {many} too many marks \
         without units, {long} too long"
    );
    println!("  laws on longer sheets and extended voices: {}", good.laws);
    let [none, simple, modified, more, goes_on] = good.begun;
    println!(
        "  marks of a sheet that begins another: join none {none}, simple {simple}, \
         modified {modified}; {more} with more marks behind, {goes_on} of the modified join that \
         go on without a pitch"
    );
    let [calls, marks] = good.told_twice;
    println!("  units that take the marks told unit by unit too: {calls} calls, {marks} marks");
    let [periods, calls, rows] = good.listed;
    println!(
        "  simple join: {periods} periods on the list in {calls} calls, {rows} rows not the Rust's"
    );
    good.departure.print();
    good.boxes.print();
    good.typed.print();
    let [calls, periods] = good.alike;
    println!(
        "  calls with texts spoken by the Rust as with floats: {calls}, with {periods} periods"
    );
}

/// Those that are refused.
fn by_number(counts: &ByNumber) -> String {
    let [_, refused @ ..] = *counts;
    let mut counts = ByNumber::default();
    counts[1..].copy_from_slice(&refused);
    numbered(&counts)
}
