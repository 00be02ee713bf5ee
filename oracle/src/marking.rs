//! `oracle marks`: reading a sheet, selecting its units and making its pitch
//! marks, beside document 01's reading and the Rust.

use crate::args::Args;
use crate::call::{self, Ending, Join, Settings};
use crate::diphone::access;
use crate::ends;
use crate::gen::voices::{self, Extent};
use crate::gen::{damaged_calls, damaged_sheets, damaged_texts, end_calls, pitch_calls};
use crate::gen::{pitches, sheets, target_ends, typed, typed_calls};
use crate::pitches::{has_empty_box, zeroed};
use crate::probe_call;
use crate::reference::{self, Parsed};
use crate::refusal::{numbered, ByNumber, Refusal, LAST};
use crate::report::Report;
use crate::rng::Rng;
use crate::sheet::{self, Sheet, Value};
use crate::voicefile;

/// Voices, each with some sheets, in a run that is not told otherwise.
const CASES: u64 = 2_000;
const SHEETS_PER_VOICE: usize = 3;
const DAMAGED_SHEETS: u64 = 40;
const DAMAGED_TEXTS: u64 = 6;

/// Sheets with target ends of each manner in turn.
const ENDS: u64 = 600;

/// Sheets with targets without a pitch, in each manner in turn.
const PITCHES: u64 = 600;

/// Sheets with texts, in each manner in turn.
const TYPED: u64 = 640;

/// A buffer for all marks that a call may have.
const ROOM: usize = 4 * call::MAX_MARKS + 8;
const SHORT_BUFFER: u32 = 13;

#[derive(Default)]
struct Counts {
    sheets: u64,
    marks: u64,
    /// By the number answered; 0 counts the sheets whose marks were made.
    answers: ByNumber,
    beside_rust: u64,
    not_asked: u64,
    units: u64,
    natural: u64,
    /// Lists of units that are the Rust's own: those with whole products, and the
    /// others. Then those with ends that are not its own, and these ends.
    own: [u64; 2],
    rounded: [u64; 2],
    /// Sheets with an empty pitch box whose marks were compared with the Rust's:
    /// those with other marks than its own on the sheet as it stands, and with
    /// the same.
    boxes: [u64; 2],
    /// Those with texts so compared, and their texts.
    typed: [u64; 2],
}

pub fn run(args: &Args) -> bool {
    let mut report = Report::default();
    let mut counts = Counts::default();
    let cases = args.count.unwrap_or(CASES);
    for case in args.from..args.from + cases {
        let rng = &mut Rng::for_case(args.seed, 7_000_000 + case);
        let words = voices::vocabulary(rng);
        let spec = voices::voice(rng, &words, Extent::Small, true);
        let file = voices::file(&spec.sections());
        for _ in 0..SHEETS_PER_VOICE {
            let sheet = sheets::sheet(rng, &words, spec.header.rate);
            check(&file, &sheet::write(&sheet), &mut report, &mut counts);
        }
    }
    check_manners(args.seed, &mut report, &mut counts);
    let calls = [
        damaged_calls::all(),
        end_calls::all(),
        pitch_calls::all(),
        typed_calls::all(),
    ];
    for call in calls.concat() {
        check(&call.voice, &call.sheet, &mut report, &mut counts);
    }
    check_damaged(args.seed, &mut report, &mut counts);
    check_reached(&mut report, &counts);
    print(args.seed, cases, &report, &counts);
    report.failures == 0
}

/// Target ends, targets without a pitch and texts in each manner in turn, the latter
/// two with longer sheets.
fn check_manners(seed: u64, report: &mut Report, counts: &mut Counts) {
    for case in 0..ENDS {
        let rng = &mut Rng::for_case(seed, 7_500_000 + case);
        let (_, spec, sheet) = target_ends::numbered(rng, case);
        let file = voices::file(&spec.sections());
        check(&file, &sheet::write(&sheet), report, counts);
    }
    for case in 0..PITCHES {
        let rng = &mut Rng::for_case(seed, 7_600_000 + case);
        let (_, spec, sheet) = pitches::numbered(rng, case);
        let file = voices::file(&spec.sections());
        let longer = pitches::longer(rng, &sheet, &spec);
        for sheet in [sheet, longer] {
            check(&file, &sheet::write(&sheet), report, counts);
        }
    }
    for case in 0..TYPED {
        let rng = &mut Rng::for_case(seed, 7_700_000 + case);
        let (_, spec, sheet) = typed::numbered(rng, case);
        let file = voices::file(&spec.sections());
        let longer = typed::longer(rng, &sheet, &spec);
        for sheet in [sheet, longer] {
            check(&file, &sheet::write(&sheet), report, counts);
        }
    }
}

/// Damaged sheets, and sheets at a limit.
fn check_damaged(seed: u64, report: &mut Report, counts: &mut Counts) {
    let mut damaged = Vec::new();
    for case in 0..DAMAGED_SHEETS {
        let rng = &mut Rng::for_case(seed, 2_000_000 + case);
        let words = voices::vocabulary(rng);
        let small = damaged_sheets::small(rng, &words.phones);
        damaged.extend(damaged_sheets::of_sheet(&small));
    }
    for case in 0..DAMAGED_TEXTS {
        let rng = &mut Rng::for_case(seed, 2_100_000 + case);
        damaged.extend(damaged_texts::of_random_sheet(rng));
    }
    damaged.extend(damaged_sheets::limits());
    damaged.extend(damaged_texts::limits());
    for damaged in damaged {
        check_read(&damaged.bytes, damaged.label, report, counts);
    }
}

fn check_reached(report: &mut Report, counts: &Counts) {
    let met = [counts.own, counts.rounded, counts.boxes, counts.typed].concat();
    report.check(!met.contains(&0), || {
        format!("units by their ends, sheets with empty boxes, with texts: {met:?}")
    });
    let long = counts.answers[Refusal::LongText.number()];
    report.check(long > 0, || "17 was not answered".to_string());
}

/// A sheet that is refused with 8, 9 or 17, or read.
fn check_read(bytes: &[u8], label: Option<Refusal>, report: &mut Report, counts: &mut Counts) {
    match (label, sheet::read(bytes)) {
        (Some(refusal), _) => answered(bytes, 8000, Err(refusal), report, counts),
        (None, Ok(sheet)) => {
            let expected = marks(&sheet, 8000);
            answered(bytes, 8000, expected, report, counts);
        }
        (None, Err(_)) => report.check(false, || "a good sheet is refused".to_string()),
    }
}

/// A sheet at the rate of a voice.
fn check(file: &[u8], bytes: &[u8], report: &mut Report, counts: &mut Counts) {
    let Ok(voice) = voicefile::open(file) else {
        return;
    };
    let rate = voice.header.rate;
    match sheet::read(bytes) {
        Err(refusal) => answered(bytes, rate, Err(refusal), report, counts),
        Ok(sheet) => {
            let expected = marks(&sheet, rate);
            answered(bytes, rate, expected, report, counts);
            beside_rust(file, &sheet, bytes, rate, report, counts);
            check_units(file, &sheet, bytes, report, counts);
            check_natural(file, &sheet, bytes, report, counts);
        }
    }
}

fn marks(sheet: &Sheet, rate: u32) -> Result<Vec<usize>, Refusal> {
    let mut marks = Vec::new();
    call::modified_marks(rate, &sheet.contour(), &mut marks)?;
    Ok(marks)
}

/// The answer here, with enough room, with just enough and with one too few.
fn answered(
    bytes: &[u8],
    rate: u32,
    expected: Result<Vec<usize>, Refusal>,
    report: &mut Report,
    counts: &mut Counts,
) {
    counts.sheets += 1;
    let expected = expected.map_err(|refusal| refusal.number() as u32);
    let made = expected.as_ref().map_or(0, Vec::len);
    counts.marks += made as u64;
    let mut rooms = vec![(ROOM, expected.clone()), (4 * made, expected.clone())];
    if made > 0 {
        rooms.push((4 * made - 1, Err(SHORT_BUFFER)));
    }
    for (room, expected) in rooms {
        let (found, kept) = probe_call::pitch_marks(bytes, rate, room);
        let number = found.as_ref().err().copied().unwrap_or(0) as usize;
        counts.answers[number.min(LAST)] += 1;
        report.equal(&expected, &found, || format!("marks in {room} bytes"));
        report.check(kept, || format!("bytes past the marks in {room} bytes"));
    }
}

/// The Rust's marks, where its walk ends.
fn beside_rust(
    file: &[u8],
    sheet: &Sheet,
    bytes: &[u8],
    rate: u32,
    report: &mut Report,
    counts: &mut Counts,
) {
    let (Ok(found), _) = probe_call::pitch_marks(bytes, rate, ROOM) else {
        return;
    };
    if call::ending(&sheet.contour()) != Ending::Ends {
        counts.not_asked += 1;
        return;
    }
    let Parsed::Voice(rust) = reference::parse(file) else {
        return;
    };
    counts.beside_rust += 1;
    let utt = reference::prepared(sheet, Settings::new(Join::Modified));
    let theirs = access::pitch_marks(&rust, &utt);
    report.equal(&theirs, &found, || "the Rust's marks".to_string());
    if has_empty_box(sheet) {
        let ends = call::ending(&zeroed(sheet).contour()) == Ending::Ends;
        let own = ends.then(|| access::pitch_marks(&rust, &reference::as_it_stands(sheet)));
        counts.boxes[usize::from(own == Some(theirs))] += 1;
    }
    let is_text = |value: &&Value| matches!(value, Value::Text(_));
    let texts = sheet.values().iter().filter(is_text).count();
    counts.typed[0] += u64::from(texts > 0);
    counts.typed[1] += texts as u64;
}

/// The units, folded and not, are the Rust's, where an end moves with rounded
/// ends; one unit more than there is room for is 13.
fn check_units(
    file: &[u8],
    sheet: &Sheet,
    bytes: &[u8],
    report: &mut Report,
    counts: &mut Counts,
) {
    let Parsed::Voice(rust) = reference::parse(file) else {
        return;
    };
    for fold in [false, true] {
        let mut settings = Settings::new(Join::Modified);
        settings.fold = fold;
        let utt = reference::prepared(sheet, settings);
        let departs = reference::departs(sheet, rust.sample_rate(), settings);
        let theirs = match departs {
            true => reference::units(&rust, sheet, &utt),
            false => access::select_units(&rust, &utt),
        };
        let theirs: Vec<[usize; 3]> = theirs
            .iter()
            .map(|unit| [unit.first_period, unit.last_period, unit.target_end])
            .collect();
        let room = theirs.len();
        counts.units += room as u64;
        count_ends(&ends::products(sheet, rust.sample_rate()), counts);
        let ours = probe_call::units(file, bytes, fold, room);
        report.equal(&Ok(theirs), &ours, || "units".to_string());
        if room > 0 {
            let short = probe_call::units(file, bytes, fold, room - 1);
            report.equal(&Err(SHORT_BUFFER as usize), &short, || "units, one short".to_string());
        }
    }
}

/// Counts a list of units by the products of their ends.
fn count_ends(products: &[f32], counts: &mut Counts) {
    let is_whole = products.iter().all(|product| ends::is_whole(*product));
    let moved = products.iter().filter(|product| ends::is_moved(**product));
    match moved.count() {
        _ if products.is_empty() => {}
        0 => counts.own[usize::from(!is_whole)] += 1,
        moved => {
            counts.rounded[0] += 1;
            counts.rounded[1] += moved as u64;
        }
    }
}

/// The simple join's marks: those of document 01, and where they are not
/// refused the Rust's.
fn check_natural(
    file: &[u8],
    sheet: &Sheet,
    bytes: &[u8],
    report: &mut Report,
    counts: &mut Counts,
) {
    let Ok(voice) = voicefile::open(file) else {
        return;
    };
    let settings = Settings::new(Join::Simple);
    let expected = call::marks(&voice, sheet, settings);
    let number = expected.clone().map_err(|refusal| refusal.number() as u32);
    let found = probe_call::natural_marks(file, bytes, false, ROOM);
    report.equal(&number, &found, || "the simple join's marks".to_string());
    let (Ok(marks), Parsed::Voice(rust)) = (expected, reference::parse(file)) else {
        return;
    };
    counts.natural += marks.len() as u64;
    let theirs = reference::fill(&rust, sheet, settings).marks;
    report.equal(&theirs, &marks, || "the Rust's marks, simple join".to_string());
    if !marks.is_empty() {
        let short = probe_call::natural_marks(file, bytes, false, 4 * marks.len() - 1);
        report.equal(&Err(SHORT_BUFFER), &short, || "simple join, one short".to_string());
    }
}

fn print(seed: u64, cases: u64, report: &Report, counts: &Counts) {
    println!("oracle marks: seed {seed}, {cases} voices");
    println!(
        "  sheets: {}, marks: {}, units: {}, marks of the simple join: {}",
        counts.sheets, counts.marks, counts.units, counts.natural
    );
    let ([whole, other], [rounded, ends]) = (counts.own, counts.rounded);
    println!(
        "  lists of units: {whole} the Rust's own with whole products, {other} its own with \
         others, {rounded} with rounded ends, {ends} of them not its own"
    );
    let [other, same] = counts.boxes;
    println!(
        "  sheets with targets without a pitch: {other} with other marks than the Rust's own, \
         {same} with the same"
    );
    let [sheets, texts] = counts.typed;
    println!("  sheets with texts: {sheets}, {texts} texts");
    println!("  answers by number: {}", numbered(&counts.answers));
    println!(
        "  compared with the Rust: {} sheets; not asked, as it would not end soon: {}",
        counts.beside_rust, counts.not_asked
    );
    println!(
        "oracle marks: {} checks, {} mismatches",
        report.checks, report.failures
    );
}
