//! Period reports with their lines and rows written out, and wrong ones that
//! must be told apart.

use crate::call::{Join, Settings, NAMED};
use crate::expected::{self, Given, Most, Spoken};
use crate::gen::damaged_calls::{entry, two_periods};
use crate::gen::voices::{file, plain, VoiceSpec};
use crate::lines;
use crate::period_report::{self, Line, LINE_BYTES};
use crate::reference::{self, Parsed};
use crate::report::Report;
use crate::sheet::{write, Segment, Sheet, Target, Value};
use crate::taking::{Taking, Tally};
use crate::voicefile;

pub fn run(report: &mut Report) {
    printed(report);
    empty_heads(report);
    ends(report);
    rounded_ends(report);
    without_lines(report);
    wrong_lines(report);
    falls(report);
}

/// A call with its report.
struct Example {
    voice: VoiceSpec,
    sheet: Sheet,
    join: Join,
}

/// A period written out: its line, its row, and the pair, half and row that the
/// Rust gives it where they are others.
type Period = (Line, u16, Option<(usize, usize, u16)>);

/// The lines and the rows of a call.
type Answer = (Vec<Line>, Vec<u16>);

impl Example {
    /// Whatever the filter is, which plays no part.
    fn spoken(&self) -> [Spoken; NAMED.len()] {
        let voice = file(&self.voice.sections());
        NAMED.map(|filter| {
            let settings = Settings {
                filter,
                ..Settings::new(self.join)
            };
            match expected::given(&voice, &write(&self.sheet), settings, Most::ANY) {
                Some(Given::Spoken(spoken)) => spoken,
                _ => panic!("an example is refused"),
            }
        })
    }

    fn must_show(&self, lines: &[Line], tally: Tally, what: &str, report: &mut Report) {
        for found in self.spoken() {
            let found = (found.lines, found.tally);
            report.equal(&(lines.to_vec(), tally), &found, || what.to_string());
        }
    }

    /// The call gives these periods, and the Rust what stands beside them.
    fn must_give(&self, periods: &[Period], tally: Tally, what: &str, report: &mut Report) {
        let answer: Answer = periods.iter().map(|(line, row, _)| (*line, *row)).unzip();
        self.must_show(&answer.0, tally, what, report);
        for found in self.spoken() {
            let rows: Vec<usize> = answer.1.iter().map(|row| usize::from(*row)).collect();
            let rows = expected::packed(&rows, 2);
            report.equal(&rows, &found.filled[3], || format!("{what}: rows"));
        }
        let mut theirs = answer.clone();
        for (i, (_, _, other)) in periods.iter().enumerate() {
            if let Some(other) = other {
                replace(&mut theirs, i, *other);
            }
        }
        report.equal(&theirs, &self.by_rust(), || format!("{what}: the Rust"));
    }

    /// What the Rust gives.
    fn by_rust(&self) -> Answer {
        let file = file(&self.voice.sections());
        let (Ok(voice), Parsed::Voice(rust)) = (voicefile::open(&file), reference::parse(&file))
        else {
            panic!("an example voice is refused");
        };
        let filled = reference::fill(&rust, &self.sheet, Settings::new(self.join));
        let taken = Taking::new(&voice, &rust, &filled, self.join).by_rust;
        let lines = period_report::lines(&taken.takers, &taken.sizes);
        (lines, taken.rows)
    }
}

/// Document 01's example, as the marking program prints it.
fn printed(report: &mut Report) {
    let [found, ..] = example().spoken();
    let printed = lines::reported(&found.lines);
    let expected = "1 1 1 0 2\n2 1 2 2 3\n".to_string();
    report.equal(&expected, &printed, || "printed report".into());
}

fn example() -> Example {
    Example {
        voice: two_periods(8000),
        sheet: named(&["pau", "aa"], &[]),
        join: Join::Simple,
    }
}

/// Periods of no samples at the heads of units, simple join.
fn empty_heads(report: &mut Report) {
    second_half(report);
    second_pair(report);
    without_periods(report);
    first_empty(report);
    whole_units(report);
}

fn second_half(report: &mut Report) {
    let periods = [
        ([1, 1, 0, 2], 10, None),
        ([1, 2, 2, 0], 30, Some((1, 1, 10))),
        ([1, 2, 2, 3], 30, None),
    ];
    let tally = Tally {
        listed: 1,
        lines: 1,
        rows: 1,
        ..Tally::default()
    };
    let call = simple(&[2, 0, 3], &[("pau-aa", 0, [1, 2])], &["pau", "aa"]);
    call.must_give(&periods, tally, "head of a second half", report);
}

/// The empty period at the end of the first half is not on the list.
fn second_pair(report: &mut Report) {
    let periods = [
        ([1, 1, 0, 2], 10, None),
        ([1, 1, 2, 0], 20, None),
        ([1, 2, 2, 0], 40, Some((1, 1, 20))),
        ([1, 2, 2, 3], 40, None),
        ([2, 1, 5, 0], 60, Some((1, 2, 40))),
        ([2, 1, 5, 4], 60, None),
    ];
    let tally = Tally {
        listed: 2,
        lines: 2,
        pairs: 1,
        rows: 2,
        idle: 1,
        ..Tally::default()
    };
    let entries = [("a-b", 0, [2, 2]), ("b-c", 4, [2, 0])];
    let call = simple(&[2, 0, 0, 3, 0, 4], &entries, &["a", "b", "c"]);
    call.must_give(&periods, tally, "head of a second pair", report);
}

/// The first unit has no periods: in the Rust it takes two, with the row before
/// its place.
fn without_periods(report: &mut Report) {
    let periods = [
        ([1, 2, 0, 0], 50, Some((1, 1, 40))),
        ([2, 1, 0, 0], 60, Some((1, 1, 40))),
        ([2, 1, 0, 4], 60, None),
    ];
    let tally = Tally {
        listed: 2,
        whole: 1,
        lines: 2,
        pairs: 1,
        far: 1,
        rows: 2,
        idle: 2,
        ..Tally::default()
    };
    let entries = [("b-c", 4, [2, 0]), ("x-b", 4, [0, 1])];
    let call = simple(&[2, 0, 0, 3, 0, 4], &entries, &["x", "b", "c"]);
    call.must_give(&periods, tally, "a unit without periods", report);
}

/// The head of the first unit is not on the list.
fn first_empty(report: &mut Report) {
    let periods = [
        ([1, 1, 0, 0], 10, None),
        ([1, 2, 0, 0], 30, Some((1, 1, 10))),
        ([1, 2, 0, 2], 30, None),
    ];
    let tally = Tally {
        listed: 1,
        lines: 1,
        rows: 1,
        ..Tally::default()
    };
    let call = simple(&[0, 0, 2], &[("a-b", 0, [1, 2])], &["a", "b"]);
    call.must_give(&periods, tally, "a first unit that is empty", report);
}

/// A run at a head, a unit that is all empty, one without periods, another that
/// is all empty, and a head with an empty period at the unit's end.
fn whole_units(report: &mut Report) {
    let periods = [
        ([1, 1, 0, 3], 10, None),
        ([1, 1, 3, 0], 20, None),
        ([1, 2, 3, 0], 50, Some((1, 1, 20))),
        ([1, 2, 3, 0], 50, Some((1, 1, 20))),
        ([1, 2, 3, 2], 50, None),
        ([2, 1, 5, 0], 70, Some((1, 2, 50))),
        ([2, 1, 5, 0], 70, Some((1, 2, 50))),
        ([3, 1, 5, 0], 80, Some((1, 2, 50))),
        ([3, 2, 5, 0], 100, Some((1, 2, 50))),
        ([3, 2, 5, 1], 100, None),
        ([3, 2, 6, 0], 110, None),
    ];
    let tally = Tally {
        listed: 6,
        in_runs: 2,
        whole: 2,
        lines: 6,
        pairs: 4,
        far: 2,
        rows: 6,
        idle: 1,
        ..Tally::default()
    };
    let sizes = [3, 0, 0, 0, 2, 0, 0, 0, 0, 1, 0];
    let entries = [("a-b", 0, [2, 3]), ("b-c", 5, [2, 0]), ("c-d", 7, [1, 3])];
    let call = simple(&sizes, &entries, &["a", "b", "c", "d"]);
    call.must_give(&periods, tally, "runs and whole units", report);
}

/// A call of the simple join on a mu-law voice of order 1 with periods of these
/// sizes, whose rows are 10, 20, 30 and so on.
fn simple(sizes: &[u32], entries: &[(&str, u16, [u8; 2])], names: &[&str]) -> Example {
    let count = sizes.len() as u32;
    let end = |i: usize| sizes[..i].iter().sum();
    let mut voice = plain(count, (0..=sizes.len()).map(end).collect());
    voice.header.order = 1;
    voice.rows = (1..=count as u16).map(|number| 10 * number).collect();
    voice.residual = vec![0x9F; end(sizes.len()) as usize];
    let entries = entries.iter();
    voice.entries = entries
        .map(|(name, start, halves)| entry(name, *start, *halves))
        .collect();
    Example {
        voice,
        sheet: named(names, &[]),
        join: Join::Simple,
    }
}

/// Gives a period another pair, half and row.
fn replace(answer: &mut Answer, i: usize, (pair, half, row): (usize, usize, u16)) {
    answer.0[i][0] = pair;
    answer.0[i][1] = half;
    answer.1[i] = row;
}

/// Target ends of the modified join that fall, that lie before the last mark,
/// and that are all 0.
fn ends(report: &mut Report) {
    let call = |ends: &[f32]| Example {
        voice: two_periods(8000),
        sheet: with_marks(named(&["pau", "aa", "pau"][..ends.len()], ends)),
        join: Join::Modified,
    };
    let lines = [
        [1, 1, 0, 125],
        [1, 2, 125, 125],
        [1, 2, 250, 125],
        [2, 1, 375, 125],
    ];
    let tally = |idle, left_over| Tally {
        idle,
        left_over,
        ..Tally::default()
    };
    call(&[0.02, 0.08, 0.0]).must_show(&lines, tally(1, 0), "ends that fall", report);
    call(&[0.02, 0.03]).must_show(&lines[..1], tally(1, 3), "marks left over", report);
    call(&[0.0, 0.0]).must_show(&[], tally(2, 4), "no mark taken", report);
}

/// Marks 128, 256, 384 and 512, and target ends near them: exact halves, one f32
/// below a half, and below zero.
fn rounded_ends(report: &mut Report) {
    let half = 255.5f32;
    let lines = [[1, 1, 0, 128], [1, 1, 128, 128], [1, 2, 256, 128]];
    // The products of left and right end; that of the middle is between them.
    let cases = [
        ([half, 511.5], &lines[..], 0, 1),
        ([half, half], &lines[..2], 1, 2),
        ([half.next_down(); 2], &lines[..1], 1, 3),
        ([half.next_up(); 2], &lines[..2], 1, 2),
        ([-0.5, -0.5], &[], 2, 4),
        ([-0.5, 255.5], &[[1, 2, 0, 128]], 1, 3),
    ];
    for (products, lines, idle, left_over) in cases {
        let call = Example {
            voice: two_periods(8192),
            sheet: with_marks(named(
                &["pau", "aa"],
                &products.map(|product| product / 8192.0),
            )),
            join: Join::Modified,
        };
        let tally = Tally {
            idle,
            left_over,
            ..Tally::default()
        };
        call.must_show(lines, tally, "rounded ends", report);
    }
}

/// Join none, one segment, one mark.
fn without_lines(report: &mut Report) {
    let none = Example {
        join: Join::None,
        ..example()
    };
    let segment = Example {
        sheet: with_marks(named(&["pau"], &[0.05])),
        join: Join::Modified,
        ..example()
    };
    let mut voice = plain(1, vec![0, 3]);
    voice.residual = vec![0x9F; 3];
    let mark = Example { voice, ..example() };
    for (call, what) in [
        (none, "join none"),
        (segment, "one segment"),
        (mark, "one mark"),
    ] {
        call.must_show(&[], Tally::default(), what, report);
    }
}

/// Each number of each line made wrong, and lines that are missing. A wrong
/// first or size also does not add up.
fn wrong_lines(report: &mut Report) {
    let [Spoken { lines, .. }, ..] = example().spoken();
    let samples = 5;
    let seen = |found: &[Line]| {
        let found = period_report::read(&period_report::bytes(found), found.len());
        let difference = period_report::difference(&lines, &found).is_some();
        let sum = period_report::wrong_sum(samples, &found).is_some();
        [difference, sum]
    };
    report.equal(&[false, false], &seen(&lines), || "right lines".into());
    report.equal(&[true, true], &seen(&lines[..1]), || {
        "a line too few".into()
    });
    for number in 0..lines.len() {
        for field in 0..4 {
            for step in [1, 256, 65_536] {
                let mut wrong = lines.clone();
                wrong[number][field] += step;
                let expected = [true, field > 1];
                let what = || format!("line {number}, number {field} wrong by {step}");
                report.equal(&expected, &seen(&wrong), what);
            }
        }
    }
    let length = period_report::bytes(&lines).len();
    report.equal(&(LINE_BYTES * lines.len()), &length, || {
        "bytes of the lines".into()
    });
}

/// Pairs, and halves within a pair, that fall or not.
fn falls(report: &mut Report) {
    let cases: [(&[[usize; 2]], bool); 6] = [
        (&[], false),
        (&[[1, 2]], false),
        (&[[1, 1], [1, 1], [1, 2], [1, 2], [2, 1], [4, 2]], false),
        (&[[1, 2], [2, 1], [2, 2], [3, 1]], false),
        (&[[1, 1], [2, 1], [1, 2]], true),
        (&[[1, 1], [1, 2], [1, 1]], true),
    ];
    for (units, expected) in cases {
        let line = |unit: &[usize; 2]| [unit[0], unit[1], 0, 0];
        let lines: Vec<Line> = units.iter().map(line).collect();
        let found = period_report::fall(&lines).is_some();
        report.equal(&expected, &found, || format!("a fall in {units:?}"));
    }
}

fn named(names: &[&str], ends: &[f32]) -> Sheet {
    let end = |i: usize| ends.get(i).map_or(Value::Absent, |end| Value::float(*end));
    let segment = |(i, name): (usize, &&str)| Segment {
        name: name.to_string(),
        end: end(i),
        follower: 0,
    };
    Sheet {
        segments: names.iter().enumerate().map(segment).collect(),
        targets: Vec::new(),
    }
}

/// The targets of document 01's marks 125, 250, 375 and 500.
fn with_marks(mut sheet: Sheet) -> Sheet {
    let target = |pos| Target {
        pos: Value::float(pos),
        f0: Value::Whole(64),
    };
    sheet.targets = vec![target(0.0), target(0.0625)];
    sheet
}
