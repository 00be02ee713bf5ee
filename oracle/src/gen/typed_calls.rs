//! Calls with texts: what each text stands for, and the answer that each call must
//! get.

use super::damaged_calls::LabelledCall;
use super::end_calls::{numbered_settings, voice};
use super::shaped::without_names;
use super::typed::telling;
use super::voices::file;
use crate::call::{Join, JOINS};
use crate::refusal::Refusal;
use crate::sheet::{group, value, Value};

/// A value as it is written, and what it stands for if it is a text.
#[derive(Clone)]
struct Written {
    bytes: Vec<u8>,
    stands_for: Option<f32>,
}

pub struct Row {
    pub reason: &'static str,
    rate: u32,
    /// The ends of the segments pau and aa.
    ends: [Written; 2],
    /// pos and f0 of each.
    targets: Vec<[Written; 2]>,
    label: Option<Refusal>,
    voice: Voice,
    is_strict: bool,
    /// How many bytes at the end of the sheet are missing.
    cut: usize,
}

#[derive(Clone, Copy, PartialEq, Eq)]
enum Voice {
    Good,
    /// No pair finds a name.
    Nameless,
    Unfit,
}

fn t(text: impl AsRef<[u8]>, stands_for: f32) -> Written {
    Written {
        bytes: value(Value::text(text.as_ref())),
        stands_for: Some(stands_for),
    }
}

fn x(float: f32) -> Written {
    written(Value::float(float))
}

fn written(other: Value) -> Written {
    raw(&value(other))
}

fn raw(bytes: &[u8]) -> Written {
    Written {
        bytes: bytes.to_vec(),
        stands_for: None,
    }
}

fn absent() -> Written {
    written(Value::Absent)
}

/// A text of so many bytes, more than there may be.
fn long(length: u8) -> Written {
    let digits = b"100.0000000000".iter().cycle();
    let digits = digits.take(length.into()).copied();
    raw(&[3, length].into_iter().chain(digits).collect::<Vec<u8>>())
}

/// At 1000: target ends 30 and 60.
fn row(reason: &'static str, targets: &[[Written; 2]]) -> Row {
    with_ends(reason, [x(0.03), x(0.09)], targets)
}

fn with_ends(reason: &'static str, ends: [Written; 2], targets: &[[Written; 2]]) -> Row {
    Row {
        reason,
        rate: 1000,
        ends,
        targets: targets.to_vec(),
        label: None,
        voice: Voice::Good,
        is_strict: false,
        cut: 0,
    }
}

/// 100 Hz up to 0.08.
fn hundred() -> [[Written; 2]; 2] {
    [[x(0.0), x(100.0)], [x(0.08), x(100.0)]]
}

/// Two ends; at 100 with 20 Hz, so that marks are at 5, 10 and so on.
fn slow(reason: &'static str, ends: [Written; 2]) -> Row {
    Row {
        rate: 100,
        ..with_ends(reason, ends, &[[x(0.0), x(20.0)], [x(0.35), x(20.0)]])
    }
}

/// A pitch up to a pos that tells what it stands for, then 100 Hz.
fn high(reason: &'static str, f0: Written, pos: f32) -> Row {
    let targets = [
        [x(0.0), f0.clone()],
        [x(pos), f0],
        [x(pos), x(100.0)],
        [x(0.06), x(100.0)],
    ];
    row(reason, &targets)
}

/// A pitch at a tie, for about four periods.
fn tie(reason: &'static str, text: &str, stands_for: f32) -> Row {
    let pos = (4..99).find_map(|periods| telling(text.as_bytes(), periods));
    let pos = pos.unwrap_or_else(|| panic!("no pos tells what {text} stands for"));
    high(reason, t(text, stands_for), pos)
}

/// 100 Hz, then a text for the pitch at 0.03, then 150 Hz.
fn between(reason: &'static str, text: impl AsRef<[u8]>, stands_for: f32) -> Row {
    let targets = [
        [x(0.0), x(100.0)],
        [x(0.03), t(text, stands_for)],
        [x(0.06), x(150.0)],
        [x(0.08), x(150.0)],
    ];
    row(reason, &targets)
}

fn ties() -> Vec<Row> {
    let four = 4.0 / 16_777_216.0;
    let above_64 = 64.0f32.next_up();
    vec![
        tie("f0 4194304.25, a tie", "4194304.25", 4_194_304.0),
        tie("f0 4194304.75, a tie", "4194304.75", 4_194_305.0),
        high("f0 16777217, a tie", t("16777217", 16_777_216.0), four),
        high(
            "f0 16777217.001, beside a tie",
            t("16777217.001", 16_777_218.0),
            four,
        ),
        high(
            "f0 64.000003814, below a middle",
            t("64.000003814", 64.0),
            0.0625,
        ),
        high(
            "f0 64.000003815, above a middle",
            t("64.000003815", above_64),
            0.0625,
        ),
        tie("f0 16777219, a tie", "16777219", 16_777_220.0),
        tie("f0 524288.09375, a tie", "524288.09375", 524_288.125),
        slow(
            "ends at ties",
            [
                t("-2097152.125", -2_097_152.0),
                t("2097152.375", 2_097_152.5),
            ],
        ),
        slow(
            "an end at a tie below zero",
            [t("-2097152.125", -2_097_152.0), x(2_097_152.25)],
        ),
        slow(
            "ends beside ties",
            [
                t("-2097152.126", -2_097_152.25),
                t("2097152.374", 2_097_152.25),
            ],
        ),
        slow(
            "ends beside ties on the other side",
            [
                t("-2097152.124", -2_097_152.0),
                t("2097152.376", 2_097_152.5),
            ],
        ),
    ]
}

fn zeros() -> Vec<Row> {
    vec![
        with_ends(
            "minus zero in every place",
            [t("-0", -0.0), t("0.18", 0.18)],
            &[
                [t("-.0", -0.0), t("100", 100.0)],
                [t("0.06", 0.06), t("120", 120.0)],
                [t("0.08", 0.08), t("-0.0", -0.0)],
            ],
        ),
        between("no digit as an f0", "-", 0.0),
        with_ends("no digit as an end", [t("", 0.0), x(0.09)], &hundred()),
        row(
            "no digit as an f0 that goes on",
            &[
                [x(0.0), x(100.0)],
                [x(0.03), t("none", 0.0)],
                [x(0.05), absent()],
                [x(0.08), x(150.0)],
            ],
        ),
        between("a blank before an f0", " 100", 0.0),
        between("no byte as an f0", "", 0.0),
        row(
            "no digit as a pos",
            &[
                [t("now", 0.0), t("150", 150.0)],
                [t("+-3", 0.0), t("100", 100.0)],
                [x(0.08), x(100.0)],
            ],
        ),
        between("minus and a point as an f0", "-.", 0.0),
        between("minus zero as an f0", "-0", -0.0),
        with_ends(
            "no digit as the last end",
            [x(0.03), t("-", 0.0)],
            &hundred(),
        ),
        between("a point alone as an f0", ".", 0.0),
        between("nan as an f0", "nan", 0.0),
        between("inf as an f0", "inf", 0.0),
        between(
            "digits that are not ASCII as an f0",
            "\u{661}\u{660}\u{660}",
            0.0,
        ),
        between("a byte above 127 before an f0", b"\x80100", 0.0),
    ]
}

fn forms() -> Vec<Row> {
    vec![
        high("a second point", t("64.0.5", 64.0), 0.0625),
        with_ends(
            "every value a text",
            [t("0.03", 0.03), t("0.09", 0.09)],
            &[
                [t("0", 0.0), t("100", 100.0)],
                [t("0.04", 0.04), t("150", 150.0)],
                [t("0.08", 0.08), t("90.5", 90.5)],
            ],
        ),
        with_ends(
            "beside every other kind",
            [t("0.03", 0.03), x(0.09)],
            &[
                [absent(), written(Value::Whole(100))],
                [t("0.02", 0.02), x(130.0)],
                [x(0.05), t("110.25", 110.25)],
                [t("0.08", 0.08), absent()],
            ],
        ),
        between("a sign that is not in front", "150-60", 150.0),
        between("bytes behind that are not UTF-8", b"150\xFF0", 150.0),
        with_ends(
            "twelve bytes of digits",
            [t(".02999999932", 0.03), t("0.0901234567", 0.090_123_456_7)],
            &[
                [
                    t("0.0000123456", 0.000_012_345_6),
                    t("123.45678901", 123.456_79),
                ],
                [
                    t("0.0712345678", 0.071_234_567_8),
                    t("98.765432109", 98.765_434),
                ],
            ],
        ),
        high("f0 999999999999", t("999999999999", 1.0e12), 4.0e-12),
        with_ends(
            "zeros in front and behind",
            [t("000000000.03", 0.03), t("0.0900000000", 0.09)],
            &[
                [t("000000000000", 0.0), t("000000000100", 100.0)],
                [t("0.0800000000", 0.08), t("+000100.0000", 100.0)],
            ],
        ),
        high("two points", t("64..5", 64.0), 0.0625),
        between("a letter e", "150e1", 150.0),
        between("letters behind", "150Hz", 150.0),
        between("a blank behind", "150 0", 150.0),
        between("a byte 0 behind", "150\x000", 150.0),
        between("a letter behind that is not ASCII", "150\u{e9}0", 150.0),
        between("a plus in front", "+150", 150.0),
        between("below 0", "-150.5", -150.5),
        between("no digit behind the point", "150.", 150.0),
        with_ends(
            "no digit before the point",
            [t(".03", 0.03), t("+.09", 0.09)],
            &hundred(),
        ),
        row(
            "an f0 that goes on twice",
            &[
                [x(0.0), t("150.25", 150.25)],
                [x(0.03), absent()],
                [x(0.08), absent()],
            ],
        ),
        with_ends(
            "tiny ones",
            [t(".00000000001", 1.0e-11), x(0.18)],
            &[
                [t("0.0000000001", 1.0e-10), x(100.0)],
                [x(0.08), t(".00000000001", 1.0e-11)],
            ],
        ),
        with_ends(
            "huge ends",
            [t("-99999999999", -1.0e11), t("99999999999", 1.0e11)],
            &hundred(),
        ),
    ]
}

/// Refused for a text, or with one before the cause.
fn refused() -> Vec<Row> {
    let labelled = |label, row: Row| Row {
        label: Some(label),
        ..row
    };
    let too_long = |row| labelled(Refusal::LongText, row);
    let row =
        |reason, targets: &[[Written; 2]]| with_ends(reason, [t("0.03", 0.03), x(0.09)], targets);
    let nan = || x(f32::NAN);
    let unknown = |kind: u8| raw(&[kind, 1, b'1']);
    vec![
        too_long(row("13 bytes", &[[x(0.0), long(13)], [x(0.08), x(100.0)]])),
        too_long(Row {
            cut: 13,
            ..row(
                "13 bytes said, none there",
                &[[x(0.0), t("100", 100.0)], [x(0.08), long(13)]],
            )
        }),
        labelled(
            Refusal::NotFinite,
            row(
                "13 bytes behind a NaN",
                &[[nan(), long(13)], [x(0.08), x(100.0)]],
            ),
        ),
        labelled(
            Refusal::Sheet,
            row(
                "13 bytes behind kind 255",
                &[[unknown(255), long(13)], [x(0.08), x(100.0)]],
            ),
        ),
        too_long(Row {
            voice: Voice::Nameless,
            is_strict: true,
            ..row("13 bytes and a pair without a name", &[[x(0.0), long(13)]])
        }),
        too_long(row(
            "13 bytes before a NaN",
            &[[x(0.0), long(13)], [x(0.08), nan()]],
        )),
        labelled(
            Refusal::Sheet,
            Row {
                cut: 1,
                ..row(
                    "a text a byte short",
                    &[[x(0.0), x(100.0)], [x(0.08), t("100", 100.0)]],
                )
            },
        ),
        labelled(
            Refusal::Section,
            Row {
                voice: Voice::Unfit,
                ..row("13 bytes and an unfit voice", &[[x(0.0), long(13)]])
            },
        ),
        too_long(with_ends(
            "13 bytes as an end",
            [long(13), x(0.09)],
            &hundred(),
        )),
        too_long(with_ends(
            "13 bytes behind a text",
            [t("0.03", 0.03), long(13)],
            &hundred(),
        )),
        too_long(row(
            "255 bytes as a pos",
            &[[x(0.0), x(100.0)], [long(255), x(100.0)]],
        )),
        too_long(row(
            "13 bytes before kind 4",
            &[[x(0.0), long(13)], [unknown(4), x(1.0)]],
        )),
        labelled(
            Refusal::Sheet,
            Row {
                cut: 1,
                ..row(
                    "no length",
                    &[[x(0.0), t("100", 100.0)], [x(0.08), raw(&[3, 0])]],
                )
            },
        ),
        labelled(
            Refusal::NotFinite,
            row(
                "a text before a NaN",
                &[[t("0", 0.0), nan()], [x(0.08), x(100.0)]],
            ),
        ),
        labelled(
            Refusal::Slope,
            row(
                "a slope of texts",
                &[
                    [x(0.0), t("-1", -1.0)],
                    [x(1.0e-38), t("999999999999", 1.0e12)],
                ],
            ),
        ),
        labelled(
            Refusal::TooFar,
            with_ends(
                "an end too far",
                [t("999999999999", 1.0e12), x(0.09)],
                &hundred(),
            ),
        ),
        labelled(
            Refusal::TooFar,
            row(
                "a mark too far",
                &[
                    [x(0.0), t(".00000000001", 1.0e-11)],
                    [t("1", 1.0), t("1", 1.0)],
                ],
            ),
        ),
        labelled(
            Refusal::TooManyMarks,
            row(
                "time cannot advance",
                &[
                    [x(0.0), t("999999999999", 1.0e12)],
                    [t("1", 1.0), t("999999999999", 1.0e12)],
                ],
            ),
        ),
        labelled(
            Refusal::MissingPair,
            Row {
                voice: Voice::Nameless,
                is_strict: true,
                ..between("a pair without a name", "150", 150.0)
            },
        ),
        too_long(with_ends(
            "13 bytes and an end too far",
            [t("999999999999", 1.0e12), long(13)],
            &hundred(),
        )),
        labelled(
            Refusal::Section,
            Row {
                voice: Voice::Unfit,
                is_strict: true,
                ..between("an unfit voice", "150", 150.0)
            },
        ),
        Row {
            is_strict: true,
            ..between("strict, every pair found", "150", 150.0)
        },
    ]
}

/// One of each list in turn, so that each begins among the first ones.
pub fn rows() -> Vec<Row> {
    let mut lists = [ties(), refused(), zeros(), forms()].map(Vec::into_iter);
    let mut rows = Vec::new();
    loop {
        let next: Vec<Row> = lists.iter_mut().filter_map(Iterator::next).collect();
        if next.is_empty() {
            return rows;
        }
        rows.extend(next);
    }
}

/// All in the modified join.
pub fn some() -> Vec<LabelledCall> {
    calls(Join::Modified)
}

/// Those that are small: the most marks are far fewer than 12 takes.
pub fn small() -> Vec<LabelledCall> {
    let mut calls = some();
    calls.retain(|call| call.label != Some(Refusal::TooManyMarks));
    calls
}

/// All, in every join: the others read no value of a sheet that is read.
pub fn all() -> Vec<LabelledCall> {
    JOINS.map(calls).concat()
}

/// The number of a row says what its filter and its codec are.
fn calls(join: Join) -> Vec<LabelledCall> {
    let rows = rows().into_iter().enumerate();
    rows.map(|(number, row)| row.call(number, join)).collect()
}

impl Row {
    pub fn sheet(&self) -> Vec<u8> {
        let [pau, aa] = &self.ends;
        let mut bytes = vec![2];
        for (name, end) in [("pau", pau), ("aa", aa)] {
            bytes.extend(group(name.len()));
            bytes.extend(name.as_bytes());
            bytes.extend(&end.bytes);
            bytes.extend(group(0));
        }
        bytes.extend(group(self.targets.len()));
        for written in self.targets.concat() {
            bytes.extend(written.bytes);
        }
        bytes.truncate(bytes.len() - self.cut);
        bytes
    }

    /// What each text stands for.
    pub fn stand_for(&self) -> Vec<f32> {
        let values = [&self.ends[..], &self.targets.concat()].concat();
        let stand_for = values.iter().filter_map(|written| written.stands_for);
        stand_for.collect()
    }

    fn call(self, number: usize, join: Join) -> LabelledCall {
        let (settings, codec) = numbered_settings(number, join);
        let mut voice = file(&voice(self.rate, codec).sections());
        match self.voice {
            Voice::Good => {}
            Voice::Nameless => voice = without_names(&voice),
            Voice::Unfit => voice.truncate(voice.len() - 1),
        }
        LabelledCall {
            voice,
            sheet: self.sheet(),
            settings: settings.strictly(self.is_strict),
            label: self.label.filter(|label| is_met(*label, join)),
            reason: self.reason.to_string(),
        }
    }
}

/// Whether a refusal is met in a join.
fn is_met(label: Refusal, join: Join) -> bool {
    use Refusal::{Slope, TooFar, TooManyMarks};
    join == Join::Modified || ![Slope, TooFar, TooManyMarks].contains(&label)
}
