//! Calls with targets without a pitch: the f0 that counts for each target, and
//! the answer that each call must get.

use super::damaged_calls::{sheet, LabelledCall};
use super::end_calls::{numbered_settings, voice};
use super::voices::file;
use super::MAX_MARKS;
use crate::call::{Join, JOINS};
use crate::refusal::Refusal;
use crate::sheet::{write, Sheet, Target, Value};

/// A target, and the f0 that counts for it.
type Counted = (Target, f32);

pub struct Row {
    pub reason: &'static str,
    rate: u32,
    /// The ends of the segments pau and aa.
    ends: [f32; 2],
    targets: Vec<Counted>,
    label: Option<Refusal>,
}

/// At 1000: target ends 30 and 60.
const RATE: u32 = 1000;
const ENDS: [f32; 2] = [0.03, 0.09];

fn row(reason: &'static str, targets: &[Counted]) -> Row {
    Row {
        reason,
        rate: RATE,
        ends: ENDS,
        targets: targets.to_vec(),
        label: None,
    }
}

/// A target with a pitch.
fn at(pos: f32, f0: f32) -> Counted {
    of(Value::float(pos), Value::float(f0), f0)
}

/// One without, and what counts for it.
fn no(pos: f32, counted: f32) -> Counted {
    of(Value::float(pos), Value::Absent, counted)
}

fn of(pos: Value, f0: Value, counted: f32) -> Counted {
    (Target { pos, f0 }, counted)
}

/// Neither pos nor pitch.
fn neither(counted: f32) -> Counted {
    of(Value::Absent, Value::Absent, counted)
}

fn places() -> Vec<Row> {
    let ten: Vec<Counted> = (0..10)
        .map(|i| match i % 3 {
            0 => at(0.006 * i as f32, 100.0 + 10.0 * i as f32),
            _ => no(0.006 * i as f32, 100.0 + 10.0 * (i / 3 * 3) as f32),
        })
        .collect();
    vec![
        row("the first", &[no(0.0, 120.0), at(0.06, 100.0)]),
        row("one target", &[no(0.05, 120.0)]),
        row("one target at 0", &[no(0.0, 120.0)]),
        row(
            "the second of three",
            &[at(0.0, 100.0), no(0.03, 100.0), at(0.06, 150.0)],
        ),
        row("the last", &[at(0.0, 150.0), no(0.06, 150.0)]),
        row(
            "two in a row",
            &[at(0.0, 100.0), no(0.02, 100.0), no(0.06, 100.0)],
        ),
        row(
            "three in a row, then a pitch",
            &[
                at(0.0, 150.0),
                no(0.01, 150.0),
                no(0.02, 150.0),
                no(0.03, 150.0),
                at(0.06, 90.0),
            ],
        ),
        row(
            "every other one",
            &[
                no(0.0, 120.0),
                at(0.02, 160.0),
                no(0.03, 160.0),
                at(0.05, 80.0),
                no(0.07, 80.0),
            ],
        ),
        row("all", &[no(0.0, 120.0), no(0.03, 120.0), no(0.06, 120.0)]),
        row("ten targets", &ten),
        row(
            "behind targets before 0",
            &[at(-1.0, 100.0), no(-0.5, 100.0), no(0.06, 100.0)],
        ),
    ]
}

/// Behind a pitch at 0.015 with marks up to 0.02; then a rise, and what goes on
/// from a pitch that speech has.
fn behind(reason: &'static str, f0: Value, counted: f32) -> Row {
    let written = of(Value::float(0.015), f0, counted);
    row(
        reason,
        &[
            at(0.0, 100.0),
            no(0.015, 100.0),
            written,
            no(0.018, counted),
            at(0.05, 150.0),
            no(0.08, 150.0),
        ],
    )
}

/// Behind a pitch so high that its marks are at sample 0, four for each of two
/// targets; then 100 Hz.
fn behind_high(reason: &'static str, f0: Value, counted: f32) -> Row {
    let step = 4.0 / counted;
    row(
        reason,
        &[
            of(Value::float(0.0), f0, counted),
            no(step, counted),
            no(2.0 * step, counted),
            at(2.0 * step, 100.0),
            no(0.06, 100.0),
        ],
    )
}

fn pitches() -> Vec<Row> {
    let least = f32::from_bits(1);
    let two_to = |power| 2.0f32.powi(power);
    vec![
        behind("behind a whole number 0", Value::Whole(0), 0.0),
        behind("behind a float 0", Value::float(0.0), 0.0),
        behind("behind a float -0", Value::float(-0.0), -0.0),
        behind("behind -100", Value::float(-100.0), -100.0),
        behind("behind a whole number -1", Value::Whole(-1), -1.0),
        behind("behind the least", Value::float(least), least),
        behind("behind a whole number 90", Value::Whole(90), 90.0),
        behind_high("behind 16,777,217", Value::Whole(16_777_217), two_to(24)),
        behind_high("behind 2,147,483,647", Value::Whole(i32::MAX), two_to(31)),
        behind_high(
            "behind 2 to the power of 60",
            Value::float(two_to(60)),
            two_to(60),
        ),
        row(
            "behind 0.001, with a mark at 1,000,020",
            &[
                at(0.0, 100.0),
                no(0.015, 100.0),
                at(0.015, 0.001),
                no(0.03, 0.001),
            ],
        ),
        row(
            "behind a pitch at the same pos",
            &[
                at(0.0, 100.0),
                at(0.02, 100.0),
                at(0.02, 200.0),
                no(0.06, 200.0),
            ],
        ),
        row(
            "behind a pitch at an earlier pos",
            &[
                at(0.0, 100.0),
                at(0.03, 100.0),
                at(0.01, 200.0),
                no(0.06, 200.0),
            ],
        ),
        row(
            "at the same pos and an earlier one",
            &[
                at(0.0, 150.0),
                no(0.02, 150.0),
                no(0.02, 150.0),
                no(0.01, 150.0),
                no(0.06, 150.0),
            ],
        ),
        row(
            "no mark twice",
            &[
                at(0.0, 100.0),
                at(0.02, 100.0),
                at(0.02, 250.0),
                no(0.01, 250.0),
                no(0.06, 250.0),
            ],
        ),
        row(
            "no pos either",
            &[at(0.02, 150.0), neither(150.0), no(0.06, 150.0)],
        ),
        row("no pos either at first", &[neither(120.0), no(0.06, 120.0)]),
        row("no pos anywhere", &[neither(120.0), neither(120.0)]),
        row(
            "a pitch without a pos",
            &[
                at(0.01, 100.0),
                of(Value::Absent, Value::float(200.0), 200.0),
                no(0.06, 200.0),
            ],
        ),
        Row {
            rate: 60,
            ends: [0.5, 1.5],
            ..row(
                "whole numbers of seconds",
                &[
                    of(Value::Whole(0), Value::Whole(6), 6.0),
                    of(Value::Whole(1), Value::Absent, 6.0),
                ],
            )
        },
        row(
            "behind the last target end",
            &[at(0.0, 100.0), at(0.06, 100.0), no(0.15, 100.0)],
        ),
    ]
}

/// Calls that would get another answer if 0 Hz were counted.
fn answers() -> Vec<Row> {
    let max = f32::MAX;
    let two_to = |power| 2.0f32.powi(power);
    let labelled = |row: Row, label| Row {
        label: Some(label),
        ..row
    };
    let many = MAX_MARKS as f32;
    vec![
        behind_high(
            "0 Hz would be refused with 10: behind 2 to the power of 100",
            Value::float(two_to(100)),
            two_to(100),
        ),
        row(
            "0 Hz would be refused with 10: 124 behind the first",
            &[no(0.0, 120.0), at(two_to(-122), 124.0), no(0.06, 124.0)],
        ),
        labelled(
            row(
                "0 Hz would be spoken: -4 behind the first",
                &[no(0.0, 120.0), at(two_to(-122), -4.0)],
            ),
            Refusal::Slope,
        ),
        labelled(
            row(
                "0 Hz would be spoken: from f32's largest to the least",
                &[at(0.0, max), no(0.0, max), at(1.0, -max)],
            ),
            Refusal::Slope,
        ),
        Row {
            rate: 2,
            ends: [1.0, 3.0],
            ..row(
                "0 Hz would be refused with 11: a mark at 16,777,218",
                &[at(0.0, 1.0), no(1.0f32.next_up(), 1.0)],
            )
        },
        labelled(
            Row {
                rate: 1,
                ..row(
                    "0 Hz would be spoken: a mark at 16,777,216",
                    &[
                        at(0.0, two_to(-24)),
                        no(0.0, two_to(-24)),
                        at(1.0, two_to(-24)),
                    ],
                )
            },
            Refusal::TooFar,
        ),
        row(
            "0 Hz would be refused with 12: a rise from below 0",
            &[
                at(0.0, 100.0),
                at(0.025, 100.0),
                at(0.025, -1.0e9),
                no(0.025, -1.0e9),
                at(1.0, 1.0e6),
            ],
        ),
        labelled(
            row(
                "0 Hz would be spoken: 65,537 marks",
                &[at(0.0, many), no(0.0, many), at(1.0f32.next_up(), many)],
            ),
            Refusal::TooManyMarks,
        ),
        labelled(
            row(
                "0 Hz would be spoken: time cannot advance",
                &[
                    at(0.0, 1.0),
                    at(2.0, 1.0),
                    at(2.0, 1.0e30),
                    no(2.0, 1.0e30),
                    at(4.0, 1.0e30),
                ],
            ),
            Refusal::TooManyMarks,
        ),
    ]
}

pub fn rows() -> impl Iterator<Item = Row> {
    [answers(), pitches(), places()].into_iter().flatten()
}

/// All in the modified join.
pub fn some() -> Vec<LabelledCall> {
    calls(Join::Modified)
}

/// Those that are small: the most marks are far fewer than 12 takes.
pub fn small() -> Vec<LabelledCall> {
    let mut calls = some();
    calls.retain(|call| call.label != Some(Refusal::TooManyMarks));
    calls
}

/// All, in every join: the others read no target.
pub fn all() -> Vec<LabelledCall> {
    JOINS.map(calls).concat()
}

/// The number of a row says what its filter and its codec are.
fn calls(join: Join) -> Vec<LabelledCall> {
    rows()
        .enumerate()
        .map(|(number, row)| row.call(number, join))
        .collect()
}

impl Row {
    /// The sheet.
    pub fn sheet(&self) -> Sheet {
        let mut sheet = sheet(&self.ends, &[]);
        sheet.targets = self.targets.iter().map(|(target, _)| *target).collect();
        sheet
    }

    /// The f0 that counts for each target.
    pub fn counted(&self) -> Vec<f32> {
        self.targets.iter().map(|(_, counted)| *counted).collect()
    }

    fn call(self, number: usize, join: Join) -> LabelledCall {
        let (settings, codec) = numbered_settings(number, join);
        LabelledCall {
            voice: file(&voice(self.rate, codec).sections()),
            sheet: write(&self.sheet()),
            settings,
            label: self.label.filter(|_| join == Join::Modified),
            reason: self.reason.to_string(),
        }
    }
}
