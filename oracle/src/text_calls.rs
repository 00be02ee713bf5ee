//! Calls with texts: what their sheets are like, and their answers.

use crate::call::{self, Join, Settings, JOINS};
use crate::refusal::{numbered, ByNumber, Refusal};
use crate::report::Report;
use crate::sheet::{self, Sheet, Target, Value};
use crate::texts::{decimal, Decimal, Middle, Text, MAX_TEXT, MINUS};
use crate::voicefile::Voice;

/// What a spoken call of the modified join may be like.
const MET: [&str; 30] = [
    "a text as an end",
    "as a pos",
    "as an f0",
    "no other value than texts",
    "whole numbers, floats and absent values too",
    "a tie that goes down",
    "a tie that goes up",
    "a tie of which the other f32 would give other marks or ends",
    "a unit in the last place beside a tie",
    "less than that beside a middle",
    "a decimal that is no f32",
    "minus zero",
    "a number below 0",
    "1,000,000,000 or more",
    "0.000001 or less, and above 0",
    "no digit as an end",
    "no digit as a pos",
    "no digit as an f0, so 0 Hz",
    "no byte",
    "twelve bytes",
    "something behind the number",
    "a second point",
    "a sign that is not in front",
    "a plus in front",
    "no digit before the point",
    "none behind it",
    "a byte above 127, in UTF-8",
    "not UTF-8",
    "an f0 that goes on",
    "0 Hz without a digit that goes on",
];

const TIE_SHOWS: usize = 7;

/// Answers that must be met; 0 is spoken.
const ANSWERS: [usize; 8] = [0, 8, 9, 10, 11, 12, 16, 17];

#[derive(Clone, Debug)]
pub struct Typed {
    settings: Settings,
    number: usize,
    met: [bool; MET.len()],
}

impl Typed {
    /// Of a call that is spoken. Nothing where its sheet has no text.
    pub fn of(voice: &Voice, sheet: &Sheet, settings: Settings) -> Option<Typed> {
        let mut typed = Typed {
            settings,
            number: 0,
            met: [false; MET.len()],
        };
        let texts = texts(&sheet.values());
        if settings.join == Join::Modified && sheet.segments.len() > 1 {
            typed.met = met(voice, sheet, settings);
        }
        (!texts.is_empty()).then_some(typed)
    }

    /// Of one that is refused with a number. Nothing where its sheet has no text as
    /// far as it is read.
    pub fn refused(sheet: &[u8], settings: Settings, number: usize) -> Option<Typed> {
        let is_long = sheet::read(sheet) == Err(Refusal::LongText);
        let has_text = is_long || !sheet::texts(sheet).is_empty();
        has_text.then_some(Typed {
            settings,
            number,
            met: [false; MET.len()],
        })
    }

    /// Whether a tie is told by marks or ends.
    pub fn shows_tie(&self) -> bool {
        self.met[TIE_SHOWS]
    }
}

fn is_long(number: usize) -> bool {
    number == Refusal::LongText.number()
}

fn texts(values: &[Value]) -> Vec<Text> {
    let text = |value: &Value| match value {
        Value::Text(text) => Some(*text),
        _ => None,
    };
    values.iter().filter_map(text).collect()
}

fn met(voice: &Voice, sheet: &Sheet, settings: Settings) -> [bool; MET.len()] {
    let all = texts(&sheet.values());
    let numbers = numbers(&all, || {
        told(voice, sheet, settings) != told(voice, &other_side(sheet), settings)
    });
    let parts = [
        &places(sheet)[..],
        &numbers,
        &digits(sheet),
        &forms(&all),
        &goes_on(sheet),
    ];
    let met = parts.concat().try_into();
    met.expect("one for each")
}

/// The values of a sheet by what they are: ends, positions, f0s.
fn by_place(sheet: &Sheet) -> [Vec<Value>; 3] {
    [
        sheet.segments.iter().map(|segment| segment.end).collect(),
        sheet.targets.iter().map(|target| target.pos).collect(),
        sheet.targets.iter().map(|target| target.f0).collect(),
    ]
}

fn places(sheet: &Sheet) -> [bool; 5] {
    let values = sheet.values();
    let has = |is: fn(&Value) -> bool| values.iter().any(is);
    let [ends, positions, f0s] = by_place(sheet).map(|values| !texts(&values).is_empty());
    [
        ends,
        positions,
        f0s,
        texts(&values).len() == values.len(),
        has(|value| matches!(value, Value::Whole(_)))
            && has(|value| matches!(value, Value::Float(_)))
            && has(|value| *value == Value::Absent),
    ]
}

/// What texts stand for, and how near a middle is.
fn numbers(texts: &[Text], tie_shows: impl Fn() -> bool) -> [bool; 10] {
    let decimals: Vec<Decimal> = texts
        .iter()
        .filter_map(|text| decimal(text.bytes()))
        .collect();
    let middles: Vec<Middle> = decimals.iter().map(Decimal::middle).collect();
    let tie = |up| {
        let is_tie =
            |middle: &Middle| matches!(middle, Middle::Tie([even, odd]) if (even > odd) == up);
        middles.iter().any(is_tie)
    };
    let number = |is: fn(f32) -> bool| texts.iter().any(|text| is(f32::from_bits(text.bits())));
    [
        tie(false),
        tie(true),
        tie_shows(),
        middles.contains(&Middle::Unit),
        middles.contains(&Middle::Within),
        decimals.iter().any(|decimal| !decimal.is_f32()),
        texts.iter().any(|text| text.bits() == MINUS),
        number(|x| x < 0.0),
        number(|x| x >= 1.0e9),
        number(|x| x > 0.0 && x <= 1.0e-6),
    ]
}

/// Whether a text without a digit is an end, a pos, an f0.
fn digits(sheet: &Sheet) -> [bool; 3] {
    by_place(sheet).map(|values| {
        let texts = texts(&values);
        texts.iter().any(|text| !has_digit(text.bytes()))
    })
}

fn forms(texts: &[Text]) -> [bool; 10] {
    let any = |is: fn(&[u8]) -> bool| texts.iter().any(|text| is(text.bytes()));
    let number = |is: fn(&[u8]) -> bool| {
        let mut texts = texts.iter().map(Text::bytes);
        texts.any(|text| has_digit(text) && is(text))
    };
    [
        any(<[u8]>::is_empty),
        any(|text| text.len() == MAX_TEXT),
        number(|text| !behind(text).is_empty()),
        number(|text| behind(text).starts_with(b".")),
        number(|text| matches!(behind(text), [b'+' | b'-', ..])),
        number(|text| text.starts_with(b"+")),
        number(|text| unsigned(text).starts_with(b".")),
        number(ends_at_point),
        any(|text| !text.is_ascii() && std::str::from_utf8(text).is_ok()),
        any(|text| std::str::from_utf8(text).is_err()),
    ]
}

/// Whether some target goes on with a text of the one before it, and with one
/// without a digit.
fn goes_on(sheet: &Sheet) -> [bool; 2] {
    let text = |pair: &[Target]| match [pair[0].f0, pair[1].f0] {
        [Value::Text(text), Value::Absent] => Some(text),
        _ => None,
    };
    let texts: Vec<Text> = sheet.targets.windows(2).filter_map(text).collect();
    let no_digit = texts.iter().any(|text| !has_digit(text.bytes()));
    [!texts.is_empty(), no_digit]
}

fn has_digit(text: &[u8]) -> bool {
    decimal(text).is_some()
}

fn unsigned(text: &[u8]) -> &[u8] {
    match text {
        [b'+' | b'-', rest @ ..] => rest,
        _ => text,
    }
}

/// What is behind the sign, the digits and one point.
fn behind(text: &[u8]) -> &[u8] {
    let number = unsigned(text);
    let mut points = 0;
    let ends = |byte: &u8| {
        points += usize::from(*byte == b'.');
        !byte.is_ascii_digit() && (*byte != b'.' || points > 1)
    };
    let length = number.iter().position(ends).unwrap_or(number.len());
    &number[length..]
}

/// Whether the last byte of the number is its point.
fn ends_at_point(text: &[u8]) -> bool {
    let number = &text[..text.len() - behind(text).len()];
    number.ends_with(b".")
}

/// The sheet with the other f32 beside each tie.
fn other_side(sheet: &Sheet) -> Sheet {
    let mut sheet = sheet.clone();
    sheet.each_value(|value| {
        if let Value::Text(text) = value {
            let middle = decimal(text.bytes()).map(|decimal| decimal.middle());
            if let Some(Middle::Tie([_, odd])) = middle {
                *value = Value::Float(odd | text.bits() & MINUS);
            }
        }
    });
    sheet
}

/// The marks, or the refusal, and the target ends.
fn told(
    voice: &Voice,
    sheet: &Sheet,
    settings: Settings,
) -> (Result<Vec<usize>, Refusal>, Vec<usize>) {
    let units = call::units(voice, sheet, settings.fold);
    let ends = units.iter().map(|unit| unit.target_end).collect();
    (call::marks(voice, sheet, settings), ends)
}

/// What the calls of a run were like.
#[derive(Default)]
pub struct Counts {
    /// Calls with a text, by join: spoken and refused; then those with 17.
    joins: [[u64; 2]; JOINS.len()],
    long: [u64; JOINS.len()],
    answers: ByNumber,
    /// Those that are strict, by their answers.
    strict: ByNumber,
    met: [u64; MET.len()],
}

impl Counts {
    pub fn add(&mut self, call: &Typed) {
        let join = JOINS.iter().position(|join| *join == call.settings.join);
        let join = join.unwrap_or(0);
        self.joins[join][usize::from(call.number > 0)] += 1;
        self.long[join] += u64::from(is_long(call.number));
        self.answers[call.number] += 1;
        self.strict[call.number] += u64::from(call.settings.strict);
        for (sum, met) in self.met.iter_mut().zip(call.met) {
            *sum += u64::from(met);
        }
    }

    /// What was not met.
    pub fn missing(&self) -> Vec<String> {
        let mut counts: Vec<(String, u64)> = Vec::new();
        for (join, ([spoken, _], long)) in JOINS.iter().zip(self.joins.iter().zip(self.long)) {
            counts.push((format!("{join:?}, spoken"), *spoken));
            counts.push((format!("{join:?}, 17"), long));
        }
        let answers = ANSWERS.map(|number| (format!("answer {number}"), self.answers[number]));
        counts.extend(answers);
        let strict = [0, 16, 17].map(|number| (format!("strict, {number}"), self.strict[number]));
        counts.extend(strict);
        let met = MET.iter().zip(self.met);
        counts.extend(met.map(|(what, count)| (what.to_string(), count)));
        counts.retain(|(_, count)| *count == 0);
        let missing = counts.into_iter();
        missing.map(|(what, _)| format!("texts: {what}")).collect()
    }

    /// Everything must have been met.
    pub fn check_reached(&self, report: &mut Report) {
        let missing = self.missing();
        report.check(missing.is_empty(), || format!("no call with {missing:?}"));
    }

    pub fn print(&self) {
        let joins = JOINS.iter().zip(self.joins.iter().zip(self.long));
        let shown: Vec<String> = joins
            .map(|(join, ([spoken, refused], long))| {
                let all = spoken + refused;
                format!("{join:?} {all} ({spoken} spoken, {long} refused with 17)")
            })
            .collect();
        println!("  calls with texts, by join: {}", shown.join(", "));
        println!("    by answer, 0 spoken: {}", numbered(&self.answers));
        println!("    strict ones: {}", numbered(&self.strict));
        println!("  those spoken in the modified join, two segments or more, with");
        for (what, count) in MET.iter().zip(self.met) {
            println!("    {what}: {count}");
        }
    }
}
