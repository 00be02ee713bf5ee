//! Sheets whose times and pitches are typed as texts, of every sort.

use super::pitches;
use super::small::Shape;
use super::target_ends::near;
use super::voices::VoiceSpec;
use crate::call;
use crate::pitches::filled;
use crate::rng::Rng;
use crate::sheet::{Sheet, Target, Value};
use crate::text_inputs::{self, IGNORED};
use crate::texts::{decimal, Middle, MAX_TEXT};

/// What is typed, and how.
#[derive(Clone, Copy, Debug, PartialEq, Eq)]
pub enum Manner {
    All,
    Ends,
    Positions,
    Pitches,
    /// Beside whole numbers, floats and absent values.
    Mixture,
    /// Twelve bytes each.
    Long,
    Tie,
    MinusZero,
    NoDigit,
    /// Something behind the number that is ignored.
    Ignored,
    /// Several points, signs, no digit before the point.
    PointsAndSigns,
    /// Zeros in front and behind.
    Zeros,
    Huge,
    Tiny,
    /// Pitches that go on into empty boxes.
    GoesOn,
    /// Several of these.
    Mixed,
}

pub const MANNERS: [Manner; 16] = [
    Manner::All,
    Manner::Tie,
    Manner::Mixture,
    Manner::NoDigit,
    Manner::Ends,
    Manner::Ignored,
    Manner::Pitches,
    Manner::MinusZero,
    Manner::Long,
    Manner::GoesOn,
    Manner::PointsAndSigns,
    Manner::Huge,
    Manner::Positions,
    Manner::Zeros,
    Manner::Tiny,
    Manner::Mixed,
];

impl Manner {
    pub fn name(self) -> &'static str {
        match self {
            Manner::All => "every value a text",
            Manner::Ends => "ends as texts",
            Manner::Positions => "positions as texts",
            Manner::Pitches => "pitches as texts",
            Manner::Mixture => "texts beside other kinds",
            Manner::Long => "texts of twelve bytes",
            Manner::Tie => "texts at ties",
            Manner::MinusZero => "minus zero",
            Manner::NoDigit => "texts without a digit",
            Manner::Ignored => "something behind the number",
            Manner::PointsAndSigns => "points and signs",
            Manner::Zeros => "zeros in front and behind",
            Manner::Huge => "huge texts",
            Manner::Tiny => "tiny texts",
            Manner::GoesOn => "texts as pitches that go on",
            Manner::Mixed => "texts of several sorts",
        }
    }
}

/// Texts that are minus zero, and texts without a digit.
const MINUS_ZERO: [&[u8]; 8] = [
    b"-0",
    b"-.0",
    b"-0.0",
    b"-0.",
    b"-00.00",
    b"-0e5",
    b"-0.000000000",
    b"-0\xFF",
];
const NO_DIGIT: [&[u8]; 16] = [
    b"",
    b"-",
    b"+",
    b".",
    b"-.",
    b"+-3",
    b"--100",
    b" 100",
    b"none",
    b"e5",
    b"..5",
    b"inf",
    b"\0100",
    "\u{661}\u{662}".as_bytes(),
    b"\xFF100",
    b"-\x80",
];

/// Texts of numbers that speech does not have.
const HUGE: [&[u8]; 5] = [
    b"999999999999",
    b"+99999999999",
    b"549755846656",
    b"16777217.001",
    b"4294967296",
];
const HUGE_ENDS: [[&[u8]; 2]; 4] = [
    [b"-99999999999", b"99999999999"],
    [b"-16777217.01", b"16777219"],
    [b"-16777217", b"16777217.001"],
    [b"-9999999999.", b"+9999999999"],
];
const TINY: [&[u8]; 5] = [
    b".00000000001",
    b"0.0000000001",
    b"+.0000000001",
    b".00000000999",
    b"0.000000001s",
];

/// What may stand behind a number that has a point or signs.
const POINTS_AND_SIGNS: [&[u8]; 8] = [b".7", b".99", b".9999", b"..5", b"-5", b"+", b".", b""];

/// Where empty pitch boxes stand before they are filled in.
const BOXES: [pitches::Manner; 5] = [
    pitches::Manner::First,
    pitches::Manner::Middle,
    pitches::Manner::Last,
    pitches::Manner::Row,
    pitches::Manner::Many,
];

/// A voice and a sheet by their number.
pub fn numbered(rng: &mut Rng, number: u64) -> (Manner, VoiceSpec, Sheet) {
    super::in_turn(rng, number, &MANNERS, any, little)
}

/// A voice of any extent, and a sheet.
fn any(rng: &mut Rng, manner: Manner) -> (VoiceSpec, Sheet) {
    let boxes = rng.pick(&BOXES);
    let (spec, sheet) = pitches::any(rng, boxes);
    let sheet = typed(rng, &sheet, manner);
    (spec, sheet)
}

/// A voice of a few hundred bytes, and a sheet of few values, as texts are long.
pub fn little(rng: &mut Rng, shape: Shape, manner: Manner) -> (VoiceSpec, Sheet) {
    let boxes = rng.pick(&BOXES);
    let (spec, mut sheet) = pitches::little(rng, shape, boxes);
    sheet.targets.truncate(3);
    let sheet = typed(rng, &sheet, manner);
    (spec, sheet)
}

/// A sheet that begins with `old` as it is read: some texts of it are the floats
/// that they stand for. Half of the values behind it are texts.
pub fn longer(rng: &mut Rng, old: &Sheet, spec: &VoiceSpec) -> Sheet {
    let mut sheet = pitches::longer(rng, old, spec);
    let [ends, targets] = [old.segments.len(), old.targets.len()];
    for segment in &mut sheet.segments[ends..] {
        type_half(rng, &mut segment.end);
    }
    for target in &mut sheet.targets[targets..] {
        type_half(rng, &mut target.pos);
        type_half(rng, &mut target.f0);
    }
    some_as_floats(rng, &mut sheet);
    sheet
}

/// Half of the texts as the floats that they stand for.
fn some_as_floats(rng: &mut Rng, sheet: &mut Sheet) {
    sheet.each_value(|value| {
        if rng.once_in(2) {
            *value = value.as_read();
        }
    });
}

/// Half of the values that are written.
fn type_half(rng: &mut Rng, value: &mut Value) {
    if *value != Value::Absent && rng.once_in(2) {
        *value = text_of(rng, *value, Style::Any);
    }
}

/// Any sheet with texts for some of its values, each by itself.
pub fn with_some(rng: &mut Rng, sheet: &Sheet) -> Sheet {
    let mut sheet = sheet.clone();
    sheet.each_value(|value| {
        if rng.once_in(2) {
            let sort = rng.pick(&text_inputs::SORTS);
            *value = Value::Text(sort.draw(rng));
        }
    });
    sheet
}

/// A sheet of any values, typed in a manner.
fn typed(rng: &mut Rng, sheet: &Sheet, manner: Manner) -> Sheet {
    let mut sheet = match manner {
        Manner::Mixture | Manner::GoesOn => sheet.clone(),
        _ => filled(sheet),
    };
    set(rng, &mut sheet, manner);
    sheet
}

fn set(rng: &mut Rng, sheet: &mut Sheet, manner: Manner) {
    match manner {
        Manner::All => type_all(rng, sheet, Style::Any),
        Manner::Long => type_all(rng, sheet, Style::Long),
        Manner::Zeros => type_all(rng, sheet, Style::Zeros),
        Manner::Ignored => type_all(rng, sheet, Style::Ignored),
        Manner::PointsAndSigns => type_all(rng, sheet, Style::PointsAndSigns),
        Manner::Ends => {
            for segment in &mut sheet.segments {
                segment.end = text_of(rng, segment.end, Style::Any);
            }
        }
        Manner::Positions => {
            for target in &mut sheet.targets {
                target.pos = text_of(rng, target.pos, Style::Any);
            }
        }
        Manner::Pitches => type_pitches(rng, sheet),
        Manner::GoesOn => go_on(rng, sheet),
        Manner::Mixture => sheet.each_value(|value| *value = of_any_kind(rng, *value)),
        Manner::Tie => {
            tie_pitches(rng, sheet);
            tie_ends(rng, sheet);
        }
        Manner::MinusZero => put_some(rng, sheet, &MINUS_ZERO),
        Manner::NoDigit => put_some(rng, sheet, &NO_DIGIT),
        Manner::Tiny => put_some(rng, sheet, &TINY),
        Manner::Huge => put_huge(rng, sheet),
        Manner::Mixed => {
            sheet.each_value(|value| type_half(rng, value));
            let [single @ .., _] = MANNERS;
            let single: Vec<Manner> = single.into_iter().filter(is_partial).collect();
            for _ in 0..rng.between(1, 3) {
                let manner = rng.pick(&single);
                set(rng, sheet, manner);
            }
        }
    }
}

/// Whether a manner leaves other values as they are.
fn is_partial(manner: &Manner) -> bool {
    use Manner::{Huge, MinusZero, Mixture, NoDigit, Pitches, Tie, Tiny};
    [Huge, Mixture, MinusZero, NoDigit, Pitches, Tie, Tiny].contains(manner)
}

fn type_all(rng: &mut Rng, sheet: &mut Sheet, style: Style) {
    sheet.each_value(|value| *value = text_of(rng, *value, style));
}

fn type_pitches(rng: &mut Rng, sheet: &mut Sheet) {
    for target in &mut sheet.targets {
        target.f0 = text_of(rng, target.f0, Style::Any);
    }
}

/// The written pitches become texts, now and then one without a digit. Behind the
/// first one the box is empty.
fn go_on(rng: &mut Rng, sheet: &mut Sheet) {
    for target in &mut sheet.targets {
        match target.f0 {
            Value::Absent => {}
            _ if rng.once_in(8) => target.f0 = Value::text(rng.pick(&NO_DIGIT)),
            f0 => target.f0 = text_of(rng, f0, Style::Any),
        }
    }
    if let [first, second, ..] = &mut sheet.targets[..] {
        if let Value::Absent = first.f0 {
            first.f0 = text_of(rng, Value::float(120.0), Style::Any);
        }
        second.f0 = Value::Absent;
    }
}

fn of_any_kind(rng: &mut Rng, value: Value) -> Value {
    let x = value.as_f32();
    match rng.below(8) {
        0 => Value::Absent,
        1 | 2 if x >= 1.0 || x == 0.0 => Value::Whole(x as i32),
        1..=4 => Value::float(x),
        _ => text_of(rng, value, Style::Any),
    }
}

/// Texts from a list for some values: an end, the first pos, a pitch.
fn put_some(rng: &mut Rng, sheet: &mut Sheet, texts: &[&[u8]]) {
    let place = rng.below(sheet.segments.len().max(1));
    if let Some(segment) = sheet.segments.get_mut(place) {
        segment.end = Value::text(rng.pick(texts));
    }
    if let Some(first) = sheet.targets.first_mut().filter(|_| rng.once_in(2)) {
        first.pos = Value::text(rng.pick(texts));
    }
    let place = rng.below(2 * sheet.targets.len().max(1));
    if let Some(target) = sheet.targets.get_mut(place) {
        target.f0 = Value::text(rng.pick(texts));
    }
}

/// A huge pitch for a few periods at the beginning, and two huge ends, one below
/// zero, so that the middle between them is in reach.
fn put_huge(rng: &mut Rng, sheet: &mut Sheet) {
    let f0 = Value::text(rng.pick(&HUGE));
    let pos = rng.between(1, 6) as f32 / f0.as_f32();
    put_first(sheet, f0, pos);
    if let [.., left, right] = &mut sheet.segments[..] {
        let [below, above] = rng.pick(&HUGE_ENDS);
        left.end = Value::text(below);
        right.end = Value::text(above);
    }
}

/// A pitch for the time up to a pos, before all others.
fn put_first(sheet: &mut Sheet, f0: Value, pos: f32) {
    let Some(first) = sheet.targets.first() else {
        return;
    };
    let at = |pos: f32, f0| Target {
        pos: Value::float(pos),
        f0,
    };
    let before = [at(0.0, f0), at(pos, f0), at(pos, first.f0)];
    sheet.targets.splice(0..0, before);
}

/// A pitch at a tie, up to a pos that tells which f32 was taken.
fn tie_pitches(rng: &mut Rng, sheet: &mut Sheet) {
    for _ in 0..20 {
        let tie = text_inputs::tie(rng);
        let periods = rng.between(2, 9);
        if let Some(pos) = telling(&tie, periods) {
            put_first(sheet, Value::text(&tie), pos);
            return;
        }
    }
}

/// A pos, about so many periods from 0, up to which a pitch at a tie makes another
/// number of marks than the other f32 beside it.
pub fn telling(tie: &[u8], periods: usize) -> Option<f32> {
    let Some(Middle::Tie(beside)) = decimal(tie).map(|decimal| decimal.middle()) else {
        return None;
    };
    let [even, odd] = beside.map(f32::from_bits);
    let made = |f0: f32, pos: f32| call::made(&[(0.0, f0), (pos, f0)])[1];
    near(periods as f32 / even).find(|pos| made(even, *pos) != made(odd, *pos))
}

/// The last two ends at ties, the left one below zero: the middle between them is a
/// few steps of their f32s away from 0.
fn tie_ends(rng: &mut Rng, sheet: &mut Sheet) {
    if let [.., left, right] = &mut sheet.segments[..] {
        let bits = rng.between(1, 3) as u32;
        let [less, more] = [rng.below(4), rng.below(6)];
        left.end = Value::text(&[b"-", &above(less, bits)[..]].concat());
        right.end = Value::text(&above(less + more, bits));
    }
}

/// The tie so many steps above a power of two, with so many bits behind the point.
fn above(steps: usize, bits: u32) -> Vec<u8> {
    let number = (2 * ((1 << 23) + steps) + 1) * 5usize.pow(bits);
    let mut digits = number.to_string().into_bytes();
    digits.insert(digits.len() - bits as usize, b'.');
    digits
}

#[derive(Clone, Copy, PartialEq, Eq)]
enum Style {
    Any,
    Long,
    Zeros,
    Ignored,
    PointsAndSigns,
}

/// A value as a text that stands for a number near it.
fn text_of(rng: &mut Rng, value: Value, style: Style) -> Value {
    let x = value.as_f32();
    let behind = match style {
        Style::Ignored => rng.pick(&IGNORED),
        Style::PointsAndSigns => rng.pick(&POINTS_AND_SIGNS),
        _ => b"",
    };
    let sign = match style {
        _ if x.is_sign_negative() => "-",
        Style::PointsAndSigns if rng.once_in(2) => "+",
        _ => "",
    };
    let room = MAX_TEXT - sign.len() - behind.len();
    let digits = digits(rng, f64::from(x.abs()), style, room);
    Value::text(&[sign.as_bytes(), &digits, behind].concat())
}

/// A number in at most so many bytes.
fn digits(rng: &mut Rng, x: f64, style: Style, room: usize) -> Vec<u8> {
    let most = 10f64.powi(room as i32) - 1.0;
    let x = x.min(most);
    let whole = format!("{x:.0}").len();
    let is_bare = x < 0.5 && rng.once_in(2);
    let places = (room + usize::from(is_bare)).saturating_sub(whole + 1);
    let decimals = match style {
        Style::Long => places,
        Style::PointsAndSigns => rng.between(places.min(3), places.min(5)),
        _ => rng.between(places.min(5), places),
    };
    let mut digits = format!("{x:.decimals$}").into_bytes();
    if is_bare && decimals > 0 {
        digits.remove(0);
    }
    if style == Style::Zeros {
        let zeros = room.saturating_sub(digits.len());
        digits.splice(0..0, vec![b'0'; rng.between(0, zeros)]);
        if decimals > 0 {
            digits.resize(room.max(digits.len()), b'0');
        }
    }
    digits.truncate(room);
    digits
}
