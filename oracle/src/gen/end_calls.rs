//! Calls whose target ends are given by their products, with the answer that
//! each must get.

use super::damaged_calls::{entry, sheet, LabelledCall};
use super::target_ends::{near, time};
use super::voices::{file, plain, VoiceSpec};
use crate::call::{Join, Settings, JOINS, NAMED};
use crate::departure::RATES;
use crate::ends::of_pair;
use crate::refusal::Refusal;
use crate::sheet::write;

/// A pitch and how many periods of it there are. It is a power of two, so its
/// marks are the whole parts of n × rate / f0.
type Pitch = (f32, usize);

struct Row {
    reason: String,
    rate: u32,
    /// The ends of the segments pau, aa and so on.
    ends: Vec<f32>,
    pitch: Pitch,
    label: Option<Refusal>,
}

/// Two segments with these products.
fn row(reason: &str, rate: u32, products: [f32; 2], pitch: Pitch) -> Row {
    Row {
        reason: reason.to_string(),
        rate,
        ends: times(rate, products).to_vec(),
        pitch,
        label: None,
    }
}

/// Ends whose products are just these.
fn times(rate: u32, products: [f32; 2]) -> [f32; 2] {
    let [left, middle] = products.map(|product| product / rate as f32);
    let pairs =
        near(left).flat_map(|left| near(2.0 * middle - left).map(move |right| [left, right]));
    let mut fitting = pairs.filter(|[left, right]| of_pair(*left, *right, rate) == products);
    let found = fitting.next();
    found.unwrap_or_else(|| panic!("no times at {rate} with the products {products:?}"))
}

/// At 8000: marks 15, 31, 46, 62, 78 and 93.
const SIX: Pitch = (512.0, 6);
/// At 1: marks 1, 2 and so on, and marks 0, 1, 1, 2, 2 and 3.
const ONES: Pitch = (1.0, 6);
const TWICE: Pitch = (2.0, 6);
/// At 1: marks 4,194,304, 8,388,608 and 12,582,912.
const FAR: Pitch = (1.0 / 4_194_304.0, 3);

fn near_marks() -> Vec<Row> {
    let below = |products: [f32; 2]| products.map(f32::next_down);
    let above = |products: [f32; 2]| products.map(f32::next_up);
    let halves = [30.5, 61.5];
    vec![
        row("halves one f32 too low", 8000, below(halves), SIX),
        row("halves one f32 exceeded", 8000, above(halves), SIX),
        row("a sample before marks", 8000, [30.0, 61.0], SIX),
        row("halves behind marks", 8000, [31.5, 62.5], SIX),
        row(
            "less than half a sample before marks",
            8000,
            [30.75, 61.875],
            SIX,
        ),
        row("ends at one sample", 8000, [61.5, 62.0], SIX),
        row("ends that fall", 8000, [61.5, 30.5], SIX),
        row("the last mark at a half", 8000, [46.0, 92.5], SIX),
        row(
            "the last mark one f32 missed",
            8000,
            [46.0, 92.5f32.next_down()],
            SIX,
        ),
        Row {
            ends: [15.5, 30.5, 46.5, 61.5]
                .map(|product| time(product, 8192).expect("a power of two"))
                .to_vec(),
            ..row("three pairs", 8192, [15.5, 23.0], SIX)
        },
    ]
}

fn low() -> Vec<Row> {
    let half = 0.5f32;
    let [below, above] = [half.next_down(), half.next_up()];
    vec![
        row("0.49999997 and 0.5", 1, [below, half], ONES),
        row("0.5 and 1.5", 1, [half, 1.5], ONES),
        row(
            "just above 0.5, just below 1.5",
            1,
            [above, 1.5f32.next_down()],
            ONES,
        ),
        row(
            "0.5 and 1.5, rate 44100",
            44_100,
            [half, 1.5],
            (65_536.0, 6),
        ),
        row("-0.5 and 0.5", 1, [-0.5, half], TWICE),
        row("-0.25 and 1.5", 1, [-0.25, 1.5], TWICE),
        row("-0.5 and -0.25", 1, [-0.5, -0.25], TWICE),
        row("-1.5 and 2.5", 1, [-1.5, 2.5], TWICE),
        Row {
            ends: vec![f32::MIN, 0.0],
            ..row("minus infinity", 48_000, [0.0, 0.0], (65_536.0, 6))
        },
    ]
}

fn high() -> Vec<Row> {
    let limit = 16_777_215.0;
    let past = |row: Row| Row {
        label: Some(Refusal::TooFar),
        ..row
    };
    vec![
        row("8388607.5 and 8388609", 1, [8_388_607.5, 8_388_609.0], ONES),
        row(
            "8388608 and 4194303.75",
            1,
            [8_388_608.0, 4_194_303.75],
            ONES,
        ),
        row("ends at the limit", 1, [limit - 1.0, limit], ONES),
        row("ends at the limit, rate 8000", 8000, [limit, limit], SIX),
        past(row("left end past the limit", 1, [limit + 1.0, 0.0], ONES)),
        past(row(
            "middle end past the limit",
            8000,
            [62.0, limit + 1.0],
            SIX,
        )),
        past(Row {
            ends: vec![f32::MAX, 0.0],
            ..row("infinity", 48_000, [0.0, 0.0], ONES)
        }),
    ]
}

/// At each rate halves before marks, and whole numbers that are marks.
fn at_rates() -> Vec<Row> {
    let mut rows = Vec::new();
    for rate in RATES {
        let f0 = 2.0f32.powf((rate as f32 / 12.0).log2().round());
        let [second, fourth] = [2.0, 4.0].map(|n| (n * rate as f32 / f0).floor());
        let halves = [second - 0.5, fourth - 0.5];
        let reason = format!("halves before marks, rate {rate}");
        rows.push(row(&reason, rate, halves, (f0, 6)));
        let reason = format!("whole numbers, rate {rate}");
        rows.push(row(&reason, rate, [second, fourth], (f0, 6)));
    }
    rows
}

/// Marks at which f32 has halves, then whole numbers alone.
fn far() -> Vec<Row> {
    let [first, second, third] = [4_194_304.0, 8_388_608.0, 12_582_912.0];
    let less = [first - 0.25, second];
    let before = [second - 1.0, third - 1.0];
    vec![
        row("far marks at halves", 1, [first, second - 0.5], FAR),
        row("far marks less than a half away", 1, less, FAR),
        row("a sample before far marks", 1, before, FAR),
    ]
}

/// The small ones, in the modified join.
pub fn some() -> Vec<LabelledCall> {
    numbered(small(), Join::Modified)
}

/// All, in every join: the others read no end.
pub fn all() -> Vec<LabelledCall> {
    let rows = || small().chain(far());
    let calls = JOINS.map(|join| numbered(rows(), join));
    calls.concat()
}

fn small() -> impl Iterator<Item = Row> {
    [near_marks(), low(), high(), at_rates()]
        .into_iter()
        .flatten()
}

/// The number of a row says what its filter and its codec are.
fn numbered(rows: impl Iterator<Item = Row>, join: Join) -> Vec<LabelledCall> {
    rows.enumerate()
        .map(|(number, row)| row.call(number, join))
        .collect()
}

impl Row {
    fn call(self, number: usize, join: Join) -> LabelledCall {
        let Row { rate, pitch, .. } = self;
        let (f0, count) = pitch;
        let contour = [(0.0, f0), (count as f32 / f0, f0)];
        let (settings, codec) = numbered_settings(number, join);
        LabelledCall {
            voice: file(&voice(rate, codec).sections()),
            sheet: write(&sheet(&self.ends, &contour)),
            settings,
            label: self.label.filter(|_| join == Join::Modified),
            reason: self.reason,
        }
    }
}

/// What is named of the filter, and the codec, by a number.
pub(super) fn numbered_settings(number: usize, join: Join) -> (Settings, u32) {
    let settings = Settings {
        filter: NAMED[number % NAMED.len()],
        ..Settings::new(join)
    };
    (settings, (number / NAMED.len()) as u32 % 2)
}

/// A voice of eight periods whose rows differ, two or more of them in a unit.
pub(super) fn voice(rate: u32, codec: u32) -> VoiceSpec {
    let mut voice = plain(8, (0..=8).map(|i| i * 6 + i * i / 3).collect());
    voice.header.rate = rate;
    voice.header.codec = codec;
    voice.header.order = 1;
    voice.header.coeff_min = (-1.0f32).to_bits();
    voice.header.coeff_range = 2.0f32.to_bits();
    voice.rows = (0..8).map(|i| 20_000 + 3_001 * i).collect();
    let length = voice.offsets[8];
    voice.residual = (0..length).map(|i| (i * 37 + 3) as u8).collect();
    voice.entries = vec![entry("pau-aa", 0, [2, 2]), entry("aa-pau", 4, [3, 1])];
    voice
}
