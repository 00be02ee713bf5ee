//! Sheets with targets without a pitch, of every sort.

use super::sheets;
use super::small::{self, Shape};
use super::voices::{self, Extent, Vocabulary, VoiceSpec};
use crate::rng::Rng;
use crate::sheet::{Sheet, Target, Value};

/// Where the targets without a pitch stand.
#[derive(Clone, Copy, Debug, PartialEq, Eq)]
pub enum Manner {
    First,
    Middle,
    Last,
    /// Several in a row.
    Row,
    All,
    /// Behind a written 0, a whole number or a float of either sign.
    Zero,
    Negative,
    /// Behind a whole number, or one that f32 rounds.
    Whole,
    Huge,
    Tiny,
    /// Behind a target that makes no mark, or on one.
    NoMark,
    /// With an absent pos.
    NoPos,
    /// On the only target.
    One,
    /// On some of many targets.
    Many,
    /// Several of these.
    Mixed,
}

pub const MANNERS: [Manner; 15] = [
    Manner::First,
    Manner::Row,
    Manner::NoMark,
    Manner::Whole,
    Manner::Last,
    Manner::Zero,
    Manner::All,
    Manner::Huge,
    Manner::Middle,
    Manner::Negative,
    Manner::NoPos,
    Manner::Tiny,
    Manner::One,
    Manner::Many,
    Manner::Mixed,
];

impl Manner {
    pub fn name(self) -> &'static str {
        match self {
            Manner::First => "the first without a pitch",
            Manner::Middle => "one between others without a pitch",
            Manner::Last => "the last without a pitch",
            Manner::Row => "several in a row without a pitch",
            Manner::All => "all without a pitch",
            Manner::Zero => "without a pitch behind 0",
            Manner::Negative => "without a pitch behind one below 0",
            Manner::Whole => "without a pitch behind a whole number",
            Manner::Huge => "without a pitch behind a huge one",
            Manner::Tiny => "without a pitch behind a tiny one",
            Manner::NoMark => "without a pitch where no mark is made",
            Manner::NoPos => "neither pitch nor pos",
            Manner::One => "one target without a pitch",
            Manner::Many => "many targets, some without a pitch",
            Manner::Mixed => "some without a pitch",
        }
    }
}

/// How many targets there are, and how long they and their periods, in samples.
struct Size {
    fewest: usize,
    most: usize,
    step: f64,
    periods: [f64; 2],
}

/// A voice and a sheet by their number.
pub fn numbered(rng: &mut Rng, number: u64) -> (Manner, VoiceSpec, Sheet) {
    super::in_turn(rng, number, &MANNERS, any, little)
}

/// A voice of any extent, and a sheet.
pub(super) fn any(rng: &mut Rng, manner: Manner) -> (VoiceSpec, Sheet) {
    let words = voices::vocabulary(rng);
    let covering = rng.once_in(2);
    let spec = voices::voice(rng, &words, Extent::Any, covering);
    let mut sheet = sheets::sheet(rng, &words, spec.header.rate);
    let last = sheet.segments.last().map_or(0.0, |last| last.end.as_f32());
    let samples = f64::from(last) * f64::from(spec.header.rate);
    let size = Size {
        fewest: 4,
        most: 10,
        step: (samples / 6.0).clamp(20.0, 1_000.0),
        periods: [12.0, 160.0],
    };
    set_targets(rng, &mut sheet, spec.header.rate, manner, &size);
    (spec, sheet)
}

/// A voice of a few hundred bytes, and a sheet.
pub fn little(rng: &mut Rng, shape: Shape, manner: Manner) -> (VoiceSpec, Sheet) {
    let words = small::vocabulary(rng);
    let spec = small::voice(rng, &words, shape);
    let mut sheet = small::sheet(rng, &words, spec.header.rate);
    let size = Size {
        fewest: 4,
        most: 5,
        step: 20.0,
        periods: [3.0, 14.0],
    };
    set_targets(rng, &mut sheet, spec.header.rate, manner, &size);
    (spec, sheet)
}

/// A sheet that begins with `old`. Most of the targets behind have no pitch.
pub fn longer(rng: &mut Rng, old: &Sheet, spec: &VoiceSpec) -> Sheet {
    let names = old.segments.iter().map(|segment| segment.name.clone());
    let words = Vocabulary {
        phones: names.chain(["pau".to_string()]).collect(),
    };
    let rate = spec.header.rate;
    let mut sheet = match old.segments.len() > 4 {
        true => sheets::longer(rng, old, &words, rate),
        false => small::longer(rng, old, &words, rate),
    };
    let behind = &mut sheet.targets[old.targets.len()..];
    for target in behind {
        if !rng.once_in(3) {
            target.f0 = Value::Absent;
        }
    }
    sheet
}

/// Gives a sheet other targets.
fn set_targets(rng: &mut Rng, sheet: &mut Sheet, rate: u32, manner: Manner, size: &Size) {
    let mut line = Line {
        rate: f64::from(rate),
        size,
        targets: Vec::new(),
    };
    line.written(rng, manner);
    line.empty(rng, manner);
    sheet.targets = line.targets;
}

/// The targets of a sheet.
struct Line<'s> {
    rate: f64,
    size: &'s Size,
    targets: Vec<Target>,
}

impl Line<'_> {
    /// Targets with a pitch each.
    fn written(&mut self, rng: &mut Rng, manner: Manner) {
        let count = match manner {
            Manner::One => 1,
            Manner::Many => rng.between(8, 2 * self.size.most),
            _ => rng.between(self.size.fewest, self.size.most),
        };
        let mut time = 0.0;
        for place in 0..count {
            if place > 0 || count == 1 || rng.once_in(6) {
                time += self.size.step * (0.2 + 1.3 * rng.unit()) / self.rate;
            }
            let f0 = self.pitch(rng);
            self.targets.push(Target {
                pos: Value::float(time as f32),
                f0: Value::float(f0),
            });
        }
    }

    fn pitch(&self, rng: &mut Rng) -> f32 {
        let [least, most] = self.size.periods;
        (self.rate / (least + (most - least) * rng.unit())) as f32
    }

    /// Empties boxes in a manner.
    fn empty(&mut self, rng: &mut Rng, manner: Manner) {
        let count = self.targets.len();
        match manner {
            Manner::First | Manner::One => self.clear(0..1),
            Manner::Middle => {
                let place = rng.between(1, count - 2);
                self.clear(place..place + 1);
            }
            Manner::Last => self.clear(count - 1..count),
            Manner::Row => {
                let from = rng.below(count - 1);
                let most = (count - from).min(4);
                let length = rng.between(2, most);
                self.clear(from..from + length);
            }
            Manner::All => self.clear(0..count),
            Manner::Many => self.clear_some(rng),
            Manner::NoMark => self.without_mark(rng),
            Manner::NoPos => {
                let place = rng.below(count);
                self.clear(place..count.min(place + 2));
                self.targets[place].pos = Value::Absent;
            }
            Manner::Mixed => {
                let [single @ .., _] = MANNERS;
                for _ in 0..rng.between(1, 3) {
                    let manner = rng.pick(&single);
                    self.empty(rng, manner);
                }
                self.clear_some(rng);
            }
            behind => self.behind(rng, behind),
        }
    }

    fn clear(&mut self, places: std::ops::Range<usize>) {
        for target in &mut self.targets[places] {
            target.f0 = Value::Absent;
        }
    }

    /// About half of the boxes, at least one.
    fn clear_some(&mut self, rng: &mut Rng) {
        for target in &mut self.targets {
            if rng.once_in(2) {
                target.f0 = Value::Absent;
            }
        }
        let place = rng.below(self.targets.len());
        self.clear(place..place + 1);
    }

    /// A target that is not past the one before it, with a pitch or without one,
    /// and one without behind it.
    fn without_mark(&mut self, rng: &mut Rng) {
        let place = rng.between(1, self.targets.len() - 2);
        let before = self.targets[place - 1].pos;
        let earlier = before.as_f32() * rng.unit() as f32;
        let f0 = self.pitch(rng);
        self.targets[place] = Target {
            pos: rng.pick(&[before, Value::float(earlier)]),
            f0: rng.pick(&[Value::float(f0), Value::float(f0), Value::Absent]),
        };
        self.clear(place + 1..place + 2);
    }

    /// A pitch that speech does not have, one or two targets without a pitch at
    /// it or a little behind, and then an ordinary pitch that goes on.
    fn behind(&mut self, rng: &mut Rng, manner: Manner) {
        let place = rng.below(self.targets.len() - 1);
        let from = match place {
            0 => 0.0,
            _ => self.targets[place - 1].pos.as_f32(),
        };
        let pitch = self.odd_pitch(rng, manner, place == 0);
        let step = match pitch.as_f32() {
            f0 if f0 > 1.0e5 => (rng.between(1, 5) as f64 / f64::from(f0)) as f32,
            _ => (self.size.periods[0] * rng.unit() / self.rate) as f32,
        };
        let at = rng.pick(&[from, from, from + step]);
        let target = |pos, f0| Target {
            pos: Value::float(pos),
            f0,
        };
        let mut odd = vec![target(at, pitch), target(at + step, Value::Absent)];
        if rng.once_in(2) {
            odd.push(target(at + 2.0 * step, Value::Absent));
        }
        if rng.once_in(2) {
            let last = odd[odd.len() - 1].pos;
            odd.push(Target {
                pos: last,
                f0: Value::float(self.pitch(rng)),
            });
            self.clear(place..place + 1);
        }
        self.targets.splice(place..place, odd);
    }

    /// The larger ones only at time 0, where the steps of f32 are small enough.
    fn odd_pitch(&self, rng: &mut Rng, manner: Manner, first: bool) -> Value {
        let ordinary = self.pitch(rng);
        match manner {
            Manner::Zero => rng.pick(&[Value::Whole(0), Value::float(0.0), Value::float(-0.0)]),
            Manner::Negative => rng.pick(&[
                Value::float(-ordinary),
                Value::Whole(-1 - ordinary as i32),
                Value::float(-1.0e9),
                Value::float(-f32::from_bits(1)),
            ]),
            Manner::Whole if first => rng.pick(&[
                Value::Whole(ordinary as i32 + 1),
                Value::Whole(16_777_217),
                Value::Whole(33_554_435),
                Value::Whole(i32::MAX),
            ]),
            Manner::Whole => Value::Whole(ordinary as i32 + 1),
            Manner::Huge if first => Value::float(rng.pick(&[1.0e6, 1.0e12, 1.0e25, 1.0e37])),
            Manner::Huge => Value::float(rng.pick(&[1.0e6, 4.0e6])),
            _ => Value::float(rng.pick(&[
                ordinary / 1.0e3,
                ordinary / 1.0e4,
                1.0e-3,
                f32::from_bits(1),
            ])),
        }
    }
}
