//! Damaged sheets, each with its number by construction, and sheets that lie
//! just inside a limit.

use super::{Labelled, MAX_COUNT, MAX_NAME};
use crate::refusal::Refusal;
use crate::rng::Rng;
use crate::sheet::{group, pieces, value, write, Place, Segment, Sheet, Target, Value};

/// Float bits that are not finite.
pub(super) const NOT_FINITE: [u32; 7] = [
    0x7F80_0000,
    0xFF80_0000,
    0x7FC0_0000,
    0xFFC0_0000,
    0x7F80_0001,
    0xFFFF_FFFF,
    0x7FFF_FFFF,
];

/// A sheet in pieces.
type Pieces = Vec<(Place, Vec<u8>)>;

/// Gathers the cases of one good sheet.
pub(super) struct Cases {
    sheet: Sheet,
    pub(super) pieces: Pieces,
    pub(super) all: Vec<Labelled>,
}

/// All damages of one good sheet. Keep it small: it is cut at every byte, and
/// every pair of pieces is damaged.
pub fn of_sheet(sheet: &Sheet) -> Vec<Labelled> {
    let mut cases = Cases::new(sheet);
    cases.cuts();
    cases.left_over();
    cases.malformed();
    cases.not_finite();
    cases.both();
    cases.cut_behind_not_finite();
    cases.all
}

impl Cases {
    pub(super) fn new(sheet: &Sheet) -> Cases {
        Cases {
            sheet: sheet.clone(),
            pieces: pieces(sheet),
            all: Vec::new(),
        }
    }

    pub(super) fn add(
        &mut self,
        bytes: Vec<u8>,
        label: Option<Refusal>,
        reason: impl Into<String>,
    ) {
        self.all.push(Labelled {
            bytes,
            label,
            reason: reason.into(),
        });
    }

    pub(super) fn with(&self, changes: &[(usize, Vec<u8>)]) -> Vec<u8> {
        let mut pieces = self.pieces.clone();
        for (at, bytes) in changes {
            pieces[*at].1 = bytes.clone();
        }
        join(&pieces)
    }

    fn cuts(&mut self) {
        let good = join(&self.pieces);
        for length in 0..good.len() {
            let reason = format!("sheet cut to {length} bytes");
            self.add(good[..length].to_vec(), Some(Refusal::Sheet), reason);
        }
        self.add(good, None, "good sheet");
    }

    fn left_over(&mut self) {
        for tail in [&[0u8][..], &[2], &[0xFF], &[0, 0, 0, 0]] {
            let bytes = [&join(&self.pieces), tail].concat();
            self.add(bytes, Some(Refusal::Sheet), "bytes left over");
        }
    }

    /// Every piece in every way that its place can be malformed.
    fn malformed(&mut self) {
        for at in 0..self.pieces.len() {
            for (bytes, what) in self.malformed_forms(at) {
                let place = self.pieces[at].0;
                let reason = format!("{place:?} at piece {at}: {what}");
                self.add(self.with(&[(at, bytes)]), Some(Refusal::Sheet), reason);
            }
        }
    }

    pub(super) fn malformed_forms(&self, at: usize) -> Vec<(Vec<u8>, String)> {
        let (place, bytes) = &self.pieces[at];
        match place {
            Place::SegmentCount | Place::TargetCount => {
                bad_groups(bytes, &[MAX_COUNT + 1, u32::MAX as usize])
            }
            Place::Follower => {
                let count = self.sheet.segments.len();
                bad_groups(bytes, &[count + 1, MAX_COUNT + 1, u32::MAX as usize])
            }
            Place::NameLength => bad_lengths(bytes),
            Place::Name => bad_names(bytes),
            Place::Value => bad_kinds(bytes),
        }
    }

    /// A float that is not finite in every place where a value stands.
    fn not_finite(&mut self) {
        for at in self.values() {
            for bits in NOT_FINITE {
                let bytes = self.with(&[(at, value(Value::Float(bits)))]);
                let reason = format!("value at piece {at} is {bits:08x}");
                self.add(bytes, Some(Refusal::NotFinite), reason);
            }
            for bits in [0x7F7F_FFFF, 0xFF7F_FFFF, 1, 0x8000_0000] {
                let bytes = self.with(&[(at, value(Value::Float(bits)))]);
                self.add(bytes, None, format!("value at piece {at} is {bits:08x}"));
            }
        }
    }

    pub(super) fn values(&self) -> Vec<usize> {
        let is_value = |at: &usize| self.pieces[*at].0 == Place::Value;
        (0..self.pieces.len()).filter(is_value).collect()
    }

    /// A float that is not finite and an 8 before or behind it: the first one
    /// in reading order counts.
    fn both(&mut self) {
        for at in self.values() {
            let float = value(Value::Float(NOT_FINITE[at % NOT_FINITE.len()]));
            for other in (0..self.pieces.len()).filter(|other| *other != at) {
                let Some((bytes, what)) = self.malformed_forms(other).pop() else {
                    continue;
                };
                let label = match other < at {
                    true => Refusal::Sheet,
                    false => Refusal::NotFinite,
                };
                let changed = self.with(&[(at, float.clone()), (other, bytes)]);
                let reason = format!("not finite at piece {at}, {what} at piece {other}");
                self.add(changed, Some(label), reason);
            }
            let mut bytes = self.with(&[(at, float)]);
            bytes.push(0);
            let reason = format!("not finite at piece {at}, byte left over");
            self.add(bytes, Some(Refusal::NotFinite), reason);
        }
    }

    /// The sheet ends within a float that is not finite, or right behind it.
    fn cut_behind_not_finite(&mut self) {
        for at in self.values() {
            let mut pieces = self.pieces[..=at].to_vec();
            pieces[at].1 = value(Value::Float(0x7FC0_0000));
            let bytes = join(&pieces);
            let short = bytes[..bytes.len() - 1].to_vec();
            let reason = format!("cut behind a NaN at piece {at}");
            self.add(bytes, Some(Refusal::NotFinite), reason);
            let reason = format!("cut within a NaN at piece {at}");
            self.add(short, Some(Refusal::Sheet), reason);
        }
    }
}

pub(super) fn join(pieces: &[(Place, Vec<u8>)]) -> Vec<u8> {
    pieces.iter().flat_map(|(_, bytes)| bytes.clone()).collect()
}

/// Malformed groups around a good one, and numbers above the limit.
fn bad_groups(good: &[u8], above: &[usize]) -> Vec<(Vec<u8>, String)> {
    let mut forms: Vec<(Vec<u8>, String)> = above
        .iter()
        .map(|number| (group(*number), format!("number {number}")))
        .collect();
    for groups in [good.len() + 1, good.len() + 2, 5] {
        let reason = format!("{groups} groups, not the shortest form");
        forms.push((stretched(good, groups, 0), reason));
    }
    forms.push((stretched(good, 5, 0x10), "five groups, bit 32 set".into()));
    forms.push((
        stretched(good, 5, 0x7F),
        "five groups, above 32 bits".into(),
    ));
    forms.push((stretched(good, 6, 0), "six groups, the last 0".into()));
    forms.push((stretched(good, 6, 1), "six groups".into()));
    forms.push((vec![0xFF; 9], "groups without an end".into()));
    forms
}

/// The groups of a good number drawn out to `count` groups, the last as given.
fn stretched(good: &[u8], count: usize, last: u8) -> Vec<u8> {
    let mut bytes: Vec<u8> = good.iter().map(|byte| byte | 0x80).collect();
    bytes.resize(count - 1, 0x80);
    bytes.push(last);
    bytes
}

fn bad_lengths(good: &[u8]) -> Vec<(Vec<u8>, String)> {
    let mut forms = bad_groups(good, &[MAX_NAME + 1, 127, 128, 300]);
    let long = [&[MAX_NAME as u8 + 1][..], &[b'a'; MAX_NAME + 1]].concat();
    forms.push((long, "name of 33 bytes".into()));
    forms.push((vec![0x80 | good[0]], "length byte with bit 7 set".into()));
    forms
}

/// One byte of a name at a time outside 33 to 126.
fn bad_names(good: &[u8]) -> Vec<(Vec<u8>, String)> {
    let mut forms = Vec::new();
    for place in 0..good.len() {
        for byte in [0, 10, 31, 32, 127, 128, 255] {
            let mut name = good.to_vec();
            name[place] = byte;
            forms.push((name, format!("name byte {byte}")));
        }
    }
    forms
}

fn bad_kinds(good: &[u8]) -> Vec<(Vec<u8>, String)> {
    let kind = |kind: u8| {
        let mut bytes = good.to_vec();
        bytes[0] = kind;
        (bytes, format!("kind {kind}"))
    };
    [5, 4, 0x30, 0x80, 0xFF].map(kind).to_vec()
}

/// A small good sheet with all kinds of values in all places.
pub fn small(rng: &mut Rng, phones: &[String]) -> Sheet {
    let mut sheet = Sheet::default();
    let segments = rng.between(1, 4);
    for _ in 0..segments {
        sheet.segments.push(Segment {
            name: rng.pick(phones),
            end: any_value(rng),
            follower: rng.below(segments + 1),
        });
    }
    for _ in 0..rng.below(4) {
        sheet.targets.push(Target {
            pos: any_value(rng),
            f0: any_value(rng),
        });
    }
    sheet
}

fn any_value(rng: &mut Rng) -> Value {
    match rng.below(3) {
        0 => Value::Whole(rng.u32() as i32),
        1 => Value::float(rng.unit() as f32 * 200.0),
        _ => Value::Absent,
    }
}

/// Sheets at the limits of counts, names and followers.
pub fn limits() -> Vec<Labelled> {
    let mut all = vec![labelled(&Sheet::default(), None, "empty sheet")];
    for count in [127, 128, 129, MAX_COUNT, MAX_COUNT + 1] {
        let label = (count > MAX_COUNT).then_some(Refusal::Sheet);
        let segments = Sheet {
            segments: vec![segment("", 0); count],
            targets: Vec::new(),
        };
        all.push(labelled(&segments, label, &format!("{count} segments")));
        let targets = Sheet {
            segments: Vec::new(),
            targets: vec![target(); count],
        };
        all.push(labelled(&targets, label, &format!("{count} targets")));
        all.extend(follower_limits(count));
    }
    for length in [0, 1, MAX_NAME - 1, MAX_NAME, MAX_NAME + 1, 127, 128] {
        let label = (length > MAX_NAME).then_some(Refusal::Sheet);
        all.push(one_name(&vec![b'n'; length], label));
    }
    for byte in 0..=255u8 {
        let label = (!(33..=126).contains(&byte)).then_some(Refusal::Sheet);
        all.push(one_name(&[byte], label));
        all.push(one_name(&[b'a', byte, b'z'], label));
    }
    for kind in 4..=255u8 {
        let bytes = [&[1, 0, kind][..], &[0; 6]].concat();
        all.push(Labelled {
            bytes,
            label: Some(Refusal::Sheet),
            reason: format!("kind {kind}"),
        });
    }
    all
}

fn segment(name: &str, follower: usize) -> Segment {
    Segment {
        name: name.to_string(),
        end: Value::Absent,
        follower,
    }
}

fn target() -> Target {
    Target {
        pos: Value::Absent,
        f0: Value::Absent,
    }
}

fn labelled(sheet: &Sheet, label: Option<Refusal>, reason: &str) -> Labelled {
    Labelled {
        bytes: write(sheet),
        label,
        reason: reason.to_string(),
    }
}

/// The follower of the first and of the last of `count` segments, at the count
/// and one above it.
fn follower_limits(count: usize) -> Vec<Labelled> {
    let mut all = Vec::new();
    for (follower, at) in [
        (count, 0),
        (count + 1, 0),
        (count, count - 1),
        (count + 1, count - 1),
    ] {
        let mut segments = vec![segment("k", 0); count];
        segments[at].follower = follower;
        let sheet = Sheet {
            segments,
            targets: Vec::new(),
        };
        let unfit = count > MAX_COUNT || follower > count;
        let reason = format!("follower {follower} of {count} segments");
        all.push(labelled(&sheet, unfit.then_some(Refusal::Sheet), &reason));
    }
    all
}

/// A sheet of one segment with this name.
fn one_name(name: &[u8], label: Option<Refusal>) -> Labelled {
    let mut bytes = vec![1];
    bytes.extend(group(name.len()));
    bytes.extend(name);
    bytes.extend([2, 0, 0]);
    Labelled {
        bytes,
        label,
        reason: format!("name of {} bytes, {name:?}", name.len()),
    }
}
