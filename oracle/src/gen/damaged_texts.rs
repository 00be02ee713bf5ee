//! Sheets with texts that are too long or cut short, each with its number by
//! construction, and with texts of any bytes, which are read.

use super::damaged_sheets::{self, join, Cases, NOT_FINITE};
use super::{small, typed, Labelled, MAX_TEXT};
use crate::refusal::Refusal;
use crate::rng::Rng;
use crate::sheet::{value, Place, Sheet, Value};

/// Length bytes above the limit.
const LONG: [u8; 8] = [13, 14, 16, 64, 127, 128, 129, 255];

/// Of a small good sheet, without texts and with some. The latter is damaged in every
/// other way too.
pub fn of_random_sheet(rng: &mut Rng) -> Vec<Labelled> {
    let words = small::vocabulary(rng);
    let sheet = damaged_sheets::small(rng, &words.phones);
    let with_texts = typed::with_some(rng, &sheet);
    let mut all = of_sheet(rng, &sheet);
    all.extend(of_sheet(rng, &with_texts));
    all.extend(damaged_sheets::of_sheet(&with_texts));
    all
}

/// Texts in the place of each value of a good sheet.
fn of_sheet(rng: &mut Rng, sheet: &Sheet) -> Vec<Labelled> {
    let mut cases = Cases::new(sheet);
    for at in cases.values() {
        cases.any_bytes(rng, at);
        cases.too_long(rng, at);
        cases.cut_short(at);
        cases.too_long_and_others(at);
    }
    cases.all
}

/// A text said to have so many bytes, with these.
fn said(length: u8, bytes: &[u8]) -> Vec<u8> {
    [&[3, length], bytes].concat()
}

impl Cases {
    /// As many bytes as there may be. None is refused with 9.
    fn any_bytes(&mut self, rng: &mut Rng, at: usize) {
        let mut texts: Vec<Vec<u8>> = (0..=MAX_TEXT).map(|length| rng.bytes(length)).collect();
        let numbers = ["nan", "inf", "-infinity", "1e39", "999999999999"];
        texts.extend(numbers.map(|text| text.into()));
        for text in texts {
            let reason = format!("text \"{}\" at piece {at}", text.escape_ascii());
            let bytes = self.with(&[(at, said(text.len() as u8, &text))]);
            self.add(bytes, None, reason);
        }
    }

    /// Too long, with all its bytes, with some, with none, within the sheet and at
    /// its end.
    fn too_long(&mut self, rng: &mut Rng, at: usize) {
        let label = Some(Refusal::LongText);
        for length in LONG {
            let bytes = rng.bytes(length.into());
            for there in [bytes.len(), rng.below(length.into()), 0] {
                let text = said(length, &bytes[..there]);
                let reason = format!("text of {length} bytes at piece {at}, {there} there");
                self.add(self.with(&[(at, text.clone())]), label, reason.clone());
                let cut = [join(&self.pieces[..at]), text].concat();
                self.add(cut, label, format!("{reason}, nothing behind"));
            }
        }
    }

    /// At the sheet's end without a length, or with fewer bytes than it says; and a
    /// text of a kind that there is not.
    fn cut_short(&mut self, at: usize) {
        let label = Some(Refusal::Sheet);
        let text = said(MAX_TEXT as u8, b"100.12345678");
        for there in 1..text.len() {
            let cut = [&join(&self.pieces[..at]), &text[..there]].concat();
            self.add(
                cut,
                label,
                format!("text at piece {at} cut to {there} bytes"),
            );
        }
        for kind in [4, 255] {
            let unknown = [&[kind], &text[1..]].concat();
            let reason = format!("text at piece {at} as kind {kind}");
            self.add(self.with(&[(at, unknown)]), label, reason);
        }
    }

    /// Too long, and an 8 or a 9 before or behind it: the first one in reading order
    /// counts.
    fn too_long_and_others(&mut self, at: usize) {
        let length = LONG[at % LONG.len()];
        let text = said(length, &vec![b'1'; length.into()]);
        for other in (0..self.pieces.len()).filter(|other| *other != at) {
            let malformed = self.malformed_forms(other).pop();
            let bits = NOT_FINITE[other % NOT_FINITE.len()];
            let is_value = self.pieces[other].0 == Place::Value;
            let not_finite = is_value.then(|| value(Value::Float(bits)));
            let causes = [
                (malformed.map(|(bytes, _)| bytes), Refusal::Sheet),
                (not_finite, Refusal::NotFinite),
            ];
            for (bytes, cause) in causes {
                let Some(bytes) = bytes else {
                    continue;
                };
                let label = match other < at {
                    true => cause,
                    false => Refusal::LongText,
                };
                let changed = self.with(&[(at, text.clone()), (other, bytes)]);
                let reason = format!("text too long at piece {at}, {cause:?} at piece {other}");
                self.add(changed, Some(label), reason);
            }
        }
        let left_over = [self.with(&[(at, text)]), vec![0]].concat();
        let reason = format!("text too long at piece {at}, byte left over");
        self.add(left_over, Some(Refusal::LongText), reason);
    }
}

/// One segment whose end is a text: of each byte alone, and of each length.
pub fn limits() -> Vec<Labelled> {
    let one = |text: Vec<u8>, label, reason| Labelled {
        bytes: [&[1, 0], &text[..], &[0, 0]].concat(),
        label,
        reason,
    };
    let mut all = Vec::new();
    for byte in 0..=255u8 {
        let reason = format!("text of the byte {byte}");
        all.push(one(said(1, &[byte]), None, reason));
        let label = (usize::from(byte) > MAX_TEXT).then_some(Refusal::LongText);
        let text = said(byte, &vec![b'7'; byte.into()]);
        all.push(one(text, label, format!("text of {byte} bytes")));
    }
    all
}
