//! Calls at the limits of slopes, marks and target ends (10, 11 and 12), and
//! calls with several causes at once.

use super::sheets::largest;
use super::voices::{file, plain, EntrySpec, Vocabulary, VoiceSpec};
use super::{MAX_MARKS, MAX_PLACE};
use crate::call::{Join, Settings};
use crate::refusal::Refusal;
use crate::sheet::{write, Segment, Sheet, Target, Value};

/// A call with the answer that it must get.
#[derive(Clone)]
pub struct LabelledCall {
    pub voice: Vec<u8>,
    pub sheet: Vec<u8>,
    pub settings: Settings,
    /// Nothing where it is accepted.
    pub label: Option<Refusal>,
    pub reason: String,
}

/// Gathers the cases.
#[derive(Default)]
struct Cases {
    all: Vec<LabelledCall>,
}

pub fn all() -> Vec<LabelledCall> {
    let mut cases = Cases::default();
    cases.slopes();
    cases.target_ends();
    cases.modified_marks();
    cases.modified_counts();
    cases.simple_marks();
    cases.simple_counts();
    cases.order_of_causes();
    cases.without_units();
    cases.unfit_files();
    cases.largest_sheet();
    cases.all
}

impl Cases {
    fn add(
        &mut self,
        voice: &VoiceSpec,
        sheet: &Sheet,
        join: Join,
        label: Option<Refusal>,
        reason: impl Into<String>,
    ) {
        self.all.push(LabelledCall {
            voice: file(&voice.sections()),
            sheet: write(sheet),
            settings: Settings::new(join),
            label,
            reason: reason.into(),
        });
    }

    /// A cause of the modified join; the other joins do not meet it.
    fn modified(&mut self, voice: &VoiceSpec, sheet: &Sheet, label: Option<Refusal>, reason: &str) {
        self.add(voice, sheet, Join::Modified, label, reason);
        self.add(
            voice,
            sheet,
            Join::Simple,
            None,
            format!("{reason}, simple"),
        );
        self.add(voice, sheet, Join::None, None, format!("{reason}, none"));
    }

    /// Slopes around f32's largest. Where the first f0 is not above 0 no mark
    /// is made, and the slope is worked out all the same.
    fn slopes(&mut self) {
        let voice = two_periods(8000);
        let max = f32::MAX;
        let tie = 2.0f32.powi(103);
        let below_tie = f32::from_bits(tie.to_bits() - 1);
        let cases = [
            ([0.0, max, 1.0], false, "slope at f32's largest"),
            ([-below_tie, max, 1.0], false, "slope just below the tie"),
            ([-tie, max, 1.0], true, "slope at the tie to infinity"),
            ([tie, -max, 1.0], true, "slope at the tie, downwards"),
            (
                [below_tie, -max, 1.0],
                false,
                "slope below the tie, downwards",
            ),
            ([-max, max, 1.0], true, "slope twice the largest"),
            (
                [0.0, max, 0.999_999_94],
                true,
                "slope over a step below one",
            ),
            (
                [0.0, 1.0, f32::from_bits(1)],
                true,
                "slope over the least step",
            ),
            (
                [0.0, -1.0e-7, f32::from_bits(1)],
                false,
                "slope small enough",
            ),
        ];
        for ([from, to, pos], refused, reason) in cases {
            // Upwards no mark is made; downwards the first step is very small
            // and the second target is reached at once only where it is near.
            let sheet = sheet(&[0.01, 0.02], &[(0.0, from), (pos, to)]);
            let label = match (refused, from > 0.0) {
                (true, _) => Some(Refusal::Slope),
                (false, true) => Some(Refusal::TooManyMarks),
                (false, false) => None,
            };
            self.modified(&voice, &sheet, label, reason);
        }
        let behind = [(0.0, 100.0), (-2.0, 0.0), (-1.0, max), (-0.5, -max)];
        let reason = "slope between two targets before time 0";
        self.modified(
            &voice,
            &sheet(&[0.01, 0.02], &behind),
            Some(Refusal::Slope),
            reason,
        );
        let at_zero = [(0.0, max), (0.0, -max), (0.0, max)];
        let reason = "no slope where time equals the position";
        self.modified(&voice, &sheet(&[0.01, 0.02], &at_zero), None, reason);
    }

    fn target_ends(&mut self) {
        let voice = two_periods(1);
        let far = MAX_PLACE as f32;
        let cases = [
            ([far, 0.0], false, "left target end at the limit"),
            ([far + 1.0, 0.0], true, "left target end one above"),
            ([0.0, 2.0 * far], false, "middle target end at the limit"),
            ([0.0, 2.0 * far + 2.0], true, "middle target end one above"),
            ([-1.0e9, 2.0e9], true, "middle target end far above"),
            ([f32::MAX, f32::MAX], true, "target ends that overflow"),
            ([f32::MIN, f32::MIN], false, "target ends below zero"),
            ([f32::MIN, f32::MAX], false, "target ends that cancel"),
        ];
        for (ends, refused, reason) in cases {
            let label = refused.then_some(Refusal::TooFar);
            let sheet = sheet(&ends, &[]);
            self.modified(&voice, &sheet, label, reason);
        }
        let last = sheet(&[0.0, 1.0, 2.0, 3.0e9], &[]);
        let reason = "only the last target end is above";
        self.modified(&voice, &last, Some(Refusal::TooFar), reason);
    }

    fn modified_marks(&mut self) {
        let ends = [1.0, 2.0];
        let (rate, f0) = last_place();
        let voice = two_periods(rate);
        let contour = [(0.0, f0), (1.0, f0)];
        let reason = "first mark at the limit";
        self.modified(&voice, &sheet(&ends, &contour), None, reason);

        let voice = two_periods(1);
        let f0 = 2.0f32.powi(-24);
        let contour = [(0.0, f0), (1.0, f0)];
        let reason = "first mark one above the limit";
        let label = Some(Refusal::TooFar);
        self.modified(&voice, &sheet(&ends, &contour), label, reason);

        let contour = [(0.0, 1.0), (10.0, 1.0), (11.0, f32::from_bits(1))];
        let sheet_far = sheet(
            &ends,
            &[&contour[..], &[(12.0, f32::from_bits(1))]].concat(),
        );
        let reason = "a mark far above behind good ones";
        self.modified(&voice, &sheet_far, label, reason);

        let least = f32::from_bits(1);
        let contour = [(0.0, least), (1.0, least)];
        let voice = two_periods(48_000);
        let reason = "first mark at 2 to the power of 149 seconds";
        self.modified(&voice, &sheet(&ends, &contour), label, reason);
    }

    fn modified_counts(&mut self) {
        let voice = two_periods(8000);
        let f0 = MAX_MARKS as f32;
        let ends = [0.5, 1.5];
        let contour = [(0.0, f0), (1.0, f0)];
        self.modified(&voice, &sheet(&ends, &contour), None, "65,536 marks");

        let label = Some(Refusal::TooManyMarks);
        let contour = [(0.0, f0), (1.000_000_1, f0)];
        self.modified(&voice, &sheet(&ends, &contour), label, "65,537 marks");

        let contour = [(0.0, f0), (1.0, f0), (2.0, 1.0)];
        let reason = "65,537 marks over two targets";
        self.modified(&voice, &sheet(&ends, &contour), label, reason);

        for huge in [1.0e17, 1.0e30, f32::MAX] {
            let contour = [(0.0, 1.0), (2.0, 1.0), (3.0, huge), (4.0, huge)];
            let reason = "time cannot advance";
            self.modified(&voice, &sheet(&ends, &contour), label, reason);
            let contour = [(0.0, huge), (1.0, huge)];
            let reason = "time hardly moves";
            self.modified(&voice, &sheet(&ends, &contour), label, reason);
        }
    }

    /// 256 periods of 65,535 samples and one of 255 end at the limit.
    fn simple_marks(&mut self) {
        for (last, label) in [(255, None), (256, Some(Refusal::TooFar))] {
            let mut voice = plain(2, vec![0, 65_535, 65_535 + last]);
            voice.residual = vec![0xFF; 65_535 + last as usize];
            voice.entries = vec![entry("l-l", 0, [1, 0]), entry("l-s", 1, [0, 1])];
            let mut names = vec!["l"; 257];
            names.push("s");
            let sheet = sheet_of(&names, &[], &[]);
            let reason = format!("simple: last period of {last} samples");
            self.add(&voice, &sheet, Join::Simple, label, reason);
            self.add(&voice, &sheet, Join::Modified, None, "the same, modified");
        }
    }

    /// 128 pairs of 510 periods and one of 256 make 65,536 marks.
    fn simple_counts(&mut self) {
        let most = sheet_of(&counting_names(&["b"]), &[], &[]);
        let more = sheet_of(&counting_names(&["b", "c"]), &[], &[]);
        let empty = counting_voice(None);
        let many = Some(Refusal::TooManyMarks);
        self.add(&empty, &most, Join::Simple, None, "simple: 65,536 marks");
        self.add(&empty, &more, Join::Simple, many, "simple: 65,537 marks");

        let far_before = counting_voice(Some(FRAMES - 2));
        let reason = "simple: mark 65,536 too far, then one mark more";
        let far = Some(Refusal::TooFar);
        self.add(&far_before, &more, Join::Simple, far, reason);

        let far_at = counting_voice(Some(FRAMES - 1));
        let reason = "simple: mark 65,537 too far and one too many";
        self.add(&far_at, &more, Join::Simple, many, reason);
        let reason = "simple: 65,536 marks up to just below the limit";
        self.add(&far_at, &most, Join::Simple, None, reason);
    }

    /// Target ends come before marks; of the marks the first cause counts.
    fn order_of_causes(&mut self) {
        let voice = two_periods(8000);
        let steep = [(0.0, 0.0), (1.0e-3, f32::MAX)];
        let reason = "a target end too far and a slope";
        let label = Some(Refusal::TooFar);
        self.modified(&voice, &sheet(&[0.0, 1.0e9], &steep), label, reason);

        let many = [(0.0, 1.0e6), (1.0, 1.0e6), (1.5, 0.0), (1.6, f32::MAX)];
        let reason = "too many marks, then a slope";
        let label = Some(Refusal::TooManyMarks);
        self.modified(&voice, &sheet(&[0.1, 0.2], &many), label, reason);

        let steep_first = [(0.0, 0.0), (1.0e-3, f32::MAX), (1.0, 1.0e6), (2.0, 1.0e6)];
        let reason = "a slope, then too many marks";
        let label = Some(Refusal::Slope);
        self.modified(&voice, &sheet(&[0.1, 0.2], &steep_first), label, reason);

        let far_first = [(0.0, 1.0e-9), (1.0, 1.0e-9), (1.5, 0.0), (1.6, f32::MAX)];
        let reason = "a mark too far, then a slope";
        let label = Some(Refusal::TooFar);
        self.modified(&voice, &sheet(&[0.1, 0.2], &far_first), label, reason);
    }

    /// With fewer than two segments no mark is made, so nothing is refused.
    /// The Rust goes along the contour there, and may never end.
    fn without_units(&mut self) {
        let voice = two_periods(8000);
        let contours = [
            vec![(0.0, 0.0), (1.0e-3, f32::MAX)],
            vec![(0.0, 1.0e-9), (1.0, 1.0e-9)],
            vec![(0.0, 1.0e6), (1.0, 1.0e6)],
            vec![(0.0, 1.0), (2.0, 1.0), (3.0, 1.0e30), (4.0, 1.0e30)],
        ];
        for names in [&[][..], &["pau"]] {
            for contour in &contours {
                let sheet = sheet_of(names, &[f32::MAX], contour);
                let reason = "fewer than two segments make no mark";
                self.modified(&voice, &sheet, None, reason);
            }
        }
    }

    /// 4,096 segments and as many targets.
    fn largest_sheet(&mut self) {
        let words = Vocabulary {
            phones: ["pau", "aa", "k"].map(String::from).to_vec(),
        };
        let sheet = largest(&words);
        let reason = "the largest sheet";
        self.modified(&two_periods(8000), &sheet, None, reason);
    }

    /// An unfit voice comes before an unfit sheet, and that before the call.
    fn unfit_files(&mut self) {
        let good = file(&two_periods(8000).sections());
        let steep = [(0.0, 0.0), (1.0e-3, f32::MAX)];
        let steep = write(&sheet(&[0.0, 1.0], &steep));
        let mut unfit_voices = vec![(Vec::new(), Some(Refusal::Magic)), (good.clone(), None)];
        unfit_voices.push((good[..good.len() - 1].to_vec(), Some(Refusal::Section)));
        let mut zero_rate = two_periods(8000);
        zero_rate.header.rate = 0;
        unfit_voices.push((file(&zero_rate.sections()), Some(Refusal::Header)));
        let sheets = [
            (vec![0xFF], Some(Refusal::Sheet)),
            (vec![0, 1, 1, 0, 0, 0xC0, 0x7F], Some(Refusal::NotFinite)),
            (steep, Some(Refusal::Slope)),
        ];
        for (voice, first) in &unfit_voices {
            for (sheet, second) in &sheets {
                self.all.push(LabelledCall {
                    voice: voice.clone(),
                    sheet: sheet.clone(),
                    settings: Settings::new(Join::Modified),
                    label: first.or(*second),
                    reason: "unfit files".to_string(),
                });
            }
        }
    }
}

pub fn entry(name: &str, start: u16, halves: [u8; 2]) -> EntrySpec {
    EntrySpec {
        name: name.as_bytes().to_vec(),
        start,
        halves,
    }
}

/// Document 01's example voice at a given rate.
pub fn two_periods(rate: u32) -> VoiceSpec {
    let mut voice = plain(2, vec![0, 2, 5]);
    voice.header.rate = rate;
    voice.residual = vec![0xFE, 0xEF, 0xFF, 0x7E, 0x6F];
    voice.entries[0].halves = [1, 1];
    voice
}

/// Segments named `pau` and `aa` in turn with these ends.
pub(super) fn sheet(ends: &[f32], contour: &[(f32, f32)]) -> Sheet {
    let names: Vec<&str> = (0..ends.len()).map(|i| ["pau", "aa"][i % 2]).collect();
    sheet_of(&names, ends, contour)
}

/// A sheet of these names. Missing ends are absent.
fn sheet_of(names: &[&str], ends: &[f32], contour: &[(f32, f32)]) -> Sheet {
    let end = |i: usize| ends.get(i).map_or(Value::Absent, |end| Value::float(*end));
    let segment = |(i, name): (usize, &&str)| Segment {
        name: name.to_string(),
        end: end(i),
        follower: 0,
    };
    let target = |(pos, f0): &(f32, f32)| Target {
        pos: Value::float(*pos),
        f0: Value::float(*f0),
    };
    Sheet {
        segments: names.iter().enumerate().map(segment).collect(),
        targets: contour.iter().map(target).collect(),
    }
}

/// A rate and an f0 whose first mark is exactly the largest place.
fn last_place() -> (u32, f32) {
    for rate in 1..=48_000u32 {
        let f0 = (f64::from(rate) / (MAX_PLACE as f64 + 0.5)) as f32;
        if (f64::from(rate) * (1.0 / f64::from(f0))) as usize == MAX_PLACE {
            return (rate, f0);
        }
    }
    panic!("no rate makes a mark at the limit");
}

const FRAMES: usize = 512;

/// A voice of 512 periods: `a-a` has the first 510, `a-b` the 256 before the
/// last, `b-c` the last. All are empty, or the first has so many samples that
/// 128 times that many come just below the limit, and one other passes it.
fn counting_voice(passing: Option<usize>) -> VoiceSpec {
    let length = |period: usize| match passing {
        Some(_) if period == 0 => MAX_PLACE / 128,
        Some(other) if period == other => 200,
        _ => 0,
    };
    let mut voice = plain(FRAMES as u32, vec![0]);
    let mut end = 0;
    for period in 0..FRAMES {
        end += length(period);
        voice.offsets.push(end as u32);
    }
    voice.residual = vec![0xFF; end];
    voice.entries = vec![
        entry("a-a", 0, [255, 255]),
        entry("a-b", FRAMES as u16 - 257, [255, 1]),
        entry("b-c", FRAMES as u16 - 1, [1, 0]),
    ];
    voice
}

/// 128 pairs `a-a`, then `a-b` and so on.
fn counting_names(last: &[&'static str]) -> Vec<&'static str> {
    let mut names = vec!["a"; 129];
    names.extend(last);
    names
}
