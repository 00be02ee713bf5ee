//! The examples that document 01 prints, worked out by the Rust.

use crate::call::{self, Join, Settings};
use crate::diphone::access::{self, PlainUnit};
use crate::diphone::DiphoneVoice;
use crate::dsp::access::Decoder;
use crate::dsp::{i16_to_ulaw, ulaw_to_i16};
use crate::gen::damaged_calls::two_periods;
use crate::gen::voices::{file, plain, VoiceSpec};
use crate::gen::PHONES;
use crate::lines;
use crate::phoneset;
use crate::reference::{self, Parsed};
use crate::report::Report;
use crate::sheet::{self, Sheet, Target, Value};

pub fn run(report: &mut Report) {
    companding(report);
    adpcm(report);
    periods(report);
    marks(report);
    phones(report);
    printed(report);
}

fn companding(report: &mut Report) {
    for (byte, sample) in [(255, 0), (127, 0), (0, -32_124), (128, 32_124)] {
        report.equal(&sample, &ulaw_to_i16(byte), || format!("mu-law {byte}"));
    }
    let encoded = [
        (3, 255),
        (4, 254),
        (0, 255),
        (-1, 127),
        (32_767, 128),
        (-32_768, 0),
    ];
    for (sample, byte) in encoded {
        report.equal(&byte, &i16_to_ulaw(sample), || format!("encode {sample}"));
    }
}

fn adpcm(report: &mut Report) {
    for (code, sample, byte) in [(7, 88, 244), (8, -88, 116), (15, 0, 255)] {
        let found = Decoder::fresh().decode(code);
        let answer = (found, i16_to_ulaw(found));
        report.equal(&(sample, byte), &answer, || {
            format!("fresh G.721, code {code}")
        });
    }
}

/// The nearest period, and the two ways of centring.
fn periods(report: &mut Report) {
    let voice = opened(&voice_of(&[0, 2, 4], &[1, 2, 3, 4]));
    let unit = PlainUnit {
        first_period: 0,
        last_period: 2,
        target_end: 0,
    };
    let nearest = access::nearest_period(&voice, &unit, 1.0);
    report.equal(&1, &nearest, || "periods 2 and 2, position 1".into());

    let voice = opened(&voice_of(&[0, 3, 9], &[1, 2, 3, 4, 5, 6, 7, 8, 9]));
    let mut six = [255; 6];
    access::copy_residual(&voice, 0, &mut six);
    report.equal(&[255, 1, 2, 3, 255, 255], &six, || "3 bytes into 6".into());
    let mut three = [255; 3];
    access::copy_residual(&voice, 1, &mut three);
    report.equal(&[5, 6, 7], &three, || "6 bytes into 3".into());
}

/// Two targets, then the same with absent f0s: the second takes 64, the first 120.
fn marks(report: &mut Report) {
    let (whole, absent) = (Value::Whole, Value::Absent);
    let cases = [
        (
            vec![(0.0, whole(64)), (0.0625, whole(64))],
            vec![125, 250, 375, 500],
        ),
        (
            vec![(0.0, whole(64)), (0.0625, absent)],
            vec![125, 250, 375, 500],
        ),
        (vec![(0.0, absent), (0.03, absent)], vec![66, 133, 200, 266]),
        (vec![(0.03, absent)], vec![66, 133, 200, 266]),
        (vec![(0.0, whole(0)), (0.0625, absent)], vec![]),
        (
            vec![
                (0.0, whole(64)),
                (0.0, whole(128)),
                (0.0, absent),
                (0.03125, absent),
            ],
            vec![62, 125, 187, 250],
        ),
    ];
    let voice = opened(&two_periods(8000));
    for (targets, expected) in cases {
        let target = |(pos, f0): &(f32, Value)| Target {
            pos: Value::float(*pos),
            f0: *f0,
        };
        let sheet = Sheet {
            segments: Vec::new(),
            targets: targets.iter().map(target).collect(),
        };
        let marks = access::pitch_marks(&voice, &reference::utterance(&sheet));
        report.equal(&expected, &marks, || format!("marks of {targets:?}"));
        let mut ours = Vec::new();
        let made = call::modified_marks(8000, &sheet.contour(), &mut ours);
        report.equal(&(Ok(()), expected), &(made, ours), || {
            format!("marks of {targets:?} by document 01")
        });
    }
}

fn phones(report: &mut Report) {
    for (i, name) in PHONES.iter().enumerate() {
        let found = phoneset::phone_id(name);
        report.equal(&Some(i), &found, || format!("phone {name}"));
    }
    let unknown = phoneset::feature("xx", "vc");
    report.equal(&"0", &unknown, || "vc of an unknown phone".into());
}

/// The program's printed example, as text.
fn printed(report: &mut Report) {
    let bytes = [2, 3, 112, 97, 117, 2, 0, 2, 97, 97, 2, 0, 0];
    let spec = two_periods(8000);
    let printed = match sheet::read(&bytes) {
        Ok(sheet) => speak_lines(&opened(&spec), &sheet),
        Err(refusal) => lines::refused(refusal.number()),
    };
    let expected = "8000 2 5\n1 2 8 132\n2 3 0 -8 -132\n".to_string();
    report.equal(&expected, &printed, || "printed example".into());
}

fn speak_lines(voice: &DiphoneVoice, sheet: &Sheet) -> String {
    let settings = Settings::new(Join::Simple);
    let filled = reference::fill(voice, sheet, settings);
    let periods = reference::speak(voice, sheet, settings, &filled);
    lines::spoken(voice.sample_rate() as usize, &periods)
}

fn voice_of(offsets: &[u32], residual: &[u8]) -> VoiceSpec {
    let mut spec = plain(offsets.len() as u32 - 1, offsets.to_vec());
    spec.residual = residual.to_vec();
    spec
}

fn opened(spec: &VoiceSpec) -> Box<DiphoneVoice> {
    match reference::parse(&file(&spec.sections())) {
        Parsed::Voice(voice) => voice,
        _ => panic!("an example voice does not parse"),
    }
}
