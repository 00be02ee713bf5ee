//! The filling of empty pitch boxes, with results written out, and beside a second
//! way on other sheets.

use crate::gen::pitch_calls;
use crate::pitches::{filled, has_empty_box, zeroed};
use crate::report::Report;
use crate::sheet::{Sheet, Target, Value};

pub fn run(report: &mut Report) {
    written_out(report);
    unmarked(report);
    absent_pos(report);
    for row in pitch_calls::rows() {
        let counted: Vec<u32> = row.counted().into_iter().map(f32::to_bits).collect();
        report.equal(&counted, &f0s(&filled(&row.sheet())), || {
            format!("{}: the f0s that count", row.reason)
        });
        of_sheet(&row.sheet(), report);
    }
}

/// Targets one behind the other, and the f0s that count.
fn written_out(report: &mut Report) {
    use Value::{Absent, Whole};
    let float = Value::float;
    let results: [(&[Value], &[f32]); 14] = [
        (&[], &[]),
        (&[Absent], &[120.0]),
        (&[Absent, Absent, Absent], &[120.0, 120.0, 120.0]),
        (&[float(100.0), Absent, Absent], &[100.0, 100.0, 100.0]),
        (&[Absent, float(100.0), Absent], &[120.0, 100.0, 100.0]),
        (
            &[float(90.0), Absent, Whole(80), Absent],
            &[90.0, 90.0, 80.0, 80.0],
        ),
        (&[float(90.0), Whole(0), Absent], &[90.0, 0.0, 0.0]),
        (&[float(90.0), float(0.0), Absent], &[90.0, 0.0, 0.0]),
        (&[float(90.0), float(-0.0), Absent], &[90.0, -0.0, -0.0]),
        (&[float(-7.5), Absent], &[-7.5, -7.5]),
        (&[Whole(-3), Absent, Absent], &[-3.0, -3.0, -3.0]),
        (&[Whole(16_777_217), Absent], &[16_777_216.0, 16_777_216.0]),
        (
            &[Whole(i32::MAX), Absent],
            &[2_147_483_648.0, 2_147_483_648.0],
        ),
        (
            &[Value::Float(1), Absent, float(f32::MAX), Absent],
            &[f32::from_bits(1), f32::from_bits(1), f32::MAX, f32::MAX],
        ),
    ];
    for (written, counted) in results {
        let sheet = rising(written);
        let counted: Vec<u32> = counted.iter().map(|f0| f0.to_bits()).collect();
        report.equal(&counted, &f0s(&filled(&sheet)), || {
            format!("f0s that count for {written:?}")
        });
        of_sheet(&sheet, report);
    }
    let carried = filled(&rising(&[Whole(16_777_217), Absent]));
    let boxes = [Whole(16_777_217), float(16_777_216.0)];
    report.equal(&boxes.to_vec(), &written_f0s(&carried), || {
        "a whole number stays, and its f32 is carried".into()
    });
}

/// What is carried does not ask whether a target is past the last one.
fn unmarked(report: &mut Report) {
    let target = |pos, f0| Target {
        pos: Value::float(pos),
        f0,
    };
    let sheet = |positions: [f32; 4]| Sheet {
        segments: Vec::new(),
        targets: vec![
            target(positions[0], Value::float(100.0)),
            target(positions[1], Value::float(200.0)),
            target(positions[2], Value::Absent),
            target(positions[3], Value::Absent),
        ],
    };
    for positions in [
        [1.0, 1.0, 1.0, 2.0],
        [1.0, 0.5, 0.25, 2.0],
        [1.0, 2.0, 1.0, 3.0],
        [0.0, -1.0, -2.0, 1.0],
    ] {
        let sheet = sheet(positions);
        let counted = [100.0f32, 200.0, 200.0, 200.0].map(f32::to_bits);
        report.equal(&counted.to_vec(), &f0s(&filled(&sheet)), || {
            format!("f0s that count at {positions:?}")
        });
        of_sheet(&sheet, report);
    }
}

/// An absent pos stays absent and counts 0.
fn absent_pos(report: &mut Report) {
    let target = |pos, f0| Target { pos, f0 };
    let absent = Value::Absent;
    let sheet = Sheet {
        segments: Vec::new(),
        targets: vec![
            target(absent, absent),
            target(Value::float(2.0), Value::float(50.0)),
            target(absent, absent),
        ],
    };
    let positions: Vec<Value> = filled(&sheet).targets.iter().map(|t| t.pos).collect();
    let expected = vec![absent, Value::float(2.0), absent];
    report.equal(&expected, &positions, || "absent pos".into());
    let contour = vec![(0.0, 120.0), (2.0, 50.0), (0.0, 50.0)];
    report.equal(&contour, &sheet.contour(), || "the contour".into());
}

/// A sheet of targets at 0, 1 and so on.
fn rising(f0s: &[Value]) -> Sheet {
    let target = |(place, f0): (usize, &Value)| Target {
        pos: Value::Whole(place as i32),
        f0: *f0,
    };
    Sheet {
        segments: Vec::new(),
        targets: f0s.iter().enumerate().map(target).collect(),
    }
}

fn written_f0s(sheet: &Sheet) -> Vec<Value> {
    sheet.targets.iter().map(|target| target.f0).collect()
}

/// The f0s as f32, by their bits.
fn f0s(sheet: &Sheet) -> Vec<u32> {
    let bits = |f0: Value| f0.as_f32().to_bits();
    written_f0s(sheet).into_iter().map(bits).collect()
}

/// Any sheet: no box is left empty, each is filled as the second way has it, the
/// rest stays, and so does all of a sheet without an empty box.
pub fn of_sheet(sheet: &Sheet, report: &mut Report) {
    let full = filled(sheet);
    report.check(!has_empty_box(&full), || "an empty box is left".into());
    let second: Vec<Value> = (0..sheet.targets.len())
        .map(|place| by_search(&sheet.targets[..=place]))
        .collect();
    report.equal(&second, &written_f0s(&full), || {
        "boxes filled in, and by search".into()
    });
    let mut rest = full.clone();
    for (target, old) in rest.targets.iter_mut().zip(&sheet.targets) {
        target.f0 = old.f0;
    }
    report.check(rest == *sheet, || "more than boxes were filled".into());
    report.check(filled(&full) == full, || "filled twice".into());
    if !has_empty_box(sheet) {
        report.check(full == *sheet, || "a sheet without an empty box".into());
        report.check(zeroed(sheet) == *sheet, || "the same with 0 Hz".into());
    }
}

/// The second way, for the last of some targets: its own f0, else the last one
/// that is written before it, else 120.
fn by_search(targets: &[Target]) -> Value {
    let [before @ .., last] = targets else {
        panic!("no target");
    };
    let written = |target: &&Target| target.f0 != Value::Absent;
    match (last.f0, before.iter().rfind(written)) {
        (Value::Absent, Some(target)) => Value::float(target.f0.as_f32()),
        (Value::Absent, None) => Value::float(120.0),
        (own, _) => own,
    }
}
