//! Targets without a pitch by document 02: an absent f0 takes the one counted for
//! the target before it, where the Rust counts 0 Hz.

use crate::sheet::{Sheet, Value};

/// What the first target takes.
pub const FIRST: f32 = 120.0;

/// The sheet with each empty box filled in, by the bits of the f0 counted there.
/// The rest stays: an absent pos, and a whole number, of which the f32 is carried.
pub fn filled(sheet: &Sheet) -> Sheet {
    let mut counted = FIRST;
    with(sheet, |f0| {
        let f0 = match f0 {
            Value::Absent => Value::float(counted),
            written => written,
        };
        counted = f0.as_f32();
        f0
    })
}

/// The sheet with 0 Hz in each empty box: what the Rust makes of it as it stands.
pub fn zeroed(sheet: &Sheet) -> Sheet {
    with(sheet, |f0| match f0 {
        Value::Absent => Value::Whole(0),
        written => written,
    })
}

/// The sheet with the f0 of each target in turn as `f0` has it.
fn with(sheet: &Sheet, mut f0: impl FnMut(Value) -> Value) -> Sheet {
    let mut sheet = sheet.clone();
    for target in &mut sheet.targets {
        target.f0 = f0(target.f0);
    }
    sheet
}

pub fn has_empty_box(sheet: &Sheet) -> bool {
    let mut targets = sheet.targets.iter();
    targets.any(|target| target.f0 == Value::Absent)
}

/// Whether the first target that is not in the shorter sheet has no pitch.
pub fn goes_on(sheet: &Sheet, longer: &Sheet) -> bool {
    let behind = longer.targets.get(sheet.targets.len());
    behind.is_some_and(|target| target.f0 == Value::Absent)
}
