//! Functions of libprobe_call.a: units and marks.

unsafe extern "C" {
    fn probe_pitch_marks(
        sheet: *const u8,
        sheet_len: usize,
        rate: u32,
        marks: *mut u8,
        marks_len: usize,
    ) -> u32;
    fn probe_natural_marks(
        file: *const u8,
        file_len: usize,
        sheet: *const u8,
        sheet_len: usize,
        fold: u32,
        marks: *mut u8,
        marks_len: usize,
    ) -> u32;
    fn probe_units(
        file: *const u8,
        file_len: usize,
        sheet: *const u8,
        sheet_len: usize,
        fold: u32,
        out: *mut u8,
        out_len: usize,
    ) -> usize;
}

/// The units of a call, or the answer where it is no count: first period, the
/// period after the last, target end.
pub fn units(file: &[u8], sheet: &[u8], fold: bool, room: usize) -> Result<Vec<[usize; 3]>, usize> {
    let mut out = vec![0; 24 * room];
    let (start, length) = (out.as_mut_ptr(), out.len());
    // SAFETY: slices of their lengths that do not overlap.
    let answer = unsafe {
        probe_units(
            file.as_ptr(),
            file.len(),
            sheet.as_ptr(),
            sheet.len(),
            fold.into(),
            start,
            length,
        )
    };
    if answer % 16 != 0 {
        return Err(answer);
    }
    let word = |eight: &[u8]| u64::from_le_bytes(eight.try_into().unwrap_or_default()) as usize;
    let unit = |bytes: &[u8]| [word(&bytes[..8]), word(&bytes[8..16]), word(&bytes[16..])];
    Ok(out.chunks(24).take(answer / 16).map(unit).collect())
}

/// The pitch marks, as far as a buffer of `room` bytes goes, or the number of
/// the refusal; and whether the bytes past the marks are as they were.
pub fn pitch_marks(sheet: &[u8], rate: u32, room: usize) -> (Result<Vec<usize>, u32>, bool) {
    const GUARD: u8 = 0x5A;
    let mut marks = vec![GUARD; room];
    let (out, length) = (marks.as_mut_ptr(), marks.len());
    // SAFETY: slices of their lengths that do not overlap.
    let answer = unsafe { probe_pitch_marks(sheet.as_ptr(), sheet.len(), rate, out, length) };
    let filled = match answer % 16 {
        0 => answer as usize / 4,
        _ => 0,
    };
    let kept = marks[filled.min(room)..].iter().all(|byte| *byte == GUARD);
    let found = match answer % 16 {
        0 => Ok(words(&marks[..filled.min(room)])),
        _ => Err(answer),
    };
    (found, kept)
}

fn words(bytes: &[u8]) -> Vec<usize> {
    let word = |four: &[u8]| u32::from_le_bytes(four.try_into().unwrap_or_default()) as usize;
    bytes.chunks(4).map(word).collect()
}

/// The marks of the simple join, or the number of the refusal.
pub fn natural_marks(file: &[u8], sheet: &[u8], fold: bool, room: usize) -> Result<Vec<usize>, u32> {
    let mut marks = vec![0; room];
    let (out, length) = (marks.as_mut_ptr(), marks.len());
    // SAFETY: slices of their lengths that do not overlap.
    let answer = unsafe {
        probe_natural_marks(
            file.as_ptr(),
            file.len(),
            sheet.as_ptr(),
            sheet.len(),
            fold.into(),
            out,
            length,
        )
    };
    match answer % 16 {
        0 => Ok(words(&marks[..answer as usize / 4])),
        _ => Err(answer),
    }
}
