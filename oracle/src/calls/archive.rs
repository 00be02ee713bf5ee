//! `diphone_need`, `diphone_plan`, `diphone_pull` and `diphone_report` of
//! libdiphone_c.a.

use super::guarded::Guarded;

unsafe extern "C" {
    fn diphone_need(
        voice: *const u8,
        voice_len: usize,
        sheet: *const u8,
        sheet_len: usize,
        settings: u32,
        need: *mut u8,
        need_len: usize,
    ) -> u32;
    fn diphone_plan(
        voice: *const u8,
        voice_len: usize,
        sheet: *const u8,
        sheet_len: usize,
        settings: u32,
        index: *mut u8,
        index_len: usize,
        marks: *mut u8,
        marks_len: usize,
        sizes: *mut u8,
        sizes_len: usize,
        rows: *mut u8,
        rows_len: usize,
        excitation: *mut u8,
        excitation_len: usize,
        decoded: *mut u8,
        decoded_len: usize,
        state: *mut u8,
        state_len: usize,
        summary: *mut u8,
        summary_len: usize,
    ) -> u32;
    fn diphone_pull(
        state: *mut u8,
        state_len: usize,
        sizes: *const u8,
        sizes_len: usize,
        rows: *const u8,
        rows_len: usize,
        excitation: *const u8,
        excitation_len: usize,
        samples: *mut u8,
        samples_len: usize,
    ) -> i64;
    fn diphone_report(
        voice: *const u8,
        voice_len: usize,
        sheet: *const u8,
        sheet_len: usize,
        settings: u32,
        lines: *mut u8,
        lines_len: usize,
    ) -> u32;
}

/// The bytes of what `diphone_need` tells, of a filter state and of a summary.
pub const NEED_BYTES: usize = 48;
pub const STATE_BYTES: usize = 168;
pub const SUMMARY_BYTES: usize = 48;

/// The files of a call, and the word of its settings.
pub struct Request<'a> {
    pub voice: &'a [u8],
    pub sheet: &'a [u8],
    pub settings: u32,
}

/// A slice without bytes goes as a null pointer.
fn pointer(bytes: &[u8]) -> *const u8 {
    match bytes {
        [] => std::ptr::null(),
        _ => bytes.as_ptr(),
    }
}

pub fn need(request: &Request, need: &mut Guarded) -> u32 {
    let Request { voice, sheet, .. } = request;
    // SAFETY: all are buffers of their lengths, and they do not overlap.
    unsafe {
        diphone_need(
            pointer(voice),
            voice.len(),
            pointer(sheet),
            sheet.len(),
            request.settings,
            need.pointer(),
            need.length(),
        )
    }
}

/// The buffers are index, marks, sizes, rows, excitation, decoded, state and
/// summary.
pub fn plan(request: &Request, buffers: &mut [Guarded; 8]) -> u32 {
    let Request { voice, sheet, .. } = request;
    let lengths = buffers.each_ref().map(Guarded::length);
    let pointers = buffers.each_mut().map(Guarded::pointer);
    // SAFETY: all are buffers of their lengths, and they do not overlap.
    unsafe {
        diphone_plan(
            pointer(voice),
            voice.len(),
            pointer(sheet),
            sheet.len(),
            request.settings,
            pointers[0],
            lengths[0],
            pointers[1],
            lengths[1],
            pointers[2],
            lengths[2],
            pointers[3],
            lengths[3],
            pointers[4],
            lengths[4],
            pointers[5],
            lengths[5],
            pointers[6],
            lengths[6],
            pointers[7],
            lengths[7],
        )
    }
}

/// Sizes, rows and excitation, as a plan filled them.
#[derive(Clone, PartialEq, Eq)]
pub struct Lent {
    pub sizes: Vec<u8>,
    pub rows: Vec<u8>,
    pub excitation: Vec<u8>,
}

impl Lent {
    pub fn of(buffers: &[Guarded; 8]) -> Lent {
        let [sizes, rows, excitation] = [2, 3, 4].map(|i| buffers[i].bytes().to_vec());
        Lent {
            sizes,
            rows,
            excitation,
        }
    }
}

pub fn pull(state: &mut Guarded, lent: &Lent, samples: &mut Guarded) -> i64 {
    let Lent {
        sizes,
        rows,
        excitation,
    } = lent;
    // SAFETY: all are buffers of their lengths, and they do not overlap.
    unsafe {
        diphone_pull(
            state.pointer(),
            state.length(),
            pointer(sizes),
            sizes.len(),
            pointer(rows),
            rows.len(),
            pointer(excitation),
            excitation.len(),
            samples.pointer(),
            samples.length(),
        )
    }
}

pub fn report(request: &Request, lines: &mut Guarded) -> u32 {
    let Request { voice, sheet, .. } = request;
    // SAFETY: all are buffers of their lengths, and they do not overlap.
    unsafe {
        diphone_report(
            pointer(voice),
            voice.len(),
            pointer(sheet),
            sheet.len(),
            request.settings,
            lines.pointer(),
            lines.length(),
        )
    }
}
