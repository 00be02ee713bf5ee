//! Functions of libprobe_call.a: the periods of a voice.

unsafe extern "C" {
    fn probe_period_samples(file: *const u8, file_len: usize, period: usize) -> usize;
    fn probe_residual(
        file: *const u8,
        file_len: usize,
        period: usize,
        out: *mut u8,
        out_len: usize,
    ) -> usize;
    fn probe_row(
        file: *const u8,
        file_len: usize,
        period: usize,
        out: *mut u8,
        out_len: usize,
    ) -> usize;
}

pub fn period_samples(file: &[u8], period: usize) -> usize {
    // SAFETY: a slice of its length.
    unsafe { probe_period_samples(file.as_ptr(), file.len(), period) }
}

/// The residual's bytes; `room` is at least as long.
pub fn residual(file: &[u8], period: usize, room: &mut [u8]) -> usize {
    let (out, length) = (room.as_mut_ptr(), room.len());
    // SAFETY: slices of their lengths that do not overlap.
    unsafe { probe_residual(file.as_ptr(), file.len(), period, out, length) }
}

/// The row's bytes; `room` is at least as long.
pub fn row(file: &[u8], period: usize, room: &mut [u8]) -> usize {
    let (out, length) = (room.as_mut_ptr(), room.len());
    // SAFETY: slices of their lengths that do not overlap.
    unsafe { probe_row(file.as_ptr(), file.len(), period, out, length) }
}
