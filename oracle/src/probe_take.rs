//! Functions of libprobe_call.a: windows and nearest periods.

unsafe extern "C" {
    fn probe_window(
        file: *const u8,
        file_len: usize,
        period: usize,
        window: *mut u8,
        window_len: usize,
        decoded: *mut u8,
        decoded_len: usize,
    ) -> u32;
    fn probe_nearest_period(
        file: *const u8,
        file_len: usize,
        first: usize,
        last: usize,
        place: u32,
    ) -> usize;
}

/// Puts a period into a window, and decodes it to the front of a buffer.
/// Whether it is there and the buffer is long enough.
pub fn window(file: &[u8], period: usize, window: &mut [u8], decoded: &mut [u8]) -> bool {
    let (start, length) = (window.as_mut_ptr(), window.len());
    let (buffer, room) = (decoded.as_mut_ptr(), decoded.len());
    // SAFETY: slices of their lengths that do not overlap.
    let answer =
        unsafe { probe_window(file.as_ptr(), file.len(), period, start, length, buffer, room) };
    answer != 0
}

/// The period nearest to a place, of those from `first` on and before `last`.
pub fn nearest_period(file: &[u8], first: usize, last: usize, place: f32) -> usize {
    // SAFETY: a slice of its length.
    unsafe { probe_nearest_period(file.as_ptr(), file.len(), first, last, place.to_bits()) }
}
