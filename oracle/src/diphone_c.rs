//! The functions of libdiphone_c.a.

unsafe extern "C" {
    fn diphone_open(
        voice: *const u8,
        voice_len: usize,
        index: *mut u8,
        index_len: usize,
        record: *mut u8,
        record_len: usize,
    ) -> u32;
}

/// The bytes of a voice's record.
pub const VOICE_BYTES: usize = 56;

/// Slices reach C as a pointer and a count.
pub fn open(voice: &[u8], index: &mut [u8], record: &mut [u8]) -> u32 {
    // SAFETY: all are slices of their lengths, and they do not overlap.
    unsafe {
        diphone_open(
            voice.as_ptr(),
            voice.len(),
            index.as_mut_ptr(),
            index.len(),
            record.as_mut_ptr(),
            record.len(),
        )
    }
}
