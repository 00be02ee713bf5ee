//! The functions of libprobe.a. Those that take and return
//! numbers touch no memory, so calling them is safe.

unsafe extern "C" {
    pub safe fn probe_f64_to_f32(x: f64) -> f32;
    pub safe fn probe_f32_to_i16(x: f32) -> i16;
    pub safe fn probe_f32_to_i32(x: f32) -> i32;
    pub safe fn probe_f32_to_usize(x: f32) -> usize;
    pub safe fn probe_f64_to_usize(x: f64) -> usize;
    pub safe fn probe_f32_to_nearest(x: f32) -> usize;
    pub safe fn probe_f32_from_word(word: u32) -> f32;
    pub safe fn probe_f32_to_word(x: f32) -> u32;
    pub safe fn probe_u32_to_f32(n: u32) -> f32;
    /// A C bool, read as a byte so that any byte but 0 and 1 shows.
    pub safe fn probe_is_nearer(p: f32, a: f32, b: f32) -> u8;
    pub safe fn probe_wrapping_mul(a: u32, b: u32) -> u32;
    pub safe fn probe_divide_by_16384(acc: u32) -> u32;
    pub safe fn probe_ulaw_to_i16(byte: u8) -> i16;
    pub safe fn probe_i16_to_ulaw(sample: i16) -> u8;
    pub safe fn probe_quan(val: i32) -> u32;
    fn probe_text_to_f32(text: *const u8, text_len: usize) -> f32;
    fn probe_decode_adpcm(packed: *const u8, packed_len: usize, out: *mut u8, out_len: usize);
    fn probe_resynthesise(
        filter: u32,
        order: usize,
        coeff_min: f32,
        coeff_range: f32,
        rows: *const u8,
        rows_len: usize,
        first: usize,
        excitation: *const u8,
        excitation_len: usize,
        samples: *mut u8,
        samples_len: usize,
    );
}

// A slice reaches C as a pointer and a count.

pub fn text_to_f32(text: &[u8]) -> f32 {
    // SAFETY: it is a slice of its length.
    unsafe { probe_text_to_f32(text.as_ptr(), text.len()) }
}

pub fn decode_adpcm(packed: &[u8], out: &mut [u8]) {
    // SAFETY: both are slices of their lengths, and they do not overlap.
    unsafe { probe_decode_adpcm(packed.as_ptr(), packed.len(), out.as_mut_ptr(), out.len()) }
}

/// Two periods from a fresh state: `scales` are coeff_min and coeff_range, and
/// the first period has `first` bytes of the excitation.
pub fn resynthesise(
    float: bool,
    order: usize,
    scales: (f32, f32),
    rows: &[u8],
    first: usize,
    excitation: &[u8],
    samples: &mut [u8],
) {
    // SAFETY: all three are slices of their lengths, and they do not overlap.
    unsafe {
        probe_resynthesise(
            float as u32,
            order,
            scales.0,
            scales.1,
            rows.as_ptr(),
            rows.len(),
            first,
            excitation.as_ptr(),
            excitation.len(),
            samples.as_mut_ptr(),
            samples.len(),
        )
    }
}
