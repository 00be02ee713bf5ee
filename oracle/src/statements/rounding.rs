//! Calls of the float filter whose samples tell how its steps are rounded.

use crate::expected::Spoken;
use crate::dsp;
use crate::voicefile::{self, Header};

/// Whether some sample would be another if a product and its sum were rounded
/// once, together.
pub fn shows(voice: &[u8], call: &Spoken) -> bool {
    let Ok(voice) = voicefile::open(voice) else {
        return false;
    };
    let order = voice.order();
    let mut bytes = call.filled[4].iter();
    let mut outputs: Vec<f32> = Vec::new();
    for (i, period) in call.periods.iter().enumerate() {
        let row = &call.filled[3][2 * order * i..2 * order * (i + 1)];
        let row = values(&voice.header, row);
        for (sample, byte) in period.iter().zip(&mut bytes) {
            let output = fused(&row, &outputs, *byte);
            if output as i16 != *sample {
                return true;
            }
            outputs.push(output);
        }
    }
    false
}

/// The row values of a row as stored.
fn values(header: &Header, row: &[u8]) -> Vec<f32> {
    let [min, range] = [header.coeff_min, header.coeff_range].map(f32::from_bits);
    let value = |q: u16| (f64::from(q) / 65535.0 * f64::from(range)) as f32 + min;
    row.chunks(2)
        .map(|pair| value(u16::from_le_bytes([pair[0], pair[1]])))
        .collect()
}

/// The output for a byte of the excitation, after the outputs so far.
fn fused(row: &[f32], outputs: &[f32], byte: u8) -> f32 {
    let start = f32::from(dsp::ulaw_to_i16(byte));
    let back = outputs.iter().rev();
    row.iter()
        .zip(back)
        .fold(start, |sum, (value, output)| value.mul_add(*output, sum))
}
