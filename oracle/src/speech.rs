//! G.721 codes as a diphone voice has them: a speech-like signal, cut into
//! periods, each encoded from the reset.

use crate::dsp::access::Decoder;
use crate::rng::Rng;

/// Samples that stand before each period.
const LEAD_IN: usize = 8;

/// Glottal pulses and noise through three resonances, with moving pitch and
/// level.
pub struct Speech {
    past: [[f64; 2]; 3],
    left: usize,
    pitch: f64,
    level: f64,
}

/// 2 r cos(t) and r * r: about 600, 1200 and 2400 Hz at 8 kHz.
const RESONANCES: [[f64; 2]; 3] = [[1.7285, 0.9409], [1.0903, 0.8649], [-0.5253, 0.7225]];

impl Speech {
    pub fn new() -> Speech {
        Speech {
            past: [[0.0; 2]; 3],
            left: 0,
            pitch: 80.0,
            level: 8000.0,
        }
    }

    /// The next 16-bit sample.
    fn sample(&mut self, rng: &mut Rng) -> i16 {
        let mut x = 0.1 * (2.0 * rng.unit() - 1.0);
        if self.left == 0 {
            self.pitch = (self.pitch + 6.0 * (2.0 * rng.unit() - 1.0)).clamp(50.0, 130.0);
            self.level += 0.4 * (500.0 + 30000.0 * rng.unit() - self.level);
            self.left = self.pitch as usize;
            x += 1.0;
        }
        self.left -= 1;
        x *= self.level;
        for ([a, b], past) in RESONANCES.iter().zip(&mut self.past) {
            x += a * past[0] - b * past[1];
            *past = [x, past[0]];
            x *= 0.5;
        }
        x as i16
    }

    /// The packed codes of the next period: 60 to 160 samples and the lead-in.
    pub fn period(&mut self, rng: &mut Rng) -> Vec<u8> {
        let bytes = (LEAD_IN + 60) / 2 + rng.below(51);
        let mut decoder = Decoder::fresh();
        let mut code = |speech: &mut Speech, rng: &mut Rng| {
            let code = encode(&decoder, speech.sample(rng) as i32 >> 2);
            decoder.decode(code);
            code
        };
        (0..bytes)
            .map(|_| code(self, rng) << 4 | code(self, rng))
            .collect()
    }
}

/// The code of a 14-bit sample at the decoder's state: SUBTA, LOG, SUBTB and
/// QUAN of G.726 at 32 kbit/s.
fn encode(decoder: &Decoder, sample: i32) -> u8 {
    let estimate = (decoder.predictor_zero() + decoder.predictor_pole()) as i16 >> 1;
    let difference = sample - estimate as i32;
    let magnitude = difference.unsigned_abs() & 0x7FFF;
    let exponent = magnitude.checked_ilog2().unwrap_or(0) as i32;
    let mantissa = ((magnitude << 7) >> exponent) as i32 & 0x7F;
    let scaled = (exponent << 7) + mantissa - (decoder.step_size() >> 2);
    let level = [-124, 80, 178, 246, 300, 349, 400]
        .iter()
        .take_while(|lowest| **lowest <= scaled)
        .count() as u8;
    if difference < 0 || level == 0 {
        15 - level
    } else {
        level
    }
}
