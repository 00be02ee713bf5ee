//! A pull on the bytes of a state, as document 01 words it; the layout of the
//! state is that of the C interface.

use super::archive::{Lent, STATE_BYTES};
use crate::call::Filter;
use crate::dsp;
use crate::voicefile::{is_scale, Header};

pub const DONE: i64 = -1;
pub const SHORT_SLICE: i64 = -14;
pub const IMPOSSIBLE: i64 = -15;

const MAX_ORDER: u32 = 32;
const PLACES: usize = 33;
const NAN: u32 = 0x7FC0_0000;

#[derive(Clone, Debug, PartialEq, Eq)]
pub struct State {
    /// 0 fixed, 1 float.
    pub filter: u32,
    pub order: u32,
    pub ring_place: u32,
    pub coeff_min: u32,
    pub coeff_range: u32,
    pub period: u64,
    pub sample_place: u64,
    /// By their bits.
    pub history: [u32; PLACES],
}

impl State {
    /// First period, sample place 0, history 0.
    pub fn fresh(header: &Header, filter: Filter) -> State {
        State {
            filter: (filter == Filter::Float).into(),
            order: header.order,
            ring_place: header.order,
            coeff_min: header.coeff_min,
            coeff_range: header.coeff_range,
            period: 0,
            sample_place: 0,
            history: [0; PLACES],
        }
    }

    pub fn bytes(&self) -> Vec<u8> {
        let words = [
            self.filter,
            self.order,
            self.ring_place,
            self.coeff_min,
            self.coeff_range,
        ];
        let mut bytes: Vec<u8> = words.iter().flat_map(|word| word.to_le_bytes()).collect();
        bytes.extend(self.period.to_le_bytes());
        bytes.extend(self.sample_place.to_le_bytes());
        bytes.extend(self.history.iter().flat_map(|word| word.to_le_bytes()));
        bytes
    }

    /// Nothing where there are too few bytes.
    pub fn read(bytes: &[u8]) -> Option<State> {
        let words: Vec<u32> = elements(bytes.get(..STATE_BYTES)?);
        let long = |i: usize| u64::from(words[i]) | u64::from(words[i + 1]) << 32;
        Some(State {
            filter: words[0],
            order: words[1],
            ring_place: words[2],
            coeff_min: words[3],
            coeff_range: words[4],
            period: long(5),
            sample_place: long(7),
            history: words[9..].try_into().ok()?,
        })
    }

    fn is_possible(&self, lent: &Lent) -> bool {
        let periods = lent.sizes.len() as u64 / 4;
        let row_end = (u128::from(self.period) + 1) * u128::from(self.order);
        self.filter <= 1
            && self.order <= MAX_ORDER
            && self.ring_place <= self.order
            && self.period <= periods
            && self.sample_place <= lent.excitation.len() as u64
            && is_scale(self.coeff_min)
            && is_scale(self.coeff_range)
            && (self.period == periods || row_end <= lent.rows.len() as u128 / 2)
    }

    fn is_done(&self, lent: &Lent) -> bool {
        self.period == lent.sizes.len() as u64 / 4
    }

    /// The next period's part of the excitation, cut to what is left of it.
    fn residual<'a>(&self, lent: &'a Lent) -> &'a [u8] {
        let start = 4 * self.period as usize;
        let size = elements(&lent.sizes[start..start + 4])[0];
        let left = &lent.excitation[self.sample_place as usize..];
        &left[..left.len().min(size as usize)]
    }

    fn row(&self, lent: &Lent) -> Vec<u16> {
        let width = 2 * self.order as usize;
        let start = width * self.period as usize;
        let pairs = lent.rows[start..start + width].chunks(2);
        pairs
            .map(|pair| u16::from_le_bytes([pair[0], pair[1]]))
            .collect()
    }

    /// The history k back, k from 1 to the order.
    fn back(&self, k: usize) -> u32 {
        let places = self.order as usize + 1;
        self.history[(self.ring_place as usize + places - k) % places]
    }

    fn keep(&mut self, bits: u32) {
        self.history[self.ring_place as usize] = bits;
        self.ring_place = (self.ring_place + 1) % (self.order + 1);
    }

    /// Speaks one period and goes on to the next.
    fn speak(&mut self, row: &[u16], residual: &[u8]) -> Vec<i16> {
        let scales = [self.coeff_min, self.coeff_range].map(f32::from_bits);
        let (fixed, float) = (fixed_row(row, scales), float_row(row, scales));
        let mut samples = Vec::new();
        for byte in residual {
            let start = dsp::ulaw_to_i16(*byte);
            samples.push(match self.filter {
                0 => self.fixed(&fixed, start),
                _ => self.float(&float, start),
            });
        }
        self.period += 1;
        self.sample_place += residual.len() as u64;
        if self.filter == 1 {
            self.history = self.history.map(one_nan);
        }
        samples
    }

    fn fixed(&mut self, row: &[i32], residual: i16) -> i16 {
        let mut sum = i32::from(residual).wrapping_mul(16384);
        for (k, value) in row.iter().enumerate() {
            sum = sum.wrapping_add(value.wrapping_mul(self.back(k + 1) as i32));
        }
        let output = sum / 16384;
        self.keep(output as u32);
        output as i16
    }

    fn float(&mut self, row: &[f32], residual: i16) -> i16 {
        let mut sum = f32::from(residual);
        for (k, value) in row.iter().enumerate() {
            sum += value * f32::from_bits(self.back(k + 1));
        }
        self.keep(sum.to_bits());
        sum as i16
    }
}

fn fixed_row(row: &[u16], [min, range]: [f32; 2]) -> Vec<i32> {
    let min_q = (min * 32768.0) as i32;
    let range_q = (range * 2048.0) as i32;
    let value = |q: &u16| (i32::from(q / 2) * range_q / 2048 + min_q) / 2;
    row.iter().map(value).collect()
}

fn float_row(row: &[u16], [min, range]: [f32; 2]) -> Vec<f32> {
    let value = |q: &u16| (f64::from(*q) / 65535.0 * f64::from(range)) as f32 + min;
    row.iter().map(value).collect()
}

/// A NaN is kept as one pattern.
fn one_nan(bits: u32) -> u32 {
    match f32::from_bits(bits).is_nan() {
        true => NAN,
        false => bits,
    }
}

fn elements(bytes: &[u8]) -> Vec<u32> {
    let word = |four: &[u8]| u32::from_le_bytes(four.try_into().unwrap_or_default());
    bytes.chunks_exact(4).map(word).collect()
}

/// What a pull answers, and the bytes at the front of the state and of the
/// slice afterwards; nothing is written where they are empty.
pub fn pull(state: &[u8], lent: &Lent, slice_bytes: usize) -> (i64, Vec<u8>, Vec<u8>) {
    let refused = |number: i64| (number, Vec::new(), Vec::new());
    let Some(mut state) = State::read(state).filter(|state| state.is_possible(lent)) else {
        return refused(IMPOSSIBLE);
    };
    if state.is_done(lent) {
        return refused(DONE);
    }
    let residual = state.residual(lent);
    if slice_bytes / 2 < residual.len() {
        return refused(SHORT_SLICE);
    }
    let row = state.row(lent);
    let samples = state.speak(&row, residual);
    let bytes: Vec<u8> = samples.iter().flat_map(|s| s.to_le_bytes()).collect();
    (samples.len() as i64, state.bytes(), bytes)
}
