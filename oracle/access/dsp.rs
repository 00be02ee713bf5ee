//! Public access to the private functions and state of dsp.rs.
//!
//! build.rs makes this file a child module of a copy of dsp.rs. Nothing here
//! works anything out: each function calls the one of the same name.

use super::{AdpcmState, POWER2};

/// Every field of the G.721 decoder's state.
#[derive(Clone, Copy, Debug, PartialEq, Eq)]
pub struct State {
    pub yl: i32,
    pub yu: i16,
    pub dms: i16,
    pub dml: i16,
    pub ap: i16,
    pub a: [i16; 2],
    pub b: [i16; 6],
    pub pk: [i16; 2],
    pub dq: [i16; 6],
    pub sr: [i16; 2],
    pub td: bool,
}

/// The G.721 decoder, one code at a time.
pub struct Decoder(AdpcmState);

impl Decoder {
    pub fn fresh() -> Decoder {
        Decoder(AdpcmState::new())
    }

    /// A decoder in a given state.
    pub fn at(state: &State) -> Decoder {
        Decoder(AdpcmState {
            yl: state.yl,
            yu: state.yu,
            dms: state.dms,
            dml: state.dml,
            ap: state.ap,
            a: state.a,
            b: state.b,
            pk: state.pk,
            dq: state.dq,
            sr: state.sr,
            td: state.td,
        })
    }

    /// Decodes the low four bits of `code` to a 16-bit sample.
    pub fn decode(&mut self, code: u8) -> i16 {
        self.0.decode(code)
    }

    pub fn state(&self) -> State {
        State {
            yl: self.0.yl,
            yu: self.0.yu,
            dms: self.0.dms,
            dml: self.0.dml,
            ap: self.0.ap,
            a: self.0.a,
            b: self.0.b,
            pk: self.0.pk,
            dq: self.0.dq,
            sr: self.0.sr,
            td: self.0.td,
        }
    }

    pub fn predictor_zero(&self) -> i32 {
        self.0.predictor_zero()
    }

    pub fn predictor_pole(&self) -> i32 {
        self.0.predictor_pole()
    }

    pub fn step_size(&self) -> i32 {
        self.0.step_size()
    }
}

pub fn fmult(an: i32, srn: i32) -> i32 {
    super::fmult(an, srn)
}

/// The number of the fifteen powers of two that are not above `val`.
pub fn quan(val: i32) -> i32 {
    super::quan(val, &POWER2)
}

pub fn reconstruct(negative: bool, dqln: i32, y: i32) -> i32 {
    super::reconstruct(negative, dqln, y)
}

pub fn float_encode(dq: i32, mag: i32) -> i16 {
    super::float_encode(dq, mag)
}

/// The mu-law bytes of a packed residual, lead-in included.
pub fn decode_adpcm(packed: &[u8]) -> Vec<u8> {
    let mut out = Vec::new();
    super::decode_adpcm(packed, &mut out);
    out
}
