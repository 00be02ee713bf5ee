//! The G.721 decoder's delays in libprobe_state.a beside the Rust's, code by
//! code.

use crate::codecs;
use crate::dsp::access::{Decoder, State};
use crate::rng::Rng;
use crate::speech::Speech;

/// Periods whose delays are compared after every code.
const PERIODS: u64 = 60;

unsafe extern "C" {
    fn probe_adpcm_word(packed: *const u8, packed_len: usize, count: usize, i: usize) -> u32;
}

/// The 24 words of the archive's delays after some codes.
fn archive_words(packed: &[u8], count: usize) -> [u32; 24] {
    // SAFETY: it is a slice of its length.
    let word = |i| unsafe { probe_adpcm_word(packed.as_ptr(), packed.len(), count, i) };
    std::array::from_fn(word)
}

/// The decoder's delays after each code of speech-like and other periods, and
/// every so often past the place where a zero's coefficient wraps.
pub fn agree(seed: u64) -> bool {
    let mut rng = Rng::for_case(seed, 0);
    let mut speech = Speech::new();
    let mut compared = 0;
    let mut wrong = 0;
    for case in 0..PERIODS {
        let mut packed = match case % 2 {
            0 => speech.period(&mut rng),
            _ => codecs::period(&mut rng).1,
        };
        packed.truncate(80);
        wrong += mismatches(&packed, 1);
        compared += 2 * packed.len() + 1;
    }
    for code in 0..16u8 {
        wrong += mismatches(&[code << 4 | code; 750], 100);
        compared += 16;
    }
    println!("  AdpcmState: {compared} states of 24 words, {wrong} mismatches");
    wrong == 0
}

/// How often the delays differ, before the first code and after every `step`.
fn mismatches(packed: &[u8], step: usize) -> usize {
    let mut decoder = Decoder::fresh();
    let mut wrong = 0;
    for count in 0..=2 * packed.len() {
        if count % step == 0 {
            let (rust, archive) = (words(&decoder.state()), archive_words(packed, count));
            if rust != archive {
                wrong += 1;
                println!("oracle: mismatch: AdpcmState after {count} of {packed:02x?}: Rust {rust:?}, archive {archive:?}");
            }
        }
        if let Some(byte) = packed.get(count / 2) {
            decoder.decode(if count % 2 == 0 { byte >> 4 } else { byte & 15 });
        }
    }
    wrong
}

/// The Rust's state as words, those in floating format in their 11 bits.
fn words(state: &State) -> [u32; 24] {
    let word = |x: i16| x as u16 as u32;
    let floating = |x: i16| word(x) & 0x7FF;
    let mut words = [0; 24];
    words[0] = state.yl as u32;
    words[1..5].copy_from_slice(&[state.yu, state.dms, state.dml, state.ap].map(word));
    words[5..7].copy_from_slice(&state.a.map(word));
    words[7..9].copy_from_slice(&state.pk.map(word));
    words[9..11].copy_from_slice(&state.sr.map(floating));
    words[11] = state.td as u32;
    words[12..18].copy_from_slice(&state.b.map(word));
    words[18..].copy_from_slice(&state.dq.map(floating));
    words
}
