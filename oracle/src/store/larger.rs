//! Calls of the extent of speech: periods of some ten samples and more.

use super::record::{Stored, BUFFERS};
use crate::call::{Join, Settings};
use crate::gen::sheets;
use crate::gen::voices::{self, Extent};
use crate::rng::Rng;
use crate::sheet::write;

/// Draws for one call before something must be wrong.
const MOST_DRAWS: usize = 20_000;

const MOST_VOICE: usize = 2_500;
const MOST_SHEET: usize = 200;
const FEWEST_SAMPLES: usize = 200;
const MOST_SAMPLES: usize = 500;

/// One in each setting that speaks, the strict ones apart; the codecs in turn.
pub fn all(seed: u64) -> Vec<Stored> {
    let settings = Settings::loose();
    let speaking = settings.into_iter().filter(|s| s.join != Join::None);
    let numbered = (0..).zip(speaking);
    numbered
        .map(|(number, settings)| call(seed, number, settings))
        .collect()
}

fn call(seed: u64, number: u64, settings: Settings) -> Stored {
    let rng = &mut Rng::for_case(seed, 3_500_000 + number);
    let g721 = number % 2 == 1;
    (0..MOST_DRAWS)
        .find_map(|_| drawn(rng, settings, g721))
        .unwrap_or_else(|| panic!("no larger call {number} in {MOST_DRAWS} draws"))
}

/// Nothing where what was drawn is too small, too large or of the other codec.
fn drawn(rng: &mut Rng, settings: Settings, g721: bool) -> Option<Stored> {
    let words = voices::vocabulary(rng);
    let spec = voices::voice(rng, &words, Extent::Any, true);
    let sheet = write(&sheets::sheet(rng, &words, spec.header.rate));
    let voice = voices::file(&voices::with_extras(rng, &spec));
    let is_g721 = spec.header.codec == 1;
    if is_g721 != g721 || voice.len() > MOST_VOICE || sheet.len() > MOST_SHEET {
        return None;
    }
    let call = Stored::new("spoken, larger", &voice, &sheet, settings, BUFFERS)?;
    let spoken = call.spoken.as_ref()?;
    let samples = FEWEST_SAMPLES..=MOST_SAMPLES;
    let is_larger = spoken.periods.len() > 3 && samples.contains(&spoken.summary[2]);
    is_larger.then_some(call)
}
