//! Public access to the private functions and state of diphone.rs.
//!
//! build.rs makes this file a child module of a copy of diphone.rs. Nothing
//! here works anything out: each function calls the one of the same name.

use super::{Codec, Diphone, DiphoneVoice, Unit};
use crate::utterance::{ItemId, Utterance};

/// The header's values as the parsed voice keeps them. The number of frames is
/// not kept.
#[derive(Clone, Copy, Debug)]
pub struct Header {
    pub order: usize,
    pub rate: u32,
    pub coeff_min: f32,
    pub coeff_range: f32,
    pub g721: bool,
    pub stretch: f32,
    pub f0_mean: f32,
    pub f0_deviation: f32,
    pub fold: bool,
}

pub fn header(voice: &DiphoneVoice) -> Header {
    Header {
        order: voice.order,
        rate: voice.profile.sample_rate,
        coeff_min: voice.coeff_min,
        coeff_range: voice.coeff_range,
        g721: voice.codec == Codec::G721,
        stretch: voice.profile.duration_stretch,
        f0_mean: voice.profile.f0_mean,
        f0_deviation: voice.profile.f0_stddev,
        fold: voice.profile.fold_ah_to_aa,
    }
}

/// One entry of the index.
#[derive(Clone, Debug, PartialEq, Eq)]
pub struct Entry {
    pub name: String,
    pub start: usize,
    pub first_half: usize,
    pub second_half: usize,
}

fn entry(diphone: &Diphone) -> Entry {
    Entry {
        name: diphone.name.to_string(),
        start: diphone.start as usize,
        first_half: diphone.first_half.into(),
        second_half: diphone.second_half.into(),
    }
}

/// The index in its sorted order.
pub fn index(voice: &DiphoneVoice) -> Vec<Entry> {
    voice.index.iter().map(entry).collect()
}

pub fn find(voice: &DiphoneVoice, name: &str) -> Option<Entry> {
    voice.find(name).map(entry)
}

pub fn period_samples(voice: &DiphoneVoice, period: usize) -> usize {
    voice.period_samples(period)
}

pub fn period_residual(voice: &DiphoneVoice, period: usize) -> &[u8] {
    voice.period_residual(period)
}

pub fn period_coefficients(voice: &DiphoneVoice, period: usize) -> Vec<u16> {
    let mut row = Vec::new();
    voice.period_coefficients(period, &mut row);
    row
}

/// A selected unit with its fields open.
#[derive(Clone, Copy, Debug, PartialEq, Eq)]
pub struct PlainUnit {
    pub first_period: usize,
    pub last_period: usize,
    pub target_end: usize,
}

fn plain(unit: &Unit) -> PlainUnit {
    PlainUnit {
        first_period: unit.first_period,
        last_period: unit.last_period,
        target_end: unit.target_end,
    }
}

fn private(unit: &PlainUnit) -> Unit {
    Unit {
        first_period: unit.first_period,
        last_period: unit.last_period,
        target_end: unit.target_end,
    }
}

pub fn select_units(voice: &DiphoneVoice, utt: &Utterance) -> Vec<PlainUnit> {
    super::select_units(voice, utt).iter().map(plain).collect()
}

pub fn in_consonant_cluster(utt: &Utterance, segment: ItemId) -> bool {
    super::in_consonant_cluster(utt, segment)
}

/// The marks of the modified join.
pub fn pitch_marks(voice: &DiphoneVoice, utt: &Utterance) -> Vec<usize> {
    super::pitch_marks(voice, utt)
}

/// The marks of the simple join. The units' target ends are rewritten.
pub fn natural_pitch_marks(voice: &DiphoneVoice, units: &mut [PlainUnit]) -> Vec<usize> {
    let mut inner: Vec<Unit> = units.iter().map(private).collect();
    let marks = super::natural_pitch_marks(voice, &mut inner);
    for (outer, inner) in units.iter_mut().zip(&inner) {
        *outer = plain(inner);
    }
    marks
}

/// What the taken periods fill: row values as stored, sizes, excitation bytes.
#[derive(Clone, Debug, Default, PartialEq, Eq)]
pub struct Excitation {
    pub rows: Vec<u16>,
    pub sizes: Vec<usize>,
    pub residual: Vec<u8>,
}

/// At least one mark is needed.
pub fn build_excitation(voice: &DiphoneVoice, units: &[PlainUnit], marks: &[usize]) -> Excitation {
    let inner: Vec<Unit> = units.iter().map(private).collect();
    let (rows, sizes, residual) = super::build_excitation(voice, &inner, marks);
    Excitation {
        rows,
        sizes,
        residual,
    }
}

pub fn nearest_period(voice: &DiphoneVoice, unit: &PlainUnit, position: f32) -> usize {
    super::nearest_period(voice, &private(unit), position)
}

/// Fills `target` and returns what was decoded on the way (nothing for mu-law).
pub fn copy_residual(voice: &DiphoneVoice, period: usize, target: &mut [u8]) -> Vec<u8> {
    let mut decoded = Vec::new();
    let size = target.len();
    super::copy_residual(voice, period, &mut decoded, target, size);
    decoded
}
