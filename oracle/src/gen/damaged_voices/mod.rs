//! Damaged voices, each with its number by construction, and voices that lie
//! just inside a limit.

mod container;
mod index;
mod tables;

use super::voices::{
    file, header_data, index_data, plain, vocabulary, voice, with_extras, words, EntrySpec, Extent,
    Section, VoiceSpec,
};
use super::{Labelled, MAX_RESIDUAL};
use crate::refusal::Refusal;
use crate::rng::Rng;

/// What the Rust's parser does with a damaged voice.
#[derive(Clone, Copy, Debug, PartialEq, Eq)]
pub enum InRust {
    Refused,
    /// The document's limit is added to the Rust, which opens the voice.
    Opened,
    /// The Rust must not be called.
    NotCalled,
}

pub struct DamagedVoice {
    pub case: Labelled,
    pub in_rust: InRust,
}

const NEEDED: [&str; 5] = [
    "sts.header",
    "sts.lpc",
    "sts.resoffs",
    "sts.res",
    "dip.index",
];

/// A good voice, in parts that can be damaged.
struct Base {
    spec: VoiceSpec,
    sections: Vec<Section>,
}

/// Gathers the cases.
struct Cases<'a> {
    base: &'a Base,
    all: Vec<DamagedVoice>,
}

/// All damages of one random small voice.
pub fn of_random_voice(rng: &mut Rng) -> Vec<DamagedVoice> {
    let vocabulary = vocabulary(rng);
    let spec = voice(rng, &vocabulary, Extent::Small, false);
    let base = Base {
        sections: with_extras(rng, &spec),
        spec,
    };
    let mut cases = Cases {
        base: &base,
        all: Vec::new(),
    };
    cases.magic();
    cases.cuts();
    cases.section_names(rng);
    cases.section_lengths();
    cases.backends(rng);
    cases.missing();
    cases.header_length();
    cases.header_limits();
    cases.table_lengths();
    cases.table_products();
    cases.offsets();
    cases.index_length();
    cases.index_count();
    cases.entry_names();
    cases.entry_periods();
    cases.repeated_sections(rng);
    cases.several_at_once(rng);
    cases.all
}

impl Cases<'_> {
    fn add_bytes(
        &mut self,
        bytes: Vec<u8>,
        label: Option<Refusal>,
        in_rust: InRust,
        reason: impl Into<String>,
    ) {
        let case = Labelled {
            bytes,
            label,
            reason: reason.into(),
        };
        self.all.push(DamagedVoice { case, in_rust });
    }

    fn add(
        &mut self,
        sections: &[Section],
        label: Option<Refusal>,
        in_rust: InRust,
        reason: impl Into<String>,
    ) {
        self.add_bytes(file(sections), label, in_rust, reason);
    }

    /// A damage that the Rust refuses too.
    fn refused(&mut self, sections: &[Section], label: Refusal, reason: impl Into<String>) {
        self.add(sections, Some(label), InRust::Refused, reason);
    }

    /// A damage by a limit that document 01 adds.
    fn added(&mut self, sections: &[Section], label: Refusal, reason: impl Into<String>) {
        self.add(sections, Some(label), InRust::Opened, reason);
    }

    fn accepted(&mut self, sections: &[Section], reason: impl Into<String>) {
        self.add(sections, None, InRust::Opened, reason);
    }

    /// The base's sections with the data of one replaced.
    fn with(&self, name: &str, data: Vec<u8>) -> Vec<Section> {
        let mut sections = self.base.sections.clone();
        replace(&mut sections, name, data);
        sections
    }

    fn with_header(&self, place: usize, word: u32) -> Vec<Section> {
        let mut header = header_data(&self.base.spec.header);
        put_word(&mut header, place, word);
        self.with("sts.header", header)
    }

    fn with_entries(&self, entries: &[EntrySpec]) -> Vec<Section> {
        self.with("dip.index", index_data(entries))
    }

    /// Every set of the seven causes at once: the lowest number counts.
    fn several_at_once(&mut self, rng: &mut Rng) {
        for set in 1..128u32 {
            let chosen = |number: u32| set >> (number - 1) & 1 == 1;
            let mut sections = self.base.sections.clone();
            if chosen(5) {
                sections = self.with_header(2, 0);
            }
            if chosen(6) {
                let mut offsets = self.base.spec.offsets.clone();
                offsets[0] = u32::MAX;
                replace(&mut sections, "sts.resoffs", words(&offsets));
            }
            if chosen(7) {
                replace(&mut sections, "dip.index", vec![0; 4]);
            }
            if chosen(4) {
                let name = rng.pick(&NEEDED);
                sections.retain(|section| section.name != name.as_bytes());
            }
            if chosen(3) {
                sections = with_backend(&sections, b"clustergen", rng);
            }
            let mut bytes = file(&sections);
            if chosen(2) {
                bytes.push(9);
            }
            if chosen(1) {
                bytes[7] = 2;
            }
            let label = CAUSES[set.trailing_zeros() as usize];
            let in_rust = match label <= Refusal::Missing {
                true => InRust::Refused,
                false => InRust::Opened,
            };
            let reason = format!("causes {:?} at once", numbers(set));
            self.add_bytes(bytes, Some(label), in_rust, reason);
        }
    }
}

/// The causes that a voice can have.
pub const CAUSES: [Refusal; 7] = [
    Refusal::Magic,
    Refusal::Section,
    Refusal::Backend,
    Refusal::Missing,
    Refusal::Header,
    Refusal::Tables,
    Refusal::Index,
];

fn numbers(set: u32) -> Vec<u32> {
    (1..8).filter(|n| set >> (n - 1) & 1 == 1).collect()
}

/// Replaces the data of the first section of a name.
fn replace(sections: &mut [Section], name: &str, data: Vec<u8>) {
    let name = name.as_bytes();
    if let Some(section) = sections.iter_mut().find(|section| section.name == name) {
        section.data = data;
    }
}

/// One backend section with this text, at any place.
fn with_backend(sections: &[Section], text: &[u8], rng: &mut Rng) -> Vec<Section> {
    let mut sections = sections.to_vec();
    sections.retain(|section| section.name != b"voice.backend");
    let at = rng.below(sections.len() + 1);
    sections.insert(at, Section::new("voice.backend", text.to_vec()));
    sections
}

fn put_word(data: &mut [u8], place: usize, word: u32) {
    data[place * 4..place * 4 + 4].copy_from_slice(&word.to_le_bytes());
}

/// Voices at limits that need large files: the residual's length, and an entry
/// at the last start.
pub fn large() -> Vec<DamagedVoice> {
    let mut all = Vec::new();
    for length in [MAX_RESIDUAL, MAX_RESIDUAL + 1] {
        let mut spec = plain(1, vec![0, length as u32]);
        spec.residual = vec![0xFF; length];
        all.push(large_case(&spec, length > MAX_RESIDUAL, Refusal::Tables));
        spec.offsets = vec![0, 0];
        all.push(large_case(&spec, length > MAX_RESIDUAL, Refusal::Tables));
    }
    for frames in [66_045, 66_044] {
        let mut spec = plain(frames, vec![0; frames as usize + 1]);
        spec.entries[0].start = 65_535;
        spec.entries[0].halves = [255, 255];
        all.push(large_case(&spec, frames < 66_045, Refusal::Index));
    }
    all
}

fn large_case(spec: &VoiceSpec, beyond: bool, label: Refusal) -> DamagedVoice {
    let case = Labelled {
        bytes: file(&spec.sections()),
        label: beyond.then_some(label),
        reason: format!(
            "large voice of {} frames, residual of {} bytes",
            spec.header.frames,
            spec.residual.len()
        ),
    };
    DamagedVoice {
        case,
        in_rust: InRust::Opened,
    }
}
