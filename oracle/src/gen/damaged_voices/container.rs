//! Damages 1 to 4: the magic, the sections, the backend.

use super::{with_backend, Cases, InRust, NEEDED};
use crate::gen::text::{BAD_UTF8, EDGE_UTF8, NO_WHITE_SPACE, WHITE_SPACE};
use crate::gen::voices::{file, Section};
use crate::refusal::Refusal;
use crate::rng::Rng;

impl Cases<'_> {
    pub(super) fn magic(&mut self) {
        let good = file(&self.base.sections);
        for place in 0..8 {
            let mut bytes = good.clone();
            bytes[place] ^= 1 << (place % 8);
            let reason = format!("magic: byte {place} changed");
            self.add_bytes(bytes, Some(Refusal::Magic), InRust::Refused, reason);
            let reason = format!("magic: file of {place} bytes");
            let bytes = good[..place].to_vec();
            self.add_bytes(bytes, Some(Refusal::Magic), InRust::Refused, reason);
        }
    }

    /// The file cut at every place. Between two sections the rest is missing,
    /// inside one it is cut short.
    pub(super) fn cuts(&mut self) {
        let good = file(&self.base.sections);
        let mut whole = 0;
        let mut end = 8;
        for length in 8..good.len() {
            let next = self.base.sections[whole].bytes().len();
            if length == end + next {
                whole += 1;
                end = length;
            }
            let label = match length == end {
                false => Some(Refusal::Section),
                true if has_all(&self.base.sections[..whole]) => None,
                true => Some(Refusal::Missing),
            };
            let in_rust = match label {
                None => InRust::Opened,
                Some(_) => InRust::Refused,
            };
            let bytes = good[..length].to_vec();
            self.add_bytes(bytes, label, in_rust, format!("file cut to {length} bytes"));
        }
    }

    pub(super) fn section_names(&mut self, rng: &mut Rng) {
        for (name, what) in BAD_UTF8 {
            let mut sections = self.base.sections.clone();
            let at = rng.below(sections.len() + 1);
            let section = Section {
                name: name.to_vec(),
                data: vec![1, 2, 3],
            };
            sections.insert(at, section);
            self.refused(&sections, Refusal::Section, format!("section name: {what}"));
        }
        for name in EDGE_UTF8 {
            let mut sections = self.base.sections.clone();
            sections.insert(0, Section::new(name, vec![1, 2, 3]));
            self.accepted(&sections, format!("section name {name:?}"));
        }
        let mut sections = self.base.sections.clone();
        sections.push(Section::new(&"x".repeat(255), Vec::new()));
        self.accepted(&sections, "section name of 255 bytes, no data");
    }

    /// The last section states more data than the file has.
    pub(super) fn section_lengths(&mut self) {
        let mut sections = self.base.sections.clone();
        sections.push(Section::new("z", vec![7; 4]));
        let good = file(&sections);
        for stated in [5u32, 6, 0x8000_0000, u32::MAX] {
            let mut bytes = good.clone();
            let at = bytes.len() - 8;
            bytes[at..at + 4].copy_from_slice(&stated.to_le_bytes());
            let reason = format!("section states {stated} bytes, has 4");
            self.add_bytes(bytes, Some(Refusal::Section), InRust::Refused, reason);
        }
        let mut bytes = good;
        bytes.push(0);
        let reason = "a byte behind the last section";
        self.add_bytes(bytes, Some(Refusal::Section), InRust::Refused, reason);
    }

    pub(super) fn backends(&mut self, rng: &mut Rng) {
        let wrong: [&[u8]; 9] = [
            b"clustergen",
            b"",
            b"Diphone",
            b"diphon",
            b"diphones",
            b"dip hone",
            b"diphone\0",
            b"diphone,",
            b"   ",
        ];
        for text in wrong {
            let reason = format!("backend {:?}", String::from_utf8_lossy(text));
            let sections = with_backend(&self.base.sections, text, rng);
            self.refused(&sections, Refusal::Backend, reason);
        }
        for (text, what) in BAD_UTF8 {
            let text = [b"diphone ", text].concat();
            let sections = with_backend(&self.base.sections, &text, rng);
            self.refused(&sections, Refusal::Backend, format!("backend: {what}"));
        }
        for (spaces, good) in [(&WHITE_SPACE[..], true), (&NO_WHITE_SPACE[..], false)] {
            for space in spaces {
                for text in [format!("{space}diphone"), format!("diphone{space}")] {
                    let sections = with_backend(&self.base.sections, text.as_bytes(), rng);
                    let reason = format!("backend {text:?}");
                    match good {
                        true => self.accepted(&sections, reason),
                        false => self.refused(&sections, Refusal::Backend, reason),
                    }
                }
            }
        }
    }

    pub(super) fn missing(&mut self) {
        for name in NEEDED {
            let mut sections = self.base.sections.clone();
            sections.retain(|section| section.name != name.as_bytes());
            self.refused(&sections, Refusal::Missing, format!("no {name}"));
            for other in [name.to_uppercase(), format!("{name}\0"), name[1..].into()] {
                let mut sections = self.base.sections.clone();
                rename(&mut sections, name, &other);
                let reason = format!("{name} is called {other:?}");
                self.refused(&sections, Refusal::Missing, reason);
            }
        }
        self.refused(&[], Refusal::Missing, "no section at all");
        let mut sections = self.base.sections.clone();
        sections.retain(|section| section.name != b"sts.ressize");
        self.accepted(&sections, "no sts.ressize");
    }

    /// The first section of a name counts, fit or unfit.
    pub(super) fn repeated_sections(&mut self, rng: &mut Rng) {
        let unfit = [
            ("sts.header", Refusal::Header),
            ("sts.resoffs", Refusal::Tables),
            ("dip.index", Refusal::Index),
            ("voice.backend", Refusal::Backend),
        ];
        for (name, label) in unfit {
            let bad = Section::new(name, vec![0xFF; 3]);
            let mut first = self.base.sections.clone();
            first.insert(0, bad.clone());
            let reason = format!("an unfit {name} stands first");
            self.refused(&first, label, reason);
            let mut later = self.base.sections.clone();
            if name == "voice.backend" {
                later = with_backend(&later, b"diphone", rng);
            }
            later.push(bad);
            self.accepted(&later, format!("an unfit {name} stands last"));
        }
    }
}

/// Gives every section of one name another.
fn rename(sections: &mut [Section], name: &str, other: &str) {
    for section in sections {
        if section.name == name.as_bytes() {
            section.name = other.as_bytes().to_vec();
        }
    }
}

fn has_all(sections: &[Section]) -> bool {
    let has = |name: &str| {
        sections
            .iter()
            .any(|section| section.name == name.as_bytes())
    };
    NEEDED.iter().all(|name| has(name))
}
