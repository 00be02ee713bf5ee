//! Voices shaped to a sheet: which of the names that its pairs try they have.

use super::voices::{self, add_entry, order_entries, Extent, VoiceSpec};
use super::{sheets, small};
use crate::call::tried;
use crate::rng::Rng;
use crate::sheet::Sheet;
use crate::voicefile;
use std::collections::BTreeSet;

/// What the pairs of a sheet find.
#[derive(Clone, Copy, Debug, PartialEq, Eq)]
pub enum Manner {
    /// What was drawn.
    Drawn,
    /// Each finds a name.
    Found,
    /// The same; those that try a cluster name find the plain one alone, or the
    /// cluster name alone.
    Plain,
    Cluster,
    /// All but one find a name.
    LacksFirst,
    LacksMiddle,
    LacksLast,
    /// Each finds a name with fold on, or each with fold off; often some not
    /// with the other.
    Fold(bool),
    /// Fewer than two segments, and no pair.
    Few,
}

pub const MANNERS: [Manner; 14] = [
    Manner::Found,
    Manner::LacksFirst,
    Manner::Plain,
    Manner::Fold(true),
    Manner::LacksLast,
    Manner::Found,
    Manner::LacksMiddle,
    Manner::Cluster,
    Manner::Fold(false),
    Manner::LacksLast,
    Manner::Drawn,
    Manner::LacksMiddle,
    Manner::Plain,
    Manner::Few,
];

/// A voice, and a sheet that it was shaped to.
pub type Shaped = (VoiceSpec, Sheet);

/// Of any extent. `fold` is that of the call.
pub fn any(rng: &mut Rng, fold: bool, manner: Manner) -> Shaped {
    let words = voices::vocabulary(rng);
    let spec = voices::voice(rng, &words, Extent::Any, false);
    let sheet = sheets::sheet(rng, &words, spec.header.rate);
    shaped(rng, spec, sheet, fold, manner)
}

/// Of a few hundred bytes.
pub fn little(rng: &mut Rng, fold: bool, manner: Manner) -> Shaped {
    let words = small::vocabulary(rng);
    let shape = small::shape(rng);
    let spec = small::voice(rng, &words, shape);
    let sheet = small::sheet(rng, &words, spec.header.rate);
    shaped(rng, spec, sheet, fold, manner)
}

/// With a sheet of so many segments, whose followers are anywhere.
pub fn long(rng: &mut Rng, fold: bool, manner: Manner, segments: usize) -> Shaped {
    let words = voices::vocabulary(rng);
    let spec = voices::voice(rng, &words, Extent::Small, false);
    let sheet = sheets::long(rng, &words, segments);
    shaped(rng, spec, sheet, fold, manner)
}

/// Shapes the voice, and the sheet where its manner asks for it.
fn shaped(
    rng: &mut Rng,
    mut spec: VoiceSpec,
    mut sheet: Sheet,
    fold: bool,
    manner: Manner,
) -> Shaped {
    shape(rng, &mut spec, &mut sheet, fold, manner);
    (spec, sheet)
}

fn shape(rng: &mut Rng, spec: &mut VoiceSpec, sheet: &mut Sheet, fold: bool, manner: Manner) {
    match manner {
        Manner::Drawn => return,
        Manner::Few => shorten(rng, sheet),
        Manner::Fold(_) => put_ah(rng, sheet),
        _ => {}
    }
    let fold = match manner {
        Manner::Fold(on) => on,
        _ => fold,
    };
    let pairs = pairs(sheet, fold);
    let mut wanted: BTreeSet<String> = pairs
        .iter()
        .flat_map(|names| some_of(rng, names, manner))
        .collect();
    let lacking = lacking(rng, pairs.len(), manner);
    for name in lacking.map_or(&[][..], |place| &pairs[place]) {
        wanted.remove(name);
    }
    let near = near_names(rng, &pairs);
    let other = pairs_of_both(sheet);
    wanted.extend(near.into_iter().filter(|name| !other.contains(name)));
    set_names(rng, spec, &wanted);
}

/// The names that each pair tries.
fn pairs(sheet: &Sheet, fold: bool) -> Vec<Vec<String>> {
    let count = sheet.segments.len().saturating_sub(1);
    (0..count).map(|left| tried(sheet, left, fold)).collect()
}

/// All of them, with and without fold.
fn pairs_of_both(sheet: &Sheet) -> BTreeSet<String> {
    let both = [false, true].map(|fold| pairs(sheet, fold));
    both.concat().concat().into_iter().collect()
}

/// Those of a pair's names that the voice is to have.
fn some_of(rng: &mut Rng, names: &[String], manner: Manner) -> Vec<String> {
    let [first, last] = [0, names.len() - 1].map(|place| names[place].clone());
    match manner {
        Manner::Plain => vec![last],
        Manner::Cluster => vec![first],
        _ => rng.pick(&[vec![first.clone()], vec![last.clone()], vec![first, last]]),
    }
}

/// The place of the pair that is to find no name.
fn lacking(rng: &mut Rng, count: usize, manner: Manner) -> Option<usize> {
    let last = count.checked_sub(1)?;
    match manner {
        Manner::LacksFirst => Some(0),
        Manner::LacksMiddle if last > 1 => Some(rng.between(1, last - 1)),
        Manner::LacksMiddle | Manner::LacksLast => Some(last),
        _ => None,
    }
}

/// Names that are nearly those of some pairs.
fn near_names(rng: &mut Rng, pairs: &[Vec<String>]) -> Vec<String> {
    let mut near = Vec::new();
    if pairs.is_empty() {
        return near;
    }
    for _ in 0..rng.below(4) {
        let names = rng.pick(pairs);
        let name = rng.pick(&names);
        let shorter = name[..name.len() - 1].to_string();
        near.push(rng.pick(&[shorter, format!("{name}-"), format!("_{name}"), name + "a"]));
    }
    near
}

/// Takes away the names that a pair may try and puts these in their place.
fn set_names(rng: &mut Rng, spec: &mut VoiceSpec, names: &BTreeSet<String>) {
    spec.entries.retain(|entry| !entry.name.contains(&b'-'));
    for name in names {
        add_entry(rng, spec, name.as_bytes());
    }
    if spec.entries.is_empty() {
        add_entry(rng, spec, b"z");
    }
    order_entries(rng, &mut spec.entries);
}

fn shorten(rng: &mut Rng, sheet: &mut Sheet) {
    sheet.segments.truncate(rng.below(2));
    for segment in &mut sheet.segments {
        segment.follower = segment.follower.min(1);
    }
}

fn put_ah(rng: &mut Rng, sheet: &mut Sheet) {
    let count = sheet.segments.len();
    if count > 0 {
        sheet.segments[rng.below(count)].name = "ah".to_string();
    }
}

/// A good voice file with another byte for each hyphen of its names: no pair
/// finds one.
pub fn without_names(file: &[u8]) -> Vec<u8> {
    let mut bytes = file.to_vec();
    let Ok(voice) = voicefile::open(file) else {
        return bytes;
    };
    for entry in &voice.index {
        let start = entry.at + 1;
        let name = &mut bytes[start..start + entry.name.len()];
        for byte in name.iter_mut().filter(|byte| **byte == b'-') {
            *byte = b'.';
        }
    }
    bytes
}
