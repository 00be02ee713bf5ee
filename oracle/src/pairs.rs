//! The names that the pairs of a sheet try and find, as the Rust tells it twice
//! and as document 01 words it.

use crate::call::{self, Pair, Settings};
use crate::diphone::access;
use crate::diphone::DiphoneVoice;
use crate::gen::damaged_calls::entry;
use crate::gen::voices::{file, plain};
use crate::reference::{self, Parsed};
use crate::sheet::Sheet;
use crate::utterance::{ItemId, Utterance};
use crate::voicefile::Voice;

/// The pairs of a call by the Rust's `find`. Its `select_units` and document 01
/// must say the same.
pub fn agreed(rust: &DiphoneVoice, voice: &Voice, sheet: &Sheet, settings: Settings) -> Vec<Pair> {
    let utt = reference::prepared(sheet, settings);
    let pairs = by_find(rust, &utt);
    let found: Vec<Option<&str>> = pairs
        .iter()
        .map(|pair| pair.name().map(String::as_str))
        .collect();
    assert!(
        found == by_selection(voice, &utt),
        "names found by the Rust's find and by its select_units"
    );
    assert!(
        pairs == call::pairs(voice, sheet, settings.fold),
        "names tried and found by the Rust and by document 01"
    );
    pairs
}

/// The Rust's own `find`, asked with the names that its own cluster rule tries.
fn by_find(rust: &DiphoneVoice, utt: &Utterance) -> Vec<Pair> {
    let segments: Vec<ItemId> = utt.iter_relation("Segment").collect();
    let pair = |pair: &[ItemId]| {
        let [left, right] = [pair[0], pair[1]].map(|segment| utt.name(segment));
        let mut tried = vec![format!("{left}-{right}")];
        if access::in_consonant_cluster(utt, pair[0]) {
            tried.insert(0, format!("{left}_-_{right}"));
        }
        let is_found = |name: &String| access::find(rust, name).is_some();
        let found = tried.iter().position(is_found);
        Pair { tried, found }
    };
    segments.windows(2).map(pair).collect()
}

/// The name that each pair finds, told by the Rust's own `select_units` on a
/// voice of labels. It has the names of the voice, and the empty one, which is
/// the sorted first and which no pair tries. Entry n begins at period n, so a
/// unit tells which entry was taken.
fn by_selection<'a>(voice: &Voice<'a>, utt: &Utterance) -> Vec<Option<&'a str>> {
    let names = voice.index.iter().map(|entry| entry.name);
    let mut names: Vec<&str> = names.filter(|name| !name.is_empty()).collect();
    names.insert(0, "");
    let mut labels = plain(1, vec![0, 0]);
    let label = |number| u16::try_from(number).expect("a label for each name");
    let numbered = names.iter().enumerate();
    labels.entries = numbered
        .map(|(number, name)| entry(name, label(number), [0, 0]))
        .collect();
    let Parsed::Voice(labels) = reference::parse(&file(&labels.sections())) else {
        panic!("the Rust does not open a voice of labels");
    };
    let units = access::select_units(&labels, utt);
    let name = |number| (number > 0).then(|| names[number]);
    let firsts = units.iter().step_by(2);
    firsts.map(|unit| name(unit.first_period)).collect()
}
