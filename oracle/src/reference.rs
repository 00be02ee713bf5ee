//! Drives the Rust, which is the reference of every call not refused.

use crate::call::{ending, Ending, Filter, Join, Settings};
use crate::data::Container;
use crate::diphone::access::{self, Excitation};
use crate::diphone::{synthesise_streaming, DiphoneVoice};
use crate::dsp::{self, Flow};
use crate::ends;
use crate::pitches;
use crate::sheet::{Sheet, Value};
use crate::utterance::{ItemId, Utterance};
use crate::voice::{JoinType, ResynthType, VoiceParams};
use crate::voicefile::Voice;
use std::panic::{catch_unwind, AssertUnwindSafe};

/// What the Rust's parser makes of a voice file.
pub enum Parsed {
    Voice(Box<DiphoneVoice>),
    Refused,
    Panicked,
}

/// Parses a file. The index count must be small (see `states_large_count`).
pub fn parse(bytes: &[u8]) -> Parsed {
    let bytes = bytes.to_vec();
    match quietly(|| DiphoneVoice::parse(bytes)) {
        Some(Ok(voice)) => Parsed::Voice(Box::new(voice)),
        Some(Err(_)) => Parsed::Refused,
        None => Parsed::Panicked,
    }
}

/// Whether the file's index states a count that is far too large. The Rust
/// reserves memory for the stated count before it reads the entries, and a
/// process that asks for too much is ended.
pub fn states_large_count(bytes: &[u8]) -> bool {
    let Ok(container) = Container::parse(bytes) else {
        return false;
    };
    let index = container.optional_section("dip.index").unwrap_or(&[]);
    index.len() >= 4 && index[2..4] != [0, 0]
}

/// Runs something and gives nothing if it panics, without a message.
pub fn quietly<T>(run: impl FnOnce() -> T) -> Option<T> {
    let hook = std::panic::take_hook();
    std::panic::set_hook(Box::new(|_| {}));
    let result = catch_unwind(AssertUnwindSafe(run));
    std::panic::set_hook(hook);
    result.ok()
}

/// A sheet as the Rust's utterance, its empty pitch boxes filled in.
pub fn utterance(sheet: &Sheet) -> Utterance {
    as_it_stands(&pitches::filled(sheet))
}

/// A sheet as it stands: the Rust counts an absent f0 as 0 Hz.
///
/// Every segment first gets a view of its own in `SylStructure`, alone under a
/// parent. A follower is then put behind that view as one more view of the
/// segment it names. `item_as` finds the first view made, so it always finds a
/// segment's own view, and `next` then gives just the follower. So a follower
/// may point backwards or at the segment itself.
pub fn as_it_stands(sheet: &Sheet) -> Utterance {
    let mut utt = Utterance::new();
    let segments = add_segments(&mut utt, sheet);
    add_followers(&mut utt, sheet, &segments);
    let relation = utt.create_relation("Target");
    for target in &sheet.targets {
        let item = utt.append(relation, None);
        set_value(&mut utt, item, "pos", target.pos);
        set_value(&mut utt, item, "f0", target.f0);
    }
    utt
}

fn add_segments(utt: &mut Utterance, sheet: &Sheet) -> Vec<ItemId> {
    let relation = utt.create_relation("Segment");
    let mut items = Vec::new();
    for segment in &sheet.segments {
        let item = utt.append(relation, None);
        utt.set_str(item, "name", &segment.name);
        set_value(utt, item, "end", segment.end);
        items.push(item);
    }
    items
}

fn add_followers(utt: &mut Utterance, sheet: &Sheet, segments: &[ItemId]) {
    let relation = utt.create_relation("SylStructure");
    let mut views = Vec::new();
    for item in segments {
        let parent = utt.append(relation, None);
        views.push(utt.add_daughter(parent, Some(*item)));
    }
    for (segment, view) in sheet.segments.iter().zip(views) {
        if segment.follower != 0 {
            utt.insert_after(view, Some(segments[segment.follower - 1]));
        }
    }
}

/// An absent value is a feature that is not set, a text one that is a text.
fn set_value(utt: &mut Utterance, item: ItemId, name: &str, value: Value) {
    use crate::value::Value as Feature;
    match value {
        Value::Whole(n) => utt.set_feature(item, name, Feature::Int(n)),
        Value::Float(bits) => utt.set_feature(item, name, Feature::Float(f32::from_bits(bits))),
        Value::Absent => {}
        Value::Text(text) => utt.set_str(item, name, text.for_rust()),
    }
}

/// `fold_ah_to_aa` of pipeline.rs, restated: that file does not build alone.
pub fn fold_ah_to_aa(utt: &mut Utterance) {
    let segments: Vec<ItemId> = utt.iter_relation("Segment").collect();
    for segment in segments {
        if utt.name(segment) == "ah" {
            utt.set_str(segment, "name", "aa");
        }
    }
}

/// The utterance of a call, empty pitch boxes filled in, folded where fold is on.
pub fn prepared(sheet: &Sheet, settings: Settings) -> Utterance {
    let mut utt = utterance(sheet);
    if settings.fold {
        fold_ah_to_aa(&mut utt);
    }
    utt
}

pub fn params(voice: &DiphoneVoice, settings: Settings) -> VoiceParams {
    VoiceParams {
        join_type: match settings.join {
            Join::None => JoinType::None,
            Join::Simple => JoinType::Simple,
            Join::Modified => JoinType::ModifiedLpc,
        },
        resynth_type: match settings.filter_in() {
            Filter::Fixed => ResynthType::Fixed,
            Filter::Float => ResynthType::Float,
        },
        ..voice.params()
    }
}

/// The reference answer: the samples of each period, of a call as it is filled.
/// The Rust's whole own way gives it, nothing replaced, where no target end is
/// rounded to another than the Rust's; in the modified join its own filter over
/// what is filled must then give the same. Elsewhere that alone gives it.
pub fn speak(
    voice: &DiphoneVoice,
    sheet: &Sheet,
    settings: Settings,
    filled: &Filled,
) -> Vec<Vec<i16>> {
    if settings.join != Join::Modified {
        return speak_whole(voice, sheet, settings);
    }
    let periods = filtered(voice, &filled.taken, settings.filter_in());
    if !departs(sheet, voice.sample_rate(), settings) {
        let whole = speak_whole(voice, sheet, settings);
        assert!(whole == periods, "the Rust's whole way and its stages");
    }
    periods
}

/// Whether some target end that the call reads is not the Rust's.
pub fn departs(sheet: &Sheet, rate: u32, settings: Settings) -> bool {
    let products = ends::products(sheet, rate);
    settings.join == Join::Modified && products.into_iter().any(ends::is_moved)
}

/// The samples of each period by the Rust's whole own way.
fn speak_whole(voice: &DiphoneVoice, sheet: &Sheet, settings: Settings) -> Vec<Vec<i16>> {
    let utt = prepared(sheet, settings);
    collected(|sink| synthesise_streaming(voice, &utt, &params(voice, settings), sink))
}

/// The Rust's own filter over an excitation, period by period.
pub fn filtered(voice: &DiphoneVoice, taken: &Excitation, filter: Filter) -> Vec<Vec<i16>> {
    let header = access::header(voice);
    let resynthesise = match filter {
        Filter::Fixed => dsp::lpc_resynthesise_streaming,
        Filter::Float => dsp::lpc_resynthesise_float_streaming,
    };
    collected(|sink| {
        resynthesise(
            &taken.rows,
            &taken.sizes,
            &taken.residual,
            header.coeff_min,
            header.coeff_range,
            header.order,
            sink,
        )
    })
}

/// The periods that something hands out.
fn collected(run: impl FnOnce(&mut dyn FnMut(&[i16]) -> Flow)) -> Vec<Vec<i16>> {
    let mut periods = Vec::new();
    run(&mut |period| {
        periods.push(period.to_vec());
        Flow::Continue
    });
    periods
}

/// What a call fills on the way to its samples.
#[derive(Default)]
pub struct Filled {
    pub units: Vec<access::PlainUnit>,
    pub marks: Vec<usize>,
    pub taken: Excitation,
}

/// The Rust's own steps up to the excitation, in the modified join from rounded
/// target ends.
pub fn fill(voice: &DiphoneVoice, sheet: &Sheet, settings: Settings) -> Filled {
    let utt = prepared(sheet, settings);
    let units = match settings.join {
        Join::Modified => units(voice, sheet, &utt),
        _ => access::select_units(voice, &utt),
    };
    filled(voice, &utt, settings.join, units)
}

/// The same steps from the Rust's own target ends.
pub fn fill_own(voice: &DiphoneVoice, sheet: &Sheet, settings: Settings) -> Filled {
    let utt = prepared(sheet, settings);
    let units = access::select_units(voice, &utt);
    filled(voice, &utt, settings.join, units)
}

/// The Rust's units with rounded target ends. Its own must be the products of
/// these, truncated.
pub fn units(voice: &DiphoneVoice, sheet: &Sheet, utt: &Utterance) -> Vec<access::PlainUnit> {
    let mut units = access::select_units(voice, utt);
    let products = ends::products(sheet, voice.sample_rate());
    assert_eq!(units.len(), products.len(), "units and target ends");
    for (unit, product) in units.iter_mut().zip(products) {
        assert_eq!(unit.target_end, product as usize, "the Rust's target end");
        unit.target_end = ends::nearest(product);
    }
    units
}

fn filled(
    voice: &DiphoneVoice,
    utt: &Utterance,
    join: Join,
    mut units: Vec<access::PlainUnit>,
) -> Filled {
    if join == Join::None || units.is_empty() {
        return Filled::default();
    }
    let marks = match join {
        Join::Simple => access::natural_pitch_marks(voice, &mut units),
        _ => access::pitch_marks(voice, utt),
    };
    let taken = match marks.len() {
        0 | 1 => Excitation::default(),
        _ => access::build_excitation(voice, &units, &marks),
    };
    Filled {
        units,
        marks,
        taken,
    }
}

/// Whether the Rust may be called for a call that document 01 accepts.
#[derive(Clone, Copy, Debug, PartialEq, Eq)]
pub enum Fitness {
    Fit,
    /// The Rust goes along the contour before it sees that there are fewer
    /// than two segments. It makes too many marks there or never ends. The
    /// document's answer is zero periods.
    MakesMarksWithoutUnits(Ending),
    /// It would end, but not soon.
    TakesLong,
}

/// A bound on the steps of one call, so that a run stays short.
const MOST_STEPS: usize = 400_000_000;

/// Looks at an accepted call before the Rust is called. `marks` are its marks.
pub fn fitness(voice: &Voice, sheet: &Sheet, settings: Settings, marks: &[usize]) -> Fitness {
    if settings.join == Join::Modified && sheet.segments.len() < 2 {
        return match ending(&sheet.contour()) {
            Ending::Ends => Fitness::Fit,
            other => Fitness::MakesMarksWithoutUnits(other),
        };
    }
    let decoding = match voice.is_g721() {
        true => marks.len() * voice.longest() * 40,
        false => 0,
    };
    let filtering = marks.last().unwrap_or(&0) * (voice.order() + 2);
    match decoding + filtering + marks.len() * 300 {
        steps if steps > MOST_STEPS => Fitness::TakesLong,
        _ => Fitness::Fit,
    }
}
