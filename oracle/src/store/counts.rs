//! What the stored calls are, and whether every kind is among them.

use super::record::Stored;
use crate::call::{Join, Settings, JOINS};
use crate::departure;
use crate::empty_boxes::{self, Boxes};
use crate::expected::answers;
use crate::refusal::{numbered, ByNumber, Refusal};
use crate::text_calls::{self, Typed};
use crate::voicefile;
use std::collections::{BTreeMap, BTreeSet};

/// Document 01's program meets neither: 10 needs a slope, which the simple join
/// has not, and its calls are not strict.
const NOT_BY_PROGRAM: [Refusal; 2] = [Refusal::Slope, Refusal::MissingPair];

#[derive(Default)]
pub struct Counts {
    /// Calls and bytes by kind.
    kinds: BTreeMap<String, [usize; 2]>,
    /// Calls by answer; 0 counts those that are spoken.
    answers: ByNumber,
    by_program: ByNumber,
    unnamed: ByNumber,
    strict: ByNumber,
    /// Spoken calls with their periods and samples.
    spoken: [usize; 3],
    departure: departure::Counts,
    boxes: empty_boxes::Counts,
    typed: text_calls::Counts,
    /// What was spoken: settings, codecs, orders; and what was refused with 16.
    met: BTreeSet<String>,
}

impl Counts {
    pub fn add(&mut self, call: &Stored, bytes: usize) {
        let kind = self.kinds.entry(call.kind.clone()).or_default();
        *kind = [kind[0] + 1, kind[1] + bytes];
        self.answers[call.number] += 1;
        if call.is_by_program() {
            self.by_program[call.number] += 1;
        }
        if call.names_none() {
            self.unnamed[call.number] += 1;
        }
        if call.settings.strict {
            self.strict[call.number] += 1;
        }
        if call.number == Refusal::MissingPair.number() {
            self.met.insert(missing_in(call.settings.join));
        }
        let Some(spoken) = &call.spoken else {
            let Stored {
                voice,
                sheet,
                settings,
                ..
            } = call;
            let boxes = Boxes::refused(voice, sheet, *settings, call.number);
            boxes.iter().for_each(|boxes| self.boxes.add(boxes));
            let typed = Typed::refused(sheet, *settings, call.number);
            typed.iter().for_each(|typed| self.typed.add(typed));
            return;
        };
        let boxes = spoken.boxes.iter();
        boxes.for_each(|boxes| self.boxes.add(boxes));
        let typed = spoken.typed.iter();
        typed.for_each(|typed| self.typed.add(typed));
        self.departure.add(&spoken.departure);
        let [periods, samples] = [spoken.summary[1], spoken.summary[2]];
        let more = [1, periods, samples];
        self.spoken = std::array::from_fn(|i| self.spoken[i] + more[i]);
        let says_something = samples > 0 || call.settings.join == Join::None;
        if let (Ok(voice), true) = (voicefile::open(&call.voice), says_something) {
            self.met
                .insert(setting_and_codec(call.settings, voice.is_g721()));
            self.met.insert(order(voice.order()));
        }
    }

    /// What is not among the calls.
    pub fn missing(&self) -> Vec<String> {
        let by_program = |number: &usize| {
            let not = NOT_BY_PROGRAM.map(Refusal::number);
            !not.contains(number) && self.by_program[*number] == 0
        };
        let mut missing: Vec<String> = answers()
            .filter(|number| self.answers[*number] == 0)
            .map(|number| format!("answer {number}"))
            .collect();
        missing.extend(
            answers()
                .filter(by_program)
                .map(|number| format!("answer {number} of the program")),
        );
        if self.unnamed[1..].iter().all(|count| *count == 0) {
            missing.push("a refusal where no filter is named".to_string());
        }
        missing.extend(self.departure.missing());
        missing.extend(self.boxes.missing());
        missing.extend(self.typed.missing());
        let mut wanted = vec![order(0), order(32)];
        wanted.extend(JOINS.map(missing_in));
        for settings in Settings::all() {
            wanted.extend([false, true].map(|g721| setting_and_codec(settings, g721)));
        }
        missing.extend(wanted.into_iter().filter(|what| !self.met.contains(what)));
        missing
    }

    pub fn print(&self) {
        for (kind, [calls, bytes]) in &self.kinds {
            println!("  {kind}: {calls} calls, {bytes} bytes");
        }
        println!("  by answer, 0 spoken: {}", numbered(&self.answers));
        println!(
            "  those by document 01's program: {}",
            numbered(&self.by_program)
        );
        println!("  those that name no filter: {}", numbered(&self.unnamed));
        println!("  strict ones: {}", numbered(&self.strict));
        let [calls, periods, samples] = self.spoken;
        println!("  spoken: {calls} calls, {periods} periods, {samples} samples");
        self.departure.print();
        self.boxes.print();
        self.typed.print();
    }
}

fn setting_and_codec(settings: Settings, g721: bool) -> String {
    let codec = if g721 { "G.721" } else { "mu-law" };
    format!("{settings:?} spoken with {codec}")
}

fn order(order: usize) -> String {
    format!("order {order} spoken")
}

fn missing_in(join: Join) -> String {
    format!("16 with join {join:?}")
}
