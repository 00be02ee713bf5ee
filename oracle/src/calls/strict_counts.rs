//! What strict calls a run of `oracle calls` met.

use super::counts::named;
use super::twins::Made;
use super::Call;
use crate::call::{self, Pair, JOINS};
use crate::expected::{answers, Given, SHORT_BUFFER};
use crate::refusal::{numbered, ByNumber, Refusal};
use crate::report::Report;
use crate::sheet::{self, Sheet};
use crate::voicefile::{self, Voice};

/// By answer, for each join.
const ANSWERS: [&str; 3] = ["not refused", "16", "other numbers"];

/// What is counted of the calls whose files are good.
const MET: [&str; 12] = [
    "cluster pairs that find the plain name alone",
    "cluster pairs that find the cluster name alone",
    "calls that find all with fold, not without",
    "calls that find all without fold, not with it",
    "calls refused with fold, not without",
    "calls refused without fold, not with it",
    "calls that find a name in the sorted first entry",
    "calls of fewer than two segments",
    "calls in which the first pair alone finds none",
    "one between",
    "the last",
    "several",
];

/// What a call that is refused with 16 answers if it is not strict.
pub struct Behind {
    pub number: usize,
    /// How often it is 13, for a buffer.
    pub short: usize,
}

impl Behind {
    pub fn of(loose: &Given) -> Behind {
        let number = match loose {
            Given::Refused(refusal) => refusal.number(),
            Given::Spoken(_) => 0,
        };
        Behind { number, short: 0 }
    }
}

#[derive(Default)]
pub struct Strict {
    joins: [[u64; ANSWERS.len()]; JOINS.len()],
    numbers: ByNumber,
    met: [u64; MET.len()],
    /// Refused with 16, by what stands behind it; 0 counts those that would be
    /// spoken.
    behind: ByNumber,
    /// Made strict and not: plans and pulls.
    twins: [u64; 2],
}

impl Strict {
    pub fn call(&mut self, call: &Call, given: &Given) {
        let number = match given {
            Given::Refused(refusal) => refusal.number(),
            Given::Spoken(_) => 0,
        };
        let answer = match number {
            0 => 0,
            number if number == Refusal::MissingPair.number() => 1,
            _ => 2,
        };
        let join = JOINS.iter().position(|join| *join == call.settings.join);
        self.joins[join.unwrap_or(0)][answer] += 1;
        self.numbers[number] += 1;
        let files = (voicefile::open(&call.voice), sheet::read(&call.sheet));
        if let (Ok(voice), Ok(sheet)) = files {
            let met = met(&voice, &sheet, call.settings.fold);
            for (sum, more) in self.met.iter_mut().zip(met) {
                *sum += more as u64;
            }
        }
    }

    pub fn twins(&mut self, made: &Made) {
        self.twins[0] += made.plans as u64;
        self.twins[1] += made.pulls as u64;
    }

    pub fn behind(&mut self, behind: &Behind) {
        self.behind[behind.number] += 1;
        self.behind[SHORT_BUFFER] += behind.short as u64;
    }

    /// Everything must have been met.
    pub fn check_reached(&self, report: &mut Report) {
        let counts = [&self.joins.concat()[..], &self.met, &self.twins].concat();
        report.check(!counts.contains(&0), || {
            format!("a sort of strict calls was not reached: {counts:?}")
        });
        for number in answers().filter(|number| *number != SHORT_BUFFER) {
            let met = self.numbers[number] > 0;
            report.check(met, || format!("no strict call with answer {number}"));
        }
        for number in [0, 10, 11, 12, SHORT_BUFFER] {
            let met = self.behind[number] > 0;
            report.check(met, || format!("16 before {number} was not reached"));
        }
    }

    pub fn print(&self) {
        for (join, counts) in JOINS.iter().zip(&self.joins) {
            println!("  strict, join {join:?}: {}", named(&ANSWERS, counts));
        }
        println!("    by answer: {}", numbered(&self.numbers));
        println!("    what stands behind 16: {}", numbered(&self.behind));
        let [plans, pulls] = self.twins;
        println!("    made strict and not: {plans} plans, {pulls} pulls");
        for (what, count) in MET.iter().zip(&self.met) {
            println!("    {what}: {count}");
        }
    }
}

/// What a call on good files adds.
fn met(voice: &Voice, sheet: &Sheet, fold: bool) -> [usize; MET.len()] {
    let pairs = call::pairs(voice, sheet, fold);
    let missing = call::is_missing(&pairs);
    let other = call::is_missing(&call::pairs(voice, sheet, !fold));
    let folds = [(false, true), (false, false), (true, true), (true, false)];
    let folds = folds.map(|(is, with)| usize::from((missing, other, fold) == (is, !is, with)));
    let [first, between, last, several] = places(&pairs);
    let is_first = |pair: &Pair| pair.name().is_some_and(|name| name == voice.index[0].name);
    let count = |wanted: &dyn Fn(&Pair) -> bool| pairs.iter().filter(|pair| wanted(pair)).count();
    [
        count(&|pair| pair.found == Some(1)),
        count(&|pair| finds_cluster_alone(voice, pair)),
        folds[0],
        folds[1],
        folds[2],
        folds[3],
        usize::from(pairs.iter().any(is_first)),
        usize::from(sheet.segments.len() < 2),
        first,
        between,
        last,
        several,
    ]
}

fn finds_cluster_alone(voice: &Voice, pair: &Pair) -> bool {
    match &pair.tried[..] {
        [_, plain] => pair.found == Some(0) && voice.find(plain).is_none(),
        _ => false,
    }
}

/// Which pair finds no name: the first alone, one between, the last, several.
fn places(pairs: &[Pair]) -> [usize; 4] {
    let numbered = pairs.iter().enumerate();
    let missing: Vec<usize> = numbered
        .filter(|(_, pair)| pair.found.is_none())
        .map(|(place, _)| place)
        .collect();
    match missing[..] {
        [] => [0; 4],
        [0] => [1, 0, 0, 0],
        [place] if place + 1 < pairs.len() => [0, 1, 0, 0],
        [_] => [0, 0, 1, 0],
        _ => [0, 0, 0, 1],
    }
}
