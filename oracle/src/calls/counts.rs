//! What a run of `oracle calls` met.

use super::machine::{DONE, IMPOSSIBLE, SHORT_SLICE};
use super::strict_counts::Strict;
use crate::call::{Settings, JOINS, NAMED};
use crate::departure;
use crate::empty_boxes;
use crate::expected::{answers, Spoken, SHORT_BUFFER};
use crate::refusal::{numbered, ByNumber, LAST};
use crate::report::Report;
use crate::taking::Tally;
use crate::text_calls;
use crate::voicefile::Voice;

/// The settings and the sorts of voices; the last is of `sts.ressize`.
const SORTS: [&[&str]; 4] = [
    &["fixed", "float", "not named"],
    &["fold off", "on"],
    &["mu-law", "G.721"],
    &["without sizes", "with"],
];

/// Calls by the settings and the sorts of voices.
type BySort = [[u64; NAMED.len()]; SORTS.len()];

/// What was made twice, with no filter named and with float named: calls, plans
/// and pulls.
const PAIRS: [&str; 4] = ["spoken", "refused", "plans", "pulls"];

/// What was made twice, with texts and with the floats that they stand for: calls
/// by what they are, then with every text replaced and with some; plans and pulls.
const TWINS: [&str; 6] = [
    "spoken",
    "refused",
    "every text replaced",
    "some",
    "plans",
    "pulls",
];

/// Sheets that begin others, their marks compared.
const BEGUN: [&str; 5] = [
    "join none",
    "simple",
    "modified",
    "with more marks behind",
    "modified join, going on without a pitch",
];

/// What is counted of the taking of marks. The list is that of the simple join.
const TALLIES: [&str; 10] = [
    "periods on the list",
    "those behind another of their unit",
    "units that are all on the list",
    "report lines that are not the Rust's",
    "those with another pair",
    "those that the Rust gives to a unit two or more before",
    "rows that are not the Rust's",
    "marks taken by a unit without periods, modified join",
    "units without a mark",
    "marks left over",
];

fn counted(tally: &Tally) -> [usize; TALLIES.len()] {
    [
        tally.listed,
        tally.in_runs,
        tally.whole,
        tally.lines,
        tally.pairs,
        tally.far,
        tally.rows,
        tally.by_empty,
        tally.idle,
        tally.left_over,
    ]
}

#[derive(Default)]
pub struct Counts {
    accepted: u64,
    joins: [u64; 3],
    sorts: BySort,
    /// The same of those with rows that are not the Rust's.
    changed: BySort,
    /// Those of the accepted calls that have a period.
    speaking: u64,
    refused: ByNumber,
    needs: ByNumber,
    plans: ByNumber,
    reports: ByNumber,
    /// Those that have lines, and their lines.
    with_lines: u64,
    lines: u64,
    /// How the marks of the accepted calls were taken: calls, and how often in
    /// all of them.
    tallies: [[u64; 2]; TALLIES.len()],
    marks: u64,
    pub periods: u64,
    pub samples: u64,
    pulls: u64,
    done: u64,
    short_slices: u64,
    impossible: u64,
    pairs: [u64; PAIRS.len()],
    pub strict: Strict,
    departure: departure::Counts,
    pub boxes: empty_boxes::Counts,
    pub typed: text_calls::Counts,
    twins: [u64; TWINS.len()],
    begun: [u64; BEGUN.len()],
    /// Calls that the Rust would take too long for.
    pub not_compared: u64,
}

impl Counts {
    pub fn accepted(&mut self, settings: Settings, voice: &Voice, spoken: &Spoken) {
        self.accepted += 1;
        self.departure.add(&spoken.departure);
        self.speaking += u64::from(!spoken.periods.is_empty());
        self.marks += spoken.needed[1] as u64;
        let join = JOINS.iter().position(|join| *join == settings.join);
        self.joins[join.unwrap_or(0)] += 1;
        let filter = NAMED.iter().position(|named| *named == settings.filter);
        let [fold, g721, sizes] = [settings.fold, voice.is_g721(), voice.has_sizes()];
        let sorts = [filter.unwrap_or(0), fold.into(), g721.into(), sizes.into()];
        let is_changed = spoken.tally.rows > 0;
        for (i, sort) in sorts.into_iter().enumerate() {
            self.sorts[i][sort] += 1;
            self.changed[i][sort] += u64::from(is_changed);
        }
    }

    pub fn refused(&mut self, number: usize) {
        self.refused[number] += 1;
    }

    pub fn need(&mut self, answer: usize) {
        self.needs[answer.min(LAST)] += 1;
    }

    pub fn plan(&mut self, answer: usize) {
        self.plans[answer.min(LAST)] += 1;
    }

    /// A report that answers so, of a call with so many lines to compare.
    pub fn report(&mut self, answer: usize, lines: usize) {
        self.reports[answer.min(LAST)] += 1;
        self.with_lines += u64::from(lines > 0);
        self.lines += lines as u64;
    }

    /// How the marks of an accepted call were taken.
    pub fn tally(&mut self, tally: &Tally) {
        for (sums, count) in self.tallies.iter_mut().zip(counted(tally)) {
            sums[0] += u64::from(count > 0);
            sums[1] += count as u64;
        }
    }

    /// What was made twice of one more call.
    pub fn pairs(&mut self, more: [usize; PAIRS.len()]) {
        for (sum, more) in self.pairs.iter_mut().zip(more) {
            *sum += more as u64;
        }
    }

    /// What was made with texts and with floats of one more call.
    pub fn twins(&mut self, more: [usize; TWINS.len()]) {
        for (sum, more) in self.twins.iter_mut().zip(more) {
            *sum += more as u64;
        }
    }

    /// One more sheet that begins another.
    pub fn begun(&mut self, more: [bool; BEGUN.len()]) {
        for (sum, more) in self.begun.iter_mut().zip(more) {
            *sum += u64::from(more);
        }
    }

    pub fn pull(&mut self, answer: i64) {
        self.pulls += 1;
        self.done += u64::from(answer == DONE);
        self.short_slices += u64::from(answer == SHORT_SLICE);
        self.impossible += u64::from(answer == IMPOSSIBLE);
    }

    /// Every number must have been met.
    pub fn check_reached(&self, report: &mut Report) {
        for number in answers().filter(|number| ![0, SHORT_BUFFER].contains(number)) {
            let met = self.refused[number] > 0;
            report.check(met, || format!("number {number} was not reached"));
        }
        let ends = [
            self.plans[SHORT_BUFFER],
            self.done,
            self.short_slices,
            self.impossible,
        ];
        report.check(ends.iter().all(|count| *count > 0), || {
            format!("13, done, 14, 15 were reached {ends:?} times")
        });
        for (what, [calls, _]) in TALLIES.iter().zip(self.tallies) {
            report.check(calls > 0, || format!("{what}: not reached"));
        }
        let mut changed = SORTS.iter().zip(&self.changed);
        let met = changed.all(|(names, counts)| !counts[..names.len()].contains(&0));
        report.check(met, || {
            let changed = sorted(&self.changed);
            format!("calls with rows that are not the Rust's: {changed}")
        });
        report.check(!self.pairs.contains(&0), || {
            let pairs = named(&PAIRS, &self.pairs);
            format!("made with no filter named and with float: {pairs}")
        });
        self.strict.check_reached(report);
        self.departure.check_reached(report);
        self.boxes.check_reached(report);
        self.typed.check_reached(report);
        report.check(!self.twins.contains(&0), || {
            let twins = named(&TWINS, &self.twins);
            format!("made with texts and with floats: {twins}")
        });
        report.check(!self.begun.contains(&0), || {
            let begun = named(&BEGUN, &self.begun);
            format!("sheets that begin others: {begun}")
        });
        let answered = answers().all(|number| self.reports[number] > 0);
        report.check(answered, || {
            let reports = numbered(&self.reports);
            format!("an answer of a report was not reached: {reports}")
        });
    }

    pub fn print(&self) {
        let [none, simple, modified] = self.joins;
        println!(
            "  accepted: {}, of them {} with periods; join none {none}, simple {simple}, modified {modified}",
            self.accepted, self.speaking
        );
        println!("    {}", sorted(&self.sorts));
        println!("  refused: {}", numbered(&self.refused));
        println!("  needs by answer: {}", numbered(&self.needs));
        println!("  plans by answer: {}", numbered(&self.plans));
        self.print_reports();
        println!(
            "  marks: {}, periods: {}, samples: {}",
            self.marks, self.periods, self.samples
        );
        println!(
            "  pulls: {}, of them done {}, -14 {}, -15 {}",
            self.pulls, self.done, self.short_slices, self.impossible
        );
        println!(
            "  made with no filter named and with float named: {}",
            named(&PAIRS, &self.pairs)
        );
        self.strict.print();
        self.departure.print();
        self.boxes.print();
        self.typed.print();
        println!(
            "  made with texts and with the floats that they stand for: {}",
            named(&TWINS, &self.twins)
        );
        println!(
            "  marks left by a sheet that begins another: {}",
            named(&BEGUN, &self.begun)
        );
        println!(
            "  not compared, as the Rust would take long: {}",
            self.not_compared
        );
    }

    fn print_reports(&self) {
        println!("  reports by answer: {}", numbered(&self.reports));
        println!(
            "    lines compared: {} of {} reports",
            self.lines, self.with_lines
        );
        for (what, [calls, count]) in TALLIES.iter().zip(self.tallies) {
            println!("    {what}: {count} in {calls} calls");
        }
        println!("    calls with such rows: {}", sorted(&self.changed));
    }
}

fn sorted(counts: &BySort) -> String {
    let sorts = SORTS.iter().zip(counts);
    let shown: Vec<String> = sorts.map(|(names, counts)| named(names, counts)).collect();
    shown.join("; ")
}

pub fn named(names: &[&str], counts: &[u64]) -> String {
    let named = names.iter().zip(counts);
    let shown: Vec<String> = named
        .map(|(name, count)| format!("{name} {count}"))
        .collect();
    shown.join(", ")
}
