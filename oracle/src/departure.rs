//! How spoken calls stand to the Rust's own, whose target ends are truncated.

use crate::call::{Join, Settings, JOINS, MAX_PLACE};
use crate::diphone::DiphoneVoice;
use crate::ends;
use crate::reference::{self, Filled};
use crate::report::Report;
use crate::sheet::Sheet;
use crate::taking::takers;
use std::collections::BTreeMap;

/// Rates at which calls with whole products must be met.
pub const RATES: [u32; 8] = [1, 8000, 8192, 11_025, 16_000, 22_050, 44_100, 48_000];

/// What a call of the modified join may be like: its products, then how it
/// differs from the Rust's own.
const MET: [&str; 11] = [
    "a product that is an exact half",
    "one f32 beside a half",
    "from -0.5 to 0",
    "an end at 16,777,215",
    "an end that is not the Rust's",
    "a mark taken by another unit",
    "more marks taken, so that more room is needed",
    "just one more",
    "another row",
    "other samples",
    "ends that are not the Rust's, and the same samples",
];

const HALF: usize = 0;
const BESIDE: usize = 1;
const BELOW_ZERO: usize = 2;
const AT_LIMIT: usize = 3;
const MOVED: usize = 4;
const SAMPLES: usize = 9;

#[derive(Clone, Debug, Default)]
pub struct Departure {
    /// The join, where the call was compared with the Rust's whole own way.
    way: Option<Join>,
    /// The rate, where all products are whole numbers.
    whole: Option<u32>,
    met: [bool; MET.len()],
}

impl Departure {
    /// Of a call as it is filled and spoken.
    pub fn of(
        rust: &DiphoneVoice,
        sheet: &Sheet,
        settings: Settings,
        filled: &Filled,
        periods: &[Vec<i16>],
    ) -> Departure {
        let rate = rust.sample_rate();
        let departs = reference::departs(sheet, rate, settings);
        let way = (!departs).then_some(settings.join);
        let products = ends::products(sheet, rate);
        if settings.join != Join::Modified || products.is_empty() {
            return Departure {
                way,
                ..Departure::default()
            };
        }
        let whole = products.iter().copied().all(ends::is_whole);
        let mut met = sorts(&products);
        if departs {
            let differences = differences(rust, sheet, settings, filled, periods);
            met[MOVED + 1..].copy_from_slice(&differences);
        }
        Departure {
            way,
            whole: whole.then_some(rate),
            met,
        }
    }

    pub fn has_whole_products(&self) -> bool {
        self.whole.is_some()
    }

    pub fn has_half(&self) -> bool {
        self.met[HALF]
    }

    pub fn is_beside_half(&self) -> bool {
        self.met[BESIDE]
    }

    pub fn is_below_zero(&self) -> bool {
        self.met[BELOW_ZERO]
    }

    /// Whether its samples are not the Rust's own.
    pub fn shows(&self) -> bool {
        self.met[SAMPLES]
    }
}

/// What the products are like. How the call differs is still to come.
fn sorts(products: &[f32]) -> [bool; MET.len()] {
    let any = |is: &dyn Fn(f32) -> bool| products.iter().any(|product| is(*product));
    let mut met = [false; MET.len()];
    met[HALF] = any(&ends::is_half);
    met[BESIDE] = any(&|x| [x.next_down(), x.next_up()].into_iter().any(ends::is_half));
    met[BELOW_ZERO] = any(&|x| (-0.5..0.0).contains(&x));
    met[AT_LIMIT] = any(&|x| ends::nearest(x) == MAX_PLACE);
    met[MOVED] = any(&ends::is_moved);
    met
}

/// How a call with such ends differs from the Rust's own. An end is never below
/// the Rust's, so no mark is lost.
fn differences(
    rust: &DiphoneVoice,
    sheet: &Sheet,
    settings: Settings,
    filled: &Filled,
    periods: &[Vec<i16>],
) -> [bool; MET.len() - MOVED - 1] {
    let own = reference::fill_own(rust, sheet, settings);
    let more = filled.taken.sizes.len() - own.taken.sizes.len();
    let spoken = reference::filtered(rust, &own.taken, settings.filter_in());
    let is_same = spoken == periods;
    [
        !takers(filled).starts_with(&takers(&own)),
        more > 0,
        more == 1,
        !filled.taken.rows.starts_with(&own.taken.rows),
        !is_same,
        is_same,
    ]
}

/// What the spoken calls of a run were like.
#[derive(Default)]
pub struct Counts {
    /// Those compared with the Rust's whole own way, by join.
    ways: [u64; JOINS.len()],
    /// Those of the modified join with whole products, by rate.
    whole: BTreeMap<u32, u64>,
    met: [u64; MET.len()],
}

impl Counts {
    pub fn add(&mut self, call: &Departure) {
        for (sum, join) in self.ways.iter_mut().zip(JOINS) {
            *sum += u64::from(call.way == Some(join));
        }
        if let Some(rate) = call.whole {
            *self.whole.entry(rate).or_default() += 1;
        }
        for (sum, met) in self.met.iter_mut().zip(call.met) {
            *sum += u64::from(met);
        }
    }

    /// What was not met.
    pub fn missing(&self) -> Vec<String> {
        let ways = JOINS.iter().zip(self.ways);
        let ways = ways.map(|(join, count)| (format!("the Rust's whole way, {join:?}"), count));
        let rates = RATES.map(|rate| (format!("whole products at {rate}"), self.at(rate)));
        let met = MET.iter().zip(self.met);
        let met = met.map(|(what, count)| (format!("modified join, {what}"), count));
        ways.chain(rates)
            .chain(met)
            .filter(|(_, count)| *count == 0)
            .map(|(what, _)| what)
            .collect()
    }

    fn at(&self, rate: u32) -> u64 {
        self.whole.get(&rate).copied().unwrap_or(0)
    }

    /// Everything must have been met.
    pub fn check_reached(&self, report: &mut Report) {
        let missing = self.missing();
        report.check(missing.is_empty(), || format!("no call with {missing:?}"));
    }

    pub fn print(&self) {
        let [none, simple, modified] = self.ways;
        println!(
            "  compared with the Rust's whole own way: join none {none}, simple {simple}, \
             modified {modified}"
        );
        let rates = RATES.map(|rate| format!("{rate}: {}", self.at(rate)));
        println!(
            "    modified join, whole products: {} calls at {} rates; {}",
            self.whole.values().sum::<u64>(),
            self.whole.len(),
            rates.join(", ")
        );
        println!("  calls of the modified join with");
        for (what, count) in MET.iter().zip(self.met) {
            println!("    {what}: {count}");
        }
    }
}
