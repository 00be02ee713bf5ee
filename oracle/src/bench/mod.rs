//! `oracle bench`: what a call costs here and in the Rust, in one process and
//! in turn, on a voice and sheets that are given, or on generated ones of the
//! same extent.

mod synthetic;
mod timed;
pub mod worst;

use crate::args::Args;
use crate::call::{Filter, Join, Settings, FILTERS};
use crate::real::{self, Files};
use crate::sheet::{self, Sheet};
use timed::{Costs, Part, Timed};

/// How often each call is made on either side.
const ROUNDS: u64 = 20;

/// The longest sheet is repeated so many times.
const REPEATED: [usize; 5] = [1, 2, 4, 8, 16];

pub fn run(args: &Args) -> bool {
    let rounds = args.count.unwrap_or(ROUNDS).max(1) as usize;
    let generated = args.voice.is_none() && args.sheets.is_none();
    let given = match generated {
        true => synthetic::voices(args.seed),
        false => match real::files(args) {
            Ok(files) => vec![(args.voice.clone().unwrap_or_default(), files)],
            Err(message) => {
                println!("oracle: {message}");
                return false;
            }
        },
    };
    for (name, files) in given {
        bench(&name, files, rounds, args.only.as_deref());
    }
    if generated && args.only.is_none() {
        println!("oracle bench: the same sheets on wider voices; µs a call, best: here, the Rust");
        for settings in fixed() {
            widened(synthetic::wider(args.seed), settings, rounds);
        }
    }
    true
}

fn bench(name: &str, files: Files, rounds: usize, only: Option<&str>) {
    let voice: &'static [u8] = Box::leak(files.voice.into_boxed_slice());
    let sheets: Vec<Sheet> = files
        .sheets
        .iter()
        .map(|(name, bytes)| read(name, bytes))
        .collect();
    println!(
        "oracle bench: {name}, {} sheets, {rounds} rounds",
        sheets.len()
    );
    println!("  ns a sample, best and median of the rounds: here, the Rust, ratio; open in µs");
    println!("  strict: a strict call, the same one not strict, ratio");
    for settings in settings(only) {
        let label = label(settings);
        let mut calls: Vec<Timed> = sheets
            .iter()
            .map(|sheet| Timed::new(voice, sheet, settings))
            .collect();
        for _ in 0..rounds {
            calls.iter_mut().for_each(Timed::round);
        }
        let samples: usize = calls.iter().map(|call| call.samples).sum();
        let lacking = calls.iter().filter(|call| call.lacking).count();
        println!("  {label}: {samples} samples; {lacking} sheets refused if strict");
        show(&calls, rounds, samples);
    }
    if only.is_some() {
        return;
    }
    let longest = sheets.iter().max_by_key(|sheet| sheet.segments.len());
    for settings in fixed() {
        println!(
            "  {}, a sheet repeated; µs a call, best: here, the Rust",
            label(settings)
        );
        grown(voice, longest.expect("a sheet"), settings, rounds);
    }
}

fn read(name: &str, bytes: &[u8]) -> Sheet {
    sheet::read(bytes).unwrap_or_else(|refusal| panic!("{name}: refused {}", refusal.number()))
}

fn settings(only: Option<&str>) -> Vec<Settings> {
    let mut all = Vec::new();
    for join in [Join::Simple, Join::Modified] {
        for filter in FILTERS.map(Some) {
            all.push(Settings {
                filter,
                ..Settings::new(join)
            });
        }
    }
    all.retain(|settings| only.is_none_or(|only| only == label(*settings)));
    all
}

fn fixed() -> Vec<Settings> {
    let mut all = settings(None);
    all.retain(|settings| settings.filter_in() == Filter::Fixed);
    all
}

fn label(settings: Settings) -> String {
    format!("{:?}-{:?}", settings.join, settings.filter_in()).to_lowercase()
}

/// A line for each pair of parts that do the same.
fn show(calls: &[Timed], rounds: usize, samples: usize) {
    let pairs: [(&str, &[Part], &[Part]); 6] = [
        (
            "plan, pulls",
            &[Part::Plan, Part::Pulls],
            &[Part::RustWhole],
        ),
        ("plan", &[Part::Plan], &[Part::RustParse, Part::RustPrepare]),
        ("pulls", &[Part::Pulls], &[Part::RustFilter]),
        ("need", &[Part::Need], &[]),
        ("strict plan", &[Part::StrictPlan], &[Part::Plan]),
        ("strict need", &[Part::StrictNeed], &[Part::Need]),
    ];
    let costs: Vec<&Costs> = calls.iter().map(|call| &call.costs).collect();
    let each = |parts: &[Part], place: usize| -> f64 {
        let total: f64 = costs.iter().map(|costs| costs.at(parts, place)).sum();
        total * 1e9
    };
    let line = |name: &str, here: &[Part], rust: &[Part], unit: f64| {
        let text = [0, rounds / 2].map(|place| {
            let [a, b] = [here, rust].map(|parts| each(parts, place) / unit);
            match rust.is_empty() {
                true => format!("{a:8.2}"),
                false => format!("{a:8.2} {b:8.2} {:6.3}", a / b),
            }
        });
        println!("    {name:12} {}", text.join("   "));
    };
    for (name, here, rust) in pairs {
        line(name, here, rust, samples as f64);
    }
    let opened = 1e3 * calls.len() as f64;
    line("open, µs", &[Part::Open], &[Part::RustParse], opened);
}

/// The cost of sheets that are a sheet several times over. The lengths take
/// turns, so that a processor that slows down meets them all.
fn grown(voice: &'static [u8], sheet: &Sheet, settings: Settings, rounds: usize) {
    let sheets = REPEATED.map(|times| synthetic::repeated(sheet, times));
    let mut calls: Vec<Timed> = sheets
        .iter()
        .map(|sheet| Timed::new(voice, sheet, settings))
        .collect();
    for _ in 0..rounds {
        calls.iter_mut().for_each(Timed::round);
    }
    for (sheet, call) in sheets.iter().zip(&calls) {
        let [need, plan, pulls, whole] = [Part::Need, Part::Plan, Part::Pulls, Part::RustWhole]
            .map(|part| call.costs.at(&[part], 0) * 1e6);
        println!(
            "    {:4} segments, {:7} samples: need {need:8.1}, plan {plan:8.1}, pulls {pulls:8.1}; {whole:8.1}",
            sheet.segments.len(),
            call.samples,
        );
    }
}

/// The cost of the same sheets on voices of several extents, which take turns.
fn widened(voices: Vec<(usize, Files)>, settings: Settings, rounds: usize) {
    let mut calls: Vec<(usize, Vec<Timed>)> = voices
        .into_iter()
        .map(|(times, files)| (times, timed(files, settings)))
        .collect();
    for _ in 0..rounds {
        for (_, calls) in &mut calls {
            calls.iter_mut().for_each(Timed::round);
        }
    }
    for (times, calls) in &calls {
        let each = |part: Part| -> f64 {
            let total: f64 = calls.iter().map(|call| call.costs.at(&[part], 0)).sum();
            total * 1e6 / calls.len() as f64
        };
        let [open, plan, pulls] = [Part::Open, Part::Plan, Part::Pulls].map(each);
        let [parse, whole] = [Part::RustParse, Part::RustWhole].map(each);
        println!(
            "  {times} x, {}: open {open:7.1}, plan without it {:7.1}, pulls {pulls:8.1}; \
             {parse:7.1}, without it {:8.1}",
            label(settings),
            plan - open,
            whole - parse,
        );
    }
}

fn timed(files: Files, settings: Settings) -> Vec<Timed> {
    let voice: &'static [u8] = Box::leak(files.voice.into_boxed_slice());
    let sheets = files.sheets.iter().map(|(name, bytes)| read(name, bytes));
    sheets
        .map(|sheet| Timed::new(voice, &sheet, settings))
        .collect()
}
