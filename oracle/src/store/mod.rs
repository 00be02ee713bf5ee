//! `oracle store`: calls with the text that document 01's program prints of
//! them, in one file, for tests where the Rust is not at hand.

mod counts;
mod edges;
mod ends;
mod larger;
mod pitches;
mod record;
mod strict;
mod typed;

use crate::args::Args;
use crate::statements::{self, drafts::Limits};
use counts::Counts;
use record::Stored;
use std::ops::Range;

/// Calls drawn by their kind in a run that is not told otherwise.
pub const CALLS: u64 = 200;

pub fn run(args: &Args) -> bool {
    let Some(out) = &args.out else {
        eprintln!("oracle store: --out FILE says where they go");
        return false;
    };
    let calls = calls(args.seed, args.count.unwrap_or(CALLS));
    let mut counts = Counts::default();
    let mut file = Vec::new();
    let mut voice_before = None;
    for call in &calls {
        let record = call.bytes(voice_before);
        counts.add(call, record.len());
        file.extend(record);
        voice_before = Some(&call.voice);
    }
    if let Err(error) = std::fs::write(out, &file) {
        eprintln!("oracle store: {out}: {error}");
        return false;
    }
    let missing = counts.missing();
    for what in &missing {
        println!("oracle store: missing: {what}");
    }
    counts.print();
    println!(
        "oracle store: seed {}, {} calls, {} bytes",
        args.seed,
        calls.len(),
        file.len()
    );
    missing.is_empty()
}

/// The calls of `oracle statements` and larger ones, each as it was drawn and
/// as document 01's program speaks it; then the edges. Those that name no filter
/// stand behind them, some more of `oracle statements` among them, then the
/// strict ones, those with target ends by their products, those with targets
/// without a pitch, and those with texts at the end.
pub fn calls(seed: u64, count: u64) -> Vec<Stored> {
    let limits = Limits::new();
    let small = |numbers: Range<u64>| numbers.filter_map(|number| small(seed, number, &limits));
    let drawn = small(0..count).chain(larger::all(seed));
    let mut calls: Vec<Stored> = drawn.flat_map(with_program).collect();
    calls.extend(edges::all());
    calls.extend(small(statements::unnamed_round()).filter(Stored::names_none));
    calls.sort_by_key(Stored::names_none);
    calls.extend(strict::all());
    calls.extend(ends::all());
    calls.extend(pitches::all());
    calls.extend(typed::all());
    calls
}

fn small(seed: u64, number: u64, limits: &Limits) -> Option<Stored> {
    let drawn = statements::drawn(seed, number, limits);
    let (kind, _) = drawn.about.split_once(':').unwrap_or((&drawn.about, ""));
    let call = &drawn.call;
    let lent = std::array::from_fn(|i| call.lent[i].len());
    Stored::new(kind, &call.voice, &call.sheet, call.settings, lent)
}

/// The program names its filter: a call that does not stays alone.
fn with_program(call: Stored) -> Vec<Stored> {
    let program = call.settings.filter.and_then(|_| call.by_program());
    [Some(call), program].into_iter().flatten().collect()
}
