//! `oracle calls`: whole calls through `diphone_need`, `diphone_plan`,
//! `diphone_pull` and `diphone_report`, beside the Rust where they are spoken
//! and beside document 01 where they are refused.

pub mod archive;
mod cases;
mod counts;
mod ends_cases;
pub mod guarded;
mod machine;
mod odd_states;
mod pitch_cases;
mod planning;
mod pulling;
mod reporting;
mod strict;
mod strict_cases;
mod strict_counts;
mod twins;
mod typed_cases;
mod typed_twins;
mod unnamed;

use crate::args::Args;
use crate::call::Settings;
use crate::empty_boxes::Boxes;
use crate::expected::{self, Given, Most};
use crate::report::Report;
use crate::rng::Rng;
use crate::text_calls::Typed;
use crate::voicefile;
use cases::Generator;
use counts::Counts;

/// Generated calls in a run that is not told otherwise.
const CALLS: u64 = 2_000;

/// So many generated calls are followed by a strict one.
const STRICT: u64 = 2;

/// So many are followed by one with target ends of a manner.
const ENDS: u64 = 4;

/// So many are followed by one with targets without a pitch.
const PITCHES: u64 = 4;

/// So many are followed by one with texts.
const TYPED: u64 = 4;

/// The call's files and settings, and what it is.
pub struct Call {
    pub about: String,
    pub voice: Vec<u8>,
    pub sheet: Vec<u8>,
    pub settings: Settings,
}

/// What is found on the way.
#[derive(Default)]
pub struct Bench {
    pub report: Report,
    pub counts: Counts,
}

pub fn run(args: &Args) -> bool {
    let mut bench = Bench::default();
    let generator = Generator::new();
    let calls = args.count.unwrap_or(CALLS);
    for case in args.from..args.from + calls {
        let rng = &mut Rng::for_case(args.seed, 8_000_000 + case);
        let call = generator.call(rng, case);
        check(rng, &call, &mut bench);
    }
    let mut each = |rng: &mut Rng, call: Call| check(rng, &call, &mut bench);
    cases::unfit_voices(args.seed, &mut each);
    cases::unfit_sheets(args.seed, &mut each);
    cases::at_limits(args.seed, &mut each);
    cases::wide(args.seed, &mut each);
    cases::long(args.seed, &mut each);
    cases::empty_heads(args.seed, &mut each);
    cases::stored(args.seed, &mut each);
    let numbers = args.from / STRICT..(args.from + calls) / STRICT;
    strict_cases::generated(args.seed, numbers, &generator, &mut each);
    strict_cases::unfit(args.seed, &mut each);
    strict_cases::at_limits(args.seed, &mut each);
    strict_cases::wide(args.seed, &mut each);
    strict_cases::long(args.seed, &mut each);
    let numbers = args.from / ENDS..(args.from + calls) / ENDS;
    ends_cases::generated(args.seed, numbers, &mut each);
    ends_cases::by_products(args.seed, &mut each);
    pitch_cases::by_f0s(args.seed, &mut each);
    let numbers = args.from / PITCHES..(args.from + calls) / PITCHES;
    pitch_cases::generated(args.seed, numbers, &mut bench);
    let mut each = |rng: &mut Rng, call: Call| check(rng, &call, &mut bench);
    typed_cases::by_values(args.seed, &mut each);
    typed_cases::unfit(args.seed, &mut each);
    let numbers = args.from / TYPED..(args.from + calls) / TYPED;
    typed_cases::generated(args.seed, numbers, &mut bench);
    bench.counts.check_reached(&mut bench.report);
    println!("oracle calls: seed {}, {calls} generated calls", args.seed);
    bench.counts.print();
    println!(
        "oracle calls: {} checks, {} mismatches",
        bench.report.checks, bench.report.failures
    );
    bench.report.failures == 0
}

/// One call with buffers of every sort. Its files stay as they are.
pub fn check(rng: &mut Rng, call: &Call, bench: &mut Bench) {
    let kept = [call.voice.clone(), call.sheet.clone()];
    // Drawn from a copy: what the report and the twins draw moves no draw after
    // it.
    let own = &mut rng.clone();
    let given = expected::given(&call.voice, &call.sheet, call.settings, Most::ANY);
    match &given {
        None => bench.counts.not_compared += 1,
        Some(Given::Refused(refusal)) => {
            planning::refused(rng, call, *refusal, bench);
            reporting::refused(own, call, *refusal, bench);
        }
        Some(Given::Spoken(spoken)) => {
            let voice = voicefile::open(&call.voice).expect("a voice that was opened before");
            planning::spoken(rng, call, &voice, spoken, bench);
            reporting::spoken(own, call, spoken, bench);
        }
    }
    if let (None, Some(given)) = (call.settings.filter, &given) {
        unnamed::compare(own, call, given, bench);
    }
    if let (true, Some(given)) = (call.settings.strict, &given) {
        strict::compare(own, call, given, bench);
    }
    if let Some(given) = &given {
        typed_twins::compare(own, call, given, bench);
    }
    let (boxes, typed) = match given {
        Some(Given::Refused(refusal)) => {
            let number = refusal.number();
            let Call {
                voice,
                sheet,
                settings,
                ..
            } = call;
            let boxes = Boxes::refused(voice, sheet, *settings, number);
            (boxes, Typed::refused(sheet, *settings, number))
        }
        Some(Given::Spoken(spoken)) => (spoken.boxes, spoken.typed),
        None => (None, None),
    };
    boxes.iter().for_each(|boxes| bench.counts.boxes.add(boxes));
    typed.iter().for_each(|typed| bench.counts.typed.add(typed));
    let same = kept[0] == call.voice && kept[1] == call.sheet;
    bench
        .report
        .check(same, || format!("{}: a file was written", call.about));
}
