//! Compares the ported diphone back end with the Rust program flite-rs.
//!
//! The modules of flite-rs stand at the root of this crate, as their own
//! `crate::` paths ask for. build.rs writes the lines that bring them in.

include!(concat!(env!("OUT_DIR"), "/root.rs"));

#[cfg(feature = "probe")]
mod accuracy;
mod args;
#[cfg(feature = "calls")]
mod bench;
mod call;
#[cfg(feature = "calls")]
mod calls;
#[cfg(feature = "probe")]
mod codecs;
mod departure;
#[cfg(any(feature = "calls", all(feature = "diphone_c", feature = "probe_call")))]
mod diphone_c;
mod empty_boxes;
mod end_checks;
mod ends;
mod examples;
mod expected;
#[cfg(feature = "probe")]
mod filters;
#[cfg(feature = "probe")]
mod float_inputs;
#[cfg(feature = "probe")]
mod floats;
mod gen;
mod good;
mod lent;
mod lines;
#[cfg(feature = "probe_call")]
mod marking;
#[cfg(all(feature = "diphone_c", feature = "probe_call"))]
mod openings;
mod pairs;
mod period_report;
mod pitch_checks;
mod pitches;
#[cfg(feature = "probe")]
mod powers;
#[cfg(feature = "probe")]
mod probe;
#[cfg(feature = "probe_call")]
mod probe_call;
#[cfg(feature = "probe_call")]
mod probe_take;
#[cfg(feature = "probe_call")]
mod probe_voice;
#[cfg(feature = "calls")]
mod real;
mod reference;
mod refusal;
mod report;
mod report_examples;
mod rng;
mod selfcheck;
mod sheet;
#[cfg(any(feature = "probe", feature = "calls"))]
mod speech;
mod statements;
#[cfg(feature = "probe_state")]
mod states;
mod store;
mod taking;
mod text_calls;
mod text_checks;
#[cfg(feature = "probe")]
mod text_floats;
mod text_inputs;
mod texts;
#[cfg(feature = "probe")]
mod voicecodes;
mod voicefile;
#[cfg(feature = "probe_call")]
mod windows;

use std::process::ExitCode;

const USAGE: &str = "usage:
  oracle self [--seed N] [--count N]
  oracle statements [--seed N] [--from N] [--count N] --out FILE
  oracle store [--seed N] [--count N] --out FILE
  oracle floats [--seed N] [--count N] [--all]
  oracle texts [--seed N] [--count N]
  oracle codecs [--seed N] [--count N] [--all]
  oracle codecs --codes FILE [--count N]
  oracle filters [--seed N] [--count N]
  oracle openings [--seed N] [--from N] [--count N]
  oracle marks [--seed N] [--from N] [--count N]
  oracle windows [--seed N] [--from N] [--count N]
  oracle calls [--seed N] [--from N] [--count N]
  oracle real --voice FILE --sheets FOLDER
  oracle bench [--count N] [--voice FILE --sheets FOLDER] [--only JOIN-FILTER]
  oracle worst [--count N] [--out FOLDER]";

fn main() -> ExitCode {
    let words: Vec<String> = std::env::args().skip(1).collect();
    let Some((command, options)) = words.split_first() else {
        return usage("no command");
    };
    let args = match args::read(options) {
        Ok(args) => args,
        Err(message) => return usage(&message),
    };
    let agreed = match command.as_str() {
        "self" => selfcheck::run(&args),
        "statements" => statements::run(&args),
        "store" => store::run(&args),
        #[cfg(feature = "probe")]
        "floats" => floats::run(&args),
        #[cfg(feature = "probe")]
        "texts" => text_floats::run(&args),
        #[cfg(feature = "probe")]
        "codecs" => codecs::run(&args),
        #[cfg(feature = "probe")]
        "filters" => filters::run(&args),
        #[cfg(not(feature = "probe"))]
        "floats" | "texts" | "codecs" | "filters" => {
            return usage("built without the feature probe")
        }
        #[cfg(all(feature = "diphone_c", feature = "probe_call"))]
        "openings" => openings::run(&args),
        #[cfg(not(all(feature = "diphone_c", feature = "probe_call")))]
        "openings" => return usage("built without the features diphone_c and probe_call"),
        #[cfg(feature = "probe_call")]
        "marks" => marking::run(&args),
        #[cfg(feature = "probe_call")]
        "windows" => windows::run(&args),
        #[cfg(not(feature = "probe_call"))]
        "marks" | "windows" => return usage("built without the feature probe_call"),
        #[cfg(feature = "calls")]
        "calls" => calls::run(&args),
        #[cfg(feature = "calls")]
        "real" => real::run(&args),
        #[cfg(feature = "calls")]
        "bench" => bench::run(&args),
        #[cfg(feature = "calls")]
        "worst" => bench::worst::run(&args),
        #[cfg(not(feature = "calls"))]
        "calls" | "real" | "bench" | "worst" => return usage("built without the feature calls"),
        other => return usage(&format!("unknown command {other}")),
    };
    match agreed {
        true => ExitCode::SUCCESS,
        false => ExitCode::FAILURE,
    }
}

fn usage(message: &str) -> ExitCode {
    eprintln!("oracle: {message}\n{USAGE}");
    ExitCode::from(2)
}
