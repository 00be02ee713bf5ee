//! `oracle real`: a voice file and call sheets that were not generated, in
//! every setting. `tools/real/make` makes some.

use crate::args::Args;
use crate::call::Settings;
use crate::calls::{self, Bench, Call};
use crate::rng::Rng;
use std::fs;
use std::path::PathBuf;

/// A voice file and the sheets of a folder, in the order of their names.
pub struct Files {
    pub voice: Vec<u8>,
    pub sheets: Vec<(String, Vec<u8>)>,
}

pub fn files(args: &Args) -> Result<Files, String> {
    let voice = args.voice.as_ref().ok_or("--voice is missing")?;
    let folder = args.sheets.as_ref().ok_or("--sheets is missing")?;
    let listed = fs::read_dir(folder).map_err(|error| format!("{folder}: {error}"))?;
    let mut paths: Vec<PathBuf> = listed.flatten().map(|entry| entry.path()).collect();
    paths.retain(|path| path.extension().is_some_and(|end| end == "sht"));
    paths.sort();
    let mut sheets = Vec::new();
    for path in paths {
        let name = path.display().to_string();
        sheets.push((name.clone(), read(&name)?));
    }
    match sheets.is_empty() {
        true => Err(format!("{folder}: no sheet, a file that ends in .sht")),
        false => Ok(Files {
            voice: read(voice)?,
            sheets,
        }),
    }
}

fn read(file: &str) -> Result<Vec<u8>, String> {
    fs::read(file).map_err(|error| format!("{file}: {error}"))
}

pub fn run(args: &Args) -> bool {
    let files = match files(args) {
        Ok(files) => files,
        Err(message) => {
            println!("oracle: {message}");
            return false;
        }
    };
    let mut bench = Bench::default();
    for (name, sheet) in &files.sheets {
        for settings in Settings::all() {
            let rng = &mut Rng::for_case(args.seed, 9_000_000);
            let call = Call {
                about: format!("{name}, {settings:?}"),
                voice: files.voice.clone(),
                sheet: sheet.clone(),
                settings,
            };
            calls::check(rng, &call, &mut bench);
        }
    }
    println!("oracle real: {} sheets", files.sheets.len());
    bench.counts.print();
    println!(
        "oracle real: {} checks, {} mismatches",
        bench.report.checks, bench.report.failures
    );
    bench.report.failures == 0 && bench.counts.not_compared == 0
}
