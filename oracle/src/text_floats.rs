//! `oracle texts`: `probe_text_to_f32` of libprobe.a beside the exact computation of
//! `texts.rs`, and beside the Rust's own reading where a text is UTF-8. Results are
//! compared by bits.

use crate::args::Args;
use crate::probe;
use crate::report::Report;
use crate::rng::Rng;
use crate::text_checks::{rust_bits, ALPHABET, SHORT};
use crate::text_inputs::{all_short, Sort, SORTS};
use crate::texts::{self, decimal, Middle, Text, MAX_TEXT, MINUS};

/// Texts in a run that is not told otherwise.
const COUNT: u64 = 1_000_000;

/// Lengths above the limit, of which each is tried so often: the first twelve bytes
/// count.
const LONG: [usize; 6] = [13, 14, 16, 64, 255, 256];
const LONG_TEXTS: usize = 1_000;

const MET: [&str; 9] = [
    "ties that go down",
    "ties that go up",
    "a unit in the last place beside a tie",
    "less than that beside a middle",
    "f32s without rounding",
    "minus zero",
    "no digit",
    "twelve bytes",
    "not UTF-8",
];

#[derive(Default)]
struct Run {
    report: Report,
    /// Those that are short, then by sort.
    sorts: [u64; SORTS.len() + 1],
    met: [u64; MET.len()],
    beside_rust: u64,
    long: u64,
}

pub fn run(args: &Args) -> bool {
    let mut run = Run::default();
    for text in all_short(ALPHABET, SHORT) {
        run.sorts[0] += 1;
        run.compare(&text);
    }
    let rng = &mut Rng::for_case(args.seed, 14_000_000);
    let more = args.count.unwrap_or(COUNT).saturating_sub(run.sorts[0]);
    for number in 0..more as usize {
        let sort = number % SORTS.len();
        run.sorts[1 + sort] += 1;
        run.compare(&SORTS[sort].draw(rng));
    }
    run.long(rng);
    let missing: Vec<&str> = run.missing();
    run.report
        .check(missing.is_empty(), || format!("no text with {missing:?}"));
    run.print(args.seed);
    run.report.failures == 0
}

impl Run {
    fn compare(&mut self, text: &Text) {
        let bytes = text.bytes();
        let exact = text.bits();
        let found = probe::text_to_f32(bytes).to_bits();
        self.report.check(exact == found, || {
            format!("{text:?}: exactly {exact:08x}, archive {found:08x}")
        });
        let utf8 = std::str::from_utf8(bytes);
        if let Ok(utf8) = utf8 {
            let rust = rust_bits(utf8);
            self.beside_rust += 1;
            self.report.check(rust == found, || {
                format!("{text:?}: Rust {rust:08x}, archive {found:08x}")
            });
        }
        for (sum, met) in self.met.iter_mut().zip(met(text, exact, utf8.is_ok())) {
            *sum += u64::from(met);
        }
    }

    /// Texts that are too long for a sheet.
    fn long(&mut self, rng: &mut Rng) {
        for _ in 0..LONG_TEXTS {
            for length in LONG {
                let digit = Sort::Digits.draw(rng);
                let digits = digit.bytes().iter().chain(b"1").copied().cycle();
                let text: Vec<u8> = digits.take(length).collect();
                let found = probe::text_to_f32(&text).to_bits();
                self.long += 1;
                let exact = texts::bits(&text[..MAX_TEXT]);
                self.report.check(exact == found, || {
                    format!("a text of {length} bytes: exactly {exact:08x}, archive {found:08x}")
                });
            }
        }
    }

    fn missing(&self) -> Vec<&'static str> {
        let met = MET.iter().zip(&self.met);
        let sorts = SORTS.map(name).into_iter().zip(&self.sorts[1..]);
        met.map(|(what, count)| (*what, count))
            .chain(sorts)
            .filter(|(_, count)| **count == 0)
            .map(|(what, _)| what)
            .collect()
    }

    fn print(&self, seed: u64) {
        let all: u64 = self.sorts.iter().sum();
        println!("oracle texts: seed {seed}, {all} texts");
        let [short, sorts @ ..] = &self.sorts;
        let bytes = ALPHABET.escape_ascii();
        println!("  every text of at most {SHORT} of the bytes \"{bytes}\": {short}");
        for (sort, count) in SORTS.map(name).iter().zip(sorts) {
            println!("  {sort}: {count}");
        }
        println!("  among all of them");
        for (what, count) in MET.iter().zip(self.met) {
            println!("    {what}: {count}");
        }
        println!(
            "  compared with the exact computation: {all}, with the Rust: {}",
            self.beside_rust
        );
        println!(
            "  more than {MAX_TEXT} bytes, of which the first {MAX_TEXT} count: {}",
            self.long
        );
        println!(
            "oracle texts: {} checks, {} mismatches",
            self.report.checks, self.report.failures
        );
    }
}

fn name(sort: Sort) -> &'static str {
    match sort {
        Sort::Tie => "ties, bare and with something around them",
        Sort::NearMiddle => "next to a middle between two f32s",
        Sort::Digits => "digits",
        Sort::Zeros => "many zeros",
        Sort::PointsAndSigns => "points and signs",
        Sort::Behind => "something behind a number",
        Sort::AnyBytes => "any bytes",
    }
}

/// What a text is like that stands for an f32 of these bits.
fn met(text: &Text, bits: u32, is_utf8: bool) -> [bool; MET.len()] {
    let decimal = decimal(text.bytes());
    let middle = decimal.map_or(Middle::Apart, |decimal| decimal.middle());
    let is_tie = |up: bool| matches!(middle, Middle::Tie([even, odd]) if (even > odd) == up);
    [
        is_tie(false),
        is_tie(true),
        middle == Middle::Unit,
        middle == Middle::Within,
        decimal.is_some_and(|decimal| decimal.is_f32()),
        bits == MINUS,
        decimal.is_none(),
        text.bytes().len() == MAX_TEXT,
        !is_utf8,
    ]
}
