//! `oracle floats`: the functions of libprobe.a beside Rust's own casts and
//! operators, and `f32_to_nearest` beside `ends::nearest`. Results are compared
//! by bits; any NaN equals any NaN.

use crate::args::Args;
use crate::ends;
use crate::float_inputs as inputs;
use crate::probe::*;
use crate::rng::Rng;
use std::thread;

/// Inputs for each function in a run that is not told otherwise.
const COUNT: u64 = 2_000_000;

/// The word that stands for every NaN.
const NAN: u32 = 0x7FC0_0000;

/// How many mismatches of one function are printed.
const SHOWN: usize = 5;

pub fn run(args: &Args) -> bool {
    let count = args.count.unwrap_or(COUNT).max(1);
    println!("oracle floats: seed {}, count {count}", args.seed);
    let mut agreed = of_f64(args.seed, count);
    agreed &= of_several(args.seed, count);
    agreed &= match args.all {
        true => of_all_words(),
        false => of_some_words(args.seed, count),
    };
    let end = if agreed { "all equal" } else { "mismatches" };
    println!("oracle floats: {end}");
    agreed
}

/// The comparison of one function so far.
#[derive(Default)]
struct Tally {
    count: u64,
    wrong: u64,
    shown: Vec<String>,
}

impl Tally {
    #[inline]
    fn compare(&mut self, rust: u64, archive: u64, input: impl FnOnce() -> String) {
        self.count += 1;
        if rust != archive {
            self.note(rust, archive, input());
        }
    }

    #[cold]
    fn note(&mut self, rust: u64, archive: u64, input: String) {
        self.wrong += 1;
        if self.shown.len() < SHOWN {
            self.shown
                .push(format!("input {input}: Rust {rust:x}, archive {archive:x}"));
        }
    }

    fn add(&mut self, other: Tally) {
        self.count += other.count;
        self.wrong += other.wrong;
        self.shown.extend(other.shown);
        self.shown.truncate(SHOWN);
    }

    /// Prints one line, then the first mismatches. True if there are none.
    fn print(&self, name: &str, which: &str) -> bool {
        println!(
            "  {name}: {} inputs, {which}, {} mismatches",
            self.count, self.wrong
        );
        for line in &self.shown {
            println!("oracle: mismatch: {name}: {line}");
        }
        self.wrong == 0
    }
}

fn f(word: u32) -> f32 {
    f32::from_bits(word)
}

/// The bits of a float, all NaNs alike.
fn bits(x: f32) -> u32 {
    match x.is_nan() {
        true => NAN,
        false => x.to_bits(),
    }
}

/// The functions of one f64.
fn of_f64(seed: u64, count: u64) -> bool {
    let mut to_f32 = Tally::default();
    inputs::narrowing(&mut Rng::new(seed), count, &mut |word| {
        let x = f64::from_bits(word);
        let archive = bits(probe_f64_to_f32(x));
        to_f32.compare(bits(x as f32).into(), archive.into(), || {
            format!("{word:016x}")
        });
    });

    let mut to_usize = Tally::default();
    inputs::whole_f64(&mut Rng::new(seed), count, &mut |word| {
        let x = f64::from_bits(word);
        let input = || format!("{word:016x}");
        to_usize.compare(x as usize as u64, probe_f64_to_usize(x) as u64, input);
    });

    let which = format!("seed {seed}");
    let first = to_f32.print("f64_to_f32", &which);
    let second = to_usize.print("f64_to_usize", &which);
    first && second
}

/// The functions of several numbers.
fn of_several(seed: u64, count: u64) -> bool {
    let rng = &mut Rng::new(seed);
    let mut nearer = Tally::default();
    for _ in 0..count {
        let [p, a, b] = inputs::triple(rng);
        let rust = (p - a).abs() < (p - b).abs();
        nearer.compare(rust.into(), probe_is_nearer(p, a, b).into(), || {
            let [p, a, b] = [p, a, b].map(f32::to_bits);
            format!("{p:08x} {a:08x} {b:08x}")
        });
    }

    let mut product = Tally::default();
    inputs::factors(rng, count, &mut |a, b| {
        let rust = (a as i32).wrapping_mul(b as i32) as u32;
        product.compare(rust.into(), probe_wrapping_mul(a, b).into(), || {
            format!("{a:08x} {b:08x}")
        });
    });

    let which = format!("seed {seed}");
    let first = nearer.print("is_nearer", &which);
    let second = product.print("wrapping_mul", &which);
    first && second
}

/// The words from `first` to `last` in steps, then a list.
struct Words<'a> {
    first: u32,
    last: u32,
    step: u32,
    list: &'a [u32],
}

/// Compares two functions of a word over words.
fn sweep(words: &Words, rust: impl Fn(u32) -> u64, archive: impl Fn(u32) -> u64) -> Tally {
    let mut tally = Tally::default();
    let mut one = |word| tally.compare(rust(word), archive(word), || format!("{word:08x}"));
    let mut next = Some(words.first);
    while let Some(word) = next.filter(|word| *word <= words.last) {
        one(word);
        next = word.checked_add(words.step);
    }
    words.list.iter().copied().for_each(one);
    tally
}

type Sweep = fn(&Words) -> Tally;

/// The functions of one 32-bit word, or of the f32 with that word as its bits.
const OF_WORD: [(&str, Sweep); 8] = [
    ("f32_to_i16", |words| {
        sweep(
            words,
            |w| f(w) as i16 as u64,
            |w| probe_f32_to_i16(f(w)) as u64,
        )
    }),
    ("f32_to_i32", |words| {
        sweep(
            words,
            |w| f(w) as i32 as u64,
            |w| probe_f32_to_i32(f(w)) as u64,
        )
    }),
    ("f32_to_usize", |words| {
        sweep(
            words,
            |w| f(w) as usize as u64,
            |w| probe_f32_to_usize(f(w)) as u64,
        )
    }),
    ("f32_to_nearest", |words| {
        sweep(
            words,
            |w| ends::nearest(f(w)) as u64,
            |w| probe_f32_to_nearest(f(w)) as u64,
        )
    }),
    ("f32_from_word", |words| {
        sweep(
            words,
            |w| bits(f(w)).into(),
            |w| bits(probe_f32_from_word(w)).into(),
        )
    }),
    ("f32_to_word", |words| {
        sweep(
            words,
            |w| bits(f(w)).into(),
            |w| probe_f32_to_word(f(w)).into(),
        )
    }),
    ("u32_to_f32", |words| {
        sweep(
            words,
            |w| bits(w as f32).into(),
            |w| bits(probe_u32_to_f32(w)).into(),
        )
    }),
    ("divide_by_16384", |words| {
        sweep(
            words,
            |w| ((w as i32 / 16_384) as u32).into(),
            |w| probe_divide_by_16384(w).into(),
        )
    }),
];

/// Each function of a word over a stride through all words and over the edges.
fn of_some_words(seed: u64, count: u64) -> bool {
    let rng = &mut Rng::new(seed);
    let step = ((1u64 << 32) / count.min(1 << 32)) as u32 | 1;
    let words = Words {
        first: rng.below(step as usize) as u32,
        last: u32::MAX,
        step,
        list: &inputs::edge_words(rng),
    };
    let which = format!("seed {seed}, every word in {step} and edges");
    let mut agreed = true;
    for (name, sweep) in OF_WORD {
        agreed &= sweep(&words).print(name, &which);
    }
    agreed
}

/// Each function of a word over all words, on every core.
fn of_all_words() -> bool {
    let parts = thread::available_parallelism().map_or(2, usize::from) as u64;
    let mut agreed = true;
    for (name, sweep) in OF_WORD {
        let mut tally = Tally::default();
        thread::scope(|scope| {
            let run = |part| scope.spawn(move || sweep(&part_of_all(part, parts)));
            let running: Vec<_> = (0..parts).map(run).collect();
            for part in running {
                match part.join() {
                    Ok(found) => tally.add(found),
                    Err(_) => agreed = false,
                }
            }
        });
        agreed &= tally.print(name, "all words") && tally.count == 1 << 32;
    }
    agreed
}

fn part_of_all(part: u64, parts: u64) -> Words<'static> {
    let border = |part: u64| (part << 32) / parts;
    Words {
        first: border(part) as u32,
        last: (border(part + 1) - 1) as u32,
        step: 1,
        list: &[],
    }
}
