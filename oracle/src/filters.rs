//! `oracle filters`: the fixed and the float LPC filter of libprobe.a beside
//! the Rust's: two periods from a fresh state, of every order from 0 to 32.

use crate::args::Args;
use crate::dsp::{self, Flow};
use crate::probe;
use crate::rng::Rng;
use std::hint::black_box;
use std::time::{Duration, Instant};

/// Samples in a run that is not told otherwise.
const COUNT: u64 = 2_000_000;

/// The greatest order.
const HIGHEST: usize = 32;

/// The longest period that is compared.
const LONGEST: usize = 400;

/// The order that is timed, as the real voices have it.
const TIMED: usize = 16;

pub fn run(args: &Args) -> bool {
    let count = args.count.unwrap_or(COUNT).max(1);
    println!("oracle filters: seed {}, count {count}", args.seed);
    let mut tally = Tally::default();
    let mut case = 0;
    while tally.samples < count {
        let mut rng = Rng::for_case(args.seed, case);
        let order = case as usize % (HIGHEST + 1);
        tally.compare(&Periods::new(&mut rng, order));
        case += 1;
    }
    tally.print(case);
    for length in [100, 4_000] {
        for float in [false, true] {
            time(args.seed, float, length);
        }
    }
    let agreed = tally.wrong == 0;
    let end = if agreed { "all equal" } else { "mismatches" };
    println!("oracle filters: {end}");
    agreed
}

fn name(float: bool) -> &'static str {
    ["fixed", "float"][float as usize]
}

/// Two periods: a row of values q for each, and the excitation of both.
struct Periods {
    order: usize,
    coeff_min: f32,
    coeff_range: f32,
    quantised: Vec<u16>,
    first: usize,
    excitation: Vec<u8>,
}

impl Periods {
    fn new(rng: &mut Rng, order: usize) -> Periods {
        // Coefficients of speech, then such as let the outputs grow.
        let limit = rng.pick(&[0.5 / HIGHEST as f32, 0.25, 1.0, 16.0]);
        let mut scale = || (rng.unit() as f32 * 2.0 - 1.0) * limit;
        let (coeff_min, other) = (scale(), scale());
        let coeff_range = rng.pick(&[-2.0 * coeff_min, other]);
        let lengths = [rng.below(LONGEST), rng.below(LONGEST)];
        let quiet = rng.once_in(4);
        let mut excitation = rng.bytes(lengths[0] + lengths[1]);
        if quiet {
            excitation.iter_mut().for_each(|byte| *byte |= 0x70);
        }
        Periods {
            order,
            coeff_min,
            coeff_range: coeff_range.clamp(-16.0, 16.0),
            quantised: (0..2 * order).map(|_| rng.word() as u16).collect(),
            first: lengths[0],
            excitation,
        }
    }

    /// Two periods of one length, with outputs that stay small.
    fn timed(rng: &mut Rng, length: usize) -> Periods {
        Periods {
            order: TIMED,
            coeff_min: -0.06,
            coeff_range: 0.12,
            quantised: (0..2 * TIMED).map(|_| rng.word() as u16).collect(),
            first: length,
            excitation: rng.bytes(2 * length),
        }
    }

    fn sizes(&self) -> [usize; 2] {
        [self.first, self.excitation.len() - self.first]
    }

    /// By the Rust, period by period.
    fn rust(&self, float: bool, sink: &mut dyn FnMut(&[i16]) -> Flow) {
        let filter = match float {
            false => dsp::lpc_resynthesise_streaming,
            true => dsp::lpc_resynthesise_float_streaming,
        };
        filter(
            &self.quantised,
            &self.sizes(),
            &self.excitation,
            self.coeff_min,
            self.coeff_range,
            self.order,
            sink,
        );
    }

    fn rows(&self) -> Vec<u8> {
        self.quantised
            .iter()
            .flat_map(|q| q.to_le_bytes())
            .collect()
    }

    fn archive(&self, float: bool, rows: &[u8], samples: &mut [u8]) {
        let scales = (self.coeff_min, self.coeff_range);
        probe::resynthesise(
            float,
            self.order,
            scales,
            rows,
            self.first,
            &self.excitation,
            samples,
        );
    }

    /// The fixed filter's accumulators that leave 32 bits on the way, worked
    /// out here to see that the periods reach them.
    fn wraps(&self) -> u64 {
        let min_q = (self.coeff_min * 32768.0) as i64;
        let range_q = (self.coeff_range * 2048.0) as i64;
        let value = |q: &u16| ((*q as i64 / 2 * range_q) / 2048 + min_q) / 2;
        let mut outputs: Vec<i32> = Vec::new();
        let mut wraps = 0;
        for (i, &byte) in self.excitation.iter().enumerate() {
            let row = (i >= self.first) as usize * self.order;
            let mut acc = dsp::ulaw_to_i16(byte) as i128 * 16384;
            for (k, q) in self.quantised[row..row + self.order].iter().enumerate() {
                let back = outputs.len().checked_sub(k + 1).map_or(0, |at| outputs[at]);
                acc += (value(q) * back as i64) as i128;
            }
            wraps += (acc != acc as i32 as i128) as u64;
            outputs.push(acc as i32 / 16384);
        }
        wraps
    }

    /// The float filter's outputs past 16 bits, infinite, and NaN.
    fn outputs(&self) -> [u64; 3] {
        let value = |q: &u16| {
            (f64::from(*q) / 65535.0 * f64::from(self.coeff_range)) as f32 + self.coeff_min
        };
        let mut outputs: Vec<f32> = Vec::new();
        for (i, &byte) in self.excitation.iter().enumerate() {
            let row = (i >= self.first) as usize * self.order;
            let mut acc = f32::from(dsp::ulaw_to_i16(byte));
            for (k, q) in self.quantised[row..row + self.order].iter().enumerate() {
                let back = outputs
                    .len()
                    .checked_sub(k + 1)
                    .map_or(0.0, |at| outputs[at]);
                acc += value(q) * back;
            }
            outputs.push(acc);
        }
        let count = |test: fn(&f32) -> bool| outputs.iter().filter(|&y| test(y)).count() as u64;
        [
            count(|y| y.is_finite() && !(-32769.0 < *y && *y < 32768.0)),
            count(|y| y.is_infinite()),
            count(|y| y.is_nan()),
        ]
    }
}

#[derive(Default)]
struct Tally {
    samples: u64,
    wrong: u64,
    wraps: u64,
    outputs: [u64; 3],
}

impl Tally {
    /// Both filters on the same periods. The archive's samples stand in a
    /// buffer with room to spare, which it must leave as it was.
    fn compare(&mut self, periods: &Periods) {
        self.samples += periods.excitation.len() as u64;
        self.wraps += periods.wraps();
        for (sum, count) in self.outputs.iter_mut().zip(periods.outputs()) {
            *sum += count;
        }
        let rows = periods.rows();
        for float in [false, true] {
            let mut rust = Vec::new();
            periods.rust(float, &mut |period| {
                rust.extend(period.iter().flat_map(|sample| sample.to_le_bytes()));
                Flow::Continue
            });
            rust.extend([0xA5; 3]);
            let mut archive = vec![0xA5; 2 * periods.excitation.len() + 3];
            periods.archive(float, &rows, &mut archive);
            if rust != archive {
                self.wrong += 1;
                let first = rust.iter().zip(&archive).position(|(a, b)| a != b);
                println!(
                    "oracle: mismatch: {} filter: byte {first:?}, order {}, scales {} {}, \
                     values {:?}, first {}, excitation {:02x?}",
                    name(float),
                    periods.order,
                    periods.coeff_min,
                    periods.coeff_range,
                    periods.quantised,
                    periods.first,
                    periods.excitation
                );
            }
        }
    }

    fn print(&self, cases: u64) {
        println!(
            "  filters: {} samples of each filter in {} periods, orders 0 to {HIGHEST}, {} mismatches",
            self.samples,
            2 * cases,
            self.wrong
        );
        println!(
            "  filters: fixed: {} accumulators wrap; float: {} outputs past 16 bits, {} infinite, {} NaN",
            self.wraps, self.outputs[0], self.outputs[1], self.outputs[2]
        );
    }
}

/// The best of some rounds over different periods, the two sides in turn.
fn time(seed: u64, float: bool, length: usize) {
    let cases: Vec<(Periods, Vec<u8>)> = (0..40_000 / length)
        .map(|case| {
            let periods = Periods::timed(&mut Rng::for_case(seed, case as u64), length);
            let rows = periods.rows();
            (periods, rows)
        })
        .collect();
    let mut samples = vec![0; 4 * length];
    let mut best = [Duration::MAX; 2];
    for _ in 0..300 {
        let start = Instant::now();
        for (periods, _) in &cases {
            periods.rust(float, &mut |period| {
                black_box(period);
                Flow::Continue
            });
        }
        best[0] = best[0].min(start.elapsed());
        let start = Instant::now();
        for (periods, rows) in &cases {
            periods.archive(float, rows, &mut samples);
            black_box(&samples);
        }
        best[1] = best[1].min(start.elapsed());
    }
    let each = |time: Duration| time.as_nanos() as f64 / (2 * length * cases.len()) as f64;
    println!(
        "  filters: {}, order {TIMED}, periods of {length} samples: {:.2} ns a sample in the Rust, {:.2} ns in the archive",
        name(float),
        each(best[0]),
        each(best[1])
    );
}
