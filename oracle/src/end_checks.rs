//! The rounding of target ends, with results written out, beside a second way,
//! and at the limit.

use crate::call::MAX_PLACE;
use crate::ends::{is_whole, nearest};
use crate::report::Report;
use crate::rng::Rng;

/// Every so many words is compared with the second way.
const STEP: usize = 1_021;

pub fn run(seed: u64, report: &mut Report) {
    written_out(report);
    let words = words(&mut Rng::for_case(seed, 4_700_000));
    let all = (0..=u32::MAX).step_by(STEP).chain(words);
    let wrong = all
        .map(f32::from_bits)
        .find(|x| nearest(*x) != by_floor(*x));
    report.equal(&None, &wrong, || "nearest, and by floor in f64".into());
    limit(report);
}

fn written_out(report: &mut Report) {
    let two_to_64 = 2.0f32.powi(64);
    let results = [
        (0.499_999_97, 0),
        (0.5, 1),
        (0.500_000_06, 1),
        (1.499_999_9, 1),
        (1.5, 2),
        (2.5, 3),
        (4_194_303.75, 4_194_304),
        (8_388_607.0, 8_388_607),
        (8_388_607.5, 8_388_608),
        (8_388_608.0, 8_388_608),
        (8_388_609.0, 8_388_609),
        (16_777_215.0, 16_777_215),
        (16_777_216.0, 16_777_216),
        (f32::from_bits(1), 0),
        (f32::MIN_POSITIVE, 0),
        (-0.0, 0),
        (-0.25, 0),
        (-0.5, 0),
        (-1.5, 0),
        (f32::MIN, 0),
        (f32::NEG_INFINITY, 0),
        (f32::NAN, 0),
        (-f32::NAN, 0),
        (f32::from_bits(two_to_64.to_bits() - 1), !0 << 40),
        (two_to_64, usize::MAX),
        (f32::MAX, usize::MAX),
        (f32::INFINITY, usize::MAX),
    ];
    for (x, whole) in results {
        report.equal(&whole, &nearest(x), || format!("nearest to {x:?}"));
    }
}

/// The second way. An f64 has room for an f32 and a half more, wherever that
/// half counts.
fn by_floor(x: f32) -> usize {
    (f64::from(x) + 0.5).floor() as usize
}

/// No f32 tells whether the limit is tested before or after rounding: those near
/// it are whole numbers.
fn limit(report: &mut Report) {
    let [whole_from, last] = [23, 25].map(|power| 2.0f32.powi(power).to_bits());
    let is_told = |x: &f32| {
        let is_past = *x > MAX_PLACE as f32;
        let past = [nearest(*x), *x as usize].map(|end| end > MAX_PLACE);
        past != [is_past; 2]
    };
    let told = (whole_from - 70_000..=last)
        .map(f32::from_bits)
        .find(is_told);
    report.equal(&None, &told, || {
        "the limit before and after rounding".into()
    });
    let parts = (whole_from..=last)
        .map(f32::from_bits)
        .find(|x| !is_whole(*x));
    report.equal(&None, &parts, || "f32s from 8,388,608 on".into());
}

/// Words of f32s at exact halves, at whole numbers and near both, positive and
/// negative, and of those at the ends of their range.
pub fn words(rng: &mut Rng) -> Vec<u32> {
    let mut halves: Vec<f32> = (0..2_000).map(|n| n as f32 * 0.5).collect();
    for power in 0..64 {
        let number = 2.0f32.powi(power);
        halves.extend([number - 0.5, number, number + 0.5]);
    }
    for _ in 0..20_000 {
        let most = 1 << rng.between(1, 24);
        halves.push(rng.below(most) as f32 + 0.5);
    }
    let mut words: Vec<u32> = halves
        .iter()
        .flat_map(|x| (0..5).map(|step| (x.to_bits() + step).wrapping_sub(2)))
        .collect();
    let ends = [0, 1 << 23, f32::INFINITY.to_bits()];
    words.extend(
        ends.iter()
            .flat_map(|word| word.saturating_sub(50)..word + 50),
    );
    let negative: Vec<u32> = words.iter().map(|word| word | 1 << 31).collect();
    [words, negative].concat()
}
