//! What document 01's program and the marking program print.

use crate::period_report::Line;

/// Rate, periods and samples, then each period's number, size and samples.
pub fn spoken(rate: usize, periods: &[Vec<i16>]) -> String {
    let samples: usize = periods.iter().map(Vec::len).sum();
    let mut lines = format!("{rate} {} {samples}\n", periods.len());
    for (i, period) in periods.iter().enumerate() {
        lines += &format!("{} {}", i + 1, period.len());
        for sample in period {
            lines += &format!(" {sample}");
        }
        lines.push('\n');
    }
    lines
}

pub fn refused(number: usize) -> String {
    format!("refused {number}\n")
}

/// Each period's number, pair, half, first sample and size.
pub fn reported(lines: &[Line]) -> String {
    let line = |(number, [pair, half, first, size]): (usize, &Line)| {
        format!("{number} {pair} {half} {first} {size}\n")
    };
    (1..).zip(lines).map(line).collect()
}
