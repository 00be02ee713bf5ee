//! What texts stand for, with results written out, and beside the Rust's own
//! reading of many texts.

use crate::gen::typed_calls;
use crate::report::Report;
use crate::rng::Rng;
use crate::sheet;
use crate::text_inputs::{all_short, SORTS};
use crate::texts::{bits, Decimal, Middle, Text, MINUS};
use crate::value::Value;

/// Texts of each sort.
const DRAWN: usize = 30_000;

/// Every text of up to four of these bytes.
pub const ALPHABET: &[u8] = b"+-.01459ex \0\x80\xFF";
pub const SHORT: usize = 4;

pub fn run(seed: u64, report: &mut Report) {
    written_out(report);
    middles(report);
    for text in all_short(ALPHABET, SHORT) {
        beside_rust(&text, report);
    }
    let rng = &mut Rng::for_case(seed, 4_750_000);
    for sort in SORTS {
        for _ in 0..DRAWN {
            beside_rust(&sort.draw(rng), report);
        }
    }
    for row in typed_calls::rows() {
        of_row(&row, report);
    }
}

/// The texts of a call stand for what is written beside them. Where its sheet is
/// refused the last ones are not read.
fn of_row(row: &typed_calls::Row, report: &mut Report) {
    let bytes = row.sheet();
    let texts = sheet::texts(&bytes);
    let found: Vec<u32> = texts.iter().map(|(_, text)| text.bits()).collect();
    let mut expected: Vec<u32> = row.stand_for().into_iter().map(f32::to_bits).collect();
    if sheet::read(&bytes).is_err() {
        expected.truncate(found.len());
    }
    report.equal(&expected, &found, || {
        format!("{}: what its texts stand for", row.reason)
    });
}

/// By the Rust, given as `Value::Str`.
pub fn rust_bits(text: &str) -> u32 {
    Value::str(text).as_f32().to_bits()
}

fn beside_rust(text: &Text, report: &mut Report) {
    report.equal(&rust_bits(text.for_rust()), &text.bits(), || {
        format!("{text:?}: by the Rust, and in whole numbers")
    });
}

#[rustfmt::skip]
const WRITTEN_OUT: &[(&[u8], u32)] = &[
    // No digit.
    (b"", 0), (b"-", 0), (b"+", 0), (b".", 0), (b"-.", 0), (b"+.", 0), (b"+-3", 0), (b"--3", 0),
    (b" 3", 0), (b"e5", 0), (b"x", 0), (b"..5", 0), (b"-..5", 0), (b".-5", 0), (b"\0005", 0),
    (b"\xFF5", 0), (b"nan", 0), (b"inf", 0), (b"-infinity", 0),
    // Zeros of either sign.
    (b"0", 0), (b"+0", 0), (b"0.", 0), (b".0", 0), (b"000000000000", 0), (b"0.0000000000", 0),
    (b"-0", MINUS), (b"-.0", MINUS), (b"-0.", MINUS), (b"-0.0", MINUS), (b"-00000000000", MINUS),
    (b"-0x5", MINUS), (b"-0.0.5", MINUS), (b"-0-5", MINUS),
    // A point, a sign, and what ends the number.
    (b"5", 0x40A0_0000), (b"5.", 0x40A0_0000), (b"+5", 0x40A0_0000), (b"-5", 0xC0A0_0000),
    (b".5", 0x3F00_0000), (b"+.5", 0x3F00_0000), (b"-.5", 0xBF00_0000), (b"0.5", 0x3F00_0000),
    (b"3", 0x4040_0000), (b"3 4", 0x4040_0000), (b"3\x80", 0x4040_0000), (b"3\0005", 0x4040_0000),
    (b"3-5", 0x4040_0000), (b"3+5", 0x4040_0000), (b"3.-5", 0x4040_0000), (b"3..5", 0x4040_0000),
    (b"1.5.7", 0x3FC0_0000), (b"1e5", 0x3F80_0000), (b"1E5", 0x3F80_0000), (b"1_000", 0x3F80_0000),
    (b"0x10", 0), (b"1,5", 0x3F80_0000), (b"000000000100", 0x42C8_0000), (b"1.5000000000", 0x3FC0_0000),
    // Nearest.
    (b"0.1", 0x3DCC_CCCD), (b"-0.1", 0xBDCC_CCCD), (b"0.2", 0x3E4C_CCCD), (b"0.06", 0x3D75_C28F),
    (b"3.1415926535", 0x4049_0FDB), (b"120.00000001", 0x42F0_0000), (b"1099511627", 0x4E83_126F),
    (b"999999999999", 0x5368_D4A5), (b"-99999999999", 0xD1BA_43B7), (b".00000000001", 0x2D2F_EBFF),
    (b"-.0000000001", 0xAEDB_E6FF), (b".99999997019", 0x3F7F_FFFF), (b".99999997020", 0x3F80_0000),
    // Ties, and a little beside them.
    (b"16777217", 0x4B80_0000), (b"16777219", 0x4B80_0002), (b"-16777217", 0xCB80_0000),
    (b"16777217.001", 0x4B80_0001), (b"16777218.999", 0x4B80_0001), (b"16777216.999", 0x4B80_0000),
    (b"4194304.25", 0x4A80_0000), (b"4194304.75", 0x4A80_0002), (b"4194304.251", 0x4A80_0001),
    (b"4194304.249", 0x4A80_0000), (b"4194304.749", 0x4A80_0001), (b"-4194304.75", 0xCA80_0002),
    (b"2097152.125", 0x4A00_0000), (b"2097152.375", 0x4A00_0002), (b"1048576.0625", 0x4980_0000),
    (b"1048576.1875", 0x4980_0002), (b"524288.03125", 0x4900_0000), (b"524288.09375", 0x4900_0002),
    (b"8388608.5", 0x4B00_0000), (b"8388609.5", 0x4B00_0002), (b"33554434", 0x4C00_0000),
    (b"33554438", 0x4C00_0002), (b"549755846656", 0x5300_0000), (b"549755912192", 0x5300_0002),
    (b"0016777217.0", 0x4B80_0000), (b"+16777219e9", 0x4B80_0002), (b"4194304.2500", 0x4A80_0000),
    // Ties that carry into the exponent.
    (b"8388607.75", 0x4B00_0000), (b"16777215.5", 0x4B80_0000), (b"33554431", 0x4C00_0000),
    (b"67108862", 0x4C80_0000),
];

fn written_out(report: &mut Report) {
    for (text, expected) in WRITTEN_OUT {
        let shown = text.escape_ascii();
        report.equal(expected, &bits(text), || format!("\"{shown}\" stands for"));
        let text = Text::new(text).expect("at most 12 bytes");
        beside_rust(&text, report);
    }
}

/// How near a middle is, for fractions where that can be told at sight.
fn middles(report: &mut Report) {
    let tie = |even, odd| Middle::Tie([even, odd]);
    let results = [
        (16_777_217, 1, tie(0x4B80_0000, 0x4B80_0001)),
        (16_777_219, 1, tie(0x4B80_0002, 0x4B80_0001)),
        (1_677_721_700, 100, tie(0x4B80_0000, 0x4B80_0001)),
        (16_777_216, 1, Middle::Unit),
        (16_777_218, 1, Middle::Unit),
        (419_430_426, 100, Middle::Unit),
        (4_194_304, 1, Middle::Apart),
        (41_943_042, 10, Middle::Within),
        (41_943_043, 10, Middle::Within),
        (419_430_427, 100, Middle::Apart),
        (1, 10, Middle::Apart),
        (0, 1, Middle::Apart),
    ];
    for (over, under, expected) in results {
        let decimal = Decimal {
            is_negative: false,
            over,
            under,
        };
        report.equal(&expected, &decimal.middle(), || {
            format!("the middle nearest to {over} / {under}")
        });
    }
}
