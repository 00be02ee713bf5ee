//! How far mu-law moves a sample: request A14's figures over all 65,536
//! samples, encoded and decoded by libprobe.a.

use crate::probe;

/// The largest magnitude that is in a segment, and what larger ones give.
const LARGEST: i32 = 32_635;
const CLIPPED: i32 = 32_124;

/// The greatest number met, and how often.
#[derive(Default, PartialEq)]
struct Most {
    number: i32,
    times: u32,
}

impl Most {
    fn meet(&mut self, number: i32) {
        if number > self.number {
            *self = Most { number, times: 0 };
        }
        self.times += u32::from(number == self.number);
    }
}

/// How far samples are off in each segment, how many bytes have another one;
/// larger magnitudes, how many give something else; how far the results of
/// neighbours are apart, how many fall; what zero gives.
#[derive(Default, PartialEq)]
struct Figures {
    off: [Most; 8],
    other_segments: u32,
    larger: u32,
    other_results: u32,
    apart: Most,
    falling: u32,
    zero: i32,
}

/// The request's figures. Its bounds are reached for either sign: by the lowest
/// magnitude of each of a segment's 16 intervals, but for the very first, and in
/// segment 7 by those behind the first with the magnitude below.
fn asked() -> Figures {
    Figures {
        off: std::array::from_fn(|segment| Most {
            number: 4 << segment,
            times: if segment == 0 { 30 } else { 32 },
        }),
        larger: 265,
        apart: Most {
            number: 1_024,
            times: 30,
        },
        ..Figures::default()
    }
}

/// The position of the highest set bit of the biased magnitude, less 7.
fn segment(magnitude: i32) -> usize {
    (magnitude + 132).ilog2() as usize - 7
}

/// The figures of what gives a sample's byte and result.
fn figures(code: impl Fn(i16) -> (u8, i16)) -> Figures {
    let mut figures = Figures::default();
    let mut before = None;
    for sample in i16::MIN..=i16::MAX {
        let (byte, result) = code(sample);
        let (x, y) = (i32::from(sample), i32::from(result));
        if x.abs() <= LARGEST {
            let own = segment(x.abs());
            figures.off[own].meet((y - x).abs());
            figures.other_segments += u32::from(usize::from(!byte >> 4 & 7) != own);
        } else {
            figures.larger += 1;
            figures.other_results += u32::from(y != CLIPPED * x.signum());
        }
        if let Some(last) = before.replace(y) {
            figures.apart.meet((y - last).abs());
            figures.falling += u32::from(y < last);
        }
        if x == 0 {
            figures.zero = y;
        }
    }
    figures
}

impl Figures {
    fn print(&self) {
        println!("  mu-law there and back, all 65536 samples:");
        for (segment, off) in self.off.iter().enumerate() {
            println!(
                "    segment {segment}: off by at most {}, {} samples by just that",
                off.number, off.times
            );
        }
        println!("    bytes with another segment: {}", self.other_segments);
        println!(
            "    larger magnitudes: {} samples, {} do not give {CLIPPED} with their sign",
            self.larger, self.other_results
        );
        println!(
            "    neighbours: at most {} apart, {} pairs by just that; {} fall",
            self.apart.number, self.apart.times, self.falling
        );
        println!("    zero gives {}", self.zero);
    }
}

/// Prints the archive's figures. True if they are the request's.
pub fn agree() -> bool {
    let archive = figures(|sample| {
        let byte = probe::probe_i16_to_ulaw(sample);
        (byte, probe::probe_ulaw_to_i16(byte))
    });
    archive.print();
    let agreed = archive == asked();
    if !agreed {
        println!("oracle: mismatch: mu-law there and back: not the figures of request A14");
    }
    agreed
}
