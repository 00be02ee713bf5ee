//! Damages 5 and 6: the header and the tables.

use super::{put_word, replace, Cases};
use crate::gen::voices::{header_data, words};
use crate::refusal::Refusal;

impl Cases<'_> {
    pub(super) fn header_length(&mut self) {
        let header = header_data(&self.base.spec.header);
        for length in 0..40 {
            let sections = self.with("sts.header", header[..length].to_vec());
            self.refused(
                &sections,
                Refusal::Header,
                format!("header of {length} bytes"),
            );
        }
        self.accepted(&self.with("sts.header", header), "header of 40 bytes");
    }

    pub(super) fn header_limits(&mut self) {
        self.added(&self.with_header(0, 0), Refusal::Header, "frames 0");
        for rate in [0, 48_001, 1 << 31, u32::MAX] {
            let sections = self.with_header(2, rate);
            self.added(&sections, Refusal::Header, format!("rate {rate}"));
        }
        for rate in [1, 48_000] {
            self.accepted(&self.with_header(2, rate), format!("rate {rate}"));
        }
        for codec in [2, 3, 256, u32::MAX] {
            let sections = self.with_header(5, codec);
            self.refused(&sections, Refusal::Header, format!("codec {codec}"));
        }
        for codec in [0, 1] {
            self.accepted(&self.with_header(5, codec), format!("codec {codec}"));
        }
        self.orders();
        self.scales();
        self.free_fields();
    }

    /// The coefficient table is made long enough, so that only the order can
    /// be at fault; then it is not, and the header still comes first.
    fn orders(&mut self) {
        let frames = self.base.spec.header.frames as usize;
        for order in [0u32, 1, 31, 32, 33, 34, 64] {
            let mut sections = self.with_header(1, order);
            let lpc = vec![0x55; frames * order as usize * 2];
            replace(&mut sections, "sts.lpc", lpc);
            let reason = format!("order {order}");
            match order <= 32 {
                true => self.accepted(&sections, reason),
                false => self.added(&sections, Refusal::Header, reason),
            }
        }
        for order in [1 << 16, 1 << 31, u32::MAX] {
            let sections = self.with_header(1, order);
            let reason = format!("order {order}, table too short for it");
            self.refused(&sections, Refusal::Header, reason);
        }
        let mut sections = self.with_header(1, u32::MAX);
        let mut header = header_data(&self.base.spec.header);
        put_word(&mut header, 0, u32::MAX);
        put_word(&mut header, 1, u32::MAX);
        replace(&mut sections, "sts.header", header);
        let reason = "frames and order at 32 bits: the product passes 64";
        self.refused(&sections, Refusal::Header, reason);
    }

    fn scales(&mut self) {
        let sixteen = 16.0f32.to_bits();
        let inside = [
            0.0f32.to_bits(),
            (-0.0f32).to_bits(),
            sixteen,
            sixteen | 1 << 31,
            sixteen - 1,
            1,
            1 | 1 << 31,
        ];
        let outside = [
            sixteen + 1,
            (sixteen + 1) | 1 << 31,
            f32::MAX.to_bits(),
            f32::MIN.to_bits(),
            f32::INFINITY.to_bits(),
            f32::NEG_INFINITY.to_bits(),
            f32::NAN.to_bits(),
            0xFFC0_0000,
            0x7F80_0001,
            0xFF80_0001,
            u32::MAX,
        ];
        for (place, field) in [(3, "coeff_min"), (4, "coeff_range")] {
            for bits in inside {
                let sections = self.with_header(place, bits);
                self.accepted(&sections, format!("{field} with bits {bits:08x}"));
            }
            for bits in outside {
                let sections = self.with_header(place, bits);
                let reason = format!("{field} with bits {bits:08x}");
                self.added(&sections, Refusal::Header, reason);
            }
        }
    }

    /// Stretch, F0 mean, F0 deviation and fold flag may have any bits.
    fn free_fields(&mut self) {
        for place in 6..10 {
            for bits in [0, 0x7F80_0000, 0xFF80_0000, 0x7FC0_0000, 0x7F80_0001, !0] {
                let sections = self.with_header(place, bits);
                self.accepted(&sections, format!("header word {place} {bits:08x}"));
            }
        }
    }

    /// Each table exactly as long as it must be, and one byte shorter.
    pub(super) fn table_lengths(&mut self) {
        let spec = &self.base.spec;
        let mut tables = vec![("sts.resoffs", words(&spec.offsets))];
        if spec.header.order > 0 {
            let lpc = spec.rows.iter().flat_map(|q| q.to_le_bytes()).collect();
            tables.push(("sts.lpc", lpc));
        }
        if let Some(sizes) = &spec.sizes {
            tables.push(("sts.ressize", sizes.clone()));
        }
        for (name, data) in tables {
            self.accepted(&self.with(name, data.clone()), format!("{name} exact"));
            for short in [data.len() - 1, 0] {
                let sections = self.with(name, data[..short].to_vec());
                let reason = format!("{name} of {short} bytes");
                self.refused(&sections, Refusal::Tables, reason);
            }
        }
    }

    /// Lengths that come out small, or right, when they are worked out in 32
    /// bits.
    pub(super) fn table_products(&mut self) {
        let products = [
            (0x4000_0000, 2),
            (0x4000_0000, 32),
            (0x8000_0000, 1),
            (0x3FFF_FFFF, 0),
            (0x7FFF_FFFF, 0),
            (u32::MAX, 0),
            (u32::MAX, 32),
        ];
        for (frames, order) in products {
            let mut header = header_data(&self.base.spec.header);
            put_word(&mut header, 0, frames);
            put_word(&mut header, 1, order);
            let sections = self.with("sts.header", header);
            let reason = format!("{frames} frames of order {order}");
            self.refused(&sections, Refusal::Tables, reason);
        }
    }

    pub(super) fn offsets(&mut self) {
        let good = self.base.spec.offsets.clone();
        let frames = good.len() - 1;
        for i in 0..frames {
            let mut falling = good.clone();
            falling[i] = falling[i + 1] + 1;
            let sections = self.with("sts.resoffs", words(&falling));
            let reason = format!("offset {i} above the next by one");
            self.added(&sections, Refusal::Tables, reason);

            let mut equal = good.clone();
            equal[i] = equal[i + 1];
            let sections = self.with("sts.resoffs", words(&equal));
            self.accepted(&sections, format!("offset {i} equal to the next"));
        }
        let mut tail = good.clone();
        tail.extend([0, u32::MAX]);
        let sections = self.with("sts.resoffs", words(&tail));
        self.accepted(&sections, "offsets fall in the tail");
        self.last_offset(&good);
    }

    fn last_offset(&mut self, good: &[u32]) {
        let used = good[good.len() - 1] as usize;
        let exact = self.base.spec.residual[..used].to_vec();
        let sections = self.with("sts.res", exact.clone());
        self.accepted(&sections, "last offset at the residual's end");
        if used > 0 {
            let sections = self.with("sts.res", exact[..used - 1].to_vec());
            let reason = "last offset one past the residual";
            self.added(&sections, Refusal::Tables, reason);
        }
        for past in [used as u32 + 1, 1 << 31, u32::MAX] {
            let mut offsets = good.to_vec();
            offsets[good.len() - 1] = past;
            let mut sections = self.with("sts.resoffs", words(&offsets));
            replace(&mut sections, "sts.res", exact.clone());
            let reason = format!("last offset {past}, residual {used}");
            self.added(&sections, Refusal::Tables, reason);
        }
        let level = vec![used as u32; good.len()];
        let sections = self.with("sts.resoffs", words(&level));
        self.accepted(&sections, "all periods empty");
    }
}
