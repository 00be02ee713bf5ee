//! Damages 7: the index.

use super::{put_word, Cases, InRust};
use crate::gen::text::{BAD_UTF8, EDGE_UTF8};
use crate::gen::voices::{index_data, EntrySpec, Section};
use crate::refusal::Refusal;

impl Cases<'_> {
    pub(super) fn index_length(&mut self) {
        let index = index_data(&self.base.spec.entries);
        for length in 0..index.len() {
            let sections = self.with("dip.index", index[..length].to_vec());
            let reason = format!("index cut to {length} bytes");
            self.refused(&sections, Refusal::Index, reason);
        }
        self.accepted(&self.with("dip.index", index), "index exact");
    }

    pub(super) fn index_count(&mut self) {
        let entries = &self.base.spec.entries;
        let index = index_data(entries);
        let count = entries.len() as u32;
        let stating = |stated: u32, data: &[u8]| {
            let mut data = data.to_vec();
            put_word(&mut data, 0, stated);
            self.with("dip.index", data)
        };
        let empty = stating(0, &index);
        let bare = stating(0, &[0; 4]);
        let more = stating(count + 1, &index);
        let fewer = stating(count - 1, &index);
        let most = [0x0100_0000, 0x8000_0000, u32::MAX].map(|stated| stating(stated, &index));
        self.added(&empty, Refusal::Index, "index count 0 before entries");
        self.added(&bare, Refusal::Index, "index count 0 alone");
        self.refused(&more, Refusal::Index, "index count one above its entries");
        match count {
            1 => self.added(&fewer, Refusal::Index, "index count one below one"),
            _ => self.accepted(&fewer, "index count one below its entries"),
        }
        for sections in most {
            let reason = "index count above all memory";
            self.add(&sections, Some(Refusal::Index), InRust::NotCalled, reason);
        }
    }

    pub(super) fn entry_names(&mut self) {
        let good = self.base.spec.entries.clone();
        for i in 0..good.len() {
            for (name, what) in BAD_UTF8 {
                let mut entries = good.clone();
                entries[i].name = name.to_vec();
                let sections = self.with_entries(&entries);
                let reason = format!("entry {i} name: {what}");
                self.refused(&sections, Refusal::Index, reason);
            }
            for name in EDGE_UTF8 {
                if good.iter().any(|entry| entry.name == name.as_bytes()) {
                    continue;
                }
                let mut entries = good.clone();
                entries[i].name = name.as_bytes().to_vec();
                let sections = self.with_entries(&entries);
                self.accepted(&sections, format!("entry {i} name {name:?}"));
            }
            self.twice(i);
        }
        let mut entries = good;
        entries[0].name = vec![b'x'; 255];
        self.accepted(&self.with_entries(&entries), "entry name of 255 bytes");
    }

    /// The name of entry `i` once more at the front, at the end, beside it.
    fn twice(&mut self, i: usize) {
        let good = self.base.spec.entries.clone();
        for at in [0, i, i + 1, good.len()] {
            let mut entries = good.clone();
            let mut again = entries[i].clone();
            again.halves = [0, 0];
            entries.insert(at, again);
            let sections = self.with_entries(&entries);
            self.added(
                &sections,
                Refusal::Index,
                format!("entry {i} again at {at}"),
            );
        }
    }

    pub(super) fn entry_periods(&mut self) {
        let good = self.base.spec.entries.clone();
        let frames = self.base.spec.header.frames as u16;
        let at_end = [
            (frames, [0, 0]),
            (frames - 1, [1, 0]),
            (frames - 1, [0, 1]),
            (0, [frames as u8, 0]),
            (0, [0, frames as u8]),
        ];
        let past = [
            (frames + 1, [0, 0]),
            (frames, [1, 0]),
            (frames, [0, 1]),
            (0, [frames as u8, 1]),
            (frames - 1, [1, 1]),
            (65_535, [255, 255]),
            (0, [255, 255]),
        ];
        for i in 0..good.len() {
            for (start, halves) in at_end {
                let sections = self.with_periods(&good, i, start, halves);
                self.accepted(&sections, format!("entry {i} ends at frames"));
            }
            for (start, halves) in past {
                let sections = self.with_periods(&good, i, start, halves);
                let reason = format!("entry {i} ends past frames: {start} {halves:?}");
                self.added(&sections, Refusal::Index, reason);
            }
        }
    }

    fn with_periods(
        &self,
        good: &[EntrySpec],
        i: usize,
        start: u16,
        halves: [u8; 2],
    ) -> Vec<Section> {
        let mut entries = good.to_vec();
        entries[i].start = start;
        entries[i].halves = halves;
        self.with_entries(&entries)
    }
}
