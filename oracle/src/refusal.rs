//! The refusals of documents 01 and 02 that a voice, a sheet or a call can meet
//! before any buffer is looked at.

#[derive(Clone, Copy, Debug, PartialEq, Eq, PartialOrd, Ord)]
pub enum Refusal {
    Magic = 1,
    Section = 2,
    Backend = 3,
    Missing = 4,
    Header = 5,
    Tables = 6,
    Index = 7,
    Sheet = 8,
    NotFinite = 9,
    Slope = 10,
    TooFar = 11,
    TooManyMarks = 12,
    MissingPair = 16,
    LongText = 17,
}

impl Refusal {
    /// The number of document 01's table.
    pub fn number(self) -> usize {
        self as usize
    }
}

/// The largest number of a call's refusal.
pub const LAST: usize = 17;

/// Counts by a number of document 01's table; 0 counts what is not refused.
pub type ByNumber = [u64; LAST + 1];

/// The numbers that were met, for printing.
pub fn numbered(counts: &ByNumber) -> String {
    let met = counts.iter().enumerate().filter(|(_, count)| **count > 0);
    let shown: Vec<String> = met
        .map(|(number, count)| format!("{number}: {count}"))
        .collect();
    shown.join(", ")
}

/// The answer for printing: `accepted` or the number.
pub fn shown(answer: Option<Refusal>) -> String {
    match answer {
        None => "accepted".to_string(),
        Some(refusal) => format!("{} ({refusal:?})", refusal.number()),
    }
}
