//! A stored call, and its bytes in the file.

use crate::call::{Filter, Join, Settings};
use crate::expected::{self, Given, Most, Spoken, SHORT_BUFFER};
use crate::lines;

/// Document 01's program: simple join, fixed filter, no fold.
pub const PROGRAM: Settings = Settings {
    join: Join::Simple,
    filter: Some(Filter::Fixed),
    fold: false,
    strict: false,
};

/// The bytes of its buffers: index, marks, sizes, rows, excitation, decoded.
/// No stored call is lent more.
pub const BUFFERS: [usize; 6] = [8_192, 4_096, 4_096, 2_048, 4_096, 1_024];

/// The longest files that it reads.
const MOST_VOICE: usize = 32_768;
const MOST_SHEET: usize = 4_096;

/// More than it can print.
const MOST_TEXT: usize = 41_000;

pub struct Stored {
    /// What the call is.
    pub kind: String,
    pub voice: Vec<u8>,
    pub sheet: Vec<u8>,
    pub settings: Settings,
    /// The bytes of each lent buffer.
    pub lent: [usize; 6],
    /// Nothing where the call is refused.
    pub spoken: Option<Spoken>,
    /// The number of the refusal, or 0.
    pub number: usize,
}

impl Stored {
    /// A call with what the Rust, or document 01 where it refuses, makes of it.
    /// A buffer is lent up to its limit. Nothing where a file is too long, or
    /// the Rust would take long.
    pub fn new(
        kind: &str,
        voice: &[u8],
        sheet: &[u8],
        settings: Settings,
        lent: [usize; 6],
    ) -> Option<Stored> {
        if voice.len() > MOST_VOICE || sheet.len() > MOST_SHEET {
            return None;
        }
        let lent = std::array::from_fn(|i| lent[i].min(BUFFERS[i]));
        let (number, spoken) = match expected::given(voice, sheet, settings, Most::ANY)? {
            Given::Refused(refusal) => (refusal.number(), None),
            Given::Spoken(spoken) if spoken.fits_in(&lent) => (0, Some(spoken)),
            Given::Spoken(_) => (SHORT_BUFFER, None),
        };
        Some(Stored {
            kind: kind.to_string(),
            voice: voice.to_vec(),
            sheet: sheet.to_vec(),
            settings,
            lent,
            spoken,
            number,
        })
    }

    /// The same files as document 01's program speaks them.
    pub fn by_program(&self) -> Option<Stored> {
        Stored::new(&self.kind, &self.voice, &self.sheet, PROGRAM, BUFFERS)
    }

    pub fn is_by_program(&self) -> bool {
        self.settings == PROGRAM && self.lent == BUFFERS
    }

    pub fn names_none(&self) -> bool {
        self.settings.filter.is_none()
    }

    /// What document 01's program prints of a call.
    fn text(&self) -> String {
        match &self.spoken {
            Some(spoken) => lines::spoken(spoken.summary[0], &spoken.periods),
            None => lines::refused(self.number),
        }
    }

    /// The record: a head of 20 bytes, the voice unless it is that of the
    /// record before, the sheet, the text.
    pub fn bytes(&self, voice_before: Option<&Vec<u8>>) -> Vec<u8> {
        let is_new = voice_before != Some(&self.voice);
        let voice = if is_new { &self.voice[..] } else { &[] };
        let text = self.text();
        assert!(text.len() <= MOST_TEXT, "a text of {} bytes", text.len());
        let mut bytes = vec![u8::from(is_new), self.settings.word() as u8];
        let lengths = [
            &[voice.len(), self.sheet.len()],
            &self.lent[..],
            &[text.len()],
        ];
        for length in lengths.concat() {
            let length = u16::try_from(length).expect("a length within its limit");
            bytes.extend(length.to_le_bytes());
        }
        bytes.extend(voice);
        bytes.extend(&self.sheet);
        bytes.extend(text.as_bytes());
        bytes
    }
}
