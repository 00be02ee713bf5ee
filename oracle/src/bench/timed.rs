//! One call, timed part by part on either side.

use crate::call::{Filter, Join, Settings};
use crate::calls::archive::{self, Lent, Request, NEED_BYTES, STATE_BYTES, SUMMARY_BYTES};
use crate::calls::guarded::Guarded;
use crate::diphone::access::{self, Excitation};
use crate::diphone::{synthesise_streaming, DiphoneVoice};
use crate::diphone_c::{self, VOICE_BYTES};
use crate::dsp::{self, Flow};
use crate::lent::WIDTHS;
use crate::reference;
use crate::refusal::Refusal;
use crate::rng::Rng;
use crate::sheet::{self, Sheet};
use crate::utterance::Utterance;
use crate::voice::VoiceParams;
use std::hint::black_box;

/// What is timed. The Rust is given its utterance, the archive reads the sheet.
/// The Rust's target ends are its own, truncated.
#[derive(Clone, Copy, Debug, PartialEq, Eq)]
pub enum Part {
    Open,
    Need,
    StrictNeed,
    Plan,
    StrictPlan,
    Pulls,
    RustParse,
    /// From the parsed voice to the excitation.
    RustPrepare,
    RustFilter,
    /// Parsed and spoken.
    RustWhole,
}

/// The number of a strict call's own refusal.
const MISSING: u32 = Refusal::MissingPair as u32;

const PARTS: usize = 10;

unsafe extern "C" {
    fn clock_gettime(clock: i32, time: *mut [i64; 2]) -> i32;
}

/// What this thread has used of its processor: other work that takes the
/// processor away in between does not count. Linux on x86-64.
pub fn thread_seconds() -> f64 {
    const THREAD_CPUTIME: i32 = 3;
    let mut time = [0; 2];
    // SAFETY: a `timespec` is two 64-bit words here.
    let answer = unsafe { clock_gettime(THREAD_CPUTIME, &mut time) };
    assert_eq!(answer, 0, "clock_gettime");
    time[0] as f64 + time[1] as f64 * 1e-9
}

/// Seconds, by part and round.
#[derive(Default)]
pub struct Costs {
    seconds: [Vec<f64>; PARTS],
}

impl Costs {
    fn time<T>(&mut self, part: Part, run: impl FnOnce() -> T) -> T {
        let start = thread_seconds();
        let result = black_box(run());
        self.seconds[part as usize].push(thread_seconds() - start);
        result
    }

    /// The sum of some parts, each at its place among the rounds in ascending
    /// order.
    pub fn at(&self, parts: &[Part], place: usize) -> f64 {
        let at = |part: &Part| {
            let mut seconds = self.seconds[*part as usize].clone();
            seconds.sort_by(f64::total_cmp);
            seconds[place]
        };
        parts.iter().map(at).sum()
    }
}

pub struct Timed {
    voice: &'static [u8],
    sheet: Vec<u8>,
    settings: Settings,
    /// Index, marks, sizes, rows, excitation, decoded, state, summary, just
    /// long enough.
    buffers: [Guarded; 8],
    need: Guarded,
    opening: [Vec<u8>; 2],
    /// What the plan fills, and its fresh state.
    lent: Lent,
    fresh: Guarded,
    slice: Guarded,
    rust: DiphoneVoice,
    utt: Utterance,
    params: VoiceParams,
    /// What the Rust's filter is timed on: the call's, from rounded target ends.
    excitation: Excitation,
    pub samples: usize,
    /// Whether the strict call is refused for a pair that finds no name.
    pub lacking: bool,
    pub costs: Costs,
}

/// What a call needs, and its buffers, just long enough.
pub struct Room {
    /// Elements of the buffers that it fills.
    pub elements: Vec<usize>,
    pub need: Guarded,
    pub buffers: [Guarded; 8],
}

impl Room {
    pub fn new(rng: &mut Rng, request: &Request) -> Room {
        let mut need = Guarded::new(rng, NEED_BYTES);
        assert_eq!(archive::need(request, &mut need), 0, "need");
        let number = |bytes: &[u8]| u64::from_le_bytes(bytes.try_into().expect("8 bytes"));
        let elements: Vec<usize> = need
            .bytes()
            .chunks(8)
            .map(|bytes| number(bytes) as usize)
            .collect();
        let buffers = std::array::from_fn(|i| match i {
            6 => Guarded::new(rng, STATE_BYTES),
            7 => Guarded::new(rng, SUMMARY_BYTES),
            other => Guarded::new(rng, WIDTHS[other] * elements[other]),
        });
        Room {
            elements,
            need,
            buffers,
        }
    }
}

impl Timed {
    /// Makes the call once on either side, the Rust with rounded target ends. Its
    /// samples must be equal.
    pub fn new(voice: &'static [u8], sheet: &Sheet, settings: Settings) -> Timed {
        let rng = &mut Rng::new(1);
        let sheet_bytes = sheet::write(sheet);
        let [loose, strict] = requests(voice, &sheet_bytes, settings);
        let Room {
            elements,
            mut need,
            mut buffers,
        } = Room::new(rng, &loose);
        let lacking = archive::need(&strict, &mut need) == MISSING;
        assert_eq!(archive::plan(&loose, &mut buffers), 0, "plan");
        let lent = Lent::of(&buffers);
        let rust = DiphoneVoice::parse(voice).expect("a voice");
        let params = reference::params(&rust, settings);
        let filled = reference::fill(&rust, sheet, settings);
        let periods = reference::speak(&rust, sheet, settings, &filled);
        let mut timed = Timed {
            voice,
            settings,
            need,
            opening: [vec![0; 8 * elements[0]], vec![0; VOICE_BYTES]],
            slice: Guarded::new(rng, 2 * elements[4]),
            samples: elements[4],
            lacking,
            fresh: buffers[6].clone(),
            buffers,
            lent,
            utt: reference::prepared(sheet, settings),
            excitation: filled.taken,
            params,
            rust,
            sheet: sheet_bytes,
            costs: Costs::default(),
        };
        timed.compare(&periods);
        timed
    }

    fn compare(&mut self, periods: &[Vec<i16>]) {
        let mut state = self.fresh.clone();
        for period in periods {
            let given = archive::pull(&mut state, &self.lent, &mut self.slice);
            assert_eq!(given, period.len() as i64, "samples of a period");
            let bytes: Vec<u8> = period
                .iter()
                .flat_map(|sample| sample.to_le_bytes())
                .collect();
            assert!(self.slice.bytes().starts_with(&bytes), "samples");
        }
        let given = archive::pull(&mut state, &self.lent, &mut self.slice);
        assert!(given < 0, "done");
    }

    /// Every part once, the two sides in turn.
    pub fn round(&mut self) {
        let Timed {
            voice,
            sheet,
            settings,
            costs,
            ..
        } = self;
        let voice = *voice;
        let settings = *settings;
        let [loose, strict] = requests(voice, sheet, settings);
        let (rust, utt, params) = (&self.rust, &self.utt, &self.params);
        let [index, record] = &mut self.opening;

        costs.time(Part::Open, || diphone_c::open(voice, index, record));
        drop(costs.time(Part::RustParse, || DiphoneVoice::parse(voice)));
        costs.time(Part::Plan, || archive::plan(&loose, &mut self.buffers));
        costs.time(Part::RustPrepare, || prepare(rust, utt, settings.join));
        let mut state = self.fresh.clone();
        costs.time(Part::Pulls, || {
            while archive::pull(&mut state, &self.lent, &mut self.slice) >= 0 {}
        });
        costs.time(Part::RustFilter, || {
            filter(rust, &self.excitation, settings.filter_in())
        });
        costs.time(Part::Need, || archive::need(&loose, &mut self.need));
        costs.time(Part::RustWhole, || {
            let rust = DiphoneVoice::parse(voice).expect("a voice");
            synthesise_streaming(&rust, utt, params, &mut sink);
        });
        // As the others do, these come after the Rust's filter and its parse.
        costs.time(Part::StrictNeed, || archive::need(&strict, &mut self.need));
        drop(black_box(DiphoneVoice::parse(voice)));
        costs.time(Part::StrictPlan, || {
            archive::plan(&strict, &mut self.buffers)
        });
    }
}

/// A call as it is, and strict.
pub fn requests<'a>(voice: &'a [u8], sheet: &'a [u8], settings: Settings) -> [Request<'a>; 2] {
    [false, true].map(|strict| Request {
        voice,
        sheet,
        settings: settings.strictly(strict).word(),
    })
}

fn sink(period: &[i16]) -> Flow {
    black_box(period);
    Flow::Continue
}

#[inline(never)]
pub fn prepare(rust: &DiphoneVoice, utt: &Utterance, join: Join) -> Excitation {
    let mut units = access::select_units(rust, utt);
    let marks = match join {
        Join::Simple => access::natural_pitch_marks(rust, &mut units),
        _ => access::pitch_marks(rust, utt),
    };
    match marks.len() {
        0 | 1 => Excitation::default(),
        _ => access::build_excitation(rust, &units, &marks),
    }
}

#[inline(never)]
fn filter(rust: &DiphoneVoice, taken: &Excitation, filter: Filter) {
    let header = access::header(rust);
    let resynthesise = match filter {
        Filter::Fixed => dsp::lpc_resynthesise_streaming,
        Filter::Float => dsp::lpc_resynthesise_float_streaming,
    };
    resynthesise(
        &taken.rows,
        &taken.sizes,
        &taken.residual,
        header.coeff_min,
        header.coeff_range,
        header.order,
        &mut sink,
    );
}
