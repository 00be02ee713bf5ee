//! Good voices and sheets from a seed: opened by both readers, spoken by the
//! Rust under every setting, and extended.

use crate::call::{self, Ending, Filter, Join, Settings, JOINS, NAMED};
use crate::departure::{self, Departure};
use crate::diphone::access;
use crate::diphone::DiphoneVoice;
use crate::dsp;
use crate::empty_boxes::{self, Boxes};
use crate::gen::voices::{self, Extent, Vocabulary, VoiceSpec};
use crate::gen::{empty_heads, pitches, shaped, sheets, target_ends, typed};
use crate::pairs;
use crate::pitch_checks;
use crate::pitches::goes_on;
use crate::reference::{self, Fitness, Parsed};
use crate::refusal::{shown, ByNumber, Refusal};
use crate::report::Report;
use crate::rng::Rng;
use crate::sheet::{self, Sheet};
use crate::taking::{self, Taking};
use crate::text_calls::{self, Typed};
use crate::voicefile::{self, Voice};

const SHEETS_PER_VOICE: usize = 3;

/// Segments of a long sheet, and entries of a wide voice.
const SEGMENTS: usize = 120;
const ENTRIES: usize = 4_200;

/// Units times marks of the calls whose marks are taken unit by unit.
const MOST_TAKEN: usize = 4_000;

/// What the cases covered.
#[derive(Default)]
pub struct Counts {
    pub voices: u64,
    pub g721: u64,
    pub with_sizes: u64,
    pub sheets: u64,
    /// Calls spoken with their periods and samples, by join and by what they say
    /// of their filter.
    pub spoken: [[[u64; 3]; NAMED.len()]; 3],
    pub refused: ByNumber,
    /// Pairs by the name found: the first tried, the second, none.
    pub found: [u64; 3],
    /// Strict calls that are as if not strict, and those refused with 16.
    pub strict: [u64; 2],
    pub laws: u64,
    /// Calls whose marks were taken unit by unit too, and their marks.
    pub told_twice: [u64; 2],
    /// Periods on the list of the simple join, and calls and rows that are not
    /// the Rust's.
    pub listed: [u64; 3],
    /// Calls not handed to the Rust: time cannot advance, too many marks, long.
    pub guarded: [u64; 3],
    pub departure: departure::Counts,
    pub boxes: empty_boxes::Counts,
    pub typed: text_calls::Counts,
    /// Calls with texts, and their periods, that are spoken as with the floats that
    /// they stand for.
    pub alike: [u64; 2],
    /// Pairs of calls of which one's sheet begins the other's, by join; then those
    /// with more marks, and those whose longer sheet goes on without a pitch.
    pub begun: [u64; 5],
}

/// One case: a voice, its sheets, an extension and longer sheets.
pub fn run(seed: u64, case: u64, report: &mut Report, counts: &mut Counts) {
    let rng = &mut Rng::for_case(seed, case);
    let words = voices::vocabulary(rng);
    let covering = rng.once_in(2);
    let spec = voices::voice(rng, &words, Extent::Any, covering);
    let wider = voices::extension(rng, &spec);
    let files = [&spec, &wider].map(|spec| voices::file(&voices::with_extras(rng, spec)));
    let [Some(old), Some(new)] = [0, 1].map(|i| Opened::new(&files[i], case, report)) else {
        return;
    };
    counts.voices += 2;
    counts.g721 += u64::from(old.read.is_g721()) * 2;
    counts.with_sizes += u64::from(spec.sizes.is_some()) * 2;
    report.check(new.read.extends(&old.read), || {
        format!("case {case}: the extension does not extend")
    });
    let mut one = Case {
        case,
        report,
        counts,
    };
    one.sheets(rng, &words, &spec, &old, &new);
}

/// A voice with periods without samples at the heads of its units, and a sheet.
pub fn run_empty_heads(seed: u64, case: u64, report: &mut Report, counts: &mut Counts) {
    let rng = &mut Rng::for_case(seed, 4_500_000 + case);
    let words = voices::vocabulary(rng);
    let spec = empty_heads::voice(rng, &words, case);
    let sheet = sheets::sheet(rng, &words, spec.header.rate);
    let file = voices::file(&spec.sections());
    let Some(voice) = Opened::new(&file, case, report) else {
        return;
    };
    let mut one = Case {
        case,
        report,
        counts,
    };
    for settings in Settings::loose() {
        one.speak(&voice, &sheet, settings);
    }
}

/// A voice shaped to a sheet: of any extent, small, or of many entries, in
/// order and not.
pub fn run_shaped(seed: u64, case: u64, report: &mut Report, counts: &mut Counts) {
    let rng = &mut Rng::for_case(seed, 4_600_000 + case);
    let manner = shaped::MANNERS[case as usize % shaped::MANNERS.len()];
    let fold = rng.once_in(2);
    let (spec, sheet) = match case % 5 {
        0 | 1 => shaped::any(rng, fold, manner),
        2 | 3 => shaped::little(rng, fold, manner),
        _ => {
            let (spec, sheet) = shaped::long(rng, fold, manner, SEGMENTS);
            let ordered = rng.once_in(2);
            (voices::widened(rng, &spec, ENTRIES, ordered), sheet)
        }
    };
    let file = voices::file(&spec.sections());
    if let Some(voice) = Opened::new(&file, case, report) {
        let mut one = Case {
            case,
            report,
            counts,
        };
        one.strict(&voice, &sheet);
    }
}

/// A sheet with target ends of each manner in turn, and a longer one.
pub fn run_ends(seed: u64, case: u64, report: &mut Report, counts: &mut Counts) {
    let rng = &mut Rng::for_case(seed, 4_800_000 + case);
    let (_, spec, first) = target_ends::numbered(rng, case);
    let second = target_ends::longer(rng, &first, &spec);
    let mut one = Case {
        case,
        report,
        counts,
    };
    one.extended(rng, &spec, &first, &second);
}

/// A sheet with targets without a pitch in each manner in turn, and a longer one.
pub fn run_pitches(seed: u64, case: u64, report: &mut Report, counts: &mut Counts) {
    let rng = &mut Rng::for_case(seed, 4_900_000 + case);
    let (_, spec, first) = pitches::numbered(rng, case);
    let second = pitches::longer(rng, &first, &spec);
    let mut one = Case {
        case,
        report,
        counts,
    };
    one.read_back(&first);
    one.read_back(&second);
    one.extended(rng, &spec, &first, &second);
}

/// A sheet with texts in each manner in turn, and a longer one. By the Rust it is
/// spoken as the sheet with the floats that they stand for.
pub fn run_typed(seed: u64, case: u64, report: &mut Report, counts: &mut Counts) {
    let rng = &mut Rng::for_case(seed, 4_950_000 + case);
    let (_, spec, first) = typed::numbered(rng, case);
    let second = typed::longer(rng, &first, &spec);
    let mut one = Case {
        case,
        report,
        counts,
    };
    one.read_back(&first);
    one.read_back(&second);
    let begins = second.begins_with(&first);
    one.report
        .check(begins, || "longer sheet with texts".into());
    one.extended(rng, &spec, &first, &second);
    let file = voices::file(&spec.sections());
    if let Some(voice) = Opened::new(&file, case, one.report) {
        for settings in Settings::named() {
            one.alike(&voice, &first, settings);
        }
    }
}

/// A voice opened by both readers.
struct Opened<'a> {
    read: Voice<'a>,
    rust: Box<DiphoneVoice>,
}

impl<'a> Opened<'a> {
    fn new(bytes: &'a [u8], case: u64, report: &mut Report) -> Option<Opened<'a>> {
        let read = voicefile::open(bytes);
        report.check(read.is_ok(), || {
            let answer = shown(read.as_ref().err().copied());
            format!("case {case}: good voice is refused: {answer}")
        });
        let rust = match reference::parse(bytes) {
            Parsed::Voice(voice) => Some(voice),
            _ => None,
        };
        report.check(rust.is_some(), || {
            format!("case {case}: the Rust does not open a good voice")
        });
        let opened = Opened {
            read: read.ok()?,
            rust: rust?,
        };
        opened.compare(case, report);
        Some(opened)
    }

    /// Header, index and every period, as both readers see them.
    fn compare(&self, case: u64, report: &mut Report) {
        let read = &self.read.header;
        let rust = access::header(&self.rust);
        let ours = [
            read.order,
            read.rate,
            read.coeff_min,
            read.coeff_range,
            read.codec,
            read.stretch,
            read.f0_mean,
            read.f0_deviation,
            u32::from(read.fold != 0),
        ];
        let theirs = [
            rust.order as u32,
            rust.rate,
            rust.coeff_min.to_bits(),
            rust.coeff_range.to_bits(),
            u32::from(rust.g721),
            rust.stretch.to_bits(),
            rust.f0_mean.to_bits(),
            rust.f0_deviation.to_bits(),
            u32::from(rust.fold),
        ];
        report.equal(&theirs, &ours, || format!("case {case}: header"));
        self.compare_index(case, report);
        for period in 0..self.read.frames() {
            let theirs = (
                access::period_samples(&self.rust, period),
                access::period_residual(&self.rust, period),
                access::period_coefficients(&self.rust, period),
            );
            let ours = (
                self.read.samples(period),
                self.read.stored(period),
                self.read.row(period),
            );
            report.equal(&theirs, &ours, || format!("case {case}: period {period}"));
        }
    }

    fn compare_index(&self, case: u64, report: &mut Report) {
        let ours: Vec<access::Entry> = self.read.index.iter().map(as_rust).collect();
        let theirs = access::index(&self.rust);
        report.equal(&theirs, &ours, || format!("case {case}: sorted index"));
        for entry in &ours {
            let found = access::find(&self.rust, &entry.name);
            report.equal(&Some(entry.clone()), &found, || {
                format!("case {case}: find")
            });
        }
    }
}

fn as_rust(entry: &voicefile::Entry) -> access::Entry {
    access::Entry {
        name: entry.name.to_string(),
        start: entry.start,
        first_half: entry.first_half,
        second_half: entry.second_half,
    }
}

struct Case<'r> {
    case: u64,
    report: &'r mut Report,
    counts: &'r mut Counts,
}

impl Case<'_> {
    fn sheets(
        &mut self,
        rng: &mut Rng,
        words: &Vocabulary,
        spec: &VoiceSpec,
        old: &Opened,
        new: &Opened,
    ) {
        let rate = spec.header.rate;
        for _ in 0..SHEETS_PER_VOICE {
            let first = sheets::sheet(rng, words, rate);
            let second = sheets::longer(rng, &first, words, rate);
            self.read_back(&first);
            self.read_back(&second);
            let begins = second.begins_with(&first);
            self.report.check(begins, || "longer sheet".to_string());
            for sheet in [&first, &second] {
                self.strict(old, sheet);
                self.strict(new, sheet);
            }
            for settings in Settings::loose() {
                self.law(old, new, &first, &second, settings);
            }
        }
    }

    fn read_back(&mut self, sheet: &Sheet) {
        self.counts.sheets += 1;
        let found = sheet::read(&sheet::write(sheet));
        let case = self.case;
        self.report
            .equal(&Ok(sheet.clone()), &found, || format!("case {case}: sheet"));
        pitch_checks::of_sheet(sheet, self.report);
    }

    /// Strict calls, folded and not, are refused with 16 where the Rust finds no
    /// name for some pair, and are else as if not strict.
    fn strict(&mut self, voice: &Opened, sheet: &Sheet) {
        for fold in [false, true] {
            let settings = JOINS.map(|join| Settings {
                fold,
                ..Settings::new(join)
            });
            let pairs = pairs::agreed(&voice.rust, &voice.read, sheet, settings[0]);
            for pair in &pairs {
                self.counts.found[pair.found.unwrap_or(2)] += 1;
            }
            let lacking = call::is_missing(&pairs);
            self.counts.strict[usize::from(lacking)] += JOINS.len() as u64;
            for loose in settings {
                self.strict_marks(voice, sheet, loose, lacking);
            }
        }
    }

    fn strict_marks(&mut self, voice: &Opened, sheet: &Sheet, loose: Settings, lacking: bool) {
        let expected = match lacking {
            true => Err(Refusal::MissingPair),
            false => call::marks(&voice.read, sheet, loose),
        };
        let found = call::marks(&voice.read, sheet, loose.strictly(true));
        let case = self.case;
        self.report.check(expected == found, || {
            format!("case {case}: {loose:?}: marks of the strict call")
        });
    }

    /// The law of two sheets, on a voice and an extension.
    fn extended(&mut self, rng: &mut Rng, spec: &VoiceSpec, first: &Sheet, second: &Sheet) {
        let wider = voices::extension(rng, spec);
        let files = [spec, &wider].map(|spec| voices::file(&spec.sections()));
        let [Some(old), Some(new)] = [0, 1].map(|i| Opened::new(&files[i], self.case, self.report))
        else {
            return;
        };
        for settings in Settings::loose() {
            self.law(&old, &new, first, second, settings);
        }
    }

    /// Speaks three calls under one setting and compares them by the law on
    /// longer sheets and extended voices.
    fn law(&mut self, old: &Opened, new: &Opened, s: &Sheet, t: &Sheet, settings: Settings) {
        self.marks_law(new, s, t, settings);
        let first = self.speak(old, s, settings);
        let same = self.speak(new, s, settings);
        let longer = self.speak(new, t, settings);
        let (Some(first), Some(same)) = (first, same) else {
            return;
        };
        if !call::finds_all_first_tried(&old.read, s, settings.fold) {
            return;
        }
        self.counts.laws += 1;
        let case = self.case;
        self.report.check(first == same, || {
            format!("case {case}: {settings:?}: an extended voice speaks otherwise")
        });
        if let Some(longer) = longer {
            let (first, longer) = (first.concat(), longer.concat());
            self.report.check(longer.starts_with(&first), || {
                format!("case {case}: {settings:?}: a longer sheet begins otherwise")
            });
        }
    }

    /// A sheet with texts, and the same with the floats that they stand for.
    fn alike(&mut self, voice: &Opened, sheet: &Sheet, settings: Settings) {
        let [texts, floats] =
            [sheet, &sheet.as_read()].map(|sheet| self.speak(voice, sheet, settings));
        let case = self.case;
        self.report.check(texts == floats, || {
            format!("case {case}: {settings:?}: spoken otherwise with floats for texts")
        });
        if let Some(periods) = texts {
            add(&mut self.counts.alike, [1, periods.len()]);
        }
    }

    /// Under one voice and settings, where neither call is refused, the Rust's marks
    /// of a sheet begin those of a longer one. They do not depend on the filter.
    fn marks_law(&mut self, voice: &Opened, s: &Sheet, t: &Sheet, settings: Settings) {
        if settings.filter != Some(Filter::Fixed) {
            return;
        }
        let [Some(first), Some(longer)] = [s, t].map(|sheet| rust_marks(voice, sheet, settings))
        else {
            return;
        };
        let case = self.case;
        self.report.check(longer.starts_with(&first), || {
            format!("case {case}: {settings:?}: marks of a longer sheet begin otherwise")
        });
        let joins = JOINS.map(|join| usize::from(join == settings.join));
        let [none, simple, modified] = joins;
        let more = usize::from(longer.len() > first.len());
        let goes_on = usize::from(goes_on(s, t)) * modified;
        add(
            &mut self.counts.begun,
            [none, simple, modified, more, goes_on],
        );
    }

    /// The periods of a call, or nothing if it is refused or not run.
    fn speak(
        &mut self,
        voice: &Opened,
        sheet: &Sheet,
        settings: Settings,
    ) -> Option<Vec<Vec<i16>>> {
        let marks = match call::marks(&voice.read, sheet, settings) {
            Ok(marks) => marks,
            Err(refusal) => {
                self.counts.refused[refusal.number()] += 1;
                self.check_refused(voice, sheet, settings, refusal);
                return None;
            }
        };
        match reference::fitness(&voice.read, sheet, settings, &marks) {
            Fitness::Fit => {}
            Fitness::MakesMarksWithoutUnits(Ending::CannotAdvance) => {
                self.counts.guarded[0] += 1;
                return Some(Vec::new());
            }
            Fitness::MakesMarksWithoutUnits(_) => {
                self.counts.guarded[1] += 1;
                return Some(Vec::new());
            }
            Fitness::TakesLong => {
                self.counts.guarded[2] += 1;
                return None;
            }
        }
        self.run_rust(voice, sheet, settings, &marks)
    }

    /// A call refused for a place too far must have one in the Rust too, or by a
    /// rounded target end. Where time cannot advance the Rust is not asked.
    fn check_refused(
        &mut self,
        voice: &Opened,
        sheet: &Sheet,
        settings: Settings,
        refusal: Refusal,
    ) {
        if settings.join != Join::Modified {
            return;
        }
        let ending = call::ending(&sheet.contour());
        if ending == Ending::CannotAdvance {
            self.counts.guarded[0] += 1;
        }
        if ending == Ending::Ends && refusal == Refusal::TooFar {
            let utt = reference::prepared(sheet, settings);
            let units = reference::units(&voice.rust, sheet, &utt);
            let marks = access::pitch_marks(&voice.rust, &utt);
            let ends = units.iter().map(|unit| unit.target_end);
            let far = ends.chain(marks).any(|place| place > call::MAX_PLACE);
            let case = self.case;
            self.report.check(far, || {
                format!("case {case}: {settings:?}: nothing too far")
            });
        }
    }

    fn run_rust(
        &mut self,
        voice: &Opened,
        sheet: &Sheet,
        settings: Settings,
        marks: &[usize],
    ) -> Option<Vec<Vec<i16>>> {
        let case = self.case;
        let spoken = reference::quietly(|| {
            let filled = reference::fill(&voice.rust, sheet, settings);
            let periods = reference::speak(&voice.rust, sheet, settings, &filled);
            (filled, periods)
        });
        self.report.check(spoken.is_some(), || {
            format!("case {case}: {settings:?}: a panic, in the Rust or around it, on {sheet:?}")
        });
        let (filled, periods) = spoken?;
        let departure = Departure::of(&voice.rust, sheet, settings, &filled, &periods);
        self.counts.departure.add(&departure);
        let boxes = Boxes::of(&voice.read, &voice.rust, sheet, settings, &filled, &periods);
        boxes.iter().for_each(|boxes| self.counts.boxes.add(boxes));
        let typed = Typed::of(&voice.read, sheet, settings);
        typed.iter().for_each(|typed| self.counts.typed.add(typed));
        let taking = Taking::new(&voice.read, &voice.rust, &filled, settings.join);
        // What is filled does not depend on the filter.
        if settings.filter_in() == Filter::Fixed {
            self.compare_filled(voice, sheet, settings, marks, &filled);
            self.compare_takers(voice, settings, &filled);
        }
        self.compare_periods(voice, settings, &periods, &filled, &taking);
        let join = JOINS.iter().position(|join| *join == settings.join)?;
        let filter = NAMED.iter().position(|named| *named == settings.filter)?;
        let spoken = &mut self.counts.spoken[join][filter];
        spoken[0] += 1;
        spoken[1] += periods.len() as u64;
        spoken[2] += periods.iter().map(Vec::len).sum::<usize>() as u64;
        Some(periods)
    }

    /// Units and marks, ours and the Rust's.
    fn compare_filled(
        &mut self,
        voice: &Opened,
        sheet: &Sheet,
        settings: Settings,
        marks: &[usize],
        filled: &reference::Filled,
    ) {
        let case = self.case;
        let marks = marks.to_vec();
        self.report.equal(&filled.marks, &marks, || {
            format!("case {case}: {settings:?}: marks")
        });
        if settings.join == Join::Modified && sheet.segments.len() > 1 {
            let ours: Vec<access::PlainUnit> = call::units(&voice.read, sheet, settings.fold)
                .iter()
                .map(|unit| access::PlainUnit {
                    first_period: unit.first,
                    last_period: unit.last,
                    target_end: unit.target_end,
                })
                .collect();
            self.report.equal(&filled.units, &ours, || {
                format!("case {case}: {settings:?}: units")
            });
        }
    }

    /// The filter run over the excitation with the expected rows gives the
    /// Rust's periods again.
    fn compare_periods(
        &mut self,
        voice: &Opened,
        settings: Settings,
        periods: &[Vec<i16>],
        filled: &reference::Filled,
        taking: &Taking,
    ) {
        let case = self.case;
        let taken = &taking.expected;
        let lengths: Vec<usize> = periods.iter().map(Vec::len).collect();
        self.report.equal(&taken.sizes, &lengths, || {
            format!("case {case}: {settings:?}: sizes")
        });
        let header = access::header(&voice.rust);
        let resynthesise = match settings.filter_in() {
            Filter::Fixed => dsp::lpc_resynthesise,
            Filter::Float => dsp::lpc_resynthesise_float,
        };
        let again = resynthesise(
            &taken.rows,
            &taken.sizes,
            &filled.taken.residual,
            header.coeff_min,
            header.coeff_range,
            header.order,
        );
        self.report.check(again == periods.concat(), || {
            format!("case {case}: {settings:?}: samples of the filled buffers")
        });
        let tally = taking.tally(filled);
        let more = [tally.listed, usize::from(tally.lines > 0), tally.rows];
        add(&mut self.counts.listed, more);
    }

    /// The unit that takes each mark in the Rust, told twice: by labels, and by
    /// how many marks the call's first units take, for each number of units.
    fn compare_takers(&mut self, voice: &Opened, settings: Settings, filled: &reference::Filled) {
        let units = &filled.units;
        let cost = units.len() * filled.marks.len();
        if filled.marks.len() < 2 || cost > MOST_TAKEN {
            return;
        }
        let takers = taking::takers(filled);
        let mut before = 0;
        let mut again = Vec::new();
        for count in 1..=units.len() {
            let taken = access::build_excitation(&voice.rust, &units[..count], &filled.marks);
            let more = taken.sizes.len() - before;
            again.extend(vec![count - 1; more]);
            before += more;
        }
        let case = self.case;
        self.report.equal(&again, &takers, || {
            format!("case {case}: {settings:?}: units that take the marks")
        });
        add(&mut self.counts.told_twice, [1, takers.len()]);
    }
}

/// The marks of a call as the Rust makes them, empty boxes filled in. Nothing where
/// the call is refused, or the Rust would not end soon.
fn rust_marks(voice: &Opened, sheet: &Sheet, settings: Settings) -> Option<Vec<usize>> {
    let marks = call::marks(&voice.read, sheet, settings).ok()?;
    let fitness = reference::fitness(&voice.read, sheet, settings, &marks);
    (fitness == Fitness::Fit).then(|| reference::fill(&voice.rust, sheet, settings).marks)
}

fn add<const N: usize>(sums: &mut [u64; N], more: [usize; N]) {
    for (sum, more) in sums.iter_mut().zip(more) {
        *sum += more as u64;
    }
}
