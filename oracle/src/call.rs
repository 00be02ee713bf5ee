//! A call as document 01 words it, and document 02 its target ends and its targets
//! without a pitch, as far as its refusals 16 and 10 to 12 reach: names, units,
//! target ends and marks. The samples themselves come from the Rust.

use crate::ends;
use crate::phoneset;
use crate::refusal::Refusal;
use crate::sheet::Sheet;
use crate::voicefile::{Entry, Voice};
use std::ops::ControlFlow;

/// The largest mark or target end.
pub const MAX_PLACE: usize = 16_777_215;
pub const MAX_MARKS: usize = 65_536;

#[derive(Clone, Copy, Debug, PartialEq, Eq)]
pub enum Join {
    None,
    Simple,
    Modified,
}

#[derive(Clone, Copy, Debug, PartialEq, Eq)]
pub enum Filter {
    Fixed,
    Float,
}

#[derive(Clone, Copy, Debug, PartialEq, Eq)]
pub struct Settings {
    pub join: Join,
    /// Nothing where the call names no filter.
    pub filter: Option<Filter>,
    pub fold: bool,
    /// Whether a call with a pair that finds no name is refused.
    pub strict: bool,
}

pub const JOINS: [Join; 3] = [Join::None, Join::Simple, Join::Modified];
pub const FILTERS: [Filter; 2] = [Filter::Fixed, Filter::Float];

/// What a call may say of its filter.
pub const NAMED: [Option<Filter>; 3] = [Some(Filter::Fixed), Some(Filter::Float), None];

pub fn filter_name(named: Option<Filter>) -> &'static str {
    match named {
        Some(Filter::Fixed) => "fixed",
        Some(Filter::Float) => "float",
        None => "filter not named",
    }
}

impl Settings {
    /// Every setting that can be expressed; the strict ones are the last.
    pub fn all() -> Vec<Settings> {
        [Settings::loose(), Settings::strict()].concat()
    }

    pub fn strict() -> Vec<Settings> {
        let strictly = |settings: Settings| settings.strictly(true);
        Settings::loose().into_iter().map(strictly).collect()
    }

    /// Those that are not strict; the ones that name no filter are the last.
    pub fn loose() -> Vec<Settings> {
        [Settings::named(), Settings::with(&[None])].concat()
    }

    /// Those of them that name a filter.
    pub fn named() -> Vec<Settings> {
        Settings::with(&FILTERS.map(Some))
    }

    /// Every join with these filters, folded and not.
    fn with(filters: &[Option<Filter>]) -> Vec<Settings> {
        let mut all = Vec::new();
        for join in JOINS {
            for &filter in filters {
                for fold in [false, true] {
                    let any = Settings::new(join);
                    all.push(Settings {
                        filter,
                        fold,
                        ..any
                    });
                }
            }
        }
        all
    }

    /// These settings, strict or not.
    pub fn strictly(self, strict: bool) -> Settings {
        Settings { strict, ..self }
    }

    /// The filter that a call ends up with: the one that it names, else float.
    pub fn filter_in(self) -> Filter {
        self.filter.unwrap_or(Filter::Float)
    }

    /// The word of the settings, as include/diphone.h has it: join, 4 for the
    /// fixed filter, 8 for the float filter or 0 for none named, 16 for fold, 32
    /// for strict.
    pub fn word(self) -> u32 {
        let join = match self.join {
            Join::None => 0,
            Join::Simple => 1,
            Join::Modified => 2,
        };
        let filter = match self.filter {
            Some(Filter::Fixed) => 4,
            Some(Filter::Float) => 8,
            None => 0,
        };
        join | filter | 16 * u32::from(self.fold) | 32 * u32::from(self.strict)
    }

    pub fn new(join: Join) -> Settings {
        Settings {
            join,
            filter: Some(Filter::Fixed),
            fold: false,
            strict: false,
        }
    }
}

/// Half of a chosen entry.
#[derive(Clone, Copy, Debug, PartialEq, Eq)]
pub struct Unit {
    pub first: usize,
    pub last: usize,
    pub target_end: usize,
}

/// A segment's phone, folded where fold is on.
fn phone(sheet: &Sheet, segment: usize, fold: bool) -> &str {
    match sheet.segments[segment].name.as_str() {
        "ah" if fold => "aa",
        name => name,
    }
}

/// The names that the pair starting at segment `left` tries, in order.
pub fn tried(sheet: &Sheet, left: usize, fold: bool) -> Vec<String> {
    let l = phone(sheet, left, fold);
    let r = phone(sheet, left + 1, fold);
    let follower = sheet.segments[left].follower;
    let cluster = follower != 0
        && !phoneset::is_vowel(l)
        && phoneset::feature(phone(sheet, follower - 1, fold), "vc") == "-";
    let mut names = Vec::new();
    if cluster {
        names.push(format!("{l}_-_{r}"));
    }
    names.push(format!("{l}-{r}"));
    names
}

/// What an adjacent pair of segments tries and finds.
#[derive(Clone, Debug, PartialEq, Eq)]
pub struct Pair {
    /// In this order; of two names the first is the cluster name.
    pub tried: Vec<String>,
    /// The place of the first one that the voice has.
    pub found: Option<usize>,
}

impl Pair {
    /// The name that it finds.
    pub fn name(&self) -> Option<&String> {
        self.found.map(|place| &self.tried[place])
    }
}

/// The pairs of a sheet, in order.
pub fn pairs(voice: &Voice, sheet: &Sheet, fold: bool) -> Vec<Pair> {
    let pair = |left| {
        let tried = tried(sheet, left, fold);
        let found = tried.iter().position(|name| voice.find(name).is_some());
        Pair { tried, found }
    };
    let count = sheet.segments.len().saturating_sub(1);
    (0..count).map(pair).collect()
}

/// Whether some pair finds none of the names that it tries.
pub fn is_missing(pairs: &[Pair]) -> bool {
    pairs.iter().any(|pair| pair.found.is_none())
}

/// Whether every pair finds its first-tried name.
pub fn finds_all_first_tried(voice: &Voice, sheet: &Sheet, fold: bool) -> bool {
    let pairs = pairs(voice, sheet, fold);
    pairs.iter().all(|pair| pair.found == Some(0))
}

fn chosen<'v, 'a>(voice: &'v Voice<'a>, sheet: &Sheet, left: usize, fold: bool) -> &'v Entry<'a> {
    tried(sheet, left, fold)
        .iter()
        .find_map(|name| voice.find(name))
        .unwrap_or(&voice.index[0])
}

/// Two units for each adjacent pair of segments.
pub fn units(voice: &Voice, sheet: &Sheet, fold: bool) -> Vec<Unit> {
    let products = ends::products(sheet, voice.header.rate);
    let mut units = Vec::new();
    for (left, products) in products.chunks(2).enumerate() {
        let entry = chosen(voice, sheet, left, fold);
        units.push(Unit {
            first: entry.start,
            last: entry.middle(),
            target_end: ends::nearest(products[0]),
        });
        units.push(Unit {
            first: entry.middle(),
            last: entry.end(),
            target_end: ends::nearest(products[1]),
        });
    }
    units
}

/// The marks that a call makes, or its refusal with 16 or 10 to 12.
pub fn marks(voice: &Voice, sheet: &Sheet, settings: Settings) -> Result<Vec<usize>, Refusal> {
    let mut marks = Vec::new();
    make_marks(voice, sheet, settings, &mut marks)?;
    Ok(marks)
}

/// Makes the marks of a call. What was made before a refusal stays in `marks`.
pub fn make_marks(
    voice: &Voice,
    sheet: &Sheet,
    settings: Settings,
    marks: &mut Vec<usize>,
) -> Result<(), Refusal> {
    if settings.strict && is_missing(&pairs(voice, sheet, settings.fold)) {
        return Err(Refusal::MissingPair);
    }
    if settings.join == Join::None || sheet.segments.len() < 2 {
        return Ok(());
    }
    let units = units(voice, sheet, settings.fold);
    if settings.join == Join::Simple {
        return simple_marks(voice, &units, marks);
    }
    if units.iter().any(|unit| unit.target_end > MAX_PLACE) {
        return Err(Refusal::TooFar);
    }
    modified_marks(voice.header.rate, &sheet.contour(), marks)
}

/// Adds a mark: first the count is looked at, then the mark.
fn add_mark(marks: &mut Vec<usize>, mark: usize) -> Result<(), Refusal> {
    if marks.len() == MAX_MARKS {
        return Err(Refusal::TooManyMarks);
    }
    if mark > MAX_PLACE {
        return Err(Refusal::TooFar);
    }
    marks.push(mark);
    Ok(())
}

fn simple_marks(voice: &Voice, units: &[Unit], marks: &mut Vec<usize>) -> Result<(), Refusal> {
    let mut mark = 0;
    for unit in units {
        for period in unit.first..unit.last {
            mark += voice.samples(period);
            add_mark(marks, mark)?;
        }
    }
    Ok(())
}

/// The marks of the modified join, whatever the units are.
pub fn modified_marks(
    rate: u32,
    contour: &[(f32, f32)],
    marks: &mut Vec<usize>,
) -> Result<(), Refusal> {
    let refusal = walk(contour, |step| {
        let answer = match step {
            Step::Slope(slope) if !slope.is_finite() => Err(Refusal::Slope),
            Step::Target | Step::Slope(_) => Ok(()),
            Step::Mark { after, .. } => add_mark(marks, (f64::from(rate) * after) as usize),
        };
        match answer {
            Ok(()) => ControlFlow::Continue(()),
            Err(refusal) => ControlFlow::Break(refusal),
        }
    });
    refusal.map_or(Ok(()), Err)
}

/// One thing that happens on the way along a contour.
enum Step {
    /// The next target is looked at.
    Target,
    /// A slope was worked out.
    Slope(f32),
    /// A mark was made; time went from `before` to `after`.
    Mark { before: f64, after: f64 },
}

/// Goes along a contour, handing out each step, until it ends or `step` says
/// to stop.
fn walk<T>(contour: &[(f32, f32)], mut step: impl FnMut(Step) -> ControlFlow<T>) -> Option<T> {
    let mut time = 0.0f64;
    let mut last = (0.0f64, 120.0f64);
    for &(pos, f0) in contour {
        let here = (f64::from(pos), f64::from(f0));
        if let ControlFlow::Break(found) = step(Step::Target) {
            return Some(found);
        }
        if time != here.0 && here.0 > last.0 {
            let slope = ((here.1 - last.1) / (here.0 - last.0)) as f32;
            if let ControlFlow::Break(found) = step(Step::Slope(slope)) {
                return Some(found);
            }
            while time < here.0 {
                let instantaneous = last.1 + (time - last.0) * f64::from(slope);
                if instantaneous <= 0.0 {
                    break;
                }
                let before = time;
                time += 1.0 / instantaneous;
                if let ControlFlow::Break(found) = step(Step::Mark {
                    before,
                    after: time,
                }) {
                    return Some(found);
                }
            }
        }
        last = here;
    }
    None
}

/// How many marks each target of a contour makes, up to the most in all.
pub fn made(contour: &[(f32, f32)]) -> Vec<usize> {
    let mut made = Vec::new();
    let mut count = 0;
    walk(contour, |step| {
        match step {
            Step::Target => made.push(0),
            Step::Slope(_) => {}
            Step::Mark { .. } => {
                count += 1;
                *made.last_mut().expect("a target before its marks") += 1;
            }
        }
        match count {
            MAX_MARKS => ControlFlow::Break(()),
            _ => ControlFlow::Continue(()),
        }
    });
    made.resize(contour.len(), 0);
    made
}

/// How the Rust's own walk along a contour goes, which has no limits.
#[derive(Clone, Copy, Debug, PartialEq, Eq)]
pub enum Ending {
    /// It ends with at most 65,536 marks.
    Ends,
    /// Within 65,536 marks time cannot advance: it never ends.
    CannotAdvance,
    /// It makes more than 65,536 marks; whether it ends is not looked at.
    ManyMarks,
}

/// Finds that out without calling the Rust.
pub fn ending(contour: &[(f32, f32)]) -> Ending {
    let mut count = 0;
    let found = walk(contour, |step| match step {
        Step::Target | Step::Slope(_) => ControlFlow::Continue(()),
        Step::Mark { before, after } if before == after => {
            ControlFlow::Break(Ending::CannotAdvance)
        }
        Step::Mark { .. } if count == MAX_MARKS => ControlFlow::Break(Ending::ManyMarks),
        Step::Mark { .. } => {
            count += 1;
            ControlFlow::Continue(())
        }
    });
    found.unwrap_or(Ending::Ends)
}
