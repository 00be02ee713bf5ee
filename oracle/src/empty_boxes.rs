//! Calls with targets without a pitch: what their sheets are like, and how they
//! stand to the Rust's own on the sheet as it stands, which counts 0 Hz there.

use crate::call::{self, Join, Settings, JOINS};
use crate::diphone::access;
use crate::diphone::DiphoneVoice;
use crate::pitches::{self, has_empty_box};
use crate::reference::{self, Filled, Fitness};
use crate::refusal::Refusal;
use crate::report::Report;
use crate::sheet::{self, Sheet, Value};
use crate::voicefile::{self, Voice};
use std::collections::BTreeMap;

/// What a spoken call of the modified join may be like: its sheet, then how it
/// differs from the Rust's own.
const MET: [&str; 25] = [
    "the first f0 absent, so 120",
    "one absent between others",
    "the last one absent",
    "two absent that follow each other",
    "all absent, of two or more",
    "one target, its f0 absent",
    "eight targets or more",
    "a whole number 0 carried",
    "a float 0 carried",
    "a float -0 carried",
    "a number below 0 carried",
    "a whole number other than 0 carried",
    "a whole number carried that f32 rounds",
    "1,000,000 Hz or more carried",
    "0.01 Hz or less carried",
    "carried from a target that made no mark, another f0 before it",
    "carried on by an absent one that made no mark",
    "pos absent too",
    "marks that are not the Rust's own",
    "more marks",
    "fewer marks",
    "the Rust's own marks",
    "other samples",
    "other marks, and the same samples",
    "a refusal where 0 Hz is counted",
];

/// Those of the sheet alone.
const SORTS: usize = 18;

const OTHER_MARKS: usize = 18;
const OTHER_SAMPLES: usize = 22;

/// Answers where 0 Hz is counted, and here, that must be met; 0 is spoken.
const ANSWERS: [[usize; 2]; 6] = [[10, 0], [0, 10], [11, 0], [0, 11], [12, 0], [0, 12]];

#[derive(Clone, Debug)]
pub struct Boxes {
    join: Join,
    /// The answer where 0 Hz is counted, and the call's.
    answers: [usize; 2],
    met: [bool; MET.len()],
}

impl Boxes {
    /// Of a call as it is filled and spoken. Nothing where no box is empty.
    pub fn of(
        voice: &Voice,
        rust: &DiphoneVoice,
        sheet: &Sheet,
        settings: Settings,
        filled: &Filled,
        periods: &[Vec<i16>],
    ) -> Option<Boxes> {
        let mut boxes = Boxes::answered(voice, sheet, settings, 0)?;
        if settings.join == Join::Modified && sheet.segments.len() > 1 {
            boxes.met[..SORTS].copy_from_slice(&sorts(sheet));
            let differences = differences(voice, rust, sheet, settings, filled, periods);
            boxes.met[SORTS..].copy_from_slice(&differences);
        }
        Some(boxes)
    }

    /// Of a call that is refused with a number. Nothing where its files are.
    pub fn refused(voice: &[u8], sheet: &[u8], settings: Settings, number: usize) -> Option<Boxes> {
        let voice = voicefile::open(voice).ok()?;
        let sheet = sheet::read(sheet).ok()?;
        Boxes::answered(&voice, &sheet, settings, number)
    }

    fn answered(voice: &Voice, sheet: &Sheet, settings: Settings, number: usize) -> Option<Boxes> {
        let zeroed = has_empty_box(sheet).then(|| pitches::zeroed(sheet))?;
        let own = call::marks(voice, &zeroed, settings).err();
        Some(Boxes {
            join: settings.join,
            answers: [own.map_or(0, Refusal::number), number],
            met: [false; MET.len()],
        })
    }

    /// Whether the marks are not the Rust's own.
    pub fn has_other_marks(&self) -> bool {
        self.met[OTHER_MARKS]
    }

    /// Whether the samples are not.
    pub fn shows(&self) -> bool {
        self.met[OTHER_SAMPLES]
    }
}

/// What the empty boxes of a sheet are like.
fn sorts(sheet: &Sheet) -> [bool; SORTS] {
    let targets = &sheet.targets;
    let made = call::made(&sheet.contour());
    let counted = |place: usize| match place {
        0 => pitches::FIRST,
        _ => sheet.contour()[place - 1].1,
    };
    let is_empty = |place: usize| {
        let target = targets.get(place);
        target.is_some_and(|target| target.f0 == Value::Absent)
    };
    let empty: Vec<usize> = (0..targets.len())
        .filter(|place| is_empty(*place))
        .collect();
    let any = |is: &dyn Fn(usize) -> bool| empty.iter().any(|place| is(*place));
    // The target whose written f0 an empty box takes.
    let written = |place: usize| (0..place).rev().find(|place| !is_empty(*place));
    let carried = |is: &dyn Fn(Value) -> bool| {
        any(&|place| written(place).is_some_and(|place| is(targets[place].f0)))
    };
    let rounded = |value| matches!(value, Value::Whole(n) if n as f32 as i64 != i64::from(n));
    let last = targets.len() - 1;
    [
        is_empty(0),
        any(&|place| (1..last).contains(&place)),
        is_empty(last) && last > 0,
        any(&|place| is_empty(place + 1)),
        empty.len() == targets.len() && last > 0,
        last == 0,
        last >= 7,
        carried(&|f0| f0 == Value::Whole(0)),
        carried(&|f0| f0 == Value::float(0.0)),
        carried(&|f0| f0 == Value::float(-0.0)),
        carried(&|f0| f0.as_f32() < 0.0),
        carried(&|f0| matches!(f0, Value::Whole(n) if n != 0)),
        carried(&rounded),
        carried(&|f0| f0.as_f32() >= 1.0e6),
        carried(&|f0| (f32::from_bits(1)..=0.01).contains(&f0.as_f32())),
        any(&|place| {
            let is_unmarked = |at: usize| made[at] == 0 && counted(at) != counted(at + 1);
            written(place).is_some_and(is_unmarked)
        }),
        any(&|place| made[place] == 0 && is_empty(place + 1)),
        any(&|place| targets[place].pos == Value::Absent),
    ]
}

/// How a call differs from the Rust's own, apart from its target ends.
fn differences(
    voice: &Voice,
    rust: &DiphoneVoice,
    sheet: &Sheet,
    settings: Settings,
    filled: &Filled,
    periods: &[Vec<i16>],
) -> [bool; MET.len() - SORTS] {
    let zeroed = pitches::zeroed(sheet);
    let Ok(marks) = call::marks(voice, &zeroed, settings) else {
        return [true, false, false, false, false, false, true];
    };
    let theirs = access::pitch_marks(rust, &reference::as_it_stands(sheet));
    assert_eq!(theirs, marks, "marks of the Rust's own, and with 0 Hz");
    let is_same = match reference::fitness(voice, &zeroed, settings, &marks) {
        Fitness::Fit => {
            let own = reference::fill(rust, &zeroed, settings);
            let spoken = reference::filtered(rust, &own.taken, settings.filter_in());
            Some(spoken == periods)
        }
        _ => None,
    };
    let same_marks = marks == filled.marks;
    [
        !same_marks,
        marks.len() < filled.marks.len(),
        marks.len() > filled.marks.len(),
        same_marks,
        is_same == Some(false),
        is_same == Some(true) && !same_marks,
        false,
    ]
}

/// What the calls of a run were like.
#[derive(Default)]
pub struct Counts {
    /// Calls with an empty box, by join: spoken and refused.
    joins: [[u64; 2]; JOINS.len()],
    /// Those of the modified join, by the answer where 0 Hz is counted and theirs.
    answers: BTreeMap<[usize; 2], u64>,
    met: [u64; MET.len()],
}

impl Counts {
    pub fn add(&mut self, call: &Boxes) {
        let [_, number] = call.answers;
        for (sums, join) in self.joins.iter_mut().zip(JOINS) {
            sums[usize::from(number > 0)] += u64::from(call.join == join);
        }
        if call.join == Join::Modified {
            *self.answers.entry(call.answers).or_default() += 1;
        }
        for (sum, met) in self.met.iter_mut().zip(call.met) {
            *sum += u64::from(met);
        }
    }

    /// What was not met.
    pub fn missing(&self) -> Vec<String> {
        let joins = JOINS.iter().zip(self.joins);
        let joins = joins.map(|(join, [spoken, _])| (format!("{join:?}"), spoken));
        let answers = ANSWERS.map(|answers| {
            let [own, here] = answers;
            let count = self.answers.get(&answers).copied();
            (format!("{own} with 0 Hz, {here} here"), count.unwrap_or(0))
        });
        let met = MET.iter().zip(self.met);
        let met = met.map(|(what, count)| (what.to_string(), count));
        joins
            .chain(answers)
            .chain(met)
            .filter(|(_, count)| *count == 0)
            .map(|(what, _)| format!("targets without a pitch: {what}"))
            .collect()
    }

    /// Everything must have been met.
    pub fn check_reached(&self, report: &mut Report) {
        let missing = self.missing();
        report.check(missing.is_empty(), || format!("no call with {missing:?}"));
    }

    pub fn print(&self) {
        let [none, simple, modified] = self.joins.map(|[spoken, refused]| {
            let all = spoken + refused;
            format!("{all} ({spoken} spoken)")
        });
        println!(
            "  calls with a target without a pitch: join none {none}, simple {simple}, \
             modified {modified}"
        );
        let answers = self.answers.iter();
        let answers: Vec<String> = answers
            .map(|([own, here], count)| format!("{own} and {here}: {count}"))
            .collect();
        println!(
            "    modified join, by the answers with 0 Hz and here, 0 spoken: {}",
            answers.join(", ")
        );
        println!("  those spoken in the modified join, two segments or more, with");
        for (what, count) in MET.iter().zip(self.met) {
            println!("    {what}: {count}");
        }
    }
}
