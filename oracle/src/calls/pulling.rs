//! The pulls of a spoken call beside the Rust's periods and document 01's
//! machine.

use super::archive::{self, Lent};
use super::guarded::Guarded;
use super::machine::{self, State, DONE, IMPOSSIBLE, SHORT_SLICE};
use super::odd_states;
use super::Bench;
use crate::rng::Rng;

/// Possible states of any sort that are tried on what a call filled.
const ODD_STATES: usize = 4;

/// A call's pulls, one after the other.
struct Pulls<'a> {
    lent: &'a Lent,
    state: Guarded,
    about: &'a str,
}

impl Pulls<'_> {
    fn state(&self) -> State {
        State::read(self.state.bytes()).expect("a state of enough bytes")
    }

    /// Pulls with a slice of so many bytes. The answer and every byte of the
    /// state and of the slice must be those of document 01. Returns the answer
    /// and the slice.
    fn pull(&mut self, rng: &mut Rng, room: usize, bench: &mut Bench) -> (i64, Guarded) {
        let mut slice = Guarded::new(rng, room);
        let (number, state, samples) = machine::pull(self.state.bytes(), self.lent, room);
        let left = [self.state.filled(&state), slice.filled(&samples)];
        let answer = archive::pull(&mut self.state, self.lent, &mut slice);
        bench.counts.pull(answer);
        let about = self.about;
        let report = &mut bench.report;
        report.equal(&number, &answer, || format!("{about}: a pull's answer"));
        for (name, expected, found) in [
            ("state", &left[0], &self.state),
            ("samples", &left[1], &slice),
        ] {
            report.check(expected == found, || {
                let difference = expected.difference(found);
                format!("{about}: pull {number}: {name}: {difference}")
            });
        }
        (answer, slice)
    }

    /// One pull whose answer is known, and which leaves the state.
    fn refuse(&mut self, rng: &mut Rng, room: usize, number: i64, what: &str, bench: &mut Bench) {
        let before = self.state.clone();
        let (answer, _) = self.pull(rng, room, bench);
        let about = self.about;
        bench
            .report
            .equal(&number, &answer, || format!("{about}: {what}"));
        bench.report.check(before == self.state, || {
            format!("{about}: {what}: state changed")
        });
    }

    /// The next period, after slices that are too short for it.
    fn give(&mut self, rng: &mut Rng, period: &[i16], bench: &mut Bench) {
        let exact = 2 * period.len();
        if exact > 0 && rng.once_in(3) {
            let some = rng.below(exact);
            let short = rng.pick(&[0, exact - 1, exact - 2, some]);
            self.refuse(rng, short, SHORT_SLICE, "a slice too short", bench);
        }
        let longer = rng.pick(&[0, 0, 1, 2, 7, 200]);
        let (answer, slice) = self.pull(rng, exact + longer, bench);
        let samples: Vec<u8> = period.iter().flat_map(|s| s.to_le_bytes()).collect();
        let about = self.about;
        let report = &mut bench.report;
        report.equal(&(period.len() as i64), &answer, || {
            format!("{about}: samples given")
        });
        report.check(slice.bytes().starts_with(&samples), || {
            format!("{about}: the Rust's period of {} samples", period.len())
        });
        bench.counts.periods += 1;
        bench.counts.samples += period.len() as u64;
    }

    /// Every impossible state, and rows that end too early, from here.
    fn damage(&self, rng: &mut Rng, bench: &mut Bench) {
        let state = self.state();
        for (what, bytes) in odd_states::impossible(rng, &state, self.lent) {
            let longer = rng.pick(&[0, 0, 5]);
            // A state slice too short stays so.
            let longer = if bytes.len() < archive::STATE_BYTES {
                0
            } else {
                longer
            };
            self.other(rng, &bytes, longer, self.lent)
                .refuse(rng, 1200, IMPOSSIBLE, what, bench);
        }
        if let Some(cut) = odd_states::cut_rows(rng, &state, self.lent) {
            self.other(rng, &state.bytes(), 0, &cut).refuse(
                rng,
                1200,
                IMPOSSIBLE,
                "rows cut before the row's end",
                bench,
            );
        }
    }

    /// Possible states of any sort.
    fn wander(&self, rng: &mut Rng, bench: &mut Bench) {
        for _ in 0..ODD_STATES {
            let lent = odd_states::cut_anywhere(rng, self.lent);
            let state = odd_states::possible(rng, &self.state(), &lent);
            let mut other = self.other(rng, &state.bytes(), 3, &lent);
            let (_, _, next) = machine::pull(other.state.bytes(), &lent, usize::MAX);
            let room = rng.pick(&[next.len(), next.len() + 3, next.len().saturating_sub(1)]);
            other.pull(rng, room, bench);
        }
    }

    fn other<'b>(
        &'b self,
        rng: &mut Rng,
        state: &[u8],
        longer: usize,
        lent: &'b Lent,
    ) -> Pulls<'b> {
        Pulls {
            lent,
            state: Guarded::holding(rng, state, longer),
            about: self.about,
        }
    }
}

/// Pulls all periods of a call from its fresh state, and past them.
pub fn all(
    rng: &mut Rng,
    about: &str,
    periods: &[Vec<i16>],
    state: Guarded,
    lent: &Lent,
    bench: &mut Bench,
) {
    let kept = lent.clone();
    let mut pulls = Pulls { lent, state, about };
    let place = rng.below(periods.len() + 1);
    pulls.damage(rng, bench);
    pulls.wander(rng, bench);
    for (number, period) in periods.iter().enumerate() {
        if number == place {
            pulls.damage(rng, bench);
        }
        pulls.give(rng, period, bench);
    }
    for _ in 0..2 {
        let room = rng.pick(&[0, 1, 2, 300]);
        pulls.refuse(rng, room, DONE, "after the last period", bench);
    }
    pulls.damage(rng, bench);
    // At the end no row is next.
    let mut rowless = lent.clone();
    rowless.rows.clear();
    let state = pulls.state().bytes();
    pulls.other(rng, &state, 0, &rowless).refuse(
        rng,
        2,
        DONE,
        "after the last period, without rows",
        bench,
    );
    bench.report.check(kept == *lent, || {
        format!("{about}: a pull writes what it only reads")
    });
}
