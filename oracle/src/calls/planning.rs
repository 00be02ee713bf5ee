//! A call's need and plan beside what it must fill or refuse.

use super::archive::{self, Lent, Request, NEED_BYTES, STATE_BYTES, SUMMARY_BYTES};
use super::guarded::Guarded;
use super::machine::State;
use super::{pulling, Bench, Call};
use crate::call::{Filter, Join};
use crate::expected::{packed, Spoken, SHORT_BUFFER};
use crate::lent::{length, Room, NAMES, WIDTHS};
use crate::refusal::Refusal;
use crate::rng::Rng;
use crate::voicefile::Voice;

/// The buffers of a plan: those that a call fills, the state, the summary.
type Buffers = [Guarded; 8];

const STATE: usize = 6;
const SUMMARY: usize = 7;

fn name(buffer: usize) -> &'static str {
    match buffer {
        STATE => "state",
        SUMMARY => "summary",
        other => NAMES[other],
    }
}

fn width(buffer: usize) -> usize {
    match buffer {
        STATE => STATE_BYTES,
        SUMMARY => SUMMARY_BYTES,
        other => WIDTHS[other],
    }
}

/// The settings as a word, in one of its forms: 3 is the modified join too, 3
/// of the filter's bits is float too, and bits from 6 on mean nothing.
pub fn request<'a>(rng: &mut Rng, call: &'a Call) -> Request<'a> {
    let settings = call.settings;
    let mut word = settings.word();
    if settings.join == Join::Modified {
        word |= rng.pick(&[0, 0, 0, 1]);
    }
    if settings.filter == Some(Filter::Float) {
        word |= rng.pick(&[0, 0, 0, 4]);
    }
    word |= rng.pick(&[0, 0, 0, 64, 256, u32::MAX << 6]);
    Request {
        voice: &call.voice,
        sheet: &call.sheet,
        settings: word,
    }
}

/// A call that is refused whatever its buffers are.
pub fn refused(rng: &mut Rng, call: &Call, refusal: Refusal, bench: &mut Bench) {
    let request = request(rng, call);
    let number = refusal.number();
    for length in [0, rng.below(NEED_BYTES), NEED_BYTES + 9] {
        need(rng, &request, length, Err(number), &call.about, bench);
    }
    let any = rng.between(1, 300);
    for most in [0, 11, any] {
        let lengths = std::array::from_fn(|_| rng.below(most + 1));
        plan(rng, &request, lengths, Err(number), &call.about, bench);
    }
    bench.counts.refused(number);
}

/// A call that is spoken, with buffers of every sort, and its pulls.
pub fn spoken(rng: &mut Rng, call: &Call, voice: &Voice, spoken: &Spoken, bench: &mut Bench) {
    let request = request(rng, call);
    let about = &call.about;
    let needed = packed(&spoken.needed, 8);
    for length in [NEED_BYTES, NEED_BYTES + rng.below(20)] {
        need(rng, &request, length, Ok(&needed), about, bench);
    }
    for length in [NEED_BYTES - 1, rng.below(NEED_BYTES), 0] {
        need(rng, &request, length, Err(SHORT_BUFFER), about, bench);
    }
    let state = State::fresh(&voice.header, call.settings.filter_in());
    let new = filled(spoken, &state);
    for short in 0..8 {
        if let Some(lengths) = lengths(rng, &spoken.needed, Room::Short(short)) {
            let about = format!("{about}: {} too short", name(short));
            plan(rng, &request, lengths, Err(SHORT_BUFFER), &about, bench);
        }
    }
    plan(rng, &request, [0; 8], Err(SHORT_BUFFER), about, bench);
    for room in [Room::Longer, Room::Exact] {
        let lengths = lengths(rng, &spoken.needed, room).expect("no buffer is short");
        let buffers = plan(rng, &request, lengths, Ok(&new), about, bench);
        if room == Room::Exact {
            let lent = Lent::of(&buffers);
            let [.., state, _] = buffers;
            pulling::all(rng, about, &spoken.periods, state, &lent, bench);
        }
    }
    bench.counts.accepted(call.settings, voice, spoken);
}

/// What the plan writes, buffer by buffer.
fn filled(spoken: &Spoken, state: &State) -> [Vec<u8>; 8] {
    std::array::from_fn(|i| match i {
        STATE => state.bytes(),
        SUMMARY => packed(&spoken.summary, 8),
        other => spoken.filled[other].clone(),
    })
}

/// Nothing where a buffer that needs no byte is to be too short.
pub fn lengths(rng: &mut Rng, needed: &[usize; 6], room: Room) -> Option<[usize; 8]> {
    let mut lengths = [0; 8];
    for (i, bytes) in lengths.iter_mut().enumerate() {
        let needed = needed.get(i).copied().unwrap_or(1);
        *bytes = length(rng, needed, width(i), room, i)?;
    }
    Some(lengths)
}

/// The answer, and what is left in the buffer: the six numbers, or all.
fn need(
    rng: &mut Rng,
    request: &Request,
    length: usize,
    expected: Result<&[u8], usize>,
    about: &str,
    bench: &mut Bench,
) {
    let mut buffer = Guarded::new(rng, length);
    let left = buffer.filled(expected.unwrap_or(&[]));
    let number = expected.err().unwrap_or(0);
    let answer = archive::need(request, &mut buffer) as usize;
    bench.counts.need(answer);
    let report = &mut bench.report;
    report.equal(&number, &answer, || {
        format!("{about}: need in {length} bytes")
    });
    report.check(left == buffer, || {
        let difference = left.difference(&buffer);
        format!("{about}: need, answer {number}: {difference}")
    });
}

/// The answer, and every byte of each buffer afterwards. Returns the buffers.
fn plan(
    rng: &mut Rng,
    request: &Request,
    lengths: [usize; 8],
    expected: Result<&[Vec<u8>; 8], usize>,
    about: &str,
    bench: &mut Bench,
) -> Buffers {
    let mut buffers = lengths.map(|length| Guarded::new(rng, length));
    let left: Buffers = std::array::from_fn(|i| {
        let new = expected.map_or(&[][..], |new| &new[i]);
        buffers[i].filled(new)
    });
    let number = expected.err().unwrap_or(0);
    let answer = archive::plan(request, &mut buffers) as usize;
    bench.counts.plan(answer);
    let report = &mut bench.report;
    report.equal(&number, &answer, || {
        format!("{about}: plan, buffers of {lengths:?} bytes")
    });
    for (i, (expected, found)) in left.iter().zip(&buffers).enumerate() {
        report.check(expected == found, || {
            let difference = expected.difference(found);
            format!("{about}: plan, answer {number}: {}: {difference}", name(i))
        });
    }
    // Later pulls start from what should be there.
    left
}
