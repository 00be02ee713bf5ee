//! A call's period report beside the lines that it must have.

use super::archive::{self, Request};
use super::guarded::Guarded;
use super::planning::request;
use super::{Bench, Call};
use crate::expected::{Spoken, SHORT_BUFFER};
use crate::period_report::{self, Line, LINE_BYTES};
use crate::refusal::Refusal;
use crate::rng::Rng;

/// The bits of the settings that are the filter.
const FILTER: u32 = 12;

/// What a report must give: the lines and samples of the call, or a number.
type Wanted<'a> = Result<(&'a [Line], usize), usize>;

/// A call that is refused, whatever the buffer is.
pub fn refused(rng: &mut Rng, call: &Call, refusal: Refusal, bench: &mut Bench) {
    let request = request(rng, call);
    let number = refusal.number();
    let any = rng.between(1, 300);
    for length in [0, LINE_BYTES - 1, any, 4096] {
        report(rng, &request, length, Err(number), &call.about, bench);
    }
}

/// A call that is spoken: buffers exact, longer and too short, and each of the
/// filter's numbers, which play no part.
pub fn spoken(rng: &mut Rng, call: &Call, spoken: &Spoken, bench: &mut Bench) {
    let about = &call.about;
    let mut request = request(rng, call);
    let lines = &spoken.lines;
    let wanted = Ok((&lines[..], spoken.summary[2]));
    let exact = LINE_BYTES * lines.len();
    let some = rng.between(1, 100);
    for longer in [0, 1, LINE_BYTES - 1, LINE_BYTES, some] {
        report(rng, &request, exact + longer, wanted, about, bench);
    }
    if exact > 0 {
        let some = rng.below(exact);
        for short in [exact - 1, exact - LINE_BYTES, some, 0] {
            report(rng, &request, short, Err(SHORT_BUFFER), about, bench);
        }
    }
    for filter in [0, 4, 8, 12] {
        request.settings = request.settings & !FILTER | filter;
        report(rng, &request, exact, wanted, about, bench);
    }
    bench.counts.tally(&spoken.tally);
}

/// The answer, the lines, and every byte of the buffer afterwards.
fn report(
    rng: &mut Rng,
    request: &Request,
    length: usize,
    wanted: Wanted,
    about: &str,
    bench: &mut Bench,
) {
    let mut buffer = Guarded::new(rng, length);
    let (lines, samples) = wanted.unwrap_or((&[], 0));
    let left = buffer.filled(&period_report::bytes(lines));
    let number = wanted.err().unwrap_or(0);
    let answer = archive::report(request, &mut buffer) as usize;
    bench.counts.report(answer, lines.len());
    let found = period_report::read(buffer.bytes(), lines.len());
    let report = &mut bench.report;
    report.equal(&number, &answer, || {
        format!("{about}: report in {length} bytes")
    });
    let differences = [
        period_report::difference(lines, &found),
        period_report::wrong_sum(samples, &found),
        period_report::fall(&found),
        (left != buffer).then(|| left.difference(&buffer)),
    ];
    for difference in differences {
        report.check(difference.is_none(), || {
            let difference = difference.unwrap_or_default();
            format!("{about}: report in {length} bytes, answer {number}: {difference}")
        });
    }
}
