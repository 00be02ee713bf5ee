//! What a call is, in one line.

use super::drafts::Draft;
use super::kinds::Kind;
use crate::call::{filter_name, Join};
use crate::expected::Expected;
use crate::lent::Room;
use crate::voicefile;

/// What a call is: its kind up to the colon, then the details.
pub fn about(kind: Kind, draft: &Draft, shown: &Expected) -> String {
    let name = match kind {
        Kind::Spoken(settings, _) => format!("spoken, {} join", join_name(settings.join)),
        Kind::FarMarks => "spoken, marks far apart".to_string(),
        Kind::LongPeriod { .. } => "spoken, long period".to_string(),
        Kind::OneMark => "spoken, one mark".to_string(),
        Kind::Rounding => "spoken, rounding that shows".to_string(),
        Kind::Extended => "spoken, extended voice and longer sheet".to_string(),
        Kind::Inside => "spoken, inside a limit".to_string(),
        Kind::AtLimit(_) if shown.number == 0 => "spoken, at a limit".to_string(),
        Kind::Ends(..) => "spoken, target ends".to_string(),
        Kind::AtEnds(_) if shown.number == 0 => "spoken, target ends by their products".to_string(),
        Kind::Pitches(..) => "spoken, targets without a pitch".to_string(),
        Kind::AtPitches(_) if shown.number == 0 => {
            "spoken, targets without a pitch by their f0s".to_string()
        }
        Kind::Typed(..) => "spoken, texts".to_string(),
        Kind::AtTyped(_) if shown.number == 0 => "spoken, texts by what they stand for".to_string(),
        Kind::Several => format!("refused {} of several causes", shown.number),
        _ => format!("refused {}", shown.number),
    };
    let mut details = Vec::new();
    if !draft.reason.is_empty() {
        details.push(printable(&draft.reason));
    }
    if shown.number == 0 {
        details.extend(spoken_details(kind, draft, shown));
    } else if draft.settings.strict {
        details.push(format!("strict, {} join", join_name(draft.settings.join)));
    }
    format!("{name}: {}", details.join(", "))
}

fn spoken_details(kind: Kind, draft: &Draft, shown: &Expected) -> Vec<String> {
    let Ok(voice) = voicefile::open(&draft.voice) else {
        return Vec::new();
    };
    let either = |first: bool, a: &str, b: &str| (if first { a } else { b }).to_string();
    let settings = draft.settings;
    let mut details = Vec::new();
    if !matches!(kind, Kind::Spoken(..)) {
        details.push(format!("{} join", join_name(settings.join)));
    }
    if settings.strict {
        details.push("strict".to_string());
    }
    details.extend([
        filter_name(settings.filter).to_string(),
        either(settings.fold, "fold", "no fold"),
        either(voice.is_g721(), "G.721", "mu-law"),
        either(voice.has_sizes(), "sizes", "no sizes"),
        format!("order {}", voice.order()),
        either(draft.room == Room::Exact, "exact buffers", "longer buffers"),
    ]);
    let [marks, periods, samples] = [3, 1, 2].map(|i| shown.summary[i]);
    let pulls = shown.pulled.len();
    details.push(format!(
        "{marks} marks, {periods} periods, {samples} samples, {pulls} pulls"
    ));
    details
}

fn join_name(join: Join) -> &'static str {
    match join {
        Join::None => "no",
        Join::Simple => "simple",
        Join::Modified => "modified",
    }
}

/// A text for a comment of one line.
fn printable(text: &str) -> String {
    let shown = |c: char| match c.is_ascii_graphic() || c == ' ' {
        true => c,
        false => '?',
    };
    text.chars().map(shown).collect()
}
