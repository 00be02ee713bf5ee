//! Texts near the middles between f32s, and texts of every other sort.

use crate::rng::Rng;
use crate::texts::{Text, MAX_TEXT};

#[derive(Clone, Copy, Debug, PartialEq, Eq)]
pub enum Sort {
    /// A tie, bare or with a sign, zeros or something ignored around it.
    Tie,
    /// The decimals of so many places just below and just above the middle between
    /// two f32s, and the next ones on either side.
    NearMiddle,
    /// Digits of every length, with and without a sign and a point.
    Digits,
    /// Many zeros in front or behind.
    Zeros,
    /// Several points, and signs that are not in front.
    PointsAndSigns,
    /// A number with something behind it.
    Behind,
    AnyBytes,
}

pub const SORTS: [Sort; 7] = [
    Sort::Tie,
    Sort::NearMiddle,
    Sort::Digits,
    Sort::Zeros,
    Sort::PointsAndSigns,
    Sort::Behind,
    Sort::AnyBytes,
];

impl Sort {
    pub fn draw(self, rng: &mut Rng) -> Text {
        match self {
            Sort::Tie => {
                let tie = tie(rng);
                dressed(rng, tie)
            }
            Sort::NearMiddle => {
                let near = near_middle(rng);
                dressed(rng, near)
            }
            Sort::Digits => any_digits(rng),
            Sort::Zeros => zeros(rng),
            Sort::PointsAndSigns => of_bytes(rng, b"+-.0123456789", MAX_TEXT),
            Sort::Behind => {
                let length = rng.below(MAX_TEXT);
                let mut text = of_bytes(rng, b"..0123456789", length).bytes().to_vec();
                text.extend(rng.pick(&IGNORED));
                text.truncate(MAX_TEXT);
                whole(&text)
            }
            Sort::AnyBytes => {
                let length = rng.below(MAX_TEXT + 1);
                whole(&rng.bytes(length))
            }
        }
    }
}

/// What may stand behind a number: it ends there.
pub const IGNORED: [&[u8]; 16] = [
    b"e5",
    b"E-3",
    b"e",
    b" ",
    b" 7",
    b"s",
    b"Hz",
    b"f32",
    b"x1",
    b",5",
    b"-",
    b"+2",
    b"\0",
    "\u{e9}".as_bytes(),
    "\u{661}3".as_bytes(),
    b"\xFF",
];

/// Every text of at most so many of these bytes.
pub fn all_short(bytes: &[u8], most: usize) -> Vec<Text> {
    let mut all = vec![whole(b"")];
    let mut last = all.clone();
    for _ in 0..most {
        let one_more = |text: &Text| {
            let text = text.bytes().to_vec();
            bytes
                .iter()
                .map(move |byte| whole(&[&text[..], &[*byte]].concat()))
        };
        last = last.iter().flat_map(one_more).collect();
        all.extend(&last);
    }
    all
}

fn whole(text: &[u8]) -> Text {
    Text::new(text).expect("a text of at most 12 bytes")
}

/// A whole number with so many of its digits behind the point. A 0 alone before it
/// may be left out. Nothing where it is too long.
fn spelled(rng: &mut Rng, number: u128, decimals: usize) -> Option<Vec<u8>> {
    let width = decimals + 1;
    let mut text = format!("{number:0width$}").into_bytes();
    if decimals > 0 {
        text.insert(text.len() - decimals, b'.');
    }
    let is_bare = text.starts_with(b"0.") && (text.len() > MAX_TEXT || rng.once_in(2));
    let text = text[usize::from(is_bare)..].to_vec();
    (text.len() <= MAX_TEXT).then_some(text)
}

/// Draws until something fits.
fn until<T>(rng: &mut Rng, mut draw: impl FnMut(&mut Rng) -> Option<T>) -> T {
    loop {
        if let Some(drawn) = draw(rng) {
            return drawn;
        }
    }
}

/// The middle between two f32s, as a text: whole numbers of 25 to 40 bits, and
/// numbers with up to five bits behind the point.
pub fn tie(rng: &mut Rng) -> Vec<u8> {
    until(rng, |rng| {
        let odd = u128::from(rng.u32() >> 8 | 1 << 24 | 1);
        match rng.below(21) as u32 {
            bits @ 0..=5 => spelled(rng, odd * 5u128.pow(bits), bits as usize),
            shift => spelled(rng, odd << (shift - 5), 0),
        }
    })
}

/// One of the four decimals around the middle between two f32s of any power that
/// texts reach.
fn near_middle(rng: &mut Rng) -> Vec<u8> {
    until(rng, |rng| {
        let power = rng.between(0, 76) as i32 - 61;
        let any = rng.u32() >> 9;
        let significand = rng.pick(&[any, any, any, 0, 1, (1 << 23) - 1]) + (1 << 23);
        let odd = u128::from(2 * significand + 1);
        let most = match power {
            ..=-25 => MAX_TEXT - 1,
            _ => MAX_TEXT - 1 - length(scaled(odd, power)).min(MAX_TEXT - 1),
        };
        let fewer = rng.below(most + 1);
        let decimals = rng.pick(&[most, most, fewer]);
        let below = scaled(odd * 10u128.pow(decimals as u32), power);
        let number = (below + rng.below(4) as u128).checked_sub(1)?;
        spelled(rng, number, decimals)
    })
}

/// A number times a power of two, without what is behind the point.
fn scaled(number: u128, power: i32) -> u128 {
    match power {
        0.. => number << power,
        _ => number >> -power,
    }
}

fn length(number: u128) -> usize {
    number.to_string().len()
}

/// A number with a sign, zeros before it, and zeros or something ignored behind it,
/// as far as there is room.
fn dressed(rng: &mut Rng, mut text: Vec<u8>) -> Text {
    let room = |text: &[u8]| MAX_TEXT - text.len();
    if room(&text) > 0 && rng.once_in(3) {
        let zeros = rng.between(0, room(&text));
        text.splice(0..0, vec![b'0'; zeros]);
    }
    if room(&text) > 0 && rng.once_in(3) {
        text.insert(0, rng.pick(b"+-"));
    }
    let is_pointed = text.contains(&b'.');
    let behind = match rng.below(6) {
        0 if is_pointed => vec![b'0'; rng.between(0, room(&text))],
        0 => b".000000"[..room(&text).min(rng.between(1, 7))].to_vec(),
        1 => rng.pick(&IGNORED).to_vec(),
        _ => Vec::new(),
    };
    text.extend(&behind[..behind.len().min(room(&text))]);
    whole(&text)
}

fn any_digits(rng: &mut Rng) -> Text {
    let length = rng.below(MAX_TEXT + 1);
    let mut text: Vec<u8> = (0..length).map(|_| b'0' + rng.below(10) as u8).collect();
    if length > 0 && rng.once_in(2) {
        text[0] = rng.pick(b"+-");
    }
    if length > 0 && !rng.once_in(3) {
        text[rng.below(length)] = b'.';
    }
    whole(&text)
}

/// A number of a few digits among many zeros.
fn zeros(rng: &mut Rng) -> Text {
    let mut text = vec![b'0'; rng.between(1, MAX_TEXT)];
    let length = text.len();
    for _ in 0..rng.below(4) {
        text[rng.below(length)] = b'0' + rng.below(10) as u8;
    }
    if rng.once_in(2) {
        text[rng.below(length)] = b'.';
    }
    if rng.once_in(2) {
        text[0] = rng.pick(b"+-");
    }
    whole(&text)
}

/// At most so many of these bytes.
fn of_bytes(rng: &mut Rng, bytes: &[u8], most: usize) -> Text {
    let length = rng.below(most + 1);
    let text: Vec<u8> = (0..length).map(|_| rng.pick(bytes)).collect();
    whole(&text)
}
