//! Texts by document 02: the f32 that a text stands for, worked out in whole
//! numbers. Its decimal is a fraction of two of them, which is compared with f32s
//! and with the middles between them.

use std::cmp::Ordering;
use std::fmt;

/// The most bytes that a text has.
pub const MAX_TEXT: usize = 12;

/// The bits of the largest f32, and of minus zero.
const LARGEST: u32 = 0x7F7F_FFFF;
pub const MINUS: u32 = 1 << 31;

/// A text, of any bytes.
#[derive(Clone, Copy, PartialEq, Eq)]
pub struct Text {
    bytes: [u8; MAX_TEXT],
    length: usize,
}

impl Text {
    /// Nothing where there are too many bytes.
    pub fn new(text: &[u8]) -> Option<Text> {
        let mut bytes = [0; MAX_TEXT];
        bytes.get_mut(..text.len())?.copy_from_slice(text);
        Some(Text {
            bytes,
            length: text.len(),
        })
    }

    pub fn bytes(&self) -> &[u8] {
        &self.bytes[..self.length]
    }

    /// What it stands for, by its bits.
    pub fn bits(&self) -> u32 {
        bits(self.bytes())
    }

    /// The text for the Rust, which takes UTF-8 alone. Else the bytes before the
    /// first one above 127, which ends the number.
    pub fn for_rust(&self) -> &str {
        let bytes = self.bytes();
        let plain = bytes.iter().position(|byte| *byte > 127);
        let plain = &bytes[..plain.unwrap_or(bytes.len())];
        std::str::from_utf8(bytes)
            .or(std::str::from_utf8(plain))
            .expect("bytes up to 127 are UTF-8")
    }
}

impl fmt::Debug for Text {
    fn fmt(&self, f: &mut fmt::Formatter<'_>) -> fmt::Result {
        write!(f, "\"{}\"", self.bytes().escape_ascii())
    }
}

/// The number in front of a text: its sign, and a fraction.
#[derive(Clone, Copy, Debug, PartialEq, Eq)]
pub struct Decimal {
    pub is_negative: bool,
    pub over: u128,
    pub under: u128,
}

/// Nothing where there is no digit. What is behind the number is ignored.
pub fn decimal(text: &[u8]) -> Option<Decimal> {
    let (is_negative, unsigned) = match text {
        [b'-', rest @ ..] => (true, rest),
        [b'+', rest @ ..] => (false, rest),
        _ => (false, text),
    };
    let (whole, behind) = digits(unsigned);
    let fraction = match behind {
        [b'.', rest @ ..] => digits(rest).0,
        _ => &[],
    };
    let all = [whole, fraction].concat();
    let number = |sum: u128, digit: &u8| 10 * sum + u128::from(digit - b'0');
    (!all.is_empty()).then(|| Decimal {
        is_negative,
        over: all.iter().fold(0, number),
        under: 10u128.pow(fraction.len() as u32),
    })
}

/// The digits in front, and what is behind them.
fn digits(text: &[u8]) -> (&[u8], &[u8]) {
    let count = text.iter().take_while(|byte| byte.is_ascii_digit()).count();
    text.split_at(count)
}

/// The bits of the f32 that a text stands for: the nearest to its decimal, of two
/// as near the even one, and plus zero where there is no digit.
pub fn bits(text: &[u8]) -> u32 {
    let Some(decimal) = decimal(text) else {
        return 0;
    };
    let below = decimal.below();
    let nearest = match decimal.beside_middle(below) {
        Ordering::Less => below,
        Ordering::Equal => below + below % 2,
        Ordering::Greater => below + 1,
    };
    nearest | if decimal.is_negative { MINUS } else { 0 }
}

/// How near the middle between two f32s is.
#[derive(Clone, Copy, Debug, PartialEq, Eq)]
pub enum Middle {
    /// A tie, by the bits of the two f32s without a sign: the even one, then the
    /// other.
    Tie([u32; 2]),
    /// A unit in the last place away: that is a tie.
    Unit,
    /// Less than a unit away, and no other is.
    Within,
    Apart,
}

impl Decimal {
    /// The bits of the largest f32 that is not above the fraction, by halving.
    fn below(&self) -> u32 {
        let (mut low, mut high) = (0, LARGEST);
        while low < high {
            let half = high - (high - low) / 2;
            let (significand, power) = parts(half);
            match self.beside(significand, power) {
                Ordering::Less => high = half - 1,
                _ => low = half,
            }
        }
        low
    }

    /// The fraction beside the middle between an f32 and the next one.
    fn beside_middle(&self, bits: u32) -> Ordering {
        let (significand, power) = parts(bits);
        self.beside(2 * significand + 1, power - 1)
    }

    /// The fraction beside a whole number times a power of two.
    fn beside(&self, number: u128, power: i32) -> Ordering {
        let Decimal { over, under, .. } = *self;
        let scale = power.unsigned_abs();
        match power {
            0.. => over.cmp(&scaled(number * under, scale)),
            _ => scaled(over, scale).cmp(&(number * under)),
        }
    }

    /// Whether it is an f32 itself.
    pub fn is_f32(&self) -> bool {
        let (significand, power) = parts(self.below());
        self.beside(significand, power) == Ordering::Equal
    }

    /// How near a middle is.
    pub fn middle(&self) -> Middle {
        let below = self.below();
        if self.beside_middle(below) == Ordering::Equal {
            let even = below + below % 2;
            return Middle::Tie([even, 2 * below + 1 - even]);
        }
        let [less, more] =
            [self.over.saturating_sub(1), self.over + 1].map(|over| Decimal { over, ..*self });
        let mut passed = 0;
        for bits in below.saturating_sub(1)..=below + 1 {
            let sides = [less, more].map(|decimal| decimal.beside_middle(bits));
            if sides.contains(&Ordering::Equal) {
                return Middle::Unit;
            }
            passed += usize::from(sides[0] != sides[1]);
        }
        match passed {
            1 => Middle::Within,
            _ => Middle::Apart,
        }
    }
}

/// The significand of an f32 that is not negative, and its power of two.
fn parts(bits: u32) -> (u128, i32) {
    let mantissa = u128::from(bits & 0x7F_FFFF);
    match (bits >> 23) as i32 {
        0 => (mantissa, -149),
        exponent => (mantissa + (1 << 23), exponent - 150),
    }
}

/// A number times a power of two. Where that passes 128 bits it is the largest
/// number, which is above all others that are compared here: none has 63 bits.
fn scaled(number: u128, power: u32) -> u128 {
    match number {
        0 => 0,
        _ if number.leading_zeros() > power => number << power,
        _ => u128::MAX,
    }
}
