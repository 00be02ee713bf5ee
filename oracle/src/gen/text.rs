//! Byte strings at the edges of UTF-8, and Unicode white space.

/// Byte strings that are not UTF-8.
pub const BAD_UTF8: [(&[u8], &str); 20] = [
    (b"\x80", "continuation byte alone"),
    (b"a\xBF", "continuation byte after a letter"),
    (b"\xC3", "two-byte form cut"),
    (b"\xC3a", "two-byte form without continuation"),
    (b"\xE2\x82", "three-byte form cut"),
    (b"\xE2\x82a", "three-byte form without its last byte"),
    (b"\xF0\x9F\x98", "four-byte form cut"),
    (b"\xF0\x9F\x98a", "four-byte form without its last byte"),
    (b"\xC0\x80", "overlong zero"),
    (b"\xC1\xBF", "overlong two-byte form"),
    (b"\xE0\x80\x80", "overlong zero in three bytes"),
    (b"\xE0\x9F\xBF", "overlong three-byte form"),
    (b"\xF0\x80\x80\x80", "overlong zero in four bytes"),
    (b"\xF0\x8F\xBF\xBF", "overlong four-byte form"),
    (b"\xED\xA0\x80", "first surrogate"),
    (b"\xED\xBF\xBF", "last surrogate"),
    (b"\xF4\x90\x80\x80", "one above 10FFFF"),
    (b"\xF5\x80\x80\x80", "lead byte F5"),
    (b"\xF8\x88\x80\x80\x80", "five-byte form"),
    (b"\xFF", "byte FF"),
];

/// Characters at the edges of what UTF-8 allows.
pub const EDGE_UTF8: [&str; 12] = [
    "\u{0}",
    "\u{7F}",
    "\u{80}",
    "\u{7FF}",
    "\u{800}",
    "\u{D7FF}",
    "\u{E000}",
    "\u{FFFD}",
    "\u{FFFF}",
    "\u{10000}",
    "\u{FFFFF}",
    "\u{10FFFF}",
];

/// Every character that `str::trim` removes.
#[rustfmt::skip]
pub const WHITE_SPACE: [&str; 25] = [
    "\u{9}", "\u{A}", "\u{B}", "\u{C}", "\u{D}", " ", "\u{85}", "\u{A0}", "\u{1680}", "\u{2000}",
    "\u{2001}", "\u{2002}", "\u{2003}", "\u{2004}", "\u{2005}", "\u{2006}", "\u{2007}",
    "\u{2008}", "\u{2009}", "\u{200A}", "\u{2028}", "\u{2029}", "\u{202F}", "\u{205F}", "\u{3000}",
];

/// Characters that look like white space and are none.
#[rustfmt::skip]
pub const NO_WHITE_SPACE: [&str; 12] = [
    "\u{0}", "\u{8}", "\u{E}", "\u{1C}", "\u{1F}", "\u{180E}", "\u{200B}", "\u{200D}",
    "\u{2060}", "\u{FEFF}", "\u{84}", "\u{3001}",
];
