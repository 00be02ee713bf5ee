"""Voices and sheets, fit and unfit, each with the number by which it is refused; texts, and what they count as; pairs
that a voice lacks."""
import sys
from decimal import Decimal
from fractions import Fraction
from pathlib import Path

REPO = Path(__file__).resolve().parent.parent.parent
sys.path.insert(0, str(REPO / "tools"))
import formats
from formats import FLOAT, NONE, TEXT, WHOLE, Segment, Target, f32, index_bytes, real, u32, voice_of
from formats import section_bytes as section
from formats import sheet_bytes as sheet

EXAMPLES = REPO / "examples"
NAN, INFINITY = 0x7FC00000, 0x7F800000


# ---- voices


def sections_of(voice):
    """A voice's sections as (name, data)."""
    return [(section.name, section.data) for section in formats.sections_of(voice)]


def changed(voice, name, change):
    """The voice with one section's data changed."""
    return voice_of([(n, change(d) if n == name else d) for n, d in sections_of(voice)])


def patched(at, data):
    return lambda old: old[:at] + data + old[at + len(data) :]


def with_backend(voice, text):
    return voice_of([(b"voice.backend", text)] + [s for s in sections_of(voice) if s[0] != b"voice.backend"])


def example_with_rows():
    """Document 01's example with small coefficients: 8, 132, 0, -8, -132 by the fixed filter; by float -7 stands for -8."""
    residuals = [b"\xfe\xef", b"\xff\x7e\x6f"]
    return formats.voice_file(formats.Header(order=1, coeff_range=16), [[10], [30]], residuals, [(b"pau-aa", 0, 1, 1)])


def fit_voices(voice):
    """(what, bytes) of voices that open."""
    yield "as it is", voice
    yield "white space around the back end", with_backend(voice, "\u3000\x85diphone \n".encode())
    yield "no back end", voice_of([s for s in sections_of(voice) if s[0] != b"voice.backend"])
    yield "an unknown section", voice + section(b"other", b"123")
    yield "a second header that would be unfit", voice + section(b"sts.header", b"")
    yield "tails", voice_of([(name, data + b"\xff" * 3) for name, data in sections_of(voice) if name != b"voice.backend"])
    yield "order 32 at most", changed(changed(voice, b"sts.header", patched(4, u32(32))), b"sts.lpc", lambda _: bytes(64 * 96))
    yield "a NaN stretch", changed(voice, b"sts.header", patched(24, u32(NAN)))
    yield "sizes", voice + section(b"sts.ressize", bytes([80] * 96))


def unfit_voices(voice):
    """(number, what, bytes) of voices that are refused. The voice has 96 frames."""
    yield 1, "empty", b""
    yield 1, "another magic", b"FLRSDAT\x02" + voice[8:]
    yield 1, "magic cut short", voice[:7]
    yield 2, "cut short", voice[:-1]
    yield 2, "one byte more", voice + b"\x01"
    yield 2, "a section's name not UTF-8", voice + section(b"\xc0\x80", b"")
    yield 3, "another back end", with_backend(voice, b"clustergen")
    yield 3, "back end not UTF-8", with_backend(voice, b"diphone\xff")
    yield 3, "a control character is no white space", with_backend(voice, b"\x1fdiphone")
    for needed in (b"sts.header", b"sts.lpc", b"sts.resoffs", b"sts.res", b"dip.index"):
        yield 4, f"no {needed.decode()}", voice_of([s for s in sections_of(voice) if s[0] != needed])
    yield 5, "header cut short", changed(voice, b"sts.header", lambda data: data[:39])
    fields = {
        "frames 0": (0, u32(0)),
        "order 33": (4, u32(33)),
        "rate 0": (8, u32(0)),
        "rate 48,001": (8, u32(48_001)),
        "coeff_min NaN": (12, u32(NAN)),
        "coeff_min 17": (12, f32(17)),
        "coeff_range infinite": (16, u32(INFINITY)),
        "coeff_range -17": (16, f32(-17)),
        "codec 2": (20, u32(2)),
    }
    for what, (at, data) in fields.items():
        yield 5, what, changed(voice, b"sts.header", patched(at, data))
    yield 6, "frames beyond the tables", changed(voice, b"sts.header", patched(0, u32(0xFFFFFFFF)))
    yield 6, "rows cut short", changed(voice, b"sts.lpc", lambda data: data[:-1])
    yield 6, "offsets cut short", changed(voice, b"sts.resoffs", lambda data: data[:-1])
    yield 6, "an offset falls", changed(voice, b"sts.resoffs", patched(8, u32(0)))
    yield 6, "the last offset past the residual", changed(voice, b"sts.res", lambda data: data[:-1])
    yield 6, "sizes cut short", voice + section(b"sts.ressize", bytes(95))
    yield 6, "a residual too long", changed(voice, b"sts.res", lambda data: data + bytes(16_777_216 - len(data)))
    entry = b"q-q", 0, 1, 1
    indices = {
        "no index count": b"\0\0\0",
        "empty index": u32(0),
        "cut short": u32(2) + index_bytes([entry])[4:],
        "a name twice": index_bytes([entry, entry]),
        "a name not UTF-8": index_bytes([(b"\xed\xa0\x80", 0, 0, 0)]),
        "an entry past the frames": index_bytes([(b"q-q", 95, 1, 1)]),
    }
    for what, data in indices.items():
        yield 7, what, changed(voice, b"dip.index", lambda _, data=data: data)
    both = changed(voice, b"dip.index", lambda _: u32(0))
    yield 5, "header before index", changed(both, b"sts.header", patched(8, u32(0)))


# ---- sheets


def whole(number):
    return WHOLE, number


def bits(word):
    return FLOAT, word


def typed(text):
    return TEXT, text


def unfit_sheets():
    """(number, what, bytes) of sheets that cannot be read."""
    pair = [Segment(b"pau"), Segment(b"n")]
    yield 8, "empty", b""
    yield 8, "cut short", sheet(pair)[:-1]
    yield 8, "bytes left over", sheet(pair) + b"\0"
    yield 8, "a count not in its shortest form", b"\x80\x00\x00"
    yield 8, "a count of six groups", b"\x80\x80\x80\x80\x80\x01"
    yield 8, "4,097 segments", sheet([Segment(b"n")] * 4097)
    yield 8, "4,097 targets", sheet(pair, [Target()] * 4097)
    yield 8, "a name of 33 bytes", sheet([Segment(b"n" * 33)])
    yield 8, "a blank in a name", sheet([Segment(b"n n")])
    yield 8, "byte 127 in a name", sheet([Segment(b"n\x7f")])
    yield 8, "a value of kind 4", sheet([Segment(b"n", (4, None))])
    yield 8, "a value of kind 255", sheet(pair, [Target(NONE, (255, None))])
    yield 8, "a follower above the count", sheet([Segment(b"n", NONE, 2)])
    yield 9, "a NaN", sheet([Segment(b"n", bits(NAN))])
    yield 9, "infinity", sheet(pair, [Target(bits(INFINITY))])
    yield 9, "a NaN before a follower above the count", sheet([Segment(b"n", bits(NAN), 2)])
    yield 8, "a bad name before a NaN", sheet([Segment(b"n n", bits(NAN))])
    yield 17, "a text of 13 bytes", sheet([Segment(b"n", typed(b"0.2500000000x"))])
    yield 17, "a text of 255 bytes for a place", sheet(pair, [Target(typed(b"5" * 255))])
    yield 17, "a text of 13 bytes for a pitch", sheet(pair, [Target(NONE, typed(b" " * 13))])
    yield 17, "nothing behind its length", b"\1\1n\3\x0d"
    yield 17, "nothing behind a pitch's length", sheet(pair, [Target(NONE, NONE)])[:-1] + b"\3\xff"
    yield 17, "a text too long before a NaN", sheet([Segment(b"n", typed(b"5" * 13), 9), Segment(b"n", bits(NAN))])
    yield 9, "a NaN before a text too long", sheet(pair, [Target(bits(NAN), typed(b"5" * 13))])
    yield 8, "a follower above the count before it", sheet([Segment(b"n", NONE, 9), Segment(b"n", typed(b"5" * 13))])
    yield 8, "no length of a text", b"\1\1n\3"
    yield 8, "a text cut short", b"\1\1n\3\x0c" + b"5" * 11
    yield 8, "bytes left over behind a text", sheet(pair, [Target(NONE, typed(b"5"))]) + b"6"


def unfit_calls():
    """(number, what, bytes) of sheets that can be read, but not spoken with the modified join at 8,000 a second."""
    pair = [Segment(b"pau", real(0.5)), Segment(b"n", real(1))]
    yield 10, "a pitch that leaps", sheet(pair, [Target(real(1e-40), real(1000))])
    yield 11, "a phone too late", sheet([Segment(b"pau"), Segment(b"n", whole(5000))])
    yield 11, "a period too late", sheet(pair, [Target(NONE, real(1e-4)), Target(real(1), real(1e-4))])
    yield 12, "too many periods", sheet(pair, [Target(NONE, real(60_000)), Target(real(2), real(60_000))])


# ---- texts

# The bits of the f32 that a text counts as, of which all is read, by hand.
READ_WHOLE = {
    b"0": 0,
    b"-0": 0x80000000,
    b"-.0": 0x80000000,
    b"-0.0": 0x80000000,
    b"+0": 0,
    b"000000000000": 0,
    b"-.0000000000": 0x80000000,
    b"0.25": 0x3E800000,
    b"-0.25": 0xBE800000,
    b".5": 0x3F000000,
    b"+.5": 0x3F000000,
    b"5.": 0x40A00000,
    b"-5.": 0xC0A00000,
    b"0000000000.5": 0x3F000000,
    b"120": 0x42F00000,
    b"0.1": 0x3DCCCCCD,
    b"16777217": 0x4B800000,  # ties go to the even one
    b"16777219": 0x4B800002,
    b"-16777217": 0xCB800000,
    b"16777217.": 0x4B800000,
    b"16777217.001": 0x4B800001,
    b"16777218.999": 0x4B800001,
    b"8388608.5": 0x4B000000,
    b"8388609.5": 0x4B000002,
    b"4194304.25": 0x4A800000,
    b"2097152.125": 0x4A000000,
    b"1048576.0625": 0x49800000,
    b"1048576.1875": 0x49800002,
    b"524288.03125": 0x49000000,
    b"524288.03126": 0x49000001,
    b"549755846656": 0x53000000,  # 2^39 and half of what the next one is off
    b"549755846657": 0x53000001,
    b"1.0000000596": 0x3F800000,  # just below the middle, and just above
    b"1.0000000597": 0x3F800001,
    b"999999999999": 0x5368D4A5,
    b"-99999999999": 0xD1BA43B7,
    b".00000000001": 0x2D2FEBFF,
    b"-.0000000001": 0xAEDBE6FF,
}
# The same, where some is ignored; without a digit a text is 0.
READ_IN_PART = {
    b"": 0,
    b"-": 0,
    b"+": 0,
    b".": 0,
    b"-.": 0,
    b"+-3": 0,
    b"--3": 0,
    b"-.-3": 0,
    b" 2": 0,
    b"\t2": 0,
    b"\x002": 0,
    b"\xff2": 0,
    b"abc": 0,
    b"inf": 0,
    b"nan": 0,
    b"e5": 0,
    b"..5": 0,
    b"$12": 0,
    b"-x0": 0,
    b"0,25": 0,
    b"0x10": 0,
    b"-0,25": 0x80000000,
    b"-0-1": 0x80000000,
    b"1.5s": 0x3FC00000,
    b"1.5 ": 0x3FC00000,
    b"1.5\n": 0x3FC00000,
    b"1.5\x00.5": 0x3FC00000,
    b"1.5.5": 0x3FC00000,
    b"1..5": 0x3F800000,
    b"1-5": 0x3F800000,
    b"1+5": 0x3F800000,
    b"1e3": 0x3F800000,
    b"1E3": 0x3F800000,
    b"1e-3": 0x3F800000,
    b"1_000": 0x3F800000,
    b"1\xc2\xbd": 0x3F800000,
    b"2\xb2": 0x40000000,
    b"95 Hz": 0x42BE0000,
    b"-7/8": 0xC0E00000,
    b"12:30": 0x41400000,
    "٣".encode(): 0,  # a digit, but none of ASCII
}
TEXTS = READ_WHOLE | READ_IN_PART


def decimal_of(text):
    """Whether a minus counts, and the number behind it as a fraction, as the Rust's parse_leading_f32 reads a text."""
    digits, seen_digit, power = 0, False, None
    for place, byte in enumerate(text):
        if ord("0") <= byte <= ord("9"):
            digits, seen_digit = digits * 10 + byte - ord("0"), True
            power = power if power is None else power + 1
        elif byte == ord(".") and power is None:
            power = 0
        elif place > 0 or byte not in b"+-":
            break
    return seen_digit and text.startswith(b"-"), Fraction(digits, 10 ** (power or 0))


def nearest_bits(text):
    """The bits of the f32 that a text counts as, by whole numbers alone."""
    minus, number = decimal_of(text)
    if number == 0:
        return minus << 31
    power = 0
    while number >= Fraction(2) ** (power + 24):
        power += 1
    while number < Fraction(2) ** (power + 23):
        power -= 1
    count = round(number / Fraction(2) ** power)  # from 2^23 to 2^24; ties go to the even one
    return (minus << 31) + (power + 149 << 23) + count


def ties(draw, count):
    """Texts of up to 12 bytes in the middle between two f32s, or near it."""
    found = []
    while len(found) < count:
        middle = draw.randrange(2**24 + 1, 2**25, 2) * Decimal(2) ** draw.randrange(-5, 15)
        text = draw.choice(["", "", "-", "+"]) + f"{middle:f}"
        last = (int(text[-1]) + draw.choice([0, 0, 1, 9])) % 10
        if len(text) <= formats.LONGEST_TEXT:
            found.append(f"{text[:-1]}{last}".encode())
    return found


def random_text(draw):
    """A number as it may be typed, or any bytes."""
    kind = draw.randrange(4)
    if kind == 0:
        return draw.randbytes(draw.randrange(13))
    letters = b"0123456789" * (1, 3, 6)[kind - 1] + b"..+-" + (b" ,eEx\0\xff\"\\#" if kind == 1 else b"")
    text = bytes(draw.choices(letters, k=draw.randrange(13)))
    return text if kind < 3 else text.replace(b"+", b"").replace(b"-", b"")


# ---- pairs


def few_names():
    """Document 01's example with other names in its index."""
    names = b"n_-_z", b"z-n", b"n-aa", b"-"
    index = index_bytes([(name, 0, 1, 1) for name in names])
    return changed((EXAMPLES / "example.flv").read_bytes(), b"dip.index", lambda _: index)


def lacking_pairs():
    """(segments, fold, lacking) of sheets for this voice: lacking has the number of each pair that finds no name, and
    the names that it tries."""
    yield [], False, {}
    yield [Segment(b"q")], False, {}
    yield [Segment(b""), Segment(b"")], False, {}
    yield [Segment(b"n", NONE, 2), Segment(b"z")], False, {}
    yield [Segment(b"n"), Segment(b"z")], False, {1: ["n-z"]}  # no follower
    yield [Segment(b"n", NONE, 3), Segment(b"z"), Segment(b"aa")], False, {1: ["n-z"], 2: ["z-aa"]}  # a vowel follows
    yield [Segment(b"n", NONE, 2), Segment(b"q")], False, {1: ["n-q"]}  # an unknown phone follows
    yield [Segment(b"n", NONE, 1), Segment(b"z", NONE, 1), Segment(b"n")], False, {}  # z_-_n is not there, z-n is
    yield [Segment(b"z", NONE, 1), Segment(b"z", NONE, 1), Segment(b"n")], False, {1: ["z_-_z", "z-z"]}
    yield [Segment(b"q", NONE, 2), Segment(b"n")], False, {1: ["q_-_n", "q-n"]}  # an unknown phone is no vowel
    yield [Segment(b"aa", NONE, 2), Segment(b"z")], False, {1: ["aa-z"]}
    yield [Segment(b"n"), Segment(b"ah")], False, {1: ["n-ah"]}
    yield [Segment(b"n"), Segment(b"ah")], True, {}
    yield [Segment(b"ah"), Segment(b"n")], True, {1: ["aa-n"]}
    longest = b"z" * 32, b"n" * 32
    yield [Segment(longest[0], NONE, 2), Segment(longest[1])], False, {1: [b"-".join(longest).decode()]}
    yield [Segment(longest[0], NONE, 3), Segment(longest[1]), Segment(b"n")], False, {
        1: [b"_-_".join(longest).decode(), b"-".join(longest).decode()],
        2: [longest[1].decode() + "-n"],
    }
    yield [Segment(b"z")] * 9, False, {number: ["z-z"] for number in range(1, 9)}
