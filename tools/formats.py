"""Voice files and call sheets: reads and writes them, for the tools and the tests. docs/FORMATS.md tells the formats.

A writer takes what it is given, fit or not, so that tests can write unfit files; a reader raises Refused with the
engine's number. Names are bytes. A sheet's value is (WHOLE, number), (FLOAT, bits), (ABSENT, None) or (TEXT, bytes).
"""
import math
import re
import struct
from decimal import Decimal
from typing import NamedTuple


class Refused(Exception):
    """What the engine would refuse: its number, the reason, and the byte of the file where that is known."""

    def __init__(self, number, reason, place=None):
        where = "" if place is None else f" at byte {place}"
        super().__init__(f"refused {number}{where}: {reason}")
        self.number, self.reason, self.place = number, reason, place


class Cursor:
    """A place in bytes, up to an end. What cannot be read is refused with the given number."""

    def __init__(self, data, number, what, at=0, end=None):
        self.data, self.refusal, self.what, self.at = data, number, what, at
        self.end = len(data) if end is None else end

    def refuse(self, reason, place, number=None):
        return Refused(number or self.refusal, reason, place)

    def take(self, count):
        if count > self.end - self.at:
            raise self.refuse(f"{self.what} is cut short", self.at)
        self.at += count
        return self.data[self.at - count : self.at]

    def u32(self):
        return struct.unpack("<I", self.take(4))[0]

    def name(self):
        """A name after a byte for its length; it must be UTF-8."""
        start = self.at
        name = self.take(self.take(1)[0])
        if not is_utf8(name):
            raise self.refuse(f"{self.what} has a name that is not UTF-8", start)
        return name


# ---- numbers


def u32(number):
    return struct.pack("<I", number)


def f32(number):
    return struct.pack("<f", number)


def f32_from_bits(bits):
    return struct.unpack("<f", u32(bits))[0]


def f32_bits(text):
    """The bits of the f32 nearest to a decimal, ties to the even one. Raises OverflowError where it is too large."""
    near = float(text)
    exact = Decimal(text)
    if math.isfinite(near) and Decimal(near) != exact:
        near = odd_neighbour(near, exact)
    return struct.unpack("<I", f32(near))[0]


def odd_neighbour(near, exact):
    """Of the two doubles around `exact`, of which `near` is one, that with an odd last bit: rounding it once more
    then gives what rounding `exact` at once would give."""
    if struct.unpack("<Q", struct.pack("<d", near))[0] % 2:
        return near
    return math.nextafter(near, math.inf if exact > Decimal(near) else -math.inf)


def is_utf8(data):
    try:
        data.decode("utf-8")
    except UnicodeDecodeError:
        return False
    return True


# ---- voice files

MAGIC = b"FLRSDAT\x01"
MULAW, G721 = 0, 1
HEADER = struct.Struct("<IIIffIfffI")
ENTRY = struct.Struct("<HBB")


class Header(NamedTuple):
    """The fields of sts.header in order."""

    frames: int = 0
    order: int = 0
    rate: int = 8000
    coeff_min: float = 0
    coeff_range: float = 0
    codec: int = MULAW
    stretch: float = 0
    f0_mean: float = 0
    f0_deviation: float = 0
    fold: int = 0


class Section(NamedTuple):
    """A section: its name, the byte of the file where its data begins, its data."""

    name: bytes
    place: int
    data: bytes


def sections_of(voice):
    """The sections in file order, one by one; 1 and 2 are the refusals."""
    if not voice.startswith(MAGIC):
        raise Refused(1, "the first 8 bytes are not FLRSDAT and 0x01")
    cursor = Cursor(voice, 2, "a section", len(MAGIC))
    while cursor.at < cursor.end:
        name = cursor.name()
        length = cursor.u32()
        yield Section(name, cursor.at, cursor.take(length))


def header_of(section):
    """The header that a section sts.header holds; 5 if it is cut short."""
    if len(section.data) < HEADER.size:
        raise Refused(5, f"the header has {len(section.data)} bytes, not {HEADER.size}", section.place)
    return Header(*HEADER.unpack_from(section.data))


def entries_of(voice, section):
    """The entries of a voice's section dip.index, one by one: name, start and two halves; 7 is the refusal."""
    cursor = Cursor(voice, 7, "the index", section.place, section.place + len(section.data))
    for _ in range(cursor.u32()):
        name = cursor.name()
        yield (name, *ENTRY.unpack(cursor.take(ENTRY.size)))


def section_bytes(name, data):
    return bytes([len(name)]) + name + u32(len(data)) + data


def voice_of(sections):
    """A voice file of (name, data)."""
    return MAGIC + b"".join(section_bytes(name, data) for name, data in sections)


def index_bytes(entries):
    """A section dip.index of (name, start, first half, second half)."""
    parts = [bytes([len(name)]) + name + ENTRY.pack(*place) for name, *place in entries]
    return u32(len(parts)) + b"".join(parts)


def voice_file(header, rows, residuals, entries, backend=None, sizes=None):
    """A voice file of as many frames as there are rows (lists of q) and residuals; sizes are sts.ressize's bytes."""
    offsets = [0]
    for residual in residuals:
        offsets.append(offsets[-1] + len(residual))
    sections = [
        (b"voice.backend", backend),
        (b"sts.header", HEADER.pack(*header._replace(frames=len(rows)))),
        (b"sts.lpc", b"".join(struct.pack(f"<{len(row)}H", *row) for row in rows)),
        (b"sts.resoffs", struct.pack(f"<{len(offsets)}I", *offsets)),
        (b"sts.res", b"".join(residuals)),
        (b"dip.index", index_bytes(entries)),
        (b"sts.ressize", None if sizes is None else bytes(sizes)),
    ]
    return voice_of([(name, data) for name, data in sections if data is not None])


# ---- voices that open

NEEDED = [b"sts.header", b"sts.lpc", b"sts.resoffs", b"sts.res", b"dip.index"]
LARGEST_RESIDUAL = 16_777_215
# Unicode's white space, which Rust's str::trim takes off; Python's strip takes more.
WHITE_SPACE = "\t\n\v\f\r \x85\xa0\u1680\u2028\u2029\u202f\u205f\u3000" + "".join(map(chr, range(0x2000, 0x200B)))


class Voice:
    """A voice file. `open` makes the engine's checks; where one refuses, what was read before it stands here."""

    def __init__(self, data):
        self.data = data
        self.listed = []  # every section, in file order
        self.sections = {}  # the first of each name
        self.header = None
        self.stored = None  # how many bytes each period has
        self.sizes = None  # how many samples
        self.entries = None  # of each name its start and two halves, in name order

    def open(self):
        for section in sections_of(self.data):
            self.listed.append(section)
            self.sections.setdefault(section.name, section)
        check_sections(self.sections)
        self.header = header_of(self.sections[b"sts.header"])
        check_header(self.header)
        offsets = read_offsets(self.header, self.sections)
        self.stored = [end - start for start, end in zip(offsets, offsets[1:])]
        sizes = self.sections.get(b"sts.ressize")
        self.sizes = self.stored if sizes is None else list(sizes.data[: self.header.frames])
        self.entries = read_index(self.header, self.data, self.sections[b"dip.index"])


def open_voice(data):
    """A voice that opens; 1 to 7 are the refusals."""
    voice = Voice(data)
    voice.open()
    return voice


def shown_text(name):
    """Any name for a terminal: as it is, or in quotes with escapes."""
    text = name.decode("utf-8") if isinstance(name, bytes) else name
    return text if text and text.isascii() and text.isprintable() else ascii(text)


def check_backend(data):
    try:
        name = data.decode("utf-8").strip(WHITE_SPACE)
    except UnicodeDecodeError:
        raise Refused(3, "the back end's name is not UTF-8") from None
    if name != "diphone":
        raise Refused(3, f"the back end is {shown_text(name)}, not diphone")


def check_sections(sections):
    if b"voice.backend" in sections:
        check_backend(sections[b"voice.backend"].data)
    missing = [name.decode() for name in NEEDED if name not in sections]
    if missing:
        raise Refused(4, f"missing: {', '.join(missing)}")


def check_header(header):
    limits = {
        "frames": (1, math.inf),
        "order": (0, 32),
        "rate": (1, 48_000),
        "coeff_min": (-16, 16),
        "coeff_range": (-16, 16),
        "codec": (0, 1),
    }
    for name, (least, most) in limits.items():
        value = getattr(header, name)
        if not least <= value <= most:
            raise Refused(5, f"{name} {value} is not from {least} to {most}")


def read_offsets(header, sections):
    """The offsets of the periods, in tables that fit each other; 6 is the refusal."""
    frames, order = header.frames, header.order
    residual = len(sections[b"sts.res"].data)
    if residual > LARGEST_RESIDUAL:
        raise Refused(6, f"sts.res has more than {LARGEST_RESIDUAL} bytes")
    needs = {b"sts.lpc": frames * order * 2, b"sts.ressize": frames, b"sts.resoffs": (frames + 1) * 4}
    for name, least in needs.items():
        if name in sections and len(sections[name].data) < least:
            raise Refused(6, f"{name.decode()} has {len(sections[name].data)} bytes, not {least}")
    offsets = struct.unpack_from(f"<{frames + 1}I", sections[b"sts.resoffs"].data)
    falling = next((frame for frame in range(frames) if offsets[frame] > offsets[frame + 1]), None)
    if falling is not None:
        raise Refused(6, f"the offset after period {falling} falls from {offsets[falling]} to {offsets[falling + 1]}")
    if offsets[frames] > residual:
        raise Refused(6, f"the last offset {offsets[frames]} is past the residual's {residual} bytes")
    return offsets


def read_index(header, voice, section):
    """Of each name its start and two halves, in name order; 7 is the refusal."""
    entries = {}
    for name, start, first, second in entries_of(voice, section):
        if start + first + second > header.frames:
            raise Refused(7, f"entry {shown_text(name)} ends at period {start + first + second}, past the frames")
        if name in entries:
            raise Refused(7, f"{shown_text(name)} stands twice")
        entries[name] = start, first, second
    if not entries:
        raise Refused(7, "the index is empty")
    return dict(sorted(entries.items()))


# ---- call sheets

MOST = 4096  # segments, and targets
LONGEST_NAME = 32
LONGEST_TEXT = 12
WHOLE, FLOAT, ABSENT, TEXT = 0, 1, 2, 3
NONE = ABSENT, None  # the absent value


def real(number):
    """A value: the f32 nearest to a number that a float holds."""
    return FLOAT, struct.unpack("<I", f32(number))[0]


def counted_part(text):
    """The part of a text that counts, a decimal: a sign in front, digits and one point, up to anything else. Without a
    digit it is 0."""
    front = re.match(rb"[+-]?[0-9]*\.?[0-9]*", text)[0].decode()
    return front if front.strip("+-.") else "0"


def is_odd(value):
    """Whether a value is a text that is not read to its end or has no digit."""
    kind, text = value
    return kind == TEXT and counted_part(text).encode() != text


def number_of(value):
    """A value as a number; a whole one and a text are rounded to f32. An absent end or pos is 0; of f0s see
    f0s_counted."""
    kind, word = value
    if kind == ABSENT:
        return 0.0
    if kind == TEXT:
        return f32_from_bits(f32_bits(counted_part(word)))
    return f32_from_bits(word) if kind == FLOAT else struct.unpack("<f", f32(word))[0]


FIRST_F0 = 120.0  # in Hz: the pitch before any target's


def f0s_counted(targets):
    """The pitch of each target as it counts: where the f0 is absent, that of the target before it goes on, 120 for the
    first."""
    counted, f0 = [], FIRST_F0
    for _, value in targets:
        if value != NONE:
            f0 = number_of(value)
        counted.append(f0)
    return counted


EMPTY_NAME = "\\0"


def shown_name(name):
    """A phone's name as one word: a backslash is doubled, the empty name is \\0."""
    return name.decode("ascii").replace("\\", "\\\\") or EMPTY_NAME


class Segment(NamedTuple):
    """A segment; the follower counts from 1, 0 is none."""

    name: bytes
    end: tuple = NONE
    follower: int = 0


class Target(NamedTuple):
    pos: tuple = NONE
    f0: tuple = NONE


class SheetReader(Cursor):
    """A place in a sheet. What cannot be read is 8, a float that is not finite 9, a text too long 17."""

    def __init__(self, sheet):
        super().__init__(sheet, 8, "the sheet")

    def number(self, most, what):
        start, value = self.at, 0
        for place in range(5):
            byte = self.take(1)[0]
            value += byte % 128 << 7 * place
            if byte < 128:
                if byte == 0 and place > 0:
                    raise self.refuse(f"{what} is not in its shortest form", start)
                if value > most:
                    raise self.refuse(f"{what} {value} is above {most}", start)
                return value
        raise self.refuse(f"{what} has more than five groups", start)

    def phone(self):
        length = self.number(LONGEST_NAME, "a name's length")
        start, name = self.at, self.take(length)
        for place, byte in enumerate(name, start):
            if not 33 <= byte <= 126:
                raise self.refuse(f"a name has the byte {byte}, which is outside 33 to 126", place)
        return name

    def value(self):
        start, kind = self.at, self.take(1)[0]
        if kind == ABSENT:
            return NONE
        if kind == TEXT:
            return kind, self.text(start)
        if kind not in (WHOLE, FLOAT):
            raise self.refuse(f"a value of kind {kind}", start)
        word = struct.unpack("<i" if kind == WHOLE else "<I", self.take(4))[0]
        if kind == FLOAT and not math.isfinite(f32_from_bits(word)):
            raise self.refuse("a float that is not finite", start, 9)
        return kind, word

    def text(self, start):
        length = self.take(1)[0]
        if length > LONGEST_TEXT:
            raise self.refuse(f"a text of {length} bytes, {LONGEST_TEXT} is the most", start, 17)
        return self.take(length)


def read_sheet(sheet):
    """The segments and the targets of a sheet."""
    reader = SheetReader(sheet)
    count = reader.number(MOST, "the segment count")
    segments = [Segment(reader.phone(), reader.value(), reader.number(count, "a follower")) for _ in range(count)]
    targets = [Target(reader.value(), reader.value()) for _ in range(reader.number(MOST, "the target count"))]
    if reader.at < reader.end:
        raise reader.refuse("bytes are left over", reader.at)
    return segments, targets


def groups(number):
    """A number as groups of seven bits, lowest first, in the shortest form."""
    out = bytearray()
    while number >= 128:
        out.append(number % 128 + 128)
        number //= 128
    out.append(number)
    return bytes(out)


def value_bytes(value):
    kind, word = value
    if word is None:
        return bytes([kind])
    if kind == TEXT:
        return bytes([kind, len(word)]) + word
    return bytes([kind]) + struct.pack("<i" if kind == WHOLE else "<I", word)


def sheet_bytes(segments, targets=()):
    out = [groups(len(segments))]
    for name, end, follower in segments:
        out += [groups(len(name)), name, value_bytes(end), groups(follower)]
    out.append(groups(len(targets)))
    for pos, f0 in targets:
        out += [value_bytes(pos), value_bytes(f0)]
    return b"".join(out)


# ---- pairs

VOWELS = b"aa ae ah ao aw ax axr ay eh el em en er ey ih iy ow oy uh uw".split()
CONSONANTS = b"b ch d dh dx f g hh hv jh k l m n nx ng p r s sh t th v w y z zh pau h# brth".split()


def names_tried(segments, place, fold):
    """The names that a pair tries: `left_-_right` where the left phone is no vowel and its follower a consonant, then
    `left-right`; with fold `ah` counts as `aa`."""
    folded = lambda segment: b"aa" if fold and segment.name == b"ah" else segment.name
    left, right = folded(segments[place]), folded(segments[place + 1])
    follower = segments[place].follower
    if left not in VOWELS and follower and folded(segments[follower - 1]) in CONSONANTS:
        yield left + b"_-_" + right
    yield left + b"-" + right


def found_name(entries, segments, place, fold):
    """The name among these that the pair of a segment, by its place from 0, and the next one finds, or None."""
    return next((name for name in names_tried(segments, place, fold) if name in entries), None)
