"""Tests of tools/formats.py, sheet, voice-info, draw, draw-crates, draw-mu-law, believed, constants, make-example,
make-edges, and of what try-definitions hands to rt."""
import collections
import contextlib
import importlib.machinery
import importlib.util
import io
import itertools
import math
import random
import re
import struct
import subprocess
import sys
import tempfile
import unittest
from pathlib import Path
from unittest import mock
from xml.etree import ElementTree

import cases
from cases import EXAMPLES, NONE, REPO, Segment, Target, bits, formats, sheet, typed, whole

DOCUMENT_TEXT = """\
# segment NAME END FOLLOWER
segment pau  -            -
segment aa   -            -
# target POS F0
"""
PITCHES_TEXT = """\
# segment NAME END FOLLOWER
segment #    -            -
# target POS F0
target -            -            # 120 Hz to begin with
target int 1        -            # 120 Hz goes on
target int 2        int 95
target float 2.5    -            # 95 Hz goes on
target int 3        int 0
target int 4        -            # 0 Hz goes on
target int 5        -            # 0 Hz goes on
target int 6        int 16777217
target int 7        -            # 16777216 Hz goes on
target int 8        float 0.1
target float 0.33333334 -        # 0.1 Hz goes on
"""
TYPED_TEXT = """\
# segment NAME END FOLLOWER
segment pau  "0.25"       2
segment "    "0,25"       -
        # END counts as 0
segment n    ""           -
        # END counts as 0
segment \\\\"x "-"          3
        # END counts as 0
# target POS F0
target "0.1"        "120"
target " 2"         "95 Hz"      # POS counts as 0; F0 counts as 95
target "1.50s"      -            # POS counts as 1.50; 95 Hz goes on
target -            "\\"\\\\\\x00\\xff#" # F0 counts as 0
target int 3        -            # 0 Hz goes on
target "+.5"        float 0.5
"""


def loaded(name):
    """A tool as a module."""
    loader = importlib.machinery.SourceFileLoader(name.replace("-", "_"), str(REPO / "tools" / name))
    module = importlib.util.module_from_spec(importlib.util.spec_from_loader(loader.name, loader))
    loader.exec_module(module)
    return module


NAMES = ("sheet", "voice-info", "draw", "draw-crates", "draw-mu-law", "believed", "constants", "try-definitions")
TOOLS = {name: loaded(name) for name in NAMES}


def run(tool, *words):
    """A tool's exit status, standard output and standard error, run in this process."""
    out, err = io.StringIO(), io.StringIO()
    with contextlib.redirect_stdout(out), contextlib.redirect_stderr(err):
        status = TOOLS[tool].main(list(words))
    return status, out.getvalue(), err.getvalue()


def run_alone(tool, *words, given=b"", **more):
    """The same, run as a program."""
    command = [sys.executable, "-B", REPO / "tools" / tool, *words]
    done = subprocess.run(command, input=given, stdout=subprocess.PIPE, stderr=subprocess.PIPE, check=False, **more)
    return done.returncode, done.stdout, done.stderr.decode()


def turned(command, data):
    """What tools/sheet makes of bytes: exit status, bytes, standard error."""
    with tempfile.TemporaryDirectory() as folder:
        source, target = Path(folder) / "in", Path(folder) / "out"
        source.write_bytes(data)
        status, _, message = run("sheet", command, str(source), str(target))
        return status, target.read_bytes() if target.exists() else b"", message


def encode(text):
    return turned("encode", text if isinstance(text, bytes) else text.encode())


def decode(data):
    return turned("decode", data)


def finite(word):
    return word & 0x7F800000 != 0x7F800000


EDGES = [0, 1, 0x7FFFFF, 0x800000, 0x7F7FFFFF, 0x3F7FFFFF, 0x3F800000, 0x3F800001, 0x3DCCCCCD, 0x4B800000, 0x4B800001]
FLOATS = EDGES + [word | 0x80000000 for word in EDGES]


def random_value(draw):
    kind = draw.randrange(5)
    if kind == 0:
        return whole(draw.choice([0, -1, 2**31 - 1, -(2**31), draw.randrange(-1000, 1000)]))
    if kind == 1:
        return NONE
    if kind == 4:
        return typed(cases.random_text(draw))
    word = draw.choice(FLOATS) if kind == 2 else draw.getrandbits(32)
    return bits(word if finite(word) else word & 0x807FFFFF)


def random_sheet(draw, segments, targets):
    letters = bytes(range(33, 127))
    names = [bytes(draw.choices(letters, k=draw.randrange(33))) for _ in range(segments)]
    names[:5] = [b"", b"\\", b"\\0", b"#", b"-"][: len(names)]
    parts = [Segment(name, random_value(draw), draw.randrange(segments + 1)) for name in names]
    return sheet(parts, [Target(random_value(draw), random_value(draw)) for _ in range(targets)])


# The f0s of targets, and as they count.
PITCHES = [
    ([], []),
    ([NONE], [120]),
    ([NONE, NONE, NONE], [120, 120, 120]),
    ([NONE, whole(95), NONE], [120, 95, 95]),
    ([whole(95), NONE, NONE, whole(80), NONE], [95, 95, 95, 80, 80]),
    ([formats.real(99.5), NONE, NONE], [99.5, 99.5, 99.5]),
    ([whole(0), NONE, whole(95)], [0, 0, 95]),
    ([formats.real(0), NONE], [0, 0]),
    ([whole(95), whole(0), NONE, NONE], [95, 0, 0, 0]),
    ([whole(-3), NONE], [-3, -3]),
    ([whole(16777217), NONE], [16777216, 16777216]),  # the nearest f32 goes on
    ([bits(1), NONE], [2**-149, 2**-149]),
    ([typed(b"95"), NONE, typed(b"80.5 Hz"), NONE], [95, 95, 80.5, 80.5]),
    ([whole(95), typed(b""), NONE, typed(b"x"), NONE], [95, 0, 0, 0, 0]),  # without a digit it is a written 0
    ([typed(b"16777217"), NONE], [16777216, 16777216]),
]


class Formats(unittest.TestCase):
    """What is written, byte by byte, by hand; the reader is held to the writer by the round trips."""

    def test_groups(self):
        numbers = {0: b"\0", 127: b"\x7f", 128: b"\x80\1", 4096: b"\x80\x20", 2**35 - 1: b"\xff" * 4 + b"\x7f"}
        for number, data in numbers.items():
            self.assertEqual(formats.groups(number), data)

    def test_sheet(self):
        segments = [Segment(b"pau", whole(-2), 2), Segment(b"", formats.real(0.5))]
        data = b"\2\3pau\0\xfe\xff\xff\xff\2\0\1\0\0\0\x3f\0\1\2\0\5\0\0\0"
        self.assertEqual(sheet(segments, [Target(NONE, whole(5))]), data)
        self.assertEqual(formats.read_sheet(data), (segments, [Target(NONE, whole(5))]))

    def test_voice(self):
        header = formats.Header(order=1, rate=256, coeff_min=0.5, codec=1, fold=3)
        voice = formats.voice_file(header, [[258]], [b"ab"], [(b"a-b", 513, 3, 4)], b"diphone", [9])
        sections = [
            b"\x0dvoice.backend\7\0\0\0diphone",
            b"\x0asts.header\x28\0\0\0" + b"\1\0\0\0" * 2 + b"\0\1\0\0\0\0\0\x3f" + bytes(4),
            b"\1\0\0\0" + bytes(12) + b"\3\0\0\0",
            b"\7sts.lpc\2\0\0\0\2\1",
            b"\x0bsts.resoffs\x08\0\0\0\0\0\0\0\2\0\0\0",
            b"\7sts.res\2\0\0\0ab",
            b"\x09dip.index\x0c\0\0\0\1\0\0\0\3a-b\1\2\3\4",
            b"\x0bsts.ressize\1\0\0\0\x09",
        ]
        self.assertEqual(voice, b"FLRSDAT\x01" + b"".join(sections))
        found = {section.name: section for section in formats.sections_of(voice)}
        self.assertEqual(formats.header_of(found[b"sts.header"]), header._replace(frames=1))
        self.assertEqual(list(formats.entries_of(voice, found[b"dip.index"])), [(b"a-b", 513, 3, 4)])

    def test_names(self):
        names = {b"pau": "pau", b"": "\\0", b"\\0": "\\\\0", b"a\\": "a\\\\"}
        for name, shown in names.items():
            self.assertEqual(formats.shown_name(name), shown)

    def test_numbers(self):
        values = {whole(16777217): 16777216.0, NONE: 0.0, formats.real(0.1): 0.10000000149011612}
        for value, number in values.items():
            self.assertEqual(formats.number_of(value), number)

    def test_pitches(self):
        """Where there is none the last one goes on, 120 Hz at first; a written 0 is one."""
        for f0s, counted in PITCHES:
            for pos in (NONE, whole(1), formats.real(-0.5)):
                self.assertEqual(formats.f0s_counted([Target(pos, f0) for f0 in f0s]), counted, f0s)
        minus = formats.f0s_counted([Target(NONE, bits(0x80000000)), Target()])
        self.assertEqual([math.copysign(1, f0) for f0 in minus], [-1, -1])

    def assert_counts(self, text, word):
        """By its bits, so that minus zero is told from zero."""
        self.assertEqual(struct.unpack("<I", struct.pack("<f", formats.number_of(typed(text))))[0], word, text)

    def test_texts(self):
        """The f32 nearest to the exact decimal, ties to the even one, of what counts; all twelve bytes of any kind."""
        for text, word in cases.TEXTS.items():
            self.assert_counts(text, word)
            self.assertEqual(cases.nearest_bits(text), word, text)
            self.assertEqual(formats.is_odd(typed(text)), text in cases.READ_IN_PART, text)
        draw = random.Random(9)
        texts = cases.ties(draw, 3000) + [cases.random_text(draw) for _ in range(6000)]
        for text in texts + [bytes([byte]) + more for byte in range(256) for more in (b"", b"5", b".5", b"0")]:
            self.assert_counts(text, cases.nearest_bits(text))
        self.assertFalse(any(map(formats.is_odd, (NONE, whole(5), formats.real(0.5)))))

    def test_texts_written(self):
        """A length byte and the bytes, of a segment's end, a target's place and its pitch."""
        segments, targets = [Segment(b"n", typed(b"0.25"), 1)], [Target(typed(b""), typed(b"\0\xff#"))]
        data = b"\1\1n\3\x040.25\1\1\3\0\3\3\0\xff#"
        self.assertEqual(sheet(segments, targets), data)
        self.assertEqual(formats.read_sheet(data), (segments, targets))
        longest = sheet([Segment(b"n", typed(b"5" * 12))])
        self.assertEqual(formats.read_sheet(longest)[0][0].end, typed(b"5" * 12))

    def test_text_too_long(self):
        """At the byte where the value begins, whatever follows its length."""
        for tail in (b"", b"5" * 13, b"\0" * 300):
            for length in (13, 128, 255):
                with self.assertRaises(formats.Refused) as caught:
                    formats.read_sheet(b"\1\1n\3" + bytes([length]) + tail)
                reason = f"refused 17 at byte 3: a text of {length} bytes, 12 is the most"
                self.assertEqual((str(caught.exception), caught.exception.number), (reason, 17))


class Sheet(unittest.TestCase):
    def test_document(self):
        data = (EXAMPLES / "example.sht").read_bytes()
        self.assertEqual(decode(data), (0, DOCUMENT_TEXT.encode(), ""))
        self.assertEqual(encode(DOCUMENT_TEXT), (0, data, ""))

    def test_round_trip(self):
        draw = random.Random(1)
        for segments, targets in [(0, 0), (0, 3), (5, 0), (127, 128), (200, 300), (4096, 4096)]:
            data = random_sheet(draw, segments, targets)
            status, text, _ = decode(data)
            self.assertEqual(status, 0)
            self.assertEqual(encode(text), (0, data, ""))

    def test_floats(self):
        words = {
            "0.1": 0x3DCCCCCD,
            "-0": 0x80000000,
            ".5": 0x3F000000,
            "25e-2": 0x3E800000,
            "0x00000001": 1,
            "16777217": 0x4B800000,  # ties go to the even one
            "16777219": 0x4B800002,
            "16777217.0000000000001": 0x4B800001,
            "1.000000059604644775390625": 0x3F800000,  # a tie that a double can hold
            "1.000000059604644775390626": 0x3F800001,  # above it, by less than a double can tell
            "1.000000178813934326171874": 0x3F800001,
            "1e-999": 0,
            "340282356779733661637539395458142568448": None,  # halfway to what would follow the largest
            "340282356779733661637539395458142568447": 0x7F7FFFFF,
            "1e999": None,
            "0x7f800000": None,
            "nan": None,
            "1_0": None,
            "0x3e80000": None,
        }
        for text, word in words.items():
            status, data, _ = encode(f"target float {text} -")
            expected = (1, b"") if word is None else (0, sheet([], [Target(bits(word))]))
            self.assertEqual((status, data), expected, text)

    def test_shortest(self):
        words = {0x3DCCCCCD: "0.1", 0x42F00000: "120", 1: "1e-45", 0x80000000: "-0", 0x3EAAAAAB: "0.33333334"}
        text = decode(sheet([], [Target(bits(word), whole(5)) for word in words]))[1].decode()
        lines = [f"target {'float ' + word:<12} int 5" for word in words.values()]
        self.assertEqual(text.splitlines()[2:], lines)

    def test_pitches(self):
        """Behind an absent one a comment tells which goes on; what is written has none."""
        targets = [Target(), Target(whole(1)), Target(whole(2), whole(95)), Target(formats.real(2.5))]
        targets += [Target(whole(3), whole(0)), Target(whole(4)), Target(whole(5)), Target(whole(6), whole(16777217))]
        targets += [Target(whole(7)), Target(whole(8), formats.real(0.1)), Target(formats.real(1 / 3))]
        data = sheet([Segment(b"#")], targets)
        self.assertEqual(decode(data), (0, PITCHES_TEXT.encode(), ""))
        self.assertEqual(encode(PITCHES_TEXT), (0, data, ""))
        bare = re.sub(" *# [-0-9.]+ Hz .*", "", PITCHES_TEXT)
        self.assertNotIn("Hz", bare)
        self.assertEqual(encode(bare), (0, data, ""))
        for f0s, counted in PITCHES:
            lines = decode(sheet([], [Target(NONE, f0) for f0 in f0s]))[1].decode().splitlines()[2:]
            told = re.findall(r"# (\S+) Hz (?:goes on|to begin with)$", "\n".join(lines), re.MULTILINE)
            told = [formats.number_of(formats.real(float(pitch))) for pitch in told]
            self.assertEqual(told, [number for f0, number in zip(f0s, counted) if f0 == NONE])

    def test_comments(self):
        """Behind a target: from a word that begins with # on. A segment has none, as its name may begin so."""
        data = sheet([], [Target(whole(1), whole(95)), Target()])
        for lines in ("target int 1 int 95 # - -\ntarget - - #", "target int 1 int 95 #-\r\n target - - ## int 5 \n#\n"):
            self.assertEqual(encode(lines), (0, data, ""))
        self.assertEqual(encode("segment # - -\nsegment #a - -"), (0, sheet([Segment(b"#"), Segment(b"#a")]), ""))
        for line, why in {
            "target - # -": "the f0 (- where the last pitch goes on) is missing",
            "target int 1": "the f0 (- where the last pitch goes on) is missing",
            "target # - -": "the pos is missing",
            "target int # 5 -": "the pos is missing",
            "target - -# x": '-# is no value: int N, float X, "TEXT" or -',
            "target - - x # y": "x is one word too many",
            "segment n - - # x": "# is one word too many; a comment stands in a line of its own, or behind a target",
            "segment n - # x": "# is no follower: a whole number from 0 to 4096",
            "segment n # x": '# is no value: int N, float X, "TEXT" or -',
        }.items():
            status, data, message = encode(line)
            self.assertEqual((status, data), (1, b""), line)
            self.assertIn(f": line 1: {why}\n", message)

    def test_texts(self):
        """In quotes; what one counts as that is not read to its end or has no digit stands in a comment."""
        segments = [Segment(b"pau", typed(b"0.25"), 2), Segment(b'"', typed(b"0,25")), Segment(b"n", typed(b""))]
        segments.append(Segment(b'\\"x', typed(b"-"), 3))
        targets = [Target(typed(b"0.1"), typed(b"120")), Target(typed(b" 2"), typed(b"95 Hz")), Target(typed(b"1.50s"))]
        targets += [Target(NONE, typed(b'"\\\0\xff#')), Target(whole(3)), Target(typed(b"+.5"), formats.real(0.5))]
        data = sheet(segments, targets)
        self.assertEqual(decode(data), (0, TYPED_TEXT.encode(), ""))
        self.assertEqual(encode(TYPED_TEXT), (0, data, ""))
        self.assertEqual(encode(re.sub(" *# [A-Z0-9]+ (counts|Hz) .*", "", TYPED_TEXT)), (0, data, ""))

    def test_any_bytes(self):
        """Each byte alone and among others, and every length, there and back."""
        texts = [bytes([byte]) for byte in range(256)] + [b"1" + bytes([byte, byte]) + b"2" for byte in range(256)]
        texts += [b"\\" * length for length in range(13)] + [b'"' * length for length in range(13)]
        texts += [b'\\"', b'"\\', b"\\x41", b'" # "', b"# ", b" - ", b"\r\n", b"\xc2\xa0", b"int 5", b'"5"', b" " * 12]
        targets = [Target(typed(pos), typed(f0)) for pos in texts[-7:] for f0 in texts]
        data = sheet([Segment(b'"', typed(text)) for text in texts], targets)
        status, text, message = decode(data)
        self.assertEqual((status, message), (0, ""))
        self.assertTrue(all(32 <= byte <= 126 or byte == 10 for byte in text))
        self.assertEqual(encode(text), (0, data, ""))

    def test_quotes(self):
        """Where a value is expected a quote begins a text, and nowhere else."""
        for line, value in {
            'target "0.25" -': b"0.25",
            ' target   "0.25"\t-\r': b"0.25",
            'target "" -': b"",
            'target " 0.25 " - # a "comment': b" 0.25 ",
            'target "# 5" -': b"# 5",
            'target "- -" - # "': b"- -",
            'target "a\\"b" -': b'a"b',
            'target "\\\\" -': b"\\",
            'target "\\\\\\"" -': b'\\"',
            'target "\\x00\\xfF\\x41" -': b"\0\xffA",
            'target "123456789012" -': b"123456789012",
            'target "\\xe2\\x82\\xac\\x30\\x30\\x30\\x30\\x30\\x30\\x30\\x30\\x30" -': "€".encode() + b"0" * 9,
        }.items():
            self.assertEqual(encode(line), (0, sheet([], [Target(typed(value))]), ""), line)
        names = [Segment(b'"a"', typed(b"1")), Segment(b'"', NONE, 2), Segment(b'a"', whole(5))]
        text = 'segment "a" "1" -\nsegment " - 2\nsegment a" int 5 -\n'
        self.assertEqual(encode(text), (0, sheet(names), ""))

    def test_unfit_quotes(self):
        """A line of reason each."""
        ascii_alone = "has more than printing ASCII and blanks: other bytes are written \\xNN"
        too_long = "is a text of 13 bytes, 12 is the most (it would be refused 17)"
        for line, why in {
            'target "0.25 -': '"0.25 - has no closing quote',
            'target "0.25\\" -': '"0.25\\" - has no closing quote',
            'target - "': '" has no closing quote',
            'target "0.25" "5': '"5 has no closing quote',
            'target "0.25"x -': '"0.25"x -: no blank behind the closing quote',
            'target "0.25"# -': '"0.25"# -: no blank behind the closing quote',
            'target "1""2"': '"1""2": no blank behind the closing quote',
            'target "\\n" -': '"\\n" has an escape other than \\", \\\\ and \\xNN',
            'target "\\x4" -': '"\\x4" has an escape other than \\", \\\\ and \\xNN',
            'target "\\xg0" -': '"\\xg0" has an escape other than \\", \\\\ and \\xNN',
            'target "\\X41" -': '"\\X41" has an escape other than \\", \\\\ and \\xNN',
            'target "\u00e9" -': f"'\"\\xe9\"' {ascii_alone}",
            'target "1\t" -': f"'\"1\\t\"' {ascii_alone}",
            'target "\x7f" -': f"'\"\\x7f\"' {ascii_alone}",
            'target "\x1b[31m" -': f"'\"\\x1b[31m\"' {ascii_alone}",
            'target "1234567890123" -': f'"1234567890123" {too_long}',
            'target - "             "': f'"             " {too_long}',
            'target "0.5"': "the f0 (- where the last pitch goes on) is missing",
            'target "0.5" #"5"': "the f0 (- where the last pitch goes on) is missing",
            'target "0.5" "5" "6"': '"6" is one word too many',
            'target float "5" -': '"5" is no float: a decimal, or 0x and eight hexadecimal digits',
            "target '0.5' -": "'0.5' is no value: int N, float X, \"TEXT\" or -",
            "target 0.5 -": '0.5 is no value: int N, float X, "TEXT" or -',
            'segment n "5"': "the follower is missing",
            'segment n "5" "1"': '"1" is no follower: a whole number from 0 to 4096',
            'segment n "5" - # x': "# is one word too many; a comment stands in a line of its own, or behind a target",
        }.items():
            status, data, message = encode(f"# first\n{line}\n")
            self.assertEqual((status, data), (1, b""), line)
            self.assertTrue(message.endswith(f": line 2: {why}\n"), message)

    def test_help(self):
        status, text, _ = run("sheet", "--help")
        self.assertEqual(status, 0)
        self.assertIn('  "0.25"             a text of up to 12 bytes, as it was typed: a sign in front, ', text)
        self.assertIn('but \\" for a quote, \\\\ for a backslash and\n\\xNN, two', text)
        self.assertIn("absent: an END or POS counts as 0; an F0 goes on with the pitch counted for the target", text)

    def test_streams(self):
        data = (EXAMPLES / "example.sht").read_bytes()
        self.assertEqual(run_alone("sheet", "decode", "-", given=data), (0, DOCUMENT_TEXT.encode(), ""))
        self.assertEqual(run_alone("sheet", "encode", "-", "-", given=DOCUMENT_TEXT.encode()), (0, data, ""))
        self.assertEqual(run_alone("sheet", "encode", "-", "-", given=b"what\n")[:2], (1, b""))

    def test_unfit_sheets(self):
        seen = set()
        for number, what, data in cases.unfit_sheets():
            status, text, message = decode(data)
            self.assertEqual((status, text), (1, b""), what)
            self.assertIn(f"refused {number} ", message, what)
            seen.add(number)
        self.assertEqual(seen, {8, 9, 17})

    def test_most(self):
        most = sheet([Segment(b"n", NONE, 4096)] * 4096, [Target()] * 4096)
        self.assertEqual(decode(most)[0], 0)

    def test_unfit_texts(self):
        good = "segment n - -\n"
        lines = [
            "segment n -",
            "segment n - - -",
            "segment n - -1",
            "segment n - 3",
            "segment n int 2147483648 -",
            "segment n int 1.5 -",
            "segment n real 1 -",
            "segment a\\b - -",
            "segment \u00e9 - -",
            "segment " + "n" * 33 + " - -",
            "target -",
            "phone n - -",
            "target - -\nsegment n - -",
        ]
        for line in lines:
            status, data, message = encode(good + line)
            self.assertEqual((status, data), (1, b""), line)
            self.assertTrue(message.startswith("sheet: "), line)
        self.assertIn("line 2: ", encode(good + lines[0])[2])
        self.assertEqual(encode(good * 4096)[0], 0)
        self.assertEqual(encode(good * 4097)[0], 1)
        self.assertEqual(encode("# a comment\n\n  # and one more\r\n" + good)[:2], (0, sheet([Segment(b"n")])))

    def test_command_line(self):
        for words in [(), ("encode", "a"), ("decode",), ("decode", "a", "b", "c"), ("other", "a", "b")]:
            self.assertEqual(run("sheet", *words)[0], 2, words)
        self.assertEqual(run("sheet", "decode", "/nowhere/at-all")[0], 1)

    def test_byte_order_mark(self):
        for data in ("\ufeffsegment n - -\n".encode(), "segment n - -\n".encode("utf-16")):
            status, _, message = encode(data)
            self.assertEqual(status, 1)
            self.assertIn("byte order mark (BOM)", message)

    def test_file_that_failed(self):
        """An error names the file that it is about."""
        source = str(EXAMPLES / "yard.txt")
        done = run_alone("sheet", "encode", source, "/nowhere/at-all.sht")
        self.assertEqual(done, (1, b"", "sheet: /nowhere/at-all.sht: No such file or directory\n"))
        done = run_alone("sheet", "encode", "/nowhere/at-all.txt", "-")
        self.assertEqual(done, (1, b"", "sheet: /nowhere/at-all.txt: No such file or directory\n"))
        status, _, message = run("sheet", "decode", source)
        self.assertEqual(status, 1)
        self.assertIn(f"sheet: {source}: refused 8 at byte 7: ", message)
        self.assertIn("it looks like a text, of which encode makes a sheet", message)
        message = "sheet: standard input: refused 8 at byte 1: the sheet is cut short\n"
        self.assertEqual(run_alone("sheet", "decode", "-", given=b"\2"), (1, b"", message))


class Pairs(unittest.TestCase):
    """tools/sheet pairs."""

    def setUp(self):
        folder = tempfile.TemporaryDirectory()
        self.addCleanup(folder.cleanup)
        self.files = [str(Path(folder.name) / name) for name in ("call.sht", "few.flv")]

    def pairs(self, call, voice, *words, **more):
        for path, data in zip(self.files, (call, voice)):
            Path(path).write_bytes(data)
        return run_alone("sheet", "pairs", *self.files, *words, **more)

    def test_lacking(self):
        """A line for each pair that finds no name, then how many of how many."""
        for segments, fold, lacking in cases.lacking_pairs():
            names = [formats.shown_name(segment.name) for segment in segments]
            rows = [(str(number), *names[number - 1 : number + 1], *tried) for number, tried in lacking.items()]
            count = f"{len(lacking)} of {max(0, len(segments) - 1)} pairs not in {self.files[1]}"
            text = "".join(f"{line}\n" for line in [*map(" ".join, rows), count])
            found = self.pairs(sheet(segments), cases.few_names(), *["--fold"] * fold)
            self.assertEqual(found, (1 if lacking else 0, text.encode(), ""), segments)

    def test_examples(self):
        for name, pairs in (("yard", 8), ("example", 1)):
            files = [str(EXAMPLES / f"{name}.{kind}") for kind in ("sht", "flv")]
            text = f"0 of {pairs} pairs not in {files[1]}\n".encode()
            for words in (files, ["--fold", *files], [files[0], "--fold", files[1]]):
                self.assertEqual(run_alone("sheet", "pairs", *words), (0, text, ""))

    def test_names(self):
        """A phone is one word, as in the text; with fold it has the sheet's name."""
        call = sheet([Segment(b"\\"), Segment(b""), Segment(b"ah")])
        text = self.pairs(call, cases.few_names(), "--fold")[1].decode()
        self.assertEqual(text.splitlines()[:2], ["1 \\\\ \\0 \\-", "2 \\0 ah -aa"])

    def test_most(self):
        call = sheet([Segment(b"n", NONE, 4096)] * 4096)
        status, text, _ = self.pairs(call, cases.few_names())
        self.assertEqual((status, len(text.splitlines())), (1, 4096))

    def test_streams(self):
        call, voice = sheet([Segment(b"n"), Segment(b"z")]), cases.few_names()
        text = self.pairs(call, voice)[1]
        self.assertEqual(run_alone("sheet", "pairs", "-", self.files[1], given=call), (1, text, ""))
        text = text.replace(self.files[1].encode(), b"standard input")
        self.assertEqual(run_alone("sheet", "pairs", self.files[0], "-", given=voice), (1, text, ""))

    def test_unfit(self):
        """Exit status 2, so that 1 says one thing alone; the message names the file."""
        good = sheet([Segment(b"n"), Segment(b"z")]), cases.few_names()
        unfit = [(number, what, data, good[1]) for number, what, data in cases.unfit_sheets()]
        voice = (EXAMPLES / "yard.flv").read_bytes()
        unfit += [(number, what, good[0], data) for number, what, data in cases.unfit_voices(voice)]
        for number, what, call, data in unfit:
            status, text, message = self.pairs(call, data)
            self.assertEqual((status, text, message.count("\n")), (2, b"", 1), what)
            self.assertRegex(message, f"sheet: {re.escape(self.files[number < 8])}: refused {number}[ :]", what)
        message = self.pairs(b"segment n - -\n", good[1])[2]
        self.assertIn("it looks like a text, of which encode makes a sheet", message)

    def test_command_line(self):
        files = [str(EXAMPLES / name) for name in ("yard.sht", "yard.flv")]
        for words in [(), files[:1], [files[0], "--fold"], [*files, files[1]], ("-", "-")]:
            status, text, message = run_alone("sheet", "pairs", *words)
            self.assertEqual((status, text), (2, b""), words)
            self.assertIn("Usage: tools/sheet ", message)
        for words in [("/nowhere/at-all", files[1]), (files[0], "/nowhere/at-all")]:
            message = "sheet: /nowhere/at-all: No such file or directory\n"
            self.assertEqual(run_alone("sheet", "pairs", *words), (2, b"", message))
        self.assertEqual(run_alone("sheet", "encode", *files, "--fold")[0], 2)


class VoiceInfo(unittest.TestCase):
    def info(self, data, *words):
        with tempfile.TemporaryDirectory() as folder:
            path = Path(folder) / "voice.flv"
            path.write_bytes(data)
            status, text, message = run("voice-info", str(path), *words)
        self.assertEqual(message, "")
        return status, text

    def test_document(self):
        status, text = self.info((EXAMPLES / "example.flv").read_bytes(), "--entries")
        self.assertEqual(status, 0)
        for line in [
            "149 bytes; sections",
            "  sts.resoffs           12 bytes at 91",
            "  frames         2",
            "  codec          0  (mu-law)",
            "  samples        5 (0.001 seconds)",
            "  longest        3 samples (period 1); 3 bytes stored",
            "index: 1 entry, the first by name pau-aa",
            "  pau-aa         periods from 0, 1 + 1",
            "opens",
        ]:
            self.assertIn(line, text.split("\n"))

    def test_fit(self):
        for what, data in cases.fit_voices((EXAMPLES / "yard.flv").read_bytes()):
            status, text = self.info(data)
            self.assertEqual((status, text.split("\n")[-2]), (0, "opens"), what)

    def test_unfit(self):
        seen = set()
        for number, what, data in cases.unfit_voices((EXAMPLES / "yard.flv").read_bytes()):
            status, text = self.info(data)
            self.assertEqual(status, 1, what)
            self.assertEqual(re.match(r"refused (\d)( at byte \d+)?: .", text.split("\n")[-2])[1], str(number), what)
            seen.add(number)
        self.assertEqual(seen, set(range(1, 8)))

    def test_sizes_and_codec(self):
        voice = cases.changed((EXAMPLES / "yard.flv").read_bytes(), b"sts.header", cases.patched(20, cases.u32(1)))
        text = self.info(voice + cases.section(b"sts.ressize", bytes([7] * 95 + [9])))[1]
        self.assertIn("  codec          1  (G.721)\n", text)
        self.assertIn("  longest        9 samples (period 95); 81 bytes stored\n", text)
        self.assertIn("  decode buffer  162 bytes in a call\n", text)

    def test_command_line(self):
        self.assertEqual(run_alone("voice-info")[0], 2)
        self.assertEqual(run("voice-info", "a", "b")[0], 2)
        self.assertEqual(run("voice-info", "/nowhere/at-all")[0], 1)


YARD = str(EXAMPLES / "yard.sht")
SPOKEN = b"8000 7 14\n" + b"".join(b"%d 2 100 -100\n" % number for number in range(1, 8))
DRAW = TOOLS["draw"]


def spoken(samples, rate=8000, size=80):
    """A call as the player prints it, in periods of a size."""
    periods = [samples[at : at + size] for at in range(0, len(samples), size)]
    lines = [f"{rate} {len(periods)} {len(samples)}"]
    return lines + [" ".join(map(str, [number, len(period), *period])) for number, period in enumerate(periods, 1)]


def long_call(seconds, with_ends=False, few_pitches=False):
    """A call of many short phones and targets; each phone really ends 80 samples early, but for the last. With few pitches
    two of three targets have none."""
    numbers = range(seconds * 20)
    phones = [Segment(b"pau", formats.real(number * 0.05 + 0.05)) for number in numbers]
    targets = [Target(formats.real(number * 0.05), formats.real(100 + number % 7 / 3)) for number in numbers]
    if few_pitches:
        targets = [target._replace(f0=NONE) if number % 3 != 2 else target for number, target in enumerate(targets)]
    call = DRAW.Call((phones, targets), spoken([32767, -32768] * (4000 * seconds)))
    if with_ends:
        reached = [400 * number - 80 for number in range(1, seconds * 20)] + [8000 * seconds]
        call.take_ends(phones, ends_text([b"pau"] * len(phones), reached))
    return call


def ends_text(names, reached):
    """The ends of phones as the player prints them."""
    lines = [b"%d %s 400 %d\n" % (number, name, end) for number, (name, end) in enumerate(zip(names, reached), 1)]
    return b"".join(lines)


class Draw(unittest.TestCase):
    def drawn(self, call, start=0, end=None, width=960, zoom=0):
        return ElementTree.fromstring(DRAW.drawn(call, start, end or call.length, width, zoom))

    def test_parts(self):
        status, text, message = run_alone("draw", YARD, "--zoom", "0", given=SPOKEN)
        self.assertEqual((status, message), (0, ""))
        kinds = collections.Counter(part.get("class") for part in ElementTree.fromstring(text))
        found = [kinds[kind] for kind in ("dot", "mark", "wave")]
        self.assertEqual(found, [4, 7 + 5, 2])
        picture = self.drawn(DRAW.Call(formats.read_sheet(Path(YARD).read_bytes()), spoken([100, -100] * 4400)))
        kinds = collections.Counter(part.get("class") for part in picture)
        found = [kinds[kind] for kind in ("box", "half", "other", "dot", "mark", "wave", "body", "end")]
        self.assertEqual(found, [9, 8, 8, 5, 110 + 5, 1, 1, 8])

    def test_nothing_leaves(self):
        """Points and boxes lie on the paper, waves within their bands, for the loudest samples too."""
        for seconds, width, *more in itertools.product((1, 5, 30), (960, 300, 2000), (False, True), (False, True)):
            picture = self.drawn(long_call(seconds, *more), width=width)
            right, bottom = int(picture.get("width")), int(picture.get("height"))
            self.assertEqual(right, width)
            tops = {}
            for part in picture:
                points = [tuple(map(float, point.split(","))) for point in part.get("points", "").split()]
                names = [names for names in (("x1", "y1"), ("x", "y")) if part.get(names[0])]
                points += [(float(part.get(x)), float(part.get(y))) for x, y in names]
                for x, y in points:
                    self.assertTrue(0 <= x <= right and 0 <= y <= bottom, part.attrib)
                if part.get("class") == "body":
                    tops[min(y for _, y in points)] = max(y for _, y in points)
            heights = {1: 140, 5: 84, 30: 70}
            self.assertTrue(all(abs(low - top - heights[seconds]) <= 0.2 for top, low in tops.items()), tops)

    def test_labels_apart(self):
        for seconds, *more in itertools.product((1, 5, 30), (False, True), (False, True)):
            lines = collections.defaultdict(list)
            for part in self.drawn(long_call(seconds, *more)).iter("{http://www.w3.org/2000/svg}text"):
                kind, x, length = part.get("class"), float(part.get("x")), DRAW.width_of(part.text, part.get("class"))
                shift = 0 if "left" in kind else length if "right" in kind or "name" in kind else length / 2
                lines[part.get("y")].append((x - shift, x - shift + length))
            for y, places in lines.items():
                places.sort()
                self.assertTrue(all(a[1] <= b[0] + 1 for a, b in zip(places, places[1:])), (seconds, y, places))

    def test_axis(self):
        texts = [part.text for part in self.drawn(long_call(1)) if part.get("class") == "note"]
        wanted = ["0.2", "1600", "1.0", "8000"]
        self.assertEqual([text for text in texts if text in wanted], wanted)
        peaks = [part.text for part in self.drawn(long_call(1)) if part.get("class") == "note right"]
        self.assertEqual(peaks[:2], ["32768", "-32768"])
        self.assertEqual(DRAW.shown(1 / 3), "0.3")

    def test_part(self):
        picture = self.drawn(long_call(30), 3.1, 4.3)
        self.assertIn("drawn from 3.1 to 4.3 seconds", "".join(picture.itertext()))
        kinds = collections.Counter(part.get("class") for part in picture)
        self.assertEqual((kinds["box"], kinds["mark"]), (24, 120))
        self.assertIn("an overview", "".join(self.drawn(long_call(30)).itertext()))

    def test_simple_join(self):
        """Phones stand where the join puts them: the example has periods of 2 and 3 samples, and no times."""
        files = [(EXAMPLES / f"example.{kind}").read_bytes() for kind in ("flv", "sht")]
        call = DRAW.Call(formats.read_sheet(files[1]), ["8000 2 5", "1 2 8 132", "2 3 0 -8 -132"], DRAW.Voice(files[0]))
        self.assertTrue(call.simple)
        self.assertEqual(call.phones, [("pau", 0, 2 / 8000), ("aa", 2 / 8000, 5 / 8000)])
        self.assertEqual([unit.name for unit in call.units], ["pau-aa"])
        self.assertEqual(len(self.drawn(call).findall(".//*[@class='box']")), 2)
        other = DRAW.Call(formats.read_sheet(files[1]), ["8000 1 5", "1 5 0 0 0 0 0"], DRAW.Voice(files[0]))
        self.assertFalse(other.simple)

    def dots(self, picture):
        """Class, place and height of each dot."""
        return [tuple(part.get(name) for name in ("class", "cx", "cy")) for part in picture if part.get("r")]

    def test_pitches(self):
        """Where there is none, a hollow dot where the last goes on, and words that say so."""
        for f0s, words in [
            ([NONE], ["120 goes on"]),
            ([NONE, NONE, NONE], ["120 goes on", "goes on", "goes on"]),
            ([whole(95), NONE, NONE, whole(80), NONE], ["95", "80", "goes on", "goes on", "goes on"]),
            ([NONE, whole(0), NONE, whole(95)], ["0", "95", "120 goes on", "goes on"]),
        ]:
            places = [formats.real(number / len(f0s)) for number in range(len(f0s))]
            filled = map(formats.real, formats.f0s_counted([Target(NONE, f0) for f0 in f0s]))
            pictures = []
            for pitches in (f0s, filled):
                targets = list(map(Target, places, pitches))
                call = DRAW.Call(([Segment(b"pau", whole(1))], targets), spoken([100, -100] * 4000))
                pictures.append(self.drawn(call, zoom=9))
            line, full = ([part.get("points") for part in picture if part.get("class") == "line"] for picture in pictures)
            self.assertEqual(line, full)
            dots, full = map(self.dots, pictures)
            self.assertEqual(sorted(dot[1:] for dot in dots), sorted(dot[1:] for dot in full))
            kinds = collections.Counter(dot[0] for dot in dots)
            self.assertEqual((kinds["hollow"], kinds["dot"]), (f0s.count(NONE), len(f0s) - f0s.count(NONE)))
            texts = [part.text for part in pictures[0] if part.get("class") == "note left"]
            self.assertTrue(texts[1].startswith("hollow dots: "), texts)
            self.assertEqual(texts[2 : 2 + len(words)], words)
            whole_text = ElementTree.tostring(pictures[1], "unicode")
            self.assertFalse("hollow" in whole_text or "goes on" in whole_text)

    def test_texts(self):
        """The picture is that of the floats: a text is a written pitch, without a digit 0 Hz."""
        ends, places, f0s = (b"0.25", b"0.75s", b"1"), (b"0", b".5", b"1.0e9"), (b"95.5", b"95,5 Hz", b"none")
        pictures = []
        for value in (typed, lambda text: bits(cases.nearest_bits(text))):
            phones = [Segment(name, value(end)) for name, end in zip((b"pau", b"n", b"pau"), ends)]
            targets = [Target(value(place), value(f0)) for place, f0 in zip(places, f0s)]
            pictures.append(DRAW.drawn(DRAW.Call((phones, targets), spoken([100, -100] * 4000)), 0, 1, 960, 0.3))
        self.assertEqual(*pictures)
        kinds = [part.get("class") for part in ElementTree.fromstring(pictures[0])]
        self.assertEqual((kinds.count("dot"), kinds.count("hollow"), kinds.count("box")), (3, 0, 3))

    def test_pitch_from_the_beginning(self):
        """Where the first target has none, the line comes level from the beginning of the call."""
        for f0, lines in ((NONE, 1), (whole(120), 0)):
            target = Target(formats.real(0.5), f0)
            call = DRAW.Call(([Segment(b"pau", whole(1))], [target]), spoken([100, -100] * 4000))
            picture = self.drawn(call, zoom=9)
            drawn = [part.get("points").replace(",", " ").split() for part in picture if part.get("class") == "line"]
            self.assertEqual(len(drawn), lines)
            for points in drawn:
                x, y = map(float, self.dots(picture)[0][1:])
                self.assertEqual(list(map(float, points)), [DRAW.LEFT, y, x, y])

    def test_pitches_of_parts(self):
        """In each row the first says which pitch goes on. What is not drawn is not explained."""
        phones = [Segment(b"pau", formats.real(5))]
        targets = [Target(NONE, whole(95)), *(Target(whole(number)) for number in (1, 3, 5))]
        call = DRAW.Call((phones, targets), spoken([100, -100] * 20000))
        texts = [part.text for part in self.drawn(call) if part.get("class") == "note left"]
        self.assertEqual([text for text in texts if "goes on" in text][1:], ["goes on", "95 goes on", "95 goes on"])
        self.assertNotIn("hollow", "".join(self.drawn(call, 0, 0.9).itertext()))
        self.assertIn("hollow", "".join(self.drawn(call, 0, 1.1).itertext()))
        call.take_ends(phones, ends_text([b"pau"], [40000]))
        texts = [part for part in self.drawn(call) if part.get("class") == "note left"][:3]
        self.assertEqual([part.text.split(":")[0] for part in texts[1:]], ["hollow dots", "solid lines"])
        top = min(float(part.get("y")) for part in self.drawn(call) if part.get("class") == "box")
        self.assertLess(float(texts[2].get("y")), top)

    def test_ends(self):
        """A box for each phone as spoken, with the sample where it ends, and a line there through the samples."""
        sheet_read = formats.read_sheet(Path(YARD).read_bytes())
        names = [segment.name for segment in sheet_read[0]]
        call = DRAW.Call(sheet_read, spoken([100, -100] * 4400))
        plain = DRAW.drawn(call, 0, call.length, 960, 0.05)
        reached = [720, 1520, 3200, 3200, 4640, 5680, 6400, 7840, 8800]
        call.take_ends(sheet_read[0], ends_text(names, reached))
        picture = self.drawn(call, zoom=0.05)
        right = lambda part: round(float(part.get("x")) + float(part.get("width")), 1)
        boxes = [right(part) for part in picture if part.get("class") == "spoken"]
        lines = [float(part.get("x1")) for part in picture if part.get("class") == "reached"]
        scale = (960 - 15 - 80) / call.length / 8000
        places = [80 + end * scale for end in sorted(set(reached))]
        self.assertTrue(all(abs(a - b) < 0.11 for a, b in zip(boxes, places)), (boxes, places))
        self.assertTrue(all(abs(a - b) < 0.06 for a, b in zip(lines, places)), (lines, places))
        self.assertEqual((len(boxes), len(lines)), (8, 8 + 1))  # one within the periods that are drawn larger
        texts = [part.text for part in picture if part.get("class") == "note right"]
        self.assertEqual([text for text in texts if text in map(str, reached)], list(map(str, sorted(set(reached)))))
        self.assertNotIn("reached", plain)
        self.assertIn("dashed lines: by the sheet", "".join(picture.itertext()))

    def test_ends_of_parts(self):
        """In rows and in parts a phone's sample stands where it ends."""
        for start, end in ((0, 30), (3.01, 4.31)):
            picture = self.drawn(long_call(30, True), start, end, width=2000)
            count = sum(start < (400 * number - 80) / 8000 <= end for number in range(1, 600)) + (end == 30)
            self.assertEqual(len(picture.findall(".//*[@class='reached']")), count)

    def test_wrong_ends(self):
        """One line on standard error, with the file and what is wrong in it."""
        names, reached = [segment.name for segment in formats.read_sheet(Path(YARD).read_bytes())[0]], [2] * 8 + [14]
        good = ends_text(names, reached)
        with tempfile.TemporaryDirectory() as folder:
            path = Path(folder) / "call.ends"
            path.write_bytes(good)
            self.assertEqual(run_alone("draw", YARD, "--ends", str(path), given=SPOKEN)[::2], (0, ""))
            for text, why in [
                (b"", "it has 0 phones, not the 9 of the sheet"),
                (good + b"10 pau 0 14\n", "it has 10 phones"),
                (good.replace(b"2 n", b"2 m"), "line 2 is not phone 2, n, "),
                (good.replace(b"3 ay", b"4 ay"), "line 3 is not phone 3, ay, "),
                (good.replace(b"1 pau 400", b"1 pau 400 1"), "line 1 is not phone 1, pau, "),
                (good.replace(b"2 n 400 2", b"2 n 400 3"), "line 2: 3 is not where a period of this call ends"),
                (good.replace(b"2 n 400 2", b"2 n 400 4"), "line 3: 2 is not where "),
                (good.replace(b"2 n 400 2", b"2 n 400 x"), "line 2: x is not where "),
                (good.replace(b" 14", b" 12"), "its last phone ends at sample 12, the call at 14"),
                (b"\xff" + good, "line 1 is not phone 1"),
            ]:
                path.write_bytes(text)
                status, drawn, message = run_alone("draw", YARD, "--ends", str(path), given=SPOKEN)
                self.assertEqual((status, drawn, message.count("\n")), (1, b"", 1), text)
                self.assertTrue(message.startswith(f"draw: {path}: {why}"), message)
            done = run_alone("draw", YARD, "--ends", folder + "/none", given=SPOKEN)
            self.assertEqual(done, (1, b"", f"draw: {folder}/none: No such file or directory\n"))

    def test_files(self):
        """A picture beside which a PNG may stand, and none where no converter is."""
        with tempfile.TemporaryDirectory() as folder:
            out = Path(folder) / "a b.svg"
            done = run_alone("draw", YARD, "--out", str(out), given=SPOKEN, env={"PATH": folder})
            self.assertEqual(done[:2], (0, b""))
            self.assertTrue(done[2].startswith(f"draw: {out}"), done[2])
            self.assertEqual(out.read_bytes(), run_alone("draw", YARD, given=SPOKEN)[1])

    def test_wrong_input(self):
        """One line on standard error."""
        voice = str(EXAMPLES / "yard.flv")
        for words, given in [
            ((YARD,), b""),
            ((YARD,), b"8000 0 0\n"),
            ((YARD,), b"8000 1\n"),
            ((YARD,), b"0 1 1\n1 1 1\n"),
            ((YARD,), b"8000 1 1\n"),
            ((YARD,), b"8000 1 2\n1 2 1\n"),
            ((YARD,), b"8000 1 2\n1 1 1\n"),
            ((YARD,), b"8000 1 1\n1 1 x\n"),
            ((YARD,), b"\xff\n"),
            ((voice,), SPOKEN),
            (("/nowhere/at-all",), SPOKEN),
            ((YARD, "--voice", YARD), SPOKEN),
            ((YARD, "--voice", "/nowhere/at-all"), SPOKEN),
            ((YARD, "--from", "9"), SPOKEN),
            ((YARD, "--out", "/nowhere/at-all.svg"), SPOKEN),
        ]:
            status, text, message = run_alone("draw", *words, given=given)
            self.assertEqual((status, text, message.count("\n")), (1, b"", 1), (words, given, message))
            self.assertTrue(message.startswith("draw: "), message)
        for words in [(), (YARD, "--from", "2", "--to", "1"), (YARD, "--width", "1"), (YARD, "--out", "a.png")]:
            self.assertEqual(run_alone("draw", *words, given=SPOKEN)[0], 2, words)


CRATES = """\
# Leaves.
base:
text: base

# Above.
voice: base text
index: base text voice
other staticlib: base io
"""


class Pages(unittest.TestCase):
    """Pages that are made: the list of what is to be believed, the picture of the crates, and the page on mu-law."""

    def test_up_to_date(self):
        self.assertEqual(run("believed", "--check")[:2], (0, "the list in docs/PROOFS.md is up to date\n"))
        self.assertEqual(run("draw-crates", "--check")[:2], (0, "docs/crates.svg is up to date\n"))
        both = "docs/MU-LAW.md and docs/mu-law.svg are up to date\n"
        self.assertEqual(run("draw-mu-law", "--check")[:2], (0, both))

    def test_command_line(self):
        for tool in ("believed", "draw-crates", "draw-mu-law"):
            self.assertEqual(run(tool, "--other")[0], 2)
            self.assertEqual(run(tool, "--help")[0], 0)

    def test_layers(self):
        """A line to each crate below that no other of those named needs; programs' libraries have no box."""
        tool = TOOLS["draw-crates"]
        found = tool.layers(CRATES)
        names = {heading: list(crates) for heading, crates in found.items()}
        self.assertEqual(names, {"Leaves": ["base", "text"], "Above": ["voice", "index", "other"]})
        needs = {name: named for crates in found.values() for name, named in crates.items()}
        reduced = {"base": [], "text": ["base"], "voice": ["text"], "index": ["voice"], "other": ["base"]}
        self.assertEqual(tool.reduced(needs), reduced)
        self.assertEqual(tool.columns(found["Above"]), [["voice", "other"], ["index"]])
        picture = ElementTree.fromstring(tool.drawn(CRATES))
        kinds = collections.Counter(part.get("class") for part in picture)
        self.assertEqual((kinds["box"], kinds["line"]), (5, 4))

    def test_believed(self):
        """What a contract cites, and what that imports; not what only a proof uses."""
        reached = TOOLS["believed"].reached()
        for module in [("call", "Buffers"), ("law", "Demand3"), ("ulaw", "Ulaw"), ("lpc", "Fixed"), ("refusal", "Number")]:
            self.assertIn(module, reached)
        inner = {tuple(line.split("/")[1::2]) for line in run("believed", "--inner")[1].split()}
        self.assertIn(("lpc_fixed", "Values.antt"), inner)
        self.assertFalse({(crate, f"{module}.antt") for crate, module in reached} & inner)
        source = "ghost use Rattle.a.specs.One.{first, second};\nghost use Rattle.b.specs.Two as two;\nghost use Rattle.std.specs.Three.{second};\n"
        cited = TOOLS["believed"].cited
        self.assertEqual(list(cited(source, "pub fn f() ensures { second }\n{")), [("a", "One")])
        self.assertEqual(list(cited(source, "ensures { two.third }")), [("b", "Two")])
        self.assertEqual(list(cited(source, "ensures { third }")), [])


class Definitions(unittest.TestCase):
    """What tools/try-definitions hands to rt; it runs for minutes itself."""

    def test_statements(self):
        """The oracle writes a call as those that are kept, and proved: the same imports, settings in the same words."""
        written = (REPO / "oracle" / "src" / "statements" / "antt.rs").read_text(encoding="utf-8")
        kept = (REPO / "crates" / "worked" / "proofs" / "Calls.antt").read_text(encoding="utf-8")
        imports = re.compile(r"(?m)^use \S+\.\{.*\}$")
        self.assertEqual(imports.findall(written), imports.findall(kept))
        filters = set(re.findall(r"filter = (.*?);", kept))
        self.assertGreaterEqual(len(filters), 3)
        self.assertEqual([words for words in filters if f'=> "{words}"' not in written], [])

    def test_declarations(self):
        """Of a source file types and constants are left, without what belongs to a function."""
        for path in REPO.glob("crates/*/src/**/*.rt"):
            left = TOOLS["try-definitions"].declarations(path.read_text(encoding="utf-8"))
            for line in left.splitlines():
                if not re.match(r"(#!\[|#\[derive\(|//|(pub )?(const|enum|mod|static|struct) |use .*[A-Z}]\w*;$|use .*\{|[ )}\]]|$)", line):
                    self.fail(f"{path}: {line}")


class MuLaw(unittest.TestCase):
    """The figures of docs/MU-LAW.md, and its picture."""

    def setUp(self):
        self.tool = TOOLS["draw-mu-law"]
        self.back = self.tool.results()

    def test_results(self):
        self.assertEqual(sorted(self.back), list(range(-32768, 32768)))
        some = {0: 0, -1: 0, 3: 0, 4: 8, -4: -8, 124: 132, 17275: 16764, 17276: 17788, 32635: 32124, -32768: -32124}
        self.assertEqual({x: self.back[x] for x in some}, some)

    def test_unfit_answers(self):
        """Stored answers that are cut short, or go beyond 16 bits, are told."""
        whole = "g711.decoded or g711.encoded is no whole file"
        part = "g711.encoded has {} samples, not just the 65,536 of 16 bits"
        decoded, encoded = ((self.tool.VECTORS / name).read_bytes() for name in ("g711.decoded", "g711.encoded"))
        wrong = [
            (decoded[:-2], encoded, whole),
            (b"", encoded, whole),
            (decoded, encoded[:-1], whole),
            (decoded, encoded[:-5], part.format("65,533")),
            (decoded, b"", part.format("0")),
            (decoded, encoded + struct.pack("<HHB", 65535, 2, 0), part.format("65,537")),
        ]
        with tempfile.TemporaryDirectory() as folder, mock.patch.object(self.tool, "VECTORS", Path(folder)):
            self.assertRaises(FileNotFoundError, self.tool.results)
            for bytes_decoded, bytes_encoded, message in wrong:
                (Path(folder) / "g711.decoded").write_bytes(bytes_decoded)
                (Path(folder) / "g711.encoded").write_bytes(bytes_encoded)
                with self.subTest(message=message), self.assertRaisesRegex(ValueError, message):
                    self.tool.results()

    def test_figures(self):
        """A result that were another shows."""
        right = self.tool.figures(self.back).splitlines()
        others = {
            (-100, -105): (2, "| 0 | 0 to 123 | 5 | 1 | "),
            (-16252, -16765): (9, "| 7 | 16,252 to 32,635 | 513 | 1 | "),
            (-32768, 32124): (11, "- Of 265 samples of larger magnitudes 264 give 32,124 with their sign."),
            (-32767, -33149): (12, "- The results of 65,535 pairs of neighbours are at most 1,025 apart. 2 are"),
            (1, -1): (14, "- In 1 of these pairs the larger sample gives the smaller result."),
            (0, 1): (15, "- 0 gives 1."),
        }
        for (sample, result), (row, begins) in others.items():
            with self.subTest(sample=sample):
                other = self.tool.figures({**self.back, sample: result}).splitlines()
                self.assertEqual(other[row][: len(begins)], begins)
                self.assertNotEqual(right[row][: len(begins)], begins)

    def test_picture(self):
        """Each segment has its name and its bound, which the teeth reach and do not pass."""
        picture = ElementTree.fromstring(self.tool.drawn(self.back))
        words = [part.text for part in picture if part.tag.endswith("text")]
        for segment in range(8):
            self.assertIn(f"segment {segment}", words)
            self.assertIn(f"at most {4 << segment}", words)
        kinds = collections.Counter(part.get("class") for part in picture)
        self.assertEqual((kinds["error"], kinds["bound"], kinds["beyond"]), (2, 16, 2))
        reached = collections.Counter()
        for magnitude, error in self.tool.corners(self.back, 1):
            segment = self.tool.segment_of(magnitude)
            reached[segment] = max(reached[segment], error)
        self.assertEqual(dict(reached), {8: 644, **{segment: 4 << segment for segment in range(8)}})

    def test_other_pages(self):
        """A page or picture that differs is told and written; a page without the place for the figures is an error."""
        with tempfile.TemporaryDirectory() as folder:
            page, picture = Path(folder) / "MU-LAW.md", Path(folder) / "mu-law.svg"
            page.write_text("before\n<!-- tools/draw-mu-law -->\nold\n<!-- end -->\nafter\n")
            with mock.patch.multiple(self.tool, PAGE=page, PICTURE=picture):
                differs = "docs/{} differs: tools/draw-mu-law --update\n"
                told = differs.format("mu-law.svg") + differs.format("MU-LAW.md")
                self.assertEqual(run("draw-mu-law", "--check")[:2], (1, told))
                self.assertEqual(run("draw-mu-law", "--update")[0], 0)
                self.assertEqual(run("draw-mu-law", "--check")[0], 0)
                self.assertEqual(picture.read_text(), run("draw-mu-law")[1])
                self.assertIn(run("draw-mu-law", "--figures")[1] + "<!-- end -->\nafter\n", page.read_text())
                page.write_text("before\n")
                with self.assertRaisesRegex(ValueError, "MU-LAW.md has no place for the figures"):
                    run("draw-mu-law", "--check")


def archive(*objects):
    """An archive of objects, each with these sections: name, type, flags, contents."""
    files = [(b"/", b"\0\0\0\0x"), *((b"table.o/", an_object(sections)) for sections in objects)]
    members = (b"%-48s%-10d`\n%s" % (name, len(data), data + b"\n" * (len(data) % 2)) for name, data in files)
    return b"!<arch>\n" + b"".join(members)


def an_object(sections):
    sections = [(b"", 0, 0, b""), *sections]
    names = b"".join(name + b"\0" for name, *_ in sections) + b"names\0"
    sections.append((b"names", 3, 0, names))
    heads, contents = b"", b""
    for name, kind, flags, data in sections:
        place = names.index(name + b"\0")
        heads += struct.pack("<IIQQQQIIQQ", place, kind, flags, 0, 64 + len(contents), len(data), 0, 0, 1, 0)
        contents += data
    head = b"\x7fELF\2\1" + bytes(12) + struct.pack("<H20xQ10x", 62, 64 + len(contents))
    return head + struct.pack("<HHH", 64, len(sections), len(sections) - 1) + contents + heads


class Constants(unittest.TestCase):
    NONE = "no table of the fifteen powers of two\n"
    POWERS = [1 << k for k in range(15)]

    def on(self, data):
        with tempfile.TemporaryDirectory() as folder:
            path = Path(folder) / "lib.a"
            path.write_bytes(data)
            status, out, err = run("constants", str(path))
        return status, out, err.replace(str(path), "lib.a")

    def test_read_only(self):
        """Constants are .rodata alone; code, what can be written, what is not loaded and what has no contents are not listed."""
        sections = [(b".text", 1, 6, b"code"), (b".rodata", 1, 2, bytes(1200)), (b".rodata.cst16", 1, 18, bytes(32))]
        sections += [(b".eh_frame", 1, 2, bytes(80)), (b".data", 1, 3, bytes(8)), (b".comment", 1, 0, b"c"), (b".bss", 8, 3, b"")]
        listed = ".rodata                     1,200\n.rodata.cst16                  32\n.eh_frame                      80\n"
        self.assertEqual(self.on(archive(sections)), (0, listed + "1,232 bytes of constants\n" + self.NONE, ""))

    def test_found(self):
        """The table is found in all that is loaded, and only there."""
        table = struct.pack("<3s15i", b"abc", *self.POWERS)
        told = "a table of powers of two: {} from byte 3, every 4 bytes: " + " ".join(map(str, self.POWERS)) + "\n"
        code = b".code", 1, 6, b"\x90"
        for name, flags, status in [(".rodata", 2, 1), (".data", 3, 1), (".text", 6, 1), (".debug", 0, 0)]:
            found = self.on(archive([code, (name.encode(), 1, flags, table)]))
            self.assertEqual((found[0], found[1].splitlines(True)[-1]), (status, told.format(name) if status else self.NONE))

    def test_in_parts(self):
        """As rt compiles a table: the first eight among the constants, the others stored by code. Also in two objects."""
        code = "31c04883ff0e772f0f2805000000000f294424d848b8000100020004000848894424e8c74424f00010002066c74424f400400fb7447cd8c3"
        parts = [(b".rodata.cst16", 1, 18, struct.pack("<8H", *self.POWERS[:8])), (b".text.at", 1, 6, bytes.fromhex(code))]
        lines = [".rodata.cst16 from byte 0, every 2 bytes: 1 2 4 8 16 32 64 128", ".text.at from byte 22, every 2 bytes: 256 512 1024 2048"]
        for objects in ([parts], [parts[:1], parts[1:]]):
            status, out, _ = self.on(archive(*objects))
            self.assertEqual((status, out.splitlines()[2:]), (1, ["a table of powers of two: " + line for line in lines]))
        for part in parts:
            self.assertEqual(self.on(archive([part]))[0], 0)

    def test_twelve(self):
        for count, status in [(11, 0), (12, 1), (13, 1), (14, 1)]:
            contents = struct.pack(f"<{count}H", *self.POWERS[-count:])
            self.assertEqual(self.on(archive([(b".rodata", 1, 2, contents)]))[0], status, count)

    def test_rows(self):
        """Rising and falling, 2 to 16 bytes apart and equally so; none of three, and none out of order."""
        rows = TOOLS["constants"].rows
        for powers in (self.POWERS, self.POWERS[::-1], self.POWERS[3:7]):
            for far in range(2, 18):
                contents = b"".join(struct.pack("<H", power) + b"\xff" * (far - 2) for power in powers)
                self.assertEqual(rows(contents), [(powers, 0, far)] if far <= 16 else [], far)
        for powers in (self.POWERS[:3], [1, 2, 4, 16, 32, 64], [8, 1, 4, 2], [1, 2, 0, 4, 8]):
            self.assertEqual(rows(struct.pack(f"<{len(powers)}H", *powers)), [], powers)
        two = [number for pair in zip(self.POWERS[:8], self.POWERS[:6:-1]) for number in pair]
        found = [(self.POWERS[:8], 0, 4), (self.POWERS[:6:-1], 2, 4)]
        self.assertEqual(rows(struct.pack("<16H", *two)), found, "side by side, one rising and one falling")

    def test_refused(self):
        whole = archive([(b".rodata", 1, 2, bytes(8))])
        head = struct.pack("<HHH", 64, 3, 2)
        damaged = {
            "it is no archive": [b"", whole[1:]],
            "it is damaged at byte 74": [whole[:74] + b"x" * 60 + whole[134:], whole[:122] + b"-60       " + whole[132:]],
            "it is cut short": [whole[:-9]],
            "a part of it is no x86-64 object": [whole.replace(b"ELF\2", b"ELF\1"), whole.replace(b"\0\x3e\0", b"\0\xb7\0")],
            "a part of it is damaged": [
                whole.replace(head, struct.pack("<HHH", 64, 9, 2)),
                whole.replace(head, struct.pack("<HHH", 64, 3, 7)),
                whole.replace(struct.pack("<QQ", 64, 8), struct.pack("<QQ", 64, 8000)),
                whole[:174] + struct.pack("<Q", 1 << 63) + whole[182:],
            ],
            "nothing of it is loaded": [whole[:8], archive([]), archive([(b".lto", 1, 0, b"code")])],
        }
        for message, files in damaged.items():
            for data in files:
                self.assertNotEqual(data, whole, message)
                self.assertEqual(self.on(data), (2, "", f"constants: lib.a: {message}\n"))
        self.assertEqual(run("constants", "none.a"), (2, "", "constants: none.a: No such file or directory\n"))
        self.assertEqual(run("constants", "--help")[0], 0)
        self.assertEqual(run("constants", "a", "b"), (2, "", "constants: one archive at a time; --help says more\n"))


class Papers(unittest.TestCase):
    def test_formats(self):
        """The commands of docs/FORMATS.md that need no player print what stands below them."""
        text = (REPO / "docs/FORMATS.md").read_text()
        found = re.findall(r"^    \$ (.*)\n((?:    [^$\n].*\n)+)", text, re.MULTILINE)
        found = [(command, printed.replace("    ", "", 1).replace("\n    ", "\n")) for command, printed in found]
        found = [example for example in found if not example[0].startswith("player ")]
        self.assertEqual(len(found), 4)
        for command, printed in found:
            done = subprocess.run(command, shell=True, cwd=REPO, stdout=subprocess.PIPE, check=False)
            self.assertEqual(done.stdout.decode(), printed, command)


class Examples(unittest.TestCase):
    def test_made_anew(self):
        self.assertEqual(run_alone("make-example", "--check"), (0, b"examples that differ: none\n", ""))

    def test_a_difference_is_seen(self):
        status, text, _ = run_alone("make-example", "--check", "--seed", "2")
        self.assertEqual((status, text), (1, b"examples that differ: yard.flv\n"))

    def test_edges_made_anew(self):
        self.assertEqual(run_alone("make-edges", "--check"), (0, b"edges that differ: none\n", ""))

    def test_document_bytes(self):
        voice = dict(cases.sections_of((EXAMPLES / "example.flv").read_bytes()))
        self.assertEqual(voice[b"sts.header"], struct.pack("<IIIffIfffI", 2, 0, 8000, 0, 0, 0, 0, 0, 0, 0))
        self.assertEqual(voice[b"sts.resoffs"], struct.pack("<III", 0, 2, 5))
        self.assertEqual(voice[b"sts.res"], bytes([0xFE, 0xEF, 0xFF, 0x7E, 0x6F]))
        self.assertEqual(voice[b"dip.index"], b"\1\0\0\0\6pau-aa\0\0\1\1")
        self.assertEqual((EXAMPLES / "example.sht").read_bytes(), b"\2\3pau\2\0\2aa\2\0\0")


if __name__ == "__main__":
    unittest.main()
