"""Tests of the player; the environment variable PLAYER names the program."""
import bisect
import hashlib
import itertools
import math
import os
import random
import re
import resource
import shutil
import signal
import struct
import subprocess
import sys
import tempfile
import unittest
import wave
from fractions import Fraction
from pathlib import Path

sys.path.insert(0, str(Path(__file__).resolve().parent.parent / "tools"))
import cases
from cases import EXAMPLES, NONE, REPO, Segment, Target, bits, index_bytes, real, sheet, typed, whole
from formats import TEXT, Header, Refused, found_name, number_of, open_voice, read_sheet, shown_name, voice_file

PLAYER = os.environ["PLAYER"]
VALGRIND = ["valgrind", "--quiet", "--leak-check=full", "--error-exitcode=99"] if shutil.which("valgrind") else None
EXAMPLE = EXAMPLES / "example.flv", EXAMPLES / "example.sht"
YARD = EXAMPLES / "yard.flv", EXAMPLES / "yard.sht"

JOINS = "none", "simple", "modified"
FILTERS = (), ("--filter", "float"), ("--filter=fixed",)

# Every form in which a call can be asked for.
TABLES = ("--report",), ("--ends",)
SOUNDS = (), ("--raw",), ("--wav", "-"), ("--wav", "call.wav"), ("--gain", "40")
FORMS = *SOUNDS, *TABLES, *((*table, "--wav", "call.wav") for table in TABLES)

# The samples of YARD as the Rust speaks them: how many, and the first digits of their SHA-256.
DIGESTS = {
    ("modified", "fixed"): (8377, "fdfe41ac235a167c"),
    ("modified", "float"): (8377, "7e0895abc1510db9"),
    ("simple", "fixed"): (7450, "3c6fdec51d8108f5"),
    ("simple", "float"): (7450, "a949fd1da786f65b"),
    ("none", "fixed"): (0, "e3b0c44298fc1c14"),
    ("none", "float"): (0, "e3b0c44298fc1c14"),
}


def run(*words, before=(), **more):
    """The player's exit status, standard output and standard error."""
    command = [*before, PLAYER, *map(str, words)]
    done = subprocess.run(command, stdout=subprocess.PIPE, stderr=subprocess.PIPE, check=False, **more)
    return done.returncode, done.stdout, done.stderr.decode()


class InFolder(unittest.TestCase):
    def setUp(self):
        folder = tempfile.TemporaryDirectory()
        self.addCleanup(folder.cleanup)
        self.folder = Path(folder.name)

    def file(self, name, data):
        path = self.folder / name
        path.write_bytes(data)
        return path

    def told(self, words, *more):
        """Exit status, output and messages of a call in every form, and the WAV file beside them."""
        path, found = self.folder / "call.wav", []
        for form in FORMS:
            done = run(*words, *form, *more, cwd=self.folder)
            found.append((done, path.read_bytes() if path.exists() else None))
            path.unlink(missing_ok=True)
        return found

    def unfit(self):
        """The files of calls that are refused, with each number from 1 to 12 and 17."""
        voices, sheets = cases.unfit_voices(YARD[0].read_bytes()), [*cases.unfit_sheets(), *cases.unfit_calls()]
        calls = [(self.file(f"{i}.flv", data), YARD[1]) for i, (_, _, data) in enumerate(voices)]
        return calls + [(YARD[0], self.file(f"{i}.sht", data)) for i, (_, _, data) in enumerate(sheets)]


class Output(InFolder):
    def test_document(self):
        lines = b"8000 2 5\n1 2 8 132\n2 3 0 -8 -132\n"
        self.assertEqual(run(*EXAMPLE, "--join", "simple", "--filter", "fixed"), (0, lines, ""))

    def test_wav(self):
        path = self.folder / "yard.wav"
        status, text, message = run(*YARD, "--wav", path)
        raw = run(*YARD, "--raw")[1]
        data = path.read_bytes()
        header = b"RIFF" + struct.pack("<I", 36 + len(raw)) + b"WAVEfmt "
        header += struct.pack("<IHHIIHH", 16, 1, 1, 8000, 16000, 2, 16) + b"data" + struct.pack("<I", len(raw))
        self.assertEqual((status, text, data), (0, b"", header + raw))
        self.assertEqual(len(header), 44)
        self.assertIn(f"{path}: {len(raw) / 16000:.3f} seconds, {len(raw) // 2} samples at 8000 a second, ", message)
        status, stream, message = run(*YARD, "--wav", "-")
        self.assertEqual((status, stream), (0, data))
        self.assertTrue(message.startswith("standard output: 1.047 seconds"), message)
        with wave.open(str(path)) as file:
            self.assertEqual(file.getnframes() * 2, len(raw))

    def test_text_and_raw_agree(self):
        status, text, _ = run(*YARD)
        lines = [list(map(int, line.split())) for line in text.decode().splitlines()]
        rate, periods, length = lines[0]
        samples = [sample for line in lines[1:] for sample in line[2:]]
        self.assertEqual((status, rate, periods, length), (0, 8000, len(lines) - 1, len(samples)))
        for number, line in enumerate(lines[1:], 1):
            self.assertEqual((line[0], line[1]), (number, len(line) - 2))
        self.assertEqual(struct.pack(f"<{length}h", *samples), run(*YARD, "--raw")[1])

    def test_samples(self):
        for (join, how), expected in DIGESTS.items():
            status, raw, _ = run(*YARD, "--raw", "--join", join, "--filter", how)
            found = len(raw) // 2, hashlib.sha256(raw).hexdigest()[:16]
            self.assertEqual((status, found), (0, expected), (join, how))

    def test_picture(self):
        """The picture in docs/ shows what is spoken."""
        command = [REPO / "tools/draw", YARD[1], "--voice", YARD[0]]
        spoken = run(*YARD, "--filter", "fixed")[1]
        drawn = subprocess.run(command, input=spoken, stdout=subprocess.PIPE, check=True).stdout
        self.assertEqual(drawn, (REPO / "docs/sheet-to-sound.svg").read_bytes())

    def test_fold(self):
        voice = EXAMPLES / "example.flv"
        words = [Segment(b"pau"), Segment(b"ah")], [Segment(b"pau"), Segment(b"aa")]
        voice = self.file("two.flv", cases.changed(voice.read_bytes(), b"dip.index", lambda _: two_entries()))
        ah, aa = (self.file(f"{i}.sht", sheet(word)) for i, word in enumerate(words))
        plain, folded = (run(voice, ah, "--join", "simple", *fold)[1] for fold in ((), ("--fold",)))
        self.assertNotEqual(plain, folded)
        self.assertEqual(folded, run(voice, aa, "--join", "simple")[1])

    def test_longer_sheet(self):
        """A sheet that goes on begins with the samples of the shorter one."""
        parts = [Segment(*part) for part in SHORT]
        more = [Segment(b"b", real(0.6)), Segment(b"ih", real(0.8))]
        first = self.file("first.sht", sheet(parts, TARGETS[:2]))
        second = self.file("second.sht", sheet(parts + more, TARGETS))
        first, second = (run(YARD[0], path, "--raw")[1] for path in (first, second))
        self.assertTrue(4000 < len(first) < len(second))
        self.assertTrue(second.startswith(first))

    def test_no_period(self):
        path = self.folder / "none.wav"
        note = "player: note: the call is empty: "
        self.assertEqual(run(*YARD, "--join", "none"), (0, b"8000 0 0\n", note + "join none speaks no period\n"))
        self.assertEqual(run(*YARD, "--join", "none", "--wav", path)[0], 0)
        self.assertEqual(len(path.read_bytes()), 44)


    def test_gain(self):
        """Each sample to the nearest, and no louder than the loudest can be."""
        plain, softer, louder = (samples_of(run(*YARD, "--raw", "--gain", gain)) for gain in ("0", "-6", "6"))
        self.assertEqual(plain, samples_of(run(*YARD, "--raw")))
        peak, factor = max(map(abs, plain)), 10 ** (-6 / 20)
        self.assertTrue(all(abs(a * factor - b) <= 0.5 for a, b in zip(plain, softer)))
        self.assertLess(peak * 10 ** (6 / 20), 32767)
        self.assertTrue(all(abs(a / factor - b) <= 0.501 for a, b in zip(plain, louder)))
        done = run(*YARD, "--raw", "--gain=40")
        gain = float(re.fullmatch(r"player: note: the gain is (.*) decibels: 40 would clip\n", done[2])[1])
        self.assertEqual(samples_of(done), samples_of(run(*YARD, "--raw", "--gain", gain)))
        self.assertTrue(32767 * 10 ** (-0.1 / 20) <= max(map(abs, samples_of(done))) <= 32767)

    def test_streams(self):
        """A hyphen is standard input, for either file."""
        printed = run(*YARD)
        self.assertEqual(run(YARD[0], "-", input=YARD[1].read_bytes()), printed)
        self.assertEqual(run("-", YARD[1], input=YARD[0].read_bytes()), printed)
        message = run(YARD[0], "-", input=b"")[2]
        self.assertTrue(message.startswith("player: refused 8: standard input is malformed, at byte 0: "), message)


def samples_of(done):
    status, raw, _ = done
    assert status == 0
    return struct.unpack(f"<{len(raw) // 2}h", raw)


# ---- the report and the ends, by documents 01 and 02


def as_f32(number):
    """The f32 nearest to a number; what is too large is infinite."""
    try:
        return struct.unpack("<f", struct.pack("<f", number))[0]
    except OverflowError:
        return math.copysign(math.inf, number)


def nearest(place):
    """The whole number nearest to a float, an exact half going up; 0 below zero, at most what 64 bits hold."""
    return 0 if place <= 0 else 2**64 - 1 if place >= 2**64 else (2 * Fraction(place) + 1) // 2


def samples_at(rate, time):
    """A target end: a time in samples, in f32, then to the nearest."""
    return nearest(as_f32(time * rate))


def modified_ends(rate, segments):
    """The target ends of each pair's two units, by the sheet's ends."""
    times = [number_of(segment.end) for segment in segments]
    return [samples_at(rate, time) for a, b in zip(times, times[1:]) for time in (a, as_f32(as_f32(a + b) / 2))]


def units_up_to(ends, sizes):
    """The unit, from 0, that takes the mark of each period: unit by unit, marks up to the target end are taken."""
    units, unit = [], 0
    for mark in itertools.accumulate(sizes):
        while mark > ends[unit]:
            unit += 1
        units.append(unit)
    return units


def units_of(halves):
    """The same in the simple join, for halves that are lists of sizes: each takes the marks of its own periods."""
    return [unit for unit, half in enumerate(halves) for _ in half]


def simple_ends(halves):
    """Where each half ends in the simple join."""
    return list(itertools.accumulate(map(sum, halves)))


def report_of(sizes, units):
    """Pair, half, first sample and size of each period, by the unit that takes its mark."""
    firsts = itertools.accumulate(sizes, initial=0)
    return [(unit // 2 + 1, unit % 2 + 1, first, size) for unit, first, size in zip(units, firsts, sizes)]


def report_text(report, segments):
    names = [shown_name(segment.name) for segment in segments]
    rows = [(number, *line, *names[line[0] - 1 : line[0] + 1]) for number, line in enumerate(report, 1)]
    return "".join(" ".join(map(str, row)) + "\n" for row in rows).encode()


def ends_text(report, segments, rate):
    """Each phone ends with the last period of its pair's first half, or else with the period before."""
    halves, rows = [line[:2] for line in report], []
    ends = [0] + [first + size for _, _, first, size in report]
    for number, segment in enumerate(segments, 1):
        last = ends[bisect.bisect_right(halves, (number, 1))]
        rows.append(f"{number} {shown_name(segment.name)} {samples_at(rate, number_of(segment.end))} {last}\n")
    return "".join(rows).encode()


# Four names, whose halves have periods of these samples: some are empty, some have periods of no sample.
HALVES = {
    (b"a", b"a"): ([3, 0], [0, 4]),
    (b"a", b"b"): ([], [0, 0]),
    (b"b", b"a"): ([0], [5]),
    (b"b", b"b"): ([7, 2, 0], []),
}


def voice_of_halves(rate, pairs=HALVES):
    sizes, entries = [], []
    for (left, right), (first, second) in pairs.items():
        entries.append((left + b"-" + right, len(sizes), len(first), len(second)))
        sizes += first + second
    return voice_file(Header(rate=rate), [[]] * len(sizes), [bytes(size) for size in sizes], entries)


def random_time(draw, most):
    """An end of a phone: mostly a time, now and then absent, whole or below zero."""
    kind = draw.randrange(12)
    return NONE if kind == 0 else whole(draw.randrange(-1, 2)) if kind == 1 else real(draw.uniform(-0.1, most))


def random_segments(draw, most):
    return [Segment(draw.choice([b"a", b"b"]), random_time(draw, most)) for _ in range(draw.randrange(2, 9))]


# Floats by their bits, and the whole numbers nearest to them.
PLACES = {
    0x00000001: 0,
    0x3EFFFFFF: 0,  # 0.49999997
    0x3F000000: 1,  # 0.5
    0x3F7FFFFF: 1,
    0x3FBFFFFF: 1,  # 1.4999999
    0x3FC00000: 2,  # 1.5
    0x40200000: 3,  # 2.5
    0x4AFFFFFD: 8388607,  # 8388606.5
    0x4AFFFFFF: 8388608,  # 8388607.5
    0x4B000001: 8388609,
    0x4B7FFFFF: 16777215,
    0x5F7FFFFF: 2**64 - 2**40,
    0x5F800000: 2**64 - 1,
    0x7F7FFFFF: 2**64 - 1,
    0x80000000: 0,
    0xBE800000: 0,  # -0.25
    0xBF000000: 0,  # -0.5
    0xBFC00000: 0,
    0xFF7FFFFF: 0,
}

# Halves of one pair or two, with periods of no sample at the head of a unit; then the pair and half of each period, as
# two digits, and the sample where each phone ends.
EMPTY_HEADS = {
    "one": ([[2], [0, 3]], [11, 12, 12], [2, 5]),
    "a run": ([[2], [0, 0, 0, 3]], [11, 12, 12, 12, 12], [2, 5]),
    "a run over a joint of two pairs": ([[2], [3, 0], [0, 0, 4], [1]], [11, 12, 12, 21, 21, 21, 22], [2, 9, 10]),
    "at every head": ([[0, 2], [0, 3], [0, 4], [0, 1]], [11, 11, 12, 12, 21, 21, 22, 22], [2, 9, 10]),
    "whole units": ([[2], [0, 0], [0], [0, 3]], [11, 12, 12, 21, 22, 22], [2, 2, 5]),
    "after a unit without periods": ([[2], [], [0, 4], []], [11, 21, 21], [2, 6, 6]),
    "after a pair without periods": ([[], [], [0], [0, 4]], [21, 22, 22], [0, 0, 4]),
    "a first unit without periods": ([[], [0, 2], [3], []], [12, 12, 21], [0, 5, 5]),
    "a first unit of no sample": ([[0, 0], [0, 2], [], [0]], [11, 11, 12, 12, 22], [0, 2, 2]),
    "the last": ([[2], [3], [0], [0]], [11, 12, 21, 22], [2, 5, 5]),
    "all": ([[0], [0], [0], [0]], [11, 12, 21, 22], [0, 0, 0]),
}


class Report(InFolder):
    """--report and --ends, held to documents 01 and 02 by the sizes that the player prints."""

    def check(self, voice, call, *words, halves=None):
        """Compares both tables of a call. Returns how many periods it has, or None if it is refused."""
        status, text, message = run(voice, call, *words)
        if status != 0:
            for option in ("--report", "--ends"):
                self.assertEqual(run(voice, call, option, *words), (1, b"", message))
            return None
        rows = [line.split(b" ", 2) for line in text.splitlines()]
        rate, segments = int(rows[0][0]), read_sheet(call.read_bytes())[0]
        sizes = [int(row[1]) for row in rows[1:]]
        if halves is None:
            units = units_up_to(modified_ends(rate, segments), sizes)
        else:
            units, stored = units_of(halves), sum(halves, [])
            self.assertEqual(sizes, stored if len(stored) > 1 else [])
        report = report_of(sizes, units)
        self.same(run(voice, call, "--report", *words), (0, report_text(report, segments), message))
        self.same(run(voice, call, "--ends", *words), (0, ends_text(report, segments, rate), message))
        return len(report)

    def same(self, done, expected):
        """Line by line: unittest takes minutes to show how long texts differ."""
        self.assertEqual(done[::2], expected[::2])
        for line, other in itertools.zip_longest(done[1].splitlines(), expected[1].splitlines()):
            self.assertEqual(line, other)

    def test_document(self):
        lines = b"1 1 1 0 2 pau aa\n2 1 2 2 3 pau aa\n"
        self.assertEqual(run(*EXAMPLE, "--join", "simple", "--report"), (0, lines, ""))
        self.assertEqual(run(*EXAMPLE, "--join", "simple", "--ends"), (0, b"1 pau 0 2\n2 aa 0 5\n", ""))

    def test_fold_leaves_names(self):
        call = self.file("call.sht", sheet([Segment(b"pau"), Segment(b"ah")]))
        lines = b"1 1 1 0 2 pau ah\n2 1 2 2 3 pau ah\n"
        self.assertEqual(run(EXAMPLE[0], call, "--join", "simple", "--fold", "--report"), (0, lines, ""))

    def test_yard(self):
        self.assertEqual(self.check(*YARD), 119)
        self.assertEqual(self.check(*YARD, "--filter", "fixed"), 119)
        self.assertEqual(self.check(*YARD, "--fold", "--filter", "float"), 119)
        ends = run(*YARD, "--ends")[1].split()
        self.assertEqual(ends[:8], b"1 pau 800 737 2 n 1520 1494".split())
        self.assertEqual(ends[-4:], b"9 pau 8960 8377".split())

    def test_simple_join(self):
        """With empty halves, and with periods of no sample at the head of a unit. These move no end of a phone."""
        draw = random.Random(2)
        voice = self.file("halves.flv", voice_of_halves(8000))
        periods = heads = 0
        for _ in range(40):
            segments = random_segments(draw, 0.01)
            halves = [half for a, b in zip(segments, segments[1:]) for half in HALVES[a.name, b.name]]
            call = self.file("call.sht", sheet(segments))
            periods += self.check(voice, call, "--join", "simple", halves=halves)
            sizes, units = sum(halves, []), units_of(halves)
            others = units_up_to(simple_ends(halves), sizes)  # the first that ends there, not the maker
            heads += sum(other < unit for other, unit in zip(others, units))
            self.assertEqual(*(ends_text(report_of(sizes, takers), segments, 8000) for takers in (units, others)))
        self.assertGreater(periods, 200)
        self.assertGreater(heads, 60)

    def test_empty_heads(self):
        """In the simple join a period of no sample at the head of a unit is that unit's own. Pairs never fall."""
        for what, (halves, units, reached) in EMPTY_HEADS.items():
            names = [b"a", b"b", b"c"][: len(halves) // 2 + 1]
            pairs = dict(zip(zip(names, names[1:]), zip(halves[::2], halves[1::2])))
            voice = self.file("heads.flv", voice_of_halves(8000, pairs))
            call = self.file("heads.sht", sheet([Segment(name) for name in names]))
            lines, ends = (run(voice, call, "--join=simple", word)[1].splitlines() for word in ("--report", "--ends"))
            found = [int(b"".join(line.split()[1:3])) for line in lines]
            self.assertEqual(found, units, what)
            self.assertEqual(found, sorted(found), what)
            self.assertEqual([int(line.split()[3]) for line in ends], reached, what)
            self.assertEqual(self.check(voice, call, "--join=simple", halves=halves), len(units), what)

    def test_empty_head_of_the_example(self):
        """Document 01's example with a period of no sample at the head of its second half: lines, ends, samples."""
        residuals, entry = [b"\xfe\xef", b"", b"\xff\x7e\x6f"], (b"pau-aa", 0, 1, 2)
        voice = self.file("head.flv", voice_file(Header(order=1), [[10], [20], [30]], residuals, [entry]))
        for words, text in [
            (("--report",), b"1 1 1 0 2 pau aa\n2 1 2 2 0 pau aa\n3 1 2 2 3 pau aa\n"),
            (("--ends",), b"1 pau 0 2\n2 aa 0 5\n"),
            ((), b"8000 3 5\n1 2 8 132\n2 0\n3 3 0 -8 -132\n"),
        ]:
            self.assertEqual(run(voice, EXAMPLE[1], "--join=simple", *words), (0, text, ""))

    def test_modified_join(self):
        """Ends that rise and fall, so that some units take no period."""
        draw = random.Random(3)
        voice = self.file("halves.flv", voice_of_halves(1000))
        empty_halves = 0
        for _ in range(60):
            segments = random_segments(draw, 0.5)
            times = sorted(draw.uniform(0, 0.6) for _ in range(3))
            targets = [Target(real(time), real(draw.uniform(20, 300))) for time in times]
            call = self.file("call.sht", sheet(segments, targets))
            periods = self.check(voice, call)
            if periods:
                halves = {tuple(line.split()[1:3]) for line in run(voice, call, "--report")[1].splitlines()}
                empty_halves += 2 * len(segments) - 2 - len(halves)
        self.assertGreater(empty_halves, 60)

    def test_large(self):
        """A voice of megabytes and a sheet of 4,096 segments."""
        draw = random.Random(4)
        sizes = [draw.randrange(200, 900) for _ in range(5000)]
        names = [f"p{number}".encode() for number in range(50)]
        pairs = [(a, b) for a in names for b in names]
        entries = [(a + b"-" + b, 2 * place, 1, 1) for place, (a, b) in enumerate(pairs)]
        rows = [[0] * 16] * len(sizes)
        voice = voice_file(Header(order=16, rate=16000), rows, [bytes([255]) * size for size in sizes], entries)
        self.assertGreater(len(voice), 2_000_000)
        segments = [Segment(draw.choice(names), real(number / 50)) for number in range(4096)]
        places = [pairs.index((a.name, b.name)) for a, b in zip(segments, segments[1:])]
        halves = [[size] for place in places for size in sizes[2 * place : 2 * place + 2]]
        files = self.file("large.flv", voice), self.file("large.sht", sheet(segments))
        self.assertEqual(self.check(*files, "--join=simple", halves=halves), 8190)

    def test_no_period(self):
        pair = [Segment(b"pau", real(0.5)), Segment(b"n", whole(1))]
        lines = b"1 pau 4000 0\n2 n 8000 0\n"
        for segments, words, ends in [
            ([], (), b""),
            (pair[:1], (), lines[:13]),
            (pair, (), lines),
            (pair, ("--join", "none"), lines),
        ]:
            call = self.file("call.sht", sheet(segments))
            status, text, message = run(YARD[0], call, "--report", *words)
            self.assertEqual((status, text), (0, b""))
            self.assertIn("player: note: the call is empty: ", message)
            self.assertEqual(run(YARD[0], call, "--ends", *words), (0, ends, message))

    def sheet_ends(self, voice, ends):
        """The samples where the sheet ends phones, as the player prints them in the simple join."""
        call = self.file("call.sht", sheet([Segment(b"a", end) for end in ends]))
        return [int(line.split()[2]) for line in run(voice, call, "--ends", "--join=simple")[1].splitlines()]

    def test_sheet_ends(self):
        """By the engine's rule for target ends, in the simple join too: f32, to the nearest, 0 below zero."""
        times = {
            NONE: 0,
            whole(-3): 0,
            real(-0.5): 0,
            real(-3e38): 0,  # times the rate minus infinity
            whole(3): 24000,
            whole(2**31 - 1): 17179869184000,
            real(0.0000624): 0,
            real(0.0001249): 1,
            real(0.7): 5600,  # 0.7 is rounded down, and the product up again
            real(0.19): 1520,
            real(0.455): 3640,  # the product is below it
            real(1e30): 2**64 - 1,
            real(3e38): 2**64 - 1,
        }
        self.assertEqual(self.sheet_ends(YARD[0], times), list(times.values()))
        self.assertEqual([samples_at(8000, number_of(time)) for time in times], list(times.values()))

    def test_places(self):
        """At a rate of 1 an end is its own product: the floats at which rounding goes wrong, then many more."""
        voice = self.file("one.flv", voice_of_halves(1))
        ends = [bits(word) for word in PLACES]
        self.assertEqual(self.sheet_ends(voice, ends), list(PLACES.values()))
        self.assertEqual([nearest(number_of(end)) for end in ends], list(PLACES.values()))
        draw = random.Random(5)
        ties = [draw.randrange(2 ** draw.randrange(1, 23)) + 0.5 for _ in range(1000)]
        words = [real(tie)[1] + step for tie in ties for step in (-1, 0, 1)]
        words += [draw.randrange(0x3D000000, 0x60000000) for _ in range(1000)]
        ends = [bits(word) for word in words]
        self.assertEqual(self.sheet_ends(voice, ends), [nearest(number_of(end)) for end in ends])

    def test_typed_ends(self):
        """At a rate of 1 a text's end is its own f32, the nearest to the exact decimal."""
        voice = self.file("one.flv", voice_of_halves(1))
        places = {b"16777217": 16777216, b"16777219": 16777220, b"8388608.5": 8388608, b"8388609.5": 8388610}
        places |= {b"0.5": 1, b".4999999999": 1, b"0.4999999": 0, b"-3": 0, b"999999999999": 999999995904, b"2e9": 2}
        self.assertEqual(self.sheet_ends(voice, map(typed, places)), list(places.values()))
        draw = random.Random(8)
        texts = [*cases.TEXTS, *cases.ties(draw, 1500), *(cases.random_text(draw) for _ in range(2000))]
        ends = [nearest(number_of(bits(cases.nearest_bits(text)))) for text in texts]
        self.assertEqual(self.sheet_ends(voice, map(typed, texts)), ends)

    def test_typed_late_ends(self):
        """So the engine reads them: at a rate of 1, with marks at 1, 2 and 8,388,608, how many are taken."""
        voice = self.file("one.flv", voice_of_halves(1))
        pitches = whole(1), whole(1), bits(0x34000002), bits(0x34000002)
        targets = [Target(typed(b"%d" % place), pitch) for place, pitch in enumerate(pitches)]
        for text, count in {
            b"8388607.25": 2,  # in the middle, and the even one is below
            b"8388607.2501": 3,
            b"8388607.2499": 2,
            b"8388607.5": 3,
            b"8388607.75": 3,
            b"8388607e9": 2,
            b"2.4 seconds": 2,
            b"1.50.": 2,
            b".5000000000": 1,
            b" 8388608": 0,
        }.items():
            call = self.file("call.sht", sheet([Segment(b"a", typed(text))] * 2, targets))
            report = report_text(report_of([1, 1, 8388606][:count], [0] * count), [Segment(b"a")] * 2)
            self.assertEqual(run(voice, call, "--report")[:2], (0, report), text)

    def test_rounded_ends(self):
        """At a rate of 1, with a mark at each of 1 to 5: the pair and half of each period, by the ends of its phones."""
        voice = self.file("one.flv", voice_of_halves(1))
        below = struct.unpack("<f", struct.pack("<I", 0x401FFFFF))[0]  # the last float below 2.5
        for ends, units in {
            (0.5, 0.5): [11],
            (as_f32(0.49999997), as_f32(0.49999997)): [],
            (2.5, 2.5): [11, 11, 11],
            (below, below): [11, 11],
            (1, 4): [11, 12, 12],  # the middle is 2.5
            (1, 3.9999998): [11, 12, 12],  # so it is in f32
            (1, 3.9999995): [11, 12],
            (2.5, 4): [11, 11, 11],  # the middle is 3.25
            (1.5, 3.5): [11, 11, 12],
            (2.5, -10): [11, 11, 11],
            (-0.5, 1.5): [12],
            (-0.5, 1.25): [],
            (1.25, 2.25, 3.75): [11, 12, 22],  # the middles are 1.75 and 3
            (1.5, 2.5, 4.5): [11, 11, 21, 22],  # the middles are 2 and 3.5
        }.items():
            segments = [Segment(name, real(end)) for name, end in zip((b"a", b"b", b"a"), ends)]
            call = self.file("call.sht", sheet(segments, [Target(NONE, whole(1)), Target(whole(5), whole(1))]))
            lines = run(voice, call, "--report")[1].splitlines()
            self.assertEqual([int(b"".join(line.split()[1:3])) for line in lines], units, ends)
            self.assertEqual(run(voice, call)[1].splitlines()[0], b"1 %d %d" % (len(units), len(units)), ends)
            self.assertEqual(self.check(voice, call), len(units), ends)

    def test_late_ends(self):
        """At a rate of 1, with marks at 1, 2 and about 2^23, where a float has no half: how many are taken."""
        voice = self.file("one.flv", voice_of_halves(1))
        for f0, mark, counts in [
            (0x34000002, 8388608, {8388607: 2, 8388607.5: 3, 8388608: 3}),
            (0x34000000, 8388610, {8388608: 2, 8388609: 2, 8388610: 3}),
        ]:
            pitches = whole(1), whole(1), bits(f0), bits(f0)
            targets = [Target(whole(place), pitch) for place, pitch in enumerate(pitches)]
            for end, count in counts.items():
                call = self.file("call.sht", sheet([Segment(b"a", real(end))] * 2, targets))
                sizes = [1, 1, mark - 2][:count]
                report = report_text(report_of(sizes, [0] * count), [Segment(b"a")] * 2)
                self.assertEqual(run(voice, call, "--report"), (0, report, ""), end)

    def test_last_end(self):
        """16,777,215 is spoken, and the next float is refused in the modified join, by either target end."""
        voice = self.file("one.flv", voice_of_halves(1))
        for ends, status in {
            (16777215, 16777215): 0,
            (16777216, 0): 1,
            (0, 33554430): 0,
            (0, 33554432): 1,
            (-2, 33554432): 0,  # the sum is below 2^25
        }.items():
            call = self.file("call.sht", sheet([Segment(b"a", real(end)) for end in ends]))
            self.assertEqual(run(voice, call)[0], status, ends)
            self.assertEqual(run(voice, call, "--join=simple")[0], 0, ends)

    def test_one_more_period(self):
        """A mark on the sample that a half goes up to is spoken. The call is that of an end on the sample itself."""
        targets = [Target(NONE, whole(64)), Target(whole(1), whole(64))]  # a mark every 125 samples

        def spoken(place, *words):
            phones = [Segment(name, real(place / 8000)) for name in (b"pau", b"n")]
            status, text, _ = run(YARD[0], self.file("call.sht", sheet(phones, targets)), *words)
            self.assertEqual(status, 0)
            return text

        for words in ((), ("--raw", "--filter=fixed"), ("--report",), ("--ends",)):
            short, long = spoken(1124, *words), spoken(1125, *words)
            self.assertTrue(spoken(1124.4999, *words) == short, words)
            self.assertTrue(spoken(1124.5, *words) == long, words)
            self.assertTrue(spoken(1125.4999, *words) == long, words)
        self.assertEqual([len(spoken(place, "--raw")) // 2 for place in (1124.4999, 1124.5)], [1000, 1125])

    def test_ends_in_simple_join(self):
        """They are printed, and nothing else turns on them."""
        draw = random.Random(6)
        voice = self.file("one.flv", voice_of_halves(1))
        for _ in range(10):
            timed = [Segment(draw.choice([b"a", b"b"]), real(draw.randrange(-4, 40) / 4)) for _ in range(8)]
            paths = [
                self.file(f"{number}.sht", sheet(segments))
                for number, segments in enumerate((timed, [Segment(segment.name) for segment in timed]))
            ]
            for words in ((), ("--report",)):
                with_ends, without = (run(voice, path, "--join=simple", *words) for path in paths)
                self.assertEqual(with_ends, without)
            with_ends, without = (run(voice, path, "--join=simple", "--ends")[1].splitlines() for path in paths)
            self.assertEqual([line.split()[::3] for line in with_ends], [line.split()[::3] for line in without])
            ends = [nearest(number_of(segment.end)) for segment in timed]
            self.assertEqual([int(line.split()[2]) for line in with_ends], ends)

    def test_names(self):
        """Each name is one word, as tools/sheet writes it."""
        call = self.file("call.sht", sheet([Segment(name) for name in (b"", b"\\0", b"a\\", b"#")]))
        text = run(EXAMPLE[0], call, "--join=simple", "--ends")[1]
        self.assertEqual([line.split()[1] for line in text.splitlines()], [b"\\0", b"\\\\0", b"a\\\\", b"#"])
        text = run(EXAMPLE[0], call, "--join=simple", "--report")[1]
        self.assertEqual(text.splitlines()[0], b"1 1 1 0 2 \\0 \\\\0")
        self.assertEqual(text.splitlines()[-1], b"6 3 2 12 3 a\\\\ #")

    def test_refusals(self):
        """As without the options, and nothing else."""
        seen = set()
        for files in self.unfit():
            self.assertIsNone(self.check(*files))
            seen.add(int(run(*files, "--report")[2].split()[2].rstrip(":")))
        self.assertEqual(seen, {*range(1, 13), 17})

    def test_wav(self):
        """Sound is written where --wav names a file, as it is without the table."""
        path, alone = self.folder / "both.wav", self.folder / "alone.wav"
        run(*YARD, "--wav", alone, "--gain", "3")
        for option in ("--report", "--ends"):
            status, text, message = run(*YARD, option, "--wav", path, "--gain", "3")
            self.assertEqual((status, text), (0, run(*YARD, option)[1]))
            self.assertTrue(message.startswith(f"{path}: 1.047 seconds, "), message)
            self.assertEqual(path.read_bytes(), alone.read_bytes())
            path.unlink()
            status, text, message = run(*YARD, option, "--wav", "/nowhere/at-all")
            self.assertEqual((status, text), (1, b""))

    @unittest.skipUnless(os.path.exists("/dev/full"), "no /dev/full")
    def test_full_disk(self):
        for option in ("--report", "--ends"):
            with open("/dev/full", "wb") as full:
                done = subprocess.run([PLAYER, *YARD, option], stdout=full, stderr=subprocess.PIPE, check=False)
            self.assertEqual((done.returncode, done.stderr[:36]), (1, b"player: cannot write standard output"))


class Filter(InFolder):
    """Without --filter no filter is named, and all is as with --filter float."""

    def compare(self, *words):
        """What a call without --filter gives in every form, which has to be that of float, and what fixed gives."""
        unnamed, named, fixed = (self.told(words, *how) for how in FILTERS)
        self.assertTrue(unnamed == named, words)  # unittest takes minutes to show how long texts differ
        return unnamed, fixed

    def test_joins(self):
        """Sound is that of float and not that of fixed; tables, join none and document 01's example are the same."""
        for files, join, fold in itertools.product((EXAMPLE, YARD), JOINS, ((), ("--fold",))):
            unnamed, fixed = self.compare(*files, "--join", join, *fold)
            self.assertEqual({done[0] for done, _ in unnamed + fixed}, {0})
            differ = [one != other for one, other in zip(unnamed, fixed)]
            heard = files == YARD and join != "none"
            self.assertEqual(differ, [heard and form not in TABLES for form in FORMS], (files, join))

    def test_samples(self):
        for join in JOINS:
            raw = run(*YARD, "--raw", "--join", join)[1]
            found = len(raw) // 2, hashlib.sha256(raw).hexdigest()[:16]
            self.assertEqual(found, DIGESTS[join, "float"], join)

    def test_example_with_rows(self):
        voice = self.file("rows.flv", cases.example_with_rows())
        for how, sample in ((), -7), (("--filter=float",), -7), (("--filter=fixed",), -8):
            lines = f"8000 2 5\n1 2 8 132\n2 3 0 {sample} -132\n".encode()
            self.assertEqual(run(voice, EXAMPLE[1], "--join=simple", *how), (0, lines, ""))

    def test_default_join(self):
        """Without --join too."""
        self.assertTrue(self.compare(*YARD)[0] == self.told((*YARD, "--join", "modified")))

    def test_refusals(self):
        seen = set()
        for files in self.unfit():
            unnamed, fixed = self.compare(*files)
            message = unnamed[0][0][2]
            self.assertEqual({*unnamed, *fixed}, {((1, b"", message), None)})
            seen.add(int(re.match("player: refused ([0-9]+): ", message)[1]))
        self.assertEqual(seen, {*range(1, 13), 17})

    def test_named_twice(self):
        """The last one counts."""
        for first, last in itertools.permutations(("fixed", "float")):
            twice = run(*YARD, "--filter", first, "--filter", last)
            self.assertTrue(twice == run(*YARD, f"--filter={last}"), last)


# Places of targets, their pitches (None is an empty box), and these filled in; and whether 0 in the empty boxes gives
# another call.
EMPTY_BOXES = {
    "the first": ((0.4, 1), (None, 84), (120, 84), True),
    "one alone": ((1,), (None,), (120.0,), True),
    "in the middle": ((0, 0.5, 1), (132, None, 90), (132, 132, 90), True),
    "the last": ((0, 1), (99.5, None), (99.5, 99.5), True),
    "several": ((0, 0.2, 0.4, 0.6, 1), (90, None, None, None, 140), (90, 90, 90, 90, 140), True),
    "all": ((0.1, 0.2, 0.6, 1), (None, None, None, None), (120, 120, 120, 120), True),
    "all but the last": ((0.1, 0.2, 0.6, 1), (None, None, None, 80), (120, 120, 120, 80), True),
    "one that makes no mark, then one that does": ((0, 0.001, 0.002, 1), (90, 70, None, None), (90, 70, 70, 70), True),
    "a place before the last one": ((0.5, 0.2, 1), (90, None, 80), (90, 90, 80), True),
    "after a written 0": ((0, 0.3, 0.6, 1), (90, 0, None, 90), (90, 0, 0, 90), False),
    "after a float 0": ((0, 0.3, 1), (90, 0.0, None), (90, 0.0, 0.0), False),
    "after one below zero": ((0, 0.3, 1), (90, -9, None), (90, -9, -9), False),
    "soon": ((1e-40, 1), (None, 90), (120, 90), True),  # a leap to 0 is refused with 10
}


def boxes(pitches):
    """Values of a sheet: whole numbers, floats, and None where there is none."""
    return [NONE if f0 is None else real(f0) if isinstance(f0, float) else whole(f0) for f0 in pitches]


class Pitch(InFolder):
    """An empty pitch box means that the last pitch goes on, at first 120 Hz. A written 0 is 0 Hz."""

    PHONES = [Segment(name, real(end)) for name, end in ((b"pau", 0.2), (b"n", 0.5), (b"ay", 0.8), (b"n", 1))]

    def told_of(self, targets, *words):
        call = self.file("call.sht", sheet(self.PHONES, targets))
        return self.told((YARD[0], call), *words)

    def test_filled_in(self):
        """In everything the call is that of the sheet with the boxes filled in. Only the modified join reads them."""
        for (what, (places, empty, filled, heard)), how in zip(EMPTY_BOXES.items(), itertools.cycle(FILTERS)):
            zeros = [0 if f0 is None else f0 for f0 in empty]
            sheets = [list(map(Target, map(real, places), boxes(f0s))) for f0s in (empty, filled, zeros)]
            told, full, zero = (self.told_of(targets, *how) for targets in sheets)
            self.assertTrue(told == full, what)  # unittest takes minutes to show how long texts differ
            self.assertEqual({done[0] for done, _ in told}, {0}, what)
            self.assertEqual(told != zero, heard, what)
            words = "--join=simple", *how
            self.assertTrue(self.told_of(sheets[0], *words) == self.told_of(sheets[2], *words), what)

    def test_refused(self):
        """What is refused with the box filled in is refused with the empty box."""
        for number, targets in [
            (12, [(0, whole(60_000)), (2, NONE)]),
            (11, [(0, real(1e-4)), (1, NONE)]),
            (10, [(0, NONE), (1e-40, NONE), (2e-40, whole(1000))]),
        ]:
            call = self.file("call.sht", sheet(self.PHONES, [Target(real(place), f0) for place, f0 in targets]))
            status, text, message = run(YARD[0], call)
            self.assertEqual((status, text), (1, b""))
            self.assertTrue(message.startswith(f"player: refused {number}: {call} "), message)

    def test_nearest_float(self):
        """The f32 goes on, not the whole number: marks fall on a sample as its periods of 2 to the -24 seconds do."""
        voice = self.file("voice.flv", voice_of_halves(16384))
        phones = [Segment(b"a", whole(1))] * 2
        done = []
        for written, second in [(whole(16777217), NONE), (real(16777216), real(16777216))]:
            targets = [Target(NONE, written), Target(real(2048 / 2**24), second)]
            done.append(run(voice, self.file("call.sht", sheet(phones, targets)), "--report"))
        self.assertTrue(done[0] == done[1])
        lines = [line.split() for line in done[0][1].splitlines()]
        sizes = {int(number): int(size) for number, _, _, _, size, *_ in lines if size != b"0"}
        self.assertEqual((len(lines), sizes), (2048, {1024: 1, 2048: 1}))

    def test_shortest(self):
        """18 bytes: a target at 1/80 s without a pitch. At 120 Hz the second mark is 133, of those up to 200."""
        call = self.file("call.sht", sheet([Segment(b""), Segment(b"", real(0.05))], [Target(real(0.0125))]))
        self.assertEqual(call.read_bytes().hex(), "0200020000" + "01cdcc4c3d" + "00" + "01" + "01cdcc4c3c" + "02")
        lines = b"1 1 2 0 66 \\0 \\0\n2 1 2 66 67 \\0 \\0\n"
        self.assertEqual(run(EXAMPLE[0], call, "--report")[:2], (0, lines))

    def test_many(self):
        """4,096 empty boxes are one long pitch."""
        targets = [Target(real(number / 4096)) for number in range(1, 4097)]
        self.assertTrue(self.told_of(targets) == self.told_of([Target(whole(1), whole(120))]))

    def test_random(self):
        draw, differ = random.Random(7), 0
        for _ in range(60):
            places = sorted(draw.uniform(-0.1, 1.1) for _ in range(draw.randrange(1, 9)))
            empty = [draw.choice([None, draw.randrange(60, 200), draw.uniform(60, 200)]) for _ in places]
            filled = list(itertools.accumulate([120, *empty], lambda last, f0: last if f0 is None else f0))[1:]
            zeros = [0 if f0 is None else f0 for f0 in empty]
            sheets = [list(map(Target, map(real, places), boxes(f0s))) for f0s in (empty, filled, zeros)]
            calls = [self.file(f"{number}.sht", sheet(self.PHONES, targets)) for number, targets in enumerate(sheets)]
            told, full, zero = (run(YARD[0], call, "--raw") for call in calls)
            self.assertTrue(told == full, (places, empty))
            differ += told != zero
        self.assertGreater(differ, 30)

    def test_longer_sheet(self):
        """A sheet that goes on begins with the samples of the shorter one, whose last pitches went on."""
        phones = [*self.PHONES, Segment(b"b", real(1.3)), Segment(b"ih", real(1.6))]
        targets = list(map(Target, map(real, (0, 0.4, 0.8, 1.7, 2)), boxes((116, None, None, None, 84))))
        calls = [self.file(f"{count}.sht", sheet(phones[:count], targets[: count - 1])) for count in (4, 5, 6)]
        spoken = [run(YARD[0], call, "--raw")[1] for call in calls]
        for shorter, longer in zip(spoken, spoken[1:]):
            self.assertTrue(8000 < len(shorter) < len(longer))
            self.assertTrue(longer.startswith(shorter))

    def test_places(self):
        """An absent place counts 0 all the same, as does an absent end: neither goes on."""
        for places, zeros in [
            ((NONE, real(1)), (whole(0), real(1))),
            ((real(0.5), NONE, real(1)), (real(0.5), real(0), real(1))),
        ]:
            f0s = whole(100), NONE, whole(80)
            told, zero = (self.told_of(list(map(Target, which, f0s))) for which in (places, zeros))
            self.assertTrue(told == zero)
            self.assertEqual({done[0] for done, _ in told}, {0})
        targets = [Target(whole(0), whole(100)), Target(whole(1))]
        for end in (NONE, whole(0)):
            phones = [*self.PHONES[:2], Segment(b"ay", end), self.PHONES[3]]
            lines = run(YARD[0], self.file("call.sht", sheet(phones, targets)), "--ends")[1].splitlines()
            self.assertEqual(lines[2].split()[:3], [b"3", b"ay", b"0"])

    def test_text(self):
        """A person's way: a text with empty boxes, made a sheet, spoken, and read back with what goes on."""
        text = "".join(f"segment {name.decode()} float {number_of(end):.3g} -\n" for name, end, _ in self.PHONES)
        sheets = []
        for boxes in (("-", "int 95", "-"), ("int 120", "int 95", "int 95")):
            lines = text + "".join(f"target float {place} {f0}\n" for place, f0 in zip((0.2, 0.6, 1), boxes))
            command = [REPO / "tools/sheet", "encode", "-", "-"]
            done = subprocess.run(command, input=lines.encode(), stdout=subprocess.PIPE, check=True)
            sheets.append(done.stdout)
        self.assertEqual(read_sheet(sheets[0])[1][0].f0, NONE)
        told, full = (run(YARD[0], self.file("call.sht", data)) for data in sheets)
        self.assertTrue(told == full)
        self.assertGreater(len(told[1]), 10_000)


def with_values(value, segments, targets):
    """Segments and targets, of which each value is another."""
    targets = [Target(value(pos), value(f0)) for pos, f0 in targets]
    return [segment._replace(end=value(segment.end)) for segment in segments], targets


def typed_yard():
    """The segments and targets of YARD, of which each value is typed."""
    return with_values(lambda value: typed(b"%.7g" % number_of(value)), *read_sheet(YARD[1].read_bytes()))


def as_floats(segments, targets):
    """A sheet with the floats that its texts count as, by whole numbers alone."""
    read = lambda value: bits(cases.nearest_bits(value[1])) if value[0] == TEXT else value
    return sheet(*with_values(read, segments, targets))


class Texts(InFolder):
    """Times and pitches typed as text: the call is that of the sheet with the floats. A note is all that is added."""

    def files(self, *parts):
        """A sheet, and the one with the floats."""
        return self.file("text.sht", sheet(*parts)), self.file("float.sht", as_floats(*parts))

    def both(self, *parts, words=()):
        """What is told of a sheet in every form is as with the floats, but for a note. Returns the notes."""
        calls, notes = self.files(*parts), set()
        told, full = (self.told((YARD[0], call), *words) for call in calls)
        for ((status, text, message), sound), other in zip(told, full):
            lines = message.splitlines(True)
            notes.update(line for line in lines if " texts in " in line)
            message = "".join(line for line in lines if " texts in " not in line)
            self.assertTrue(((status, text, message), sound) == other, (parts, words))
        return notes

    def test_yard(self):
        """All values typed: the samples are those of the Rust, and nothing is noted."""
        parts = typed_yard()
        floats = with_values(lambda value: real(number_of(value)), *read_sheet(YARD[1].read_bytes()))
        self.assertEqual(as_floats(*parts), sheet(*floats))
        for join, how in itertools.product(JOINS, FILTERS):
            self.assertEqual(self.both(*parts, words=("--join", join, *how)), set())
        for (join, how), expected in DIGESTS.items():
            raw = run(YARD[0], self.folder / "text.sht", "--raw", "--join", join, "--filter", how)[1]
            self.assertEqual((len(raw) // 2, hashlib.sha256(raw).hexdigest()[:16]), expected)

    def test_odd(self):
        """What is not read to its end, or has no digit, is spoken as what counts."""
        segments, targets = typed_yard()
        calls = []
        for end in (b"0.19s", b"0.19,", b"0,19", b"", b"-", b" 0.19", b"0.19e1", b"+.19s", b"+-.19", b"0.19\xb5s"):
            calls.append(([segments[0], segments[1]._replace(end=typed(end)), *segments[2:]], targets))
        for f0 in (b"132 Hz", b"1,32", b"132.0.1", b"132e1", b" 132", b"\x00132"):
            calls.append((segments, [targets[0], targets[1]._replace(f0=typed(f0)), *targets[2:]]))
        for pos in (b"0.2s", b"0,2", b"+.20."):
            calls.append((segments, [targets[0], targets[1]._replace(pos=typed(pos)), *targets[2:]]))
        for call in calls:
            self.assertEqual(len(self.both(*call)), 1, call)
            self.assertGreater(len(run(YARD[0], self.folder / "text.sht", "--raw")[1]), 2000, call)

    def test_no_digit(self):
        """It is 0 Hz, not a pitch that goes on."""
        spoken = []
        for f0 in (typed(b"none"), typed(b""), whole(0), NONE):
            targets = [Target(whole(0), whole(100)), Target(real(0.5), f0), Target(whole(1), whole(100))]
            call = self.file("call.sht", sheet(Pitch.PHONES, targets))
            spoken.append(run(YARD[0], call, "--raw")[1])
        self.assertTrue(spoken[0] == spoken[1] == spoken[2] != spoken[3])
        self.assertGreater(len(spoken[0]), 2000)

    def random_value(self, draw, most):
        return typed(cases.random_text(draw) if draw.randrange(8) == 0 else b"%.4f" % draw.uniform(0, most))

    def test_random(self):
        """Texts of every kind, in calls that are spoken and calls that are refused."""
        draw, refused = random.Random(9), set()
        for _ in range(80):
            phones = [draw.choice([b"pau", b"n", b"ay"]) for _ in range(draw.randrange(2, 7))]
            segments = [Segment(phone, self.random_value(draw, 1)) for phone in phones]
            count = draw.randrange(5)
            targets = [Target(self.random_value(draw, 1), self.random_value(draw, 200)) for _ in range(count)]
            calls = self.files(segments, targets)
            for form in (("--report",), ("--ends",), ("--raw", "--filter=fixed")):
                told, full = (run(YARD[0], call, *form) for call in calls)
                self.assertTrue(told[:2] == full[:2], (segments, targets, form))
                numbers = [re.findall("refused [0-9]+", message) for *_, message in (told, full)]
                self.assertEqual(*numbers)
                refused.update(numbers[0] or ["spoken"])
        self.assertGreater(len(refused), 2, refused)

    def test_most(self):
        """4,096 segments and targets, all of 12 bytes."""
        segments = [Segment(b"n", typed(b"%012.9f" % (number / 4096))) for number in range(1, 4097)]
        targets = [Target(segment.end, typed(b"100.00000000")) for segment in segments]
        calls = self.files(segments, targets)
        self.assertEqual(len(calls[0].read_bytes()), 2 + 4096 * 17 + 2 + 4096 * 28)
        for form in ("--raw", "--report", "--ends"):
            told, full = (run(YARD[0], call, form) for call in calls)
            self.assertTrue(told == full)
            self.assertEqual(told[0], 0)

    def test_person(self):
        """A person's way: a text with quotes, made a sheet and spoken."""
        phones = {"pau": "0.2", "n": ".5", "ay": "0,8", "m": "1"}
        lines = "".join(f'segment {name} "{end}" -\n' for name, end in phones.items())
        lines += 'target "0.2" "95 Hz"\ntarget "1" -\n'
        command = [REPO / "tools/sheet", "encode", "-", "-"]
        data = subprocess.run(command, input=lines.encode(), stdout=subprocess.PIPE, check=True).stdout
        call = self.file("call.sht", data)
        status, text, message = run(YARD[0], call, "--ends")
        self.assertEqual([line.split()[2] for line in text.splitlines()], [b"1600", b"4000", b"0", b"8000"])
        why = 'not read to the end or without a digit: "0,8", the end of segment 3, counts as 0, ..'
        notes = [line for line in message.splitlines() if " pairs " not in line]
        self.assertEqual((status, notes), (0, [f"player: note: 2 of 7 texts in {call} {why}"]))


class Notes(InFolder):
    """What a person is told on standard error; the call is spoken as the engine does."""

    def note(self, voice, data, *words):
        status, text, message = run(voice, self.file("call.sht", data), *words)
        self.assertEqual(status, 0)
        self.assertTrue(message == "" or message.startswith("player: note: "), message)
        return text, message

    def test_pairs(self):
        phones = [b"pau", b"n", b"q", b"ay", b"n", b"b", b"ih"]
        text, message = self.note(YARD[0], sheet([Segment(name) for name in phones]), "--join", "simple")
        tail = "n-q, q-ay (--strict refuses such a call)\n"
        spoken = f"player: note: 2 of 6 pairs not in {YARD[0]}, spoken by its first entry ay-n: {tail}"
        self.assertEqual(message, spoken)
        self.assertEqual(text.split(b"\n")[0].split()[1], b"72")
        message = self.note(YARD[0], sheet([Segment(b"n")] * 9), "--join", "simple")[1]
        self.assertIn("8 of 8 pairs not in ", message)
        self.assertTrue(message.endswith(": n-n, n-n, n-n, n-n, n-n, .. (--strict refuses such a call)\n"), message)
        for join in ("none", "modified"):  # no period, so nothing is spoken by the first entry
            message = self.note(YARD[0], sheet([Segment(name) for name in phones]), "--join", join)[1]
            self.assertEqual(message.splitlines(True)[1:], [f"player: note: 2 of 6 pairs not in {YARD[0]}: {tail}"])

    def test_names_tried(self):
        """A cluster's name first, then the plain one; with fold ah is aa."""
        voice = self.file("few.flv", cases.few_names())
        for (segments, fold, lacking), join in itertools.product(cases.lacking_pairs(), ("none", "simple")):
            message = self.note(voice, sheet(segments), "--join", join, *["--fold"] * fold)[1]
            notes = [line for line in message.splitlines() if "the call is empty" not in line]
            spoken = ", spoken by its first entry -" if join == "simple" else ""
            told = f"player: note: {missing_text(voice, segments, lacking, spoken)} (--strict refuses such a call)"
            self.assertEqual(notes, [told] if lacking else [], segments)

    def test_as_the_engine_does(self):
        """Pairs that are not named have units of their own: each entry has other sizes. A strict call has no others."""
        names = [b"a-b", b"b-a", b"k_-_n", b"k-n", b"n-aa"]
        residuals = [bytes(size) for size in range(1, 2 * len(names) + 1)]
        entries = [(name, 2 * place, 1, 1) for place, name in enumerate(names)]
        data = voice_file(Header(), [[]] * len(residuals), residuals, entries)
        voice, names = self.file("sizes.flv", data), open_voice(data).entries
        draw, strict = random.Random(1), set()
        for _ in range(40):
            phones = [draw.choice([b"a", b"b", b"k", b"n", b"aa", b"ah"]) for _ in range(draw.choice([2, 3, 6]))]
            segments = [Segment(phone, NONE, draw.randrange(len(phones) + 1)) for phone in phones]
            text, message = self.note(voice, sheet(segments), "--join", "simple", "--fold")
            sizes = [int(line.split()[1]) for line in text.splitlines()[1:]]
            first = sum(pair == [1, 2] for pair in zip(*[iter(sizes)] * 2) for pair in [list(pair)])
            right = sum(phones[i : i + 2] == [b"a", b"b"] for i in range(len(phones) - 1))
            missing = int(message.split("note: ")[1].split()[0]) if message else 0
            self.assertEqual(missing + right, first, segments)
            found = [found_name(names, segments, place, True) for place in range(len(phones) - 1)]
            self.assertEqual(missing, found.count(None), segments)
            done = run(voice, self.folder / "call.sht", "--join", "simple", "--fold", "--strict")
            self.assertEqual(done[:2], (1, b"") if missing else (0, text), segments)
            strict.add(done[0])
        self.assertEqual(strict, {0, 1})

    # Texts, as they are shown, and as they count.
    ODD_TEXTS = [
        (b"0,25", "0,25", "0"),
        (b"1.50s", "1.50s", "1.50"),
        (b"-1e3", "-1e3", "-1"),
        (b"-0 ", "-0 ", "-0"),
        (b"+.5.", "+.5.", "+.5"),
        (b"5.x", "5.x", "5."),
        (b"1-5", "1-5", "1"),
        (b"+-3", "+-3", "0"),
        (b" 2", " 2", "0"),
        (b"", "", "0"),
        (b"-.", "-.", "0"),
        (b'"\\#', '\\"\\\\#', "0"),
        (b"\x1b[31m\x07", "\\x1b[31m\\x07", "0"),
        (b"1\0\n\x7f\x80\xff", "1\\x00\\x0a\\x7f\\x80\\xff", "1"),
        (b"\xff" * 12, "\\xff" * 12, "0"),
        (b"%s%n%d%99999", "%s%n%d%99999", "0"),
    ]

    def test_texts(self):
        """How many are not read to their end or have no digit; of the first one what it is and what it counts as."""
        segments, targets = typed_yard()
        count, path = len(segments) + 2 * len(targets), self.folder / "call.sht"
        head = f"player: note: 1 of {count} texts in {path} not read to the end or without a digit: "
        for text, shown, counted in self.ODD_TEXTS:
            for what, call in {
                "end of segment 2": ([segments[0], segments[1]._replace(end=typed(text)), *segments[2:]], targets),
                "pos of target 1": (segments, [targets[0]._replace(pos=typed(text)), *targets[1:]]),
                f"f0 of target {len(targets)}": (segments, [*targets[:-1], targets[-1]._replace(f0=typed(text))]),
            }.items():
                for join in JOINS:
                    lines = self.note(YARD[0], sheet(*call), "--join", join)[1].splitlines(True)
                    note = f'{head}"{shown}", the {what}, counts as {counted}\n'
                    self.assertEqual([line for line in lines if "the call is empty" not in line], [note])

    def test_whole_texts(self):
        """Nothing is said of those that are read to their end."""
        for text in cases.READ_WHOLE:
            call = sheet([Segment(b"pau", typed(text)), Segment(b"n", typed(text))], [Target(typed(text), typed(text))])
            self.assertEqual(self.note(YARD[0], call, "--join=simple")[1], "", text)

    def test_many_texts(self):
        """The first one alone is named. Of a call that is refused nothing else is said."""
        odd, plain = typed(b"x"), typed(b"1")
        segments = [Segment(b"pau", plain), Segment(b"n", odd), Segment(b"ay", whole(1)), Segment(b"n", odd)]
        targets = [Target(NONE, odd), Target(odd, plain), Target(real(1), odd)]
        message = self.note(YARD[0], sheet(segments, targets), "--join=simple")[1]
        head = f"player: note: 5 of 7 texts in {self.folder / 'call.sht'} not read to the end or without a digit: "
        self.assertEqual(message, head + '"x", the end of segment 2, counts as 0, ..\n')
        message = run(YARD[0], "-", "--join=simple", input=sheet(segments[:1], targets))[2].splitlines()[-1]
        self.assertTrue(message.startswith("player: note: 3 of 5 texts in standard input not read "), message)
        self.assertTrue(message.endswith(': "x", the f0 of target 1, counts as 0, ..'), message)
        late = self.file("late.sht", sheet([Segment(b"pau", typed(b"9999s")), Segment(b"n", odd)]))
        status, _, message = run(YARD[0], late)
        self.assertEqual((status, message.count("\n")), (1, 1))
        self.assertTrue(message.startswith("player: refused 11: "), message)

    def test_empty(self):
        targets = [Target(NONE, real(100)), Target(real(1), real(100))]
        pair = [Segment(b"pau", real(0.5)), Segment(b"n", real(1))]
        for data, words, why in [
            (sheet([]), (), "the sheet has fewer than two segments"),
            (sheet(pair[:1], targets), (), "the sheet has fewer than two segments"),
            (sheet(pair), (), "the sheet's targets and ends give no period"),
            (sheet(pair, targets), ("--join=none",), "join none speaks no period"),
        ]:
            text, message = self.note(YARD[0], data, *words)
            self.assertEqual(text, b"8000 0 0\n")
            self.assertIn(f"player: note: the call is empty: {why}", message)
        self.assertEqual(self.note(YARD[0], sheet(pair, targets))[1], "")


def missing_text(voice, segments, lacking, becomes=""):
    """How the player tells which pairs are missing; it names five."""
    names = [tried[-1] for tried in lacking.values()]
    names[5:] = [".."] if len(names) > 5 else []
    return f"{len(lacking)} of {len(segments) - 1} pairs not in {voice}{becomes}: {', '.join(names)}"


class Strict(InFolder):
    """With --strict a call with a pair that finds no name is refused with 16, and every other is as without."""

    def refused(self, voice, call, segments, lacking, *words):
        text = "has pairs of phones that the voice lacks, and the call is strict"
        message = f"player: refused 16: {call} {text}: {missing_text(voice, segments, lacking)}\n"
        self.assertEqual(set(self.told((voice, call, *words), "--strict")), {((1, b"", message), None)}, segments)

    def alike(self, *words):
        """In every form; returns the exit statuses."""
        loose, strict = self.told(words), self.told(words, "--strict")
        self.assertTrue(strict == loose, words)  # unittest takes minutes to show how long texts differ
        return {done[0] for done, _ in strict}

    def test_pairs(self):
        """In every join; the filter plays no part."""
        voice, seen = self.file("few.flv", cases.few_names()), set()
        for segments, fold, lacking in cases.lacking_pairs():
            call = self.file("call.sht", sheet(segments))
            for join, how in zip(JOINS, FILTERS):
                words = "--join", join, *how, *["--fold"] * fold
                if lacking:
                    self.refused(voice, call, segments, lacking, *words)
                else:
                    self.assertEqual(self.alike(voice, call, *words), {0})
                seen.add((join, bool(lacking)))
        self.assertEqual(len(seen), 6)

    def test_alike(self):
        for files, join, how in itertools.product((EXAMPLE, YARD), JOINS, FILTERS[::2]):
            self.assertEqual(self.alike(*files, "--join", join, *how), {0})
        self.assertEqual(self.alike(*YARD, "--fold"), {0})

    def test_refusals(self):
        """1 to 12 and 17 are as without, where no pair is missing."""
        seen = set()
        for files in self.unfit():
            done = run(*files, "--strict")
            self.assertEqual(done, run(*files))
            seen.add(int(re.match("player: refused ([0-9]+): ", done[2])[1]))
        self.assertEqual(seen, {*range(1, 13), 17})

    def number(self, *words):
        """Of a refused call."""
        status, text, message = run(*words)
        self.assertEqual((status, text), (1, b""), words)
        return int(re.match("player: refused ([0-9]+): ", message)[1])

    def test_order(self):
        """With a pair missing: after 1 to 9 and 17, before 10 to 12."""
        pair = self.file("pair.sht", sheet([Segment(b"q"), Segment(b"q")]))
        for number, what, data in cases.unfit_voices(YARD[0].read_bytes()):
            self.assertEqual(self.number(self.file("unfit.flv", data), pair, "--strict"), number, what)
        few = self.file("few.flv", cases.few_names())
        for number, what, data in [*cases.unfit_sheets(), *cases.unfit_calls()]:
            call = self.file("unfit.sht", data)
            self.assertEqual(self.number(few, call), number, what)
            self.assertEqual(self.number(few, call, "--strict"), 16 if 10 <= number <= 12 else number, what)
        late = self.file("late.sht", sheet([Segment(b"q"), Segment(b"q"), Segment(b"n", cases.bits(cases.NAN))]))
        self.assertEqual(self.number(few, late, "--strict", "--join=none"), 9)

    def test_large(self):
        """The last of 4,095 pairs is missing, in a voice of thousands of names that are not in order."""
        names = [b"p%d" % number for number in range(70)]
        entries = [(a + b"-" + b, 0, 1, 1) for a in names for b in names]
        voice = self.file("large.flv", voice_file(Header(), [[], []], [b"\xff", b"\xff"], entries))
        segments = [Segment(names[number % 70]) for number in range(4095)]
        for last, lacking in ((b"p1", {}), (b"q", {4095: ["p34-q"]})):
            call = self.file("large.sht", sheet([*segments, Segment(last)]))
            if lacking:
                self.refused(voice, call, read_sheet(call.read_bytes())[0], lacking, "--join=simple")
            else:
                self.assertEqual(self.alike(voice, call, "--join=simple"), {0})

    def test_words(self):
        """Twice is as once, anywhere in the command line; either file may be standard input."""
        gap = self.file("gap.sht", sheet([Segment(b"n"), Segment(b"q")]))
        once = run(YARD[0], gap, "--strict")
        self.assertEqual(once[0], 1)
        self.assertEqual(run("--strict", YARD[0], "--strict", gap), once)
        done = run("-", gap, "--strict", input=YARD[0].read_bytes())
        self.assertEqual(done[2], once[2].replace(str(YARD[0]), "standard input"))
        done = run(YARD[0], "-", "--strict", input=gap.read_bytes())
        self.assertEqual(done[2], once[2].replace(str(gap), "standard input"))


SHORT = [(b"pau", real(0.1)), (b"n", real(0.2)), (b"ay", real(0.4)), (b"n", real(0.5))]
TARGETS = [Target(NONE, whole(116)), Target(real(0.45), whole(108)), Target(whole(1), whole(84))]


def two_entries():
    """The index of example.flv with one more entry before it, of one period."""
    return index_bytes([(b"pau-aa", 0, 1, 1), (b"-first", 0, 1, 0)])


class Refusals(InFolder):
    def refused(self, number, what, voice, call):
        path = self.folder / "refused.wav"
        status, text, message = run(voice, call, "--wav", path)
        self.assertEqual((status, text, path.exists()), (1, b"", False), what)
        culprit = voice if number <= 7 else call
        self.assertTrue(message.startswith(f"player: refused {number}: {culprit} "), (what, message))
        self.assertEqual(message.count("\n"), 1)

    def test_voices(self):
        for number, what, data in cases.unfit_voices(YARD[0].read_bytes()):
            self.refused(number, what, self.file("unfit.flv", data), YARD[1])

    def test_fit_voices(self):
        for what, data in cases.fit_voices(YARD[0].read_bytes()):
            status, _, message = run(self.file("fit.flv", data), YARD[1], "--raw")
            self.assertEqual((status, message), (0, ""), what)

    def test_sheets(self):
        for number, what, data in [*cases.unfit_sheets(), *cases.unfit_calls()]:
            self.refused(number, what, YARD[0], self.file("unfit.sht", data))

    def test_where(self):
        """8, 9 and 17 say where and why, as tools/formats.py does."""
        draw = random.Random(1)
        sheets = [data for _, _, data in cases.unfit_sheets()]
        for whole_sheet in [YARD[1].read_bytes(), sheet(*typed_yard())] * 60:
            place = draw.randrange(len(whole_sheet))
            changed = cases.patched(place, bytes([draw.choice([0, 3, 13, 31, 127, 128, 255])]))(whole_sheet)
            sheets.append(changed[: draw.randrange(place, len(whole_sheet) + 1)])
        seen = []
        for data in sheets:
            path = self.file("unfit.sht", data)
            message = run(YARD[0], path, "--join=none")[2]
            try:
                read_sheet(data)
            except Refused as refusal:
                seen.append(refusal.number)
                self.assertTrue(message.startswith(f"player: refused {refusal.number}: {path} "), message)
                self.assertIn(f", at byte {refusal.place}: {refusal.reason}", message)
            else:
                self.assertNotIn("refused", message)
        self.assertGreater(len(seen), 100)
        self.assertEqual(set(seen), {8, 9, 17})

    def test_long_text(self):
        """A sentence for people, then where and why."""
        why = "has a time or pitch whose text is too long, at byte 5: a text of 13 bytes, 12 is the most"
        call = self.file("call.sht", sheet([Segment(b"pau", typed(b"0.25 seconds.")), Segment(b"n")]))
        for words in ((), ("--join=none",), ("--ends",), ("--strict",)):
            self.assertEqual(run(YARD[0], call, *words), (1, b"", f"player: refused 17: {call} {why}\n"))
        call = self.file("call.sht", sheet([Segment(b"pau", typed(b"0.25 second.")), Segment(b"n")]))
        self.assertEqual(run(YARD[0], call)[0], 0)

    def test_readable_form(self):
        message = run(YARD[0], EXAMPLES / "yard.txt")[2]
        self.assertIn("refused 8: ", message)
        self.assertIn("it looks like a text, of which `tools/sheet encode TEXT SHEET` makes a call sheet", message)
        self.assertIn("; it is empty\n", run(YARD[0], self.file("empty.sht", b""))[2])

    def test_not_over_the_input(self):
        for place in (0, 1):
            files = [self.file("voice.flv", YARD[0].read_bytes()), self.file("call.sht", YARD[1].read_bytes())]
            kept = files[place].read_bytes()
            same = self.folder / "." / "link"
            same.symlink_to(files[place])
            for name in (files[place], same):
                status, _, message = run(*files, "--wav", name)
                self.assertEqual((status, message), (1, f"player: cannot write {name}: it is read too\n"))
            self.assertEqual(files[place].read_bytes(), kept)
            same.unlink()

    def test_unfinished(self):
        """A WAV that does not fit is removed."""

        def limit():
            signal.signal(signal.SIGXFSZ, signal.SIG_IGN)
            resource.setrlimit(resource.RLIMIT_FSIZE, (4096, 4096))

        path = self.folder / "cut.wav"
        status, _, message = run(*YARD, "--wav", path, preexec_fn=limit)
        self.assertEqual(status, 1)
        self.assertIn(f"player: cannot write {path}: ", message)
        self.assertFalse(path.exists())

    def test_voice_before_sheet(self):
        voice = self.file("unfit.flv", cases.changed(YARD[0].read_bytes(), b"dip.index", lambda _: b""))
        self.refused(7, "both unfit", voice, self.file("unfit.sht", b""))

    def test_files(self):
        for words in [("/nowhere/at-all", YARD[1]), (YARD[0], "/nowhere/at-all"), (YARD[0], self.folder)]:
            status, text, message = run(*words)
            self.assertEqual((status, text), (1, b""))
            self.assertTrue(message.startswith("player: cannot read "), message)

    @unittest.skipUnless(os.path.exists("/dev/full"), "no /dev/full")
    def test_full_disk(self):
        self.assertEqual(run(*YARD, "--wav", "/dev/full")[0], 1)
        self.assertEqual(run(*YARD, "--wav", self.folder)[0], 1)
        for words in [("--raw",), ()]:
            with open("/dev/full", "wb") as full:
                done = subprocess.run([PLAYER, *YARD, *words], stdout=full, stderr=subprocess.PIPE, check=False)
            self.assertEqual(done.returncode, 1, words)
            self.assertIn(b"player: cannot write standard output: ", done.stderr)


class CommandLine(unittest.TestCase):
    def test_wrong(self):
        voice, call = YARD
        for words in [
            (),
            (voice,),
            (voice, call, call),
            (voice, call, "--join"),
            (voice, call, "--join", "other"),
            (voice, call, "--filter", "fixe"),
            (voice, call, "--filter", "none"),
            (voice, call, "--filter"),
            (voice, call, "--filter="),
            (voice, call, "--filter", ""),
            (voice, call, "--wav"),
            (voice, call, "--raw", "--wav", "x"),
            (voice, call, "--loud"),
            (voice, call, "-r"),
            (voice, call, "--join="),
            (voice, call, "--gain", "loud"),
            (voice, call, "--gain", "nan"),
            (voice, call, "--gain", "61"),
            (voice, call, "--fold=1"),
            (voice, call, "--strict=1"),
            (voice, call, "--stric"),
            (voice, call, "--report", "--ends"),
            (voice, call, "--report", "--raw"),
            (voice, call, "--raw", "--ends"),
            (voice, call, "--ends", "--wav", "-"),
            (voice, call, "--report", "--wav=-"),
            (voice, call, "--report=1"),
            (voice, call, "--reports"),
            (voice, "--ends"),
            ("-", "-"),
            (voice, "--", "--raw", call),
        ]:
            status, text, message = run(*words)
            self.assertEqual((status, text), (2, b""), words)
            self.assertIn("usage: player VOICE SHEET", message)
        self.assertFalse(os.path.exists("x"))

    def test_help(self):
        for word in ("--help", "-h"):
            status, text, message = run(word)
            self.assertEqual((status, message), (0, ""))
            self.assertTrue(text.startswith(b"usage: player VOICE SHEET"))
            self.assertIn(b"\n  --filter  the arithmetic of the filter; if none is named, one hears float\n", text)
            self.assertIn(b"\n  --strict  refuse a call with a pair of phones that is not in the voice; ", text)
            self.assertIn(b" ends it (time by rate, to the nearest, a half going up, 0 below zero), ", text)
            self.assertLessEqual(max(map(len, text.splitlines())), 100)

    def test_version(self):
        header = (REPO / "include/diphone.h").read_text()
        version = re.search(r'#define DIPHONE_VERSION "(.*)"', header)[1]
        self.assertEqual(run("--version"), (0, f"player {version}\n".encode(), ""))

    def test_forms(self):
        """--join=simple is --join simple; after -- every word is a file."""
        self.assertEqual(run(*EXAMPLE, "--join=simple"), run(*EXAMPLE, "--join", "simple"))
        with tempfile.TemporaryDirectory() as folder:
            for name, source in (("-v", EXAMPLE[0]), ("--raw", EXAMPLE[1])):
                shutil.copy(source, Path(folder) / name)
            done = run("--join=simple", "--", "-v", "--raw", cwd=folder)
        self.assertEqual(done, run(*EXAMPLE, "--join=simple"))

    def test_any_order(self):
        voice, call = EXAMPLE
        self.assertEqual(run("--join", "simple", voice, "--fold", call), run(voice, call, "--fold", "--join", "simple"))


@unittest.skipUnless(VALGRIND, "no valgrind")
class Memory(InFolder):
    def test_clean(self):
        unfit = self.file("unfit.sht", b"\x02")
        calls = [(*EXAMPLE, "--join", "simple"), (*EXAMPLE,), (*YARD, "--raw"), (*YARD, "--join", "none")]
        calls += [(*YARD, "--filter", how, "--wav", self.folder / "yard.wav") for how in ("fixed", "float")]
        for files in (EXAMPLE, YARD):
            calls += [(*files, "--report"), (*files, "--ends", "--join=simple")]
        calls += [(*YARD, "--report", "--wav", self.folder / "yard.wav"), (*YARD, "--ends", "--join=none")]
        for words in calls:
            self.assertEqual(run(*words, before=VALGRIND), run(*words), words)
        gap = self.file("gap.sht", sheet([Segment(b"n", NONE, 2), Segment(b"z"), Segment(b"q" * 32)]))
        calls = [(YARD[0], unfit), (unfit, unfit, "--ends"), (YARD[0], "/nowhere/at-all"), ("--help",)]
        calls += [(YARD[0], gap, "--join=simple"), (YARD[0], gap, "--join=none"), (YARD[0], gap, "--strict")]
        texts = [Segment(b"n", typed(b"1\xff" * 6)), Segment(b"ay", typed(b"1"))], [Target(typed(b""), typed(b"9" * 12))]
        texts = sheet(*texts)
        for data in (texts, texts[:-1], b"\1\1n\3\x0d"):
            calls.append((YARD[0], self.file(f"{len(data)}.sht", data), "--join=simple", "--ends"))
        for words in [*calls, (*YARD, "--strict"), (*YARD, "--raw", "--gain", "30")]:
            self.assertEqual(run(*words, before=VALGRIND), run(*words), words)


if __name__ == "__main__":
    unittest.main()
