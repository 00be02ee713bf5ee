"""Files for the programs speak and report, and the refusals that a file can bring about: tests that both have to pass."""
import subprocess
import tempfile
from pathlib import Path

import cases
from cases import EXAMPLES, Segment, Target, real, section, sheet, typed
from formats import Header, voice_file

EXAMPLE = (EXAMPLES / "example.flv").read_bytes(), (EXAMPLES / "example.sht").read_bytes()
YARD = (EXAMPLES / "yard.flv").read_bytes(), (EXAMPLES / "yard.sht").read_bytes()
VOICE_LIMIT, SHEET_LIMIT = 32_768, 4_096


def voice(sizes, start=0, halves=(1, 1), order=0, codec=0, names=(b"pau-aa",), mulaw=255):
    """A voice like the example's, with a period of each of the sizes and the same entry under each name."""
    header = Header(order=order, rate=8000, codec=codec)
    residuals = [bytes([mulaw]) * size for size in sizes]
    return voice_file(header, [[0] * order] * len(sizes), residuals, [(name, start, *halves) for name in names])


def pairs(count):
    """A sheet of so many pairs, with no names."""
    return sheet([Segment(b"")] * (count + 1))


def padded(data, length):
    """The voice with one section more, to be so many bytes long."""
    return data + section(b"more", bytes(length - len(data) - 9))


class Cases:
    """Tests of PROGRAM, which prints DOCUMENT for document 01's example. `spoken` is to look at a call that is not refused
    and to give its rate, periods and samples."""

    def setUp(self):
        folder = tempfile.TemporaryDirectory()
        self.addCleanup(folder.cleanup)
        self.folder = Path(folder.name)

    def run_on(self, flv, sht):
        """What the program prints for a voice and a sheet; None is a file that is not there."""
        for name, data in (("voice.flv", flv), ("call.sht", sht)):
            path = self.folder / name
            path.unlink(missing_ok=True)
            if data is not None:
                path.write_bytes(data)
        return self.printed(self.PROGRAM)

    def printed(self, program):
        done = subprocess.run([program], cwd=self.folder, stdout=subprocess.PIPE, stderr=subprocess.PIPE, check=True)
        self.assertEqual(done.stderr, b"")
        return done.stdout.decode()

    def refused(self, number, what, flv, sht):
        self.assertEqual(self.run_on(flv, sht), f"refused {number}\n", what)

    def test_document(self):
        self.assertEqual(self.run_on(*EXAMPLE), self.DOCUMENT)

    def test_voices(self):
        """1 to 7, and what is longer than its limit."""
        seen = set()
        for number, what, data in cases.unfit_voices(YARD[0]):
            number = 13 if len(data) > VOICE_LIMIT else number
            seen.add(number)
            self.refused(number, what, data, EXAMPLE[1])
        self.assertEqual(seen, {1, 2, 3, 4, 5, 6, 7, 13})

    def test_fit_voices(self):
        for what, data in cases.fit_voices(YARD[0]):
            self.assertEqual(self.spoken(what, data, EXAMPLE[1])[:2], (8000, 12), what)

    def test_sheets(self):
        """8, 9 and 17, and what is longer than its limit."""
        seen = set()
        for number, what, data in cases.unfit_sheets():
            number = 13 if len(data) > SHEET_LIMIT else number
            seen.add(number)
            self.refused(number, what, EXAMPLE[0], data)
        self.assertEqual(seen, {8, 9, 13, 17})

    def test_only_marks(self):
        """Ends and targets that another join would refuse play no part."""
        for _, what, data in cases.unfit_calls():
            self.assertEqual(self.spoken(what, EXAMPLE[0], data), (8000, 2, 5), what)

    def test_ends(self):
        """Ends between two samples play no part either."""
        phones = [Segment(name, real(place / 8000)) for name, place in ((b"pau", 1.5), (b"aa", 4.5))]
        self.assertEqual(self.run_on(EXAMPLE[0], sheet(phones)), self.DOCUMENT)

    def test_texts(self):
        """Ends and targets may be typed, and play no part either."""
        texts = [typed(text) for text in (b"", b"0.25", b"123456789012", b"-.x", bytes(12))]
        for text in texts:
            call = sheet([Segment(b"pau", text), Segment(b"aa", text)], [Target(text, text)] * 2)
            self.assertEqual(self.run_on(EXAMPLE[0], call), self.DOCUMENT, text)

    def test_late_mark(self):
        """11: a pair has 16,384 samples, and 1,024 of them are one too many."""
        flv = voice([16_384], halves=(1, 0))
        self.refused(11, "the last mark is 16,777,216", flv, pairs(1024))
        self.refused(13, "the last mark is 16,760,832", flv, pairs(1023))

    def test_many_marks(self):
        """12: a pair has 256 marks."""
        flv = voice([0] * 256, halves=(128, 128))
        self.refused(12, "65,792 marks", flv, pairs(257))
        self.refused(13, "65,536 marks", flv, pairs(256))

    def test_marks_before_buffers(self):
        flv = voice([16_384], halves=(1, 0), names=(b"a", b"b"))
        self.refused(8, "the sheet before the buffers", flv, b"\2")

    def test_buffers(self):
        """13: each buffer full, and one short."""
        self.assertEqual(self.spoken("4,096 samples", voice([2048, 2048]), EXAMPLE[1]), (8000, 2, 4096))
        self.refused(13, "4,097 samples", voice([2048, 2049]), EXAMPLE[1])
        self.assertEqual(self.spoken("1,024 periods", voice([4] * 4, halves=(2, 2)), pairs(256)), (8000, 1024, 4096))
        self.refused(13, "1,025 periods", voice([3] * 5, halves=(3, 2)), pairs(205))
        self.assertEqual(self.spoken("1,024 row values", voice([4] * 2, order=32), pairs(16)), (8000, 32, 128))
        self.refused(13, "1,056 row values", voice([4] * 3, order=32, halves=(2, 1)), pairs(11))
        self.assertEqual(self.spoken("a period of 512 codes", voice([512, 1], codec=1, mulaw=0), EXAMPLE[1])[:2], (8000, 2))
        self.refused(13, "a period of 513 codes", voice([513, 1], codec=1, mulaw=0), EXAMPLE[1])
        names = [b"%d" % number for number in range(1025)]
        self.assertEqual(self.spoken("1,024 entries", voice([4, 4], names=names[1:]), EXAMPLE[1]), (8000, 2, 8))
        self.refused(13, "1,025 entries", voice([4, 4], names=names), EXAMPLE[1])
        self.refused(8, "1,025 entries and a bad sheet", voice([4, 4], names=names), b"")
        self.refused(13, "a longer call", *YARD)

    def test_orders(self):
        self.spoken("order 32", voice([4, 4], order=32), EXAMPLE[1])
        self.refused(5, "order 33", voice([4, 4], order=33), EXAMPLE[1])

    def test_limits(self):
        """A file of just its limit is read whole; one byte more is 13 before all else."""
        self.assertEqual(self.run_on(padded(EXAMPLE[0], VOICE_LIMIT), EXAMPLE[1]), self.DOCUMENT)
        self.refused(13, "a voice too long", padded(EXAMPLE[0], VOICE_LIMIT + 1), EXAMPLE[1])
        self.refused(1, "of its limit, no voice", bytes(VOICE_LIMIT), EXAMPLE[1])
        self.refused(13, "too long, no voice", bytes(VOICE_LIMIT + 1), EXAMPLE[1])
        whole = sheet([Segment(b"pau"), Segment(b"aa")], [Target()] * 2041)
        self.assertEqual(len(whole), SHEET_LIMIT)
        self.assertEqual(self.run_on(EXAMPLE[0], whole), self.DOCUMENT)
        self.refused(8, "of its limit, no sheet", EXAMPLE[0], EXAMPLE[1].ljust(SHEET_LIMIT, b"\0"))
        self.refused(13, "a sheet too long", EXAMPLE[0], EXAMPLE[1].ljust(SHEET_LIMIT + 1, b"\0"))
        self.refused(13, "a sheet too long, no voice", b"", bytes(SHEET_LIMIT + 1))

    def test_unreadable(self):
        """A file that cannot be read is taken as empty."""
        self.refused(1, "no voice", None, EXAMPLE[1])
        self.refused(8, "no sheet", EXAMPLE[0], None)
        self.refused(1, "neither", None, None)
        (self.folder / "voice.flv").mkdir()
        self.assertEqual(self.printed(self.PROGRAM), "refused 1\n")


def none():
    """(what, sheet) of calls with no pair."""
    yield "no segment", sheet([])
    yield "one segment", sheet([Segment(b"aa")])
