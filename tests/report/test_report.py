"""Tests of the program report; the environment variables REPORT and SPEAK name it and the first program."""
import os
import sys
import unittest
from pathlib import Path

sys.path.insert(0, str(Path(__file__).resolve().parent.parent / "tools"))
import programs
from cases import Segment, sheet
from programs import EXAMPLE, pairs, voice

SPEAK = os.environ["SPEAK"]


class Report(programs.Cases, unittest.TestCase):
    PROGRAM = os.environ["REPORT"]
    DOCUMENT = "1 1 1 0 2\n2 1 2 2 3\n"

    def lines_on(self, flv, sht):
        return [tuple(map(int, line.split(" "))) for line in self.run_on(flv, sht).splitlines()]

    def spoken(self, what, flv, sht):
        """Holds the lines to those that speak prints: one a period, in order, each beginning where the one before ends.
        Gives the numbers of speak's first line."""
        lines = self.lines_on(flv, sht)
        (rate, periods, samples), *rest = [list(map(int, line.split(" "))) for line in self.printed(SPEAK).splitlines()]
        sizes = [line[1] for line in rest]
        self.assertEqual([line[0] for line in lines], list(range(1, periods + 1)), what)
        self.assertEqual([line[3] for line in lines], [sum(sizes[:k]) for k in range(periods)], what)
        self.assertEqual([line[4] for line in lines], sizes, what)
        units = [line[1:3] for line in lines]
        self.assertEqual(units, sorted(units), what)
        self.assertEqual({half for _, half in units} - {1, 2}, set(), what)
        return rate, periods, samples

    def refused(self, number, what, flv, sht):
        super().refused(number, what, flv, sht)
        self.assertEqual(self.printed(SPEAK), f"refused {number}\n", what)

    def test_none(self):
        for what, data in programs.none():
            self.assertEqual(self.run_on(EXAMPLE[0], data), "", what)
        self.assertEqual(self.run_on(voice([0, 0]), EXAMPLE[1]), "1 1 1 0 0\n2 1 2 0 0\n")

    def test_pairs(self):
        """Several pairs, of three periods in the first half and two in the second."""
        flv = voice([1, 2, 3, 4, 5], halves=(3, 2))
        lines = self.lines_on(flv, pairs(3))
        units = [(pair, half) for pair in (1, 2, 3) for half in (1, 1, 1, 2, 2)]
        self.assertEqual([line[1:3] for line in lines], units)
        self.assertEqual(lines[-1], (15, 3, 2, 40, 5))
        self.spoken("three pairs", flv, pairs(3))

    def test_empty_halves(self):
        """A pair whose first half, or second, has no period leaves no line of it."""
        for halves, half in (((0, 2), 2), ((2, 0), 1)):
            lines = self.lines_on(voice([3, 4], halves=halves), pairs(2))
            self.assertEqual(lines, [(1, 1, half, 0, 3), (2, 1, half, 3, 4), (3, 2, half, 7, 3), (4, 2, half, 10, 4)])

    def test_empty_heads(self):
        """A period of no sample at the head of a unit is that unit's own."""
        lines = "1 1 1 0 2\n2 1 2 2 0\n3 1 2 2 3\n"
        self.assertEqual(self.run_on(voice([2, 0, 3], halves=(1, 2), order=1), EXAMPLE[1]), lines)
        lines = "1 1 1 0 0\n2 1 1 0 2\n3 1 2 2 0\n4 1 2 2 0\n5 2 1 2 0\n6 2 1 2 2\n7 2 2 4 0\n8 2 2 4 0\n"
        self.assertEqual(self.run_on(voice([0, 2, 0, 0], halves=(2, 2)), pairs(2)), lines)
        for sizes, halves in [
            ([2, 0, 3], (1, 2)),
            ([2, 0, 0, 0, 3], (1, 4)),  # a run
            ([0, 2, 0, 3], (2, 2)),
            ([0, 0, 3], (2, 1)),  # a whole unit
            ([2, 0, 0], (1, 2)),
            ([0, 3], (0, 2)),  # after a unit without periods
            ([0, 3], (2, 0)),
            ([0, 0, 0], (1, 2)),
        ]:
            flv, what = voice(sizes, halves=halves), (sizes, halves)
            units = [(pair, half) for pair in (1, 2, 3) for half in [1] * halves[0] + [2] * halves[1]]
            self.assertEqual([line[1:3] for line in self.lines_on(flv, pairs(3))], units, what)
            self.assertEqual(self.spoken(what, flv, pairs(3))[1:], (3 * len(sizes), 3 * sum(sizes)), what)

    def test_many_pairs(self):
        """As many lines as there is room for."""
        lines = self.lines_on(voice([2, 3]), sheet([Segment(b"aa")] * 513))
        self.assertEqual(lines[-1], (1024, 512, 2, 2557, 3))


if __name__ == "__main__":
    unittest.main()
