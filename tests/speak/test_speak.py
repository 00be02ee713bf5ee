"""Tests of the program speak; the environment variable SPEAK names it."""
import os
import sys
import unittest
from pathlib import Path

sys.path.insert(0, str(Path(__file__).resolve().parent.parent / "tools"))
import cases
import programs
from programs import EXAMPLE, voice


class Speak(programs.Cases, unittest.TestCase):
    PROGRAM = os.environ["SPEAK"]
    DOCUMENT = "8000 2 5\n1 2 8 132\n2 3 0 -8 -132\n"

    def spoken(self, what, flv, sht):
        """The numbers of the first line of a call that is not refused, whose lines agree with it."""
        lines = [list(map(int, line.split(" "))) for line in self.run_on(flv, sht).splitlines()]
        rate, periods, samples = lines[0]
        self.assertEqual([line[0] for line in lines[1:]], list(range(1, periods + 1)), what)
        self.assertEqual([line[1] for line in lines[1:]], [len(line) - 2 for line in lines[1:]], what)
        self.assertEqual(sum(line[1] for line in lines[1:]), samples, what)
        return rate, periods, samples

    def test_none(self):
        for what, data in programs.none():
            self.assertEqual(self.run_on(EXAMPLE[0], data), "8000 0 0\n", what)
        self.assertEqual(self.run_on(voice([0, 0]), EXAMPLE[1]), "8000 2 0\n1 0\n2 0\n")

    def test_filter(self):
        """The fixed one; by float a sample would be another."""
        self.assertEqual(self.run_on(cases.example_with_rows(), EXAMPLE[1]), self.DOCUMENT)


if __name__ == "__main__":
    unittest.main()
