"""Stored calls with the Rust's answers, made by the player and by the program speak.

The environment variables PLAYER and SPEAK name the programs, STORED_CALLS the file of the calls;
crates/replay/data/README tells its format.
"""
import itertools
import os
import re
import struct
import subprocess
import tempfile
import unittest
from collections import Counter
from pathlib import Path
from typing import NamedTuple

PLAYER, SPEAK = os.environ["PLAYER"], os.environ["SPEAK"]

HEAD = struct.Struct("<BB9H")
VOICE_LIMIT, SHEET_LIMIT, TEXT_LIMIT = 32_768, 4_096, 41_000
SPEAK_BUFFERS = 8_192, 4_096, 4_096, 2_048, 4_096, 1_024

JOINS, FILTERS = ("none", "simple", "modified"), (None, "fixed", "float")
SETTINGS = set(itertools.product(JOINS, FILTERS, (False, True), (False, True)))
SPEAK_SETTINGS = "simple", "fixed", False, False
SLOPE, SHORT_BUFFER, MISSING_PAIR, LONG_TEXT = 10, 13, 16, 17
ANSWERS = {*range(SHORT_BUFFER + 1), MISSING_PAIR, LONG_TEXT}


class Call(NamedTuple):
    number: int
    settings: tuple
    voice: bytes
    sheet: bytes
    buffers: tuple
    text: bytes

    @property
    def answer(self):
        """The number of the refusal, or 0."""
        words = self.text.split()
        return int(words[1]) if words[0] == b"refused" else 0


def part(data, place, length):
    if place + length > len(data):
        raise ValueError("the file is cut short")
    return data[place : place + length], place + length


def settings_of(byte):
    join, how, fold, strict = byte & 3, byte >> 2 & 3, byte >> 4 & 1, byte >> 5
    if join > 2 or how > 2 or strict > 1:
        raise ValueError(f"no settings {byte}")
    return JOINS[join], FILTERS[how], fold == 1, strict == 1


def stored(data):
    """The calls of a file."""
    calls, voice, place = [], None, 0
    while place < len(data):
        head, place = part(data, place, HEAD.size)
        new_voice, settings, voice_length, sheet_length, *buffers, text_length = HEAD.unpack(head)
        limits = VOICE_LIMIT, SHEET_LIMIT, *SPEAK_BUFFERS, TEXT_LIMIT
        lengths = voice_length, sheet_length, *buffers, text_length
        if any(length > limit for length, limit in zip(lengths, limits)):
            raise ValueError(f"call {len(calls) + 1} is past a limit")
        if new_voice > 1 or (new_voice == 0 and (voice is None or voice_length > 0)):
            raise ValueError(f"call {len(calls) + 1} has no voice")
        if new_voice == 1:
            voice, place = part(data, place, voice_length)
        sheet, place = part(data, place, sheet_length)
        text, place = part(data, place, text_length)
        calls.append(Call(len(calls) + 1, settings_of(settings), voice, sheet, tuple(buffers), text))
    return calls


CALLS = stored(Path(os.environ["STORED_CALLS"]).read_bytes())


def counts(calls):
    """How many calls, periods and samples there are, and the refused ones by number, as text."""
    answers = Counter(call.answer for call in calls)
    refused = ", ".join(f"{number}: {count}" for number, count in sorted(answers.items()) if number > 0)
    heads = [list(map(int, call.text.split()[:3])) for call in calls if call.answer == 0]
    periods, samples = (sum(head[i] for head in heads) for i in (1, 2))
    spoken = f"{len(heads)} spoken with {periods} periods and {samples} samples"
    return f"{spoken}, {len(calls) - len(heads)} refused ({refused})"


class Replay(unittest.TestCase):
    def setUp(self):
        folder = tempfile.TemporaryDirectory()
        self.addCleanup(folder.cleanup)
        self.folder = Path(folder.name)

    def run_on(self, call, *command):
        """Exit status, standard output and standard error of a command with the call's files."""
        (self.folder / "voice.flv").write_bytes(call.voice)
        (self.folder / "call.sht").write_bytes(call.sheet)
        done = subprocess.run(command, cwd=self.folder, stdout=subprocess.PIPE, stderr=subprocess.PIPE, check=False)
        return done.returncode, done.stdout, done.stderr

    def compare(self, name, calls, made, answers, settings):
        """Makes the calls and tells how many. All must agree, and each answer and setting must be among them."""
        wrong = []
        for call in calls:
            text = made(call)
            if text != call.text:
                wrong.append(f"call {call.number}: stored {call.text[:200]}, found {text[:200]}")
        print(f"{name}: {len(calls)} stored calls made: {counts(calls)}", flush=True)
        if wrong:
            self.fail(f"{len(wrong)} calls disagree, first\n" + "\n".join(wrong[:5]))
        self.assertEqual({call.answer for call in calls}, answers)
        self.assertEqual({call.settings for call in calls if call.answer == 0}, settings)

    def by_player(self, call):
        """What the player prints; on standard error stand notes, or a refusal with a sentence behind its number."""
        join, how, fold, strict = call.settings
        words = ["--join", join] + (["--filter", how] if how else []) + ["--fold"] * fold + ["--strict"] * strict
        status, text, message = self.run_on(call, PLAYER, "voice.flv", "call.sht", *words)
        if status == 0 and all(line.startswith(b"player: note: ") for line in message.splitlines()):
            return text
        refused = re.match(rb"player: (refused [0-9]+): ", message)
        self.assertTrue(refused and (status, text) == (1, b""), (call.number, status, text, message))
        return refused[1] + b"\n"

    def test_player(self):
        """Every setting. The player lends what a call needs, so none of its calls is refused with 13."""
        calls = [call for call in CALLS if call.answer != SHORT_BUFFER]
        print(f"player: {len(CALLS) - len(calls)} stored calls with short buffers are not its own")
        self.compare("player", calls, self.by_player, ANSWERS - {SHORT_BUFFER}, SETTINGS)

    def by_speak(self, call):
        status, text, message = self.run_on(call, SPEAK)
        self.assertEqual((status, message), (0, b""), call.number)
        return text

    def test_speak(self):
        """The program's own settings, which are not strict, with its own buffers or others that do. The simple
        join makes no slope."""
        calls = [
            call
            for call in CALLS
            if call.settings == SPEAK_SETTINGS and (call.answer != SHORT_BUFFER or call.buffers == SPEAK_BUFFERS)
        ]
        print(f"speak: {len(CALLS) - len(calls)} stored calls with other settings or short buffers are not its own")
        self.compare("speak", calls, self.by_speak, ANSWERS - {SLOPE, MISSING_PAIR}, {SPEAK_SETTINGS})


if __name__ == "__main__":
    unittest.main()
