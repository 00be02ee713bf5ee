"""Tests of tools/archive, of what tools/real/against-flite installs, and of tools/real/say where flite is at hand."""
import os
import re
import shutil
import subprocess
import tempfile
import unittest
import wave
from pathlib import Path

from cases import REPO

SAY = REPO / "tools/real/say"
FILTERS = (), ("--filter", "float"), ("--filter=fixed",)


def has_flite():
    """Whether say can be run: flite's headers, a C compiler, make and the engine's archive."""
    if not all(map(shutil.which, ("cc", "make"))):
        return False
    look = ["cc", "-E", "-include", "flite/flite.h", "-x", "c", "/dev/null"]
    done = subprocess.run(look, stdout=subprocess.DEVNULL, stderr=subprocess.DEVNULL, check=False)
    made = subprocess.run([REPO / "tools/archive", "--check"], stderr=subprocess.DEVNULL, check=False)
    return done.returncode == 0 and made.returncode == 0


def command(words, given=b"", **more):
    done = subprocess.run(words, input=given, stdout=subprocess.PIPE, stderr=subprocess.PIPE, check=False, **more)
    return done.returncode, done.stdout, done.stderr.decode()


def say(*words, given=b""):
    return command([SAY, *words], given)


class CommandLine(unittest.TestCase):
    def test_help(self):
        for word in ("-h", "--help"):
            status, text, message = say(word)
            self.assertEqual((status, message), (0, ""))
            self.assertIn(b"Usage: tools/real/say ", text)
            self.assertIn(b"--fold, --strict, --gain\n", text)
            self.assertIn(b"as the player's; if no filter is named, one hears float\n", text)
        self.assertEqual(say("--voice", "list")[:2], (0, b"kal16  16 kHz, mu-law\nkal    8 kHz, G.721\n"))

    def test_wrong(self):
        """Its own usage, on standard error."""
        for words in [
            (),
            ("a", "b"),
            ("a", "-"),
            ("-f",),
            ("--loud", "a"),
            ("--voice", "other", "a"),
            ("--voice=", "a"),
            ("--stretch", "fast", "a"),
            ("--stretch", "0", "a"),
            ("--pitch", "-5", "a"),
            ("--gain", "loud", "a"),
            ("--join", "other", "a"),
            ("--filter", "other", "a"),
            ("--filter=", "a"),
            ("--filter", "-", "a"),
            ("a", "--filter"),
            ("--stric", "a"),
            ("--raw", "--wav", "x", "a"),
        ]:
            status, text, message = say(*words)
            self.assertEqual((status, text), (2, b""), words)
            self.assertTrue(message.startswith("say: "), message)
            self.assertIn("Usage: tools/real/say ", message)


@unittest.skipUnless(has_flite(), "flite's library or the engine's archive is not here")
class Say(unittest.TestCase):
    def raw(self, *words, given=b""):
        status, data, message = say("--raw", "--voice", "kal", *words, given=given)
        self.assertEqual((status, message), (0, ""), words)
        return data

    def test_sources(self):
        """A text, standard input and a file speak alike; sentences follow each other."""
        one, two = self.raw("Nine bins."), self.raw("Turn left!")
        self.assertNotEqual(one, two)
        self.assertEqual(self.raw("-", given=b"Nine bins.\nTurn left!\n"), one + two)
        with tempfile.TemporaryDirectory() as folder:
            path = Path(folder) / "a text"
            path.write_text("Nine bins. Turn left!")
            self.assertEqual(self.raw("-f", str(path)), one + two)
        self.assertEqual(say("-f", "/nowhere/at-all"), (1, b"", "say: cannot read /nowhere/at-all\n"))

    def test_two_at_once(self):
        texts = ["Nine bins.", "Siding four, turn left."]
        alone = [self.raw(text) for text in texts]
        words = [[SAY, "--raw", "--voice=kal", text] for text in texts * 2]
        running = [subprocess.Popen(word, stdout=subprocess.PIPE) for word in words]
        self.assertEqual([process.communicate()[0] for process in running], alone * 2)

    def test_nothing_to_speak(self):
        for text in ("", "!!!", "\u65e5\u672c", " \n"):
            status, data, message = say(text)
            self.assertEqual((status, data), (1, b""), text)
            self.assertIn("say: nothing to speak: ", message)

    def test_long(self):
        """More phones than a sheet may have."""
        self.assertGreater(len(self.raw("-", given=b"Siding four, twelve bins, turn left. " * 150)), 2 * 8000 * 300)
        self.assertGreater(len(self.raw("-", given=b"bin " * 250)), 2 * 8000 * 30)

    def test_analysis(self):
        plain = self.raw("Nine bins.")
        self.assertGreater(len(self.raw("Nine bins.", "--stretch", "2.2")), len(plain) * 1.6)
        self.assertNotEqual(self.raw("Nine bins.", "--pitch=150"), plain)
        self.assertNotEqual(self.raw("Nine bins.", "--join=simple"), plain)
        self.assertNotEqual(self.raw("Nine bins.", "--gain=-6"), plain)

    def test_filter(self):
        """Without --filter as with float, in every join, and not as with fixed."""
        for words in [(), ("--join=none",), ("--join=simple",), ("--join=modified", "--fold", "--gain=-6")]:
            unnamed, named, fixed = (say("--raw", "Nine bins.", *words, *how) for how in FILTERS)
            self.assertEqual(unnamed[0], 0)
            self.assertTrue(unnamed == named, words)
            self.assertEqual(unnamed == fixed, words == ("--join=none",), words)
        unnamed, named, fixed = (say("--wav", "-", "--gain", "30", "Nine. Turn left.", *how) for how in FILTERS)
        self.assertTrue(unnamed == named != fixed)

    def test_strict(self):
        """As without --strict, unless a pair of phones is not in the voice."""
        for join in ("none", "simple", "modified"):
            words = "--raw", f"--join={join}"
            self.assertTrue(say(*words, "--strict", "Nine bins.") == say(*words, "Nine bins."), join)
            status, _, message = say(*words, "Nine bins. Yhng.")
            self.assertEqual(status, 0)
            self.assertRegex(message, "player: note: 1 of [0-9]+ pairs not in .*: y-ng ")
            status, data, message = say(*words, "--strict", "Nine bins. Yhng.")
            self.assertEqual((status, data), (1, b""))
            self.assertRegex(message, "player: refused 16: .*: y-ng\nsay: a sentence was not spoken\n")

    def test_gain(self):
        """One gain for all sentences, that of the loudest."""
        status, data, message = say("--raw", "--gain", "30", "Nine. Turn left.")
        gain = re.fullmatch(r"say: the gain is (.*) decibels: 30 would clip\n", message)[1]
        self.assertEqual((status, data), say("--raw", "--gain", gain, "Nine. Turn left.")[:2])

    def test_wav(self):
        with tempfile.TemporaryDirectory() as folder:
            path = Path(folder) / "a b.wav"
            status, text, message = say("Nine bins.", "--wav", str(path))
            self.assertEqual((status, text), (0, b""))
            self.assertIn(f"{path}: ", message)
            self.assertEqual(say("Nine bins.", "--wav", "-")[:2], (0, path.read_bytes()))
            with wave.open(str(path)) as file:
                self.assertEqual((file.getframerate(), file.getnchannels(), file.getsampwidth()), (16000, 1, 2))
                self.assertEqual(file.readframes(10**7), say("Nine bins.", "--raw")[1])


class Install(unittest.TestCase):
    def test_flite(self):
        """flite1-dev is installed where CI=true and the user is root, and nowhere else. Stand-ins for id and apt-get."""
        with tempfile.TemporaryDirectory() as folder:
            calls = Path(folder) / "calls"
            for name, text in (("id", 'echo "$USER_NUMBER"'), ("apt-get", f'echo "$*" >>"{calls}"')):
                path = Path(folder) / name
                path.write_text(f"#!/bin/sh\n{text}\n")
                path.chmod(0o755)
            for ci, user in (("", "0"), ("true", "1000"), ("true", "0")):
                self.assertFalse(calls.exists())
                words = {"PATH": f"{folder}:/usr/bin:/bin", "CC": "false", "CI": ci, "USER_NUMBER": user}
                status, text, _ = command([REPO / "tools/real/against-flite"], env=words)
                self.assertEqual(status, 77)
                self.assertIn(b"flite's library is not here", text)
            self.assertEqual(calls.read_text(), "-q update\n-q install -y flite1-dev\n")


# A stand-in for rt: notes where and how it was called, and makes what it should.
RT = """#!/bin/sh
echo "${PWD##*/} $*" >>../../calls
echo "rt: chose --jobs 2 for base"
echo "fn base::one: proved"
echo "logic=proved functions=1 native=nat,char,string"
[ -f ../../fail ] && { echo "rt: the library diphone did not build, so nothing above it was checked" >&2; exit 1; }
echo "rt: chose --jobs 2 for diphone_c_c"
echo "logic=proved functions=1 target=x86_64-unknown-linux-gnu"
mkdir -p out
echo new >out/libdiphone_c_c.a
"""
# A stand-in for date: four seconds later at each call.
DATE = """#!/bin/sh
now=$(($(cat "$0.now" 2>/dev/null || echo 0) + 4))
echo $now | tee "$0.now"
"""


@unittest.skipUnless(os.uname().machine == "x86_64", "archives are for x86-64 alone")
class Archive(unittest.TestCase):
    def setUp(self):
        folder = tempfile.TemporaryDirectory()
        self.addCleanup(folder.cleanup)
        self.root = Path(folder.name) / "with a blank"
        (self.root / "tools").mkdir(parents=True)
        shutil.copy(REPO / "tools/archive", self.root / "tools/archive")
        lines = "# A crate.", "base:", "other: base", "diphone: base", "diphone_c_c staticlib: diphone"
        (self.root / "crates.txt").write_text("\n".join(lines) + "\n")
        for name in ("base", "other", "diphone", "diphone_c_c"):
            (self.root / "crates" / name / "src").mkdir(parents=True)
            (self.root / "crates" / name / "src/lib.rt").touch()
        self.rt = self.root / "bin/rt"
        self.rt.parent.mkdir()
        for path, text in ((self.rt, RT), (self.rt.with_name("date"), DATE)):
            path.write_text(text)
            path.chmod(0o755)

    def make(self, *words, rt=True):
        path = "/usr/bin:/bin"
        path = f"{self.rt.parent}:{path}" if rt else path
        return command([self.root / "tools/archive", *words], env={"PATH": path})

    def calls(self):
        calls = self.root / "calls"
        found = calls.read_text().splitlines() if calls.exists() else []
        calls.unlink(missing_ok=True)
        return found

    def test_first_use(self):
        """Dependencies first, then the archive; a line for each crate."""
        self.assertEqual(self.make("--check")[0], 1)
        status, text, message = self.make()
        self.assertEqual((status, text, self.calls()), (0, b"", ["diphone_c_c lib"]))
        lines = ["base: 4 s", "diphone: proved before", "diphone_c_c: proved, and made into the archive"]
        self.assertEqual(message.splitlines()[1:], [f"{number} of 3 {line}" for number, line in enumerate(lines, 1)])
        self.assertEqual((self.make("--check")[0], self.make(), self.calls()), (0, (0, b"", ""), []))

    def test_never_older(self):
        self.make()
        archive = self.root / "target/staticlib/libdiphone_c.a"
        for name, made in (("base", True), ("other", False), ("diphone_c_c", True)):
            self.calls()
            os.utime(archive, (1, 1))
            for path in self.root.glob("crates/*/src/lib.rt"):
                os.utime(path, (0, 0))
            (self.root / f"crates/{name}/src/lib.rt").touch()
            self.assertEqual(self.make("--check")[0], 1 if made else 0, name)
            self.assertEqual((self.make()[0], bool(self.calls())), (0, made), name)

    def test_failures(self):
        """What is missing or went wrong, on standard error."""
        if not any(os.access(f"{folder}/rt", os.X_OK) for folder in ("/usr/bin", "/bin")):
            status, text, message = self.make(rt=False)
            self.assertEqual((status, text), (1, b""))
            self.assertTrue(re.search(r"there is no target/\S*libdiphone_c.a, and .* rt, .* not on this", message))
        (self.root / "fail").touch()
        status, text, message = self.make()
        self.assertEqual((status, text), (1, b""))
        self.assertIn("rt: the library diphone did not build, so nothing above it was checked\n", message)
        self.assertIn("archive: no archive was made", message)


if __name__ == "__main__":
    unittest.main()
