"""Tests of .ci/run, with a stand-in for rt and for each further part."""
import os
import shutil
import subprocess
import tempfile
import unittest
from pathlib import Path

from cases import REPO

PARTS = "tests/c/run tools/real/against-flite tests/tools/run tests/player/run tests/speak/run tests/report/run tests/replay/run oracle/run"
ARCHIVES = "diphone_c_c probe_call probe probe_state"
CI = """#!/bin/sh
[ "$1" = doc ] && { echo "$KIT/START-HERE.md"; exit; }
echo "rt $*" >>calls
for name in speak report; do mkdir -p crates/$name/out && echo $name >crates/$name/out/$name; done
cat "$SAYS"
exit "$STATUS"
"""
# The last word is the file that is to be made.
RATTLE = """#!/bin/sh
echo "${PWD##*/}" >>../../calls
for word; do :; done
echo made >"$word"
"""
OK = "rt: ok; handles allowed: none{}; every proof and must-fail edit was done in this run\n9 passed, 0 failed\n"


class Gate(unittest.TestCase):
    def setUp(self):
        folder = tempfile.TemporaryDirectory()
        self.addCleanup(folder.cleanup)
        self.root, self.other = Path(folder.name) / "checkout", Path(folder.name) / "kit"
        self.put(".ci/run", (REPO / ".ci/run").read_text())
        for part in PARTS.split():
            self.put(part, f"#!/bin/sh\necho {part} >>calls\nexit 77\n")
        self.put("tools/archive", '#!/bin/sh\necho "archive $1" >>calls\n')
        for name in ARCHIVES.split():
            (self.root / "crates" / name).mkdir(parents=True)
        (self.root / "crates.txt").write_text("".join(f"{name} staticlib:\n" for name in ARCHIVES.split()))
        self.put(self.other / "bin/rt", CI)
        self.put(self.other / "bin/rattle", RATTLE)

    def put(self, path, text):
        path = self.root / path
        path.parent.mkdir(parents=True, exist_ok=True)
        path.write_text(text)
        path.chmod(0o755)

    def clear(self):
        """As in a fresh clone."""
        for out in self.root.glob("crates/*/out"):
            shutil.rmtree(out)

    def gate(self, says, status=0):
        """The exit status, the last line, and what was called."""
        (self.other / "says").write_text(says)
        words = dict(PATH=f"{self.other}/bin:/usr/bin:/bin", KIT=str(self.other), SAYS=f"{self.other}/says", STATUS=str(status))
        done = subprocess.run([self.root / ".ci/run"], stdout=subprocess.PIPE, stderr=subprocess.STDOUT, text=True, env=words, check=False)
        calls = self.root / "calls"
        called = calls.read_text().splitlines()
        calls.unlink()
        return done.returncode, done.stdout.splitlines()[-1], called

    def test_passes(self):
        """Plain rt ci comes first, then each part. One that cannot run counts neither way."""
        status, last, called = self.gate(OK.format("; must-fail edits: 7 refused, 1 of them only by a limit"))
        self.assertEqual((status, last, called[0]), (0, "9 passed, 0 failed", "rt ci"))
        self.assertEqual(called[-8:], PARTS.split())
        self.assertEqual((self.root / "target/bin/speak").read_text(), "speak\n")

    @unittest.skipUnless(os.uname().machine == "x86_64", "archives are for x86-64 alone")
    def test_archives(self):
        """From what rt ci built where nothing was built before; else, and where that fails, by tools/archive."""
        self.assertEqual(self.gate(OK.format(""))[2][1:5], ARCHIVES.split())
        for name in ("diphone_c", "probe"):
            self.assertEqual((self.root / f"target/staticlib/lib{name}.a").read_text(), "made\n")
        names = ARCHIVES.replace("diphone_c_c", "diphone_c").split()
        self.assertEqual(self.gate(OK.format(""))[2][1:5], [f"archive {name}" for name in names])
        self.put(self.other / "bin/rattle", "#!/bin/sh\nexit 1\n")
        self.clear()
        self.assertEqual(self.gate(OK.format(""))[2][1:5], [f"archive {name}" for name in names])
        self.put("tools/archive", "#!/bin/sh\nexit 1\n")
        self.clear()
        self.assertEqual(self.gate(OK.format(""))[:2], (1, "9 passed, 1 failed"))

    def test_fails(self):
        """Also where rt ci passes with edits that are bad, or does not say how it went."""
        failed = "rt: FAILED: voice\n8 passed, 2 failed\n"
        for says, status, last in [
            (OK.format("; must-fail edits: 5 refused, 2 bad"), 0, "9 passed, 1 failed"),
            (OK.format("; must-fail edits: 5 refused, 1 of them only by a limit, 12 bad"), 0, "9 passed, 1 failed"),
            (OK.format(""), 1, "9 passed, 1 failed"),
            ("9 passed, 0 failed\n", 0, "9 passed, 1 failed"),
            (failed, 1, "8 passed, 2 failed"),
            ("0 passed, 1 failed\n", 2, "0 passed, 1 failed"),
            ("", 0, "0 passed, 1 failed"),
            (OK.format("") + "rt: more\n", 0, "0 passed, 1 failed"),
        ]:
            with self.subTest(says=says):
                self.assertEqual(self.gate(says, status)[:2], (1, last))
        self.put("tests/speak/run", "#!/bin/sh\nexit 1\n")
        self.assertEqual(self.gate(OK.format(""))[:2], (1, "9 passed, 1 failed"))
        self.assertEqual(self.gate(failed, 1)[:2], (1, "8 passed, 3 failed"))


if __name__ == "__main__":
    unittest.main()
