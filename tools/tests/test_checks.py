"""The checks of `.ci/` refuse programs that are wrong: each is planted in the place of the one that was built."""

from __future__ import annotations

import os
import re
import subprocess
import sys
from pathlib import Path

import plain_machine as plain
from rows_frames import script_of
from tests.helpers import EXAMPLES, SECONDS, TOP, InFolder

# A program that does with each script of the examples what its files say, and what else it is told to.
PLANTED = """#!{python} -IS
import os, sys, time
from pathlib import Path
def stored(ending, other):
    path = script.with_suffix(ending)
    return path.read_bytes() if path.exists() else other
given = sys.stdin.buffer.read()
script = next(script for script in Path({examples!r}).glob("*.script") if script.read_bytes() == given)
wrote, status = stored(".expected", b""), int(stored(".status", b"0"))
{before}
sys.stdout.buffer.write(wrote)
sys.stdout.buffer.flush()
sys.stderr.buffer.write(stored(".stderr", b""))
sys.stderr.buffer.flush()
{after}
sys.exit(status)
"""


class Examples(InFolder):
    """`.ci/examples` looks at what a program writes, at its status and at what it says on standard error."""

    def check(self, before: str = "", after: str = "", seconds: int = 20) -> subprocess.CompletedProcess[str]:
        """What the check says of a program that writes the right replies, and does this before and after."""
        text = PLANTED.format(python=sys.executable, examples=str(EXAMPLES), before=before, after=after)
        words = ["bash", TOP / ".ci" / "examples", self.executable(text), str(seconds)]
        return subprocess.run(words, capture_output=True, encoding="utf-8", timeout=3 * SECONDS)

    @property
    def count(self) -> int:
        """How many scripts there are."""
        return len(list(EXAMPLES.glob("*.script")))

    def refused(self, done: subprocess.CompletedProcess[str], why: str) -> None:
        """All scripts failed for that cause."""
        self.assertEqual(done.returncode, 1)
        self.assertEqual(len(re.findall(f": program: {why}", done.stdout)), self.count, done.stdout)
        self.assertTrue(done.stdout.endswith(f"examples: 0 passed, {self.count} failed\n"), done.stdout)

    def test_a_right_program(self) -> None:
        done = self.check()
        self.assertEqual((done.returncode, done.stdout), (0, f"examples: {self.count} passed, 0 failed\n"), done.stderr)

    def test_right_replies_and_another_status(self) -> None:
        self.refused(self.check(after="status = 139"), "it ended with status 139, and not [04]\n")
        self.refused(self.check(after="status = 1"), "it ended with status 1, and not [04]\n")

    def test_right_replies_and_a_signal(self) -> None:
        self.refused(self.check(after="os.kill(os.getpid(), 11)"), "it ended with status 139, and not [04]\n")

    def test_right_replies_and_words_on_standard_error(self) -> None:
        said = "it said on standard error: (?:dgraph: bad frame at [0-9]+\n)?oh"
        self.refused(self.check(after="sys.stderr.write('oh')"), said)

    def test_other_replies(self) -> None:
        done = self.check(before="wrote = wrote[:-1]")
        self.assertEqual(done.returncode, 1)
        self.assertEqual(done.stdout.count(": its output is not examples/"), self.count, done.stdout)

    def test_a_program_that_doesnt_end(self) -> None:
        sleeps = "time.sleep(100 if given.startswith(b'alter') and b'begin 2' in given else 0)"
        done = self.check(after=sleeps, seconds=1)
        self.assertEqual(done.returncode, 1)
        self.assertIn(": it hadn't ended after 1 seconds\n", done.stdout)

    def test_no_program(self) -> None:
        words = ["bash", TOP / ".ci" / "examples", self.folder / "none"]
        done = subprocess.run(words, capture_output=True, encoding="utf-8", timeout=SECONDS)
        self.assertEqual(done.returncode, 1)
        self.assertIn(f"examples: 0 passed, {self.count} failed\n", done.stdout)


class Repository(InFolder):
    """The checks in a repository of their own, with a program and a source."""

    def setUp(self) -> None:
        super().setUp()
        for folder in (".ci", "crates/dgraph/out", "crates/dgraph/src"):
            (self.folder / folder).mkdir(parents=True)
        for path in (TOP / ".ci").iterdir():
            self.file(f".ci/{path.name}", path.read_bytes())
        self.file("crates.txt", "")
        self.file("crates/dgraph/src/main.rt", "")

    def run_check(self, name: str, path: str = "") -> subprocess.CompletedProcess[str]:
        """What a check does."""
        environment = {"PATH": path or "/usr/local/bin:/usr/bin:/bin"}
        words = ["/bin/bash", self.folder / ".ci" / name]
        return subprocess.run(words, capture_output=True, encoding="utf-8", timeout=SECONDS, env=environment)

    def built(self) -> Path:
        """A program."""
        path = self.file("crates/dgraph/out/dgraph", "#!/bin/sh\n")
        path.chmod(0o755)
        return path

    def test_no_program(self) -> None:
        for name in ("built", "examples", "statuses", "tool"):
            done = self.run_check(name)
            self.assertEqual((done.returncode, done.stdout), (1, ""), name)
            self.assertIn("crates/dgraph/out/dgraph isn't there: rt ci builds it", done.stderr)

    def test_an_older_program_is_not_run(self) -> None:
        built = self.built()
        self.assertEqual(self.run_check("built").stdout, f"{built}\n")
        for name in ("crates.txt", "crates/dgraph/src/main.rt"):
            source = self.folder / name
            later = built.stat().st_mtime + 10
            os.utime(source, (later, later))
            for check in ("built", "examples", "statuses", "tool"):
                done = self.run_check(check)
                self.assertEqual((done.returncode, done.stdout), (1, ""))
                self.assertIn(f"crates/dgraph/out/dgraph is older than {name}: rt ci builds it anew\n", done.stderr)
            os.utime(source, (0, 0))

    def test_the_other_compilers_program_is_run_too_unless_it_is_older(self) -> None:
        built = self.built()
        other = self.file("crates/dgraph/out/dgraph.by-rattle", "#!/bin/sh\n")
        other.chmod(0o755)
        self.assertEqual(self.run_check("built").stdout, f"{built}\n{other}\n")
        os.utime(other, (0, 0))
        self.assertEqual(self.run_check("built").stdout, f"{built}\n")

    def test_without_python_the_gate_fails_with_one_line(self) -> None:
        self.built()
        (self.folder / "bin").mkdir()
        for name in ("dirname", "find"):
            (self.folder / "bin" / name).symlink_to(f"/usr/bin/{name}")
        done = self.run_check("tool", str(self.folder / "bin"))
        self.assertEqual((done.returncode, done.stderr), (1, ""))
        self.assertRegex(done.stdout, r"\Atools: FAILED, since this machine has no python3 of version 3.9 or .*\n\Z")

    def test_the_gate_ends_with_the_first_check_that_fails(self) -> None:
        text = (TOP / ".ci" / "run").read_text(encoding="utf-8")
        self.assertIn("\nRT_JOBS=$jobs rt ci; status=$?\n", text)
        self.assertIn('\n[ "$status" = 0 ] || exit "$status"\n', text)
        (self.folder / "bin").mkdir()
        for status, wanted in ((7, 7), (0, 1)):
            program = self.file("bin/rt", f'#!/bin/sh\necho "rt $*, $RT_JOBS jobs"\nexit {status}\n')
            program.chmod(0o755)
            done = self.run_check("run", f"{self.folder}/bin:/usr/bin:/bin")
            self.assertEqual(done.returncode, wanted, done.stderr)
            self.assertRegex(done.stdout, r"\Art ci, [1-9][0-9]* jobs\nThat took 0 minutes, [1-9][0-9]* checks side by side\.\n\Z")


class Statuses(InFolder):
    """`.ci/statuses` finds another status and other words."""

    def test_a_program_that_is_always_done(self) -> None:
        words = ["bash", TOP / ".ci" / "statuses", self.executable("#!/bin/sh\nexit 0\n")]
        done = subprocess.run(words, capture_output=True, encoding="utf-8", timeout=3 * SECONDS)
        self.assertEqual(done.returncode, 1)
        for what, status in (("a folder as the input", 1), ("no room for the output", 2), ("the words 'walk'", 3),
                             ("no verb", 4), ("an input that is too long", 5), ("the first load of 3,000 nodes", 0),
                             ("a product that is too large for memory", 0),
                             ("ten thousand fields, ten thousand blocks and forty thousand sums", 0),
                             ("a sum of a hundred thousand greatest numbers", 0),
                             ("twenty thousand blocks that feed each other, and in a circle", 0),
                             ("ten thousand nodes at the ends of an edge", 0), ("long texts under an index by terms", 0),
                             ("long texts under an index by trigrams", 0)):
            self.assertIn(f"{what}: status 0, and not {status}; it said '', and wrote '", done.stdout)
        self.assertIn("statuses: 1 passed, ", done.stdout)

    def test_the_line_of_a_load_is_the_plain_machines(self) -> None:
        replies = plain.run(script_of(7, 3_000).encode()).replies
        refused = sum(reply.startswith(b"error ") for reply in replies)
        line = f"requests {len(replies)} ok {len(replies) - refused} errors {refused} bytes {sum(map(len, replies))}\\n"
        self.assertIn(f"\nloaded_more=$'{line}'\n", (TOP / ".ci" / "statuses").read_text(encoding="utf-8"))
