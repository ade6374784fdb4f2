"""Tests of gate/kit, with a small command `rt` in place of the kit's, which proves nothing."""

from __future__ import annotations

import os
import shutil
import signal
import subprocess
import tempfile
import time
import unittest
from pathlib import Path
from typing import Callable

from tests import small

# What plays the kit: it notes how it was called at the top of a repository, and prints a total. Of
# the crate `endless` it leaves a process behind when it is stopped.
KIT = r"""#!/usr/bin/env bash
if [[ ! -f crates.txt ]]; then
    echo "rt: rt ci runs at the top of the repository"
    exit 2
fi
echo "$*" >>"$CALLS"
if [[ $2 == endless ]]; then
    setsid sleep 30 >/dev/null 2>&1 &
    sleep 0.3
    touch "$CALLS.begun"
    exec sleep 30
fi
echo "2 passed, 0 failed (1 crate)"
"""
# What plays a kit that keeps nothing of `rt ci`, and takes no word after it.
OLDER = """#!/usr/bin/env bash
echo "usage: rt new FOLDER" >&2
echo "       rt check|verdict|lib|run|test [NAME]" >&2
exit 2
"""
TOTAL = "2 passed, 0 failed (1 crate)"


class Kit(unittest.TestCase):
    """Calls of gate/kit in a small repository of two crates."""

    def setUp(self) -> None:
        self.room = Path(tempfile.mkdtemp(prefix="kit-"))
        self.addCleanup(shutil.rmtree, self.room)
        self.root, self.scratch, self.calls = self.room / "a repository", self.room / "scratch", self.room / "calls"
        small.lay_out(self.root, {})
        (self.root / "crates.txt").write_text("# none\nnumbers:\nendless may_wait=2: numbers\n")
        shutil.copytree(self.root / "crates/numbers", self.root / "crates/endless")
        shutil.copytree(small.GATE, self.root / "gate", ignore=shutil.ignore_patterns("tests", "__pycache__"))
        self.play(KIT)
        self.scratch.mkdir()

    def play(self, kit: str) -> None:
        """Lays such a kit beside the repository."""
        small.write(f"{self.root}/bin/rt", kit)
        (self.root / "bin/rt").chmod(0o755)

    def start(self, *words: str, program: str = "gate/kit", **more: str) -> subprocess.Popen[str]:
        """Starts gate/kit there, with its temporary files in a folder of their own."""
        given = {"PATH": f"{self.root}/bin:{os.environ['PATH']}", "CALLS": str(self.calls), "TMPDIR": str(self.scratch), **more}
        return subprocess.Popen(
            [program, *words], cwd=self.root, env={**os.environ, **given}, text=True,
            stdout=subprocess.PIPE, stderr=subprocess.STDOUT,
        )

    def run_kit(self, *words: str, **how: str) -> tuple[int, str, str]:
        """Runs it, and returns its status, what it said, and how the kit was called."""
        self.calls.write_text("")
        made = self.start(*words, **how)
        said, _ = made.communicate(timeout=60)
        return made.returncode, said, self.calls.read_text()

    def wait_until(self, is_so: Callable[[], bool]) -> None:
        end = time.monotonic() + 20
        while not is_so() and time.monotonic() < end:
            time.sleep(0.05)

    def assert_nothing_left(self) -> None:
        self.assertEqual(os.listdir(self.scratch), [])

    def test_names(self) -> None:
        """A name that is no crate is refused before anything is copied, also in the background."""
        for words in (("numbers", "nosuch"), ("--background", "number"), ("none",), ("",)):
            with self.subTest(words):
                self.assertEqual(self.run_kit(*words), (1, f"gate/kit: no crate {words[-1]} in crates.txt\n", ""))
                self.assert_nothing_left()

    def test_help(self) -> None:
        """The help says what --background does; a call without names shows the help."""
        for words, status in ((("--help",), 0), ((), 1), (("--background",), 1)):
            with self.subTest(words):
                ended, said, called = self.run_kit(*words)
                self.assertEqual((ended, called), (status, ""))
                for part in ("usage: gate/kit ", "the name of its log", "Once its last line is the total"):
                    self.assertIn(part, " ".join(said.split()))

    def test_passes(self) -> None:
        """It calls the kit's gate on these crates, and ends as that does: also by a link, and beside another checkout that CDPATH has."""
        (self.room / "link").symlink_to(self.root / "gate/kit")
        (self.room / "other/gate").mkdir(parents=True)
        for program in ("gate/kit", str(self.room / "link")):
            with self.subTest(program):
                status, said, called = self.run_kit("numbers", "endless", program=program, CDPATH=f"{self.room}/other")
                self.assertEqual((status, said.splitlines()[-1], called), (0, TOTAL, "ci numbers endless\n"))
                self.assert_nothing_left()

    def test_background(self) -> None:
        """In the background it names its log, whose last line is the total once it has ended."""
        status, said, _ = self.run_kit("--background", "numbers")
        log = Path(said.rstrip("\n"))
        self.assertRegex(str(log), r"/scratch/vmebus-kit-\w+\.log\Z")
        self.wait_until(lambda: log.read_text().endswith(f"{TOTAL}\n") and os.listdir(self.scratch) == [log.name])
        self.assertEqual((status, log.read_text().splitlines()[-1], self.calls.read_text()), (0, TOTAL, "ci numbers\n"))

    def test_interrupt(self) -> None:
        """What ends it ends what the kit leaves, too."""
        made = self.start("endless")
        self.wait_until(Path(f"{self.calls}.begun").exists)
        made.send_signal(signal.SIGTERM)
        said, _ = made.communicate(timeout=60)
        self.assertEqual(made.returncode, 1, said)
        self.assertEqual([it for it in filter(str.isdigit, os.listdir("/proc")) if self.works_here(it)], [])
        self.assert_nothing_left()

    def works_here(self, process: str) -> bool:
        try:
            return os.readlink(f"/proc/{process}/cwd").startswith(str(self.scratch))
        except OSError:
            return False

    def test_older(self) -> None:
        """A kit that keeps nothing of its gate is named in one line, also in the background."""
        self.play(OLDER)
        said = "gate/kit: this kit keeps nothing of rt ci, so a later ./check proves these crates anyway\n"
        for words in (("numbers",), ("--background", "numbers", "endless")):
            with self.subTest(words):
                self.assertEqual(self.run_kit(*words), (1, said, ""))
                self.assert_nothing_left()
