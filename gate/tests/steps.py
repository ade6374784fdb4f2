"""Tests of ./check: no step of it vanishes. It runs in a small tree, on stand-ins for all tools."""

from __future__ import annotations

import os
import re
import shutil
import subprocess
import tempfile
import time
import unittest
from pathlib import Path

TOP = Path(__file__).resolve().parents[2]
TOTAL = re.compile(r"\n(\d+) passed, (\d+) failed\n\Z")
STEPS = 28
PASSES = "1 passed, 0 failed"

# What stands in for each tool. It notes its call, and the tool that $TOOL names does what $DOES says. It begins no process.
TOOL = f"""#!/usr/bin/env bash
echo "$0" >>"$NOTES"
pause() {{ read -rt "$1" <>"$FIFO"; }}
if [[ ${{0##*/}} == "$TOOL" ]]; then eval "$DOES"; exit; fi
if [[ $1 == --rest ]]; then mkdir "$2"; exit; fi
if [[ $0 == gate/edits ]]; then
    log=${{*: -1}} said=()
    until [[ ${{said[*]: -1}} == "rt ci ended" ]]; do
        pause 0.05
        [[ ! -e $log ]] || mapfile -t said <"$log"
    done
fi
echo "{PASSES}"
"""

# A C library's `fork`, which fails from a call on.
FORK = """#define _GNU_SOURCE
#include <dlfcn.h>
#include <errno.h>
#include <stdlib.h>

int fork(void) {
    static int calls;
    if (++calls < atoi(getenv("FORK_FAILS_AT"))) return ((int (*)(void))dlsym(RTLD_NEXT, "fork"))();
    errno = ENOMEM;
    return -1;
}
"""

# What a step does, how many pass and fail then in all, and what has to be said of it.
ENDS = {
    "echo '3 passed, 0 failed'": (STEPS + 2, 0, ""),
    "echo '3 passed, 2 failed'; exit 1": (STEPS + 2, 2, "check: words: 3 passed, 2 failed; its log ends with\n    3 passed, 2 failed\n"),
    "echo '3 passed, 0 failed'; exit 1": (STEPS - 1, 1, "'3 passed, 0 failed', and its command, tee and sed ended with 1 0 0"),
    "echo '0 passed, 0 failed'": (STEPS - 1, 1, "check: words: it has no total: 0 passed, 0 failed;"),
    "echo '3 passed, 0 failed'; echo more": (STEPS - 1, 1, "check: words: it has no total: more;"),
    "exit 0": (STEPS - 1, 1, "check: words: it has no total: ;"),
    "kill -KILL $$": (STEPS - 1, 1, "', and its command, tee and sed ended with 137 0 0"),
    "echo 'it: as it should be'; echo 'FAILED it'; echo 'by a written proof alone: it: why'; echo '0 passed, 1 failed'": (STEPS - 1, 1, "log ends with\n    FAILED it\n    0 passed, 1 failed\n"),
    # A total that is written by another than the step.
    f"echo {PASSES} >$TMPDIR/live.total": (0, 1, "check: the total of live cannot be written into "),
    f"echo {PASSES} >>$TMPDIR/acceptance.total; echo {PASSES}": (STEPS - 1, 1, f"check: acceptance: it has no total: {PASSES} {PASSES};"),
    f"rm $TMPDIR/acceptance.total; echo {PASSES}": (STEPS - 1, 1, "check: acceptance: it has no total: it did not begin;"),
}

# Steps in which their lane is killed, before and behind their total, and how many steps the lane has.
MARK = 'echo $$ >"$NOTES.pid"; mv "$NOTES.pid" "$NOTES.at"; pause 9'
KILLS = {
    ("run", MARK): 5,
    ("words", MARK): 5,
    ("live", f"echo {PASSES}; {MARK}"): 5,
    ("clocked", f"echo {PASSES}; {MARK}"): 2,
    ("rt", MARK): 1,
    ("pages", f"echo {PASSES}; {MARK}"): 1,
}

FILL = 'head -c 9M /dev/zero >"$TMPDIR/all" 2>/dev/null'


class Check(unittest.TestCase):
    """Cases of ./check, each in a tree of its own."""

    def setUp(self) -> None:
        self.room = Path(tempfile.mkdtemp(prefix="steps-"))
        self.addCleanup(shutil.rmtree, self.room)
        os.mkfifo(self.room / "fifo")
        (self.room / "tmp").mkdir()
        self.tree = self.lay_out(self.room / "a tree/vmebus")

    def lay_out(self, tree: Path) -> Path:
        """Makes a small tree, and returns it."""
        text = (TOP / "check").read_text()
        for name in {*re.findall(r"\b(?:gate|acceptance|bench|tools)/[a-z-]+\b(?!\.)", text), "bin/rt", "bin/rustc"}:
            (tree / name).parent.mkdir(parents=True, exist_ok=True)
            (tree / name).write_text(TOOL)
            (tree / name).chmod(0o755)
        for name in ("check", "gate/step.sh", "gate/ending.py"):
            shutil.copy(TOP / name, tree / name)
        for name in ("crates.txt", "README.md"):
            (tree / name).write_text("")
        return tree

    def start(self, *words: object, tool: str = "", does: str = "", **more: object) -> subprocess.Popen[str]:
        """Starts ./check, or such words, with a tool that does something else."""
        given = {"NOTES": self.room / "notes", "FIFO": self.room / "fifo", "TOOL": tool, "DOES": does, "TMPDIR": self.room / "tmp"}
        given["PATH"] = f"{self.tree}/bin:{os.environ['PATH']}"
        environment = {**os.environ, **{name: str(value) for name, value in {**given, **more}.items()}, "VMEBUS_GUARDED": ""}
        return subprocess.Popen(
            list(map(str, words or [self.tree / "check"])), cwd=self.tree.parent, env=environment, text=True,
            stdout=subprocess.PIPE, stderr=subprocess.STDOUT, stdin=subprocess.DEVNULL,
        )

    def run_check(self, *words: object, **how: object) -> str:
        """Runs it, and returns what it said; its status has to agree with its total."""
        made = self.start(*words, **how)
        return self.judged(made, made.communicate(timeout=60)[0])

    def judged(self, made: subprocess.Popen[str], said: str) -> str:
        total = TOTAL.search(said)
        self.assertTrue(total, said)
        self.assertEqual(made.returncode, int(total[2] != "0"), said)
        return said

    def assert_total(self, said: str, passed: int, failed: int) -> None:
        self.assertTrue(said.endswith(f"\n{passed} passed, {failed} failed\n"), said[-3000:])

    def assert_failed(self, said: str) -> None:
        self.assertNotEqual(TOTAL.search(said)[2], "0", said[-3000:])

    def test_all_pass(self) -> None:
        """Each step is run once, each line has its step, and nothing is left behind."""
        said = self.run_check(tool="words", does="echo words: said; echo one; echo 3 passed, 0 failed")
        self.assert_total(said, STEPS + 2, 0)
        self.assertIn("\nwords: said\nwords: one\nwords: 3 passed, 0 failed\n", said)
        self.assertEqual(said.count("\n== "), STEPS - said.startswith("== "))
        self.assertEqual(os.listdir(self.room / "tmp"), [])

    def test_ends(self) -> None:
        """A step counts by its total alone."""
        for does, (passed, failed, told) in ENDS.items():
            with self.subTest(does):
                said = self.run_check(tool="words", does=does)
                self.assert_total(said, passed, failed)
                self.assertIn(told, said)

    def test_killed_lanes(self) -> None:
        """A lane that is killed has failed with each of its steps, at whatever moment."""
        for (tool, does), steps in KILLS.items():
            with self.subTest(tool):
                made = self.start(tool=tool, does=does)
                os.kill(self.lane(made.pid), 9)
                (self.room / "notes.at").unlink()
                said = self.judged(made, made.communicate(timeout=60)[0])
                self.assert_total(said, STEPS - steps, steps)
                self.assertEqual(said.count(": its lane ended with status 137; "), steps)

    def lane(self, guard: int) -> int:
        """The shell of the lane in which a tool waits now."""
        end = time.monotonic() + 30
        while not (self.room / "notes.at").exists() and time.monotonic() < end:
            time.sleep(0.01)
        chain = [int((self.room / "notes.at").read_text())]
        while chain[-1] != guard:
            chain.append(int(Path(f"/proc/{chain[-1]}/stat").read_text().rpartition(")")[2].split()[1]))
        return chain[-3]

    def test_no_process(self) -> None:
        """Steps that cannot begin, since no process can, have failed."""
        library = self.room / "fork.so"
        (self.room / "fork.c").write_text(FORK)
        subprocess.run(["cc", "-shared", "-fPIC", "-o", library, self.room / "fork.c", "-ldl"], check=True)
        for call in range(4, 50, 4):
            with self.subTest(call):
                total = TOTAL.search(self.run_check(LD_PRELOAD=library, FORK_FAILS_AT=call))
                self.assertTrue(total[2] != "0" or total[1] == str(STEPS), total.string)

    def test_killed_command(self) -> None:
        """The run ends at a command that is killed, on whose output it rests."""
        (self.tree / "bin/nproc").write_text("#!/usr/bin/env bash\nkill -KILL $$\n")
        (self.tree / "bin/nproc").chmod(0o755)
        self.assert_total(self.run_check(), 0, 1)

    def on_small_disk(self, tool: str, does: str) -> str:
        """Runs ./check with its temporary files on a disk of 2 MB."""
        mount = ["unshare", "--map-root-user", "--mount", "bash", "-c", 'mount -t tmpfs -o size=2m small "$TMPDIR" && exec "$@"', "-"]
        if self.start(*mount, "true").communicate()[0]:
            self.skipTest("no disk can be mounted here")
        return self.run_check(*mount, self.tree / "check", tool=tool, does=does)

    def test_full_disk(self) -> None:
        """On a full disk the run ends before the next step."""
        said = self.on_small_disk("listings", f"{FILL}; echo {PASSES}")
        self.assert_failed(said)
        self.assertNotIn("acceptance/words", (self.room / "notes").read_text())

    def test_disk_full_for_a_moment(self) -> None:
        """A total that cannot be written is a failure."""
        said = self.on_small_disk("live", f'{FILL}; (pause 0.5; rm "$TMPDIR/all") >/dev/null 2>&1 & echo {PASSES}')
        self.assert_failed(said)

    def test_elsewhere(self) -> None:
        """It checks its own checkout: by a relative name beside CDPATH, and by a link."""
        other = self.lay_out(self.room / "other/vmebus")
        (self.room / "link").symlink_to(self.tree / "check")
        for words in (["vmebus/check"], [self.room / "link"]):
            with self.subTest(words):
                said = self.run_check(*words, CDPATH=other.parent, tool="words", does=f"pwd; echo {PASSES}")
                self.assertIn(f"\nwords: {self.tree}\n", said)

    def test_blank_in_tmpdir(self) -> None:
        """The end of a failed step's log is shown, too, if the name of its folder has a blank."""
        (self.room / "tmp/a b").mkdir()
        said = self.run_check(TMPDIR=self.room / "tmp/a b", tool="words", does="echo 'why not'; echo '0 passed, 1 failed'")
        self.assertIn("\ncheck: words: 0 passed, 1 failed; its log ends with\n    why not\n    0 passed, 1 failed\n", said)

    def test_sources(self) -> None:
        """A source that changes meanwhile is a failure, and what git ignores is none; also where there is no git."""
        for is_of_git in (False, True):
            if is_of_git:
                (self.tree / ".gitignore").write_text("out/\n")
                subprocess.run(["git", "init", "-q", self.tree], check=True)
            for change, failed in {"echo >>README.md": 1, "echo >new": 1, "rm new": 1, "chmod +x README.md": 1, "mkdir -p out; echo >>out/new": 0}.items():
                with self.subTest(change, is_of_git=is_of_git):
                    said = self.run_check(tool="words", does=f"{change}; echo {PASSES}")
                    self.assert_total(said, STEPS - failed, failed)
                    self.assertEqual(len(re.findall(r"\nsources: the sources changed\nsources: \./?", said)), failed)
            (self.tree / "README.md").chmod(0o644)

    def test_rest_on_small_disk(self) -> None:
        """gate/edits --rest says in a line which disk is too small for the copy."""
        for number in range(900):
            (self.tree / f"{number}").write_text("four")
        said = self.on_small_disk("edits", f'{FILL}; exec "{TOP}/gate/edits" --root . "$@"')
        self.assertRegex(said, r"\Aedits: .{,300}\bsmall\b.{,300}\n0 passed, 1 failed\n\Z")
