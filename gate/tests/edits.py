"""Tests of gate/edits: what it has to refuse, to find and to leave alone."""

import glob
import os
import shutil
import signal
import subprocess
import time

from tests.small import EDITS, SOURCE, Case, folder_of, lay_out, read, run, told_of, write, write_edit
import verdicts

SAME = ("    number + 1", "    number")
PROVED = "NOT REFUSED: numbers::next, which it edits, is proved with it"
STANDS = "BAD EDIT: its 'old:' stands in src/lib.rt {} times, where once is wanted"
# Each edit, and the end of what has to be told of it.
CASES = {
    "next_is_the_same": (SAME, ": it found values at which a goal is false"),
    "lesser_is_the_other": (("if one < other {", "if other < one {"), ": it found values at which a goal is false"),
    "the_same_sum": (("    number + 1", "    1 + number"), PROVED),
    "refused_in_its_caller": (("result ≡ number + 1 }", "number < result }"), PROVED),
    "no_text_of_the_crate": (("number + 7", "number"), STANDS.format(0)),
    "a_text_that_stands_twice": (("requires", "ensures"), STANDS.format(2)),
    "nothing": (("if one < other {", "if one < other {"), "BAD EDIT: it changes nothing"),
    "no_rattle": (("next(next(number))", "next(next(number)"), "BAD EDIT: it did not come to the prover"),
}
DEFINITION = """-- What is small, for the tests of gate/edits.
use Rattle.std.specs.Prelude.{ℕ, ◌<◌}

abbrev pub IsSmall : ℕ → Type 0
IsSmall number = number < 100
"""
OF_SMALL = """//! Small numbers, for the tests of gate/edits.
#![tactic(auto)]

ghost use Rattle.std.specs.Prelude.{◌≤◌};
ghost use Rattle.numbers.specs.Small.{IsSmall};

/// A small number.
pub fn small() -> u8
    ensures { IsSmall result }
{
    99
}

/// The number itself.
pub fn same(number: u8) -> u8
    ensures { result ≤ number }
{
    number
}
"""
# What the file of an edit of IsSmall says, and what has to be told of it.
NAMED = {
    "# at: numbers::small": "refused at numbers::small, src/lib.rt:",
    "# at: numbers::same": "NOT REFUSED: numbers::same, which has to refuse it, is proved with it",
    "# at: numbers::large": "BAD EDIT: it did not come to the prover",
    "": "BAD EDIT: it edits a definition, and has no line '# at: FUNCTION' that names the function that has to refuse it",
    "# by: another": "BAD EDIT: its '# by:' is not 'rt ci'",
}
# What the prover says of functions over one whose proof is a hole, and over one that is refused, and of one in a cycle of calls.
HOLES = """fn numbers::next: depends on a hole in `Rattle.numbers.proofs.next.Proof.next_spec`
fn numbers::odd: no proof: expected answers in ./proofs/odd/Answers.antt; `search` did not prove `returns`
fn numbers::even: not proved; it calls `numbers::next`, which is not proved
fn numbers::both: not proved; it calls `numbers::next` and `numbers::odd`, which are not proved
only=4 holes=1
"""
CYCLE = "fn numbers::odd: no proof: in numbers::even, of this cycle of calls: it calls numbers::next, which is not proved\nonly=1 proved=0\n"


class Edits(Case):
    """What is told of edits on a small repository, which stays as it was."""

    def setUp(self) -> None:
        super().setUp()
        self.root = f"{self.room}/repository"

    def test_cases(self) -> None:
        """Each edit is told as it should be, in one run of all. One that is no Rattle stops its whole batch, and then its own try alone."""
        lay_out(self.root, {name: pair for name, (pair, _) in CASES.items()})
        before = {file: read(file) for file in glob.glob(f"{self.root}/**", recursive=True) if os.path.isfile(file)}
        status, said = run(self.root)
        for name, (_, end) in CASES.items():
            self.tell(name, end in told_of(said, name), told_of(said, name))
        good = sum("a goal is false" in end for _, end in CASES.values())
        self.tell("total", status == 1 and said.endswith(f"\n{good} passed, {len(CASES) - good} failed\n"), said)
        self.same("nothing is changed", {file: read(file) for file in glob.glob(f"{self.root}/**", recursive=True) if os.path.isfile(file)}, before)

    def test_export(self) -> None:
        """An edit of a function that C calls is told at that function."""
        lay_out(self.root, {"next_is_the_same": SAME}, SOURCE.replace("pub fn next", '#[unsafe(no_mangle)]\npub extern "C" fn next'))
        write(f"{self.root}/crates.txt", "numbers staticlib:\n")
        status, said = run(self.root)
        self.tell("an exported function", status == 0 and "refused at numbers::next, src/lib.rt:" in told_of(said, "next_is_the_same"), said)

    def test_definitions(self) -> None:
        """An edit of a definition is tried at the function that its file names, and at no other."""
        lay_out(self.root, {}, OF_SMALL)
        write(f"{self.root}/crates/numbers/specs/Small.antt", DEFINITION)
        write(f"{self.root}/crates/numbers/specs/Lib.antt", "pub mod Small\n")
        for words, end in NAMED.items():
            write_edit(self.root, "nine_is_small", ("number < 100", "number < 10"), words, file="specs/Small.antt")
            status, said = run(self.root, "numbers")
            self.tell(words or "at no function", end in told_of(said, "nine_is_small") and status == (not end.startswith("refused")), said)
        write_edit(self.root, "nine_is_small", ("number < 100", "number < 10"), "# at: numbers::small\n# by: rt ci", file="specs/Small.antt")
        for words, wanted in ((), "there is no edit to try"), (("numbers/nine_is_small",), "numbers/nine_is_small is left to rt ci, which tries it"):
            self.same(f"one for rt ci{words}", run(self.root, *words), (1, f"edits: {wanted}\n0 passed, 1 failed\n"))
        said = run(self.root, "--rest", f"{self.room}/rest")[1]
        self.same("the rest", (said, os.listdir(f"{self.room}/rest/crates/numbers/must-fail")), ("edits: 1 are left to rt ci\n", ["nine_is_small.edit"]))

    def test_callees(self) -> None:
        """A function that is refused for one that it calls alone is not refused itself, in a cycle of calls either."""
        self.same("a cycle of calls", verdicts.read(CYCLE).refused, {})
        self.same("a hole below is no reason", sorted(verdicts.read(HOLES).refused), ["numbers::even", "numbers::odd"])

    def test_misuse(self) -> None:
        """What cannot be tried ends with a clear line and status 1."""
        lay_out(self.root, {"next_is_the_same": SAME})
        for words, wanted in {
            ("no_such_crate",): "there is no crate no_such_crate",
            ("numbers/no_such_edit",): "there is no edit numbers/no_such_edit",
            ("numbers/",): "there is no edit numbers/",
            ("--jobs", "0", "numbers"): "argument --jobs: '0' is no number above 0; gate/edits --help says what there is",
            ("--follow", "log"): "--follow goes with --built; gate/edits --help says what there is",
            ("--rest", self.root): f"--rest: {self.root} is there already",
        }.items():
            self.same(" ".join(words), run(self.root, *words), (1, f"edits: {wanted}\n0 passed, 1 failed\n"))
        write(f"{self.root}/crates/numbers/must-fail/broken.edit", "fle: src/lib.rt\nold: number\n")
        said = run(self.root, "numbers/broken")[1]
        self.tell("a broken edit", "numbers/broken: FAILED: BAD EDIT: it has a line 'fle: src/lib.rt', and " in said, said)

    def test_full_disk(self) -> None:
        """A full disk ends it with a clear line, if a small one can be made here."""
        lay_out(self.root, {"next_is_the_same": SAME}, SOURCE + "// filler\n" * 10000)
        small, words = f"{self.room}/small", f"{EDITS} --root {self.root} --jobs 1 numbers/next_is_the_same"
        status, said = self.on_small_disk(small, "64k", words, TMPDIR=small, XDG_CACHE_HOME=f"{self.root}.cache")
        self.tell("its end", status == 1 and said.endswith("0 passed, 1 failed\n") and "o space left on device" in said, said)

    def test_interrupts(self) -> None:
        """An interrupt ends what runs, and leaves nothing behind: while edits are checked, and while libraries are built."""
        lay_out(self.root, {"next_is_the_same": SAME})
        write(f"{self.root}/crates.txt", "numbers:\npairs: numbers\n")
        write(f"{self.root}/crates/pairs/src/lib.rt", SOURCE)
        write_edit(self.root, "next_is_the_same", SAME, crate="pairs")
        self.interrupt("numbers", "edited/numbers/src/*")
        self.interrupt("pairs", "built/crates/numbers/out")

    def interrupt(self, crate: str, mark: str) -> None:
        """Interrupts gate/edits as soon as a file is there."""
        scratch = f"{self.room}/scratch"
        os.mkdir(scratch)
        environment = {**os.environ, "TMPDIR": scratch, "XDG_CACHE_HOME": f"{self.root}.cache"}
        tool = subprocess.Popen([EDITS, "--root", self.root, "--jobs", "1", crate], env=environment, text=True, stdout=subprocess.PIPE, stderr=subprocess.STDOUT)
        while not glob.glob(f"{scratch}/*/*/{mark}") and tool.poll() is None:
            time.sleep(0.05)
        tool.send_signal(signal.SIGINT)
        said, _ = tool.communicate()
        end, left = time.monotonic() + 30, [""]
        # A process that was killed may take its time to end on a busy machine.
        while left and time.monotonic() < end:
            time.sleep(1)
            left = [link for link in glob.glob("/proc/[0-9]*/cwd") if os.path.islink(link) and folder_of(link).startswith(scratch)]
        is_told = tool.returncode == 1 and said.endswith("edits: interrupted by SIGINT\n0 passed, 1 failed\n")
        self.tell(f"edits of {crate}", is_told and not os.listdir(scratch) and not left, f"{said} {left}")
        shutil.rmtree(scratch)
