"""Tests of what gate/edits keeps: each thing that a verdict rests on counts, and a broken record costs time and nothing else."""

from __future__ import annotations

import os
import shutil
import subprocess
import time
from dataclasses import replace

from tests import kits
from tests.kits import BAD, GOOD, SOURCE
from tests.small import EDITS, GATE, Case, lay_out, read, run, tried, write, write_edit
import outcomes
from edit_files import Edit
from outcomes import Outcome, Sums, outcome_of
from trees import Repository
from verdicts import Kind, Refusal

ONE = "numbers/two_is_wrong"

# What may stand in a record.
BROKEN = [b"", b"{", b"[]", b"7", b'"text"', b"null", b"[" * 100_000, b"\0\0\0", b'["numbers/it", "f", "p", "none"]', b'["numbers/other", "f", "p", "its search left a goal open"]']

# Texts of files, and what is left of them without comments.
COMMENTS = (
    ("src/lib.rt", "//! Numbers.\n\n/// One.\npub fn one() -> u8 {\n    // it is 1\n    1 // one\n}\n", "\npub fn one() -> u8 {\n    1 // one\n}\n"),
    ("src/lib.rt", 'const IT: &str = "one\n// two\n";\n// three\n', 'const IT: &str = "one\n// two\n";\n'),
    ("src/lib.rt", 'const IT: &str = r#"one"\n// two\n"#;\n// three', 'const IT: &str = r#"one"\n// two\n"#;\n'),
    ("src/lib.rt", "const IT: char = '\"';\n// two\nconst OTHER: char = '\"';\n", "const IT: char = '\"';\nconst OTHER: char = '\"';\n"),
    ("src/lib.rt", "/* one\n// two\n*/\n", "/* one\n// two\n*/\n"),
    ("src/lib.rt", "// one\nmacro_rules! it {}\n", "// one\nmacro_rules! it {}\n"),
    ("src/lib.rt", "/// One.\n#[derive(Clone, Parser)]\n", "/// One.\n#[derive(Clone, Parser)]\n"),
    ("src/lib.rt", "/// One.\n#[derive(Clone, Copy)]\n", "#[derive(Clone, Copy)]\n"),
    ("specs/It.antt", "-- one\nabbrev it = 1 -- two\n--\n--x\n", "abbrev it = 1 -- two\n--x\n"),
)


class Records(Case):
    """What is kept of an edit, and under what."""

    def test_comments(self) -> None:
        """A line that is a comment alone is left out, if nothing can read it."""
        for file, text, wanted in COMMENTS:
            self.same(repr(text), outcomes.bare(file, text), wanted)

    def test_records(self) -> None:
        """A record is read back, and one that is broken, or another's, counts for nothing."""
        edit = Edit("numbers", "it", (), by_proof="it is so")
        outcome = Outcome("numbers/it", Refusal("f", "p", Kind.SEARCH), is_kept=True, reason="it is so")
        self.same("a record", outcome_of(edit, outcome.record()), outcome)
        for record in [None, *BROKEN]:
            self.same(repr(record)[:40], outcome_of(edit, record), None)

    def test_sums(self) -> None:
        """Each thing that a verdict rests on is in its sum: the edit, the texts and lines of its crate and of those below, and the kit."""
        os.environ.update(kits.lay_out(f"{self.room}/kit"))
        root, edit = f"{self.room}/repository", Edit("parts", "it", (("src/lib.rt", "1", "2"),))
        texts = {"crates.txt": "numbers:\nparts: numbers\n", "crates/numbers/src/lib.rt": SOURCE, "crates/parts/src/lib.rt": SOURCE, "crates/parts/specs/Lib.antt": "pub mod It\n"}
        for file, text in texts.items():
            write(f"{root}/{file}", text)
        sums = [Sums(Repository(root)).of_edit(edit), Sums(Repository(root)).of_edit(replace(edit, clause="one"))]
        for file, text in texts.items():
            write(f"{root}/{file}", text.replace("parts:", "parts: std_heap") if file == "crates.txt" else text + "more\n")
            sums.append(Sums(Repository(root)).of_edit(edit))
            write(f"{root}/{file}", text)
        write(f"{root}/crates/numbers/src/lib.rt", SOURCE.replace("/// One.", "/// The number one.\n// a comment"))
        self.same("a comment is none", Sums(Repository(root)).of_edit(edit), sums[0])
        os.environ.update(kits.lay_out(f"{self.room}/other", "another kit"))
        sums.append(Sums(Repository(root)).of_edit(edit))
        self.same("each is another", len({*sums}), len(sums))


class Kept(Case):
    """Runs of gate/edits, with a kit of the tests' own."""

    def setUp(self) -> None:
        super().setUp()
        os.environ.update(kits.lay_out(f"{self.room}/kit"))
        self.root = f"{self.room}/repository"
        lay_out(self.root, GOOD, SOURCE)

    def test_same(self) -> None:
        """What was refused is not tried again, in whatever batch it stood; what was not refused is; --anew tries all."""
        lay_out(self.root, BAD, SOURCE)
        runs = [run(self.root), run(self.root), run(self.root, "numbers/one_is_wrong"), run(self.root, "--anew", ONE)]
        self.same("how many are tried", [(status, tried(said)) for status, said in runs], [(1, 3), (1, 1), (0, 0), (0, 1)])
        answers = [[line for line in said.split("\n") if line.startswith(("numbers/", "2 passed"))] for _, said in runs[:2]]
        self.tell("the same is said", answers[0] == answers[1] and len(answers[0]) == 4, answers)

    def test_runner(self) -> None:
        """An edit is tried again if the runner has changed, and only once."""
        gate = f"{self.room}/gate"
        shutil.copytree(GATE, gate, ignore=shutil.ignore_patterns("__pycache__"))
        run(self.root, ONE)
        write(f"{gate}/sources.py", f"{read(f'{gate}/sources.py')}# a comment\n")
        self.same("how many are tried", [tried(run(self.root, ONE, edits=f"{gate}/edits")[1]) for _ in range(2)], [1, 0])

    def test_places(self) -> None:
        """A cache that cannot be used, or is everybody's, costs time and nothing else."""
        write(f"{self.room}/file", "")
        os.makedirs(f"{self.room}/others/vmebus/edits")
        os.chmod(f"{self.room}/others/vmebus/edits", 0o777)
        for cache in (f"{self.room}/file", f"{self.room}/others"):
            for status, said in (run(self.root, ONE, cache=cache) for _ in range(2)):
                self.tell(cache, status == 0 and tried(said) == 1 and "cannot be used, so that the next run tries" in said, said)

    def test_full(self) -> None:
        """A full cache costs time alone, if a small disk can be made here."""
        cache = f"{self.room}/full"
        fill = f"mkdir -p {cache}/vmebus/edits; cat /dev/zero >{cache}/filler 2>/dev/null"
        _, said = self.on_small_disk(cache, "4k", f"{fill}; {EDITS} --root {self.root} --jobs 1 {ONE}; ls {cache}/vmebus/edits", XDG_CACHE_HOME=cache)
        self.tell("it ends well", said.endswith("\n1 passed, 0 failed\n"), said)

    def test_two_at_once(self) -> None:
        """Two runs at once both end well, and what they keep is whole."""
        words = [EDITS, "--root", self.root, "--jobs", "1"]
        tools = [subprocess.Popen(words, env={**os.environ, "XDG_CACHE_HOME": f"{self.root}.cache"}, text=True, stdout=subprocess.PIPE) for _ in range(2)]
        self.same("both", [tool.communicate()[0].endswith("\n2 passed, 0 failed\n") for tool in tools], [True, True])
        self.same("what is kept", tried(run(self.root)[1]), 0)

    def test_lanes(self) -> None:
        """Crates in lanes side by side come to the same as in one lane."""
        write(f"{self.root}/crates.txt", "numbers:\nothers:\n")
        write(f"{self.root}/crates/others/src/lib.rt", SOURCE)
        for name, pair in GOOD.items():
            write_edit(self.root, name, pair, crate="others")
        runs = [run(self.root, "--anew", "--jobs", jobs) for jobs in ("1", "3")]
        answers = [sorted(line for line in said.split("\n") if line.startswith(("numbers/", "others/"))) for _, said in runs]
        self.tell("they say the same", answers[0] == answers[1] and len(answers[0]) == 4, runs)

    def test_follow(self) -> None:
        """Edits wait until the log of rt ci says that the libraries are built, and end if it says that they will not be."""
        tree, log = f"{self.room}/tree", f"{self.room}/log"
        write(f"{self.root}/crates.txt", "base:\nnumbers: base\n")
        write(f"{self.root}/crates/base/src/lib.rt", SOURCE)
        shutil.copytree(self.root, tree)
        os.makedirs(f"{tree}/crates/base/out/rlib/base.rlib")
        words = ["--anew", "--built", tree, "--follow", log, ONE]
        tool = subprocess.Popen([EDITS, "--root", self.root, *words], env={**os.environ, "XDG_CACHE_HOME": f"{self.root}.cache"}, text=True, stdout=subprocess.PIPE)
        time.sleep(2)
        is_waiting = tool.poll() is None
        write(log, "== base\nrt: base proved\n")
        said, _ = tool.communicate()
        self.tell("edits follow rt ci", is_waiting and said.endswith("\n1 passed, 0 failed\n"), said)
        for text in ("rt: base NOT PROVED\n", "0 passed, 1 failed\nrt ci ended\n"):
            write(log, text)
            self.same(repr(text), run(self.root, *words)[1], "edits: rt ci did not prove base, so that no edit can be tried above it\n0 passed, 1 failed\n")
        write(f"{tree}/crates/base/src/lib.rt", SOURCE + "// a comment\n")
        said = run(self.root, "--anew", "--built", tree, ONE)[1]
        self.same("libraries of other texts", said, f"edits: --built: base in {tree} is not the repository's\n0 passed, 1 failed\n")
