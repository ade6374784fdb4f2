"""What came of an edit, and the sum of all that it rests on, under which it is kept if the edit was refused as it must be.

That is the kit, the files of this folder, the texts without their comments and the lines of crates.txt of the edit's crate and of all
crates below it, and the edit itself. It does not depend on the batch in which the edit was tried, since edits of one batch do not touch
one another.
"""

from __future__ import annotations

import glob
import hashlib
import json
import os
import re
import sys
from dataclasses import dataclass
from functools import lru_cache

import prover
import trees
from edit_files import Edit
from trees import Repository
from verdicts import Kind, Refusal

HERE = os.path.dirname(os.path.realpath(__file__))

# A text in quotes, or a line that is a comment alone.
RATTLE = re.compile(r"""(?P<quoted>\bb?r(?P<marks>#*)".*?"(?P=marks)|"(?:\\.|[^"\\])*"|'(?:\\[^\n]+?|[^\\'\n])')|^[ ]*//[^\n]*\n?""", re.S | re.M)
ANTT = re.compile(r"""(?P<quoted>"(?:\\.|[^"\\])*")|^[ ]*--(?: [^\n]*)?(?:\n|\Z)""", re.S | re.M)
# What may read a comment: a block of comments, a macro of this repository, or a derive beside these.
BLOCK, MACRO = ("/*", "{-"), "macro_rules!"
DERIVE = re.compile(r"\bderive\(([^)]*)\)")
DERIVES = {"Clone", "Copy", "Debug", "Default", "Drop", "Eq", "Error", "Hash", "Ord", "PartialEq", "PartialOrd", "thiserror::Error"}


@dataclass(frozen=True)
class Outcome:
    """What came of an edit: how it was refused at the function that has to refuse it, and if it failed, why. If a written proof alone
    refuses it, its file gives the reason."""

    label: str
    refusal: Refusal | None = None
    why: str = ""
    is_kept: bool = False
    reason: str = ""

    def __str__(self) -> str:
        return f"{self.label}: {'FAILED: ' + self.why if self.why else self.refusal}"

    def record(self) -> bytes:
        """The text under which an edit that was refused is kept."""
        return json.dumps([self.label, self.refusal.function, self.refusal.place, self.refusal.kind.value]).encode()


def outcome_of(edit: Edit, record: bytes | None) -> Outcome | None:
    """What a record says of an edit, if it is one of this edit."""
    try:
        label, function, place, kind = json.loads(record or b"")
        return Outcome(label, Refusal(function, place, Kind(kind)), is_kept=True, reason=edit.by_proof) if label == edit.label else None
    except (ValueError, TypeError, RecursionError):
        return None


class Sums:
    """Sums of all that verdicts on the edits of a repository rest on."""

    def __init__(self, repository: Repository) -> None:
        self.repository = repository
        self.base = digest(kit_sum(), runner_sum())

    @lru_cache(maxsize=None)
    def of_crate(self, name: str) -> str:
        """The sum of a crate's texts without their comments, and of its line of crates.txt."""
        texts = sorted(self.repository.texts(name).items())
        return digest(self.repository.lines[name], *(part for file, text in texts for part in (file, bare(file, text))))

    def of_edit(self, edit: Edit) -> str:
        """The sum of all that the verdict on an edit rests on."""
        crates = [*trees.below(self.repository.uses, edit.crate), edit.crate]
        return digest(self.base, *(part for name in crates for part in (name, self.of_crate(name))), repr(edit))


def digest(*parts: str) -> str:
    """A sum of texts, each apart from the next."""
    sums = hashlib.sha256()
    for part in parts:
        sums.update(f"{len(part)}:{part}".encode("utf-8", "surrogateescape"))
    return sums.hexdigest()


def kit_sum() -> str:
    """A sum of the kit: what names it, its prover, and what each file is like that a check reads of it."""
    kit, sums = prover.kit(), hashlib.sha256()
    for file in [f"{kit}/KIT-ID", f"{kit}/bin/rattle", *sorted(glob.glob(f"{kit}/rlibs/*/format"))]:
        sums.update(f"{file}\n".encode())
        if os.path.isfile(file):
            with open(file, "rb") as content:
                sums.update(hashlib.sha256(content.read()).digest())
    for file in sorted([*trees.files_of(f"{kit}/logic_built"), *trees.files_of(f"{kit}/rattle/logic")]):
        status = os.stat(file)
        sums.update(f"{file} {status.st_size} {status.st_mtime_ns}\n".encode())
    return sums.hexdigest()


def runner_sum() -> str:
    """A sum of the runner: of its files, which are those of this folder that were loaded."""
    loaded = [getattr(module, "__file__", None) or "" for module in sys.modules.values()]
    files = sorted(os.path.realpath(file) for file in loaded if os.path.dirname(os.path.realpath(file)) == HERE)
    return digest(*(part for file in files for part in (os.path.basename(file), trees.read_text(file))))


def bare(file: str, text: str) -> str:
    """A file's text without the lines that are comments alone, or the whole text if something in it may read them."""
    derives = {name.strip() for names in DERIVE.findall(text) for name in names.split(",")}
    if MACRO in text or any(mark in text for mark in BLOCK) or derives - DERIVES - {""}:
        return text
    form = RATTLE if file.endswith(".rt") else ANTT
    return form.sub(lambda part: part["quoted"] or "", text)
