"""Copies of functions, each with one edit, in which the edits of a crate are tried side by side.

A copy stands behind its function, under that one's name and the edit's, with its clauses and what is written of its proof. Nothing calls
it, and the function itself has its contract alone (gate/stubs.py). So any number of edits of one function can be tried in one check, and
none of them touches another. An edit is made in its place instead if more than the text of its function may matter, or if that one's
proof is written from its code. That is so for what has a proof by hand of all of it, and for what keeps its body in gate/stubs.py, but
for laws, whose bodies are empty, and for what C calls.
"""

from __future__ import annotations

import re

import edit_files
import sources
import stubs
from edit_files import Edit, Reach
from sources import Function, Texts

ANSWERS = "Answers.antt"
WRITTEN = (ANSWERS, "Invariants.antt")
# What says in the text of written answers which goal one answers.
ANSWERED = re.compile(r"^pub (\S+) :", re.M)
WITH = "_with_"
# The name of the edit that is none.
CONTROL = "nothing_edited_or_answered"
# The body of a law.
EMPTY = "{}"


class Copy:
    """The copy of a function that carries an edit: the function's file and path, the copy's lines, its proof's texts by file, and the
    goals that have a written answer.

    If the edit is to be tried without written answers, it has none."""

    def __init__(self, edit: Edit, file: str, text: str, function: Function, texts: Texts, name: str = "") -> None:
        self.file, self.path, end = file, function.path, f"{WITH}{name or edit.name}"
        self.name = f"{function.name}{end}"
        lines, place = text.split("\n"), stubs.folder_of(edit.crate, file, function, texts)
        head = lines[function.first].replace(f"fn {function.name}", f"fn {self.name}", 1)
        self.lines = [*lines[sources.front_of(lines, function.first) : function.first], head, *lines[function.first + 1 : function.end]]
        kinds = [kind for kind in WRITTEN if f"{place}/{kind}" in texts and not (edit.is_unanswered and kind == ANSWERS)]
        self.proofs = {f"{place}{end}/{kind}": moved(texts[f"{place}/{kind}"], edit.crate, place, self.name) for kind in kinds}
        self.answered = frozenset(ANSWERED.findall(self.proofs.get(f"{place}{end}/{ANSWERS}", "")))

    @property
    def own_path(self) -> str:
        """The path of the copy."""
        return f"{self.path.rpartition('::')[0]}::{self.name}"


def moved(text: str, crate: str, place: str, name: str) -> str:
    """The text of a function's proof as that of its copy of this name."""
    module = place.partition("/")[2].replace("/", ".")
    own = re.compile(rf"\bRattle\.{crate}\.(proofs|specs\.contracts)\.{re.escape(module)}\b")
    return own.sub(lambda part: f"Rattle.{crate}.{part[1]}.{module.rpartition('.')[0]}.{name}".replace("..", "."), text)


def made_for(edit: Edit, reach: Reach, texts: Texts) -> Copy | None:
    """The copy of its function that carries an edit, or nothing if the edit is to be made in its place."""
    files = {file for file, _, _ in edit.pairs}
    if edit.at or len(files) != 1 or len(reach.own) != 1:
        return None
    (file,), (path,) = files, reach.own
    function = only_one(edit.crate, file, texts[file], path)
    if not function or not can_be_copied(edit.crate, file, texts, function):
        return None
    first = sources.front_of(texts[file].split("\n"), function.first)
    if not all(is_inside(texts[file], old, first, function.end) for _, old, _ in edit.pairs):
        return None
    text = edit_files.replaced(texts, edit)[file]
    edited = only_one(edit.crate, file, text, path)
    # In its copy a function with a call of itself would call the one without the edit.
    if not edited or stubs.calls_itself(edited, "\n".join(text.split("\n")[edited.body + 1 : edited.end])):
        return None
    return Copy(edit, file, text, edited, texts)


def control(edit: Edit, copy: Copy, texts: Texts) -> Copy:
    """The copy of a function without its answers, in which no edit is made."""
    function = only_one(edit.crate, copy.file, texts[copy.file], copy.path)
    return Copy(edit, copy.file, texts[copy.file], function, texts, CONTROL)


def only_one(crate: str, file: str, text: str, path: str) -> Function | None:
    """The function of a file that has a path, if one alone has it."""
    functions = [function for function in sources.functions(crate, file, text) if function.path == path]
    return functions[0] if len(functions) == 1 else None


def can_be_copied(crate: str, file: str, texts: Texts, function: Function) -> bool:
    """Whether nothing but a function's own text, its answers and its invariants can matter to its proof."""
    place, lines = stubs.folder_of(crate, file, function, texts), texts[file].split("\n")
    if function.name in stubs.in_cycles(texts) or f"{place}/Proof.antt" in texts:
        return False
    return lines[function.body] == EMPTY or stubs.stands_alone(lines, function)


def is_inside(text: str, old: str, first: int, end: int) -> bool:
    """Whether a piece of a text stands on lines from one on and before another."""
    at = text.find(old)
    return first <= text.count("\n", 0, at) and text.count("\n", 0, at + len(old)) < end


def beside(crate: str, texts: Texts, copies: list[Copy]) -> Texts:
    """The texts with copies behind their functions."""
    made = dict(texts)
    for file in {copy.file for copy in copies}:
        lines = made[file].split("\n")
        for function in reversed(sources.functions(crate, file, made[file])):
            own = [copy.lines for copy in copies if copy.file == file and copy.path == function.path]
            lines[function.end : function.end] = [line for text in own for line in ["", *text]]
        made[file] = "\n".join(lines)
    for copy in copies:
        made.update(copy.proofs)
    return made
