"""Which edits there are, and who tries each: the runner, or the kit's own gate."""

from __future__ import annotations

import os
from typing import Iterator

import copies
import edit_files
import trees
from edit_files import BadEdit, Edit
from outcomes import Outcome
from sources import Texts
from trees import Misuse, Repository


def hold_fit(edit: Edit, texts: Texts) -> None:
    """Says by BadEdit why no function can be asked to refuse an edit, if none can."""
    if edit.at:
        if edit.is_unanswered:
            raise BadEdit("'# answers: none' is for edits of functions")
        return
    if not edit.is_of_code:
        raise BadEdit("it edits a definition, and has no line '# at: FUNCTION' that names the function that has to refuse it")
    reach = edit_files.reach(edit, texts)
    if not reach.own:
        raise BadEdit("it stands in no function, and in nothing that one names: a line '# at: FUNCTION' is to name the function that has to refuse it")
    if edit.is_unanswered and not copies.made_for(edit, reach, texts):
        raise BadEdit("it is made in its place, with all that is written: '# answers: none' is for edits that are made in a copy of their function")
    if edit.clause not in ("", edit_files.NO_CLAUSE, *edit_files.clauses_of(edit, texts)):
        raise BadEdit(f"what it edits has no clause {edit.clause} that says what it ensures")


def read_edits(repository: Repository, crate: str) -> Iterator[tuple[str, Edit | None, str]]:
    """Reads a crate's edits, and yields for each its name, the edit, and what is wrong with it."""
    texts = repository.texts(crate)
    for name in trees.edit_names(repository.root, crate):
        try:
            edit = edit_files.read(crate, name, trees.read_text(f"{repository.root}/crates/{crate}/must-fail/{name}.edit"))
            edit_files.replaced(texts, edit)
            if not edit.is_for_kit:
                hold_fit(edit, texts)
            yield name, edit, ""
        except (BadEdit, UnicodeDecodeError) as fault:
            yield name, None, f"BAD EDIT: {fault}"


def check_names(repository: Repository, names: list[str]) -> None:
    """Stops at a name that no crate and no edit has."""
    for name in names:
        crate, slash, edit = name.partition("/")
        if crate not in repository.lines:
            raise Misuse(f"there is no crate {crate}")
        if slash and edit not in trees.edit_names(repository.root, crate):
            raise Misuse(f"there is no edit {name}")


def choose(repository: Repository, names: list[str]) -> tuple[dict[str, list[Edit]], list[Outcome]]:
    """Returns the edits that are asked for, by crate, and what came of those that cannot be tried."""
    check_names(repository, names)
    chosen, bad = {}, []
    crates = {name.partition("/")[0] for name in names} or repository.lines
    for crate in (crate for crate in repository.lines if crate in crates):
        for name, edit, why in read_edits(repository, crate):
            label = f"{crate}/{name}"
            if label in names and edit and edit.is_for_kit:
                raise Misuse(f"{label} is left to rt ci, which tries it")
            if names and label not in names and crate not in names or edit and edit.is_for_kit:
                continue
            if why:
                bad.append(Outcome(label, why=why))
            else:
                chosen.setdefault(crate, []).append(edit)
    return chosen, bad


def lay_rest(repository: Repository, to: str) -> int:
    """Copies the repository with those edits alone that `rt ci` tries, and returns how many these are."""
    if os.path.lexists(to):
        raise Misuse(f"--rest: {to} is there already")
    trees.copy_all(repository.root, to)
    left = 0
    for crate in repository.lines:
        for name, edit, _ in read_edits(repository, crate):
            if edit and edit.is_for_kit:
                left += 1
            else:
                os.remove(f"{to}/crates/{crate}/must-fail/{name}.edit")
    return left
