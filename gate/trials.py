"""Tries of edits in batches, each in one copy of a crate, in which the functions of the edits are checked.

A batch has a copy of a function for each edit that can be made in one (gate/copies.py), a copy of a law for each edit of a definition
that can be made below one (gate/definitions.py), and one edit of each other function. All other functions have no bodies
(gate/stubs.py). What is made in its place and is not refused there is tried in the whole crate. The crates are tried side by side."""

from __future__ import annotations

import shutil
import threading
import time
from typing import Dict, Iterator, List, Optional, Set, Tuple

import copies
import definitions
import edit_files
import sources
import stubs
import trees
import verdicts
from commands import Commands
from edit_files import Edit
from libraries import Libraries
from outcomes import Outcome
from prover import Prover
from sources import Texts
from trees import Misuse, Repository
from verdicts import Refusal, Verdict

# At most so many edits are tried in one check, so that the lanes end at about the same time.
MOST = 128


class Edits:
    """The edits of one crate that are to be tried, with what each reaches, and the copies of functions and of laws in which most are made."""

    def __init__(self, repository: Repository, name: str, edits: list[Edit]) -> None:
        self.name, self.edits, self.uses, self.texts = name, edits, repository.uses[name], repository.texts(name)
        self.reach = {edit: edit_files.reach(edit, self.texts) for edit in edits}
        made = ((edit, copies.made_for(edit, self.reach[edit], self.texts)) for edit in edits)
        self.copies = {edit: copy for edit, copy in made if copy}
        # For each edit that is tried without the answers of its function, that function without the edit too.
        self.controls = {edit: copies.control(edit, copy, self.texts) for edit, copy in self.copies.items() if edit.is_unanswered}
        below = ((edit, definitions.made_for(edit, self.texts)) for edit in edits if edit.at)
        self.laws = {edit: copy for edit, copy in below if copy}

    def batches(self, edits: list[Edit], in_place: bool = False) -> list[list[Edit]]:
        """Puts edits into few batches, in which no two touch one another: those of definitions last, since each changes the proofs of many."""
        batches = []
        for edit in sorted(edits, key=lambda edit: (self.reach[edit].is_of_all, self.is_copied(edit))):
            fits = [batch for batch in batches if self.goes_with(edit, batch, in_place)]
            if fits:
                fits[0].append(edit)
            else:
                batches.append([edit])
        return batches

    def goes_with(self, edit: Edit, batch: list[Edit], in_place: bool = False) -> bool:
        """Whether an edit touches none of a batch, and its text still stands once beside theirs. Copies do not touch one another."""
        if len(batch) >= MOST or not all(self.are_apart(edit, other, in_place) for other in batch):
            return False
        try:
            self.edited([*batch, edit], in_place)
        except edit_files.BadEdit:
            return False
        return True

    def is_copied(self, edit: Edit, in_place: bool = False) -> bool:
        """Whether an edit is made in a copy. That of a law may mislead, so that an edit of a definition can be tried in its place too."""
        return edit in self.copies or edit in self.laws and not in_place

    def are_apart(self, edit: Edit, other: Edit, in_place: bool = False) -> bool:
        """Whether neither of two edits touches the other. Nothing calls a copy, and no law rests on a function, but on constants."""
        one, two, copied = self.reach[edit], self.reach[other], [each for each in (edit, other) if self.is_copied(each, in_place)]
        if not copied:
            return one.is_apart_from(two) and one.makes_no_cycle_with(two)
        if any(law in self.laws for law in copied):
            return all(each in copied or not self.reach[each].is_of_all and not self.reach[each].is_of_item for each in (edit, other))
        return len(copied) == 2 or one.is_apart_from(two)

    def edited(self, batch: list[Edit], in_place: bool = False) -> Texts:
        """The crate's texts with those edits of a batch that are made in their place."""
        texts = self.texts
        for edit in batch:
            if not self.is_copied(edit, in_place):
                texts = edit_files.replaced(texts, edit)
        return texts

    def prepared(self, batch: list[Edit], is_whole: bool = False) -> Texts:
        """The texts with the edits of a batch, in copies if they can be made there, and without the bodies of all other functions, or with
        them in the whole crate."""
        controls = {self.controls[edit].own_path: self.controls[edit] for edit in batch if edit in self.controls}
        made = [*(self.copies[edit] for edit in batch if edit in self.copies), *controls.values()]
        texts = copies.beside(self.name, self.edited(batch, is_whole), made)
        if is_whole:
            return texts
        keep = {path for edit in batch if not self.is_copied(edit) for path in self.reach[edit].touched} | {copy.own_path for copy in made}
        return definitions.beside(stubs.stubbed(self.name, texts, keep), [self.laws[edit] for edit in batch if edit in self.laws])

    def functions_of(self, edit: Edit, in_place: bool = False) -> frozenset[str] | set[str]:
        """The functions at one of which an edit has to be refused."""
        copy = self.copies.get(edit) or (None if in_place else self.laws.get(edit))
        return {copy.own_path} if copy else self.reach[edit].own

    def definitions_of(self, edit: Edit, in_place: bool = False) -> set[str]:
        """The files of definitions in which an edit is made."""
        files = {file for file, _, _ in edit.pairs if file.startswith("specs/")}
        return {f"{file.rpartition('.')[0]}{self.laws[edit].end}.antt" for file in files} if edit in self.laws and not in_place else files

    def checked_for(self, edit: Edit, in_place: bool = False) -> set[str]:
        """The functions to check for an edit: those at one of which it has to be refused, and its control."""
        return {*self.functions_of(edit, in_place), *([self.controls[edit].own_path] if edit in self.controls else [])}


class Trial:
    """The batches of a crate, and the copy of the crate in which they are tried, beside which the prover keeps its work."""

    def __init__(self, edits: Edits, room: str, logs: Optional[str]) -> None:
        self.all, self.name, self.folder, self.logs = edits, edits.name, f"{room}/{edits.name}", logs
        # Those of the batch that was tried last.
        self.texts: Texts = {}

    def outcomes(self, prover: Prover) -> Iterator[Tuple[Edit, Outcome]]:
        """Tries all batches, and yields each edit with what came of it."""
        for number, batch in enumerate(self.all.batches(self.all.edits)):
            # In its place an edit of a definition may change any proof of the crate, so that nothing is left out there.
            is_whole = any(self.all.reach[edit].is_of_all and not self.all.is_copied(edit) for edit in batch)
            yield from self.try_batch(prover, batch, f"{self.name}-{number}", is_whole)
        shutil.rmtree(self.folder)

    def try_batch(self, prover: Prover, batch: List[Edit], label: str, is_whole: bool) -> Iterator[Tuple[Edit, Outcome]]:
        """Tries a batch, and once more what is not settled by it."""
        verdict = self.check(prover, batch, label, is_whole)
        if not verdict.is_judged and len(batch) > 1:
            # One of them does not come to the prover, or two make a cycle of calls: by halves few checks are lost.
            again = [(half, is_whole) for half in (batch[: len(batch) // 2], batch[len(batch) // 2 :])]
        else:
            outcomes = {edit: self.outcome(edit, verdict, is_whole) for edit in batch}
            left = [edit for edit in batch if not self.is_settled(edit, outcomes, is_whole)]
            yield from ((edit, outcomes[edit]) for edit in batch if edit not in left)
            again = self.tries_after(left, is_whole or not self.is_one_refused(outcomes))
        for at, (edits, is_whole_then) in enumerate(again):
            yield from self.try_batch(prover, edits, f"{label}-{at}", is_whole_then)

    def is_settled(self, edit: Edit, outcomes: Dict[Edit, Outcome], is_whole: bool) -> bool:
        """Whether no other try may change what came of an edit: nothing calls a copy, and the whole crate has the last word."""
        is_refused = not outcomes[edit].why or bool(outcomes[edit].refusal)
        return is_refused or edit in self.all.copies or is_whole and not self.is_one_refused(outcomes)

    def is_one_refused(self, outcomes: Dict[Edit, Outcome]) -> bool:
        """Whether an edit that is made in its place was refused. The kit does not try a proof by hand if a callee was refused."""
        return any(not outcome.why and not self.all.is_copied(edit) for edit, outcome in outcomes.items())

    def tries_after(self, left: List[Edit], is_whole: bool) -> List[Tuple[List[Edit], bool]]:
        """The batches in which what is left is tried again. The copy of a law may mislead, so that the whole crate has the last word."""
        laws = [edit for edit in left if edit in self.all.laws]
        others = self.all.batches([edit for edit in left if edit not in self.all.laws], is_whole)
        return [*((edits, is_whole) for edits in others), *((edits, True) for edits in self.all.batches(laws, in_place=True))]

    def check(self, prover: Prover, batch: List[Edit], label: str, is_whole: bool) -> Verdict:
        """Checks the functions of a batch, with its edits."""
        self.texts = self.all.prepared(batch, is_whole)
        trees.write_texts(self.folder, self.texts)
        functions = {path for edit in batch for path in self.all.checked_for(edit, is_whole)}
        ended = prover.check(self.name, self.all.uses, self.folder, functions, is_whole)
        if self.logs:
            names = " ".join(edit.name for edit in batch)
            trees.write(f"{self.logs}/{label}.log", f"{len(batch)} edits, {ended.seconds:.1f} s: {names}\n{ended.said}")
        return verdicts.read(ended.said, {self.all.copies[edit].own_path: self.all.copies[edit].answered for edit in batch if edit in self.all.copies})

    def outcome(self, edit: Edit, verdict: Verdict, is_whole: bool) -> Outcome:
        """What a batch's verdict says of one of its edits."""
        refusals = [refusal for refusal in map(verdict.at, sorted(self.all.functions_of(edit, is_whole))) if refusal]
        if refusals:
            return self.refused(edit, min(refusals, key=verdicts.rank), verdict, self.all.definitions_of(edit, is_whole))
        if not verdict.is_judged:
            return Outcome(edit.label, why=f"BAD EDIT: it did not come to the prover: {verdict.error[:200]}")
        edited, others = ", ".join(sorted(self.all.reach[edit].own)), ", ".join(sorted(verdict.refused))
        asked = f"{edited}, which {'has to refuse it' if edit.at else 'it edits'}"
        if others and not self.all.is_copied(edit):
            return Outcome(edit.label, why=f"NOT REFUSED at {asked}, but at {others}")
        return Outcome(edit.label, why=f"NOT REFUSED: {asked}, is proved with it")

    def refused(self, edit: Edit, refusal: Refusal, verdict: Verdict, edited: set[str]) -> Outcome:
        """What comes of an edit that is refused where it has to be: it counts if its kind does, and if it is refused as its file says."""
        fault = verdict.fault_in(edited)
        if fault:
            return Outcome(edit.label, why=f"BAD EDIT: what it edits is no definition any more: {fault}")
        end, control = f"{copies.WITH}{edit.name}", self.all.controls.get(edit)
        there = lambda place: sources.in_repository(self.name, place, self.texts, self.all.texts, end)
        told = verdict.in_repository(refusal, end, there)
        if not refusal.kind.is_refusal:
            return Outcome(edit.label, why=verdicts.unfit(told))
        if verdict.misses(refusal.function, edit.clause):
            goals = ", ".join(verdict.goals[refusal.function])
            return Outcome(edit.label, why=f"NOT REFUSED at the clause {edit.clause} of {told.function}, but at {goals}")
        if control and not verdict.is_more_open(refusal.function, control.own_path):
            return Outcome(edit.label, why=f"NOT REFUSED at {told.function}: {verdicts.AS_OPEN}")
        return Outcome(edit.label, told, verdicts.stale(told, edit.by_proof), reason=edit.by_proof)


class Queue:
    """The crates whose edits are left. Each can begin when the libraries below it are there: those with the most edits first, since
    the last ones would keep one lane at work, and the others idle."""

    def __init__(self, trials: List[Trial], libraries: Libraries) -> None:
        self.trials, self.libraries, self.turn = [*trials], libraries, threading.Lock()

    def take(self, commands: Commands) -> Optional[Trial]:
        """Waits for a crate that can begin and takes it, or returns nothing once all are taken or the runner is stopped."""
        while not commands.is_stopped:
            with self.turn:
                ready = self.ready()
                if ready or not self.trials:
                    trial = max(ready, key=lambda trial: len(trial.all.edits), default=None)
                    self.trials = [other for other in self.trials if other is not trial]
                    return trial
            time.sleep(1)
        return None

    def ready(self) -> List[Trial]:
        """The crates that can begin; stops if there is none, and the libraries below one will not be built."""
        ready, faults = [], []
        for trial in self.trials:
            try:
                ready += [trial] if self.libraries.are_below(trial.name) else []
            except Misuse as fault:
                faults.append(fault)
        if faults and not ready:
            raise faults[0]
        return ready
