"""Reads what `vmebus summary` prints, as docs/COMMANDS.md describes it."""

from __future__ import annotations

from dataclasses import dataclass
from typing import Dict, Iterable, Optional, Tuple


@dataclass(frozen=True)
class Counts:
    """How many edges of a rule were accepted, and how many refused. A settling rule or a code of a refusal accepts none."""

    accepted: Optional[int]
    refused: int


@dataclass(frozen=True)
class Sums:
    """What all traces exercised, and what they never did."""

    edges: Counts
    rules: Dict[str, Counts]
    never_accepted: Tuple[str, ...]
    met: Dict[str, int]
    never_met: Tuple[str, ...]
    boards: Dict[int, Dict[str, int]]


def sums(lines: Iterable[str]) -> Sums:
    """The sums that `summary` printed of at least one trace."""
    rules: Dict[str, Counts] = {}
    never: Dict[str, Tuple[str, ...]] = {}
    met: Dict[str, int] = {}
    boards: Dict[int, Dict[str, int]] = {}
    for words in (line.split() for line in lines):
        if words[0] == "never":
            never[words[1]] = tuple(words[2:]) if words[2:] != ["none"] else ()
        elif words[0] == "met":
            met[words[1]] = int(words[2])
        elif words[0] == "board":
            boards.setdefault(int(words[1]), {}).update(pairs(words[2:]))
        elif words[0] != "traces":
            found = pairs(words[1:] if len(words) % 2 else words[2:])
            rules[words[0]] = Counts(found.get("accepted"), found["refused"])
    return Sums(rules.pop("edges"), rules, never["accepted"], met, never["met"], boards)


def pairs(words: Iterable[str]) -> Dict[str, int]:
    """Names, each with the number behind it; `since` of a state that goes on at the end is left out."""
    given = list(words)
    return {name: int(value) for name, value in zip(given[::2], given[1::2]) if value.isdigit()}
