"""Moments: edges with the moment at which each was seen, and the faults of a text of them."""

import re
from typing import NamedTuple

from .bus import MOST_EDGES
from .faults import Fault
from .traces import SPELLED, Edge, lines_of, version_of

GREATEST = 2**64 - 1
MOMENT = re.compile(rb"@(0|[1-9][0-9]{0,19})")


class Seen(NamedTuple):
    """An edge, the moment at which it was seen, and the line that has it."""

    edge: Edge
    moment: int
    line: int


class Moments:
    """The text of moments, read to its end: its version, and what was seen, by place."""

    def __init__(self, read):
        lines = lines_of(read)
        self.version = version_of(lines)
        self.seen = list(seen_in(lines))


def moment_of(line):
    """The number of a moment's line, None if the line is no moment."""
    found = MOMENT.fullmatch(line)
    return int(found[1]) if found and int(found[1]) <= GREATEST else None


def seen_in(lines):
    """The edges behind the header line, each with the last moment above it."""
    moment, edges = None, 0
    for number, line in enumerate(lines, 2):
        edge, named = SPELLED.get(line), moment_of(line)
        if edge and moment is None:
            raise Fault(f"X17 line {number} stands before the first moment")
        if edge:
            edges += 1
            if edges > MOST_EDGES:
                raise Fault(f"F6 more than {MOST_EDGES} edges")
            yield Seen(edge, moment, number)
        elif named is None:
            raise Fault(f"X2 line {number} is no edge")
        elif moment is not None and named < moment:
            raise Fault(f"X10 line {number} is of an earlier moment")
        else:
            moment = named


def text_of(version, seen):
    """The text of moments, in which each is named once."""
    lines, moment = [f"vme {version}"], None
    for it in seen:
        if it.moment != moment:
            lines.append(f"@{it.moment}")
        lines.append(str(it.edge))
        moment = it.moment
    return "".join(f"{line}\n" for line in lines)
