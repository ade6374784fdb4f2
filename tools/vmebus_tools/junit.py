"""Writes what the program said about traces as JUnit XML, which continuous integration reads.

The file is valid by the schema of JUnit's task in Ant, the strictest in use: each trace is a case, the first refused edge of
one a failure, and a fault an error.
"""

from __future__ import annotations

from datetime import datetime
from typing import List, Optional, Sequence

from .judging import SECONDS, Faulty, Judged, Legal, Refused, Trace
from .svg import escaped

CLASS = "vmebus"


def junit(judged: Judged, moment: datetime, seconds: float) -> str:
    """The whole file; the moment is when the traces were judged, and the seconds are how long that took."""
    counts = f'tests="{len(judged.traces)}" failures="{len(judged.refused())}" errors="{errors(judged)}"'
    when = f'timestamp="{moment:%Y-%m-%dT%H:%M:%S}" hostname="localhost" time="{seconds:.3f}"'
    lines = [
        '<?xml version="1.0" encoding="UTF-8"?>',
        "<testsuites>",
        f'  <testsuite id="0" package="{CLASS}" name="{escaped(judged.scenario)}" {counts} {when}>',
        "    <properties>",
        f'      <property name="version" value="{escaped(judged.program)}"/>',
        "    </properties>",
        *(line for trace in judged.traces for line in case(trace)),
        f"    <system-out>{text(judged.summary)}</system-out>",
        "    <system-err/>",
        "  </testsuite>",
        "</testsuites>",
    ]
    return "".join(f"{line}\n" for line in lines)


def errors(judged: Judged) -> int:
    """How many cases are errors: those of traces with a fault and without a refused edge before it."""
    return len(judged.traces) - len(judged.refused()) - len(judged.legal())


def case(trace: Trace) -> List[str]:
    """The lines of a trace's case. Its name is that of the file whatever comes of it, so that it can be followed from run to run."""
    outcome = trace.outcome
    if isinstance(outcome, Legal):
        return [f"    <testcase {named(trace.name)}/>"]
    if isinstance(outcome, Refused):
        message = f"edge {outcome.number}, {outcome.edge}: {outcome.verdict}, fails: {', '.join(outcome.failing)}"
        return framed(trace.name, "failure", outcome.verdict, message, reasons(outcome))
    return framed(trace.name, "error", outcome.code or "fault", outcome.fault, told_of(outcome))


def framed(name: str, element: str, kind: str, message: str, lines: Sequence[str]) -> List[str]:
    """A case with a failure or an error in it."""
    inner = f'<{element} type="{escaped(kind)}" message="{escaped(message)}">{text(lines)}</{element}>'
    return [f"    <testcase {named(name)}>", f"      {inner}", "    </testcase>"]


def named(name: str) -> str:
    """The attributes of a case. How long one took is not measured, since one call judges all."""
    return f'classname="{CLASS}" name="{escaped(name)}" time="0"'


def reasons(outcome: Refused) -> List[str]:
    """Why an edge is refused, and its short history."""
    explained = outcome.explained.splitlines()
    return [*explained, "", *told(outcome.history), *after(outcome.fault)]


def told(history: Optional[Sequence[str]]) -> List[str]:
    """The short history as a trace, below a line that says what it is."""
    if history is None:
        return [f"no short history within {SECONDS} seconds"]
    return ["a short trace with the same answer:", *history]


def after(fault: Optional[Faulty]) -> List[str]:
    """What is wrong behind a refused edge."""
    if not fault:
        return []
    first, *rest = told_of(fault)
    return ["", f"behind this edge: {first}", *rest]


def told_of(fault: Faulty) -> List[str]:
    """A fault, the line of the trace that has it, and where more is said about it."""
    quoted = [] if fault.line is None else [f"    {fault.line}"]
    return [fault.fault, *quoted, *([f"{fault.help} explains it"] if fault.help else [])]


def text(lines: Sequence[str]) -> str:
    """Lines as the text of an element, each with its end."""
    return "".join(f"{escaped(line)}\n" for line in lines)
