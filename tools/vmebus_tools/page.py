"""Writes what the program said about traces as one page of HTML, which needs no script and no network."""

from __future__ import annotations

import os
import shlex
from dataclasses import dataclass
from datetime import datetime
from typing import Dict, Iterator, List, Optional, Sequence, Tuple

from . import style as picture_style
from .judging import SECONDS, Faulty, Judged, Refused, Rule, Trace, parted
from .page_style import STYLE
from .sums import Counts, Sums
from .svg import escaped

# How many edges of a short history are shown, and how many of its lines one below another.
MOST_EDGES = 120
MOST_IN_COLUMN = 10
BOARD_COLUMNS = {
    "asked": "Requests", "tenures": "Tenures", "cycles": "Cycles", "longest-wait": "Longest wait", "longest-hold": "Longest hold",
    "answered": "Answers", "delivered": "Status bytes",
}
# How `explain` marks a condition that is not the standard's.
PROFILE = " (profile)"
NO_NETWORK = "default-src 'none'; style-src 'unsafe-inline'"
UNPROVED = "./try built the program that judged these traces: it is not proved. ./build proves it."


@dataclass(frozen=True)
class Cause:
    """What refuses the edges of some traces: a verdict, and the conditions that fail."""

    verdict: str
    failing: Tuple[str, ...]
    traces: Tuple[Tuple[int, Trace, Refused], ...]

    @property
    def rule(self) -> str:
        return self.traces[0][2].rule


def page(judged: Judged, moment: datetime) -> str:
    """The whole page; the moment is when the traces were judged."""
    causes = causes_of(judged)
    title = headline(judged)
    parts = [
        "<!DOCTYPE html>",
        '<html lang="en">',
        "<head>",
        '<meta charset="utf-8">',
        f'<meta http-equiv="Content-Security-Policy" content="{escaped(NO_NETWORK)}">',
        '<meta name="viewport" content="width=device-width, initial-scale=1">',
        f"<title>{escaped(title)} &middot; vmebus</title>",
        f"<style>\n{STYLE}{picture_style.style() if causes else ''}</style>",
        "</head>",
        "<body>",
        *header(judged, title, moment),
        *refused(judged, causes),
        *faulty(judged),
        *exercised(judged),
        *legal(judged),
        "</body>",
        "</html>",
    ]
    return "".join(f"{part}\n" for part in parts)


def causes_of(judged: Judged) -> List[Cause]:
    """The causes of all refused edges, those of most traces first."""
    found: Dict[Tuple[str, Tuple[str, ...]], List[Tuple[int, Trace, Refused]]] = {}
    for number, (trace, outcome) in enumerate(judged.refused(), 1):
        found.setdefault((outcome.verdict, outcome.failing), []).append((number, trace, outcome))
    causes = [Cause(verdict, failing, tuple(traces)) for (verdict, failing), traces in found.items()]
    return sorted(causes, key=lambda it: -len(it.traces))


# The head of the page.


def headline(judged: Judged) -> str:
    """What came of all traces, in a sentence."""
    traces, refused, faults = len(judged.traces), len(judged.refused()), len(judged.faults())
    if not refused and not faults:
        return "The trace is legal" if traces == 1 else f"All {traces} traces are legal"
    if traces == 1:
        return "The trace has a refused edge" if refused else "The trace has a fault"
    of = [f"{refused} of {traces} traces {verb(refused)} a refused edge"] if refused else []
    return ", and ".join([*of, *([f"{faults} {verb(faults)} a fault" if of else f"{faults} of {traces} traces {verb(faults)} a fault"] if faults else [])])


def verb(count: int) -> str:
    return "has" if count == 1 else "have"


def header(judged: Judged, title: str, moment: datetime) -> Iterator[str]:
    """The headline, what was judged, and how many traces came to what."""
    yield f"<header>\n<h1>{escaped(title)}</h1>"
    yield f'<p class="muted">On {name(judged.scenario)}, by {escaped(judged.program)}, {moment:%Y-%m-%d %H:%M} UTC</p>'
    if judged.is_unproved:
        yield f'<p class="amber">{UNPROVED}</p>'
    yield '<ul class="tiles">'
    yield tile(len(judged.refused()), "refused", "refused")
    yield tile(len(judged.faults()), "faulty", "with a fault")
    yield tile(len(judged.legal()), "legal", "legal")
    if judged.sums:
        yield tile(judged.sums.edges.accepted or 0, "exercised", "edges accepted")
    yield "</ul>\n</header>"


def tile(count: int, target: str, label: str) -> str:
    """A count, which leads to the part of the page that has what it counts."""
    if not count:
        return f"<li><b>0</b> {label}</li>"
    return f'<li class="{target}"><b>{count:,}</b> <a href="#{target}">{label}</a></li>'


def name(given: str) -> str:
    """The name of a file."""
    return f'<span class="name">{escaped(given)}</span>'


# Refused edges.


def refused(judged: Judged, causes: Sequence[Cause]) -> Iterator[str]:
    """All refused edges: the causes in a table, and behind it the traces of each."""
    if not causes:
        return
    rules = {rule.name: rule for rule in judged.rules}
    yield '<section id="refused">\n<h2>Refused</h2>'
    if sum(len(cause.traces) for cause in causes) > 1:
        yield from table_of_causes(causes)
    for place, cause in enumerate(causes, 1):
        yield from section_of(cause, place, rules.get(cause.rule), judged.scenario)
    yield "</section>"


def table_of_causes(causes: Sequence[Cause]) -> Iterator[str]:
    """How many traces each cause has, and the first of them."""
    yield '<div class="scroll"><table>\n<tr><th scope="col" class="number">Traces</th><th scope="col">Rule</th>'
    yield '<th scope="col">What fails</th><th scope="col">First in</th></tr>'
    for place, cause in enumerate(causes, 1):
        number, trace, _ = cause.traces[0]
        yield f'<tr><td class="number">{len(cause.traces)}</td><td><a class="badge" href="#cause-{place}">{escaped(cause.rule)}</a></td>'
        yield f"<td>{'<br>'.join(map(escaped, cause.failing))}</td>"
        yield f'<td><a href="#trace-{number}">{name(trace.name)}</a></td></tr>'
    yield "</table></div>"


def section_of(cause: Cause, place: int, rule: Optional[Rule], scenario: str) -> Iterator[str]:
    """All traces of a cause, of which the first is open."""
    count = len(cause.traces)
    failing = escaped(" and ".join(f"“{it}”" for it in cause.failing))
    yield f'<h3 id="cause-{place}"><span class="badge">{escaped(cause.verdict)}</span> {failing} {"fails" if len(cause.failing) == 1 else "fail"}'
    yield f"<small>{count} trace{'' if count == 1 else 's'}</small></h3>"
    if rule:
        yield f'<p class="muted"><span class="edge">{escaped(rule.edge)}</span> &middot; {escaped(rule.sentence)}</p>'
    if all(it.endswith(PROFILE) for it in cause.failing):
        yield f'<p class="muted">Each condition that fails is marked{PROFILE}: it may be stricter than the standard.</p>'
    for number, trace, outcome in cause.traces:
        yield from card(number, trace, outcome, scenario, outcome is cause.traces[0][2])


def card(number: int, trace: Trace, outcome: Refused, scenario: str, is_open: bool) -> Iterator[str]:
    """A trace with a refused edge: where it is, its picture, why it is refused, and its short history."""
    yield f'<details class="trace"{" open" if is_open else ""}><summary>{name(trace.name)}'
    yield f'<span class="edge">edge {outcome.number}: <b class="red">{escaped(outcome.edge)}</b></span></summary>'
    yield f'<div class="inside" id="trace-{number}">'
    yield f'<div class="picture">{bare(outcome.picture)}</div>'
    yield '<div class="columns"><div><h4>Why</h4>'
    yield f"<pre>{explained(outcome.explained)}</pre></div>"
    yield f"<div><h4>Short history</h4>{history(outcome.history)}</div></div>"
    if outcome.fault:
        yield f'<p class="amber">Behind this edge: {escaped(outcome.fault.fault)}</p>'
        yield more_of(outcome.fault)
    yield f'<pre class="command">{escaped(command("explain", scenario, trace.name))}</pre>'
    yield "</div></details>"


def bare(picture: str) -> str:
    """A picture without its style sheet, which the page has once."""
    return picture.replace(f"<style>\n{picture_style.style()}</style>\n", "").strip()


def explained(text: str) -> str:
    """What `explain` prints below its first line, with what fails in another color."""
    lines = []
    for line in text.splitlines()[1:]:
        class_ = "reading" if line[:1] == " " else line.partition(" ")[0]
        lines.append(f'<span class="{escaped(class_)}">{escaped(line)}</span>')
    return "\n".join(lines)


def history(lines: Optional[Sequence[str]]) -> str:
    """The trace that `shrink` found."""
    if lines is None:
        return f'<p class="muted">None was found within {SECONDS} seconds. <code>vmebus shrink</code> looks longer.</p>'
    left_out = len(lines) - 1 - MOST_EDGES
    shown = [*lines[:1], f".. {left_out} edges", *lines[-MOST_EDGES:]] if left_out > 0 else [*lines]
    *before, last = map(escaped, shown)
    class_ = "history long" if len(shown) > MOST_IN_COLUMN else "history"
    return f'<pre class="{class_}">{"".join(f"{line}{chr(10)}" for line in before)}<span class="fails">{last}</span></pre>'


def command(word: str, scenario: str, trace: str) -> str:
    """A command for a shell about a trace."""
    files = [f".{os.sep}{it}" if it.startswith("-") else it for it in (scenario, trace)]
    return shlex.join(["vmebus", word, *files])


# Faults, what was exercised, and what is legal.


def faulty(judged: Judged) -> Iterator[str]:
    """The traces that have a fault."""
    faults = judged.faults()
    if not faults:
        return
    yield '<section id="faulty">\n<h2>With a fault <small>not in the sums below</small></h2>'
    yield '<div class="scroll"><table>\n<tr><th scope="col">Trace</th><th scope="col">Fault</th></tr>'
    for trace, fault in faults:
        code, text = parted(fault.fault)
        badge = f'<b class="amber">{escaped(code)}</b> ' if code else ""
        yield f"<tr><td>{name(trace)}</td><td>{badge}{escaped(text)}{more_of(fault)}</td></tr>"
    yield "</table></div>\n</section>"


def more_of(fault: Faulty) -> str:
    """The line of the trace that has a fault, and where more is said about it."""
    line = "" if fault.line is None else f"<pre>{escaped(fault.line)}</pre>"
    return line + (f'<p class="muted"><code>{escaped(fault.help)}</code> explains it</p>' if fault.help else "")


def exercised(judged: Judged) -> Iterator[str]:
    """What all traces exercised, and above it what they never did."""
    found = judged.sums
    if not found:
        return
    yield '<section id="exercised">\n<h2>What the traces exercised</h2>'
    yield '<div class="never-list">'
    yield f"<p><b>Rules by which no edge was accepted:</b> {listed(found.never_accepted)}</p>"
    yield f"<p><b>Events that did not occur:</b> {listed(found.never_met)}</p>"
    yield '<p class="muted">A scenario may leave no edge for a rule, such as G3 and G4 without a PRI arbiter, or for an event: '
    yield "<code>vmebus drive</code> with <code>--seeds</code> and <code>--until</code> looks for one.</p></div>"
    yield from table_of_rules(found, judged.rules)
    yield from table_of_events(found)
    yield from table_of_boards(found)
    yield "</section>"


def listed(names: Sequence[str]) -> str:
    return escaped(", ".join(names) or "none")


def table_of_rules(found: Sums, rules: Sequence[Rule]) -> Iterator[str]:
    """How many edges of each rule were accepted and refused."""
    yield '<h3>Rules</h3>\n<div class="scroll"><table>\n<tr><th scope="col">Rule</th><th scope="col">Edge</th>'
    yield '<th scope="col" class="number">Accepted</th><th scope="col" class="number">Refused</th><th scope="col">Sentence</th></tr>'
    for rule in rules:
        is_never = rule.name in found.never_accepted
        counts = found.rules.get(rule.name, Counts(0 if is_never else None, 0))
        if is_never or rule.name in found.rules:
            yield row_of(rule, counts, is_never and not counts.refused)
    yield "</table></div>"


def row_of(rule: Rule, counts: Counts, is_never: bool) -> str:
    accepted = "" if counts.accepted is None else f"{counts.accepted:,}" if counts.accepted else "never"
    refused = f'<b class="red">{counts.refused:,}</b>' if counts.refused else "0"
    cells = f'<td>{escaped(rule.name)}</td><td class="edge">{escaped(rule.edge)}</td><td class="number">{accepted}</td>'
    return f'<tr{" class=" + chr(34) + "never" + chr(34) if is_never else ""}>{cells}<td class="number">{refused}</td><td>{escaped(rule.sentence)}</td></tr>'


def table_of_events(found: Sums) -> Iterator[str]:
    """How often each event occurred."""
    yield '<h3>Events</h3>\n<ul class="files">'
    for event, count in found.met.items():
        yield f'<li><span>{escaped(event)}</span><span class="muted">{count:,}</span></li>'
    for event in found.never_met:
        yield f'<li class="muted"><span>{escaped(event)}</span><span>never</span></li>'
    yield "</ul>"


def table_of_boards(found: Sums) -> Iterator[str]:
    """What each board did; a wait and a hold are numbers of edges."""
    if not found.boards:
        return
    yield '<h3>Boards <small>waits and holds in edges</small></h3>\n<div class="scroll"><table>\n<tr><th scope="col">Slot</th>'
    yield "".join(f'<th scope="col" class="number">{label}</th>' for label in BOARD_COLUMNS.values()) + "</tr>"
    for slot, counts in sorted(found.boards.items()):
        cells = "".join(f'<td class="number">{counts[key]:,}</td>' if key in counts else '<td class="number"></td>' for key in BOARD_COLUMNS)
        yield f"<tr><td>{slot}</td>{cells}</tr>"
    yield "</table></div>"


def legal(judged: Judged) -> Iterator[str]:
    """The traces whose edges are all accepted."""
    traces = judged.legal()
    if not traces:
        return
    yield f'<section id="legal">\n<h2>Legal <small>{len(traces):,} trace{"" if len(traces) == 1 else "s"}</small></h2>\n<ul class="files">'
    for trace, outcome in traces:
        yield f'<li>{name(trace.name)}<span class="muted">{outcome.edges:,} edge{"" if outcome.edges == 1 else "s"}</span></li>'
    yield "</ul>\n</section>"
