"""`--swaps`: free swaps of drawn traces, of which each is replayed before and after, by the model or by a built program.

A swap may change no verdict and no delivery of any edge, and not where the bus stands behind its two edges and at the end.
"""

import random
import re
import subprocess
import tempfile
from pathlib import Path

from .bus import Bus
from .cases import Kept, first_difference
from .drawing import free_swaps, legal_edge
from .drawn import SECONDS
from .drawn_moments import legal_edges, plan_drawn
from .program import main
from .traces import ACCESSES, text_of

SCENARIO = "scenario.toml"
OF_A_CYCLE = ("addr", "as", "ds", "dtack")
SINCE = re.compile(rb"(?<= since )[0-9]+$", re.M)


def by_program(program, folder):
    """A function of words: what a built program writes with them in a folder."""
    options = {"stdin": subprocess.DEVNULL, "capture_output": True, "cwd": folder, "timeout": SECONDS}
    return lambda words: subprocess.run([program, *words], **options).stdout


def by_model(folder):
    """A function of words: what the model writes with them in a folder."""
    def written(words):
        console = Kept(folder)
        main([it.encode() for it in words], console)
        return console.output

    return written


class Replayed:
    """A trace, the verdict on each of its edges, and where the bus stands in it; `written` is a function of words.

    The trace has a file of its own, since it costs more to write over one."""

    def __init__(self, written, path, text):
        self.written, self.path = written, path
        path.write_text(text)
        *verdicts, self.counts = self.asked("replay").splitlines() or [b""]
        self.verdicts = [it.partition(b" ")[2] for it in verdicts]
        self.end = self.asked("state")

    def asked(self, command, *options):
        return self.written([command, SCENARIO, self.path.name, *options])

    def state(self, count):
        return self.asked("state", "--after", str(count))


def exchanged(state, place):
    """A state with the numbers of two neighbours exchanged, the first of which has this place."""
    first, second = b"%d" % (place + 1), b"%d" % (place + 2)
    numbers = {first: second, second: first}
    return SINCE.sub(lambda found: numbers.get(found[0], found[0]), state)


def fault_in_swap(before, after, place):
    """What a swap changes beside the order of two edges, None if nothing."""
    wanted = list(before.verdicts)
    wanted[place : place + 2] = wanted[place + 1], wanted[place]
    if after.verdicts != wanted:
        return first_difference("the verdicts", b"\n".join(wanted), b"\n".join(after.verdicts))
    if after.counts != b"accepted %d refused 0" % len(wanted):
        return f"the last line is {after.counts!r}"
    state, wanted = after.state(place + 2), exchanged(before.state(place + 2), place)
    if state != wanted:
        return first_difference("the state behind both edges", wanted, state)
    wanted = exchanged(before.end, place)
    return None if after.end == wanted else first_difference("the state at the end", wanted, after.end)


def edges_with_answers(draw, plan, version, most):
    """Legal edges with many accesses to RORA boards: only of an answer of these and their interrupt requests are both orders
    legal, and yet not free."""
    rora = [slot for slot, it in plan.interrupters.items() if not it.is_roak]
    bus, edges = Bus(plan, version), []
    while len(edges) < most:
        edge = legal_edge(draw, bus)
        if edge is None:
            break
        edge = edge if edge.wire in OF_A_CYCLE else legal_edge(draw, bus)
        if rora and edge.cycle in ACCESSES:
            edge = edge._replace(cycle=ACCESSES[draw.choice(rora) - 1])
        edges.append(edge)
        bus.accept(edge, len(edges))
    return edges


def faults_of_swaps(seed, program, folder):
    """Of each swap of a draw what it changes: of a scenario and legal edges, one free swap after the other is made."""
    draw = random.Random(seed)
    scenario, plan = plan_drawn(draw)
    version = draw.choice([1, 2])
    edges = draw.choice([legal_edges, edges_with_answers])(draw, plan, version, draw.choice([10, 20, 40, 80]))
    Path(folder, SCENARIO).write_text(scenario)
    written = by_program(program, folder) if program else by_model(folder)
    before = Replayed(written, Path(folder, "0.vme"), text_of(version, edges))
    for number, (place, swapped) in enumerate(free_swaps(draw, plan, version, edges, 0.7), 1):
        after = Replayed(written, Path(folder, f"{number}.vme"), text_of(version, swapped))
        yield fault_in_swap(before, after, place)
        before = after


def compare(program, count, seed):
    """Replays so many free swaps, by the model if no program is given, and returns the status."""
    passed, failed, number = 0, 0, random.randrange(2**32) if seed is None else seed
    print(f"seeds from {number} on", flush=True)
    while passed + failed < count:
        with tempfile.TemporaryDirectory(prefix="swaps-") as folder:
            for fault in faults_of_swaps(number, program, folder):
                passed, failed = passed + (fault is None), failed + (fault is not None)
                if fault:
                    print(f"FAILED seed {number}: {fault}", flush=True)
                if passed + failed == count:
                    break
        number += 1
    print(f"{passed} passed, {failed} failed")
    return 1 if failed or not passed else 0
