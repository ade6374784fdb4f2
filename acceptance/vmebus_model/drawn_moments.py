"""`--moments` and `--orders`: moments that are drawn.

On these a built program is compared with the model, or the model's two ways to find an order with
each other.  Legal edges are cut into moments, each is seen some moments late as its driver's slack
allows, and those of one moment are shuffled.  Many are then spoiled, so that no order is legal.
"""

import os
import random
import subprocess
import tempfile
from collections import Counter
from pathlib import Path

from . import moments
from .bus import Bus
from .cases import Kept
from .drawing import legal_edge, near_edge, plan_of, scenario_of, some, spoiled_trace
from .drawn import SECONDS, difference
from .faults import Fault
from .moments import GREATEST, Seen
from .order import (
    DRIVERS, Question, answer_to, orders_by_kind, orders_by_trying, part_of, question_of,
)
from .program import main
from .program import scenario_of as bytes_of_scenario
from .traces import name_of
from .words import job_of

FILES = ["scenario.toml", "moments.vme"]
FAR = 4  # more than any slack that is drawn
BAD_LINES = ["@0", "@01", "@", "@-1", "@+1", "@1 ", f"@{GREATEST}", f"@{GREATEST + 1}", "1 br", "",
             "@5\r", "@" + 64 * "1"]
TOO_MANY = b"vmebus: F5 too many orders\n"


# Edges


def plan_drawn(draw):
    """A scenario without fault, mostly one with a requester, and its backplane."""
    while True:
        scenario = scenario_of(draw)
        plan = plan_of(scenario)
        if plan and (plan.requesters or some(draw, 0.1)):
            return scenario, plan


def legal_edges(draw, plan, version, most):
    """Edges of all kinds, each accepted after those before it."""
    bus, edges = Bus(plan, version), []
    while len(edges) < most:
        edge = legal_edge(draw, bus)
        if edge is None:
            break
        edges.append(edge)
        bus.accept(edge, len(edges))
    return edges


def spoiled_edges(draw, plan, edges, first=0):
    """Edges of which one is left out, doubled or another one, or two have changed places; those in
    front of the first stay."""
    edges, way = list(edges), draw.randrange(4)
    if len(edges) < 2:
        return edges
    at, other = draw.randrange(first, len(edges)), draw.randrange(first, len(edges))
    if way == 0:
        del edges[at]
    elif way == 1:
        edges.insert(other, edges[at])
    elif way == 2:
        edges[at] = near_edge(draw, Bus(plan, 1))
    else:
        edges[at], edges[other] = edges[other], edges[at]
    return edges


# Moments


def moments_of(draw, edges, most, ordered=0):
    """The moment at which each edge comes: at most so many edges in one, and the first ones further
    apart than any slack."""
    moment, left, come = 0, 0, []
    for place, _ in enumerate(edges):
        if place <= ordered:
            moment, left = moment + FAR * (place > 0 and ordered > 0), draw.randint(1, most)
        elif not left:
            moment, left = moment + draw.choice([1, 1, 1, 2, 3]), draw.randint(1, most)
        left -= 1
        come.append(moment)
    first = draw.choice([0, 0, 1, draw.randrange(1000), GREATEST - moment])
    return [first + it for it in come]


def seen_late(draw, edges, come, slack, ordered=0):
    """The edges as they are seen: each late by at most its slack, but for the first ones, those of
    a part in their order; by moments, each moment shuffled."""
    last, seen = {}, []
    for place, (edge, moment) in enumerate(zip(edges, come)):
        part, late = part_of(edge), draw.randint(0, slack[edge.driver]) if place >= ordered else 0
        last[part] = max(moment + late, last.get(part, 0))
        seen.append(Seen(edge, min(last[part], GREATEST), 0))
    draw.shuffle(seen)
    return sorted(seen, key=lambda it: it.moment)


def slack_drawn(draw, drivers):
    """A slack for each driver, and the words that say so."""
    way = draw.randrange(5)
    if way == 0:
        return dict.fromkeys(DRIVERS, 0), draw.choice([[], ["--slack", "0"]])
    if way < 3:
        number = draw.choice([1, 1, 2, 3])
        words = draw.choice([["--slack", str(number)], [f"--slack=+0{number}"]])
        return dict.fromkeys(DRIVERS, number), words
    some_drivers = draw.sample(drivers, draw.randint(1, min(3, len(drivers))))
    listed = {driver: draw.randint(0, 3) for driver in some_drivers}
    text = ",".join(f"{name_of(driver)}={number}" for driver, number in listed.items())
    return {driver: listed.get(driver, 0) for driver in DRIVERS}, ["--slack", text]


# Texts


def with_more_moments(draw, text):
    """The text of moments in which some are named once more."""
    lines, named = [], []
    for line in text.splitlines(True):
        lines.append(line)
        named = [line] if line.startswith("@") else named
        lines += named if some(draw, 0.05) else []
    return "".join(lines)


def faulty(draw, text):
    """A text of moments with a fault, mostly: as that of a trace is spoiled, or by a line."""
    if some(draw, 0.4):
        return spoiled_trace(draw, text)
    lines = text.splitlines()
    below = [f"@{int(it[1:]) - 1}" for it in lines if it.startswith("@")]
    lines.insert(draw.randint(0, len(lines)), draw.choice(below[-2:] + BAD_LINES))
    return "".join(f"{line}\n" for line in lines)


class DrawnMoments:
    """One draw: a scenario, moments, and the words of two runs over them."""

    def __init__(self, seed):
        draw = random.Random(seed)
        self.scenario, plan = plan_drawn(draw)
        version = draw.choice([1, 1, 2])
        slack, slack_words = slack_drawn(draw, plan.drivers)
        length = draw.choice([0, 6, 20, 40, 80, draw.randint(0, 200)])
        edges = legal_edges(draw, plan, version, length)
        if some(draw, 0.5):
            edges = spoiled_edges(draw, plan, edges)
        most = draw.choice([1, 2, 3, 4] if any(slack.values()) else [1, 2, 4, 6, 8, 12])
        seen = seen_late(draw, edges, moments_of(draw, edges, most), slack)
        text = with_more_moments(draw, moments.text_of(version, seen))
        self.moments = faulty(draw, text) if some(draw, 0.1) else text
        other = draw.choice([slack_words, ["--slack", draw.choice(["0", "1", "2", "c=1", "c=2"])]])
        more = draw.choice([[], ["--where"], ["--progress"], ["--where", "--progress"]])
        self.words = [["order", *FILES, *slack_words], ["order", *FILES, *other, *more]]

    def lay_out(self, folder):
        """Writes the files."""
        for name, text in zip(FILES, (self.scenario, self.moments)):
            Path(folder, name).write_bytes(text.encode())

    def faults(self, program, folder):
        """The words of each run, the model's status, and what differs, None where nothing does."""
        for words in self.words:
            console = Kept(folder)
            status = main([it.encode() for it in words], console)
            options = {"input": b"", "capture_output": True, "cwd": folder, "timeout": SECONDS}
            try:
                ran = subprocess.run([program, *words], **options)
                yield words, status, difference_but_of_many(words, ran, status, console)
            except subprocess.TimeoutExpired:
                yield words, status, f"it had not ended after {SECONDS} seconds"


# A program beside the model


def difference_but_of_many(words, ran, status, console):
    """What differs between a run of the program and the model; where F5 may be told, so may an
    answer."""
    if console.told.endswith(TOO_MANY) and ran.returncode != 1:
        return None
    tells_too_many = (ran.returncode, ran.stdout) == (1, b"") and ran.stderr.endswith(TOO_MANY)
    if tells_too_many and may_be_too_many(words, console):
        return None
    return difference(words, ran, status, console)


def may_be_too_many(words, console):
    """Whether F5 may be told in place of an answer."""
    job = job_of([it.encode() for it in words])
    scenario, moments_ = job.files
    try:
        plan = plan_of(bytes_of_scenario(console.open(scenario), scenario).decode())
        question = question_of(plan, console.open(moments_), job.options)
        return answer_to(question).may_be_too_many
    except Fault as fault:
        return str(fault).startswith("F5 ")


def compare(program, count, seed):
    """Compares a program with the model on so many draws, and returns the status."""
    passed, failed, statuses = 0, 0, Counter()
    seed = random.randrange(2**32) if seed is None else seed
    print(f"seeds {seed} to {seed + count - 1}", flush=True)
    for number in range(seed, seed + count):
        with tempfile.TemporaryDirectory(prefix="moments-") as folder:
            drawn = DrawnMoments(number)
            drawn.lay_out(folder)
            for words, status, fault in drawn.faults(program, folder):
                statuses[status] += 1
                passed, failed = passed + (fault is None), failed + (fault is not None)
                if fault:
                    tell_fault(words, fault, number)
    counts = ", ".join(f"{statuses[it]} of status {it}" for it in sorted(statuses))
    print(f"by the model {counts}")
    print(f"{passed} passed, {failed} failed")
    return 1 if failed or not passed else 0


def tell_fault(words, fault, number):
    """Prints what differs in a run, and how to draw it again."""
    print(f"FAILED {' '.join(words)}: {fault}")
    print(f"       again: --moments 1 --seed {number} PROGRAM;", end=" ")
    print(f"its files: --moment-files {number} FOLDER", flush=True)


def write_files(seed, folder):
    """Writes the files of a draw, and prints the words of its runs."""
    drawn = DrawnMoments(int(seed))
    os.makedirs(folder, exist_ok=True)
    drawn.lay_out(folder)
    for words in drawn.words:
        print(" ".join(words))
    return 0


# The model beside itself


def small_question(seed):
    """Edges in their order, and behind them a few that were seen in moments, so that all orders can
    be tried; and whether the edges are legal as they came, so that an order has to be found."""
    draw = random.Random(seed)
    plan, version, is_spoiled = plan_drawn(draw)[1], draw.choice([1, 2]), some(draw, 0.4)
    edges = legal_edges(draw, plan, version, draw.choice([3, 8, 20, 40, 60]))
    slack, ordered = slack_drawn(draw, plan.drivers)[0], max(0, len(edges) - draw.randint(2, 6))
    if is_spoiled:
        edges = spoiled_edges(draw, plan, edges, ordered)
    come = moments_of(draw, edges, draw.choice([1, 2, 3, 6]), ordered)
    seen = seen_late(draw, edges, come, slack, ordered)
    return Question(plan, version, seen, slack), not is_spoiled


def fault_in_orders(question, is_legal):
    """What differs between the two ways in which the model finds an order, or is wrong with both,
    None where nothing is."""
    tried, by_kind = orders_by_trying(question), orders_by_kind(question)
    if (tried.places, tried.refused) != (by_kind.places, by_kind.refused):
        return f"by all orders {tried}, by kinds {by_kind}"
    if is_legal and tried.refused:
        return f"no order of legal edges is found: {tried}"
    if not tried.refused and orders_by_kind(with_more_slack(question)).refused:
        return f"with more slack there is no order: {tried}"
    return None


def with_more_slack(question):
    """The same with more slack for each driver."""
    slack = {driver: number + 1 for driver, number in question.slack.items()}
    return Question(question.plan, question.version, question.seen, slack)


def compare_orders(count, seed):
    """Compares the two ways to find an order on so many draws, and returns the status."""
    passed, failed = 0, 0
    seed = random.randrange(2**32) if seed is None else seed
    print(f"seeds {seed} to {seed + count - 1}", flush=True)
    for number in range(seed, seed + count):
        fault = fault_in_orders(*small_question(number))
        passed, failed = passed + (fault is None), failed + (fault is not None)
        if fault:
            print(f"FAILED seed {number}: {fault}", flush=True)
    print(f"{passed} passed, {failed} failed")
    return 1 if failed or not passed else 0
