"""`drive` with a seed: traces that are drawn among all legal edges, until an event or a miss comes."""

import re
from functools import lru_cache
from typing import NamedTuple, Optional

from .bus import Bus
from .drive import written
from .events import EVENTS, OF_VERSION_2, events_of
from .rules import GUARDS, SETTLING, name_of_rule
from .sources import TABLE
from .traces import text_of
from .verdicts import guard, hold, next_edges, open_edges, settling

KINDS = (
    "bg-", "bg+", "bclr-", "bclr+", "iack-", "iack+", "berr-", "berr+", "br-", "br+", "bgout-", "bgout+", "bbsy-", "bbsy+",
    "addr-i", "addr-r", "addr-e", "addr+", "as-", "as+", "ds-", "ds+", "irq-", "irq+", "iackout-", "iackout+", "dtack-", "dtack+",
)
FACTOR = 6364136223846793005
GUARDED = [f"G{number}" for number in range(1, 27)]

# The conditions that a miss may be named by, each with the version in which alone it is.
CONDITIONS = {f"{rule} {name}": source.version for rule in GUARDED for name, source in TABLE[rule].conditions.items()}


# Those of them that another condition of the rule always fails beside, so that no trace comes to them.
NEVER_ALONE = ("G5 AS* is low", "G16 AS* is high", "G17 own addr is on", "G23 an acknowledge is shown", "G25 AS* is low",
               "G25 a cycle is shown")


def has_miss(rule, version):
    """Whether a rule has a condition, or a settling rule, in a version."""
    settles = {TABLE[it].edge for it in ("S1", "S2", *(["S3", "S4"] if version == 2 else []))}
    sources = TABLE[rule].conditions.values()
    return TABLE[rule].edge in settles or any(it.version in (0, version) for it in sources)


def goals(version):
    """All that `--until` may name in a version of the rules."""
    events = [it for it in EVENTS if version == 2 or it not in OF_VERSION_2]
    rules = [it for it in GUARDED if has_miss(it, version)]
    guards = [it for it, only in CONDITIONS.items() if only in (0, version) and it not in NEVER_ALONE]
    return events + rules + guards + ["S1", "S2"] + (["S3", "S4"] if version == 2 else [])


def why_no_goal(name, version):
    """What is wrong with a name that is no goal in this version of the rules."""
    if name in GUARDED:
        return f"rule {name} has no condition"
    if name in NEVER_ALONE:
        return "wherever this condition fails, another one of the rule fails too"
    if name in goals(3 - version):
        return f"version {version} has no such {'event' if name in EVENTS else 'condition'}"
    return why_unknown(name)


def is_levelled(name, text):
    """Whether a name is a text with a level in the place of N, with the mark of `explain` or without it."""
    return re.fullmatch(re.escape(text).replace("N", "[N0-9]") + r"( \(profile\))?", name) is not None


def why_unknown(name):
    """What is wrong with a name that is no goal of any version."""
    first = name.partition(" ")[0]
    if any(is_levelled(name, it) for it in goals(1)):
        return "N stands for a level, as in 'IRQN* is low'"
    rules = [it.partition(" ")[0] for it in CONDITIONS if is_levelled(name, it.partition(" ")[2])]
    if rules:
        return f"a condition needs its rule before it: {', '.join(rules)}"
    if first in GUARDED:
        return f"rule {first} has no such condition"
    if name != first and first in ("S1", "S2", "S3", "S4"):
        return f"{first} is named without its condition"
    if re.match("[GgSsEe][0-9]", name) and first not in ("E1", "E2", "E5"):
        return f"no rule is called {first}"
    return f"no event or condition is called {name}"


class Goal(NamedTuple):
    """What ends a drawn trace: an event or a miss by its name, of one driver or of any, behind some number of edges."""

    name: str
    driver: Optional[int]
    after: int

    def takes(self, driver, number):
        """Whether an edge of a driver counts, if it is this one of the trace."""
        return self.driver in (None, driver) and number > self.after


class Numbers:
    """The generator PCG32 (XSH RR) with the increment 1."""

    def __init__(self, seed):
        self.state = ((seed + 1) * FACTOR + 1) % 2**64

    def next(self):
        """A number of 32 bits, from the state before the step."""
        state = self.state
        self.state = (state * FACTOR + 1) % 2**64
        mixed, turn = ((state >> 18 ^ state) >> 27) % 2**32, state >> 59
        return (mixed >> turn | mixed << 32 - turn) % 2**32

    def below(self, bound):
        return self.next() * bound >> 32


def kind_of(plan, edge):
    """The kind of an edge."""
    if edge.cycle:
        return "addr-i" if edge.cycle.is_acknowledge else "addr-r" if edge.cycle.number in plan.boards else "addr-e"
    return edge.wire.rstrip("0123") + ("-" if edge.falls else "+")


class Walk:
    """A trace that is drawn edge by edge."""

    def __init__(self, plan, version, seed):
        self.bus, self.numbers = Bus(plan, version), Numbers(seed)
        self.weights = {kind: 4 ** self.numbers.below(4) for kind in KINDS}
        self.made = dict.fromkeys(KINDS, 0)

    def drawn(self):
        """The next edge, None if nobody can make one; it is not made yet."""
        open_now = {kind: [] for kind in KINDS}
        for driver in self.bus.plan.drivers:
            for edge in open_edges(self.bus, driver):
                open_now[kind_of(self.bus.plan, edge)].append(edge)
        counts = {kind: self.weight(kind) for kind in KINDS if open_now[kind]}
        if not counts:
            return None
        left = self.numbers.below(sum(counts.values()))
        for kind, count in counts.items():
            if count > left:
                self.made[kind] += 1
                return open_now[kind][self.numbers.below(len(open_now[kind]))]
            left -= count

    def weight(self, kind):
        """What a kind counts now: the more of its edges there are, the less."""
        return self.weights[kind] * (1 + 256 // (1 + self.made[kind]))


@lru_cache(maxsize=None)
def ways_of(rule):
    """The wires and directions that a rule guards or settles."""
    return {way for way, it in [*GUARDS.items(), *SETTLING.items()] if name_of_rule(it) == rule}


def is_miss(bus, edge, named):
    """Whether just one condition, or the settling rule, refuses an edge to its wire's other state, and it is one that is named:
    by itself, by the settling rule, or by the rule that guards the edge. The name is of a rule that the edge has."""
    rule, _, name = named.partition(" ")
    failing = [it for it, holds, _ in guard(bus, edge) if not holds]
    is_unsettled = not failing and not hold(settling(bus, edge))
    if rule in GUARDED and not name:
        return len(failing) == 1 or is_unsettled
    return failing == [name] if name else is_unsettled


def miss(bus, goal, number):
    """The first edge by driver, wire and value that is the miss of this goal, None if there is none, or if none counts now."""
    if goal is None or goal.name in EVENTS:
        return None
    drivers, ways = [it for it in bus.plan.drivers if goal.takes(it, number)], ways_of(goal.name.partition(" ")[0])
    return next((edge for driver in drivers for edge in next_edges(bus, driver, ways) if is_miss(bus, edge, goal.name)), None)


def walked(plan, version, seed, most, goal=None):
    """A drawn trace, and whether it came to the goal, which ends it."""
    walk, edges = Walk(plan, version, seed), []
    while len(edges) < most:
        missed = miss(walk.bus, goal, len(edges) + 1)
        if missed:
            return edges + [missed], True
        edge = walk.drawn()
        if edge is None:
            break
        events = events_of(walk.bus, edge)
        edges.append(edge)
        walk.bus.accept(edge, len(edges))
        if goal and goal.name in events and goal.takes(edge.driver, len(edges)):
            return edges, True
    return edges, False


def goal_of(options):
    """The goal that options name, None if they name none."""
    if "--until" not in options:
        return None
    return Goal(options["--until"], options.get("--of"), options.get("--after", 0))


def drive_drawn(plan, options, console):
    """`drive --seed`, with `--until` or without."""
    goal, most, version = goal_of(options), options["--edges"], options["--version"]
    edges, came = walked(plan, version, options["--seed"], most, goal)
    status = written(version, edges, most, console)
    return status if goal is None else 0 if came else 3


def drive_seeds(plan, options, console):
    """`drive --seeds`: the trace of the first seed that comes to the event."""
    first, last = options["--seeds"]
    for seed in range(first, last + 1):
        edges, came = walked(plan, options["--version"], seed, options["--edges"], goal_of(options))
        if came:
            console.write(text_of(options["--version"], edges))
            console.tell(f"seed {seed}")
            return 0
    console.tell("no seed")
    return 3
