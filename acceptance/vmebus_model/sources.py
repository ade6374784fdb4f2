"""The table of the rules: for each a sentence, and where each of its conditions comes from; and `rule`, which writes it, and
explains the other codes.

A condition is the standard's if a sentence of the standard asks for just that, times aside.  What makes it stricter, or says
when, is this project's profile.  The standard's text was not at hand: `FROM_MEMORY` has the sources that rest on no more
than a memory of it.
"""

from typing import Dict, NamedTuple, Tuple

from .codes import codes


class Source(NamedTuple):
    """The chapters of the standard that ask for a condition, none if it is the profile's; why; and in which version alone it is."""

    chapters: Tuple[int, ...] = ()
    why: str = ""
    version: int = 0

    def __str__(self):
        name = "standard " + " and ".join(map(str, self.chapters)) if self.chapters else "profile"
        return name + (f", in version {self.version}" if self.version else "")


class Rule(NamedTuple):
    """The edge of a rule, its sentence, and its conditions in the order in which they are told, each with its source."""

    edge: str
    sentence: str
    conditions: Dict[str, Source]


def standard(*chapters, why="", version=0):
    return Source(chapters, why, version)


def profile(why, version=0):
    return Source((), why, version)


TABLE = {
    "E1": Rule("any", "An edge needs a board in its slot, and the board must have the wire.",
               dict.fromkeys(("the slot has a board", "the board has a requester", "the board has an interrupter"))),
    "E2": Rule("any", "A wire can only change to its other state.",
               dict.fromkeys(f"DRIVER WIRE is {it}" for it in ("high", "off", "low", "on"))),
    "G1": Rule("c bgN-", "The arbiter grants the level that its policy picks, one grant at a time, while the bus has no owner.", {
        "all four grants are high": profile("the standard does not ask for all four"),
        "BBSY* is high": standard(3),
        "the arbiter picks level N": profile("the policies are chapter 3's; only the moment of the pick is ours"),
    }),
    "G2": Rule("c bgN+", "A grant stays asserted until a board has taken it. Version 2: it may also time out, by S3.", {
        "BBSY* is low": standard(3, version=1),
    }),
    "G3": Rule("c bclr-", "A priority arbiter asks the owner to release the bus for a request of a higher level.", {
        "the arbiter is PRI": profile("BCLR* from an RRS arbiter is left out"),
        "BBSY* is low": standard(3),
        "all four grants are high": profile("bus clear waits until the grants are high again"),
        "a request above the level last granted is low": standard(3),
    }),
    "G4": Rule("c bclr+", "Bus clear stays asserted as long as it is due.", {
        "bus clear is not due": profile("bus clear also ends once no higher request is left"),
    }),
    "G5": Rule("c iack-", "The daisy-chain driver starts the IACK chain for the acknowledge that is shown.", {
        "AS* is low": standard(4),
        "DS0* is low": standard(4),
        "an acknowledge is shown": standard(4),
    }),
    "G6": Rule("c iack+", "The daisy-chain driver keeps the IACK chain low until the cycle ends.", {
        "AS* is high": standard(4),
    }),
    "G7": Rule("c berr-", "The bus timer ends a cycle that nobody answers.", {
        "DS0* is low": standard(2),
        "DTACK* is high": standard(2),
    }),
    "G8": Rule("c berr+", "A bus error stays asserted until the master has seen it.", {
        "DS0* is high": standard(2),
    }),
    "G9": Rule("br-", "The owner of the bus does not request it.", {
        "own bbsy is high": profile("the owner does not need to request the bus"),
    }),
    "G10": Rule("br+", "A request stays asserted until it is met. Version 2: it may be withdrawn.", {
        "own bbsy is low": profile("no request is withdrawn", version=1),
    }),
    "G11": Rule("bgout-", "A board that does not want the grant passes it on.", {
        "own grant-in is low": standard(3),
        "own br is high": standard(3),
        "own bbsy is high": standard(3),
    }),
    "G12": Rule("bgout+", "A grant chain rises board by board, from its beginning.", {
        "own grant-in is high": standard(3),
    }),
    "G13": Rule("bbsy-", "A requester takes the grant that reaches it.", {
        "own grant-in is low": standard(3),
        "own bgout is high": profile("a grant that was passed on cannot be taken"),
        "own br is low": profile("the request must be visible on the board's own BR*"),
    }),
    "G14": Rule("bbsy+", "An owner releases the bus once its last transfer has begun and no old grant is left; "
                         "with ROR, only while a board requests the bus.", {
        "own br is high": profile("the owner has ended its own request by then"),
        "own grant-in is high": profile("the grant that the owner took has ended by then"),
        "own addr is off or own as is low": standard(3),
        "some BR line is low": standard(3),
    }),
    "G15": Rule("addr- v", "The owner begins a cycle once the one before has ended; with RWD, only within its burst; "
                           "and it acknowledges only what it handles and what is requested.", {
        "own bbsy is low": standard(3),
        "AS* is high": standard(2),
        "fewer cycles than the burst": profile("the scenario limits the cycles of a tenure"),
        "the board handles level N": standard(4),
        "IRQN* is low": profile("the interrupt is still requested when the cycle begins"),
    }),
    "G16": Rule("as-", "The address strobe says that the address is valid.", {
        "own addr is on": standard(2),
        "AS* is high": standard(2),
    }),
    "G17": Rule("ds-", "A data strobe waits until the last answer has ended, and falls once in a cycle.", {
        "own as is low": standard(2),
        "own addr is on": standard(2),
        "DTACK* is high": standard(2),
        "BERR* is high": standard(2),
        "no own ds- in this cycle": profile("block and read-modify-write cycles are left out"),
    }),
    "G18": Rule("ds+", "A data strobe stays asserted until it is answered.", {
        "DTACK* or BERR* is low": standard(2),
    }),
    "G19": Rule("addr+", "The address goes off once its only transfer is over.", {
        "own as is low": profile("the address goes off before AS* rises"),
        "own ds is high": profile("address pipelining is left out"),
        "an own ds- in this cycle": profile("address-only cycles are left out"),
    }),
    "G20": Rule("as+", "A cycle ends once its address is off.", {
        "own addr is off": profile("the address goes off before AS* rises"),
    }),
    "G21": Rule("irq-", "A board may request an interrupt at any time.", {}),
    "G22": Rule("irq+", "An interrupt request stays asserted until it is served: with ROAK by an acknowledge, with RORA by an access.", {
        "the request was served by an acknowledge": standard(4),
        "the request was served by an access": standard(4),
    }),
    "G23": Rule("iackout-", "A board with nothing pending at the level shown passes the acknowledge on.", {
        "own iackin is low": standard(4),
        "own dtack is high": standard(4),
        "DS0* is low": standard(4),
        "not pending at level N": standard(4),
        "an acknowledge is shown": standard(4),
    }),
    "G24": Rule("iackout+", "A board keeps the IACK chain low until the cycle ends.", {
        "AS* is high": standard(4),
    }),
    "G25": Rule("dtack-", "The first pending board that an acknowledge reaches answers it, "
                          "and a board answers an access to its slot.", {
        "DS0* is low": standard(2, 4),
        "AS* is low": standard(2),
        "own iackin is low": standard(4),
        "own iackout is high": profile("an acknowledge that was passed on cannot be answered"),
        "pending at level N": standard(4),
        "the own slot is shown": standard(2),
        "a cycle is shown": standard(2),
    }),
    "G26": Rule("dtack+", "An answer stays asserted until the master has seen it.", {
        "DS0* is high": standard(2),
    }),
    "S1": Rule("as-", "No cycle begins until the IACK chain of the last cycle is high again.", {
        "iack and every iackout are high": standard(4, why="it takes the place of a minimum time"),
    }),
    "S2": Rule("c berr-", "The bus timer waits until no board is left that can answer.", {
        "nobody can answer": profile("the standard's bus timer measures time only"),
    }),
    "S3": Rule("c bgN+", "Version 2: a grant times out only when it has passed every board.", {
        "the grant has passed the last board": profile("it takes the place of a time of version 2"),
    }),
    "S4": Rule("c bgN-", "Version 2: a new grant waits until the last one has risen at every board.", {
        "every bgout is high": profile("it takes the place of a time of version 2"),
    }),
    "E5": Rule("any", "A trace has at most 1,048,576 accepted edges.", {"the trace has room": None}),
}

FROM_MEMORY = {
    ("G1", "BBSY* is high"), ("G2", "BBSY* is low"), ("G5", "AS* is low"), ("G6", "AS* is high"), ("G10", "own bbsy is low"),
    ("G12", "own grant-in is high"), ("G14", "own br is high"), ("G14", "own grant-in is high"), ("G17", "own as is low"),
    ("G19", "own ds is high"), ("G24", "AS* is high"),
}
MARK = " (profile)"


def is_profile(rule, condition):
    """Whether a condition of a rule is the profile's alone."""
    return not TABLE[rule].conditions[condition].chapters


def marked(rule, condition):
    """The mark that follows a condition that is the profile's."""
    return MARK if is_profile(rule, condition) else ""


def unmarked(goal):
    """The name of a miss without the mark, if `explain` writes it with that."""
    rule, _, condition = goal[: -len(MARK)].partition(" ")
    is_marked = goal.endswith(MARK) and rule[:1] == "G" and condition in TABLE.get(rule, Rule("", "", {})).conditions
    return goal[: -len(MARK)] if is_marked and is_profile(rule, condition) else goal


def first_line(name):
    return f"{name} {TABLE[name].edge} {TABLE[name].sentence}"


def line_of(condition, source, width):
    """A condition with its source, and why it is what it is; one of E1, E2 and E5 has none."""
    if source is None:
        return condition
    return condition.ljust(width) + f"  {source}" + (f": {source.why}" if source.why else "")


def lines_of(name):
    """The lines of one rule, or of another code."""
    if name in codes():
        return codes()[name]
    conditions = TABLE[name].conditions
    width = max(map(len, conditions), default=0)
    return [first_line(name), *(line_of(it, source, width) for it, source in conditions.items())]


def rule(names, console):
    """`rule`: all sentences, or one rule or another code."""
    lines = lines_of(*names) if names else map(first_line, TABLE)
    console.write("".join(f"{it}\n" for it in lines))
    return 0
