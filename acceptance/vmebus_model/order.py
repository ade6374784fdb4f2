"""`order`: an order of edges seen at moments that the rules allow, or how far one comes.

A beginning is a tuple of places.  `orders_by_trying` follows the definitions word by word, and is
used while there are few edges.  `orders_by_kind` keeps the least of all legal beginnings that go on
in the same way.  `acceptance/model --orders` compares the two.
"""

from typing import NamedTuple, Tuple

from .bus import Bus
from .faults import Fault, WrongWords
from .moments import Moments
from .traces import CONTROLLER, GRANTS, text_of
from .verdicts import refusal

MOST_TRIED = 6
MOST_KINDS = 65_536
WINDOW = 128
DRIVERS = range(22)
ARBITER = GRANTS + ("bclr",)


def part_of(edge):
    """The part that makes an edge: a board, or of the controller the arbiter or another one."""
    if edge.driver != CONTROLLER:
        return edge.driver
    return "arbiter" if edge.wire in ARBITER else edge.wire


class Question:
    """What was seen on a backplane, and by how many moments each driver's edges may be late."""

    def __init__(self, plan, version, seen, slack):
        self.plan, self.version, self.seen, self.slack = plan, version, seen, slack
        self.most_slack = max(slack.values())
        self.parts = [part_of(it.edge) for it in seen]

    def before(self, i, j):
        """Whether place i has to stand in front of place j."""
        first, second = self.seen[i], self.seen[j]
        if first.moment + self.slack[second.edge.driver] < second.moment:
            return True
        return first.moment < second.moment and self.parts[i] == self.parts[j]

    def next_places(self, places):
        """The places that could come next after a beginning: no place left stands before them."""
        taken = set(places)
        left = [it for it in range(len(self.seen)) if it not in taken]
        return [j for j in left if not any(self.before(i, j) for i in left)]

    def bus_after(self, places):
        """The bus after the edges of these places; None if one of them is refused."""
        bus = Bus(self.plan, self.version)
        for number, place in enumerate(places, 1):
            if refusal(bus, self.seen[place].edge):
                return None
            bus.accept(self.seen[place].edge, number)
        return bus


class Answer(NamedTuple):
    """The least of the longest legal beginnings, the places that could come next after it, all of
    which are refused, and whether F5 may be told in place of both."""

    places: Tuple[int, ...]
    refused: Tuple[int, ...]
    may_be_too_many: bool


# By the definitions


def orders_by_trying(question):
    """The answer by all beginnings of each length, the lesser first, whether legal or not."""
    best, beginnings = (), [()]
    while beginnings:
        best = next((it for it in beginnings if question.bus_after(it)), best)
        beginnings = [it + (place,) for it in beginnings for place in question.next_places(it)]
    return Answer(best, tuple(question.next_places(best)), False)


# By kinds


class Beginning(NamedTuple):
    """A legal beginning, the least place that is not in it, the greater ones that are, and the bus
    after it."""

    places: Tuple[int, ...]
    least: int
    above: frozenset
    bus: Bus


def next_by_window(question, beginning):
    """The places that could come next: none of them is later than the least place that is left by
    more than the greatest slack."""
    seen, least, left = question.seen, beginning.least, []
    for place in range(least, len(seen)):
        if seen[place].moment > seen[least].moment + question.most_slack:
            break
        if place not in beginning.above:
            left.append(place)
    return [j for j in left if not any(question.before(i, j) for i in left)]


def kind_with(question, beginning, place):
    """What decides how a beginning with one more place goes on: its set of places, and how the bus
    stands then; None if the edge of the place is refused."""
    edge, bus = question.seen[place].edge, beginning.bus
    if refusal(bus, edge):
        return None
    least, above = beginning.least, beginning.above | {place}
    while least in above:
        least, above = least + 1, above - {least}
    bus.accept(edge, len(beginning.places) + 1)
    stand = bus.stand()
    bus.take_back()
    return least, above, stand


def with_place(question, beginning, place, kind):
    """A legal beginning with one more place, which makes it one of this kind."""
    places, (least, above, _) = beginning.places + (place,), kind
    bus = beginning.bus.with_edge(question.seen[place].edge, len(places))
    return Beginning(places, least, above, bus)


def longer(question, kinds):
    """The legal beginnings with one place more, of each kind the least, since they come in order;
    and how far a place that could come next is above the least place that is left."""
    first, furthest = {}, 0
    for beginning in kinds:
        for place in next_by_window(question, beginning):
            furthest = max(furthest, place - beginning.least)
            kind = kind_with(question, beginning, place)
            if kind and kind not in first:
                first[kind] = with_place(question, beginning, place, kind)
    return list(first.values()), furthest


def orders_by_kind(question):
    """The answer by all kinds of legal beginnings, one length after the other."""
    kinds = [Beginning((), 0, frozenset(), Bus(question.plan, question.version))]
    may_be_too_many = False
    while kinds:
        best = kinds[0]
        kinds, furthest = longer(question, kinds)
        may_be_too_many = may_be_too_many or furthest >= WINDOW
        if len(kinds) > MOST_KINDS:
            raise Fault("F5 too many orders")
    return Answer(best.places, tuple(next_by_window(question, best)), may_be_too_many)


# The command


def answer_to(question):
    """The answer, by the definitions if few edges let them be tried. No list of all places is less
    than the one in which they are listed, and no moment lets it be no order."""
    if len(question.seen) <= MOST_TRIED:
        return orders_by_trying(question)
    listed = tuple(range(len(question.seen)))
    return Answer(listed, (), False) if question.bus_after(listed) else orders_by_kind(question)


def slack_of(plan, given):
    """The slack of each driver, by a number for all, or by a list of some."""
    if isinstance(given, int):
        return dict.fromkeys(DRIVERS, given)
    for driver in given:
        if driver not in plan.drivers:
            raise WrongWords("slack of a slot without a board")
    return {driver: given.get(driver, 0) for driver in DRIVERS}


def question_of(plan, read, options):
    """What is asked for: the list of slacks is tested before the moments are read."""
    slack = slack_of(plan, options.get("--slack", 0))
    moments = Moments(read)
    return Question(plan, moments.version, moments.seen, slack)


def order(plan, read, options, console):
    """Writes the least legal order; if there is none, what comes furthest, and the edges that are
    refused there."""
    question = question_of(plan, read, options)
    if "--progress" in options and question.seen:
        console.tell(f"trying length 1 of {len(question.seen)}, beginnings 1")
    answer = answer_to(question)
    written = [question.seen[place] for place in answer.places + answer.refused]
    if "--where" in options:
        console.write("".join(places_of(plan, question.version, written)))
    else:
        console.write(text_of(question.version, [it.edge for it in written]))
    return 2 if answer.refused else 0


def places_of(plan, version, written):
    """A line for each edge: its number, its place, and the verdict if it is refused."""
    bus = Bus(plan, version)
    for number, it in enumerate(written, 1):
        refused = refusal(bus, it.edge)
        if not refused:
            bus.accept(it.edge, number)
        verdict = f" {refused}" if refused else ""
        yield f"{number} {it.edge} line {it.line} moment {it.moment}{verdict}\n"
