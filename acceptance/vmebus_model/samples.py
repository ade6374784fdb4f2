"""Samples: changes of a capture whose order is not known, except that those of one line or pin come as they were captured.

For each set of changes that can have come first there is one record.  It joins the records to which the last change of such a
set leads, whichever that was.  So it may hold a standing too many, as every record, and never one too few.
"""

from functools import reduce

from .standings import behind


class Sample:
    """What can be known while the changes of a sample come, in any order that keeps the order of each line and pin."""

    def __init__(self, probed, record, changes):
        self.probed, self.changes = probed, changes
        self.records = {frozenset(): probed.with_hidden(record)}  # behind each set of places that can have come, hidden moves made
        self.makers = {}  # of each such set, and of a place that can come next: who may have made that change
        sets = [frozenset()]
        while sets:
            sets = self.one_more(sets)

    def one_more(self, sets):
        """Adds the records of the sets that have one place more, and returns these sets."""
        leading = {}
        for places in sets:
            for place in next_places(self.changes, places):
                able, record = behind(self.probed, self.records[places], self.changes[place])
                if able:
                    self.makers[places, place] = able
                    leading.setdefault(places | {place}, []).append(record)
        self.records.update((places, self.probed.with_hidden(reduce(union, them))) for places, them in leading.items())
        return list(leading)

    def placed(self):
        """The most changes that can have come first; of several such sets the one that is least as a list of places."""
        return min(self.records, key=lambda places: (-len(places), sorted(places)))

    def record(self):
        """The record behind the changes that are placed."""
        return self.records[self.placed()]

    def is_possible(self):
        return len(self.placed()) == len(self.changes)

    def drivers(self):
        """Of each change that is placed, by its place: who may have made it, if all of these came in some order."""
        whole = self.placed()
        reaching, drivers = {whole}, {}
        for places, place in sorted(self.makers, key=lambda it: -len(it[0])):
            if places | {place} in reaching:
                reaching.add(places)
                drivers[place] = drivers.get(place, set()) | self.makers[places, place]
        return drivers


def next_places(changes, places):
    """The first change of each line or pin that is not in a set, by its place."""
    waiting = {}
    for place, change in enumerate(changes):
        if place not in places:
            waiting.setdefault(change.of, place)
    return sorted(waiting.values())


def union(one, other):
    """All that one of two records holds, part by part."""
    if (one.low, one.shown, one.is_strobed) != (other.low, other.shown, other.is_strobed):
        raise AssertionError("the levels of two orders of the same changes differ")
    return one._replace(
        phases=one.phases | other.phases,
        addressers=one.addressers | other.addressers,
        answerers=one.answerers | other.answerers,
        fronts=one.fronts | other.fronts,
        requests=tuple(states | more for states, more in zip(one.requests, other.requests)),
    )
