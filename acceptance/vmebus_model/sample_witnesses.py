"""The witnesses of a sample: every way in which the bus can stand after a legal list of edges that shows its changes, in any order
that keeps the order of each line and pin.
"""

from .samples import next_places
from .witnesses import agrees


class TooMany(Exception):
    """There are more witnesses than are kept."""


class SampleWitnesses:
    """The ways in which the bus can stand behind each set of changes that can have come first, and who may have made each change."""

    def __init__(self, witnesses, stands, changes, most):
        self.witnesses, self.changes, self.most = witnesses, changes, most
        self.stands = {frozenset(): stands}  # by the places of the changes; the edges that no probe sees are made
        sets = [frozenset()]
        while sets:
            sets = self.one_more(sets)

    def one_more(self, sets):
        """Adds the ways behind the sets that have one place more, and returns these sets."""
        behind = {}
        for places in sets:
            for place in next_places(self.changes, places):
                _, after = self.witnesses.behind(self.stands[places], self.changes[place])
                if after:
                    behind.setdefault(places | {place}, set()).update(after)
        for places, after in behind.items():
            self.stands[places] = self.witnesses.with_hidden(after, self.most)
            if self.stands[places] is None:
                raise TooMany
        return list(behind)

    def at_end(self):
        """The ways behind the whole sample, none if it is impossible."""
        return self.stands.get(frozenset(range(len(self.changes))), set())

    def drivers(self):
        """Of each change, by its place: who makes it in a list that shows the whole sample."""
        whole = frozenset(range(len(self.changes)))
        reaching, drivers = {whole: self.at_end()}, {}
        for places in sorted(self.stands.keys() - {whole}, key=len, reverse=True):
            steps = list(self.reaching_steps(places, reaching))
            for place, _, driver in steps:
                drivers.setdefault(place, set()).add(driver)
            reaching[places] = self.before(places, {stand for _, stand, _ in steps})
        return drivers

    def reaching_steps(self, places, reaching):
        """The changes that come next in a list that shows the whole sample: the place, how the bus stands, and the driver."""
        for place in next_places(self.changes, places):
            ends = reaching.get(places | {place}, ())
            for stand in self.stands[places]:
                for edge, kind, after in self.witnesses.steps(stand):
                    if kind and agrees(self.changes[place], kind) and after in ends:
                        yield place, stand, edge.driver

    def before(self, places, stands):
        """These ways behind a set, and those that lead to them by edges that no probe sees."""
        found, new = set(), stands
        while new:
            found |= new
            steps = ((it, self.witnesses.steps(it)) for it in self.stands[places] - found)
            new = {it for it, them in steps if any(kind is None and after in found for _, kind, after in them)}
        return found
