"""`--witnesses`: the records of `probe` beside all legal lists of edges, on tiny backplanes.

A capture is drawn, and its changes are taken one by one by the record and by the set of all ways in which the bus can stand
behind a legal list that shows the changes so far.  At each place every change that the lines allow is looked at: who may have
made it behind such a list has to be named; a change that is told to be impossible has to be so; and of each condition that is
told no such list may meet it and those before it.  In more than half of the captures the changes are taken by samples, whose
orders all count: who made a change in a list that shows the whole sample has to be named, and a sample that is told to be
impossible has to be so.
"""

import random
from collections import Counter

from .bus import Bus
from .captures import ACCESS, INTERRUPTS, REQUESTS, Change, wire_of
from .drawing import plan_of, some
from .drawn_captures import pins_drawn, run_to_the_middle, shown_by_run, spoiled, that_change, told_less
from .drawn_samples import places_drawn
from .obstacles import conditions
from .probe import grants, next_changes, pullers
from .sample_witnesses import SampleWitnesses, TooMany
from .samples import Sample, next_places
from .standings import Probed, behind
from .witnesses import Space, Witnesses, agrees, holds, low_of

MOST_STANDS = 3_000  # of a backplane, for captures that begin in the middle
MOST_WITNESSES = 3_000  # at one place of a capture
MOST_READ = 100  # of them, whose buses are read for the last lines and the conditions
CAPTURES = 6  # of each backplane and version


def tiny_scenario(draw):
    """The text of a backplane of 1 to 3 boards, of few levels and short bursts."""
    count = draw.choice([1, 2, 2, 2, 3])
    arbiter, bad = draw.choice(["sgl", "pri", "rrs"]), draw.choice([0, 0, 1])
    lines = [f"slots = {count + bad}", f'arbiter = "{arbiter}"']
    levels = [3] if arbiter == "sgl" else draw.sample(range(4), 2)
    handled = draw.sample([1, 2], draw.choice([1, 1, 2]))
    for slot in range(1, count + 1):
        lines += ["[[board]]", f"slot = {slot}"]
        if some(draw, 0.8 if slot == 1 else 0.5):
            release = draw.choice(['"ror"', '"rwd", burst = 1', '"rwd", burst = 1', '"rwd", burst = 2'])
            lines.append(f"requester = {{ level = {draw.choice(levels)}, release = {release} }}")
            own, handled = draw.choice([(handled, []), (handled, []), ([], handled)])
            lines.append(f"handler = {own}")
        if some(draw, 0.6):
            kind, status = draw.choice(["roak", "rora"]), draw.choice([7, 7, 9])
            lines.append(f'interrupter = {{ level = {draw.choice([1, 1, 2])}, kind = "{kind}", status = {status} }}')
    return "\n".join(lines) + "\n"


class Broken(Exception):
    """What the record says wrong, and where."""


class Beside:
    """The record of a capture and its witnesses, change by change."""

    def __init__(self, draw, space, wires, counts):
        self.witnesses, self.probed = Witnesses(space, wires), Probed(space.plan, space.version, wires)
        self.draw, self.counts, self.space = draw, counts, space

    def begin(self, bus, is_running):
        """At power-up, or from the stands that have the levels of a bus, as far as they are looked for."""
        self.record, self.stands = self.probed.at_power_up(), {self.space.start}
        if is_running:
            low = low_of(bus, self.witnesses.wires)
            self.record = self.probed.running(low)
            self.stands = {it for it in self.space.reachable(MOST_STANDS) if self.shows(it, low)} | {bus.stand()}
        if self.record is None:
            raise Broken("no bus that is running is told to have these levels")

    def shows(self, stand, low):
        """Whether exactly these lines and wires are low."""
        return low_of(self.space.bus(stand), self.witnesses.wires) == low

    def hide(self):
        """Makes the moves that no probe sees; False if the witnesses become too many."""
        self.record = self.probed.with_hidden(self.record)
        self.stands = self.witnesses.with_hidden(self.stands, MOST_WITNESSES)
        return self.stands is not None

    def look(self):
        """Looks at each change that the lines allow now."""
        stands, offers = list(self.stands), self.witnesses.offers(self.stands)
        self.draw.shuffle(stands)
        self.buses = [self.space.bus(it) for it in stands[:MOST_READ]]
        self.look_at_standing()
        for change in self.changes():
            able, _ = behind(self.probed, self.record, change)
            true = {driver for kind, driver in offers if agrees(change, kind)}
            self.counts["edges"] += 1
            if not true <= able:
                raise Broken(f"{change.text} is made by {sorted(true)}, and told of {sorted(able)}")
            self.counts["wider"] += bool(true) and true != able
            self.counts["not told"] += bool(able) and not true
            self.look_at_conditions(change, able)

    def changes(self):
        """Those that may come next, with each slot that is shown, and with each byte."""
        for change in next_changes(self.record, {}):
            yield change
            if change.cycle == ACCESS:
                yield from (change._replace(cycle=it, text=f"AS- {it}") for it in self.space.cycles if not it.is_acknowledge)
            if change.of == "DTACK" and change.falls:
                yield from (change._replace(byte=it, text=f"DTACK- {it}") for it in (7, 8, 9))
        for wire in self.probed.wires:
            yield Change(wire, wire not in self.record.low, None, None, 0, str(wire))

    def look_at_standing(self):
        """Looks at the last lines of an answer that would end here."""
        told = grants(self.probed, self.record)
        for bus in self.buses:
            holder, at, addressers = bus.holder(), bus.board_at_grant(), bus.low["as"]
            grant = f"bg{bus.plan.requesters[at].level} at {at}" if at else "none"
            if holder is not None and holder not in self.probed.holders(self.record):
                raise Broken(f"holder {holder}")
            if holder is None and any(it.kind == "held" for it in self.record.phases):
                raise Broken("holder none")
            if grant not in told or not addressers <= self.record.addressers or not bus.low["dtack"] <= self.record.answerers:
                raise Broken(f"grant {grant}, addressers {addressers}")
            self.look_at_pullers(bus)

    def look_at_pullers(self, bus):
        for line in REQUESTS + INTERRUPTS:
            asked = bus.irq(int(line[3:])) if line in INTERRUPTS else {
                it for it in bus.low["br"] if bus.plan.requesters[it].level == int(line[2:])
            }
            if asked and (line not in self.record.low or not asked <= set(pullers(self.probed, self.record, line))):
                raise Broken(f"{line} is pulled by {sorted(asked)}")

    def look_at_conditions(self, change, able):
        """Looks at the conditions of each driver, of whom the table of changes has to say the same."""
        for own in self.probed.drivers_of(change.of):
            found = list(conditions(self.probed, self.record, change, own))
            is_told = bool(found) and found[-1].record is None
            if is_told == (own in able):
                raise Broken(f"{change.text} by {own}: the conditions and the table of changes differ")
            self.counts["conditions"] += is_told
            if is_told and any(all(holds(bus, own, change, it) for it in found) for bus in self.buses):
                raise Broken(f"{change.text} by {own}: {found[-1].text} is told, and holds")

    def take(self, change):
        """Goes on by a change; False if it is impossible, or has no witness."""
        _, self.stands = self.witnesses.behind(self.stands, change)
        able, record = behind(self.probed, self.record, change)
        self.record = record
        self.counts["impossible"] += not self.stands
        self.counts["impossible and told"] += not able
        return bool(able) and bool(self.stands)

    def take_sample(self, changes):
        """Goes on by a sample; False if it is impossible, or has no witness."""
        sample, exact = Sample(self.probed, self.record, changes), SampleWitnesses(self.witnesses, self.stands, changes, MOST_WITNESSES)
        if not exact.stands.keys() <= sample.records.keys():
            raise Broken(f"of {[it.text for it in changes]} too few can have come first")
        self.record, self.stands, told = sample.record(), exact.at_end(), sample.drivers()
        for place, true in exact.drivers().items():
            if not true <= told[place]:
                raise Broken(f"{changes[place].text} of a sample is made by {sorted(true)}, and told of {sorted(told[place])}")
            self.counts["wider in a sample"] += true != told[place]
        self.counts["samples"] += 1
        self.counts["samples impossible"] += not self.stands
        self.counts["samples impossible and told"] += not sample.is_possible()
        if not sample.is_possible():
            self.buses = [self.space.bus(it) for it in list(exact.stands.get(sample.placed(), ()))[:MOST_READ]]
            for place in next_places(changes, sample.placed()):
                self.look_at_conditions(changes[place], set())
        return sample.is_possible() and bool(self.stands)


def changes_drawn(draw, bus, wires):
    """Changes that may be seen from here on, some of them wrong."""
    most = draw.randint(5, 60)
    shown = shown_by_run(draw, bus, wires, most, draw.choice([None, draw.randrange(most)]))
    kinds = list(told_less(draw, (it for it, _ in shown)))
    kinds = spoiled(draw, kinds, list(wires)) if some(draw, 0.3) else kinds
    return [Change(*it, 0, str(it)) for it in kinds]


def samples_drawn(draw, changes):
    """The changes one by one, or by samples of a few, each shuffled."""
    most, sizes = draw.choice([1, 1, 2, 3, 4]), []
    while sum(sizes) < len(changes):
        sizes.append(min(draw.randint(1, most), len(changes) - sum(sizes)))
    order = places_drawn(draw, sizes, changes)
    for size in sizes:
        yield [changes[it] for it in order[:size]]
        order = order[size:]


def look_at(draw, space, counts):
    """Looks at one capture, up to its end or to the first change that is impossible."""
    wires = {wire_of(space.plan, it) for it in pins_drawn(draw, space.plan)}
    bus, is_running = Bus(space.plan, space.version), some(draw, 0.4)
    if is_running:
        run_to_the_middle(draw, bus)
    if bus.low["as"] | bus.low["ds"]:
        return
    beside = Beside(draw, space, wires, counts)
    beside.begin(bus, is_running)
    counts["captures"] += 1
    for changes in samples_drawn(draw, changes_drawn(draw, bus, wires)):
        if not beside.hide():
            raise TooMany
        beside.look()
        if len(list(that_change(changes, beside.record.low))) < len(changes):
            return
        if not (beside.take(*changes) if len(changes) == 1 else beside.take_sample(changes)):
            return
        counts["changes"] += len(changes)


def compare(count, seed):
    """Looks at the captures of so many backplanes, and returns the status."""
    passed, failed, counts = 0, 0, Counter()
    seed = random.randrange(2**32) if seed is None else seed
    print(f"seeds {seed} to {seed + count - 1}", flush=True)
    for number in range(seed, seed + count):
        draw = random.Random(number)
        scenario = tiny_scenario(draw)
        space = Space(plan_of(scenario), draw.choice([1, 2]))
        for _ in range(CAPTURES):
            try:
                look_at(draw, space, counts)
                passed += 1
            except TooMany:
                counts["captures with too many witnesses"] += 1
                passed += 1
            except Broken as broken:
                failed += 1
                print(f"FAILED seed {number}: {broken}", flush=True)
    print(", ".join(f"{counts[it]} {it}" for it in sorted(counts)))
    print(f"{passed} passed, {failed} failed")
    return 1 if failed or not passed else 0
