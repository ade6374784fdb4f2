"""`probe`: whether a bus that keeps the rules can show a capture, who may have made each change, and who may move next."""

from .backplane import CHAINS
from .captures import ACCESS, INTERRUPTS, LINES, REQUESTS, Capture, Change, name_of_cycle
from .obstacles import obstacles
from .samples import Sample, next_places
from .standings import HIGH, Probed, behind
from .traces import Cycle, name_of


def probe(plan, read, options, console):
    """Writes a line for each change that is possible, and then how the bus stands, or what stands in the way; the lines before
    a fault are written first."""
    capture = Capture(plan, read)
    probed = Probed(plan, capture.version, capture.wires.values())
    record = probed.running(capture.low) if capture.is_running else probed.at_power_up()
    if record is None:
        console.write("impossible running\n")
        return 2
    lines = []
    try:
        return judge(probed, record, capture, options.get("--skew"), lines)
    finally:
        console.write("".join(f"{line}\n" for line in lines))


def judge(probed, record, capture, skew, lines):
    """Adds the lines of the answer, and returns the status; behind a sample that is impossible nothing is read."""
    changes = 0
    for them in capture.samples(skew):
        sample = Sample(probed, record, them)
        drivers, record = sample.drivers(), sample.record()
        lines += (f"@{it.moment} {it.text} {by(drivers[place])}" for place, it in enumerate(them) if place in drivers)
        if not sample.is_possible():
            lines += impossible(probed, sample)
            return 2
        changes += len(them)
    lines += [f"possible {changes}", *standing(probed, probed.with_hidden(record), capture.wires)]
    return 0


def by(drivers):
    """The names of some drivers, the controller's first."""
    return "by " + " ".join(map(name_of, sorted(drivers)))


def impossible(probed, sample):
    """The lines of the changes that nobody may have made behind those of the sample that are placed."""
    found = []
    for place in next_places(sample.changes, sample.placed()):
        change = sample.changes[place]
        lines, is_ours = obstacles(probed, sample.record(), change)
        found.append(is_ours)
        yield f"@{change.moment} {change.text} by none"
        yield from lines
    yield f"impossible @{sample.changes[0].moment}" + (" by our rules alone" if any(found) else "")


def standing(probed, record, wires):
    """The last lines of a capture that is possible; the record has its hidden moves made."""
    yield "holder " + (" ".join(map(str, sorted(probed.holders(record)))) or "none")
    yield "grant " + ", ".join(grants(probed, record))
    yield f"shown {name_of_cycle(record.shown)} {by(record.addressers)}" if record.shown else "shown none"
    for line in REQUESTS + INTERRUPTS:
        if line in record.low:
            yield f"{line} low {by(pullers(probed, record, line))}"
    for change in next_changes(record, wires):
        able, _ = behind(probed, record, change)
        if able:
            yield f"may come {change.text} {by(able)}"


def grants(probed, record):
    """Where a grant may stand, `none` first if there may be none at a board."""
    found = {(it.level, probed.board_at(it)) if probed.board_at(it) else () for it in record.phases}
    return [f"bg{it[0]} at {it[1]}" if it else "none" for it in sorted(found)]


def pullers(probed, record, line):
    """The boards that may pull a request line."""
    if line in REQUESTS:
        return probed.boards_of(line)
    return [probed.interrupters[it] for it in probed.places_of(line) if record.requests[it] != {HIGH}]


def next_changes(record, wires):
    """Each change that the levels allow, in the order in which those that may come are told."""
    falls_of_as = [(Cycle(True, level), f"AS- i{level}") for level in range(1, 8)] + [(ACCESS, "AS- r")]
    for line in LINES:
        falls = line not in record.low
        kinds = falls_of_as if falls and line == "AS" else [(None, line + "+-"[falls])]
        yield from (Change(line, falls, cycle, None, 0, text) for cycle, text in kinds)
    for pin, wire in sorted(wires.items(), key=lambda it: (CHAINS.index(it[1].chain), it[1].segment)):
        falls = wire not in record.low
        yield Change(wire, falls, None, None, 0, f"{pin}{'+-'[falls]}")
