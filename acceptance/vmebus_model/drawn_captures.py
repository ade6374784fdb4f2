"""`--captures`: captures that are drawn.

A legal run is drawn, and what a probe sees of it from some place on, with all pins, those of a slot, some, or none.  More than
half of the captures are then spoiled: by an edge that is refused and forced, by changes that are moved, left out or added, by
other rules, or by a broken line.  On all of them a built program is compared with the model.  A capture that is not spoiled has
to be possible, and each change has to name the board that made it.
"""

import os
import random
import subprocess
import tempfile
from collections import Counter
from pathlib import Path

from .bus import Bus
from .captures import ACCESS, CYCLES, LINES, PINS, Kind, text_of, wire_of
from .cases import Kept
from .drawing import legal_edge, near_edge, some, spoiled_trace
from .drawn import SECONDS, difference
from .drawn_moments import TOO_MANY, plan_drawn, with_more_moments
from .drawn_samples import Samples
from .moments import GREATEST
from .program import main
from .traces import name_of
from .witnesses import low_of, seen

FILES = ["scenario.toml", "capture.cap"]
WORDS = ["probe", *FILES]
BAD_LINES = [
    "@0", "@01", "@", "@-1", "@ 1", f"@{GREATEST}", f"@{GREATEST + 1}", "running", "vme 1", "", "pin 1 BG3IN", "pin 1 IACKOUT",
    "pin 2 BG3IN", "pin 21 BG0OUT", "pin 0 BG3IN", "pin 22 BG3IN", "pin 1 BG4IN", "pin 1 BGIN", "pin 1 iackin",
    "pin 01 IACKIN", "pin 1 BG3IN ", "low BR3", "low BR4", "low IRQ0", "low IRQ7", "low AS", "low DS", "low BBSY", "low BERR",
    "low DTACK", "low BCLR", "low 1 BG3IN", "low 2 IACKIN", "low 22 IACKIN", "BR3", "BR3-", "BR3+", "BR4-", "br3-", "IRQ0-",
    "IRQ8-", "BBSY-", "BBSY+", "AS-", "AS+", "AS- r0", "AS- r", "AS- r ", "AS- r21", "AS- r22", "AS- r01", "AS- i0", "AS- i7",
    "AS- i8", "AS+ r1", "DS-", "DS+", "DS0-", "DTACK-", "DTACK- 0", "DTACK- 255", "DTACK- 256", "DTACK- 00", "DTACK+ 1",
    "BERR-", "BERR- 1", "BCLR-", "1 BG3IN", "1 BG3IN-", "2 BG3IN+", "1 IACKIN-", "22 IACKIN-", "2 br-", "c bg3-", "BR3-\r",
    64 * "x", 65 * "x",
]


# A run, and what is seen of it


def pins_of_slot(plan, slot):
    return [pin for pin in PINS if pin.slot == slot and wire_of(plan, pin)]


def pins_drawn(draw, plan):
    """Pins of which no two are on one wire, in any order: none, those of a slot, those of all wires, or some of all."""
    way = draw.randrange(5)
    if way == 0:
        pins = []
    elif way == 1:
        pins = pins_of_slot(plan, draw.choice(list(plan.boards)))
    else:
        chance = 1.0 if way < 4 else draw.random()
        pins = [it for slot in plan.boards for it in pins_of_slot(plan, slot) if some(draw, chance)]
    draw.shuffle(pins)
    return list({wire_of(plan, it): it for it in pins}.values())


def force(bus, edge, number):
    """Adds an edge to the history, whether it is legal or not."""
    if edge.wire == "dtack" and edge.falls and bus.shown() is None:
        bus.low["dtack"] |= {edge.driver}
    else:
        bus.accept(edge, number)


def run_to_the_middle(draw, bus):
    """Some legal edges, behind which AS* and DS* are high, if that comes within some more."""
    least = draw.choice([0, 5, 20, 60, draw.randrange(150)])
    for number in range(1, least + 200):
        if number > least and not bus.low["as"] | bus.low["ds"]:
            return
        edge = legal_edge(draw, bus)
        if edge is None:
            return
        bus.accept(edge, number)


def shown_by_run(draw, bus, wires, most, wrong):
    """What edges show that follow, and who made each; `wrong` is the place of an edge that is forced, if it is any."""
    shown = []
    for place in range(most):
        edge = near_edge(draw, bus) if place == wrong else legal_edge(draw, bus)
        if edge is None:
            break
        kind = seen(bus, wires, edge)
        shown += [(kind, edge.driver)] if kind else []
        force(bus, edge, bus.accepted + 1000)
    return shown


def told_less(draw, kinds):
    """The same, some accesses without their slots and some answers without their bytes."""
    no_slots, no_bytes = draw.choice([0.0, 0.0, 0.5, 1.0]), draw.choice([0.0, 0.0, 0.5, 1.0])
    for kind in kinds:
        is_access = kind.cycle is not None and not kind.cycle.is_acknowledge
        cycle = ACCESS if is_access and some(draw, no_slots) else kind.cycle
        yield kind._replace(cycle=cycle, byte=None if some(draw, no_bytes) else kind.byte)


# Spoiled captures


def spoiled(draw, kinds, pins, low=()):
    """What was seen, with two changes in each other's places, one left out, one more, or one of another slot, level or byte; or up
    to some place, and behind it a change that the levels allow.  `low` is what was low at the beginning."""
    kinds, way = list(kinds), draw.randrange(8)
    if way > 4 or not kinds:
        return with_odd_end(draw, kinds[: draw.randint(0, len(kinds))], pins, low)
    at = draw.randrange(len(kinds))
    other = draw.choice([at - 1, draw.randrange(len(kinds))])
    if way == 0:
        kinds[at], kinds[other] = kinds[other], kinds[at]
    elif way == 1:
        del kinds[at]
    elif way == 2:
        kinds.insert(at, draw.choice([kinds[other], Kind(draw.choice([*LINES, *pins]), some(draw, 0.5))]))
    elif way == 3:
        kinds.insert(other, kinds.pop(at))
    else:
        kinds = [another(draw, it) for it in kinds]
    kinds = [it if it.of != "AS" or not it.falls or it.cycle else it._replace(cycle=ACCESS) for it in kinds]
    return list(that_change(kinds, low)) if some(draw, 0.7) else kinds


def with_odd_end(draw, kinds, pins, low):
    """These changes, and one of any line or pin to its other level."""
    of, now = draw.choice([*LINES, *pins]), set(low)
    for kind in kinds:
        now ^= {kind.of}
    falls = of not in now
    cycle = draw.choice([ACCESS, *CYCLES]) if of == "AS" and falls else None
    byte = draw.choice([None, None, 0, draw.randrange(256)]) if of == "DTACK" and falls else None
    return [*kinds, Kind(of, falls, cycle, byte)]


def that_change(kinds, low):
    """Those of the changes that are no fall of what is low, and no rise of what is high."""
    now = set(low)
    for kind in kinds:
        if (kind.of in now) != kind.falls:
            now ^= {kind.of}
            yield kind


def another(draw, kind):
    """Now and then another address or byte."""
    if kind.cycle and some(draw, 0.2):
        return kind._replace(cycle=draw.choice([kind.cycle._replace(number=draw.randint(1, 7)), ACCESS]))
    if kind.of == "DTACK" and kind.falls and some(draw, 0.2):
        return kind._replace(byte=draw.choice([0, 255, kind.byte]))
    return kind


def faulty(draw, text, pins):
    """A text of a capture with a broken line, mostly, or with one that stands where it may not."""
    if some(draw, 0.3):
        return spoiled_trace(draw, text)
    lines = text.splitlines()
    below = [f"@{int(it[1:]) - 1}" for it in lines if it.startswith("@")]
    others = [f"{draw.choice(PINS)}{draw.choice('+-')}", f"low {draw.choice(PINS)}", f"pin {draw.choice(PINS)}"]
    own = [*others, *(f"pin {it}" for it in pins), *(f"low {it}" for it in pins)]
    begin = next((place for place, it in enumerate(lines) if it.startswith("@")), len(lines))
    at = draw.choice([draw.randint(0, len(lines)), draw.randint(min(1, len(lines)), max(1, begin))])
    lines.insert(at, draw.choice(below[-2:] + own + draw.choices(lines) + draw.choices(BAD_LINES, k=8)))
    return "".join(f"{line}\n" for line in lines)


class DrawnCapture:
    """One draw: a scenario and a capture, and who made each change if it is not spoiled."""

    def __init__(self, seed):
        draw = random.Random(seed)
        self.scenario, self.plan = plan_drawn(draw)
        version = draw.choice([1, 1, 2])
        self.pins = pins_drawn(draw, self.plan)
        way = draw.choice(["legal"] * 4 + ["forced"] * 2 + ["spoiled", "spoiled", "other rules", "faulty"])
        wires = {wire_of(self.plan, it): it for it in self.pins}
        bus, most = Bus(self.plan, version), draw.choice([0, 10, 40, 100, draw.randint(0, 300)])
        self.is_running = some(draw, 0.5)
        if self.is_running:
            run_to_the_middle(draw, bus)
            most += 1000 * bool(bus.low["as"] | bus.low["ds"])
        low = low_of(bus, wires)
        shown = shown_by_run(draw, bus, wires, most % 1000, draw.randrange(most + 1) if way == "forced" else None)
        if most > 1000:  # AS* or DS* stayed low: no capture begins so
            low, shown, way = low - {"AS", "DS"}, [], "spoiled"
        kinds = [it._replace(of=wires.get(it.of, it.of)) for it, _ in shown]
        kinds = list(told_less(draw, kinds))
        if way == "spoiled":
            kinds = spoiled(draw, kinds, self.pins, {wires.get(it, it) for it in low})
        self.samples, self.is_legal = Samples(draw, kinds), way == "legal"
        self.words = WORDS + self.samples.words
        self.drivers = [shown[it][1] for it in self.samples.order] if self.is_legal else []
        spelled = [str(wires.get(it, it)) for it in low]
        timed = zip((kinds[it] for it in self.samples.order), self.samples.moments)
        text = text_of(3 - version if way == "other rules" else version, self.pins, self.low_drawn(draw, spelled), timed)
        text = with_more_moments(draw, text) if some(draw, 0.3) else text
        self.capture = faulty(draw, text, self.pins) if way == "faulty" else text

    def low_drawn(self, draw, spelled):
        """What is low at the beginning, in any order; now and then something more."""
        if not self.is_running:
            return None
        if not self.is_legal and some(draw, 0.2):
            spelled.append(draw.choice([it for it in (*LINES, *map(str, self.pins)) if it not in ("AS", "DS", *spelled)]))
        return draw.sample(spelled, len(spelled))

    def lay_out(self, folder):
        """Writes the files."""
        for name, text in zip(FILES, (self.scenario, self.capture)):
            Path(folder, name).write_bytes(text.encode())

    def answer(self, folder):
        """The model's status and console."""
        console = Kept(folder)
        return main([it.encode() for it in self.words], console), console

    def fault_in(self, status, console):
        """What the model says wrong of a capture that is not spoiled, None where nothing is."""
        lines = console.output.decode().splitlines()
        if not self.is_legal:
            return None
        if (status, console.told) != ((1, TOO_MANY) if self.samples.has_too_many() else (0, b"")):
            return f"a legal list of edges has status {status}: {lines[-1:]}, {console.told}"
        for line, driver in zip(lines, self.drivers):
            if name_of(driver) not in line.partition(" by ")[2].split():
                return f"{name_of(driver)} made a change, and is not named: {line}"
        return None


# A program beside the model


def fault_of_program(program, words, folder, status, console):
    """What differs between a run of the program and the model."""
    try:
        ran = subprocess.run([program, *words], input=b"", capture_output=True, cwd=folder, timeout=SECONDS)
        return difference(words, ran, status, console)
    except subprocess.TimeoutExpired:
        return f"it had not ended after {SECONDS} seconds"


def compare(program, count, seed):
    """Compares a program with the model on so many draws, or looks at the model alone, and returns the status."""
    passed, failed, counts = 0, 0, Counter()
    seed = random.randrange(2**32) if seed is None else seed
    print(f"seeds {seed} to {seed + count - 1}", flush=True)
    for number in range(seed, seed + count):
        with tempfile.TemporaryDirectory(prefix="captures-") as folder:
            drawn = DrawnCapture(number)
            drawn.lay_out(folder)
            status, console = drawn.answer(folder)
            counts.update(counted(drawn, status, console))
            fault = drawn.fault_in(status, console) or (program and fault_of_program(program, drawn.words, folder, status, console))
        passed, failed = passed + (not fault), failed + bool(fault)
        if fault:
            print(f"FAILED seed {number}: {fault}")
            print(f"       again: --captures 1 --seed {number}; its files: --capture-files {number} FOLDER", flush=True)
    print(", ".join(f"{counts[it]} {it}" for it in sorted(counts)))
    print(f"{passed} passed, {failed} failed")
    return 1 if failed or not passed else 0


def counted(drawn, status, console):
    """What a draw is counted as."""
    lines, sizes = console.output.decode().splitlines(), drawn.samples.sizes
    yield from ("samples of 2 to 12 changes" for size in sizes if drawn.is_legal and 1 < size < 13)
    named = [it.partition(" by ")[2] for it in lines if it.startswith("@")]
    yield from ("of status %d" % status, "of legal edges") if drawn.is_legal else ("of status %d" % status,)
    yield from ("changes" for it in named if it != "none")
    yield from ("changes with one driver" for it in named if it.isalnum() and it != "none")
    if lines and lines[-1].startswith("impossible"):
        yield "impossible by our rules alone" if lines[-1].endswith("alone") else "impossible"
    if console.told:
        yield "of fault " + console.told.decode().split()[1]


def write_files(seed, folder):
    """Writes the files of a draw, and prints the words of its run."""
    os.makedirs(folder, exist_ok=True)
    drawn = DrawnCapture(int(seed))
    drawn.lay_out(folder)
    print(" ".join(drawn.words))
    return 0
