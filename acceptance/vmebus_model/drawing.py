"""Scenarios and traces that `--drawn` draws, with and without faults."""

from . import backplane
from .bus import Bus
from .draw import kind_of
from .faults import Fault
from .swaps import is_free
from .traces import EDGES, text_of
from .verdicts import open_edges, step

EVERY_EDGE = [edge for edges in EDGES.values() for edge in edges]

# What is put into a scenario that is spoiled.
PIECES = (
    "\n[board]\n", "\n[[board]]\n", "\n[[jumper]]\n", "a.b = 1\n", "board.slot = 1\n", "slots = 2\n", '"slots"', "level.x",
    "[", "]", "{", "}", ",", ".", "=", '"', "'", '"""', "'''", "#", "\\", "\\u0041", "\\e", "\\x41", "\\ ", "\\\n",
    "\t", "\r", "\r\n", "\n", "0", "-1", "+7", "256", "1_0", "1__0", "0x1", "0b1", "1.5", "1e3", "1e999", "inf", "nan", "true",
    "1979-05-27", "2001-02-29", "07:32", "07:32:00.5", "1979-05-27T07:32:00Z", "1979-05-27 07:32+24:00",
    "\x00", "\x7f", "\x80", "é", "\ufeff",
)


def some(draw, chance):
    return draw.random() < chance


def board_of(draw, slot, handled):
    """The keys of a board, as text by name; `handled` are the levels of the handlers so far."""
    keys = {"slot": str(slot)}
    if some(draw, 0.75):
        level = 3 if some(draw, 0.4) else draw.randint(0, 3)
        burst = draw.choice([1, 1, 2, 3, draw.randint(1, 255)])
        release = draw.choice(['"ror"', f'"rwd", burst = {burst}'])
        keys["requester"] = f"{{ level = {level}, release = {release} }}"
        levels = [it for it in range(1, 8) if it not in handled and some(draw, 0.4)]
        handled.update(levels)
        if levels or some(draw, 0.1):
            keys["handler"] = str(levels)
    if some(draw, 0.5):
        kind, level, status = draw.choice(["roak", "rora"]), draw.randint(1, 7), draw.randint(0, 255)
        keys["interrupter"] = f'{{ level = {level}, kind = "{kind}", status = {status} }}'
    return keys


def table_of(draw, name, keys):
    """A table of an array, its keys in any order."""
    lines = [f"{key} = {value}" for key, value in draw.sample(sorted(keys.items()), len(keys))]
    return "\n".join([f"[[{name}]]", *lines, ""])


def scenario_of(draw):
    """The text of a backplane of 1 to 21 slots, mostly one without fault."""
    slots = draw.choice([1, 2, 3, 4, 5, draw.randint(1, 21)])
    handled, tables, arbiter = set(), [], draw.choice(["sgl", "pri", "rrs"])
    for slot in range(1, slots + 1):
        if slot == 1 or some(draw, 0.7):
            keys = board_of(draw, slot, handled)
            if arbiter == "sgl" and some(draw, 0.98) and "requester" in keys:
                keys["requester"] = "{ level = 3" + keys["requester"][keys["requester"].index(",") :]
            tables.append(table_of(draw, "board", keys))
        elif some(draw, 0.98):
            chains = ", ".join(f'"{it}"' for it in backplane.CHAINS if some(draw, 0.995))
            tables.append(table_of(draw, "jumper", {"slot": slot, "chains": f"[{chains}]"}))
    draw.shuffle(tables)
    return f'slots = {slots}\narbiter = "{arbiter}"\n\n' + "\n".join(tables)


def spoiled_scenario(draw, text):
    """A scenario with some characters taken out, doubled, moved or put in."""
    for _ in range(draw.choice([1, 1, 2, 3])):
        at, other, length = draw.randrange(len(text)), draw.randrange(len(text)), draw.choice([1, 1, 2, draw.randint(1, 30)])
        put = draw.choice(["", text[at : at + length] * 2, draw.choice(PIECES), text[other : other + length]])
        text = text[:at] + put + text[at + draw.choice([0, length]) :]
    return text


def plan_of(scenario):
    """The backplane of a scenario, None where it is refused."""
    try:
        return backplane.read(scenario.encode())
    except Fault:
        return None


def trace_of(draw, plan):
    """The text of a trace of edges that are mostly legal, so that it comes far, among others of all kinds."""
    version, edges, legal = draw.choice([1, 1, 2]), [], draw.choice([0.5, 0.8, 0.95, 1.0])
    bus = Bus(plan, version)
    for number in range(1, 1 + draw.choice([0, 5, 20, 40, 60, 80, draw.randint(1, 250)])):
        way = draw.random()
        edge = legal_edge(draw, bus) if way < legal else near_edge(draw, bus) if way < legal + 0.9 * (1 - legal) else None
        edges.append(edge or draw.choice(EVERY_EDGE))
        step(bus, edges[-1], number)
    text = text_of(version, edges)
    return spoiled_trace(draw, text) if some(draw, 0.1) else text


def legal_edge(draw, bus):
    """An edge that would be accepted, of any kind of which there is one; None where nobody can make one."""
    kinds = {}
    for driver in bus.plan.drivers:
        for edge in open_edges(bus, driver):
            kinds.setdefault(kind_of(bus.plan, edge), []).append(edge)
    return draw.choice(kinds[draw.choice(list(kinds))]) if kinds else None


def near_edge(draw, bus):
    """An edge of any wire of the backplane, mostly to its other state."""
    driver = draw.choice(bus.plan.drivers)
    wire = draw.choice(bus.plan.wires[driver])
    return draw.choice(EDGES[driver, wire, (driver in bus.low[wire]) == some(draw, 0.1)])


def free_swaps(draw, plan, version, edges, chance):
    """Some of the free swaps of legal edges, one after another from the beginning on: the place of each, and all edges after
    it."""
    bus = Bus(plan, version)
    for place in range(len(edges) - 1):
        first, second = edges[place : place + 2]
        if some(draw, chance) and is_free(bus, first, second):
            edges = [*edges[:place], second, first, *edges[place + 2 :]]
            yield place, edges
        bus.accept(edges[place], place + 1)


def shuffled(draw, plan, version, edges):
    """Legal edges in another order, to which free swaps lead."""
    for _ in range(draw.choice([1, 2, 5, 20])):
        for _, edges in free_swaps(draw, plan, version, edges, draw.choice([0.2, 0.5, 0.9])):
            pass
    return edges


def spoiled_trace(draw, text):
    """A trace that is cut off, has another header, or a character more or less."""
    way, at = draw.randrange(4), draw.randrange(len(text) + 1)
    if way == 0:
        return text[:at]
    if way == 1:
        return draw.choice(["", "vme 3\n", "vme 1", "vme 1\r\n", "\n"]) + text[6:]
    if way == 2:
        return text[:at] + draw.choice(["x", " ", "\n", "\r", "-", "+", "0", "a" * 60, "é"]) + text[at:]
    return text[:at] + text[at + 1 :]
