"""`--drawn`: a built program beside the model, on scenarios, traces and words that are drawn.

Every number has its own draw, so that `--drawn 1 --seed S` makes the S-th anew.
"""

import os
import random
import re
import subprocess
import tempfile
from pathlib import Path

from .bus import Bus
from .cases import Kept, first_difference
from .codes import codes
from .draw import goals
from .drawing import plan_of, scenario_of, shuffled, some, spoiled_scenario, trace_of
from .faults import Fault
from .program import main, rest_of
from .races import ways_of
from .sources import TABLE
from .traces import HEADERS, Trace, text_of
from .words import COMMANDS, FLAGS, GREATEST, NEEDED, RANGES, job_of

SECONDS = 60

# Lines about how far a search came, behind the first, which come only if it takes more than a second.
LATER = re.compile(rb"(?<=\n)trying .*\n")
FILES = ["scenario.toml", "trace.vme", "second.vme", "accepted.vme", "shuffled.vme"]

# Values of options: two that are right, and others; those of the options that are not named here are NUMBERS.
NUMBERS = ("0", "1", "2", "+3", "007", "-1", "1.5", "", " 1", "x", "1_0", "+", "0x1", str(GREATEST), str(GREATEST + 1), "1" * 30)
VALUES = {
    "--edges": ("1", "20", "+5", "0", "1048577", "-1", ""),
    "--turns": ("1", "30", "0", "1000001"),
    "--version": ("1", "2", "0", "3", "+1", "02"),
    "--slack": ("2", "c=2", "+03", "1=1,c=0", "c=1,c=1", "c", "=1", "c=", "x=1", "22=1", "21=1", "1,c=1", "c=1,", "-1", ""),
    "--seeds": ("0..1", "+3..03", "1..0", "0..", "..1", "1", "0...1", "-1..1", f"{GREATEST}..{GREATEST}"),
    "--until": ("delivery", "S1", "G13", "G9 own bbsy is high (profile)", "G13 own grant-in is low (profile)",
                "withdrawn", "S4", "G10 own bbsy is low", "G14 some BR line is low", "G10", "G21", "Delivery",
                "G5 AS* is low", ""),
    "--of": ("c", "2", "+03", "1", "0", "22", "C", ""),
}


def words_of(draw, edges, racing):
    """The words of some runs over the files of a draw, some of whose edges race."""
    begin, files = draw.randint(1, edges + 1), FILES[:2]
    yield from (["replay", *files], ["check", *files], [], ["explain", *files])
    yield from (["explain", *files, "--edge", str(draw.randint(1, edges + 1))] for _ in range(3))
    yield ["shrink", *files, *draw.choice([[], ["--progress"], ["--edge", str(draw.randint(1, edges + 1))]])]
    yield ["state", *files, *draw.choice([[], ["--after", str(draw.randint(0, edges + 1))]])]
    end = begin + draw.randint(-1, 200)
    window = draw.choice([[], ["--from", str(begin)], ["--to", str(begin)], ["--from", str(begin), "--to", str(end)]])
    yield ["show", *files, *window, *draw.choice([[], ["--color"]])]
    yield ["replay", *files, "--full"]
    yield ["check", *FILES[:3], *draw.choice([[], ["trace.vme"], ["none.vme", "second.vme"]])]
    yield ["cycles", *files]
    yield ["probe", *files]
    yield ["summary", *files]
    yield ["summary", *FILES[:3], *draw.choice([[], ["trace.vme"], ["none.vme"]])]
    yield from words_of_orders(draw, edges, racing)
    yield ["rule", *draw.choice([[], [draw.choice([*TABLE, *codes()])]])]
    yield from words_that_drive(draw)
    yield from (any_words(draw), any_words(draw))


def words_of_orders(draw, edges, racing):
    """The words of runs about other orders."""
    files, others = FILES[:2], [draw.randint(1, edges + 1), *racing[:1], *racing[-1:]]
    yield ["races", *files]
    yield from (["races", *files, "--edge", str(draw.randint(1, edges + 1))] for _ in range(2))
    yield from (["races", *files, "--other", str(it)] for it in others)
    scenario, _, second, accepted, shuffled_ = FILES
    yield ["same", scenario, accepted, shuffled_]
    yield ["same", scenario, *draw.choice([(shuffled_, accepted), (accepted, second)])]
    yield ["same", *FILES[:3]]


def words_that_drive(draw):
    """The words of runs that make edges."""
    version, seed = draw.choice("12"), draw.choice([draw.randrange(1000), draw.randrange(GREATEST - 5)])
    making = ["scenario.toml", "--edges", draw.choice(["1", "10", "50", "100"]), "--version", version]
    yield ["drive", *making]
    yield ["run", *making, "--turns", "30"]
    yield ["drive", *making, "--seed", str(seed)]
    goal, seeds = draw.choice(goals(draw.choice([int(version), 2]))), f"{seed}..{seed + 5}"
    yield ["drive", *making, "--until", goal, *draw.choice([["--seed", str(seed)], ["--seeds", seeds]])]
    of, after = ["--of", draw.choice(["c", "1", "2", "3", "21"])], ["--after", str(draw.choice([0, 1, 5, 10, 50]))]
    yield ["drive", *making, "--until", goal, *draw.choice([of, after, of + after]), "--seeds", seeds]


def any_words(draw):
    """Words that are right or wrong, with options that may not go together."""
    command = draw.choice(list(COMMANDS) * 3 + ["", "step", "DRIVE", "--", "--edges"])
    least, _, takes = COMMANDS.get(command, (2, 2, ()))
    words = FILES[: draw.choice([least] * 8 + [0, 1, 2, 3])]
    needed = list(NEEDED.get(command, ())) if some(draw, 0.9) else []
    others = [it for it in takes if it not in needed and some(draw, 0.4)]
    strange = draw.sample(sorted({*VALUES, *RANGES, *FLAGS}), int(some(draw, 0.1)))
    for name in needed + others + strange:
        place = draw.randint(0, len(words))
        words[place:place] = option(draw, name)
    if some(draw, 0.1):
        words.insert(draw.randint(0, len(words)), draw.choice(["--", "-", "--edge", "-x", "--color=", "--help", "-h"]))
    return [command, *words]


def option(draw, name):
    """An option with a value, which is mostly right, in one word or in two."""
    if name in FLAGS:
        return [name]
    values = VALUES.get(name, NUMBERS)
    value = draw.choice(values[:2]) if some(draw, 0.8) else draw.choice(values)
    return [f"{name}={value}"] if some(draw, 0.3) else [name, value]


def judged(plan, text):
    """The bus after the edges of a trace, up to its fault, and the numbers of those that race; no bus if there is no header."""
    try:
        trace, racing = Trace(rest_of(text.encode(), False)), []
    except Fault:
        return None, []
    bus = Bus(plan, trace.version)
    try:
        for number, _, way in ways_of(bus, trace):
            racing += [number] if way and way.stop == "races" else []
    except Fault:
        pass
    return bus, racing


def two_orders(draw, bus):
    """The accepted edges as a trace, and as one in another order, to which free swaps lead."""
    if bus is None:
        return ["vme 1\n"] * 2
    edges = [it.edge for it in bus.past]
    orders = edges, shuffled(draw, bus.plan, bus.version, edges)
    return [text_of(bus.version, it) for it in orders]


class Draw:
    """One draw: a scenario, its traces, and the runs over them."""

    def __init__(self, seed):
        draw = random.Random(seed)
        scenario = scenario_of(draw)
        plan = plan_of(scenario)
        self.traces = [trace_of(draw, plan), trace_of(draw, plan)] if plan else ["vme 1\n1 br-\n"] * 2
        bus, racing = judged(plan, self.traces[0]) if plan else (None, [])
        self.traces += two_orders(draw, bus)
        is_spoiled = some(draw, 0.2)
        self.scenario = spoiled_scenario(draw, scenario) if is_spoiled else scenario
        self.words = list(words_of(draw, max(1, self.traces[0].count("\n") - 1), racing))
        if not plan or is_spoiled:
            self.words = self.words[:3] + self.words[-6:]

    def lay_out(self, folder):
        """Writes the files, and standard input for a run without words."""
        for name, text in zip(FILES, (self.scenario, *self.traces)):
            Path(folder, name).write_bytes(text.encode())
        Path(folder, "stdin").write_bytes(self.given())

    def given(self):
        return (self.scenario + "\n" + self.traces[0]).encode()

    def faults(self, program, folder):
        """The words of each run, and what differs in it, None where nothing does."""
        for words in self.words:
            given = b"" if words else self.given()
            console = Kept(folder, given)
            status = main([it.encode() for it in words], console)
            try:
                ran = subprocess.run([program, *words], input=given, capture_output=True, cwd=folder, timeout=SECONDS)
                yield words, difference(words, ran, status, console)
            except subprocess.TimeoutExpired:
                yield words, f"it had not ended after {SECONDS} seconds"


def difference(words, ran, status, console):
    """What differs between a run of the program and the model."""
    if words[:1] == ["run"] and 1 not in (status, ran.returncode):
        return fault_in_run(words, ran, console)
    if ran.returncode != status:
        return f"the program ends with {ran.returncode}, {ran.stderr[:90]!r}, the model with {status}, {console.told[:90]!r}"
    if ran.stdout != console.output:
        return first_difference("standard output", console.output, ran.stdout)
    told = LATER.sub(b"", ran.stderr)
    if told != console.told and b"wrong words" not in console.told:
        return first_difference("standard error", console.told, told)
    return None


def fault_in_run(words, ran, console):
    """What is wrong with a trace of `run`, whose threads may come in any order: it has to be legal, and its status right."""
    judged, options = Kept(console.folder), job_of([it.encode() for it in words]).options
    Path(console.folder, "run.vme").write_bytes(ran.stdout)
    main([b"check", b"scenario.toml", b"run.vme"], judged)
    edges, most = ran.stdout.count(b"\n") - 1, options["--edges"]
    is_right = edges <= most and ran.returncode == (3 if edges == most else 0)
    if is_right and judged.output == b"legal %d\n" % edges and HEADERS.get(ran.stdout[:5]) == options["--version"]:
        return None
    return f"the program ends with {ran.returncode} and {edges} edges; of them check says {judged.output!r}"


def compare(program, count, seed):
    """Compares a program with the model on so many draws, and returns the status."""
    passed, failed, seed = 0, 0, random.randrange(2**32) if seed is None else seed
    print(f"seeds {seed} to {seed + count - 1}", flush=True)
    for number in range(seed, seed + count):
        with tempfile.TemporaryDirectory(prefix="drawn-") as folder:
            drawn = Draw(number)
            drawn.lay_out(folder)
            for words, fault in drawn.faults(program, folder):
                passed, failed = passed + (fault is None), failed + (fault is not None)
                if fault:
                    print(f"FAILED {' '.join(words) or 'no words'}: {fault}")
                    print(f"       again: --drawn 1 --seed {number} PROGRAM; its files: --files {number} FOLDER", flush=True)
    print(f"{passed} passed, {failed} failed")
    return 1 if failed or not passed else 0


def write_files(seed, folder):
    """Writes the files of a draw, and prints the words of its runs."""
    drawn = Draw(int(seed))
    os.makedirs(folder, exist_ok=True)
    drawn.lay_out(folder)
    for words in drawn.words:
        print(" ".join(words) or "(no words, with stdin as standard input)")
    return 0
