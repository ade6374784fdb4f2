#!/usr/bin/env python3
"""Judges a trace edge by edge, as a testbench does while it makes them, and prints what
`vmebus replay` prints.

    bench.py SCENARIO TRACE

The status is 0, or 2 if an edge was refused, or 1 at a fault.
"""

import sys
from pathlib import Path

from vmebus import Bus, NoEdge, ScenarioRefused


def verdicts(scenario, trace):
    """The verdict on each edge of a trace's bytes, on the bus of a scenario."""
    header, *edges = trace.decode(errors="replace").split("\n")
    if header not in ("vme 1", "vme 2"):
        raise NoEdge("the trace has no header")
    bus = Bus(scenario, int(header[4:]))
    for edge in edges[:-1]:
        yield bus.step(edge)
    if edges[-1:] != [""]:
        raise NoEdge("the trace ends within a line")


def replay(scenario, trace, out):
    """Prints the verdicts and their counts, and returns the status."""
    counts = [0, 0]
    for number, verdict in enumerate(verdicts(scenario, trace), 1):
        counts[verdict.ok] += 1
        print(number, verdict, file=out)
    print(f"accepted {counts[True]} refused {counts[False]}", file=out)
    return 2 if counts[False] else 0


def main(files, out):
    """Replays two files, and returns the status, or ends with the line of a fault."""
    if len(files) != 2:
        sys.exit("usage: bench.py SCENARIO TRACE")
    try:
        return replay(*(Path(it).read_bytes() for it in files), out)
    except (OSError, NoEdge, ScenarioRefused) as fault:
        sys.exit(f"bench: {fault}")


if __name__ == "__main__":
    sys.exit(main(sys.argv[1:], sys.stdout))
