"""`shrink`: a few of the edges before an edge, with which it has the same answer."""

from .bus import Bus
from .events import events_of
from .explain import asked_edge, fails
from .traces import text_of
from .verdicts import is_ok, refusal, step, verdict_of


def shrink(plan, trace, options, console):
    """Writes a story of edge N, or of the first that is refused; what comes after it is not judged."""
    seen = []
    number, edge = asked_edge(Bus(plan, trace.version), noted(trace, seen), options.get("--edge"))
    if edge is None:
        console.write(f"legal {number}\n")
        return 0
    answer, kept = Answer(plan, trace.version, edge), legal_part(Bus(plan, trace.version), seen[:-1])
    verdict = answer.after(kept)[0]
    if "--progress" in options and kept and verdict != "E5":
        console.tell(f"trying stretches of {first_size(kept)}, at edge {len(kept)} of {len(kept)}")
    story = kept if verdict == "E5" else story_of(kept, answer.keeping(kept))
    console.write(text_of(trace.version, [*story, edge]))
    return 0 if is_ok(verdict) else 2


def noted(edges, seen):
    """Some edges, each of which is noted as it is taken."""
    for edge in edges:
        seen.append(edge)
        yield edge


def legal_part(bus, edges):
    """Those of some edges that are accepted, one after the other; the bus is at power-up."""
    return [edge for number, edge in enumerate(edges, 1) if is_ok(step(bus, edge, number))]


class Answer:
    """The answer to an edge after others."""

    def __init__(self, plan, version, edge):
        self.plan, self.version, self.edge = plan, version, edge

    def after(self, edges):
        """Of a refused edge the verdict, the conditions that fail and what the arbiter picks if one of them speaks of that;
        otherwise the verdict and the events."""
        bus = Bus(self.plan, self.version)
        legal_part(bus, edges)
        verdict = verdict_of(bus, self.edge)
        if not refusal(bus, self.edge):
            return verdict, events_of(bus, self.edge)
        failing = fails(bus, self.edge)
        return verdict, failing, bus.pick() if any("the arbiter picks" in it for it in failing) else None

    def keeping(self, edges):
        """A function of other edges: their legal part if the answer after it is the one after these, otherwise None."""
        wanted = self.after(edges)

        def kept_of(others):
            kept = legal_part(Bus(self.plan, self.version), others)
            return kept if self.after(kept) == wanted else None

        return kept_of


def story_of(edges, keeping):
    """Runs, until one leaves nothing out."""
    shorter = run(edges, keeping)
    while len(shorter) < len(edges):
        edges, shorter = shorter, run(shorter, keeping)
    return shorter


def first_size(edges):
    """The least power of two that is not below their number."""
    return 1 << max(len(edges) - 1, 0).bit_length()


def run(edges, keeping):
    """A pass of each size, from a power of two down to 1; one of size 1 that left something out is followed by another."""
    size = first_size(edges)
    while size:
        before, edges = len(edges), passed(edges, size, keeping)
        if size > 1 or len(edges) == before:
            size //= 2
    return edges


def passed(edges, size, keeping):
    """The edges after a pass from their end on: each stretch of this size is left out if the answer stays."""
    end = len(edges)
    while end:
        begin = max(end - size, 0)
        shorter = keeping(edges[:begin] + edges[end:])
        edges, end = edges if shorter is None else shorter, begin
    return edges
