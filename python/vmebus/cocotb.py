"""A monitor for cocotb: it judges what has changed at each clock, and fails the test at the first edge that is refused.

    from vmebus import Bus
    from vmebus.cocotb import Monitor

    wires = {"c bg3": dut.bg3, "1 br": dut.br1, "1 bbsy": dut.bbsy1}        # and the others
    monitor = Monitor(dut.clk, wires, Bus(Path("scenario.toml")), shows=lambda wire: "r2")
    cocotb.start_soon(monitor.run())
"""

from __future__ import annotations

from typing import Callable, Dict, List, Mapping, Optional

from . import Bus
from ._names import driver_number, wire_number

#: The order in which the changes of one clock are tried: first what falls, then what rises, so that causes come before
#: effects.
ORDER = """bgout- bbsy- addr- as- ds- dtack- iackout- br- irq-
    br+ ds+ addr+ as+ bbsy+ bgout+ irq+ iackout+ dtack+""".split()


def _place(edge: str) -> int:
    """The controller comes first, and then the boards."""
    return -1 if edge[0] == "c" else ORDER.index(edge.split()[1])


def _check_wire(bus: Bus, name: str) -> None:
    """Raises ValueError if a name is not that of a wire on the backplane, such as "1 br" or "c bg3"."""
    driver, _, wire = name.partition(" ") if isinstance(name, str) else ("", "", "")
    number = int(driver) if driver.isdecimal() else driver
    try:
        has = name == f"{number} {wire}" and bus.has(number, wire)
    except ValueError:
        has = False
    if not has:
        raise ValueError(f"wires: {name!r} is no wire of this backplane, such as '1 br' or 'c bg3'")


class Monitor:
    """Steps the changes of each clock on a bus.

    `wires` has the handle of each wire, as {"1 br": dut.br1, "c bg3": dut.bg3}: low is 0, and 1, X and Z are high. `shows`
    is called with "1 addr" and the like when that falls, and returns what the address lines show: "r2" for an access to
    slot 2, or "i4" for an acknowledge of level 4. Raises ValueError if a key of `wires` is no wire of a driver of the bus.

    Of the changes of a clock that are left, the first that is accepted is made, again and again, since one may be the
    effect of another. If none is accepted, the first is refused. So a bus on which changes of several boards in one clock
    depend on each other may pass in an order that the boards did not have.
    """

    def __init__(self, clock: object, wires: Mapping[str, object], bus: Bus, shows: Optional[Callable[[str], str]] = None):
        for name in wires:
            _check_wire(bus, name)
        self.clock, self.wires, self.bus, self.shows = clock, dict(wires), bus, shows
        self._was: Dict[str, bool] = dict.fromkeys(self.wires, False)

    async def run(self) -> None:
        """Judges each clock, for as long as the simulation runs. An edge that is refused raises AssertionError."""
        from cocotb.triggers import RisingEdge  # here, so that the module can be imported without cocotb

        while True:
            await RisingEdge(self.clock)
            self.judge(self._changes())

    def judge(self, edges: List[str]) -> None:
        """Judges the edges of one clock."""
        left = sorted(edges, key=_place)
        while left:
            accepted = next((it for it in left if self.bus.step(it)), None)
            if accepted is None:
                verdict = self.bus.step(left[0])
                raise AssertionError("; ".join([f"{left[0]}: {verdict}", *map(str, verdict.failing)]))
            left.remove(accepted)

    def _changes(self) -> List[str]:
        """The edges since the last clock, as lines of a trace."""
        low = {wire: str(handle.value) == "0" for wire, handle in self.wires.items()}
        edges = [self._edge(wire, low[wire]) for wire in self.wires if low[wire] != self._was[wire]]
        self._was = low
        return edges

    def _edge(self, wire: str, is_low: bool) -> str:
        """The edge of a wire that has changed."""
        if not is_low:
            return f"{wire}+"
        if not wire.endswith(" addr"):
            return f"{wire}-"
        if self.shows is None:
            raise TypeError(f"shows: it is wanted to say what {wire} shows")
        return f"{wire}- {self.shows(wire)}"
