"""A monitor for cocotb: prints the edges of one driver as moments for `vmebus order`.

    moments = open("moments.vme", "w")
    print("vme 1", file=moments)
    board2 = {"bgout": dut.bgout2, "bbsy": dut.bbsy2, "br": dut.br2}
    cocotb.start_soon(monitor(dut.clk, "2", board2, moments))

At the end of the test, close the file.
"""

from cocotb.triggers import RisingEdge

# The order of a board's edges within a clock: causes before effects.
ORDER = """bgout- bbsy- addr- as- ds- dtack- iackout- br- irq-
    br+ ds+ addr+ as+ bbsy+ bgout+ irq+ iackout+ dtack+""".split()


async def monitor(clk, driver, wires, moments, shows=None):
    """`driver` is a slot or c, `wires` has a handle for the name of each wire that it has, and
    `shows` returns what its address lines show, such as r2 or i4."""
    was, clock = dict.fromkeys(wires, False), 0
    while True:
        await RisingEdge(clk)
        # X and Z count as high.
        low = {name: str(wire.value) == "0" for name, wire in wires.items()}
        moved = [f"{name}{'-' if low[name] else '+'}" for name in wires if low[name] != was[name]]
        if moved:
            print(f"@{clock}", file=moments)
        for edge in sorted(moved, key=lambda it: 0 if driver == "c" else ORDER.index(it)):
            value = f" {shows()}" if edge == "addr-" else ""
            print(f"{driver} {edge}{value}", file=moments)
        was, clock = low, clock + 1
