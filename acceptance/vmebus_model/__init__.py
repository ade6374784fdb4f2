"""The program in Python, written from docs/RULES.md, TRACES.md, COMMANDS.md and FAULTS.md alone.

Where to begin: rules.py has G1 to G26 and S1 to S4, and bus.py the words in which they speak.  Then

- traces.py, toml.py and backplane.py: edges, traces and scenarios, and the faults of both;
- verdicts.py and judging.py: which refusal is the first; `replay`, `check`, and the program without words;
- sources.py: the table of the rules, their sentences and where each condition comes from;
- codes.py: the other codes, as FAULTS.md and RULES.md explain them;
- explain.py with readings.py, state.py, show.py, summary.py with events.py: what is told of a trace;
- shrink.py: a few of the edges before an edge, with which it has the same answer;
- cycles.py: the transactions of a trace;
- swaps.py, races.py and same.py: which orders of edges matter;
- moments.py and order.py: a legal order of edges that were seen at the same moments;
- captures.py, standings.py, samples.py, obstacles.py and probe.py: what an analyser saw, and what can be known of the bus by it;
- witnesses.py and sample_witnesses.py: the same by all legal lists of edges, for tiny backplanes;
- drive.py and draw.py: traces that the program makes, in rounds and by a seed, and reach.py: goals that never come;
- embedded.py: what a program in C sees of the bus;
- words.py, program.py and faults.py: the command line, files and streams, and what ends a command;
- cases.py and drawn.py: the acceptance cases, and a built program, beside the model.
"""
