#!/usr/bin/env python3
"""Renames what is called 'told' and 'tells', in the tree in which it is called (its top folder).

Words in code change everywhere in a crate, in specs and proofs too; in comments, phrases change. It commits nothing.
"""
import os, re, subprocess, sys

def files(*crates):
    out = subprocess.run(["git", "ls-files", "-z", "crates"], capture_output=True, text=True, check=True).stdout
    for it in out.split("\0"):
        if it.endswith((".rt", ".antt", ".edit")) and (not crates or it.split("/")[1] in crates):
            yield it

def change(path, program):
    try:
        old = open(path, encoding="utf-8").read()
    except FileNotFoundError:
        return
    new = program(old)
    if new != old:
        open(path, "w", encoding="utf-8").write(new)

def words(pairs, *crates):
    table = dict(pairs)
    pattern = re.compile(r"(?<![A-Za-z0-9_])(" + "|".join(sorted(map(re.escape, table), key=len, reverse=True)) + r")(?![A-Za-z0-9_])")
    for path in list(files(*crates)):
        change(path, lambda t: pattern.sub(lambda m: table[m.group(1)], t))
    for path in list(files(*crates)):
        parts = path.split("/")
        made = []
        for at, it in enumerate(parts):
            stem, dot, end = it.partition(".")
            made.append(table.get(stem, stem) + dot + end if at > 1 else it)
        if made != parts:
            os.makedirs("/".join(made[:-1]), exist_ok=True)
            subprocess.run(["git", "mv", path, "/".join(made)], check=True)

def patterns(pairs, *crates):
    for path in list(files(*crates)):
        def program(text):
            for old, new in pairs:
                text = re.sub(old, new, text)
            return text
        change(path, program)

# What a guard answers, as an outcome that reports it.
JUDGES = ("vme_rules", "vme_arbiter", "vme_requester", "vme_master", "vme_interrupter", "vme_histories", "vme_wiring", "vme_backplane", "vme_bus")
words([("told_by_rule", "outcome_by_rule"), ("told_by_both", "outcome_by_both"), ("told_refused", "outcome_refused"),
       ("told_but_full", "outcome_but_full"), ("told_by_settling", "outcome_by_settling"), ("told_by_requester", "outcome_by_requester"),
       ("told_by_master", "outcome_by_master"), ("told_by_interrupter", "outcome_by_interrupter"), ("told_by", "outcome_by")], *JUDGES, "vme_explain", "vme_tests_bus")
patterns([(r"\.told(?=(::<[^>]*>)?\()", ".outcome"), (r"\bfn told(?=<A: Outcome>)", "fn outcome"),
          (r"\bc\.told\b(?=[.-])", "c.outcome"), (r"\.told\.Goals\b", ".outcome.Goals"),
          (r"`(Bus|Backplane|Arbiter|Requester|Master|Interrupter|Board|BusState|Wiring)::told`", r"`\1::outcome`")],
         *JUDGES, "vme_explain", "vme_tests_bus", "vme_events", "vme_show", "vme_summary")
for path in list(files(*JUDGES)):
    if "/told/" in path and "/proofs/" in path:
        new = path.replace("/told/", "/outcome/")
        os.makedirs(os.path.dirname(new), exist_ok=True)
        subprocess.run(["git", "mv", path, new], check=True)
CODE_LINE = re.compile(r"^\s*(//|--)")
for path in list(files(*JUDGES, "vme_explain")):
    change(path, lambda text: "\n".join(line if CODE_LINE.match(line) else re.sub(r"\btells\b", "reports", line) for line in text.split("\n")))
PARTS = ("vme_arbiter", "vme_requester", "vme_master", "vme_interrupter", "vme_wiring")
words([("reads_told", "reads_pins"), ("reads_what_it_is_told", "reads_its_pins"), ("SayWhatIsTold", "SayThePins"), ("Told", "ReadPins"),
       ("requester_told", "requester_lines"), ("master_told", "master_lines")], *PARTS)
patterns([(r"\btold\b", "own_lines")], "vme_requester", "vme_master")
patterns([(r"\btold as (requester|master)_lines\b", r"own_lines as \1_lines")], "vme_wiring")

# What is pushed for a condition or a line.
words([("tell_holder", "push_holder"), ("tell_low", "push_low"), ("tell_grant", "push_grant"), ("tell_low_grants", "push_low_grants"),
       ("tell_request", "push_request"), ("tell_requests", "push_requests"), ("tell_interrupt", "push_interrupt"),
       ("tell_interrupts", "push_interrupts"), ("tell_asked", "push_asked"), ("tell_picked", "push_picked"), ("tell_line", "push_line"),
       ("tell_place", "push_place"), ("tell", "push_witness"), ("value_told", "value_shown"), ("request_told", "request_witness"),
       ("askers_told", "askers_witnesses"), ("line_told", "line_witnesses"), ("last_told", "last_witness"), ("places_told", "place_witnesses"),
       ("others_told", "other_witnesses"), ("strobe_told", "strobe_witness"), ("service_told", "service_witness"), ("pick_told", "pick_witness"),
       ("none_told", "no_witness"), ("Told", "Witnessed")], "vme_explain")
patterns([(r"\bvme_explain\.specs\.Told\b", "vme_explain.specs.Witnessed"), (r"\bvme_(arbiter|requester|master|interrupter)\.proofs\.Told\b", r"vme_\1.proofs.ReadPins")])
COMMENT = re.compile(r"^(\s*)(//[/!]?|--)(.*)$")
for path in list(files("vme_explain")):
    def program(text):
        out = []
        for line in text.split("\n"):
            at = COMMENT.match(line)
            out.append(line if at else re.sub(r"\btold\b", "witnesses", line))
        return "\n".join(out)
    change(path, program)

words([("why_tells_the_verdict", "why_states_the_verdict"), ("why_tells_verdict", "why_states_verdict"),
       ("bus_stands_where_it_is_told", "bus_stands_where_the_block_says"),
       ("TellsEveryGrant", "ShowsEveryGrant"), ("TellsEveryHolder", "ShowsEveryHolder"),
       ("rows_tell_every_grant_and_holder", "rows_show_every_grant_and_holder"),
       ("boards_are_told_as_they_stand", "boards_are_reported_as_they_stand"),
       ("tell_gate", "notify_gate"), ("tell_edges", "post_edges"), ("tell_end", "post_end")])
patterns([(r"\btold\b(?=: Condvar)", "changed"), (r"\b(self|news)\.told\b", r"\1.changed"), (r"let told = news", "let waiting = news"),
          (r"sleep\(rt, told, nap\)", "sleep(rt, waiting, nap)")], "vme_lock")
words([("Told", "Quoted")], "vme_scenario")
words([("Told", "Numbers"), ("told", "numbers"), ("told_delivery", "delivery_of_edge")], "vmebus_c")

# The program's answers and reports.
words([("told_seed", "answer_of_seeds"), ("told_trace", "answer_of_trace"), ("told_run", "answer_of_run"),
       ("told_fault", "fault_named"), ("told_answer", "answer_named"), ("told_trace_fault", "trace_fault_named"),
       ("told_trace_answer", "trace_answer_named"), ("told_run_answer", "run_answer_named"), ("Teller", "Reporter"), ("tellers", "reporters"),
       ("teller", "reporter"), ("tell_words", "report_words"), ("tell_version", "write_version"), ("TellsVersion", "WritesVersion"),
       ("tell", "report")], "vme_program", "vmebus")
patterns([(r"\btold(?=\()", "answer_of"), (r"\bfn told\b", "fn answer_of"), (r"\bself\.told\b", "self.last_line"), (r"\btold: (Option<Instant>|None)", r"last_line: \1"),
          (r"\b(result|self\.old|self\.new)\.told\b", r"\1.last_line"), (r"ensures told \{", "ensures last_line {")], "vme_program")
for path in list(files("vme_program")):
    if "/told/" in path:
        new = path.replace("/told/", "/answer_of/")
        os.makedirs(os.path.dirname(new), exist_ok=True)
        subprocess.run(["git", "mv", path, new], check=True)
patterns([(r"\.told\.Goals\b", ".answer_of.Goals"), (r"\bc\.told\b(?=[.-])", "c.answer_of")], "vme_program")

words([("untold", "without_progress"), ("IsTold", "IsProgress"), ("telling", "printing")], "vme_command_line")
patterns([(r"ensures untold \{", "ensures silent {"), (r"ensures told \{ progress", "ensures idle { progress"), (r"λ told\.", "λ printed."), (r"\(told ≡ error\)", "(printed ≡ error)")], "vme_command_line")
patterns([(r"\bSome\(told\)", "Some(last)"), (r"duration_since\(told\)", "duration_since(last)"), (r"λ told\.", "λ last."), (r"instant_nanos told", "instant_nanos last"), (r"Some told\b", "Some last")], "vme_program")

# Comments.
PHRASES = [(r"\b([Ww])hat is told of\b", r"\1hat is printed about"), (r"\bin which they are told\b", "in which they are printed"),
           (r"\bblock that tells\b", "block that says"), (r"\bof that of where\b", "of that of where"), (r"\bnothing to tell\b", "nothing to print"),
           (r"\bsomething to tell\b", "something to print"), (r"\b([Ww])hat a line tells of\b", r"\1hat a line says of"),
           (r"\b([Ww])hat a line of a summary tells\b", r"\1hat a line of a summary reports"), (r"\b([Ww])hat the lines of a summary tell\b", r"\1hat the lines of a summary report"),
           (r"\bwhat a row tells\b", "what a row shows"), (r"\bWhat a row tells of\b", "What a row shows of"), (r"\bas they are told\b", "as they are printed"),
           (r"\bthe level told with it\b", "with the level that is printed beside it"), (r"\bwhere one is told\b", "if one is printed"),
           (r"\bis told by its\b", "is named by its"), (r"\bas `verdict` tells\b", "as `verdict` says"), (r"\bwire tells whether\b", "wire says whether"),
           (r"\ba condition is told by who\b", "a condition is shown by those who"), (r"\bthe lines that tell it\b", "the lines that report it"),
           (r"\bwhat is told\b", "what is printed"), (r"\bWhat is told\b", "What is printed"), (r"\bare told by their codes\b", "are given by their codes"),
           (r"\btell of\b", "speak of"), (r"\btells of it\b", "notes it"), (r"\bof its address group `shown` tells\b", "`shown` says what its address group shows")]
for path in list(files()):
    def program(text):
        out = []
        for line in text.split("\n"):
            if COMMENT.match(line):
                for old, new in PHRASES:
                    line = re.sub(old, new, line)
            out.append(line)
        return "\n".join(out)
    change(path, program)
