"""Tests of what counts as a refusal: by the contract, by a written proof alone, or by words that say nothing of it."""

from tests.small import SOURCE, Case, lay_out, run, told_of, write, write_edit
import verdicts

LEAST = """
/// The lesser of two numbers.
#[tactic({tactic})]
pub fn {name}({left}: u8, {right}: u8) -> u8
    ensures at_most_left {{ result ≤ {left} }}
    ensures at_most_right {{ result ≤ {right} }}
{{
    if {left} < {right} {{
        {left}
    }} else {{
        {right}
    }}
}}
"""
ANSWERS = """use Rattle.std.proofs.Common.{{◌≤◌, arith}}
use Rattle.numbers.proofs.{name}.Goals as goal

pub returns-then-{left}-{right}-clause-at_most_left : goal.returns-then-{left}-{right}-clause-at_most_left
returns-then-{left}-{right}-clause-at_most_left c = omega arith

pub returns-then-{left}-{right}-clause-at_most_right : goal.returns-then-{left}-{right}-clause-at_most_right
returns-then-{left}-{right}-clause-at_most_right c = omega (arith, c.if-{left}-{right}.true)

pub returns-else-{left}-{right}-clause-at_most_left : goal.returns-else-{left}-{right}-clause-at_most_left
returns-else-{left}-{right}-clause-at_most_left c = omega (arith, c.if-{left}-{right}.false)

pub returns-else-{left}-{right}-clause-at_most_right : goal.returns-else-{left}-{right}-clause-at_most_right
returns-else-{left}-{right}-clause-at_most_right c = omega arith
"""
# One that the search proves without what is written, and one that it does not.
FOUND, HARD = {"name": "least", "tactic": "auto", "left": "few", "right": "many"}, {"name": "lower", "tactic": "none", "left": "low", "right": "high"}
# A clause that is proved with any body, and a function that changes nothing.
SAME = """
// The sign ≡ in a comment.
/// The same number.
pub fn same(number: u8) -> u8
    ensures at_most { result ≤ number }
    ensures at_least { number ≤ result }
{
    number // the same
}
"""
# A function whose written answer turns an equation round.
BY_NINE = """
/// The same number, by way of nine.
#[tactic(none)]
pub fn by_nine(given: u8) -> u8
    ensures { result ≡ given }
{
    if given == 9 {
        return 9;
    }
    given
}
"""
TURNED = """use Rattle.std.proofs.Common.{◌≡◌, sym, refl}
use Rattle.numbers.proofs.by_nine.Goals as goal

pub returns-then-given-eq9 : goal.returns-then-given-eq9
returns-then-given-eq9 c = sym c.if-given-eq9.true

pub returns : goal.returns
returns c = refl
"""
# One whose written answers are those of two arms.
OR_NINE = """
/// A number, or nine.
#[tactic(none)]
pub fn or_nine(given: Option<u8>) -> u8
    ensures at_least { result ≡ option_map_or (λ n. n) given 9 }
    ensures at_most { option_map_or (λ n. n) given 9 ≡ result }
{
    match given {
        Some(number) => number,
        None => 9,
    }
}
"""
BY_ARMS = """use Rattle.std.proofs.Common.{◌≡◌, ap, sym, refl}
use Rattle.std.specs.Option.{option_map_or}
use Rattle.numbers.proofs.or_nine.Goals as goal

pub returns-in-Some-clause-at_least : goal.returns-in-Some-clause-at_least
returns-in-Some-clause-at_least c = ap (λ o. option_map_or (λ n. n) o 9) (sym c.in-Some.is)

pub returns-in-Some-clause-at_most : goal.returns-in-Some-clause-at_most
returns-in-Some-clause-at_most c = ap (λ o. option_map_or (λ n. n) o 9) c.in-Some.is

pub returns-in-None-clause-at_least : goal.returns-in-None-clause-at_least
returns-in-None-clause-at_least c = ap (λ o. option_map_or (λ n. n) o 9) (sym c.in-None.is)

pub returns-in-None-clause-at_most : goal.returns-in-None-clause-at_most
returns-in-None-clause-at_most c = ap (λ o. option_map_or (λ n. n) o 9) c.in-None.is
"""
SOME, GUARDED = "        Some(number) => number,", "        Some(number) if number == 7 => {}, Some(number) => number,"
BY_PROOF, UNANSWERED = "# by proof: the search knows no order\n", "# answers: none\n"
REWORDED = ("if few < many", "if many > few", "if low < high", "if high > low")

# Each edit, its other line, and what is told of it.
EDITS = {
    "reworded": (REWORDED[:2], "", "BAD EDIT: numbers::least is refused since a name is gone that its written proof or its contract says (proofs/least/Answers.antt:"),
    "reworded_unanswered": (REWORDED[:2], UNANSWERED, "NOT REFUSED: numbers::least, which it edits, is proved with it"),
    "turned_round": (("given == 9", "9 == given"), "", "FAILED: a written proof alone refuses it, at numbers::by_nine, proofs/by_nine/Answers.antt:5: "),
    "guarded": ((SOME, GUARDED.format("number")), "", "BAD EDIT: numbers::or_nine is refused since the written answer of an arm is another arm's now (src/lib.rt:"),
    "guarded_and_wrong": ((SOME, GUARDED.format("8")), "", "FAILED: a written proof alone refuses it, at numbers::or_nine, proofs/or_nine/Answers.antt:6: "),
    "reworded_by_proof": (REWORDED[2:], BY_PROOF, "BAD EDIT: numbers::lower is refused since a name is gone that its written proof or its contract says (proofs/lower/Answers.antt:"),
    "many_for_few": (("        few", "        many"), UNANSWERED, "refused at numbers::least, src/lib.rt:"),
    "hard_and_reworded": (REWORDED[2:], UNANSWERED, f"NOT REFUSED at numbers::lower: {verdicts.AS_OPEN}"),
    "low_for_high": (("        high", "        low"), BY_PROOF, "refused at numbers::lower, proofs/lower/Answers.antt:"),
    "next_is_the_same": (("    number + 1", "    number"), BY_PROOF, "its reason is stale: refused at numbers::next, src/lib.rt:"),
    "a_name_that_is_not": (("number + 1 }", "nmber + 1 }"), "", "BAD EDIT: numbers::next is refused since its contract cannot be read ("),
    "nobody_reads_it": (("    number // the same", "    let _ = (&number, &number); number"), "", "BAD EDIT: numbers::same is refused since the kit does not cover its text ("),
    "the_other": (("        one", "        other"), "# clause: at_most_one\n", "refused at numbers::lesser, src/lib.rt:"),
    "at_another_clause": (("        other", "        one"), "# clause: at_most_one\n", "NOT REFUSED at the clause at_most_one of numbers::lesser, but at "),
    "at_no_clause": (("        other", "        one"), "# clause: (none)\n", "NOT REFUSED at the clause (none) of numbers::lesser, but at "),
    "a_key_that_is_not": (("one < other", "other < one"), "# clausse: at_most_one\n", "BAD EDIT: it has a line '# clausse: at_most_one', and what may stand in front is file:, old:, new:, # clause:, # at:,"),
    "a_clause_that_is_not": (("one < other", "other < one"), "# clause: at_most_none\n", "BAD EDIT: what it edits has no clause at_most_none that says what it ensures"),
    "beside_a_comment": (("    number // the same", "    let _nothing = 0u8; number"), "# clause: at_most\n", "NOT REFUSED: numbers::same, which it edits, is proved with it"),
}

# What the prover says: of a proof that names a branch that is gone, of one that no longer fits, and of what stands on another proof.
GONE = """./proofs/one/Answers.antt:13:100: error: `returns`: record `Rattle.numbers.proofs.one.Goals.In` (nearest: .if-b-a)
  has no field `if-a-b`
./proofs/one/Answers.antt:20:1: error: 1 declaration that depends on `returns`, which was not admitted, was not checked: more
fn numbers::one: not proved; it stands on `Rattle.numbers.proofs.one.Answers.returns`, which antt refuses
"""
UNFIT = """./proofs/Lemma.antt:5:1: error: `lemma`: expected type `A`, but this has type `B`
  both types are shown computed
  `n` is not in scope here, so what is shown does not paste back as it stands
./proofs/one/Answers.antt:7:1: error: 1 declaration that depends on `lemma`, which was not admitted, was not checked: returns
fn numbers::one: not proved
fn numbers::two: not proved; it stands on `Rattle.numbers.proofs.Lemma.lemma`, which antt refuses
"""
OPEN = """note: src/lib.rt:9:5: it is not proved that what the function ensures holds when it returns (`returns`); `search` gave up at one of its limits
"""
FALSE = OPEN.replace("`search` gave up at one of its limits", "the facts known there allow values at which this goal is false")
UNSTATED = """src/lib.rt:8:20: error: `ensures-1`: `nmber` is not in scope
./proofs/one/Answers.antt:5:5: error: 1 declaration that depends on `returns`, which was not admitted, was not checked: returns
fn numbers::one: not proved
fn numbers::two: no proof: antt did not admit its contract or its `statement`: help: fix that first, since no proof file helps until then
"""
UNCOVERED = "fn numbers::one: no proof: the borrow checker does not cover this function yet: src/lib.rt:9:5: a tuple: help: write it by hand\n"
UNTOLD = "fn numbers::one: not proved; it calls `numbers::two`, which is not proved\nfn numbers::two: depends on a hole in `Rattle.numbers.proofs.two.Proof.two_spec`\n"
UNREAD = """./proofs/one/Answers.antt:7:1: error: this line starts at column 1, but the `(` opened at 5:53 is still open; indent it
fn numbers::one: not proved
"""
SAID = {
    "a text that cannot be read": (UNREAD, {"one": "NAME"}),
    "a name that is gone": (GONE, {"one": "NAME"}),
    "a written proof": (UNFIT, {"one": "PROOF", "two": "PROOF"}),
    "a goal": (OPEN + UNFIT.replace("./proofs", "note: ./proofs"), {"one": "SEARCH", "two": "PROOF"}),
    "a goal that a name may have proved": (OPEN + GONE, {"one": "NAME"}),
    "values": (FALSE + GONE, {"one": "COUNTEREXAMPLE"}),
    "a contract": (UNSTATED, {"one": "UNSTATED", "two": "UNSTATED"}),
    "what the kit does not cover": (UNCOVERED, {"one": "UNCOVERED"}),
    "nothing": (UNTOLD, {"one": "UNTOLD"}),
}


class Kinds(Case):
    """What the prover says, and what is told of edits that it refuses so."""

    def test_texts(self) -> None:
        """A function is refused by the best of what is said of it."""
        for name, (said, wanted) in SAID.items():
            refused = verdicts.read(f"{said}only=2 proved=0\n").refused
            self.same(f"refused by {name}", {path.rpartition("::")[2]: refusal.kind.name for path, refusal in refused.items()}, wanted)
        moved = OPEN.replace("`returns`", "`returns-in-Some-2`") + "fn numbers::Number::one: no proof\nonly=1 proved=0\n"
        for names, wanted in (["returns-in-Some"], "MOVED"), (["returns-in-Some", "returns-in-Some-2"], "SEARCH"), ([], "SEARCH"):
            kind = verdicts.read(moved, {"Number::one": frozenset(names)}).refused["numbers::Number::one"].kind.name
            self.same(f"refused by an arm beside {names}", kind, wanted)
        files = {"proofs/one/Answers.antt": True, "proofs/+two+one/Invariants.antt": True, "proofs/two/Answers.antt": False, "proofs/one.antt": False}
        found = {file: verdicts.is_own(verdicts.Error(file, "1", "n", ""), "numbers::one", "not proved") for file in files}
        self.same("the files of a function", found, files)
        unread = verdicts.read("./specs/Two.antt:3:2: error: `two`: `m` is not in scope\nonly=1 proved=0\n")
        self.same("a fault of a definition", [unread.fault_in({file}) for file in ("specs/Two.antt", "specs/One.antt")], ["specs/Two.antt:3: `m` is not in scope", ""])
        goals = ("returns-clause-at_most_one", "returns-in_default", "add-requires-clause-at_most_one")
        wanted = {"at_most_one": [True, False, False], "(none)": [False, False, True]}
        self.same("the goals of a clause", {clause: [verdicts.is_of_clause(goal, clause) for goal in goals] for clause in wanted}, wanted)

    def test_reasons(self) -> None:
        """A refusal by a written proof alone has to have a reason, and no other may have one."""
        kinds, reasons = (verdicts.Kind.PROOF, verdicts.Kind.SEARCH), ("", "it is so")
        found = [[bool(verdicts.stale(verdicts.Refusal("f", "p", kind), reason)) for reason in reasons] for kind in kinds]
        self.same("what fails", found, [[True, False], [False, True]])

    def test_edits(self) -> None:
        """Each edit of EDITS is told as it should be, in one run of all, and the kinds are counted at its end."""
        root = f"{self.room}/repository"
        source = SOURCE.replace("ghost", "ghost use Rattle.std.specs.Option.{option_map_or};\nghost", 1) + LEAST.format(**FOUND) + LEAST.format(**HARD) + SAME + BY_NINE + OR_NINE
        lay_out(root, {}, source)
        write(f"{root}/crates/numbers/proofs/by_nine/Answers.antt", TURNED)
        write(f"{root}/crates/numbers/proofs/or_nine/Answers.antt", BY_ARMS)
        for names in (FOUND, HARD):
            write(f"{root}/crates/numbers/proofs/{names['name']}/Answers.antt", ANSWERS.format(**names))
        for name, (pair, more, _) in EDITS.items():
            write_edit(root, name, pair, more)
        status, said = run(root)
        for name, (_, _, wanted) in EDITS.items():
            self.tell(name, f": {wanted}" in told_of(said, name), told_of(said, name))
        kinds = "by a written proof alone: numbers/low_for_high: the search knows no order\nby values 2, by a goal 0, by a written proof 1\n"
        self.tell("the total", status == 1 and said.endswith(f"{kinds}3 passed, {len(EDITS) - 3} failed\n"), said)
        line = int(told_of(said, "many_for_few").partition("src/lib.rt:")[2].partition(":")[0])
        self.tell("the line is the repository's", "fn least(few: u8" in "\n".join(source.split("\n")[line - 3 : line + 3]), line)
        for more, why in {"# answers: some": "its '# answers:' is not 'none'", "# by proof:": "its '# by proof:' says nothing"}.items():
            write_edit(root, "no_line", REWORDED[:2], more)
            self.tell(more, f": FAILED: BAD EDIT: {why}\n" in run(root, "numbers/no_line")[1])
