"""The branches of a function that its edit is not in, left out of the copy that carries the edit.

What a function owes on a path that does not reach the edit, it owes without the edit too. Such a path refuses nothing, and takes as
long to prove. So in a copy the call of a function that never returns stands in place of each other branch of an `if` or `match` in
one branch of which the edit lies, and in place of each branch that returns before the edit. A `?` that ends a statement before the
edit is such a branch too. In a loop, if the branch of the edit returns, those that do not stay: without them it would be no loop. What
is not refused in its copy is tried in its place, with all branches. gate/unedited tries each copy of this form without its edit.
"""

import re
from dataclasses import dataclass

import clauses

NAME = "nothing_comes_here"
CALL = f"{NAME}()"
# It is put behind what else a file has. Its proof is a hole, as that of each function without its body.
FUNCTION = [f"fn {NAME}() -> ! {{", "    unreachable!()", "}", ""]

MATCH = re.compile(r"(?:.*[\s(])?match .*\{")
IF = re.compile(r"(?:.*[\s(])?if .*\{")
ELSE = re.compile(r" *\} else (?:if .*)?\{")
LET_ELSE = re.compile(r" *let .* else \{")
ARROW = re.compile(r" =>(?: |$)")
# What leaves no function, but a loop, so that another way goes on from there.
LEAVES = re.compile(r"\b(?:break|continue)\b")
LOOP = re.compile(r" *(?:'\w+: )?(?:for|while|loop)\b")
# A condition of an arm, and a variant in a pattern.
GUARD, VARIANT = re.compile(r" if .*"), re.compile(r"\b[A-Z]\w*\b(?!::)")
# How a line begins that goes on with what stands above it at the same depth.
CLOSES = ("}", ")", "]", ".", "?")
# What a function's head says that it returns, the variant of it that a `?` goes on with, and how its clauses begin.
RETURNED, GOES_ON = re.compile(r"-> (?:\w+::)*(Result|Option)<"), {"Result": "Ok", "Option": "Some"}
CLAUSES = ("requires", "ensures", "ghost", "where")
# How a statement ends that returns if it fails, and how one begins that binds what it finds, or only calls.
ASKS, STATEMENT = "?;", re.compile(r"( *)(?:let ([^:=]+) = |(?!let |return |[^(]*= ))(.*)")


@dataclass(frozen=True)
class Branch:
    """A branch: the lines of its head, of which an arm's last goes up to the body, and the lines of the body, from one on and before another."""

    head: tuple
    first: int
    end: int
    is_arm: bool


def left_out(old, new, goes_on=""):
    """The lines of a body as it is and as an edit makes it, both without the branches that the edit is not in.

    With the variant with which a `?` goes on, the returns of those before the edit are left out too."""
    old, new = [*old], [*new]
    first = next((at for at, pair in enumerate(zip(old, new)) if pair[0] != pair[1]), min(len(old), len(new)))
    for at in reversed(range(first)):
        (ours, end), (theirs, end_before) = branches(new, at), branches(old, at)
        apart = [it for it, pair in enumerate(zip(ours, theirs)) if body(new, pair[0]) != body(old, pair[1])]
        is_inside = len(apart) == 1 and [it.head for it in ours] == [it.head for it in theirs] and new[end:] == old[end_before:]
        is_loop_lost = is_inside and is_in_loop(new, at) and returns(new, ours[apart[0]])
        for it in reversed(range(len(ours))):
            is_beside, is_before = is_inside and it not in apart, end <= first
            if is_beside and not is_loop_lost or (is_beside or is_before) and returns(new, ours[it]):
                leave_out(new, ours[it])
                leave_out(old, theirs[it])
        for lines in (new, old) if goes_on else ():
            go_on(lines, at, goes_on)
    return old, new


def variant(head):
    """The variant with which a `?` goes on in a function of this head, or nothing if it returns neither a result nor an option."""
    behind = next((at for at, line in enumerate(head) if line.lstrip().startswith(CLAUSES)), len(head))
    found = RETURNED.findall(head[behind - 1])
    return GOES_ON[found[-1]] if found else ""


def go_on(lines, at, goes_on):
    """Puts the call in place of the return of a statement that ends on a line with a `?`."""
    first = beginning(lines, at)
    found = STATEMENT.fullmatch(lines[first]) if first is not None else None
    if not found or not lines[at].endswith(ASKS) or lines[at].endswith(f"}}{ASKS}"):
        return
    depth, bound, value = found.groups("_")
    made = [f"{depth}let {goes_on}({bound}) = {value}", *lines[first + 1 : at + 1]]
    made[-1] = made[-1].removesuffix(ASKS) + " else {"
    lines[first : at + 1] = [*made, f"{depth}    {CALL}", f"{depth}}};"]


def beginning(lines, at):
    """The line on which the statement begins that ends on a line, if there is one."""
    depth = indent(lines[at])
    above = range(at, -1, -1) if lines[at].lstrip().startswith(CLOSES) else [at]
    return next((it for it in above if indent(lines[it]) <= depth and not lines[it].lstrip().startswith(CLOSES)), None)


def is_in_loop(lines, at):
    """Whether a line stands in a loop."""
    return any(LOOP.match(lines[it]) and closing(lines, it) > at for it in range(at))


def branches(lines, at):
    """The branches of what begins on a line, and the line after it. What is no `if`, no `match` and no `let` with an `else` has none."""
    if MATCH.fullmatch(lines[at]):
        end = closing(lines, at)
        return arms(lines, at + 1, end, indent(lines[at]) + 4), end + 1
    if IF.fullmatch(lines[at]) and not ELSE.fullmatch(lines[at]):
        return blocks(lines, at)
    if LET_ELSE.fullmatch(lines[at]):
        end = closing(lines, at)
        return [Branch((lines[at],), at + 1, end, False)], end + 1
    return [], at + 1


def blocks(lines, at):
    """The blocks of an `if`, and the line after it."""
    found = []
    while True:
        end = closing(lines, at)
        found.append(Branch((lines[at],), at + 1, end, False))
        if end >= len(lines) or not ELSE.fullmatch(lines[end]):
            return found, end + 1
        at = end


def arms(lines, first, end, depth):
    """The arms of a `match` between two lines, each of which begins so far in."""
    found, head = [], []
    for at in range(first, end):
        is_next = indent(lines[at]) == depth and not lines[at].lstrip().startswith(CLOSES)
        if found and not head and not is_next:
            found[-1] = Branch(found[-1].head, found[-1].first, at + 1, True)
            continue
        arrow = ARROW.search(lines[at]) if indent(lines[at]) == depth else None
        head.append(lines[at][: arrow.end()] if arrow else lines[at])
        if arrow:
            found.append(Branch(tuple(head), at, at + 1, True))
            head = []
    return found


def closing(lines, at):
    """The line of the brace that closes what opens at the end of a line."""
    depth = indent(lines[at])
    return next((it for it in range(at + 1, len(lines)) if lines[it].startswith(" " * depth + "}")), len(lines))


def indent(line):
    return len(line) - len(line.lstrip())


def body(lines, branch):
    """The lines of a branch without its head."""
    found = lines[branch.first : branch.end]
    return [found[0][len(branch.head[-1]) :], *found[1:]] if branch.is_arm else found


def returns(lines, branch):
    """Whether the last statement of a branch returns from the function."""
    inside = [it for it in body(lines, branch) if it.strip() not in ("", "{", "}", "},")]
    depth = min(map(indent, inside), default=0)
    statements = [it for it in inside if indent(it) == depth and not it.lstrip().startswith(CLOSES)]
    return bool(statements) and statements[-1].lstrip().startswith("return ")


def leave_out(lines, branch):
    """Puts the call in place of what a branch does, unless that may leave a loop."""
    if any(map(LEAVES.search, body(lines, branch))):
        return
    if branch.is_arm:
        lines[branch.first : branch.end] = [f"{branch.head[-1].rstrip()} {CALL},"]
    else:
        lines[branch.first : branch.end] = [f"{' ' * (indent(branch.head[0]) + 4)}{CALL}"]


def loops(lines):
    """How many loops begin in a body."""
    return sum(bool(LOOP.match(it)) for it in lines)


def answers_left(answers, lines):
    """The text of a function's answers without those for returns in arms that are left out of its body."""
    gone, stay = arm_names(lines)
    is_gone = lambda answer: begins(answer, gone) and not begins(answer, stay)
    return "\n\n".join(it for it in clauses.blocks(answers) if not any(map(is_gone, clauses.ANSWER.findall(it))))


def arm_names(lines):
    """The names that the prover gives arms: of those that are left out, and of the others."""
    gone, stay = set(), set()
    for at in range(len(lines)):
        for it in branches(lines, at)[0]:
            if it.is_arm:
                (gone if body(lines, it)[0].startswith(CALL) else stay).update(names_of(it.head))
    return gone, stay


def names_of(head):
    """The names of an arm by its pattern: the variants in it, and `default` for an item of a tuple that has none."""
    pattern = GUARD.sub("", " ".join(it.strip() for it in head).removesuffix("=>").strip())
    for it in pattern.split(" | "):
        items = it[1:-1].split(", ") if it.startswith("(") else [it]
        yield "-".join(["in", *("-".join(VARIANT.findall(item)) or "default" for item in items)])


def begins(answer, names):
    """Whether an answer for a return is named by one of these arms: with more variants it would be another's."""
    return any(re.match(rf"returns-{it}(?:\Z|-(?![A-Z]|default\b))", answer) for it in names)
