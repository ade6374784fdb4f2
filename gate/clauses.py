"""The clause at which an edit has to be refused, if the edit's file names it.

An edit that breaks several clauses of a function leaves a goal open for each of them at each return, and the search tries every one
to its limits. One is enough to refuse the edit. So the copy of the function in which the edit is tried (gate/copies.py) keeps the
clause that is named, and each of the others says nothing there, without what is written of its proof.
"""

import re

# The name in the file of an edit that is refused at no clause, but at what its function owes to what it calls, say.
NONE = "(none)"
# What is said by a clause that says nothing, and the line that imports the sign in it.
NOTHING, SIGN = "result ≡ result", "◌≡◌"
IMPORT, IMPORTS = f"ghost use Rattle.std.specs.Prelude.{{{SIGN}}};", "ghost use "
ENSURES = re.compile(r"( *ensures (\w+) )\{")
ANSWER = re.compile(r"^pub (returns\S*) : goal\.", re.M)
OF_CLAUSE = "-clause-"


def names(head):
    """The names of the clauses of a function's head that say what it ensures."""
    return [it[2] for it in map(ENSURES.match, head) if it]


def words(clause):
    """The words of a name for a copy at which a clause stands alone: none if all of them do."""
    return [] if not clause else ["no_clause" if clause == NONE else clause]


def alone(head, clause):
    """The lines of a function's head in which only one of the clauses says something."""
    made, depth, is_left_out = [], None, False
    for line in head:
        match = ENSURES.match(line)
        if match:
            depth, is_left_out = match[1].index("e"), match[2] != clause
            made.append(f"{match[1]}{{ {NOTHING} }}" if is_left_out else line)
        elif not is_left_out or not line.startswith(" " * (depth + 1)):
            is_left_out = False
            made.append(line)
    return made


def blocks(text):
    """The parts of a file of answers, each with the indented paragraphs behind it."""
    found = []
    for it in text.split("\n\n"):
        if found and it.startswith(" "):
            found[-1] += f"\n\n{it}"
        else:
            found.append(it)
    return found


def answers_alone(text, clause):
    """The text of a function's answers without those for its other clauses."""
    return "\n\n".join(it for it in blocks(text) if not any(is_of_another(name, clause) for name in ANSWER.findall(it)))


def is_of_another(answer, clause):
    """Whether an answer for a return is for another clause."""
    return OF_CLAUSE in answer and not answer.endswith(f"{OF_CLAUSE}{clause}")


def is_at(goal, clause):
    """Whether a goal is one of a clause, or of none of them."""
    is_of_return = goal.startswith("returns")
    return not is_of_return if clause == NONE else is_of_return and goal.endswith(f"{OF_CLAUSE}{clause}")


def can_stand_alone(answers):
    """Whether no answer for a return is for all clauses together."""
    return all(OF_CLAUSE in it for it in ANSWER.findall(answers))


def importing(lines):
    """The lines of a file, so that it imports the sign in what says nothing."""
    at = next((it for it, line in enumerate(lines) if line.startswith(IMPORTS)), None)
    return lines if at is None or any(SIGN in it for it in lines) else [*lines[:at], IMPORT, *lines[at:]]
