"""Reads what `rt check` says of a crate: which functions are proved, and how the proof of each other one is refused."""
import re
from collections import namedtuple

# How a goal of a function is refused, the strongest first. `false`: the known facts allow values at which it is false.
# `open`: the search ended without a proof. `unfit`: only the answer that is written was tried, and does not fit.
GOALS = ("false", "open", "unfit")

# A refusal's kind is one of GOALS, `shape` where a proof only names what is gone or was walked by hand for another
# body, or `unclear`. Of a kind in GOALS it has the names of the goals.
Refusal = namedtuple("Refusal", "kind text goals", defaults=[()])

CLOSURE = re.compile(r"(^|::)fn::(.*?)::[^:+]*(\+Fn.*)?$")
FALSE = re.compile(r"^note: (src/\S+):(\d+):\d+: it is not proved .* allow values at which this goal is false", re.M)
NAME_IS_GONE = re.compile(r"has no field|is not in scope|has no `|is no name|was not admitted")
UNPROVED_GOALS = re.compile(r"did not prove ((?:`[^`]+`(?:, )?)+)")
GOAL = re.compile(r"`([^`]+)`")
WAITS = re.compile(r"which (is|are) not proved|waits for the proof")


class Report:
    """What a check said of a crate: whether it came as far as the prover, its first error, and by the names of
    functions in the sources what it says of each, and what refused the own proof of each that is not proved."""

    def __init__(self, said, crate):
        # (`only=0` is what a first look says, which proves nothing)
        self.is_judged = re.search(r"^(logic=|only=[1-9])", said, re.M) is not None
        errors = [line for line in said.split("\n") if re.search(r"error[:\[]", line)]
        self.fault = (errors or [said[-200:].strip()])[0][:200]
        self.lines, self.refusals = {}, {}
        names = {reported: name for name, reported in crate.reported.items()}
        at_values = functions_with_a_false_goal(said, crate)
        for name, line in re.findall(rf"^(?:fn|impl) {crate.name}::(\S+): (.*)", said, re.M):
            function = CLOSURE.sub(r"\1\2", name)
            function = names.get(function, function)
            self.lines[names.get(name, name)] = line
            refusal = refusal_of(line, errors_of(said, name), function in at_values)
            if refusal:
                self.refusals.setdefault(function, refusal)


def functions_with_a_false_goal(said, crate):
    """Returns the functions of which a note says that a goal is false at some values."""
    found = set()
    for path, line in FALSE.findall(said):
        ends = ((it.name, crate.texts[path].count("\n", 0, it.end) + 1) for it in crate.functions[path])
        found.add(next((name for name, end in ends if end >= int(line)), None))
    return found


def errors_of(said, name):
    """Returns the errors in a function's own proof files: the file, and the text."""
    folder = re.escape(f"proofs/{name.replace('::', '/')}")
    # (a count of declarations is what antt passed over once it had refused another)
    return re.findall(rf"^(?:\./)?{folder}/(\w+)\.antt:\d+:\d+: error: (?!\d+ declaration)(.*)", said, re.M)


def clause_of(goal):
    """Returns what a line `breaks:` calls a goal: the clause that it is of, `returns` where that has no name, and else
    the goal itself."""
    head, found, clause = goal.rpartition("-clause-")
    return clause if found else re.sub("^returns-.*", "returns", goal)


def refusal_of(line, errors, has_a_false_goal):
    """Returns how a function's own proof is refused, or None where nothing of its own is."""
    goals = UNPROVED_GOALS.search(line)
    if goals:
        return Refusal("false" if has_a_false_goal else "open", goals[1].rstrip(", "), GOAL.findall(goals[1]))
    unfit = [text for file, text in errors if file != "Proof" and not NAME_IS_GONE.search(text)]
    if unfit:
        names = [text.partition(": ")[0] for text in unfit]
        return Refusal("unfit", ", ".join([*names[1:], unfit[0][:120]]), GOAL.findall(" ".join(names)))
    if errors:
        file, text = errors[0]
        by_hand = "its proof is by hand, and fits no other body: " if file == "Proof" else ""
        return Refusal("shape", by_hand + text[:120])
    if line.startswith("proved") or WAITS.search(line):
        return None
    return Refusal("unclear", line[:160])
