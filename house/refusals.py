#!/usr/bin/env python3
"""Whether each wrong program is refused where it says.

    refusals.py [TREE]    tries the edits of this repository (house/tries.py), over the libraries that `rt ci` has built in TREE, a copy of it, or here

Any error counts as refused for rt, and it tells the first. Here an edit's log must have, for each wrong program, an error of its own at the goal that it names, none that
only says that the program has another shape (a goal that is gone, a name that is not there), and, in a round, no error of its own in a function
that no program of the round changes. An error that follows from another (of what depends on what was rejected) is not an error of its own."""
import re
import sys
from pathlib import Path

from tries import LOGIC, Tries
from wrong import ALONE, Fault, all_edits

ROOT = Path(__file__).resolve().parent.parent

ERROR = re.compile(r"(?m)^(\S+?):(\d+):(\d+): error: (.*(?:\n[ \t]+.*)*)$")  # a message may go on in indented lines
NAMED = re.compile(r"`([^`]+)`: ")
# goals that have no answer, which the prover closes by itself where the function is right
NOT_CLOSED = re.compile(r"(?m)^fn \S+: no proof: expected answers in \./proofs/(\S+)/Answers\.antt; `search` did not prove (.*)$")
FOLLOWS = ("which was rejected, was not checked", "which was rejected, were not checked", "was not admitted")
SHAPE = ("has no `", "expected type `goal.", "is not in scope", "has no field", "is no name", "this λ has", "unknown name", "not found in module")


def of_shape(message):
    """Whether a refusal is of the answer's shape. The goal of a generic function is printed by its name, `goal.the-asks-..`; there the fact is seen where the two types differ, which antt then shows."""
    if "the two types differ only where" in message:
        message = message.replace("expected type `goal.the-asks-", "")
    return any(sign in message for sign in SHAPE)


def place_of(path):
    """proofs/X/Answers.antt and its fellows are X; proofs/X.antt is X; another file of the crate goes by its own path."""
    inside = re.sub(r"(/(Answers|Invariants|Proof))?\.antt$", "", path.removeprefix("./"))
    return inside.removeprefix("proofs/")


def errors(log):
    """The errors of a log that do not only follow from another: (place, declaration, message)."""
    for path, _, _, message in ERROR.findall(log):
        named = NAMED.match(message)
        if not any(sign in message for sign in FOLLOWS):
            yield place_of(path), named.group(1) if named else "", message
    for place, goals in NOT_CLOSED.findall(log):
        for goal in re.findall(r"`([^`]+)`", goals):
            yield place, goal, "`search` did not prove it"


def faults(edit, log):
    """What is wrong with the refusals of one edit."""
    own = list(errors(log))
    if not re.search(rf"(?m)^{LOGIC}", log):
        yield "the prover did not refuse it"
    for place, need, message in own:
        if of_shape(" ".join(message.split())):
            yield f"{place} at {need}: refused for its shape: {message[:160]}"
    met = {(place, need) for place, need, _ in own}
    for program in edit.programs:
        for place, need in program.refused:
            if (place, need) not in met:
                there = sorted({n for p, n in met if p == place})
                yield f"{program.name} is not refused at {need} of {place}" + (f", but at {', '.join(there)}" if there else "")
    if edit.kind not in ALONE:
        changed = {place for program in edit.programs for place, _ in program.refused}
        for place in sorted({place for place, _ in met} - changed):
            yield f"{place} is refused by itself, and no program here changes it"


def read(root, tree, kept):
    """All edits of a repository, and what is wrong with them."""
    edits = all_edits(root)
    tries = Tries(edits, tree, kept)
    return edits, [f"{edit.crate}/{edit.label}: {fault}" for edit, log in tries.logs() for fault in faults(edit, log)], tries.made


def main(tree):
    edits, wrong, made = read(ROOT, tree, ROOT / "build/refusals")
    for line in wrong:
        print(line)
    if wrong:
        raise Fault(f"{len(wrong)} refusals are not what the edits say")
    rounds = sum(edit.kind == "round" for edit in edits)
    print(f"refusals: {sum(len(edit.programs) for edit in edits)} wrong programs in {len(edits)} checks ({rounds} rounds; {made} checks made now), each refused at its goal")


if __name__ == "__main__":
    if len(sys.argv) > 2:
        print(__doc__, file=sys.stderr)
        sys.exit(2)
    try:
        main(Path(sys.argv[1]) if len(sys.argv) == 2 else ROOT)
    except Fault as fault:
        print(f"refusals.py: {fault}", file=sys.stderr)
        sys.exit(1)
