#!/usr/bin/env python3
"""The wrong programs that docs/PROMISES.md lists.

    promises.py            fails where a list is not what the must-fail edits say, or a crate's edits stand in no list
    promises.py --renew    writes the lists

A list stands between the lines `<!-- wrong programs: crate .. -->` and `<!-- end -->`. Each wrong program says itself which it is (wrong.py has the form);
where it changes a definition, a contract or a constant and not the code of one function, that is said."""
import re
import sys
from pathlib import Path

from wrong import Fault, all_edits

ROOT = Path(__file__).resolve().parent.parent
PAGE = ROOT / "docs" / "PROMISES.md"


# what a wrong program changes, where it is not the code of one function
CHANGES = {"round": "", "constant": " (in a constant)", "contract": " (in the contract)", "definition": " (in the definition)"}


def wrong_programs(crate, edits):
    """The lines of a crate, sorted by name: which wrong program it is, and where it is refused."""
    out = {}
    for edit in edits:
        if edit.crate == crate:
            for program in edit.programs:
                kind = "contract" if program.contract else edit.kind
                out[program.name] = f"- {program.name}: {program.sentence}{CHANGES[kind]}"
    if not out:
        raise Fault(f"docs/PROMISES.md: crate {crate} has no wrong programs")
    return [out[name] for name in sorted(out)]


def main():
    page = PAGE.read_text(encoding="utf-8")
    edits = all_edits(ROOT)
    told = []

    def fill(found):
        crates = found.group(1).split()
        told.extend(crates)
        lines = [line for crate in crates for line in wrong_programs(crate, edits)]
        return f"<!-- wrong programs: {found.group(1)} -->\n" + "\n".join(lines) + "\n<!-- end -->"

    made = re.sub(r"<!-- wrong programs: ([a-z_0-9 ]+) -->\n.*?<!-- end -->", fill, page, flags=re.S)
    having = {edit.crate for edit in edits}
    if sorted(told) != sorted(having):
        raise Fault(f"docs/PROMISES.md: listed twice or not at all: {', '.join(sorted(set(told) ^ having) or sorted({c for c in told if told.count(c) > 1}))}")
    if sys.argv[1:] == ["--renew"]:
        PAGE.write_text(made, encoding="utf-8")
    elif made != page:
        raise Fault("docs/PROMISES.md: its lists of wrong programs are not what the edits say: run house/promises.py --renew")
    print(f"{sum(len(edit.programs) for edit in edits)} wrong programs of {len(having)} crates in {len(edits)} edits, all in form and listed")


if __name__ == "__main__":
    if sys.argv[1:] not in ([], ["--renew"]):
        print(__doc__, file=sys.stderr)
        sys.exit(2)
    try:
        main()
    except Fault as fault:
        print(f"promises.py: {fault}", file=sys.stderr)
        sys.exit(1)
