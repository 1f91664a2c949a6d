#!/usr/bin/env python3
"""Tries the wrong programs of some crates, and of no others.

    alone.py CRATE ..    says whether each is refused at the goal that it names

`rt must-fail CRATE` says only that the prover refuses each edit. This is for whoever writes wrong programs: the gate tries all of them. `rt check` proves each crate first, if
it is not proved."""
import subprocess
import sys

from refusals import ROOT, faults
from tries import Tries
from wrong import Fault, all_edits


def main(crates):
    edits = [edit for edit in all_edits(ROOT) if edit.crate in crates]
    for crate in crates:
        if crate not in {edit.crate for edit in edits}:
            raise Fault(f"{crate} has no wrong programs")
    for crate in crates:
        done = subprocess.run(["rt", "check"], cwd=ROOT / "crates" / crate, stdout=subprocess.PIPE, stderr=subprocess.STDOUT, encoding="utf-8", errors="replace")
        if done.returncode != 0:
            raise Fault(f"{crate} is not proved: {done.stdout.strip()[-300:]}")
    wrong = [f"{edit.crate}/{edit.label}: {fault}" for edit, log in Tries(edits, ROOT, ROOT / "build/refusals").logs() for fault in faults(edit, log)]
    print(*wrong, sep="\n", end="\n" if wrong else "")
    if wrong:
        raise Fault(f"{len(wrong)} refusals are not what the edits say")
    print(f"{sum(len(edit.programs) for edit in edits)} wrong programs in {len(edits)} checks, each refused at its goal")


if __name__ == "__main__":
    if len(sys.argv) < 2:
        print(__doc__, file=sys.stderr)
        sys.exit(2)
    try:
        main(sys.argv[1:])
    except Fault as fault:
        print(f"alone.py: {fault}", file=sys.stderr)
        sys.exit(1)
