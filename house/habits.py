#!/usr/bin/env python3
"""What every crate keeps to, where a script can tell: no line of a proof or a definition is over 200 characters; a path of eight steps back or more
into the context of a proof has a name, given once by a `let`; and a function's name stands in one crate alone, but for the families below, whose
members do the same for different things."""
import re
import sys
from pathlib import Path

ROOT = Path(__file__).resolve().parent.parent
LONGEST = 200
STEPS = 8
GENERATED = "crates/class_builtin/specs/Words.antt"

FAMILIES = {
    "main": "a program",
    "start": "the state before anything was met",
    "feed": "a detector's step",
    "feed_run": "a detector's steps at characters with the same flags, at once",
    "counts": "what a detector answers",
    "ratios": "the eight ratios: of counts, and of the detectors by their counts",
    "letter": "a detector's step at a letter",
    "plain": "a detector's step at a character that only counts",
    "first_bad": "the first bad entry of a lent table",
    "least": "the lesser of two numbers",
    "clear": "all words or bytes made 0",
    "holds": "whether a number stands in a list, of u32 or of u16",
    "wide": "a byte or an entry of 16 bits as a u32",
    "eight_ascii": "whether eight are ASCII, bytes that are read or code points that are written",
    "past_eights": "past whole eights of ASCII, of the one or of the other",
    "past_ones": "past single ones",
    "past_ascii": "past a run of ASCII",
    "report": "what a caller prints: the program's line, a month's report",
}
# the library's entries for a host, and their exports
EXPORTED = {"host", "host_c"}
# what a program that replays a list does with a case
REPLAYS = re.compile(r"same_\w+|sum_bits")


def faults_of_lines():
    for path in sorted((ROOT / "crates").glob("*/[sp]*/**/*.antt")):
        where = path.relative_to(ROOT)
        if str(where) == GENERATED:
            continue
        for number, line in enumerate(path.read_text(encoding="utf-8").split("\n"), 1):
            if len(line) > LONGEST:
                yield f"{where}:{number}: {len(line)} characters"
            if line.count(".before") >= STEPS and not line.lstrip().startswith("let "):
                yield f"{where}:{number}: a path of {STEPS} steps or more has no name"


def faults_of_names():
    crates = {}
    for path in sorted((ROOT / "crates").glob("*/src/**/*.rt")):
        for name in re.findall(r"(?m)^ *(?:pub )?(?:extern \"C\" )?fn (\w+)[<(]", path.read_text(encoding="utf-8")):
            crates.setdefault(name, set()).add(path.relative_to(ROOT).parts[1])
    for name, found in sorted(crates.items()):
        replay = REPLAYS.fullmatch(name) and all(c.startswith("replay_") for c in found)
        if len(found) > 1 and name not in FAMILIES and not replay and found != EXPORTED:
            yield f"fn {name} stands in {', '.join(sorted(found))}"


def main():
    faults = [*faults_of_lines(), *faults_of_names()]
    if faults:
        print("\n".join(f"habits.py: {f}" for f in faults), file=sys.stderr)
        sys.exit(1)
    print("house: lines, paths and names are as they should be")


if __name__ == "__main__":
    main()
