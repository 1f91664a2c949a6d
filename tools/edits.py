#!/usr/bin/env python3
"""Says which must-fail edits no longer fit the files that they change.

    edits.py [CRATE..]    lists each pair whose `old:` does not stand exactly once in its file, as the earlier pairs leave that file"""
import sys
from pathlib import Path

ROOT = Path(__file__).resolve().parent.parent


def pairs(text):
    """The pairs of an edit: the wrong program's name, its line, its file, the old and the new text."""
    name, file, old = "", "", None
    for number, line in enumerate(text.split("\n"), 1):
        if line.startswith("wrong: "):
            name = line[7:].partition(":")[0]
        elif line.startswith("file: "):
            file = line[6:].strip()
        elif line.startswith("old: "):
            old = line[5:]
        elif line.startswith("new:"):
            yield name, number, file, old, line[4:].removeprefix(" ")
            old = None


def misfits(edit):
    """The pairs of an edit that cannot be applied."""
    crate, texts = edit.parent.parent, {}
    for name, number, file, old, new in pairs(edit.read_text(encoding="utf-8")):
        if file not in texts:
            path = crate / file
            texts[file] = path.read_text(encoding="utf-8") if path.is_file() else ""
        found = texts[file].count(old)
        if found != 1:
            yield name, number, file, found, old, new
        else:
            texts[file] = texts[file].replace(old, new)


def main(crates):
    bad = 0
    for edit in sorted((ROOT / "crates").glob("*/must-fail/*.edit")):
        if crates and edit.parent.parent.name not in crates:
            continue
        for name, number, file, found, old, new in misfits(edit):
            bad += 1
            print(f"{edit.relative_to(ROOT)}:{number}: {name}: {found} times in {file}\n    old: {old}\n    new: {new}")
    print(f"{bad} pairs do not fit")
    return 1 if bad else 0


if __name__ == "__main__":
    sys.exit(main(sys.argv[1:]))
