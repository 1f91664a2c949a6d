#!/usr/bin/env python3
"""Counts the places of docs/DESIGN-PASS.md in crates/*/src and crates/*/proofs: `python3 -B tools/places.py [-v] [ROOT]`, -v with each place."""
import collections
import glob
import os
import re
import sys

ROOT = next((a for a in sys.argv[1:] if a != "-v"), os.path.dirname(os.path.dirname(os.path.abspath(__file__))))
VERBOSE = "-v" in sys.argv[1:]
REASON = re.compile(r"^\s*// Stays (?:a|an|own|by|as) ")


def sources():
    for path in sorted(glob.glob(ROOT + "/crates/*/src/**/*.rt", recursive=True)):
        with open(path, encoding="utf-8") as file:
            yield os.path.relpath(path, ROOT + "/crates"), file.read()


def plain(text):
    """The text without comments, line by line."""
    return [line.split("//")[0] for line in text.split("\n")]


def lines_with(pattern):
    """(place, whether a reason stands beside it) of each line of code that the pattern matches."""
    found = []
    for path, text in sources():
        before = text.split("\n")
        for at, line in enumerate(plain(text)):
            if re.search(pattern, line) and not line.startswith("ghost use"):
                near = before[max(0, at - 1) : at + 1]
                found.append((f"{path}:{at + 1}", any(REASON.search(it) for it in near)))
    return found


def functions():
    """(place, name, head, body, reason) of each function."""
    head = re.compile(r"(?m)^( *)(?:pub )?(?:unsafe )?(?:extern \"C\" )?fn (\w+)")
    for path, text in sources():
        for it in head.finditer(text):
            end = re.compile(r"(?m)^%s\}" % it[1]).search(text, it.end())
            whole = text[it.start() : end.end() if end else len(text)]
            top, _, body = whole.partition("\n%s{\n" % it[1])
            at = text.count("\n", 0, it.start())
            above = text.split("\n")[max(0, at - 3) : at]
            yield f"{path}:{at + 1}", it[2], top, body, any(REASON.search(l) for l in above)


def shape(body):
    """A body without what may differ between twins: constants, numbers, types, paths."""
    body = "\n".join(plain(body))
    body = re.sub(r"\b[A-Z][A-Z0-9_]+\b|\b0x[0-9A-Fa-f_]+\b|\b\d[\d_]*(?:\.\d+)?\b", "#", body)
    body = re.sub(r"\b(?:u8|u16|u32|u64|usize|f32|f64|bool)\b|\b[A-Z]\w*\b", "T", body)
    body = re.sub(r"\b\w+::", "", body)
    return " ".join(re.findall(r"\w+|\S", body))


def twins():
    groups = collections.defaultdict(list)
    for place, name, top, body, reason in functions():
        made = shape(body)
        if len(made.split()) >= 14:
            groups[made].append((f"{place} {name}", reason))
    return [it for group in groups.values() if len(group) > 1 for it in group]


def facts():
    """Each conjunct of a `requires` that stands in three functions or more."""
    held = collections.defaultdict(list)
    for place, name, top, body, reason in functions():
        for clause in re.findall(r"(?m)^\s*requires(?: \w+)? \{ (.*) \}$", top):
            for fact in re.split(r" × (?![^(]*\))", clause):
                held[fact.strip().strip("()")].append(f"{place} {name}")
    return [(f"{len(places)} functions: {fact}", False) for fact, places in held.items() if len(places) > 2]


def together():
    """Functions that take the two tables side by side."""
    return [(f"{place} {name}", reason) for place, name, top, body, reason in functions() if re.search(r"classes: &\[u8\],\s*pairs: &\[u8\]", top)]


def answers():
    found = []
    for path in sorted(glob.glob(ROOT + "/crates/*/proofs/**/Answers.antt", recursive=True)):
        with open(path, encoding="utf-8") as file:
            found += [(f"{os.path.relpath(path, ROOT + '/crates')} {it}", False) for it in re.findall(r"(?m)^pub (\S+) : goal", file.read())]
    return found


def lemmas():
    found = []
    for path in sorted(glob.glob(ROOT + "/crates/*/proofs/**/*.antt", recursive=True)):
        if os.path.basename(path) in ("Answers.antt", "Invariants.antt"):
            continue
        with open(path, encoding="utf-8") as file:
            found += [(f"{os.path.relpath(path, ROOT + '/crates')} {it}", False) for it in re.findall(r"(?m)^ *(?:pub )?([\w'-]+) : ", file.read())]
    return found


def own_enums():
    found = []
    for path, text in sources():
        for it in re.finditer(r"(?m)^pub enum (\w+) \{\n((?:.*\n)*?)\}", text):
            if re.search(r"(Refused|Fault|Nothing|Never)\b", it[2]):
                found.append((f"{path} {it[1]}", bool(REASON.search(text[: it.start()].split("\n")[-2]))))
    return found


def numbers_in_structs():
    found = []
    for path, text in sources():
        for it in re.finditer(r"(?m)^pub struct (\w+)[^\n]* \{\n((?:.*\n)*?)\}", text):
            if not it[1].startswith("Host"):
                found += [(f"{path} {it[1]}.{field}", False) for field in re.findall(r"pub (number|detector): u32,", it[2])]
    return found


def flags():
    """A truth value in a struct that does not cross to C: a flag, with what it speaks of beside it or not."""
    found = []
    for path, text in sources():
        for it in re.finditer(r"(?m)^pub struct (\w+)[^\n]* \{\n((?:.*\n)*?)\}", text):
            if not it[1].startswith("Host"):
                found += [(f"{path} {it[1]}.{field}", False) for field in re.findall(r"(\w+): bool,", it[2])]
    return found


POINTS = [
    ("1 own enums of the shape of Option or Result", own_enums),
    ("1 refusals by number", lambda: [it for it in lines_with(r"^pub const [A-Z_]+: u32 = [1-9]\d*;") if it[0].startswith("base/src/refusals")]),
    ("1 a refusal handed on by hand", lambda: lines_with(r"(?:\w+::Refused|Err)\((\w+)\) => (?:return )?(?:\w+::Refused|Err)\(\1\)")),
    ("1 a refusal or a kind as a number in a struct that does not cross to C", numbers_in_structs),
    ("1 a flag in a struct that does not cross to C", flags),
    ("2 functions that differ in a type, a constant or a name only", twins),
    ("3 while and loop", lambda: lines_with(r"^\s*(?:while|loop)\b")),
    ("4 conversions by hand", lambda: lines_with(r"\bfn (?:flat_\w+|wide\w*|bytes_of|as_byte|\w+_flat|flags_of_bits|to_\w+)\(")),
    ("5 facts in the contracts of three functions or more", facts),
    ("5 functions that take both tables side by side", together),
    ("6 a list and a place in it side by side", lambda: lines_with(r"out: &mut \[\w+\], (?:at|to): usize")),
    ("6 searches by hand in what is sorted", lambda: lines_with(r"\bhalf\b.* = |\blet half\b|size / 2|\(low \+ high\) / 2|/ 2;$")),
    ("7 a step chosen by a number", lambda: lines_with(r"match (?:kind|word\(|step|which)")),
    ("8 answers", answers),
    ("8 lemmas", lemmas),
]

for title, places in POINTS:
    found = places()
    kept = sum(reason for _, reason in found)
    print(f"{len(found):6} {title}" + (f", {kept} with a reason beside them" if kept else ""))
    if VERBOSE and not title.startswith("8"):
        for place, reason in found:
            print("          " + place + ("  (reason)" if reason else ""))
