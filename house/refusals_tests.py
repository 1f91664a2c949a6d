#!/usr/bin/env python3
"""Whether house/refusals.py notices what it is there for. A small repository of three crates is made and its wrong programs are tried: rt refuses every edit. The first crate's round is as it
should be; the second's has a right program in it; in the third's a program is refused elsewhere than it says. And
the logs of this repository's edits (build/refusals) are read once more with faults put into them."""
import subprocess
import sys
import tempfile
from pathlib import Path

import refusals
from wrong import all_edits

ROOT = Path(__file__).resolve().parent.parent

SOURCE = """#![tactic(auto)]

ghost use Rattle.std.specs.Prelude.{◌≡◌};

pub fn seven() -> usize
    ensures { result ≡ 7 }
{
    7
}

pub fn lesser(x: usize) -> usize
    ensures { result ≡ 9 }
{
    if x < 9 { 9 } else { 9 }
}
"""
SEVEN = "wrong: seven_is_eight: Seven is eight.\nrefused: seven at returns\nfile: src/lib.rt\nold:     7\nnew:     8\n"
LESSER = "wrong: {0}: {0}.\nrefused: lesser at {1}\nfile: src/lib.rt\nold: 9 {{ 9 }} else {{ 9 }}\nnew: {2}\n"
ROUNDS = {
    "good": LESSER.format("ten_where_less", "returns-then-x-lt9", "9 { 10 } else { 9 }"),
    "right": LESSER.format("another_test", "returns-then-x-lt9", "8 { 9 } else { 9 }"),
    "elsewhere": LESSER.format("ten_where_not_less", "returns-then-x-lt9", "9 { 9 } else { 10 }"),
}
FOUND = [
    "right/round_1: another_test is not refused at returns-then-x-lt9 of lesser",
    "elsewhere/round_1: ten_where_not_less is not refused at returns-then-x-lt9 of lesser, but at returns-else-x-lt9",
]


def tried_by_the_prover(room):
    """What the reader says of the small repository."""
    for crate, program in ROUNDS.items():
        (room / "crates" / crate / "src").mkdir(parents=True)
        (room / "crates" / crate / "must-fail").mkdir()
        (room / "crates" / crate / "src/lib.rt").write_text(SOURCE, encoding="utf-8")
        (room / "crates" / crate / "must-fail/round_1.edit").write_text(f"{SEVEN}\n{program}", encoding="utf-8")
    (room / "crates.txt").write_text("".join(f"{crate}:\n" for crate in ROUNDS), encoding="utf-8")
    ran = subprocess.run(["rt", "must-fail"], cwd=room, capture_output=True, text=True)
    if ran.returncode != 0:
        raise SystemExit(f"refusals_tests.py: rt must-fail: {ran.stdout[-300:]}")
    return refusals.read(room, room, room / "logs")[1]


def without(place):
    """The log as it would be if that function were proved."""
    return lambda log, edit: "\n".join(
        line for line in log.split("\n")
        if not ((found := refusals.ERROR.match(line)) and refusals.place_of(found.group(1)) == place) and f"expected answers in ./proofs/{place}/" not in line)


def faults_in_a_log(edit, log):
    """(what, the log with that fault in it)"""
    place, need = edit.programs[0].refused[0]
    home = "./proofs"
    yield "a right program", without(place)(log, edit)
    yield "an error in another function", f"{home}/another/Answers.antt:1:1: error: `returns`: it does not follow\n{log}"
    yield "an error for the shape", f"{home}/{place}/Answers.antt:1:1: error: `{need}`: module `Goals` has no `{need}`\n{log}"
    yield "a proof that passes", log.replace("logic=not-proved", "logic=proved")


def main():
    missed = []
    with tempfile.TemporaryDirectory() as room:
        found = tried_by_the_prover(Path(room))
    if sorted(found) != sorted(FOUND):
        missed.append(f"of the small repository it says {found}")
    count = 0
    for edit in all_edits(ROOT):
        path = ROOT / "build/refusals" / edit.crate / f"{edit.label}.log"
        if edit.kind != "round":
            continue
        log = path.read_text(encoding="utf-8")
        for what, faulty in faults_in_a_log(edit, log):
            count += 1
            if not list(refusals.faults(edit, faulty)):
                missed.append(f"{edit.crate}/{edit.label}: {what}")
    if missed or not count:
        print("\n".join(missed))
        print(f"refusals_tests.py: {len(missed)} faults are not found")
        sys.exit(1)
    print(f"{len(FOUND)} faults tried with the prover and {count} put into its logs, all found")


if __name__ == "__main__":
    main()
