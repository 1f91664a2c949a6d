#!/usr/bin/env python3
"""Lets the checks that rt has under way go one after the other, as many at a time as there are processors.

    in_turn.py    until the process that started it has ended

rt starts as many checks as there are processors, and some share their searches among processes of their own; ./test proves the archive's crate beside them. Checks
that share a processor drive one another's memory out of its caches (docs/BENCHMARKS.md has what that costs). So the oldest run as they are, and the others where a processor
has nothing else to do. Nothing is stopped, and no answer hangs on it: where it has ended, or this user may not, the checks share the processors."""
import os
import time
from pathlib import Path

HERE = Path(__file__).resolve().parent.parent
PROVER = "rattle"
SECONDS = 0.3  # between two looks
BEGAN, PARENT = 19, 1  # the fields of /proc/N/stat behind the name


def read(process):
    """The name of a process, and what /proc/N/stat has behind it."""
    name, _, fields = Path(f"/proc/{process}/stat").read_text(encoding="utf-8").partition(" (")[2].rpartition(") ")
    return name, [int(field) if field.lstrip("-").isdigit() else field for field in fields.split()]


def is_ours(process, fields):
    """Whether it works in a crate's folder of this repository, or in a copy of one for a process that works at the top, as rt does."""
    folder = lambda it: Path(os.readlink(f"/proc/{it}/cwd"))
    return folder(process).is_relative_to(HERE / "crates") or folder(fields[PARENT]) == HERE


def began(process):
    """When a process of the prover that works on this repository began, else None."""
    try:
        name, fields = read(process)
        return fields[BEGAN] if name == PROVER and is_ours(process, fields) else None
    except OSError:  # it has ended, or is another user's
        return None


def put(process, waits):
    """All threads of a process; one that is made later is as the one that makes it."""
    for thread in os.listdir(f"/proc/{process}/task"):
        os.sched_setscheduler(int(thread), os.SCHED_IDLE if waits else os.SCHED_OTHER, os.sched_param(0))


def look(waiting):
    """Who runs and who waits, by age; `waiting` has those that do already."""
    checks = sorted((start, int(p)) for p in os.listdir("/proc") if p.isdigit() and (start := began(p)) is not None)
    for place, (_, process) in enumerate(checks):
        waits = place >= len(os.sched_getaffinity(0))
        if waits != (process in waiting):
            try:
                put(process, waits)
            except OSError:  # it has ended
                continue
            (waiting.add if waits else waiting.discard)(process)


def may():
    """Whether this user may take a process back from waiting: tried on this one."""
    try:
        put(os.getpid(), True)
        put(os.getpid(), False)
    except OSError:
        return False
    return True


def main():
    parent, waiting = os.getppid(), set()
    if not may():
        return
    while os.getppid() == parent:
        look(waiting)
        time.sleep(SECONDS)


if __name__ == "__main__":
    main()
