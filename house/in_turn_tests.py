#!/usr/bin/env python3
"""Whether house/in_turn.py lets the oldest run and the others wait, whoever they are, and only those of its own repository. `rattle` is a copy of `sleep` here."""
import os
import shutil
import signal
import subprocess
import sys
import tempfile
import time
from pathlib import Path

import in_turn


def told(process):
    return "waits" if os.sched_getscheduler(process.pid) == os.SCHED_IDLE else "runs"


def started(command, folder):
    process = subprocess.Popen([command, "60"], cwd=folder)
    time.sleep(0.05)  # so that one is older than the next
    return process


class Below:
    """A process in another folder that one in this folder has started, as rt starts checks of edits."""

    def __init__(self, command, folder, other):
        words = ["sh", "-c", '(cd "$2"; exec "$1" 60 >/dev/null) & echo $!; wait', "sh", command, other]
        self.above = subprocess.Popen(words, cwd=folder, stdout=subprocess.PIPE, text=True)
        self.pid = int(self.above.stdout.readline())
        time.sleep(0.1)

    def kill(self):
        os.kill(self.pid, signal.SIGKILL)

    def wait(self):
        self.above.wait()


def main():
    if not in_turn.may():
        print("in_turn: this user may not take a process back from waiting: checks share the processors")
        return
    at_a_time, wrong, waiting = len(os.sched_getaffinity(0)), [], set()
    with tempfile.TemporaryDirectory() as room, tempfile.TemporaryDirectory() as elsewhere:
        in_turn.HERE = Path(room).resolve()
        os.chdir(elsewhere)  # else these are checks of the repository that this is started in, too
        (Path(room) / "crates/one").mkdir(parents=True)
        prover = shutil.copy(shutil.which("sleep"), Path(room) / in_turn.PROVER)
        checks = [started(prover, f"{room}/crates/one") for _ in range(at_a_time + 1)] + [Below(prover, room, elsewhere)]
        others = [started(prover, elsewhere), started("sleep", f"{room}/crates/one")]
        try:
            in_turn.look(waiting)
            if [told(c) for c in checks] != ["runs"] * at_a_time + ["waits"] * 2:
                wrong.append("the oldest do not run, or the others do not wait")
            checks[0].kill()
            checks[0].wait()
            in_turn.look(waiting)
            if [told(c) for c in checks[1:]] != ["runs"] * at_a_time + ["waits"]:
                wrong.append("the next does not take the place of one that has ended")
            if [told(c) for c in others] != ["runs"] * 2:
                wrong.append("what is no check of this repository waits")
        finally:
            for process in checks + others:
                process.kill()
                process.wait()
    if wrong:
        print(f"in_turn_tests.py: {'; '.join(wrong)}", file=sys.stderr)
        sys.exit(1)
    print(f"in_turn: of {at_a_time + 2} checks the oldest {at_a_time} run, and the next where one has ended")


if __name__ == "__main__":
    main()
