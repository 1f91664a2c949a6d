"""Tries wrong programs as `rt ci` does, to keep all that the prover says of each: rt tells the first error alone, and an edit holds many programs.

An edit is tried by rt's own function, over a folder with what was proved before: the first of a crate from nothing, or over what `rt check` kept, the others over what that
left. A log that was made for the same edit, crate, libraries and kit stands in build/refusals, and is not made again."""
import contextlib
import hashlib
import os
import shutil
import signal
import tempfile
from concurrent.futures import ThreadPoolExecutor
from pathlib import Path

from kit import kit

ALONE = ["--jobs", "1"]
MEMORY = 3_000_000_000  # of one check, at most
LOGIC = "logic=not-proved"


class Tries:
    """The tries of a tree's edits. The libraries of the crates are those in `tree`, as `rt ci` or `rt check` has built them there."""

    def __init__(self, edits, tree, kept):
        self.rt, self.edits, self.tree, self.kept = kit(), edits, Path(tree), Path(kept)
        self.crates = {crate.name: crate for crate in self.rt.rtlib.crates_below(str(self.tree))}
        self.made = 0

    def key(self, edit):
        """A sum of all that a log comes from."""
        crate = self.rt.stamp_of(self.crates[edit.crate], {})
        return hashlib.sha256(f"{crate} {edit.path.read_text(encoding='utf-8')}".encode()).hexdigest()

    def known(self, edit):
        """The log of an earlier try of the same, or None."""
        path = self.kept / edit.crate / f"{edit.label}.log"
        with contextlib.suppress(OSError):
            key, _, log = path.read_text(encoding="utf-8", errors="replace").partition("\n")
            return log if key == self.key(edit) else None

    def keep(self, edit, log):
        path = self.kept / edit.crate / f"{edit.label}.log"
        path.parent.mkdir(parents=True, exist_ok=True)
        path.write_text(f"{self.key(edit)}\n{log}", encoding="utf-8")

    def tried(self, edit, over):
        """What the prover says of the crate with the edit in it; `over` has what was proved before, and gains what is proved now."""
        crate = self.crates[edit.crate]
        texts, why = self.rt.read_edit(str(edit.path), crate.folder)
        if why:
            raise edit.says(why)
        ran = self.rt.checked(crate, texts, ALONE, over)
        if ran.returncode == -signal.SIGKILL:  # most likely for memory
            ran = self.rt.checked(crate, texts, ALONE, over)
        self.made += 1
        if LOGIC in ran.stdout:
            self.keep(edit, ran.stdout)
        return ran.stdout

    def logs(self):
        """Each edit with its log."""
        found = {edit: log for edit in self.edits if (log := self.known(edit)) is not None}
        left = {}
        for edit in self.edits:
            if edit not in found:
                left.setdefault(edit.crate, []).append(edit)
        fixed = os.environ.get("RT_JOBS", "")
        at_once = int(fixed) if fixed.isdigit() and int(fixed) else max(1, min(self.rt.processors(), int(0.85 * self.rt.free() / MEMORY)))
        with tempfile.TemporaryDirectory(prefix="refusals-") as room, ThreadPoolExecutor(at_once) as pool:

            def first(crate):
                """A crate's first edit, and then the others, each over a copy of what it left."""
                over, start = f"{room}/{crate}", f"{self.crates[crate].folder}/out/incremental"
                if os.path.isdir(start):
                    self.rt.linked(start, over)
                else:
                    os.mkdir(over)
                found[left[crate][0]] = self.tried(left[crate][0], over)
                return [pool.submit(other, edit, over, number) for number, edit in enumerate(left[crate][1:])]

            def other(edit, over, number):
                own = f"{over}.{number}"
                self.rt.linked(over, own)
                found[edit] = self.tried(edit, own)
                shutil.rmtree(own, ignore_errors=True)

            # the longest first
            for begun in [pool.submit(first, crate) for crate in sorted(left, key=lambda it: -self.rt.need(self.crates[it]))]:
                for task in begun.result():
                    task.result()
        return [(edit, found[edit]) for edit in self.edits]
