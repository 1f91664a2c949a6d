#!/usr/bin/env python3
"""The kit's rt as a module: for what rt itself does, and has no command for.

    kit.py archive TREE NAME OUT.a    the static library NAME of TREE as an archive, in the words in which `rt ci` builds what it proves, over the libraries that it has
                                      built in TREE (house/proved)"""
import importlib.machinery
import importlib.util
import os
import shutil
import sys


class NoKit(Exception):
    pass


def kit():
    sys.dont_write_bytecode = True
    found = shutil.which("rt")
    if found is None:
        raise NoKit("the Rattle kit is missing: there is no rt on the path")
    loader = importlib.machinery.SourceFileLoader("rt", os.path.realpath(found))
    made = importlib.util.module_from_spec(importlib.util.spec_from_loader("rt", loader))
    loader.exec_module(made)
    made.rtlib.guarded()  # here, before any thread
    return made


def archive(tree, name, out):
    """Proves and compiles the crate, and holds its last line to what `rt ci` holds it to."""
    rt = kit()
    rt.Crate.allowed = rt.handles_of(tree)
    rt.rtlib.Crate = rt.Crate
    crate = {crate.name: crate for crate in rt.rtlib.crates_below(tree)}[name]
    words = ["build", *crate.words(["--jobs", "1"], keeps=False), "--toolchain", f"{rt.KIT}/toolchain", "--backend", "llvm", "-o", out]
    return crate.prove(words)


if __name__ == "__main__":
    if len(sys.argv) != 5 or sys.argv[1] != "archive":
        print(__doc__, file=sys.stderr)
        sys.exit(2)
    try:
        sys.exit(archive(os.path.realpath(sys.argv[2]), sys.argv[3], os.path.realpath(sys.argv[4])))
    except NoKit as fault:
        print(f"kit.py: {fault}", file=sys.stderr)
        sys.exit(1)
