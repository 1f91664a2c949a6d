#!/usr/bin/env python3
"""Whether house/definitions.py, promises.py, habits.py and header.py notice what they are there for: each fault is put into a copy of the tree, must be found, and
is taken back."""
import re
import shutil
import subprocess
import sys
import tempfile
from pathlib import Path

ROOT = Path(__file__).resolve().parent.parent
before = {}  # what stood in each file that a fault has changed, None where there was none


def write(path, text):
    if path not in before:
        before[path] = path.read_text(encoding="utf-8") if path.is_file() else None
    path.write_text(text, encoding="utf-8")


def undo():
    for path, text in before.items():
        if text is None:
            path.unlink()
        else:
            path.write_text(text, encoding="utf-8")
    before.clear()


def changed(path, old, new):
    text = path.read_text(encoding="utf-8")
    assert old in text, f"{path}: {old}"
    write(path, text.replace(old, new, 1))


def law_among_definitions(tree):
    path = tree / "crates/base/specs/Numbers.antt"
    write(path, path.read_text(encoding="utf-8") + "\npub bump_of_true : bump true ≡ 1\nbump_of_true = refl\n")


def believed_word_inside(tree):
    inner = tree / "crates/md_meaning/specs/Inner/Strange.antt"
    write(inner, "-- Assumes nothing.\nuse Rattle.std.specs.Prelude.{Float}\nuse Rattle.std.specs.Float.{binary32}\nuse Rattle.std.specs.Float.Ieee.{of_bits}\n\nabbrev pub DEFAULT : Float\nDEFAULT = of_bits binary32 0x3E19999A\n")
    page = tree / "crates/md_meaning/specs/MessRatio.antt"
    changed(page, "DEFAULT_THRESHOLD = of_bits binary32 0x3E19999A", "DEFAULT_THRESHOLD = DEFAULT")
    changed(page, "use Rattle.md_meaning.specs.Scan", "use Rattle.md_meaning.specs.Inner.Strange.{DEFAULT}\nuse Rattle.md_meaning.specs.Scan")


def strange_line(tree):
    path = tree / "crates/base/specs/Numbers.antt"
    write(path, path.read_text(encoding="utf-8") + "\npostulate strange\n")


def page_edited(tree):
    changed(tree / "docs/DEFINITIONS.md", "bump b = cond b 1 0", "bump b = cond b 1 1")


def definition_edited(tree):
    changed(tree / "crates/base/specs/Numbers.antt", "bump b = cond b 1 0", "bump b = cond b 1 1")


def sentence_without_definition(tree):
    path = tree / "house/sentences.txt"
    write(path, path.read_text(encoding="utf-8") + "\n> A sentence that nobody has defined.\n")


def definition_without_sentence(tree):
    changed(tree / "house/sentences.txt", "= ratio_demand/Demand\n", "")


def program_not_listed(tree):
    edit = tree / "crates/base/must-fail/round_2.edit"
    write(edit, "wrong: strange: A strange program.\nrefused: pick at returns-then-b\nfile: src/lib.rt\nold:     if b { x } else { y }\nnew:     if b { x } else { x }\n")


def first_round(tree):
    return tree / "crates/base/must-fail/round_1.edit"


def replaced_text_gone(tree):
    changed(first_round(tree), "old:     if b { x } else { y }", "old:     if b { x } else { z }")


def need_unknown(tree):
    changed(first_round(tree), "refused: is_set at returns", "refused: is_set at returns-9")


def refused_elsewhere(tree):
    changed(first_round(tree), "refused: is_set at returns", "refused: holds at loop-k-preserved")


def function_twice_in_a_round(tree):
    path = first_round(tree)
    write(path, path.read_text(encoding="utf-8") + "\nwrong: again: Again.\nrefused: is_set at returns\nfile: src/lib.rt\nold: flags / bit\nnew: bit / flags\n")


def definition_in_a_round(tree):
    path = first_round(tree)
    write(path, path.read_text(encoding="utf-8") + "\nwrong: again: Again.\nrefused: is_set at returns\nfile: specs/First.antt\nold: first f n = seek f n 0\nnew: first f n = seek f n 1\n")


def host_round(tree):
    return tree / "crates/host/must-fail/round_1.edit"


def caller_not_named(tree):
    goal = re.search(r"refused: drasumira_coherence_default at \S+\n", host_round(tree).read_text(encoding="utf-8"))
    changed(host_round(tree), goal[0], "")


def caller_changed_too(tree):
    path = host_round(tree)
    write(path, path.read_text(encoding="utf-8") + "\nwrong: quarter: A quarter.\nrefused: drasumira_coherence_default at returns\nfile: src/lib.rt\nold: cd::DEFAULT_THRESHOLD,\nnew: 0.25,\n")


def long_line(tree):
    changed(tree / "crates/base/proofs/Laws/Put.antt", "-- Laws of `put`: ", "-- Laws of `put`: " + "its length, " * 20)


def path_without_name(tree):
    changed(tree / "crates/base/proofs/is_set/Answers.antt", "returns c = ", "returns c = c" + ".before" * 8 + ".")


def name_of_another(tree):
    changed(tree / "crates/md/src/lib.rt", "pub fn whole_score(", "pub fn refuse(")


HEADER = "include/drasumira.h"


def entry_not_in_the_header(tree):
    path = tree / "crates/host_c/src/lib.rt"
    write(path, path.read_text(encoding="utf-8") + "\n#[unsafe(no_mangle)]\npub extern \"C\" fn drasumira_strange(text: &[u32]) -> HostRead\n{\n    strange(text)\n}\n")


def entry_gone(tree):
    changed(tree / HEADER, "DrasumiraRing drasumira_ring_open(const uint8_t *ring, size_t n);", "")


def entry_of_the_header_alone(tree):
    changed(tree / HEADER, "drasumira_ring_open(", "drasumira_ring_start(")


def export_of_another_promise(tree):
    changed(tree / "crates/host_c/src/lib.rt", "bytes.now (length out.old)", "bytes.now (length out.new)")


def argument_not_const(tree):
    changed(tree / HEADER, "drasumira_read(const uint8_t *bytes", "drasumira_read(uint8_t *bytes")


def large_answer_by_value(tree):
    changed(tree / HEADER, "DrasumiraScore *drasumira_close(DrasumiraScore *told, ", "DrasumiraScore drasumira_close(")


def declared_otherwise_in_rust(tree):
    changed(tree / "rust/src/host.rs", "fn drasumira_report(rows: *const u32", "fn drasumira_report(rows: *const u8")


def declared_otherwise_in_the_document(tree):
    changed(tree / "docs/HOST.md", "`HostRead (const uint32_t *rows, size_t n, uint8_t *out", "`HostRead (const uint32_t *rows, size_t n, uint32_t *out")


def member_moved(tree):
    changed(tree / "rust/src/host/why.rs", "    pub detector: u32,\n    pub count: u32,", "    pub count: u32,\n    pub detector: u32,")


def member_added(tree):
    changed(tree / "rust/src/host.rs", "pub counts: [[u32; 3]; 8],", "pub counts: [[u32; 3]; 9],")


def offset_not_asserted(tree):
    changed(tree / HEADER, "DRASUMIRA_AT(DrasumiraScore, fed, 44);\n", "")


def size_wrong_in_the_document(tree):
    changed(tree / "docs/HOST.md", "| HostScore | 148 |", "| HostScore | 152 |")


def refusal_without_a_number(tree):
    changed(tree / "crates/base/src/refusals.rt", "    BadState = 19,", "    BadState = 19,\n    Strange = 20,")


def refusal_not_in_the_header(tree):
    refusal_without_a_number(tree)
    changed(tree / "rust/src/refusal.rs", "pub const BAD_STATE: u32 = 19;", "pub const BAD_STATE: u32 = 19;\n    pub const STRANGE: u32 = 20;")


def limit_changed(tree):
    changed(tree / "crates/base/src/limits.rt", "pub const WORK_PER_POINT: usize = 8;", "pub const WORK_PER_POINT: usize = 9;")


def flag_moved(tree):
    changed(tree / HEADER, "DRASUMIRA_FLAG_CJK 0x8000\n", "DRASUMIRA_FLAG_CJK 0x800\n")


def threshold_of_before(tree):
    changed(tree / "rust/src/lib.rs", "pub const NEW_ROOMS: f32 = 0.15;", "pub const NEW_ROOMS: f32 = 0.2;")


def version_of_before(tree):
    changed(tree / "rust/Cargo.toml", '\nversion = "', '\nversion = "9')


FAULTS = [
    ("definitions.py", law_among_definitions),
    ("definitions.py", believed_word_inside),
    ("definitions.py", strange_line),
    ("definitions.py", page_edited),
    ("definitions.py", definition_edited),
    ("definitions.py", sentence_without_definition),
    ("definitions.py", definition_without_sentence),
    ("promises.py", program_not_listed),
    ("promises.py", replaced_text_gone),
    ("promises.py", need_unknown),
    ("promises.py", refused_elsewhere),
    ("promises.py", function_twice_in_a_round),
    ("promises.py", definition_in_a_round),
    ("promises.py", caller_not_named),
    ("promises.py", caller_changed_too),
    ("habits.py", long_line),
    ("habits.py", path_without_name),
    ("habits.py", name_of_another),
    ("header.py", entry_not_in_the_header),
    ("header.py", entry_gone),
    ("header.py", entry_of_the_header_alone),
    ("header.py", export_of_another_promise),
    ("header.py", argument_not_const),
    ("header.py", large_answer_by_value),
    ("header.py", declared_otherwise_in_rust),
    ("header.py", declared_otherwise_in_the_document),
    ("header.py", member_moved),
    ("header.py", member_added),
    ("header.py", offset_not_asserted),
    ("header.py", size_wrong_in_the_document),
    ("header.py", refusal_without_a_number),
    ("header.py", refusal_not_in_the_header),
    ("header.py", limit_changed),
    ("header.py", flag_moved),
    ("header.py", threshold_of_before),
    ("header.py", version_of_before),
]


def run(tree, script):
    return subprocess.run([sys.executable, "-B", str(tree / "house" / script)], capture_output=True, text=True).returncode


def main():
    missed = []
    with tempfile.TemporaryDirectory() as room:
        tree = Path(room)
        for part in ("crates", "docs", "house", "include", "rust"):
            shutil.copytree(ROOT / part, tree / part, symlinks=True, ignore=shutil.ignore_patterns("stdin", "stdout", "__pycache__", "target", "out"))
        asis = [(script, None) for script in ("definitions.py", "promises.py", "habits.py", "header.py")]
        for script, fault in asis + FAULTS + asis:  # as it is once more: every fault was taken back
            if fault:
                fault(tree)
            if (run(tree, script) != 0) != (fault is not None):
                missed.append(fault.__name__ if fault else f"the tree as it is, {script}")
            undo()
    if missed:
        print(f"tests.py: not as it should be: {', '.join(missed)}", file=sys.stderr)
        sys.exit(1)
    print(f"house: {len(FAULTS)} faults put in, {len(FAULTS)} found")


if __name__ == "__main__":
    main()
