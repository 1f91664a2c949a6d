#!/usr/bin/env python3
"""Respells the repository's own definitions, lemmas, fields and local names: words in snake case, where the older text has `goodTable`, `first-is` or
`LONGEST-TEXT`. Run once, at the top, after the kit's port.py. What comes from a library, or is made by Rattle (goals and steps of proof files, declared
types and variants), keeps its name, and so does each function of src/, each string and each input. It prints names that would fall together, and then
writes nothing."""
import re
import sys
from pathlib import Path

ROOT = Path(".")
CRATES = sorted(p.name for p in (ROOT / "crates").iterdir())
MADE = re.compile(r"\.(declared|contracts|TheVariants|TheConstants|TheLaws|Tie|Statement|Goals|Given|Met|Lts|Code|Kinds)(\.|$)")
TOKEN = r"[^\s(){}\[\],;:.λ⟦⟧`\"]+"
DECLARED = re.compile(r"^(\s*)((?:(?:abbrev|unfoldable|pub|opaque|mutual) +)*)(" + TOKEN + r") : (.*)$")
GROUP = re.compile(r"^(\s*)((?:(?:abbrev|unfoldable|pub|opaque) +)*)(record|data) +(\S+)")
GOAL = re.compile(r"tie\.|goal\.|\{M : Type 1\} → statement")


APART = {"nan-bits": "nan_bits_lem"}  # a name that would fall together with another, and what it becomes


def respelled(name):
    return APART.get(name) or plainly(name)


def plainly(name):
    if not re.match(r"^[A-Za-z][\w'₀-]*$", name):
        return name
    if re.match(r"^[A-Z][a-z0-9]", name) and "-" not in name:
        return name
    name = name.replace("getD", "get_or")
    if not re.match(r"^[A-Z][A-Z0-9-]+$", name):
        name = re.sub(r"([a-z0-9])([A-Z])", lambda m: m[1] + "_" + m[2].lower(), name)
    return name.replace("-", "_")


def module_of(path):
    return "Rattle." + ".".join(path.relative_to(ROOT / "crates").with_suffix("").parts)


def own(module):
    parts = module.split(".")
    return len(parts) > 2 and parts[0] == "Rattle" and parts[1] in CRATES and not MADE.search(module)


class File:
    def __init__(self, path):
        self.path, self.text = path, path.read_text(encoding="utf-8")
        self.declared, self.fields, self.goals = set(), set(), set()
        if path.suffix == ".antt":
            self.find_declared()
        self.imported, self.foreign, self.modules = {}, set(), {}
        self.find_imports()

    def find_declared(self):
        record = None
        for line in self.text.split("\n"):
            if line.strip().startswith("--"):
                continue
            indent = len(line) - len(line.lstrip())
            if line.strip() and record is not None and indent <= record:
                record = None
            if m := GROUP.match(line):
                record = len(m[1])
                self.declared.add(m[4])
            elif m := DECLARED.match(line):
                if m[3] == "let":
                    continue
                if self.path.name == "Proof.antt" and GOAL.match(m[4]):
                    self.goals.add(m[3])
                else:
                    (self.fields if record is not None else self.declared).add(m[3])

    def find_imports(self):
        for m in re.finditer(r"(?m)^\s*(?:ghost )?use\s+([^\s{;]+?)\.\{([^}]*)\}", self.text):
            for item in m[2].split(","):
                words = item.split()
                if not words:
                    continue
                name, alias = words[0], words[-1]
                if own(m[1]):
                    self.imported[alias] = (m[1], name)
                else:
                    self.foreign.add(alias)
                    if len(words) == 3:
                        self.imported[alias] = (None, alias)
                        self.foreign.discard(alias)
        for m in re.finditer(r"(?m)^\s*(?:ghost )?use\s+([^\s{;]+)(?:\s+as\s+(\S+?))?\s*;?$", self.text):
            self.modules[m[2] or m[1].split(".")[-1]] = m[1]


def main():
    files = [File(p) for c in CRATES for kind in ("specs", "proofs") for p in sorted((ROOT / "crates" / c / kind).glob("**/*.antt"))]
    # a proof that walks the code by hand is made anew, and not respelled
    files = [f for f in files if f.path.name != "Proof.antt" or "tie.close" in f.text]
    files += [File(p) for c in CRATES for p in sorted((ROOT / "crates" / c / "src").glob("**/*.rt"))]
    by_module = {module_of(f.path): f for f in files if f.path.suffix == ".antt"}
    fields = {n for f in files for n in f.fields}
    names = {n for f in files for n in f.declared}
    foreign = {n for f in files for n in f.foreign}
    # Of names that fall together a definition keeps the plain one, a lemma gets `_lem`, a field `_holds`.
    stated = {n for f in files if "specs" in f.path.parts for n in f.declared}
    together = {}
    for name in names | fields:
        together.setdefault(plainly(name), set()).add(name)
    for new, olds in together.items():
        if len(olds) > 1:
            first = sorted(olds, key=lambda n: (n not in stated, n not in names, n != new, n))[0]
            for name in olds - {first}:
                APART[name] = new + ("_lem" if name in names else "_holds")
    for name, new in sorted(APART.items()):
        print(f"apart: {name} -> {new}")
    clash = 0
    written = []
    for f in files:
        proof = f.path.name == "Proof.antt"
        source = f.path.suffix == ".rt"

        def whole(token):
            if token in f.foreign or token in f.goals:
                return token
            if token in f.imported or token in f.declared:
                return respelled(token)
            if token in fields and token not in names:
                return respelled(token)
            if source:
                return token
            # a local name
            new = plainly(token)
            taken = new != token and (new in f.foreign or new in {respelled(n) for n in (*f.imported, *f.declared)})
            return new + "_here" if taken else new

        seen = {}

        def replace(m):
            before, token = m[1], m[2]
            if before == ".":
                head = re.search(r"(" + TOKEN + r")\.$", f.text[: m.start(2)])
                module = f.modules.get(head[1]) if head else None
                if module and own(module):
                    return before + respelled(token)
                if token in fields:
                    return before + respelled(token)
                return before + token
            new = whole(token)
            seen.setdefault(new, set()).add(token)
            return before + new

        out = []
        lines = f.text.split("\n")
        position = 0
        pattern = re.compile(r"(\.|(?<![^\s(){}\[\],;:.λ⟦⟧`\"]))(" + TOKEN + r")")
        for line in lines:
            stripped = line.strip()
            if stripped.startswith(("--", "//")):
                line = re.sub(r"`-([a-z][a-z-]*)`", lambda m: "`_" + m[1].replace("-", "_") + "`", line)
                line = re.sub(r"`([^`\s]+)`", lambda m: "`" + (respelled(m[1]) if m[1] in names and m[1] not in foreign else m[1]) + "`", line)
                out.append(line)
                continue
            if m := re.match(r"^(\s*(?:ghost )?use\s+)([^\s{;]+?)(\.\{)([^}]*)(\}.*)$", line):
                items = []
                for item in m[4].split(","):
                    words = item.split()
                    if words:
                        if own(m[2]):
                            words[0] = respelled(words[0])
                        if len(words) == 3:
                            words[2] = respelled(words[2])
                        items.append(" ".join(words))
                out.append(m[1] + m[2] + m[3] + ", ".join(items) + m[5])
                continue
            if m := re.match(r"^(\s*(?:ghost )?use\s+\S+)(?:\s+as\s+(\S+?))?(;?)$", line):
                out.append(m[1] + (f" as {respelled(m[2])}" if m[2] else "") + m[3])
                continue
            out.append(line)
        text = "\n".join(out)
        # the tokens of the rest, with what stands before each
        f.text = text
        body = []
        at = 0
        for line in text.split("\n"):
            stripped = line.strip()
            if stripped.startswith(("--", "//")) or re.match(r"^\s*(ghost )?use\s", line):
                body.append(line)
                continue
            parts = re.split(r"((?:--|//).*$|\"[^\"]*\")", line) if source else re.split(r"(-- .*$)", line)
            for k in range(0, len(parts), 2):
                tokens = re.split(r"(" + TOKEN + r")", parts[k])
                for j in range(1, len(tokens), 2):
                    before = "".join(tokens[:j])
                    token = tokens[j]
                    if before.endswith("."):
                        head = re.search(r"(" + TOKEN + r")\.$", before)
                        module = f.modules.get(head[1]) or f.modules.get(next((a for a in f.modules if respelled(a) == head[1]), "")) if head else None
                        if module and own(module):
                            tokens[j] = respelled(token)
                        elif token in fields and not (proof and token in f.goals):
                            tokens[j] = respelled(token)
                        elif respelled(token) != token and head and not source and not proof and token in names and not token in fields:
                            tokens[j] = respelled(token)
                    elif not source or token in f.imported or token in f.declared or token in f.modules:
                        tokens[j] = whole(token)
                        if token in f.modules and not own(f.modules[token]) and " as " not in f.modules[token]:
                            tokens[j] = respelled(token)
                        seen.setdefault(tokens[j], set()).add(token)
                parts[k] = "".join(tokens)
            body.append("".join(parts))
        for new, olds in sorted(seen.items()):
            if len(olds) > 1:
                clash += 1
                print(f"falls together: {f.path}: {', '.join(sorted(olds))}")
        written.append((f.path, "\n".join(body)))
    if clash and "--anyway" not in sys.argv:
        print(f"respell: {clash} names fall together; nothing written")
        return 1
    for path in sorted((ROOT / "crates").glob("*/must-fail/*.edit")):
        lines, source = [], False
        for line in path.read_text(encoding="utf-8").split("\n"):
            if line.startswith("file: "):
                source = line.endswith(".rt")
            if line.startswith(("old:", "new:", "refused:")):
                tokens = re.split("(" + TOKEN + ")", line)
                for j in range(1, len(tokens), 2):
                    known = tokens[j] in names | fields and tokens[j] not in foreign
                    if known and not (source and re.fullmatch(r"[a-z0-9_]+", tokens[j])):
                        tokens[j] = respelled(tokens[j])
                line = "".join(tokens)
            lines.append(line)
        written.append((path, "\n".join(lines)))
    for path, text in written:
        path.write_text(text, encoding="utf-8")
    print(f"respell: {len(written)} files")
    return 0


sys.exit(main())
