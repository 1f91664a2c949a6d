"""Reads antt files as `rt fmt` lays them out: their imports and their items (a definition, a record, a law), each with its comment, its lines and
the modules that it stands in. A line that is not understood is an error."""
import re
from pathlib import Path

WORDS = ("abbrev", "unfoldable", "pub", "record", "data")
CRATES = Path(__file__).resolve().parent.parent / "crates"
TOKEN = re.compile(r"\[\]|[^\s(){},;\[\]\"]+")


class NotUnderstood(Exception):
    pass


class Item:
    """One declaration. `modules` are the headers of the `module .. where` blocks around it, outermost first."""

    def __init__(self, words, name, comment, modules, indent, line):
        self.words, self.name, self.comment, self.modules, self.indent, self.line = words, name, comment, modules, indent, line
        self.lines = []
        self.fixity = None

    @property
    def public(self):
        return "pub" in self.words

    @property
    def defines(self):
        return any(w in self.words for w in ("abbrev", "unfoldable", "record", "data"))

    def text(self):
        return "\n".join(self.lines)

    def constructors(self):
        """The names that a `data` declares, one to a line."""
        if "data" not in self.words:
            return []
        return [n for l in self.lines[1:] if " : " in l and indent_of(l) == self.indent + 2 for n in l.split(" : ")[0].split()]


class File:
    """`module` is (crate, library, path): the library is specs or proofs, the path the names below it."""

    def __init__(self, path, module):
        self.path, self.module = path, module
        self.head, self.uses, self.mods, self.items = [], [], [], []
        self.names, self.aliases = {}, {}

    def by_name(self):
        return {i.name: i for i in self.items}


def indent_of(line):
    return len(line) - len(line.lstrip())


def is_clause(line, item):
    """Whether a line at the item's own indent goes on with it."""
    text = line.strip()
    if text.startswith("unfolding ") or re.fullmatch(r"[)}\]]+[;,]?", text):
        return True
    first = text.split()[0]
    if first == item.name:
        return True
    if "◌" in item.name:
        operator = item.name.strip("◌")
        return "=" in text and operator in text.split("=")[0].split()
    return False


def read(path, module):
    lines = Path(path).read_text(encoding="utf-8").split("\n")
    file = File(path, module)
    comment, modules, fixities = [], [], []
    at = 0
    while at < len(lines) and (lines[at].startswith("--") or not lines[at].strip()):
        if not lines[at].strip():
            break
        file.head.append(lines[at])
        at += 1

    def joined(start, done):
        stop = start
        while not done("\n".join(lines[start : stop + 1])):
            stop += 1
            if stop >= len(lines):
                raise NotUnderstood(f"{path}:{start + 1}: {lines[start].strip()}")
        return stop

    while at < len(lines):
        line = lines[at]
        text = line.strip()
        if not text:
            comment = []
            at += 1
            continue
        indent = indent_of(line)
        while modules and indent <= modules[-1][0]:
            modules.pop()
        expected = modules[-1][0] + 2 if modules else 0
        if indent != expected:
            raise NotUnderstood(f"{path}:{at + 1}: {text}")
        if text.startswith("--"):
            comment.append(line)
            at += 1
        elif text.startswith("use "):
            stop = joined(at, lambda t: t.count("{") == t.count("}"))
            file.uses.append(re.sub(r"\s+", " ", " ".join(lines[at : stop + 1])).strip())
            at, comment = stop + 1, []
        elif re.match(r"(pub )?mod \S+$", text):
            file.mods.append(text)
            at, comment = at + 1, []
        elif re.match(r"infix[lr]? \d+ \S+$", text):
            fixities.append((line, comment))
            at, comment = at + 1, []
        elif re.match(r"(pub )?module\b", text):
            stop = joined(at, lambda t: re.search(r"\bwhere\s*$", t))
            modules.append((indent, "\n".join(lines[at : stop + 1]), at + 1))
            at, comment = stop + 1, []
        else:
            tokens = text.split()
            words = []
            while tokens and tokens[0] in WORDS:
                words.append(tokens.pop(0))
            if not tokens or not re.match(r"[^\s(){}=:]", tokens[0]) or (":" not in text and ":" not in "".join(lines[at + 1 : at + 3])):
                raise NotUnderstood(f"{path}:{at + 1}: {text}")
            item = Item(words, tokens[0], comment, [m[1] for m in modules], indent, at + 1)
            item.blocks = [m[2] for m in modules]
            for fixity, note in fixities:
                if fixity.split()[-1] == item.name:
                    item.fixity, item.comment = fixity, note + comment
            fixities = [f for f in fixities if f[0].split()[-1] != item.name]
            comment = []
            item.lines.append(line)
            at += 1
            while at < len(lines):
                ahead = at
                while ahead < len(lines) and (not lines[ahead].strip() or (indent_of(lines[ahead]) == indent and lines[ahead].strip().startswith("--"))):
                    ahead += 1
                if ahead >= len(lines):
                    break
                if indent_of(lines[ahead]) > indent and (ahead == at or not any(l.strip() for l in lines[at:ahead])):
                    item.lines += lines[at : ahead + 1]
                    at = ahead + 1
                elif indent_of(lines[ahead]) == indent and is_clause(lines[ahead], item):
                    item.lines += lines[at : ahead + 1]
                    at = ahead + 1
                else:
                    break
            file.items.append(item)
    if fixities:
        raise NotUnderstood(f"{path}: {fixities[0][0]}")
    for use in file.uses:
        named = re.fullmatch(r"use (\S+?)\.?\{(.*)\}", use)
        aliased = re.fullmatch(r"use (\S+) as (\S+)", use)
        if named:
            for part in named.group(2).split(","):
                part = part.strip()
                if part:
                    name, _, alias = part.partition(" as ")
                    file.names[(alias or name).strip()] = (named.group(1).rstrip("."), name.strip())
        elif aliased:
            file.aliases[aliased.group(2)] = aliased.group(1)
        else:
            raise NotUnderstood(f"{path}: {use}")
    return file


def module_of(path):
    """The module that a path of an import names: (crate, library, names), or None where it is the kit's."""
    found = re.fullmatch(r"Rattle\.([a-z_0-9]+)\.(specs|proofs)(?:\.(.*))?", path)
    if found and (CRATES / found.group(1)).is_dir():
        return found.group(1), found.group(2), found.group(3) or ""
    return None


def tokens(text):
    """The words of a piece of antt, without comments and strings."""
    for line in text.split("\n"):
        line = re.sub(r"(^|\s)--.*$", "", line)
        line = re.sub(r'"[^"]*"', " ", line)
        for word in TOKEN.findall(line):
            yield word


def bound(item):
    """Names that the item's own text binds: parameters, λ, let, pattern variables."""
    text = re.sub(r"(?m)(^|\s)--.*$", "", item.text())
    names = set()
    for group in re.findall(r"[({]([^(){}:]+) : ", text + "\n" + "\n".join(item.modules)):
        names.update(group.split())
    for group in re.findall(r"λ ([^.]*?)\.(?:\s|$)", text):
        names.update(TOKEN.findall(group))
    names.update(re.findall(r"\blet (\S+)", text))
    for line in item.lines:
        if line.split()[:1] == [item.name] and " = " in line + " ":
            head = re.split(r" =(?: |$)", line + " ")[0]
            if " : " not in head:
                names.update(t for t in TOKEN.findall(head)[1:])
    return names
