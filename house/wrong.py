"""The wrong programs of crates/*/must-fail/*.edit, read and checked as texts.

A file round_N.edit holds wrong programs that one check tries together: each changes another function, so each is refused by itself. A file
definition_NAME.edit changes a definition, contract_NAME.edit a contract, constant_NAME.edit a constant: these stand alone, since what they change
is used in many functions. The contract of a function that no other of its crate calls, as a host's entry, is used in its own proof alone: it may be changed
in a round. So may that of one that is called, where each function that calls it is named as refused too and no other program of the round changes one of
them. Each program is a paragraph:

    wrong: NAME: Which wrong program it is, in a sentence.
    refused: FUNCTION at NEED
    file: src/lib.rt
    old: ..
    new: ..

FUNCTION is the folder of its proof below proofs/ (of functions that call each other the one folder +NAME of their `#[cycle(NAME)]`; of a law, its file below proofs/ without .antt), NEED the goal of that
function at which it must be refused, answered in its Answers.antt, set in its Invariants.antt or closed by the prover itself; of a law, the declaration there. `rt` reads `file:`, `old:` and `new:` alone, so
where each program is refused is for house/refusals.py to see."""
import re
from pathlib import Path

ALONE = ("definition", "contract", "constant")
SIGNS = re.compile(r"(?m)^\s*(?:#\[unsafe\(no_mangle\)\]\s*)?(?:pub )?(?:extern \"C\" )?fn (\w+)|^\s*(?:pub )?(?:const|static) (\w+)|^impl ([^\n{]+) \{|^(\})")
# The files of a function's proof, and what Rattle calls a goal, which need not stand in one: most are closed without an answer.
PROOF_FILES = ("Answers", "Invariants", "Proof")
GOAL = re.compile(
    r"returns(-(then|else|after|in|clause)[-_].+)?|loop-\w+-(init|preserved|smaller)(-.+)?|\w+(-\w+)*-requires(-\d+|-(then|else|in)-.+)?"
    r"|(overflow|int_to|float_to|float_from|enum|shape)_\w+-.+|(offset_|slice_)?bounds-.+"
)


class Fault(Exception):
    pass


class Program:
    """One wrong program: its name, its sentence, where it must be refused, and its replacements (file, old, new)."""

    def __init__(self, name, sentence):
        self.name, self.sentence = name, sentence
        self.refused, self.changes = [], []
        self.contract = False  # whether it changes a contract and not code


class Edit:
    """One file of wrong programs."""

    def __init__(self, path):
        self.path, self.crate, self.label = path, path.parent.parent.name, path.stem
        self.kind = "round" if re.fullmatch(r"round_\d+", self.label) else self.label.split("_")[0]
        self.programs = list(programs(self))

    def says(self, what):
        return Fault(f"{self.crate}/must-fail/{self.label}.edit: {what}")


def programs(edit):
    """The paragraphs of an edit."""
    now, file, old = None, None, None
    for number, line in enumerate(edit.path.read_text(encoding="utf-8").split("\n"), 1):
        word, _, rest = line.partition(": ")
        if word == "wrong":
            if now:
                yield now
            name, _, sentence = rest.partition(": ")
            if not re.fullmatch(r"[a-z0-9_]+", name) or not sentence:
                raise edit.says(f"line {number}: not `wrong: NAME: SENTENCE`")
            now, file, old = Program(name, sentence), None, None
        elif not line.strip():
            continue
        elif now is None:
            raise edit.says(f"line {number}: it stands before the first `wrong: ..`")
        elif word == "refused":
            place, _, need = rest.partition(" at ")
            if not need:
                raise edit.says(f"line {number}: not `refused: FUNCTION at NEED`")
            now.refused.append((place, need))
        elif word == "file":
            file = rest
        elif word == "old":
            old = rest
        elif line.startswith("new:") and file and old:
            now.changes.append((file, old, rest))
        else:
            raise edit.says(f"line {number}: not understood: {line}")
    if now:
        yield now


def owner_of(head):
    """What Rattle calls an `impl`: by its type, or, of a trait, by the words of the type and of the trait."""
    trait, _, own = head.rpartition(" for ")
    if not trait:
        return re.match(r"\w+", own)[0]
    return "".join(word[0].upper() + word[1:] for word in re.findall(r"\w+", own) + re.findall(r"\w+", trait))


def function_at(text, at):
    """The function of a source file that a place in it belongs to (`Owner/name` in an `impl`), `const` for a constant, or None."""
    inside, found, owner = None, None, None
    line = text.rfind("\n", 0, at) + 1
    for sign in SIGNS.finditer(text):
        if sign.start() > max(at, line):
            break
        name, constant, owner_new, closed = sign.groups()
        if owner_new:
            inside = owner_of(owner_new)
        elif closed:
            inside, found = (None, None) if sign.start() < line else (inside, found)
        elif constant:
            found, owner = "const", None
        else:
            found, owner = name, inside
    return f"{owner}/{found}" if owner and found else found


def home(crate, file, function):
    """The source file by which a function's proof is placed: for a method, the one that declares its type."""
    owner = function.rpartition("/")[0]
    for path in [crate / file, *sorted((crate / "src").glob("**/*.rt"))]:
        if owner and re.search(rf"(?m)^(?:pub )?(?:struct|enum) {owner}\b", path.read_text(encoding="utf-8")):
            return str(path.relative_to(crate))
    return file


def folder(file, function):
    """The folder below proofs/ of a function of a source file."""
    module = re.sub(r"^src/|(/mod)?\.rt$", "", file)
    return function if module in ("lib", "main") else f"{module}/{function}"


def in_contract(text, at):
    """Whether a place in a source file stands in a function's `requires` or `ensures`."""
    line = text[text.rfind("\n", 0, at) + 1:]
    return re.match(r"\s*(?:requires|ensures)(?: \w+)? \{", line) is not None


def callers(crate, function):
    """The functions of the crate, by the folders of their proofs, that call one of this name."""
    name = function.rpartition("/")[2]
    found = set()
    for path in sorted(crate.glob("src/**/*.rt")):
        text, file = path.read_text(encoding="utf-8"), str(path.relative_to(crate))
        for call in re.finditer(rf"(?<!fn )\b{name}\(", text):
            caller = function_at(text, call.start()) or "no function"
            found.add(folder(home(crate, file, caller), caller))
    return found


def cycle_of(crate, place):
    """The folder of a function's proof: that of the cycle of calls that it is in, if it is in one."""
    parent, _, name = place.rpartition("/")
    for path in sorted(crate.glob("src/**/*.rt")):
        found = re.search(rf"#\[cycle\((\w+)\)\]\s*(?:pub )?fn {name}\(", path.read_text(encoding="utf-8"))
        if found and folder(str(path.relative_to(crate)), name) == place:
            return f"{parent}/+{found[1]}" if parent else f"+{found[1]}"
    return place


def is_goal(crate, place, need):
    """Whether a refusal at this place can name that need: a goal of a function, or a declaration of a law's file."""
    law = [path for path in (crate / "proofs" / f"{place}.antt", crate / f"{place}.antt") if path.is_file()]
    told = law or [path for path in (crate / "proofs" / place / f"{name}.antt" for name in PROOF_FILES) if path.is_file()]
    declared = rf"(?m)^\s*(?:(?:abbrev|unfoldable|pub) )*{re.escape(need)} :"
    return any(re.search(declared, path.read_text(encoding="utf-8")) for path in told) or not law and GOAL.fullmatch(need) is not None


def check(edit):
    """Whether an edit is in the form, as far as its text and the tree tell."""
    crate = edit.path.parent.parent
    if edit.kind not in ("round",) + ALONE:
        raise edit.says("its name is neither round_N nor definition_, contract_ or constant_ and a name")
    if not edit.programs:
        raise edit.says("it holds no wrong program")
    if edit.kind != "round" and (len(edit.programs) != 1 or edit.label != f"{edit.kind}_{edit.programs[0].name}"):
        raise edit.says("it stands alone: one wrong program, whose name is the file's")
    seen = {}
    texts = {}
    for program in edit.programs:
        if not program.refused or not program.changes:
            raise edit.says(f"{program.name}: it says no `refused:` or changes nothing")
        for place, need in program.refused:
            if not is_goal(crate, place, need):
                raise edit.says(f"{program.name}: there is no {need} in the proof of {place}")
        places = set()
        for file, old, new in program.changes:
            path = crate / file
            if not path.is_file():
                raise edit.says(f"{program.name}: there is no {file}")
            text = texts.get(file) or path.read_text(encoding="utf-8")
            if text.count(old) != 1:
                raise edit.says(f"{program.name}: its `old:` stands {text.count(old)} times in {file}")
            if file.startswith("src/"):
                at = text.find(old) + len(old) - len(old.lstrip())
                places.add((file, function_at(text, at)))
                program.contract = program.contract or in_contract(text, at)
            else:
                places.add((file, None))
            texts[file] = text.replace(old, new)
        if edit.kind == "round":
            if any(not f.startswith("src/") for f, _ in places):
                raise edit.says(f"{program.name}: a round changes code only")
            functions = {folder(home(crate, f, g), g) for f, g in places if g and g != "const"}
            if len(functions) != 1 or any(g == "const" for _, g in places):
                raise edit.says(f"{program.name}: it changes {sorted(functions)} or a constant, and not one function")
            # a changed contract is used where the function is called
            functions |= callers(crate, *functions) if program.contract else set()
            for function in sorted(functions):
                if function in seen:
                    raise edit.says(f"{program.name} and {seen[function]} change the same function, {function}")
                seen[function] = program.name
            if {place for place, _ in program.refused} != {cycle_of(crate, function) for function in functions}:
                raise edit.says(f"{program.name}: it changes {', '.join(sorted(functions))}, and must be refused there")


def all_edits(root):
    edits = [Edit(path) for path in sorted((root / "crates").glob("*/must-fail/*.edit"))]
    named = set()
    for edit in edits:
        check(edit)
        for program in edit.programs:
            if (edit.crate, program.name) in named:
                raise edit.says(f"{program.name}: another edit of the crate has that name")
            named.add((edit.crate, program.name))
    return edits
