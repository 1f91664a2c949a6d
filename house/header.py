#!/usr/bin/env python3
"""Whether include/drasumira.h is the library's: every entry of crates/host_c and no other stands in it, declared as rust/src/host* and docs/HOST.md declare it; each struct has
the members, types and offsets of the Rust declaration and an assertion for each; refusals, flags, limits, thresholds and the version have the numbers that stand elsewhere.
Each entry of crates/host_c promises, word for word, what the function of crates/host that has its name does.

What is called HostX in Rust and in HOST.md is called DrasumiraX in the header, and any other X DrasumiraX too. That the header's assertions hold of its own structs a
compiler says, in the step of ./test that unpacks the package."""
import re
import sys
from pathlib import Path

ROOT = Path(__file__).resolve().parent.parent
HEADER = "include/drasumira.h"
EXPORT = "#[unsafe(no_mangle)]"
NUMBERS = {"u8": "uint8_t", "u16": "uint16_t", "u32": "uint32_t", "u64": "uint64_t", "usize": "size_t", "f32": "float"}
BY_VALUE = 16
# The lists of drasumira_merge are u32 in crates/host, two for each entry; hosts have them as entries.
LISTS_OF_ENTRIES = "drasumira_merge"
# Where the number of a limit stands, for those that no constant of the crates is named after; None, where it is worked out there.
ELSEWHERE = {"NUMBERS_PER_LINE": None, "REFUSAL_ROOM": None}
# places in a running state: rust/src/host/running.rs
RUNNING = "RUNNING_"
FLAG = "FLAG_"


def text_of(name):
    return (ROOT / name).read_text(encoding="utf-8")


def c_name(name):
    return NUMBERS.get(name) or "Drasumira" + name.removeprefix("Host")


def plain(words):
    """A C type with one way of spacing."""
    return re.sub(r"\s*\*\s*", " *", " ".join(words.split())).strip()


def c_arguments(words):
    """(type, name) of each argument of a C declaration."""
    for argument in words.split(","):
        kind, name = re.fullmatch(r"\s*(.*?)(\w+)\s*", argument, re.S).groups()
        yield plain(kind), name


class Header:
    def __init__(self):
        self.text = text_of(HEADER)
        code = re.sub(r"/\*.*?\*/", " ", self.text, flags=re.S)
        self.structs = {}
        for name, body, again in re.findall(r"typedef struct (\w+) \{(.*?)\} (\w+);", code, re.S):
            assert name == again, name
            members = re.findall(r"(\w+) (\w+)(?:\[(\w+)\])?;", body)
            assert len(members) == body.count(";"), f"{name}: a member that is not understood"
            self.structs[name] = members
        self.defines = dict(re.findall(r"^#define DRASUMIRA_(\w+) (\S+)$", re.sub(r"[ \t]+$", "", code, flags=re.M), re.M))
        self.sizes = {name: int(size) for name, size in re.findall(r"^DRASUMIRA_SIZE\((\w+), (\d+)\);", code, re.M)}
        self.places = {(name, member): int(at) for name, member, at in re.findall(r"^DRASUMIRA_AT\((\w+), (\w+), (\d+)\);", code, re.M)}
        declarations = code[code.index('extern "C" {'):]
        found = re.findall(r"^(\w+ \*?)(drasumira_\w+)\((.*?)\);", declarations, re.S | re.M)
        self.entries = {name: (plain(kind), list(c_arguments(words))) for kind, name, words in found}
        assert len(found) == len(self.entries), "an entry stands there twice"

    def length(self, count):
        return int(count) if count.isdigit() else int(self.defines[count.removeprefix("DRASUMIRA_")])

    def flat(self, kind):
        """The 4-byte types of a member's type, in order."""
        if kind in NUMBERS.values():
            return [kind]
        return [one for member, _, count in self.structs[kind] for _ in range(self.length(count or "1")) for one in self.flat(member)]


class Rust:
    def __init__(self):
        files = [ROOT / "rust/src/host.rs", ROOT / "rust/src/coherence.rs", *sorted((ROOT / "rust/src/host").glob("*.rs"))]
        self.structs, self.aliases, self.entries, constants = {}, {}, {}, {}
        for path in files:
            code = re.sub(r"//.*", "", path.read_text(encoding="utf-8"))
            constants.update(re.findall(r"const (\w+): usize = (\d+);", code))
            for name, body in re.findall(r"#\[repr\(C\)\][^{]*?struct (\w+) \{(.*?)\n\s*\}", code, re.S):
                self.structs[name] = re.findall(r"pub (\w+): ([^,]+),", body)
            for name, kind in re.findall(r"pub type (\w+) = (\[.*?\]);", code):
                self.aliases[name] = re.sub(r"\b[A-Z]+\b", lambda m: constants[m[0]], kind)
            for block in re.findall(r'unsafe extern "C" \{(.*?)\n\s*\}', code, re.S):
                for name, words, kind in re.findall(r"fn (\w+)\((.*?)\) -> (.*?);", block, re.S):
                    self.entries[name] = (self.c_type(kind), [self.c_type(a.split(":")[1]) for a in words.split(",")])
        self.constants = constants

    def c_type(self, kind):
        form = re.fullmatch(r"\s*(?:\*(const|mut) )?(\w+)\s*", kind)
        pointer, name = form.groups()
        return ("const " if pointer == "const" else "") + c_name(name) + (" *" if pointer else "")

    def flat(self, kind):
        array = re.fullmatch(r"\[(.*); (\d+)\]", kind)
        if array:
            return int(array[2]) * self.flat(array[1])
        if kind in NUMBERS:
            return [NUMBERS[kind]]
        if kind in self.aliases:
            return self.flat(self.aliases[kind])
        return [one for _, member in self.structs[kind] for one in self.flat(member)]


def rattle_type(kind):
    """The C arguments that a parameter of crates/host is."""
    slice_of = re.fullmatch(r"&(mut )?\[(\w+)\]", kind)
    if slice_of:
        return [("" if slice_of[1] else "const ") + c_name(slice_of[2]) + " *", "size_t"]
    lent = re.fullmatch(r"&(mut )?(\w+)", kind)
    if lent:
        return [("" if lent[1] else "const ") + c_name(lent[2]) + " *"]
    return [c_name(kind)]


def rattle(crate):
    """The text of a crate's sources, without comments."""
    return "".join(re.sub(r"//.*", "", path.read_text(encoding="utf-8")) for path in sorted((ROOT / "crates" / crate / "src").glob("**/*.rt")))


def promises(code, sign):
    """The functions that begin with the sign, each with its parameters, result and clauses, spaces left out."""
    heads = re.findall(rf"^{sign}fn (\w+)(\(.*?)\n\{{", code, re.S | re.M)
    return {name: re.sub(r"\s+", "", head).replace(",)", ")") for name, head in heads}


def rattle_entries(header):
    code = rattle("host_c")
    marks = code.count(EXPORT)
    found = re.findall(rf'{re.escape(EXPORT)}\s*pub extern "C" fn (\w+)\((.*?)\) -> (\w+)', code, re.S)
    assert marks == len(found), f"crates/host_c has {marks} entries, of which {len(found)} are understood"
    for name, words, kind in found:
        arguments = [c for a in words.split(",") if a.strip() for c in rattle_type(a.split(":")[1].strip())]
        answer = c_name(kind)
        if header.sizes.get(answer, 0) > BY_VALUE:
            arguments, answer = [answer + " *", *arguments], answer + " *"
        yield name, answer, arguments


def faults_of_promises():
    told = promises(rattle("host"), 'pub (?:extern "C" )?')
    for name, head in promises(rattle("host_c"), 'pub extern "C" ').items():
        if told.get(name) != head:
            yield f"{name} of crates/host_c does not promise what crates/host's does"


def faults_of_entries(header, rust):
    of_crate = list(rattle_entries(header))
    for name, answer, arguments in of_crate:
        if name not in header.entries:
            yield f"{name} of crates/host_c is missing"
            continue
        declared, words = header.entries[name]
        kinds = [kind for kind, _ in words]
        if name == LISTS_OF_ENTRIES:
            kinds = [kind.replace("DrasumiraCoherenceMatch", "uint32_t") for kind in kinds]
        if (declared, kinds) != (answer, arguments):
            yield f"{name} is ({', '.join(kinds)}) -> {declared}, and in crates/host_c ({', '.join(arguments)}) -> {answer}"
    names = {name for name, _, _ in of_crate}
    yield from (f"{name} is no entry of crates/host_c" for name in header.entries if name not in names)
    yield from (f"{name} of crates/host_c is not declared in rust/src/host*" for name in sorted(names) if name not in rust.entries)
    for name, (answer, arguments) in rust.entries.items():
        declared = header.entries.get(name)
        if declared and (declared[0], [kind for kind, _ in declared[1]]) != (answer, arguments):
            yield f"{name} is not as rust/src/host* declares it: ({', '.join(arguments)}) -> {answer}"


def faults_of_the_document(header):
    page = text_of("docs/HOST.md")
    short = {word: re.search(rf"{word} (?:stands )?for `(.*?)`", page, re.S)[1] for word in ("TABLES", "COMPACT", "LANGUAGES")}
    told = set()
    for name, kind, words in re.findall(r"^\| (drasumira_\w+) \| `(\w+ ?\*?) ?\((.*)\)` \|$", page, re.M):
        for word, stands_for in short.items():
            words = words.replace(word, stands_for)
        rename = lambda kind: re.sub(r"\b(Host\w+|CoherenceMatch)\b", lambda m: c_name(m[0]), kind)
        wanted = (plain(rename(kind)), [(rename(kind), name) for kind, name in c_arguments(words)])
        told.add(name)
        if name not in header.entries:
            yield f"{name} of docs/HOST.md is missing"
        elif header.entries[name] != wanted:
            yield f"{name} is not as docs/HOST.md declares it, or its arguments have other names"
    yield from (f"{name} is not in the table of docs/HOST.md" for name in header.entries if name not in told)
    sizes = {c_name(name): int(size) for name, size in re.findall(r"^\| (\w+) \| (\d+) \|", page, re.M)}
    for name, size in sizes.items():
        if header.sizes.get(name) != size:
            yield f"{name} has {header.sizes.get(name)} bytes, and in docs/HOST.md {size}"


def faults_of_structs(header, rust):
    of_rust = {c_name(name): name for name in [*rust.structs, *rust.aliases]}
    yield from (f"{name} of rust/src/host* is missing" for name in of_rust if name not in header.structs)
    for name, members in header.structs.items():
        flat, at = header.flat(name), 0
        if header.sizes.get(name) != 4 * len(flat):
            yield f"the size of {name} is not asserted, or not {4 * len(flat)}"
        for kind, member, count in members:
            if header.places.get((name, member)) != at:
                yield f"the offset of {name}'s {member} is not asserted, or not {at}"
            at += 4 * len(header.flat(kind)) * header.length(count or "1")
        if name not in of_rust:
            continue
        if flat != rust.flat(of_rust[name]):
            yield f"{name} is not the {of_rust[name]} of rust/src/host*"
        if of_rust[name] in rust.structs and [m for _, m, _ in members] != [m for m, _ in rust.structs[of_rust[name]]]:
            yield f"the members of {name} are not called as those of {of_rust[name]}"


def numbers(words):
    return {name: int(value.replace("_", ""), 0) for name, value in re.findall(r"const (\w+): (?:u32|u64|usize) = (\w+);", words)}


def variants(words):
    """The numbers of an enum's variants, by the names that a constant of each would have."""
    return {re.sub(r"(?<!^)(?=[A-Z])", "_", name).upper(): int(value) for name, value in re.findall(r"(?m)^    ([A-Z]\w*) = (\d+),", words)}


def faults_of_numbers(header, rust):
    told = {name: int(value, 0) for name, value in header.defines.items() if re.fullmatch(r"0x[0-9A-F]+|\d+", value)}
    flags = {FLAG + name: value for name, value in numbers(text_of("crates/base/src/flags.rt")).items() if name != "FLAGS_END"}
    if {name: value for name, value in told.items() if name.startswith(FLAG)} != flags:
        yield "the flags are not those of crates/base"
    refusals = {"ACCEPTED": 0, **numbers(text_of("rust/src/refusal.rs"))}
    causes = text_of("crates/base/src/refusals.rt")
    if refusals != {**numbers(causes), **variants(causes)}:
        yield "the refusals of rust/src/refusal.rs are not those of crates/base"
    limits = {}
    for path in sorted((ROOT / "crates").glob("*/src/**/*.rt")):
        for name, value in numbers(path.read_text(encoding="utf-8")).items():
            limits.setdefault(name, set()).add(value)
    for name, value in refusals.items():
        if told.get(name) != value:
            yield f"DRASUMIRA_{name} is missing, or not {value}"
    for name, value in told.items():
        if name in refusals or name in flags or name in ELSEWHERE:
            continue
        if name.startswith(RUNNING):
            if rust.constants.get(name.removeprefix(RUNNING)) != str(value):
                yield f"DRASUMIRA_{name} is not as in rust/src/host/running.rs"
        elif limits.get(name) != {value}:
            yield f"DRASUMIRA_{name} is {value}, and in crates/ {sorted(limits.get(name, []))}"
    thresholds = dict(re.findall(r"const (\w+): f32 = ([\d.]+|[A-Z_]+);", text_of("rust/src/lib.rs")))
    for name, value in thresholds.items():
        if header.defines.get(name) != (f"DRASUMIRA_{value}" if value in thresholds else f"{value}f"):
            yield f"DRASUMIRA_{name} is not {value}, as in rust/src/lib.rs"
    if told.get("NUMBERS_PER_LINE") != header.sizes["DrasumiraScore"] // 4:
        yield "DRASUMIRA_NUMBERS_PER_LINE is not the numbers of a DrasumiraScore"
    version = re.search(r'^version = "(.*)"$', text_of("rust/Cargo.toml"), re.M)[1]
    if header.defines.get("VERSION") != f'"{version}"':
        yield f"DRASUMIRA_VERSION is not {version}, as in rust/Cargo.toml"


def main():
    header, rust = Header(), Rust()
    faults = [*faults_of_promises(), *faults_of_entries(header, rust), *faults_of_the_document(header), *faults_of_structs(header, rust), *faults_of_numbers(header, rust)]
    if faults:
        print("\n".join(f"header.py: {HEADER}: {fault}" for fault in faults), file=sys.stderr)
        sys.exit(1)
    print(f"house: the header's {len(header.entries)} entries, {len(header.structs)} structs and their numbers are the library's")


if __name__ == "__main__":
    main()
