"""Works out which definitions the public promises rest on: those that the `ensures` of the public calls and the statements named below reach."""
import re
import sys
from pathlib import Path

import antt

# The public calls, by crate; of host every entry.
CALLS = {
    "classes": ["check_classes"],
    "utf8": ["read_utf8"],
    "utf8_write": ["write_utf8"],
    "page": ["read_page", "write_page"],
    "md": ["mess_ratio", "mess_ratio_default"],
    "md_utf8": ["mess_ratio_utf8", "mess_ratio_utf8_default"],
    "md_lines": ["score_lines"],
    "md_chooser": ["choose", "verdict"],
    "md_running": ["open_line", "feed_line", "feed_chunk", "close_line"],
    "md_second": ["second_score"],
    "md_reason": ["reason", "reason_utf8"],
    "cd": ["coherence_ratio", "coherence_ratio_default"],
    "cd_languages": ["check_languages", "check_included"],
    "cd_merge": ["merge"],
    "md_report": ["report"],
    "ring": ["open_ring", "put_record", "flush_records"],
    "class_compact": ["check_compact", "pack", "unpack"],
    "md_compact": [
        "mess_ratio_compact",
        "mess_ratio_compact_default",
        "mess_ratio_utf8_compact",
        "mess_ratio_utf8_compact_default",
        "score_lines_compact",
    ],
    "program": ["report"],
    "host": None,
}
# How the names of the host's entries begin: functions of host, which host_c exports under the same names (house/header.py holds their contracts together).
ENTRY = "drasumira_"
# Statements that are promises themselves.
STATEMENTS = [
    ("md_meaning", "DemandThree", "demand_three"),  # demand 3
    ("md_meaning", "Counts", "counts_so"),  # 02 [7]: what the counts of an answer say of its ratios and of demand 3's fractions
    ("utf8_meaning", "Read", "accepted_encodes"),  # the reader's text is the one whose encoding the bytes are
    ("utf8_write_meaning", "RoundTrips", "written_bytes"),  # the bytes written are the encodings of the text, one after the other
    ("utf8_write_meaning", "RoundTrips", "written_read"),  # reading what was written gives the text
    ("utf8_write_meaning", "RoundTrips", "read_written"),  # writing what was read gives the bytes
    ("page_meaning", "RoundTrips", "write_after_read"),  # writing what was read gives the same bytes
    ("page_meaning", "RoundTrips", "read_after_write"),  # reading what was written gives the same text
    ("marked_cases", "Marked", "marked"),  # 01's cases (a) to (l)
    ("md_running_meaning", "Line", "line_follows"),  # 02 [6]: the state after k characters is the scan's, up to the stop, and stays there after it
    ("md_running_meaning", "Line", "line_whole"),  # a line that was fed in full answers what the whole call answers
    ("md_running_meaning", "Chunk", "chunk_one_by_one"),  # an accepted chunk leaves what its characters leave one by one
    ("md_growth", "Growth", "last_growth"),  # 02 [8]: the state keeps the index of each detector's last growth
    ("class_compact_meaning", "Back", "packed_unpacked"),  # 02 [9]: a good table packs to a good compact one and comes back with the same bytes
    ("class_compact_meaning", "Back", "unpacked_packed"),  # and the other way round
    ("md_compact", "Either", "compact_same"),  # scoring with a good compact table is scoring with its expansion
    ("md_compact", "Either", "packed_same"),  # and with what a good table packs to, scoring with that table
    ("md_second", "Agreed", "second_agrees"),  # 02 [10]: the two engines answer alike
    ("ring_meaning", "History", "history"),  # 02 [11]: the accepted puts of a history of calls are the flushed records and those in the ring
    ("md_thresholds", "Thresholds", "higher_compared"),  # 02 [12]: what a higher threshold does, in three sentences
    ("md_thresholds", "Thresholds", "above_all"),  # no scan stops early at a threshold above HIGHEST
    ("md_report_meaning", "Report", "bins_add_up"),  # 02 [13]: the bins of each detector add up to the accepted lines
    ("md_report_meaning", "Report", "lines_add_up"),  # and that sum with the refused lines is the number of lines given
    ("md_report_meaning", "Report", "numbers_add_up"),  # the lines refused with each number add up to the refused
    ("md_report_meaning", "Longest", "report_fits"),  # no text of a month is longer than LONGEST_REPORT
    ("cd_merge_meaning", "Merge", "means_between"),  # 02 [14]: each mean, rounding included, lies between 0 and 1
]


# the files of a function's proof, beside lemmas
PROOF_FILES = {"Invariants", "Answers", "Proof"}


class House:
    def __init__(self, root):
        self.root = Path(root)
        self.files = {}
        for library in ("specs", "proofs"):
            for path in sorted((self.root / "crates").glob(f"*/{library}/**/*.antt")):
                crate, _, *names = path.relative_to(self.root / "crates").with_suffix("").parts
                if library == "proofs" and (PROOF_FILES & set(names)):
                    continue
                self.files[(crate, library, ".".join(names))] = antt.read(path, (crate, library, ".".join(names)))
        self.index = {m: f.by_name() for m, f in self.files.items()}
        # the constructors of a `data` stand for it
        self.makers = {m: {n: i.name for i in f.items for n in i.constructors()} for m, f in self.files.items()}

    def resolve(self, file, word):
        """What a word in a file of antt names: (module, name), ('declared', crate, path), or None."""
        word = word.strip(".")
        if not word:
            return None
        own = self.index.get(file.module, {})
        for name in (word, f"◌{word}◌"):
            name = self.makers.get(file.module, {}).get(name, name)
            if name in own:
                return file.module, name
            if name in file.names:
                return self.named(*file.names[name])
        head, _, rest = word.partition(".")
        if rest and head in file.aliases:
            return self.named(file.aliases[head], rest)
        return None

    def named(self, path, name):
        module = antt.module_of(path)
        if module is None:
            return None
        crate, library, names = module
        if names.startswith("declared"):
            return "declared", crate, names.removeprefix("declared.").removesuffix(".TheVariants")
        if (crate, library, names) not in self.index:
            return None
        name = self.makers[(crate, library, names)].get(name, name)
        if name not in self.index[(crate, library, names)]:
            raise antt.NotUnderstood(f"{path}.{name}: there is no such item")
        return (crate, library, names), name

    def reached_by(self, module, item, text):
        file = self.files[module]
        hidden = antt.bound(item)
        found = set()
        for word in antt.tokens(text):
            bare = word.strip(".")
            if word.startswith(".") or (bare in hidden and bare not in file.names):
                continue
            what = self.resolve(file, word)
            if what and what != (module, item.name):
                found.add(what)
        return found

    def body(self, item):
        """The text of a definition without the names of a record's fields."""
        text = item.text() + "\n" + "\n".join(item.modules)
        if "record" in item.words:
            text = re.sub(r"(?m)^(\s+)pub (\S+) :", r"\1", text)
        text = re.sub(r"(?m)^(\s+)([a-z][\w-]*) =(?=\s)", r"\1", text)
        return re.sub(r"([{;]\s*)([a-z][\w-]*) = ", r"\1", text)

    def statement(self, item):
        lines = []
        for line in item.lines:
            if line.strip().startswith("unfolding ") or re.match(rf"\s*{re.escape(item.name)}\b(?!\s*:)", line) and lines:
                break
            lines.append(line)
        return "\n".join(lines) + "\n" + "\n".join(item.modules)

    def clauses(self, crate, wanted=None, kinds=("ensures",)):
        """The contracts of a crate's functions: (function, file's ghost imports, text)."""
        for path in sorted((self.root / "crates" / crate / "src").glob("**/*.rt")):
            text = path.read_text(encoding="utf-8")
            names, aliases = {}, {}
            for use in re.findall(r"ghost use ([^;]+);", text):
                use = re.sub(r"\s+", " ", use)
                named = re.fullmatch(r"(\S+?)\.?\{(.*)\}", use)
                aliased = re.fullmatch(r"(\S+) as (\S+)", use)
                if named:
                    for part in named.group(2).split(","):
                        name, _, alias = part.strip().partition(" as ")
                        if name:
                            names[(alias or name).strip()] = (named.group(1).rstrip("."), name.strip())
                elif aliased:
                    aliases[aliased.group(2)] = aliased.group(1)
                else:
                    raise antt.NotUnderstood(f"{path}: ghost use {use}")
            for call in re.finditer(r"(?m)^( *)(pub )?(extern \"C\" )?fn (\w+)", text):
                name = call.group(4)
                head = text[call.start() : text.index("\n" + call.group(1) + "{", call.start()) if "\n" + call.group(1) + "{" in text[call.start() :] else len(text)]
                if re.search(r"fn \w+[^\n]*\{$", head.split("\n")[0]):
                    continue
                if wanted is not None and name not in wanted or (wanted is None and crate == "host" and not name.startswith(ENTRY)):
                    continue
                for kind, clause in re.findall(r"(?m)^\s*(requires|ensures)(?: \w+)? \{(.*)\}$", head):
                    if kind in kinds:
                        yield name, names, aliases, clause

    def signatures(self, crate, wanted):
        """The calls of a crate as their source has them, signature and `ensures`; and what the short names in them stand for."""
        out, short_names = [], {}
        for path in sorted((self.root / "crates" / crate / "src").glob("**/*.rt")):
            text = path.read_text(encoding="utf-8")
            for call in re.finditer(r"(?m)^pub (extern \"C\" )?fn (\w+)[\s\S]*?(?=\n\{)", text):
                if call.group(2) in wanted if wanted is not None else call.group(2).startswith(ENTRY):
                    out.append(call.group(0))
                    for module, names in re.findall(r"ghost use (\S+?)\.\{([^}]*)\};", text):
                        where = antt.module_of(module)
                        for name in (n.strip() for n in names.split(",")):
                            many = sum(name in items for m, items in self.index.items() if m[1] == "specs" and not m[2].startswith("Inner"))
                            if where and many > 1 and re.search(rf"(?<![\w.-]){re.escape(name)}(?![\w-])", call.group(0)):
                                short_names[name] = f"`{name}` is that of {where[0]}, {where[2]}"
                    for module, short in re.findall(r"ghost use (\S+) as (\w+);", text):
                        if f"{short}." in call.group(0):
                            where = antt.module_of(module)
                            short_names[short] = f"`{short}.` is {where[0]}, {where[2]}"
        return out, "; ".join(short_names.values())

    def contract(self, names, aliases, clause):
        found = set()
        for word in antt.tokens(clause):
            word = word.strip("⌜⌝.")
            if word in names:
                found.add(self.named(*names[word]))
            elif word.partition(".")[0] in aliases and "." in word:
                head, _, rest = word.partition(".")
                found.add(self.named(aliases[head], rest))
        return found - {None}

    def close(self, roots):
        seen, types, todo = set(), set(), list(roots)
        while todo:
            what = todo.pop()
            if what[0] == "declared":
                types.add(what[1:])
                continue
            if what in seen:
                continue
            seen.add(what)
            module, name = what
            item = self.index[module][name]
            todo += self.reached_by(module, item, self.body(item))
        return seen, types

    def believed(self):
        roots = set()
        for crate, calls in CALLS.items():
            told = set()
            for name, names, aliases, clause in self.clauses(crate, calls):
                told.add(name)
                roots |= self.contract(names, aliases, clause)
            missing = set(calls or []) - told
            if missing:
                raise antt.NotUnderstood(f"crate {crate}: no contract found of {', '.join(sorted(missing))}")
        for crate, last, name in STATEMENTS:
            where = [m for m in self.index if m[0] == crate and m[2].split(".")[-1].removesuffix("Laws") == last and name in self.index[m]]
            if len(where) != 1:
                raise antt.NotUnderstood(f"the statement {name} of crate {crate}")
            item = self.index[where[0]][name]
            roots |= self.reached_by(where[0], item, self.statement(item))
        return self.close(roots)

    def inner(self, believed):
        roots = set()
        for crate in sorted({m[0] for m in self.files} | {p.name for p in (self.root / "crates").iterdir() if (p / "src").is_dir()}):
            for _, names, aliases, clause in self.clauses(crate, None, ("requires", "ensures")):
                roots |= self.contract(names, aliases, clause)
        seen, types = self.close(roots)
        return seen - believed, types
