#!/usr/bin/env python3
"""The shelves and the page to believe.

    definitions.py            fails where a file is on the wrong shelf, or docs/DEFINITIONS.md or the files that docs/TRUST.md lists are not what it would
                              write; else prints what is believed
    definitions.py --renew    writes them

A file at the top of crates/X/specs/ holds only what the public promises rest on; specs/Inner/ holds nothing of that. house/sentences.txt has the
sentences of document 01 in their order and, under each, the definitions that say it; every believed definition stands there once."""
import re
import sys
from pathlib import Path

import antt
import believed

ROOT = Path(__file__).resolve().parent.parent
PAGE = ROOT / "docs" / "DEFINITIONS.md"
TRUST = ROOT / "docs" / "TRUST.md"
LONGEST = 60

# What a reader of 01 can check in an afternoon: lines of the definitions that stand under its sentences, the generated table not counted.
AFTERNOON = 1500


class Fault(Exception):
    pass


def lines_of(item):
    return [line for line in item.lines if line.strip()]


def check_shelves(house, seen):
    reached = {}
    for module, name in seen:
        reached.setdefault(module, set()).add(name)
    faults = []
    for module, file in house.files.items():
        crate, library, names = module
        where = f"crates/{crate}/{library}/{names.replace('.', '/')}.antt"
        items = {i.name for i in file.items}
        if library == "proofs":
            if module in reached:
                faults.append(f"{where}: a promise rests on {', '.join(sorted(reached[module]))}, which belongs at the top of specs/")
        elif names.startswith("Inner."):
            if module in reached:
                faults.append(f"{where}: a promise rests on {', '.join(sorted(reached[module]))}, which belongs at the top of specs/")
        elif items - reached.get(module, set()):
            extra = ", ".join(sorted(items - reached.get(module, set())))
            faults.append(f"{where}: no promise rests on {extra}: words of inner contracts go to specs/Inner/, laws to proofs/Laws/")
    if faults:
        raise Fault("\n".join(faults))


def type_text(house, crate, path):
    """A struct or an enum of src/, with its comment."""
    *modules, name = path.split(".")
    folder = house.root / "crates" / crate / "src"
    for source in sorted(folder.glob("**/*.rt")):
        text = source.read_text(encoding="utf-8")
        found = re.search(rf"(?m)((?:^//.*\n)*)(?:^#\[(?:derive\([^)]*\)|repr\(C\))\]\n)*^pub (struct|enum) {name} \{{\n(?:.*\n)*?\}}", text)
        if found:
            return source.relative_to(house.root), re.sub(r"(?m)^#\[derive\([^)]*\)\]\n", "", found.group(0))
    raise Fault(f"crate {crate}: no struct or enum {name}")


def sections():
    """house/sentences.txt: headings, texts, sentences with what stands for them, and why nothing does."""
    for number, line in enumerate((ROOT / "house" / "sentences.txt").read_text(encoding="utf-8").split("\n"), 1):
        if not line.strip() or line.startswith("%"):
            continue
        for mark, kind in (("# ", "heading"), ("> ", "sentence"), ("= ", "definitions"), (": ", "types"), ("- ", "why"), ("+ ", "text")):
            if line.startswith(mark):
                yield number, kind, line[len(mark) :]
                break
        else:
            raise Fault(f"house/sentences.txt:{number}: {line}")


def shown(item):
    text = []
    if item.fixity:
        text.append(item.fixity.strip())
    cut = item.indent
    text += [line[cut:] for line in item.comment]
    body = [line[cut:] for line in item.lines]
    while body and not body[-1].strip():
        body.pop()
    if len(body) > LONGEST:
        body = body[:3] + [f"    .. ({len(body) - 4} lines more, generated)", body[-1]]
    for module in item.modules:
        header = re.sub(r"\s+", " ", module).strip()
        text.insert(0, f"-- in {header.removesuffix(' where')}")
    return "\n".join(text + body)


def other_names(house, module, items, seen):
    """What a file calls by another name (an import under an alias, a module under a short one), and whose name it is where several files of the
    page have that name."""
    file, told = house.files[module], []
    words = [w.strip(".") for i in items for w in antt.tokens(i.text())]
    infix = {f"◌{w}◌" for w in words}
    for word in dict.fromkeys(words + [n for n in file.names if n in infix]):
        if word in file.names and file.names[word][1] != word:
            path, name = file.names[word]
            where = antt.module_of(path)
            told.append(f"`{word}` is `{name}`" + (f" of {where[0]}, {where[2].removeprefix('declared.').removesuffix('.the-variants')}" if where else ""))
        elif word in file.names and sum(n == word for _, n in seen) > 1:
            where = antt.module_of(file.names[word][0])
            if where and "declared" not in where[2]:
                told.append(f"`{word}` is that of {where[0]}, {where[2]}")
        head, _, rest = word.partition(".")
        if rest and head in file.aliases:
            where = antt.module_of(file.aliases[head])
            if where:
                told.append(f"`{head}.` is {where[0]}, {where[2]}")
    return "; ".join(dict.fromkeys(told))


def write(house, seen, types):
    left, untyped = set(seen), set(types)
    out, lacking, beyond, sentence, said = [], [], [], None, False
    part, sizes = "01", {"01": 0, "02": 0, "beyond": 0}

    def end():
        if sentence and not said:
            raise Fault(f"house/sentences.txt: nothing stands for: {sentence}")

    for number, kind, text in sections():
        if kind == "heading":
            end()
            sentence = None
            part = "02" if text.startswith("Document 02") else "beyond" if text.endswith("beyond 01") else part
            out.append(f"\n## {text}\n")
        elif kind == "text":
            said = True
            out.append(f"{text}\n")
        elif kind == "sentence":
            end()
            sentence, said = text, False
            out.append(f"> {text}\n")
        elif kind == "why":
            said = True
            if sentence:
                lacking.append((sentence, text))
                out.append(f"{text}\n")
            else:
                beyond.append(text)
        elif kind == "types":
            said = True
            crate, *names = text.split()
            declared = {}
            for name in names:
                untyped.discard((crate, name))
                source, text = type_text(house, crate, name)
                declared.setdefault(source, []).append(text)
            for source, texts in declared.items():
                out.append(f"`{source}`\n\n```rust\n" + "\n\n".join(texts) + "\n```\n")
        else:
            said = True
            place, *names = text.split()
            crate, _, path = place.partition("/")
            module = (crate, "specs", path.replace("/", "."))
            if module not in house.index:
                raise Fault(f"house/sentences.txt:{number}: there is no {place}")
            items = house.index[module]
            wanted = names or [i.name for i in house.files[module].items if (module, i.name) in left]
            blocks = []
            for name in wanted:
                if (module, name) not in left:
                    raise Fault(f"house/sentences.txt:{number}: {place} {name} is not believed, or stands above already")
                left.discard((module, name))
                blocks.append(shown(items[name]))
                if len(items[name].lines) <= LONGEST:
                    sizes[part] += len(lines_of(items[name]))
            here = other_names(house, module, [items[name] for name in wanted], seen)
            out.append(f"`crates/{crate}/specs/{path}.antt`{f' ({here})' if here else ''}\n\n```\n" + "\n\n".join(blocks) + "\n```\n")
    end()
    if left or untyped:
        rest = [f"{m[0]}/{m[2].replace('.', '/')} {n}" for m, n in sorted(left)] + [f"type {c} {n}" for c, n in sorted(untyped)]
        raise Fault("believed, and under no sentence of house/sentences.txt:\n" + "\n".join(rest))
    out.append("\n## The calls\n")
    out.append('"Every public call has a result stated for all inputs, refusals and lent contents included": what each is held to, as its source says it. `x.now` is what a slice holds that is lent to be read; of one that is lent to be written `x.old` is what it holds when the call begins, `x.new` when it returns.\n')
    for crate, calls in believed.CALLS.items():
        signatures, here = house.signatures(crate, calls)
        out.append(f"`crates/{crate}/src`{f' ({here})' if here else ''}\n\n```rust\n" + "\n\n".join(signatures) + "\n```\n")
    out.append("\n## Sentences of 01 that no definition says\n")
    out += [f"- \"{s}\" {w}" for s, w in lacking]
    return out, sizes


def summary(house, seen):
    items = [(m, house.index[m][n]) for m, n in seen]
    entries = sum(len(lines_of(i)) for _, i in items if len(i.lines) > LONGEST)
    lines = sum(len(lines_of(i)) for _, i in items) - entries
    return len(items), lines, len({m for m, _ in items}), entries


def trusted(text, told, seen):
    """docs/TRUST.md with its list of files, between two marks."""
    crates = {}
    for crate, _, names in sorted({m for m, _ in seen}):
        crates.setdefault(crate, []).append(names.replace(".", "/"))
    lines = [told] + [f"- {crate}: {', '.join(files)}" for crate, files in crates.items()]
    made, count = re.subn(r"(<!-- files to believe -->\n).*?(<!-- end -->)", lambda m: m.group(1) + "\n".join(lines) + "\n" + m.group(2), text, flags=re.S)
    if count != 1:
        raise Fault("docs/TRUST.md: there is no list of files to believe")
    return made


def main():
    house = believed.House(ROOT)
    seen, types = house.believed()
    check_shelves(house, seen)
    count, lines, files, entries = summary(house, seen)
    body, sizes = write(house, seen, types)
    if sizes["01"] >= AFTERNOON:
        raise Fault(f"01's definitions are {sizes['01']} lines, and {AFTERNOON} are too many for an afternoon")
    told = f"believed: {count} definitions, {lines} lines, {files} files (and {entries} lines of the generated table); {sizes['01']} of the lines are 01's, {sizes['02']} of 02, {sizes['beyond']} of what goes beyond 01"
    head = (ROOT / "house" / "head.md").read_text(encoding="utf-8").replace("BELIEVED", told.removeprefix("believed: "))
    page = head + "\n".join(body) + "\n"
    trust = TRUST.read_text(encoding="utf-8")
    files_told = trusted(trust, told, seen)
    if sys.argv[1:] == ["--renew"]:
        PAGE.write_text(page, encoding="utf-8")
        TRUST.write_text(files_told, encoding="utf-8")
    elif not PAGE.exists() or PAGE.read_text(encoding="utf-8") != page or files_told != trust:
        raise Fault("docs/DEFINITIONS.md or docs/TRUST.md is not what house/definitions.py writes: run it with --renew and read the difference")
    print(told)


if __name__ == "__main__":
    if sys.argv[1:] not in ([], ["--renew"]):
        print(__doc__, file=sys.stderr)
        sys.exit(2)
    try:
        main()
    except (Fault, antt.NotUnderstood) as fault:
        print(f"definitions.py: {fault}", file=sys.stderr)
        sys.exit(1)
