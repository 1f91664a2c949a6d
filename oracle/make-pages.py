#!/usr/bin/env python3
"""make-pages.py [--renew] DIR: makes the code pages of tables/pages from the WHATWG Encoding indexes.

DIR holds windows_1251.rs, windows_1252.rs and iso_8859_2.rs of the crate encoding-index-singlebyte 1.20141219.5, as Debian's package
librust-encoding-index-singlebyte-dev (1.20141219.5-1) carries them: each has the index of its name, of 2014-12-19, as the list FORWARD_TABLE.
A page NAME.bin is 128 u16, little-endian, for the bytes 80 to FF; FFFF means unused. NAME.txt is the same, to be read. With --renew the files and
their sums are written; without it they are compared, and status 1 says that one differs."""
import hashlib
import re
import struct
import sys
import unicodedata
from pathlib import Path

ROOT = Path(__file__).resolve().parent.parent
TABLES = ROOT / "tables"
# the sums of the files that the lists are taken from
SOURCES = {
    "windows-1251": ("windows_1251.rs", "7718f616e4e9ae7f0caf0a4088f0aadb012aacfe095e9a174cee6c7c55e2facd"),
    "windows-1252": ("windows_1252.rs", "1b8194e59e16a762063a8617728f5f506c5f6747d6817112b704344971cdbc1b"),
    "iso-8859-2": ("iso_8859_2.rs", "c1c889065975a652db9a20f092518913e208cc3cabfcb7804c7f384fff3a833b"),
}
HEAD = "# {}: byte, code point and its name, from WHATWG's index-{}.txt of 2014-12-19 (oracle/make-pages.py). {}.bin is the second column as u16, little-endian."


def entries(name, folder):
    file, expected = SOURCES[name]
    text = (folder / file).read_bytes()
    if hashlib.sha256(text).hexdigest() != expected:
        sys.exit(f"make-pages: {file} is not the file that the pages are made from")
    listed = re.search(r"FORWARD_TABLE: &'static \[u16\] = &\[([^\]]*)\];", text.decode())
    page = [int(word) for word in re.findall(r"\d+", listed.group(1))]
    if len(page) != 128:
        sys.exit(f"make-pages: {file} lists {len(page)} entries")
    return page


def files(name, page):
    """What tables/pages holds of a page: its bytes and its text."""
    lines = [HEAD.format(name, name, name)]
    for byte, point in enumerate(page, 0x80):
        called = "unused" if point == 0xFFFF else unicodedata.name(chr(point), "<control>")
        lines.append(f"{byte:02X} {point:04X} {called}")
    return {f"pages/{name}.bin": struct.pack("<128H", *page), f"pages/{name}.txt": ("\n".join(lines) + "\n").encode()}


def main(words):
    renew = words[:1] == ["--renew"]
    if len(words) != 1 + renew:
        sys.exit(__doc__)
    made = {}
    for name in SOURCES:
        made.update(files(name, entries(name, Path(words[-1]))))
    sums = "".join(f"{hashlib.sha256(data).hexdigest()}  {file}\n" for file, data in sorted(made.items()))
    made["pages.sha256"] = sums.encode()
    for file, data in made.items():
        path = TABLES / file
        if renew:
            path.parent.mkdir(exist_ok=True)
            path.write_bytes(data)
        elif not path.is_file() or path.read_bytes() != data:
            sys.exit(f"make-pages: tables/{file} is not what was made")
    print(f"{len(SOURCES)} pages {'written' if renew else 'as they were made'}")


main(sys.argv[1:])
