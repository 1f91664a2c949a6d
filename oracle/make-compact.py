#!/usr/bin/env python3
"""make-compact.py [--renew]: makes tables/compact from tables/classes.bin, by the words of 02 [9] and by nothing of the library.

records.bin has a record of 16 bytes for each of 24: first, last and flags as u32, range as u16, and as u16 0 or the 1-based place of its (base, lower) in letters.bin, pairs of
u32 in order of first use, none twice and none (0, 0); all little-endian. With --renew the files and their sums are written; without it they are compared, and status 1 says that
one differs. What was made is led back first: it must be classes.bin again."""
import hashlib
import struct
import sys
from pathlib import Path

TABLES = Path(__file__).resolve().parent.parent / "tables"
CLASS, COMPACT, LETTERS = "<IIIHHII", "<IIIHH", "<II"


def packed(classes):
    places, records = {}, []
    for first, last, flags, range_, _, base, lower in struct.iter_unpack(CLASS, classes):
        letters = base, lower
        place = 0 if letters == (0, 0) else places.setdefault(letters, len(places) + 1)
        records.append(struct.pack(COMPACT, first, last, flags, range_, place))
    return b"".join(records), b"".join(struct.pack(LETTERS, *letters) for letters in places)


def unpacked(records, letters):
    known = [(0, 0), *struct.iter_unpack(LETTERS, letters)]
    return b"".join(struct.pack(CLASS, *shared, 0, *known[place]) for *shared, place in struct.iter_unpack(COMPACT, records))


def main(words):
    renew = words == ["--renew"]
    if words and not renew:
        sys.exit(__doc__)
    classes = (TABLES / "classes.bin").read_bytes()
    records, letters = packed(classes)
    if unpacked(records, letters) != classes:
        sys.exit("make-compact: what was made does not lead back to classes.bin")
    made = {"compact/letters.bin": letters, "compact/records.bin": records}
    made["compact.sha256"] = "".join(f"{hashlib.sha256(data).hexdigest()}  {file}\n" for file, data in made.items()).encode()
    for file, data in made.items():
        path = TABLES / file
        if renew:
            path.parent.mkdir(exist_ok=True)
            path.write_bytes(data)
        elif not path.is_file() or path.read_bytes() != data:
            sys.exit(f"make-compact: tables/{file} is not what was made")
    print(f"the compact table {'written' if renew else 'as it was made'}: {len(classes):,} bytes become {len(records) + len(letters):,}")


main(sys.argv[1:])
