#!/usr/bin/env python3
"""Whether an engineer without the kit can use the package: ./package is run twice and must give the same bytes; the package is unpacked in an empty folder outside the
repository, with `rt` off the path; the commands of README's part "The package" are run there and must write what stands under them; header and example compile as C99, C11 and C++ without a warning;
C and Rust word each refusal alike; what `cargo package` packs of rust/ is unpacked by itself, and all its tests pass; and a missing, foreign, damaged or
older archive and a damaged table each give a message that says what to do. Status 3, with a line that says why, where cargo or a C compiler is missing."""
import os
import re
import shutil
import subprocess
import sys
import tempfile
from pathlib import Path

ROOT = Path(__file__).resolve().parent.parent
MACHINE = os.uname().machine
README_MACHINE = "x86_64"
PART = "## The package"
MACHINES = {"x86_64": 62, "aarch64": 183}
OTHER = {"x86_64": "aarch64", "aarch64": "x86_64"}


class Failed(Exception):
    pass


def need(holds, words):
    if not holds:
        raise Failed(words)


def run(words, where, env, **more):
    return subprocess.run(words, cwd=where, env=env, capture_output=True, text=True, **more)


def done(words, where, env):
    said = run(words, where, env)
    need(said.returncode == 0, f"{' '.join(map(str, words))}: {(said.stderr or said.stdout).strip()[-600:]}")
    return said.stdout


def without_kit(room):
    """This environment, in which there is no rt: a folder of the path that has one is left out for links to all else in it."""
    env = {k: v for k, v in os.environ.items() if k not in ("RATTLE_HOME", "DRASUMIRA_LIB_DIR", "CARGO_TARGET_DIR", "RUSTFLAGS")}
    folders = []
    for number, folder in enumerate(os.environ["PATH"].split(":")):
        if (Path(folder) / "rt").exists():
            links = room / f"path-{number}"
            links.mkdir()
            for file in Path(folder).iterdir():
                if file.name != "rt":
                    (links / file.name).symlink_to(file)
            folder = str(links)
        folders.append(folder)
    env["PATH"] = ":".join(folders)
    need(shutil.which("rt", path=env["PATH"]) is None, "rt is still on the path")
    return env


def packed(*words):
    """Two runs of ./package."""
    said = done(["./package", *words], ROOT, os.environ)
    made = ROOT / said.split(":")[0]
    first = made.read_bytes()
    done(["./package", *words], ROOT, os.environ)
    need(made.read_bytes() == first, "two runs of ./package give other bytes")
    return made


def readme_commands():
    """The groups of README's part: each a list of (command, what it writes)."""
    text = (ROOT / "README.md").read_text(encoding="utf-8")
    part = text[text.index(PART) + len(PART):]
    part = part[:part.index("\n## ")]
    for group in part.split("\n### "):
        commands, under = [], False
        for line in group.split("\n"):
            if line.startswith("    $ "):
                commands.append((line[6:].replace(README_MACHINE, MACHINE), []))
                under = True
            elif line.startswith("    ") and under:
                commands[-1][1].append(line[4:])
            else:
                under = False
        yield group.split("\n")[0], commands


def follow(commands, where, env):
    """Runs the commands in one shell, and holds each to what README has under it. A status of 1 says that a line is noise."""
    mark = "--- command "
    script = "".join(f"echo '{mark}'\n{command}\necho \"{mark}$?\"\n" for command, _ in commands)
    said = run(["sh", "-c", script], where, env)
    pieces = re.findall(rf"^{mark}\n(.*?)^{mark}(\d+)\n", said.stdout, re.S | re.M)
    need(len(pieces) == len(commands), f"README: {len(pieces)} of {len(commands)} commands came to their end: {said.stderr.strip()[-300:]}")
    for (command, wanted), (out, status) in zip(commands, pieces):
        need(int(status) <= 1 and out.rstrip("\n").split("\n") == (wanted or [""]), f"README: $ {command}: writes {out!r}, status {status}; {said.stderr.strip()[-300:]}")


def standards(package, env, room):
    """The header and the example, by the standards that they are written for."""
    strict = ["-Wall", "-Wextra", "-Wpedantic", "-Werror", "-I", package / "include", "-c", package / "c/lines.c", "-o", room / "lines.o"]
    tried = [["cc", "-std=c99"], ["cc", "-std=c11"]]
    if shutil.which("c++", path=env["PATH"]):
        tried += [["c++", "-x", "c++", "-std=c++11"], ["c++", "-x", "c++", "-std=c++17"]]
    for compiler in tried:
        done([*compiler, *strict], room, env)
    return len(tried)


def refusals(package, env, room):
    """The words of C and of Rust, the latter in the program that README's commands made."""
    done(["cc", "-std=c99", "-I", package / "include", ROOT / "oracle/link/refusals.c", "-o", room / "refusals"], room, env)
    recorder = package / "recorder"
    (recorder / "src/bin").mkdir()
    shutil.copy(ROOT / "oracle/link/refusals.rs", recorder / "src/bin/refusals.rs")
    of_c = done([room / "refusals"], room, env)
    of_rust = done(["cargo", "run", "--quiet", "--offline", "--bin", "refusals"], recorder, env)
    for c, rust in zip(of_c.split("\n"), of_rust.split("\n")):
        need(c == rust, f"the header says '{c}', and the Rust package '{rust}'")
    need(of_c == of_rust, "the header and the Rust package word another number of refusals")
    return of_c.count("\n")


def packed_by_cargo(package, env, room):
    """The files that `cargo package` takes, alone in a folder: nothing outside rust/ is read."""
    target = {**env, "CARGO_TARGET_DIR": str(room / "target")}
    done(["cargo", "package", "--offline", "--allow-dirty", "--no-verify", "--quiet"], package / "rust", target)
    crate = next((room / "target/package").glob("*.crate"))
    alone = room / "alone"
    alone.mkdir()
    done(["tar", "xzf", crate], alone, env)
    folder = next(alone.iterdir())
    return len(re.findall(r"^test .* ok$", done(["cargo", "test", "--offline"], folder, target), re.M))


def foreign(archive):
    """The archive with another processor's number in its objects."""
    number = MACHINES[OTHER[MACHINE]].to_bytes(2, "little")
    return re.sub(rb"(\x7fELF.{14})..", lambda m: m[1] + number, archive, flags=re.S)


def damages(package, env, room):
    """Each damage, and what the build must say to it. The lib/ and tables/ of rust/ are put back each time."""
    rust, wanted = package / "rust", f"take lib/ of drasumira-.*-{MACHINE}.tar.gz, whole, or name the directory of its libdrasumira.a in DRASUMIRA_LIB_DIR"
    archive, about, table = rust / "lib/libdrasumira.a", rust / "lib/libdrasumira.txt", rust / "tables/classes.bin"
    env = {**env, "CARGO_TARGET_DIR": str(room / "target")}

    def says(words, pattern, **more):
        said = run(["cargo", "build", "--offline"], rust, {**env, **more})
        lines = [line for line in said.stderr.split("\n") if "error: drasumira@" in line or line.startswith("error: drasumira")]
        need(said.returncode != 0 and len(lines) == 1 and re.search(pattern, lines[0]), f"{words}: the build says {lines or said.stderr[-300:]}")

    def with_bytes(path, changed, words, pattern, **more):
        whole = path.read_bytes()
        path.unlink() if changed is None else path.write_bytes(changed(whole))
        says(words, pattern, **more)
        path.write_bytes(whole)

    flipped = lambda whole: whole[:1000] + bytes([whole[1000] ^ 1]) + whole[1001:]
    with_bytes(archive, None, "a missing archive", f"there is no library to link, .* is missing: {wanted}")
    with_bytes(archive, foreign, "a foreign archive", f"is for {OTHER[MACHINE]}, and this build is for {MACHINE}: {wanted}")
    with_bytes(archive, flipped, "a damaged archive", f"is damaged, its sum is not the one in libdrasumira.txt: {wanted}")
    with_bytes(archive, lambda _: b"", "an empty archive", f"is no archive of objects: {wanted}")
    with_bytes(about, lambda whole: whole.replace(b"drasumira ", b"drasumira 0.", 1), "an archive of another version", f"is of version '0..*', and this package is .*: {wanted}")
    with_bytes(table, flipped, "a damaged table", r"classes.bin is damaged, its sum is not the one in tables/classes.sha256: unpack the package again")
    with_bytes(table, None, "a missing table", r"classes.bin is missing: unpack the package again")
    says("a directory without the archive", f"there is no library to link, .* is missing: {wanted}", DRASUMIRA_LIB_DIR=str(room))
    says("a directory that is not absolute", "DRASUMIRA_LIB_DIR must be an absolute path, and is 'lib'", DRASUMIRA_LIB_DIR="lib")
    # and the directory that is named is enough
    shutil.move(rust / "lib", room / "lib")
    done(["cargo", "build", "--offline", "--lib"], rust, {**env, "DRASUMIRA_LIB_DIR": str(room / "lib")})
    # in C a table that breaks the rules is refused by the library, with the words of the example
    table = package / "tables/classes.bin"
    table.write_bytes(table.read_bytes()[:-1])
    said = run(["./lines", "tables", "rust/examples/console.log"], package, env)
    need(said.returncode == 2 and "sha256sum -c PACKAGE.txt" in said.stderr and "refusal 5: the class table is not good" in said.stderr, f"c/lines.c over a damaged table says {said.stderr}")
    said = run(["sha256sum", "-c", "--quiet", "PACKAGE.txt"], package, env)
    need(said.returncode != 0 and "tables/classes.bin: FAILED" in said.stdout, "PACKAGE.txt does not tell the damaged table")
    return 10


def main():
    for tool, words in (("cargo", "cargo is missing"), ("cc", "there is no C compiler, cc")):
        if shutil.which(tool) is None:
            print(f"unpacked.py: {words}")
            sys.exit(3)
    with tempfile.TemporaryDirectory() as folder:
        try:
            room = Path(folder)
            env, made = without_kit(room), packed()
            user = room / "empty"
            user.mkdir()
            shutil.copy(made, user)
            package, commands = user / made.name.removesuffix(".tar.gz"), 0
            for title, group in readme_commands():
                follow(group, user if title == "" else package, env)
                commands += len(group)
            need(commands >= 8, f"README's part has {commands} commands")
            compilers, words = standards(package, env, room), refusals(package, env, room)
            tests = packed_by_cargo(package, env, room)
            need(tests >= 20, f"of the packed tests {tests} pass")
            messages = damages(package, env, room)
        except Failed as fault:
            # one line: ./test shows the last
            print(f"unpacked.py: {' '.join(str(fault).split())}", file=sys.stderr)
            sys.exit(1)
    print(f"{made.stat().st_size} bytes, twice the same; without rt {commands} commands of README, the header by {compilers} standards, {words} refusals in C as in Rust, {tests} tests of the packed crate, {messages} damages told")


if __name__ == "__main__":
    main()
