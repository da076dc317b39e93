#!/usr/bin/env python3
"""Programs that are no crates of the repository, proved and built for measuring, so that the gate needn't prove them: bench/programs.txt
has those that only measure, and what they stand on; tests/programs.txt those that test, some of which are measured too. Each is built in
a copy of the crates that it stands on, by `rt ci`, which takes what the gate has proved on this machine where the kit keeps that
(CONTRIBUTING.md). Of bench_NAME the folder bench/NAME_program becomes its crate there: *.rt.txt without their .txt are its src/,
*.antt.txt without it are its proofs, the rest is what `rt ci` runs it on and compares. usage, from anywhere: bench/copied.py NAME..
prints where each lies; it's built where it or what it stands on has changed
                      bench/copied.py --copy FOLDER NAME..    makes the folder such a copy, to build it there in another way
The scripts that measure with one find it by bench/program.
"""
import hashlib
import os
import pathlib
import shutil
import subprocess
import sys
import tempfile

BENCH = pathlib.Path(__file__).resolve().parent
TOP = BENCH.parent
sys.dont_write_bytecode = True
sys.path.insert(0, str(TOP / "bin"))
import copies


def programs():
    """The folder and the line of each program that is no crate."""
    lines = copies.lines_of(BENCH / "programs.txt")
    own = {name: (BENCH / f"{name.removeprefix('bench_')}_program", line) for name, line in lines.items()}
    return {**own, **copies.test_programs()[0]}


def copy(folder, *names):
    """Makes the folder a copy of these, programs or crates, and of the crates that they stand on."""
    copies.copy(folder, names, programs())


def sum_of(folder):
    """Of all files of a copy, and of the toolchain that builds it."""
    found = hashlib.sha256(subprocess.check_output(["rt", "version"]))
    for path in sorted(it for it in pathlib.Path(folder).rglob("*") if it.is_file()):
        found.update(f"{path.relative_to(folder)} {path.stat().st_size}\n".encode() + path.read_bytes())
    return found.hexdigest()


def build_in(made, folder, *names):
    """Proves and builds a copy, and puts these programs of it into the folder."""
    print(f"bench/copied.py: proves and builds {', '.join(names)} in a copy, by rt ci", file=sys.stderr, flush=True)
    done = subprocess.run(["rt", "ci"], cwd=made, stdout=subprocess.PIPE, stderr=subprocess.STDOUT, text=True)
    if done.returncode:
        sys.exit(f"{done.stdout}bench/copied.py: {', '.join(names)}: not built")
    os.makedirs(folder, exist_ok=True)
    for name in names:
        shutil.copy(f"{made}/crates/{name}/out/{name}", f"{folder}/{name}")


def build(folder, *names):
    """Proves and builds these, and puts them into the folder."""
    with tempfile.TemporaryDirectory() as made:
        copy(made, *names)
        build_in(made, folder, *names)


def program(name):
    """Where a program lies, once it's built of the present sources."""
    out = programs()[name][0] / "out"
    built_of = out / "built-of"
    with tempfile.TemporaryDirectory() as made:
        copy(made, name)
        now = sum_of(made)
        if not (out / name).is_file() or not built_of.is_file() or built_of.read_text(encoding="utf-8") != now:
            built_of.unlink(missing_ok=True)
            build_in(made, out, name)
            built_of.write_text(now, encoding="utf-8")
    return out / name


def main():
    words = sys.argv[1:]
    if words in (["--help"], ["-h"]):
        print(__doc__, end="")
        return
    to = words[1] if words[:1] == ["--copy"] and len(words) > 2 else None
    names = words[2:] if to else words
    if not names or any(name.startswith("-") for name in names):
        sys.exit(__doc__)
    unknown = [name for name in names if name not in programs()]
    if unknown:
        sys.exit(f"bench/copied.py: neither bench/programs.txt nor tests/programs.txt has {unknown[0]}")
    if to:
        return copy(to, *names)
    for name in names:
        print(program(name))


if __name__ == "__main__":
    main()
