"""Runs in which one allocation fails: alloc.c is loaded before the C library, counts all allocations and makes one fail."""
import contextlib
import os
import pathlib
import subprocess
import sys
import tempfile

from .processes import SECONDS, TOP, program

SOURCE = pathlib.Path(__file__).with_name("alloc.c")


@contextlib.contextmanager
def built():
    """The path of the library, which is compiled first."""
    with tempfile.TemporaryDirectory() as folder:
        library = f"{folder}/alloc.so"
        if subprocess.run(["cc", "-O2", "-Wall", "-shared", "-fPIC", "-fno-builtin", "-o", library, SOURCE]).returncode:
            sys.exit(2)
        yield library


@contextlib.contextmanager
def failing(library, number):
    """The environment of a run in which the allocation of a number fails, or none with 0; and what says how many there were."""
    with tempfile.NamedTemporaryFile() as count:
        count.truncate(8)
        environment = {"LD_PRELOAD": library, "FAIL": str(number), "ALLOCATIONS": count.name}
        yield environment, lambda: int.from_bytes(pathlib.Path(count.name).read_bytes(), sys.byteorder)


def run(path, library, text, number=0):
    """A run over a text in which the allocation of a number fails: its status, what it printed, and how many allocations there were."""
    with failing(library, number) as (environment, count):
        told = subprocess.run([path], input=text, capture_output=True, encoding="utf-8", errors="replace",
                              env={**os.environ, **environment}, timeout=SECONDS)
        return told.returncode, told.stdout, count()


@contextlib.contextmanager
def test_program(name):
    """The path of a program of tests/ or crates/. Those of tests/ are built by bin/test-programs, without a proof."""
    if os.environ.get("OUTBOX_BUILT") or not (TOP / "tests" / name).is_dir():
        yield program(name)
        return
    with tempfile.TemporaryDirectory() as folder:
        if subprocess.run([TOP / "bin/test-programs", "--to", folder, name]).returncode:
            sys.exit(2)
        yield f"{folder}/{name}"
