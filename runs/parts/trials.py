"""Runs that are tried side by side, and what was wrong in them."""
import collections
import concurrent.futures
import contextlib
import os
import subprocess
import tempfile

from .commands import COMMAND
from .faults import Wrong, text_of
from .schedules import text


@contextlib.contextmanager
def over(lines):
    """Whatever is raised within belongs to a run over these lines."""
    try:
        yield
    except Exception as fault:
        fault.lines = lines
        raise


def kept(lines):
    """The path of a file that keeps the schedule of a run."""
    with tempfile.NamedTemporaryFile("w", prefix=f"{os.path.basename(COMMAND)}-", suffix=".schedule", delete=False) as file:
        file.write(text(*lines))
    return file.name


class Trial:
    """Counts the runs, and prints the first faults."""

    def __init__(self, most_faults=10):
        self.most_faults, self.wrong, self.counts = most_faults, 0, collections.Counter()

    def fail(self, text):
        self.wrong += 1
        if self.wrong <= self.most_faults:
            print(f"FAIL {text}", flush=True)

    def judge(self, what, judge, *words):
        """One run, by a function that raises Wrong. The schedule of a fault is kept."""
        try:
            return judge(*words)
        except (Wrong, subprocess.TimeoutExpired, ValueError, IndexError, KeyError) as fault:
            self.fail(f"{what}: {text_of(fault)}: {kept(getattr(fault, 'lines', []))}")
            return None

    def all(self, judge, tries):
        """Judges all, each a name and the words of its judge: what each came to, in order."""
        with concurrent.futures.ThreadPoolExecutor(os.cpu_count()) as lanes:
            for result in lanes.map(lambda it: self.judge(it[0], judge, *it[1:]), tries):
                self.counts["runs"] += 1
                yield result

    def end(self, text):
        """Prints the last line: the status of the script."""
        print(f"{COMMAND}: {text}; {self.wrong} wrong" + ("" if self.wrong else ": all right"))
        return 1 if self.wrong else 0
