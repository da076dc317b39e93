"""Programs as processes: where a program is, and one that runs and is asked, measured, limited and ended."""
import atexit
import datetime
import functools
import os
import pathlib
import re
import resource
import select
import subprocess
import sys
import tempfile
import threading
import time

from .faults import Wrong

TOP = pathlib.Path(__file__).resolve().parent.parent.parent
SECONDS = 60  # the longest wait for an answer, unless a script says otherwise
BEGUN = time.time()
# A line of a log, after its time and without it.
TIMED = re.compile(r"(\d{4}-\d\d-\d\dT\d\d:\d\d:\d\d\.\d{3})Z (\[(?:ERROR|WARN |INFO |DEBUG) .*)")
UNTIMED = re.compile(r"\[(?:ERROR|WARN |INFO |DEBUG) ")


class Ended(Wrong):
    """The program has ended, though it should still run."""

    def __init__(self, process):
        self.status, self.lines = process.status(), process.log_lines()
        super().__init__(f"{process.name} ended with status {self.status}: {self.lines[-3:]}")


@functools.cache
def program(name):
    """The path of a program. It is proved and built first, unless OUTBOX_BUILT names a folder that has it (bench/program).

    A script asks for it before it starts threads, since each of them would build it.
    """
    told = subprocess.run([TOP / "bench/program", name], stdout=subprocess.PIPE, text=True)
    if told.returncode:
        sys.exit(2)
    return told.stdout.strip()


def wait_until(what, is_so, seconds=SECONDS):
    until = time.monotonic() + seconds
    while not is_so():
        if time.monotonic() > until:
            raise Wrong(f"{seconds} seconds were over before {what}")
        time.sleep(0.01)


def without_time(line):
    """A line of standard error. If it is of the log it begins with its time in UTC, which is tested and left out."""
    if UNTIMED.match(line):
        raise Wrong(f"a line of the log has no time: {line}")
    timed = TIMED.fullmatch(line)
    if not timed:
        return line
    at = datetime.datetime.fromisoformat(timed[1]).replace(tzinfo=datetime.timezone.utc).timestamp()
    # A minute more, since a system's clock may be set meanwhile.
    if not BEGUN - 60 <= at <= time.time() + 60:
        raise Wrong(f"a line of the log has another time than now: {line}")
    return timed[2]


def limited(kind, octets):
    """The words of Popen by which a program runs under a limit of the system from its start on."""
    return {"preexec_fn": lambda: resource.setrlimit(kind, (octets, resource.getrlimit(kind)[1]))}


def status_pages(pid):
    with open(f"/proc/{pid}/statm", encoding="ascii") as file:
        return [int(it) * os.sysconf("SC_PAGE_SIZE") for it in file.read().split()]


def address_space(pid):
    return status_pages(pid)[0]


def resident(pid):
    """The memory that a process holds, in MiB."""
    return status_pages(pid)[1] / (1 << 20)


def descriptors(pid):
    return len(os.listdir(f"/proc/{pid}/fd"))


def computed(pid):
    """The seconds of CPU time that a process has used."""
    with open(f"/proc/{pid}/schedstat", encoding="ascii") as file:
        return int(file.read().split()[0]) / 1e9


def reads(pid):
    """How many system calls of a process have read a descriptor."""
    with open(f"/proc/{pid}/io", encoding="ascii") as file:
        return next(int(line.split()[1]) for line in file if line.startswith("syscr:"))


RUNNING = set()  # however a script ends, it ends these


@atexit.register
def end_running():
    for it in list(RUNNING):
        it.kill()


class Process:
    """A program that runs. Its output is read line by line, and its log, standard error, is kept in a file."""

    def __init__(self, *words, name=None, log=None, environment=None, **how):
        self.name = name or os.path.basename(words[0])
        self.log = open(log, "ab+") if log else tempfile.TemporaryFile()
        how.setdefault("env", {**os.environ, **(environment or {})})
        how.setdefault("stdin", subprocess.PIPE)
        self.process = subprocess.Popen([str(it) for it in words], stdout=subprocess.PIPE, stderr=self.log, **how)
        self.pid, self.held, self.at_rest, self.most = self.process.pid, b"", 0, 0
        RUNNING.add(self)

    def __enter__(self):
        return self

    def __exit__(self, *_):
        self.end()

    def line(self, seconds=SECONDS):
        """The next line that it prints. A line without its end is none."""
        until, out = time.monotonic() + seconds, select.poll()
        out.register(self.process.stdout, select.POLLIN)
        while b"\n" not in self.held:
            # poll has no limit on descriptors, as select has, and octets that are read ahead stay here
            if not out.poll(max(0, until - time.monotonic()) * 1000):
                raise Wrong(f"{self.name} printed no line within {seconds} seconds")
            octets = os.read(self.process.stdout.fileno(), 1 << 16)
            if not octets:
                raise Ended(self)
            self.held += octets
        line, _, self.held = self.held.partition(b"\n")
        return line.decode()

    def give(self, *lines):
        try:
            self.process.stdin.write("".join(f"{it}\n" for it in lines).encode())
            self.process.stdin.flush()
        except BrokenPipeError:
            pass  # its end is found where its answer is read

    def ask(self, line, seconds=SECONDS):
        self.give(line)
        return self.line(seconds)

    def ask_all(self, lines, seconds=SECONDS):
        """The answers to lines that are given at once: fewer if it ends meanwhile."""
        # by a thread of its own, since a program that waits until its answers are read reads no further lines
        writer, answers = threading.Thread(target=self.give, args=lines, daemon=True), []
        writer.start()
        try:
            while len(answers) < len(lines):
                answers.append(self.line(seconds))
        except Ended:
            pass
        writer.join(seconds)
        return answers

    def log_lines(self):
        """All whole lines on standard error so far, without the times of the log."""
        # (not by the file's own position, at which the program writes)
        octets = os.pread(self.log.fileno(), os.fstat(self.log.fileno()).st_size, 0)
        return [without_time(it) for it in octets.decode(errors="replace").split("\n")[:-1]]

    def is_running(self):
        return self.process.poll() is None

    def memory(self):
        """The memory that it holds, in MiB."""
        if not self.is_running():
            raise Ended(self)
        now = resident(self.pid)
        self.most = max(self.most, now)
        return now

    def limit(self, kind, octets):
        """Sets a limit of the system on it: the limit that it had."""
        before = resource.prlimit(self.pid, kind)
        resource.prlimit(self.pid, kind, (octets, before[1]))
        return before[0]

    def kill(self):
        RUNNING.discard(self)
        self.process.kill()
        self.process.wait()

    def finish(self, seconds=SECONDS):
        """Ends its input, and waits: its status."""
        self.process.stdin.close()
        return self.status(seconds)

    def status(self, seconds=SECONDS):
        """Waits until it ends: its status."""
        try:
            return self.process.wait(seconds)
        except subprocess.TimeoutExpired:
            raise Wrong(f"{self.name} didn't end within {seconds} seconds") from None

    def end(self):
        """Kills it, if it runs, and gives all of it back."""
        self.kill()
        for it in filter(None, (self.process.stdin, self.process.stdout, self.log)):
            try:
                it.close()
            except BrokenPipeError:
                pass


class OutboxBroker(Process):
    """An outbox-broker on a free port of 127.0.0.1, or where its options say."""

    def __init__(self, *words, port=0, **how):
        super().__init__(program("outbox_broker"), "--port", port, *words, **how)
        self.port = int(self.line().split()[1])
