"""Wrong bodies that no contract refuses, since nothing promises that work gets done: a run of a program has to show each.

A body is a file crates/CRATE/tried/by-run/*.edit, or tests/NAME/tried/by-run/*.edit. Like other edits it has lines `file: PATH`, of a file
of its crate, and pairs of lines `old: TEXT` and `new: TEXT`. The word WRONG in a new text is a condition: whether the program is to have
this body. Besides it names
  program: NAME     the program of tests/ that is run
  shown: LINE       a line of the program's stdin whose answer has to be another by the wrong body: one or more
  same: LINE        a line whose answer stays the same: none or more
  octets: NUMBER    how much the program may have allocated at once; a run that exceeds it answers nothing. Without it there is no bound
All bodies of a program are built into one program, since that costs as much as one of them. The environment's WRONG_BODY chooses one for
a run; where none is chosen, the answer to each line has to be that of the program's cases.
"""
import functools
import importlib.machinery
import importlib.util
import os
import pathlib
import re
import resource
import signal
import tempfile

import kit
from copies import copy, test_programs
from wrong_bodies.edits import BY_RUN, LIST, TOP, bodies_of, fail, listed

# A line is answered in 0.1 s of CPU time; threads that wait in vain use up what they are given.
SECONDS = 3
WAITED = 120  # the wall-clock time, where all threads sleep or the machine is busy
RUNS = 5  # threads may come in an order in which a wrong body isn't seen: so often it is tried
FAULT = "it ended with status"
EXCEEDED = 4  # the status with which most.c ends a program
CHOSEN = TOP / "bin/wrong_bodies/chosen.c"
MOST = TOP / "bin/wrong_bodies/most.c"  # a program is built with it where a body of its has a bound
# The end of the root file of a crate that has bodies. It is in a copy alone: a crate of the repository declares no function of C.
DECLARED = """
unsafe extern "C" {
    safe fn wrong_body() -> u64;
}

pub(crate) fn is_wrong(number: u64) -> bool {
    wrong_body() == number
}
"""


@functools.cache
def said_of(program):
    """The lines of a program's cases, each with the lines of its answer. bin/cases, which reads them, is a script."""
    loader = importlib.machinery.SourceFileLoader("cases", str(TOP / "bin/cases"))
    cases = importlib.util.module_from_spec(importlib.util.spec_from_loader("cases", loader))
    loader.exec_module(cases)
    return cases.said_of(program)


class ByRun:
    """A wrong body, and the lines of a program that are to show it, and that aren't."""

    def __init__(self, path):
        self.name, self.crate, self.pairs = path.stem, path.parts[-4], [it for body in bodies_of(path) for it in body.pairs]
        words = [line.partition(": ")[::2] for line in path.read_text("utf-8").splitlines()]
        self.shown, self.same = ([rest for word, rest in words if word == it] for it in ("shown", "same"))
        self.program, self.octets = (next((rest.strip() for word, rest in words if word == it), None) for it in ("program", "octets"))

    def answers(self):
        """The answers of its lines, as the program's cases have them."""
        return {line: "\n".join(answer) for line, answer in said_of(self.program) if line in self.shown + self.same}

    def apply(self, crate, condition):
        """Changes a copy of its crate, where WRONG is this condition; returns the first text that isn't there once."""
        for file, old, new in self.pairs:
            text = (crate / file).read_text("utf-8")
            if text.count(old) != 1:
                return f"{file} has {text.count(old)} times, and not once: {old.strip()[:100]}"
            (crate / file).write_text(text.replace(old, re.sub(r"\bWRONG\b", condition, new)), "utf-8")
        return None


def found_in(wanted):
    """The bodies of these crates, or all, by the program that is to show them."""
    paths = [*TOP.glob("crates/*/tried/by-run/*.edit"), *TOP.glob("tests/*/tried/by-run/*.edit")]
    programs = {}
    for body in map(ByRun, sorted(paths)):
        if not wanted or body.crate in wanted:
            programs.setdefault(body.program, []).append(body)
    return programs


def put_together(bodies, folder):
    """Makes the folder a repository of the program with all these bodies, of which the n-th is chosen by n; returns what is wrong."""
    copy(folder, [bodies[0].program], test_programs()[0])
    wrong = [(body, body.apply(folder / "crates" / body.crate, f"crate::is_wrong({number})")) for number, body in enumerate(bodies, 1)]
    for crate in {body.crate for body in bodies}:
        root = next(it for it in (folder / f"crates/{crate}/src/{name}.rt" for name in ("lib", "main")) if it.is_file())
        root.write_text(root.read_text("utf-8") + DECLARED, "utf-8")
    return [f"{body.crate}/by-run/{body.name}: {why}" for body, why in wrong if why]


def stale_texts(wanted):
    """What is wrong with the texts of these crates' bodies and with their lines, a line for each."""
    programs = found_in(wanted)
    named = {(it[1], it[2].removeprefix(BY_RUN)) for it in listed() if it[2].startswith(BY_RUN) and (not wanted or it[1] in wanted)}
    differ = named ^ {(it.crate, it.name) for bodies in programs.values() for it in bodies}
    found = [f"{LIST}: its lines by run aren't the bodies by run: {crate} {name}" for crate, name in differ]
    for bodies in programs.values():
        with tempfile.TemporaryDirectory() as room:
            found += put_together(bodies, pathlib.Path(room))
        for body in bodies:
            name, answers = f"{body.crate}/by-run/{body.name}", body.answers()
            found += [f"{name}: no line of stdin: {it}" for it in body.shown + body.same if it not in answers]
            found += [f"{name}: no line is to show it"] * (not body.shown)
            found += [f"{name}: no new text has the word WRONG"] * (not any("WRONG" in new for _, _, new in body.pairs))
    return found


def limit():
    """Has the kernel end this process where it has used up its CPU time, or has waited for long."""
    resource.setrlimit(resource.RLIMIT_CPU, (SECONDS, SECONDS + 1))
    signal.alarm(WAITED)


def answer_of(program, line, number, octets):
    """What a program with the body of a number answers to a line, how it ended where it didn't answer, and the CPU seconds that it took.
    `octets` is its bound, or None."""
    with tempfile.NamedTemporaryFile() as given:
        pathlib.Path(given.name).write_text(f"{line}\n", "utf-8")
        with open(given.name, "rb") as stdin:
            chosen = {"WRONG_BODY": str(number), "MOST_OCTETS": octets or "0"}
            ran = kit.Run([program], stdin=stdin, env={**os.environ, **chosen}, preexec_fn=limit)
    told = "no answer" if ran.status in (-signal.SIGXCPU, -signal.SIGALRM) else f"{FAULT} {ran.status}"
    if octets and ran.status == EXCEEDED:
        told = f"no answer within {octets} octets"
    return told if ran.status else ran.out.decode(errors="replace").strip("\n"), ran.seconds


def runs_of(body, line, number, program):
    """What a program answers to a line without the body, what it answers with it, and the CPU seconds that these runs took."""
    right, seconds = answer_of(program, line, 0, body.octets)
    found, used = answer_of(program, line, number, body.octets)
    for _ in range(RUNS - 1 if line in body.shown else 0):
        if found != right:
            break
        found, more = answer_of(program, line, number, body.octets)
        used += more
    return right, found, seconds + used


def judge(body, number, program):
    """Whether its lines show a body, and the words about it. A program that ends by a fault answers nothing, and shows nothing."""
    wanted, seconds, wrong, shown = body.answers(), 0, [], []
    for line in body.shown + body.same:
        right, found, used = runs_of(body, line, number, program)
        seconds += used
        if right != wanted[line]:
            wrong.append(f"without it {line}: {right}")
        elif (found != right) != (line in body.shown) or found.startswith(FAULT):
            wrong.append(f"{line}: {found}")
        elif line in body.shown:
            shown.append(f"{line}: {found}")
    told = f"NOT SHOWN: {'; '.join(wrong)}" if wrong else f"SHOWN: {'; '.join(shown)}"
    return not wrong, f"{told} ({seconds:.0f} s of CPU time)"


def show_all(bodies):
    """Builds a program with these bodies, and runs it by each; returns how many are shown."""
    good = 0
    with tempfile.TemporaryDirectory(prefix="by-run-") as room:
        room = pathlib.Path(room)
        wrong, program = put_together(bodies, room / "copy"), room / bodies[0].program
        why, seconds, _ = (wrong[0], 0, 0) if wrong else kit.Builder(room / "tools").build(
            room / "copy/crates" / bodies[0].program, program, c_files=[CHOSEN, *[MOST] * any(it.octets for it in bodies)])
        if why:
            print(f"{bodies[0].program} NOT BUILT with its wrong bodies: {' '.join(why.split())[-1000:]}", flush=True)
            return 0
        print(f"{bodies[0].program} with {len(bodies)} wrong bodies: built in {seconds:.0f} s of CPU time", flush=True)
        for number, body in enumerate(bodies, 1):
            is_shown, told = judge(body, number, program)
            print(f"{body.crate}/by-run/{body.name}: {told}", flush=True)
            good += is_shown
    return good


def show(wanted):
    """Builds and runs the bodies of these crates, or all."""
    programs = found_in(wanted)
    if not programs:
        fail(f"no body by run of {' '.join(wanted)}")
    good, count = sum(map(show_all, programs.values())), sum(map(len, programs.values()))
    print(f"wrong bodies by run: {good} passed, {count - good} failed")
    return 0 if good == count else 1
