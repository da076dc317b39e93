"""Wrong bodies that a check of their functions has to refuse, over the libraries that `rt ci` left in crates/*/out/rlib."""
import collections
import concurrent.futures
import hashlib
import os
import pathlib
import re
import shutil
import subprocess
import tempfile

import kit
from wrong_bodies.edits import TOP, applied, bodies_of, crates_with_edits, edits_of, fail, folder_of, named_bodies
from wrong_bodies.judging import ANSWER, BROKEN, CLAUSE, GOAL, NAMES, THROUGH, UNJUDGED, Told, try_rounds

KINDS = (CLAUSE, GOAL, ANSWER, NAMES, THROUGH, BROKEN, UNJUDGED)
PARTS = ("src", "specs", "proofs")
BODY = re.compile(rf"^(\S+) in (.+?): ({'|'.join(KINDS)})")


def lanes():
    """As many as RT_JOBS says, or as there are processors."""
    jobs = os.environ.get("RT_JOBS", "")
    return concurrent.futures.ThreadPoolExecutor(int(jobs) if jobs.isdigit() and int(jobs) else os.cpu_count())


def bring_up_to_date(crate):
    """Has rt build what of a crate's libraries isn't of the present source, where rt check left some here. What rt ci left has no stamp."""
    below = kit.crate_in(folder_of(crate)).below()
    if any(os.path.exists(f"{it.folder}/out/rlib/stamp") for it in below):
        subprocess.run(["rt", "check", "--jobs", "1", "--only", ""], cwd=folder_of(crate), stdout=subprocess.DEVNULL, check=False)
    lacking = [it.name for it in below if not os.path.isdir(it.rlib)]
    if lacking:
        fail(f"{crate}: its library {lacking[0]} isn't there: run rt ci first")


def is_proved_here(crate):
    """Whether rt ci has left what it makes of a crate that is proved, and no source of the crate is younger."""
    own = kit.crate_in(folder_of(crate))
    made = f"{own.folder}/out/{crate}" if own.is_program else own.rlib
    if not os.path.exists(made):
        return False
    sources = [path for part in PARTS for path in (folder_of(crate) / part).rglob("*") if path.is_file()]
    return all(path.stat().st_mtime <= os.stat(made).st_mtime for path in sources)


class Room:
    """A copy of a crate's sources in a folder of its own, whose functions are checked over built libraries. A check keeps there what it
    proved, so that the next one proves only what its texts change."""

    def __init__(self, crate, folder):
        self.crate, self.folder = crate, folder
        for part in PARTS:
            if (folder_of(crate) / part).is_dir():
                shutil.copytree(folder_of(crate) / part, f"{folder}/{part}")
        self.words = kit.check_words(folder_of(crate), ["--incremental", f"{folder}/kept"])

    def check(self, texts, bodies):
        """What a check of these bodies' functions prints with these texts in the files' place."""
        functions = sorted({it for body in bodies for it in body.functions})
        paths = {file: pathlib.Path(self.folder, file) for file in texts}
        before = {file: path.read_text("utf-8") if path.is_file() else None for file, path in paths.items()}
        for file, text in texts.items():
            paths[file].parent.mkdir(parents=True, exist_ok=True)
            paths[file].write_text(text, "utf-8")
        said = subprocess.run([*self.words, *(word for it in functions for word in ("--only", it))], cwd=self.folder, text=True,
                              errors="replace", stdout=subprocess.PIPE, stderr=subprocess.STDOUT, check=False).stdout
        for file, text in before.items():
            if text is None:
                paths[file].unlink()
            else:
                paths[file].write_text(text, "utf-8")
        return Told(self.crate, said)


def try_bodies(crate, bodies, tell=lambda body, how, by: None):
    """How each of these bodies of a crate was taken. Where rt ci has not just proved the crate here, its functions are first proved as
    they are: else a body might be refused for what is wrong with the function anyway."""
    for body in bodies:
        if applied(body, folder_of(crate), notes=True) is None:
            fail(f"{crate}/{body.name}: an old text isn't once in its file")
    with tempfile.TemporaryDirectory(prefix="rt-edit-named-") as folder:
        room = Room(crate, folder)
        if not is_proved_here(crate):
            told = room.check({}, bodies)
            for function in sorted({it for body in bodies for it in body.functions}):
                how = told.judge(function)
                if how != (THROUGH, ""):
                    fail(f"{crate}: {function} isn't proved as it is: {(told.errors or [how])[0]}")
        return try_rounds(bodies, folder_of(crate), room.check, tell)


def gate(wanted):
    """Tries the bodies that bin/gate-edits lists: only a clause that isn't met or an open goal is a refusal."""
    named, passed = named_bodies(wanted), 0
    crates = dict.fromkeys(crate for crate, _, _ in named)
    for crate in crates:
        bring_up_to_date(crate)
    with lanes() as pool:
        # Those of the last crates of crates.txt first: what stands on most takes longest.
        tried = {it: pool.submit(try_bodies, it, [body for crate, body, _ in named if crate == it])
                 for it in reversed(crates_with_edits()) if it in crates}
        for crate, body, words in named:
            how, by = tried[crate].result()[body]
            passed += how in (CLAUSE, GOAL)
            print(f"{crate}/{body.name} in {' and '.join(sorted(body.functions))}: {words}: {how}: {by[:200]}", flush=True)
    print(f"wrong bodies: {passed} passed, {len(named) - passed} failed")
    return 0 if named and passed == len(named) else 1


def tell(body, how, by):
    print(f"{body.name} in {' and '.join(sorted(body.functions))}: {how}: {by[:200]}", flush=True)
    print(f"    {body.pairs[0][2].strip()[:130]}")


def chosen(crate, wanted, is_alone=False):
    """The bodies of a crate, or those of these names."""
    found = [it for edit in edits_of(crate) for it in bodies_of(edit, is_alone) if not wanted or {it.name, it.edit} & wanted]
    if not found:
        fail(f"{crate} has no such edits")
    return found


def one(crate, wanted, is_alone):
    """Tries the bodies of a crate, or those of these names, and prints how each was taken."""
    found = chosen(crate, wanted, is_alone)
    bring_up_to_date(crate)
    results = try_bodies(crate, found, tell)
    counts = collections.Counter(how for how, _ in results.values())
    print(f"{crate}: {len(results)} wrong bodies: " + ", ".join(f"{n} {how}" for how, n in counts.items()))
    return 0 if counts.keys() <= {CLAUSE, GOAL, ANSWER} else 1


def control(crate, wanted):
    """Tries the right bodies with what these edits change in proofs/, and prints whether they are proved. Edits that change the same there
    are tried once. What they add is for goals of their own bodies, and is left out."""
    tried, names = {}, collections.defaultdict(list)
    for body in chosen(crate, wanted):
        # Its functions are those that it changes in src/, so they are noted before these changes are left out.
        if applied(body, folder_of(crate), notes=True) is None:
            fail(f"{crate}/{body.name}: an old text isn't once in its file")
        body.pairs = [it for it in body.pairs if it[0].startswith("proofs/") and it[1]]
        if body.pairs:
            names[tried.setdefault((*body.pairs, *sorted(body.functions)), body)].append(body.name)
    if not tried:
        fail(f"{crate}: no such edit changes proofs/")
    bring_up_to_date(crate)

    def tell_control(body, how, by):
        said = "proved" if how == THROUGH else f"open: {how.removeprefix('refused by ')}: {by[:200]}"
        for name in names[body]:
            print(f"{name} in {' and '.join(sorted(body.functions))}: {said}", flush=True)

    results = try_bodies(crate, [*tried.values()], tell_control)
    proved = sum(len(names[body]) for body, (how, _) in results.items() if how == THROUGH)
    count = sum(map(len, names.values()))
    print(f"{crate}: {count} edits change proofs/: of {proved} the right body is proved, of {count - proved} it is open")
    return 0 if proved == count else 1


def sum_of(crate):
    """A sum of what the trial of a crate's bodies rests on in the crate itself."""
    found = hashlib.sha256()
    for part in (*PARTS, "tried"):
        for path in sorted((folder_of(crate) / part).rglob("*")):
            if path.is_file():
                found.update(repr((str(path.relative_to(TOP)), path.read_bytes())).encode())
    return found.hexdigest()[:16]


def told_before(path):
    """The lines of an earlier run, by crate and sum."""
    found = collections.defaultdict(list)
    for line in path.read_text("utf-8").splitlines() if path.is_file() else []:
        crate, summed, said = line.split(" ", 2)
        found[crate, summed].append(said)
    return found


def try_crate(crate, summed, path):
    """Tries the bodies of a crate in a process of its own, and keeps what each came to once all of them were tried."""
    run = subprocess.run([TOP / "bin/wrong-bodies", "built", crate], capture_output=True, text=True, errors="replace", check=False)
    said = [match[0] for match in map(BODY.match, run.stdout.splitlines()) if match]
    if run.returncode == 2 or not said:
        print(f"{crate}: wasn't tried: {(run.stderr or run.stdout).strip()[-300:]}", flush=True)
        return []
    with path.open("a") as file:
        file.writelines(f"{crate} {summed} {it}\n" for it in said)
    return said


def print_table(results):
    commit = subprocess.run(["git", "rev-parse", "--short", "HEAD"], cwd=TOP, capture_output=True, text=True, check=True).stdout.strip()
    print(f"\nat {commit}:\n\n| crate | bodies | {' | '.join(it.removeprefix('refused by ') for it in KINDS)} |")
    print("|---" * (len(KINDS) + 2) + "|")
    for crate, said in results.items():
        counts = collections.Counter(BODY.match(it)[3] for it in said)
        print(f"| `{crate}` | {len(said)} | {' | '.join(str(counts[it] or '–') for it in KINDS)} |")


def every(file, wanted):
    """Tries the bodies of all crates, or of these, but those of which the file says already how they were taken."""
    path, results = pathlib.Path(file), {}
    before = told_before(path)
    with lanes() as pool:
        for crate in crates_with_edits():
            if not wanted or crate in wanted:
                summed = sum_of(crate)
                results[crate] = before[crate, summed] or pool.submit(try_crate, crate, summed, path)
        for crate, said in results.items():
            results[crate] = said if isinstance(said, list) else said.result()
            print(f"{crate}: {len(results[crate])} bodies", flush=True)
    print_table(results)
    return 0 if all(said and all(BODY.match(it)[3] in KINDS[:3] for it in said) for said in results.values()) else 1
