"""Wrong bodies as they are written: edits of a crate's files, the bodies in an edit, and what they change."""
import glob
import os
import pathlib
import re
import sys

from copies import TOP, lines_of

LIST, BY_RUN = "bin/gate-edits", "by-run/"
FUNCTION = re.compile(r"(?m)^( *)(?:pub(?:\([^)]*\))? )?(?:const )?(?:unsafe )?fn (\w+)")
IMPL = re.compile(r"(?m)^(?:unsafe )?(?:impl|trait)\b(?:<(?:[^<>]|<[^<>]*>)*>)?((?:(?!\bwhere\b)[^{])*)")
# The edits of many bodies, and how their bodies are named.
MANY = {"00-many": "many", "more": "more"}


def fail(why):
    print(f"bin/wrong-bodies: {why}", file=sys.stderr)
    sys.exit(2)


class Body:
    """A wrong body of an edit: its pairs of file, old and new text, the functions that they change, and how often it wasn't judged."""

    def __init__(self, name, edit, is_alone):
        self.name, self.edit, self.is_alone, self.pairs, self.functions, self.hidden = name, edit, is_alone, [], set(), 0


def folder_of(crate):
    return TOP / "crates" / crate


def edits_of(crate):
    return sorted(glob.glob(f"{folder_of(crate)}/tried/*.edit"))


def crates_with_edits():
    """In the order of crates.txt, which is lowest first."""
    return [it for it in lines_of(TOP / "crates.txt") if edits_of(it)]


def spelled_out(file, text):
    """A text of an edit, as it is in its file. Of a proof file `\\n` ends a line: two answers of a file often have a line in common."""
    return text.replace("\\n", "\n") if file.startswith("proofs/") else text


def bodies_of(edit, is_alone=False):
    name, bodies, file, old = os.path.basename(edit)[: -len(".edit")], [], None, None
    for line in pathlib.Path(edit).read_text("utf-8").split("\n"):
        if line.startswith("file: "):
            file = line[6:].strip()
        elif line.startswith("old:"):
            old = spelled_out(file, line[4:].removeprefix(" "))
        elif line.startswith("new:"):
            if not bodies or name in MANY and not old.startswith("use "):
                bodies.append(Body(f"{MANY[name]}-{len(bodies) + 1:02}" if name in MANY else name, name, is_alone))
            bodies[-1].pairs.append((file, old, spelled_out(file, line[4:].removeprefix(" "))))
    return bodies


def function_at(file, text, at):
    """The end of the path by which a check names the function at a place of a file: a method is named at the module of its type, which
    need not be its impl's."""
    found = [it for it in FUNCTION.finditer(text) if it.start() <= at]
    if not found:
        fail(f"{file}: an edit changes what is before its first function, so that no function can be judged")
    owner, name, module = "", found[-1][2], re.sub(r"/mod$|^(lib|main)$", "", file[len("src/") : -len(".rt")]).replace("/", "::")
    if found[-1][1]:
        head = [it for it in IMPL.finditer(text) if it.start() < found[-1].start()][-1][1]
        trait, _, kind = head.rpartition(" for ")
        kind = re.sub(r"'\w+(, )?", "", kind)
        owner = re.search(r"\w+", kind)[0] + "".join(re.findall(r"\w+", re.sub(r"(<\w+)<.*", r"\1", trait)))
        # An impl for one form of a type is told from others by a type among its arguments; a lifetime is none.
        if re.search("<.*[a-z]", kind):
            owner = "+".join(re.findall(r"\w+", kind))
    path = "::".join(it for it in (module, owner, name) if it)
    return re.sub(r".*::([A-Z][\w+]*::\w+)$", r"\1", path)


def text_of(folder, file):
    """The text of a file, which is empty where an edit makes the file."""
    path = pathlib.Path(folder, file)
    return path.read_text("utf-8") if path.is_file() else ""


def changed(file, text, old, new):
    """The text of a file with a pair's new text in place of the old one, which has to be there once: else None. Where a pair of a file of
    proofs/ has no old text, the new one is a further line at the end."""
    if not old:
        return f"{text}{new}\n" if file.startswith("proofs/") else None
    return text.replace(old, new) if text.count(old) == 1 else None


def applied(body, folder, notes=False):
    """The texts of the files that a body changes; None where an old text isn't there once. `notes`: it notes the functions of the body."""
    texts = {}
    for file, old, new in body.pairs:
        before = texts.setdefault(file, text_of(folder, file))
        texts[file] = changed(file, before, old, new)
        if texts[file] is None:
            return None
        if notes and not old.startswith("use ") and file.startswith("src/"):
            body.functions.add(function_at(file, before, before.find(old) + len(old) - 1))
    return texts


def listed():
    """The lines of bin/gate-edits: a crate, an edit and what its body does wrong."""
    lines = [it for it in (TOP / LIST).read_text("utf-8").splitlines() if it and not it.startswith("#")]
    found = [re.fullmatch(r"(\w+) (\S+): (.+)", it) for it in lines]
    if None in found:
        fail(f"{LIST}: no crate, edit and words: {lines[found.index(None)]}")
    return found


def named_bodies(wanted):
    """The wrong bodies that bin/gate-edits lists, each with its crate and what it does wrong, in the order of the list."""
    found = []
    for named in listed():
        if not named[2].startswith(BY_RUN) and (not wanted or named[1] in wanted):
            bodies = [body for edit in edits_of(named[1]) for body in bodies_of(edit) if body.name == named[2]]
            if len(bodies) != 1:
                fail(f"{LIST}: {named[1]} has {len(bodies)} edits {named[2]}, and not one")
            found.append((named[1], bodies[0], named[3]))
    return found


def stale_texts(crate):
    """What is wrong with the texts of a crate's edits, a line for each."""
    folder, found, names = folder_of(crate), [], set()
    for edit in edits_of(crate):
        name, texts, bodies = os.path.basename(edit), {}, bodies_of(edit)
        found += [f"{crate}/{name}: it has no pairs"] * (not bodies) + [f"{crate}/{name}: there are two of that name"] * (name in names)
        names.add(name)
        for body in bodies:
            texts = {} if name == "more.edit" else texts
            for file, old, new in body.pairs:
                before = texts.setdefault(file, text_of(folder, file))
                texts[file] = changed(file, before, old, new)
                if texts[file] is None:
                    found.append(f"{crate}/{name}: {file} has {before.count(old)} times, and not once: {old.strip()[:100]}")
                    texts[file] = before.replace(old, new)
    return found
