"""The sources as bin/theorem reads them: definitions of specs/*.antt, items of src/*.rt, and what each of them rests on."""
import functools
import os
import re
import sys

from theorem_layout import indent_of

TOP = os.path.dirname(os.path.dirname(os.path.abspath(__file__)))


def fail(why):
    sys.exit(f"bin/theorem: {why}")


def read(path):
    try:
        with open(f"{TOP}/{path}", encoding="utf-8") as it:
            return it.read()
    except OSError as error:
        fail(f"{path}: {error.strerror}")


def crates():
    found = []
    for line in read("crates.txt").split("\n"):
        line = line.split("#")[0]
        if ":" in line:
            found.append(line.split(":")[0].split()[0])
    return found


CRATES = crates()
WORD = re.compile(r"[^\s(){}\[\];,.`\"]+")


class Def:
    """A definition of a .antt file: its text, the heads of the module blocks that it stands in, the name that it has, and the number of
    the line that has it."""

    def __init__(self, file, name, kind, lines, blocks, number):
        self.file, self.name, self.kind, self.lines, self.blocks, self.number = file, name, kind, lines, blocks, number

    def block_of(self):
        return self.blocks

    def key(self):
        return self.file, self.name


class Item:
    """An item of a .rt file: a declaration or a contract, with the head of the impl block that it stands in, and the number of its first
    line."""

    def __init__(self, file, name, kind, lines, block, uses, number):
        self.file, self.name, self.kind, self.lines, self.block, self.uses, self.number = file, name, kind, lines, block, uses, number

    def block_of(self):
        return self.block

    def key(self):
        return self.file, self.name


def parts_of(name):
    """The words by which a name stands in a text: those between the places of an operator."""
    return [it for it in name.split("◌") if it] if "◌" in name else [name]


# ---- where a path leads

@functools.lru_cache(None)
def exists(path):
    return os.path.exists(f"{TOP}/{path}")


def declared_in(crate, names):
    """The source file of a path behind `declared`, and what is left of the path."""
    for cut in range(len(names), 0, -1):
        file = f"crates/{crate}/src/{'/'.join(names[:cut])}.rt"
        if exists(file):
            return file, names[cut:]
    return f"crates/{crate}/src/lib.rt", names


def target_of(path, name, where):
    """What `name` of the module `path` is: ('def', file, name), ('item', file, name) or ('foreign', module, name); with no name, the
    module."""
    words = path.split(".")
    if words[0] != "Rattle" or len(words) < 3:
        fail(f"{where}: {path} is no path of a module")
    crate, rest = words[1], words[2:]
    if crate not in CRATES:
        return ("foreign", path, name)
    if rest[0] == "proofs":
        return ("lemma", path, name)  # an impl's law may be one; what is printed may not
    if rest[0] == "specs" and rest[1:2] == ["declared"]:
        file, left = declared_in(crate, rest[2:])
        if left[:1] == ["TheConstants"]:
            return ("item", file, name)
        if not left:
            fail(f"{where}: {path} names no type")
        return ("item", file, left[0])
    file = f"crates/{crate}/specs/{'/'.join(rest[1:])}.antt"
    if not exists(file):
        fail(f"{where}: there is no {file}, which {path} leads to")
    return ("def", file, name) if name else ("module", file, None)


def imports_of(lines, where):
    """The names that use lines bring: each with its target, and aliases of modules."""
    found = {}
    for path, names, alias in lines:
        if names is None:
            found[alias or path.split(".")[-1]] = target_of(path, None, where)
            continue
        for name in names:
            name, _, other = name.partition(" as ")
            for part in parts_of(other or name):
                found[part] = target_of(path, name, where)
    return found


USE = re.compile(r"use\s+(Rattle(?:\.[^\s.{;]+)+?)(?:\.\{([^}]*)\})?(?:\s+as\s+([^\s;]+))?\s*(?:;|$)", re.M)


def uses_in(text):
    found = []
    for it in USE.finditer(text):
        names = [" ".join(name.split()) for name in it.group(2).split(",") if name.strip()] if it.group(2) is not None else None
        found.append((it.group(1), names, it.group(3)))
    return found


# ---- files of definitions

HEADS = re.compile(r"\s*(?:(?:abbrev|unfoldable|opaque)\s+)*(?:pub\s+)?(?:(record|data)\s+)?([^\s:]+)")

STARTS = re.compile(r"\s*(abbrev|unfoldable|opaque|(pub )?(record|data)) ")


class Spec:
    def __init__(self, file):
        self.file, text = file, read(file)
        self.imports = imports_of(uses_in("\n".join(it for it in text.split("\n") if it.startswith("use "))), file)
        self.defs, self.owner = {}, {}
        blocks, last = [], 0
        for para in re.split(r"\n[ ]*\n", text):
            first, last = last, last + para.count("\n") + 2
            lines = [it for it in para.split("\n") if it.strip()]
            while lines and (lines[0].startswith("use ") or lines[0].startswith("pub mod ")):
                lines.pop(0)
            code = [it for it in lines if not it.strip().startswith("--")]
            if not code:
                continue
            blocks = [it for it in blocks if indent_of(it) < indent_of(code[0])]
            while code and re.match(r"\s*module _ ", code[0]):
                head = next(at for at, it in enumerate(code) if it.rstrip().endswith(" where")) + 1
                blocks = blocks + ["\n".join(it.rstrip() for it in code[:head])]
                lines = lines[lines.index(code[head - 1]) + 1:]
                code = code[head:]
            if not code:
                continue
            head = next(it for it in code if not it.strip().startswith("infix"))
            kind, name = HEADS.match(head).groups()
            if len([it for it in code if STARTS.match(it) and indent_of(it) == indent_of(head)]) > 1:
                fail(f"{file}: two definitions stand beside {name} without an empty line between them")
            made = Def(file, name, kind or "word", lines, tuple(blocks), text.split("\n").index(head, first) + 1)
            if name in self.defs:
                fail(f"{file}: {name} is defined twice")
            self.defs[name] = made
            for part in parts_of(name):
                self.owner[part] = name
            if kind == "data":
                for line in code[1:]:
                    it = re.match(r"\s+([^\s:]+(?: [^\s:]+)*) :", line)
                    if it and indent_of(line) == indent_of(code[1]):
                        self.owner.update((word, name) for word in it.group(1).split())

    def constructors(self):
        return {word for word, name in self.owner.items() if self.defs[name].kind == "data" and word != name}


@functools.lru_cache(None)
def spec(file):
    return Spec(file)


# ---- files of code

class Source:
    def __init__(self, file):
        self.file, self.crate = file, file.split("/")[1]
        self.lines = read(file).split("\n")
        self.items, self.models, self.order = {}, {}, []
        text = "\n".join(self.lines)
        self.imports = imports_of(uses_in("\n".join(it for it in self.lines if it.startswith("ghost use "))), file)
        self.rust = self.rust_names(text)
        self.scan()

    def rust_names(self, text):
        """The crate that each name of a Rust use line is of."""
        found = {}
        for it in re.finditer(r"^(?:pub )?use (\w+)((?:::\w+)*)(?:::\{([^}]*)\})?;", text, re.M):
            crate = {"crate": self.crate, "self": self.crate, "super": self.crate}.get(it.group(1), it.group(1))
            names = it.group(3).split(",") if it.group(3) else [it.group(2).split("::")[-1]]
            found.update((name.split(" as ")[-1].strip(), crate) for name in names if name.strip())
        return found

    def end_of(self, at):
        """The last line of the item that begins on this line: its closing brace, or its semicolon."""
        deep = indent_of(self.lines[at])
        for end in range(at, len(self.lines)):
            line = self.lines[end].rstrip()
            if line and indent_of(line) == deep and line.endswith(("}", ";")) and (end > at or line.count("{") == line.count("}")):
                return end
        fail(f"{self.file}:{at + 1}: no end of this item")

    def docs_above(self, at):
        top = at
        while top > 0 and re.match(r"\s*(///|#\[)", self.lines[top - 1]):
            top -= 1
        return [it for it in self.lines[top:at] if it.strip().startswith("///")]

    def contract(self, at):
        """The lines of a function from its `fn` to the end of its contract."""
        deep, found, open_braces = indent_of(self.lines[at]), [], 0
        for line in self.lines[at:]:
            if indent_of(line) == deep and line.strip() in ("{", "{}"):
                return found
            found.append(line)
            if indent_of(line) == deep and line.rstrip().endswith("{"):
                found[-1] = line.rstrip()[:-1].rstrip()
                return found
            open_braces += line.count("{") - line.count("}")
            if line.rstrip().endswith(";") and open_braces == 0:
                return found
        fail(f"{self.file}:{at + 1}: no body of this function")

    def without_attributes(self, lines):
        return [it for it in lines if not re.match(r"\s*#\[", it)]

    def scan(self):
        at = 0
        while at < len(self.lines):
            line = self.lines[at]
            it = re.match(r"(?:pub(?:\([^)]*\))? )?(struct|enum|trait|const|type|fn|impl|mod)\b[ <]?", line)
            if not it:
                at += 1
                continue
            kind = it.group(1)
            if kind == "mod":
                at = self.end_of(at) + 1
                continue
            end = self.end_of(at)
            if kind == "impl":
                self.scan_impl(at, end)
            else:
                name = re.search(rf"{kind} (\w+)", line).group(1)
                if kind == "fn":
                    lines = self.docs_above(at) + self.contract(at)
                else:
                    lines = self.docs_above(at) + self.without_attributes(self.lines[at:end + 1])
                uses = imports_of(uses_in("\n".join(lines)), self.file)
                lines = self.tidy([it for it in lines if not it.strip().startswith("ghost use ")])
                self.items[name] = Item(self.file, name, kind, lines, (), uses, at + 1)
                self.order.append((name, line.startswith("pub ")))
            at = end + 1

    def scan_impl(self, at, end):
        head = []
        for line in self.lines[at:end + 1]:
            if line.strip() == "{":
                break
            head.append(line.rstrip()[:-1].rstrip() if line.rstrip().endswith("{") else line)
            if line.rstrip().endswith("{"):
                break
        whole = " ".join(head)
        body = self.lines[at + len(head):end]
        uses = imports_of(uses_in("\n".join(it for it in body if indent_of(it) == 4)), self.file)
        model = re.match(r"impl(?:<.*?>)? Model for (\w+)", whole)
        of = re.search(r" for (\w+)", whole) or re.match(r"impl(?:<(?:[^<>]|<[^<>]*>)*>)? (\w+)", whole)
        if model:
            said = [it for it in body if re.match(r"\s+ghost (Value|view) =", it)]
            name = model.group(1)
            self.models[name] = Item(self.file, name, "model", [f"impl Model for {name} {{", *said, "}"], (), uses, at + 1)
            return
        if " for " in whole:
            return
        for line in range(at, end):
            it = re.match(r"    (?:pub(?:\([^)]*\))? )?fn (\w+)", self.lines[line])
            if it:
                name = f"{of.group(1)}::{it.group(1)}"
                self.items[name] = Item(self.file, name, "fn", self.docs_above(line) + self.contract(line), tuple(head), uses, line + 1)

    def tidy(self, lines):
        """The lines without two empty ones in a row, and without one behind an opening brace."""
        found = []
        for line in lines:
            if line.strip() or (found and found[-1].strip() and not found[-1].rstrip().endswith("{")):
                found.append(line)
        return found


@functools.lru_cache(None)
def source(file):
    return Source(file)


@functools.lru_cache(None)
def declared(crate):
    """The file of each type and constant that a crate declares."""
    found = {}
    for folder, _, files in os.walk(f"{TOP}/crates/{crate}/src"):
        for it in sorted(files):
            if it.endswith(".rt"):
                file = os.path.relpath(f"{folder}/{it}", TOP)
                for name, made in source(file).items.items():
                    if made.kind in ("struct", "enum", "trait", "const", "type"):
                        found.setdefault(name, file)
    return found


# ---- what a text rests on

class Rests:
    """What was found of a text: definitions and items of the repository, and what is of the toolchain's libraries."""

    def __init__(self):
        self.found, self.foreign = [], []

    def add(self, target):
        if target[0] == "lemma":
            fail(f"{target[1]}.{target[2]}: a definition cites a lemma")
        if target[0] == "foreign":
            if target[2] and target not in self.foreign:
                self.foreign.append(target)
        elif target not in self.found:
            self.found.append(target)


def plain(text):
    """The text without comments and without what stands in quotes."""
    text = re.sub(r"\"(?:[^\"\\]|\\.)*\"", "\"\"", text)
    return re.sub(r"(--|//).*", "", text)


BINDER = re.compile(r"[({]\s*((?:[^\s(){}:;,=]+\s+)+):\s")
LAMBDA = re.compile(r"λ((?:\s+[^\s(){}.:]+)+)\.")


def bound_in(text):
    """The names that a text binds by itself."""
    found = set()
    for it in BINDER.finditer(text):
        found.update(it.group(1).split())
    for it in LAMBDA.finditer(text):
        found.update(it.group(1).split())
    return found


def words_of(text):
    """The words of a text, each as its name and what stands behind its dots; without the names of fields."""
    for it in re.finditer(r"[^\s(){}\[\];,\"]+", text):
        word = it.group().strip("`").rstrip(".")
        behind, before = text[it.end():it.end() + 3], text[:it.start()].rstrip()
        if re.match(r" =( |\n|$)", behind) and before.endswith(("{", ";")):
            continue
        if word.startswith("."):
            continue
        yield word.split(".")


def resolve(rests, words, bound, look, where):
    for word in words:
        if word[0] in bound:
            continue
        target = look(word[0])
        if target and target[0] == "module":
            made = spec(target[1])
            if len(word) < 2 or word[1] not in made.owner:
                fail(f"{where}: {'.'.join(word)} isn't in {target[1]}")
            target = ("def", target[1], made.owner[word[1]])
        if target and target[0] == "def":
            made = spec(target[1])
            if target[2] not in made.owner and not any(it in made.owner for it in parts_of(target[2])):
                fail(f"{where}: {target[1]} defines no {target[2]}")
            target = ("def", target[1], made.owner[parts_of(target[2])[0]])
        if target:
            rests.add(target)


def equations_of(lines):
    """A definition's lines in pieces: its head, and each equation with its further lines."""
    deep, found = min(indent_of(it) for it in lines), []
    for line in lines:
        if indent_of(line) == deep and not (found and line.strip() in ("}", "})")):
            found.append(line)
        elif found:
            found[-1] += "\n" + line
    return found


def is_constructor(word, made, imports):
    if word in made.constructors() or word in ("zero", "suc", "tt", "true", "false"):
        return True
    target = imports.get(word)
    if not target:
        return False
    if target[0] == "item":
        return True
    if target[0] == "foreign":
        return word[:1].isupper() or not word[:1].isalpha()
    return word in spec(target[1]).constructors() if target[0] == "def" else False


def rests_of_def(it):
    made, rests = spec(it.file), Rests()

    def look(word):
        return ("def", made.file, made.owner[word]) if word in made.owner else made.imports.get(word)

    outer = set()
    for block in it.blocks:
        outer |= bound_in(block)
        resolve(rests, words_of(plain(block)), bound_in(block), look, made.file)
    lines = [line for line in it.lines if not line.strip().startswith("--")]
    if it.kind == "data":
        text = plain("\n".join(lines))
        resolve(rests, words_of(text), outer | bound_in(text), look, made.file)
    elif it.kind == "record":
        # (a field's name is known from the next field on)
        bound = outer | bound_in(plain(lines[0]))
        for line in lines:
            field = re.match(r"\s+pub (\S+) :", line)
            text = plain(line[field.end():] if field else line)
            resolve(rests, words_of(text), bound | bound_in(text), look, made.file)
            bound |= {field.group(1)} if field else set()
    else:
        for piece in equations_of(lines):
            text, bound = plain(piece), outer | bound_in(plain(piece))
            if re.match(r"\s*(abbrev|unfoldable|opaque|pub|infix)", text) or " =" not in text:
                resolve(rests, words_of(text), bound, look, made.file)
                continue
            left, right = re.split(r" =(?= |\n|$)", text, maxsplit=1)
            for word in words_of(left):
                if not is_constructor(word[0], made, made.imports) and word[0] not in parts_of(it.name) and len(word) == 1:
                    bound.add(word[0])
            resolve(rests, words_of(left + "\n" + right), bound, look, made.file)
    rests.found = [target for target in rests.found if target != ("def", it.file, it.name)]
    return rests


def look_in(made, uses):
    def look(word):
        for names in (uses, made.imports):
            if word in names:
                return names[word]
        crate = made.rust.get(word, made.crate)
        if word in made.items and made.items[word].kind != "fn":
            return ("item", made.file, word)
        if crate in CRATES and word in declared(crate):
            return ("item", declared(crate)[word], word)
        return None
    return look


def rests_of_item(it):
    made, rests = source(it.file), Rests()
    look = look_in(made, it.uses)
    model = made.models.get(it.name)
    if it.kind == "struct" and model:
        lines, look = model.lines[1:], look_in(made, model.uses)
    else:
        lines = [*it.block, *it.lines]
    text = plain("\n".join(line for line in lines if not line.strip().startswith("///")))
    text = re.sub(r"\bself\b|\bSelf\b|\b(ghost|pub|fn|const|ensures|requires|type)\b", " ", text).replace("::", " ").replace("&", " ")
    text = re.sub(r"[<>]", " ", text)
    text = re.sub(r"(\w):(?=\s)", r"\1 :", text)
    bound = bound_in(text)
    if it.kind == "trait":
        bound |= set(re.findall(r"^\s+(\w+) :", text, re.M))
    resolve(rests, words_of(text), bound, look, it.file)
    rests.found = [target for target in rests.found if target != ("item", it.file, it.name)]
    return rests


def node_of(target):
    kind, file, name = target
    if kind == "def":
        return spec(file).defs[name]
    if name not in source(file).items:
        fail(f"{file} declares no {name}")
    return source(file).items[name]


@functools.lru_cache(None)
def rests(target):
    it = node_of(target)
    return rests_of_def(it) if target[0] == "def" else rests_of_item(it)
