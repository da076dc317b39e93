"""The examples of proofs/*Examples.antt as bin/theorem prints them: a lemma's statement with its comment, and the names that it uses."""
import functools
import re

from theorem_layout import indent_of, laid_def
from theorem_sources import WORD, exists, fail, parts_of, plain, read, spec, target_of, uses_in


class Proofs:
    """A file of examples: its paragraphs by name, in their order, and the module blocks that they stand in."""

    def __init__(self, file):
        self.file = file
        if not exists(file):
            fail(f"there is no {file}, which has an example")
        text = read(file)
        self.names, self.own, self.nearest, self.blocks, self.others, self.specs = {}, {}, {}, {}, {}, {}
        for path, names, _ in uses_in("\n".join(it for it in text.split("\n") if it.startswith("use "))):
            words = path.split(".")
            other = f"crates/{words[1]}/proofs/{'/'.join(words[3:])}.antt"
            if words[0] == "Rattle" and words[2:3] == ["proofs"] and names and exists(other):
                self.others.update((name.split(" as ")[-1].strip(), (other, name.split(" as ")[0])) for name in names)
            if words[0] == "Rattle" and words[2:3] == ["specs"]:
                for name in names or ():
                    name, _, alias = name.partition(" as ")
                    for part in parts_of(alias or name):
                        self.specs[part] = target_of(path, name, file)
        self.scan(text)

    @staticmethod
    @functools.lru_cache(None)
    def of(file):
        return Proofs(file)

    def scan(self, text):
        blocks, comment, last = (), [], None
        for para in re.split(r"\n[ ]*\n", text):
            lines = [it for it in para.split("\n") if it.strip() and not it.startswith("use ")]
            said = [it for it in lines if it.strip().startswith("--") and not it.strip().startswith("-- ----")]
            code = [it for it in lines if not it.strip().startswith("--")]
            if said or any(it.strip().startswith("-- ----") for it in lines):
                comment, last = said, None
            if not code:
                continue
            blocks = tuple(it for it in blocks if indent_of(it) < indent_of(code[0]))
            while code and re.match(r"\s*module _ ", code[0]):
                head = next(at for at, it in enumerate(code) if it.rstrip().endswith(" where")) + 1
                blocks += ("\n".join(code[:head]),)
                code = code[head:]
            head = re.match(r"\s*(?:(?:abbrev|unfoldable|opaque|pub|record|data)\s+)*([^\s:]+)[^:]*:", code[0]) if code else None
            if not head or indent_of(code[0]) > 2 * len(blocks):
                continue
            self.names[head.group(1)] = code
            self.own[head.group(1)] = said
            last = last or head.group(1)
            self.nearest[head.group(1)] = comment, last
            self.blocks[head.group(1)] = blocks

    def statement(self, lemma):
        """What a lemma says, behind its comment; where it has none, behind the one above it."""
        if lemma not in self.names:
            fail(f"{self.file} has no {lemma}, which is an example")
        code, found = self.names[lemma], []
        deep = indent_of(code[0])
        for line in code:
            if found and indent_of(line) == deep and re.match(rf"\s*(unfolding\b|{re.escape(lemma)}\b)", line):
                break
            found.append(line)
        return [it[min(deep, indent_of(it)):] for it in self.comment_of(lemma, found) + laid_def(found)]

    def comment_of(self, lemma, statement):
        """A lemma's comment; where it has none that above it, unless that is of a word that the lemma doesn't use."""
        comment, of = self.nearest[lemma]
        return comment if of == lemma or not self.is_word(of) or of in WORD.findall(plain("\n".join(statement))) else []

    def definition(self, name):
        """A word of the examples, whole, and the blocks that it stands in."""
        return laid_def(self.own[name] + self.names[name]), self.blocks[name]

    def helpers_of(self, lemma):
        """The words of examples that a statement uses, and that those use: each with its file."""
        found, todo = [], [(self.file, lemma)]
        while todo:
            file, name = todo.pop(0)
            proofs = Proofs.of(file)
            lines = proofs.names.get(name, [])
            text = plain("\n".join(proofs.statement(name) if (file, name) == (self.file, lemma) else lines))
            for word in WORD.findall(text):
                other = (file, word) if word in proofs.names else proofs.others.get(word)
                if other and other not in found and other != (self.file, lemma) and Proofs.of(other[0]).is_word(other[1]):
                    found.append(other)
                    todo.append(other)
        return found

    def brought(self, lines):
        """The words of other files of examples that lines of this one name, file by file."""
        found = {}
        for word in WORD.findall(plain("\n".join(lines))):
            other = None if word in self.names else self.others.get(word)
            if other and Proofs.of(other[0]).is_word(other[1]) and word not in found.setdefault(other[0], []):
                found[other[0]].append(word)
        return {file: words for file, words in sorted(found.items()) if words}

    def rests_of(self, lines):
        """The definitions and items of the sources that lines of the examples name."""
        found = []
        for word in WORD.findall(plain("\n".join(lines))):
            kind, file, name = self.specs.get(word, ("foreign", None, None))
            if kind == "def" and name in spec(file).owner:
                found.append((kind, file, spec(file).owner[name]))
            elif kind == "item":
                found.append((kind, file, name))
        return found

    def is_word(self, name):
        return name in self.names and re.match(r"\s*(pub )?(abbrev|unfoldable|opaque|record|data)\b", self.names[name][0])
