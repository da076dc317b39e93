"""The words of bin/theorem: what the Markdown files of theorem_words/ say of its pages.

NAME.md has one page: its title, its introduction, and its sections in their order. Two fences may precede the sections. The fence `page`
says whether the page is committed, which pages it comes after (it doesn't repeat what they print), which pages it leaves definitions to,
and whether its table has all signs. The fence `left to this page` names what others leave to it.

A section has paragraphs, lists, tables, and fences `names`. A line of such a fence names a crate, a file below src/ or, with specs/, of
definitions, and what the section shows of it; `*` are all functions. `names alone` leaves out what is new below these names. Contracts of
`names headline`, on a page that isn't committed, are on THEOREMS.md too. {{CRATE FILE NAME}} in a section becomes the name and its file.

common.md has what each page says, theorems.md what THEOREMS.md says, signs.md each sign and how it is found, examples.md which lemmas are
examples of which definition.
"""
import re

from theorem_sources import fail, plain, read

FOLDER = "bin/theorem_words"
# the pages, in the order in which they are read
NAMES = ("theorem", "store", "service", "events", "mail", "journals", "any-broker", "delivery", "program", "files", "threads", "broker")


def blocks_of(lines):
    """Paragraphs and items of lists, each in one line, rows of tables, and fences as (their words, their lines)."""
    found, is_open, fence = [], False, None
    for line in lines:
        if fence is not None:
            fence = fence if line.startswith("```") else [*fence, line]
            if line.startswith("```"):
                found.append((fence[0], fence[1:]))
                fence = None
        elif line.startswith("```"):
            fence, is_open = [line.removeprefix("```")], False
        elif line.strip() and is_open and not line.startswith(("- ", "|")):
            found[-1] += " " + line.strip()
        elif line.strip():
            found.append(line.strip())
            is_open = not line.startswith("|")
        else:
            is_open = False
    return found


def parts_of(name):
    """The title of a file of words, and its parts as (heading, blocks); the first one, before all headings, has none."""
    title, *lines = read(f"{FOLDER}/{name}.md").split("\n")
    parts = [("", [])]
    for line in lines:
        if line.startswith("## "):
            parts.append((line.removeprefix("## "), []))
        else:
            parts[-1][1].append(line)
    return title.removeprefix("# "), [(heading, blocks_of(inside)) for heading, inside in parts]


def text_in(blocks):
    return [it for it in blocks if isinstance(it, str)]


def fences_in(blocks, kind, mark=None):
    """The lines of the fences of a kind, or of those that have a mark behind it."""
    fences = [(it[0].split(), it[1]) for it in blocks if not isinstance(it, str)]
    return [line for words, lines in fences if words[0] == kind and (mark is None or mark in words[1:]) for line in lines]


def names_of(lines):
    """(crate, file, name) of lines that each name a crate, a file and what stands there."""
    return [(crate, file, name) for crate, file, *names in map(str.split, lines) for name in names]


def cells_of(line):
    """The cells of a table's row."""
    return [it.strip().replace("\\|", "|") for it in re.split(r"(?<!\\)\|", line.strip())[1:-1]]


def rows_of(name, number):
    """The rows of a file's table, without its head, the first of which is number 0."""
    tables = [[it for it in text_in(blocks) if it.startswith("|")] for _, blocks in parts_of(name)[1]]
    return [cells_of(line) for line in [it for it in tables if it][number][2:]]


# ---- the pages

def file_of(name):
    return f"docs/THEOREM{'' if name == 'theorem' else '-' + name.upper()}.md"


def left_to(name):
    """What other pages leave to this one."""
    return names_of(fences_in(parts_of(name)[1][0][1], "left"))


def section_of(heading, blocks):
    return (heading, text_in(blocks), names_of(fences_in(blocks, "names")), bool(fences_in(blocks, "names", "alone")),
            names_of(fences_in(blocks, "names", "headline")))


def page_of(name):
    title, ((_, blocks), *sections) = parts_of(name)
    keys = dict(line.split(": ") for line in fences_in(blocks, "page"))
    if set(keys) - {"committed", "after", "leaves", "signs"}:
        fail(f"{FOLDER}/{name}.md: its fence of the page has a key that isn't known")
    return {"name": name, "file": None if keys.get("committed") == "no" else file_of(name), "title": title, "said": text_in(blocks),
            "signs": keys.get("signs") == "all", "behind": keys.get("after", "").split(),
            "cut": [it for other in keys.get("leaves", "").split() for it in left_to(other)],
            "sections": [section_of(*it) for it in sections]}


PAGES = [page_of(name) for name in NAMES]
COMMON = {heading: text_in(blocks) for heading, blocks in parts_of("common")[1]}
SHORT = {"title": parts_of("theorems")[0], **{heading: text_in(blocks) for heading, blocks in parts_of("theorems")[1]}}


def common(heading, **words):
    """What stands in common.md below a heading."""
    return [it.format(**words) for it in COMMON[heading]]


# ---- signs, words of libraries, and examples

# (sign, the expression by which it is found, what it says)
SIGNS = [(sign.strip("`"), found[1:-1], said) for sign, found, said in rows_of("signs", 0)]
WORDS = [(word.strip("`"), said) for word, said in rows_of("signs", 1)]


def signs_in(code, words, where):
    """The signs that code has and those of the libraries' words that it uses, each with its sentence."""
    text = plain(code)
    used = [(sign, said) for sign, found, said in SIGNS if re.search(found, text)]
    known = "".join(sign for sign, _ in used)
    missing = {it for it in text if ord(it) > 127 and it not in known}
    if missing:
        fail(f"{where} uses {' '.join(sorted(missing))}, of which {FOLDER}/signs.md has no sentence")
    return used + [(name, said) for name, said in WORDS if name in words]


# (crate, file, name, an example that holds, one that doesn't), each of these as (crate, file, lemma), or none
EXAMPLES = [(*what.split(), tuple(holds.split()), tuple(fails.split())) for what, holds, fails in rows_of("examples", 0)]
