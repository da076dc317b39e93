"""How bin/theorem lays definitions and contracts out: as they stand in the source, without words that change no meaning; and its prose."""
import re

WIDTH = 140

# the words that a definition's lines may begin with, and a field's
HEADWORDS = re.compile(r"^(\s*)(?:(?:abbrev|unfoldable|opaque)\s+)*(?:pub\s+)?")
SCANNED = re.compile(r"(\"(?:[^\"\\\n]|\\.)*\")|/\*.*?\*/|--[^\n]*|//[^\n]*|(.)", re.S)


def indent_of(line):
    return len(line) - len(line.lstrip(" "))


def code_of(lines):
    """What code lines say: without comments, without white space, and without the words that the layout leaves out."""
    text = "".join((it.group(1) or it.group(2) or " ") for it in SCANNED.finditer("\n".join(lines)))
    return re.sub(r"\s+", "", re.sub(r"\b(abbrev|unfoldable|opaque|pub)\b(?!\()", "", text))


def wrapped(text, further=0):
    """The text in lines of at most WIDTH columns, broken at spaces; those behind the first are indented so far."""
    lines, line = [], ""
    for word in text.split():
        if line and len(line) + 1 + len(word) > WIDTH:
            lines.append(line)
            line = " " * further + word
        else:
            line = f"{line} {word}" if line else word
    return lines + [line] if line else lines


def laid_def(lines):
    """A definition of a .antt file."""
    return [line if line.strip().startswith("--") else HEADWORDS.sub(r"\1", line) for line in lines]


def laid_item(lines, model):
    """A function's contract, or a declaration with what contracts see of it."""
    return [*lines, *(["", *model] if model else [])]


def joined(lines):
    """Lines of code in one, without the comma before a bracket that stood on a line of its own."""
    text = ""
    for line in map(str.strip, lines):
        if line.startswith((")", "]")):
            text = text.removesuffix(",") + line
        else:
            text += line if not text or text.endswith(("(", "[")) else " " + line
    return text


def depths(code):
    """How many brackets are open behind each character of a line of code."""
    found, deep = [], 0
    for before, sign, behind in zip(" " + code, code, code[1:] + " "):
        deep += sign in "([{⟦" or sign == "<" and behind != " "
        deep -= sign in ")]}⟧" or sign == ">" and before not in " -="
        found.append(deep)
    return found


def broken(code, deep, further):
    """A line of code in lines of at most WIDTH columns, broken in the last half of a line where the fewest brackets are open: there after
    a comma, before an arrow or, without these, anywhere but after a colon."""
    found, line = [], " " * deep + code
    while len(line) > WIDTH:
        open_at = depths(line)
        places = [at for at in range(WIDTH // 2, WIDTH + 1) if line[at] == " "]
        at = min(places, key=lambda at: (line[at - 1] == ":", open_at[at], line[at - 1] != "," and line[at + 1] not in "→⊎", -at))
        found.append(line[:at])
        line = " " * (deep + further) + line[at + 1:]
    return [*found, line]


def laid_closely(lines):
    """A contract in few lines: its signature, and each clause from a line of its own on; in one line where that holds both."""
    deep, parts = indent_of(lines[0]), [[]]
    for line in lines:
        if re.match(r"\s*(requires|ensures)\b", line):
            parts.append([])
        parts[-1].append(line)
    if deep + len(joined(lines)) <= WIDTH:
        return [" " * deep + joined(lines)]
    found = broken(joined(parts[0]), deep, 4)
    for clause in parts[1:]:
        found += broken(joined(clause), deep + 4, 4)
    return found


def fenced(lines, words):
    return [f"```{words}", *lines, "```", ""]


class Prose:
    """A paragraph, an item of a list or a row of a table, in which names are linked to where they stand."""

    def __init__(self, text, further=0):
        self.text, self.further = text, further

    def lines(self, place_of):
        def linked(it):
            place = place_of(it.group(1))
            return f"[{it.group()}]({place})" if place else it.group()

        text = re.sub(r"`([A-Z]\w*(?:::\w+)?|[a-z]+_\w+)`", linked, self.text)
        return [text] if text.startswith("|") else wrapped(text, self.further)


def paragraphs(said):
    """Paragraphs, with an empty line behind each that isn't followed by another item of the same list or row of the same table; where a
    table is the last, its rows may go on."""
    found = []
    for paragraph, behind in zip(said, [*said[1:], ""]):
        listed, is_row = paragraph.startswith("- "), paragraph.startswith("|")
        goes_on = listed and behind.startswith("- ") or is_row and (behind.startswith("|") or not behind)
        found += [Prose(paragraph, 2 if listed else 0), *([] if goes_on else [""])]
    return found


def text_of(parts, place_of):
    """Lines and paragraphs as the text of a page."""
    lines = [line for it in parts for line in (it.lines(place_of) if isinstance(it, Prose) else [it])]
    return "\n".join(it.rstrip() for it in lines).rstrip("\n") + "\n"


def slug(heading):
    """The anchor that a heading gets on the page, where no other one before it is the same."""
    return re.sub(r"[^\w\- ]", "", heading.strip().lower()).replace(" ", "-")


def row(*cells):
    """A row of a table."""
    return "| " + " | ".join(it.replace("|", "\\|") for it in cells) + " |"
