"""Manual pages made from what `--help` prints: the one place where options, lines and limits are described. They are for bin/package."""
import re

# An option or a row of a table: a word or more, and after two spaces what is said of it. What continues it is further to the right.
ROW = re.compile(r"(?:  |      (?=--))(\S.*?)(?:  +(\S.*))?")


def escaped(text):
    """The text in roff, as it is: a hyphen that can be copied, and no request at its start."""
    for sign, word in (("\\", "\\e"), ("-", "\\-"), ("'", "\\(aq"), ("`", "\\(ga"), ("^", "\\(ha"), ("~", "\\(ti")):
        text = text.replace(sign, word)
    return f"\\&{text}" if text.startswith(".") else text


def table(lines):
    """Rows of a table, each under its words."""
    for line in lines:
        if row := ROW.fullmatch(line):
            yield from (".TP", f".B {escaped(row[1])}")
            yield from (escaped(it) for it in [row[2]] if it)
        else:
            yield escaped(line.strip())


def blocks(text):
    """The text in pieces of lines that are all indented or all not, each with whether it's indented."""
    for part in re.split(r"\n\n+", text.strip("\n")):
        lines = part.split("\n")
        while lines:
            is_table = lines[0].startswith(" ")
            count = next((at for at, line in enumerate(lines) if line.startswith(" ") != is_table), len(lines))
            yield is_table, lines[:count]
            lines = lines[count:]


def body(text):
    """Paragraphs and tables. A line of its own that ends with a colon is the heading of the table below it."""
    pieces = list(blocks(text))
    for (is_table, lines), (is_followed, _) in zip(pieces, [*pieces[1:], (False, None)]):
        if is_table:
            yield from table(lines)
        elif is_followed and len(lines) == 1 and lines[0].endswith(":"):
            yield f".SH {escaped(lines[0][:-1].upper())}"
        else:
            yield from (".PP", *(escaped(it) for it in lines))


def manual(name, told, version, day):
    """The page of a program, from what its `--help` has told."""
    about, usage, options, rest = re.fullmatch(r"(.+)\n\nUsage: (.+)\n\nOptions:\n((?:.+\n)+)\n((?s:.*))", told).groups()
    rows = list(body(rest))
    lines = [f'.TH {escaped(name.upper())} 1 {day} "peksaune {version}" "User Commands"',
             ".ad l", ".nh",  # no wider spaces and no broken words: much of it is to be typed
             ".SH NAME", f"{escaped(name)} \\- {escaped(about.rstrip('.'))}",
             ".SH SYNOPSIS", f".B {escaped(usage)}",
             ".SH OPTIONS", *table(options.rstrip("\n").split("\n")),
             *([".SH DESCRIPTION"] if rows[0] == ".PP" else []), *rows]
    return "\n".join(lines) + "\n"
