"""docs/THEOREMS.md: the headlines of the pages that bin/theorem prints and doesn't write, with links to what each rests on directly."""
import re
import textwrap

from theorem_layout import WIDTH, code_of, fenced, indent_of, laid_closely, paragraphs, row, text_of
from theorem_pages import SHORT, signs_in
from theorem_sources import fail, node_of, rests

FILE = "docs/THEOREMS.md"
# nobody reads a longer page from end to end
MOST_LINES = 400


def source_of(target):
    """The line of the source that a page in docs/ links to for a definition or an item."""
    return f"../{target[1]}#L{node_of(target).number}"


def linked(targets):
    return ", ".join(f"[`{it[2]}`]({source_of(it)})" for it in targets)


def comment_of(it):
    """A comment without what it says of errors, in as few lines as fit."""
    words = " ".join(line.strip().removeprefix("///") for line in it.lines if line.strip().startswith("///"))
    deep = " " * indent_of(it.lines[0])
    said = " ".join(words.split()).split(" # Errors ")[0]
    return textwrap.wrap(said, WIDTH, initial_indent=deep + "/// ", subsequent_indent=deep + "/// ", break_on_hyphens=False)


def closely(lines):
    """Lines of code laid closely, which must say the same."""
    found = laid_closely(lines)
    same = lambda said: re.sub(r",(?=[)\]])", "", code_of(said))
    if same(found) != same(lines):
        fail(f"{FILE} has other code than the source:\n" + "\n".join(found))
    return found


def code_of_headlines(headlines):
    """The headlines of a section, with the head of the `impl` block that holds them."""
    found, last = [], ()
    for target in headlines:
        it = node_of(target)
        if it.kind != "fn":
            fail(f"{it.name} of {it.file} is a headline of {FILE}, and no contract")
        found += closely(list(it.block)) if it.block and it.block != last else []
        found += comment_of(it) + closely([line for line in it.lines if not line.strip().startswith("///")])
        last = it.block
    return found


def part(title, said, headlines):
    """A section with its headlines."""
    return [*paragraphs([f"**{title}.** {said[0]}", *said[1:]]), *fenced(code_of_headlines(headlines), "rust")]


def table(page):
    """What each headline rests on, and then what else the page shows."""
    parts, shown = paragraphs(SHORT["What headlines rest on"]), set()
    for _, _, headlines, _ in page.short:
        parts += [row(linked([it]), linked(rests(it).found)) for it in headlines]
        shown.update(headlines)
    for title, _, _, others in page.short:
        left = [it for it in others if it not in shown]
        shown.update(left)
        parts += [row(title, linked(left))] if left else []
    return [*parts, ""]


def signs(pages, known):
    """The signs of the code that the first page doesn't explain."""
    headlines = [target for page in pages for _, _, inside, _ in page.short for target in inside]
    words = {name for target in headlines for _, _, name in rests(target).foreign}
    used = signs_in("\n".join(line for target in headlines for line in [*node_of(target).block_of(), *node_of(target).lines]), words, FILE)
    return [*paragraphs(SHORT["Signs and words"]), *(row(f"`{sign}`", said) for sign, said in used if (sign, said) not in known)]


def short_page(made, known):
    """The text of the page."""
    pages = [page for page in made if not page.file]
    parts = [f"# {SHORT['title']}", "", *paragraphs(SHORT[""])]
    for page in pages:
        parts += [f"## {page.about['title']}", "", *paragraphs(page.about["said"][:1])]
        for title, said, headlines, _ in page.short:
            parts += part(title, said, headlines) if headlines else []
        parts += table(page)
    parts += ["## Signs and words", "", *signs(pages, known)]
    text = text_of(parts, lambda name: None)  # the tables have the links
    if text.count("\n") > MOST_LINES:
        fail(f"{FILE} has {text.count(chr(10))} lines, more than {MOST_LINES}: name fewer headlines in bin/theorem_words/")
    return text
