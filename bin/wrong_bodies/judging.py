"""How a check's words judge wrong bodies, many of them in rounds of one check each."""
import re

from wrong_bodies.edits import changed, text_of

CLAUSE, GOAL, ANSWER, NAMES = (f"refused by {it}" for it in ("a clause", "an open goal", "an answer", "names alone"))
THROUGH, BROKEN, UNJUDGED = "LET THROUGH", "DOESN'T COMPILE", "NOT JUDGED"
# What a check prints of an answer in which a search finds no proof.
OPEN = "`search`: no proof of"


class Told:
    """What a check printed: each function's open goals and the rest of its line, and the errors in proof files and in the code."""

    def __init__(self, crate, said):
        self.goals, self.lines, self.proofs, self.errors, before = {}, {}, [], [], []
        for line in said.split("\n"):
            goal = re.match(r"note: src/\S+:\d+:\d+: (.*?) \(`(\S+)`\)", line)
            function = re.match(rf"fn {crate}::(\S+): (.*)", line)
            error = re.match(r"(?:\./)?((?:src|proofs)/\S+?):(\d+):\d+: error(.*)", line)
            if goal:
                before.append(goal.groups())
            elif function:
                self.goals[function[1]], self.lines[function[1]], before = before, function[2].removesuffix(", may wait"), []
            elif error:
                (self.proofs if error[1].startswith("proofs/") else self.errors).append(error.groups())

    def path_of(self, function):
        """The path of a function that the check named, where the end of it alone is known."""
        paths = [it for it in self.lines if f"::{it}".endswith(f"::{function}")]
        return paths[0] if function not in self.lines and len(paths) == 1 else function

    def judge(self, function, texts=()):
        """How the function was refused and by what, or that it was let through; None where it cannot be judged. `texts` are of the files
        that edits change: what a search in such an answer finds no proof of is an open goal."""
        path = self.path_of(function)
        goals = self.goals.get(path, [])
        ensured = [goal for what, goal in goals if "what the function ensures" in what]
        answers = [(file, said) for file, _, said in self.proofs if file.startswith(f"proofs/{path.replace('::', '/')}/")]
        own = [said for _, said in answers]
        fits = [said for said in own if not re.search(r"has no field|is not in scope|has no `|was not admitted", said)]
        if goals:
            return (CLAUSE, ", ".join(ensured)) if ensured else (GOAL, ": ".join(goals[0]))
        if own and all(file in texts and OPEN in said for file, said in answers):
            return GOAL, own[0].strip(": ")
        if own:
            return (ANSWER if fits else NAMES), (fits or own)[0].strip(": ")
        return (THROUGH, "") if self.lines.get(path) == "proved" else None


def judge_round(chosen, texts, told):
    """How each body of a round that can be judged was taken, and by what."""
    found = {}
    for file, number, said in told.errors:
        line = "".join(texts.get(file, "").split("\n")[int(number) - 1 : int(number)])
        for body in chosen:
            if len(chosen) == 1 or any(pair[0] == file and pair[2].strip() in line for pair in body.pairs):
                found[body] = UNJUDGED if "stopped at the step limit" in said else BROKEN, said
    for body in [] if told.errors else chosen:
        judged = sorted(filter(None, (told.judge(it, texts) for it in body.functions)), key=lambda it: it[0] == THROUGH)
        if judged and (judged[0][0] != THROUGH or len(judged) == len(body.functions)):
            found[body] = judged[0]
    return found


def put_together(chosen, folder):
    """The texts with all pairs of these bodies, or None where two of them don't fit."""
    texts = {}
    for body in chosen:
        for file, old, new in body.pairs:
            texts[file] = changed(file, texts[file] if file in texts else text_of(folder, file), old, new)
            if texts[file] is None:
                return None
    return texts


def next_round(left, folder):
    """The bodies of the next round and the texts that they make: different functions, those that weren't judged among themselves."""
    chosen, used = [], set()
    for body in sorted(left, key=lambda it: it.hidden):
        if chosen and (body.is_alone or chosen[0].is_alone or body.hidden != chosen[0].hidden) or body.functions & used:
            continue
        if put_together([*chosen, body], folder) is not None:
            chosen, used = [*chosen, body], used | body.functions
    return chosen, put_together(chosen, folder)


def try_rounds(left, folder, checked, tell=lambda body, how, by: None):
    """How each of these bodies was taken, and by what, in rounds over the sources of a folder: `checked` gives what a check prints of these
    texts in their place and of the functions of these bodies. Each is reported once it is judged."""
    results = {}
    while left:
        chosen, texts = next_round(left, folder)
        found = judge_round(chosen, texts, checked(texts, chosen)) or {it: (UNJUDGED, "") for it in chosen if len(chosen) == 1}
        for body in chosen:
            body.hidden, body.is_alone = body.hidden + 1, body.is_alone or not found
        for body, (how, by) in found.items():
            tell(body, how, by)
        results |= found
        left = [it for it in left if it not in found]
    return results
