"""Runs of one order through outbox-schedule, and whether what they print is right. Each journal that is shown is replayed by rules.py."""
import re

from . import rules
from .faults import check
from .schedules import ALL, run
from .services import KIND, SERVICES, SHOWN, service_of

PARTNERS = ("stock/bolt", "account/ann")
PAIRS = [f"pair {ends}" for it in PARTNERS for ends in (f"order/o1 {it}", f"{it} order/o1")]
ASKED = [*(f"show {it}" for it in SHOWN), "agreement", *PAIRS]
JOURNALS = [f"journal {it}" for it in SERVICES]
CONFIRMED = list(SHOWN.values())
COMMANDS = {"place": "purchasing", "cancel": "purchasing", "receive": "warehouse", "limit": "billing"}
ROW = re.compile(r"(\d+) (\S+) (?:seat (\d+)|from (\S+) (\d+)) (.+)")
# what a line of each kind may print if nothing is refused
PRINTS = {"open": "opened|already", "cut": "cut|closed", "stop": "stopped", "fill": r"sent \d+|closed", "resend": "due|closed",
          "carry": r"carried \d+|closed", "drain": r"drained \S+ \S+ \d+|idle", "pump": "pumped", "fail": "armed",
          "agreement": "agreement true",
          "take": r"connected|receipt \d+|handled \d+|repeated|held|settled \d+|idle|closed", "show": r"(order|stock|account)/\S+ .+",
          "pair": r"pair \S+ \S+ sent \d+ settled \d+ handled \d+", **{it: r"committed \d+|refused 61 7\d" for it in COMMANDS}}


def rounds(count, connections=(0,)):
    """So many rounds of a pump, each line by itself. Connections that are not open are left out."""
    lines = []
    for service in SERVICES:
        for at in (f"{service} {it}" for it in connections):
            lines += [f"fill {at} 64", f"carry {at} up {ALL}", f"carry {at} down {ALL}", *([f"take {at}"] * 16)]
        lines.append(f"drain {service} 0")
    return lines * count


def runs(lines, *words, **how):
    """A run: its status, the lines that it printed, and its standard error."""
    status, out, err = run(lines, *words, **how)
    return status, out.splitlines(), err


def body(words):
    """The body of a row's words, as a file has it."""
    op, *rest = words.split(" ")
    if op == "place":
        *pairs, account, amount = rest
        lines = ",".join(f'{{"n":{n},"stock":"{stock}"}}' for stock, n in zip(pairs[::2], pairs[1::2]))
        return f'{{"account":"{account}","amount":{amount},"lines":[{lines}],"op":"place"}}'
    return f'{{"n":{rest[0]},"op":"{op}"}}' if rest else f'{{"op":"{op}"}}'


class Shown:
    """The journal of a service as it is shown, and the marks that `pair` printed, instead of a file's tables."""

    def __init__(self, name, rows, marks):
        self.name, self.journal = name, []
        for found in rows:
            position, entity, seat, sender, number, words = found.groups()
            self.journal.append((int(position), entity, seat and int(seat), sender, number and int(number), body(words)))
        kind = KIND[name]
        self.marks = {pair: list(it[:2]) for pair, it in marks.items() if pair[0].startswith(kind)}
        self.handled = {pair: it[2] for pair, it in marks.items() if pair[1].startswith(kind)}
        self.outbox, self.held = {}, {}


def commands(lines, told, service):
    """The commands that a service was given, each with its answer, or none if its store failed. What was refused for another reason is left
    out, so that no row of the journal may be it."""
    for line, answer in zip(lines, told):
        name, _, rest = line.partition(" 0 ")
        if COMMANDS.get(name) == service and answer not in ("refused 64", "refused 65", "refused 66"):
            yield f"{name} {rest}", "" if answer == "refused 63" else answer


def marks_of(told):
    """The marks of each pair that was printed: sent, settled, handled. What is settled is handled, and what is handled was sent."""
    marks = {}
    for line in told:
        word, *rest = line.split(" ")
        if word == "pair":
            marks[rest[0], rest[1]] = sent, settled, handled = tuple(int(it) for it in rest[3::2])
            check(f"{line}: whether what is settled was handled, and what is handled sent", settled <= handled <= sent, True)
    return marks


def check_kinds(lines, told, refusals=(), but=()):
    """Each line printed what one of its kind may, or one of these refusals. Some lines are left out, and rows of journals."""
    for number, (line, answer) in enumerate(zip(lines, told)):
        word = line.partition(" ")[0]
        if word != "journal" and number not in but and answer not in refusals and not re.fullmatch(PRINTS[word], answer):
            check(f"line {number + 1}, {line}", answer, PRINTS[word])


def check_shown(lines, told, at_rest=True):
    """The last lines of a run are those of ASKED and JOURNALS: the journals are lawful, have what was answered as committed, and the rest
    is what they make. The answers to ASKED."""
    before = len(lines) - len(ASKED) - len(JOURNALS)
    answers, rows = told[before:before + len(ASKED)], [ROW.fullmatch(it) for it in told[before + len(ASKED):]]
    check("rows that can't be read", [it for it, row in zip(told[before + len(ASKED):], rows) if not row], [])
    check("agreement", answers[3], "agreement true")
    marks, replays, tables = marks_of(answers), {}, {}
    for name, kind in KIND.items():
        tables[name] = Shown(name, [it for it in rows if it[2].startswith(f"{kind}/")], marks)
        replays[name] = rules.Replay(tables[name], rules.Asked(name, list(commands(lines, told, name))))
    for (sender, receiver), (sent, settled, handled) in marks.items():
        made = (len(replays[service_of(sender)].sent.get((sender, receiver), ())),
                len(replays[service_of(receiver)].handled.get((sender, receiver), ())))
        check(f"what {sender} sent to {receiver}, and how much of it is handled", (sent, handled), made)
        if at_rest:
            check(f"what {sender} sent to {receiver}, and how much of it is settled and handled", (settled, handled), (sent, sent))
    rules.check_letters(tables, replays, at_rest)
    rules.check_partners(replays, at_rest)
    check("what is shown", answers[:3], states(replays))
    return answers


def states(replays):
    """What `show` prints of the states that the journals make."""
    order = replays["purchasing"].states.get("order/o1")
    lines = [f"{name} {n} {phase}" for name, (n, phase) in order.partners.items()] if order and order.status else []
    stock, account = replays["warehouse"].state("stock/bolt"), replays["billing"].state("account/ann")
    is_there = ["stock/bolt" in replays["warehouse"].states, "account/ann" in replays["billing"].states]
    numbers = [dict(zip(("on_hand", "held", "shipped", "received"), stock.row())), dict(zip(("limit", "billed", "held"), account.row()))]
    shown = ["order/o1 " + (" ".join((order.status, *lines)) if lines else "none")]
    for name, is_row, values in zip(PARTNERS, is_there, numbers):
        shown.append(f"{name} " + (" ".join(f"{it} {n}" for it, n in values.items()) if is_row else "none"))
    return shown
