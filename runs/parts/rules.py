"""The rules of docs/MODEL.md, written down once more, by which the journals of three services are replayed. runs/audited-files says what
has to hold. The rules share nothing with the services' code."""
import collections
import json
import pathlib
import sqlite3

from .faults import Wrong, check
from .files import opened
from .services import KIND, SERVICES, service_of

MOST = 1 << 40
EARLY = 256  # how far above the last that was handled a letter may be held
# how far a partner may be with an order, by the order's status; None is without a line
MAY_BE = {"open": {None, "held", "refused"}, "confirmed": {"held", "shipped", "billed"}, "cancelled": {None, "held", "refused", "released"}}
MAY_BE_AT_REST = {"open": set(), "confirmed": {"shipped", "billed"}, "cancelled": {"refused", "released"}}
ESCAPES = {"\\": "\\", "s": " ", "n": "\n", "r": "\r"}


# ---- the rules: what an entity's state becomes by an input, and what it sends

def request(n):
    return f'{{"n":{n},"op":"request"}}'


def plain(word):
    return f'{{"op":"{word}"}}'


class Order:
    """An order: its status, and its partners with how much each is asked for and how far it is."""

    def __init__(self, key):
        self.key, self.status, self.partners = key, None, {}

    def refusal(self, command):
        if command["op"] == "place":
            lines = command["lines"]
            stocks = [it["stock"] for it in lines]
            if self.status:
                return 70
            if not 1 <= len(lines) <= 8 or len(set(stocks)) < len(stocks):
                return 74
            return None if all(1 <= n <= MOST for n in (command["amount"], *(it["n"] for it in lines))) else 72
        return None if self.status == "open" else 71

    def command(self, command):
        if command["op"] == "place":
            self.status = "open"
            self.partners = {"stock/" + it["stock"]: [it["n"], "requested"] for it in command["lines"]}
            self.partners["account/" + command["account"]] = [command["amount"], "requested"]
            return [(name, request(n)) for name, (n, _) in self.partners.items()]
        return self.decide("cancelled", "cancel", self.partners)

    def decide(self, status, word, told):
        self.status = status
        for partner in self.partners.values():
            partner[1] = status
        return [(name, plain(word)) for name in told]

    def message(self, sender, message):
        partner = self.partners.get(sender)
        if self.status != "open" or not partner or partner[1] != "requested" or message["op"] not in ("tentative", "refused"):
            return []
        if message["op"] == "tentative":
            partner[1] = "tentative"
            done = all(phase == "tentative" for _, phase in self.partners.values())
            return self.decide("confirmed", "confirm", self.partners) if done else []
        outs = self.decide("cancelled", "cancel", [name for name in self.partners if name != sender])
        partner[1] = "refused"
        return outs

    def row(self):
        *lines, (account, (amount, phase)) = self.partners.items()
        return (account.split("/", 1)[1], amount, self.status, phase,
                tuple((name.split("/", 1)[1], n, how) for name, (n, how) in lines))


class Partner:
    """What stocks and accounts do alike: a line for each order that asked."""

    def __init__(self, key):
        self.key, self.held, self.lines = key, 0, {}

    def message(self, sender, message):
        line, word = self.lines.get(sender), message["op"]
        if word == "request" and line is None and sender.startswith("order/"):
            fits = self.fits(message["n"])
            self.lines[sender] = [message["n"], "held" if fits else "refused"]
            self.held += message["n"] if fits else 0
            return [(sender, plain("tentative" if fits else "refused"))]
        if word in ("confirm", "cancel") and line and line[1] == "held":
            self.held -= line[0]
            line[1] = self.DONE if word == "confirm" else "released"
            if word == "confirm":
                self.finish(line[0])
        return []

    def total(self, phase):
        return sum(n for n, how in self.lines.values() if how == phase)


class Stock(Partner):
    DONE = "shipped"

    def __init__(self, key):
        super().__init__(key)
        self.on_hand = self.shipped = self.received = 0

    def fits(self, n):
        return self.held + n <= self.on_hand

    def finish(self, n):
        self.on_hand, self.shipped = self.on_hand - n, self.shipped + n

    def refusal(self, command):
        return None if command["n"] >= 1 and self.received + command["n"] <= MOST else 72

    def command(self, command):
        self.on_hand, self.received = self.on_hand + command["n"], self.received + command["n"]
        return []

    def row(self):
        return (self.on_hand, self.held, self.shipped, self.received)

    def conserved(self):
        check(f"stock/{self.key}: on hand and shipped", self.on_hand + self.shipped, self.received)
        check(f"stock/{self.key}: held", self.held, self.total("held"))
        check(f"stock/{self.key}: shipped", self.shipped, self.total("shipped"))
        if self.held > self.on_hand:
            raise Wrong(f"stock/{self.key} holds {self.held} of {self.on_hand}")


class Account(Partner):
    DONE = "billed"

    def __init__(self, key):
        super().__init__(key)
        self.limit = self.billed = 0

    def fits(self, n):
        return self.billed + self.held + n <= self.limit

    def finish(self, n):
        self.billed += n

    def refusal(self, command):
        return 72 if command["n"] > MOST else 73 if command["n"] < self.billed + self.held else None

    def command(self, command):
        self.limit = command["n"]
        return []

    def row(self):
        return (self.limit, self.billed, self.held)

    def conserved(self):
        check(f"account/{self.key}: held", self.held, self.total("held"))
        check(f"account/{self.key}: billed", self.billed, self.total("billed"))
        if self.billed + self.held > self.limit:
            raise Wrong(f"account/{self.key} has {self.billed} billed and {self.held} held of {self.limit}")


STATES = {"purchasing": Order, "warehouse": Stock, "billing": Account}
OPS = {"purchasing": ("place", "cancel_order"), "warehouse": ("receive",), "billing": ("set_limit",)}


# ---- what the files have, and what was asked

OWN = {
    "purchasing": ("SELECT key, account, amount, status, account_phase FROM order_heads",
                   "SELECT order_key, line, stock, n, phase FROM order_lines ORDER BY order_key, line"),
    "warehouse": ("SELECT key, on_hand, held, shipped, received FROM stocks", "SELECT stock, order_key, n, phase FROM stock_lines"),
    "billing": ("SELECT key, limit_now, billed, held FROM accounts", "SELECT account, order_key, n, phase FROM account_lines"),
}


class Tables:
    """The tables of a file."""

    def __init__(self, name, connection):
        def ask(text):
            return connection.execute(text).fetchall()

        check(f"{name}.db, integrity_check", ask("PRAGMA integrity_check"), [("ok",)])
        check(f"{name}.db, foreign_key_check", ask("PRAGMA foreign_key_check"), [])
        self.name = name
        if not ask("SELECT count(*) FROM sqlite_schema")[0][0]:
            # killed before its tables were made
            self.journal, self.heads, self.lines, self.outbox, self.marks, self.handled, self.held = [], [], [], {}, {}, {}, {}
            return
        check(f"{name}.db, about", ask("SELECT one, version, service FROM about"), [(1, 2, name)])
        self.journal = ask("SELECT pos, entity, seat, sender, number, body FROM journal ORDER BY pos")
        self.outbox = {(a, b, n): body for a, b, n, body in ask("SELECT sender, receiver, number, body FROM outbox")}
        self.marks = {(a, b): marks for a, b, *marks in ask("SELECT sender, receiver, sent, settled FROM out_marks")}
        self.handled = {(a, b): n for a, b, n in ask("SELECT sender, receiver, handled FROM in_marks")}
        self.held = {(a, b, n): body for a, b, n, body in ask("SELECT sender, receiver, number, body FROM held")}
        self.heads, self.lines = (ask(text) for text in OWN[name])


def words_of(line):
    """The words of a line, without their escapes."""
    words = []
    for word in line.split(" "):
        parts, at = [], 0
        while at < len(word):
            parts.append(ESCAPES[word[at + 1]] if word[at] == "\\" else word[at])
            at += 2 if word[at] == "\\" else 1
        words.append("".join(parts))
    return words


def command_of(line):
    """The entity and the body of a command's line."""
    name, key, *rest = words_of(line)
    if name == "place":
        *pairs, account, amount = rest
        lines = [{"n": int(n), "stock": stock} for stock, n in zip(pairs[::2], pairs[1::2])]
        return f"order/{key}", {"account": account, "amount": int(amount), "lines": lines, "op": "place"}
    if name == "cancel":
        return f"order/{key}", {"op": "cancel_order"}
    kind, op = {"receive": ("stock", "receive"), "limit": ("account", "set_limit")}[name]
    return f"{kind}/{key}", {"n": int(rest[0]), "op": op}


class Asked:
    """The commands that a seat gave, in order, each with its answer, and which rows of the journal they have to be."""

    def __init__(self, name, pairs):
        self.name, self.next, self.lost, self.refused = name, 0, collections.deque(), collections.deque()
        self.lines = [line for line, _ in pairs]
        self.answered, last, open_refusals = {}, 0, []
        for number, (line, answer) in enumerate(pairs):
            kind, *rest = answer.split() or [""]
            if kind == "committed":
                at = int(rest[0])
                if at <= last:
                    raise Wrong(f"{name}: `{line}` was answered `{answer}` after `committed {last}`")
                self.answered[at], last = number, at
                for refusal in open_refusals:
                    refusal[1] = at - 1
                open_refusals = []
            elif kind == "refused" and rest[0] == "61":
                open_refusals.append([last, None, line, int(rest[1])])
                self.refused.append(open_refusals[-1])
            elif kind == "":
                self.lost.append(number)
            else:
                raise Wrong(f"{name}: `{line}` was answered `{answer}`")

    def row(self, pos, entity, body):
        """A command is in the journal: it is the one whose answer was this position, or the next that had no answer."""
        number = self.answered.pop(pos, None)
        while number is None and self.lost and (self.lost[0] < self.next or command_of(self.lines[self.lost[0]]) != (entity, body)):
            self.lost.popleft()
        if number is None:
            if not self.lost:
                raise Wrong(f"{self.name}: row {pos} is {entity} {body}, which no seat asked for then")
            number = self.lost.popleft()
        if number < self.next:
            raise Wrong(f"{self.name}: row {pos}, `{self.lines[number]}`, was asked for before the row above it")
        check(f"{self.name}: row {pos}, of which `{self.lines[number]}` was the command", (entity, body), command_of(self.lines[number]))
        self.next = number + 1

    def refusals(self, pos, state):
        """With a journal of so many rows, finds which refusals are right. Those whose time is over have to be."""
        if self.refused and self.refused[0][1] is not None and self.refused[0][1] < pos:
            raise Wrong(f"{self.name}: `{self.refused[0][2]}` was refused {self.refused[0][3]}, against the rules")
        while self.refused and self.refused[0][0] <= pos:
            entity, body = command_of(self.refused[0][2])
            if state(entity).refusal(body) != self.refused[0][3]:
                break
            self.refused.popleft()

    def end(self, rows):
        if self.answered:
            pos = min(self.answered)
            raise Wrong(f"{self.name}: `{self.lines[self.answered[pos]]}` was answered `committed {pos}`, and is missing: {rows} rows")
        if self.refused:
            raise Wrong(f"{self.name}: `{self.refused[0][2]}` was refused {self.refused[0][3]}, against the rules")


# ---- a journal, replayed

class Replay:
    """What a journal makes: states, and the letters of each pair that were sent and handled."""

    def __init__(self, tables, asked):
        self.name, self.states = tables.name, {}
        self.sent, self.handled = collections.defaultdict(list), collections.defaultdict(list)
        for expected, (pos, entity, seat, sender, number, body) in enumerate(tables.journal, 1):
            check(f"{self.name}: the position of a row", pos, expected)
            if asked:
                asked.refusals(pos - 1, self.state)
            kind, _, key = entity.partition("/")
            what = f"{self.name}: row {pos}, {entity}"
            check(f"{what}: its kind", kind, KIND[self.name])
            state = self.states.setdefault(entity, STATES[self.name](key))
            outs = self.command(what, asked, state, pos, entity, seat, body) if seat is not None \
                else self.letter(what, state, entity, sender, number, body)
            for receiver, text in outs:
                self.sent[entity, receiver].append(text)
        if asked:
            asked.refusals(len(tables.journal), self.state)
            asked.end(len(tables.journal))

    def state(self, entity):
        return self.states.get(entity) or STATES[self.name](entity.partition("/")[2])

    def command(self, what, asked, state, pos, entity, seat, body):
        command = json.loads(body)
        check(f"{what}: its seat", seat, 0)
        check(f"{what}: whether it's a command of its kind", command["op"] in OPS[self.name], True)
        check(f"{what}: whether it's refused", state.refusal(command), None)
        if asked:
            asked.row(pos, entity, command)
        return state.command(command)

    def letter(self, what, state, entity, sender, number, body):
        if sender is None or number is None:
            raise Wrong(f"{what}: neither a seat's nor a letter")
        taken = self.handled[sender, entity]
        check(f"{what}: the number of the letter from {sender}", number, len(taken) + 1)
        taken.append(body)
        return state.message(sender, json.loads(body))


def check_tables(tables, replay):
    """The tables are those that the journal makes."""
    name = tables.name
    found, lines = {}, collections.defaultdict(list)
    for key, *line in tables.lines:
        lines[key].append(line)
    for key, *row in tables.heads:
        if name == "purchasing":
            check(f"{name}: numbers of the lines of order/{key}", [it[0] for it in lines[key]], list(range(1, len(lines[key]) + 1)))
            found[key] = (*row, tuple(tuple(it[1:]) for it in lines.pop(key)))
        else:
            found[key] = (tuple(row), {f"order/{order}": it for order, *it in lines.pop(key, [])})
    check(f"{name}: lines without a head", dict(lines), {})
    wanted = {it.key: it.row() if name == "purchasing" else (it.row(), it.lines) for it in replay.states.values()
              if name != "purchasing" or it.status}
    for key in {**found, **wanted}:
        check(f"{name}: the row of {KIND[name]}/{key}", found.get(key), wanted.get(key))
    for what, found, made in (("handled", tables.handled, replay.handled), ("sent", tables.marks, replay.sent)):
        for pair in {**found, **made}:
            marks = found.get(pair, 0)
            check(f"{name}: up to which number letters of {' to '.join(pair)} are {what}", marks[0] if isinstance(marks, list) else marks,
                  len(made.get(pair, ())))
    wanted = {(*pair, number): text for pair, texts in replay.sent.items()
              for number, text in enumerate(texts, 1) if number > tables.marks[pair][1]}
    for letter in {**tables.outbox, **wanted}:
        check(f"{name}: letter {letter} of the outbox", tables.outbox.get(letter), wanted.get(letter))


def check_letters(tables, replays, at_rest):
    """What was handled are the first that were sent; what is settled is handled; what is held was sent."""
    for name in SERVICES:
        for (sender, receiver), texts in replays[name].handled.items():
            sent = replays[service_of(sender)].sent.get((sender, receiver), [])
            for number, text in enumerate(texts, 1):
                wanted = sent[number - 1] if number <= len(sent) else None
                check(f"{name}: letter {number} of {sender} to {receiver}", text, wanted)
        for (sender, receiver, number), text in tables[name].held.items():
            done, sent = (it.get((sender, receiver), []) for it in (replays[name].handled, replays[service_of(sender)].sent))
            if not len(done) < number <= min(len(done) + EARLY, len(sent)) or sent[number - 1] != text:
                raise Wrong(f"{name}: letter {number} of {sender} to {receiver} is held: {text!r}")
        for pair, (sent, settled) in tables[name].marks.items():
            done = len(replays[service_of(pair[1])].handled.get(pair, []))
            what = f"{name}: of {sent} letters of {pair[0]} to {pair[1]} are {settled} settled and {done} handled"
            if settled > done or at_rest and not settled == done == sent:
                raise Wrong(what)
        if at_rest:
            check(f"{name}: letters in the outbox", len(tables[name].outbox), 0)
            check(f"{name}: letters that are held", len(tables[name].held), 0)


def check_partners(replays, at_rest):
    """Each order and its partners agree, and nothing is lost or used twice."""
    partners = {**replays["warehouse"].states, **replays["billing"].states}
    for name, order in replays["purchasing"].states.items():
        for at, (n, _) in order.partners.items():
            asked, phase = partners[at].lines.get(name, (n, None)) if at in partners else (n, None)
            if asked != n or phase not in (MAY_BE_AT_REST if at_rest else MAY_BE)[order.status]:
                raise Wrong(f"{name} is {order.status}, and {at}, asked for {n}, has {'no line' if phase is None else f'{asked} {phase}'}")
    for partner in partners.values():
        partner.conserved()


def read_asked(folder, name):
    path = folder / f"{name}.asked"
    if not path.exists():
        return None
    lines = path.read_text(encoding="utf-8").split("\n")[:-1]
    return Asked(name, [line.split("\t") for line in lines])


def tables_of(folder, name):
    path = folder / f"{name}.db"
    if not path.exists():
        raise Wrong(f"{path.name} isn't there")
    try:
        with opened(path) as connection:
            return Tables(name, connection)
    except (sqlite3.DatabaseError, sqlite3.Warning) as fault:
        raise Wrong(f"{path.name} can't be read: {fault}") from None


def check_folder(folder, at_rest):
    """Checks everything: how many rows, letters and orders there are, and how the orders ended."""
    folder = pathlib.Path(folder)
    tables = {name: tables_of(folder, name) for name in SERVICES}
    try:
        replays = {name: Replay(it, read_asked(folder, name)) for name, it in tables.items()}
    except (ValueError, KeyError, TypeError) as fault:
        raise Wrong(f"a row of a journal can't be read: {fault!r}") from None
    for name in SERVICES:
        check_tables(tables[name], replays[name])
    check_letters(tables, replays, at_rest)
    check_partners(replays, at_rest)
    ends = collections.Counter(it.status for it in replays["purchasing"].states.values())
    letters = sum(len(texts) for it in replays.values() for texts in it.handled.values())
    return sum(len(it.journal) for it in tables.values()), letters, ends
