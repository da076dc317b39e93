"""Services that are killed and started again, and seats that give them commands."""
import threading
import time

from .faults import Wrong
from .processes import Ended
from .services import Service

STOCKS = ("bolt", "wing nut", "c:clamp", "blech-ö", "a\\b", "pin/3", *(f"s{number}" for number in range(18)))
ACCOUNTS = ("ann", "eve:x", "zoë", "carl & co", *(f"a{number}" for number in range(12)))
SECONDS = 120  # the longest that an answer may take while the process runs


def word(text):
    """A word of a line, with its escapes."""
    return text.replace("\\", "\\\\").replace("\n", "\\n").replace("\r", "\\r").replace(" ", "\\s")


class Restarted:
    """A service over its file, in one process after another."""

    def __init__(self, name, folder, port, words):
        self.name, self.folder, self.port, self.words, self.one, self.first = name, folder, port, words, None, None

    def start(self):
        words = [*self.words, "--file", self.folder / f"{self.name}.db"]
        log = self.folder / f"{self.name}.log"
        self.one, self.first = Service(self.name, self.port, *words, log=log, environment=self.environment()), None

    def environment(self):
        """What its next process has in its environment besides."""
        return {}

    def ask(self, lines):
        """The answers to these lines: fewer if it is killed meanwhile."""
        one = self.one
        try:
            if self.first is None:
                self.first = one.line(SECONDS)
        except Ended:
            return []
        return one.ask_all(lines, SECONDS)

    def kill(self):
        if not self.one.is_running():
            raise Ended(self.one)
        # (its pipes stay open, since its seat may be reading them)
        self.one.kill()

    def finish(self):
        """Ends it by the end of its input."""
        if self.one.finish(SECONDS):
            raise Ended(self.one)


class Seat(threading.Thread):
    """Gives commands to a service, some at once and `most` at most, until it is stopped, and keeps each with its answer."""

    def __init__(self, service, dice, pause):
        super().__init__(daemon=True)
        self.service, self.dice, self.pause = service, dice, pause
        self.asked, self.turn, self.stopped, self.fault = [], threading.Lock(), False, None
        self.placed, self.limits, self.most = 0, {name: 60 for name in ACCOUNTS}, 0
        self.first = {"warehouse": [f"receive {word(name)} 20" for name in STOCKS],
                      "billing": [f"limit {word(name)} 60" for name in ACCOUNTS]}.get(service.name, [])

    def run(self):
        try:
            while not self.stopped:
                if len(self.asked) < self.most:
                    lines = [self.next_line() for _ in range(self.dice.choice((1, 1, 2, 5, 12)))]
                    with self.turn:
                        self.give(lines)
                time.sleep(self.dice.expovariate(1 / self.pause))
        except Exception as fault:  # raised by the thread that looks
            self.fault = fault

    def give(self, lines):
        if not self.service.one.is_running():
            return
        asked = [[line, ""] for line in lines]
        self.asked += [it for it in asked if it[0] != "connect"]
        for it, answer in zip(asked, self.service.ask(lines)):
            it[1] = answer

    def write(self):
        text = "".join(f"{line}\t{answer}\n" for line, answer in self.asked)
        (self.service.folder / f"{self.service.name}.asked").write_text(text, encoding="utf-8")

    def next_line(self):
        if self.first:
            return self.first.pop()
        # now and then a service reconnects at once, else it waits up to 5 s
        if self.dice.random() < 0.1:
            return "connect"
        return getattr(self, self.service.name)()

    def purchasing(self):
        pick, dice = self.dice.random(), self.dice
        if self.placed and pick < 0.08:
            return f"cancel {self.key(dice.randint(max(1, self.placed - 9), self.placed))}"
        if self.placed and pick < 0.1:
            return f"place {self.key(dice.randint(1, self.placed))} bolt 1 ann 1"
        self.placed += 1
        if pick < 0.11:
            return f"place {self.key(self.placed)} bolt 0 ann 1"
        stocks = dice.sample(STOCKS, dice.choice((1, 1, 1, 2, 3, 8)))
        lines = " ".join(f"{word(stock)} {dice.randint(1, 3)}" for stock in stocks)
        return f"place {self.key(self.placed)} {lines} {word(dice.choice(ACCOUNTS))} {dice.randint(1, 9)}"

    @staticmethod
    def key(number):
        return word((f"o{number}", f"o{number}", f"o {number}", f"o:{number}", f"ö\\{number}")[number % 5])

    def warehouse(self):
        return f"receive {word(self.dice.choice(STOCKS))} {self.dice.choice((0, 9, 20, 60))}"

    def billing(self):
        account = self.dice.choice(ACCOUNTS)
        self.limits[account] += self.dice.choice((-9, 20, 60, 90))
        self.limits[account] = max(0, self.limits[account])
        return f"limit {word(account)} {self.limits[account]}"


def rows(services):
    """How many rows the journals have, as the services print it."""
    answers = [it.ask(["await 0"]) for it in services.values()]
    if not all(answers):
        raise Wrong("a service ended while all ran undisturbed")
    return [it[0] for it in answers]


def are_decided(services, orders):
    """Whether no order is open."""
    shown = services["purchasing"].ask([f"show order/{key}" for key in orders])
    if len(shown) < len(orders):
        raise Wrong("purchasing ended while all ran undisturbed")
    return not any(line.split(" ")[1] == "open" for line in shown)
