"""A hotel in the warehouse's place, and the rules for its rooms. Its tables end with its process, so that it is judged by what it writes on
its connections, what its desk is answered, and what it shows. The rules share nothing with the services' code."""
import collections
import json
import random
import sqlite3
import time

from .brokers import BROKERS
from .faults import Wrong, check
from .files import count_of
from .processes import SECONDS, Process, program, wait_until
from .proxy import Proxy
from .rules import Replay, check_letters, check_partners, check_tables, read_asked, tables_of, words_of
from .seats import ACCOUNTS, STOCKS, Restarted, Seat, are_decided, rows, word
from .services import Service
from .stomp_client import Client

BEDS = 2
FILED = ("purchasing", "billing")
NAMES = ("purchasing", "hotel", "billing")
ORDERS = 40  # how many commands purchasing has committed at least when a busy day ends
PATIENCE = 200  # the longest that all may take until it's settled, in seconds
QUIET = 1  # seconds without a change after which connections are cut, so that what isn't settled is resent; twice as many each time


# ---- the processes

class Hotel(Restarted):
    """A hotel-service, in one process after another. Each begins with no rows."""

    def start(self):
        self.one, self.first = Process(program("hotel_service"), "--port", self.port, *self.words, name=self.name,
                                       log=self.folder / "hotel.log"), None


class InMemory(Restarted):
    """Purchasing or billing without a file."""

    def start(self):
        self.one, self.first = Service(self.name, self.port, *self.words, log=self.folder / f"{self.name}.log"), None


class Desk(Seat):
    """Gives the commands of a hotel's desk, or places orders, most of them for one or two rooms."""

    def purchasing(self):
        if self.placed and self.dice.random() < 0.1:
            return super().purchasing()
        self.placed += 1
        rooms = self.dice.sample(STOCKS, self.dice.choice((1, 1, 1, 2)))
        lines = " ".join(f"{word(room)} {self.dice.choice((*(1, 2) * 5, 3))}" for room in rooms)
        return f"place {self.key(self.placed)} {lines} {word(self.dice.choice(ACCOUNTS))} {self.dice.randint(1, 9)}"

    def hotel(self):
        return f"{self.dice.choice(('reserve', 'release', 'release'))} {word(self.dice.choice(STOCKS))}"


class House:
    """A broker, purchasing, billing and a hotel, each service behind a proxy of its own. That of the hotel keeps its octets, and so do
    the others without a seed; with one they cut connections."""

    def __init__(self, folder, broker, has_files=True, seed=None, mean=0):
        self.folder, self.broker = folder, BROKERS[broker](folder / "broker")
        self.proxies = {name: Proxy(self.broker.port, None if seed is None or name == "hotel" else f"{seed} {name}",
                                    0 if name == "hotel" else mean) for name in NAMES}
        kinds = {"hotel": Hotel, **dict.fromkeys(FILED, Restarted if has_files else InMemory)}
        self.them = {name: kinds[name](name, folder, self.proxies[name].port, self.broker.words) for name in NAMES}
        self.desk = []  # what the hotel's desk asked by hand, each with its answer

    def __enter__(self):
        return self

    def __exit__(self, *_):
        for it in self.them.values():
            if it.one:
                it.one.end()
        for it in self.proxies.values():
            it.end()
        self.broker.end()

    def start(self):
        self.broker.start()
        for it in self.them.values():
            it.start()

    def ask(self, name, line):
        answers = self.them[name].ask([line])
        if not answers:
            raise Wrong(f"{name} ended, and didn't answer `{line}`")
        if name == "hotel":
            self.desk.append((line, answers[0]))
        return answers[0]

    def kill(self, name):
        (self.broker if name == "broker" else self.them[name]).kill()

    def told(self):
        return Told(self.proxies["hotel"].connections)

    def reconnect(self):
        for it in self.proxies.values():
            it.cut_all()
        for name in NAMES:
            check(f"{name} reconnects", self.ask(name, "connect"), "connected 2")

    def unsettled(self):
        """How many letters wait in each file, or None where a file is being written."""
        try:
            return [count_of(self.folder / f"{name}.db", "outbox") for name in FILED]
        except sqlite3.DatabaseError:
            return None

    def rest(self, orders, seconds=PATIENCE):
        """Waits until no order is open, the journals don't grow and all is settled."""
        before, since, quiet, until = None, time.monotonic(), QUIET, time.monotonic() + seconds
        while True:
            found = are_decided(self.them, orders), rows(self.them), self.unsettled()
            if found == before and found[0] and found[2] == [0, 0]:
                return
            if time.monotonic() > until:
                raise Wrong(f"within {seconds} seconds this became of orders, journals and outboxes: {found}")
            if found != before:
                since = time.monotonic()
            elif time.monotonic() - since > quiet:
                self.reconnect()
                since, quiet = time.monotonic(), 2 * quiet
            before = found
            time.sleep(0.1)

    def record(self, lost=0, desk=()):
        """What is known of the hotel at rest. What it sends on connections that are opened then is in its outbox. `lost` is how many rows
        ended with hotels that were killed."""
        self.reconnect()
        wait_until("the hotel's letters were settled", lambda: self.told().are_settled())
        time.sleep(0.3)
        first, asked = len(self.proxies["hotel"].connections), [*self.desk, *desk]
        self.reconnect()
        time.sleep(0.3)
        told = self.told()
        rooms = {room for pair in (*told.came, *told.sent) for room in pair if room.startswith("stock/")}
        rooms |= {f"stock/{words_of(line)[1]}" for line, _ in asked if line.startswith("re")}
        shown = {room: self.ask("hotel", f"show stock/{word(room[6:])}").split(" ", 1)[1] for room in sorted(rooms)}
        return Record(told, asked, shown, lost + int(self.ask("hotel", "await 0").split()[1]),
                      Told(self.proxies["hotel"].connections[first:]).letters())

    def finish(self):
        """All end by the end of their input, with status 0."""
        for it in self.them.values():
            it.finish()


class Busy(House):
    """A house over new files whose seats give commands, while processes are killed and connections cut."""

    def __init__(self, words, folder):
        super().__init__(folder, words.broker, seed=words.seed, mean=20000)
        self.dice, self.killed, self.left = random.Random(f"{words.seed} kills"), collections.Counter(), 0
        self.seats = {name: Desk(it, random.Random(f"{words.seed} {name} seat"), 0.03) for name, it in self.them.items()}

    def start(self):
        super().start()
        for it in self.seats.values():
            it.start()

    def answered(self):
        return sum(answer.startswith("committed") for _, answer in self.seats["purchasing"].asked)

    def kill_amid_work(self, name):
        """Kills a process after an order was placed, again and again until letters were unsettled then. It is restarted each time."""
        for _ in range(20):
            before = self.answered()
            for it in self.seats.values():
                it.most = len(it.asked) + 20
            wait_until("an order was placed", lambda: self.answered() > before)
            time.sleep(self.dice.uniform(0, 0.3))
            self.proxies["hotel"].cut_all(self.dice.random() < 0.5)
            self.kill(name)
            self.killed[name] += 1
            if self.is_amid_work(name):
                return
        raise Wrong(f"nothing was to be done whenever {name} was killed")

    def is_amid_work(self, name):
        """Restarts what was killed: whether letters waited in a file then."""
        for it in self.seats.values():
            it.turn.acquire()
        try:
            left = sum(self.unsettled() or [0])
            self.left += left
            (self.broker if name == "broker" else self.them[name]).start()
            return left > 0
        finally:
            for it in self.seats.values():
                it.turn.release()

    def calm(self):
        """Once there are some orders nothing disturbs any more, and all is settled: what is known of the hotel then."""
        for it in self.seats.values():
            it.most = len(it.asked) + ORDERS
        wait_until("there were some orders", lambda: self.answered() >= ORDERS, PATIENCE)
        for it in self.seats.values():
            it.stopped = True
        for it in self.seats.values():
            it.join(SECONDS)
            if it.fault or it.is_alive():
                raise Wrong(f"the seat of {it.service.name} ended: {it.fault!r}")
        for it in self.proxies.values():
            it.is_calm = True
        for name in NAMES:
            self.ask(name, "connect")
        self.rest([line.split(" ")[1] for line, _ in self.seats["purchasing"].asked if line.startswith("place")])
        for it in self.seats.values():
            it.write()
        return self.record(desk=[tuple(it) for it in self.seats["hotel"].asked])


# ---- what is known of a hotel

def frames_of(octets):
    """The whole frames of a connection."""
    reader = Client.__new__(Client)
    reader.held = bytes(octets)
    return list(iter(reader.take_frame, None))


class Told:
    """What was written on a hotel's connections: letters that it sent and that came, by pair and number, and settles."""

    def __init__(self, connections):
        self.sent, self.came = collections.defaultdict(dict), collections.defaultdict(dict)
        self.handled, self.settled = collections.Counter(), collections.Counter()
        self.copies, self.settles = collections.Counter(), collections.Counter()
        for one in list(connections):
            for frame in frames_of(one.up):
                if frame.command == "SEND":
                    self.take(frame, self.sent, self.handled, self.settles)
            for frame in frames_of(one.down):
                if frame.command == "MESSAGE":
                    self.take(frame, self.came, self.settled, self.copies)

    @staticmethod
    def take(frame, letters, marks, counts):
        """A letter is kept. A settle raises its pair's mark. Settles that the hotel wrote, and letters that came to it, are counted."""
        pair, number, text = (frame["from"], frame["to"]), int(frame["number"]), frame.body.decode()
        if frame["kind"] == "settle":
            marks[pair] = max(marks[pair], number)
            counts[pair] += 1
        else:
            check(f"letter {number} of {' to '.join(pair)}, sent again", text, letters[pair].setdefault(number, text))
            counts[(*pair, number)] += 1

    def are_settled(self):
        return all(self.settled[pair] == len(texts) for pair, texts in self.sent.items())

    def letters(self):
        return {(*pair, number): text for pair, texts in self.sent.items() for number, text in texts.items()}


class Record:
    """What is known of a hotel at rest: `desk` has its commands and their answers, `shown` each room's words, `length` that of its journal,
    `resent` what it sent on connections that were opened at rest."""

    def __init__(self, told, desk, shown, length, resent):
        self.sent, self.came, self.handled, self.settled = told.sent, told.came, told.handled, told.settled
        self.desk, self.shown, self.length, self.resent = desk, shown, length, resent


class Room:
    """A room by its orders and its guests. The phases are those of a stock's lines: `shipped` is a stay."""

    def __init__(self, name, shown):
        self.name, self.shown, self.lines, self.guests, self.reserved = name, shown, {}, 0, 0

    def conserved(self):
        promised = [order for order, (_, phase) in self.lines.items() if phase == "held"]
        stays = self.guests + sum(phase == "shipped" for _, phase in self.lines.values())
        if stays not in (0, 1) or len(promised) + stays > 1:
            raise Wrong(f"{self.name} has {stays} stays at once, and is promised to {promised}")
        check(f"{self.name}: it is shown", self.shown, "taken" if stays else f"promised {promised[0]}" if promised else "none")
        for order, (n, phase) in self.lines.items():
            others = self.reserved or any(how != "refused" for it, (_, how) in self.lines.items() if it != order)
            if phase == "refused" and n <= BEDS and not others:
                raise Wrong(f"{self.name} is refused to {order}, and nobody else ever had it")
            if phase != "refused" and n > BEDS:
                raise Wrong(f"{self.name} is promised to {n} guests of {order}")


class Rooms:
    """What follows from a record, in the words by which tables and journals are compared."""

    def __init__(self, record):
        self.held, self.outbox = {}, record.resent
        self.sent = {pair: [texts.get(number) for number in range(1, max(texts) + 1)] for pair, texts in record.sent.items()}
        self.handled = {pair: [record.came[pair].get(number) for number in range(1, done + 1)] for pair, done in record.handled.items()}
        self.marks = {pair: [len(texts), record.settled.get(pair, 0)] for pair, texts in self.sent.items()}
        self.states = {name: Room(name, shown) for name, shown in record.shown.items()}
        for (order, room), texts in self.handled.items():
            self.states[room].lines[order] = self.line(texts, self.sent.get((room, order), []))
        self.take_desk(record)

    @staticmethod
    def line(texts, answers):
        """A room's line of an order, by the letters of the two."""
        ops = [json.loads(it or "{}") for it in texts]
        if len(answers) != 1 or not ops or ops[0].get("op") != "request":
            raise Wrong(f"{texts} were handled, and answered by {answers}")
        is_held = json.loads(answers[0] or "{}") == {"op": "tentative"}
        ends = {"confirm": "shipped", "cancel": "released"}
        return [ops[0]["n"], "refused" if not is_held else ends.get(ops[1]["op"]) if ops[1:] else "held"]

    def take_desk(self, record):
        """The desk's commands are counted, and the journal has a row for each that was committed and for each handled letter."""
        last, committed = 0, 0
        for line, answer in record.desk:
            if not answer.startswith("committed"):
                continue
            at, (verb, key) = int(answer.split()[1]), words_of(line)
            if not last < at <= record.length:
                raise Wrong(f"hotel: `{line}` was answered `{answer}` after row {last} of {record.length}")
            last, committed, room = at, committed + 1, self.states[f"stock/{key}"]
            room.guests += 1 if verb == "reserve" else -1
            room.reserved += verb == "reserve"
        check("hotel: rows of its journal", record.length, committed + sum(record.handled.values()))


def check_house(folder, record):
    """Checks the files of purchasing and billing and the record of their hotel, all at rest: how many rows, letters and orders there are,
    and how the orders ended."""
    tables = {name: tables_of(folder, name) for name in FILED}
    replays = {name: Replay(it, read_asked(folder, name)) for name, it in tables.items()}
    for name in FILED:
        check_tables(tables[name], replays[name])
    tables["warehouse"] = replays["warehouse"] = Rooms(record)
    check_letters(tables, replays, at_rest=True)
    check_partners(replays, at_rest=True)
    ends = collections.Counter(it.status for it in replays["purchasing"].states.values())
    letters = sum(len(texts) for it in replays.values() for texts in it.handled.values())
    return record.length + sum(len(tables[name].journal) for name in FILED), letters, ends
