"""Three services with files and their broker, which are killed and started again while seats give commands."""
import collections
import random
import time

from .brokers import BROKERS
from .faults import Wrong
from .files import count_of
from .proxy import Proxy
from .rules import check_folder
from .seats import Restarted, Seat, are_decided, rows
from .services import SERVICES

PATIENCE = 200  # seconds in which something has to be handled while orders are open and nothing disturbs
COMMANDS = 40, 4  # how many commands a seat gives at first, and how many more for each kill
STARTS = 5  # how often the services are started again for letters that are not settled
# what is killed, how often; a broker that takes seconds to start less often
WEIGHTS = {"own": (3, 3, 3, 3, 1), "rabbitmq": (12, 12, 12, 1, 2), "activemq": (12, 12, 12, 1, 2)}


class Life:
    """Processes over new files, from their start to their end. `words` are the options `seed`, `broker` and `mean` of a script."""

    def __init__(self, words, number, folder):
        self.words, self.folder, self.name = words, folder, f"{words.seed}.{number}"
        folder.mkdir(parents=True)
        self.dice = random.Random(f"{self.name} kills")
        self.broker = BROKERS[words.broker](folder / "broker")
        self.proxies = {name: Proxy(self.broker.port, f"{self.name} {name}", words.mean) for name in SERVICES}
        self.services = {name: self.service(name) for name in SERVICES}
        self.seats = {name: Seat(it, random.Random(f"{self.name} {name} seat"), 0.08) for name, it in self.services.items()}
        self.killed = collections.Counter()

    def service(self, name):
        return Restarted(name, self.folder, self.proxies[name].port, self.broker.words)

    def start(self):
        self.broker.start()
        for it in (*self.services.values(), *self.seats.values()):
            it.start()

    def look(self):
        for name, seat in self.seats.items():
            if seat.fault:
                raise Wrong(f"the seat of {name} ended: {seat.fault!r}")

    def kill(self):
        pick = self.dice.choices((*SERVICES, "broker", "all"), WEIGHTS[self.words.broker])[0]
        self.killed[pick] += 1
        if pick == "broker":
            self.broker.kill()
            time.sleep(self.dice.uniform(0, 0.2))
            self.broker.start()
        elif pick == "all":
            self.kill_all()
        else:
            self.services[pick].kill()
            with self.seats[pick].turn:
                time.sleep(self.dice.uniform(0, 0.2))
                self.services[pick].start()

    def kill_all(self):
        """Kills all at once, and checks what they left; then the seats go on."""
        for it in self.services.values():
            it.kill()
        if self.words.broker == "own":
            self.broker.kill()
        for it in self.seats.values():
            it.turn.acquire()
        try:
            self.write_asked()
            self.check_left()
            if self.words.broker == "own":
                self.broker.start()
            for it in self.services.values():
                it.start()
        finally:
            for it in self.seats.values():
                it.turn.release()

    def check_left(self):
        """Checks the files where none is open."""
        if all((self.folder / f"{name}.db").exists() for name in SERVICES):
            check_folder(self.folder, at_rest=False)

    def write_asked(self):
        for it in self.seats.values():
            it.write()

    def disturb(self, kills, until):
        for number in range(kills):
            for it in self.seats.values():
                it.most = COMMANDS[0] + COMMANDS[1] * number
            time.sleep(self.dice.uniform(0.02, 0.4))
            self.look()
            if self.dice.random() < 0.1:
                self.proxies[self.dice.choice(SERVICES)].cut_all(self.dice.random() < 0.5)
            self.kill()
            if until and time.monotonic() > until:
                break

    def calm(self):
        """Nothing disturbs any more: how many seconds it takes until all is settled, and how many starts."""
        for it in self.seats.values():
            it.stopped = True
        for it in self.seats.values():
            it.join(PATIENCE)
        self.look()
        for it in self.proxies.values():
            it.is_calm = True
        began, starts = time.monotonic(), 1
        for it in self.services.values():
            it.ask(["connect"])
        orders = {line.split(" ")[1] for line, _ in self.seats["purchasing"].asked if line.startswith("place")}
        while True:
            self.wait(orders)
            took = time.monotonic() - began
            for it in self.services.values():
                it.finish()
            if starts == STARTS or not any(count_of(self.folder / f"{name}.db", "outbox") for name in SERVICES):
                return took, starts
            starts += 1
            for it in self.services.values():
                it.start()
            time.sleep(2)

    def wait(self, orders):
        """Until no order is open and the journals don't grow."""
        before, since = None, time.monotonic()
        while True:
            is_decided, found = are_decided(self.services, orders), rows(self.services)
            if found != before:
                since = time.monotonic()
            elif is_decided:
                return
            elif time.monotonic() - since > PATIENCE:
                raise Wrong(f"orders are open, and nothing was handled, in {PATIENCE} seconds in which nothing disturbed")
            before = found
            time.sleep(0.5)

    def end(self):
        for it in self.seats.values():
            it.stopped = True
        for it in self.services.values():
            if it.one:
                it.one.kill()
        for it in self.proxies.values():
            it.end()
        self.broker.end()
