"""A broker that the script plays for a service in memory, and what a warehouse has to answer to letters, as docs/FORMATS.md says it."""
import collections
import re
import socket
import threading
import time

from .faults import Wrong, check
from .services import Service
from .stomp_client import Client, Closed

MOST, EARLY = 1 << 40, 256
BODY = re.compile(rb'\{"n":([1-9][0-9]*),"op":"request"\}|\{"op":"(tentative|refused|confirm|cancel)"\}')
REQUEST, CONFIRM = b'{"n":1,"op":"request"}', b'{"op":"confirm"}'


def is_entity(text, kinds=("order", "stock", "account")):
    kind, slash, key = (text or "").partition("/")
    return kind in kinds and bool(slash) and 1 <= len(key.encode()) <= 64 and "\0" not in key


def letter_of(values, body):
    """The pair and the number of a letter to a stock, or None if a MESSAGE has none: then it's a settle, or nothing of ours."""
    number, found = values.get("number", ""), BODY.fullmatch(body)
    is_number = re.fullmatch("[1-9][0-9]*", number, re.ASCII) and int(number) <= MOST
    if values.get("kind") != "message" or not is_number or not found or found[1] and int(found[1]) > MOST:
        return None
    if not is_entity(values.get("from")) or not is_entity(values.get("to"), ("stock",)):
        return None
    return (values["from"], values["to"]), int(number)


class Pairs:
    """Up to which numbers letters of pairs were handled, and which are held."""

    def __init__(self):
        self.handled, self.held = collections.Counter(), collections.defaultdict(set)

    def take(self, pair, number):
        """How a letter is answered: `ACK`, `NACK`, or up to which number its pair is handled then; and how many letters it handles."""
        done = self.handled[pair]
        if number > done + EARLY:
            return "NACK", 0
        if number > done + 1:
            self.held[pair].add(number)
            return "ACK", 0
        last = max(done, number)
        while last + 1 in self.held[pair]:
            last += 1
        self.handled[pair] = last
        return last, last - done


class Wire(Client):
    """A connection that the service opened, as its broker has it. The letters that it sends are kept in `sent`, to be settled."""

    def __init__(self, taken, sent):
        self.socket, self.held, self.sent = taken, b"", sent
        taken.settimeout(120)
        taken.setsockopt(socket.IPPROTO_TCP, socket.TCP_NODELAY, 1)
        self.expect("CONNECT")
        self.send("CONNECTED", {"version": "1.2", "heart-beat": "0,0"})
        self.expect("SUBSCRIBE")

    def next(self):
        """The next frame that is no letter of the service's own."""
        while True:
            frame = self.frame()
            if frame.command != "SEND" or frame["kind"] != "message":
                return frame
            self.sent.append((frame["from"], frame["to"], frame["number"]))

    def expect(self, command, **values):
        frame = self.next()
        for name, value in values.items():
            if frame[name] != value:
                raise Wrong(f"{frame!r} came, where {name} should be {value!r}")
        if frame.command != command:
            raise Wrong(f"{frame!r} came instead of {command} {values}")
        return frame

    def answered(self, ack, answer, most=None):
        """A message is answered by ACK or NACK, or by a transaction that settles so many letters, `most` at most."""
        if answer in ("ACK", "NACK"):
            self.expect(answer, id=ack, transaction=None)
            return
        name = self.expect("BEGIN")["transaction"]
        self.expect("ACK", id=ack, transaction=name)
        number = self.expect("SEND", kind="settle", transaction=name)["number"]
        if not answer <= int(number) <= (most or answer):
            raise Wrong(f"{number} letters are settled after message {ack}, and {answer} to {most} handled")
        self.expect("COMMIT", transaction=name)


class PlayedBroker:
    """The broker, the service, and the two connections between them."""

    def __init__(self, name):
        self.queue, self.sent = f"/queue/{name}", collections.deque()
        self.listener = socket.create_server(("127.0.0.1", 0))
        self.listener.settimeout(20)
        self.service = Service(name, self.listener.getsockname()[1])
        self.wires = [self.accept(), self.accept()]
        self.service.connects()

    def __enter__(self):
        return self

    def __exit__(self, *_):
        self.end()

    def accept(self):
        return Wire(self.listener.accept()[0], self.sent)

    def accept_again(self):
        """The first connection has ended: the service is asked to open another, and does."""
        self.wires[0].close()
        self.service.give("connect")
        self.wires[0] = self.accept()
        check("the answer when both connections are open again", self.service.line(), "connected 2")

    def end(self):
        self.service.end()
        for one in (*self.wires, self.listener):
            one.close()


class Steady(threading.Thread):
    """The second connection: letters that nobody changed, each handled once and in order, and settles of what the service sends."""

    def __init__(self, broker):
        super().__init__(daemon=True)
        self.wire, self.queue, self.sent = broker.wires[1], broker.queue, broker.sent
        self.count, self.number, self.fault, self.is_over, self.longest = 0, 0, None, False, 0.0

    def give(self, answer, **values):
        self.number += 1
        body = values.pop("body", b"")
        ack = f"steady {self.number}"
        self.wire.send("MESSAGE", {"destination": self.queue, "message-id": ack, "subscription": "0", "ack": ack, **values}, body)
        self.wire.answered(ack, answer)

    def give_both(self):
        """The two letters of an order."""
        letter = {"kind": "message", "from": f"order/steady{self.count}", "to": "stock/steady"}
        self.give(1, number="1", body=REQUEST, **letter)
        self.give(2, number="2", body=CONFIRM, **letter)
        self.count += 1

    def settle_all(self):
        while self.sent:
            sender, receiver, number = self.sent.popleft()
            self.give("ACK", kind="settle", number=number, **{"from": sender, "to": receiver})

    def run(self):
        try:
            while not self.is_over or self.sent:
                start = time.monotonic()
                if not self.is_over:
                    self.give_both()
                self.settle_all()
                self.longest = max(self.longest, time.monotonic() - start)
                time.sleep(0.005)
        except (Wrong, Closed, OSError, ValueError, TypeError) as fault:
            self.fault = fault


class PlayedWarehouse(PlayedBroker):
    """A warehouse, whose first connection is the script's, and the second a steady one."""

    def __init__(self):
        super().__init__("warehouse")
        check("the answer to the first command", self.service.ask("receive steady 1000000"), "committed 1")
        self.service.at_rest, self.steady = self.service.memory(), Steady(self)
        self.steady.start()

    def check_memory(self, room):
        """The service holds no more than it may beyond what it has at rest, in MiB."""
        if self.service.memory() > self.service.at_rest + room:
            raise Wrong(f"the service holds {self.service.memory():.0f} MiB, and {self.service.at_rest:.0f} at rest")

    def check_end(self, least_rows=1, most_rows=1):
        """The steady connection ends. Each of its letters was handled, and of all others so many: how many letters it had."""
        self.steady.is_over = True
        self.steady.join(60)
        done = self.steady.count
        if self.steady.is_alive() or self.steady.fault or not done:
            raise Wrong(f"the steady connection stopped after {done} orders: {self.steady.fault!r}")
        check(f"the stock after {done} orders", self.service.ask("show stock/steady"),
              f"stock/steady on_hand {1_000_000 - done} held 0 shipped {done} received 1000000")
        rows = int(self.service.ask("await 0").removeprefix("journal "))
        if not least_rows <= rows - 2 * done <= most_rows:
            raise Wrong(f"{rows - 2 * done} rows are in the journal, where {least_rows} to {most_rows} should be")
        return 2 * done
