"""What docs/FORMATS.md says of frames, sessions and a broker, written down once more, to compare a broker's answers with. It shares nothing
with the proved code. `decoded` reads a frame, a `World` is what a broker holds, and a `Session` says which frames have to come to a client,
one by one, whatever octets that client sends."""
import bisect
import re

from .faults import Wrong

MOST_BODY, MOST_LINE, MOST_HEADERS, MOST_OWN, MOST_ECHOED = 1_048_576, 1_024, 32, 28, 128
MOST_SUBSCRIPTIONS, MOST_TRANSACTIONS, MOST_ACTIONS, CREDIT = 64, 16, 256, 16
CLIENT = {b"CONNECT", b"STOMP", b"SEND", b"SUBSCRIBE", b"UNSUBSCRIBE", b"ACK", b"NACK", b"BEGIN", b"COMMIT", b"ABORT", b"DISCONNECT"}
SERVER = {b"CONNECTED", b"MESSAGE", b"RECEIPT", b"ERROR"}
WITH_BODY, AS_IS = {b"SEND", b"MESSAGE", b"ERROR"}, {b"CONNECT", b"STOMP", b"CONNECTED"}
ENDS = re.compile(rb"[\r\n\0]")
DESTINATION = re.compile(r"/queue/[A-Za-z0-9._/-]{1,64}")
NOT_OWN = {"destination", "transaction", "receipt", "message-id", "subscription", "ack"}
REQUIRED = {"CONNECT": ("accept-version", "host"), "STOMP": ("accept-version", "host"), "SEND": ("destination",),
            "SUBSCRIBE": ("id", "destination"), "UNSUBSCRIBE": ("id",), "ACK": ("id",), "NACK": ("id",), "BEGIN": ("transaction",),
            "COMMIT": ("transaction",), "ABORT": ("transaction",), "DISCONNECT": ()}
ECHOED = {"CONNECT": (), "STOMP": (), "SEND": ("transaction", "receipt"), "SUBSCRIBE": ("id", "receipt"), "UNSUBSCRIBE": ("id", "receipt"),
          "ACK": ("id", "transaction", "receipt"), "NACK": ("id", "transaction", "receipt"), "DISCONNECT": ("receipt",),
          **{it: ("transaction", "receipt") for it in ("BEGIN", "COMMIT", "ABORT")}}
NAMES = {20: "BadFrame", 21: "NotConnected", 22: "AlreadyConnected", 23: "Version", 24: "MissingHeader", 25: "BadDestination",
         26: "SubscriptionExists", 27: "NoSubscription", 28: "BadAckMode", 29: "TransactionExists", 30: "NoTransaction", 31: "NoSuchAck",
         32: "QueueFull", 33: "WrongCommand", 35: "TooLarge", 36: "TooMany"}
ESCAPED = {b"\\r": b"\r", b"\\n": b"\n", b"\\c": b":", b"\\\\": b"\\"}


class Bad(Exception):
    """The octets are not a frame."""


class Short(Exception):
    """No whole frame is there."""


def line_at(octets, at):
    """The line that begins there, without its end, and where the next one begins."""
    found = ENDS.search(octets, at)
    end = found.start() if found else len(octets)
    if end - at > MOST_LINE:
        raise Bad
    if not found:
        raise Short
    if found[0] == b"\n":
        return octets[at:end], end + 1
    if found[0] == b"\0":
        raise Bad
    if end + 1 == len(octets):
        raise Short
    if octets[end + 1:end + 2] != b"\n":
        raise Bad
    return octets[at:end], end + 2


def unescaped(octets):
    """A name or a value without its escapes."""
    parts, at = [], 0
    while (back := octets.find(b"\\", at)) >= 0:
        if octets[back:back + 2] not in ESCAPED:
            raise Bad
        parts += [octets[at:back], ESCAPED[octets[back:back + 2]]]
        at = back + 2
    return b"".join([*parts, octets[at:]]).decode()


def header(line, is_as_is):
    try:
        line.decode()
    except UnicodeDecodeError:
        raise Bad from None
    name, colon, value = line.partition(b":")
    if not colon or not name or not is_as_is and b":" in value:
        raise Bad
    return (name.decode(), value.decode()) if is_as_is else (unescaped(name), unescaped(value))


def length_of(text, command):
    if not re.fullmatch("[0-9]{1,8}", text, re.ASCII) or int(text) > MOST_BODY or int(text) and command not in WITH_BODY:
        raise Bad
    return int(text)


def decoded(octets):
    """The frame that begins the octets, after line ends: its command, headers and body, and where it ends."""
    at, line = 0, b""
    while not line:
        line, at = line_at(octets, at)
    command, pairs, length, count = line, [], None, 0
    if command not in CLIENT and command not in SERVER:
        raise Bad
    while True:
        line, at = line_at(octets, at)
        if not line:
            break
        name, value = header(line, command in AS_IS)
        if name == "content-length" and length is None:
            length = length_of(value, command)
            continue
        count += 1
        if count > MOST_HEADERS:
            raise Bad
        if name != "content-length":
            pairs.append((name, value))
    body, end = body_at(octets, at, length, command)
    return command.decode(), pairs, body, end


def body_at(octets, at, length, command):
    if command not in WITH_BODY:
        length = 0
    if length is None:
        end = octets.find(b"\0", at)
        if (end if end >= 0 else len(octets)) - at > MOST_BODY:
            raise Bad
        if end < 0:
            raise Short
        return octets[at:end], end + 1
    end = at + length
    if end >= len(octets):
        raise Short
    if octets[end]:
        raise Bad
    return octets[at:end], end + 1


class Message:
    def __init__(self, place, destination, own, body):
        self.place, self.destination, self.own, self.body, self.number = place, destination, own, body, None


class World:
    """The messages that are ready, by their queue, over all sessions that the script has one after another."""

    def __init__(self):
        self.ready, self.accepted = {}, 0

    def count(self):
        return sum(len(it) for it in self.ready.values())

    def put(self, destination, own, body):
        self.accepted += 1
        self.put_back([Message(self.accepted, destination, own, body)])

    def put_back(self, messages):
        for it in messages:
            bisect.insort(self.ready.setdefault(it.destination, []), it, key=lambda it: it.place)

    def take(self, destination):
        found = self.ready[destination]
        message = found.pop(0)
        if not found:
            del self.ready[destination]
        return message


class Subscription:
    def __init__(self, destination, mode):
        self.destination, self.mode, self.out = destination, mode, {}  # unanswered: the messages by their ack

    def answered(self, ack):
        """Which messages an answer to one is for."""
        acks = list(self.out)
        return acks[:acks.index(ack) + 1] if self.mode == "client" else [ack]


class Refusal(Exception):
    """A frame is refused by a number."""


class Session:
    """What has to come to a client that sends some octets: `came` gives the next frame that did."""

    def __init__(self, world, came):
        self.world, self.came, self.rest = world, came, b""
        self.is_connected = self.is_closed = False
        self.subscriptions, self.transactions, self.frames, self.refused = {}, {}, 0, None

    def feed(self, octets):
        self.rest += octets
        while not self.is_closed:
            try:
                command, pairs, body, end = decoded(self.rest)
            except Short:
                return
            except Bad:
                self.refuse(20, None)
                return
            self.rest = self.rest[end:]
            self.frames += 1
            self.take(command, pairs, body)

    def end(self):
        """The session ends: what was delivered and not answered is ready again, in its old place."""
        back = [message for it in self.subscriptions.values() for message in it.out.values()]
        self.subscriptions, self.transactions, self.is_closed = {}, {}, True
        self.world.put_back(back)

    def expect(self, command, pairs, body=b""):
        frame = self.came()
        if (frame.command, frame.pairs, frame.body) != (command, pairs, body):
            raise Wrong(f"{frame.command} {frame.pairs} {frame.body[:80]!r} came instead of {command} {pairs} {body[:80]!r}")

    def refuse(self, number, receipt):
        self.refused = number
        pairs = [("content-length", "0"), *([("version", "1.2")] if number == 23 else []), ("message", f"{number} {NAMES[number]}")]
        self.expect("ERROR", pairs + ([("receipt-id", receipt)] if receipt is not None else []))
        self.end()

    def take(self, command, pairs, body):
        values = dict(reversed(pairs))
        receipt = values.get("receipt") if command not in ("CONNECT", "STOMP") else None
        try:
            self.check(command, pairs, values)
            if command in ("CONNECT", "STOMP"):
                self.is_connected = True
                self.expect("CONNECTED", [("version", "1.2"), ("heart-beat", "0,0")])
            else:
                getattr(self, command.lower())(values, pairs, body)
        except Refusal as refusal:
            self.refuse(refusal.args[0], receipt if receipt is not None and len(receipt.encode()) <= MOST_ECHOED else None)
            return
        if receipt is not None:
            self.expect("RECEIPT", [("receipt-id", receipt)])
        if command == "DISCONNECT":
            self.end()
        self.deal()

    def check(self, command, pairs, values):
        opens = command in ("CONNECT", "STOMP")
        if command.encode() in SERVER:
            raise Refusal(33)
        if opens == self.is_connected:
            raise Refusal(22 if opens else 21)
        if any(it not in values for it in REQUIRED[command]):
            raise Refusal(24)
        if any(len(values.get(it, "").encode()) > MOST_ECHOED for it in ECHOED[command]) \
                or command == "SEND" and sum(name not in NOT_OWN for name, _ in pairs) > MOST_OWN:
            raise Refusal(35)
        if opens and "1.2" not in values["accept-version"].split(","):
            raise Refusal(23)

    def actions(self, values):
        """The actions of the transaction that a frame names, or None where it names none."""
        if "transaction" not in values:
            return None
        if values["transaction"] not in self.transactions:
            raise Refusal(30)
        return self.transactions[values["transaction"]]

    @staticmethod
    def add(actions, action):
        if len(actions) == MOST_ACTIONS:
            raise Refusal(36)
        actions.append(action)

    def send(self, values, pairs, body):
        if not DESTINATION.fullmatch(values["destination"]):
            raise Refusal(25)
        actions, own = self.actions(values), [it for it in pairs if it[0] not in NOT_OWN]
        if actions is None:
            self.world.put(values["destination"], own, body)
        else:
            self.add(actions, ("send", values["destination"], own, body))

    def subscribe(self, values, pairs, body):
        mode = values.get("ack", "auto")
        if not DESTINATION.fullmatch(values["destination"]):
            raise Refusal(25)
        if mode not in ("auto", "client", "client-individual"):
            raise Refusal(28)
        if values["id"] in self.subscriptions:
            raise Refusal(26)
        if len(self.subscriptions) == MOST_SUBSCRIPTIONS:
            raise Refusal(36)
        self.subscriptions[values["id"]] = Subscription(values["destination"], mode)

    def unsubscribe(self, values, pairs, body):
        if values["id"] not in self.subscriptions:
            raise Refusal(27)
        self.world.put_back(self.subscriptions.pop(values["id"]).out.values())

    def subscription_of(self, ack):
        return next((it for it in self.subscriptions.values() if ack in it.out), None)

    def answer(self, how, values):
        actions = self.actions(values)
        if not self.subscription_of(values["id"]):
            raise Refusal(31)
        if actions is None:
            self.apply([(how, values["id"])])
        else:
            self.add(actions, (how, values["id"]))

    def ack(self, values, pairs, body):
        self.answer("ack", values)

    def nack(self, values, pairs, body):
        self.answer("nack", values)

    def begin(self, values, pairs, body):
        if values["transaction"] in self.transactions:
            raise Refusal(29)
        if len(self.transactions) == MOST_TRANSACTIONS:
            raise Refusal(36)
        self.transactions[values["transaction"]] = []

    def commit(self, values, pairs, body):
        actions, answered = self.actions(values), set()
        for how, ack, *_ in actions:
            if how != "send":
                found = self.subscription_of(ack)
                if not found or ack in answered:
                    raise Refusal(31)
                answered.update(found.answered(ack))
        del self.transactions[values["transaction"]]
        self.apply(actions)

    def abort(self, values, pairs, body):
        self.actions(values)
        del self.transactions[values["transaction"]]

    def disconnect(self, values, pairs, body):
        pass

    def apply(self, actions):
        for how, first, *rest in actions:
            if how == "send":
                self.world.put(first, *rest)
                continue
            found = self.subscription_of(first)
            messages = [found.out.pop(it) for it in found.answered(first)]
            if how == "nack":
                self.world.put_back(messages)

    def taker(self, destination):
        """The oldest subscription that takes a message of this destination now, and its id."""
        return next(((name, it) for name, it in self.subscriptions.items()
                     if it.destination == destination and (it.mode == "auto" or len(it.out) < CREDIT)), None)

    def deal(self):
        while True:
            wanted = {it.destination for it in self.subscriptions.values()} & self.world.ready.keys()
            takers = {name: self.taker(name) for name in wanted}
            waiting = [name for name, taker in takers.items() if taker]
            if not waiting:
                return
            first = min(waiting, key=lambda name: self.world.ready[name][0].place)
            self.deliver(self.world.take(first), *takers[first])

    def deliver(self, message, name, subscription):
        frame = self.came()
        number, ack = frame["message-id"], frame["ack"] if subscription.mode != "auto" else None
        wanted = [("content-length", str(len(message.body))), ("destination", message.destination),
                  ("message-id", message.number or number), ("subscription", name),
                  *([("ack", ack)] if subscription.mode != "auto" else []), *message.own]
        if (frame.command, frame.pairs, frame.body) != ("MESSAGE", wanted, message.body):
            raise Wrong(f"{frame.command} {frame.pairs} {frame.body[:80]!r} came instead of a MESSAGE {wanted} {message.body[:80]!r}")
        message.number = number
        if ack is not None:
            if self.subscription_of(ack) or not ack.isdecimal():
                raise Wrong(f"the delivery's number is {ack!r}")
            subscription.out[ack] = message
