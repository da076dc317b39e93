"""A relay over an outbox of many letters. `World` knows which letters stand in the outbox and which were sent on the
connection, by sets that it goes through from the first; the relay doesn't, so it has to find the same.
"""
from cases_notation import note, say, section

CLOSED = "43 Closed: the session is closed"
UNEXPECTED = "42 Unexpected: no server may send this frame now"
STORE_FAILED = "63 StoreFailed: the store failed, and has to be reopened"
UNUSABLE = "65 Unusable: the store failed before, and has to be reopened"
CONNECT = "CONNECT\\naccept-version:1.2\\nhost:outbox\\n\\n\\x00"
CONNECTED = "CONNECTED\\nversion:1.2\\nheart-beat:0,0\\n\\n\\0"


class World:
    """A service of orders that send letters, and a connection."""

    def __init__(self):
        self.outbox = set()  # each letter as its sender, its receiver and its number
        self.last = {}  # the last number of a pair
        self.sent = set()
        self.receipts = 0
        self.rows = 0
        self.waiting = []
        self.word = "fill"  # or `resume`, which is to send the same of one service

    def commit(self, sender, receiver, count):
        pair = (sender, receiver)
        for number in range(self.last.get(pair, 0) + 1, self.last.get(pair, 0) + count + 1):
            self.outbox.add((*pair, number))
            self.last[pair] = number
        self.rows += 1
        say(f"commit {sender} {receiver} {count}", f"committed {self.rows}")

    def settle(self, sender, receiver, number):
        self.outbox = {letter for letter in self.outbox if letter[:2] != (sender, receiver) or letter[2] > number}
        say(f"settle {sender} {receiver} {number}", f"settled {number}")

    def connect(self):
        self.sent, self.receipts, self.waiting = set(), 0, []
        say("connect")
        say("out", CONNECT)

    def connected(self):
        self.connect()
        say("sent", "receipt ; ")
        say("accept " + CONNECTED, "connected")

    def due(self, limit):
        """The letters that a relay sends now, with their receipts."""
        letters = sorted(self.outbox - self.sent)[:limit]
        for letter in letters:
            self.sent.add(letter)
            self.receipts += 1
            self.waiting.append((*letter, self.receipts))
        return len(letters)

    def fill(self, limit):
        say(f"{self.word} {limit}", str(self.due(limit)))

    def forget(self):
        self.sent = set()
        say("forget")

    def shows(self):
        told = (f"{sender} {receiver} {number} receipt {receipt} ; " for sender, receiver, number,
                receipt in self.waiting)
        say("sent", "".join(told) or "done")
        self.waiting = []


def seventy():
    section("As many as the limit", "Seventy letters of a pair; the receipts go on over what is forgotten.")
    say("connect")
    world = World()
    world.rows = 5
    world.last = {("order/o1", "stock/b"): 2, ("order/o1", "account/a"): 1}
    world.settle("order/o1", "stock/b", 2)
    world.settle("order/o1", "account/a", 1)
    world.outbox = set()
    world.commit("order/p", "stock/b", 70)
    say("fill 64", "0")
    world.connected()
    world.fill(64)
    world.fill(64)
    world.fill(64)
    world.shows()
    world.forget()
    world.fill(64)
    world.shows()
    note("Limits at their edges: none, one, as many as are left, one more.")
    world.fill(0)
    world.forget()
    world.fill(0)
    world.fill(1)
    world.fill(68)
    world.fill(1)
    world.fill(1)
    world.shows()
    return world


def many_pairs(world):
    section("Many pairs",
            "More pairs than a page has rows, some of which were sent; a later commit brings a row before the last "
            "that was sent.")
    world.settle("order/p", "stock/b", 70)
    for number in range(100, 240):
        world.commit(f"order/m{number}", "stock/b", 1 + number % 3)
    world.fill(50)
    world.shows()
    world.fill(1000)
    world.shows()
    world.fill(1000)
    world.commit("order/m100", "stock/b", 1)
    world.commit("order/m239", "stock/c", 1)
    world.commit("order/a", "stock/b", 1)
    world.fill(2)
    world.shows()
    world.fill(2)
    world.shows()
    note("What was settled isn't sent; a settle of some of a pair leaves the rest.")
    world.commit("order/m150", "stock/b", 5)
    world.settle("order/m150", "stock/b", 3)
    world.fill(1000)
    world.shows()
    note("A pair of many letters that were sent, between others.")
    world.commit("order/m15", "stock/b", 200)
    world.fill(1000)
    world.shows()
    world.commit("order/m16", "stock/b", 1)
    world.fill(1000)
    world.shows()
    note("A new connection: all is due.")
    say("forget")
    world.connected()
    world.fill(2000)
    world.shows()
    return world


def cursor(world):
    section("A cursor",
            "Where the journal is as long as at the last filling, `resume` begins after the last row that was sent: "
            "the store that fails at",
            "its second call serves it whole, and fails at the call behind it.")
    world.word = "resume"
    many = len(world.outbox)
    world.forget()
    world.fill(many)
    say("arm 2")
    world.fill(many)
    say("resume 64", STORE_FAILED)
    say("reopen")
    note("A limit leaves it behind the last row of the limit, in the middle of a page too.")
    world.forget()
    world.fill(100)
    say("arm 2")
    world.fill(10)
    say("resume 0", STORE_FAILED)
    say("reopen")
    say("arm 2")
    world.due(64)
    say("resume 80", STORE_FAILED)
    say("reopen")
    say("arm 2")
    world.fill(16)
    say("disarm")
    world.shows()
    note("A settle takes rows away, before it and behind it, and it stays; a held letter changes nothing.")
    world.settle("order/m101", "stock/b", 1)
    world.settle("order/m239", "stock/b", 1)
    say("ingest stock/b order/o9 2", "held")
    world.fill(1)
    say("arm 2")
    world.fill(1)
    say("disarm")
    world.shows()
    note("A row taken in makes the journal longer: a filling finds what it sent, also before the last row sent.")
    world.commit("order/a", "stock/a", 2)
    world.commit("order/m102", "stock/b", 1)
    world.fill(3)
    world.shows()
    world.fill(many)
    world.rows += 1
    say("ingest stock/b order/o1 2", f"handled {world.rows}")
    say("arm 2")
    say("resume 9", STORE_FAILED)
    say("reopen")
    world.fill(9)
    world.shows()
    new_rows(world)
    note("What waits to be handled: nothing, and then a pair.")
    say("drainable", "none")
    say("ingest stock/b order/o1 4", "held")
    say("drainable", "none")
    world.rows += 1
    say("ingest stock/b order/o1 3", f"handled {world.rows}")
    say("drainable", "stock/b order/o1")
    return world


def new_rows(world):
    note("Behind a commit the journal's new rows are read, and before the cursor the rows of their senders: three "
         "calls, and two where these",
         "are the last.")
    for sender, receiver, calls in (("order/m101", "stock/b", 3), ("order/m150", "stock/a", 3),
                                    ("order/m239", "account/a", 2),
                                    ("order/z", "stock/b", 2)):
        world.commit(sender, receiver, 1)
        say(f"arm {calls + 1}")
        world.fill(9)
        say("resume 0", STORE_FAILED)
        say("reopen")
    world.shows()
    note("Senders before the cursor, at it and behind it, in the order of the outbox; a limit among them.")
    for sender in ("order/zz", "order/m200", "order/z", "order/m102", "order/m200"):
        world.commit(sender, "stock/b", 2)
    world.fill(3)
    world.commit("order/m103", "stock/b", 1)
    world.fill(3)
    world.fill(9)
    world.shows()
    note("The store fails at the new rows, and behind them.")
    world.commit("order/m104", "stock/b", 1)
    for call in (1, 2):
        say(f"arm {call}")
        say("resume 9", STORE_FAILED)
        say("reopen")
    world.fill(9)
    world.shows()
    note("More new rows than are read: it looks from the first row on.")
    for number in range(257):
        world.commit(f"order/m{100 + number % 3}", "stock/c", 1)
    world.fill(5)
    world.fill(1000)
    world.fill(1000)
    world.shows()


def failing(world):
    section("A store that fails",
            "Each call that a filling makes fails in turn: what was sent before stays sent, and no letter is left out.")
    world.word = "fill"
    world.forget()
    pages = -(-len(world.outbox) // 64)
    for call in range(1, pages + 1):
        world.forget()
        say(f"arm {call}")
        world.due((call - 1) * 64)
        say("fill 2000", STORE_FAILED)
        world.shows()
        say("fill 2000", UNUSABLE)
        say("fill 0", UNUSABLE)
        say("reopen")
        world.fill(2000)
        world.shows()
    note("With a limit of 0 the store is asked too.")
    say("arm 1")
    say("fill 0", STORE_FAILED)
    note("Before CONNECTED it isn't, and after the end of the session neither.")
    say("connect")
    say("fill 64", "0")
    say(f"accept {CONNECTED}", "connected")
    say("fill 64", UNUSABLE)
    say("reopen")
    say("accept RECEIPT\\nreceipt-id:1\\n\\n\\0", UNEXPECTED)
    say("fill 64", CLOSED)
    say("arm 1")
    say("fill 64", CLOSED)
    say("outbox 1", STORE_FAILED)
    say("accept ERROR\\nmessage:why\\n\\n\\0", CLOSED)
    note("No such lines.")
    for line in ("fill x", "resume x", "commit order/o1 stock/b", "settle order/o1 stock/b -1", "fault client 1", "thing"):
        say(line, "no such line")


def cases():
    world = cursor(many_pairs(seventy()))
    failing(world)
