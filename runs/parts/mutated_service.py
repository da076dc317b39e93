"""Letters to a warehouse, changed at random, and what it has to answer to them: for `runs/mutated-frames`."""
import collections
import contextlib
import random
import re
import socket

from .faults import Wrong, text_of
from .mutations import in_pieces, mutated
from .played_broker import CONFIRM, MOST, REQUEST, Pairs, PlayedWarehouse, letter_of
from .stomp_client import Closed, spell
from .stomp_model import Bad, Short, decoded

ROOM, PER_LETTER = 32, 6 / 1024  # MiB that it may hold beyond what it has at rest, and for each letter that it keeps
LIFE = 100_000  # frames after which another process takes over
AHEAD = 8  # bursts that are sent at once
LINE_ENDS = re.compile(rb"(\r?\n)*")
QUEUE = "/queue/warehouse"
ODD_NUMBERS = ("1", "2", "3", "0", "01", "-1", "+1", "", " 1", "256", "257", "258", str(MOST), str(MOST + 1), str(1 << 64), "1.0", "x")
ODD_BODIES = (b"", b"{}", b'{"op":"request","n":1}', b'{"n":0,"op":"request"}', b'{"n":01,"op":"request"}', b'{"n":1, "op":"request"}',
              b'{"n":1099511627776,"op":"request"}', b'{"n":1099511627777,"op":"request"}', b'{"op":"refused"}', b'{"op":"tentative"}',
              b'{"op":"cancel"}', b'{"op":"Cancel"}', b"{" * 1000, b'{"op":"confirm"}\n', b"\0", b"\xff", b'{"n":1e0,"op":"request"}',
              b"x" * 5000)
ODD_FRAMES = (spell("ERROR", {"message": "what"}), spell("CONNECTED", {"version": "1.2"}), spell("SEND", {"destination": QUEUE}),
              spell("RECEIPT", {"receipt-id": "18446744073709551615"}), spell("RECEIPT", {"receipt-id": "x"}),
              spell("MESSAGE", {"ack": "1"}), b"\n\n\r\n")


def odd_entities(key):
    """Texts that are nearly entities, and odd entities: these have the key in them, so that no burst knows another's."""
    return ("", "order", "order/", f"/{key}", f"x/{key}", f"Order/{key}", f"order/{key:k<64}", f"order/{key:k<65}", f"order/{key:ö<39}",
            f"order/{key:ö<40}", f"order/{key}/b", f"order/{key}:b\n", f"account/{key}", f"stock/{key}.", f"stock/{key:k<64}",
            f"stock/ {key}")


def frames(dice):
    """The frames of a burst: letters of some pairs, whose numbers, texts and entities are odd now and then."""
    keys = [f"{dice.randrange(1 << 60):015x}" for _ in range(2)]
    for number in range(dice.randint(1, 12)):
        if dice.random() < 0.02:
            yield dice.choice(ODD_FRAMES)
            continue
        key, numbered = dice.choice(keys), str(dice.choice((1, 1, 1, 2, 2, 3, 4)))
        values = {"kind": "message", "from": f"order/{key}", "to": f"stock/{key}", "number": numbered}
        body = dice.choice((REQUEST, CONFIRM, CONFIRM, b'{"op":"cancel"}'))
        entities = odd_entities(key)
        for name, odd in (("kind", ("settle", "", "Message")), ("from", entities), ("to", entities), ("number", ODD_NUMBERS)):
            if dice.random() < 0.08:
                values[name] = dice.choice(odd)
            if dice.random() < 0.01:
                del values[name]
        body = dice.choice(ODD_BODIES) if dice.random() < 0.1 else body
        ack = f"{key}.{number}"
        yield spell("MESSAGE", {"destination": QUEUE, "message-id": ack, "subscription": "0", "ack": ack, **values}, body)


class Burst:
    """Octets that are sent at once, and what has to be answered: for each message its ack, the answer, how many letters it handles and its
    pair; whether the connection is cut; and how many frames are looked at.

    A MESSAGE without its headers is found only when its turn comes. By then later ones may have been handled: `later` letters at most.
    """

    def __init__(self, seed, number):
        self.number, self.dice = number, random.Random(f"{seed} {number}")
        them = list(frames(self.dice))
        self.octets = mutated(self.dice, them) if self.dice.random() < 0.4 else b"".join(them)
        self.pairs, self.told, self.is_cut, self.count, self.later = Pairs(), [], False, 0, 0
        self.look()

    def look(self):
        octets = self.octets
        while True:
            try:
                command, headers, body, end = decoded(octets)
            except Short:
                # what is left must not come before the next burst, nor may a CR without its LF
                self.is_cut = self.is_cut or not LINE_ENDS.fullmatch(octets)
                return
            except Bad:
                command = None
            self.count += 1
            if command != "MESSAGE":
                self.is_cut = True
                return
            octets = octets[end:]
            self.message(dict(reversed(headers)), body)

    def message(self, values, body):
        self.is_cut = self.is_cut or any(it not in values for it in ("destination", "message-id", "subscription", "ack"))
        letter = letter_of(values, body)
        answer, handled = self.pairs.take(*letter) if letter else ("ACK", 0)
        self.later += handled if self.is_cut else 0
        if not self.is_cut:
            self.told.append((values["ack"], answer, handled, letter and letter[0]))

    def handled(self):
        return sum(it[2] for it in self.told)


class ServiceRun:
    """Bursts of letters to one warehouse after another."""

    def __init__(self, seed):
        self.seed, self.told, self.most, self.longest = seed, collections.Counter(), 0, 0.0
        self.broker = self.held = None  # a burst that is held is sent next

    def end(self):
        if self.broker:
            self.broker.end()

    def honest(self):
        """How many letters of the steady connection were handled."""
        return self.told["steady"]

    def bursts(self, number):
        """Sends some bursts at once, but alone one that cuts the connection: the number of the last that was made."""
        made, self.held = [self.held] if self.held else [], None
        while not made or len(made) < AHEAD and not made[0].is_cut:
            number += 1
            one = Burst(self.seed, number)
            if made and one.is_cut:
                self.held = one
                break
            made.append(one)
        for it in made:
            in_pieces(it.dice, self.broker.wires[0].socket, it.octets)
        for it in made:
            try:
                self.answers(it)
            except (Wrong, Closed, OSError, ValueError, TypeError) as fault:
                raise Wrong(f"{text_of(fault)}\n     burst {it.number}, after {it.octets!r}") from None
            self.count(it)
        return number

    def count(self, burst):
        self.told["frames"] += burst.count
        self.told["messages"] += len(burst.told)
        self.told["letters"] += burst.handled()
        self.told["refused"] += sum(it[1] in ("ACK", "NACK") for it in burst.told)
        self.told["cuts"] += burst.is_cut
        self.least_rows += 0 if burst.is_cut else burst.handled()
        self.most_rows += burst.handled() + burst.later

    def answers(self, burst):
        """The answers come, in order; if the connection is cut, a beginning of them, and then its end."""
        wire = self.broker.wires[0]
        try:
            if burst.is_cut:
                with contextlib.suppress(OSError):  # (it may be cut already)
                    wire.socket.shutdown(socket.SHUT_WR)
            for ack, answer, _, pair in burst.told:
                wire.answered(ack, answer, burst.pairs.handled[pair] if pair else None)
            if burst.is_cut:
                raise Wrong(f"{wire.next()!r} came where the connection should be cut")
        except (Closed, ConnectionResetError):
            if not burst.is_cut:
                raise
            self.broker.accept_again()

    def life(self, count, number):
        """Bursts to one process: the number of the last one."""
        self.broker = PlayedWarehouse()
        self.least_rows = self.most_rows = 1
        service, steady = self.broker.service, self.broker.steady
        until = min(count, self.told["frames"] + LIFE)
        while self.told["frames"] < until:
            number = self.bursts(number)
            self.broker.check_memory(ROOM + PER_LETTER * (self.most_rows + 2 * steady.count + self.told["refused"]))
            if steady.fault:
                raise Wrong(f"the steady connection: {steady.fault!r}")
        self.told["steady"] += self.broker.check_end(self.least_rows, self.most_rows)
        self.most, self.longest = max(self.most, service.most), max(self.longest, steady.longest)
        self.broker.end()
        return number

    def run(self, count):
        number = 0
        while self.told["frames"] < count:
            number = self.life(count, number)
        told = self.told
        return (f"{told['frames']:,} frames in {number:,} bursts, {told['messages']:,} of them messages, {told['letters']:,} letters "
                f"handled, {told['refused']:,} messages held or refused, {told['cuts']:,} connections cut; {told['steady']:,} letters of "
                f"the other connection were handled, the longest two in {self.longest * 1000:.0f} ms; {self.most:.0f} MiB at most")
