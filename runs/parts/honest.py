"""Clients that do as they should, beside others that don't or while memory is short."""
import os
import random
import threading
import time

from .faults import Wrong
from .stomp_client import Closed, connected


class Honest(threading.Thread):
    """A client that sends to itself, each message after the one before came back, until it is stopped."""

    def __init__(self, port, pause=0.002, after=lambda: None):
        super().__init__(daemon=True)
        self.port, self.pause, self.after, self.client = port, pause, after, None
        self.queue = {"destination": f"/queue/honest.{os.getpid()}.{random.randrange(1 << 40)}"}
        self.count, self.longest, self.fault, self.is_over = 0, 0.0, None, False

    def subscribe(self):
        self.client = connected(self.port, seconds=60)
        self.client.asked("SUBSCRIBE", {"id": "0", "ack": "client-individual", **self.queue})

    def trip(self):
        """A message that is sent and comes back, and its RECEIPT: the seconds that this takes."""
        start, body = time.monotonic(), (b"message %d" % self.count).ljust(100)
        self.client.send("SEND", {**self.queue, "receipt": str(self.count)}, body)
        frames = {frame.command: frame for frame in self.client.frames(2)}
        if set(frames) != {"RECEIPT", "MESSAGE"} or frames["MESSAGE"].body != body or frames["RECEIPT"]["receipt-id"] != str(self.count):
            raise Wrong(f"{list(frames.values())} came to the honest client instead of {body.strip()!r} and its RECEIPT")
        self.client.send("ACK", {"id": frames["MESSAGE"]["ack"]})
        self.count += 1
        return time.monotonic() - start

    def run(self):
        try:
            self.subscribe()
            while not self.is_over:
                self.longest = max(self.longest, self.trip())
                self.after()
                time.sleep(self.pause)
        except (Wrong, Closed, OSError, ValueError) as fault:
            self.fault = fault
        finally:
            if self.client:
                self.client.close()

    def stop(self):
        self.is_over = True
        self.join(60)
        if self.fault or self.is_alive() or not self.count:
            raise Wrong(f"the honest client stopped after {self.count} messages: {self.fault!r}")


class Producer(threading.Thread):
    """A client that sends each message after the RECEIPT of the one before, up to `until`, once that is given."""

    def __init__(self, port, queue, size, seconds):
        super().__init__(daemon=True)
        self.client, self.queue, self.size = connected(port, seconds=seconds), queue, size
        self.told, self.last, self.until, self.fault = 0, time.monotonic(), None, None

    def body(self, number):
        return (b"%d " % number).ljust(self.size, b".")

    def send_all(self):
        while self.until is None or self.told < self.until:
            self.client.asked("SEND", {"destination": self.queue}, self.body(self.told), receipt=str(self.told))
            self.told, self.last = self.told + 1, time.monotonic()

    def run(self):
        try:
            self.send_all()
        except (Closed, OSError, ValueError) as fault:
            self.fault = fault

    def is_starved(self, seconds):
        """Whether no RECEIPT has come for so long, or the connection is lost."""
        return self.fault or time.monotonic() - self.last > seconds

    def check(self, frame, number):
        """A frame is the message of a number."""
        if (frame.command, frame.body) != ("MESSAGE", self.body(number)):
            raise Wrong(f"{frame!r} came instead of message {number} of {self.queue}")

    def check_end(self, seconds):
        """Each message got its RECEIPT, up to the last."""
        self.join(seconds)
        if self.fault or self.told != self.until:
            raise Wrong(f"{self.queue}: {self.told} of {self.until} RECEIPTs came, {self.fault!r}")
