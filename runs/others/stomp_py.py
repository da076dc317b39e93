"""stomp.py with a broker, step by step: each line names a step and its outcome.

usage: runs/others/stomp_py.py PORT     the status is 0 if each step was as it should be
"""
import os
import pathlib
import queue
import sys
import time

import stomp

sys.path.insert(0, str(pathlib.Path(__file__).resolve().parent.parent))
from parts.faults import Wrong  # noqa: E402
from parts.steps import Steps  # noqa: E402

if len(sys.argv) != 2 or not sys.argv[1].isdigit():
    sys.exit(__doc__)
PORT = int(sys.argv[1])
STEPS = Steps()
step = STEPS.step
FAULTS = (Wrong, OSError, KeyError, queue.Empty, stomp.exception.StompException)


def name_of(what):
    return f"/queue/stomp.py.{what}.{os.getpid()}"


class Client(stomp.ConnectionListener):
    """A connection, and what came on it: a pair of a kind and a frame each."""

    def __init__(self, kind=stomp.Connection12, **how):
        self.came = queue.Queue()
        self.connection = kind([("127.0.0.1", PORT)], auto_decode=False, **how)
        self.connection.set_listener("", self)
        self.connection.connect(wait=True)

    def on_message(self, frame):
        self.came.put(("message", frame))

    def on_receipt(self, frame):
        self.came.put(("receipt", frame))

    def on_error(self, frame):
        self.came.put(("error", frame))

    def on_disconnected(self):
        self.came.put(("end", None))

    def wait(self, kind):
        try:
            came, frame = self.came.get(timeout=10)
        except queue.Empty:
            raise Wrong(f"no {kind} came") from None
        if came != kind:
            raise Wrong(f"{came} came instead of {kind}: {frame and frame.headers}")
        return frame

    def quiet(self):
        time.sleep(0.2)
        return self.came.empty()

    def subscribe(self, name, mode):
        self.connection.subscribe(name, id="0", ack=mode, headers={"receipt": "s"})
        self.wait("receipt")

    def put(self, name, *bodies, **headers):
        for body in bodies:
            self.connection.send(name, body, receipt="p", **headers)
            self.wait("receipt")

    def messages(self, count):
        return [self.wait("message") for _ in range(count)]

    def go_away(self):
        self.connection.transport.disconnect_socket()


def bodies(count):
    return [b"m%d" % number for number in range(count)]


def filled(what, *contents):
    name = name_of(what)
    Client().put(name, *contents)
    return name


@step("connects by STOMP, and by CONNECT")
def connects():
    client = stomp.Connection12([("127.0.0.1", PORT)])
    client.connect(wait=True, with_connect_command=True)
    return client.is_connected() and Client().connection.is_connected()


@step("sends with a receipt")
def sends():
    client = Client()
    client.connection.send(name_of("receipt"), "x", receipt="mine")
    return client.wait("receipt").headers["receipt-id"] == "mine"


@step("mode auto: messages come in order, and are gone")
def auto():
    name = filled("auto", *bodies(20))
    one = Client()
    one.connection.subscribe(name, id="0", ack="auto")
    came = [frame.body for frame in one.messages(20)]
    one.connection.disconnect()
    other = Client()
    other.subscribe(name, "auto")
    return came == bodies(20) and other.quiet()


@step("mode client: an ACK counts for all before it, the others are redelivered")
def client_mode():
    name = filled("client", *bodies(5))
    one = Client()
    one.subscribe(name, "client")
    one.connection.ack(one.messages(5)[2].headers["ack"], receipt="a")
    one.wait("receipt")
    one.go_away()
    other = Client()
    other.subscribe(name, "client")
    return [frame.body for frame in other.messages(2)] == [b"m3", b"m4"] and other.quiet()


@step("mode client-individual: an ACK counts for its message alone, the others are redelivered")
def individual():
    name = filled("individual", *bodies(5))
    one = Client()
    one.subscribe(name, "client-individual")
    one.connection.ack(one.messages(5)[2].headers["ack"], receipt="a")
    one.wait("receipt")
    one.go_away()
    other = Client()
    other.subscribe(name, "client-individual")
    return [frame.body for frame in other.messages(4)] == [b"m0", b"m1", b"m3", b"m4"] and other.quiet()


@step("a NACK redelivers its message")
def nack():
    name = filled("nack", "m")
    one = Client()
    one.subscribe(name, "client-individual")
    first = one.wait("message")
    one.connection.nack(first.headers["ack"])
    second = one.wait("message")
    one.connection.ack(second.headers["ack"])
    return second.headers["message-id"] == first.headers["message-id"] and second.headers["ack"] != first.headers["ack"] and one.quiet()


@step("a transaction that is committed sends and acknowledges")
def commits():
    name, answers = filled("commit", "taken"), name_of("commit.answers")
    one, other = Client(), Client()
    one.subscribe(name, "client-individual")
    other.subscribe(answers, "auto")
    transaction = one.connection.begin()
    one.connection.ack(one.wait("message").headers["ack"], transaction=transaction)
    one.put(answers, "a", "b", transaction=transaction)
    early = other.quiet()
    one.connection.commit(transaction, receipt="c")
    one.wait("receipt")
    one.go_away()
    again = Client()
    again.subscribe(name, "auto")
    return early and [frame.body for frame in other.messages(2)] == [b"a", b"b"] and again.quiet()


@step("a transaction that is aborted does neither")
def aborts():
    name = filled("abort", "kept")
    one = Client()
    one.subscribe(name, "client-individual")
    transaction = one.connection.begin()
    one.connection.ack(one.wait("message").headers["ack"], transaction=transaction)
    one.put(name, "never", transaction=transaction)
    one.connection.abort(transaction, receipt="a")
    one.wait("receipt")
    one.go_away()
    other = Client()
    other.subscribe(name, "client-individual")
    return other.wait("message").body == b"kept" and other.quiet()


@step("a body of all octets, NUL among them, comes as it was sent")
def binary():
    body = bytes(range(256)) * 4
    one = Client()
    one.subscribe(filled("binary", body), "auto")
    return one.wait("message").body == body


@step("headers with colons, newlines and backslashes come as they were sent")
def headers():
    name, odd = name_of("headers"), {"one": "a:b", "two": "c\nd", "three": "e\\f", "four": "g\rh"}
    one = Client()
    one.put(name, "x", **odd)
    one.subscribe(name, "auto")
    came = one.wait("message").headers
    return all(came[key] == value for key, value in odd.items())


@step("bodies of 1,048,576 octets come whole")
def large():
    contents = [bytes([number]) * 1_048_576 for number in range(10)]
    one = Client()
    one.connection.subscribe(filled("large", *contents), id="0", ack="auto")
    return [frame.body for frame in one.messages(10)] == contents


def refused(client):
    """The message of the ERROR that a client gets, after which the connection ends."""
    frame = client.wait("error")
    client.wait("end")
    return frame.headers["message"]


@step("an ACK of no unanswered message gets ERROR 31")
def error():
    one = Client()
    one.connection.ack("1000000000")
    return refused(one) == "31 NoSuchAck"


@step("a body of 1,048,577 octets gets ERROR 20, though it was sent whole")
def too_large():
    one = Client()
    one.connection.send(name_of("too_large"), b"x" * 1_048_577)
    return refused(one) == "20 BadFrame"


@step("a topic gets ERROR 25")
def topic():
    one = Client()
    one.connection.subscribe("/topic/news", id="0")
    return refused(one) == "25 BadDestination"


def refusal(connection):
    """The message of the ERROR that a client gets for its CONNECT."""
    errors = queue.Queue()
    listener = stomp.ConnectionListener()
    listener.on_error = errors.put
    connection.set_listener("", listener)
    try:
        connection.connect(wait=True)
    except stomp.exception.ConnectFailedException:
        return errors.get(timeout=10).headers["message"]
    return None


@step("its client of 1.0, which names no version, gets ERROR 24")
def version_10():
    return refusal(stomp.Connection10([("127.0.0.1", PORT)])) == "24 MissingHeader"


@step("its client of 1.1 gets ERROR 24 if it names no host, and else ERROR 23")
def version_11():
    host = [("127.0.0.1", PORT)]
    return [refusal(stomp.Connection11(host)), refusal(stomp.Connection11(host, vhost="h"))] == ["24 MissingHeader", "23 Version"]


@step("heart-beats that it asks for are declined, and the session goes on")
def heart_beats():
    one = Client(heartbeats=(500, 500))
    time.sleep(2)
    one.put(name_of("beats"), "x")
    return one.connection.is_connected()


@step("disconnects with a receipt")
def disconnects():
    one = Client()
    one.connection.disconnect(receipt="last")
    # (it reports the end first, which the receipt causes)
    return one.wait("end") is None and one.wait("receipt").headers["receipt-id"] == "last"


def main():
    failed, count = STEPS.failed(FAULTS), len(STEPS.them)
    print(f"{count - failed} of {count} steps, stomp.py {'.'.join(map(str, stomp.__version__))}", flush=True)
    os._exit(1 if failed else 0)


main()
