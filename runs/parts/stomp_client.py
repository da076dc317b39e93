"""A STOMP 1.2 client over a socket, which writes and reads frames as they are."""
import re
import socket

ESCAPES = {"\\": "\\\\", "\r": "\\r", "\n": "\\n", ":": "\\c"}
UNESCAPES = {"\\\\": "\\", "\\r": "\r", "\\n": "\n", "\\c": ":"}


def escape(text):
    return re.sub(r"[\\\r\n:]", lambda found: ESCAPES[found[0]], text)


def unescape(text):
    return re.sub(r"\\.", lambda found: UNESCAPES[found[0]], text)


def spell(command, headers=(), body=b"", length=True):
    """A frame's octets. Headers are a dict or pairs; in CONNECT nothing is escaped (section "Value Encoding")."""
    pairs = list(headers.items()) if isinstance(headers, dict) else list(headers)
    if body and length:
        pairs.append(("content-length", str(len(body))))
    as_is = command in ("CONNECT", "CONNECTED")
    lines = [command] + [f"{name}:{value}" if as_is else f"{escape(name)}:{escape(value)}" for name, value in pairs]
    return "\n".join(lines).encode() + b"\n\n" + body + b"\0"


class Frame:
    def __init__(self, command, pairs, body):
        self.command, self.pairs, self.body = command, pairs, body

    def __getitem__(self, name):
        return next((value for key, value in self.pairs if key == name), None)

    def __repr__(self):
        return f"{self.command} {dict(self.pairs)} {self.body[:60]!r}"


class Closed(Exception):
    """The other side has shut the connection."""


class Client:
    def __init__(self, port, seconds=10, receive_buffer=None, address="127.0.0.1"):
        self.socket = socket.socket(socket.AF_INET6 if ":" in address else socket.AF_INET)
        if receive_buffer:
            self.socket.setsockopt(socket.SOL_SOCKET, socket.SO_RCVBUF, receive_buffer)
        self.socket.settimeout(seconds)
        self.socket.connect((address, port))
        self.socket.setsockopt(socket.IPPROTO_TCP, socket.TCP_NODELAY, 1)
        self.held = b""

    def send(self, command, headers=(), body=b"", **how):
        self.socket.sendall(spell(command, headers, body, **how))

    def more(self):
        octets = self.socket.recv(1 << 18)
        if not octets:
            raise Closed
        self.held += octets

    def take_frame(self):
        """The frame that begins what is held, or None."""
        start = len(self.held) - len(self.held.lstrip(b"\r\n"))
        end = self.held.find(b"\n\n", start)
        if end < 0:
            return None
        lines = self.held[start:end].decode().split("\n")
        pairs = [tuple(unescape(part) for part in line.split(":", 1)) for line in lines[1:]]
        length = next((int(value) for name, value in pairs if name == "content-length"), None)
        stop = self.held.find(b"\0", end + 2) if length is None else end + 2 + length
        if stop < 0 or len(self.held) <= stop:
            return None
        if self.held[stop] != 0:
            raise ValueError("no NUL after a body")
        frame = Frame(lines[0], pairs, self.held[end + 2:stop])
        self.held = self.held[stop + 1:]
        return frame

    def frame(self):
        while True:
            frame = self.take_frame()
            if frame:
                return frame
            self.more()

    def frames(self, count):
        return [self.frame() for _ in range(count)]

    def quiet(self, seconds=0.2):
        """Whether nothing comes for a while."""
        if self.take_frame():
            return False
        before = self.socket.gettimeout()
        self.socket.settimeout(seconds)
        try:
            self.more()
            return False
        except socket.timeout:
            return True
        finally:
            self.socket.settimeout(before)

    def ends(self):
        """Whether the other side ends the connection cleanly, with nothing more before it."""
        try:
            self.more()
            return False
        except Closed:
            return not self.held.strip(b"\r\n")

    def connect(self):
        self.send("CONNECT", {"accept-version": "1.2", "host": "127.0.0.1"})
        frame = self.frame()
        if frame.command != "CONNECTED":
            raise ValueError(frame)
        return frame

    def asked(self, command, headers=(), body=b"", receipt="done"):
        """Sends a frame with a receipt, and reads up to the RECEIPT: the answer is what came before it."""
        self.send(command, {**dict(headers), "receipt": receipt}, body)
        before = []
        while True:
            frame = self.frame()
            if frame.command == "RECEIPT" and frame["receipt-id"] == receipt:
                return before
            if frame.command == "ERROR":
                raise ValueError(frame)
            before.append(frame)

    def close(self):
        self.socket.close()


def connected(port, **how):
    client = Client(port, **how)
    client.connect()
    return client
