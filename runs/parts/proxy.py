"""A proxy between services and their broker, which carries octets, and may hold them up and cut connections at any octet."""
import random
import socket
import struct
import threading
import time

PIECE = 4096
RESET = struct.pack("ii", 1, 0)  # a socket that is closed with this sends a reset, and what wasn't sent is lost


def shut(end, by_reset):
    try:
        if by_reset:
            end.setsockopt(socket.SOL_SOCKET, socket.SO_LINGER, RESET)
        # the thread that waits for octets of this socket has to let it go first
        end.shutdown(socket.SHUT_RD if by_reset else socket.SHUT_RDWR)
    except OSError:
        pass
    end.close()


class Connection:
    """A connection of a service and the one to the broker that belongs to it, with the octets of both ways where these are kept."""

    def __init__(self, near, far):
        self.ends, self.up, self.down = (near, far), bytearray(), bytearray()
        for one in self.ends:
            one.setsockopt(socket.IPPROTO_TCP, socket.TCP_NODELAY, 1)


class Proxy:
    """Listens on a port of its own. With a seed it disturbs: what it does is picked by the seed, and depends on the octets that come.

    `mean` is how many octets a connection carries each way, on average, before it's cut; with 0 none is cut. A proxy that doesn't disturb
    keeps the octets of each connection. While `is_withholding`, what services write doesn't reach the broker.
    """

    def __init__(self, port, seed=None, mean=0):
        self.port_there, self.seed, self.mean, self.is_calm = port, seed, mean, seed is None
        self.connections, self.open, self.cuts, self.stalls, self.lock = [], set(), 0, 0, threading.Lock()
        self.is_withholding = False
        self.listener = socket.create_server(("127.0.0.1", 0), backlog=64)
        self.port = self.listener.getsockname()[1]
        threading.Thread(target=self.accept, daemon=True).start()

    def accept(self):
        while True:
            try:
                near, _ = self.listener.accept()
            except OSError:
                return
            try:
                far = socket.create_connection(("127.0.0.1", self.port_there), 2)
                far.settimeout(None)
            except OSError:
                near.close()
                continue
            one = Connection(near, far)
            self.connections.append(one)
            with self.lock:
                self.open.add(one)
            for way, source, target, kept in (("up", near, far, one.up), ("down", far, near, one.down)):
                dice = random.Random(f"{self.seed} {len(self.connections)} {way}")
                threading.Thread(target=self.carry, args=(one, source, target, kept, dice), daemon=True).start()

    def carry(self, one, source, target, kept, dice):
        left = int(dice.expovariate(1 / self.mean)) + 1 if self.mean else None
        try:
            while octets := source.recv(PIECE if self.is_calm else dice.choice((1, 7, 64, 512, PIECE))):
                if self.seed is None:
                    kept += octets
                if not self.is_calm:
                    self.hold_up(dice)
                    if left is not None:
                        if len(octets) >= left:
                            target.sendall(octets[:left])
                            self.cuts += 1
                            return self.close(one, dice.random() < 0.5)
                        left -= len(octets)
                if not (self.is_withholding and source is one.ends[0]):
                    target.sendall(octets)
        except OSError:
            pass
        return self.close(one)

    def hold_up(self, dice):
        """Now and then a way stands still, so that octets of the other connection overtake it."""
        pick = dice.random()
        if pick < 0.005:
            self.stalls += 1
            time.sleep(dice.uniform(0.05, 0.5))
        elif pick < 0.05:
            time.sleep(dice.uniform(0, 0.005))

    def close(self, one, by_reset=False):
        with self.lock:
            self.open.discard(one)
        for end in one.ends:
            shut(end, by_reset)

    def cut_all(self, by_reset=False):
        with self.lock:
            them = list(self.open)
        self.cuts += len(them)
        for it in them:
            self.close(it, by_reset)

    def end(self):
        self.is_calm = True
        self.listener.close()
        self.cut_all()
