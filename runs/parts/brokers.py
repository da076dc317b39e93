"""Brokers for services: outbox-broker, RabbitMQ and ActiveMQ. Each is started on a free port of 127.0.0.1, with a configuration that is
made in a folder of its own. It can be killed and started again over the same folder and port."""
import contextlib
import os
import pathlib
import random
import shutil
import socket
import subprocess
import time

from .processes import program
from .stomp_client import Client, Closed

RABBITMQ = "/usr/lib/rabbitmq/bin/rabbitmq-server"
ACTIVEMQ = "/usr/share/activemq/bin/activemq.jar"
SECONDS = 600  # the longest that a broker may take until it serves


class Absent(Exception):
    """The broker is not installed."""


class Fault(Exception):
    """The broker ended, or doesn't serve."""


def free_ports(count):
    """Ports that nobody listens on, below those that the system gives to clients (32,768 and up on Linux): a service that retries while its
    broker is away could be given the broker's own port, and would hold it."""
    held = []
    while len(held) < count:
        with contextlib.suppress(OSError):
            held.append(socket.create_server(("127.0.0.1", random.randrange(10_000, 30_000))))
    ports = [it.getsockname()[1] for it in held]
    for it in held:
        it.close()
    return ports


class Broker:
    """A broker's process. `words` are the options that outbox-service needs besides `--port`."""

    words = []

    def __init__(self, folder):
        self.folder = pathlib.Path(folder)
        self.folder.mkdir(parents=True, exist_ok=True)
        self.process, (self.port, *self.others) = None, free_ports(4)
        self.prepare()

    def prepare(self):
        """Makes what it needs."""

    def command(self):
        """The words that start it, and its environment."""
        raise NotImplementedError

    def start(self):
        words, environment = self.command()
        with open(self.folder / "told", "ab") as told:
            self.process = subprocess.Popen([str(it) for it in words], env={**os.environ, **environment}, stdin=subprocess.DEVNULL,
                                            stdout=told, stderr=told)
        until = time.monotonic() + SECONDS
        while not self.is_ready():
            if self.process.poll() is not None or time.monotonic() > until:
                self.end()
                lines = (self.folder / "told").read_text(errors="replace").splitlines()[-5:]
                raise Fault(f"{type(self).__name__} doesn't serve: {lines}")
            time.sleep(0.1)

    def is_ready(self):
        """Whether it answers CONNECT: RabbitMQ listens before it knows its users."""
        named = dict(zip(self.words[::2], self.words[1::2]))
        headers = {"accept-version": "1.2", "host": named.get("--host", "outbox")}
        headers.update((it, named[f"--{it}"]) for it in ("login", "passcode") if f"--{it}" in named)
        try:
            client = Client(self.port, seconds=5)
            client.send("CONNECT", headers)
            is_connected = client.frame().command == "CONNECTED"
            client.close()
            return is_connected
        except (Closed, OSError, ValueError):
            return False

    def kill(self):
        self.process.kill()
        self.process.wait()

    def end(self):
        """Ends it, and what it started."""
        if self.process and self.process.poll() is None:
            self.process.terminate()
            try:
                self.process.wait(20)
            except subprocess.TimeoutExpired:
                self.kill()


class Own(Broker):
    """outbox-broker."""

    def prepare(self):
        try:
            self.program = program("outbox_broker")
        except SystemExit:
            raise Absent("outbox-broker isn't built") from None

    def command(self):
        return [self.program, "--port", self.port], {}


class RabbitMQ(Broker):
    """RabbitMQ with its plugin for STOMP, and a virtual host `outbox` whose only user is `outbox`."""

    words = ["--login", "outbox", "--passcode", "outbox", "--prefetch", "16"]
    definitions = """{"vhosts": [{"name": "outbox"}],
 "users": [{"name": "outbox", "password": "outbox", "tags": ""}],
 "permissions": [{"user": "outbox", "vhost": "outbox", "configure": "^(purchasing|warehouse|billing)$",
                  "write": "^amq\\\\.default$", "read": "^(purchasing|warehouse|billing)$"}]}
"""

    def prepare(self):
        if not os.access(RABBITMQ, os.X_OK) or not shutil.which("epmd"):
            raise Absent("rabbitmq-server isn't installed")
        (self.folder / "plugins").write_text("[rabbitmq_stomp].\n")
        (self.folder / "definitions.json").write_text(self.definitions)
        (self.folder / "rabbitmq.conf").write_text(f"{self.amqp()}\nstomp.listeners.tcp.1 = 127.0.0.1:{self.port}\n"
                                                   f"load_definitions = {self.folder}/definitions.json\n")
        environment = {"HOME": str(self.folder), "ERL_EPMD_ADDRESS": "127.0.0.1", "ERL_EPMD_PORT": str(self.others[0])}
        # Erlang starts one that stays, where none listens
        self.names = subprocess.Popen(["epmd"], env={**os.environ, **environment}, stdin=subprocess.DEVNULL, stdout=subprocess.DEVNULL,
                                      stderr=subprocess.DEVNULL)
        self.environment = {
            **environment, "RABBITMQ_NODENAME": "outbox@localhost", "RABBITMQ_DIST_PORT": str(self.others[1]),
            "RABBITMQ_CONFIG_FILE": str(self.folder / "rabbitmq.conf"), "RABBITMQ_CONF_ENV_FILE": "/dev/null",
            "RABBITMQ_ENABLED_PLUGINS_FILE": str(self.folder / "plugins"), "RABBITMQ_MNESIA_BASE": str(self.folder / "mnesia"),
            "RABBITMQ_LOG_BASE": str(self.folder / "log"), "RABBITMQ_PID_FILE": str(self.folder / "pid"),
            "RABBITMQ_SERVER_ADDITIONAL_ERL_ARGS": "-kernel inet_dist_use_interface {127,0,0,1}",
            # with input allowed the script becomes the Erlang machine, so that this is the process to be killed
            "RABBITMQ_ALLOW_INPUT": "1"}

    def amqp(self):
        """The line that says where it listens for clients of AMQP: nowhere."""
        return "listeners.tcp = none"

    def command(self):
        return [RABBITMQ, "-noinput"], self.environment

    def end(self):
        super().end()
        self.names.terminate()
        self.names.wait()


class ActiveMQ(Broker):
    """ActiveMQ over `stomp+nio`, without a login."""

    words = ["--prefetch", "16"]
    options = "persistent=false&useJmx=false"

    def prepare(self):
        if not os.path.exists(ACTIVEMQ) or not shutil.which("java"):
            raise Absent("activemq isn't installed")

    def command(self):
        return ["java", "-Xmx512m", "-Dactivemq.home=/usr/share/activemq", f"-Dactivemq.base={self.folder}",
                f"-Dactivemq.data={self.folder}", f"-Djava.io.tmpdir={self.folder}", "-jar", ACTIVEMQ, "start",
                f"broker:(stomp+nio://127.0.0.1:{self.port}?transport.tcpNoDelay=true)?{self.options}"], {}


BROKERS = {"own": Own, "rabbitmq": RabbitMQ, "activemq": ActiveMQ}
