"""A service as people often write it: an outbox table in SQLite, a thread that polls it and publishes to RabbitMQ with confirms, and a
consumer that keeps the numbers of what it took. `bench/services` starts three of them; it's no part of the product.

usage: bench/services_polled.py purchasing|warehouse|billing PORT FILE [POLL]      AMQP's port; milliseconds between two looks, 10

It answers `place KEY STOCK N ACCOUNT AMOUNT`, `receive KEY N`, `limit KEY N`, `show order/KEY` and `await N` as outbox-service does.
"""
import json
import pathlib
import sqlite3
import sys
import threading
import time

import pika

sys.dont_write_bytecode = True
sys.path.insert(0, str(pathlib.Path(__file__).resolve().parent.parent / "runs"))

from parts.services import SERVICES

TABLES = """
CREATE TABLE IF NOT EXISTS outbox (id INTEGER PRIMARY KEY AUTOINCREMENT, queue TEXT NOT NULL, body TEXT NOT NULL);
CREATE TABLE IF NOT EXISTS inbox (id TEXT PRIMARY KEY);
CREATE TABLE IF NOT EXISTS orders (key TEXT PRIMARY KEY, stock TEXT, n INTEGER, account TEXT, amount INTEGER, status TEXT, answers INTEGER);
CREATE TABLE IF NOT EXISTS goods (key TEXT PRIMARY KEY, free INTEGER NOT NULL, held INTEGER NOT NULL, used INTEGER NOT NULL);
CREATE TABLE IF NOT EXISTS lines (key TEXT, order_key TEXT, n INTEGER, phase TEXT, PRIMARY KEY (key, order_key));
"""


class Service:
    def __init__(self, name, port, path, poll):
        self.name, self.port, self.path, self.poll = name, port, path, poll
        self.rows, self.news = 0, threading.Condition()
        self.open().executescript(TABLES)

    def open(self):
        connection = sqlite3.connect(self.path, timeout=60, isolation_level=None)
        connection.execute("PRAGMA journal_mode = WAL")
        connection.execute("PRAGMA synchronous = FULL")
        return connection

    def channel(self):
        parameters = pika.ConnectionParameters("127.0.0.1", self.port, "/", pika.PlainCredentials("guest", "guest"), heartbeat=0)
        channel = pika.BlockingConnection(parameters).channel()
        for name in SERVICES:
            channel.queue_declare(name, durable=True)
        return channel

    def relay(self):
        tables, channel = self.open(), self.channel()
        channel.confirm_delivery()
        persistent = pika.spec.PERSISTENT_DELIVERY_MODE
        while True:
            rows = tables.execute("SELECT id, queue, body FROM outbox ORDER BY id LIMIT 100").fetchall()
            for number, queue, body in rows:
                properties = pika.BasicProperties(delivery_mode=persistent, message_id=f"{self.name}-{number}")
                channel.basic_publish("", queue, body.encode(), properties)
            if rows:
                tables.execute("DELETE FROM outbox WHERE id <= ?", (rows[-1][0],))
            else:
                time.sleep(self.poll / 1000)

    def consume(self):
        tables, channel = self.open(), self.channel()
        channel.basic_qos(prefetch_count=100)

        def take(_, method, properties, body):
            tables.execute("BEGIN IMMEDIATE")
            if tables.execute("INSERT OR IGNORE INTO inbox VALUES (?)", (properties.message_id,)).rowcount:
                self.handle(tables, json.loads(body))
            tables.execute("COMMIT")
            channel.basic_ack(method.delivery_tag)
            self.tell()

        channel.basic_consume(self.name, take)
        channel.start_consuming()

    def tell(self):
        with self.news:
            self.rows += 1
            self.news.notify_all()

    @staticmethod
    def send(tables, queue, **body):
        tables.execute("INSERT INTO outbox (queue, body) VALUES (?, ?)", (queue, json.dumps(body)))

    def handle(self, tables, body):
        word, key, order = body["op"], body["key"], body["order"]
        if self.name == "purchasing":
            return self.answered(tables, order, word)
        if word == "request":
            fits = tables.execute("UPDATE goods SET free = free - ?1, held = held + ?1 WHERE key = ?2 AND free >= ?1",
                                  (body["n"], key)).rowcount
            tables.execute("INSERT INTO lines VALUES (?, ?, ?, ?)", (key, order, body["n"], "held" if fits else "refused"))
            return self.send(tables, "purchasing", op="tentative" if fits else "refused", key=key, order=order)
        n, phase = tables.execute("SELECT n, phase FROM lines WHERE key = ? AND order_key = ?", (key, order)).fetchone()
        if phase != "held":
            return None
        used = n if word == "confirm" else 0
        tables.execute("UPDATE lines SET phase = ? WHERE key = ? AND order_key = ?", (word, key, order))
        return tables.execute("UPDATE goods SET held = held - ?, used = used + ?, free = free + ? WHERE key = ?", (n, used, n - used, key))

    def answered(self, tables, order, word):
        stock, account, status, answers = tables.execute("SELECT stock, account, status, answers FROM orders WHERE key = ?",
                                                         (order,)).fetchone()
        if status != "open":
            return
        answers += 1
        status = "cancelled" if word == "refused" else "confirmed" if answers == 2 else "open"
        tables.execute("UPDATE orders SET status = ?, answers = ? WHERE key = ?", (status, answers, order))
        if status != "open":
            told = "confirm" if status == "confirmed" else "cancel"
            self.send(tables, "warehouse", op=told, key=stock, order=order)
            self.send(tables, "billing", op=told, key=account, order=order)

    def command(self, tables, words):
        tables.execute("BEGIN IMMEDIATE")
        if words[0] == "place":
            order, stock, n, account, amount = words[1:]
            tables.execute("INSERT INTO orders VALUES (?, ?, ?, ?, ?, 'open', 0)", (order, stock, int(n), account, int(amount)))
            self.send(tables, "warehouse", op="request", key=stock, order=order, n=int(n))
            self.send(tables, "billing", op="request", key=account, order=order, n=int(amount))
        else:
            tables.execute("INSERT INTO goods VALUES (?1, ?2, 0, 0) ON CONFLICT (key) DO UPDATE SET free = free + ?2",
                           (words[1], int(words[2])))
        tables.execute("COMMIT")
        self.tell()

    def answer(self, tables, line):
        words = line.split()
        if words[0] == "show":
            row = tables.execute("SELECT status FROM orders WHERE key = ?", (words[1].partition("/")[2],)).fetchone()
            return f"{words[1]} {row[0] if row else 'none'}"
        if words[0] == "await":
            with self.news:
                self.news.wait_for(lambda: self.rows >= int(words[1]), 60)
                return f"journal {self.rows}"
        self.command(tables, words)
        return f"committed {self.rows}"


def main():
    name, port, path, *poll = sys.argv[1:]
    service = Service(name, int(port), path, int(poll[0]) if poll else 10)
    for work in (service.relay, service.consume):
        threading.Thread(target=work, daemon=True).start()
    tables = service.open()
    print("connected 2", flush=True)
    for line in sys.stdin:
        print(service.answer(tables, line), flush=True)


if __name__ == "__main__":
    main()
