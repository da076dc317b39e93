"""Files of version 1, in which an order had one line: made by texts of their tables that share nothing with the sources of the programs.

The rows are those of files of today whose orders have one line each, written as version 1 wrote them, or of any number of orders.
"""
import collections
import contextlib
import json
import sqlite3
import subprocess

from .files import read
from .services import SERVICES

# The order of the tables counts: a file is migrated only if each is the one that it was in version 1.
COMMON = (
    "CREATE TABLE journal (pos INTEGER PRIMARY KEY, entity TEXT NOT NULL, seat INTEGER, sender TEXT, number INTEGER, body TEXT NOT NULL)"
    " STRICT",
    "CREATE TABLE outbox (sender TEXT NOT NULL, receiver TEXT NOT NULL, number INTEGER NOT NULL, body TEXT NOT NULL,"
    " PRIMARY KEY (sender, receiver, number)) STRICT",
    "CREATE TABLE out_marks (sender TEXT NOT NULL, receiver TEXT NOT NULL, sent INTEGER NOT NULL,"
    " settled INTEGER NOT NULL CHECK (settled <= sent), PRIMARY KEY (sender, receiver)) STRICT",
    "CREATE TABLE in_marks (sender TEXT NOT NULL, receiver TEXT NOT NULL,"
    " handled INTEGER NOT NULL CHECK (handled >= 0 AND handled <= 1099511627776), PRIMARY KEY (sender, receiver)) STRICT",
    "CREATE TABLE held (sender TEXT NOT NULL, receiver TEXT NOT NULL, number INTEGER NOT NULL, body TEXT NOT NULL,"
    " PRIMARY KEY (sender, receiver, number)) STRICT",
)
OWN = {
    "purchasing": (
        "CREATE TABLE orders (key TEXT NOT NULL, stock TEXT NOT NULL, n INTEGER NOT NULL, account TEXT NOT NULL, amount INTEGER NOT NULL,"
        " status TEXT NOT NULL, stock_phase TEXT NOT NULL, account_phase TEXT NOT NULL, PRIMARY KEY (key)) STRICT",
    ),
    "warehouse": (
        "CREATE TABLE stocks (key TEXT NOT NULL, on_hand INTEGER NOT NULL, held INTEGER NOT NULL, shipped INTEGER NOT NULL,"
        " received INTEGER NOT NULL, PRIMARY KEY (key)) STRICT",
        "CREATE TABLE stock_lines (stock TEXT NOT NULL REFERENCES stocks (key), order_key TEXT NOT NULL, n INTEGER NOT NULL,"
        " phase TEXT NOT NULL, PRIMARY KEY (stock, order_key)) STRICT",
    ),
    "billing": (
        "CREATE TABLE accounts (key TEXT NOT NULL, limit_now INTEGER NOT NULL, billed INTEGER NOT NULL, held INTEGER NOT NULL,"
        " PRIMARY KEY (key)) STRICT",
        "CREATE TABLE account_lines (account TEXT NOT NULL REFERENCES accounts (key), order_key TEXT NOT NULL, n INTEGER NOT NULL,"
        " phase TEXT NOT NULL, PRIMARY KEY (account, order_key)) STRICT",
    ),
}
ABOUT = "CREATE TABLE about (one INTEGER PRIMARY KEY CHECK (one = 1), version INTEGER NOT NULL, service TEXT NOT NULL) STRICT"
BOLT = "stock/bolt"
# Of each service the tables that both versions have, in an order in which rows can be put into them.
KEPT = ("journal", "outbox", "out_marks", "in_marks", "held")
SAME = {"purchasing": KEPT, "warehouse": (*KEPT, "stocks", "stock_lines"), "billing": (*KEPT, "accounts", "account_lines")}
FIRST_ORDERS = """SELECT key, stock, n, account, amount, status, phase, account_phase FROM order_heads JOIN order_lines ON order_key = key
  WHERE line = 1 ORDER BY key"""


def body(members):
    """JSON as the services write it."""
    return json.dumps(members, sort_keys=True, separators=(",", ":"), ensure_ascii=False)


def first_body(text):
    """The body of a command as version 1 had it: a placing had its one line beside the account."""
    members = json.loads(text)
    if members["op"] != "place":
        return text
    (line,) = members.pop("lines")
    return body({**members, **line})


def first_rows(path, service):
    """The rows of a file of today, as version 1 had them: of each table."""
    found = dict(zip(SAME[service], read(path, *(f"SELECT * FROM {table} ORDER BY rowid" for table in SAME[service]))))
    if service == "purchasing":
        orders, lines = read(path, FIRST_ORDERS, "SELECT count(*) FROM order_lines")
        if len(orders) != lines[0][0]:
            raise ValueError(f"{path}: an order of several lines")
        found["orders"] = orders
        found["journal"] = [row if row[2] is None else (*row[:5], first_body(row[5])) for row in found["journal"]]
    return found


def literal(value):
    if isinstance(value, str):
        return "'" + value.replace("'", "''") + "'"
    return "NULL" if value is None else str(value)


def script(service, tables):
    """A file's making, as SQL."""
    yield "BEGIN"
    yield from (*COMMON, *OWN[service], ABOUT)
    for table, rows in tables.items():
        for row in rows:
            yield f"INSERT INTO {table} VALUES ({', '.join(map(literal, row))})"
    yield f"INSERT INTO about (version, service) VALUES (1, '{service}')"
    yield "COMMIT"


def write(path, service, tables, by_command=False):
    """Makes a file of version 1: by Python's module, or by the command sqlite3."""
    if by_command:
        subprocess.run(["sqlite3", "-bail", path], input=";\n".join((*script(service, tables), "")), text=True, check=True)
        return
    with contextlib.closing(sqlite3.connect(path, isolation_level=None)) as connection:
        for text in (*COMMON, *OWN[service], ABOUT):
            connection.execute(text)
        connection.execute("BEGIN")
        for table, rows in tables.items():
            if rows:
                connection.executemany(f"INSERT INTO {table} VALUES ({', '.join('?' * len(rows[0]))})", rows)
        connection.execute("INSERT INTO about (version, service) VALUES (1, ?)", (service,))
        connection.execute("COMMIT")


def write_back(made, folder, by_command=False):
    """Makes files of version 1 from those of today in another folder: their rows, of each service."""
    folder.mkdir()
    found = {service: first_rows(made / f"{service}.db", service) for service in SERVICES}
    for service, tables in found.items():
        write(folder / f"{service}.db", service, tables, by_command)
    return found


def many_rows(count, accounts=100):
    """The rows of each service after so many orders of one stock, spread over accounts, all of them shipped and billed."""
    orders = [(f"o{number:07}", f"a{number % accounts:03}") for number in range(1, count + 1)]
    pairs = [(f"order/{key}", f"account/{account}") for key, account in orders]
    billed = collections.Counter(account for _, account in orders)
    request, tentative, confirm = body({"n": 1, "op": "request"}), body({"op": "tentative"}), body({"op": "confirm"})

    def placed(account):
        return body({"account": account, "amount": 1, "n": 1, "op": "place", "stock": "bolt"})

    # (of each order in turn its row, or its two or three)
    journals = {
        "purchasing": [row for (_, account), (order, at) in zip(orders, pairs) for row in (
            (order, 0, None, None, placed(account)), (order, None, BOLT, 1, tentative), (order, None, at, 1, tentative))],
        "warehouse": [(BOLT, 0, None, None, body({"n": count, "op": "receive"})),
                      *(row for order, _ in pairs for row in ((BOLT, None, order, 1, request), (BOLT, None, order, 2, confirm)))],
        "billing": [*((f"account/{name}", 0, None, None, body({"n": count, "op": "set_limit"})) for name in billed),
                    *(row for order, at in pairs for row in ((at, None, order, 1, request), (at, None, order, 2, confirm)))],
    }
    others = {
        "purchasing": {
            "out_marks": [(order, to, 2, 2) for order, at in pairs for to in (BOLT, at)],
            "in_marks": [(sender, order, 1) for order, at in pairs for sender in (BOLT, at)],
            "orders": [(key, "bolt", 1, account, 1, "confirmed", "confirmed", "confirmed") for key, account in orders],
        },
        "warehouse": {
            "out_marks": [(BOLT, order, 1, 1) for order, _ in pairs],
            "in_marks": [(order, BOLT, 2) for order, _ in pairs],
            "stocks": [("bolt", 0, 0, count, count)],
            "stock_lines": [("bolt", key, 1, "shipped") for key, _ in orders],
        },
        "billing": {
            "out_marks": [(at, order, 1, 1) for order, at in pairs],
            "in_marks": [(order, at, 2) for order, at in pairs],
            "accounts": [(name, count, number, 0) for name, number in billed.items()],
            "account_lines": [(account, key, 1, "billed") for key, account in orders],
        },
    }
    return {service: {"journal": [(position, *row) for position, row in enumerate(journals[service], 1)], "outbox": [], "held": [],
                      **others[service]} for service in SERVICES}


def write_many(folder, count):
    """Makes files of version 1 with so many orders: their rows, of each service."""
    folder.mkdir()
    found = many_rows(count)
    for service, tables in found.items():
        write(folder / f"{service}.db", service, tables)
    return found
