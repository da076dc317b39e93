"""Damages copies of good files in many ways, each of which rules.py has to find."""
import contextlib
import json
import pathlib
import shutil
import sqlite3

from .faults import Wrong
from .files import change
from .rules import Replay, Tables, check_folder


def opened(folder, name):
    return contextlib.closing(sqlite3.connect(pathlib.Path(folder) / f"{name}.db"))


def put(connection, table, rows):
    if rows:
        connection.executemany(f"INSERT INTO {table} VALUES ({', '.join('?' * len(rows[0]))})", rows)


def rebuild(folder, name, journal):
    """Writes a journal and all tables that follow from it, so that the file by itself shows nothing."""
    lines, heads = {"purchasing": ("order_lines", "order_heads"), "warehouse": ("stock_lines", "stocks"),
                    "billing": ("account_lines", "accounts")}[name]
    with opened(folder, name) as connection:
        tables = Tables(name, connection)
        tables.journal = [(pos, *row[1:]) for pos, row in enumerate(journal, 1)]
        replay = Replay(tables, None)
        for table in ("journal", "in_marks", "out_marks", lines, heads):
            connection.execute(f"DELETE FROM {table}")
        put(connection, "journal", tables.journal)
        put(connection, "in_marks", [(*pair, len(texts)) for pair, texts in replay.handled.items()])
        put(connection, "out_marks", [(*pair, len(it), len(it)) for pair, it in replay.sent.items()])
        for state in replay.states.values():
            put(connection, heads, [(state.key, *(state.row()[:4] if name == "purchasing" else state.row()))])
            put(connection, lines, lines_of(name, state))
        connection.commit()


def lines_of(name, state):
    if name == "purchasing":
        return [(state.key, number, *it) for number, it in enumerate(state.row()[4], 1)]
    return [(state.key, order.split("/", 1)[1], *it) for order, it in state.lines.items()]


def journal_of(folder, name):
    with opened(folder, name) as connection:
        return Tables(name, connection).journal


def a_letter_is_lost(folder, name, word):
    """The last letter with this word is gone with all that it did."""
    journal = journal_of(folder, name)
    at = max(number for number, row in enumerate(journal) if f'"op":"{word}"' in row[5])
    rebuild(folder, name, journal[:at] + journal[at + 1:])


def a_letter_is_doubled(folder, name, word):
    """A letter with this word is handled once more, under the next number of its pair."""
    journal = journal_of(folder, name)
    row = next(it for it in journal if f'"op":"{word}"' in it[5])
    number = max(it[4] for it in journal if (it[1], it[3]) == (row[1], row[3]))
    rebuild(folder, name, [*journal, (0, row[1], None, row[3], number + 1, row[5])])


def two_letters_change_places(folder, name):
    """The first and the second letter of a pair overtake one another."""
    journal = journal_of(folder, name)
    second = next(it for it in journal if it[4] == 2)
    one = next(it for it in journal if (it[1], it[3], it[4]) == (second[1], second[3], 1))
    texts = {one[0]: second[5], second[0]: one[5]}
    rebuild(folder, name, [(*row[:5], texts.get(row[0], row[5])) for row in journal])


def an_amount_is_another(folder, name):
    """A request asks for one more than was sent."""
    journal, done = journal_of(folder, name), False
    for number, row in enumerate(journal):
        body = json.loads(row[5])
        if body["op"] == "request" and not done:
            journal[number] = (*row[:5], f'{{"n":{body["n"] + 1},"op":"request"}}')
            done = True
    rebuild(folder, name, journal)


def a_committed_line_is_missing(folder):
    """The row of the last line that was answered `committed` is gone."""
    journal = journal_of(folder, "billing")
    at = max(number for number, row in enumerate(journal) if row[2] is not None)
    rebuild(folder, "billing", journal[:at] + journal[at + 1:])


def a_command_is_made_up(folder):
    journal = journal_of(folder, "warehouse")
    rebuild(folder, "warehouse", [*journal, (0, "stock/made up", 0, None, None, '{"n":1,"op":"receive"}')])


def an_answer_is_another(folder, name, old, new):
    path = pathlib.Path(folder) / f"{name}.asked"
    lines = path.read_text(encoding="utf-8").split("\n")
    at = max(number for number, line in enumerate(lines) if line.partition("\t")[2].startswith(old))
    lines[at] = lines[at].partition("\t")[0] + f"\t{new}"
    path.write_text("\n".join(lines), encoding="utf-8")


def octets_are_others(folder, name):
    """A page of the file is overwritten."""
    path = pathlib.Path(folder) / f"{name}.db"
    # (a page that the log has too would be read from there)
    change(path, "PRAGMA wal_checkpoint(TRUNCATE)")
    octets = bytearray(path.read_bytes())
    octets[4096 + 8:4096 + 40] = b"\xff" * 32
    path.write_bytes(octets)


def sql(name, *texts):
    def damage(folder):
        if not all(change(folder / f"{name}.db", *texts)):
            raise ValueError(texts)
    return damage


LAST = "SELECT max(pos) FROM journal"
SOME = "rowid = (SELECT max(rowid) FROM out_marks)"
CONFIRM = "'{\"op\":\"confirm\"}'"
DAMAGES = {
    "a row of a journal is dropped": sql("purchasing", f"DELETE FROM journal WHERE pos = ({LAST}) / 2"),
    "the last row of a journal is dropped": sql("warehouse", f"DELETE FROM journal WHERE pos = ({LAST})"),
    "a row of a journal is doubled": sql("warehouse", f"INSERT INTO journal SELECT ({LAST}) + 1, entity, seat, sender, number, body "
                                         "FROM journal WHERE pos = 1"),
    "two rows of a journal change places": sql(
        "purchasing", "UPDATE journal SET pos = -1 WHERE pos = 1", "UPDATE journal SET pos = 1 WHERE pos = 2",
        "UPDATE journal SET pos = 2 WHERE pos = -1"),
    "a letter's number is another": sql("billing", "UPDATE journal SET number = number + 1 WHERE pos = (SELECT max(pos) FROM journal WHERE "
                                        "number IS NOT NULL)"),
    "a command's amount is another": sql("billing", "UPDATE journal SET body = replace(body, '\"n\":', '\"n\":1') WHERE pos = 1"),
    "stock on hand is another": sql("warehouse", "UPDATE stocks SET on_hand = on_hand + 1 WHERE key = (SELECT min(key) FROM stocks)"),
    "a line at a stock is another": sql("warehouse", "UPDATE stock_lines SET phase = 'released' WHERE (stock, order_key) = "
                                        "(SELECT stock, order_key FROM stock_lines WHERE phase = 'shipped' LIMIT 1)"),
    "a limit is another": sql("billing", "UPDATE accounts SET limit_now = limit_now + 1 WHERE key = (SELECT min(key) FROM accounts)"),
    "an order's status is another": sql("purchasing", "UPDATE order_heads SET status = 'cancelled' WHERE key = "
                                        "(SELECT key FROM order_heads WHERE status = 'confirmed' LIMIT 1)"),
    "an order is gone from the tables": sql("purchasing", "DELETE FROM order_heads WHERE key = (SELECT max(key) FROM order_heads)"),
    "a letter is in an outbox": sql("purchasing", f"INSERT INTO outbox SELECT sender, receiver, sent, {CONFIRM} FROM out_marks "
                                        "LIMIT 1"),
    "a settled mark is too low": sql("warehouse", f"UPDATE out_marks SET settled = settled - 1 WHERE {SOME}"),
    "a sent mark is too high": sql("billing", f"UPDATE out_marks SET sent = sent + 1 WHERE {SOME}"),
    "a handled mark is too low": sql("purchasing", f"UPDATE in_marks SET handled = handled - 1 WHERE {SOME.replace('out', 'in')}"),
    "a letter is held": sql("warehouse", f"INSERT INTO held SELECT sender, receiver, handled + 1, {CONFIRM} FROM in_marks LIMIT 1"),
    "the file names another service": sql("billing", "UPDATE about SET service = 'warehouse'"),
    "octets of a file are changed": lambda folder: octets_are_others(folder, "warehouse"),
    "a confirm is lost with all it did": lambda folder: a_letter_is_lost(folder, "warehouse", "confirm"),
    "an answer is lost with all it did": lambda folder: a_letter_is_lost(folder, "purchasing", "tentative"),
    "a request is doubled with all it does": lambda folder: a_letter_is_doubled(folder, "warehouse", "request"),
    "a cancel is doubled with all it does": lambda folder: a_letter_is_doubled(folder, "billing", "cancel"),
    "a second letter overtakes a first": lambda folder: two_letters_change_places(folder, "billing"),
    "a request asks for more than was sent": lambda folder: an_amount_is_another(folder, "warehouse"),
    "a committed line is missing with all it did": a_committed_line_is_missing,
    "a command that nobody gave is there": a_command_is_made_up,
    "an answer has another position": lambda folder: an_answer_is_another(folder, "warehouse", "committed", "committed 1"),
    "a refusal wasn't one": lambda folder: an_answer_is_another(folder, "billing", "committed", "refused 61 73"),
    "an order that is there was refused": lambda folder: an_answer_is_another(folder, "purchasing", "committed", "refused 61 71"),
}


def check_at_rest(folder):
    check_folder(folder, at_rest=True)


def try_damages(folder, target, damages=None, judge=check_at_rest):
    """Each damage of a copy of a folder is found by its judge, or `Wrong`: how many there are."""
    damages = damages or DAMAGES
    for name, damage in damages.items():
        shutil.rmtree(target, ignore_errors=True)
        target.mkdir(parents=True)
        for path in folder.iterdir():
            if path.is_file():
                shutil.copy(path, target)
        try:
            damage(target)
        except (ValueError, StopIteration):
            raise Wrong(f"there is nothing to damage where {name}: more kills are needed") from None
        try:
            judge(target)
        except Wrong as wrong:
            print(f"found  {name}: {str(wrong)[:150]}", flush=True)
        else:
            raise Wrong(f"not found: {name}")
    print(f"{len(damages)} damages, each found", flush=True)
    return len(damages)
