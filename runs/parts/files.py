"""What the system's SQLite finds in a service's file."""
import contextlib
import pathlib
import shutil
import sqlite3
import tempfile

from .faults import check


@contextlib.contextmanager
def opened(path):
    """A connection to a copy of a file and its log, so that both stay as they are."""
    with tempfile.TemporaryDirectory() as folder:
        copy = pathlib.Path(folder) / path.name
        for end in ("", "-wal"):
            if path.with_name(path.name + end).exists():
                shutil.copy(path.with_name(path.name + end), copy.with_name(copy.name + end))
        with contextlib.closing(sqlite3.connect(copy)) as connection:
            yield connection


def copy_alone(folder, to, names):
    """Makes a folder with copies of these databases, each under the name that it is given there, and without their logs."""
    to.mkdir()
    for name, other in names.items():
        shutil.copy(folder / f"{name}.db", to / f"{other}.db")
    return to


def read(path, *texts):
    """The rows of each of these queries."""
    with opened(path) as connection:
        return [connection.execute(text).fetchall() for text in texts]


def rows(path, text):
    return read(path, text)[0]


def count_of(path, table):
    return rows(path, f"SELECT count(*) FROM {table}")[0][0]


def has_tables(path):
    """Whether a run has come so far that its tables are made."""
    return path.exists() and bool(rows(path, "SELECT 1 FROM sqlite_schema WHERE name = 'journal'"))


def check_sound(path):
    check(f"{path.name}, integrity_check", rows(path, "PRAGMA integrity_check"), [("ok",)])
    check(f"{path.name}, foreign_key_check", rows(path, "PRAGMA foreign_key_check"), [])


def change(path, *texts):
    """Runs statements over a file itself: how many rows each changed. References are not checked."""
    with contextlib.closing(sqlite3.connect(path)) as connection:
        counts = [connection.execute(text).rowcount for text in texts]
        connection.commit()
        return counts
