"""Runs of outbox-schedule, and the worked order as a schedule."""
import subprocess

from .processes import SECONDS, program
from .services import REASONS, SERVICES, SHOWN as SHOWN_AS

ALL = 1048576  # more octets than ever wait
OPEN = [f"open {it} 0" for it in SERVICES]
READY = ["receive 0 bolt 10", "limit 0 ann 500", *OPEN, "pump 2"]
PLACE = "place 0 o1 bolt 3 ann 500"
PLACED = [*READY, PLACE, "pump 8"]
SHOWN = [*(f"show {it}" for it in SHOWN_AS), "pair order/o1 stock/bolt", "journal warehouse", "agreement"]
SHOWS = [*SHOWN_AS.values(), "pair order/o1 stock/bolt sent 2 settled 2 handled 2", "1 stock/bolt seat 0 receive 10",
         "2 stock/bolt from order/o1 1 request 3", "3 stock/bolt from order/o1 2 confirm", "agreement true"]


def text(*lines):
    return "".join(f"{it}\n" for it in lines)


def unopened(service, fault):
    """What is on standard error where the file of this service can't be opened: the fault alone is the last line."""
    return text(f"{service}: {REASONS[fault]}", fault)


def command(*words, folder=None):
    """The words of a run, with its tables in files of a folder, if one is named."""
    return [program("outbox_schedule"), *(("--keep", "sqlite", "--dir", str(folder)) if folder else ()), *words]


def run(lines, *words, folder=None, seconds=SECONDS, **how):
    """A run over these lines: its status, and what is on standard output and standard error."""
    how = {"stdout": subprocess.PIPE, "stderr": subprocess.PIPE, "encoding": "utf-8", "errors": "replace", **how}
    told = subprocess.run(command(*words, folder=folder), input=text(*lines), timeout=seconds, **how)
    return told.returncode, told.stdout, told.stderr
