"""Devices that fail after each octet, and lines that ask nothing."""
from cases_notation import say, section
from schedules import ran, schedule

BAD_FIRST = "line 1: bad event\n"
DEVICE = "fault 2 Device\n"
NOT_OPEN = "refused 61 71\n"
OPEN = "order/o1 open stock/bolt 3 requested account/ann 500 requested\n"
VERSION = "outbox-schedule 0.1.0\n"


def readers():
    section("A reader that fails", "Nothing is run, whatever it gave.")
    for texts, last in [((), None), (("cancel 0 o1",), None), (("cancel 0 o1",), "show"), (("x",), None)]:
        for gives in (1, 5, 100):
            schedule(*texts, last=last)
            say(f"reader gives {gives}")
            say("reader fails")
            ran("run", err=DEVICE, end="status 1")
            ran("run-input", err=DEVICE, end="status 1")


def writers():
    section("A writer that fails after so many octets", "It holds a beginning of what the run prints.")
    told = NOT_OPEN + "order/o1 none\n"
    for room in range(len(told) + 1):
        schedule("cancel 0 o1", "show order/o1")
        say(f"out takes {room}")
        is_whole = room == len(told)
        ran("run", told[:room], "" if is_whole else DEVICE, f"status {int(not is_whole)}")
        ran("run-text", told[:room], end=("ran" if is_whole else "fault 2 Device") + ", 26 octets left")


def faults_untold():
    section("A fault that can't be told", "Standard error holds a beginning of it; the status is 1.")
    for room in range(len(BAD_FIRST)):
        schedule("x")
        say(f"err takes {room}")
        ran("run", err=BAD_FIRST[:room], end="status 1")
        ran("run-input", err=BAD_FIRST[:room], end="err failed")
        ran("tell 1", err=BAD_FIRST[:room], end="err failed, 2 octets left")


def short_writes():
    section("Short and interrupted writes", "They change nothing.")
    for at_once in (1, 2, 7, 100):
        for line in ("out is-interrupted", "err is-interrupted"):
            schedule("place 0 o1 bolt 3 ann 500", "show order/o1")
            say("reader gives 4")
            say(f"out takes-at-once {at_once}")
            say(line)
            ran("run", "committed 1\n" + OPEN)
            schedule("x")
            say(f"err takes-at-once {at_once}")
            say(line)
            ran("run", err=BAD_FIRST, end="status 1")
    schedule("cancel 0 o1")
    say("out takes-at-once 3")
    ran("run --version", VERSION, end="status 0, 12 octets left")


def others():
    section("Lines that ask nothing", "They change nothing.")
    schedule("cancel 0 o1")
    for line in ("what", "|#", "|# x", "run-each", "run-each 1", "run-each x 1", "out", "out takes", "out takes x",
                 "reader", "octets 1",
                 "octets 1 256", "octets x 1", "repeat x y", "repeat 2", "tell", "tell what", "measure what",
                 "run-text now", "read it"):
        say(line, "no such line")
    ran("run", NOT_OPEN)


def cases():
    for part in (readers, writers, faults_untold, short_writes, others):
        part()
