"""Stores that fail at a call, and what they leave."""
from cases_notation import note, say, section
from orders import order

STORE_FAILED = "1 Failed: the store failed and has to be reopened"
STORE_DOWN = "the store isn't usable"

READS = (("entity stock/bolt", "no row"), ("sent stock/bolt order/o1", "0"), ("settled stock/bolt order/o1", "0"),
         ("handled stock/bolt order/o1", "0"), ("held stock/bolt order/o1 1", "none"), ("drainable", "none"),
         ("outbox 1", "none"), ("journal 1 1", "none"))


def fail_and_reopen(line):
    say(line, STORE_FAILED)
    say("store usable", "false")
    say("store length", STORE_DOWN)
    say("store drainable", STORE_DOWN)
    say("store reopen")


def each_call():
    section("The call that is armed fails, and no other",
            "Eight reads and a transaction are made, of which one is armed. A call that fails leaves a store that "
            "isn't usable",
            "until it is reopened. `length` is no call: it isn't counted, and never fails. A read leaves the tables; "
            "the transaction",
            "leaves the old ones or the new.")
    for armed in range(1, 10):
        for leaves in ("old", "new"):
            note(f"Call {armed} fails, and leaves the {leaves} tables.")
            say("store new")
            say(f"store arm {armed} {leaves}")
            for number, (read, answer) in enumerate(READS, 1):
                say("store usable", "true")
                say("store length", "0")
                if number == armed:
                    fail_and_reopen("store " + read)
                else:
                    say("store " + read, answer)
            say("store note handled stock/bolt order/o1 5")
            if armed == 9:
                fail_and_reopen("store apply")
            else:
                say("store apply")
            say("store usable", "true")
            say("store handled stock/bolt order/o1", "0" if armed == 9 and leaves == "old" else "5")


def armings():
    section("An arming lasts over a reopening",
            "A later arming takes the place of an earlier one, and a call fails once.")
    say("store new")
    say("store arm 1 old")
    say("store arm 2 new")
    say("store reopen")
    say("store drainable", "none")
    say("store usable", "true")
    say("store drainable", STORE_FAILED)
    say("store reopen")
    say("store drainable", "none")
    note("An arming at 0 is one at the next call.")
    say("store arm 0 old")
    say("store drainable", STORE_FAILED)
    say("store reopen")


def armed_transactions():
    section("A transaction that is armed leaves what was chosen", "A function makes it whose contract says so.")
    for leaves, sent in (("old", 0), ("new", 3)):
        say("store new")
        say("store note sent order/o1 stock/bolt 3 Request 3")
        say(f"store apply-armed {leaves}", STORE_FAILED)
        say("store reopen")
        say("store sent order/o1 stock/bolt", str(sent))


ROW = order("Open", "Requested", "Requested", 7)
LATER_ROW = order("Open", "Tentative", "Requested", 7)
# what each transaction of the story changes: an order asks a stock and an account; the stock's second letter comes
# first and is held; its first letter is handled and answered; the first letter to the stock is settled, the held one
# is drained, and the order's row goes
STORY = (("journal 1 order/o1 seat 3 place bolt 7 ann 500", f"state order/o1 {ROW}",
          "sent order/o1 stock/bolt 1 Request 7", "sent order/o1 account/ann 1 Request 500"),
         ("held stock/bolt order/o1 2 Confirm",),
         ("journal 2 order/o1 from stock/bolt 1 Tentative", f"state order/o1 {LATER_ROW}",
          "handled stock/bolt order/o1 1", "sent order/o1 stock/bolt 2 Confirm"),
         ("settled order/o1 stock/bolt 1", "not-held stock/bolt order/o1 2", "handled stock/bolt order/o1 2",
          "no-state order/o1"))
TO_ANN, TO_BOLT = "order/o1 account/ann 1 Request 500", "order/o1 stock/bolt 1 Request 7"
AGAIN = "order/o1 stock/bolt 2 Confirm"
STORY_ROWS = ("order/o1 seat 3 place bolt 7 ann 500", "order/o1 from stock/bolt 1 Tentative")
# what is read after so many of them: how many rows the journal has, the order's row, the outbox, the number last sent
# and the settled mark with the stock, the handled mark, what is held and who can be drained
AFTER = ((0, "no row", "none", 0, 0, 0, "none", "none"),
         (1, ROW, f"{TO_ANN}; {TO_BOLT}", 1, 0, 0, "none", "none"),
         (1, ROW, f"{TO_ANN}; {TO_BOLT}", 1, 0, 0, "Confirm", "none"),
         (2, LATER_ROW, f"{TO_ANN}; {TO_BOLT}; {AGAIN}", 2, 0, 1, "Confirm", "stock/bolt order/o1"),
         (2, "no row", f"{TO_ANN}; {AGAIN}", 2, 1, 2, "none", "none"))


def tell_story(armed, leaves):
    say("store new")
    say(f"store arm {armed} {leaves}")
    calls = 0
    for changes, (_, row, *_) in zip(STORY, AFTER):
        calls += 1
        if calls == armed:
            return fail_and_reopen("store entity order/o1")
        say("store entity order/o1", row)
        for change in changes:
            say("store note " + change)
        calls += 1
        if calls == armed:
            return fail_and_reopen("store apply")
        say("store apply")


def read_story(done):
    length, row, outbox, sent, settled, handled, held, drainable = AFTER[done]
    say("store disarm")
    say("store length", str(length))
    say("store journal 1 9", "; ".join(STORY_ROWS[:length]) or "none")
    say("store entity order/o1", row)
    say("store outbox 9", outbox)
    say("store sent order/o1 stock/bolt", str(sent))
    say("store settled order/o1 stock/bolt", str(settled))
    say("store handled stock/bolt order/o1", str(handled))
    say("store held stock/bolt order/o1 2", held)
    say("store drainable", drainable)


def stories():
    section("A short story, each call of which fails in turn",
            "Four transactions, a read before each. Where one of the eight calls fails, the store is reopened and all "
            "tables are read:",
            "they are those after the last transaction that was made, be it the one that failed. Where none fails, "
            "they are those",
            "after all four.")
    for armed in range(1, 10):
        for leaves, done in (("old", (armed - 1) // 2), ("new", armed // 2)):
            note(f"Call {armed} fails, and leaves the {leaves} tables."
                 if armed < 9 else "No call fails: there is no ninth.")
            tell_story(armed, leaves)
            read_story(done)


def cases():
    for part in (each_call, armings, armed_transactions, stories):
        part()
