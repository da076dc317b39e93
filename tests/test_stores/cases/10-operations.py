"""Operations of an endpoint: how many calls of its store each makes, and each over a store that fails at each of its
calls.
"""
from cases_notation import note, say, section
from orders import CANCELLED, NOT_OPEN, OPEN, OPEN_THREE, PLACE_TWO_LINES, PLACED_BEFORE, order

FAILED = "63 StoreFailed: the store failed, and has to be reopened"
NOT_SENT = "67 NotSent: no letter of this number was sent"
UNUSABLE = "65 Unusable: the store failed before, and has to be reopened"
OUT_OF_RANGE = "72 OutOfRange: a quantity or amount is out of range"
BAD_LINES = "74 BadLines: an order has one to eight lines, each of another stock"


def refused(why):
    return "61 Business: " + why


PLACE = "commit 0 order/o1 place bolt 3 ann 500"
CANCEL = "commit 15 order/o1 cancel"
PLACE_NOTHING = "commit 0 order/o1 place bolt 3 ann 0"
PLACE_TWO = "commit 0 order/o1 " + PLACE_TWO_LINES
PLACE_NO_LINE = "commit 0 order/o1 place ann 500"
O1_PLACED = "order/o1 seat 0 place bolt 3 ann 500"
O1_CANCELLED = "order/o1 seat 15 cancel"
O2_PLACED = "order/o2 seat 0 place bolt 3 ann 500"
O1_ASKS = ("order/o1 account/ann 1 Request 500", "order/o1 stock/bolt 1 Request 3")
O2_ASKS = ("order/o2 account/ann 1 Request 500", "order/o2 stock/bolt 1 Request 3")
O1_GIVES_BACK = ("order/o1 account/ann 2 Cancel", "order/o1 stock/bolt 2 Cancel")
O1_TWO_PLACED = "order/o1 seat 0 " + PLACE_TWO_LINES
O1_ASKS_NUT, O1_GIVES_NUT_BACK = "order/o1 stock/nut 1 Request 4", "order/o1 stock/nut 2 Cancel"
# the journal, the outbox and the rows of order/o1 and order/o2: where order/o2 was placed; order/o1 too; and order/o1
# was cancelled
ONE = ((O2_PLACED,), O2_ASKS, "no row", OPEN)
TWO = ((O2_PLACED, O1_PLACED), O1_ASKS + O2_ASKS, OPEN, OPEN)
THREE = ((O2_PLACED, O1_PLACED, O1_CANCELLED), (O1_ASKS[0], O1_GIVES_BACK[0], O1_ASKS[1], O1_GIVES_BACK[1]) + O2_ASKS,
         CANCELLED, OPEN)
# a letter that arrives, a drain of its pair, and a settle; the row of order/o1 behind the letter
ARRIVED = "ingest stock/bolt order/o1 1 Tentative"
DRAINED = "drain stock/bolt order/o1"
SETTLED = "settle order/o1 stock/bolt 1"
ANSWERED = order("Open", "Tentative", "Requested")
O1_ANSWERED = "order/o1 from stock/bolt 1 Tentative"
# the tables where a letter was handled, and where a settle rose a mark
FOUR = (TWO[0] + (O1_ANSWERED,), TWO[1], ANSWERED, OPEN)
FIVE = (TWO[0], (O1_ASKS[0],) + O2_ASKS, OPEN, OPEN)
# the tables where order/o1 was placed with two lines, and where it was cancelled
SIX = ((O2_PLACED, O1_TWO_PLACED), (*O1_ASKS, O1_ASKS_NUT) + O2_ASKS, OPEN_THREE, OPEN)
SEVEN = ((*SIX[0], O1_CANCELLED), THREE[1][:4] + (O1_ASKS_NUT, O1_GIVES_NUT_BACK) + O2_ASKS,
         "Cancelled stock/nut 4 Cancelled stock/bolt 3 Cancelled account/ann 500 Cancelled", OPEN)
PLACED_BY = {TWO: PLACE, SIX: PLACE_TWO}
# an operation, how many calls of the store it makes, the tables before and after it, its answer, and its answer once
# it was done
OPERATIONS = ((PLACE, 4, ONE, TWO, "committed 2", refused(PLACED_BEFORE)),
              (CANCEL, 4, TWO, THREE, "committed 3", refused(NOT_OPEN)),
              (PLACE_NOTHING, 1, ONE, ONE, refused(OUT_OF_RANGE), refused(OUT_OF_RANGE)),
              (PLACE_TWO, 5, ONE, SIX, "committed 2", refused(PLACED_BEFORE)),
              (CANCEL, 5, SIX, SEVEN, "committed 3", refused(NOT_OPEN)),
              (PLACE_NO_LINE, 1, ONE, ONE, refused(BAD_LINES), refused(BAD_LINES)),
              ("view order/o1", 1, TWO, TWO, OPEN, OPEN),
              ("sent order/o1 stock/bolt", 1, TWO, TWO, "1", "1"),
              ("settled order/o1 stock/bolt", 1, TWO, TWO, "0", "0"),
              ("handled stock/bolt order/o1", 1, TWO, TWO, "0", "0"),
              ("outbox 9", 1, TWO, TWO, "; ".join(O1_ASKS + O2_ASKS), "; ".join(O1_ASKS + O2_ASKS)),
              ("journal 1 9", 1, TWO, TWO, f"{O2_PLACED}; {O1_PLACED}", f"{O2_PLACED}; {O1_PLACED}"),
              ("length", 0, TWO, TWO, "2", "2"),
              ("drainable", 1, TWO, TWO, "none", "none"),
              (ARRIVED, 3, TWO, FOUR, "handled 3", "repeated"),
              ("ingest stock/bolt order/o1 9 Tentative", 3, TWO, TWO, "held", "held"),
              (DRAINED, 2, TWO, TWO, "none", "none"),
              (SETTLED, 3, TWO, FIVE, "1", "1"),
              ("settle order/o1 stock/bolt 9", 1, TWO, TWO, NOT_SENT, NOT_SENT))


def prepare(before):
    say("endpoint new")
    say("endpoint commit 0 order/o2 place bolt 3 ann 500", "committed 1")
    if before in PLACED_BY:
        say("endpoint " + PLACED_BY[before], "committed 2")


def read_tables(tables):
    journal, outbox, first, second = tables
    say("endpoint length", str(len(journal)))
    say("endpoint journal 1 9", "; ".join(journal))
    say("endpoint outbox 9", "; ".join(outbox))
    say("endpoint view order/o1", first)
    say("endpoint view order/o2", second)


def numbers_of_calls():
    section("Each operation makes so many calls of its store",
            "The call behind them is the next operation's, and fails there. After a disarming nothing fails.")
    for line, calls, before, after, answer, _ in OPERATIONS:
        note(f"{line}: calls of the store: {calls}.")
        prepare(before)
        say(f"endpoint arm {calls + 1} old")
        say("endpoint " + line, answer)
        say("endpoint journal 1 9", FAILED)
        say("endpoint reopen")
        say("endpoint arm 1 old")
        say("endpoint disarm")
        read_tables(after)


def each_call_fails():
    section("Each operation over a store that fails at each of its calls in turn",
            "The failure is told, and no operation is done until the endpoint is reopened. The tables then are the "
            "old ones, or, where",
            "the transaction failed and left them, the new ones. The operation is done now, or tells that it was done.")
    for line, calls, before, after, answer, again in OPERATIONS:
        for armed in range(1, calls + 1):
            for leaves in ("old", "new"):
                note(f"{line}: call {armed} of {calls} fails, and leaves the {leaves} tables.")
                prepare(before)
                say(f"endpoint arm {armed} {leaves}")
                say("endpoint " + line, FAILED)
                say("endpoint usable", "false")
                for other, *_ in OPERATIONS:
                    say("endpoint " + other, UNUSABLE)
                say("endpoint reopen")
                say("endpoint usable", "true")
                is_new = armed == calls and leaves == "new"
                read_tables(after if is_new else before)
                say("endpoint " + line, again if is_new else answer)


def cases():
    numbers_of_calls()
    each_call_fails()
