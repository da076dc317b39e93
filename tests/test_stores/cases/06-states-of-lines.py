"""What orders of several lines do with each answer, in each of their states, by the table in `orders.reaction`."""
from cases_notation import note, say, section
from orders import ASKED, CANCELS, OPEN_THREE, PHASES, PLACE_TWO_LINES, STATUSES, from_partner, placed, told, tries

THREE_PARTNERS = ("stock/nut", "stock/bolt", "account/ann")
ASKS_THREE = "Request 4 to stock/nut; Request 3 to stock/bolt; Request 500 to account/ann"
CONFIRMED_THREE = "Confirmed stock/nut 4 Confirmed stock/bolt 3 Confirmed account/ann 500 Confirmed"
CONFIRMS_THREE = "Confirm to stock/nut; Confirm to stock/bolt; Confirm to account/ann"
NINE_PARTNERS = [*(f"stock/s{number}" for number in range(1, 9)), "account/ann"]


def each_state():
    section("What an open order of two lines does, in each of its states",
            "Each of its three partners is requested, tentative or refused: it was placed with nuts before bolts. The "
            "last of them that is",
            "tentative confirms all; one that refuses cancels the others; whoever has answered changes nothing.")
    letters = [from_partner(who, message) for who in THREE_PARTNERS for message in ("Tentative", "Refused")]
    for nut in PHASES[:3]:
        for bolt in PHASES[:3]:
            for account in PHASES[:3]:
                note(f"Its nuts {nut}, its bolts {bolt}, its account {account}.")
                tries("Open", {"stock/nut": nut, "stock/bolt": bolt, "account/ann": account}, CANCELS, *letters,
                      from_partner("stock/s1", "Tentative"), from_partner("account/bolt", "Refused"))
    note("One that is confirmed or cancelled takes nothing.")
    for status in STATUSES[1:]:
        tries(status, dict.fromkeys(THREE_PARTNERS, status), CANCELS, *letters)


def each_answer_in_turn():
    section("Orders of two lines: their partners answer in each order")
    for first, second, third in ((0, 1, 2), (0, 2, 1), (1, 0, 2), (1, 2, 0), (2, 0, 1), (2, 1, 0)):
        phases = dict.fromkeys(THREE_PARTNERS, "Requested")
        say("order opening", "none")
        say("order take seat 0 " + PLACE_TWO_LINES, f"{OPEN_THREE}; {ASKS_THREE}")
        for at in (first, second):
            phases[THREE_PARTNERS[at]] = "Tentative"
            say(f"order take from {THREE_PARTNERS[at]} 1 Tentative", placed("Open", phases))
        others = [THREE_PARTNERS[at] for at in sorted((first, second))]
        refuser = THREE_PARTNERS[third]
        say(f"order try from {refuser} 1 Refused", "; ".join(
            [placed("Cancelled", {it: "Refused" if it == refuser else "Cancelled" for it in THREE_PARTNERS}),
             *(f"Cancel to {it}" for it in others)]))
        say(f"order take from {refuser} 1 Tentative", f"{CONFIRMED_THREE}; {CONFIRMS_THREE}")


def eight_lines():
    section("An order of eight lines")
    say("order opening", "none")
    stocks = " ".join(f"s{number} {number}" for number in range(1, 9))
    requested = dict.fromkeys(NINE_PARTNERS, "Requested")
    asks = (f"Request {ASKED[who]} to {who}" for who in NINE_PARTNERS)
    say(f"order take seat 0 place {stocks} ann 500", "; ".join([placed("Open", requested), *asks]))
    note("Each partner is the first that answers; or a seat cancels it.")
    tries("Open", requested, CANCELS, *(from_partner(who, message)
                                        for who in NINE_PARTNERS for message in ("Tentative", "Refused")))
    note("Each partner is the last that answers; and one still waits for another.")
    for who in NINE_PARTNERS:
        phases = dict.fromkeys(NINE_PARTNERS, "Tentative") | {who: "Requested"}
        tries("Open", phases, CANCELS, from_partner(who, "Tentative"), from_partner(who, "Refused"))
    for who, other in (("stock/s1", "stock/s8"), ("stock/s8", "account/ann"), ("account/ann", "stock/s1"),
                       ("stock/s4", "stock/s5")):
        phases = dict.fromkeys(NINE_PARTNERS, "Tentative") | {who: "Requested", other: "Requested"}
        tries("Open", phases, from_partner(who, "Tentative"), from_partner(other, "Tentative"),
              from_partner(who, "Refused"))
    note("All answer in turn, the account first.")
    say(f"order is {placed('Open', requested)}", placed("Open", requested))
    phases = dict(requested)
    for who in NINE_PARTNERS[::-1][:8]:
        phases[who] = "Tentative"
        say(f"order take from {who} 1 Tentative", placed("Open", phases))
    say("order take from stock/s1 1 Tentative", told("", "Confirmed", dict.fromkeys(NINE_PARTNERS, "Confirmed"),
                                                     [f"Confirm to {who}" for who in NINE_PARTNERS]))


def cases():
    for part in (each_state, each_answer_in_turn, eight_lines):
        part()
