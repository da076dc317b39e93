"""Texts of orders, and the table of what an order does: what the modules of this folder share."""
from cases_notation import say

STATUSES = ("Open", "Confirmed", "Cancelled")
PHASES = ("Requested", "Tentative", "Refused", "Confirmed", "Cancelled")
PLACED_BEFORE = "70 AlreadyPlaced: the order was placed before"
NOT_OPEN = "71 NotOpen: the order isn't open"

# whom an order asks for how much
ASKED = {"stock/bolt": 3, "stock/nut": 4, "account/ann": 500} | {f"stock/s{number}": number for number in range(1, 9)}


def placed(status, phases):
    """An order of these partners, each with its phase."""
    return " ".join([status, *(f"{who} {ASKED[who]} {phase}" for who, phase in phases.items())])


def order(status, of_stock, of_account, quantity=3, amount=500):
    """An order of one line."""
    return f"{status} stock/bolt {quantity} {of_stock} account/ann {amount} {of_account}"


OPEN = order("Open", "Requested", "Requested")
CANCELLED = order("Cancelled", "Cancelled", "Cancelled")
PLACE_TWO_LINES = "place nut 4 bolt 3 ann 500"
OPEN_THREE = "Open stock/nut 4 Requested stock/bolt 3 Requested account/ann 500 Requested"


def reaction(status, phases, cause):
    """What an order that was placed does: why it refuses, its status and phases then, and what it tells whom."""
    stays = ("", status, phases, [])
    if cause[0] == "place":
        return (PLACED_BEFORE, *stays[1:])
    if cause[0] == "cancel":
        if status == "Open":
            return ("", "Cancelled", dict.fromkeys(phases, "Cancelled"), [f"Cancel to {it}" for it in phases])
        return (NOT_OPEN, *stays[1:])
    who, message = cause
    if status != "Open" or phases.get(who) != "Requested":
        return stays
    others = [it for it in phases if it != who]
    if message == "Tentative" and all(phases[it] == "Tentative" for it in others):
        return ("", "Confirmed", dict.fromkeys(phases, "Confirmed"), [f"Confirm to {it}" for it in phases])
    if message == "Tentative":
        return ("", "Open", phases | {who: "Tentative"}, [])
    if message == "Refused":
        return ("", "Cancelled", dict.fromkeys(phases, "Cancelled") | {who: "Refused"},
                [f"Cancel to {it}" for it in others])
    return stays


def told(why, status, phases, outs):
    return "; ".join(([why] if why else []) + [placed(status, phases), *outs])


def tries(status, phases, *causes):
    """Lines that ask a copy of an order, which is put there first."""
    say(f"order is {placed(status, phases)}", placed(status, phases))
    for line, cause in causes:
        say("order try " + line, told(*reaction(status, phases, cause)))


def from_partner(who, message):
    return (f"from {who} 1 {message}", (who, message))


CANCELS = ("seat 15 cancel", ("cancel",))
