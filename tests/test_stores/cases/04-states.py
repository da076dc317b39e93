"""What an order of one line does with each input, in each of its states, by the table in `orders.reaction`."""
from cases_notation import note, section
from orders import CANCELS, PHASES, STATUSES, from_partner, tries

MESSAGES = ("Request 1", "Tentative", "Refused", "Confirm", "Cancel")
# who isn't a partner: others of the partners' kinds, the kind of one with the key of the other, and an order with a
# partner's key
STRANGERS = (("stock/nut", "Tentative"), ("account/bob", "Refused"), ("stock/ann", "Tentative"),
             ("stock/ann", "Refused"), ("order/bolt", "Tentative"))
LETTERS = [(who, message) for who in ("stock/bolt", "account/ann") for message in MESSAGES] + list(STRANGERS)
PLACES = ((3, 500), (0, 500))


def cases():
    section("What an order does with each input, in each of its states",
            "An order that was placed is open, confirmed or cancelled, and each of its two partners is in one of five "
            "phases.",
            "`try` asks a copy: a refusal or nothing, the order then, and what it tells whom. A stranger, as "
            "stock/nut, changes",
            "nothing.")
    for status in STATUSES:
        for stock in PHASES:
            for account in PHASES:
                note(f"{status}, its stock {stock}, its account {account}.")
                places = ((f"seat 0 place bolt {quantity} ann {amount}", ("place",)) for quantity, amount in PLACES)
                tries(status, {"stock/bolt": stock, "account/ann": account}, *places, CANCELS,
                      *(from_partner(who, message) for who, message in LETTERS))
