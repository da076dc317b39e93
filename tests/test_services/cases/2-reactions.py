"""What stocks and accounts do with each input, in each state of an order's line, by the table in `line_reaction`."""
from cases_notation import note, say, section

LIMIT = 2**40
OUT_OF_RANGE = "72 OutOfRange: a quantity or amount is out of range"
BELOW_USE = "73 BelowUse: the limit would be below what is billed and held"


def line_reaction(number, phase, done, fits, cause):
    """What a line of `order/o1` does: the phase then, and the answer. A phase that is None is no line."""
    match cause:
        case ("Request", asked) if phase is None:
            return (asked, "held", "Tentative") if fits(asked) else (asked, "refused", "Refused")
        case ("Confirm",) if phase == "held":
            return (number, done, None)
        case ("Cancel",) if phase == "held":
            return (number, "released", None)
    return (number, phase, None)


def text_of(numbers, rows):
    return " ".join([str(number) for number in numbers] + [f"{order} {number} {phase}" for order, number,
                                                           phase in sorted(rows)])


def stock_text(on_hand, rows):
    """A stock that received what is on hand and shipped: its numbers are those of its lines."""
    held = sum(number for _, number, phase in rows if phase == "held")
    shipped = sum(number for _, number, phase in rows if phase == "shipped")
    return text_of((on_hand, held, shipped, on_hand + shipped), rows)


def account_text(limit, rows):
    held = sum(number for _, number, phase in rows if phase == "held")
    billed = sum(number for _, number, phase in rows if phase == "billed")
    return text_of((limit, billed, held), rows)


CAUSES = [("Request", 1), ("Request", 4), ("Request", 5), ("Confirm",), ("Cancel",), ("Tentative",), ("Refused",)]
OTHERS = [[], [("order/o0", 2, "held")], [("order/o2", 2, "held"), ("order/o3", 3, "released")],
          [("order/o0", 6, "refused")]]


def stocks():
    section("What a stock does with each input, in each state of an order's line",
            "The line of o1 is held, refused, shipped or released, or there is none; 4 are free beside it. Others "
            "have lines before and",
            "behind it, or none. `try` asks a copy: a refusal or nothing, the stock then, and what it tells whom.")
    for others in OTHERS:
        free = 4 + sum(number for _, number, phase in others if phase == "held")
        for phase in (None, "held", "refused", "shipped", "released"):
            rows = others + ([("order/o1", 3, phase)] if phase else [])
            on_hand = free + (3 if phase == "held" else 0)
            received = on_hand + (3 if phase == "shipped" else 0)
            note(f"The line of o1: {phase or 'none'}.")
            here = stock_text(on_hand, rows)
            say(f"stock is {here}")
            for asked in (1, LIMIT - received):
                shipped = received - on_hand
                held = sum(number for _, number, far in rows if far == "held")
                say(f"stock try seat 0 {asked}", text_of((on_hand + asked, held, shipped, received + asked), rows))
            for asked in (0, LIMIT - received + 1, 2**64 - 1):
                say(f"stock try seat 15 {asked}", f"{OUT_OF_RANGE}; {here}")
            for cause in CAUSES:
                number, then, answer = line_reaction(3, phase, "shipped", lambda asked: asked <= 4, cause)
                after = others + ([("order/o1", number, then)] if then else [])
                left = on_hand - (3 if then == "shipped" and phase == "held" else 0)
                told = stock_text(left, after) + (f"; {answer} to order/o1" if answer else "")
                say(f"stock try from order/o1 1 {' '.join(map(str, cause))}", told)
            for cause in ("Request 1", "Confirm", "Cancel"):
                say(f"stock try from account/ann 1 {cause}", here)
                say(f"stock try from stock/o1 1 {cause}", here)
            for cause in ("Confirm", "Cancel"):
                say(f"stock try from order/o9 1 {cause}", here)


def accounts():
    section("What an account does with each input, in each state of an order's line",
            "The line of o1 is held, refused, billed or released, or there is none; 4 are left of the limit beside it.")
    for others in OTHERS:
        used = sum(number for _, number, phase in others if phase == "held")
        for phase in (None, "held", "refused", "billed", "released"):
            rows = others + ([("order/o1", 3, phase)] if phase else [])
            in_use = used + (3 if phase in ("held", "billed") else 0)
            limit = in_use + 4
            note(f"The line of o1: {phase or 'none'}.")
            here = account_text(limit, rows)
            say(f"account is {here}")
            for wanted in (in_use, in_use + 1, LIMIT):
                say(f"account try seat 0 {wanted}", account_text(wanted, rows))
            for wanted in (LIMIT + 1, 2**64 - 1):
                say(f"account try seat 15 {wanted}", f"{OUT_OF_RANGE}; {here}")
            if in_use:
                say(f"account try seat 0 {in_use - 1}", f"{BELOW_USE}; {here}")
                say("account try seat 0 0", f"{BELOW_USE}; {here}")
            for cause in CAUSES:
                number, then, answer = line_reaction(3, phase, "billed", lambda asked: asked <= 4, cause)
                after = others + ([("order/o1", number, then)] if then else [])
                told = account_text(limit, after) + (f"; {answer} to order/o1" if answer else "")
                say(f"account try from order/o1 1 {' '.join(map(str, cause))}", told)
            for cause in ("Request 1", "Confirm", "Cancel"):
                say(f"account try from stock/bolt 1 {cause}", here)
            for cause in ("Confirm", "Cancel"):
                say(f"account try from order/o9 1 {cause}", here)


def cases():
    stocks()
    accounts()
