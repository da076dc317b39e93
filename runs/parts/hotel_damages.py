"""Damages what a hotel and its partners left in many ways, each of which the rules of hotels.py have to find."""
import copy
import json

from . import damages
from .damages import journal_of, rebuild
from .hotels import check_house

# of files of purchasing and billing alone
OF_FILES = ("a row of a journal is dropped", "two rows of a journal change places", "a letter's number is another",
            "a command's amount is another", "a limit is another", "an order's status is another", "an order is gone from the tables",
            "a letter is in an outbox", "a sent mark is too high", "a handled mark is too low", "an answer is lost with all it did",
            "a cancel is doubled with all it does", "a second letter overtakes a first", "a committed line is missing with all it did",
            "a refusal wasn't one", "an order that is there was refused")
TENTATIVE, REFUSED = '{"op":"tentative"}', '{"op":"refused"}'


def pairs(record, end):
    """The pairs of an order and a room whose last letter was this: `confirm`, `cancel`, or the request."""
    return [pair for pair, done in record.handled.items() if json.loads(record.came[pair][done])["op"] == end]


def a_stay(record):
    """A room in which an order stays, and that order."""
    return next((order, room) for order, room in pairs(record, "confirm") if record.shown[room] == "taken")


def answered(record, text):
    """A pair of a room and an order that was answered so."""
    return next(pair for pair, texts in record.sent.items() if texts[1] == text)


def a_room_shown(words, others):
    def damage(_, record):
        record.shown[next(room for room, it in record.shown.items() if it == others)] = words
    return damage


def rows_are(more):
    def damage(_, record):
        record.length += more
    return damage


def a_letter_is_handled_again(_, record):
    record.handled[a_stay(record)] += 1
    record.length += 1


def a_confirm_is_lost(_, record):
    order, room = a_stay(record)
    record.handled[order, room] -= 1
    record.length -= 1
    record.shown[room] = "none"


def an_answer_is(old, new):
    def damage(_, record):
        record.sent[answered(record, old)][1] = new
    return damage


def an_answer_is_missing(_, record):
    del record.sent[answered(record, TENTATIVE)]


def a_confirm_is_a_cancel(_, record):
    order, room = a_stay(record)
    record.came[order, room][2] = '{"op":"cancel"}'
    record.shown[room] = "none"


def a_letter_is_made_up(_, record):
    record.came["order/made up", "stock/made up"] = {1: '{"n":1,"op":"request"}'}
    record.sent["stock/made up", "order/made up"] = {1: TENTATIVE}
    record.handled["order/made up", "stock/made up"] = record.settled["stock/made up", "order/made up"] = 1
    record.shown["stock/made up"] = "promised order/made up"
    record.length += 1


def an_answer_is_not_settled(_, record):
    record.settled[answered(record, REFUSED)] = 0


def a_letter_is_resent_at_rest(_, record):
    record.resent[(*answered(record, TENTATIVE), 1)] = TENTATIVE


def a_guest_is_forgotten(_, record):
    at = next(number for number, (line, answer) in enumerate(record.desk) if line.startswith("reserve") and answer.startswith("committed"))
    del record.desk[at]
    record.length -= 1


def a_guest_gets_a_room_that_is_taken(_, record):
    record.length += 1
    key = a_stay(record)[1].split("/", 1)[1].replace("\\", "\\\\").replace(" ", "\\s")
    record.desk.append((f"reserve {key}", f"committed {record.length}"))


def an_answer_has_another_position(_, record):
    at = max(number for number, (_, answer) in enumerate(record.desk) if answer.startswith("committed"))
    record.desk[at] = (record.desk[at][0], "committed 1")


def rewrite(folder, record, order, change):
    """Changes the entities and texts of an order's letters, in its journal and in what is known of the hotel, as one."""
    # (its lines need no answers then)
    (folder / "purchasing.asked").unlink()
    journal = [(pos, entity, seat, change(sender), number, change(body)) if entity == order else (pos, entity, seat, sender, number, body)
               for pos, entity, seat, sender, number, body in journal_of(folder, "purchasing")]
    rebuild(folder, "purchasing", journal)
    for letters in (record.came, record.sent):
        for pair in [it for it in letters if order in it]:
            letters[tuple(map(change, pair))] = {number: change(text) for number, text in letters.pop(pair).items()}
    for marks in (record.handled, record.settled):
        for pair in [it for it in marks if order in it]:
            marks[tuple(map(change, pair))] = marks.pop(pair)


def renames(old, new):
    """Changes a room of an order, as an entity and in the order's command."""
    def change(text):
        if text == old:
            return new
        if not text or '"op":"place"' not in text:
            return text
        body = json.loads(text)
        for line in body["lines"]:
            line["stock"] = new.split("/", 1)[1] if line["stock"] == old.split("/", 1)[1] else line["stock"]
        return json.dumps(body, sort_keys=True, separators=(",", ":"), ensure_ascii=False)
    return change


def a_room_is_given_twice(folder, record):
    """Of two stays in two rooms both are in one."""
    order, room = a_stay(record)
    other, its = next((it, there) for it, there in pairs(record, "confirm")
                      if it != order and (it, room) not in record.came and record.shown[there] == "taken")
    rewrite(folder, record, other, renames(its, room))
    record.shown[its] = "none"


def a_room_is_refused_without_a_reason(folder, record):
    """A room that nobody else asks for."""
    room, order = next(pair for pair, texts in record.sent.items() if texts[1] == REFUSED and '"n":3' not in record.came[pair[::-1]][1])
    rewrite(folder, record, order, renames(room, "stock/new"))
    record.shown["stock/new"] = "none"


def a_room_has_three_guests(folder, record):
    order, room = a_stay(record)
    key = json.dumps(room.split("/", 1)[1], ensure_ascii=False)

    def change(text):
        for n in (1, 2):
            text = text and text.replace(f'{{"n":{n},"stock":{key}}}', f'{{"n":3,"stock":{key}}}')
        return text
    rewrite(folder, record, order, change)
    record.came[order, room][1] = '{"n":3,"op":"request"}'


DAMAGES = {
    **{name: lambda folder, _, damage=damages.DAMAGES[name]: damage(folder) for name in OF_FILES},
    "a room that is taken is shown as free": a_room_shown("none", "taken"),
    "a room that is free is shown as taken": a_room_shown("taken", "none"),
    "a room is shown as promised": a_room_shown("promised order/o1", "none"),
    "the hotel has a row more": rows_are(1),
    "the hotel has a row less": rows_are(-1),
    "a letter is handled again": a_letter_is_handled_again,
    "a confirm of a room is lost with all it did": a_confirm_is_lost,
    "a promise is a refusal": an_answer_is(TENTATIVE, REFUSED),
    "a refusal is a promise": an_answer_is(REFUSED, TENTATIVE),
    "an answer of a room is missing": an_answer_is_missing,
    "a confirm came as a cancel": a_confirm_is_a_cancel,
    "a letter that nobody sent came": a_letter_is_made_up,
    "an answer of a room isn't settled": an_answer_is_not_settled,
    "a letter is resent at rest": a_letter_is_resent_at_rest,
    "a guest is forgotten": a_guest_is_forgotten,
    "a guest gets a room that is taken": a_guest_gets_a_room_that_is_taken,
    "an answer of the desk has another position": an_answer_has_another_position,
    "a room is given to two orders": a_room_is_given_twice,
    "a room is refused without a reason": a_room_is_refused_without_a_reason,
    "a room is given to three guests": a_room_has_three_guests,
}


def try_damages(folder, target, record):
    """Each damage is found, or `Wrong`: how many there are."""
    now = []

    def over(damage):
        def act(target):
            now[:] = [copy.deepcopy(record)]
            damage(target, now[0])
        return act
    return damages.try_damages(folder, target, {name: over(it) for name, it in DAMAGES.items()}, lambda it: check_house(it, now[0]))
