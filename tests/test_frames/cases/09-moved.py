"""What wires and links move, piece by piece: small models of a wire, a slow reader and a slow writer tell the
answers.
"""
import itertools

from cases_notation import note, say, section

CUT = "1 Cut: the connection has ended"
DEVICE = "2 Device: a read or a write failed"
TEXT = "abcdefghi"


def word(text):
    """A text as one word: no octets are a bar."""
    return text or "|"


def wire(answer, near="", far=""):
    """An answer, and behind it what waits at both ends of a wire on which nothing was carried."""
    return f"{answer}; {word(near)} | 0; {word(far)} | 0"


def link(answer, reads=0, writes=0, written="", failures=0):
    """An answer, and behind it what a link's reader and writer have done."""
    return f"{answer}; {reads} |; {writes} {word(written)}; {failures}"


def travelled(text, putting, carrying, taking):
    """How many octets each take gives, where a piece is put, some are carried and some taken, and how many are left."""
    waiting, carried, counts = 0, 0, []
    for start in range(0, len(text), putting):
        waiting += len(text[start:start + putting])
        moved = min(carrying, waiting)
        waiting, carried = waiting - moved, carried + moved
        counts.append(min(taking, carried))
        carried -= counts[-1]
    return counts, waiting + carried


def wires():
    section("A wire gives in order what was put, on both ways",
            "Nine octets are put 1 to 4 at once; behind each piece 1 to 4 are carried and 1 to 4 taken.")
    for way in ("up", "down"):
        for putting, carrying, taking in itertools.product(range(1, 5), repeat=3):
            counts, rest = travelled(TEXT, putting, carrying, taking)
            say(f"wire travel {way} {putting} {carrying} {taking} {TEXT}",
                wire("".join(f"{count}, " for count in counts) + f"then {rest}, {TEXT}"))
    say("wire travel up 1 1 1 |", wire("then 0, |"))
    note("Ends on which something waits.")
    say("wire near put xy", wire("2", near="xy"))
    say("wire far put z", wire("1", near="xy", far="z"))
    say("wire travel up 2 3 1 abcd", wire("1, 1, then 4, xyabcd", far="z"))


def one_failure():
    section("A writer takes five octets and then fails",
            "What went out is told, and the rest goes out at the next call.")
    say("link new")
    say("link writer 5 2 BrokenPipe")
    say(f"link pump {TEXT}", link(f"5, then {DEVICE}", writes=2, written="abcde", failures=1))
    say(f"link pump-rest 5 {TEXT}", link("9", writes=3, written=TEXT, failures=1))
    say(f"link pump-rest 9 {TEXT}", link("9", writes=3, written=TEXT, failures=1))
    say(f"link pump-rest 10 {TEXT}", "no such line")
    say("link pump |", link("0", writes=3, written=TEXT, failures=1))


def short_writes():
    section("Short writes of every size, failing at every call",
            "At most 1 to 10 of nine octets are taken at a call. One call fails or, at 0, none. Behind a failure the "
            "rest goes out.")
    for most in range(1, 11):
        for call in range(11):
            whole = -(-9 // most)
            say("link new")
            say(f"link writer {most} {call} Other")
            if 1 <= call <= whole:
                out = (call - 1) * most
                say(f"link pump {TEXT}", link(f"{out}, then {DEVICE}", writes=call, written=TEXT[:out], failures=1))
                say(f"link pump-rest {out} {TEXT}", link("9", writes=whole + 1, written=TEXT, failures=1))
            else:
                say(f"link pump {TEXT}", link("9", writes=whole, written=TEXT))


def short_reads():
    section("Short reads of every size, failing at every call",
            "Twelve takes of at most four octets, of a reader that gives at most 1 to 10 of its nine at a call.",
            "The end of its input is told each time.")
    for most in range(1, 11):
        for call in range(12):
            answers, failures, left = [], 0, TEXT
            for number in range(1, 13):
                moved = left[:min(most, 4)]
                if number == call or not moved:
                    answers.append(DEVICE if number == call else CUT)
                    failures += 1
                else:
                    answers.append(str(len(moved)))
                    left = left[len(moved):]
            say("link new")
            say(f"link reader {TEXT} {most} {call} ConnectionReset")
            say("link take-many 12 4", link(f"{', '.join(answers)}, {TEXT}", 12, failures=failures))


def cases():
    for part in (wires, one_failure, short_writes, short_reads):
        part()
