"""The notation of cases: calls, and beside each its answer.

    # A comment and an empty line are printed as they are; a remark with two signs isn't.
    stock commit 0 stock/nut 2 => committed 2       a call, and its answer beside it
    stock view stock/bolt                           a call,
    => 10 3 0 10                                    and its answer below it, each line of it behind an arrow
    ..  order/o1 3 held                             behind two dots and a space a line goes on: here with a space
    stock take seat 16 1                            calls that stand above one answer
    stock arm 1 other                               are each answered so
    => no such line

Words that begin a line of another kind:

    let NAME = TEXT                     ${NAME} is this text from here on, in this file and in those behind it
    let NAME(A, B) = TEXT               ${NAME("x", 2)} is this text with these for ${A} and ${B}
    for N in 1..=9, end                 the lines between them for each number, with ${N} in them; 9..=1 goes down
    for WORD in A B C, end              the same for each word; of `for K, V in a:1 b:2` each word has two parts
    block NAME, end                     the lines between them, which stand wherever there is
    do NAME                             this; behind `do NAME CALL => ANSWER` they have ${call} and ${answer} in them
    echo |                              in this file lines that begin with a bar print themselves. What stands beside
                                        them as an answer is kept, and in an answer of the call behind them
    => > &                              is a line for each that was kept

${..} holds an expression of Python over these names: ${"x" * 1022}, ${n + 1}, ${"\\ufeff"}, ${octets(call)}.
Spaces before a line, as in loops, don't count.

Where answers are a table or come from a model, a module of Python stands in the place of a text, whose `cases()` says
them with the functions below.
"""
import re

# What was said: a line, and the lines of its answer. A comment, an empty line and an echoed one are their own.
lines = []


def say(line, *answers):
    lines.append((line, answers or ("done",)))


def echo(line):
    lines.append((line, (line,)))


def note(*texts):
    """Comments: an empty line stands before them."""
    for text in ("", *("# " + text for text in texts)):
        echo(text)


def section(title, *texts):
    note("---- " + title, *texts)


class Fault(Exception):
    """What is wrong with a text."""


class Reader:
    """The texts and blocks that a folder's files have named so far."""

    def __init__(self):
        self.names, self.blocks = {"octets": octets}, {}

    def read(self, text):
        """Says all that the text says."""
        texts = list(joined(line.lstrip(" ") for line in text.splitlines()))
        mark = next((line[5:] for line in texts if line.startswith("echo ")), None)
        Sayer(mark).say_all(joined(self.flat(texts, {})))

    def flat(self, texts, known):
        """The lines with what they name put in, and without those that only name something."""
        at = 0
        while at < len(texts):
            word, _, rest = texts[at].partition(" ")
            if word in ("for", "block"):
                end = end_of(texts, at)
                body, at = texts[at + 1:end], end
                if word == "block":
                    self.blocks[rest] = body
                else:
                    for more in rounds(self.filled(rest, known)):
                        yield from self.flat(body, known | more)
            elif word == "do":
                name, _, given = self.filled(rest, known).partition(" ")
                if name not in self.blocks:
                    raise Fault(f"no block is named {name}")
                call, _, answer = given.partition(" => ")
                yield from self.flat(self.blocks[name], known | {"call": call, "answer": answer})
            elif word == "let":
                self.name(rest)
            elif word not in ("##", "echo"):
                yield self.filled(texts[at], known)
            at += 1

    def name(self, text):
        found = re.fullmatch(r"(\w+)(?:\((.*?)\))? = (.*)", text)
        if not found:
            raise Fault(f"let {text}")
        name, words, text = found[1], found[2], found[3]
        if words is None:
            self.names[name] = self.filled(text, {})
        else:
            words = re.split(", *", words)
            self.names[name] = lambda *values: self.filled(text, dict(zip(words, values, strict=True)))

    def filled(self, text, known):
        """The text with the values of its expressions."""
        def value(found):
            try:
                return str(eval(found[1], {"__builtins__": {}}, self.names | known))
            except Exception as fault:
                raise Fault(f"{found[0]}: {fault}") from None
        return re.sub(r"\$\{(.*?)\}", value, text)


def octets(text):
    """How many octets a text stands for: an escape is one."""
    return len(re.findall(r"\\x[0-9a-f]{2}|\\.|[^\\]", text))


def joined(texts):
    """The lines, each with those that go on with it; with what stands before a loop the loop's do, once it's gone."""
    held = None
    for text in texts:
        if text.startswith(".. ") and held is not None and held.partition(" ")[0] not in ("for", "end", "block"):
            held = held.replace("=>", "=> ", held == "=>") + text[3:]
        elif text.startswith("=> ") and held is not None and re.match(r"do \S+ (?!.* => )", held):
            held += " " + text
        else:
            if held is not None:
                yield held
            held = text
    if held is not None:
        yield held


def end_of(texts, at):
    """Where the loop or block that begins at a line ends."""
    depth = 0
    for end in range(at, len(texts)):
        word = texts[end].partition(" ")[0]
        depth += (word in ("for", "block")) - (word == "end")
        if depth == 0:
            return end
    raise Fault(f"no end stands behind {texts[at]}")


def rounds(text):
    """What a loop's names are in each of its rounds."""
    names, found, values = text.partition(" in ")
    if not found:
        raise Fault(f"for {text}")
    span = re.fullmatch(r"(\d+)\.\.=(\d+)", values)
    if span:
        first, last = map(int, span.groups())
        step = 1 if first <= last else -1
        return [{names: number} for number in range(first, last + step, step)]
    names = names.split(", ")
    parts = [word.split(":") if len(names) > 1 else [word] for word in values.split()]
    if any(len(part) != len(names) for part in parts):
        raise Fault(f"for {text}")
    return [{name: int(word) if word.isdecimal() and word == str(int(word)) else word for name, word in zip(names, part)}
            for part in parts]


class Sayer:
    """Takes lines without words of the notation, and says them as calls with their answers."""

    def __init__(self, mark):
        self.mark, self.calls, self.answers = mark, [], []
        self.kept, self.echoes = [], False  # the answers beside echoed lines, and whether such a line was the last

    def say_all(self, texts):
        for text in texts:
            self.take(text)
        self.say_calls()

    def take(self, text):
        if text == "=>" or text.startswith("=> "):
            self.answer(text[3:])
        elif not text or text.startswith("#"):
            self.say_calls()
            self.echoes = False
            echo(text)
        else:
            line, found, answer = text.partition(" => ")
            if self.mark and text.startswith(self.mark):
                self.echoed(line)
            else:
                self.called(line, found)
            if found:
                self.answer(answer)

    def echoed(self, line):
        self.say_calls()
        if not self.echoes:
            self.kept = []
        self.echoes = True
        echo(line)

    def called(self, line, is_answered):
        if self.answers:
            self.say_calls()
        if self.calls and is_answered:
            raise Fault(f"{self.calls[-1]}: no answer")
        self.echoes = False
        self.calls.append(line)

    def answer(self, text):
        if self.echoes:
            self.kept.append(text)
        elif not self.calls:
            raise Fault(f"=> {text}: of no call")
        elif "&" in text:
            self.answers += [text.replace("&", it) for it in self.kept]
        else:
            self.answers.append(text)

    def say_calls(self):
        if self.calls and not self.answers:
            raise Fault(f"{self.calls[-1]}: no answer")
        for call in self.calls:
            say(call, *self.answers)
        self.calls, self.answers = [], []
