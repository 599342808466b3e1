"""Expressions of triggers, read by the grammar of docs/FORMATS.md: whether a text is one, and its calls."""

import re

from .texts import SECONDS, key_end, pattern_flaw, suffixed

SPAN, MAYBE_SPAN, NEWEST, SILENCE, PERCENT, FREE = "span", "maybe span", "newest", "silence", "percent", "free"
OPERATORS = ("", "eq", "ne", "gt", "ge", "lt", "le", "like", "regexp", "iregexp")
STRENGTHS = ("", "weak", "strict")
FUNCTIONS = {
    "last": [NEWEST],
    **{name: [SPAN] for name in ("first", "min", "max", "avg", "sum")},
    "change": [],
    "count": [SPAN, OPERATORS, FREE],
    "find": [MAYBE_SPAN, OPERATORS, FREE],
    "nodata": [SILENCE],
    "percentile": [SPAN, PERCENT],
    "changecount": [SPAN, ("", "all", "inc", "dec")],
    "monoinc": [SPAN, STRENGTHS],
    "monodec": [SPAN, STRENGTHS],
}
OF_DATES = ("now", "time", "date", "dayofweek", "dayofmonth")
OF_NUMBERS = ("last", "first", "min", "max", "avg", "sum", "percentile", "monoinc", "monodec")
LONGEST, MOST_CALLS, DEEPEST = 4096, 32, 32
MONTH = 31 * 86400

BLANK = re.compile(rb"[ \t\r\n]*")
DIGITS = re.compile(rb"[0-9]+")
NUMBER = re.compile(rb"([0-9]+(?:\.[0-9]+)?)([smhdwKMGT]?)")
HOST = re.compile(rb"[A-Za-z0-9 _.-]{1,128}(?=/)")
WORD = re.compile(rb"[a-z_]+")
COMPARES = re.compile(rb"<=|>=|<>|[=<>]")


class Fault(Exception):
    """No expression goes on at a byte."""

    def __init__(self, at, why=""):
        super().__init__(why or f"no expression goes on at byte {at}")
        self.at, self.why = at, why


class Call:
    """A history function's call: its name, host, key, operator and last argument."""

    def __init__(self, name, host, key, operator, argument):
        self.name, self.host, self.key, self.operator, self.argument = name, host, key, operator, argument


class Reader:
    """One pass over a text. Where it is lenient it passes blanks in calls, which the real server allows, and remembers them."""

    def __init__(self, text, lenient):
        self.text, self.at, self.depth, self.calls, self.count, self.lenient, self.skipped = text, 0, 0, [], 0, lenient, []

    def peek(self, length=1):
        return self.text[self.at : self.at + length]

    def blanks(self):
        begin, self.at = self.at, BLANK.match(self.text, self.at).end()
        return self.at > begin

    def loose(self):
        """Blanks where only a lenient reader passes them."""
        begin = self.at
        if self.lenient and self.blanks():
            self.skipped.append((begin, self.at))

    def expect(self, bytes_):
        if self.peek(len(bytes_)) != bytes_:
            raise Fault(self.at)
        self.at += len(bytes_)

    def word_follows(self, word):
        """The operator that is a word stands there, behind blanks or a parenthesis and before one or the other."""
        end = self.at + len(word)
        if self.text[self.at : end] != word or self.text[end : end + 1] not in (b" ", b"\t", b"\r", b"\n", b"("):
            return False
        return self.at == 0 or self.text[self.at - 1 : self.at] in (b" ", b"\t", b"\r", b"\n", b"(", b")")

    def joined(self, operand, operator):
        """Operands with operators between them; what isn't an operator is left where it stands, with the blanks before it."""
        operand()
        while True:
            begin = self.at
            self.blanks()
            length = operator()
            if not length:
                self.at = begin
                return
            self.at += length
            self.blanks()
            operand()

    def either(self):
        self.joined(self.both, lambda: 2 if self.word_follows(b"or") else 0)

    def both(self):
        self.joined(self.equal, lambda: 3 if self.word_follows(b"and") else 0)

    def equal(self):
        self.joined(self.ordered, lambda: self.comparing((b"=", b"<>")))

    def ordered(self):
        self.joined(self.added, lambda: self.comparing((b"<=", b">=", b"<", b">")))

    def comparing(self, taken):
        match = COMPARES.match(self.text, self.at)
        return len(match[0]) if match and match[0] in taken else 0

    def added(self):
        self.joined(self.multiplied, lambda: self.peek() in (b"+", b"-"))

    def multiplied(self):
        self.joined(self.denied, lambda: self.peek() in (b"*", b"/"))

    def denied(self):
        if self.word_follows(b"not"):
            self.at += 3
            self.blanks()
        self.negated()

    def negated(self):
        if self.peek() == b"-":
            self.at += 1
            self.blanks()
        self.primary()

    def primary(self):
        if self.peek() == b"(":
            self.depth += 1
            if self.depth > DEEPEST:
                raise Fault(self.at, "more than 32 parentheses are open at one place")
            self.at += 1
            self.blanks()
            self.either()
            self.blanks()
            self.expect(b")")
            self.depth -= 1
        elif self.peek().isdigit():
            self.number()
        elif self.peek() == b'"':
            raise Fault(self.at, "texts are compared by find and count alone")
        else:
            self.call()

    def number(self):
        match = NUMBER.match(self.text, self.at)
        if suffixed(match[0].decode()) is None:
            raise Fault(self.at, f"the number {match[0].decode()} is out of range")
        self.at = match.end()

    def call(self):
        begin, match = self.at, WORD.match(self.text, self.at)
        name = match[0].decode() if match else ""
        if name not in FUNCTIONS and name not in OF_DATES:
            is_call = name and self.text[match.end() : match.end() + 1] == b"("
            raise Fault(begin, f"the function {name} isn't here" if is_call else "")
        self.count += 1
        if self.count > MOST_CALLS:
            raise Fault(begin, "an expression has 32 calls at most")
        self.at = match.end()
        self.expect(b"(")
        self.loose()
        if name in OF_DATES:
            self.expect(b")")
            return
        self.expect(b"/")
        host = HOST.match(self.text, self.at)
        if not host:
            raise Fault(self.at)
        self.at = host.end() + 1
        end = key_end(self.text, self.at)
        if end == self.at:
            raise Fault(self.at)
        key, self.at = self.text[self.at : end], end
        arguments = self.arguments(name)
        self.loose()
        self.expect(b")")
        operator, argument = (arguments + ["", ""])[:2]
        self.calls.append(Call(name, host[0].decode(), key.decode(), operator, argument))

    def arguments(self, name):
        """What stands behind the item, but for the range."""
        found, slots = [], FUNCTIONS[name]
        for place, slot in enumerate(slots):
            self.loose()
            if self.peek() != b",":
                if any(left in (SPAN, SILENCE, PERCENT) for left in slots[place:]):
                    raise Fault(self.at, f"{name} lacks an argument")
                break
            self.at += 1
            self.blanks()
            if slot in (SPAN, MAYBE_SPAN, NEWEST, SILENCE):
                self.range(slot)
            else:
                found.append(self.argument(slot))
        self.loose()
        if self.peek() == b",":
            raise Fault(self.at, f"{name} takes no more arguments")
        return found

    def range(self, slot):
        if slot in (MAYBE_SPAN, NEWEST) and self.peek() in (b",", b")"):
            return
        begin, is_count = self.at, self.peek() == b"#"
        self.at += is_count
        digits = DIGITS.match(self.text, self.at)
        if not digits:
            raise Fault(self.at)
        self.at = digits.end()
        count = int(digits[0])
        if is_count:
            is_right = slot != SILENCE and 1 <= count <= 10_000
        else:
            count *= self.suffix()
            is_right = slot != NEWEST and (30 if slot == SILENCE else 1) <= count <= MONTH
        if not is_right:
            raise Fault(begin, f"the range {self.text[begin:self.at].decode()} isn't taken there")
        if self.peek() == b":" and slot != SILENCE:
            if self.peek(5) == b":now/":
                raise Fault(self.at, "shifts to the beginning of a day or another unit aren't here")
            self.expect(b":now-")
            begin, digits = self.at, DIGITS.match(self.text, self.at)
            if not digits:
                raise Fault(self.at)
            self.at = digits.end()
            if int(digits[0]) * self.suffix() > MONTH:
                raise Fault(begin, "a shift has 31 days at most")
            if self.peek() == b"/":
                raise Fault(self.at, "shifts to the beginning of a day or another unit aren't here")

    def suffix(self):
        letter = self.peek().decode("latin-1")
        if letter.isalpha() and letter in SECONDS:
            self.at += 1
            return SECONDS[letter]
        return 1

    def argument(self, slot):
        begin = self.at
        if self.peek() == b'"':
            text = self.quoted()
        elif self.peek() in (b",", b")"):
            text = ""
        else:
            match = NUMBER.match(self.text, self.at)
            if not match:
                raise Fault(self.at)
            text, self.at = match[0].decode(), match.end()
            if slot not in (PERCENT, FREE) or suffixed(text) is None:
                raise Fault(begin)
        if isinstance(slot, tuple) and text not in slot:
            raise Fault(begin, f"the word {text} isn't taken there")
        if slot == PERCENT and not (NUMBER.fullmatch(text.encode()) and suffixed(text) <= 100 * 10**6):
            raise Fault(begin, "a percentage is a number from 0 to 100")
        return text

    def quoted(self):
        """A text in quotes, in which a backslash before a quote stands for the quote, and any other for itself."""
        at, parts = self.at + 1, []
        while at < len(self.text):
            if self.text[at : at + 2] == b'\\"':
                parts.append(b'"')
                at += 2
            elif self.text[at : at + 1] == b'"':
                self.at = at + 1
                return b"".join(parts).decode(errors="replace")
            else:
                parts.append(self.text[at : at + 1])
                at += 1
        raise Fault(len(self.text), "a quote isn't closed")


def read(text, lenient=False):
    """The calls of history functions of an expression, and the blanks that a lenient reading passed. Raises Fault."""
    bytes_ = text.encode()
    reader = Reader(bytes_[: LONGEST + 1], lenient)
    reader.either()
    if reader.at < len(reader.text):
        raise Fault(reader.at)
    if reader.at > LONGEST:
        raise Fault(LONGEST, "an expression has 4,096 bytes at most")
    if not reader.calls:
        raise Fault(0, "it looks at no item")
    return reader.calls, reader.skipped


def tidied(text):
    """The expression without the blanks that the real server passes and the program doesn't, where it is one with them."""
    text = text.strip(" \t\r\n")
    try:
        bytes_, (_, skipped) = text.encode(), read(text, lenient=True)
    except Fault:
        return text
    for begin, end in reversed(skipped):
        bytes_ = bytes_[:begin] + bytes_[end:]
    return bytes_.decode()


def call_flaw(call, is_number):
    """Why a call isn't for an item of numbers or of texts, or None."""
    if not is_number and (call.name in OF_NUMBERS or call.operator in ("gt", "ge", "lt", "le")):
        return f"{call.name} is for numbers, and {call.key} has texts"
    if is_number and call.operator == "like":
        return f"the operator like is for texts, and {call.key} has numbers"
    if call.operator in ("regexp", "iregexp"):
        return pattern_flaw(call.argument, 4 * (call.operator == "iregexp")) if call.argument or call.operator == "regexp" else None
    compares = call.name in ("count", "find") and (call.operator or call.argument)
    if is_number and compares and suffixed(call.argument) is None:
        return f"{call.name} compares the numbers of {call.key} with {call.argument or 'nothing'}"
    return None


def hosts_of(text):
    """The hosts that an expression names, in order, as far as it can be read."""
    return re.findall(r"\(\s*/([^/,()]+)/", text)
