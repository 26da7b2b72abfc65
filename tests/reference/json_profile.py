"""JSON as the store takes it: whole numbers of 64 bits, members in the order of their bytes, bounded nesting."""
import re

MAX_NESTING = 72  # of a request's body
MAX_BODY_NESTING = 64  # of what a document holds
MAX_READ_NESTING = 127  # what is deeper is no JSON to the reader
I64 = range(-(2**63), 2**63)


class JsonFault(Exception):
    """Why a text is no value of the profile: `json`, `number` or `depth`."""

    def __init__(self, reason):
        super().__init__(reason)
        self.reason = reason


class NotWhole:
    """A number that is JSON, and no whole number of 64 bits."""


NOT_WHOLE = NotWhole()

SPACE = re.compile(r"[ \t\n\r]*")
NUMBER = re.compile(r"-?(?:0|[1-9][0-9]*)(\.[0-9]+)?([eE][+-]?[0-9]+)?")
PLAIN = re.compile(r'[^"\\\x00-\x1f]*')
CODE_UNIT = re.compile(r"[0-9a-fA-F]{4}")
SHORT_ESCAPES = {'"': '"', "\\": "\\", "/": "/", "b": "\b", "f": "\f", "n": "\n", "r": "\r", "t": "\t"}
WORDS = {"true": True, "false": False, "null": None}


def read(data, deepest=MAX_NESTING):
    """The value that the bytes are. No JSON goes before a number, and a number before the depth."""
    try:
        value = Reader(data.decode("utf-8")).whole()
    except UnicodeDecodeError:
        raise JsonFault("json") from None
    if not is_whole(value):
        raise JsonFault("number")
    if nesting(value) > deepest:
        raise JsonFault("depth")
    return value


class Reader:
    """Reads one text, from front to back."""

    def __init__(self, text):
        self.text = text
        self.at = 0

    def whole(self):
        value = self.value(MAX_READ_NESTING)
        self.skip()
        self.expect(self.at == len(self.text))
        return value

    def expect(self, holds):
        if not holds:
            raise JsonFault("json")

    def skip(self):
        self.at = SPACE.match(self.text, self.at).end()

    def next(self):
        self.expect(self.at < len(self.text))
        self.at += 1
        return self.text[self.at - 1]

    def value(self, levels):
        self.skip()
        here = self.text[self.at : self.at + 1]
        if here in ("{", "["):
            self.expect(levels > 0)
            self.at += 1
            return self.members(levels - 1) if here == "{" else self.items(levels - 1)
        if here == '"':
            self.at += 1
            return self.string()
        for word, value in WORDS.items():
            if self.text.startswith(word, self.at):
                self.at += len(word)
                return value
        return self.number()

    def items(self, levels):
        found = []
        if self.closes("]"):
            return found
        while True:
            found.append(self.value(levels))
            if self.separated("]"):
                return found

    def members(self, levels):
        """Of a repeated name the last value stays."""
        found = {}
        if self.closes("}"):
            return found
        while True:
            self.skip()
            self.expect(self.next() == '"')
            name = self.string()
            self.skip()
            self.expect(self.next() == ":")
            found[name] = self.value(levels)
            if self.separated("}"):
                return found

    def closes(self, bracket):
        self.skip()
        if self.text[self.at : self.at + 1] == bracket:
            self.at += 1
            return True
        return False

    def separated(self, bracket):
        """After a value: whether the bracket closes, else a comma is there."""
        self.skip()
        sign = self.next()
        self.expect(sign in (bracket, ","))
        return sign == bracket

    def string(self):
        """After the opening quote. A surrogate comes only in a pair of escapes."""
        pieces = []
        while True:
            plain = PLAIN.match(self.text, self.at)
            pieces.append(plain.group())
            self.at = plain.end()
            sign = self.next()
            if sign == '"':
                return "".join(pieces)
            self.expect(sign == "\\")
            letter = self.next()
            if letter == "u":
                pieces.append(self.escaped())
            else:
                self.expect(letter in SHORT_ESCAPES)
                pieces.append(SHORT_ESCAPES[letter])

    def escaped(self):
        unit = self.code_unit()
        self.expect(not 0xDC00 <= unit < 0xE000)
        if not 0xD800 <= unit < 0xDC00:
            return chr(unit)
        self.expect(self.next() == "\\" and self.next() == "u")
        low = self.code_unit()
        self.expect(0xDC00 <= low < 0xE000)
        return chr(0x10000 + (unit - 0xD800) * 1024 + (low - 0xDC00))

    def code_unit(self):
        digits = CODE_UNIT.match(self.text, self.at)
        self.expect(digits is not None)
        self.at = digits.end()
        return int(digits.group(), 16)

    def number(self):
        """A number past the range of floats is no JSON; `-0`, a point or an exponent make a float of it."""
        found = NUMBER.match(self.text, self.at)
        self.expect(found is not None)
        self.at = found.end()
        text = found.group()
        if found.group(1) is None and found.group(2) is None and text != "-0" and len(text) <= 20:
            return int(text) if int(text) in I64 else NOT_WHOLE
        self.expect(float(text) not in (float("inf"), float("-inf")))
        return NOT_WHOLE


def is_whole(value):
    if isinstance(value, dict):
        return all(is_whole(v) for v in value.values())
    if isinstance(value, list):
        return all(is_whole(v) for v in value)
    return value is not NOT_WHOLE


def nesting(value):
    if isinstance(value, dict):
        return 1 + max((nesting(v) for v in value.values()), default=0)
    if isinstance(value, list):
        return 1 + max((nesting(v) for v in value), default=0)
    return 0


def is_number(value):
    return isinstance(value, int) and not isinstance(value, bool)


ESCAPES = {'"': '\\"', "\\": "\\\\", "\b": "\\b", "\f": "\\f", "\n": "\\n", "\r": "\\r", "\t": "\\t"}
ESCAPED = re.compile('["\\\\\x00-\x1f]')


def quoted(text):
    def escape(found):
        sign = found.group()
        return ESCAPES.get(sign, "\\u%04x" % ord(sign))

    return '"' + ESCAPED.sub(escape, text) + '"'


def text(value):
    """The compact text: members by the bytes of their names, which is the order of Python's strings."""
    if isinstance(value, dict):
        return "{" + ",".join(quoted(k) + ":" + text(value[k]) for k in sorted(value)) + "}"
    if isinstance(value, list):
        return "[" + ",".join(text(v) for v in value) + "]"
    if isinstance(value, str):
        return quoted(value)
    if value is None:
        return "null"
    if isinstance(value, bool):
        return "true" if value else "false"
    return str(value)


class Body:
    """What a revision holds: an object with no member whose name begins with `_`. Equal where its text is."""

    def __init__(self, members):
        self.members = members
        self.text = text(members)

    def __eq__(self, other):
        return isinstance(other, Body) and self.text == other.text


def body_of(value):
    """The object's body, without its special members."""
    body = Body({name: v for name, v in value.items() if not name.startswith("_")})
    if nesting(body.members) > MAX_BODY_NESTING:
        raise JsonFault("depth")
    return body


EMPTY = Body({})
