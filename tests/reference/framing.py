"""How the bytes of a connection are cut into requests: heads of HTTP/1.0 and 1.1 with bodies of a given length."""
import re
from dataclasses import dataclass

HEAD_LIMIT = 16384  # bytes
HEADER_LIMIT = 64
BODY_LIMIT = 1048576  # bytes

TOKEN = re.compile(rb"[!#$%&'*+\-.^_`|~0-9A-Za-z]*")
TARGET = re.compile(rb"[^\x00-\x20\x7f]*")
VALUE = re.compile(rb"[^\x00-\x08\x0a-\x1f\x7f]*")
DIGITS = re.compile(rb"[0-9]+")


@dataclass
class Request:
    method: bytes
    target: bytes
    body: bytes
    closes: bool  # the connection closes after the response


class Unfinished(Exception):
    """More bytes can make a request of it."""


class Unreadable(Exception):
    """All that is left is refused, and the connection closes: `head`, `large_head`, `coding`, `length` or `large_body`."""

    def __init__(self, kind):
        super().__init__(kind)
        self.kind = kind


class Head:
    """Reads a head from front to back, as far as the bytes go."""

    def __init__(self, data):
        self.data = data
        self.at = 0
        self.headers = []
        self.skip_empty_lines()
        self.method = self.word(TOKEN)
        self.target = self.word(TARGET)
        self.check_text()
        self.minor = self.version()
        self.line_end()
        while not self.is_at_line_end():
            self.header()
        self.line_end()

    def peek(self):
        if self.at == len(self.data):
            raise Unfinished()
        return self.data[self.at : self.at + 1]

    def expect(self, byte):
        if self.peek() != byte:
            raise Unreadable("head")
        self.at += 1

    def run(self, allowed):
        found = allowed.match(self.data, self.at).group()
        self.at += len(found)
        return found

    def is_at_line_end(self):
        return self.peek() in (b"\r", b"\n")

    def line_end(self):
        """CR LF, or LF alone."""
        if self.peek() == b"\r":
            self.at += 1
        self.expect(b"\n")

    def skip_empty_lines(self):
        while self.is_at_line_end():
            self.line_end()

    def word(self, allowed):
        """One byte or more, and a space after them."""
        found = self.run(allowed)
        if self.peek() != b" " or not found:
            raise Unreadable("head")
        self.at += 1
        return found

    def check_text(self):
        try:
            self.target.decode("utf-8")
        except UnicodeDecodeError:
            raise Unreadable("head") from None

    def version(self):
        for byte in (b"H", b"T", b"T", b"P", b"/", b"1", b"."):
            self.expect(byte)
        minor = self.peek()
        if minor not in (b"0", b"1"):
            raise Unreadable("head")
        self.at += 1
        return int(minor)

    def header(self):
        name = self.run(TOKEN)
        if self.peek() != b":" or not name:
            raise Unreadable("head")
        self.at += 1
        value = self.run(VALUE).strip(b" \t")
        self.line_end()
        if len(self.headers) == HEADER_LIMIT:
            raise Unreadable("large_head")
        self.headers.append((name.lower(), value))

    def values(self, name):
        return [value for known, value in self.headers if known == name]

    def closes(self):
        return self.minor == 0 or any(value.lower() == b"close" for value in self.values(b"connection"))

    def body_length(self):
        if self.values(b"transfer-encoding"):
            raise Unreadable("coding")
        lengths = self.values(b"content-length")
        if not lengths:
            return 0
        if len(lengths) > 1 or not DIGITS.fullmatch(lengths[0]):
            raise Unreadable("length")
        digits = lengths[0].lstrip(b"0") or b"0"
        if len(digits) > 7 or int(digits) > BODY_LIMIT:
            raise Unreadable("large_body")
        return int(digits)


def read_head(data):
    """The head that the bytes begin with. It ends within the first bytes, or there is none."""
    try:
        return Head(data[:HEAD_LIMIT])
    except Unfinished:
        if len(data) >= HEAD_LIMIT:
            raise Unreadable("large_head") from None
        raise


def read_request(data, at):
    """The request that begins there, and where it ends."""
    head = read_head(data[at : at + HEAD_LIMIT])
    start = at + head.at
    end = start + head.body_length()
    if end > len(data):
        raise Unfinished()
    return Request(head.method, head.target, data[start:end], head.closes()), end
