"""The texts of responses."""
from . import json_profile
from .database import BAD_HISTORY, CONFLICT, DELETED, GENERATION, MISSING

REASONS = {
    200: "OK",
    201: "Created",
    202: "Accepted",
    400: "Bad Request",
    404: "Not Found",
    405: "Method Not Allowed",
    409: "Conflict",
    411: "Length Required",
    413: "Content Too Large",
    431: "Request Header Fields Too Large",
}

# of each refusal of a command or a query: its status, its error and its reason
REFUSALS = {
    CONFLICT: (409, "conflict", "Document update conflict."),
    BAD_HISTORY: (409, "bad_history", "A known revision has another parent."),
    MISSING: (404, "not_found", "missing"),
    DELETED: (404, "not_found", "deleted"),
    GENERATION: (409, "generation", "The generation limit is reached."),
}

# of each kind of input that is refused with all that follows it: its status, its error and its reason
BROKEN = {
    "head": (400, "bad_request", "head"),
    "large_head": (431, "too_large", "head"),
    "coding": (411, "length_required", "Chunked bodies are not taken."),
    "length": (400, "bad_request", "length"),
    "large_body": (413, "too_large", "body"),
}


class Answer(Exception):
    """A status, the JSON value that the body is, and the methods of the route where that is said. It is raised where a
    check decides, and returned where an answer comes at the end."""

    def __init__(self, status, value, methods=()):
        super().__init__(status)
        self.status = status
        self.value = value
        self.methods = methods


class Feed:
    """Values that are written a line each, in a response without a length, after which the connection closes."""

    def __init__(self, lines):
        self.lines = lines


def bad_request(reason):
    return Answer(400, {"error": "bad_request", "reason": reason})


def no_route():
    return Answer(404, {"error": "not_found", "reason": "missing"})


def method_not_allowed(methods):
    return Answer(405, {"error": "method_not_allowed", "reason": "Method not allowed."}, methods)


def refused(refusal):
    status, error, reason = REFUSALS[refusal.kind]
    return Answer(status, {"error": error, "reason": reason})


def broken(kind):
    status, error, reason = BROKEN[kind]
    return Answer(status, {"error": error, "reason": reason})


def feed(given, place):
    head = "HTTP/1.1 200 OK\r\nContent-Type: application/json\r\nCouch-Place: %d\r\nConnection: close\r\n\r\n" % place
    return head.encode("ascii") + b"".join(json_profile.text(line).encode("utf-8") + b"\n" for line in given.lines)


def response(answer, place, closes, whole=True):
    """The head and the body, or the head alone, with the length of the body that is left out."""
    body = json_profile.text(answer.value).encode("utf-8")
    head = "HTTP/1.1 %d %s\r\n" % (answer.status, REASONS[answer.status])
    head += "Content-Type: application/json\r\n"
    head += "Content-Length: %d\r\n" % len(body)
    head += "Couch-Place: %d\r\n" % place
    if answer.methods:
        head += "Allow: %s\r\n" % ", ".join(answer.methods)
    if closes:
        head += "Connection: close\r\n"
    return head.encode("ascii") + b"\r\n" + (body if whole else b"")
