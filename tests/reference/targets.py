"""What a request's method and target ask: the route, the identity in the path, the parameters."""
import re

from . import json_profile, revisions
from .responses import bad_request, method_not_allowed, no_route

MAX_ID = 512  # bytes

# of each route its path (one that ends in `/ID` has an identity) and its methods
ROUTES = [
    ("root", "/", ["GET"]),
    ("database", "/db", ["GET"]),
    ("database", "/db/", ["GET"]),
    ("bulk", "/db/_bulk_docs", ["POST"]),
    ("revs_diff", "/db/_revs_diff", ["POST"]),
    ("purge", "/db/_purge", ["POST"]),
    ("compact", "/db/_compact", ["POST"]),
    ("revs_limit", "/db/_revs_limit", ["GET", "PUT"]),
    ("purged_infos_limit", "/db/_purged_infos_limit", ["GET", "PUT"]),
    ("changes", "/db/_changes", ["GET", "POST"]),
    ("all_docs", "/db/_all_docs", ["GET"]),
    ("local", "/db/_local/ID", ["GET", "PUT", "DELETE"]),
    ("document", "/db/ID", ["GET", "PUT", "DELETE"]),
]


def find_route(path):
    """The route's name, its methods, and the encoded identity."""
    for name, pattern, methods in ROUTES:
        front = pattern[: -len("ID")] if pattern.endswith("ID") else None
        if path == pattern if front is None else fits(path, front):
            return name, methods, "" if front is None else path[len(front) :]
    raise no_route()


def fits(path, front):
    """One segment that is not empty follows."""
    segment = path[len(front) :]
    return path.startswith(front) and segment != "" and "/" not in segment


ESCAPE = re.compile(rb"%([0-9a-fA-F]{2})")


def percent_decode(data):
    return ESCAPE.sub(lambda found: bytes([int(found.group(1), 16)]), data)


def is_id(id):
    return id != "" and len(id.encode("utf-8")) <= MAX_ID and not id.startswith("_")


def read_id(segment):
    try:
        id = percent_decode(segment.encode("utf-8")).decode("utf-8")
    except UnicodeDecodeError:
        raise bad_request("id") from None
    if not is_id(id):
        raise bad_request("id")
    return id


class Parameters:
    """The parameters of a query string; of a repeated name the first counts."""

    def __init__(self, query):
        self.values = {}
        for piece in query.encode("utf-8").split(b"&"):
            name, _, value = piece.partition(b"=")
            if piece:
                self.values.setdefault(form_text(name), form_text(value))

    def get(self, name):
        return self.values.get(name)

    def refuse(self, names, values=None):
        """Refuses these names, or only where they have one of the values."""
        for name in names:
            if name in self.values and (values is None or self.values[name] in values):
                raise bad_request("parameter")

    def word(self, name, words, default):
        value = self.values.get(name, default)
        if value not in words:
            raise bad_request("parameter")
        return value

    def flag(self, name):
        return self.word(name, ["true", "false"], "false") == "true"

    def number(self, name):
        value = self.values.get(name)
        if value is not None and not re.fullmatch("[0-9]{1,18}", value):
            raise bad_request("parameter")
        return None if value is None else int(value)

    def text_list(self, name):
        """A JSON list of texts."""
        try:
            found = json_profile.read(self.values[name].encode("utf-8"), json_profile.MAX_READ_NESTING)
        except json_profile.JsonFault:
            raise bad_request("parameter") from None
        if not isinstance(found, list) or not all(isinstance(text, str) for text in found):
            raise bad_request("parameter")
        return found


def form_text(encoded):
    return percent_decode(encoded.replace(b"+", b" ")).decode("utf-8", "replace")


def read_revision(text, parse=revisions.parse):
    """The revision that a parameter or a member names, or None where there is no text."""
    if text is None:
        return None
    rev = parse(text)
    if rev is None:
        raise bad_request("revision")
    return rev


def read_target(request):
    """The route's name, the method, the identity (None where the route has none) and the parameters."""
    path, _, query = request.target.decode("utf-8").partition("?")
    name, methods, segment = find_route(path)
    method = request.method.decode("ascii")
    if method not in methods:
        raise method_not_allowed(methods)
    return name, method, read_id(segment) if segment else None, Parameters(query)
