"""Requests as bytes, and identities of revisions, as the transcripts use them."""
import hashlib
from urllib.parse import quote

from lib import requests
from lib.requests import encoded, request


def get(target, **more):
    return request("GET", target, **more)


def put(target, body, **more):
    return request("PUT", target, body, **more)


def post(target, body, **more):
    return request("POST", target, body, **more)


def delete(target, **more):
    return request("DELETE", target, **more)


SENT_BY_CURL = ["Host: 127.0.0.1:5984", "User-Agent: curl/7.88.1", "Accept: */*"]
FORM = "Content-Type: application/x-www-form-urlencoded"


def curl(method, target, body=None, headers=()):
    """The bytes that curl sends for `curl -X METHOD -H HEADER -d BODY URL`."""
    is_form = body is not None and not any(line.startswith("Content-Type") for line in headers)
    return request(method, target, body, [*SENT_BY_CURL, *headers], behind=[FORM] if is_form else [])


JSON = ["Content-Type: application/json"]
EXPECT = ["Expect: 100-continue", "Content-Type: application/json"]

# ---- revisions


def child(parent, deleted, body):
    """The identity of an edit: of the flag, the parent and the compact text of the body."""
    over = "%s,%s,%s" % ("1" if deleted else "0", parent or "", body)
    generation = 1 + int(parent.split("-")[0]) if parent else 1
    return "%d-%s" % (generation, hashlib.md5(over.encode("utf-8")).hexdigest())


A1 = child(None, False, "{}")
A2 = child(A1, False, '{"n":1}')
A3 = child(A2, False, '{"n":2}')
X2 = child(A1, True, "{}")
X3 = child(X2, False, "{}")


def rev(generation, digit):
    """The identity whose hash is one digit 32 times."""
    return "%d-%s" % (generation, digit * 32)


# ---- bulks


def bulk(*documents, **members):
    return requests.bulk(list(documents), **members)


def merge(*documents):
    return bulk(*documents, new_edits=False)


def at(id, *path, **members):
    """A document of a merge: the path of its revisions, newest first."""
    if len(path) == 1:
        return dict(_id=id, _rev=path[0], **members)
    ids = [text.split("-")[1] for text in path]
    return dict(_id=id, _revisions={"start": int(path[0].split("-")[0]), "ids": ids}, **members)


def diff(asked):
    return post("/db/_revs_diff", asked)


def opened(id, revs, more=""):
    return get("/db/%s?open_revs=%s%s" % (id, quote(revs, safe=""), more))


def listed(*revs):
    return "[%s]" % ",".join('"%s"' % text for text in revs)


def nested(levels):
    """So many arrays in one another."""
    return "[" * levels + "]" * levels


def nested_body(levels):
    """An object of that nesting."""
    return '{"n":' + nested(levels - 1) + "}"


__all__ = [name for name in dir() if not name.startswith("_")]
