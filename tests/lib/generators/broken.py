"""Faults: in the parts of a request that refusals distinguish, and in the bytes of a head."""
import json

from lib.requests import encoded, request

MEMBERS = {
    "_x": [1, []],
    "z": [[], ["1-" + "a" * 32], ["x"]],
    "_id": [1, None, "", "_x", "other", "x" * 513, "_local/r"],
    "_rev": [1, None, "", "x", "1-" + "A" * 32, "0-1", "1-" + "c" * 32],
    "_deleted": [1, None, "true", True, False],
    "_revisions": [
        1,
        None,
        {},
        {"start": 1},
        {"start": 1, "ids": []},
        {"start": 0, "ids": ["a" * 32]},
        {"start": 1, "ids": ["a" * 32, "b" * 32]},
        {"start": 2, "ids": ["x"]},
    ],
    "_local_seq": [1, [[]]],
    "_attachments": [{}],
    "docs": [1, None, {}, [1], [{}], [[]], [{"_id": 1}]],
    "doc_ids": [1, None, {}, "a", True, [1], [None], [[]], [{}], ["a", 1], ["a", 1.5], [], ["a", "a", ""]],
    "new_edits": [1, None, "false", False, True],
    "n": [1.5, -0.0, 2**63, 2**64, -(2**63)],
}
PARAMETERS = [
    "rev",
    "rev=",
    "rev=x",
    "rev=1-" + "A" * 32,
    "rev=%31-" + "a" * 32,
    "rev=0-1",
    "rev=0-0",
    "new_edits=false",
    "new_edits=true",
    "conflicts=1",
    "conflicts",
    "revs=x",
    "revs=true",
    "latest=",
    "latest=true",
    "open_revs=",
    "open_revs=all",
    "open_revs=[1]",
    "open_revs=[%22x%22]",
    "open_revs=[]",
    "since=x",
    "since=-1",
    "since=1234567890123456789",
    "since=now",
    "limit=",
    "limit=1",
    "limit=0000000000000000000",
    "style=x",
    "feed=x",
    "feed=longpoll",
    "include_docs=true",
    "include_docs=false",
    "descending=true",
    "filter=x",
    "view",
    "key=1",
    "skip=0",
    "filter=_doc_ids",
    "filter=",
    "filter=_doc_id",
    "filter=_view",
    "doc_ids=[%22a%22]",
    "%",
    "&&",
    "=",
    "+=+",
    "%ff=%ff",
    "x=1",
    "re%76=x",
]
PATHS = [
    "/db/_x",
    "/db/",
    "/db",
    "/db//",
    "/x",
    "/db/a/b",
    "/db/_local/",
    "/db/_local",
    "/db/_local/_x",
    "/db/%ff",
    "/db/" + "y" * 513,
    "*",
    "/db/_changes/",
    "/db/_purge",
    "/db/_compact",
    "/db/_purged_infos_limit",
    "/db/_purged_infos",
]
LIMITS = [0, -1, 1, 2**32 - 1, 2**32, 2**63, 1.5, True, "1", [1]]
METHODS = ["GET", "PUT", "POST", "DELETE", "HEAD", "put", "PATCH"]
HEADERS = [
    "Content-Length: 1",
    "Content-Length: x",
    "Content-Length:",
    "Content-Length: 99999999999999999999999",
    "Content-Length: 1048577",
    "Transfer-Encoding: chunked",
    "Connection: close",
    "Connection: keep-alive",
    "Connection: CLOSE",
    "Connection: close, x",
    "Expect: 100-continue",
    "Bad Name: x",
    ": x",
    "X",
    "X: \x01",
    "X:\ty ",
    "X : y",
]
BYTES = b'\x00\x01\t\n\r "%&/?=:{}[],\\_-019aeHTP\x7f\x80\xc3\xa9\xff'


def random_byte(random):
    return bytes([random.choice(BYTES)])


def change_bytes(random, data):
    """One to three bytes changed, left out or put in."""
    for _ in range(random.randint(1, 3)):
        at = random.randint(0, len(data))
        kind = random.randint(0, 2)
        data = data[:at] + (b"" if kind == 0 else random_byte(random)) + data[at + (kind != 1) :]
    return data


def change_member(random, value):
    """The value with a member that may not be there, in the object or in one of its documents; in the place of a limit one that
    may be out of range."""
    if isinstance(value, int):
        return random.choice(LIMITS)
    if not isinstance(value, dict):
        return random.choice([value, [], {}, None, "x"])
    documents = value.get("docs")
    if isinstance(documents, list) and documents and random.random() < 0.7:
        documents = list(documents)
        at = random.randrange(len(documents))
        documents[at] = change_member(random, documents[at])
        return dict(value, docs=documents)
    name = "doc_ids" if "doc_ids" in value and random.random() < 0.6 else random.choice(sorted(MEMBERS))
    if name in value and random.random() < 0.3:
        return {k: v for k, v in value.items() if k != name}
    return dict(value, **{name: random.choice(MEMBERS[name])})


def deep(random, value):
    """The value with a member that nests near one of the limits."""
    levels = random.choice([60, 61, 62, 63, 64, 65, 68, 69, 70, 71, 72, 126, 127, 128])
    text = encoded(value).decode()
    if not text.startswith("{") or text == "{}":
        return "[" * levels + "]" * levels
    return text[:-1] + ',"z":' + "[" * levels + "]" * levels + "}"


def fault(random, asked):
    """A request with a fault, mostly, as bytes: it stays one request of the connection."""
    method, target, body = asked
    kind = random.choice([0, 1, 2, 2, 2, 3, 3, 3, 4, 5, 6])
    if kind == 0:
        method = random.choice(METHODS)
    elif kind == 1:
        target = random.choice(PATHS)
    elif kind == 2:
        for _ in range(random.randint(1, 2)):
            target += random.choice("?&" if "?" in target else "?") + random.choice(PARAMETERS)
    elif kind == 3:
        body = change_member(random, body if body is not None else {})
    elif kind == 4:
        body = change_bytes(random, encoded(body if body is not None else {"a": [1, True, "é"]}))
    elif kind == 5:
        body = deep(random, body)
    else:
        body = repeat_member(body)
    return request(method, target, body)


def repeat_member(body):
    """A member twice: the last counts."""
    if not isinstance(body, dict):
        return body
    text = json.dumps(body, ensure_ascii=False)
    return '{"n":1.5,"_id":7,' + text[1:] if len(body) else '{"n":1.5,"n":2}'


def last_bytes(random, asked):
    """How an input ends: whole, cut inside a request, with bytes that are no head, or with a close and more behind it."""
    whole = request(*asked)
    kind = random.randint(0, 6)
    if kind == 0:
        return whole
    if kind == 1:
        return whole[: random.randint(0, len(whole) - 1)]
    if kind == 2:
        return change_bytes(random, whole) + request("GET", "/")
    if kind == 3:
        headers = [random.choice(HEADERS) for _ in range(random.randint(1, 3))]
        return request(*asked, headers) + whole
    if kind == 4:
        return whole.replace(b"HTTP/1.1", random.choice([b"HTTP/1.0", b"HTTP/1.2", b"HTTP/2", b"http/1.1", b""]), 1) + whole
    if kind == 5:
        return b"".join(random_byte(random) for _ in range(random.randint(1, 60)))
    lines = ["X%d: %s" % (n, "y" * random.randint(0, 400)) for n in range(random.randint(50, 80))]
    return request(*asked, lines) + whole
