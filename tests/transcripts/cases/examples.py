"""The stories of `examples/`, as a person writes them: with plain line ends, and one after each body."""
from .building import child, delete, encoded, get, merge, bulk, put

FIRST = [put("/db/apple", {"color": "red"}), get("/db/apple"), get("/db/pear")]

# two writers go on from one list of shopping, each at home, and then send what they have
BREAD = {"items": ["bread"]}
ANN = {"by": "Ann", "items": ["bread", "milk"]}
BOB = {"by": "Bob", "items": ["bread", "tea"]}
BOTH = {"by": "Ann and Bob", "items": ["bread", "milk", "tea"]}


def revision(parent, body):
    return child(parent, False, encoded(body).decode("utf-8"))


def sent(body):
    """A revision over the first list, as replication sends it: with its path."""
    ids = [revision(START, body).split("-")[1], START.split("-")[1]]
    return merge(dict(_id="shopping", _revisions={"start": 2, "ids": ids}, **body))


START = revision(None, BREAD)
LOSER, WINNER = sorted([revision(START, ANN), revision(START, BOB)])

CONFLICT = [
    put("/db/shopping", BREAD),
    sent(ANN),
    sent(BOB),
    get("/db/shopping?conflicts=true"),
    get("/db/shopping?rev=" + LOSER),
    bulk(dict(_id="shopping", _rev=WINNER, **BOTH), dict(_id="shopping", _rev=LOSER, _deleted=True)),
    get("/db/shopping?conflicts=true&revs_info=true"),
    put("/db/party", {"when": "Friday"}),
    delete("/db/party?rev=" + revision(None, {"when": "Friday"})),
    get("/db/_changes?since=3"),
]


def written(requests):
    for request in requests:
        head, _, body = request.partition(b"\r\n\r\n")
        yield head.replace(b"\r\n", b"\n") + b"\n\n" + (body + b"\n" if body else b"")


CASES = {"first": list(written(FIRST)), "conflict": list(written(CONFLICT))}
