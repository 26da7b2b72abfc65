"""A few fixed inputs near the limits."""
import json

from lib.requests import request
from reference import revisions
from reference.json_profile import Body

BODY = 1048576  # bytes, the most of a body


def filled(front, piece, back):
    """A body of the most bytes, filled with spaces."""
    count = (BODY - len(front) - len(back)) // len(piece)
    body = front + piece * count + back
    return body + b" " * (BODY - len(body))


def bulk(count, path):
    """So many documents, each with a path of revisions."""
    documents = [
        {"_id": "d%d" % n, "_revisions": {"start": path, "ids": ["%032x" % (n + k) for k in range(path)]}} for n in range(count)
    ]
    return request("POST", "/db/_bulk_docs", json.dumps({"docs": documents, "new_edits": False}, separators=(",", ":")))


def merges(count):
    """So many conflicts of one document."""
    documents = [{"_id": "d", "_rev": "1-%032x" % n} for n in range(count)]
    return request("POST", "/db/_bulk_docs", json.dumps({"docs": documents, "new_edits": False}, separators=(",", ":")))


def edits(count):
    """So many edits of one document, each over the one before."""
    found, rev = [], None
    for n in range(count):
        body = {"n": n}
        found.append(request("PUT", "/db/e" + ("?rev=" + revisions.text(rev) if rev else ""), body))
        rev = revisions.child(rev, False, Body(body))
    return b"".join(found)


# Documents, and texts that are none for each reason.
TEXTS = [
    b'{"t":"\\u00e9\\n","n":-9223372036854775808,"t":[{"a":null}]}',
    b'{"n":1.0}',
    b'{"n":-0}',
    b'{"n":1e400}',
    b'{"n":1',
    b'{"n":1}{}',
    b'{"t":"\xff"}',
    b"[" * 72 + b"]" * 72,
    b"[" * 127 + b"]" * 127,
    b"[" * 128 + b"]" * 128,
]


def padded(sizes):
    """Each of the texts at each of these sizes, in bytes."""
    numbered = enumerate(text.ljust(size) for text in TEXTS for size in sizes)
    return b"".join(request("PUT", "/db/t%d" % n, text) + request("GET", "/db/t%d" % n) for n, text in numbered)


def inputs():
    get = request("GET", "/db/a")
    yield "texts of a kilobyte and about", padded([1000, 1023, 1024, 1025, 2048])
    yield "the largest body", request("PUT", "/db/a", filled(b"{", b" ", b"}")) + get
    yield "the largest text", request("PUT", "/db/a", filled(b'{"t":"', b"\xc3\xa9", b'"}')) + get
    yield "the longest list", request("PUT", "/db/a", filled(b'{"n":[1', b",9223372036854775807", b"]}")) + get
    yield "the deepest body", request("PUT", "/db/a", filled(b"", b"[", b"")) + request(
        "PUT", "/db/a", filled(b"", b'{"a":', b"")
    ) + get
    yield "a body that is too large", request("PUT", "/db/a", b" " * (BODY + 1)) + get
    yield "the longest number", request("PUT", "/db/a", filled(b'{"n":', b"9", b"}")) + get
    yield "many requests", request("PUT", "/db/a", {}) + get * 3000
    yield "a path past the limit", bulk(1, 1200) + bulk(1, 1200) + request("GET", "/db/d0?conflicts=true")
    yield "many conflicts of one document", merges(300) + request("GET", "/db/d?conflicts=true")
    yield "many edits of one document", edits(1100) + request(
        "POST", "/db/_revs_diff", {"e": ["1-" + "a" * 32, "1200-" + "a" * 32]}
    )
    yield "the largest bulk", bulk(7000, 2) + request("GET", "/db/d7")
    ordinary = json.dumps({"docs": [{"_id": "d%d" % (n // 2)} for n in range(10000)]}, separators=(",", ":"))
    yield "a bulk of conflicts", request("POST", "/db/_bulk_docs", ordinary)
    asked = json.dumps({"d%d" % n: ["1-" + "a" * 32] for n in range(15000)}, separators=(",", ":"))
    yield "the largest difference", request("POST", "/db/_revs_diff", asked)
    leaves = json.dumps({"d": ["1-%032x" % n for n in range(0, 300, 2)]}, separators=(",", ":"))
    yield "a purge of many leaves", merges(300) + request("POST", "/db/_purge", leaves) + request(
        "GET", "/db/d?conflicts=true"
    ) + request("GET", "/db")
    known = json.dumps({"d%d" % n: ["1-%032x" % n] for n in range(15000)}, separators=(",", ":"))
    yield "the largest purge", bulk(7000, 1) + request("POST", "/db/_purge", known) + request("GET", "/db") + request(
        "GET", "/db/_changes"
    )
    yield "a compaction of many", bulk(7000, 2) + edits(1100) + request("POST", "/db/_compact") + request(
        "GET", "/db/e?revs_info=true"
    ) + request("GET", "/db")
    yield "many changes", bulk(7000, 1) + request("GET", "/db/_changes") + request("GET", "/db/_all_docs") + request(
        "GET", "/db/_changes?since=3500&limit=10"
    )
    some = json.dumps({"doc_ids": ["d%d" % n for n in range(13999, -1, -2)] * 2}, separators=(",", ":"))
    yield "changes of many documents", bulk(7000, 1) + b"".join(
        request("POST", "/db/_changes?filter=_doc_ids" + more, some) for more in ["", "&limit=10&since=3500", "&feed=continuous"]
    )
    few = request("PUT", "/db/a", {}) + request("PUT", "/db/b", {})
    for name, body in [
        ("the longest list of ids", filled(b'{"doc_ids":["b"', b',""', b"]}")),
        ("one id many times", filled(b'{"doc_ids":["b"', b',"a"', b"]}")),
        ("many ids of the most bytes", filled(b'{"doc_ids":["b"', b',"' + b"x" * 512 + b'"', b"]}")),
        ("the longest text in the place of an id", filled(b'{"doc_ids":["b","', b"x", b'"]}')),
        ("the deepest list of ids", filled(b'{"doc_ids":', b"[", b"")),
    ]:
        yield name, few + request("POST", "/db/_changes?filter=_doc_ids", body) + request("GET", "/db")
    unknown = json.dumps({"doc_ids": ["n%d" % n for n in range(100000)] + ["a"]}, separators=(",", ":"))
    yield "changes of many that are unknown", few + request("POST", "/db/_changes?filter=_doc_ids", unknown) + request(
        "POST", "/db/_changes?filter=_doc_ids&feed=continuous", unknown
    )
    limits = [request("PUT", "/db/_purged_infos_limit", limit) for limit in (4294967295, 1, 1000)]
    purge = request("POST", "/db/_purge", known)
    yield "a cut of a long log", bulk(7000, 1) + limits[0] + purge + limits[1] + bulk(7000, 1) + purge + limits[2] + bulk(
        10, 1
    ) + purge + request("POST", "/db/_compact") + request("GET", "/db") + request("GET", "/db/_purged_infos_limit")
    yield "a long path shown", edits(20) + request("GET", "/db/e?revs=true&revs_info=true") + bulk(1, 1000) + request(
        "GET", "/db/d0?revs=true&revs_info=true&open_revs=all"
    )
