"""Queries: the whole database, changes, local documents, a document with all its parameters, and curl's own bytes."""
from .building import *  # noqa: F403
from .building import (
    A1,
    A2,
    EXPECT,
    JSON,
    X2,
    at,
    bulk,
    child,
    curl,
    delete,
    diff,
    get,
    listed,
    merge,
    nested,
    nested_body,
    opened,
    put,
    quote,
    request,
    rev,
)

TWO_PATHS = [merge(at("d", rev(2, "b"), rev(1, "a"))), merge(at("d", rev(3, "c"), rev(2, "d"), rev(1, "a")))]
THREE = [put("/db/" + id, {}) for id in "abc"]
THREE_AND_A_DELETION = THREE + [delete("/db/a?rev=" + A1)]


def each(front, texts):
    return [get(front + text) for text in texts]


TOLD = {
    "merge-twice-takes-one-number": [merge(at("d", rev(1, "a")))] * 2 + [get("/db")],
    "path-and-its-status": [
        merge(at("d", rev(2, "b"))),
        merge(at("d", rev(3, "c"), rev(2, "b"), rev(1, "a"))),
        get("/db/d?revs=true&revs_info=true"),
        get("/db"),
    ],
    "local-document": [
        put("/db/_local/r", {"last_seq": 2}),
        put("/db/_local/r", {"last_seq": 2}),
        put("/db/_local/r", {"last_seq": 2, "_rev": "0-1"}),
        delete("/db/_local/r?rev=0-2"),
        delete("/db/_local/r"),
        get("/db/_changes"),
    ],
    "changes-in-pages": THREE_AND_A_DELETION
    + [get("/db/_changes?limit=2"), get("/db/_changes?since=3"), get("/db/a"), get("/db/_all_docs")],
    "open-latest-revisions": TWO_PATHS + [opened("d", listed(rev(1, "a"), rev(9, "9")), "&latest=true")],
    "changes-followed": THREE_AND_A_DELETION + [get("/db/_changes?since=%d&limit=2" % since) for since in [0, 3, 4]],
    "update-number-stays-after-refusals": [
        put("/db/a", {}),
        put("/db/a", {}),
        get("/db"),
        merge(at("d", rev(2, "b"), rev(1, "a"))),
        merge(at("d", rev(2, "b"), rev(1, "c"))),
        get("/db"),
        bulk(),
        put("/db/_revs_limit", 7),
        put("/db/_local/x", {}),
        delete("/db/no"),
        get("/db"),
    ],
    "merge-stemmed-away-takes-no-number": [
        put("/db/_revs_limit", 1),
        merge(at("d", rev(2, "b"), rev(1, "a"))),
        get("/db"),
        merge(at("d", rev(2, "b"), rev(1, "a"))),
        get("/db"),
        merge(at("d", rev(1, "a"))),
        get("/db"),
        merge(at("d", rev(2, "b"), rev(1, "a"))),
        get("/db"),
    ],
}

DOCUMENTS = {
    "get-revs": [
        put("/db/a", {}),
        get("/db/a?revs=true"),
        put("/db/a?rev=" + A1, {"n": 1}),
        get("/db/a?revs=true"),
        get("/db/a?revs=true&rev=" + A1),
        get("/db/a?revs=false"),
    ],
    "get-revs-of-a-part": [
        merge(at("d", rev(7, "b"), rev(6, "a"))),
        get("/db/d?revs=true"),
        put("/db/_revs_limit", 2),
        put("/db/d?rev=" + rev(7, "b"), {}),
        get("/db/d?revs=true&revs_info=true"),
    ],
    "get-revs-info": [
        put("/db/a", {}),
        delete("/db/a?rev=" + A1),
        put("/db/a", {}),
        get("/db/a?revs_info=true"),
        merge(at("a", rev(3, "f"), rev(2, "e"))),
        get("/db/a?revs_info=true&conflicts=true"),
    ],
    "get-latest": TWO_PATHS
    + [
        get("/db/d?latest=true&rev=" + text)
        for text in [rev(1, "a"), rev(2, "d"), rev(2, "b"), rev(3, "c"), rev(9, "9"), rev(2, "c")]
    ]
    + [get("/db/d?latest=true"), get("/db/d?latest=false&rev=" + rev(2, "b")), get("/db/d?rev=" + rev(2, "d"))],
    "get-latest-prefers-live": [
        merge(at("d", rev(3, "f"), rev(2, "e"), rev(1, "a"), _deleted=True), at("d", rev(2, "b"), rev(1, "a"))),
        get("/db/d?latest=true&rev=" + rev(1, "a")),
        get("/db/d?latest=true&rev=" + rev(2, "e")),
    ],
    "get-all-parameters": [
        merge(
            at("d", rev(2, "b"), rev(1, "a"), n=1), at("d", rev(2, "c"), rev(1, "a"), n=2), at("d", rev(1, "e"), _deleted=True)
        ),
        get("/db/d?revs=true&revs_info=true&conflicts=true&deleted_conflicts=true&latest=true&rev=" + rev(1, "a")),
        get("/db/d?revs=true&revs_info=true&conflicts=true&deleted_conflicts=true&rev=" + rev(1, "e")),
    ],
    "open-all": TWO_PATHS
    + [
        merge(at("d", rev(1, "f"), _deleted=True)),
        opened("d", "all"),
        opened("d", "all", "&revs=true&conflicts=true"),
        opened("no", "all"),
    ],
    "open-listed": TWO_PATHS
    + [
        opened("d", listed(rev(2, "b"), rev(1, "a"), rev(9, "9"), rev(2, "b"))),
        opened("d", "[]"),
        opened("no", listed(rev(1, "a"), rev(1, "a"))),
        opened("d", " [ ] "),
        get("/db/d?open_revs=+[+]+"),
    ],
    "open-latest-each-once": TWO_PATHS
    + [
        opened("d", listed(rev(2, "b"), rev(1, "a"), rev(9, "9"), rev(3, "c"), rev(9, "9")), "&latest=true"),
        opened("d", "all", "&latest=true"),
        opened("no", listed(rev(1, "a")), "&latest=true"),
    ],
    "open-before-revision": TWO_PATHS + [opened("d", "all", "&rev=" + rev(2, "b")), opened("no", "[]", "&rev=" + rev(2, "b"))],
    "deepest-answer": [put("/db/a", nested_body(64)), opened("a", "all")],
}

LOCALS = {
    "local-get": [
        get("/db/_local/r"),
        put("/db/_local/r", {"n": {"m": []}}),
        get("/db/_local/r"),
        put("/db/_local/r?rev=0-1", {}),
        get("/db/_local/r"),
        get("/db/_local/r?rev=x&revs=x"),
    ],
    "local-revision-named": [
        put("/db/_local/r?rev=0-1", {}),
        put("/db/_local/r", {"_id": "_local/r"}),
        put("/db/_local/r?rev=0-1", {"_rev": "0-1"}),
        put("/db/_local/r?rev=0-1", {}),
        put("/db/_local/r", {}),
        put("/db/_local/r?rev=0-3", {}),
        get("/db/_local/r"),
    ],
    "local-delete": [
        delete("/db/_local/r"),
        delete("/db/_local/r?rev=0-1"),
        put("/db/_local/r", {}),
        delete("/db/_local/r"),
        delete("/db/_local/r?rev=0-2"),
        delete("/db/_local/r?rev=0-1", body="x"),
        get("/db/_local/r"),
        put("/db/_local/r", {}),
        get("/db/_local/r"),
    ],
    "local-not-replicated": [
        put("/db/_local/a", {}),
        get("/db"),
        get("/db/_all_docs"),
        get("/db/_changes"),
        get("/db/a"),
        diff({"a": [A1]}),
    ],
    "local-ids": [
        put("/db/_local/a%2Fb", {"_id": "_local/a/b"}),
        get("/db/_local/a%2Fb"),
        put("/db/_local/" + "x" * 512, {}),
        put("/db/_local/a", {}),
        put("/db/a", {}),
        get("/db/_local/a"),
    ],
}

WHOLE = {
    "info": [get("/db"), get("/db/")] + THREE_AND_A_DELETION + [get("/db/?x=1"), get("/db")],
    "all-docs": [put("/db/" + quote(id), {}) for id in ["b", "a", "é", "B", "aa", "~"]]
    + [
        merge(at("x", rev(1, "a"), _deleted=True)),
        merge(at("c", rev(1, "b"), _deleted=True), at("c", rev(1, "a"))),
        get("/db/_all_docs"),
    ],
    "all-docs-of-none": [get("/db/_all_docs"), get("/db/_all_docs?include_docs=false&descending=x&limits=1&conflicts=1")],
    "changes-styles": TWO_PATHS
    + [merge(at("d", rev(4, "f"), rev(3, "0"), _deleted=True)), put("/db/a", {})]
    + each("/db/_changes?", ["style=main_only", "style=all_docs", "style=all_docs&feed=normal&limit=1"]),
    "changes-limits": THREE_AND_A_DELETION
    + each(
        "/db/_changes?",
        ["limit=0", "limit=1", "limit=3", "limit=4", "limit=999999999999999999", "limit=002&since=0003", "since=2&limit=1"],
    ),
    "changes-since": THREE_AND_A_DELETION
    + each("/db/_changes?", ["since=0", "since=4", "since=5", "since=999999999999999999", "since=now", "since=now&limit=1"]),
    "changes-of-a-long-poll-alone": each("/db/_changes?feed=", ["longpoll", "longpoll&since=now"])
    + THREE_AND_A_DELETION
    + each(
        "/db/_changes?feed=longpoll",
        ["", "&limit=1", "&limit=0&style=all_docs", "&since=3", "&since=4", "&since=now", "&since=9", "&feed=x"],
    ),
    "changes-each-document-once": [
        put("/db/a", {}),
        put("/db/b", {}),
        put("/db/a?rev=" + A1, {"n": 1}),
        get("/db/_changes"),
        put("/db/a?rev=" + A2, {"_deleted": True}),
        get("/db/_changes?since=1"),
    ],
    "changes-deleted-winner-alone": [
        merge(at("d", rev(2, "b"), _deleted=True), at("d", rev(1, "a"))),
        get("/db/_changes?style=all_docs"),
    ],
    "changes-parameters-ignored": [
        get("/db/_changes?include_docs=false&descending=false&heartbeat=x&timeout=1&conflicts=1&first=&since=0&since=x")
    ],
}

REFUSALS = {
    "method-of-database": [request(method, path) for method in ["PUT", "POST", "DELETE", "HEAD"] for path in ["/db", "/db/"]],
    "method-of-changes": [request("POST", "/db/_changes", "{}"), request("HEAD", "/db/_changes")],
    "method-of-all-docs": [request("POST", "/db/_all_docs", '{"keys":[]}'), request("DELETE", "/db/_all_docs")],
    "method-of-local": [request("POST", "/db/_local/r", "{}"), request("HEAD", "/db/_local/_r")],
    "no-route-near-others": each(
        "", ["/db/_local/", "/db/_local/a/b", "/db/_changes/", "/db/_all_docs/x", "/db/_design/x", "/db//_changes"]
    )
    + [put("/db/_local/", {}), delete("/db/_local/")],
    "id-near-routes": each(
        "", ["/db/_local", "/db/_change", "/db/_changesx", "/db/%5Fchanges", "/db/_local%2Fx", "/db/_bulk_get", "/db/_security"]
    ),
    "parameter-of-document": each(
        "/db/a?",
        [
            "revs",
            "revs=1",
            "revs_info=",
            "latest=yes",
            "conflicts=x",
            "open_revs=",
            "open_revs",
            "open_revs=al",
            "open_revs=%5B",
            "open_revs=1.5",
            "open_revs=%7B%7D",
            "open_revs=%221-x%22",
            "open_revs=%5B1%5D",
            "open_revs=%5B1.5%5D",
            "open_revs=%5B%22x%22,1%5D",
            "open_revs=all&revs=x",
            "latest=x&rev=x",
        ],
    )
    + [opened("a", nested(73)), opened("a", nested(200))],
    "revision-of-open": [
        opened("a", listed("x")),
        opened("a", listed(A1, "1-" + "A" * 32)),
        opened("a", "all", "&rev=x"),
        opened("a", "[]", "&rev="),
    ],
    "parameter-of-changes": each(
        "/db/_changes?",
        [
            "since=",
            "since",
            "since=x",
            "since=-1",
            "since=%2B1",
            "since=1.0",
            "since=1000000000000000000",
            "since=NOW",
            "limit=",
            "limit=x",
            "limit=-1",
            "limit=0000000000000000001",
            "style=",
            "style=all",
            "feed=",
            "feed",
            "feed=eventsource",
            "feed=Normal",
            "feed=longpoll&since=x",
            "feed=long",
            "include_docs=true",
            "descending=true",
            "filter=",
            "filter=_doc_ids",
            "filter",
            "view=x",
            "view",
        ],
    ),
    "parameter-of-all-docs": each(
        "/db/_all_docs?",
        [
            "include_docs=true",
            "descending=true",
            "key=",
            "keys",
            "startkey=%22a%22",
            "endkey=x",
            "start_key=x",
            "end_key=x",
            "skip=0",
            "limit=1",
            "x=1&limit=",
        ],
    ),
    "local-id": each("", ["/db/_local/_x", "/db/_local/%5Fx", "/db/_local/" + "x" * 513, "/db/_local/%ff"])
    + [put("/db/_local/_x?rev=x", "{")],
    "local-revision": [
        put("/db/_local/r?rev=" + text, "{") for text in ["", "x", "0", "0-", "0-0", "0-01", "1-1", "0-4294967296", "0--1", A1]
    ]
    + [delete("/db/_local/r?rev=x"), delete("/db/_local/r?rev")]
    + [put("/db/_local/r", {"_rev": text}) for text in ["", "1", "0-0", A1]]
    + [put("/db/_local/r?rev=0-4294967295", {"_rev": "0-1"}), put("/db/_local/r?rev=0-4294967295", {})],
    "local-body": [
        put("/db/_local/r", text)
        for text in ["", "{", '{"n":1.5}', nested(73), nested_body(65), "[]", "1", '{"_id":1}', '{"_rev":1}', '{"_rev":null}']
    ],
    "local-member": [
        put("/db/_local/r", text)
        for text in [
            '{"_deleted":true}',
            '{"_deleted":false}',
            '{"_deleted":1}',
            '{"_revisions":1}',
            '{"_local_seq":1}',
            '{"_conflicts":1}',
            '{"_x":1}',
            '{"_id":"r","_x":1}',
            '{"_id":1,"_x":1}',
        ]
    ],
    "local-id-in-body": [put("/db/_local/r", {"_id": id}) for id in ["r", "_local/s", "", "_local/", "_local%2Fr"]]
    + [put("/db/_local/r", {"_id": "r", "_rev": "x"})],
}

DESCRIBED = [at("d", rev(2, "b"), rev(1, "a")), at("d", rev(2, "c"), rev(1, "a"), n=1)]

CURL = {
    "curl-root": [curl("GET", "/"), curl("HEAD", "/")],
    "curl-database": [curl("GET", "/db"), curl("GET", "/db/")],
    "curl-document": [
        curl("PUT", "/db/a", {}, JSON),
        curl("GET", "/db/a"),
        curl("PUT", "/db/a?rev=" + A1, {"n": 1}, EXPECT),
        curl("GET", "/db/a?revs=true"),
        curl("DELETE", "/db/a?rev=" + A2),
        curl("GET", "/db/a"),
        curl("PUT", "/db/a", {}),
    ],
    "curl-bulk-docs": [
        curl("POST", "/db/_bulk_docs", {"docs": DESCRIBED, "new_edits": False}, EXPECT),
        curl("POST", "/db/_bulk_docs", {"docs": [{"_id": "e"}, {"_id": "e"}]}, JSON),
        curl("GET", "/db/d?conflicts=true"),
    ],
    "curl-revs-diff": [
        curl("PUT", "/db/a", {}, JSON),
        curl("POST", "/db/_revs_diff", {"a": [A1, A2]}, JSON),
        curl("POST", "/db/_revs_diff", {"a": [A2]}, EXPECT),
    ],
    "curl-revs-limit": [curl("PUT", "/db/_revs_limit", 20, JSON), curl("GET", "/db/_revs_limit")],
    "curl-changes": [
        curl("PUT", "/db/a", {}, JSON),
        curl("GET", "/db/_changes"),
        curl("GET", "/db/_changes?since=1&limit=10&style=all_docs"),
    ],
    "curl-all-docs": [curl("PUT", "/db/a", {}, JSON), curl("GET", "/db/_all_docs")],
    "curl-local": [
        curl("PUT", "/db/_local/r", {"last_seq": 2}, JSON),
        curl("GET", "/db/_local/r"),
        curl("PUT", "/db/_local/r", {"_rev": "0-1"}, EXPECT),
        curl("DELETE", "/db/_local/r?rev=0-2"),
    ],
    "curl-open-revs": [
        curl("POST", "/db/_bulk_docs", {"docs": DESCRIBED, "new_edits": False}, JSON),
        curl("GET", '/db/d?open_revs=["%s","%s"]' % (rev(2, "b"), rev(2, "9"))),
        curl("GET", "/db/d?open_revs=all&revs=true"),
    ],
}

# a feed that goes on closes the connection, so each is a connection of its own
FEEDS = {
    "feed-of-none": [get("/db/_changes?feed=continuous"), get("/db")],
    "feed-limited": THREE + [get("/db/_changes?feed=continuous&limit=2")],
    "feed-whole": THREE_AND_A_DELETION + [get("/db/_changes?feed=continuous")],
    "feed-of-all-leaves": TWO_PATHS + [get("/db/_changes?feed=continuous&style=all_docs")],
    "feed-limit-of-0": THREE + [get("/db/_changes?feed=continuous&limit=0")],
    "feed-limit-reached-at-the-end": THREE + [get("/db/_changes?feed=continuous&limit=3")],
    "feed-since": THREE_AND_A_DELETION + [get("/db/_changes?feed=continuous&since=3")],
    "feed-since-now": THREE + [get("/db/_changes?feed=continuous&since=now")],
    "feed-since-later": THREE + [get("/db/_changes?feed=continuous&since=9")],
    "feed-parameters": each("/db/_changes?feed=continuous&", ["since=x", "limit=x", "style=x", "include_docs=true", "filter=x"])
    + [get("/db/_changes?feed=continuous&heartbeat=x&timeout=1")],
}

CASES = {**TOLD, **DOCUMENTS, **LOCALS, **WHOLE, **REFUSALS, **CURL, **FEEDS}
