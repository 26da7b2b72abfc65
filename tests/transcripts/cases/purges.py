"""Purges, which remove leaves for good, and compactions, which drop the bodies of revisions that are no leaves."""
from .building import *  # noqa: F403
from .building import A1, A2, JSON, X2, at, curl, delete, diff, get, listed, merge, nested, opened, post, put, request, rev

B2, C2 = rev(2, "b"), rev(2, "c")
TWO_LEAVES = [merge(at("d", B2, rev(1, "a"))), merge(at("d", C2, rev(1, "a")))]
LONG_AND_SHORT = [merge(at("d", rev(4, "f"), rev(3, "e"), C2, rev(1, "a")), at("d", B2, rev(1, "a")))]
TOLD = [get("/db"), opened("d", "all", "&revs=true"), get("/db/_changes?style=all_docs")]


def purge(asked):
    return post("/db/_purge", asked)


def compact(body=None):
    return request("POST", "/db/_compact", body)


PURGED = {
    "purge-of-a-leaf": TWO_LEAVES
    + [purge({"d": [C2, rev(1, "a")], "e": [rev(1, "a")]}), get("/db"), opened("d", "all", "&revs=true")],
    "purge-of-an-inner-revision": TWO_LEAVES + [purge({"d": [rev(1, "a")]})] + TOLD,
    "purge-of-an-unknown-document": TWO_LEAVES + [purge({"no": [B2, C2]})] + TOLD + [get("/db/no")],
    "purge-of-an-unknown-revision": TWO_LEAVES + [purge({"d": [rev(2, "d"), rev(3, "b")]})] + TOLD,
    "purge-of-all-leaves": TWO_LEAVES
    + [purge({"d": [B2, C2]})]
    + TOLD
    + [
        get("/db/d"),
        get("/db/d?rev=" + rev(1, "a")),
        diff({"d": [B2, rev(1, "a")]}),
        put("/db/d", {}),
        get("/db/d?revs=true"),
        get("/db"),
        get("/db/_changes"),
    ],
    "purge-then-the-same-put": [
        put("/db/a", {}),
        purge({"a": [A1]}),
        put("/db/a", {}),
        get("/db"),
        get("/db/_changes"),
        purge({"a": [A1]}),
        get("/db"),
    ],
    "purge-then-the-same-merge": TWO_LEAVES
    + [purge({"d": [C2]}), merge(at("d", C2, rev(1, "a")))]
    + TOLD
    + [purge({"d": [C2, B2]}), merge(at("d", B2, rev(1, "a")))]
    + TOLD,
    "purge-in-the-order-asked": TWO_LEAVES + [purge({"d": [C2, B2, C2]})],
    "purge-takes-a-branch": LONG_AND_SHORT
    + [purge({"d": [rev(4, "f")]})]
    + TOLD
    + [get("/db/d?rev=" + C2), get("/db/d?rev=" + rev(1, "a")), diff({"d": [rev(4, "f"), rev(3, "e"), C2, rev(1, "a")]})],
    "purge-of-the-winner": [
        merge(at("d", B2, rev(1, "a"), n=1), at("d", C2, rev(1, "a"), _deleted=True)),
        get("/db/d"),
        purge({"d": [B2]}),
        get("/db/d"),
        get("/db"),
        get("/db/_all_docs"),
        get("/db/_changes"),
    ],
    "purge-of-a-deletion": [
        put("/db/a", {}),
        delete("/db/a?rev=" + A1),
        purge({"a": [A1]}),
        purge({"a": [X2]}),
        get("/db/a"),
        get("/db"),
        put("/db/a", {}),
    ],
    "purge-by-byte-order": [put("/db/" + id, {}) for id in ["b", "%C3%A9", "a", "B"]]
    + [purge({"é": [A1], "b": [], "a": [A1], "c": [A1], "B": [A1]}), get("/db"), get("/db/_changes"), get("/db/_all_docs")],
    "purge-of-nothing": [purge({}), put("/db/a", {}), purge({"a": []}), purge({"a": [A1], "b": []}), get("/db")],
    "purge-of-a-repeated-member": TWO_LEAVES + [purge('{"d":["%s"],"e":[],"d":["%s"]}' % (B2, C2)), opened("d", "all")],
    "purge-leaves-other-records": [
        put("/db/a", {}),
        put("/db/_local/a", {}),
        put("/db/b", {}),
        put("/db/_revs_limit", 5),
        purge({"a": [A1]}),
        get("/db/_local/a"),
        get("/db/b"),
        get("/db/_revs_limit"),
        get("/db/_changes"),
    ],
    "purge-numbers-go-on": [
        put("/db/a", {}),
        put("/db/b", {}),
        purge({"a": [A1]}),
        purge({"b": [A1], "a": [A1]}),
        put("/db/a", {}),
        purge({"a": [A1]}),
        get("/db"),
        get("/db/_changes"),
    ],
}

REFUSED_PURGES = {
    "method-of-purge": [request(method, "/db/_purge", "{}") for method in ["GET", "PUT", "DELETE", "HEAD"]] + [get("/db")],
    "purge-parameters-ignored": [put("/db/a", {}), post("/db/_purge?rev=x&new_edits=false&limit=", {"a": [A1]}), get("/db/a")],
    "purge-body": [
        post("/db/_purge", text)
        for text in [
            "",
            "{",
            "x",
            '{"a":[1.5]}',
            '{"a":[18446744073709551616]}',
            nested(73),
            nested(200),
            '{"a":' + nested(72) + "}",
            "[]",
            "1",
            "null",
            '["a"]',
            '{"a":1}',
            '{"a":{}}',
            '{"a":null}',
            '{"a":[1]}',
            '{"a":[null]}',
            '{"a":["x",1]}',
        ]
    ],
    "purge-id": [purge({id: []}) for id in ["", "_a", "_local/a", "_design/x", "x" * 513]]
    + [purge({"x" * 512: []}), purge({"a": ["x"], "_b": []})],
    "purge-revision": [
        purge({"a": [text]})
        for text in [
            "",
            "x",
            "1",
            "1-",
            "0-" + "a" * 32,
            "01-" + "a" * 32,
            "1-" + "A" * 32,
            "1-" + "a" * 31,
            "4294967296-" + "a" * 32,
            "0-1",
        ]
    ]
    + [purge({"a": [A1], "b": [A1, "1-x"]}), get("/db")],
    "purge-check-by-check": [
        purge({"a": ["x"], "_b": [1]}),
        purge({"": ["x"]}),
        purge({"a": ["x"], "b": 1}),
        put("/db/a", {}),
        purge({"a": [A1], "b": ["x"]}),
        get("/db/a"),
    ],
    "no-route-near-purge": [
        post(path, "{}")
        for path in [
            "/db/_purge/",
            "/db/_purge/x",
            "/_purge",
            "/db/_Purge",
            "/db/%5Fpurge",
            "/db/_compact/",
            "/db/_compact/x",
            "/db/_compac",
        ]
    ],
}

EDITED = [put("/db/a", {}), put("/db/a?rev=" + A1, {"n": 1})]

COMPACTED = {
    "compact-drops-old-bodies": EDITED + [get("/db/a?rev=" + A1), compact(), get("/db/a?rev=" + A1), get("/db"), get("/db/a")],
    "compact-and-the-status": EDITED
    + [
        get("/db/a?revs_info=true"),
        compact(),
        get("/db/a?revs_info=true&revs=true"),
        opened("a", listed(A1, A2)),
        opened("a", "all", "&revs=true"),
    ],
    "compact-keeps-leaves": [
        merge(at("d", rev(3, "c"), C2, rev(1, "a"), n=3), at("d", B2, rev(1, "a"), n=2)),
        merge(at("d", C2, rev(1, "a"), n=1)),
        merge(at("d", rev(2, "e"), rev(1, "a"), _deleted=True)),
        opened("d", "all", "&revs=true&conflicts=true&deleted_conflicts=true"),
        get("/db/d?revs_info=true"),
        compact(),
        opened("d", "all", "&revs=true&conflicts=true&deleted_conflicts=true"),
        get("/db/d?revs_info=true"),
    ],
    "compact-and-an-inner-deletion": [
        merge(at("d", rev(1, "a"), _deleted=True)),
        merge(at("d", B2, rev(1, "a"))),
        get("/db/d?revs_info=true"),
        compact(),
        get("/db/d?revs_info=true"),
        get("/db/d?rev=" + rev(1, "a")),
    ],
    "compact-of-a-deletion": [
        put("/db/a", {}),
        delete("/db/a?rev=" + A1),
        compact(),
        get("/db/a"),
        get("/db/a?rev=" + X2),
        get("/db/a?rev=" + A1),
        put("/db/a", {}),
        get("/db/a?revs_info=true"),
    ],
    "compact-takes-no-number": EDITED
    + [
        put("/db/b", {}),
        get("/db/_changes"),
        get("/db"),
        compact(),
        get("/db/_changes"),
        get("/db"),
        compact(),
        get("/db/_all_docs"),
        get("/db/_changes?since=2"),
    ],
    "compact-of-nothing": [compact(), get("/db"), compact(), get("/db/_changes")],
    "compact-body-ignored": EDITED
    + [
        compact("{"),
        get("/db/a?rev=" + A1),
        compact("{}"),
        compact("x" * 5000),
        post("/db/_compact?rev=x&limit=", nested(200)),
        get("/db"),
    ],
    "compact-then-the-same-merge": [
        merge(at("d", rev(1, "a"), n=1)),
        merge(at("d", B2, rev(1, "a"), n=2)),
        compact(),
        get("/db/d?rev=" + rev(1, "a")),
        merge(at("d", B2, rev(1, "a"), n=9)),
        get("/db"),
        merge(at("d", rev(1, "a"), n=3)),
        get("/db/d?rev=" + rev(1, "a")),
        get("/db"),
        get("/db/_changes"),
    ],
    "compact-then-edits": EDITED
    + [
        compact(),
        put("/db/a?rev=" + A1, {}),
        put("/db/a?rev=" + A2, {"n": 2}),
        get("/db/a?revs_info=true"),
        compact(),
        get("/db/a?revs_info=true"),
        diff({"a": [A1, A2]}),
    ],
    "compact-after-purge": [
        put("/db/x", {}),
        put("/db/y", {}),
        purge({"x": [A1]}),
        put("/db/y?rev=" + A1, {"n": 1}),
        compact(),
        get("/db"),
        get("/db/_changes"),
        get("/db/x"),
        get("/db/y?revs_info=true"),
    ],
    "purge-after-compact": TWO_LEAVES
    + [compact(), purge({"d": [C2]})]
    + TOLD
    + [compact(), purge({"d": [B2, rev(1, "a")]})]
    + TOLD,
    "compact-keeps-locals-and-limit": [put("/db/_local/r", {"n": 1}), put("/db/_revs_limit", 2)]
    + EDITED
    + [compact(), get("/db/_local/r"), get("/db/_revs_limit"), put("/db/_local/r?rev=0-1", {})],
    "method-of-compact": [request(method, "/db/_compact") for method in ["GET", "PUT", "DELETE", "HEAD"]] + [get("/db")],
}

CURL = {
    "curl-purge": [curl("PUT", "/db/a", {}, JSON), curl("POST", "/db/_purge", {"a": [A1]}, JSON), curl("GET", "/db/a")],
    "curl-compact": [
        curl("PUT", "/db/a", {}, JSON),
        curl("PUT", "/db/a?rev=" + A1, {"n": 1}, JSON),
        curl("POST", "/db/_compact", "", JSON),
        curl("GET", "/db/a?revs_info=true"),
    ],
}

PURGES = {**PURGED, **REFUSED_PURGES, "curl-purge": CURL["curl-purge"]}
COMPACTIONS = {**COMPACTED, "curl-compact": CURL["curl-compact"]}
