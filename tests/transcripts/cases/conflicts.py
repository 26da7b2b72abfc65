"""Conflicts: revisions named, deletions, both forms of bulk, differences, the revision limit."""
from .building import *  # noqa: F403
from .building import A1, A2, A3, X2, X3, at, bulk, child, delete, diff, get, merge, nested, nested_body, post, put, request, rev

LAST = 4294967295


def bulks(bodies):
    """Each body sent as a bulk."""
    return [post("/db/_bulk_docs", body) for body in bodies]


def merges(documents):
    """Each document text in a merge of its own."""
    return bulks('{"docs":[%s],"new_edits":false}' % text for text in documents)


TOLD = {
    "winner-is-not-deleted": [
        merge(at("d", rev(2, "f"), _deleted=True), at("d", rev(1, "0"))),
        get("/db/d"),
        get("/db"),
    ],
    "conflict-kept": [merge(at("d", rev(1, "a"))), merge(at("d", rev(1, "b"))), get("/db/d?conflicts=true")],
    "second-parent-refused": [
        merge(at("d", rev(2, "b"), rev(1, "a"))),
        merge(at("d", rev(2, "b"), rev(1, "c"))),
        get("/db/d?rev=" + rev(1, "c")),
        get("/db/d"),
    ],
    "limit-of-one-revision": [
        put("/db/_revs_limit", 1),
        put("/db/a", {}),
        put("/db/a", dict(_rev=A1, n=1)),
        put("/db/a", dict(_rev=A2, n=2)),
        diff({"a": [A1, A2, A3]}),
        get("/db/_revs_limit"),
    ],
    "bulk-in-listed-order": [
        put("/db/a", "{}"),
        bulk(dict(_id="a", _rev=A1, n=1), dict(_id="a", _rev=A1, n=2)),
        bulk(),
        get("/db/a"),
    ],
    "differences": [
        merge(at("d", rev(2, "b"), rev(1, "a"))),
        merge(at("d", rev(3, "c"), rev(2, "d"), rev(1, "a"))),
        diff({"d": [rev(3, "c"), rev(3, "e"), rev(2, "f")]}),
    ],
    "write-after-deletion": [
        put("/db/a", "{}"),
        delete("/db/a?rev=" + A1),
        delete("/db/a"),
        put("/db/a", "{}"),
        get("/db/a"),
    ],
}

EDITS = {
    "edit-by-parameter": [put("/db/a", {}), put("/db/a?rev=" + A1, {"n": 1}), get("/db/a"), get("/db/a?rev=" + A1)],
    "edit-by-member": [put("/db/a", {}), put("/db/a", {"_rev": A1, "n": 1}), get("/db/a")],
    "edit-by-both": [put("/db/a", {}), put("/db/a?rev=" + A1, {"_rev": A1, "n": 1})],
    "edit-names-two-revisions": [put("/db/a", {}), put("/db/a?rev=" + A1, {"_rev": A2}), get("/db/a")],
    "edit-of-unknown-names-revision": [put("/db/a?rev=" + A1, {}), get("/db/a")],
    "edit-over-older-revision": [
        put("/db/a", {}),
        put("/db/a?rev=" + A1, {"n": 1}),
        put("/db/a?rev=" + A1, {"n": 2}),
        get("/db/a"),
    ],
    "edit-names-no-revision": [put("/db/a", {}), put("/db/a", {"n": 1}), delete("/db/a")],
    "edit-over-losing-leaf": [
        merge(at("d", rev(1, "a")), at("d", rev(1, "b"))),
        put("/db/d?rev=" + rev(1, "a"), {}),
        get("/db/d?conflicts=true"),
    ],
    "edit-over-deleted-leaf": [
        put("/db/a", {}),
        delete("/db/a?rev=" + A1),
        put("/db/a?rev=" + X2, {}),
        put("/db/a?rev=" + X3, {"n": 1}),
    ],
    "delete": [put("/db/a", {}), delete("/db/a?rev=" + A1), get("/db/a"), get("/db/a?rev=" + X2), get("/db/a?rev=" + A1)],
    "delete-unknown": [delete("/db/a"), delete("/db/a?rev=" + A1), put("/db/a", {"_deleted": True}), get("/db/a")],
    "delete-deleted": [
        put("/db/a", {}),
        delete("/db/a?rev=" + A1),
        delete("/db/a"),
        delete("/db/a?rev=" + A1),
        delete("/db/a?rev=" + X2),
    ],
    "delete-names-no-revision": [put("/db/a", {}), delete("/db/a"), get("/db/a")],
    "delete-body-not-read": [put("/db/a", {}), delete("/db/a?rev=" + A1, body="not read")],
    "delete-by-member": [
        put("/db/a", {}),
        put("/db/a", {"_rev": A1, "_deleted": True, "why": "old"}),
        get("/db/a"),
        get("/db/a?rev=" + child(A1, True, '{"why":"old"}')),
    ],
    "not-deleted-by-member": [put("/db/a", {"_deleted": False}), get("/db/a")],
    "bad-history-of-edit": [
        put("/db/a", {}),
        merge(at("a", A2, rev(1, "c"))),
        put("/db/a?rev=" + A1, {"n": 1}),
        get("/db/a?conflicts=true"),
    ],
    "edit-links-known-revision": [
        put("/db/a", {}),
        merge(at("a", A2)),
        put("/db/a?rev=" + A1, {"n": 1}),
        get("/db/a?conflicts=true"),
    ],
    "last-generation": [
        merge(at("d", "%d-%s" % (LAST, "a" * 32))),
        put("/db/d?rev=%d-%s" % (LAST, "a" * 32), {}),
        delete("/db/d?rev=%d-%s" % (LAST, "a" * 32)),
        bulk(dict(_id="d", _rev="%d-%s" % (LAST, "a" * 32))),
        get("/db/d"),
    ],
    "get-unknown-revision": [put("/db/a", {}), get("/db/a?rev=" + A2), get("/db/b?rev=" + A1)],
    "get-conflicts": [
        merge(
            at("d", rev(1, "a")),
            at("d", rev(1, "b")),
            at("d", rev(2, "a"), _deleted=True),
            at("d", rev(2, "c"), _deleted=True),
            at("d", rev(1, "e")),
        ),
        get("/db/d?conflicts=true&deleted_conflicts=true"),
        get("/db/d?deleted_conflicts=true"),
        get("/db/d?conflicts=true&rev=" + rev(1, "a")),
        get("/db/d?conflicts=false"),
    ],
    "get-no-conflicts": [put("/db/a", {}), get("/db/a?conflicts=true&deleted_conflicts=true")],
}

BULKS = {
    "bulk-of-every-answer": [
        put("/db/a", {}),
        put("/db/gone", {}),
        delete("/db/gone?rev=" + A1),
        bulk(
            dict(_id="new", n=1),
            dict(_id="a"),
            dict(_id="a", _rev=A1, n=1),
            dict(_id="no", _deleted=True),
            dict(_id="no", _rev=A1),
            dict(_id="gone", _deleted=True),
            dict(_id="gone"),
            dict(_id="a", _rev=A2, _deleted=True),
            new_edits=True,
        ),
    ],
    "bulk-other-members-ignored": bulks(
        ['{"_x":1,"all_or_nothing":true,"docs":[{"_id":"a","_revisions":7}]}', '{"docs":[1],"docs":[]}']
    ),
    "merge-twice": [merge(at("d", rev(1, "a"))), merge(at("d", rev(1, "a"))), put("/db/e", {}), get("/db/d")],
    "merge-revision-with-path": [
        merge(dict(at("d", rev(2, "b"), rev(1, "a")), _rev=rev(2, "b"))),
        get("/db/d?rev=" + rev(1, "a")),
    ],
    "merge-joins-paths": [
        merge(at("d", rev(2, "b"))),
        merge(at("d", rev(3, "c"), rev(2, "b"), rev(1, "a"))),
        diff({"d": [rev(1, "a"), rev(2, "b"), rev(3, "c")]}),
        get("/db/d?rev=" + rev(2, "b")),
        get("/db/d?rev=" + rev(1, "a")),
    ],
    "merge-gives-body-once": [
        merge(at("d", rev(2, "b"), rev(1, "a"), n=1)),
        merge(at("d", rev(1, "a"), n=2)),
        merge(at("d", rev(1, "a"), n=3, _deleted=True)),
        get("/db/d"),
        get("/db/d?rev=" + rev(1, "a")),
    ],
    "merge-under-limit-of-one": [
        put("/db/_revs_limit", 1),
        merge(at("d", rev(2, "b"), rev(1, "a"))),
        merge(at("d", rev(2, "b"), rev(1, "a"))),
        diff({"d": [rev(1, "a")]}),
        merge(at("d", rev(1, "a"))),
        get("/db/d?conflicts=true"),
        merge(at("d", rev(2, "b"), rev(1, "a"))),
        get("/db/d?conflicts=true"),
    ],
    "merge-of-several": [
        merge(
            at("d", rev(2, "b"), rev(1, "a")),
            at("e", rev(1, "c")),
            at("d", rev(2, "b"), rev(1, "e")),
            at("d", rev(2, "b"), rev(1, "f")),
            at("f", rev(1, "0"), _deleted=True),
        ),
        get("/db/d"),
        get("/db/e"),
        get("/db/f"),
    ],
    "merge-longest-path": [
        merge(at("d", *[rev(n, "abcdef"[n % 6]) for n in range(20, 0, -1)])),
        get("/db/d"),
        diff({"d": [rev(1, "b"), rev(7, "b"), rev(7, "c")]}),
    ],
    "limit-acts-at-next-write": [
        put("/db/a", {}),
        put("/db/a?rev=" + A1, {"n": 1}),
        put("/db/_revs_limit", 1),
        get("/db/a?rev=" + A1),
        put("/db/a?rev=" + A2, {"n": 2}),
        get("/db/a?rev=" + A1),
    ],
    "limit-range": [
        put("/db/_revs_limit", 1),
        put("/db/_revs_limit", LAST),
        get("/db/_revs_limit"),
        put("/db/_revs_limit", LAST + 1),
        put("/db/_revs_limit", 0),
    ],
    "differences-in-order": [
        put("/db/a", {}),
        merge(at("d", rev(2, "b")), at("d", rev(1, "a")), at("d", rev(3, "0"))),
        diff({"z": [rev(1, "b"), rev(1, "a"), rev(1, "b")], "a": [A1], "d": [rev(3, "a"), rev(1, "a"), rev(1, "b")], "e": []}),
        diff({}),
        diff({"d": [rev(9, "a")]}),
        diff({"d": [rev(1, "b")]}),
    ],
}

REFUSALS = {
    "method-of-bulk": [request(method, "/db/_bulk_docs") for method in ["GET", "PUT", "DELETE", "HEAD"]],
    "method-of-revs-diff": [request(method, "/db/_revs_diff") for method in ["GET", "PUT"]],
    "method-of-revs-limit": [request(method, "/db/_revs_limit") for method in ["POST", "DELETE"]],
    "method-of-document-with-delete": [request(method, "/db/a") for method in ["POST", "HEAD", "COPY"]],
    "parameter-flags": [
        get("/db/a?" + text) for text in ["conflicts", "conflicts=1", "deleted_conflicts=TRUE", "conflicts=x&rev=x"]
    ],
    "revision-in-parameter": [
        get("/db/a?rev=" + text)
        for text in [
            "",
            "x",
            "1",
            "1-",
            "-" + "a" * 32,
            "0-" + "a" * 32,
            "01-" + "a" * 32,
            "%2B1-" + "a" * 32,
            "1-" + "a" * 31,
            "1-" + "a" * 33,
            "1-" + "A" * 32,
            "1-" + "g" * 32,
            "4294967296-" + "a" * 32,
            "99999999999-" + "a" * 32,
            "1--" + "a" * 31,
            "1-" + "a" * 32 + "+",
        ]
    ]
    + [put("/db/a?rev=x", "{"), delete("/db/a?rev")],
    "revision-in-body": [put("/db/a", {"_rev": text}) for text in ["", "x", "0-1", "1-" + "A" * 32]]
    + bulks(['{"docs":[{"_id":"a","_rev":"x"}]}']),
    "shape-of-edit": [
        put("/db/a", text)
        for text in ['{"_rev":1}', '{"_rev":null}', '{"_deleted":1}', '{"_deleted":"true"}', '{"_deleted":null}']
    ],
    "bulk-no-json": bulks(["", "{", '{"docs":[{]}']),
    "bulk-number": bulks(
        ['{"docs":[{"_id":"a","n":1.0}]}', '{"docs":[],"x":1e2}', '{"docs":[{"_id":"a"},{"_id":"b","n":9223372036854775808}]}']
    ),
    "bulk-depth": bulks(
        ['{"docs":[{"_id":"a","n":%s}]}' % nested(levels) for levels in [63, 64, 70, 71]]
        + [
            '{"docs":[1,{"n":%s}]}' % nested(64),
            '{"docs":[{"_id":"a","n":%s}],"new_edits":1}' % nested(64),
            '{"docs":1,"n":%s}' % nested(72),
        ]
    ),
    "bulk-shape": bulks(
        [
            "[]",
            "1",
            "{}",
            '{"docs":{}}',
            '{"docs":null}',
            '{"docs":[],"new_edits":1}',
            '{"docs":[],"new_edits":null}',
            '{"docs":[],"new_edits":"false"}',
        ]
    ),
    "bulk-document-no-object": bulks(['{"docs":[{"_id":"a"},1]}', '{"docs":[[]]}', '{"docs":["a"],"new_edits":false}']),
    "bulk-document-without-id": bulks(
        ['{"docs":[{"_id":"a"},{}]}', '{"docs":[{"id":"a"}]}', '{"docs":[{"_id":1}]}', '{"docs":[{"_id":null,"_rev":1}]}']
    ),
    "bulk-id": [bulk(dict(_id=id)) for id in ["", "_x", "_design/x", "_local/x", "x" * 513, "é" * 257]]
    + [bulk(dict(_id="é" * 256), dict(_id="x" * 512))],
    "bulk-member": bulks(['{"docs":[{"_id":"a"},{"_id":"b","_x":1}]}', '{"docs":[{"_id":"a","_attachments":{}}]}']),
    "bulk-check-by-check": bulks(
        [
            '{"docs":[{"_id":"_a","_x":1},{}]}',
            '{"docs":[{"_id":"_a","_rev":"x"},{"_id":"b","_x":1}]}',
            '{"docs":[{"_id":"a","_rev":"x"},{"_id":"_b"}]}',
            '{"docs":[{"_id":1},{"_id":"a","n":%s}]}' % nested(64),
            '{"docs":[{"_id":"a"},{"_id":"b","_rev":"x"}]}',
        ]
    ),
    "bulk-with-fault-writes-nothing": bulks(
        ['{"docs":[{"_id":"a"},{"_id":"b","_x":1}]}', '{"docs":[{"_id":"a"},{"_id":"b","_rev":"1"}]}']
    )
    + [get("/db/a")],
    "merge-without-revision": merges(['{"_id":"a"}', '{"_id":"a","_rev":1}', '{"_id":"a","_rev":null}']),
    "merge-shape-of-revisions": merges(
        [
            '{"_id":"a","_revisions":%s}' % text
            for text in [
                "1",
                "null",
                "[]",
                "{}",
                '{"start":1}',
                '{"ids":["%s"]}' % ("a" * 32),
                '{"start":"1","ids":["%s"]}' % ("a" * 32),
                '{"start":0,"ids":["%s"]}' % ("a" * 32),
                '{"start":-1,"ids":["%s"]}' % ("a" * 32),
                '{"start":4294967296,"ids":["%s"]}' % ("a" * 32),
                '{"start":true,"ids":["%s"]}' % ("a" * 32),
                '{"start":1,"ids":[]}',
                '{"start":1,"ids":{}}',
                '{"start":1,"ids":[1]}',
                '{"start":1,"ids":["%s"]}' % ("a" * 31),
                '{"start":1,"ids":["%s"]}' % ("A" * 32),
                '{"start":1,"ids":["1-%s"]}' % ("a" * 32),
                '{"start":1,"ids":["%s","%s"]}' % ("a" * 32, "b" * 32),
            ]
        ]
        + ['{"_id":"a","_rev":"1-%s","_revisions":1}' % ("a" * 32)]
    ),
    "merge-revision-differs": merges(
        [
            '{"_id":"a","_rev":"1-%s","_revisions":{"start":1,"ids":["%s"]}}' % ("b" * 32, "a" * 32),
            '{"_id":"a","_rev":"1-%s","_revisions":{"start":2,"ids":["%s","%s"]}}' % ("a" * 32, "b" * 32, "a" * 32),
            '{"_id":"a","_rev":"x","_revisions":{"start":1,"ids":["%s"]}}' % ("a" * 32),
            '{"_id":"a","_rev":"1"}',
        ]
    ),
    "merge-other-members-of-revisions": merges(['{"_id":"a","_revisions":{"start":1,"ids":["%s"],"x":1}}' % ("a" * 32)])
    + [get("/db/a")],
    "merge-member": merges(['{"_id":"a","_rev":"1-%s","_x":1}' % ("a" * 32)]),
    "revs-diff-no-json": [diff("{"), diff('{"a":[1.5]}'), diff('{"a":%s}' % nested(72)), diff('{"a":%s}' % nested(71))],
    "revs-diff-shape": [
        diff(text) for text in ["[]", "1", '{"a":1}', '{"a":{}}', '{"a":"1-x"}', '{"a":[1]}', '{"a":[null]}', '{"a":[["x"]]}']
    ],
    "revs-diff-id": [diff({"": []}), diff({"_x": []}), diff({"_x": ["x"]}), diff({"x" * 513: []})],
    "revs-diff-revision": [diff({"a": ["x"]}), diff({"a": [A1, "1-" + "A" * 32]})],
    "revs-limit-body": [
        put("/db/_revs_limit", text)
        for text in [
            "",
            "x",
            "1.0",
            "-1",
            "0",
            '"1"',
            "[1]",
            "{}",
            "null",
            "true",
            "4294967296",
            "18446744073709551616",
            nested(73),
        ]
    ]
    + [get("/db/_revs_limit")],
    "order-of-checks": [
        request("POST", "/db/_x?new_edits=false", "{"),
        put("/db/_x?rev=x", "{"),
        put("/db/a?new_edits=false&rev=x", "{"),
        put("/db/a?rev=x", "{"),
        put("/db/a?rev=" + A1, '{"_id":1,"_x":1.5,"_rev":"x"}'),
        put("/db/a?rev=" + A1, '{"_id":"b","_rev":"x","n":%s}' % nested(64)),
        put("/db/a?rev=" + A1, '{"_id":1,"_x":1,"_rev":"x"}'),
        put("/db/a?rev=" + A1, '{"_id":"b","_x":1,"_rev":"x"}'),
        put("/db/a?rev=" + A1, '{"_id":"b","_rev":"x"}'),
        put("/db/a?rev=" + A1, '{"_id":"a","_rev":"x"}'),
    ],
}

CASES = {**TOLD, **EDITS, **BULKS, **REFUSALS}
