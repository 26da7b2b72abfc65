"""Requests, their targets and their bodies, and what they are answered, at the ends of what is allowed."""
from .building import A1, A2, X2, at, bulk, child, delete, diff, get, listed, merge, opened, post, put, quote, request, rev

HASH = "0123456789abcdef0123456789abcdef"
OTHER = "f123456789abcdef0123456789abcdef"
R1 = "1-" + HASH
LAST = 4294967295

THREE = [bulk(dict(_id="a"), dict(_id="b"), dict(_id="c"))]


def bulks(bodies):
    return [post("/db/_bulk_docs", body) for body in bodies]


def merged(members):
    """A bulk of one document from elsewhere, with these members beside its id."""
    return post("/db/_bulk_docs", '{"new_edits":false,"docs":[{"_id":"a"%s}]}' % members)


def path(start, hash, times):
    """A path of one hash, as often as is said."""
    return merged(',"_revisions":{"start":%s,"ids":[%s]}' % (start, ",".join(['"%s"' % hash] * times)))


def each(method, targets, body=None):
    return [request(method, target, body) for target in targets]


IDS = {
    "ids-in-byte-order": [
        put("/db/caf%C3%A9", {}),
        put("/db/Za", {}),
        put("/db/Z", {}),
        get("/db/caf%C3%A9"),
        get("/db/_all_docs"),
    ],
    "ids-of-sixteen-bytes-and-more": [put("/db/" + id, {}) for id in ["0123456789abcdef0", "1", "0123456789abcdef"]]
    + [get("/db/0123456789abcdef"), get("/db/0123456789abcdef0"), get("/db/_all_docs")],
    "ids-of-one-to-512-bytes": bulks('{"docs":[{"_id":"%s"}]}' % id for id in ["", "x", "x" * 512, "x" * 513]) + [get("/db")],
    "ids-in-targets": each("PUT", ["/db/" + "a" * 512, "/db/" + "a" * 513, "/db/%FF", "/db/%5Fa?rev=x"], "{}")
    + [put("/db/a", '{"_id":"b"}')],
}

NUMBERS = {
    "numbers-of-parameters": THREE
    + each(
        "GET",
        [
            "/db/_changes?since=" + text
            for text in ["007", "999999999999999999", "1000000000000000000", "", "-1", " 1".replace(" ", "%20"), "1a", "/", ":"]
        ],
    )
    + each("GET", ["/db/_changes?limit=" + text for text in ["007", "000000000000000001", "0000000000000000001"]]),
    "length-of-40-digits": [request("PUT", "/db/a", None, ["Content-Length: " + "0123456789" * 4])],
    "length-of-an-added-one": [request("PUT", "/db/a", None, ["Content-Length: +1"])],
    "length-with-a-letter": [request("PUT", "/db/a", None, ["Content-Length: 1a"])],
    "length-of-a-slash": [request("PUT", "/db/a", None, ["Content-Length: /"])],
    "length-of-a-colon": [request("PUT", "/db/a", None, ["Content-Length: :"])],
    "numbers-of-bodies": [
        put("/db/a", '{"n":%s}' % text)
        for text in [
            "9223372036854775807",
            "-9223372036854775808",
            "9223372036854775808",
            "-9223372036854775809",
            "18446744073709551616",
            "-0",
            "1.0",
            "1e3",
            '[{"a":1.5}]',
            "1e400",
            "[1.5,",
        ]
    ]
    + [put("/db/a", text) for text in ["9223372036854775807", "-9223372036854775808", "9223372036854775808", "-0", "1e400"]],
    "limits-of-revisions": each("PUT", ["/db/_revs_limit"], str(LAST))
    + [get("/db/_revs_limit")]
    + [put("/db/_revs_limit", text) for text in ["0", "4294967296", "-1", "{}", "1.5", "1"]]
    + [get("/db/_revs_limit")],
}

VALUES = {
    "texts-that-are-json": [
        put("/db/a", body) for body in [b"", b"{", b"{} {}", b'"\\ud800"', b'"\xff"', b"\xef\xbb\xbf{}", b' "\\ud83d\\ude00" ']
    ],
    "values-nested-to-the-limit": [put("/db/a", "[" * levels + "]" * levels) for levels in [72, 73, 127, 128]],
    "bodies-nested-to-the-limit": [
        put("/db/" + id, '{"a":%s}' % ("[" * levels + "]" * levels)) for id, levels in [("a", 63), ("b", 64)]
    ]
    + [put("/db/a", '{"_rev":1,"a":%s}' % ("[" * 64 + "]" * 64)), get("/db/a")],
    "last-of-two-members": [put("/db/a", ' {"b": 1, "a" : {"_x": 2}, "b": [] } '), get("/db/a")],
    "bodies-with-revisions-of-their-own": [
        put("/db/%d" % number, body)
        for number, body in enumerate(
            [
                '{"a":[1,{"b":"x"}],"c":null}',
                '{"c":null,"a":[1,{"b":"x"}]}',
                "{}",
                '{"a":[1,{"b":"x"}],"d":null}',
                '{"a":[1,{"b":"y"}],"c":null}',
                '{"a":[-1,{"b":"x"}],"c":null}',
                '{"a":[1],"c":null}',
                '{"a":[1,{"b":"x"}],"c":false}',
                '{"a":[1,{"b":"x"}],"c":null,"d":0}',
                '{"_id":"9"}',
            ]
        )
    ],
    "special-members-among-others": [
        one
        for id, body in enumerate(["{}", '{"b":1,"A":[2],"a":"x"}', '{"b":1}', '{"Z":1,"":2}'])
        for one in (put("/db/%d" % id, body), get("/db/%d" % id))
    ],
}

REVISIONS = {
    "revisions-that-edits-make": [
        put("/db/a", {}),
        put("/db/a", dict(_rev=A1, n=1)),
        put("/db/a", dict(_rev=A2, n=2)),
        get("/db/a?revs=true"),
        put("/db/b", {}),
        delete("/db/b?rev=" + A1),
        get("/db/b?rev=" + X2),
    ],
    "revisions-in-order": [
        merge(at("d", A2, A1)),
        merge(at("d", X2, A1)),
        merge(at("e", X2, A1), at("e", A2, A1), at("e", child(A2, False, '{"n":2}'), A2)),
        opened("d", "all"),
        opened("e", "all"),
        get("/db/d"),
        get("/db/e"),
    ],
    "revisions-malformed": each(
        "GET",
        [
            "/db/a?rev=" + quote(text, safe="")
            for text in [
                "",
                "1",
                "1-",
                "-b7a5841aeb59f1be5d0e27b640827094",
                "0-b7a5841aeb59f1be5d0e27b640827094",
                "01-b7a5841aeb59f1be5d0e27b640827094",
                "+7-b7a5841aeb59f1be5d0e27b640827094",
                "4294967296-b7a5841aeb59f1be5d0e27b640827094",
                "1-B7A5841AEB59F1BE5D0E27B640827094",
                "1-b7a5841aeb59f1be5d0e27b64082709",
                "1-b7a5841aeb59f1be5d0e27b6408270940",
                "1-g7a5841aeb59f1be5d0e27b640827094",
                "1-b7a5841aeb59f1be5d0e27b640827094 ",
                A1,
                "4294967295-b7a5841aeb59f1be5d0e27b640827094",
            ]
        ],
    )
    + [path("0", A1[2:], 1), path("1", A1, 1)],
    "generations-end": [
        merge(at("a", "%d-b7a5841aeb59f1be5d0e27b640827094" % LAST)),
        put("/db/a?rev=%d-b7a5841aeb59f1be5d0e27b640827094" % LAST, {}),
        merge(at("a", *["%d-%s" % (generation, HASH) for generation in (LAST, LAST - 1)])),
        get("/db/a?conflicts=true&revs=true"),
    ],
}

TARGETS = {
    "targets-in-parts": [
        put("/db/caf%C3%A9%2f1", {}),
        get("/db/caf%C3%A9%2f1?rev=1-a&open_revs=%5B%222-b%22%5D&rev=2&q=a+b%2B"),
        get("/db/caf%%C3%%A9%%2f1?rev=%s&rev=2&q=a+b%%2B" % A1),
        get("/db/caf%%C3%%A9%%2f1?open_revs=%%5B+%%22%s%%22+%%5D" % A1),
        get("/db/caf%%C3%%A9%%2f1?open_revs=%%5B%%2B%%22%s%%22%%5D" % A1),
        get("/db/caf%C3%A9%2f1?revs=%74rue"),
    ],
    "targets-of-routes": each(
        "PATCH",
        [
            "/",
            "/db/a%2Fb",
            "/db",
            "/db/",
            "/db/_revs_limit",
            "/db/_all_docs",
            "/db/_bulk_docs",
            "/db/_changes",
            "/db/_compact",
            "/db/_purge",
            "/db/_local/a",
            "/db/_revs_diff",
            "/db/_local",
            "/db/_changes2",
        ],
    ),
    "targets-of-no-route": each(
        "GET",
        ["?x=1", "//", "/db//", "/db//a", "/db/a/", "/db/a/b", "/db/_local/", "/db/_local/a/b", "/db/_changes/a", "/dba", "db/a"],
    ),
    "targets-and-methods": [
        get("/db//a"),
        request("X", "/other"),
        request("DELETE", "/db/_revs_limit"),
        get("/db/_compact"),
        put("/db/_compact", "{}"),
        get("/db/_purge"),
        put("/db/_purge", "{}"),
        request("HEAD", "/db/_x"),
        request("HEAD", "/db/_x", headers=["Connection: close"]),
    ],
}

REQUESTS = {
    "put-of-all-that-it-takes": [
        put("/db/caf%C3%A9%2Fa", {}),
        put(
            "/db/caf%%C3%%A9%%2Fa?q=1&%%72ev=%s&rev=x" % A1,
            '{"_id":"café/a","n":1,"_deleted":true,"_conflicts":[],"_revisions":0}',
        ),
        get("/db/caf%C3%A9%2Fa"),
        get("/db/caf%%C3%%A9%%2Fa?rev=%s" % child(A1, True, '{"n":1}')),
    ],
    "get-by-flags": [
        merge(at("a", rev(1, "a")), at("a", rev(1, "b"))),
        get("/db/a?conflicts=true&revs=false"),
        get("/"),
        get("/db/?q=1"),
    ],
    "get-and-close": [put("/db/a", {}), get("/db/a", headers=["Connection: close"])],
    "get-of-a-deletion-and-close": [put("/db/a", {}), delete("/db/a?rev=" + A1), get("/db/a", headers=["Connection: close"])],
    "put-faults-in-order": [
        put("/db/a?new_edits=false&rev=x", ""),
        put("/db/a?rev=x", ""),
        put("/db/a", "{"),
        put("/db/a", '{"_id":1,"n":9223372036854775808}'),
        put("/db/a", "[]"),
        put("/db/a", '{"_rev":1,"_x":1}'),
        put("/db/a", '{"_id":"b","_x":1}'),
        put("/db/a", '{"_rev":"1-A"}'),
        put("/db/a?rev=" + R1, {"_rev": "2-" + HASH}),
    ],
    "refusal-at-the-twelfth-place": [put("/db/%d" % number, {}) for number in range(12)]
    + [put("/db/n", '{"n":9223372036854775808}')],
    "delete-over-a-revision": [put("/db/a", {}), delete("/db/a?rev=" + A1, body="{"), get("/db/a?rev=" + X2)],
    "local-document-of-many-numbers": [
        one for number in range(7) for one in [put("/db/_local/a" + ("?rev=0-%d" % number if number else ""), {})]
    ]
    + [get("/db/_local/a"), get("/db/_local/b"), delete("/db/_local/a?rev=0-7"), delete("/db/_local/b")],
    "open-revisions-of-capitals": [
        put("/db/a", '{"text":[],"Kind":1}'),
        opened("a", listed(child(None, False, '{"Kind":1,"text":[]}'), R1)),
    ],
    "feeds-by-parameters": THREE
    + each(
        "GET",
        [
            "/db/_changes" + text
            for text in [
                "",
                "?feed=normal&since=7&limit=002&feed=x",
                "?since=now&feed=longpoll&style=all_docs",
                "?feed=",
                "?feed=Normal",
                "?feed=eventsource",
                "?feed=longpoll&since=x",
                "?feed=continuous&view=x",
            ]
        ],
    ),
    "feed-that-goes-on-from-none": [get("/db/_changes?feed=continuous&limit=0"), get("/")],
    "feed-of-one-that-was-put": [put("/db/a", {}), get("/db/_changes?feed=continuous")],
    "feed-of-one-of-three": THREE + [get("/db/_changes?feed=continuous&since=1&limit=0")],
    "feed-of-one-from-now": [put("/db/a", {}), get("/db/_changes?feed=continuous&since=now")],
}

BATCHES = {
    "bulk-faults-in-order": bulks(
        [
            '{"docs":[',
            '{"docs":[{"n":1.5}]}',
            "[]",
            "{}",
            '{"docs":{}}',
            '{"docs":[],"new_edits":1}',
            '{"docs":[{"_id":"a","_x":1},1]}',
            '{"docs":[{"_id":"a"},{"_rev":"x"}]}',
            '{"docs":[{"_id":""},{"_id":"a","_x":1}]}',
            '{"docs":[{"_id":"a","_rev":"x"},{"_id":"_a"}]}',
            '{"docs":[{"_id":"a"},{"_id":"b","_rev":"x"}]}',
        ]
    ),
    "merge-paths-at-their-ends": [
        path("1", HASH, 1),
        path(LAST, HASH, 2),
        path(LAST + 1, HASH, 1),
        path("0", HASH, 1),
        path("-1", HASH, 1),
        path("true", HASH, 1),
        path("1", HASH, 2),
        path("1", HASH.upper(), 1),
        path("1", HASH[:16], 1),
        opened("a", "all", "&revs=true"),
    ],
    "merge-faults": [
        merged(members)
        for members in ["", ',"_revisions":{"start":1,"ids":[]}', ',"_revisions":{"ids":["%s"]}' % HASH, ',"_rev":"1-0"']
    ],
    "merge-of-a-deletion": [
        post(
            "/db/_bulk_docs",
            '{"new_edits":false,"docs":[{"_id":"a","_deleted":true,"_rev":\n"2-%s","_revisions":{"start":2,"ids":\n["%s","%s"]}}]}'
            % (HASH, HASH, OTHER),
        ),
        opened("a", "all", "&revs=true"),
    ],
    "bulk-of-two": bulks(['{"docs":[{"_id":"b","_revisions":0},{"_id":"a","n":1}],"x":1}']) + [get("/db/_changes")],
    "bulks-answered": [
        put("/db/b", {}),
        bulk(dict(_id="a"), dict(_id="b")),
        merge(at("c", rev(2, "b"), rev(1, "a"))),
        merge(at("e", R1), at("c", rev(2, "b"), rev(1, "f"))),
    ],
    "revisions-of-documents-faults": [
        post(target, body)
        for target in ["/db/_revs_diff", "/db/_purge?rev=x"]
        for body in [
            "",
            '{"a":[1.5]}',
            "[]",
            '{"":["x"],"b":1}',
            '{"":["x"],"b":[1]}',
            '{"a":["x"],"b":[],"_c":[]}',
            '{"a":["%s","x"]}' % R1,
        ]
    ],
    "difference-and-purge-of-two": [
        diff('{"b":[],"a":["%s"]}' % R1),
        merge(at("d", "2-" + HASH, R1)),
        post("/db/_purge", '{"e":[],"d":["2-%s",\n"%s"]}' % (HASH, R1)),
        post("/db/_purge", '{"e":[],"d":["2-%s"]}' % HASH),
    ],
    "compact-with-any-body": [post("/db/_compact", ""), post("/db/_compact?x=1", "{"), get("/db")],
}

CASES = {**IDS, **NUMBERS, **VALUES, **REVISIONS, **TARGETS, **REQUESTS, **BATCHES}
