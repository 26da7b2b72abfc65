"""Feeds of some documents: POST of `_changes`, with a filter and without one."""
from .building import *  # noqa: F403
from .building import A1, A2, EXPECT, JSON, at, curl, delete, diff, get, merge, nested, opened, post, put, quote, request, rev

TWO_PATHS = [merge(at("d", rev(2, "b"), rev(1, "a"))), merge(at("d", rev(3, "c"), rev(2, "d"), rev(1, "a")))]
THREE = [put("/db/" + id, {}) for id in "abc"]
THREE_AND_A_DELETION = THREE + [delete("/db/a?rev=" + A1)]
FILTERED = "/db/_changes?filter=_doc_ids"


def of(*ids, more=""):
    """The changes of these documents."""
    return post(FILTERED + more, {"doc_ids": list(ids)})


def each(parameters, *ids):
    """The changes of these documents, with each of these parameters."""
    return [of(*ids, more="&" + text) for text in parameters]


def sent(bodies, more=""):
    """Each body sent to the filter."""
    return [post(FILTERED + more, body) for body in bodies]


TOLD = {
    "changes-of-some": THREE + [of("c", "a", "zz", "a"), of("c", "b", more="&limit=1")],
    "changes-of-some-followed": THREE + each(["since=%d&limit=1" % since for since in [0, 2, 3]], "c", "b"),
    "changes-of-some-limits": THREE_AND_A_DELETION
    + each(["limit=0", "limit=1", "limit=2", "limit=3", "limit=999999999999999999"], "a", "c"),
    "changes-of-some-since": THREE_AND_A_DELETION
    + each(["since=0", "since=2", "since=3", "since=4", "since=5", "since=now", "since=0003&limit=002"], "a", "c"),
    "changes-of-some-styles": TWO_PATHS
    + [merge(at("d", rev(4, "f"), rev(3, "0"), _deleted=True)), put("/db/a", {})]
    + each(["style=main_only", "style=all_docs", "style=all_docs&limit=1"], "d", "a"),
    "changes-of-some-go-on-from-the-update-number": THREE
    + [of("a"), of("a", more="&limit=1"), of("a", "b", more="&limit=1"), of("a", more="&since=1")],
    "changes-of-some-each-once": [
        put("/db/a", {}),
        put("/db/b", {}),
        put("/db/a?rev=" + A1, {"n": 1}),
        of("a"),
        of("b", "a"),
        put("/db/a?rev=" + A2, {"_deleted": True}),
        of("a", more="&since=3"),
    ],
    "changes-of-a-purged-document": THREE
    + [post("/db/_purge", {"b": [A1]}), of("b", "a"), put("/db/b", {}), of("b", "a"), post("/db/_compact", ""), of("b", "a")],
    "changes-of-none": [of()] + THREE + [of(), of(more="&limit=0"), of(more="&since=now&style=all_docs")],
    "changes-of-unknown-documents": [of("a")] + THREE + [of("zz"), of("A", "B", "aa", "")],
    "changes-of-texts-that-are-no-ids": [
        put("/db/" + "x" * 512, {}),
        put("/db/" + quote("é") * 256, {}),
        put("/db/_local/r", {}),
        put("/db/r", {}),
    ]
    + [of(text) for text in ["", "x" * 512, "x" * 513, "x" * 600, "é" * 256, "é" * 257, "_local/r", "_design/r", "_r", "r "]]
    + [of("", "x" * 513, "r", "_local/r", "x" * 512)],
    "changes-of-ids-in-escapes": [put("/db/" + quote(id, safe=""), {}) for id in ["é", "x/y z", "\U0001f600", '"\\', "a\0b"]]
    + sent(
        [
            r'{"doc_ids":["\u00e9","x\/y z","\ud83d\ude00","\"\\","a\u0000b"]}',
            '{"doc_ids":["é","x%2Fy z","😀","a"]}',
            ' { "doc_ids" : [ "\\u00E9" ] } ',
        ]
    ),
    "changes-of-a-long-poll-of-some": [of("a", more="&feed=longpoll")]
    + THREE
    + each(
        ["feed=longpoll", "feed=longpoll&limit=1", "feed=longpoll&since=2", "feed=longpoll&since=now", "feed=longpoll&since=9"],
        "c",
        "a",
        "zz",
    ),
    "changes-of-some-as-replication-asks": [
        post(
            "/db/_changes?style=all_docs&filter=_doc_ids&since=0&limit=100",
            {"doc_ids": ["b"]},
            headers=["Host: db", "Accept: application/json"],
        ),
        *THREE,
        post(
            "/db/_changes?style=all_docs&filter=_doc_ids&since=0&limit=100",
            {"doc_ids": ["b"]},
            headers=["Host: db", "Accept: application/json"],
        ),
        diff({"b": [A1]}),
        opened("b", '["%s"]' % A1, "&revs=true&latest=true"),
        put("/db/_local/r", {"last_seq": 3}),
        post(
            "/db/_changes?style=all_docs&filter=_doc_ids&since=3&limit=100",
            {"doc_ids": ["b"]},
            headers=["Host: db", "Accept: application/json"],
        ),
    ],
}

WITHOUT_FILTER = {
    "changes-by-post": THREE_AND_A_DELETION
    + [request("POST", "/db/_changes")]
    + [
        post("/db/_changes" + text, {})
        for text in [
            "",
            "?limit=2",
            "?since=3",
            "?since=now",
            "?style=all_docs&limit=1",
            "?feed=longpoll",
            "?feed=normal&descending=false",
            "?Filter=x&doc_ids=x",
        ]
    ],
    "changes-by-post-body-not-read": THREE
    + [post("/db/_changes", text) for text in ["", "{", "x", "[1.5]", nested(200), '{"doc_ids":["a"]}', '{"doc_ids":1}', b"\xff"]]
    + [post("/db/_changes?since=2", {"doc_ids": ["a"]})],
    "parameter-of-changes-by-post": [
        post("/db/_changes?" + text, "{")
        for text in [
            "since=",
            "since=x",
            "since=-1",
            "since=1000000000000000000",
            "limit=",
            "limit=x",
            "style=all",
            "feed=",
            "feed=eventsource",
            "include_docs=true",
            "descending=true",
            "view=x",
            "view",
        ]
    ],
}

FILTERS = {
    "filter-body-no-json": THREE
    + [request("POST", FILTERED)]
    + sent(
        [
            "",
            " ",
            "{",
            "x",
            '{"doc_ids":["a"]',
            '{"doc_ids":["a",]}',
            '{"doc_ids":["a"]}x',
            "{'doc_ids':['a']}",
            r'{"doc_ids":["\ud800"]}',
            b'{"doc_ids":["\xff"]}',
            nested(128),
            '{"doc_ids":["a"],"n":1e400}',
        ]
    ),
    "filter-body-number": sent(
        [
            '{"doc_ids":[1.5]}',
            '{"doc_ids":["a"],"n":1.5}',
            '{"doc_ids":["a"],"n":18446744073709551616}',
            '{"doc_ids":-0}',
            "1e3",
            '{"n":1.5,"doc_ids":%s}' % nested(80),
        ]
    ),
    "filter-body-depth": sent(
        ['{"doc_ids":["a"],"n":%s}' % nested(levels) for levels in [70, 71, 72, 126]]
        + ['{"doc_ids":%s}' % nested(levels) for levels in [71, 72]]
        + [nested(72), nested(73)]
    ),
    "filter-body-shape": sent(
        [
            "{}",
            "[]",
            "null",
            "true",
            "1",
            '"a"',
            '["a"]',
            '{"doc_id":["a"]}',
            '{"Doc_ids":["a"]}',
            '{"doc_ids":null}',
            '{"doc_ids":{}}',
            '{"doc_ids":{"a":1}}',
            '{"doc_ids":"a"}',
            '{"doc_ids":1}',
            '{"doc_ids":true}',
            '{"doc_ids":[1]}',
            '{"doc_ids":[null]}',
            '{"doc_ids":[["a"]]}',
            '{"doc_ids":[{}]}',
            '{"doc_ids":["a",1]}',
            '{"doc_ids":[true,"a"]}',
            '{"doc_ids":["a"],"doc_ids":1}',
        ]
    ),
    "filter-body-other-members-ignored": THREE
    + sent(
        [
            '{"doc_ids":["b"],"n":{"doc_ids":1},"_x":[],"filter":"x","limit":0,"":null}',
            '{"doc_ids":1,"doc_ids":["b"]}',
            '{"doc_ids":["a"],"doc_ids":["b"]}',
            '{"doc_ids":[1.5],"doc_ids":["b"]}',
        ]
    ),
    "filter-refused": [
        post("/db/_changes?" + text, {"doc_ids": []})
        for text in [
            "filter",
            "filter=",
            "filter=x",
            "filter=_doc_id",
            "filter=_doc_ids%20",
            "filter=+_doc_ids",
            "filter=_DOC_IDS",
            "filter=_selector",
            "filter=_view",
            "filter=_design",
            "filter=a/b",
            "filter=x&filter=_doc_ids",
            "filter&filter=_doc_ids",
            "filter=_doc_ids&view=x",
            "filter=_doc_ids&view",
        ]
    ],
    "filter-taken": THREE
    + [
        post("/db/_changes?" + text, {"doc_ids": ["b"]})
        for text in [
            "filter=_doc_ids",
            "&&filter=_doc_ids&",
            "filter=_doc_ids&filter=x",
            "%66ilter=%5Fdoc_ids",
            "filter=_doc_ids&doc_ids=%5B%22a%22%5D",
            "filter=_doc_ids&include_docs=false&descending=false",
            "filter=_doc_ids&heartbeat=x&timeout=1&conflicts=true",
        ]
    ],
    "filter-by-get": THREE
    + [
        get("/db/_changes?" + text)
        for text in ["filter=_doc_ids", "filter=_doc_ids&doc_ids=%5B%22a%22%5D", "filter=x", "filter", "filter="]
    ]
    + [
        get(FILTERED, body={"doc_ids": ["a"]}),
        get("/db/_changes?doc_ids=%5B%22a%22%5D"),
        get("/db/_changes", body={"doc_ids": ["a"]}),
    ],
    "filter-parameter-before-body": [post("/db/_changes?filter=x", text) for text in ["{", "[]"]]
    + sent(["{", '{"n":1.5}', "[]"], "&since=x")
    + [
        post(FILTERED + "&" + text, "{")
        for text in ["limit=x", "style=x", "feed=x", "include_docs=true", "descending=true", "view"]
    ],
    "filter-changes-nothing": THREE + [post(FILTERED, "{"), post(FILTERED, "[]"), of("a"), get("/db")],
    "methods-of-changes": [
        request(method, target) for method in ["PUT", "DELETE", "HEAD", "PATCH", "post"] for target in ["/db/_changes", FILTERED]
    ],
    "filter-near-routes": [
        post(path + "?filter=_doc_ids", {"doc_ids": ["a"]})
        for path in ["/db/_changes/", "/db/_changesx", "/db/%5Fchanges", "/_changes", "/db/_all_docs"]
    ],
}

CURL = {
    "curl-changes-of-some": [curl("PUT", "/db/" + id, {}, JSON) for id in "ab"]
    + [
        curl("POST", FILTERED, {"doc_ids": ["b", "c"]}, JSON),
        curl("POST", FILTERED + "&limit=1", {"doc_ids": ["b", "a"]}, EXPECT),
        curl("POST", FILTERED, '{"doc_ids":["a"]}'),
    ],
}

# a feed that goes on closes the connection, so each is a connection of its own
FEEDS = {
    "feed-of-some": THREE_AND_A_DELETION + [of("zz", "c", "a", "c", more="&feed=continuous"), get("/db")],
    "feed-of-some-limited": THREE_AND_A_DELETION + [of("c", "a", more="&feed=continuous&limit=1")],
    "feed-of-some-limit-of-0": THREE + [of("c", "a", more="&feed=continuous&limit=0")],
    "feed-of-some-limit-reached-at-the-end": THREE + [of("b", "a", more="&feed=continuous&limit=2")],
    "feed-of-some-of-all-leaves": TWO_PATHS + [put("/db/a", {}), of("d", more="&feed=continuous&style=all_docs")],
    "feed-of-some-since": THREE_AND_A_DELETION + [of("a", "b", more="&feed=continuous&since=2")],
    "feed-of-some-since-now": THREE + [of("a", "b", more="&feed=continuous&since=now")],
    "feed-of-some-since-later": THREE + [of("a", "b", more="&feed=continuous&since=9")],
    "feed-of-no-documents": THREE + [of(more="&feed=continuous")],
    "feed-of-unknown-documents": THREE + [of("zz", "", "x" * 513, more="&feed=continuous&since=1")],
    "feed-of-some-refused": sent(
        ["", "{", '{"doc_ids":[1.5]}', '{"doc_ids":%s}' % nested(72), "[]", '{"doc_ids":[1]}'], "&feed=continuous"
    )
    + [get("/db")],
    "feed-by-post": THREE + [post("/db/_changes?feed=continuous&limit=2", '{"doc_ids":["c"]}')],
    "feed-by-post-body-not-read": THREE + [post("/db/_changes?feed=continuous", "{")],
}

CASES = {**TOLD, **WITHOUT_FILTER, **FILTERS, **CURL, **FEEDS}
