"""The log of purges: how many of them are kept."""
from .building import *  # noqa: F403
from .building import A1, EXPECT, JSON, curl, get, nested, post, put, request

LIMIT = "/db/_purged_infos_limit"
LAST = 4294967295


def put_limits(bodies):
    """Each body put as the limit, and then what it is."""
    return [put(LIMIT, body) for body in bodies] + [get(LIMIT)]


def purge(*ids):
    """A purge of the first revisions of these documents."""
    return post("/db/_purge", {id: [A1] for id in ids})


SET = {
    "purged-limit": [get(LIMIT), put(LIMIT, 1), get(LIMIT), put(LIMIT, 0)],
    "purged-limit-ends": put_limits([1])
    + put_limits([LAST])
    + put_limits([0, LAST + 1, -1, LAST + 2, 2**63 - 1, -(2**63)])
    + put_limits([1000]),
    "purged-limit-spaces": put_limits([" 7 ", "\n7\t"]),
    "purged-limit-again": put_limits([5, 5]),
    "purged-limit-beside-the-other": [
        put("/db/_revs_limit", 2),
        put(LIMIT, 3),
        get("/db/_revs_limit"),
        get(LIMIT),
        put("/db/_revs_limit", 4),
        get(LIMIT),
        get("/db/_revs_limit"),
    ],
    "purged-limit-takes-no-number": [
        put("/db/a", {}),
        put(LIMIT, 1),
        get("/db"),
        get("/db/_changes"),
        put("/db/b", {}),
        get("/db"),
        get("/db/_changes?since=1"),
    ],
    "purged-limit-cuts": [put("/db/" + id, {}) for id in "abcd"]
    + [
        purge("a", "b"),
        put(LIMIT, 1),
        get("/db"),
        purge("c"),
        put(LIMIT, 1000),
        get(LIMIT),
        purge("d", "a"),
        get("/db"),
        get("/db/_changes"),
        put("/db/a", {}),
        get("/db"),
    ],
    "purged-limit-below-one-purge": [put(LIMIT, 1)]
    + [put("/db/" + id, {}) for id in "abc"]
    + [purge("a", "b", "c"), get("/db"), get(LIMIT)],
    "purged-limit-and-compaction": [put("/db/" + id, {}) for id in "abc"]
    + [
        put("/db/a?rev=" + A1, {"n": 1}),
        purge("b"),
        put(LIMIT, 1),
        post("/db/_compact", ""),
        get(LIMIT),
        get("/db"),
        get("/db/a?revs_info=true"),
        purge("c"),
        put(LIMIT, 2),
        post("/db/_compact", ""),
        get("/db"),
        get("/db/_changes"),
    ],
    "purged-limit-leaves-documents": [
        put("/db/a", {}),
        put("/db/_local/a", {}),
        purge("b"),
        put(LIMIT, 1),
        get("/db/a?revs=true"),
        get("/db/_local/a"),
        get("/db/_all_docs"),
    ],
}

REFUSED = {
    "purged-limit-body": put_limits(
        [
            "",
            " ",
            "{",
            "x",
            "1x",
            "1 2",
            "01",
            "+1",
            "1.",
            "NaN",
            b"\xff",
            "1.5",
            "1.0",
            "-0",
            "1e3",
            "18446744073709551616",
            "9223372036854775808",
            nested(73),
            nested(200),
            nested(128),
            "[]",
            "[1]",
            "{}",
            '{"limit":1}',
            "null",
            "true",
            "false",
            '"1"',
            '""',
            nested(72),
        ]
    )
    + [request("PUT", LIMIT)],
    "purged-limit-refused-changes-nothing": [
        put("/db/a", {}),
        put(LIMIT, 7),
        put(LIMIT, 0),
        put(LIMIT, "x"),
        put(LIMIT, "1.5"),
        get(LIMIT),
        get("/db"),
    ],
    "purged-limit-parameters-ignored": [
        put(LIMIT + "?limit=x&rev=x&new_edits=false&filter=x", 2),
        get(LIMIT + "?limit=0&descending=true&view"),
        put(LIMIT + "?", 3),
        get(LIMIT),
    ],
    "purged-limit-get-body-not-read": [get(LIMIT, body="{"), get(LIMIT, body="7"), get(LIMIT)],
    "method-of-purged-limit": [request(method, LIMIT, "1") for method in ["POST", "DELETE", "HEAD", "PATCH", "put"]]
    + [get(LIMIT)],
    "no-route-near-purged-limit": [
        put(path, 1)
        for path in [LIMIT + "/", LIMIT + "/x", "/_purged_infos_limit", "/db2/_purged_infos_limit", "/db//_purged_infos_limit"]
    ],
    "id-near-purged-limit": [
        get(path)
        for path in [
            LIMIT + "s",
            "/db/_purged_infos",
            "/db/_Purged_infos_limit",
            "/db/%5Fpurged_infos_limit",
            "/db/_local/_purged_infos_limit",
        ]
    ]
    + [put("/db/purged_infos_limit", {})],
}

CURL = {
    "curl-purged-limit": [
        curl("GET", LIMIT),
        curl("PUT", LIMIT, 20, JSON),
        curl("PUT", LIMIT, "30", EXPECT),
        curl("PUT", LIMIT, "0", JSON),
        curl("GET", LIMIT),
    ]
}

CASES = {**SET, **REFUSED, **CURL}
