"""Requests of HEAD, which are answered by a head alone."""
from .building import get, put, request

ROUTES = [
    "/",
    "/db",
    "/db/",
    "/db/_all_docs",
    "/db/_bulk_docs",
    "/db/_changes",
    "/db/_compact",
    "/db/_local/a",
    "/db/_purge",
    "/db/_purged_infos_limit",
    "/db/_revs_diff",
    "/db/_revs_limit",
    "/db/a",
]
NO_ROUTES = ["/x", "/db//", "/db/a/b", "/db/_local/", "*"]


def heads(targets, **more):
    return [request("HEAD", target, **more) for target in targets]


CASES = {
    "of-each-route": heads(ROUTES),
    "of-no-route": heads(NO_ROUTES),
    "of-what-is-there": [
        put("/db/a", "{}"),
        *heads(["/db/a", "/db/b", "/db/_changes?feed=continuous", "/db/a?rev=x"]),
        get("/db/a"),
    ],
    "between-others": [
        get("/"),
        *heads(["/"]),
        get("/x"),
        *heads(["/x"]),
        put("/db/a", "{}"),
        *heads(["/db/a", "/x"]),
        get("/db/a"),
    ],
    "with-a-body": [request("HEAD", "/db/a", "{}"), request("HEAD", "/x", '{"n":1}'), get("/db/a")],
    "that-closes": [put("/db/a", "{}"), *heads(["/db/a"], headers=["Connection: close"]), get("/")],
    "that-closes-with-no-route": [*heads(["/x"], headers=["Connection: close"]), get("/")],
    "of-version-one-zero": [*heads(["/db/a"], version="HTTP/1.0"), get("/")],
    "before-the-end": [get("/"), *heads(["/db/a"])],
    "in-other-letters": [request(method, target) for method in ["head", "Head", "HEA", "HEADS"] for target in ["/", "/x"]],
    "cut-in-its-body": [get("/"), request("HEAD", "/", None, ["Content-Length: 3"]), b"{}"],
    # refused before the whole request was read, after which the connection closes: with their texts
    "in-chunks": [get("/"), request("HEAD", "/", None, ["Transfer-Encoding: chunked"])],
    "with-no-length": [request("HEAD", "/", None, ["Content-Length: x"])],
    "with-a-length-too-large": [request("HEAD", "/", None, ["Content-Length: 1048577"])],
    "with-sixty-five-headers": heads(["/"], headers=["X-%d: y" % n for n in range(65)]),
    "with-no-version": [b"HEAD /\r\n\r\n"],
}
