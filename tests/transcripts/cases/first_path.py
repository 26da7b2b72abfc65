"""One PUT and one GET: documents without revisions named."""
from .building import *  # noqa: F403
from .building import JSON, curl, get, nested, nested_body, put, quote, request

PUT_ONCE = put("/db/a", "{}")


def put_bodies(bodies):
    """Each body put under `a`, and then what is there."""
    return [put("/db/a", body) for body in bodies] + [get("/db/a")]


STORED = {
    "put-once": [PUT_ONCE],
    "put-twice": [PUT_ONCE, PUT_ONCE],
    "put-then-get": [PUT_ONCE, get("/db/a")],
    "number-past-i64": [put("/db/n", '{"n":9223372036854775807}'), put("/db/m", '{"n":9223372036854775808}')],
    "put-cut-in-body": [request("PUT", "/db/a", None, ["Content-Length: 3"]), b"{}"],
    "put-cut-in-head": [PUT_ONCE[:-10]],
    "cut-in-target-not-utf8": [b"GET /db/\xff"],
    "nothing": [b""],
    "empty-lines-alone": [b"\r\n\n\r\n"],
    "welcome": [get("/")],
    "get-unknown": [get("/db/a")],
    "places": [get("/"), PUT_ONCE, get("/db/a"), get("/db/b"), put("/db/b", "[]"), PUT_ONCE, get("/")],
    "members-sorted": [put("/db/a", '{"b":1,"a":2,"B":3,"é":4,"z":{"y":1,"x":2},"":5}'), get("/db/a")],
    "repeated-member": [put("/db/a", '{"n":1,"m":{"x":1,"x":2},"n":3}'), get("/db/a")],
    "spaces-in-body": [put("/db/a", ' \t\r\n{ "n" : [ 1 , 2 , { } , [ ] ] } \n'), get("/db/a")],
    "every-kind-of-value": [put("/db/a", '{"a":[null,true,false,0,-1,"",[],{}]}'), get("/db/a")],
    "escapes": [put("/db/a", r'{"t":"\"\\\/\b\f\n\r\t\u0000\u001F\u007f\u00e9\ud83d\ude00","\u0062":1}'), get("/db/a")],
    "text-of-many-scripts": [put("/db/a", '{"t":"é ∀ 日本 😀"}'), get("/db/a")],
    "smallest-and-largest-number": [put("/db/a", '{"n":[-9223372036854775808,9223372036854775807,-1,10]}'), get("/db/a")],
    "special-members-ignored": [
        put("/db/a", '{"_id":"a","_revisions":1,"_local_seq":{},"_revs_info":[],"_conflicts":2,"_deleted_conflicts":null,"n":1}'),
        get("/db/a"),
    ],
    "nesting-of-a-body": [put("/db/a", nested_body(64)), get("/db/a")],
    "repeated-number-too-large": [put("/db/a", '{"n":1.5,"n":1}')],
    "two-documents": [put("/db/b", '{"n":1}'), put("/db/a", '{"n":2}'), get("/db/a"), get("/db/b")],
}

IDENTITIES = {
    "id-escaped": [put("/db/a%2Fb%20%C3%A9", '{"_id":"a/b é"}'), get("/db/a%2Fb%20%C3%A9"), get("/db/a%2fb%20%c3%a9")],
    "id-not-escaped": [put("/db/a+b%zz%4", "{}"), get("/db/%61+b%zz%4")],
    "id-of-raw-text": [put("/db/é", "{}"), get("/db/%C3%A9")],
    "id-of-512-bytes": [put("/db/" + "x" * 512, "{}"), get("/db/" + "x" * 512)],
    "id-of-513-bytes": [put("/db/" + "x" * 513, "{}")],
    "id-of-512-bytes-escaped": [put("/db/" + quote("é") * 256, "{}"), put("/db/" + quote("é") * 257, "{}")],
    "id-begins-with-underscore": [get("/db/_x"), put("/db/_design", "{}"), get("/db/%5Fx")],
    "id-not-utf8": [get("/db/%ff"), put("/db/%C3", "{}")],
    "id-before-parameter-and-body": [put("/db/_x?new_edits=false", "")],
}

ROUTES = {
    "no-route": [get(path) for path in ["/x", "/db/a/b", "/db//", "/db//a", "//", "/db/a/", "/DB/a", "/db2/a", "db/a", "*"]],
    "no-route-absolute": [get("http://127.0.0.1:5984/db/a")],
    "no-route-before-method": [request("BREW", "/x"), request("POST", "/db/a/b", "")],
    "no-route-escaped-slash": [get("/%64b/a"), get("/db%2Fa")],
    "query-without-path": [get("?x"), get("/?x=1&y"), get("/?")],
    "method-of-root": [request(method, "/") for method in ["PUT", "HEAD", "get", "OPTIONS", "Get", "!#$%&'*+-.^_`|~"]],
    "parameters-ignored": [put("/db/a?new_edits=true&batch=ok&x", "{}"), get("/db/a?attachments=true&include_docs=true&&=&")],
    "parameter-new-edits": [put("/db/a?new_edits=false", "{}"), put("/db/a?new%5Fedits=f%61lse", "")],
    "parameter-first-counts": [
        put("/db/a?new_edits=true&new_edits=false", "{}"),
        put("/db/a?new_edits=false&new_edits=true", "{}"),
    ],
    "get-with-body": [put("/db/a", "{}"), get("/db/a", body="not read")],
}

BODIES = {
    "no-json": put_bodies(
        [
            "",
            " ",
            "{",
            "}",
            "{}x",
            "{}{}",
            "{'a':1}",
            '{"a"}',
            '{"a":}',
            '{"a":1,}',
            '{"a" 1}',
            "{,}",
            "[1,]",
            "[,]",
            "nul",
            "True",
        ]
    ),
    "no-json-numbers": put_bodies(
        [
            '{"n":01}',
            '{"n":+1}',
            '{"n":.5}',
            '{"n":1.}',
            '{"n":1e}',
            '{"n":-}',
            '{"n":0x1}',
            '{"n":NaN}',
            '{"n":1e400}',
            '{"n":-1e999}',
        ]
    ),
    "no-json-texts": put_bodies(
        [
            '{"t":"',
            '{"t":"\\"}',
            '{"t":"\\x"}',
            '{"t":"\n"}',
            '{"t":"\t"}',
            '{"t":"\\u12"}',
            '{"t":"\\u12g4"}',
            r'{"t":"\ud800"}',
            r'{"t":"\udc00"}',
            r'{"t":"\ud800\u0041"}',
            r'{"t":"\ud800x"}',
            r'{"\ude00\ud83d":1}',
        ]
    ),
    "no-json-not-utf8": put_bodies(
        [b'{"t":"\xff"}', b'{"t":"\xc3"}', b'{"t":"\xed\xa0\x80"}', b'{"t":"\xc0\x80"}', b"\xef\xbb\xbf{}"]
    ),
    "no-json-in-repeated-member": put_bodies(['{"n":1e400,"n":1}']),
    "number": put_bodies(
        [
            '{"n":1.0}',
            '{"n":1e3}',
            '{"n":-0}',
            '{"n":0.5}',
            '{"n":-9223372036854775809}',
            '{"n":18446744073709551616}',
            '{"n":[{"m":1E-400}]}',
            "1.5",
        ]
    ),
    "number-before-depth": put_bodies(['{"n":%s,"m":1.5}' % nested(80)]),
    "depth": put_bodies([nested_body(65), nested_body(72), nested_body(73), nested(73), nested(127)]),
    "depth-past-the-reader": put_bodies([nested(128), nested_body(128)]),
    "shape": put_bodies([nested(72), "[]", "1", '"a"', "null", "true", '{"_id":1}', '{"_id":null}']),
    "member": put_bodies(['{"_x":1}', '{"_":1}', '{"_attachments":{}}', '{"a":1,"_Rev":"1"}']),
    "member-before-id": put_bodies(['{"_x":1,"_id":"b"}']),
    "shape-before-member": put_bodies(['{"_x":1,"_id":1}']),
    "depth-before-shape": put_bodies(['{"_id":1,"n":%s}' % nested(64)]),
    "deep-special-members": put_bodies(['{"_local_seq":%s}' % nested(71), '{"_x":%s}' % nested(71)]),
    "id-in-body": put_bodies(['{"_id":"b"}', '{"_id":""}', '{"_id":"_a"}', '{"_id":"a"}']),
    "refusals-write-nothing": [put("/db/a", "{"), put("/db/a", '{"n":1.5}'), put("/db/a", '{"_x":1}'), get("/db/a")],
}

HEADS = {
    "no-head": [b"x" + put("/db/a", "{}")[:3] + b"\x00"],
    "no-head-bad-method": [b"G(T / HTTP/1.1\r\n\r\n"],
    "no-head-no-method": [b" / HTTP/1.1\r\n\r\n"],
    "no-head-no-target": [b"GET  HTTP/1.1\r\n\r\n"],
    "no-head-two-spaces": [b"GET /  HTTP/1.1\r\n\r\n"],
    "no-head-no-version": [b"GET /\r\n\r\n"],
    "no-head-version-two": [b"GET / HTTP/2.0\r\n\r\n"],
    "no-head-version-of-two-digits": [b"GET / HTTP/1.10\r\n\r\n"],
    "no-head-space-after-version": [b"GET / HTTP/1.1 \r\n\r\n"],
    "no-head-control-in-target": [b"GET /db/\x7f HTTP/1.1\r\n\r\n"],
    "no-head-target-not-utf8": [b"GET /db/\xff HTTP/1.1\r\n\r\n"],
    "no-head-header-without-colon": [b"GET / HTTP/1.1\r\nHost\r\n\r\n"],
    "no-head-header-without-name": [b"GET / HTTP/1.1\r\n: x\r\n\r\n"],
    "no-head-space-before-colon": [b"GET / HTTP/1.1\r\nHost : x\r\n\r\n"],
    "no-head-folded-header": [b"GET / HTTP/1.1\r\nHost: x\r\n y\r\n\r\n"],
    "no-head-control-in-value": [b"GET / HTTP/1.1\r\nHost: x\x01\r\n\r\n"],
    "no-head-carriage-return-alone": [b"GET / HTTP/1.1\rHost: x\r\n\r\n"],
    "no-head-after-answers": [get("/"), put("/db/a", "{}"), b"{}\r\n\r\n", get("/")],
    "line-feeds-alone": [b"PUT /db/a HTTP/1.1\nContent-Length: 2\n\n{}\nGET /db/a HTTP/1.1\n\n"],
    "empty-lines-before": [b"\r\n\n\r\n", put("/db/a", "{}"), b"\r\n", get("/db/a"), b"\r\n"],
    "header-names-in-any-case": [
        b"PUT /db/a HTTP/1.1\r\ncOnTeNt-LeNgTh:2\r\n\r\n{}",
        b"GET / HTTP/1.1\r\nCONNECTION:CLOSE\r\n\r\n",
    ],
    "headers-ignored": [
        request("PUT", "/db/a", "{}", ["Host: x", "Expect: 100-continue", "If-Match: x", "X-Y:", "Accept:\t \t", "Cookie: é"])
    ],
    "length-with-zeros-and-spaces": [
        b"PUT /db/a HTTP/1.1\r\nContent-Length: \t 0000000000000000000000002 \t\r\n\r\n{}",
        get("/db/a"),
    ],
    "sixty-four-headers": [get("/", headers=["X-%d: y" % n for n in range(64)]), get("/db/a")],
    "head-of-16384-bytes": [get("/", headers=["X: " + "y" * (16384 - 23)]), get("/db/a")],
    "connection-close": [get("/", headers=["Connection: close"]), get("/")],
    "connection-close-of-several": [get("/", headers=["Connection: keep-alive", "Connection: \tCLOSE "]), get("/")],
    "connection-not-close": [get("/", headers=["Connection: close, x"]), get("/", headers=["Connection: keep-alive"]), get("/")],
    "connection-close-of-refusals": [put("/db/a", "{}"), put("/db/a", "{", headers=["Connection: close"]), get("/")],
    "version-one-zero": [put("/db/a", "{}"), get("/db/a", version="HTTP/1.0"), get("/")],
}

CURL = {
    "curl-put-and-get": [
        curl("PUT", "/db/a", {"n": 1}, JSON),
        curl("GET", "/db/a"),
        curl("GET", "/db/b"),
        curl("GET", "/"),
        curl("HEAD", "/"),
    ],
    "curl-put-of-a-form": [curl("PUT", "/db/a", "n=1"), curl("GET", "/db/a")],
}

CASES = {**CURL, **STORED, **IDENTITIES, **ROUTES, **BODIES, **HEADS}

# input that is refused with all that follows it, for another reason than that it is no head
BROKEN_INPUT = {
    "sixty-five-headers": [get("/", headers=["X-%d: y" % n for n in range(65)])],
    "sixty-five-headers-without-end": [get("/", headers=["X-%d: y" % n for n in range(65)])[:-2]],
    "head-of-16385-bytes": [get("/", headers=["X: " + "y" * (16385 - 23)])],
    "head-without-end": [b"GET / HTTP/1.1\r\nX: " + b"y" * 16384],
    "target-without-end": [b"GET /" + b"y" * 16384],
    "target-not-utf8-without-end": [b"GET /\xff" + b"y" * 16384],
    "empty-lines-without-end": [b"\n" * 16384],
    "transfer-coding": [request("PUT", "/db/a", None, ["Transfer-Encoding: chunked"]), b"2\r\n{}\r\n0\r\n\r\n"],
    "curl-upload-in-chunks": [
        b"PUT /db/a HTTP/1.1\r\nHost: 127.0.0.1:5984\r\nUser-Agent: curl/7.88.1\r\nAccept: */*\r\n",
        b"Transfer-Encoding: chunked\r\nExpect: 100-continue\r\n\r\n2\r\n{}\r\n0\r\n\r\n",
    ],
    "transfer-coding-and-length": [request("PUT", "/db/a", "{}", ["Transfer-Encoding: identity", "Content-Length: x"])],
    "length-twice": [request("PUT", "/db/a", "{}", ["Content-Length: 2"])],
    "length-empty": [request("PUT", "/db/a", None, ["Content-Length:"])],
    "length-with-sign": [request("PUT", "/db/a", None, ["Content-Length: +2"]), b"{}"],
    "length-no-digits": [request("PUT", "/db/a", None, ["Content-Length: 2, 2"]), b"{}"],
    "length-too-large": [request("PUT", "/db/a", None, ["Content-Length: 1048577"])],
    "length-past-any-number": [request("PUT", "/db/a", None, ["Content-Length: " + "9" * 40])],
    "length-before-route": [get("/"), request("PUT", "/x", None, ["Content-Length: x"]), get("/")],
}
