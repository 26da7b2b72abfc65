"""Asks `couchd serve` with the headers that browsers add, and looks which requests it refuses, and what it adds to its answers.

    python3 tests/test_origins.py [COUCHD]

What a server with allowed origins answers is what one without answers, but for three or four lines of the head. What is refused,
and a browser's question before a request, change nothing, and are answered alike whatever is asked.
"""
import json
import socket
import sys
import tempfile

from lib.checks import Checks
from lib.programs import SECONDS, arguments
from lib.requests import request
from lib.server import Exchange, Server

APP, OTHER = "https://app.example", "http://localhost:8080"
ALLOWED = ["--origins", "%s,%s" % (APP, OTHER), "--hosts", "db.example,couch.example"]
ALL = ["--origins", "*", "--hosts", "*"]

PASS, ORIGIN, SITE, HOST = None, "origin", "site", "host"
# headers of a request, and the reason for which a server refuses it that allows nothing, two origins and two hosts, and all
RULES = [
    ([], PASS, PASS, PASS),
    (["Host: 127.0.0.1:5984"], PASS, PASS, PASS),
    (["Host: localhost:5984"], PASS, PASS, PASS),
    (["Host: couchd"], PASS, PASS, PASS),
    (["Host: 10.0.0.7"], PASS, PASS, PASS),
    (["Host: [::1]:5984"], PASS, PASS, PASS),
    (["Host:"], PASS, PASS, PASS),
    (["Host: evil.example"], HOST, HOST, PASS),
    (["Host: evil.example:5984"], HOST, HOST, PASS),
    (["Host: 127.0.0.1.evil.example"], HOST, HOST, PASS),
    (["Host: localhost."], HOST, HOST, PASS),
    (["Host: db.example:5984"], HOST, PASS, PASS),
    (["host: Couch.Example"], HOST, PASS, PASS),
    (["Host: db.example", "Host: evil.example"], HOST, HOST, PASS),
    (["Origin: " + APP], ORIGIN, PASS, PASS),
    (["origin: " + OTHER, "Host: db.example"], ORIGIN, PASS, PASS),
    (["Origin: " + APP, "Sec-Fetch-Site: cross-site"], ORIGIN, PASS, PASS),
    (["Origin: " + APP, "Host: evil.example"], ORIGIN, HOST, PASS),
    (["Origin: https://evil.example"], ORIGIN, ORIGIN, PASS),
    (["Origin: https://app.example.evil.example"], ORIGIN, ORIGIN, PASS),
    (["Origin: http://app.example"], ORIGIN, ORIGIN, PASS),
    (["Origin: HTTPS://APP.EXAMPLE"], ORIGIN, ORIGIN, PASS),
    (["Origin: http://localhost"], ORIGIN, ORIGIN, PASS),
    (["Origin: null"], ORIGIN, ORIGIN, PASS),
    (["Origin:"], ORIGIN, ORIGIN, PASS),
    (["Origin: " + APP, "Origin: https://evil.example"], ORIGIN, ORIGIN, PASS),
    (["Sec-Fetch-Site: cross-site"], SITE, SITE, PASS),
    (["sec-fetch-site: cross-site", "Host: evil.example"], SITE, SITE, PASS),
    (["Sec-Fetch-Site: same-site"], PASS, PASS, PASS),
    (["Sec-Fetch-Site: same-origin"], PASS, PASS, PASS),
    (["Sec-Fetch-Site: none"], PASS, PASS, PASS),
]
SEED = [("PUT", "/db/a", b'{"n":1}')]
ASKED = [
    ("GET", "/", b""),
    ("GET", "/db/a?revs=true", b""),
    ("GET", "/db/none", b""),
    ("PUT", "/db/a", b'{"n":2}'),
    ("PUT", "/db/b", b'{"n":3}'),
    ("POST", "/db/_bulk_docs", b'{"docs":[{"_id":"c"}]}'),
    ("POST", "/db/_bulk_docs", b"{"),
    ("GET", "/db/_changes?feed=continuous&limit=2", b""),
    ("HEAD", "/db/a", b""),
    ("OPTIONS", "/db/a", b""),
    ("GET", "/other", b""),
]
PREFLIGHT = ["Access-Control-Request-Method: PUT", "Access-Control-Request-Headers: content-type"]


def refused(reason, closes=False, method="GET"):
    """The answer of a request that is refused, which to HEAD ends with its head."""
    body = '{"error":"forbidden","reason":"%s"}' % reason
    lines = [
        "HTTP/1.1 403 Forbidden",
        *["Connection: close"] * closes,
        "Content-Type: application/json",
        "Content-Length: %d" % len(body),
    ]
    return ("\r\n".join(lines) + "\r\n\r\n" + ("" if method == "HEAD" else body)).encode()


def admitted(origin, closes=False):
    """The answer of a browser's question."""
    lines = ["HTTP/1.1 204 No Content", *["Connection: close"] * closes, "Access-Control-Allow-Origin: " + origin]
    lines += ["Access-Control-Allow-Credentials: true", "Access-Control-Allow-Methods: GET, PUT, POST, DELETE"]
    lines += ["Access-Control-Allow-Headers: accept, authorization, content-type, origin, referer", "Access-Control-Max-Age: 600"]
    return ("\r\n".join([*lines, "Vary: Origin"]) + "\r\n\r\n").encode()


def extended(answer, origin):
    """An answer with the lines for a page of this origin behind its first line."""
    first, rest = answer.split(b"\r\n", 1)
    lines = ["Access-Control-Allow-Origin: " + origin, "Access-Control-Allow-Credentials: true"]
    lines += ["Access-Control-Expose-Headers: Couch-Place", "Vary: Origin"]
    return b"\r\n".join([first, *(line.encode() for line in lines), rest])


def answers(port, requests):
    """What a server writes for requests on one connection, of which the last closes it."""
    with socket.create_connection(("127.0.0.1", port), SECONDS) as client:
        client.sendall(b"".join(requests))
        return b"".join(iter(lambda: client.recv(65536), b""))


def one(port, method, target, body=b"", headers=()):
    return answers(port, [request(method, target, body, [*headers, "Connection: close"])])


def origin_in(headers):
    """The first origin in these headers, if there is one."""
    values = [line.split(":", 1)[1].strip() for line in headers if line.lower().startswith("origin:")]
    return values[0] if values else None


def check_rules(checks, couchd):
    """Each request is refused for its reason by each server, or answered."""
    with tempfile.TemporaryDirectory() as folder, Server(couchd) as open_to_all:
        for at, options in ((1, []), (2, ALLOWED), (3, ALL)):
            with Server(couchd, *options, data="%s/%d" % (folder, at)) as server:
                for rule in RULES:
                    headers, reason = rule[0], rule[at]
                    plain = one(open_to_all.port, "GET", "/", b"", headers)
                    origin = origin_in(headers)
                    wanted = refused(reason, True) if reason else plain if origin is None else extended(plain, origin)
                    got = one(server.port, "GET", "/", b"", headers)
                    checks.check(got == wanted, "%s of %s: %s, not %s", headers, options, got, wanted)


def check_answers(checks, couchd):
    """What passes is answered as by a server that looks at no origin, but for the lines."""
    one_worker = ["--workers", "1"]  # another one would answer `/` at the position that it has seen
    with (
        Server(couchd, *one_worker) as plain,
        Server(couchd, *ALLOWED, *one_worker) as own,
        Server(couchd, *ALLOWED, *one_worker) as server,
    ):
        for method, target, body in SEED + ASKED:
            wanted = one(plain.port, method, target, body)
            for port, headers, made in ((own.port, [], wanted), (server.port, ["Origin: " + APP], extended(wanted, APP))):
                got = one(port, method, target, body, headers)
                checks.check(got == made, "%s %s with %s: %s, not %s", method, target, headers, got, made)


def check_connections(checks, couchd):
    """Requests that are refused, asked about and answered follow one another on a connection."""
    with Server(couchd, *ALLOWED) as server:
        asked = [
            (request("PUT", "/db/a", b'{"n":1}', ["Origin: https://evil.example"]), refused(ORIGIN)),
            (request("OPTIONS", "/db/a", b"", ["Origin: " + APP, *PREFLIGHT]), admitted(APP)),
            (request("OPTIONS", "/db/a", b"", ["Origin: https://evil.example", *PREFLIGHT]), refused(ORIGIN)),
            (request("OPTIONS", "/db/a", b"", ["Origin: " + APP, "Host: evil.example", *PREFLIGHT]), refused(HOST)),
            (request("HEAD", "/db/a", b"", ["Origin: https://evil.example"]), refused(ORIGIN, method="HEAD")),
            (request("POST", "/db/_purge", b'{"a":[]}', ["Sec-Fetch-Site: cross-site"]), refused(SITE)),
            (request("OPTIONS", "/db/a", b"", ["Origin: " + OTHER, *PREFLIGHT, "Connection: close"]), admitted(OTHER, True)),
        ]
        got = answers(server.port, [text for text, _ in asked])
        wanted = b"".join(answer for _, answer in asked)
        checks.check(got == wanted, "a connection: %s, not %s", got, wanted)
        connection = server.connect()
        status, value = connection.ask("GET", "/db")
        checks.check(
            (status, value["update_seq"], connection.place) == (200, 0, 0), "refusals changed %s, at %d", value, connection.place
        )


def check_feed(checks, couchd):
    """The lines are before the first row of a feed, which goes on."""
    with Server(couchd, *ALLOWED) as server:
        client = Exchange(socket.create_connection(("127.0.0.1", server.port), SECONDS))
        client.socket.sendall(request("GET", "/db/_changes?feed=continuous", b"", ["Origin: " + APP]))
        head = client.next_head().decode()
        checks.check("\r\nAccess-Control-Allow-Origin: %s\r\n" % APP in head + "\r\n", "the head of a feed: %s", head)
        server.connect().ask("PUT", "/db/a", b"{}")
        while b"\n" not in client.rest and client.more():
            pass
        row = json.loads(client.rest.split(b"\n")[0])
        checks.check(row["id"] == "a", "the feed has %s", row)
        client.close()


def main():
    given = arguments(__doc__, "couchd").parse_args()
    checks = Checks()
    for check in check_rules, check_answers, check_connections, check_feed:
        check(checks, given.couchd)
    return checks.report()


if __name__ == "__main__":
    sys.exit(main())
