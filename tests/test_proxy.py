"""Runs `couchd serve` behind nginx by the examples' configuration, as a service of systemd starts it, and asks through it.

    python3 tests/test_proxy.py [COUCHD]

nginx, openssl and systemd-analyze are those of the system: what needs one that is missing is left out, and a line says so. The
configuration is that of the examples but for its ports and the files that it names, and so is the service but for its program and
its folder.
"""
import base64
import contextlib
import http.client
import json
import os
import re
import shlex
import shutil
import signal
import socket
import ssl
import subprocess
import sys
import tempfile
import time

from lib.checks import Checks
from lib.programs import ROOT, SECONDS, arguments
from lib.server import Server

OWN, APP, FOREIGN = "https://db.example", "https://app.example", "https://evil.example"
USER = "Basic " + base64.b64encode(b"ann:secret").decode()
JSON = {"Content-Type": "application/json"}
WHOLE = """daemon off; pid nginx.pid; error_log nginx.log; worker_processes 1;
events {}
http {
    access_log off;
    client_body_temp_path body; proxy_temp_path proxy; fastcgi_temp_path fastcgi; uwsgi_temp_path uwsgi; scgi_temp_path scgi;
    include couchd.conf;
}
"""


def example(name):
    with open(os.path.join(ROOT, "examples", name), encoding="utf-8") as file:
        return file.read()


def free_port():
    with socket.create_server(("127.0.0.1", 0)) as listener:
        return listener.getsockname()[1]


def tool(*names):
    """The path of a program, which may lie where only the superuser looks."""
    found = [shutil.which(name, path=os.environ["PATH"] + ":/usr/sbin:/sbin") for name in names]
    lacking = [name for name, path in zip(names, found) if path is None]
    if lacking:
        print("left out: there is no %s" % ", ".join(lacking))
        return None
    return found


# ---- the service of systemd


def check_service(checks, program, folder):
    """The file of the service is valid, and its command starts a server."""
    unit = example("couchd.service")
    command = re.search(r"^ExecStart=(.*)$", unit, re.M).group(1)
    path = os.path.join(folder, "couchd.service")
    with open(path, "w", encoding="utf-8") as file:
        file.write(unit.replace(shlex.split(command)[0], program))
    if analyze := tool("systemd-analyze"):
        ran = subprocess.run([*analyze, "verify", path], capture_output=True, text=True, timeout=SECONDS)
        checks.check(ran.returncode == 0 and not ran.stderr, "the service: status %d, %s", ran.returncode, ran.stderr)
    words = shlex.split(command)[2:]
    data = words.index("--data") + 1
    checks.check(
        words[data] == "/var/lib/" + re.search(r"^StateDirectory=(.*)$", unit, re.M).group(1), "%s isn't its folder", words[data]
    )
    words[data] = os.path.join(folder, "data")
    options = [word for at, word in enumerate(words) if "--port" not in words[max(0, at - 1) : at + 1]]
    with Server(program, *options) as server:
        status, greeting = server.connect().ask("GET", "/")
        checks.check((status, greeting) == (200, {"couchdb": "Welcome"}), "the service answers %d %s", status, greeting)
        server.stop(signal.SIGTERM)
        checks.check(server.status() in (0, -signal.SIGTERM), "a service that is stopped ends with %d", server.status())
    checks.check(sorted(os.listdir(words[data]))[:1] == ["0000000001.dump"], "its folder has %s", os.listdir(words[data]))


# ---- the proxy


class Proxy:
    """nginx with the configuration of the examples, before a server."""

    def __init__(self, nginx, openssl, folder, port):
        self.folder, self.port, plain = folder, free_port(), free_port()
        self.make_certificate(openssl)
        with open(self.path("users"), "w", encoding="utf-8") as file:
            file.write("ann:{PLAIN}secret\n")
        text = example("couchd.nginx")
        for old, new in (
            ("listen 443 ", "listen 127.0.0.1:%d " % self.port),
            ("listen 80;", "listen 127.0.0.1:%d;" % plain),
            ("server 127.0.0.1:5984;", "server 127.0.0.1:%d;" % port),
            ("/etc/ssl/couchd/", folder + "/"),
            ("/etc/nginx/couchd.users", self.path("users")),
            ("/srv/app", self.path("app")),
        ):
            if old not in text:
                raise ValueError("the configuration has no " + old)
            text = text.replace(old, new)
        for name, content in (("couchd.conf", text), ("nginx.conf", WHOLE), ("app/index.html", "the page")):
            os.makedirs(os.path.dirname(self.path(name)), exist_ok=True)
            with open(self.path(name), "w", encoding="utf-8") as file:
                file.write(content)
        os.chmod(folder, 0o755)
        self.process = subprocess.Popen(
            [nginx, "-p", folder, "-c", "nginx.conf", "-e", "nginx.log"], stderr=subprocess.PIPE, text=True
        )
        self.wait()

    def path(self, name):
        return os.path.join(self.folder, name)

    def make_certificate(self, openssl):
        """A certificate of db.example, which signs itself."""
        key, certificate = self.path("key.pem"), self.path("certificate.pem")
        subprocess.run(
            [openssl, "req", "-x509", "-newkey", "ec", "-pkeyopt", "ec_paramgen_curve:prime256v1", "-nodes", "-days", "2"]
            + ["-subj", "/CN=db.example", "-addext", "subjectAltName=DNS:db.example", "-keyout", key, "-out", certificate],
            check=True,
            capture_output=True,
            timeout=SECONDS,
        )

    def wait(self):
        end = time.monotonic() + SECONDS
        while time.monotonic() < end and self.process.poll() is None:
            with contextlib.suppress(OSError), socket.create_connection(("127.0.0.1", self.port), timeout=1):
                return
            time.sleep(0.05)
        raise OSError("nginx doesn't listen: " + (self.process.stderr.read() if self.process.poll() is not None else "in time"))

    def connect(self, name="db.example"):
        """A connection by this name, whose certificate is that of db.example."""
        context = ssl.create_default_context(cafile=self.path("certificate.pem"))
        context.check_hostname = name == "db.example"
        connection = http.client.HTTPSConnection("db.example", self.port, context=context, timeout=SECONDS)
        connection.sock = context.wrap_socket(
            socket.create_connection(("127.0.0.1", self.port), timeout=SECONDS), server_hostname=name
        )
        return connection

    def ask(self, method, target, body=None, origin=None, user=USER, headers=JSON, name="db.example"):
        """The status, the headers and the value of the response to a request, if it has one."""
        given = {"Host": name, **headers}
        given |= {key: value for key, value in (("Origin", origin), ("Authorization", user)) if value is not None}
        with contextlib.closing(self.connect(name)) as connection:
            connection.request(method, target, None if body is None else json.dumps(body), given)
            response = connection.getresponse()
            text = response.read()
            is_json = response.headers.get("Content-Type") == "application/json"
            return response.status, response.headers, json.loads(text) if is_json else text

    def stop(self):
        self.process.terminate()
        self.process.wait(SECONDS)


def check_users(checks, proxy):
    for user, wanted in ((None, 401), (USER[:-4] + "AAAA", 401), (USER, 200)):
        status, _, _ = proxy.ask("GET", "/db", user=user)
        checks.check(status == wanted, "user %s: %d, not %d", user, status, wanted)
    status, _, page = proxy.ask("GET", "/index.html")
    checks.check((status, page) == (200, b"the page"), "the page: %d %s", status, page)


def check_pages(checks, proxy):
    """The pages of two origins write and read, and may read refusals too."""
    for target, origin, exposed in (("/db/own", OWN, None), ("/db/app", APP, APP), ("/db/doc", None, None)):
        for method, place, body, wanted in (
            ("PUT", target, {"n": 1}, 201),
            ("PUT", target, {"n": 2}, 409),
            ("GET", target, None, 200),
            ("GET", "/db/none", None, 404),
            ("POST", "/db/_revs_diff", {"doc": ["1-" + "a" * 32]}, 200),
        ):
            status, headers, value = proxy.ask(method, place, body, origin)
            what = "%s %s of %s" % (method, place, origin)
            checks.check(status == wanted, "%s: %d %s, not %d", what, status, value, wanted)
            checks.check(
                headers.get_all("Access-Control-Allow-Origin", [None]) == [exposed], "%s allows %s", what, headers.items()
            )
            checks.check(
                "Couch-Place" in headers and headers["Access-Control-Expose-Headers"] == "Couch-Place",
                "%s exposes no place",
                what,
            )


def check_preflights(checks, proxy):
    asked = {"Access-Control-Request-Method": "PUT", "Access-Control-Request-Headers": "authorization,content-type"}
    for target in "/db/doc", "/db/_changes":
        status, headers, _ = proxy.ask("OPTIONS", target, None, APP, user=None, headers=asked)
        allowed = [headers["Access-Control-Allow-" + name] for name in ("Origin", "Credentials", "Methods")]
        checks.check(
            status == 204 and allowed == [APP, "true", "GET, PUT, POST, DELETE"], "OPTIONS %s: %d %s", target, status, allowed
        )
        names = (headers["Access-Control-Allow-Headers"] or "").split(", ")
        checks.check({"authorization", "content-type"} <= set(names), "OPTIONS %s allows the headers %s", target, names)
        status, headers, _ = proxy.ask("OPTIONS", target, None, FOREIGN, user=None, headers=asked)
        checks.check((status, headers["Access-Control-Allow-Origin"]) == (403, None), "a foreign OPTIONS %s: %d", target, status)


def check_refusals(checks, proxy, server):
    """What is refused isn't asked of the server."""
    connection = server.connect()
    before = connection.ask("GET", "/db")
    bulk = {"docs": [{"_id": "foreign"}]}
    for what, wanted, given in (
        ("a foreign GET", 403, {"method": "GET", "target": "/db/doc", "origin": FOREIGN}),
        ("a foreign bulk", 403, {"method": "POST", "target": "/db/_bulk_docs", "body": bulk, "origin": FOREIGN}),
        ("a foreign purge", 403, {"method": "POST", "target": "/db/_purge", "body": {"doc": []}, "origin": FOREIGN}),
        ("an origin like ours", 403, {"method": "GET", "target": "/db", "origin": "https://db.example.evil.example"}),
        ("no origin", 403, {"method": "GET", "target": "/db", "origin": "null"}),
        ("a form", 415, {"method": "POST", "target": "/db/_bulk_docs", "body": bulk, "headers": {"Content-Type": "text/plain"}}),
        ("another name", 421, {"method": "GET", "target": "/db/doc", "name": "evil.example"}),
        ("a large body", 413, {"method": "PUT", "target": "/db/large", "body": {"a": "a" * 2**20}}),
    ):
        status, _, _ = proxy.ask(**given)
        checks.check(status == wanted, "%s: %d, not %d", what, status, wanted)
    after = connection.ask("GET", "/db")
    checks.check(after == before, "refusals changed %s to %s", before, after)


def check_feed(checks, proxy):
    """A row of a feed comes when its change does."""
    last = proxy.ask("GET", "/db")[2]["update_seq"]
    with contextlib.closing(proxy.connect()) as connection:
        connection.request(
            "GET", "/db/_changes?feed=continuous&since=%d" % last, headers={"Host": "db.example", "Authorization": USER}
        )
        response = connection.getresponse()
        began = time.monotonic()
        status, _, _ = proxy.ask("PUT", "/db/followed", {})
        row = json.loads(response.readline())
        taken = time.monotonic() - began
        checks.check((status, row["id"]) == (201, "followed") and taken < 30, "after %.1f s the feed has %s", taken, row)


def check_proxy(checks, program, folder):
    if (tools := tool("nginx", "openssl")) is None:
        return
    with Server(program, "--workers", "16", data=os.path.join(folder, "behind")) as server:
        proxy = Proxy(*tools, os.path.join(folder, "proxy"), server.port)
        try:
            check_users(checks, proxy)
            check_pages(checks, proxy)
            check_preflights(checks, proxy)
            check_refusals(checks, proxy, server)
            check_feed(checks, proxy)
        finally:
            proxy.stop()


def main():
    given = arguments(__doc__, "couchd").parse_args()
    checks = Checks()
    with tempfile.TemporaryDirectory() as folder:
        os.chmod(folder, 0o755)
        os.mkdir(os.path.join(folder, "proxy"))
        check_service(checks, given.couchd, folder)
        check_proxy(checks, given.couchd, folder)
    return checks.report()


if __name__ == "__main__":
    sys.exit(main())
