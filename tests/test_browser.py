"""Has pages in a browser use `couchd serve --data`: of an allowed origin, of another one, and of a name that is pointed here.

    python3 tests/test_browser.py [COUCHD]

The browser is a Chromium of the system without a window; if there is none, that is said and nothing is tried. It takes each name
under `example` for this machine, as after a change of a name at its owner. The pages come from a server of this script, to which
they also report what they saw; what was written is asked of `couchd` itself.
"""
import contextlib
import http.server
import json
import os
import shutil
import signal
import subprocess
import sys
import tempfile
import threading

from lib.checks import Checks
from lib.programs import SECONDS, arguments
from lib.server import Server

BROWSERS = ("chromium", "chromium-browser", "google-chrome", "chrome")
OPTIONS = ["--headless=new", "--no-sandbox", "--disable-gpu", "--disable-dev-shm-usage", "--no-first-run", "--disable-extensions"]
OPTIONS += ["--disable-background-networking", "--remote-debugging-port=0", "--host-resolver-rules=MAP *.example 127.0.0.1"]
PATIENCE = 120  # seconds that a page may take
PAGE = """<!DOCTYPE html><title>a page</title><body><script>
const name = (tried) => tried.then((seen) => seen, (error) => error.name);
const seen = (response) => [response.type, response.status];
const json = { 'Content-Type': 'application/json' };
(async () => {
  const go = await fetch('%(report)s/script', { method: 'POST' });
  const outcome = await (eval(await go.text()))();
  await fetch('%(report)s/outcome', { method: 'POST', body: JSON.stringify(outcome) });
})();
</script></body>"""

# The page of an allowed origin writes, is refused a second writing, and follows another one.
WRITES = """async () => {
  const put = (id) => fetch('%(db)s/' + id, { method: 'PUT', headers: json, credentials: 'include', body: '{"n":1}' });
  const first = await put('first');
  const again = await put('first');
  const { update_seq } = await (await fetch('%(db)s')).json();
  const feed = fetch('%(db)s/_changes?feed=longpoll&since=' + update_seq);
  await put('second');
  const { results } = await (await feed).json();
  const bulk = await fetch('%(db)s/_bulk_docs', { method: 'POST', headers: json, body: '{"docs":[{"_id":"third"}]}' });
  const removed = await fetch('%(db)s/second?rev=' + results[0].changes[0].rev, { method: 'DELETE' });
  return [first.status, first.headers.get('Couch-Place'), again.status, (await again.json()).error, results[0].id, bulk.status, removed.status];
}"""
WRITTEN = [201, "1", 409, "conflict", "second", 201, 200]

# The page of another origin reads and writes in each way that a browser lets it try.
TRIES = """async () => {
  const text = { 'Content-Type': 'text/plain' };
  const post = (path, body) => ({ method: 'POST', mode: 'no-cors', headers: text, body });
  const sent = (tag, attributes) => new Promise((ends) => {
    const element = Object.assign(document.createElement(tag), attributes);
    element.onload = element.onerror = (event) => ends(event.type);
    document.body.append(element);
  });
  const form = document.createElement('form');
  Object.assign(form, { method: 'POST', enctype: 'text/plain', action: '%(db)s/_bulk_docs', target: 'hidden' });
  form.innerHTML = `<input name='{"docs":[{"_id":"form","x":"' value='"}]}'>`;
  document.body.append(form);
  const framed = sent('iframe', { name: 'hidden', src: 'about:blank' });
  await framed;
  form.submit();
  return [
    await name(fetch('%(db)s/first').then(seen)),
    await name(fetch('%(db)s/foreign', { method: 'PUT', headers: json, body: '{}' }).then(seen)),
    await name(fetch('%(db)s/first?rev=%(rev)s', { method: 'DELETE' }).then(seen)),
    await name(fetch('%(db)s/_bulk_docs', post('_bulk_docs', '{"docs":[{"_id":"foreign"}]}')).then(seen)),
    await name(fetch('%(db)s/_purge', post('_purge', '{"first":["%(rev)s"]}')).then(seen)),
    await sent('img', { src: '%(db)s/first' }),
    await sent('script', { src: '%(db)s' }),
  ];
}"""
TRIED = ["TypeError", "TypeError", "TypeError", ["opaque", 0], ["opaque", 0], "error", "error"]

# The page reads and writes at its own origin, which is the server by now.
POINTED = """async () => {
  const read = await fetch('/db/first', { cache: 'no-store' });
  const written = await fetch('/db/pointed', { method: 'PUT', headers: json, body: '{}' });
  const purged = await fetch('/db/_purge', { method: 'POST', headers: json, body: '{"first":["%(rev)s"]}' });
  return [read.status, (await read.json()).reason, written.status, purged.status];
}"""
REFUSED = [403, "host", 403, 403]


class Pages:
    """A server of the page, and of what it is to do once it is told. It notes what the page reports."""

    def __init__(self):
        pages = self

        class Handler(http.server.BaseHTTPRequestHandler):
            def do_GET(self):
                self.answer(PAGE % {"report": pages.report.rstrip("/")}, "text/html")

            def do_POST(self):
                body = self.rfile.read(int(self.headers.get("Content-Length", 0)))
                if self.path == "/outcome":
                    pages.outcome = json.loads(body)
                    pages.ended.set()
                else:
                    pages.asked.set()
                    pages.ready.wait(PATIENCE)
                self.answer(pages.script, "text/plain")

            def answer(self, text, kind):
                self.send_response(200)
                for header in (("Content-Type", kind), ("Content-Length", str(len(text))), ("Access-Control-Allow-Origin", "*")):
                    self.send_header(*header)
                self.end_headers()
                self.wfile.write(text.encode())

            def log_message(self, *_):
                pass

        self.server = http.server.ThreadingHTTPServer(("127.0.0.1", 0), Handler)
        self.port = self.server.server_port
        self.report = "http://report.example:%d" % self.port  # the origin of the server that the page reports to
        self.asked, self.ready, self.ended = threading.Event(), threading.Event(), threading.Event()
        self.script, self.outcome = "", None
        threading.Thread(target=self.server.serve_forever, daemon=True).start()

    def tell(self, script):
        """Tells the page what to do."""
        self.script = script
        self.ready.set()

    def close(self):
        self.server.shutdown()
        self.server.server_close()


@contextlib.contextmanager
def browsing(browser, address):
    """A browser that shows a page."""
    with tempfile.TemporaryDirectory(ignore_cleanup_errors=True) as folder, open(os.devnull, "wb") as nothing:
        command = [browser, *OPTIONS, "--user-data-dir=" + folder, address]
        process = subprocess.Popen(command, stdin=subprocess.DEVNULL, stdout=nothing, stderr=nothing, start_new_session=True)
        try:
            yield
        finally:
            os.killpg(process.pid, signal.SIGKILL)
            process.wait(SECONDS)


def outcome_of(browser, name, script):
    """What a page of this name reports of this script."""
    pages = Pages()
    pages.tell(script)
    with browsing(browser, "http://%s:%d/" % (name, pages.port)):
        pages.ended.wait(PATIENCE)
    pages.close()
    return pages.outcome


def state(server):
    """What a server holds: its numbers, and the ids of its documents."""
    connection = server.connect()
    numbers = connection.ask("GET", "/db")[1]
    return numbers, [row["id"] for row in connection.ask("GET", "/db/_all_docs")[1]["rows"]]


def check_allowed(checks, couchd, browser, folder):
    """A page of an allowed origin writes and follows."""
    pages = Pages()
    with Server(couchd, "--origins", "http://app.example:%d" % pages.port, data=folder + "/allowed") as server:
        pages.tell(WRITES % {"db": "http://127.0.0.1:%d/db" % server.port})
        with browsing(browser, "http://app.example:%d/" % pages.port):
            pages.ended.wait(PATIENCE)
        checks.check(pages.outcome == WRITTEN, "a page of an allowed origin saw %s, not %s", pages.outcome, WRITTEN)
        checks.check(state(server)[1] == ["first", "third"], "it wrote %s", state(server))
    pages.close()


def check_foreign(checks, couchd, browser, folder):
    """A page of another origin can't write, purge or read."""
    with Server(couchd, "--origins", "http://app.example", data=folder + "/foreign") as server:
        rev = server.connect().ask("PUT", "/db/first", {"n": 1})[1]["rev"]
        before = state(server)
        script = TRIES % {"db": "http://127.0.0.1:%d/db" % server.port, "rev": rev}
        seen = outcome_of(browser, "evil.example", script)
        checks.check(seen == TRIED, "a page of another origin saw %s, not %s", seen, TRIED)
        checks.check(state(server) == before, "it changed %s to %s", before, state(server))


def check_pointed(checks, couchd, browser, folder):
    """Nor can a page whose name and port were pointed at the server after it was loaded."""
    report, pages = Pages(), Pages()
    pages.report = report.report
    with browsing(browser, "http://evil.example:%d/" % pages.port):
        checks.check(report.asked.wait(PATIENCE), "the page isn't loaded")
        pages.close()
        with Server(couchd, data=folder + "/pointed", port=pages.port) as server:
            rev = server.connect().ask("PUT", "/db/first", {"n": 1})[1]["rev"]
            before = state(server)
            report.tell(POINTED % {"rev": rev})
            report.ended.wait(PATIENCE)
            checks.check(report.outcome == REFUSED, "a page whose name was pointed here saw %s, not %s", report.outcome, REFUSED)
            checks.check(state(server) == before, "it changed %s to %s", before, state(server))
    report.close()


def main():
    given = arguments(__doc__, "couchd").parse_args()
    checks = Checks()
    browser = next((path for path in map(shutil.which, BROWSERS) if path), None)
    if browser is None:
        print("left out: there is no browser, such as Debian's package chromium")
        return checks.report()
    with tempfile.TemporaryDirectory() as folder:
        for check in check_allowed, check_foreign, check_pointed:
            check(checks, given.couchd, browser, folder)
    return checks.report()


if __name__ == "__main__":
    sys.exit(main())
