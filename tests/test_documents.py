"""Runs the commands that the documents show with their output, and compares that output; checks their links, diffs and sizes.

    python3 tests/test_documents.py [COUCHD REPLAY]

The documents are README.md, CONTRIBUTING.md, CHANGELOG.md, the README.md of tests and of benches, and those of docs/ and its
folders. Of the pages that docs/make.py writes only the links are checked.

- Commands: a block fenced as `sh` is run where a block with no language follows it under the same heading, which is its output.
  The blocks of a document run in order, each in a shell of its own, in a new folder with the repository's `examples` in it and
  the programs on the path. Two servers are started for the document: 127.0.0.1:5984 and 127.0.0.1:5985 mean their ports.
  Standard error counts as output, and `curl`, which has to be there, ends each answer with a line feed. A block without output
  that starts servers is run too, on free ports: after a second each of them must be running, and have written nothing but its
  port. Blocks without output that build or test (`rt`, `tests/all`) are not run.
- Links: a link to a file of the repository leads to one, and to a heading of it where it names one.
- Diffs: a line that a block fenced as `diff` adds, under `+++ FILE`, is a line of that file.
- Sizes: README.md has at most 600 words, each other page 3,500, and all together 20,000. The pages are README.md,
  CONTRIBUTING.md and those of docs/ itself. What docs/make.py writes in them isn't counted.
"""
import os
import re
import subprocess
import sys
import tempfile

from lib.checks import Checks
from lib.documents import REFERENCE, content, every
from lib.programs import ROOT, arguments
from lib.server import Server

PORTS = ("5984", "5985")  # that the documents name
SECONDS = 60  # that one block may take
FIRST, PAGE, ALL = 600, 3500, 20000  # words of README.md, of each other page, and of all together
CURL = 'silent\nshow-error\nwrite-out = "\\n"\nnoproxy = "*"\n'

BLOCK = re.compile(r"^```(\w*)\n(.*?)^```$|^#+ ([^\n]*)$", re.S | re.M)
WORD = re.compile(r"\S*\w\S*")
MADE = re.compile(r"<!-- docs/make\.py: .*?<!-- docs/make\.py ends -->", re.S)
LINK = re.compile(r"\[[^\]]*\]\(([^)\s]+)\)")


# ---- commands


def shown(text):
    """The commands of a document, each with its output or with None, in order."""
    commands = None
    for language, block, heading in [*BLOCK.findall(text), ("", "", "end")]:
        if commands is not None:
            yield commands, None if heading or language else block
        commands = block if language == "sh" else None


def started(commands):
    """The commands with each server that they start on a free port, in the background, and ended after a second; or None."""
    if "couchd serve" not in commands:
        return None
    servers = re.sub(r"(couchd serve\b[^>&\n]*?)(?: --port \d+)?([^&\n]*?)(?: &)?$", r"\1 --port 0\2 &", commands, flags=re.M)
    return servers + "sleep 1\nfor job in $(jobs -p); do kill $job || exit 1; done\necho ended\n"


class Room:
    """A new folder in which the commands of a document run, and two servers for them."""

    def __init__(self, couchd, replay):
        self.folder = tempfile.TemporaryDirectory(prefix="documents-")
        os.symlink(os.path.join(ROOT, "examples"), self.path("examples"))
        os.mkdir(self.path("bin"))
        for name, program in [("couchd", couchd), ("replay", replay)]:
            os.symlink(program, self.path("bin", name))
        with open(self.path(".curlrc"), "w", encoding="utf-8") as file:
            file.write(CURL)
        self.servers = [Server(couchd, "--workers", "8") for _ in PORTS]
        self.ports = dict(zip(PORTS, (str(server.port) for server in self.servers)))

    def path(self, *names):
        return os.path.join(self.folder.name, *names)

    def __enter__(self):
        return self

    def __exit__(self, *_):
        for server in self.servers:
            server.stop()
        self.folder.cleanup()

    def run(self, commands):
        """What the commands print, with the ports that the document names."""
        for shown_port, port in self.ports.items():
            commands = commands.replace("127.0.0.1:" + shown_port, "127.0.0.1:" + port)
        env = dict(os.environ, CURL_HOME=self.folder.name, PATH=self.path("bin") + os.pathsep + os.environ["PATH"])
        try:
            ran = subprocess.run(
                ["bash", "-c", commands],
                cwd=self.folder.name,
                env=env,
                timeout=SECONDS,
                stdin=subprocess.DEVNULL,
                stdout=subprocess.PIPE,
                stderr=subprocess.STDOUT,
            )
        except subprocess.TimeoutExpired:
            return "no end after %d seconds" % SECONDS
        output = ran.stdout.decode().replace("\r\n", "\n")
        for shown_port, port in self.ports.items():
            output = output.replace("127.0.0.1:" + port, "127.0.0.1:" + shown_port)
        return output


def check_started(checks, name, room, commands):
    servers = started(commands)
    if servers is not None:
        found = room.run(servers)
        checks.check(re.fullmatch(r"(listening 127\.0\.0\.1:\d+\n)*ended\n", found), "%s:\n%s  prints\n%s", name, commands, found)


def check_commands(checks, name, programs):
    blocks = list(shown(content(name)))
    if not blocks:
        return
    with Room(*programs) as room:
        for commands, wanted in blocks:
            if wanted is None:
                check_started(checks, name, room, commands)
                continue
            found = room.run(commands)
            checks.check(
                found.rstrip("\n") == wanted.rstrip("\n"), "%s:\n%s  wanted\n%s  found\n%s", name, commands, wanted, found
            )


# ---- links


def anchors(text):
    """The names by which the headings of a document can be linked to."""
    headings = (heading for _, _, heading in BLOCK.findall(text) if heading)
    return {re.sub(r"[^\w\- ]", "", heading.lower()).replace(" ", "-") for heading in headings}


def check_links(checks, name):
    prose = BLOCK.sub("", content(name))
    for link in LINK.findall(prose):
        if re.match(r"\w+:", link):
            continue
        path, _, heading = link.partition("#")
        target = os.path.normpath(os.path.join(os.path.dirname(name), path)) if path else name
        there = os.path.exists(os.path.join(ROOT, target))
        checks.check(there and (not heading or heading in anchors(content(target))), "%s: nothing is at %s", name, link)


# ---- diffs


def check_diffs(checks, name):
    for block in [block for language, block, _ in BLOCK.findall(content(name)) if language == "diff"]:
        lines = []
        for line in block.splitlines():
            if line.startswith("+++ "):
                lines = content(line[4:]).splitlines()
            else:
                checks.check(line[1:] in lines, "%s adds a line that isn't there: %s", name, line)


# ---- sizes


def check_sizes(checks):
    pages = [name for name in every() if name.count("/") == name.startswith("docs/") and name != "CHANGELOG.md"]
    words = {name: len(WORD.findall(MADE.sub("", content(name)))) for name in pages}
    for name, count in words.items():
        checks.check(count <= (FIRST if name == "README.md" else PAGE), "%s has %d words", name, count)
    checks.check(sum(words.values()) <= ALL, "all pages have %d words", sum(words.values()))


def main():
    given = arguments(__doc__, "couchd", "replay").parse_args()
    checks = Checks(100)
    for name in every():
        check_links(checks, name)
        if not name.startswith(REFERENCE):
            check_commands(checks, name, (given.couchd, given.replay))
            check_diffs(checks, name)
    check_sizes(checks)
    return checks.report()


if __name__ == "__main__":
    sys.exit(main())
