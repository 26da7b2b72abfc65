"""Runs the built programs with arguments of all kinds, and compares exit status, output and standard error with the texts of
`clap`.

    python3 tests/test_arguments.py [COUCHD REPLAY]

Standard input holds a request each time, which only `couchd once` may answer, or a dump, which only `replay` may audit. Of
streams that fail it compares what can still be written. `clap` is Rust's.
"""
import os
import re
import subprocess
import sys

from lib.checks import Checks
from lib.programs import SECONDS, TESTS, arguments

REQUEST = b"GET / HTTP/1.1\r\n\r\n"
WELCOME = (
    b"HTTP/1.1 200 OK\r\nContent-Type: application/json\r\nContent-Length: 21\r\nCouch-Place: 0\r\n\r\n" b'{"couchdb":"Welcome"}'
)

DUMP = b'{"couch_history":1}\n'  # of the same request, which is no entry of a history

SERVED, FAILED, UNREADABLE = 0, 1, 2
NO_DUMP, UNREADABLE_OF_REPLAY = 3, 5

HINT = "\nFor more information, try '--help'.\n"
USAGE = "\nUsage: couchd <COMMAND>\n" + HINT
USAGE_OF_ONCE = "\nUsage: couchd once\n" + HINT
USAGE_OF_DUMP = "\nUsage: couchd dump\n" + HINT
OPTIONS = "\nOptions:\n  -h, --help  Print help\n"

USAGE_OF_SERVE = "\nUsage: couchd serve [OPTIONS]\n" + HINT
NO_COMMAND = (
    "error: 'couchd' requires a subcommand but one was not provided\n  [subcommands: once, dump, serve, replicate, repair]\n"
    + USAGE
)
NO_TEXT = "error: invalid UTF-8 was detected in one or more arguments\n" + USAGE
ONCE = "Serves standard input to standard output"
DUMPS = "Serves standard input, and writes the dump of its history at the end"
SERVE = "Serves connections on a port of 127.0.0.1"
REPLICATE = "Brings the changes of one database to another"
REPAIR = "Moves what is damaged of a journal to files of its own, so that a server starts from the rest"
COMMANDS = "\nCommands:\n  once       %s\n  dump       %s\n  serve      %s\n  replicate  %s\n  repair     %s\n" % (
    ONCE,
    DUMPS,
    SERVE,
    REPLICATE,
    REPAIR,
)
OPTIONS_WITH_VERSION = "\nOptions:\n  -h, --help     Print help\n  -V, --version  Print version\n"
HELP = "A replicating document store\n\nUsage: couchd <COMMAND>\n" + COMMANDS + OPTIONS_WITH_VERSION
HELP_OF_DUMP = DUMPS + "\n\nUsage: couchd dump\n" + OPTIONS
HELP_OF_ONCE = ONCE + "\n\nUsage: couchd once\n" + OPTIONS
OPTIONS_OF_SERVE = (
    "\nOptions:\n"
    "      --port <PORT>                The port, or 0 for any that is free [default: 5984]\n"
    "      --workers <WORKERS>          How many requests are served at a time [default: 4]\n"
    "      --connections <CONNECTIONS>  How many connections each worker serves before it ends, or 0 for no end [default: 0]\n"
    "      --clients <CLIENTS>          How many connections are open at most, unless a number ends each worker [default: 4096]\n"
    "      --idle <SECONDS>             How long a connection may send nothing of a next request [default: 15]\n"
    "      --patience <SECONDS>         How long a request may take to come, and a response to be taken [default: 60]\n"
    "      --max-places <PLACES>        How many entries a history may have [default: 1000000]\n"
    "      --log                        Says each request on standard error\n"
    "      --data <DIR>                 Keeps the history in this folder, and goes on from what is there\n"
    "      --sync <WHEN>                When the journal is synced: 'always' before a write is answered, each 'second' (so where it is left out), or 'never' by the server\n"
    "      --keep <FILES>               How many files of the journal stay; all do where it is left out\n"
    "      --read-only                  Writes nothing to the folder, and refuses writes\n"
    "      --origins <ORIGIN,..>        Lets pages of these origins use the server, or of all with '*'; with '--data' none may where it is left out\n"
    "      --hosts <NAME,..>            Lets the server be reached by these names, or by all with '*', besides addresses and names without a dot\n"
    "  -h, --help                       Print help\n"
)
HELP_OF_SERVE = SERVE + "\n\nUsage: couchd serve [OPTIONS]\n" + OPTIONS_OF_SERVE
REQUIRED_BY_REPLICATE = "--source <HOST:PORT> --target <HOST:PORT>\n"
USAGE_OF_REPLICATE = "\nUsage: couchd replicate " + REQUIRED_BY_REPLICATE
HELP_OF_REPLICATE = (
    REPLICATE + "\n\nUsage: couchd replicate [OPTIONS] " + REQUIRED_BY_REPLICATE + "\nOptions:\n"
    "      --source <HOST:PORT>  Where the changes come from; a host is a name or an address, and http://HOST:PORT and http://HOST:PORT/db are taken too\n"
    "      --target <HOST:PORT>  Where they are brought to\n"
    "      --id <ID>             The id of the checkpoints, 1 to 512 bytes, not beginning with '_'; a digest of both ends, the list and '--skip' where it is left out\n"
    "      --doc-ids <IDS>       Brings these documents alone: ids between commas, a comma or '%' in one escaped as in a path; an ID goes with one list\n"
    "      --patience <SECONDS>  How long an end has for an answer [default: 60]\n"
    "      --max-answer <BYTES>  How many bytes an answer has at most [default: 67108864]\n"
    "      --skip                Leaves out documents that no request can hold, and names each; an ID goes with or without it\n"
    "      --continuous          Waits for changes where there are none, and goes on without end\n"
    "  -h, --help                Print help\n"
)
USAGE_OF_REPAIR = "\nUsage: couchd repair --data <DIR>\n"
HELP_OF_REPAIR = (
    REPAIR
    + "\n"
    + USAGE_OF_REPAIR
    + "\nOptions:\n      --data <DIR>  The folder of the journal\n  -h, --help        Print help\n"
)
NO_DATA = "error: the following required arguments were not provided:\n  --data <DIR>\n" + USAGE_OF_REPAIR + HINT
NO_PLACE = "error: '--source' and '--target' are HOST:PORT, http://HOST:PORT or http://HOST:PORT/db\n" + USAGE
NO_HTTPS = "error: '--source' and '--target' are reached by http alone: for https, name a proxy that speaks it\n" + USAGE
NO_USER = "error: '--source' and '--target' have no user: name a proxy that adds the user\n" + USAGE
NO_PATH = "error: '--source' and '--target' have no path but /db: for another one, name a proxy that adds it\n" + USAGE
ONE_PLACE = "error: '--source' and '--target' are one place\n" + USAGE
NO_ID = "error: the id has not 1 to 512 bytes, or begins with '_'\n" + USAGE
NO_FOLDER = "error: '--sync', '--keep' and '--read-only' are for a journal, and go with '--data'\n" + USAGE
NO_SYNC = "error: the journal is synced 'always', each 'second' or 'never'\n" + USAGE
NO_SESSION = "error: with '--data' there are at most 63 workers\n" + USAGE
NO_ORIGIN = "error: '--origins' is '*', or origins as a browser writes them: https://app.example,http://localhost:8080\n" + USAGE
NO_HOST = "error: '--hosts' is '*', or names of hosts without a scheme and a port: db.example,couch.example\n" + USAGE
NO_LIST = "error: the list of documents has an id that is no text of 1 to 512 bytes\n" + USAGE

# lists with a part that is no origin as a browser writes it, or no name of a host
NO_ORIGINS = [
    "",
    "app.example",
    "https://",
    "https:/app.example",
    "https://app.example/",
    "https://app.example/page",
    "HTTPS://app.example",
]
NO_ORIGINS += [
    "https://App.example",
    "https://ann@app.example",
    "null",
    "://app.example",
    "*,https://app.example",
    "https://app.example,",
]
NO_ORIGINS += ["https://app.example, https://b.example", "https://app.example;https://b.example", "**"]
NO_HOSTS = [
    "",
    "https://db.example",
    "db.example:5984",
    "db.example/",
    "db.example,",
    ",db.example",
    "db example",
    "*,db.example",
    "*.example",
]
NO_HOSTS += ["[::1]", "d\u00fc.example"]

# what names a database at no place, with the text that says so
NO_PLACES = [
    *[
        (place, NO_PLACE)
        for place in (
            "",
            "localhost",
            "127.0.0.1",
            "127.0.0.1:65536",
            "127.0.0.1:",
            ":1",
            "h:-1",
            "h:1:1",
            "h:http",
            "::1",
            "[::1]",
        )
    ],
    *[
        (place, NO_PLACE)
        for place in (
            "::1:5984",
            "[h]:1",
            "[::1:1",
            "h h:1",
            "h%20:1",
            "\u00e9:1",
            "http://",
            "http://h",
            "ftp://h:1",
            "HTTP://h:1",
        )
    ],
    *[(place, NO_HTTPS) for place in ("https://h:1", "https://h/db", "https://u:p@h:1/db", "https:h")],
    *[(place, NO_USER) for place in ("u:p@h:1", "http://u@h:1", "http://u:p@h:1/db")],
    *[
        (place, NO_PATH)
        for place in (
            "h:1/db",
            "h:1/",
            "http://h:1/",
            "http://h:1/db/",
            "http://h:1/other",
            "http://h:1/a/db",
            "http://h:1/db/db",
        )
    ],
]

# and what names one
PLACES = [
    *("127.0.0.1:1", "[::1]:1", "[fe80::1%1]:1", "localhost:1", "db.example:5984", "a-b_c.D9:65535", "0:0", "http:80"),
    *("http://localhost:1", "http://[::1]:1/db", "http://db.example:80/db", "http://http:80"),
]


def replication(source, target, id):
    return ["replicate", "--source", source, "--target", target, "--id", id]


def with_list(listed):
    return replication("127.0.0.1:1", "[::1]:1", "r") + ["--doc-ids", listed]


def unknown_command(name):
    return "error: unrecognized subcommand '%s'\n" % name + USAGE


def unexpected(argument, usage):
    return "error: unexpected argument '%s' found\n" % argument + usage


def out_of_range(value, option, least, most, value_name=None):
    name = "--%s <%s>" % (option, value_name or option.upper())
    return "error: invalid value '%s' for '%s': %s is not in %d..=%d\n" % (value, name, value, least, most) + HINT


def no_number(value, option, value_name=None):
    name = "--%s <%s>" % (option, value_name or option.upper())
    return "error: invalid value '%s' for '%s': invalid digit found in string\n" % (value, name) + HINT


# arguments that name no run, with the text that says so
REFUSED = [
    ([], NO_COMMAND),
    (["twice"], unknown_command("twice")),
    (["ONCE"], unknown_command("ONCE")),
    (["help"], unknown_command("help")),
    (["--port"], unexpected("--port", USAGE)),
    (["once", "more"], unexpected("more", USAGE_OF_ONCE)),
    (["once", "once"], unexpected("once", USAGE_OF_ONCE)),
    (["dump", "more"], unexpected("more", USAGE_OF_DUMP)),
    (["dump", "--help"], HELP_OF_DUMP),
    (["--help"], HELP),
    (["-h"], HELP),
    (["once", "--help"], HELP_OF_ONCE),
    (["once", "-h"], HELP_OF_ONCE),
    (["serve", "--help"], HELP_OF_SERVE),
    (["serve", "more"], unexpected("more", USAGE_OF_SERVE)),
    (["serve", "--port", "65536"], out_of_range("65536", "port", 0, 65535)),
    (["serve", "--port", "http"], no_number("http", "port")),
    (["serve", "--workers", "0"], out_of_range("0", "workers", 1, 64)),
    (["serve", "--workers=0"], out_of_range("0", "workers", 1, 64)),
    (["serve", "--workers=65"], out_of_range("65", "workers", 1, 64)),
    (["serve", "--connections", "4294967296"], out_of_range("4294967296", "connections", 0, 4294967295)),
    (["serve", "--connections", "many"], no_number("many", "connections")),
    (["serve", "--clients", "0"], out_of_range("0", "clients", 1, 65536)),
    (["serve", "--clients", "65537"], out_of_range("65537", "clients", 1, 65536)),
    (["serve", "--port"], "error: a value is required for '--port <PORT>' but none was supplied\n" + HINT),
    (
        ["serve", "--port", "1", "--port", "2"],
        "error: the argument '--port <PORT>' cannot be used multiple times\n" + USAGE_OF_SERVE,
    ),
    *[
        row
        for option in ("idle", "patience")
        for row in (
            (["serve", "--%s" % option, "0"], out_of_range("0", option, 1, 86400, "SECONDS")),
            (["serve", "--%s=86401" % option], out_of_range("86401", option, 1, 86400, "SECONDS")),
            (["serve", "--%s=-1" % option], no_number("-1", option, "SECONDS")),
            (["serve", "--%s=1.5" % option], no_number("1.5", option, "SECONDS")),
        )
    ],
    (["serve", "--max-places", "0"], out_of_range("0", "max-places", 1, 4294967295, "PLACES")),
    (["serve", "--max-places", "4294967296"], out_of_range("4294967296", "max-places", 1, 4294967295, "PLACES")),
    (["serve", "--log", "--log"], "error: the argument '--log' cannot be used multiple times\n" + USAGE_OF_SERVE),
    (
        ["serve", "--log=yes"],
        "error: unexpected value 'yes' for '--log' found; no more were expected\n\nUsage: couchd serve --log\n" + HINT,
    ),
    (["serve", "--log", "yes"], unexpected("yes", USAGE_OF_SERVE)),
    (["serve", "--data"], "error: a value is required for '--data <DIR>' but none was supplied\n" + HINT),
    (["serve", "--sync", "always"], NO_FOLDER),
    (["serve", "--keep", "2"], NO_FOLDER),
    (["serve", "--keep", "2", "--sync", "never"], NO_FOLDER),
    (["serve", "--read-only"], NO_FOLDER),
    (["serve", "--data", "d", "--sync", "often"], NO_SYNC),
    (["serve", "--data", "d", "--sync", "Always"], NO_SYNC),
    (["serve", "--data", "d", "--sync", ""], NO_SYNC),
    (["serve", "--data", "d", "--keep", "0"], out_of_range("0", "keep", 1, 4294967295, "FILES")),
    (["serve", "--data", "d", "--keep", "4294967296"], out_of_range("4294967296", "keep", 1, 4294967295, "FILES")),
    (["serve", "--data", "d", "--keep", "all"], no_number("all", "keep", "FILES")),
    (["serve", "--data", "d", "--workers", "64"], NO_SESSION),
    *((["serve", "--origins", origins], NO_ORIGIN) for origins in NO_ORIGINS),
    *((["serve", "--hosts", hosts], NO_HOST) for hosts in NO_HOSTS),
    (["serve", "--data", "d", "--origins", "app.example", "--hosts", ":"], NO_ORIGIN),
    (["serve", "--origins", "https://app.example", "--hosts", ":"], NO_HOST),
    (["serve", "--origins"], "error: a value is required for '--origins <ORIGIN,..>' but none was supplied\n" + HINT),
    (["serve", "--hosts"], "error: a value is required for '--hosts <NAME,..>' but none was supplied\n" + HINT),
    (["serve", "--version"], unexpected("--version", USAGE_OF_SERVE)),
    (["once", "--version"], unexpected("--version", USAGE_OF_ONCE)),
    (["version"], unknown_command("version")),
    (["replicate", "--help"], HELP_OF_REPLICATE),
    (replication("127.0.0.1:1", "[::1]:1", "r") + ["--patience", "0"], out_of_range("0", "patience", 1, 86400, "SECONDS")),
    (
        replication("127.0.0.1:1", "[::1]:1", "r") + ["--patience", "86401"],
        out_of_range("86401", "patience", 1, 86400, "SECONDS"),
    ),
    (
        replication("127.0.0.1:1", "[::1]:1", "r") + ["--max-answer", "0"],
        out_of_range("0", "max-answer", 1, 4294967295, "BYTES"),
    ),
    (
        replication("127.0.0.1:1", "[::1]:1", "r") + ["--max-answer", "4294967296"],
        out_of_range("4294967296", "max-answer", 1, 4294967295, "BYTES"),
    ),
    (
        ["replicate", "--source", "127.0.0.1:1"],
        "error: the following required arguments were not provided:\n  --target <HOST:PORT>\n" + USAGE_OF_REPLICATE + HINT,
    ),
    (
        # what is required, and then what was given
        ["replicate", "--id", "r"],
        "error: the following required arguments were not provided:\n  --source <HOST:PORT>\n  --target <HOST:PORT>\n"
        + USAGE_OF_REPLICATE.rstrip("\n")
        + " --id <ID>\n"
        + HINT,
    ),
    *[(replication(place, "127.0.0.1:1", "_r"), text) for place, text in NO_PLACES],
    *[(replication("127.0.0.1:1", place, "r"), text) for place, text in NO_PLACES],
    *[(replication(place, "[::1]:2", "_r"), NO_ID) for place in PLACES],
    *[(replication("[::1]:2", place, "_r"), NO_ID) for place in PLACES],
    (replication("127.0.0.1:1", "127.0.0.1:1", "r"), ONE_PLACE),
    (replication("http://127.0.0.1:1", "127.0.0.1:1", "r"), ONE_PLACE),
    (replication("[::1]:1", "http://[::1]:1/db", "r"), ONE_PLACE),
    (
        replication("h:1", "h:2", "r") + ["--continuous=yes"],
        "error: unexpected value 'yes' for '--continuous' found; no more were expected\n"
        + USAGE_OF_REPLICATE.rstrip("\n")
        + " --continuous\n"
        + HINT,
    ),
    (replication("127.0.0.1:1", "[::1]:1", ""), NO_ID),
    (replication("127.0.0.1:1", "[::1]:1", "r" * 513), NO_ID),
    (replication("127.0.0.1:1", "[::1]:1", "_r"), NO_ID),
    (replication("127.0.0.1:1", "[::1]:1", "_r") + ["--doc-ids", ""], NO_ID),
    (with_list(""), NO_LIST),
    (with_list(",a"), NO_LIST),
    (with_list("a,,b"), NO_LIST),
    (with_list("a,b,"), NO_LIST),
    (with_list("a,%C3"), NO_LIST),
    (with_list("%ff"), NO_LIST),
    (with_list("a," + "b" * 513), NO_LIST),
    (["repair", "--help"], HELP_OF_REPAIR),
    (["repair"], NO_DATA),
    (["repair", "--data"], "error: a value is required for '--data <DIR>' but none was supplied\n" + HINT),
    (["repair", "d"], unexpected("d", USAGE_OF_REPAIR + HINT)),
    (
        ["repair", "--data", "d", "--data", "e"],
        "error: the argument '--data <DIR>' cannot be used multiple times\n" + USAGE_OF_REPAIR + HINT,
    ),
    (["repair", "--data", "d", "--port", "1"], unexpected("--port", USAGE_OF_REPAIR + HINT)),
    ([b"\xff"], NO_TEXT),
    (["once", b"\xc3"], NO_TEXT),
    ([b"once\xff"], NO_TEXT),
]

USAGE_OF_REPLAY = "\nUsage: replay <COMMAND>\n" + HINT
USAGE_OF_CHECK = "\nUsage: replay check\n" + HINT
USAGE_OF_BASE = "\nUsage: replay base [OPTIONS]\n" + HINT
CHECK = "Tells whether standard input is the dump of a legal history"
BASE = "Writes the first line of the next history's dump, if standard input is the dump of a legal one"
RAISED = "Raises its update number by 16777216, as a start does after an end that may have lost numbers that were shown"
HELP_OF_BASE = BASE + "\n\nUsage: replay base [OPTIONS]\n\nOptions:\n      --raised  " + RAISED + "\n  -h, --help    Print help\n"
NO_COMMAND_OF_REPLAY = (
    "error: 'replay' requires a subcommand but one was not provided\n  [subcommands: check, base]\n" + USAGE_OF_REPLAY
)
HELP_OF_REPLAY = (
    "An audit of the histories of a document store\n\nUsage: replay <COMMAND>\n\n"
    "Commands:\n  check  " + CHECK + "\n  base   " + BASE + "\n" + OPTIONS_WITH_VERSION
)

# arguments of `replay base` that name no run
REFUSED_OF_BASE = [
    (["base", "--help"], HELP_OF_BASE),
    (["base", "-h"], HELP_OF_BASE),
    (["base", "--raised", "--raised"], "error: the argument '--raised' cannot be used multiple times\n" + USAGE_OF_BASE),
    (
        ["base", "--raised=1"],
        "error: unexpected value '1' for '--raised' found; no more were expected\n\nUsage: replay base --raised\n" + HINT,
    ),
    (["check", "--raised"], unexpected("--raised", USAGE_OF_CHECK)),
    (["base", "more"], unexpected("more", USAGE_OF_BASE)),
    (["base", "base"], unexpected("base", USAGE_OF_BASE)),
    (["base", "check"], unexpected("check", USAGE_OF_BASE)),
    (["base", "--port"], unexpected("--port", USAGE_OF_BASE)),
    (["check", "base"], unexpected("base", USAGE_OF_CHECK)),
    (["BASE"], "error: unrecognized subcommand 'BASE'\n" + USAGE_OF_REPLAY),
    ([b"base\xff"], "error: invalid UTF-8 was detected in one or more arguments\n" + USAGE_OF_REPLAY),
    (["base", b"\xff"], "error: invalid UTF-8 was detected in one or more arguments\n" + USAGE_OF_REPLAY),
]

# arguments of `replay` that name no run, with the text that says so
REFUSED_BY_REPLAY = [
    ([], NO_COMMAND_OF_REPLAY),
    (["dump"], "error: unrecognized subcommand 'dump'\n" + USAGE_OF_REPLAY),
    (["help"], "error: unrecognized subcommand 'help'\n" + USAGE_OF_REPLAY),
    (["--help"], HELP_OF_REPLAY),
    (["check", "--help"], CHECK + "\n\nUsage: replay check\n" + OPTIONS),
    (["check", "more"], unexpected("more", USAGE_OF_CHECK)),
    ([b"check\xff"], "error: invalid UTF-8 was detected in one or more arguments\n" + USAGE_OF_REPLAY),
    *REFUSED_OF_BASE,
]


def run(program, given, source=None, out=subprocess.PIPE):
    """The status, the output and the standard error of the program with these arguments."""
    stdin = {"input": REQUEST} if source is None else {"stdin": source}
    ended = subprocess.run([program, *given], stdout=out, stderr=subprocess.PIPE, timeout=SECONDS, **stdin)
    return ended.returncode, ended.stdout, ended.stderr.decode()


def outcomes(couchd, replay):
    """Of each run its name, what became of it, and what must become of it."""
    for given, text in REFUSED:
        yield "couchd %s" % given, run(couchd, given), (UNREADABLE, b"", text)
    for given, text in REFUSED_BY_REPLAY:
        yield "replay %s" % given, run(replay, given), (UNREADABLE_OF_REPLAY, b"", text)
    with open(os.devnull, "rb") as nothing:
        for program, word, asked, unasked in [
            (couchd, "once", (SERVED, WELCOME, ""), (SERVED, b"", "")),
            (couchd, "dump", (SERVED, DUMP, ""), (SERVED, DUMP, "")),
            (replay, "check", (NO_DUMP, b"unreadable line 1\n", ""), (NO_DUMP, b"unreadable line 1\n", "")),
            (replay, "base", (NO_DUMP, b"unreadable line 1\n", ""), (NO_DUMP, b"unreadable line 1\n", "")),
        ]:
            yield word, run(program, [word]), asked
            yield "no input of " + word, run(program, [word], nothing), unasked
    for program, given in [
        (couchd, ["once"]),
        (couchd, ["dump"]),
        (couchd, ["serve", "--port", "0"]),
        (replay, ["check"]),
        (replay, ["base"]),
    ]:
        wanted = (FAILED, None, os.path.basename(program) + ": standard output can't be written\n")
        for how, out in (("has no room", full), ("is closed", closed)):
            yield "output of %s that %s" % (given[0], how), out(program, given), wanted
    for program, name in ((couchd, "couchd"), (replay, "replay")):
        version = b"%s %s\n" % (name.encode(), latest_version().encode())
        for option in ("--version", "-V"):
            yield "%s %s" % (name, option), run(program, [option]), (SERVED, version, "")
        yield "version of %s, before a subcommand" % name, run(program, ["--version", "check"]), (SERVED, version, "")
        yield "version of %s, to no room" % name, full(program, ["--version"])[0], FAILED
    folder = os.open(TESTS, os.O_RDONLY)
    yield "input of once that can't be read", run(couchd, ["once"], folder)[:2], (FAILED, b"")
    yield "input of dump that can't be read", run(couchd, ["dump"], folder)[:2], (FAILED, DUMP)
    yield "input of check that can't be read", run(replay, ["check"], folder)[:2], (FAILED, b"")
    yield "input of base that can't be read", run(replay, ["base"], folder)[:2], (FAILED, b"")
    os.close(folder)


def full(program, given):
    """A run whose output has no room."""
    with open("/dev/full", "wb") as out:
        return run(program, given, None, out)


def closed(program, given):
    """A run whose output nobody reads."""
    reading, writing = os.pipe()
    os.close(reading)
    try:
        return run(program, given, None, writing)
    finally:
        os.close(writing)


def latest_version():
    """The newest version that the list of changes names."""
    with open(os.path.join(TESTS, "..", "CHANGELOG.md")) as changes:
        return re.search(r"^## (\d+\.\d+\.\d+)", changes.read(), re.MULTILINE)[1]


def main():
    given = arguments(__doc__, "couchd", "replay").parse_args()
    checks = Checks()
    for name, found, wanted in outcomes(given.couchd, given.replay):
        checks.check(found == wanted, "%s\n  wanted %r\n  found  %r", name, wanted, found)
    return checks.report()


if __name__ == "__main__":
    sys.exit(main())
