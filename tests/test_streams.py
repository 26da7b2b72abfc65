"""Runs the built program on an input and an output that fail after each byte, and on an output that takes a byte at a time.

    python3 tests/test_streams.py [COUCHD]

An input of two requests fails after each of its bytes, whether they come in one read or one a read: `couchd once` must have
answered those that came whole, `couchd dump` have them in its history, and both end with status 1. The output fails after each of
its bytes too, and answers are written a byte at a time; if it fails once, the run ends and reports so. Responses to requests that
come together are one write, of 16 kB at most, and none waits for more input. What must be written is the reference's. `couchd
serve` fails to write the response to a write after its tenth byte: the entry is there on the next connection. It needs a C
compiler.
"""
import hashlib
import resource
import socket
import subprocess
import sys
import tempfile

from lib import shims
from lib.checks import Checks
from lib.messages import Messages
from lib.programs import SECONDS, arguments, run
from lib.requests import request
from lib.server import Connection, Server
from reference import once
from reference.history import dump_of

SERVED, FAILED = 0, 1
UNWRITTEN = b"couchd: standard output can't be written\n"

PUT = request("PUT", "/db/a", "{}")
GET = request("GET", "/db/a")
INPUTS = [PUT, PUT + PUT, PUT + GET]
HELD = 16384  # bytes of responses that are held back, the most


def failing_input(data):
    """A socket that these bytes come from, and then a failure: its other end was closed with a byte unread."""
    near, far = socket.socketpair()
    near.send(b"?")
    far.sendall(data)
    far.close()
    return near


def run_on_failing_input(program, word, data):
    """The status and the output."""
    with failing_input(data) as source:
        ran = subprocess.run([program, word], stdin=source, stdout=subprocess.PIPE, timeout=SECONDS)
    return ran.returncode, ran.stdout


def reads_that_fail(checks, program):
    data = PUT + PUT
    for length in range(len(data)):
        begun = data[:length]
        for word, wanted in ("once", once.run(begun)[0]), ("dump", dump_of(begun)):
            found = run_on_failing_input(program, word, begun)
            checks.check(
                found == (FAILED, wanted), "%s of %d bytes and a failure: %r in place of %r", word, length, found, wanted
            )


def reads_of_a_byte_that_fail(checks, program):
    """A read fails after reads of one byte each."""
    data = PUT + PUT
    with shims.environment("reads") as env:
        for call in range(1, len(data) + 2):
            begun = data[: call - 1]
            for word, wanted in ("once", once.run(begun)[0]), ("dump", dump_of(begun)):
                found = run([program, word], data, {**env, "FAIL_AT": str(call)})
                checks.check(
                    found == (FAILED, wanted, ""), "%s, whose read %d fails: %r in place of %r", word, call, found, wanted
                )


def run_with_room(program, data, room):
    """The status, the output, of which so many bytes can be written, and the standard error."""
    with tempfile.TemporaryFile() as output:
        # a write past the limit is a failure, since Python ignores the signal, and so does the program
        ran = subprocess.run(
            [program, "once"],
            input=data,
            stdout=output,
            stderr=subprocess.PIPE,
            timeout=SECONDS,
            restore_signals=False,
            preexec_fn=lambda: resource.setrlimit(resource.RLIMIT_FSIZE, (room, room)),
        )
        output.seek(0)
        return ran.returncode, output.read(), ran.stderr


def writes_that_fail(checks, program):
    for data in INPUTS:
        wanted = once.run(data)[0]
        for room in range(len(wanted) + 1):
            found = run_with_room(program, data, room)
            status, said = (SERVED, b"") if room == len(wanted) else (FAILED, UNWRITTEN)
            checks.check(
                found == (status, wanted[:room], said), "%r, of whose output %d bytes can be written: %r", data, room, found
            )


def written_pieces(command, data, env):
    """The status, and what each write wrote."""
    near, far = socket.socketpair(socket.AF_UNIX, socket.SOCK_SEQPACKET)
    with subprocess.Popen(command, stdin=subprocess.PIPE, stdout=near, env=env) as process:
        near.close()
        process.stdin.write(data)
        process.stdin.close()
        pieces = list(iter(lambda: far.recv(65536), b""))
        far.close()
        return process.wait(SECONDS), pieces


def writes_together(checks, program):
    """The responses to requests that come together are one write."""
    for data in INPUTS:
        wanted = once.run(data)[0]
        found = written_pieces([program, "once"], data, None)
        checks.check(found == (SERVED, [wanted]), "%r is answered in the pieces %r", data, found)


def writes_of_much(checks, program):
    """More responses than are held back."""
    data = PUT + GET * 400
    status, pieces = written_pieces([program, "once"], data, None)
    wanted = once.run(data)[0]
    checks.check(
        (status, b"".join(pieces)) == (SERVED, wanted),
        "%d bytes of responses are written as %d others",
        len(wanted),
        sum(map(len, pieces)),
    )
    lengths = [len(piece) for piece in pieces]
    checks.check(max(lengths) <= HELD < len(wanted), "%d bytes of responses are written in pieces of %s", len(wanted), lengths)


def write_that_fails_once(checks, program):
    """A write that fails before more is read ends the run, though what it was to write can be written at the end."""
    with shims.environment("once") as env:
        found = run([program, "once"], PUT + GET, env)
    wanted = FAILED, once.run(PUT + GET)[0], UNWRITTEN.decode()
    checks.check(found == wanted, "a first write that failed, and a second that did not: %r", found)


def writes_in_time(checks, program):
    """A response comes before more is sent."""
    near, far = socket.socketpair()
    far.settimeout(SECONDS)
    responses = Messages(lambda: far.recv(65536))
    with subprocess.Popen([program, "once"], stdin=subprocess.PIPE, stdout=near) as process:
        for data, wanted in (PUT, 201), (GET, 200):
            process.stdin.write(data)
            process.stdin.flush()
            status, _ = responses.next_response()
            checks.check(status == wanted, "%r is answered %d", data, status)


def writes_of_a_byte(checks, program):
    with shims.environment("pieces") as env:
        for data in INPUTS:
            for word, wanted in ("once", once.run(data)[0]), ("dump", dump_of(data)):
                status, written = written_pieces([program, word], data, env)
                found = status, b"".join(written)
                checks.check(found == (SERVED, wanted), "%s, a byte at a time: %r in place of %r", word, found, wanted)
                checks.check(all(len(piece) == 1 for piece in written), "%s: pieces of more than a byte", word)


def entry_of_a_cut_response(checks, program):
    with shims.environment("cut") as env, Server(program, "--workers", "1", env=env) as server:
        writer = Connection(server.port)
        writer.socket.sendall(PUT)
        while writer.more():
            pass
        checks.check(writer.rest == b"HTTP/1.1 2", "of the response to a write comes %r", writer.rest)
        reader = Connection(server.port)
        found = reader.ask("GET", "/db/a")
        wanted = 200, {"_id": "a", "_rev": "1-" + hashlib.md5(b"0,,{}").hexdigest()}
        checks.check(
            (found, reader.place) == (wanted, 1), "behind a response that was cut there is %r at place %d", found, reader.place
        )


def main():
    checks = Checks()
    program = arguments(__doc__, "couchd").parse_args().couchd
    reads_that_fail(checks, program)
    reads_of_a_byte_that_fail(checks, program)
    writes_that_fail(checks, program)
    writes_together(checks, program)
    writes_of_much(checks, program)
    write_that_fails_once(checks, program)
    writes_in_time(checks, program)
    writes_of_a_byte(checks, program)
    entry_of_a_cut_response(checks, program)
    return checks.report()


if __name__ == "__main__":
    sys.exit(main())
