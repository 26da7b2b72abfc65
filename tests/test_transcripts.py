"""Runs the transcripts through the built program, and compares what it writes and its exit status.

    python3 tests/test_transcripts.py [--whole] [COUCHD]

Each transcript is handed to `couchd once` whole. Without `--whole` it is also handed out request by request, each once the
answer before it has come; one byte at a time; and a short one in two pieces, cut at each byte, the second once the program
has read the first. Where no program is named, the transcripts are handed whole to the build by the other compiler too, if it is
there.
"""
import array
import fcntl
import os
import re
import subprocess
import sys
import tempfile
import termios
import time
from concurrent.futures import ThreadPoolExecutor

from lib import transcripts
from lib.checks import Checks
from lib.programs import SECONDS, arguments, builds
from reference.framing import Unreadable, read_request

SHORT = 400  # bytes of an input that is cut at each byte
LONG = 20000  # bytes of an input that is not handed out in single bytes
MOST = 100  # failures after which it stops
SINGLE = "tests/transcripts/first-path/put-once.http"  # a PUT


def runs(data, wanted, only_whole):
    """Each way to hand out the bytes: its name, its pieces, and how many bytes of answers must come after each piece."""
    yield "whole", [data], []
    if only_whole:
        return
    yield "request by request", *turns(data, wanted)
    if 1 < len(data) < LONG:
        yield "one byte at a time", [data[at : at + 1] for at in range(len(data))], []
    if len(data) < SHORT:
        for cut in range(1, len(data)):
            yield "cut at byte %d" % cut, [data[:cut], data[cut:]], []


def turns(data, wanted):
    """The requests, and how long the answers up to each are."""
    pieces, answers, at = [], [], 0
    for head in re.finditer(rb"HTTP/1\.1 [^\r]*\r\n(?:[^\r]+\r\n)*?Content-Length: ([0-9]+)\r\n(?:[^\r]+\r\n)*\r\n", wanted):
        size = int(head.group(1))
        try:
            request, end = read_request(data, at)
            size = 0 if request.method == b"HEAD" else size
        except Unreadable:
            end = len(data)
        pieces.append(data[at:end])
        answers.append(head.end() + size)
        at = end
    return pieces + [data[at:]], answers


def wait_until_read(pipe, process, end):
    """Waits until the program has read what is in the pipe, or ends."""
    left = array.array("i", [0])
    while True:
        fcntl.ioctl(pipe, termios.FIONREAD, left)
        if left[0] == 0 or process.poll() is not None:
            return
        if time.monotonic() > end:
            raise subprocess.TimeoutExpired(process.args, SECONDS)
        time.sleep(0.00002)


def wait_for_answers(out, size, process, end):
    """Waits until so many bytes are written."""
    while True:
        has_ended = process.poll() is not None
        if os.fstat(out.fileno()).st_size >= size:
            return
        if has_ended or time.monotonic() > end:
            raise subprocess.TimeoutExpired(process.args, SECONDS)
        time.sleep(0.00002)


def hand_out(process, out, pieces, answers):
    pipe = process.stdin.fileno()
    end = time.monotonic() + SECONDS
    try:
        for number, piece in enumerate(pieces):
            os.write(pipe, piece)
            wait_until_read(pipe, process, end)
            if number < len(answers):
                wait_for_answers(out, answers[number], process, end)
    except BrokenPipeError:
        pass  # the program closed the connection


def run(program, pieces, answers):
    """What the program writes, and how it ends."""
    with tempfile.TemporaryFile() as out, tempfile.TemporaryFile() as errors:
        process = subprocess.Popen([program, "once"], stdin=subprocess.PIPE, stdout=out, stderr=errors, bufsize=0)
        try:
            hand_out(process, out, pieces, answers)
            process.stdin.close()
            ended = "status %d" % process.wait(SECONDS)
        except subprocess.TimeoutExpired:
            process.kill()
            process.wait()
            ended = "no answer, or no end"
        out.seek(0)
        return out.read(), ended


def tasks(only_whole):
    """Each run: its transcript, its name, its pieces and answers, and what must be written."""
    for name, data in transcripts.requests():
        wanted = transcripts.responses(name)
        for way, pieces, answers in runs(data, wanted, only_whole):
            yield name, way, pieces, answers, wanted
    # a request without its last bytes is answered by nothing
    data = transcripts.content(SINGLE)
    for end in range(len(data)):
        yield SINGLE, "beginning of %d bytes" % end, [data[:end]], [], b""


def check(checks, program, task):
    name, way, pieces, answers, wanted = task
    written, ended = run(program, pieces, answers)
    same = len(os.path.commonprefix([written, wanted]))
    shown = slice(max(same - 200, 0), same + 200)
    checks.check(
        written == wanted and ended == "status 0",
        "%s, %s: %s; byte %d differs\n  wanted  %r\n  written %r",
        name,
        way,
        ended,
        same,
        wanted[shown],
        written[shown],
    )


def check_all(checks, program, only_whole):
    """Runs the tasks side by side, up to a number of failures."""
    with ThreadPoolExecutor(os.cpu_count()) as threads:
        for _ in threads.map(lambda task: check(checks, program, task), tasks(only_whole)):
            if checks.failed >= MOST:
                print("stopped after %d failures" % checks.failed)
                threads.shutdown(cancel_futures=True)
                break


def main():
    reader = arguments(__doc__, "couchd")
    reader.add_argument("--whole", action="store_true")
    given = reader.parse_args()
    checks = Checks()
    check_all(checks, given.couchd, given.whole)
    others = builds("couchd")
    for other in others[1:] if given.couchd == others[0] else []:
        check_all(checks, other, True)
    return checks.report()


if __name__ == "__main__":
    sys.exit(main())
