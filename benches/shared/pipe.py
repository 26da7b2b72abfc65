"""A run of `couchd once` whose requests are timed over pipes."""
import os
import statistics
import subprocess
import threading

from lib.messages import Messages

from . import machine


def figure(microseconds):
    return "%.1f" % microseconds if microseconds < 100 else "{:,.0f}".format(microseconds)


def compared(runs, shown=figure):
    """Of some runs, each with a figure of each program, the medians of these and of the ratio of the last to the first."""
    text = " / ".join(shown(statistics.median(figures)) for figures in zip(*runs))
    return text if len(runs[0]) == 1 else "%s, %.2f" % (text, statistics.median(figures[-1] / figures[0] for figures in runs))


class OtherStatus(Exception):
    """A program answers with another status than it should."""


class Program:
    """A run of the program, on the last processor."""

    def __init__(self, path):
        self.path = path
        self.process = subprocess.Popen([path, "once"], stdin=subprocess.PIPE, stdout=subprocess.PIPE)
        os.sched_setaffinity(self.process.pid, {max(os.sched_getaffinity(0))})
        self.responses = Messages(lambda: os.read(self.process.stdout.fileno(), 1 << 20))

    def most_megabytes(self):
        return machine.megabytes(self.process.pid, "VmHWM")

    def send(self, data):
        for at in range(0, len(data), 1 << 16):
            self.process.stdin.write(data[at : at + (1 << 16)])
        self.process.stdin.flush()

    def answer(self, requests, status):
        """Processor seconds for these requests, which are sent without waiting for responses, or `OtherStatus` if one has
        another."""
        data = b"".join(requests)
        used = machine.thread_seconds(self.process.pid)
        sender = threading.Thread(target=self.send, args=(data,))
        sender.start()
        others = {self.responses.next_response()[0] for _ in requests} - {status}
        sender.join()
        if others:
            raise OtherStatus("%s answers %d in place of %d" % (self.path, min(others), status))
        return machine.thread_seconds(self.process.pid) - used

    def close(self):
        self.process.stdin.close()
        self.process.wait()


def least(programs, pieces, status):
    """The least processor seconds of each program for a piece, by the number of its operations. The pieces go to each in turn."""
    found = [float("inf")] * len(programs)
    for requests, operations in pieces:
        for at, program in enumerate(programs):
            found[at] = min(found[at], program.answer(requests, status) / operations)
    return found
