"""A running `couchd serve` and connections to it, whose lines and positions are checked."""
import json

from lib import server as served_by


class Server(served_by.Server):
    """A running `couchd serve`, and what counts the checks of it. It checks the line that names the port."""

    def __init__(self, checks, program, *options):
        super().__init__(program, *options)
        self.check = checks.check
        self.check(self.line == "listening 127.0.0.1:%d\n" % self.port, "the first line is %r", self.line)

    def connect(self):
        return Connection(self.port, self.check)


class Connection(served_by.Connection):
    """A connection that stays open. It checks that no position falls."""

    def __init__(self, port, check):
        super().__init__(port)
        self.check = check

    def head(self):
        before = self.place
        status, headers = super().head()
        self.check(self.place >= before, "position %d after %d", self.place, before)
        return status, headers

    def line(self):
        """The next line of a feed; nothing at the end."""
        while b"\n" not in self.rest:
            if not self.more():
                self.check(self.rest == b"", "a feed ended with %r", self.rest)
                return None
        line, self.rest = self.rest.split(b"\n", 1)
        return json.loads(line)


def guarded(check, work):
    """The work of a thread, of which whatever ends it is counted as a failure."""

    def run(*given):
        try:
            work(*given)
        except Exception as fault:  # noqa: BLE001
            check(False, "%s ended with %r", work.__name__, fault)

    return run
