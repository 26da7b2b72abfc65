"""Runs of `couchd dump`, `replay check` and `replay base`."""
from .programs import run

SECONDS = 120  # that one run may take


class Audits:
    """The two programs. Each call gives an output and an exit status."""

    def __init__(self, couchd, replay):
        self.couchd = couchd
        self.replay = replay

    def dump(self, data):
        return self.run(self.couchd, "dump", data)

    def check(self, data):
        written, status = self.run(self.replay, "check", data)
        return written.decode(), status

    def base(self, data):
        return self.run(self.replay, "base", data)

    def raised(self, data):
        return self.run(self.replay, "base", data, "--raised")

    @staticmethod
    def run(program, command, data, *options):
        status, written, _ = run([program, command, *options], data, seconds=SECONDS)
        return written, status
