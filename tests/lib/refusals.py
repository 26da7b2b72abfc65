"""Runs of programs whose requests for memory are counted, and refused as asked. They need a C compiler."""
import contextlib
import itertools
import re

from . import shims
from .programs import run

REFUSED = "refused\n"  # which the shim writes on standard error where it refuses the first request


def was_refused(ran):
    """Whether a request for memory was refused in a run."""
    return REFUSED in ran.errors


class Refuser:
    """Runs with the shim in front of the C library."""

    def __init__(self, env):
        self.env = env

    def environment(self, **orders):
        """The environment of a run, with what the shim is to do: REFUSE the request of this number, or all from it to LAST;
        COUNT."""
        return {**self.env, **{name: str(number) for name, number in orders.items()}}

    def run(self, command, data=b"", **orders):
        """A run on an input, and what the shim is to do in it."""
        return run(command, data, self.environment(**orders))

    def count(self, command, data=b"", **orders):
        """A run, and how many requests for memory it made."""
        ran = self.run(command, data, COUNT=1, **orders)
        return ran, int(re.search(r"^requests (\d+)$", ran.errors, re.M).group(1))

    def each(self, command, data=b""):
        """The runs on an input with each request refused in turn; the last one has all of its memory.

        A program with threads ends at once, so its requests can't be counted at its end.
        """
        return self.in_turn(lambda env: run(command, data, env))

    def in_turn(self, attempt):
        """The same of any run that is given its environment."""
        for number in itertools.count(1):
            ran = attempt(self.environment(REFUSE=number))
            yield ran
            if not was_refused(ran):
                return


@contextlib.contextmanager
def refuser():
    """A refuser, with its shim."""
    with shims.environment("refuse") as env:
        yield Refuser(env)
