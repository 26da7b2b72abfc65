"""The programs, the shim and what is counted."""
import contextlib
import os
import random
import tempfile
import uuid

from lib import shims
from lib.checks import Checks
from lib.server import Server

POLICIES = ("always", "second", "never")
LAG = 1.5  # seconds from an append to its sync, with `second`: one, and what a busy machine takes beside it


class Given:
    """What each test is given."""

    def __init__(self, couchd, replay, shim, rounds, seed):
        self.couchd, self.replay, self.shim, self.rounds = couchd, replay, shim, rounds
        self.dice = random.Random(seed)
        self.checks = Checks()
        self.check = self.checks.check

    @contextlib.contextmanager
    def room(self):
        """A folder for a test, which goes with it."""
        with tempfile.TemporaryDirectory() as path:
            yield Room(self, path)


class Room:
    """A folder with a journal's folder in it, and what belongs to it: logs and boot ids."""

    def __init__(self, given, path):
        self.given, self.path = given, path
        self.folder = os.path.join(path, "data")
        self.log = os.path.join(path, "log")

    def beside(self, name):
        return os.path.join(self.path, name)

    def serve(self, policy="always", *options, folder=None, **more):
        """A server on the folder, or on another one."""
        return Server(self.given.couchd, "--sync", policy, *options, data=folder or self.folder, **more)

    def environment(self, folder=None, log=None, delay=0, rules=(), boot=0):
        """The environment of a server whose file operations in a folder are logged, or do what the rules say. The system has
        begun so many times."""
        boot_file = self.beside("boot-%d" % boot)
        with open(boot_file, "w", encoding="ascii") as file:
            file.write("%s\n" % uuid.UUID(int=boot))
        return {
            **self.given.shim,
            "DISK_FOLDER": folder or self.folder,
            "DISK_LOG": log or self.log,
            "DISK_DELAY": str(int(delay * 1e6)),
            "DISK_RULES": ";".join(rules),
            "DISK_BOOT": boot_file,
        }


@contextlib.contextmanager
def given_by(arguments):
    """What the arguments of a script name."""
    with shims.environment("disk") as shim:
        yield Given(arguments.couchd, arguments.replay, shim, arguments.rounds, arguments.seed)
