"""Libraries that are loaded in front of the C library, by `LD_PRELOAD`. They need a C compiler.

    refuse    counts requests for memory, and refuses those that it is asked to
    pieces    lets each write move one byte
    reads     lets each read of standard input move one byte, and fails one of them
    cut       fails the first response over a socket behind its tenth byte
    once      fails the first write to standard output
    disk      logs what is done to the files of a folder, delays and fails some of it, or ends the process there
"""
import contextlib
import os
import subprocess
import tempfile

FOLDER = os.path.dirname(os.path.abspath(__file__))


@contextlib.contextmanager
def environment(name):
    """The environment of a run with a shim, which is built for it and there as long as this is."""
    with tempfile.TemporaryDirectory() as room:
        path = os.path.join(room, name + ".so")
        subprocess.run(["cc", "-shared", "-fPIC", "-O1", "-o", path, os.path.join(FOLDER, name + ".c")], check=True)
        yield {**os.environ, "LD_PRELOAD": path}
