"""The built programs, where `rt ci` and `rt run` leave them, runs of them, and the arguments of a script that tests them."""
import argparse
import os
import subprocess
from typing import NamedTuple

TESTS = os.path.dirname(os.path.dirname(os.path.abspath(__file__)))
ROOT = os.path.dirname(TESTS)
CRATES = os.path.join(ROOT, "crates")
SECONDS = 60  # that one run may take
TICKS = os.sysconf("SC_CLK_TCK")  # of a processor, a second


def built(name):
    """The program of a crate."""
    return os.path.join(CRATES, name, "out", name)


def builds(name):
    """The program of a crate, and its build by the other compiler, if it is there."""
    other = built(name) + ".by-rattle"
    return [built(name)] + ([other] if os.path.exists(other) else [])


def missing(program):
    """Why a program can't be run, or None."""
    if os.access(program, os.X_OK):
        return None
    return "no program at %s: build it first (rt ci, or rt run in its crate)" % program


def existing(path):
    """The absolute path of a program that is there, as the type of an argument."""
    why = missing(path)
    if why is not None:
        raise argparse.ArgumentTypeError(why)
    return os.path.abspath(path)


def arguments(description, *names):
    """A reader of arguments, of which the last ones may name other builds of these programs."""
    reader = argparse.ArgumentParser(description=description, formatter_class=argparse.RawDescriptionHelpFormatter)
    for name in names:
        reader.add_argument(name, nargs="?", type=existing, default=built(name), metavar=name.upper())
    return reader


class Ran(NamedTuple):
    """What became of a run: its exit status, its output, and its standard error."""

    status: int
    output: bytes | str
    errors: str


def run(command, data=b"", env=None, seconds=SECONDS):
    """A run of a program on an input. Its output is a string where the input is one."""
    as_text = isinstance(data, str)
    done = subprocess.run(command, input=data.encode() if as_text else data, capture_output=True, timeout=seconds, env=env)
    return Ran(done.returncode, done.stdout.decode() if as_text else done.stdout, done.stderr.decode())


def run_once(program, data):
    """What `couchd once` writes, and how it ends."""
    try:
        ran = run([program, "once"], data)
        return ran.output, "status %d" % ran.status
    except subprocess.TimeoutExpired:
        return b"", "no end after %d seconds" % SECONDS


def memory(process, name):
    """The bytes that a process, named by its number, holds (`VmRSS`), or the most that it has held (`VmHWM`)."""
    with open("/proc/%d/status" % process) as file:
        return next(1024 * int(line.split()[1]) for line in file if line.startswith(name + ":"))


def forget_most(process):
    """Has the most that a process, named by its number, has held begin anew with what it holds."""
    with open("/proc/%d/clear_refs" % process, "w") as file:
        file.write("5")


def processor_seconds(process):
    """The processor time of a process, named by its number, and of its threads so far, by the system's ticks."""
    with open("/proc/%d/stat" % process) as file:
        user, system = file.read().rsplit(")", 1)[1].split()[11:13]
    return (int(user) + int(system)) / TICKS
