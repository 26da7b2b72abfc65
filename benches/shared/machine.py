"""What processes have used, as the system counts it."""
import os

from lib.programs import memory, processor_seconds


def read(process, name):
    with open("/proc/%d/%s" % (process, name)) as file:
        return file.read()


def is_running(process):
    return read(process, "stat").rsplit(")", 1)[1].split()[0] == "R"


def thread_seconds(process):
    """The processor time of the first thread of a process so far, to the nanosecond. It is read when the thread waits, since the
    system adds a stretch of time at its end."""
    while is_running(process):
        pass
    return int(read(process, "schedstat").split()[0]) / 1e9


def megabytes(process, name):
    """The megabytes that it holds (`VmRSS`), or the most that it has held (`VmHWM`)."""
    return memory(process, name) / 2**20


def load():
    """The load of the machine over the last 1, 5 and 15 minutes."""
    return "load " + " ".join("%.1f" % one for one in os.getloadavg())
