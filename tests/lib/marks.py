"""The mark of a journal's folder: how far the newest file was synced, and what of it was shown."""
import hashlib
from typing import NamedTuple

BOOT_ID = "/proc/sys/kernel/random/boot_id"


class Mark(NamedTuple):
    """The number of the epoch, how many bytes of its file a sync covered, whether all that was shown is among them or only
    appended, and which run of the system that was in."""

    epoch: int
    synced: int
    shows_kept: bool
    boot: str

    def text(self):
        front = b"%010d %018d %s %s" % (self.epoch, self.synced, b"kept" if self.shows_kept else b"seen", self.boot.encode())
        return front + b" " + hashlib.md5(front).hexdigest().encode() + b"\n"


def boot_id():
    """Which run of the system this is."""
    with open(BOOT_ID, encoding="ascii") as file:
        return file.read().strip()
