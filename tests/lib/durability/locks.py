"""One server a folder, whatever becomes of the files in it; and an orderly end leaves nothing behind."""
import contextlib
import os

from lib.journals import files, is_there, lacks, put

AT_ONCE = 4
REFUSED = 1


def locks(given):
    several_at_once(given)
    for what in ("removed", "emptied", "garbage", "a link", "a FIFO", "another folder", "another file"):
        second_server(given, what)
    by_a_link(given)
    orderly_end(given)


def several_at_once(given):
    """Of servers that start at once on a new folder one gets it."""
    for _ in range(5 * given.rounds):
        with given.room() as room, contextlib.ExitStack() as stack:
            started = [stack.enter_context(room.serve(seconds=0)) for _ in range(AT_ONCE)]
            refused = [one for one in started if not one.listens()]
            given.check(len(refused) == AT_ONCE - 1, "of %d servers at once %d are refused the folder", AT_ONCE, len(refused))
            given.check(all(one.status() == REFUSED for one in refused), "a server that was refused ends otherwise")


def spoil(lock, what, room):
    """Does something to the file that says the port."""
    if what == "emptied":
        os.truncate(lock, 0)
        return
    if what == "garbage":
        with open(lock, "wb") as file:
            file.write(b"\xff\0garbage\n" * 100)
        return
    os.unlink(lock)
    if what == "a link":
        os.symlink(room.beside("elsewhere"), lock)
    elif what == "a FIFO":
        os.mkfifo(lock)
    elif what == "another folder":
        os.mkdir(lock)
    elif what == "another file":
        with open(lock, "wb") as file:
            file.write(b"5984\n")


def second_server(given, what):
    """A second server is refused, whatever was done to `lock` while the first one runs, and the first one goes on."""
    with given.room() as room, room.serve() as server:
        told = put(server.connect(), "a", 3)
        spoil(os.path.join(room.folder, "lock"), what, room)
        before = files(room.folder)
        with room.serve(seconds=10) as other:
            given.check(other.port is None and other.status() == REFUSED, "lock %s: a second server starts", what)
            given.check("another server has it" in other.reported(), "lock %s: a second server says %r", what, other.reported())
        given.check(files(room.folder) == before, "lock %s: a second server left %s", what, files(room.folder))
        told.update(put(server.connect(), "b", 3))
        given.check(len(told) == 6 and not lacks(server.connect(), told), "lock %s: the first server doesn't go on", what)
        given.check(not os.path.exists(room.beside("elsewhere")), "lock %s: a link was followed", what)


def by_a_link(given):
    """A folder is the same one by another name."""
    with given.room() as room, room.serve() as server:
        os.symlink(room.folder, room.beside("link"))
        with room.serve(folder=room.beside("link")) as other:
            given.check(other.port is None and other.status() == REFUSED, "a second server starts by a link to the folder")
            given.check(str(server.port) in other.reported(), "by a link to the folder a second server says %r", other.reported())


def orderly_end(given):
    """An orderly end leaves no `lock`, and the next start says nothing; a killed server leaves its port, and the next start says
    so."""
    with given.room() as room:
        with room.serve("second", "--connections", "1", "--workers", "1") as server:
            connection = server.connect()
            told = put(connection, "a", 3)
            connection.close()
            given.check(server.status() == 0, "an orderly end has status %s", server.process.returncode)
        given.check(not os.path.exists(os.path.join(room.folder, "lock")), "an orderly end leaves a lock")
        with room.serve() as server:
            given.check(server.reported() == "", "the start behind an orderly end says %r", server.reported())
            given.check(all(is_there(server.connect(), id, rev) for id, rev in told.items()), "an orderly end loses a write")
            killed = server.port
        with room.serve() as server:
            given.check(
                str(killed) in server.reported() and server.reported().count("\n") == 1,
                "the start behind a kill says %r",
                server.reported(),
            )
