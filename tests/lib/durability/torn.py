"""Damaged files: what no sync covered is dropped and reported, what one covered is refused, and a repair makes a folder that
starts."""
import os
import shutil

from lib.journals import FIRST, contents, files, lacks, legal_lines, make, name_of, neighbours, put
from lib.marks import Mark, boot_id
from lib.programs import run

COUNT = 30  # documents that are written
REPAIRED, NOT_REPAIRED = 0, 1


def torn(given):
    for policy in ("always", "second"):
        tails(given, policy)
    cut_lines(given)
    marks(given)
    damage(given)
    repairs(given)


def written(given, room, policy):
    """A folder with documents, whose server was killed: what was answered, and the files."""
    with room.serve(policy) as server:
        told = put(server.connect(), "d", COUNT)
        given.check(len(told) == COUNT, "%d of %d writes are answered", len(told), COUNT)
    return told, contents(room.folder)


def start(room, made, policy="always"):
    """A start over these files in a folder of their own: the server, and what the folder has then."""
    spot = room.beside("spot")
    shutil.rmtree(spot, ignore_errors=True)
    make(spot, made)
    return room.serve(policy, folder=spot, seconds=10), spot


def tails(given, policy):
    """Bytes behind all that was synced are dropped, whatever they are, and that is said. With `always` the numbers go on as they
    were, and with `second` raised, since more may have been shown."""
    with given.room() as room:
        told, made = written(given, room, policy)
        data = made[name_of(1)]
        lines = data.splitlines(keepends=True)
        made["mark"] = Mark(1, len(data), policy == "always", boot_id()).text()
        spoilt = {
            "zeros": bytes(4096),
            "zeros and a line feed": bytes(100) + b"\n",
            "garbage": given.dice.randbytes(300),
            "garbage in lines": b"\n".join(given.dice.randbytes(20) for _ in range(9)) + b"\n",
            "an empty line": b"\n",
            "a line that is there already": lines[5],
            "a first line": FIRST,
            "a line of zeros before one that is right": bytes(50) + b"\n" + next_line(lines),
            "a cut line": next_line(lines)[:-9],
        }
        for what, tail in spoilt.items():
            server, spot = start(room, {**made, name_of(1): data + tail}, policy)
            with server:
                given.check(server.port is not None, "%s: %s behind the mark: refused: %s", policy, what, server.reported())
                if server.port is None:
                    continue
                given.check(not lacks(server.connect(), told), "%s: %s behind the mark: a document is lost", policy, what)
                check_said(given, server.reported(), tail, "%s: %s behind the mark" % (policy, what))
            given.check(contents(spot)[name_of(1)] == data + tail, "%s: %s: a start changed a file", policy, what)
            found = neighbours(given.replay, spot)
            given.check(found == [policy != "always"], "%s: %s behind the mark: numbers are raised: %r", policy, what, found)


def check_said(given, said, tail, what):
    """It is said how many bytes are dropped, and behind which place."""
    is_torn = "0000000001.dump is torn: %d bytes behind the entry at place %d " % (len(tail), COUNT) in said
    is_cut = "the entry at place %d, of which %d bytes are there, is dropped" % (COUNT + 1, len(tail)) in said
    given.check(is_torn if b"\n" in tail else is_cut, "%s: standard error says %r", what, said)


def next_line(lines):
    """The line of the entry that would come next, a write of the session that wrote the last one."""
    seat = lines[-1].rsplit(b"[", 1)[1].split(b",")[0]
    return b'{"command":{"limit":7},"reply":true,"seat":[%s,%d]}\n' % (seat, len(lines))


def cut_lines(given):
    """A last line without a line feed is dropped, also where a sync covered it: no line ends so that was written."""
    with given.room() as room:
        told, made = written(given, room, "always")
        data = made[name_of(1)]
        made["mark"] = Mark(1, len(data), True, boot_id()).text()
        server, spot = start(room, {**made, name_of(1): data[:-5]})
        with server:
            lost = lacks(server.connect(), told) if server.port is not None else None
            given.check(lost == ["d%d" % (COUNT - 1)], "a last line that was cut: %r, %s", lost, server.reported())
            given.check("the entry at place %d," % COUNT in server.reported(), "a last line that was cut: %r", server.reported())


def marks(given):
    """Any bytes in `mark` and in `lock` are harmless, and so is a folder, a link or a FIFO in their place."""
    with given.room() as room:
        told, made = written(given, room, "second")
        right = Mark(1, len(made[name_of(1)]), False, boot_id())
        others = {
            "no mark": None,
            "an empty one": b"",
            "zeros": bytes(200),
            "garbage": given.dice.randbytes(100),
            "no UTF-8": b"\xff\xfe12\n\n",
            "a megabyte": bytes(2**20),
            "one of another epoch": right._replace(epoch=2).text(),
            "one of another boot": right._replace(boot="00000000-0000-0000-0000-000000000000").text(),
            "one of more bytes than are there": right._replace(synced=10**9).text(),
            "one with another digest": right.text()[:-2] + b"x\n",
        }
        for what, data in others.items():
            files_then = {**made, "mark": data, "lock": data}
            check_harmless(given, room, {name: data for name, data in files_then.items() if data is not None}, told, what)
        check_harmless(given, room, {**made, "mark": right.text()}, told, "the right one", is_raised=False)
        for what in (os.mkdir, os.mkfifo, lambda path: os.symlink(room.beside("precious"), path)):
            check_odd(given, room, made, told, what)


def check_harmless(given, room, made, told, what, is_raised=True):
    server, spot = start(room, made, "second")
    with server:
        given.check(server.port is not None, "%s: refused: %s", what, server.reported())
        given.check(server.port is None or not lacks(server.connect(), told), "%s: a document is lost", what)
    found = neighbours(given.replay, spot)
    given.check(found == [is_raised], "%s: numbers are raised: %r", what, found)


def check_odd(given, room, made, told, put_there):
    """Something that is no plain file in the place of the mark and of the lock."""
    precious = room.beside("precious")
    with open(precious, "w", encoding="ascii") as file:
        file.write("precious text")
    for name in ("mark", "lock"):
        spot = room.beside("odd")
        shutil.rmtree(spot, ignore_errors=True)
        make(spot, {one: data for one, data in made.items() if one not in ("mark", "lock")})
        put_there(os.path.join(spot, name))
        with room.serve("second", folder=spot, seconds=10) as server:
            if server.port is None:  # a folder can't be replaced by a file
                given.check(
                    os.path.isdir(os.path.join(spot, name)) and server.status() == 1, "an odd %s: %s", name, server.reported()
                )
                continue
            given.check(not lacks(server.connect(), told), "an odd %s: a document is lost", name)
            given.check(len(put(server.connect(), "more", 3)) == 3, "an odd %s: no write", name)
        with open(precious, encoding="ascii") as file:
            given.check(file.read() == "precious text", "an odd %s: what it links to was written to", name)


def damages(data):
    """What may become of a file that was synced, with the number of the line from which it is damaged."""
    lines = data.splitlines(keepends=True)
    yield "a bit", 11, b"".join([*lines[:10], bytes([lines[10][0] ^ 1]) + lines[10][1:], *lines[11:]])
    yield "a value", 4, data.replace(b'"n":2}', b'"n":7}')
    yield "zeros", 9, b"".join([*lines[:8], bytes(len(lines[8]) - 1) + b"\n", *lines[9:]])
    yield "a line that is gone", 21, b"".join([*lines[:20], *lines[21:]])
    yield "two lines out of order", 15, b"".join([*lines[:14], lines[15], lines[14], *lines[16:]])
    yield "the first line", 1, b"x" + data


def damage(given):
    """Damage of what a sync covered is refused, by the words of `replay check`, with a word on the repair; nothing is written."""
    with given.room() as room:
        _, made = written(given, room, "always")
        made["mark"] = Mark(1, len(made[name_of(1)]), True, boot_id()).text()
        for what, _, data in damages(made[name_of(1)]):
            then = {**made, name_of(1): data, "mark": Mark(1, len(data), True, boot_id()).text()}
            server, spot = start(room, then)
            with server:
                given.check(server.port is None and server.status() == 1, "%s before the mark isn't refused", what)
                verdict = run([given.replay, "check"], data).output.decode().strip()
                said = server.reported()
                given.check(
                    verdict in said and name_of(1) in said and "couchd repair" in said,
                    "%s before the mark: %r says %r",
                    what,
                    verdict,
                    said,
                )
            left = {**contents(spot), "lock": then["lock"]}
            given.check(left == then, "%s before the mark: a start changed the folder", what)


def repair(given, folder):
    return run([given.couchd, "repair", "--data", folder], "")


def repairs(given):
    """A repair cuts a file in front of the damaged line, keeps what it cut, and makes a folder that starts, with raised
    numbers."""
    with given.room() as room:
        told, made = written(given, room, "always")
        for what, number, data in damages(made[name_of(1)]):
            if number > 1:
                check_repair(
                    given, room, {**made, name_of(1): data, "mark": Mark(1, len(data), True, boot_id()).text()}, what, number
                )
        nothing_to_repair(given, room, made, told)
        whole_file(given, room, made, told)
        never_over(given, room, made)
        while_it_is_served(given, room)


def check_repair(given, room, made, what, number):
    spot = room.beside("repaired")
    shutil.rmtree(spot, ignore_errors=True)
    make(spot, made)
    data = made[name_of(1)]
    lines = data.splitlines(keepends=True)
    ran = repair(given, spot)
    said = ran.output + ran.errors
    given.check(ran.status == REPAIRED, "%s: a repair ends with %r", what, ran)
    given.check(name_of(1) in said and "0000000001.cut" in said and str(number - 2) in said, "%s: a repair says %r", what, said)
    left = contents(spot)
    given.check(left[name_of(1)] == b"".join(lines[: number - 1]), "%s: a repair left %r", what, left[name_of(1)][-100:])
    given.check(
        left.get("0000000001.cut") == b"".join(lines[number - 1 :]),
        "%s: a repair kept %r",
        what,
        left.get("0000000001.cut", b"")[:100],
    )
    with room.serve(folder=spot) as server:
        given.check(server.port is not None, "%s: no start behind a repair: %s", what, server.reported())
        given.check(len(put(server.connect(), "new", 3)) == 3, "%s: no write behind a repair", what)
    given.check(
        neighbours(given.replay, spot) == [True],
        "%s: behind a repair numbers are raised: %r",
        what,
        neighbours(given.replay, spot),
    )


def nothing_to_repair(given, room, made, told):
    spot = room.beside("whole")
    make(spot, made)
    ran = repair(given, spot)
    left = contents(spot)
    given.check(ran.status == REPAIRED and left[name_of(1)] == made[name_of(1)], "a repair of a whole folder: %r", ran)
    given.check(not any(name.endswith(".cut") for name in left), "a repair of a whole folder left %r", sorted(left))
    with room.serve(folder=spot) as server:
        given.check(not lacks(server.connect(), told), "a repair of a whole folder lost something")


def whole_file(given, room, made, told):
    """Of a file that is damaged in its first line nothing can be read: the one before is gone on from."""
    spot = room.beside("second-file")
    make(spot, made)
    with room.serve(folder=spot) as server:
        put(server.connect(), "second", 3)
    path = os.path.join(spot, name_of(2))
    with open(path, "r+b") as file:
        file.write(b"xxxx")
        file.seek(0)
        data = file.read()
    ran = repair(given, spot)
    left = contents(spot)
    given.check(ran.status == REPAIRED and "0000000002.cut" in ran.output + ran.errors, "a repair of a first line: %r", ran)
    given.check(
        files(spot) == [name_of(1)] and left.get("0000000002.cut") == data, "a repair of a first line left %r", sorted(left)
    )
    with room.serve(folder=spot) as server:
        given.check(server.port is not None and not lacks(server.connect(), told), "a start behind it: %s", server.reported())


def never_over(given, room, made):
    """What an earlier repair kept stays."""
    spot = room.beside("twice")
    data = made[name_of(1)]
    make(spot, {**made, name_of(1): b"".join([*data.splitlines(keepends=True)[:5], b"x\n", b"y\n"]), "0000000001.cut": b"kept"})
    ran = repair(given, spot)
    left = contents(spot)
    given.check(left["0000000001.cut"] == b"kept", "a repair wrote over what an earlier one had kept: %r", ran)
    kept = [data for name, data in left.items() if name != "0000000001.cut" and b"x\ny\n" in data]
    given.check(ran.status == NOT_REPAIRED and len(kept) == 1, "a repair that can't keep what it cuts: %r, %r", ran, sorted(left))
    with room.serve(folder=spot) as server:
        given.check(server.port is None, "behind a repair that was refused a start isn't refused: %s", server.reported())


def while_it_is_served(given, room):
    """A repair needs the folder alone."""
    with room.serve() as server:
        before = contents(room.folder)
        ran = repair(given, room.folder)
        given.check(ran.status == NOT_REPAIRED and str(server.port) in ran.errors, "a repair beside a server: %r", ran)
        given.check(contents(room.folder) == before, "a repair beside a server changed the folder")
    ran = repair(given, room.beside("nowhere"))
    given.check(ran.status == NOT_REPAIRED, "a repair of a folder that isn't there: %r", ran)
