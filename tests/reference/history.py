"""A second reading of dumps: the text of a history, whether a text is the dump of a legal one, and what the next one begins
from."""
import copy

from . import revisions
from .bases import NoSuccessor, first_line, raised, read_first_line, successor
from .database import BAD_HISTORY, CONFLICT, DELETED, GENERATION, MISSING, Database, Edit, Merge, Refused, Session
from .forms import LAST_COUNTER, Unreadable, is_body, is_id, is_limit, is_object, is_rev, within
from .json_profile import Body, JsonFault, read, text
from .once import Connection
from .queries import texts

FIRST_LINE = first_line(None)
LAST_PLACE = 4294967295
MOST_WRITES = 1048576  # of a bulk, and documents of a purge
SESSIONS = 64

REFUSALS = {CONFLICT: "E1", BAD_HISTORY: "E2", MISSING: "E3", DELETED: "E4", GENERATION: "E5"}
OF_EDITS, OF_MERGES, OF_LOCALS = {"E1", "E2", "E3", "E4", "E5"}, {"E2"}, {"E1", "E3", "E5"}


def expect(holds):
    if not holds:
        raise Unreadable()


# ---- what a database answers to a command, and the line of it


def outcome(found):
    return REFUSALS[found.kind] if isinstance(found, Refused) else revisions.text(found)


def purged(database, removed):
    return {"purge_seq": database.purge_seq, "purged": {id: texts(leaves) for id, leaves in removed.items()}}


def reply_to(database, command):
    """The reply in a dump, to a command in a dump; the database goes on."""
    if "bulk" in command:
        change = edit_of if command["new_edits"] else merge_of
        return [outcome(found) for found in database.bulk([change(item) for item in command["bulk"]])]
    if "local" in command:
        try:
            body = Body(command["body"]) if "body" in command else None
            return database.write_local(command["local"], command.get("rev"), body)
        except Refused as refusal:
            return REFUSALS[refusal.kind]
    if "purge" in command:
        asked = {id: [revisions.parse(rev) for rev in revs] for id, revs in command["purge"].items()}
        return purged(database, database.purge(asked))
    if "limit" in command:
        database.revs_limit = command["limit"]
    elif "purged_limit" in command:
        database.set_purged_infos_limit(command["purged_limit"])
    else:
        database.compact()
    return True


def edit_of(item):
    named = revisions.parse(item["rev"]) if "rev" in item else None
    return Edit(item["id"], named, item["deleted"], Body(item["body"]))


def merge_of(item):
    return Merge(item["id"], [revisions.parse(rev) for rev in item["path"]], item["deleted"], Body(item["body"]))


def item_of(change):
    """A change of a bulk, as a dump has it."""
    item = {"body": change.body.members, "deleted": change.deleted, "id": change.id}
    if isinstance(change, Merge):
        item["path"] = texts(change.path)
    elif change.named is not None:
        item["rev"] = revisions.text(change.named)
    return item


def line(command, reply, seat):
    return text({"command": command, "reply": reply, "seat": seat}).encode() + b"\n"


class Recorder(Session):
    """A session that keeps the line of each command: of a history from the base that is named, or from none."""

    def __init__(self, base=None):
        super().__init__(Database() if base is None else copy.deepcopy(base))
        self.base = base
        self.lines = []

    def successor(self):
        """A session of the next history."""
        return Recorder(successor(self.database))

    def record(self, command, reply):
        self.lines.append(line(command, reply, [0, len(self.lines) + 1]))

    def bulk(self, changes, merged=False):
        found = super().bulk(changes, merged)
        self.record({"bulk": [item_of(change) for change in changes], "new_edits": not merged}, [outcome(one) for one in found])
        return found

    def set_limit(self, limit):
        super().set_limit(limit)
        self.record({"limit": limit}, True)

    def set_purged_infos_limit(self, limit):
        super().set_purged_infos_limit(limit)
        self.record({"purged_limit": limit}, True)

    def purge(self, asked):
        removed = super().purge(asked)
        self.record({"purge": {id: texts(revs) for id, revs in asked.items()}}, purged(self.database, removed))
        return removed

    def compact(self):
        super().compact()
        self.record({"compact": True}, True)

    def write_local(self, id, named, body):
        command = {"local": id}
        if named is not None:
            command["rev"] = named
        if body is not None:
            command["body"] = body.members
        try:
            number = super().write_local(id, named, body)
        except Refused as refusal:
            self.record(command, REFUSALS[refusal.kind])
            raise
        self.record(command, number)
        return number

    def dump(self):
        return first_line(self.base) + b"".join(self.lines)


def dump_of(data):
    """The dump of the history of a connection that these bytes are read from."""
    recorder = Recorder()
    for _ in Connection(recorder).responses(data):
        pass
    return recorder.dump()


# ---- which lines are readable


def read_entry(data):
    """The command, the reply and the seat of a line, which ends with a line feed."""
    expect(data.endswith(b"\n"))
    try:
        value = read(data[:-1])
    except JsonFault:
        raise Unreadable() from None
    expect(text(value).encode() + b"\n" == data)
    expect(is_object(value, {"command", "reply", "seat"}))
    command, reply, seat = value["command"], value["reply"], value["seat"]
    check_command(command)
    expect(is_reply(command, reply))
    expect(isinstance(seat, list) and len(seat) == 2 and within(seat[0], 0, SESSIONS - 1) and within(seat[1], 1, 2**63 - 1))
    return command, reply, seat


def is_path(value):
    """Newest first, each the child of the next."""
    if not isinstance(value, list) or not value or not all(map(is_rev, value)):
        return False
    generations = [revisions.parse(rev)[0] for rev in value]
    return all(new == old + 1 for new, old in zip(generations, generations[1:]))


def is_revs_by_id(value):
    return isinstance(value, dict) and all(
        is_id(id) and isinstance(revs, list) and all(map(is_rev, revs)) for id, revs in value.items()
    )


def is_write(item, new_edits):
    if new_edits:
        of_kind = is_object(item, {"body", "deleted", "id"}, {"rev"}) and ("rev" not in item or is_rev(item["rev"]))
    else:
        of_kind = is_object(item, {"body", "deleted", "id", "path"}) and is_path(item["path"])
    return of_kind and is_body(item["body"]) and isinstance(item["deleted"], bool) and is_id(item["id"])


def check_command(command):
    expect(isinstance(command, dict))
    if "bulk" in command:
        expect(is_object(command, {"bulk", "new_edits"}))
        writes, new_edits = command["bulk"], command["new_edits"]
        expect(isinstance(writes, list) and len(writes) <= MOST_WRITES and isinstance(new_edits, bool))
        expect(all(is_write(item, new_edits) for item in writes))
    elif "local" in command:
        expect(is_object(command, {"local"}, {"rev", "body"}) and is_id(command["local"]))
        expect("rev" not in command or within(command["rev"], 1, LAST_COUNTER))
        expect("body" not in command or is_body(command["body"]))
    elif "purge" in command:
        expect(is_object(command, {"purge"}) and is_revs_by_id(command["purge"]) and len(command["purge"]) <= MOST_WRITES)
    elif "limit" in command:
        expect(is_object(command, {"limit"}) and is_limit(command["limit"]))
    elif "purged_limit" in command:
        expect(is_object(command, {"purged_limit"}) and is_limit(command["purged_limit"]))
    else:
        expect(command == {"compact": True})


def is_reply(command, reply):
    if "bulk" in command:
        refusals = OF_EDITS if command["new_edits"] else OF_MERGES
        return isinstance(reply, list) and all(is_rev(one) or one in refusals for one in reply)
    if "local" in command:
        return within(reply, 0, LAST_COUNTER) or (isinstance(reply, str) and reply in OF_LOCALS)
    if "purge" in command:
        of_kind = is_object(reply, {"purge_seq", "purged"})
        return of_kind and within(reply["purge_seq"], 0, 2**63 - 1) and is_revs_by_id(reply["purged"])
    return reply is True


# ---- the verdict, and what the next history begins from


class Wrong(Exception):
    """The first place whose seat or reply is not that of the sequential database."""


class UnreadableLine(Exception):
    """The first line that is none of a dump."""


def verdict(data):
    """What an audit of these bytes prints, without the line feed, and its exit status."""
    return judged(data)[:2]


def next_base(data, is_raised=False):
    """The bytes that are written for the history after the one that these bytes are the dump of, raised or not, and the exit
    status."""
    said, status, last = judged(data)
    if last is None:
        return said.encode() + b"\n", status
    try:
        return first_line(raised(last) if is_raised else successor(last)), 0
    except NoSuccessor:
        return b"no successor\n", 6


def judged(data):
    """The verdict, its exit status, and the database at the end where there is one."""
    try:
        base, entries = read_dump(data)
        return "legal %d" % len(entries), 0, replay(Database() if base is None else base, entries)
    except UnreadableLine as fault:
        return "unreadable line %d" % fault.args, 3, None
    except Wrong as fault:
        return "wrong at %d" % fault.args, 2, None


def read_dump(data):
    """The base that is named, or None, and the entries. All lines are read before an entry is judged."""
    lines = cut(data)
    found = [read_line(1, read_first_line, lines[0] if lines else b"")]
    for number, one in enumerate(lines[1:], 2):
        if number - 1 > LAST_PLACE:
            raise UnreadableLine(number)
        found.append(read_line(number, read_entry, one))
    return found[0], found[1:]


def read_line(number, reads, data):
    try:
        return reads(data)
    except Unreadable:
        raise UnreadableLine(number) from None


def cut(data):
    """Each line with its line feed, which the last one may lack."""
    pieces = data.split(b"\n")
    lines = [piece + b"\n" for piece in pieces[:-1]]
    return lines + [pieces[-1]] if pieces[-1] else lines


def replay(database, entries):
    """The database after these entries, if each seat is its session's next call and each reply is the database's."""
    calls = {}
    for place, (command, reply, [session, call]) in enumerate(entries, 1):
        if call != calls.get(session, 0) + 1 or not is_same(reply, reply_to(database, command)):
            raise Wrong(place)
        calls[session] = call
    return database


def is_same(one, other):
    """Their texts are one: `1` and `true` are not."""
    return text(one) == text(other)
