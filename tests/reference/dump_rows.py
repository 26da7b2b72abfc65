"""Rows of dumps whose history begins from a base: of each the dump, and what is said of it.

A statement gives a member of the base, as a string that is put into the line as it is; what is not given is as in an empty base.
In a text `␠` is a space, `␉` a tab, `␊` a line feed, and `␀` what is not UTF-8.

    NAME TEXT     the member of the base; a name with `next` in front, of what the next base must be, where that is another one
    first TEXT    the first line, in place of the one that the members make
    entry TEXT    a line more
    cut N         without its last bytes
    check         what `replay check` says
    base          what `replay base` says: `same` for the first line of the dump, `next` for the one of the next base
    raised        what `replay base --raised` says
    reason        why the first line is none, which no program reports
"""
from .bases import WrongBase, read_first_line
from .history import cut, next_base, verdict

EMPTY = {
    "docs": "[]",
    "limit": "1000",
    "locals": "[]",
    "purge_seq": "0",
    "purged_limit": "1000",
    "purges": "[]",
    "update_seq": "0",
}
SIGNS = {"␠": b" ", "␉": b"\t", "␊": b"\n", "␀": b"\xff"}
ASKED = ["check", "base", "raised", "reason"]

# the exit status of what is said, by its first word
STATUS = {"legal": 0, "same": 0, "next": 0, "wrong": 2, "unreadable": 3, "no": 6}


def with_signs(text):
    data = text.encode()
    for sign, byte in SIGNS.items():
        data = data.replace(sign.encode(), byte)
    return data


class Dump:
    """The dump that the statements of a row make, and the first line of the next one."""

    def __init__(self, statements):
        self.members, self.then = dict(EMPTY), {}
        self.first, self.entries, self.less = None, [], 0
        for statement in statements:
            self.take(*statement.split(" ", 1))

    def take(self, name, text=""):
        if name in EMPTY:
            self.members[name] = text
        elif name == "next":
            self.then.update([text.split(" ", 1)])
        elif name == "first":
            self.first = text
        elif name == "entry":
            self.entries.append(text)
        elif name == "cut":
            self.less = int(text)
        else:
            assert name in ASKED and not text, name

    def data(self):
        first = line_of(self.members) if self.first is None else self.first
        data = b"".join(with_signs(one) + b"\n" for one in [first, *self.entries])
        return data[: len(data) - self.less]

    def next_line(self):
        return with_signs(line_of({**self.members, **self.then})) + b"\n"


def line_of(members):
    return '{"base":{%s},"couch_history":2}' % ",".join('"%s":%s' % (name, members[name]) for name in sorted(members))


def shown(dump, written):
    """What `replay base` writes, as a row has it."""
    if written == cut(dump.data())[0]:
        return "same"
    if written == dump.next_line():
        return "next"
    return written.decode("utf-8", "replace").removesuffix("\n")


def reason(data):
    try:
        read_first_line(cut(data)[0])
        return "none"
    except WrongBase as fault:
        return fault.reason


def results(statements):
    """What the second reading says to each question."""
    dump = Dump(statements)
    for statement in statements:
        if statement in ASKED:
            yield said(dump, statement)


def said(dump, asked):
    data = dump.data()
    if asked == "reason":
        return reason(data)
    text, status = verdict(data) if asked == "check" else next_base(data, asked == "raised")
    found = text if asked == "check" else shown(dump, text)
    assert status == STATUS.get(found.split(" ")[0]), (found, status)
    return found
