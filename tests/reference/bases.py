"""What a history begins from: nothing that is named, or a named base, which is a database that no session has called yet.

The first line of a dump is its text. It is read only where it is exactly that text of a database that can be: each condition has
a refusal of its own here, although the program says of all of them that the line is unreadable.
"""
import copy

from . import revisions
from .database import Database, Local, PurgedInfo, Record
from .forms import LAST_COUNTER, Unreadable, is_body, is_id, is_limit, is_object, is_rev, within
from .json_profile import Body, JsonFault, is_number, read, text
from .queries import texts
from .trees import Revision, leaves

NOT_NAMED = {"couch_history": 1}
LARGEST = 4611686018427387904  # that the update number and the purge number of a base may be
RAISE = 16777216  # by so much the update number goes up where one may have been shown that is lost
MEMBERS = {"docs", "limit", "locals", "purge_seq", "purged_limit", "purges", "update_seq"}

# why a first line is none, in the order in which it is looked at
REASONS = [
    "no line feed",
    "no JSON of the profile",
    "another text",
    "members of the line",
    "format",
    "members of the base",
    "update number",
    "purge number",
    "limit",
    "purged limit",
    "documents",
    "members of a document",
    "id of a document",
    "order of documents",
    "no revisions",
    "members of a revision",
    "revision",
    "order of revisions",
    "deleted",
    "body",
    "parent",
    "parent not known",
    "generation of a parent",
    "leaf without body",
    "number of a document",
    "number of a document past the last",
    "number of two documents",
    "local documents",
    "members of a local document",
    "id of a local document",
    "order of local documents",
    "body of a local document",
    "counter",
    "purges",
    "purges and no number, or a number and none",
    "members of a purge",
    "id of a purge",
    "leaves",
    "no leaves",
    "number of a purge",
    "order of purges",
    "last purge",
    "more purges than are kept",
]


class WrongBase(Unreadable):
    """The line is no first line, for one of the reasons."""

    def __init__(self, reason):
        super().__init__(reason)
        self.reason = reason


class NoSuccessor(Exception):
    """A number is past what a base may have."""


def need(holds, reason):
    assert reason in REASONS, reason
    if not holds:
        raise WrongBase(reason)


# ---- the next base


def successor(database):
    """What the next history begins from. All goes on but the numbers of calls, which are no part of a database here; the one
    that is given stays as it is."""
    if database.update_seq > LARGEST or database.purge_seq > LARGEST:
        raise NoSuccessor()
    return copy.deepcopy(database)


def raised(database):
    """What the next history begins from where its numbers are raised."""
    found = successor(database)
    found.update_seq += RAISE
    if found.update_seq > LARGEST:
        raise NoSuccessor()
    return found


def is_same(one, other):
    """All that a base has is equal."""
    return vars(one) == vars(other)


# ---- its text


def first_line(base):
    """The first line of the dump of a history from this base, or from none that is named."""
    value = NOT_NAMED if base is None else {"base": base_value(base), "couch_history": 2}
    return text(value).encode() + b"\n"


def base_value(database):
    return {
        "docs": [
            {"id": id, "revs": revs_value(database.docs[id].tree), "seq": database.docs[id].seq} for id in sorted(database.docs)
        ],
        "limit": database.revs_limit,
        "locals": [{"body": local.body.members, "id": id, "k": local.number} for id, local in sorted(database.locals.items())],
        "purge_seq": database.purge_seq,
        "purged_limit": database.purged_infos_limit,
        "purges": [{"id": info.id, "leaves": texts(info.leaves), "seq": info.seq} for info in database.purged_infos],
        "update_seq": database.update_seq,
    }


def revs_value(tree):
    found = []
    for rev in sorted(tree):
        known = {"deleted": tree[rev].deleted, "rev": revisions.text(rev)}
        if tree[rev].body is not None:
            known["body"] = tree[rev].body.members
        if tree[rev].parent is not None:
            known["parent"] = revisions.text(tree[rev].parent)
        found.append(known)
    return found


# ---- reading it


def read_first_line(data):
    """The database that is named, or None."""
    need(data.endswith(b"\n"), "no line feed")
    try:
        value = read(data[:-1])
    except JsonFault:
        raise WrongBase("no JSON of the profile") from None
    need(text(value).encode() + b"\n" == data, "another text")
    if isinstance(value, dict) and set(value) == set(NOT_NAMED):
        need(text(value) == text(NOT_NAMED), "format")
        return None
    need(is_object(value, {"base", "couch_history"}), "members of the line")
    need(text(value["couch_history"]) == "2", "format")
    return database_of(value["base"])


def database_of(value):
    """The database that the value of a base is."""
    need(is_object(value, MEMBERS), "members of the base")
    found = Database()
    need(within(value["update_seq"], 0, LARGEST), "update number")
    need(within(value["purge_seq"], 0, LARGEST), "purge number")
    need(is_limit(value["limit"]), "limit")
    need(is_limit(value["purged_limit"]), "purged limit")
    found.update_seq, found.purge_seq = value["update_seq"], value["purge_seq"]
    found.revs_limit, found.purged_infos_limit = value["limit"], value["purged_limit"]
    found.docs = docs_of(value["docs"], found.update_seq)
    found.locals = locals_of(value["locals"])
    found.purged_infos = purges_of(value["purges"], found)
    return found


def rises(listed):
    return all(one < other for one, other in zip(listed, listed[1:]))


def docs_of(value, update_seq):
    need(isinstance(value, list), "documents")
    for doc in value:
        need(is_object(doc, {"id", "revs", "seq"}), "members of a document")
        need(is_id(doc["id"]), "id of a document")
    need(rises([doc["id"].encode() for doc in value]), "order of documents")
    trees = [tree_of(doc["revs"]) for doc in value]
    numbers = [doc["seq"] for doc in value]
    for number in numbers:
        need(is_number(number) and number >= 1, "number of a document")
        need(number <= update_seq, "number of a document past the last")
    need(len(set(numbers)) == len(numbers), "number of two documents")
    return {doc["id"]: Record(tree, doc["seq"]) for doc, tree in zip(value, trees)}


def tree_of(value):
    """The tree of these revisions: a parent is known and one generation older, and each leaf has a body."""
    need(isinstance(value, list) and value, "no revisions")
    for known in value:
        need(is_object(known, {"deleted", "rev"}, {"body", "parent"}), "members of a revision")
        need(is_rev(known["rev"]), "revision")
        need(isinstance(known["deleted"], bool), "deleted")
        need("body" not in known or is_body(known["body"]), "body")
        need("parent" not in known or is_rev(known["parent"]), "parent")
    need(rises([revisions.parse(known["rev"]) for known in value]), "order of revisions")
    tree = {revisions.parse(known["rev"]): revision_of(known) for known in value}
    for rev, known in tree.items():
        need(known.parent is None or known.parent in tree, "parent not known")
        need(known.parent is None or known.parent[0] + 1 == rev[0], "generation of a parent")
    need(all(tree[leaf].body is not None for leaf in leaves(tree)), "leaf without body")
    return tree


def revision_of(known):
    parent = revisions.parse(known["parent"]) if "parent" in known else None
    return Revision(parent, known["deleted"], Body(known["body"]) if "body" in known else None)


def locals_of(value):
    need(isinstance(value, list), "local documents")
    for local in value:
        need(is_object(local, {"body", "id", "k"}), "members of a local document")
        need(is_id(local["id"]), "id of a local document")
        need(is_body(local["body"]), "body of a local document")
        need(within(local["k"], 1, LAST_COUNTER), "counter")
    need(rises([local["id"].encode() for local in value]), "order of local documents")
    return {local["id"]: Local(local["k"], Body(local["body"])) for local in value}


def purges_of(value, database):
    need(isinstance(value, list), "purges")
    need((value == []) == (database.purge_seq == 0), "purges and no number, or a number and none")
    for purge in value:
        need(is_object(purge, {"id", "leaves", "seq"}), "members of a purge")
        need(is_id(purge["id"]), "id of a purge")
        need(isinstance(purge["leaves"], list) and all(map(is_rev, purge["leaves"])), "leaves")
        need(purge["leaves"], "no leaves")
        need(is_number(purge["seq"]) and purge["seq"] >= 1, "number of a purge")
    numbers = [purge["seq"] for purge in value]
    need(all(new == old + 1 for old, new in zip(numbers, numbers[1:])), "order of purges")
    need(not numbers or numbers[-1] == database.purge_seq, "last purge")
    need(len(numbers) <= database.purged_infos_limit, "more purges than are kept")
    return [PurgedInfo(purge["seq"], purge["id"], [revisions.parse(rev) for rev in purge["leaves"]]) for purge in value]
