"""What the body of a request must be. Each check is made of all documents of a bulk before the next check."""
from dataclasses import dataclass
from typing import Optional

from . import json_profile, revisions
from .database import Edit, Merge
from .json_profile import Body, JsonFault, is_number
from .responses import bad_request
from .targets import is_id, read_revision

IGNORED = {"_local_seq", "_revs_info", "_conflicts", "_deleted_conflicts"}


@dataclass
class Rules:
    """What the document objects of a request may be."""

    special: set  # the special members that may be there
    parse: object = revisions.parse
    id: Optional[str] = None  # the identity that a member `_id` must repeat; None: each object has one of its own
    named: Optional[tuple] = None  # the revision of the parameter, which a member `_rev` must repeat
    merged: bool = False  # each object brings a path of revisions


SPECIAL = {"_id", "_rev", "_deleted", "_revisions"} | IGNORED


def document_rules(id, named):
    return Rules(SPECIAL, id=id, named=named)


def local_rules(id, named):
    return Rules({"_id", "_rev"}, parse=revisions.parse_local, id=id, named=named)


def bulk_rules(merged):
    return Rules(SPECIAL, merged=merged)


@dataclass
class Document:
    """What a document object says."""

    id: str
    rev: object
    deleted: bool
    path: list
    body: Body


def read_json(data):
    try:
        return json_profile.read(data)
    except JsonFault as fault:
        raise bad_request(fault.reason) from None


def need(holds, reason):
    if not holds:
        raise bad_request(reason)


def read_documents(values, rules):
    """The documents that these values are."""
    bodies = [read_body(value) for value in values]
    for value in values:
        check_shape(value, rules)
    for value in values:
        need(all(name in rules.special for name in value if name.startswith("_")), "member")
    for value in values:
        check_id(value, rules)
    return [document(value, body, rules) for value, body in zip(values, bodies)]


def read_body(value):
    """Whether a body nests too deep is decided before the shape."""
    try:
        return json_profile.body_of(value) if isinstance(value, dict) else None
    except JsonFault as fault:
        raise bad_request(fault.reason) from None


def check_shape(value, rules):
    need(isinstance(value, dict), "shape")
    need("_id" in value or rules.id is not None, "shape")
    for name, kind in [("_id", str), ("_rev", str), ("_deleted", bool)]:
        need(name not in value or name not in rules.special or isinstance(value[name], kind), "shape")
    if rules.merged:
        need("_rev" in value or "_revisions" in value, "shape")
        need("_revisions" not in value or is_path(value["_revisions"]), "shape")


def is_path(value):
    """`start` is a generation, and `ids` are hashes, at most as many as generations up to it."""
    if not isinstance(value, dict) or not is_number(value.get("start")) or not isinstance(value.get("ids"), list):
        return False
    start, ids = value["start"], value["ids"]
    return (
        1 <= start <= revisions.LAST_GENERATION
        and 1 <= len(ids) <= start
        and all(isinstance(hash, str) and revisions.is_hash(hash) for hash in ids)
    )


def check_id(value, rules):
    if "_id" in value:
        need(is_id(value["_id"]) if rules.id is None else value["_id"] == rules.id, "id")


def document(value, body, rules):
    rev = read_revision(value.get("_rev"), rules.parse)
    if rev is not None and rules.named is not None:
        need(rev == rules.named, "revision")
    path = None
    if rules.merged:
        path = [rev] if "_revisions" not in value else path_from(value["_revisions"])
        need(rev is None or rev == path[0], "revision")
    return Document(value.get("_id", rules.id), rev or rules.named, value.get("_deleted", False), path, body)


def path_from(value):
    return [(value["start"] - steps, hash) for steps, hash in enumerate(value["ids"])]


# ---- the body of each route


def document_edit(data, rules):
    [document] = read_documents([read_json(data)], rules)
    return Edit(rules.id, document.rev, document.deleted, document.body)


def local_write(data, rules):
    """The revision named, and the body."""
    [document] = read_documents([read_json(data)], rules)
    return document.rev, document.body


def bulk_changes(data):
    """The edits, or the merges where `new_edits` is false, and whether they are merges."""
    value = read_json(data)
    documents = value.get("docs") if isinstance(value, dict) else None
    listed = documents if isinstance(documents, list) else []
    for document in listed:
        read_body(document)
    need(isinstance(documents, list), "shape")
    merged = not value.get("new_edits", True)
    need(isinstance(value.get("new_edits", True), bool), "shape")
    found = read_documents(documents, bulk_rules(merged))
    if merged:
        return [Merge(d.id, d.path, d.deleted, d.body) for d in found], True
    return [Edit(d.id, d.rev, d.deleted, d.body) for d in found], False


def asked_revisions(data):
    """Of each identity the revisions listed."""
    value = read_json(data)
    need(isinstance(value, dict), "shape")
    for revs in value.values():
        need(isinstance(revs, list) and all(isinstance(text, str) for text in revs), "shape")
    need(all(is_id(id) for id in value), "id")
    return {id: [read_revision(text) for text in revs] for id, revs in value.items()}


def doc_ids(data):
    """The texts of the member `doc_ids`; the other members are ignored."""
    value = read_json(data)
    listed = value.get("doc_ids") if isinstance(value, dict) else None
    need(isinstance(listed, list) and all(isinstance(text, str) for text in listed), "shape")
    return listed


def limit(data):
    value = read_json(data)
    need(is_number(value) and 1 <= value <= revisions.LAST_GENERATION, "shape")
    return value
