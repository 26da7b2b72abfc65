"""What each route answers."""
from . import bodies, queries, revisions
from .database import Edit, Refused
from .json_profile import EMPTY
from .queries import LOCAL, Options
from .responses import Answer, Feed, refused
from .targets import read_revision, read_target


def answer(session, request):
    """The answer to a request, which a check, a refusal or the route's action gives."""
    try:
        name, method, id, parameters = read_target(request)
        return ACTIONS[name, method](Asked(session, request.body, id, parameters))
    except Answer as decided:
        return decided
    except Refused as refusal:
        return refused(refusal)


class Asked:
    """One request whose route and method are known."""

    def __init__(self, session, body, id, parameters):
        self.session = session
        self.database = session.database
        self.body = body
        self.id = id
        self.parameters = parameters

    def rev(self, parse=revisions.parse):
        return read_revision(self.parameters.get("rev"), parse)


# ---- documents


def get_document(asked):
    parameters = asked.parameters
    names = ["latest", "revs", "revs_info", "conflicts", "deleted_conflicts"]
    options = Options(**{name: parameters.flag(name) for name in names})
    listed = None
    if parameters.get("open_revs") not in (None, "all"):
        listed = parameters.text_list("open_revs")
    rev = asked.rev()
    if parameters.get("open_revs") is None:
        return Answer(200, queries.get(asked.database, asked.id, rev, options))
    revs = None if listed is None else [read_revision(text) for text in listed]
    return Answer(200, queries.open_revs(asked.database, asked.id, revs, options))


def written(id, rev):
    return {"id": id, "ok": True, "rev": rev}


def put_document(asked):
    asked.parameters.refuse(["new_edits"], ["false"])
    return edited(asked, bodies.document_edit(asked.body, bodies.document_rules(asked.id, asked.rev())), 201)


def delete_document(asked):
    return edited(asked, Edit(asked.id, asked.rev(), True, EMPTY), 200)


def edited(asked, edit, status):
    [reply] = asked.session.bulk([edit])
    if isinstance(reply, Refused):
        raise reply
    return Answer(status, written(asked.id, revisions.text(reply)))


def bulk(asked):
    changes, merged = bodies.bulk_changes(asked.body)
    listed = []
    for change, reply in zip(changes, asked.session.bulk(changes, merged)):
        if isinstance(reply, Refused):
            listed.append(dict(refused(reply).value, id=change.id))
        elif isinstance(change, Edit):
            listed.append(written(change.id, revisions.text(reply)))
    return Answer(201, listed)


def revs_diff(asked):
    return Answer(200, queries.revs_diff(asked.database, bodies.asked_revisions(asked.body)))


def purge(asked):
    removed = asked.session.purge(bodies.asked_revisions(asked.body))
    purged = {id: queries.texts(leaves) for id, leaves in removed.items()}
    return Answer(201, {"purge_seq": asked.database.purge_seq, "purged": purged})


def compact(asked):
    asked.session.compact()
    return Answer(202, {"ok": True})


def get_limit(asked):
    return Answer(200, asked.database.revs_limit)


def put_limit(asked):
    asked.session.set_limit(bodies.limit(asked.body))
    return Answer(200, {"ok": True})


def get_purged_infos_limit(asked):
    return Answer(200, asked.database.purged_infos_limit)


def put_purged_infos_limit(asked):
    asked.session.set_purged_infos_limit(bodies.limit(asked.body))
    return Answer(200, {"ok": True})


# ---- local documents


def get_local(asked):
    return Answer(200, queries.local_get(asked.database, asked.id))


def put_local(asked):
    named = asked.rev(revisions.parse_local)
    rev, body = bodies.local_write(asked.body, bodies.local_rules(LOCAL + asked.id, named))
    return local_written(asked, rev, body, 201)


def delete_local(asked):
    return local_written(asked, asked.rev(revisions.parse_local), None, 200)


def local_written(asked, rev, body, status):
    number = asked.session.write_local(asked.id, rev, body)
    return Answer(status, written(LOCAL + asked.id, revisions.local_text(number)))


# ---- the whole database


def get_changes(asked):
    asked.parameters.refuse(["filter"])
    return changes(asked, False)


def post_changes(asked):
    """Without a filter as GET: the body is not read."""
    return changes(asked, asked.parameters.word("filter", [None, "_doc_ids"], None) is not None)


def changes(asked, is_filtered):
    parameters = asked.parameters
    parameters.refuse(["include_docs", "descending"], ["true"])
    parameters.refuse(["view"])
    # with one session there is nothing that a long poll or a feed could wait for
    goes_on = parameters.word("feed", ["normal", "longpoll", "continuous"], "normal") == "continuous"
    style = parameters.word("style", ["main_only", "all_docs"], "main_only")
    now = parameters.get("since") == "now"
    since = asked.database.update_seq if now else parameters.number("since") or 0
    limit = parameters.number("limit")
    ids = bodies.doc_ids(asked.body) if is_filtered else None
    if goes_on:
        return Feed(queries.feed(asked.database, since, limit, style == "all_docs", ids))
    return Answer(200, queries.changes(asked.database, since, limit, style == "all_docs", ids))


def all_docs(asked):
    asked.parameters.refuse(["include_docs", "descending"], ["true"])
    asked.parameters.refuse(["key", "keys", "startkey", "endkey", "start_key", "end_key", "skip", "limit"])
    return Answer(200, queries.all_docs(asked.database))


ACTIONS = {
    ("root", "GET"): lambda asked: Answer(200, {"couchdb": "Welcome"}),
    ("database", "GET"): lambda asked: Answer(200, queries.info(asked.database)),
    ("bulk", "POST"): bulk,
    ("revs_diff", "POST"): revs_diff,
    ("purge", "POST"): purge,
    ("compact", "POST"): compact,
    ("revs_limit", "GET"): get_limit,
    ("revs_limit", "PUT"): put_limit,
    ("purged_infos_limit", "GET"): get_purged_infos_limit,
    ("purged_infos_limit", "PUT"): put_purged_infos_limit,
    ("changes", "GET"): get_changes,
    ("changes", "POST"): post_changes,
    ("all_docs", "GET"): all_docs,
    ("local", "GET"): get_local,
    ("local", "PUT"): put_local,
    ("local", "DELETE"): delete_local,
    ("document", "GET"): get_document,
    ("document", "PUT"): put_document,
    ("document", "DELETE"): delete_document,
}
