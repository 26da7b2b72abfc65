"""Requests that make sense over the database as it is by then: identities, revisions and numbers that it has, mostly."""
import json
from urllib.parse import quote

from reference import revisions, trees
from reference.json_profile import Body

IDS = ["a", "b", "c", "é", "x/y z"]
LOCAL_IDS = ["r", "s"]
OTHER_TEXTS = ["zz", "", "_x", "_local/r", "x" * 513]  # that are no document's id
BODIES = [{}, {}, {"n": 1}, {"n": 2}, {"t": 'é"\n\u0001'}, {"m": {"b": [], "a": [1, {}]}}]
DIGITS = "abc"
TRUTH = ["true", "true", "false"]


class Maker:
    """Makes requests over a database, by a source of random numbers. A request is its method, target and body."""

    def __init__(self, random, database):
        self.random = random
        self.database = database
        self.kinds = [
            (self.put, 6),
            (self.get, 6),
            (self.root, 1),
            (self.delete, 3),
            (self.bulk, 4),
            (self.merge, 6),
            (self.diff, 3),
            (self.limit, 3),
            (self.purge, 3),
            (self.compact, 1),
            (self.info, 1),
            (self.changes, 6),
            (self.all_docs, 1),
            (self.local, 4),
        ]

    def one(self):
        """A method, a target and a body, which may be None."""
        kinds, weights = zip(*self.kinds)
        return self.random.choices(kinds, weights)[0]()

    def last(self):
        """As `one`, or a feed that goes on, after which the connection closes."""
        return self.feed() if self.maybe(0.3) else self.one()

    # ---- parts

    def maybe(self, chance):
        return self.random.random() < chance

    def id(self):
        return self.random.choice(IDS)

    def body(self):
        return dict(self.random.choice(BODIES))

    def made_up(self):
        return (self.random.randint(1, 4), self.random.choice(DIGITS) * 32)

    def rev(self, id):
        """A leaf, mostly; else a revision that is known, or one that is not."""
        tree = self.database.tree(id)
        if tree is None or self.maybe(0.1):
            return self.made_up()
        return self.random.choice(trees.leaves(tree) if self.maybe(0.8) else sorted(tree))

    def rev_text(self, id):
        return revisions.text(self.rev(id))

    def path(self, id):
        """Newest first: made up, so that paths meet and contradict one another; or over what is known."""
        if self.maybe(0.3):
            body = Body(self.body())
            parent = self.rev(id)
            return [revisions.child(parent, False, body), parent]
        length = self.random.randint(1, 4)
        start = self.random.randint(length, 5)
        return [(start - steps, self.random.choice(DIGITS) * 32) for steps in range(length)]

    def target(self, id, *parameters, front="/db/"):
        path = front + quote(id, safe="")
        return path + ("?" + "&".join(parameters) if parameters else "")

    def some(self, parameters, chance):
        """Some of the parameters, in any order."""
        found = [text for text in parameters if self.maybe(chance)]
        self.random.shuffle(found)
        return found

    # ---- documents

    def root(self):
        return "GET", self.random.choice(["/", "/?x=1"]), None

    def put(self):
        id, body, parameters = self.id(), self.body(), []
        if self.maybe(0.7) and self.database.tree(id) or self.maybe(0.05):
            rev = self.rev_text(id)
            parameters = ["rev=" + rev] if self.maybe(0.5) else []
            if not parameters or self.maybe(0.1):
                body["_rev"] = rev if self.maybe(0.9) else self.rev_text(id)
        if self.maybe(0.15):
            body["_deleted"] = self.maybe(0.7)
        if self.maybe(0.2):
            body["_id"] = id
        return "PUT", self.target(id, *parameters), body

    def delete(self):
        id = self.id()
        return "DELETE", self.target(id, *(["rev=" + self.rev_text(id)] if self.maybe(0.9) else [])), None

    def get(self):
        id = self.id()
        named = ["rev=" + self.rev_text(id)] if self.maybe(0.5) else []
        names = ["revs", "revs_info", "conflicts", "deleted_conflicts", "latest"]
        parameters = named + self.some([name + "=" + self.random.choice(TRUTH) for name in names], 0.4)
        if self.maybe(0.4):
            parameters.append("open_revs=" + quote(self.open_revs(id), safe=""))
        return "GET", self.target(id, *parameters), None

    def open_revs(self, id):
        if self.maybe(0.3):
            return "all"
        return json.dumps([self.rev_text(id) for _ in range(self.random.randint(0, 4))])

    def edit(self):
        id = self.id()
        edit = dict(self.body(), _id=id)
        if self.maybe(0.6):
            edit["_rev"] = self.rev_text(id)
        if self.maybe(0.2):
            edit["_deleted"] = self.maybe(0.8)
        return edit

    def bulk(self):
        documents = [self.edit() for _ in range(self.random.randint(0, 4))]
        return "POST", "/db/_bulk_docs", {"docs": documents, **({"new_edits": True} if self.maybe(0.2) else {})}

    def replica(self):
        id = self.id()
        path = self.path(id)
        document = dict(self.body(), _id=id)
        if len(path) == 1 and self.maybe(0.5):
            document["_rev"] = revisions.text(path[0])
        else:
            document["_revisions"] = {"start": path[0][0], "ids": [hash for _, hash in path]}
            if self.maybe(0.1):
                document["_rev"] = revisions.text(path[0])
        if self.maybe(0.25):
            document["_deleted"] = True
        return document

    def merge(self):
        return "POST", "/db/_bulk_docs", {"docs": [self.replica() for _ in range(self.random.randint(1, 4))], "new_edits": False}

    def diff(self):
        asked = {id: [self.rev_text(id) for _ in range(self.random.randint(0, 4))] for id in self.some(IDS, 0.5)}
        return "POST", "/db/_revs_diff", asked

    def purge(self):
        asked = {id: [self.rev_text(id) for _ in range(self.random.randint(0, 3))] for id in self.some(IDS, 0.3)}
        return "POST", "/db/_purge", asked

    def compact(self):
        return "POST", "/db/_compact", self.random.choice([None, "", "{}", "{"])

    def limit(self):
        target = self.random.choice(["/db/_revs_limit", "/db/_revs_limit", "/db/_purged_infos_limit"])
        if self.maybe(0.2):
            return "GET", target, None
        return "PUT", target, self.random.choice([1, 2, 2, 3, 1000, 4294967295])

    # ---- the whole database

    def info(self):
        return "GET", self.random.choice(["/db", "/db/"]), None

    def all_docs(self):
        return "GET", "/db/_all_docs", None

    def changes(self):
        return self.asked_changes(self.some(["feed=" + self.random.choice(["normal", "longpoll"])], 0.6))

    def feed(self):
        return self.asked_changes(["feed=continuous"])

    def asked_changes(self, parameters):
        """By GET, or by POST of some documents or of all."""
        top = self.database.update_seq
        parameters += self.some(
            [
                "since=" + self.random.choice(["now", "0", str(self.random.randint(0, top + 1))]),
                "limit=%d" % self.random.randint(0, 6),
                "style=" + self.random.choice(["main_only", "all_docs"]),
            ],
            0.6,
        )
        method, body = "GET", None
        if self.maybe(0.6):
            method, body = "POST", {"doc_ids": self.wanted()}
            if self.maybe(0.8):
                parameters.append("filter=_doc_ids")
            elif self.maybe(0.5):
                body = self.random.choice([None, "", "{", "[]"])
        self.random.shuffle(parameters)
        return method, "/db/_changes" + ("?" + "&".join(parameters) if parameters else ""), body

    def wanted(self):
        """Ids, some of them again, and texts that are no document's."""
        return [self.random.choice(IDS if self.maybe(0.8) else OTHER_TEXTS) for _ in range(self.random.randint(0, 5))]

    def local(self):
        id = self.random.choice(LOCAL_IDS)
        present = self.database.locals.get(id)
        number = present.number if present and self.maybe(0.85) else self.random.randint(1, 3)
        named = ["rev=0-%d" % number] if present and self.maybe(0.85) or self.maybe(0.1) else []
        kind = self.random.choice(["GET", "PUT", "PUT", "DELETE"])
        body = None
        if kind == "PUT":
            body = self.body()
            if named and self.maybe(0.5):
                body["_rev"] = "0-%d" % number
                named = []
            if self.maybe(0.2):
                body["_id"] = "_local/" + id
        return kind, self.target(id, *named, front="/db/_local/"), body
