"""Documents whose revisions make trees: long histories, wide conflicts, paths that meet, contradict or come again, and branches
that are as deep as the limit of revisions."""
from reference import revisions, trees

LIMITS = [1, 2, 3, 5, 8, 100, 1000]
SHAPES = {
    "long": (12, 1),
    "wide": (3, 40),
    "bushy": (6, 3),
    "tall": (160, 1),
    "broad": (2, 300),
}  # the most generations, and the hashes of each
OFTEN = {"tall": 1, "broad": 1}  # of 20; the others 6 each


DEPTHS = [1, 2, 3, 5, 12, 40]  # of branches, and the limits beside them


def hash_of(number):
    return "%032x" % (number * 0x9E3779B97F4A7C15F39CC0605CEDC835 % 2**128)


class Document:
    """The requests of one document, by a source of random numbers, over the tree that it has by then."""

    def __init__(self, source, database, id):
        self.source = source
        self.database = database
        self.id = id
        names = sorted(SHAPES)
        self.generations, self.hashes = SHAPES[source.choices(names, [OFTEN.get(name, 6) for name in names])[0]]
        self.sent = []

    def requests(self):
        for _ in range(self.source.randint(2, 9)):
            yield self.source.choices([self.merge, self.edit, self.again, self.limit], [8, 4, 2, 1])[0]()
        yield "GET", "/db/%s?open_revs=all&revs=true" % self.id, None
        yield "GET", "/db/%s?revs_info=true&conflicts=true&deleted_conflicts=true&revs=true" % self.id, None

    def leaf(self):
        tree = self.database.tree(self.id)
        return self.source.choice(trees.leaves(tree)) if tree else None

    def merge(self):
        """Some paths: of made up revisions, or over a leaf, over any revision that is known, or over one that isn't."""
        paths = [self.path() for _ in range(self.source.randint(1, 1 + self.hashes // 4))]
        documents = [self.document(path) for path in paths]
        self.sent.append(("POST", "/db/_bulk_docs", {"docs": documents, "new_edits": False}))
        return self.sent[-1]

    def path(self):
        start = self.source.randint(1, self.generations)
        top = [(start - steps, self.hash()) for steps in range(self.source.randint(1, start))]
        tree = self.database.tree(self.id)
        if tree and self.source.random() < 0.5:
            known = trees.path_of(tree, self.source.choice(sorted(tree)))[: self.source.randint(1, 12)]
            return [(known[0][0] + 1, self.hash()), *known]
        return top

    def hash(self):
        return hash_of(self.source.randint(1, self.hashes))

    def document(self, path):
        found = {"_id": self.id, "n": self.source.randint(0, 2)}
        found["_revisions"] = {"start": path[0][0], "ids": [hash for _, hash in path]}
        if self.source.random() < 0.25:
            found["_deleted"] = True
        return found

    def edit(self):
        """A child of a leaf, mostly, and now and then of what is no leaf."""
        body, rev, tree = {"n": self.source.randint(0, 9)}, self.leaf(), self.database.tree(self.id)
        if tree and self.source.random() < 0.1:
            rev = self.source.choice(sorted(tree))
        if rev and self.source.random() < 0.2:
            return "DELETE", "/db/%s?rev=%s" % (self.id, revisions.text(rev)), None
        return "PUT", "/db/%s" % self.id + ("?rev=" + revisions.text(rev) if rev else ""), body

    def again(self):
        return self.source.choice(self.sent) if self.sent else self.merge()

    def limit(self):
        return "PUT", "/db/_revs_limit", self.source.choice(LIMITS)


class Deep(Document):
    """A document of branches of about as many revisions as are kept, whose leaves are then edited one by one."""

    def __init__(self, source, database, id):
        super().__init__(source, database, id)
        self.depth = source.choice(DEPTHS)
        self.shared = source.choice(
            [0, 1, self.depth // 2, self.depth - 1]
        )  # the generations of which branches have one revision
        self.made = 0

    def requests(self):
        yield "PUT", "/db/_revs_limit", self.depth
        for _ in range(self.source.randint(1, 8)):
            yield self.branch()
        for _ in range(self.source.randint(4, 24)):
            yield self.source.choices(
                [self.edit, self.step, self.branch, self.again, self.purge, self.limit], [12, 6, 2, 1, 1, 1]
            )[0]()
        yield "GET", "/db/%s?open_revs=all&revs=true" % self.id, None
        yield "GET", "/db/%s?revs_info=true&conflicts=true&deleted_conflicts=true&revs=true" % self.id, None

    def hash(self):
        self.made += 1
        return hash_of(self.made)

    def sent_path(self, path):
        self.sent.append(("POST", "/db/_bulk_docs", {"docs": [self.document(path)], "new_edits": False}))
        return self.sent[-1]

    def branch(self):
        """A path from the first generation, over the revisions that branches share, about as long as the limit."""
        length = max(1, self.depth + self.source.randint(-1, 1))
        return self.sent_path([(at, hash_of(0) if at <= self.shared else self.hash()) for at in range(length, 0, -1)])

    def step(self):
        """A next revision over a leaf or, now and then, over another, with some of the known path or all of it."""
        tree = self.database.tree(self.id)
        if not tree:
            return self.branch()
        rev = self.leaf() if self.source.random() < 0.8 else self.source.choice(sorted(tree))
        known = trees.path_of(tree, rev)
        known = known[: self.source.choice([1, 2, len(known)])]
        new = [(known[0][0] + more, self.hash()) for more in range(self.source.choice([1, 1, 1, 2, 3]), 0, -1)]
        return self.sent_path(new + known)

    def purge(self):
        rev = self.leaf()
        return "POST", "/db/_purge", {self.id: [revisions.text(rev)] if rev else []}

    def limit(self):
        return "PUT", "/db/_revs_limit", max(1, self.depth + self.source.randint(-3, 3))


def document(source, database, id):
    """A document of either kind."""
    return source.choice([Document, Deep])(source, database, id)
