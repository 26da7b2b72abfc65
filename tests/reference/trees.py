"""A document's revisions: which are known, whose child each is, which are deleted, and the bodies.

A tree is a dictionary from identities to `Revision`. No function changes a tree that it is given."""


class BadHistory(Exception):
    """A known revision has another parent."""


class Revision:
    def __init__(self, parent=None, deleted=False, body=None):
        self.parent = parent
        self.deleted = deleted
        self.body = body

    def __eq__(self, other):
        return (self.parent, self.deleted, self.body) == (other.parent, other.deleted, other.body)


def leaves(tree):
    """The known revisions that are parent of none, the winner first: those not deleted, then the greater first."""
    parents = {revision.parent for revision in tree.values()}
    found = [rev for rev in tree if rev not in parents]
    return sorted(sorted(found, reverse=True), key=lambda rev: tree[rev].deleted)


def winner(tree):
    return leaves(tree)[0]


def path_of(tree, rev):
    """The known path of a revision, newest first."""
    path = []
    while rev is not None and rev in tree:
        path.append(rev)
        rev = tree[rev].parent
    return path


def graft(tree, path, body, deleted):
    """The tree with the members of the path (newest first) known, each the child of the next. The newest takes the body
    and the flag where it has none."""
    for rev, above in zip(path, path[1:]):
        if rev in tree and tree[rev].parent not in (None, above):
            raise BadHistory()
    grafted = dict(tree)
    for rev, above in zip(path, path[1:] + [None]):
        known = tree.get(rev, Revision())
        grafted[rev] = Revision(above or known.parent, known.deleted, known.body)
    newest = grafted[path[0]]
    if newest.body is None:
        grafted[path[0]] = Revision(newest.parent, deleted, body)
    return grafted


def stem(tree, limit):
    """The revisions that are fewer than `limit` parent steps above some leaf."""
    kept = {rev for leaf in leaves(tree) for rev in path_of(tree, leaf)[:limit]}
    return {
        rev: Revision(tree[rev].parent if tree[rev].parent in kept else None, tree[rev].deleted, tree[rev].body) for rev in kept
    }


def cut(tree, named):
    """The named leaves, in the order named and none of them twice, and the tree without them: each revision goes from which
    no leaf is left. What is named and no leaf is not removed."""
    tips = leaves(tree)
    removed = []
    for rev in named:
        if rev in tips and rev not in removed:
            removed.append(rev)
    kept = {rev for leaf in tips if leaf not in removed for rev in path_of(tree, leaf)}
    return removed, {rev: tree[rev] for rev in kept}


def strip(tree):
    """Without the bodies of the revisions that are no leaves."""
    tips = leaves(tree)
    return {rev: Revision(known.parent, known.deleted, known.body if rev in tips else None) for rev, known in tree.items()}


def latest_of(tree, rev):
    """The leaves that descend from a revision, itself if it is one, in the winner's order."""
    return [leaf for leaf in leaves(tree) if rev in path_of(tree, leaf)]


def status_of(tree, rev):
    if tree[rev].body is None:
        return "missing"
    return "deleted" if tree[rev].deleted else "available"
