"""What comes of what is done to maps, lists, trees and runs."""
from . import revisions, trees
from .json_profile import EMPTY
from .versions import names


class Kept:
    """A value, and one that was kept. Values are never changed, but replaced."""

    def __init__(self, value):
        self.value = value
        self.kept = value

    def keep(self):
        self.kept = self.value

    def back(self):
        self.value = self.kept


def numbers(words):
    return range(*map(int, words))


# ---- maps: dictionaries from numbers to themselves


def map_results(statements):
    maps, nodes = Kept({}), 0
    for statement in statements:
        name, *words = statement.split()
        if name == "keep":
            maps.keep()
            yield "0 nodes"
        elif name == "back":
            maps.back()
            nodes = 0
            yield "%d keys" % len(maps.value)
        elif name in ("insert", "into_with", "remove", "into_without"):
            for key in numbers(words):
                nodes = nodes_of(maps.value, name, key)
                maps.value = changed(maps.value, name, key)
            yield "0 above"
        elif name == "nodes_made":
            yield str(nodes)
        else:
            yield map_text(maps.value, name, *words)


def changed(entries, name, key):
    if name in ("insert", "into_with"):
        return {**entries, key: key}
    return {other: value for other, value in entries.items() if other != key}


def nodes_of(entries, name, key):
    """How many nodes a call makes, where that is plain: none to remove what is not there, and each one to insert a key into a
    map of one at most, since all lie on the way."""
    if name in ("remove", "into_without"):
        return 0 if key not in entries else None
    return len(entries) + 1 if len(entries) < 2 and key not in entries else None


def map_text(entries, name, *words):
    keys = sorted(entries)
    above = keys if not words else [key for key in keys if key >= int(words[0])]
    if name == "size":
        return "%d keys, empty %s, low true" % (len(keys), truth(not keys))
    if name == "get":
        return str(entries.get(int(words[0]), "none"))
    if name == "count_from":
        return str(len(above))
    assert name in ("walk", "range_from")
    return " ".join("%d:%d" % (key, entries[key]) for key in above)


def truth(holds):
    return "true" if holds else "false"


# ---- lists of numbers


def list_results(statements):
    lists = Kept([])
    for statement in statements:
        name, *words = statement.split()
        if name == "keep":
            lists.keep()
            yield "0 nodes"
        elif name == "back":
            lists.back()
            yield "%d values" % len(lists.value)
        elif name == "push":
            lists.value = [*lists.value, *numbers(words)]
            yield "%d nodes" % (2 * len(numbers(words)))
        else:
            yield list_text(lists.value, name, *words)


def list_text(values, name, *words):
    if name == "size":
        return "%d values, empty %s" % (len(values), truth(not values))
    if name == "get":
        return str(values[int(words[0])]) if int(words[0]) < len(values) else "none"
    assert name in ("walk", "get_all")
    return " ".join(map(str, values))


# ---- trees of revisions


def tree_results(statements):
    kept = Kept({})
    for statement in statements:
        name, *words = statement.split()
        if name == "keep":
            kept.keep()
            yield nodes_text(kept.value)
        elif name == "is_same":
            yield truth(kept.value == kept.kept)
        elif name in CHANGES:
            said, kept.value = CHANGES[name](kept.value, *words)
            yield said + nodes_text(kept.value)
        else:
            yield tree_text(kept.value, name, *words)


def grafted(tree, words, deleted=False, limit=None):
    """What is said of it, and the tree with the path."""
    try:
        after = trees.graft(tree, [revisions.parse(word) for word in words], EMPTY, deleted)
    except trees.BadHistory:
        return "contradiction ", tree
    return "", after if limit is None else trees.stem(after, limit)


def cut(tree, *words):
    removed, left = trees.cut(tree, [revisions.parse(word) for word in words])
    return " ".join(names(removed)) + " left ", left


CHANGES = {
    "graft": lambda tree, *words: grafted(tree, words),
    "graft_deleted": lambda tree, *words: grafted(tree, words, deleted=True),
    "with_path": lambda tree, limit, *words: grafted(tree, words, limit=int(limit)),
    "stem": lambda tree, limit: ("", trees.stem(tree, int(limit))),
    "strip": lambda tree: ("", trees.strip(tree)),
    "cut": cut,
}


def nodes_text(tree):
    return "".join("[%s]" % " ".join(revision_text(tree, rev)) for rev in sorted(tree)) or "no tree"


def revision_text(tree, rev):
    found = tree[rev]
    yield revisions.text(rev)
    if found.parent is not None:
        yield "over " + revisions.text(found.parent)
    if found.deleted:
        yield "deleted"
    if found.body is not None:
        yield "body"


def tree_text(tree, name, *words):
    rev = revisions.parse(words[0]) if words else None
    if not tree:
        return "no tree"
    if name == "count":
        return str(len(tree))
    if name == "leaves":
        return " ".join(names(trees.leaves(tree)))
    if name == "path_of":
        return " ".join(names(trees.path_of(tree, rev)))
    if name == "winner":
        best = trees.winner(tree)
        return revisions.text(best) + (" deleted" if tree[best].deleted else "")
    assert name == "revision"
    return " ".join(known_text(tree, rev))


def known_text(tree, rev):
    if rev in tree:
        yield "known"
        if tree[rev].parent is not None:
            yield "over " + revisions.text(tree[rev].parent)
        if rev in trees.leaves(tree):
            yield "leaf"
        if tree[rev].deleted:
            yield "deleted"
        if tree[rev].body is not None:
            yield "body"


# ---- runs: dictionaries from tops to forks, bottoms and lows


def runs_results(statements):
    kept = Kept({})
    for statement in statements:
        name, *words = statement.split()
        if name == "keep":
            kept.keep()
            yield ""
        elif name == "back":
            kept.back()
            yield ""
        elif name in RUNS_CHANGES:
            kept.value = RUNS_CHANGES[name](kept.value, *words)
            yield ""
        else:
            yield runs_text(kept.value, name, *words)


def with_run(runs, top, bottom, low, fork=None):
    return {**runs, revisions.parse(top): (fork and revisions.parse(fork), revisions.parse(bottom), int(low))}


def without_run(runs, top):
    return {other: run for other, run in runs.items() if other != revisions.parse(top)}


RUNS_CHANGES = {
    "with": with_run,
    "root": lambda runs, top: with_run(runs, top, top, top.partition("-")[0]),
    "without": without_run,
    "clear": without_run,
}


def runs_text(runs, name, *words):
    rev = revisions.parse(words[0]) if words else None
    if name == "get":
        return run_text(*runs[rev]) if rev in runs else "none"
    if name == "ending_at":
        found = [top for top, run in runs.items() if run[1] == rev]
    elif name == "nearest_under":
        found = sorted((top for top, run in runs.items() if run[0] == rev), key=lambda top: runs[top][2])
    else:
        assert name == "deepest"
        above = {top: run[2] - top[0] for top, run in runs.items()}
        found = sorted((top for top in above if above[top] > 0), key=lambda top: -above[top])
    return revisions.text(found[0]) if found else "none"


def run_text(fork, bottom, low):
    return "to %s low %d%s" % (revisions.text(bottom), low, "" if fork is None else " under " + revisions.text(fork))
