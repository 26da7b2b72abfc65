"""The writes of one client, and what is answered of some documents at each position of the history.

Nobody else writes, and each write succeeds, so the update number at a position is that position.
"""
from bisect import bisect_right

from reference import json_profile, revisions

DELETIONS = 0.15  # of the writes of a document that is there


class Plan:
    """So many writes of the documents, of which the first change often and the last seldom, and one of a document behind them."""

    def __init__(self, dice, ids, writes, last):
        weights = [1 / (1 + at) for at in range(len(ids))]
        self.requests = [None]  # by the number that each takes
        self.rows = [None]
        self.numbers = {}  # of each document
        self.parents = {}  # of each document the last revision, and whether it is deleted
        for id in dice.choices(ids, weights, k=writes) + [last]:
            self.write(id, dice.random() < DELETIONS)
        self.last = len(self.rows) - 1

    def write(self, id, deletes):
        number = len(self.rows)
        parent, is_deleted = self.parents.get(id, (None, True))
        deletes = deletes and not is_deleted
        value = {} if deletes else {"n": number}
        revision = revisions.child(parent, deletes, json_profile.body_of(value))
        target = "/db/" + id + ("" if is_deleted else "?rev=" + revisions.text(parent))
        self.requests.append(("DELETE", target, None) if deletes else ("PUT", target, value))
        row = {"changes": [{"rev": revisions.text(revision)}], "id": id, "seq": number}
        self.rows.append(dict(row, deleted=True) if deletes else row)
        self.numbers.setdefault(id, []).append(number)
        self.parents[id] = revision, deletes

    def reply(self, number):
        """The status and the value that answer a write."""
        method, _, _ = self.requests[number]
        row = self.rows[number]
        return (201 if method == "PUT" else 200), {"id": row["id"], "ok": True, "rev": row["changes"][0]["rev"]}

    def number_at(self, id, place):
        """The number of a document at a place, 0 where there is none."""
        numbers = self.numbers.get(id, [])
        at = bisect_right(numbers, place)
        return numbers[at - 1] if at else 0

    def number_after(self, id, place):
        """The next number that a document gets after a place, or one behind the last write."""
        numbers = self.numbers.get(id, [])
        at = bisect_right(numbers, place)
        return numbers[at] if at < len(numbers) else self.last + 1

    def above(self, wanted, since, place):
        """The numbers of the wanted documents above `since`, as they are at a position."""
        return sorted(number for number in (self.number_at(id, place) for id in wanted) if number > since)

    def page(self, wanted, since, limit, place):
        """The page of the wanted documents at a place. Where none is left, it goes on from the update number there."""
        numbers = self.above(wanted, since, place)
        given = numbers[:limit]
        left = len(numbers) - len(given)
        return {"last_seq": given[-1] if left else place, "pending": left, "results": [self.rows[number] for number in given]}

    def places_of_row(self, wanted, since, number, least):
        """The first and the last place, from `least` on, at which the row of this number is the first above `since`: each other
        wanted document with a number between has a later one there, and the row's own has none. None where no place is."""
        id = self.rows[number]["id"]
        first, behind = max(number, least), self.number_after(id, number)
        for other in wanted:
            if since < self.number_at(other, number - 1) and other != id:
                first = max(first, self.number_after(other, number))
        return (first, behind - 1) if first < behind else None
