"""Bases at random: what requests at random leave, with numbers and counters that may be large, and bases with something
changed."""
import copy

from lib.requests import request
from reference import revisions
from reference.bases import LARGEST
from reference.forms import LAST_COUNTER
from reference.history import Recorder
from reference.once import Connection

from .legal import Maker

NUMBERS = [0, 1, 2, 3, 1000, LAST_COUNTER, LAST_COUNTER + 1, LARGEST, LARGEST + 1, -1]
TEXTS = ["", "a", "_x", "zz", "é", "x" * 512, "x" * 513]
OTHERS = [None, True, False, [], {}, {"_x": 1}, [1], "2-" + "a" * 32, "x"]
NAMES = ["body", "parent", "id", "seq", "k", "leaves", "deleted", "rev", "x"]


def serve(recorder, data):
    for _ in Connection(recorder).responses(data):
        pass


def some_requests(random, recorder, count):
    """Requests over what the session has, which are made there too."""
    maker, pieces = Maker(random, recorder.database), []
    for _ in range(count):
        pieces.append(request(*maker.one()))
        serve(recorder, pieces[-1])
    return b"".join(pieces)


def database(random):
    """What some requests leave; its numbers and counters may be moved up, together with those that are below them."""
    recorder = Recorder()
    some_requests(random, recorder, random.randint(0, 25))
    found = recorder.database
    if random.random() < 0.4:
        raise_numbers(random, found)
    return found


def raise_numbers(random, found, room=0):
    """Near the ends of what numbers may be, with so much room left."""
    more = LARGEST - room - found.update_seq - random.randint(0, 3)
    found.update_seq += more
    for record in found.docs.values():
        record.seq += more
    if found.purge_seq:
        more = LARGEST - room - found.purge_seq - random.randint(0, 3)
        found.purge_seq += more
        for info in found.purged_infos:
            info.seq += more
    for local in found.locals.values():
        local.number = LAST_COUNTER - random.randint(0, 2)


# ---- something changed


def changed(random, value):
    """The value of a base with one thing changed, of which most are no base any more."""
    value = copy.deepcopy(value)
    holders = [one for one in inner(value) if one]
    holder = random.choice(holders)
    place = random.choice(sorted(holder) if isinstance(holder, dict) else range(len(holder)))
    kind = random.randint(0, 5)
    if kind == 0:
        del holder[place]
    elif kind == 1 and isinstance(holder, dict):
        holder[random.choice(NAMES)] = other(random, random.choice(list(every(value))))
    elif kind == 1:
        holder.insert(place, copy.deepcopy(random.choice(holder)))
    elif kind == 2 and isinstance(holder, list) and len(holder) > 1:
        holder[place], holder[place - 1] = holder[place - 1], holder[place]
    elif kind == 3:
        holder[place] = copy.deepcopy(random.choice(list(every(value))))
    else:
        holder[place] = other(random, holder[place])
    return value


def inner(value):
    """The objects and lists in it, and itself."""
    if isinstance(value, (dict, list)):
        yield value
        for one in value.values() if isinstance(value, dict) else value:
            yield from inner(one)


def every(value):
    yield value
    for holder in inner(value):
        yield from holder.values() if isinstance(holder, dict) else holder


def other(random, value):
    """Something near it."""
    if isinstance(value, bool):
        return not value
    if isinstance(value, int):
        return random.choice([value - 1, value + 1, value + 1, *NUMBERS])
    rev = revisions.parse(value) if isinstance(value, str) else None
    if rev is not None:
        return revisions.text(
            random.choice(
                [(rev[0] + 1, rev[1]), (rev[0] - 1, rev[1]), (rev[0], rev[1][::-1]), (rev[0], random.choice("abc") * 32)]
            )
        )
    if isinstance(value, str):
        return random.choice([value + "a", value[:-1], *TEXTS])
    return copy.deepcopy(random.choice(OTHERS))
