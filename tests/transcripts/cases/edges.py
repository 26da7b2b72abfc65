"""Queries and bodies at their edges: where a definition that is nearly right would answer otherwise."""
from .building import at, diff, get, listed, merge, opened, put, rev

TWO_PATHS = [merge(at("d", rev(2, "b"), rev(1, "a"))), merge(at("d", rev(3, "c"), rev(2, "d"), rev(1, "a")))]
BORN_DEAD = [merge(at("d", rev(1, "a"), _deleted=True)), merge(at("d", rev(2, "b"), rev(1, "a")))]

CASES = {
    "differences-of-a-repeated-revision": TWO_PATHS + [diff({"d": [rev(3, "e"), rev(3, "e"), rev(3, "c")]})],
    "differences-with-the-largest-generation-last": TWO_PATHS + [diff({"d": [rev(2, "f"), rev(3, "e")]})],
    "differences-with-ancestors-in-order": TWO_PATHS + [diff({"d": [rev(4, "e")]})],
    "differences-of-an-unknown-document": TWO_PATHS + [diff({"no": [rev(3, "e"), rev(1, "a")]})],
    "latest-of-two-leaves": TWO_PATHS + [get("/db/d?latest=true&rev=" + rev(1, "a"))],
    "open-listed-of-an-unknown-document": [
        opened("no", listed(rev(1, "a"))),
        opened("no", listed(rev(1, "a")), "&latest=true"),
        opened("no", "all"),
    ],
    "live-and-deleted-losers": [
        merge(at("d", rev(2, "f"), _deleted=True), at("d", rev(1, "0")), at("d", rev(1, "b"))),
        get("/db/d?conflicts=true&deleted_conflicts=true"),
        get("/db/d?deleted_conflicts=true"),
    ],
    "status-of-an-inner-deletion": BORN_DEAD + [get("/db/d?revs_info=true")],
    "number-below-i64": [put("/db/a", '{"n":-9223372036854775808}'), get("/db/a"), put("/db/b", '{"n":-9223372036854775809}')],
    "names-beside-the-underscore": [put("/db/a", '{"a_":1,"`":2,"^":3,"":4}'), get("/db/a"), put("/db/b", '{"_":1}')],
}
