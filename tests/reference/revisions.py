"""Identities of revisions: a pair of a generation and 32 hexadecimal digits, which sorts as the store sorts."""
import hashlib
import re

LAST_GENERATION = 4294967295
TEXT = re.compile(r"([1-9][0-9]{0,9})-([0-9a-f]{32})", re.ASCII)
HASH = re.compile(r"[0-9a-f]{32}", re.ASCII)
LOCAL_TEXT = re.compile(r"0-([1-9][0-9]{0,9})", re.ASCII)


def parse(text):
    """The identity that the text writes, or None."""
    found = TEXT.fullmatch(text)
    if found is None or int(found.group(1)) > LAST_GENERATION:
        return None
    return (int(found.group(1)), found.group(2))


def text(rev):
    return "%d-%s" % rev


def is_hash(text):
    return HASH.fullmatch(text) is not None


def child(parent, deleted, body):
    """The digest is over the flag, the parent's text and the body's text, parted by commas. The generation may be past
    the last one."""
    over = "%s,%s,%s" % ("1" if deleted else "0", "" if parent is None else text(parent), body.text)
    generation = 1 if parent is None else parent[0] + 1
    return (generation, hashlib.md5(over.encode("utf-8")).hexdigest())


def parse_local(text):
    """The number of a local document's revision, or None."""
    found = LOCAL_TEXT.fullmatch(text)
    if found is None or int(found.group(1)) > LAST_GENERATION:
        return None
    return int(found.group(1))


def local_text(number):
    return "0-%d" % number
