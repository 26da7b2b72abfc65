"""The forms of the values in a line of a dump, and their ranges."""
from . import revisions
from .json_profile import MAX_BODY_NESTING, is_number, nesting

LAST_COUNTER = 4294967295  # of local documents, and of both limits


class Unreadable(Exception):
    """A line is not exactly that of an entry, or of what a history begins from, within the limits."""


def is_object(value, needed, more=()):
    return isinstance(value, dict) and needed <= set(value) <= needed | set(more)


def within(value, least, most):
    return is_number(value) and least <= value <= most


def is_id(value):
    return isinstance(value, str) and 1 <= len(value.encode()) <= 512


def is_rev(value):
    return isinstance(value, str) and revisions.parse(value) is not None


def is_body(value):
    return isinstance(value, dict) and not any(name.startswith("_") for name in value) and nesting(value) <= MAX_BODY_NESTING


def is_limit(value):
    return within(value, 1, LAST_COUNTER)
