"""Requests as bytes."""
import json


def encoded(body):
    """Bytes and strings as they are, all else as compact JSON."""
    if isinstance(body, bytes):
        return body
    text = body if isinstance(body, str) else json.dumps(body, separators=(",", ":"), ensure_ascii=False)
    return text.encode()


def request(method, target, body=None, headers=(), version="HTTP/1.1", behind=()):
    """A request with these headers, then the length of its body if it has one, and then further headers."""
    lines = ["%s %s %s" % (method, target, version), *headers]
    data = b"" if body is None else encoded(body)
    if body is not None:
        lines.append("Content-Length: %d" % len(data))
    return "".join(line + "\r\n" for line in [*lines, *behind]).encode() + b"\r\n" + data


def bulk(documents, **members):
    """A bulk of these documents, with further members of its body."""
    return request("POST", "/db/_bulk_docs", dict(docs=documents, **members))


def merge(documents):
    """A bulk of documents that keep the revisions which they have elsewhere."""
    return bulk(documents, new_edits=False)
