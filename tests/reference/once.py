"""A whole run of `couchd once`: bytes in, bytes out, and the exit status."""
from . import actions
from .database import Session
from .framing import Unfinished, Unreadable, read_request
from .responses import Feed, broken, feed, response


class Connection:
    """Answers one request after another, until the input ends or the connection closes."""

    def __init__(self, session=None):
        self.session = session or Session()

    def responses(self, data):
        """Each response to the requests that the bytes are."""
        at = 0
        while at < len(data):
            try:
                request, at = read_request(data, at)
            except Unfinished:
                return
            except Unreadable as refusal:
                yield response(broken(refusal.kind), self.session.place, True)
                return
            answer = actions.answer(self.session, request)
            if isinstance(answer, Feed):
                yield feed(answer, self.session.place)
                return
            yield response(answer, self.session.place, request.closes, request.method != b"HEAD")
            if request.closes:
                return


def run(data):
    """The output and the status. Each end of the input, and each close, is status 0."""
    return b"".join(Connection().responses(data)), 0
