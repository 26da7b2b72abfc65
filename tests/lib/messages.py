"""Requests or responses that come piece by piece over a socket or a pipe."""
import re

LENGTH = re.compile(rb"\r\nContent-Length: (\d+)")


class Messages:
    """The messages that come from `receive`, which gives the next bytes, and none at the end."""

    def __init__(self, receive):
        self.receive = receive
        self.rest = b""  # what has come and is not taken

    def more(self):
        """Reads on, and answers whether anything came."""
        piece = self.receive()
        self.rest += piece
        return bool(piece)

    def next_head(self):
        """The bytes in front of the next empty line."""
        while (end := self.rest.find(b"\r\n\r\n")) < 0:
            if not self.more():
                raise EOFError("the connection ended in front of a body")
        head, self.rest = self.rest[:end], self.rest[end + 4 :]
        return head

    def next_bytes(self, length):
        while len(self.rest) < length:
            if not self.more():
                raise EOFError("the connection ended in a body")
        data, self.rest = self.rest[:length], self.rest[length:]
        return data

    def next_message(self):
        """A head, and a body of its length."""
        head = self.next_head()
        return head, self.next_bytes(int(LENGTH.search(head).group(1)))

    def next_response(self):
        """A status and a body."""
        head, body = self.next_message()
        return int(head[9:12]), body
