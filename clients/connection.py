"""A client's connection to a server of this machine, over a socket of its own."""
import itertools
import json
import socket
from typing import NamedTuple

from official import Failed

# How long an answer may take to come, in seconds.
PATIENCE = 60


class Frame(NamedTuple):
    """A message that came."""

    subject: bytes
    reply: bytes
    headers: bytes
    payload: bytes


class Connection:
    """A connection that hears what is sent to subjects beneath its inbox."""

    numbers = itertools.count(1)

    def __init__(self, server):
        self.inbox = b"_I.%d" % next(Connection.numbers)
        self.link = socket.create_connection(("127.0.0.1", server.port), timeout=PATIENCE)
        self.link.setsockopt(socket.IPPROTO_TCP, socket.TCP_NODELAY, 1)
        self.lines = self.link.makefile("rb")
        self.line()
        self.send(b'CONNECT {"headers":true,"verbose":false}\r\nSUB %s.> 1\r\n' % self.inbox)

    def send(self, operations):
        self.link.sendall(operations)

    def publish(self, subject, payload=b"", reply=b""):
        self.send(b"PUB %s %s %d\r\n%s\r\n" % (subject, reply, len(payload), payload))

    def line(self):
        """The next line that comes."""
        return self.awaited(self.lines.readline)

    @staticmethod
    def awaited(read, *size):
        """What this reads, which has to come in time."""
        try:
            found = read(*size)
        except socket.timeout:
            raise Failed(f"nothing came for {PATIENCE} seconds") from None
        if not found:
            raise Failed("the server closed the connection")
        return found

    def frame(self):
        """The next message. Other lines are skipped."""
        words = []
        while not words or words[0] not in (b"MSG", b"HMSG"):
            words = self.line().split()
        sizes = 1 if words[0] == b"MSG" else 2
        block = self.awaited(self.lines.read, int(words[-1]) + 2)[:-2]
        cut = 0 if sizes == 1 else int(words[-2])
        reply = words[3] if len(words) == 4 + sizes else b""
        return Frame(words[1], reply, block[:cut], block[cut:])

    def call(self, name, body=None):
        """The answer to a call of the API. Messages that come before it are dropped."""
        subject = self.inbox + b".call"
        self.publish(b"$JS.API." + name, json.dumps(body or {}).encode(), subject)
        while True:
            frame = self.frame()
            if frame.subject == subject:
                answer = json.loads(frame.payload)
                if "error" in answer:
                    raise Failed(f"{name.decode()}: {answer['error']}")
                return answer

    def pull(self, consumer, **options):
        """Asks a consumer of the stream ORDERS, which has to be there, for messages."""
        self.publish(b"$JS.API.CONSUMER.MSG.NEXT.ORDERS." + consumer, json.dumps(options).encode(), self.inbox + b".pull")

    def turn_away(self):
        """Asks something of the stream OTHER, which has to be there: a session lets time pass at the stream that it asked last, before the thread that does so
        for all."""
        self.call(b"STREAM.INFO.OTHER")

    def close(self):
        self.lines.close()
        self.link.close()
