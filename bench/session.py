"""A server that runs over pipes, and its one client, which sends operations and reads frames as they come."""
import os
import select
import subprocess
import sys
from typing import NamedTuple

# How long an answer is waited for, in seconds.
PATIENCE = 20


class Frame(NamedTuple):
    subject: bytes
    sid: int
    reply: bytes
    headers: bytes
    payload: bytes


def split_frame(buffer):
    """The first frame of these bytes and what stands behind it, or None if it has not come whole. Other lines of the server are left out."""
    while True:
        line, end, rest = buffer.partition(b"\r\n")
        if not end:
            return None
        words = line.split(b" ")
        if words[0] in (b"MSG", b"HMSG"):
            break
        if words[0] == b"-ERR":
            sys.exit(f"the server answered {line.decode()}")
        buffer = rest
    counts = 1 if words[0] == b"MSG" else 2
    size = int(words[-1])
    if len(rest) < size + 2:
        return None
    cut = 0 if counts == 1 else int(words[-2])
    reply = words[3] if len(words) == 4 + counts else b""
    return Frame(words[1], int(words[2]), reply, rest[:cut], rest[cut:size]), rest[size + 2 :]


class Session:
    """A server, from its start to its end."""

    def __init__(self, program, words):
        self.process = subprocess.Popen([program, *words], stdin=subprocess.PIPE, stdout=subprocess.PIPE, stderr=subprocess.PIPE, bufsize=0)
        self.buffer = b""
        self.is_over = False

    def send(self, data):
        """Writes to a server that may have been killed."""
        try:
            while data:
                data = data[self.process.stdin.write(data) :]
        except BrokenPipeError:
            self.is_over = True

    def read(self, seconds):
        """Takes what comes within so many seconds, and tells whether anything did."""
        ready, _, _ = select.select([self.process.stdout], [], [], seconds)
        if not ready:
            return False
        piece = os.read(self.process.stdout.fileno(), 1 << 16)
        self.buffer += piece
        self.is_over = self.is_over or not piece
        return bool(piece)

    def frames(self):
        """The frames that have come."""
        while found := split_frame(self.buffer):
            frame, self.buffer = found
            yield frame

    def drain(self):
        """All that a killed server wrote before its end."""
        while self.read(PATIENCE):
            pass
        return self.frames()

    def kill(self):
        self.process.kill()

    def close(self):
        """Ends the input, or waits for a server that was killed. Returns its status and what it printed to standard error."""
        self.process.stdin.close()
        printed = self.process.stderr.read()
        status = self.process.wait()
        self.process.stdout.close()
        self.process.stderr.close()
        return status, printed.decode()
