"""The official C client of NATS, from Debian's packages, and the servers that it talks to."""
import os
import shutil
import socket
import subprocess
import sys
import time
from pathlib import Path

HERE = Path(__file__).resolve().parent
TOP = HERE.parent
# How long a server may take to listen, and a client to end, in seconds.
STARTING = 60
LONGEST = 360
# The status of a script whose packages cannot be had.
NOT_INSTALLED = 3
CFLAGS = ["-std=c11", "-D_GNU_SOURCE", "-O2", "-Wall", "-Wextra", "-Werror"]


class Failed(Exception):
    """Something is not as it has to be."""


def is_there(package):
    query = subprocess.run(["dpkg-query", "-W", "-f", "${Status}", package], stdout=subprocess.PIPE, stderr=subprocess.DEVNULL, text=True)
    return query.stdout == "install ok installed"


def apt_get(*words):
    root = [] if os.geteuid() == 0 else ["sudo", "-n"]
    command = [*root, "env", "DEBIAN_FRONTEND=noninteractive", "apt-get", "-qq", *words]
    return subprocess.run(command, stdin=subprocess.DEVNULL, stdout=subprocess.DEVNULL, stderr=subprocess.PIPE, text=True)


def not_installed(why):
    print(why, file=sys.stderr)
    sys.exit(NOT_INSTALLED)


def install(*packages):
    """Installs those of these packages of Debian that are not there, with a new list of packages if the one at hand does not do."""
    if not shutil.which("apt-get"):
        not_installed(f"this needs Debian's packages {' '.join(packages)}, and there is no apt-get")
    missing = [package for package in packages if not is_there(package)]
    if not missing:
        return
    wanted = ["install", "--yes", "--no-install-recommends", *missing]
    if apt_get(*wanted).returncode == 0:
        return
    apt_get("update")
    ended = apt_get(*wanted)
    if ended.returncode != 0:
        not_installed(f"{' '.join(missing)} cannot be installed: {ended.stderr.strip()}")


def version_of(package):
    return subprocess.run(["dpkg-query", "-W", "-f", "${Version}", package], stdout=subprocess.PIPE, check=True, text=True).stdout


def build(room):
    """Builds the client in a folder, and returns its file."""
    program = f"{room}/client"
    sources = sorted(str(source) for source in HERE.glob("*.c"))
    subprocess.run(["cc", *CFLAGS, "-o", program, *sources, "-lnats", "-lpthread"], check=True)
    return program


def free_port():
    """A port of this machine that nobody has now."""
    with socket.socket() as probe:
        probe.bind(("127.0.0.1", 0))
        return probe.getsockname()[1]


class Server:
    """A server over TCP, which is started as often as wanted on the same port and folder."""

    def __init__(self, room, command, sign=b"\n"):
        """`command` gives its words for a folder and a port, and `sign` is what it prints to standard error once it listens."""
        self.folder = f"{room}/store"
        self.log = Path(room, "log")
        self.port = free_port()
        self.url = f"nats://127.0.0.1:{self.port}"
        self.words = command(self.folder, self.port)
        self.sign = sign
        self.process = None

    def start(self):
        with open(self.log, "wb") as log:
            self.process = subprocess.Popen(self.words, stdin=subprocess.DEVNULL, stdout=subprocess.DEVNULL, stderr=log)
        end = time.monotonic() + STARTING
        while self.sign not in self.log.read_bytes():
            if self.process.poll() is not None:
                raise Failed(f"the server ended with status {self.process.returncode}: {self.printed()}")
            if time.monotonic() > end:
                raise Failed("the server does not listen")
            time.sleep(0.005)

    def kill(self):
        """Ends it by SIGKILL. That it had ended before is a failure."""
        ended = self.process.poll()
        self.process.kill()
        self.process.wait()
        if ended is not None:
            raise Failed(f"the server ended with status {ended}: {self.printed()}")

    def wait(self, longest):
        """Waits until it ends by itself, and returns its status."""
        try:
            return self.process.wait(longest)
        except subprocess.TimeoutExpired:
            raise Failed("the server does not end") from None

    def memory(self):
        """The bytes of memory that it has resident."""
        for line in Path(f"/proc/{self.process.pid}/status").read_text().splitlines():
            if line.startswith("VmRSS:"):
                return 1024 * int(line.split()[1])
        raise Failed("no line VmRSS")

    def printed(self):
        return self.log.read_text(errors="replace")[-500:].strip()

    def __enter__(self):
        self.start()
        return self

    def __exit__(self, *_):
        self.process.kill()
        self.process.wait()


class Part:
    """The client at work on one part."""

    def __init__(self, program, word, server, *words):
        self.name = word
        self.process = subprocess.Popen(
            [program, word, server.url, *map(str, words)], stdin=subprocess.PIPE, stdout=subprocess.PIPE, stderr=subprocess.PIPE, text=True
        )

    def wait_for(self, line):
        """Waits until it prints this line."""
        got = self.process.stdout.readline().strip()
        if got != line:
            self.end()
            raise Failed(f"{self.name}: {got!r} came in place of {line!r}")

    def end(self):
        """Waits until it has ended, and returns what it printed."""
        try:
            printed, errors = self.process.communicate(timeout=LONGEST)
        except subprocess.TimeoutExpired:
            self.process.kill()
            self.process.communicate()
            raise Failed(f"{self.name}: it does not end") from None
        if self.process.returncode != 0:
            raise Failed(f"{self.name}: {errors.strip() or f'status {self.process.returncode}'}")
        return printed.strip()


def play(program, word, server, *words):
    """Lets the client do one part, and returns what it printed."""
    return Part(program, word, server, *words).end()
