"""The program of `crates/bench_program`, run over a script in pieces of stated length: what `bench/decoder` and `bench/path` share."""
import os
import subprocess
import sys

TOP = os.path.dirname(os.path.dirname(os.path.realpath(__file__)))
CRATE = f"{TOP}/crates/bench_program"
PROGRAM = f"{CRATE}/out/bench_program"
PUBLISHES = [50_000, 100_000, 200_000]
PIECES = [1, 65_536]
FIELD = b"Trace: " + 179 * b"t" + b"\r\n"
BLOCK = b"NATS/1.0\r\n" + FIELD + b"\r\n"
PUBLISH = b"HPUB orders.a _I.1 %d %d\r\n" % (len(BLOCK), len(BLOCK) + 100) + BLOCK + 100 * b"x" + b"\r\n"


def build():
    """Builds the program, if that of these sources is not there."""
    subprocess.run(["rt", "run", "--", "decode", "0"], cwd=CRATE, stdin=subprocess.DEVNULL, stdout=subprocess.DEVNULL, check=True)


def run(layer, script, piece, wanted):
    """Measures a layer, `decode` or `path`, over the script in such pieces, and returns the seconds that the program ran in its own code."""
    with open(script, "rb") as source:
        process = subprocess.Popen([PROGRAM, layer, str(piece)], stdin=source, stdout=subprocess.PIPE)
        wrote = process.stdout.read()
        _, status, used = os.wait4(process.pid, 0)
        process.returncode = os.waitstatus_to_exitcode(status)
    if wrote != wanted or process.returncode != 0:
        sys.exit(f"pieces of {piece}: status {process.returncode}, {wrote!r} in place of {wanted!r}")
    return used.ru_utime
