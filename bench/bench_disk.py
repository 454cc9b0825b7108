"""The program of `crates/bench_disk`: what `bench/appends` and `bench/openings` share."""
import os
import subprocess
import sys
import time

TOP = os.path.dirname(os.path.dirname(os.path.realpath(__file__)))
CRATE = f"{TOP}/crates/bench_disk"
PROGRAM = f"{CRATE}/out/bench_disk"
RUNS = 5


def build():
    """Builds the program, if that of these sources is not there."""
    subprocess.run(["rt", "run"], cwd=CRATE, stdin=subprocess.DEVNULL, stdout=subprocess.DEVNULL, stderr=subprocess.DEVNULL)
    if not os.path.exists(PROGRAM):
        sys.exit("the program is not built: see rt run in crates/bench_disk")


def run(words, wanted):
    """Runs the program, and returns the seconds by the clock, those of the processor, and the most memory that it had, in bytes."""
    start = time.monotonic()
    process = subprocess.Popen([PROGRAM, *words], stdout=subprocess.PIPE)
    wrote = process.stdout.read()
    _, status, used = os.wait4(process.pid, 0)
    seconds = time.monotonic() - start
    process.returncode = os.waitstatus_to_exitcode(status)
    if wrote != b"count=%d\n" % wanted or process.returncode != 0:
        sys.exit(f"{' '.join(words)}: status {process.returncode}, {wrote!r} in place of {wanted}")
    return seconds, used.ru_utime + used.ru_stime, 1024 * used.ru_maxrss
