"""Steps that a server makes in a state that another script led to: what each of them costs, as several benches measure it."""
import os
import re
import shutil
import subprocess
import sys
import tempfile
import threading

from program import RUNS

WORDS = ["pipe"]
PING, PONG = b"PING\r\n", b"PONG\r\n"
# for how many steps instructions are counted, which takes long
COUNTED = 1_000


def feed(server, script):
    """Writes a script and a PING, while it reads up to the PONG, and returns what came before it."""
    writer = threading.Thread(target=server.stdin.write, args=(script + PING,), daemon=True)
    writer.start()
    wrote = bytearray()
    while not wrote.endswith(PONG) and (part := os.read(server.stdout.fileno(), 1 << 20)):
        wrote += part
    writer.join(timeout=10)
    return bytes(wrote).removesuffix(PONG)


def worked(server):
    """Returns the nanoseconds that a processor worked for the process so far."""
    total = 0
    for task in os.listdir(f"/proc/{server.pid}/task"):
        with open(f"/proc/{server.pid}/task/{task}/schedstat") as used:
            total += int(used.read().split()[0])
    return total


def work(program, before, script, is_right):
    """Serves one script and then another, and returns the nanoseconds that a processor worked for the other one, and what was answered to it."""
    with subprocess.Popen([program, *WORDS], stdin=subprocess.PIPE, stdout=subprocess.PIPE, bufsize=0) as server:
        feed(server, before)
        begun = worked(server)
        wrote = feed(server, script)
        nanoseconds = worked(server) - begun
        server.stdin.close()
        status = server.wait(timeout=60)
    if not is_right(wrote) or status != 0:
        sys.exit(f"status {status}, {wrote.count(b'MSG ')} messages, or other bytes between them")
    return nanoseconds, wrote


def count_instructions(words, source):
    """Returns how many instructions a program takes for its input, as valgrind counts them."""
    valgrind = ["valgrind", "--tool=cachegrind", "--cache-sim=no", "--cachegrind-out-file=/dev/null"]
    run = subprocess.run(valgrind + words, stdin=source, stdout=subprocess.DEVNULL, stderr=subprocess.PIPE, check=True)
    return int(re.search(rb"I\s+refs:\s+([0-9,]+)", run.stderr)[1].replace(b",", b""))


def instructions(program, script):
    """Returns how many instructions the program takes for a script."""
    with tempfile.TemporaryFile() as source:
        source.write(script)
        source.seek(0)
        return count_instructions([program, *WORDS], source)


def factor(costs):
    """The greatest cost by the least."""
    return f"{max(costs) / min(costs):.2f}"


def line(name, cells):
    print(f"{name:>14}" + "".join(f" {cell:>18}" for cell in cells), flush=True)


def table(program, name, counts, columns, most):
    """Prints what a step costs in each state: a line for each count, and a column for each kind of step.

    A column is a function that is given a count and how many steps to make, at most `most`, and returns the script that leads to the state, the
    script of the steps, a test of their output, and by how many the cost is to be divided.
    """
    line(name, [f"ns/{column}" for column in columns])
    rows = []
    for count in counts:
        rows.append([])
        for make in columns.values():
            before, script, is_right, parts = make(count, most)
            rows[-1].append(min(work(program, before, script, is_right)[0] for _ in range(RUNS)) / parts)
        line(f"{count:,}", [f"{cost:,.0f}" for cost in rows[-1]])
    line("factor", [factor(costs) for costs in zip(*rows)])
    if shutil.which("valgrind"):
        for count in (counts[0], counts[-1]):
            line(f"instr., {count:,}", [f"{counted(program, make, count, most):,.0f}" for make in columns.values()])


def counted(program, make, count, most):
    """Returns the instructions of a step."""
    before, script, _, parts = make(count, min(most, COUNTED))
    return (instructions(program, before + script) - instructions(program, before)) / parts
