"""The program that `./jsblock` starts, run over a script, and what a process has taken: what several benches share."""
import os
import subprocess
import sys
import tempfile

TOP = os.path.dirname(os.path.dirname(os.path.realpath(__file__)))
RUNS = 5


def built():
    """Builds the program, where that of these sources is not there, and returns its file: what starts it is not to be measured."""
    subprocess.run([f"{TOP}/jsblock", "--version"], stdin=subprocess.DEVNULL, stdout=subprocess.DEVNULL, check=True)
    find = 'top=$1; source "$top/tools/kept.sh"; kept_program "$(sources_sum)"'
    return subprocess.run(["bash", "-c", find, "bash", TOP], stdout=subprocess.PIPE, check=True, text=True).stdout.strip()


def processor_seconds(process):
    """The seconds of processor time that a process has taken so far."""
    with open(f"/proc/{process}/stat") as file:
        fields = file.read().rpartition(")")[2].split()
    return (int(fields[11]) + int(fields[12])) / os.sysconf("SC_CLK_TCK")


def run(program, words, script, wanted):
    """Serves the script, and returns the seconds that a processor worked for it."""
    with tempfile.TemporaryFile() as source, tempfile.TemporaryFile() as output:
        source.write(script)
        source.seek(0)
        process = subprocess.Popen([program, *words], stdin=source, stdout=output)
        _, status, used = os.wait4(process.pid, 0)
        process.returncode = os.waitstatus_to_exitcode(status)
        output.seek(0)
        wrote = output.read().partition(b"\n")[2]
    if wrote != wanted or process.returncode != 0:
        sys.exit(f"status {process.returncode}, {wrote.count(b'MSG ')} messages, or other bytes between them")
    return used.ru_utime + used.ru_stime


def least(program, words, script, wanted):
    """The least of several runs."""
    return min(run(program, words, script, wanted) for _ in range(RUNS))
