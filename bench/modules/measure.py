"""How long a program takes from file to file, and in how much memory."""
import os
import shutil
import subprocess
import tempfile
import time

RUNS = 5


def peak_of(command, source, work=None):
    """Peak resident memory in MiB, by time(1), which starts the program with nothing of this one; or not a number."""
    if not shutil.which("time"):
        return float("nan")
    with open(source, "rb") as given, tempfile.NamedTemporaryFile("r", dir=work) as said:
        timed = [shutil.which("time"), "--quiet", "-f", "%M", "-o", said.name, *command]
        subprocess.run(timed, stdin=given, stdout=subprocess.DEVNULL, stderr=subprocess.DEVNULL)
        return int(said.read()) / 1024


def measure(command, source, target):
    """The best of some runs in seconds, peak resident memory in MiB, and the last exit code."""
    best = 1e9
    for _ in range(RUNS):
        with open(source, "rb") as given, open(target, "wb") as out:
            start = time.perf_counter()
            child = subprocess.Popen(command, stdin=given, stdout=out, stderr=subprocess.DEVNULL)
            _, status, _ = os.wait4(child.pid, 0)
            best = min(best, time.perf_counter() - start)
    return best, peak_of(command, source), os.waitstatus_to_exitcode(status)
