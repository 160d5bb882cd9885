"""Measures runs of a program: the best time of several runs, and the peak resident size. Requires Linux."""
import fcntl
import os
import pathlib
import subprocess
import sys
import time

PIPE = 4096


def is_waiting(child: int) -> bool:
    """Returns whether the process sleeps, as in a write to a full pipe."""
    return pathlib.Path(f"/proc/{child}/stat").read_text().rpartition(")")[2].split()[0] == "S"


def high_water(child: int) -> int:
    for line in pathlib.Path(f"/proc/{child}/status").read_text().splitlines():
        if line.startswith("VmHWM:"):
            return int(line.split()[1]) * 1024
    sys.exit("no VmHWM in /proc: peak memory can't be measured here")


def best_time(words: list[str], path: pathlib.Path, runs: int) -> float:
    best = float("inf")
    for _ in range(runs):
        with path.open("rb") as source:
            start = time.perf_counter()
            subprocess.run(words, stdin=source, stdout=subprocess.DEVNULL, check=True)
            best = min(best, time.perf_counter() - start)
    return best


def peak(words: list[str], path: pathlib.Path, filled: int, taken: int, stream: str = "stdout") -> int:
    """Returns the peak memory of a program at a chosen point of its output. The pipe for its output (`stream`) begins with `filled` bytes. This
    function takes `taken` bytes out of it, waits until the program blocks in a write, and reads the peak."""
    with path.open("rb") as source:
        ours, theirs = os.pipe()
        fcntl.fcntl(ours, fcntl.F_SETPIPE_SZ, PIPE)
        os.write(theirs, bytes(filled))
        child = subprocess.Popen(words, stdin=source, **{"stdout": subprocess.DEVNULL, stream: theirs})
        os.close(theirs)
        while taken > 0 and (some := os.read(ours, taken)):
            taken -= len(some)
        still = 0
        while still < 5:
            time.sleep(0.002)
            still = still + 1 if is_waiting(child.pid) else 0
        highest = high_water(child.pid)
        while os.read(ours, PIPE):
            pass
        os.close(ours)
        child.wait()
    return highest
