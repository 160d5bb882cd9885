#!/usr/bin/env python3
"""Counts the instructions of `persod plan` and of a plain Rust program, and measures their times.

    bench/run instructions [FOLDER]

Both programs get the same batch of 200 cards. Requires valgrind, cargo, and Debian's librust-csv-dev. The count is that of valgrind's callgrind,
which is the same in each run. The time is the best of several runs. The profiles are left in FOLDER. Exit status: 1 if the outputs of the
programs differ."""
import pathlib
import re
import subprocess
import sys
import tempfile
import time

from plan import cards

RUNS = 25


def printed(words: list[str], batch: bytes) -> bytes:
    return subprocess.run(words, input=batch, stdout=subprocess.PIPE, check=True).stdout


def instructions(words: list[str], batch: bytes, profile: pathlib.Path) -> int:
    ran = subprocess.run(
        ["valgrind", "--tool=callgrind", f"--callgrind-out-file={profile}", *words],
        input=batch, stdout=subprocess.DEVNULL, stderr=subprocess.PIPE, check=True,
    )
    return int(re.search(rb"Collected : (\d+)", ran.stderr)[1])


def seconds(words: list[str], batch: bytes) -> float:
    best = float("inf")
    for _ in range(RUNS):
        start = time.perf_counter()
        printed(words, batch)
        best = min(best, time.perf_counter() - start)
    return best


def compare(ours: list[str], plain: list[str], room: pathlib.Path) -> int:
    batch = cards(200).text
    if printed(ours, batch) != printed(plain, batch):
        print("the outputs of the two programs differ")
        return 1
    counts = {}
    for name, words in {"persod": ours, "plain": plain}.items():
        counts[name] = instructions(words, batch, room / f"{name}.callgrind"), seconds(words, batch)
        print(f"{name}: {counts[name][0] / 1e6:.1f} million instructions, {counts[name][1] * 1e3:.2f} ms")
    ratios = [counts["persod"][i] / counts["plain"][i] for i in (0, 1)]
    print(f"persod compared with plain, {len(batch)} bytes: {ratios[0]:.2f} times the instructions, {ratios[1]:.2f} times the time")
    return 0


def main() -> int:
    ours, plain = [sys.argv[1], "plan"], [sys.argv[2]]
    with tempfile.TemporaryDirectory() as folder:
        return compare(ours, plain, pathlib.Path(sys.argv[3] if len(sys.argv) > 3 else folder))


if __name__ == "__main__":
    sys.exit(main())
