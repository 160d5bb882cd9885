#!/usr/bin/env python3
"""Measures how many arrivals per second are served from a store in memory.

    bench/run load

The script runs programs/measure_lists.txt, and takes about ten minutes.

The load is 10,000 messages, each on its own connection: one product, lots, one batch of 200 cards, and 20 machines that take turns. A machine
opens a card, reports 9000 for each command, and opens the next card. No message is a repeat, so each is decided and its reply kept.

`measure_lists load` serves the messages that it reads. It has no clock. The time of the first and of the last thousand arrivals is therefore the
difference of two runs, with and without them. Most of the time is spent by the store of lists, which reads its batch again for each arrival.

The time to read a message and write its response is measured with messages that never reach the store: a GET whose target has no route, and a
POST whose JSON has one member too many and would otherwise be accepted.
"""
import itertools
import pathlib
import subprocess
import sys
import tempfile
import time

from served import post

LISTS = sys.argv[1]
RUNS = 10
MACHINES = 20
CARDS = 200
ARRIVALS = 10_000
STEP = 1_000
MOST = 16
PIECES = 49
AID = "F00000000101"


def batch() -> str:
    """Returns a batch file. Each card has one segment of PIECES pieces, in groupings of at most 240 bytes: identifier, length and data."""
    lines = ["record,aid,rank,enc,tol,dgi"]
    size = PIECES * MOST
    for card in range(CARDS):
        left = size
        groupings = []
        while left > 0:
            sent = min(left, 240)
            groupings.append(f"90{1 + len(groupings):02X}{sent - 3:02X}" + f"{card:02X}" * (sent - 3))
            left -= sent
        lines += [f"R{card},{AID},1,0,0,{grouping}" for grouping in groupings]
    return "\n".join(lines) + "\n"


def set_up() -> list[bytes]:
    return [
        post("office", 1, f'{{"do":"product","product":"P1","max":{MOST},"low":0,"check":false}}'),
        *(post("office", 2 + lot, f'{{"do":"lot","lot":"L{lot}","product":"P1","first":{lot * 20},"count":20}}') for lot in range(CARDS // 20)),
        post("office", 100, batch(), "/batch/B1/P1"),
    ]


def machine(name: str, sessions: "itertools.count[int]", blanks: "itertools.count[int]"):
    """Yields the messages of a machine in order."""
    numbers = itertools.count(1)
    while True:
        session = next(sessions)
        yield post(name, next(numbers), f'{{"do":"open","batch":"B1","blank":{next(blanks)}}}')
        for index in range(1 + PIECES):
            yield post(name, next(numbers), f'{{"do":"answer","session":{session},"index":{index},"sw":"9000"}}')


def arrivals() -> list[bytes]:
    sessions, blanks = itertools.count(1), itertools.count()
    machines = [machine(f"m{place}", sessions, blanks) for place in range(MACHINES)]
    taken = itertools.cycle(machines)
    return [next(next(taken)) for _ in range(ARRIVALS)]


def time_of(messages: list[bytes], accepted: int, path: pathlib.Path, runs: int) -> float:
    """Returns the best time of several runs. The messages are separated by bytes 0, which don't occur in them."""
    path.write_bytes(b"\0".join(messages))
    best = float("inf")
    for _ in range(runs):
        with path.open("rb") as source:
            start = time.perf_counter()
            printed = subprocess.run([LISTS, "load"], stdin=source, capture_output=True, check=True, text=True).stdout.strip()
            best = min(best, time.perf_counter() - start)
        if printed != f"served {len(messages)} accepted {accepted}":
            sys.exit(f"measure_lists load: {printed}, expected {len(messages)} accepted {accepted}")
    return best


def print_load(path: pathlib.Path) -> None:
    front, load = set_up(), arrivals()
    print(f"\n{ARRIVALS} arrivals of {MACHINES} machines on a batch of {CARDS} cards\n")
    print(f"{'arrivals':>16} {'per second':>12}")
    for count in (STEP, ARRIVALS):
        before, after = (time_of(front + load[:n], len(front) + n, path, 1) for n in (count - STEP, count))
        print(f"{count - STEP:7} to {count:5} {STEP / max(after - before, 0.001):12.0f}", flush=True)


def print_messages(path: pathlib.Path) -> None:
    messages = {
        "GET without a body": b"GET /nothing/here/at/all HTTP/1.1\r\nHost: localhost\r\nUser-Agent: bench\r\nAccept: */*\r\n\r\n",
        "POST of JSON": post("office", 1, '{"do":"product","product":"P1","max":255,"low":0,"check":false,"more":0}'),
    }
    print("\ntime to read and answer a message, in microseconds\n")
    for name, message in messages.items():
        none, all_of_them = (time_of([message] * count, 0, path, RUNS) for count in (1, ARRIVALS))
        print(f"{name:20} {(all_of_them - none) / ARRIVALS * 1e6:8.1f}", flush=True)


def main() -> None:
    with tempfile.TemporaryDirectory() as name:
        path = pathlib.Path(name) / "input"
        print_messages(path)
        print_load(path)


if __name__ == "__main__":
    main()
