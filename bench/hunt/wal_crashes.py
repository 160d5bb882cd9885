#!/usr/bin/env python3
"""Simulates a power failure at each write of `persod serve`, and checks that no WAL is called damaged.

    bench/run wal_crashes [--folder FOLDER] [--requests N] [--draws N] [--seed N]

Requires strace. The script traces the writes, length changes and syncs of the database file and the WAL. Meanwhile a server handles requests,
restarts after a kill, and imports 16 MiB, so that there are checkpoints and spills.

After each call the script draws some states that a power failure may leave. Each write since the last sync is lost, complete, or torn at sectors
or bytes, in any order, and the length is any in between. In none of these states may a counted commit follow a break in the WAL. For some of
them, `persod report` must agree.

The script makes the same assumptions about the disk as SQLite: each byte of a torn write is old or new, and synced data isn't lost. Exit status:
1 if a check fails."""
import argparse
import os
import pathlib
import random
import re
import signal
import sys
import tempfile
from typing import Iterator, NamedTuple

from served import Server, free_port, imported, request
from small_shop import FIRST, accepted, stock
from wal import Pair, expect_not_called_damaged, wal_of
from wal_flips import large_batch

CALL = re.compile(r"\d+ +(pwrite64|ftruncate|fdatasync|fsync)\(\d+<([^>]*)>")
REST = re.compile(r"(?:, (\d+))?(?:, (\d+))?\) += (\d+)$")
SECTOR = 512
TRIED = 60


class Call(NamedTuple):
    """A write at an offset, a change of the length, or a sync."""

    file: str
    at: int | None
    data: bytes | None
    length: int | None


def plain(text: str) -> bytes:
    return bytes.fromhex(text.replace("\\x", ""))


def calls_in(trace: pathlib.Path) -> Iterator[Call]:
    with trace.open() as lines:
        for line in lines:
            if begin := CALL.match(line):
                *data, rest = line[begin.end() :].removeprefix(", \"").rsplit('"', 1)
                if end := REST.match(rest):
                    yield call_of(begin[1], plain(begin[2]).decode(), data, [int(number) for number in end.groups() if number])


def call_of(call: str, file: str, data: list[str], numbers: list[int]) -> Call:
    """Returns a call. Its return value is the last number."""
    if call == "pwrite64":
        _, at, count = numbers
        return Call(file, at, plain(data[0])[:count], None)
    return Call(file, None, None, numbers[0] if call == "ftruncate" else None)


class TracedServer(Server):
    """A server under strace, which appends its calls to a file."""

    trace: pathlib.Path

    def command(self, program: str, database: pathlib.Path) -> list[str]:
        return ["strace", "-f", "-qq", "-y", "-xx", "-s", "30000000", "-e", "signal=none", "-e", "trace=pwrite64,ftruncate,fdatasync,fsync", "-A", "-o", str(self.trace),
                *super().command(program, database)]

    def kill(self) -> None:
        children = pathlib.Path(f"/proc/{self.process.pid}/task/{self.process.pid}/children").read_text()
        for child in children.split():
            os.kill(int(child), signal.SIGKILL)
        self.process.communicate()


# ---- states after a power failure


class File:
    """The contents of a file at the last sync, and the calls since."""

    def __init__(self) -> None:
        self.synced, self.seen, self.since = bytearray(), bytearray(), []

    def take(self, call: Call) -> None:
        if call.at is None and call.length is None:
            self.synced, self.since = bytearray(self.seen), []
            return
        self.since.append(call)
        done(self.seen, call)

    def left(self, draw: random.Random, grain: int) -> bytes:
        """Draws the contents after a power failure. Pieces of `grain` bytes are old or new. If `grain` is 0, whole calls are."""
        data = bytearray(self.synced)
        for call in self.since:
            if call.length is not None:
                if draw.random() < 0.5:
                    done(data, call)
            elif grain == 0:
                if draw.random() < 0.5:
                    done(data, call)
            else:
                torn(data, call, draw, grain)
        return bytes(data)


def done(data: bytearray, call: Call) -> None:
    if call.length is not None:
        del data[call.length :]
        data.extend(bytes(call.length - len(data)))
        return
    end = call.at + len(call.data)
    data.extend(bytes(max(0, end - len(data))))
    data[call.at : end] = call.data


def torn(data: bytearray, call: Call, draw: random.Random, grain: int) -> None:
    """Applies parts of a write. The file may end anywhere within the bytes by which it grew."""
    end = call.at + len(call.data)
    if end > len(data):
        end = draw.randint(min(len(data), end), end)
    data.extend(bytes(max(0, end - len(data))))
    chance = draw.choice((0.1, 0.5, 0.9))
    place = call.at
    while place < end:
        stop = min(end, (place // grain + 1) * grain)
        if draw.random() < chance:
            data[place:stop] = call.data[place - call.at : stop - call.at]
        place = stop


# ---- the run


def traced_shop(program: str, database: pathlib.Path, requests: int, raw: bytes) -> None:
    """Sends requests, with a kill and an import that spills in between."""
    server = TracedServer(program, database, free_port())
    stock(server.port, 1000, 20)
    for number in range(1, requests + 1):
        accepted(server.port, request("office", 100 + number, do="discard", blank=FIRST + 500 + number))
        if number == requests // 3:
            server.kill()
            server = TracedServer(program, database, free_port())
        if number == 2 * requests // 3:
            accepted(server.port, imported("office", 90, "L1", "P1", raw))
    server.kill()


def try_all(program: str, folder: pathlib.Path, calls: list[Call], database: pathlib.Path, draws: int, draw: random.Random) -> None:
    files = {str(database): File(), str(wal_of(database)): File()}
    db, wal = files.values()
    calls = [call for call in calls if call.file in files]
    states, tried = 0, 0
    for place, call in enumerate(calls):
        files[call.file].take(call)
        weight = sum(len(one.data or b"") for one in wal.since)
        for number in range(1 if weight > 1_000_000 else draws):
            grain = draw.choice((0, SECTOR, SECTOR, 1)) if weight < 100_000 else draw.choice((0, SECTOR))
            pair = Pair(bytes(db.synced if number % 2 else db.seen), wal.left(draw, grain))
            if pair.lost():
                sys.exit(f"call {place} of {len(calls)}, grain {grain}: {pair.lost()} counted commits after a break")
            states += 1
            if draw.random() < TRIED / (draws * len(calls)):
                expect_not_called_damaged(program, folder / "left.db", f"call {place}", pair)
                tried += 1
    print(f"{len(calls)} calls, {states} states that a power failure may leave, {tried} of them tried; none is called damaged", flush=True)


def main() -> None:
    words = argparse.ArgumentParser(description=__doc__, formatter_class=argparse.RawDescriptionHelpFormatter)
    words.add_argument("program")
    words.add_argument("--folder")
    words.add_argument("--requests", type=int, default=90)
    words.add_argument("--draws", type=int, default=6)
    words.add_argument("--seed", default="1")
    given = words.parse_args()
    draw = random.Random(f"{given.seed}/crashes")
    with tempfile.TemporaryDirectory(dir=given.folder) as name:
        folder = pathlib.Path(name)
        TracedServer.trace = folder / "trace"
        database = folder / "shop.db"
        traced_shop(given.program, database, given.requests, large_batch(draw))
        try_all(given.program, folder, list(calls_in(TracedServer.trace)), database, given.draws, draw)


if __name__ == "__main__":
    main()
