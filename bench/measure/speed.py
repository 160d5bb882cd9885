#!/usr/bin/env python3
"""Measures the rate and the times of requests to `persod serve`, and compares them with other servers.

    bench/run speed [--folder FOLDER] [--few N] [--many N] [--chunks N] [--cards N ..]

Takes five minutes. 1, 4 and 20 machines (c/machines.c) open and answer whole cards of make_batch.py, with N cards in a batch. Each message has
its own loopback connection, and each commit is synced to the disk of FOLDER. Then the other servers get the same requests. The servers take
turns in chunks of a thousand requests:

    plain    c/yardstick.c, which stores each message in one small transaction with the SQLite
             library
    same     c/same.c, which executes the SQL statements of each request (arrivals.py) with the
             SQLite library
    kit      programs/measure_kit.txt, which executes them with the toolchain's crate `sqlite`.
             No server that uses the crate can be faster

For each server (`ours` is persod) the script prints:

- the median rate of the chunks, and the rate of persod divided by it
- the median and the 99th percentile of all single times, and the processor time of a request
- the median time of an opening, an answer that continues, a last answer, and an import

The files have 1,000 and 100,000 earlier requests. These were served from a disk in memory, and their rate is also printed. At the end the script
checks that `same` and `kit` have the same numbers of rows and the same counters as ours.

The first measurement is the start on a file of 100,352 good cards with a kept reply for each, made by plain SQL. It is compared with `PRAGMA
integrity_check` and `PRAGMA foreign_key_check` of the SQLite library. Peak memory is the peak resident size."""
import argparse
import json
import os
import pathlib
import random
import shutil
import sqlite3
import statistics
import struct
import subprocess
import sys
import tempfile
import time
from typing import Any, NamedTuple

import arrivals
from adopt import SHAPES, Size, all_good
from arrivals import ANSWER, IMPORT, KINDS, LAST, OPENING, Card, Kept
from contents import rows
from make_batch import card
from served import Server, exchange, free_port, imported, parts, post, request
from sound_files import make

MACHINES = 1, 4, 20
STEP = 1_000
LEAST = 10
LOT = 1_000_000
MEMORY = "/dev/shm"
PRODUCT = "P1"
NUMBER = struct.Struct("=Q")


class Asked(NamedTuple):
    """A message of a kind, and the SQL statements for it."""

    kind: str
    message: bytes
    same: bytes


class Chunk(NamedTuple):
    """The requests per second of a chunk, the processor seconds of a request, and the time of each request."""

    rate: float
    processor: float
    times: list[float]


class Yardstick(Server):
    """The plain server in C. It runs until it is killed."""

    def command(self, program: str, database: pathlib.Path) -> list[str]:
        return [program, str(database), str(self.port)]


class Same(Server):
    """A server on the tables of persod that executes the statements in the body of a message. It runs until it is killed."""

    def command(self, program: str, database: pathlib.Path) -> list[str]:
        texts = arrivals.write_texts(database.with_suffix(".texts"))
        return [program, str(database), str(texts), str(self.port)]


class Translator:
    """Translates requests and their replies into SQL statements. The cursor after an answer isn't known here, so a cursor of similar size is
    written."""

    def __init__(self, database: pathlib.Path) -> None:
        link = sqlite3.connect(f"file:{database}?mode=ro", uri=True)
        self.batches = dict(link.execute("SELECT name, id FROM batch"))
        rows = "SELECT session.id, batch, name, place FROM session JOIN batch ON batch.id = batch"
        self.cards = {session: Card(*card) for session, *card in link.execute(rows)}
        link.close()

    def asked(self, message: bytes, body: bytes) -> Asked:
        head, _, sent = message.partition(b"\r\n\r\n")
        _, _, client, number, *tail = head.split(b" ")[1].decode().split("/")
        if tail:
            kept = Kept(client, int(number), f"/{'/'.join(tail)}".encode() + b"\0" + sent, body)
            return self.imports(message, kept, tail[1], sent)
        kept = Kept(client, int(number), b"\0" + sent, body)
        its, reply = json.loads(sent), json.loads(body)
        if its["do"] == "open":
            return self.opens(message, kept, reply)
        return self.answers(message, kept, its, reply)

    def imports(self, message: bytes, kept: Kept, batch: str, raw: bytes) -> Asked:
        self.batches[batch] = number = len(self.batches) + 1
        return Asked(IMPORT, message, arrivals.importing(kept, number, batch, PRODUCT, raw))

    def opens(self, message: bytes, kept: Kept, reply: dict[str, Any]) -> Asked:
        card = Card(self.batches[reply["batch"]], reply["batch"], int(reply["record"][1:]))
        self.cards[reply["session"]] = card
        session, blank = reply["session"], reply["blank"]
        same = arrivals.opening(kept, card, session, blank, f"L{blank // LOT}")
        return Asked(OPENING, message, same)

    def answers(
        self, message: bytes, kept: Kept, its: dict[str, Any], reply: dict[str, Any]
    ) -> Asked:
        kind, made = ANSWER, arrivals.answer
        if reply["result"] != "command":
            kind, made = LAST, arrivals.last_answer
        session, index = its["session"], its["index"]
        cursor = (0, 0, 255 * index, index + 1)
        same = made(kept, self.cards[session], session, PRODUCT, index, cursor)
        return Asked(kind, message, same)


class Machines:
    """The machines, for any server. Each continues with its card from chunk to chunk."""

    def __init__(self, program: str, cards: int) -> None:
        self.process = subprocess.Popen([program, str(cards)], stdin=subprocess.PIPE, stdout=subprocess.PIPE)

    def cards(self, server: Server, machines: int, count: int) -> tuple[Chunk, list[list[tuple[bytes, bytes]]]]:
        """Sends `count` requests from `machines` machines. Returns the chunk, and the requests of each machine with the bodies of their replies."""
        return self.run(server, "cards", machines, count, b"")

    def again(self, server: Server, asked: list[list[bytes]]) -> Chunk:
        """Sends the same requests to another server."""
        sent = [[NUMBER.pack(len(messages)), *(NUMBER.pack(len(one)) + one for one in messages)] for messages in asked]
        return self.run(server, "again", len(asked), sum(map(len, asked)), b"".join(piece for pieces in sent for piece in pieces))[0]

    def run(self, server: Server, what: str, machines: int, count: int, sent: bytes) -> tuple[Chunk, list[list[tuple[bytes, bytes]]]]:
        assert self.process.stdin
        processor = server.processor()
        self.process.stdin.write(f"{what} {server.port} {machines} {count}\n".encode() + sent)
        self.process.stdin.flush()
        took, times, asked = self.number(), [], []
        for _ in range(machines):
            asked.append([self.exchanged(times) for _ in range(self.number())])
        if len(times) != count:
            sys.exit(f"only {len(times)} of {count} requests got a reply")
        return Chunk(count / took * 1e9, (server.processor() - processor) / count, times), asked

    def exchanged(self, times: list[float]) -> tuple[bytes, bytes]:
        """Reads a message and the body of its reply."""
        took, message, reply = self.number(), self.number(), self.number()
        times.append(took / 1e9)
        asked, whole = self.read(message), parts(self.read(reply))
        if whole is None or whole[0] != 200:
            sys.exit(f"{asked!r}: {whole}")
        return asked, whole[1]

    def number(self) -> int:
        return NUMBER.unpack(self.read(NUMBER.size))[0]

    def read(self, size: int) -> bytes:
        assert self.process.stdout
        if len(found := self.process.stdout.read(size)) < size:
            sys.exit("the machines stopped")
        return found


class Shop:
    """A server with its batches, and the machines that make their cards."""

    def __init__(self, server: Server, cards: int, machines: Machines) -> None:
        self.server, self.cards, self.machines, self.draw = server, cards, machines, random.Random(1)
        self.batches, self.number, self.opened, self.size = 0, 1, 0, 0

    def ask(self, message: bytes, times: list[float]) -> bytes:
        whole = parts(timed(self.server.port, message, times))
        if whole is None or whole[0] != 200:
            sys.exit(f"{message[:200]!r}: {whole}")
        self.number += 1
        return whole[1]

    def stock(self) -> None:
        its = {"product": PRODUCT, "max": 255, "low": 0, "check": False}
        self.ask(request("office", self.number, do="product", **its), [])
        for place in range(max(MACHINES)):
            its = {"lot": f"L{place}", "product": PRODUCT, "first": place * LOT, "count": LOT}
            self.ask(request("office", self.number, do="lot", **its), [])

    def ready(self, times: list[float]) -> list[tuple[bytes, bytes]]:
        """Imports batches until there are enough cards for a chunk. Returns each request and its reply."""
        brought = []
        while self.batches * self.cards < self.opened + STEP // LEAST + max(MACHINES):
            brought.append(self.bring(times))
        return brought

    def bring(self, times: list[float]) -> tuple[bytes, bytes]:
        """Imports a batch. Returns the request and the body of its reply."""
        self.batches += 1
        lines = [line for place in range(self.cards) for line in card(self.draw, f"R{place}", 1)]
        raw = "\n".join(["record,aid,rank,enc,tol,dgi", *lines, ""]).encode()
        self.size = len(raw)
        message = imported("office", self.number, f"B{self.batches}", PRODUCT, raw)
        return message, self.ask(message, times)

    def make(self, machines: int) -> tuple[Chunk, list[list[tuple[bytes, bytes]]]]:
        """Makes a chunk of cards."""
        chunk, asked = self.machines.cards(self.server, machines, STEP)
        self.opened += sum(b'"do":"open"' in message for messages in asked for message, _ in messages)
        return chunk, asked


def timed(port: int, message: bytes, times: list[float]) -> bytes:
    begun = time.perf_counter()
    reply = exchange(port, message)
    times.append(time.perf_counter() - begun)
    return reply


class Side:
    """A server, its chunks, and the times of each kind of message."""

    def __init__(self) -> None:
        self.chunks: list[Chunk] = []
        self.kinds: dict[str, list[float]] = {kind: [] for kind in KINDS}

    def add(self, chunk: Chunk, kinds: list[str], imports: list[float]) -> None:
        self.chunks.append(chunk)
        self.kinds[IMPORT] += imports
        for kind, time_ in zip(kinds, chunk.times, strict=True):
            self.kinds[kind].append(time_)

    def columns(self, ours: "Side") -> str:
        rate = statistics.median(chunk.rate for chunk in self.chunks)
        processor = statistics.median(chunk.processor for chunk in self.chunks)
        times = sorted(one for chunk in self.chunks for one in chunk.times)
        part = statistics.median(one.rate / its.rate for one, its in zip(ours.chunks, self.chunks))
        slow = times[len(times) * 99 // 100]
        millis = (statistics.median(times), slow, processor)
        kinds = [statistics.median(its) if its else float("nan") for its in self.kinds.values()]
        columns = "".join(f"{1e3 * it:9.2f}" for it in (*millis, *kinds))
        return f"{rate:9.0f}{part:7.2f}{columns}"


def replayed(
    name: str, server: Server, machines: Machines, brought: list[Asked], asked: list[list[Asked]]
) -> tuple[Chunk, list[float]]:
    """Sends the same requests to another server, imports first. Returns the chunk and the times of the imports."""

    def its(one: Asked) -> bytes:
        return one.message if name == "plain" else post("same", 0, one.same)

    imports: list[float] = []
    for one in brought:
        timed(server.port, its(one), imports)
    return machines.again(server, [[its(one) for one in messages] for messages in asked]), imports


def measure(
    name: str, shop: Shop, others: dict[str, Server], translator: Translator, chunks: int
) -> None:
    for machines in MACHINES:
        sides = {server: Side() for server in ("ours", *others)}
        for _ in range(chunks):
            imports: list[float] = []
            brought = [translator.asked(*one) for one in shop.ready(imports)]
            chunk, exchanged = shop.make(machines)
            asked = [[translator.asked(*one) for one in messages] for messages in exchanged]
            kinds = [one.kind for messages in asked for one in messages]
            sides["ours"].add(chunk, kinds, imports)
            for server, its in others.items():
                chunk, took = replayed(server, its, shop.machines, brought, asked)
                sides[server].add(chunk, kinds, took)
        for server, side in sides.items():
            print(f"{name:>10}{machines:9}{server:>7}{side.columns(sides['ours'])}", flush=True)


def test_alike(database: pathlib.Path, other: pathlib.Path) -> None:
    """Checks that each table has the same number of rows, and each batch the same counters."""
    held = []
    for path in (database, other):
        link = sqlite3.connect(path)
        tables = link.execute("SELECT name FROM sqlite_schema WHERE type = 'table'").fetchall()
        counts = [link.execute(f"SELECT count(*) FROM {name}").fetchone() for (name,) in tables]
        head = "SELECT id, name, waiting, running, failed, good, sessions, spoiled FROM batch"
        held.append((counts, link.execute(head).fetchall()))
        link.close()
    if held[0] != held[1]:
        sys.exit(f"{database} and {other} differ: {held[0]} and {held[1]}")


def moved(folder: pathlib.Path, target: pathlib.Path) -> pathlib.Path:
    """Copies a database file and its WAL from the disk in memory."""
    for end in ("", "-wal"):
        if (path := folder / f"shop.db{end}").exists():
            shutil.copyfile(path, f"{target}{end}")
    return target


def size_of(database: pathlib.Path) -> str:
    sizes = [path.stat().st_size / (1 << 20) for path in (database, pathlib.Path(f"{database}-wal")) if path.exists()]
    return " + ".join(f"{size:.0f}" for size in sizes) + " MiB"


def filled(programs: argparse.Namespace, count: int, cards: int, memory: pathlib.Path) -> Shop:
    """Returns a shop after `count` requests on a disk in memory. Its server has been killed."""
    shop = Shop(Server(programs.program, memory / "shop.db", free_port()), cards, Machines(programs.machines, cards))
    shop.stock()
    rates = []
    for _ in range(0, count, STEP):
        shop.ready([])
        rates.append(shop.make(max(MACHINES))[0].rate)
    ends = f"{rates[0]:.0f} per second for the first {STEP}, {rates[-1]:.0f} for the last"
    peak = f"{shop.batches} batches of {shop.size} bytes; peak {shop.server.peak() >> 20} MiB"
    print(f"{count} requests on a disk in memory: {ends}; {peak}", flush=True)
    shop.server.kill()
    return shop


def over_file(programs: argparse.Namespace, folder: pathlib.Path, count: int, cards: int) -> None:
    with tempfile.TemporaryDirectory(dir=MEMORY) as memory:
        shop = filled(programs, count, cards, pathlib.Path(memory))
        names = ("ours", "same", "kit")
        database, same, kit = (moved(pathlib.Path(memory), folder / f"{it}.db") for it in names)
    translator = Translator(same)
    shop.server = Server(programs.program, database, free_port(), wait=False)
    took = f"{shop.server.listen():.2f} s, peak {shop.server.peak() >> 20} MiB"
    print(f"start on the file of {count} requests, {size_of(database)}: {took}", flush=True)
    others = {
        "plain": Yardstick(programs.yardstick, folder / "plain.db", free_port()),
        "same": Same(programs.same, same, free_port()),
        "kit": Same(programs.kit, kit, free_port()),
    }
    measure(str(count), shop, others, translator, programs.chunks)
    print(f"peak {shop.server.peak() >> 20} MiB, file {size_of(database)}", flush=True)
    for server in (shop.server, *others.values()):
        server.kill()
    for other in (same, kit):
        test_alike(database, other)


def start_on_sessions(program: str, folder: pathlib.Path) -> None:
    database = folder / "sessions.db"
    make(database, rows(all_good(Size(98, 1))), SHAPES["current tables"])
    link = sqlite3.connect(database)
    begun = time.process_time()
    if link.execute("PRAGMA integrity_check").fetchall() != [("ok",)] or link.execute("PRAGMA foreign_key_check").fetchall():
        sys.exit("sqlite3 reports damage")
    tested = time.process_time() - begun
    link.close()
    server = Server(program, database, free_port(), wait=False)
    took = server.listen()
    cost, peak = server.processor(), server.peak() >> 20
    times = f"{took:.2f} s, {cost:.2f} s of processor time, {cost / tested:.1f} times that of sqlite3's checks"
    print(f"start on 100,352 sessions, {size_of(database)}: {times}; peak {peak} MiB", flush=True)
    server.kill()


def main() -> None:
    words = argparse.ArgumentParser(description=__doc__, formatter_class=argparse.RawDescriptionHelpFormatter)
    words.add_argument("program")
    words.add_argument("yardstick")
    words.add_argument("same")
    words.add_argument("kit")
    words.add_argument("machines")
    words.add_argument("--folder")
    words.add_argument("--few", type=int, default=1_000)
    words.add_argument("--many", type=int, default=100_000)
    words.add_argument("--chunks", type=int, default=5)
    words.add_argument("--cards", type=int, nargs="+", default=[200, 20])
    given = words.parse_args()
    print(f"load of the machine {', '.join(f'{load:.1f}' for load in os.getloadavg())}, {os.cpu_count()} processors")
    names = ("p50", "p99", "cpu", *KINDS)
    columns = f"{'requests':>10}{'machines':>9}{'':7}{'per s':>9}{'ours':>7}"
    columns += "".join(f"{name.split()[0]:>9}" for name in names)
    with tempfile.TemporaryDirectory(dir=given.folder) as folder:
        start_on_sessions(given.program, pathlib.Path(folder))
    for cards in given.cards:
        for count in (given.few, given.many):
            print(columns, flush=True)
            with tempfile.TemporaryDirectory(dir=given.folder) as folder:
                over_file(given, pathlib.Path(folder), count, cards)
    print(f"load of the machine {', '.join(f'{load:.1f}' for load in os.getloadavg())}")


if __name__ == "__main__":
    main()
