#!/usr/bin/env python3
"""Measures the disk space for each card, and the space that the next start of a machine frees.

    bench/run disk [--cards N] [--short]

One machine makes the N cards of a batch. The batch is one of make_batch.py with one application for each card. With --short, each card has
twelve requests and commands of at most 40 bytes.

The size of the file is read after each quarter of the cards, when the server has exited and its WAL is part of the file. Then the machine starts
with its next boot number. Its release frees the space of its kept replies, which is then used again. The script also prints the maximum size of
the WAL."""
import argparse
import contextlib
import pathlib
import random
import sqlite3
import tempfile
import threading
import time

from driver import Machine
from events import expect
from make_batch import card, coded
from served import Server, free_port, imported, request
from small_shop import FIRST, HEADER, accepted

ROUNDS = 4


def batch_file(cards: int, is_short: bool) -> bytes:
    draw = random.Random("disk")
    rows = [HEADER]
    for place in range(cards):
        name = f"CARD-{place}"
        if is_short:
            rows += [f"{name},F00000000101,{rank},0,0,{coded(f'90{rank:02X}', draw.randbytes(32))}" for rank in range(1, 11)]
        else:
            rows += card(draw, name, 1)
    return "".join(f"{row}\n" for row in rows).encode()


class Log(threading.Thread):
    """Records the maximum size of the WAL."""

    def __init__(self, database: pathlib.Path) -> None:
        super().__init__(daemon=True)
        self.path, self.most = pathlib.Path(f"{database}-wal"), 0

    def run(self) -> None:
        while True:
            with contextlib.suppress(FileNotFoundError):
                self.most = max(self.most, self.path.stat().st_size)
            time.sleep(0.02)


class Count(Machine):
    """A machine that also counts the bytes of its commands."""

    commands = 0

    def card(self, command: bytes) -> str:
        self.commands += len(command)
        return super().card(command)


def used(database: pathlib.Path) -> int:
    """Returns the number of bytes in used pages."""
    with sqlite3.connect(database) as link:
        [pages], [free], [size] = (link.execute(f"PRAGMA {name}").fetchone() for name in ("page_count", "freelist_count", "page_size"))
    link.close()
    return (pages - free) * size


def main() -> None:
    words = argparse.ArgumentParser(description=__doc__, formatter_class=argparse.RawDescriptionHelpFormatter)
    words.add_argument("program")
    words.add_argument("--cards", type=int, default=120)
    words.add_argument("--short", action="store_true")
    given = words.parse_args()
    with tempfile.TemporaryDirectory() as name:
        database = pathlib.Path(name) / "shop.db"
        server = Server(given.program, database, free_port(), 2)
        accepted(server.port, request("office", 1, do="product", product="P1", max=255, low=0, check=False))
        accepted(server.port, request("office", 2, do="lot", lot="L1", product="P1", first=FIRST, count=given.cards))
        server.served()
        empty, raw = used(database), batch_file(given.cards, given.short)
        server = Server(given.program, database, free_port(), 1)
        accepted(server.port, imported("office", 3, "B1", "P1", raw))
        server.served()
        before, log = used(database), Log(database)
        log.start()
        machine = Count(0, "m1", 1)
        for place in range(ROUNDS):
            server = Server(given.program, database, free_port())
            machine.port = server.port
            for blank in range(FIRST + place * given.cards // ROUNDS, FIRST + (place + 1) * given.cards // ROUNDS):
                expect(f"blank {blank}", machine.make("B1", blank), True)
            server.kill()
            server = Server(given.program, database, free_port(), 1)
            machine.port = server.port
            machine.ask({"do": "reset"})
            server.served()
        whole = used(database) - before
        server = Server(given.program, database, free_port(), 2)
        again = Machine(server.port, "m1", 2)
        again.start()
        server.served()
        kept = used(database) - before
        print(f"a batch file of {len(raw)} bytes took {before - empty}")
        print(f"{given.cards} cards, {machine.sent} requests, {machine.commands / given.cards:.0f} bytes of commands per card")
        print(f"the file grew by {whole} bytes: {whole / machine.sent:.0f} per request, {whole / given.cards:.0f} per card")
        print(f"after a release {kept} of these bytes are in use: {kept / given.cards:.0f} per card; the WAL had at most {log.most} bytes")


if __name__ == "__main__":
    main()
