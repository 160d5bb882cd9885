#!/usr/bin/env python3
"""Fills the disk of `persod serve`, and checks its event lines. Mounts a small tmpfs, so it requires root.

    bench/run full_events [--rounds N]

In each round the disk is filled, and the office imports batches until one gets status 503. Then it repeats the request a few times. Each 503
must have one event line with `fault=full` and the first line of the request, and no other connection may have a line with a fault. When there is
space again, the same request must get status 200, and `recovered` must be the next event line. Exit status: 1 if a line is missing or wrong."""
import argparse
import pathlib
import tempfile

from events import expect, lines, path
from full_disk import Disk
from served import STORAGE, Server, exchange, free_port, get, imported, parts
from small_shop import batch_file, stock

AGAIN = 3


class Office:
    """Sends requests, and keeps the expected event lines."""

    def __init__(self, port: int) -> None:
        self.port, self.number = port, 3
        self.wanted: list[str] = []

    def message(self) -> bytes:
        return imported("office", self.number, f"B{self.number}", "P1", batch_file(50, 100))

    def ask(self) -> bool:
        """Returns whether the request was executed. If the disk was full, its line is expected."""
        reply = exchange(self.port, self.message())
        if reply != STORAGE:
            expect(f"the status of number {self.number}", (parts(reply) or (0,))[0], 200)
            return True
        line = f"POST /c/office/{self.number}/batch/B{self.number}/P1 HTTP/1.1"
        self.wanted.append(f'answered status=503 code=503 name=storage fault=full request="{line}"')
        return False

    def fill(self, disk: Disk) -> None:
        """Imports batches on a full disk until a request gets status 503, and repeats it. Accounts must still be available."""
        disk.fill(0)
        expect("an account", (parts(exchange(self.port, get("/batch/B1"))) or (0,))[0], 200)
        self.number += 1
        while self.ask():
            self.number += 1
        for _ in range(AGAIN):
            expect("a request on a full disk", self.ask(), False)
        disk.free()
        self.wanted.append("recovered")
        expect("with space again", self.ask(), True)


def main() -> None:
    words = argparse.ArgumentParser(description=__doc__, formatter_class=argparse.RawDescriptionHelpFormatter)
    words.add_argument("program")
    words.add_argument("--rounds", type=int, default=5)
    given = words.parse_args()
    with tempfile.TemporaryDirectory() as name, tempfile.TemporaryDirectory() as other:
        disk, events = Disk(pathlib.Path(name)), pathlib.Path(other) / "events"
        database = disk.folder / "shop.db"
        server = Server(given.program, database, free_port(), events=events)
        try:
            stock(server.port, 10, 1)
            office = Office(server.port)
            for _ in range(given.rounds):
                office.fill(disk)
            wanted = [f"made db={path(database)}", *office.wanted]
            expect("the event lines", lines(events, len(wanted)), wanted)
        finally:
            server.kill()
            disk.end()
    print(f"{given.rounds} times full: each of {len(office.wanted) - given.rounds} responses 503 has its line, followed by `recovered`")


if __name__ == "__main__":
    main()
