#!/usr/bin/env python3
"""Truncates or deletes the WAL, or moves the database file, while `persod serve` runs.

    bench/run lost_log

The running server can't see the loss: it continues, and responds with status 200. After a kill nothing of its file is left, and the next start
creates a new database. The script checks that the first event line of this start is `made` instead of `opened`, so that an operator can stop it
before a card is made. Exit status: 1 if it is not."""
import os
import pathlib
import sys
import tempfile

from events import expect, lines, path
from served import Server, free_port
from served import request
from small_shop import FIRST, accepted, stock


def cut(database: pathlib.Path) -> None:
    os.truncate(f"{database}-wal", 0)


def delete(database: pathlib.Path) -> None:
    os.remove(f"{database}-wal")


def move(database: pathlib.Path) -> None:
    database.rename(database.with_name("moved.db"))


def lost(program: str, database: pathlib.Path, loses: object) -> None:
    server = Server(program, database, free_port())
    stock(server.port, 10, 5)
    loses(database)
    accepted(server.port, request("m1", 1, do="open", batch="B1", blank=FIRST))
    server.kill()
    events = database.with_suffix(".events")
    Server(program, database, free_port(), events=events).kill()
    expect(f"the first line after {loses.__name__}", lines(events)[:1], [f"made db={path(database)}"])


def main() -> None:
    for loses in (cut, delete, move):
        with tempfile.TemporaryDirectory() as name:
            lost(sys.argv[1], pathlib.Path(name) / "shop.db", loses)
    print("a truncated WAL, a deleted WAL, a moved file: the event line of the next start is `made`")


if __name__ == "__main__":
    main()
