#!/usr/bin/env python3
"""Checks that the event lines of `persod serve` name the file that it serves, and its contents.

    bench/run opened

The line for a new file must be `made`. For a file with replies it must be `opened`, with their number and whether a WAL was read. For a file
without its WAL, and for a mistyped path, it must be `made`, so that an operator notices that no batch is there. Standard output must be the same
as without event lines. Without event lines, standard error must be empty. Exit status: 1 if a check fails."""
import pathlib
import shutil
import sys
import tempfile

from events import expect, lines, path
from served import Server, free_port, request
from small_shop import FIRST, accepted, kept, stock


def started(program: str, database: pathlib.Path, turns: int = 1_000_000) -> Server:
    return Server(program, database, free_port(), turns, events=database.with_suffix(".events"))


def first_line(program: str, database: pathlib.Path) -> str:
    """Returns the first event line of a start on a file, and kills the server."""
    started(program, database).kill()
    events = lines(database.with_suffix(".events"))
    database.with_suffix(".events").unlink()
    return events[0] if events else ""


def open_cards(port: int, count: int) -> None:
    """Opens `count` sessions, each by a different machine."""
    for place in range(count):
        accepted(port, request(f"m{place}", 1, do="open", batch="B1", blank=FIRST + place))


def main() -> None:
    program = sys.argv[1]
    with tempfile.TemporaryDirectory() as name:
        folder = pathlib.Path(name)
        database, alone, mistyped = folder / "shop.db", folder / "alone.db", folder / "shpo.db"
        server = started(program, database)
        stock(server.port, 10, 5)
        open_cards(server.port, 4)
        server.kill()
        events = database.with_suffix(".events")
        expect("a new file", lines(events), [f"made db={path(database)}"])
        events.unlink()
        shutil.copyfile(database, alone)
        expect("a file without its WAL", first_line(program, alone), f"made db={path(alone)}")
        expect("a mistyped path", first_line(program, mistyped), f"made db={path(mistyped)}")
        holds = "batches=1 sessions=4 replies=7"
        server = started(program, database, 1)
        accepted(server.port, request("office", 1, do="product", product="P1", max=255, low=0, check=False))
        server.served()
        expect("after a kill", lines(events), [f"opened db={path(database)} log=taken {holds}", "closed connections=1"])
        events.unlink()
        expect("the replies", len(kept(database)), 7)
        expect("after an exit", first_line(program, database), f"opened db={path(database)} log=none {holds}")
        server = Server(program, database, free_port(), 1)
        accepted(server.port, request("office", 1, do="product", product="P1", max=255, low=0, check=False))
        server.served()
    print("a new file, a file without its WAL, a mistyped path, a file with its WAL, a file after an exit: each event line is right")


if __name__ == "__main__":
    main()
