#!/usr/bin/env python3
"""Copies the database file of `persod serve` without its WAL when the server prints `served N`.

    bench/run at_served [--rounds N]

In each round the server answers three requests, one of them an import of 100 KB. As soon as it prints `served 3`, the script copies only the
database file and starts another server on the original. The copy must be intact and have all replies so far. The other server must start and
repeat the replies. Exit status: 1 if a check fails."""
import argparse
import pathlib
import shutil
import tempfile

from events import expect
from served import Server, Stopped, exchange, free_port, imported, parts, request
from small_shop import FIRST, accepted, batch_file, kept, stock

RECORDS, SIZE = 200, 250


def messages_of(place: int) -> list[bytes]:
    return [
        request("office", 3 * place + 1, do="discard", blank=FIRST + place),
        imported("office", 3 * place + 2, f"B{place + 1}", "P1", batch_file(RECORDS, SIZE)),
        request("office", 3 * place + 3, do="withdraw", batch=f"B{place + 1}", record="R1"),
    ]


def one_round(program: str, database: pathlib.Path, copy: pathlib.Path, place: int) -> tuple[list[bytes], str]:
    """Makes the copy, and checks the exit of the server and the start of the next one. Returns the replies of this round, and the output of the
    next server if it didn't start."""
    server = Server(program, database, free_port(), 3)
    messages = messages_of(place)
    replies = [accepted(server.port, message) for message in messages]
    line = server.process.stdout.readline()
    shutil.copyfile(database, copy)
    expect("the last line", line, b"served 3\n")
    try:
        again = Server(program, database, free_port(), 3)
        expect("the repeats", [exchange(again.port, message) for message in messages], replies)
        again.served()
    except Stopped as stop:
        return replies, str(stop)
    expect("the first server's exit", server.wait(), (0, ""))
    return replies, ""


def main() -> None:
    words = argparse.ArgumentParser(description=__doc__, formatter_class=argparse.RawDescriptionHelpFormatter)
    words.add_argument("program")
    words.add_argument("--rounds", type=int, default=5)
    given = words.parse_args()
    with tempfile.TemporaryDirectory() as name:
        folder = pathlib.Path(name)
        database = folder / "shop.db"
        server = Server(given.program, database, free_port(), 3)
        stock(server.port, 100, 1)
        server.served()
        replies = kept(database)
        for place in range(1, given.rounds + 1):
            copy = folder / f"copy{place}.db"
            came, stopped = one_round(given.program, database, copy, place)
            replies += [parts(reply) for reply in came]
            expect(f"the replies of copy {place}", kept(copy), replies)
            expect(f"a start at `served 3` in round {place}", stopped, "")
    print(f"{given.rounds} copies at `served 3`, each intact and with all replies, up to {len(replies)}")


if __name__ == "__main__":
    main()
