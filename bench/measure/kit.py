#!/usr/bin/env python3
"""Measures the time of the SQL statements of each arrival, with two SQLite implementations.

    bench/run kit [FOLDER] [--rounds N]

Requires Linux, and takes two minutes. The implementations are the toolchain's crate `sqlite` and
the SQLite library. No message is read and nothing is decided, so no server that uses the crate
can be faster. The SQLite library uses WAL and synchronous FULL.

The programs are programs/measure_kit.txt and c/same.c. Each works on a copy of the same file on
the disk of FOLDER, and they take turns. In a round a batch of make_batch.py is imported, 20 of
its cards are opened, and each gets eleven answers and a last one, after which it is good
(arrivals.py). The batches have 200 or 20 cards. The file has no cards at first, or 100,352 good
cards with a kept reply for each.

For each kind of arrival, the script prints the median of all single times and the processor time
of an arrival in milliseconds, and the ratio of the library to the crate. The times are those of
the statements only. The processor time also includes reading the arrival. At the end the script
checks that both files have the same rows.
"""
import argparse
import json
import pathlib
import random
import shutil
import sqlite3
import statistics
import sys
import tempfile
from typing import Any, Iterator, NamedTuple

from adopt import SHAPES, Size, all_good, holding
from arrivals import ANSWER, IMPORT, KINDS, LAST, OPENING, Card, Kept, Runner
from arrivals import answer, importing, last_answer, opening
from contents import Rows, rows
from make_batch import card
from sound_files import make

MADE = 20
ANSWERS = 11
BATCHES = {"200 cards": 200, "20 cards": 20}
FILES = {"no card": lambda: holding({}, [], []), "100,352 cards": lambda: all_good(Size(98, 1))}
FIRST_BLANK = 900_000
SELECT = "00A4040006F00000000101"
COMMAND = "80E2000010" + "9001" * 8


class Group(NamedTuple):
    """Arrivals of one kind."""

    kind: str
    arrivals: list[bytes]


class Floor:
    """Makes the arrivals of each round on a file."""

    def __init__(self, database: pathlib.Path, cards: int) -> None:
        link = sqlite3.connect(database)
        (self.batch,) = link.execute("SELECT count(*) FROM batch").fetchone()
        (self.session,) = link.execute("SELECT count(*) FROM session").fetchone()
        link.close()
        self.draw, self.cards, self.blank, self.size = random.Random(1), cards, FIRST_BLANK, 0

    def round(self) -> Iterator[Group]:
        self.batch += 1
        first, name = self.session + 1, f"N{self.batch}"
        self.session += MADE
        lines = [line for place in range(self.cards) for line in card(self.draw, f"R{place}", 1)]
        raw = "\n".join(["record,aid,rank,enc,tol,dgi", *lines, ""]).encode()
        self.size = len(raw)
        ask = f"/batch/{name}/P1".encode() + b"\0" + raw
        kept = Kept("office", self.batch, ask, reply_body(batch=name))
        yield Group(IMPORT, [importing(kept, self.batch, name, "P1", raw)])
        cards = [(first + place, Card(self.batch, name, place)) for place in range(MADE)]
        yield Group(OPENING, [self.opened(*its) for its in cards])
        yield Group(ANSWER, [went_on(*its, index) for index in range(ANSWERS) for its in cards])
        yield Group(LAST, [ended(*its) for its in cards])

    def opened(self, session: int, its: Card) -> bytes:
        self.blank += 1
        its_own = {"batch": its.name, "blank": self.blank, "record": f"R{its.place}"}
        body = reply_body(command=SELECT, index=0, result="command", session=session, **its_own)
        kept = Kept(f"m{session}", 1, asked(do="open", batch=its.name, blank=self.blank), body)
        return opening(kept, its, session, self.blank, "L1")


def reply_body(**members: Any) -> bytes:
    return json.dumps(members, separators=(",", ":"), sort_keys=True).encode()


def asked(**members: Any) -> bytes:
    return b"\0" + json.dumps(members, separators=(",", ":")).encode()


def went_on(session: int, its: Card, index: int) -> bytes:
    body = reply_body(command=COMMAND, index=index + 1, result="command", session=session)
    ask = asked(do="answer", session=session, index=index, sw="9000")
    kept = Kept(f"m{session}", 2 + index, ask, body)
    return answer(kept, its, session, "P1", index, (0, 0, 255 * index, index + 1))


def ended(session: int, its: Card) -> bytes:
    ask = asked(do="answer", session=session, index=ANSWERS, sw="9000")
    kept = Kept(f"m{session}", 2 + ANSWERS, ask, reply_body(result="good", session=session))
    return last_answer(kept, its, session, "P1", ANSWERS, (1, 0, 0, 0))


class Times:
    """The times of a program by kind of arrival: wall-clock times, and processor times for each
    arrival."""

    def __init__(self, runner: Runner) -> None:
        self.runner = runner
        self.clock: dict[str, list[float]] = {kind: [] for kind in KINDS}
        self.processor: dict[str, list[float]] = {kind: [] for kind in KINDS}

    def run(self, group: Group) -> None:
        before = self.runner.processor()
        self.clock[group.kind] += self.runner.run(group.arrivals)
        self.processor[group.kind].append((self.runner.processor() - before) / len(group.arrivals))


def measure(given: argparse.Namespace, folder: pathlib.Path, made: Rows, cards: int) -> int:
    """Prints the times of each kind, and returns the size of a batch file in bytes."""
    make(base := folder / "base.db", made, SHAPES["current tables"])
    floor, sides = Floor(base, cards), []
    for name, program in (("kit", given.kit), ("same", given.same)):
        shutil.copyfile(base, database := folder / f"{name}.db")
        sides.append(Times(Runner(program, database, folder / "texts")))
    for _ in range(given.rounds):
        for group in floor.round():
            for side in sides:
                side.run(group)
    for kind in KINDS:
        clock = [1e3 * statistics.median(side.clock[kind]) for side in sides]
        spent = [1e3 * statistics.median(side.processor[kind]) for side in sides]
        columns = "".join(f"{one:10.3f}{its:10.3f}{its / one:7.2f}" for one, its in (clock, spent))
        print(f"    {kind:12}{columns}", flush=True)
    for side in sides:
        side.runner.end()
    test_equal(folder / "kit.db", folder / "same.db")
    return floor.size


def test_equal(one: pathlib.Path, other: pathlib.Path) -> None:
    links = [sqlite3.connect(path) for path in (one, other)]
    tables = links[0].execute("SELECT name FROM sqlite_schema WHERE type = 'table'").fetchall()
    for (table,) in tables:
        query = f"SELECT rowid, * FROM {table} ORDER BY rowid"
        pairs = zip(*(link.execute(query) for link in links), strict=True)
        if any(mine != its for mine, its in pairs):
            sys.exit(f"the rows of {table} differ")
    for link in links:
        link.close()


def main() -> None:
    shape = argparse.RawDescriptionHelpFormatter
    words = argparse.ArgumentParser(description=__doc__, formatter_class=shape)
    words.add_argument("kit")
    words.add_argument("same")
    words.add_argument("folder", nargs="?")
    words.add_argument("--rounds", type=int, default=5)
    given = words.parse_args()
    names = ("kit ms", "C ms", "C/kit", "kit cpu", "C cpu", "C/kit")
    print(" " * 16 + "".join(f"{name:>7}" if "/" in name else f"{name:>10}" for name in names))
    for held, contents in FILES.items():
        made = rows(contents())
        for label, cards in BATCHES.items():
            with tempfile.TemporaryDirectory(dir=given.folder) as folder:
                size = measure(given, pathlib.Path(folder), made, cards)
            print(f"{held} before, a batch of {label} in {size} bytes\n", flush=True)


if __name__ == "__main__":
    main()
