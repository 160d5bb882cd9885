#!/usr/bin/env python3
"""Counts the instructions of an import, by the number of rows that an INSERT statement adds.

    bench/run rows_at_once [--cards N] [--rows N ..]

Requires valgrind, and takes two minutes. callgrind's counts are nearly the same in each run. The
statements run with the toolchain's crate `sqlite` and with the SQLite library.

The programs are programs/measure_kit.txt and c/same.c. Each imports batches of N cards of
make_batch.py with the statements of arrivals.py. The INSERTs of records and groupings are
changed to add the given numbers of rows, and remaining rows are added one at a time. The script
counts the second import, in thousands, and prints the ratio of each count to that of the first
number of rows.
"""
import argparse
import os
import pathlib
import tempfile

import arrivals
from adopt import SHAPES
from contents import rows
from kit import FILES, Floor
from kit_counts import Counted
from sound_files import make

TABLES = "record", "grouping"


def of_many(text: str, rows: int) -> str:
    """Returns an INSERT of `rows` rows, made from one of a single row."""
    head, values, row = text.partition(" VALUES ")
    return head + values + ", ".join([row] * rows)


def add_at_once(rows: int) -> None:
    """Makes the statements of arrivals.py add `rows` rows at a time."""
    arrivals.AT_ONCE = rows
    for table in TABLES:
        arrivals.TEXTS[f"add_{table}s"] = of_many(arrivals.TEXTS[f"add_{table}"], rows)


def import_of(program: str, cards: int) -> float:
    with tempfile.TemporaryDirectory() as made:
        folder = pathlib.Path(made)
        make(folder / "base.db", rows(FILES["no card"]()), SHAPES["current tables"])
        floor, runner = Floor(folder / "base.db", cards), Counted(os.path.abspath(program), folder)
        first, second = (next(floor.round()).arrivals for _ in range(2))
        runner.run(first)
        runner.since_last()
        runner.run(second)
        count = runner.since_last()
        runner.end()
    return count / 1e3


def main() -> None:
    shape = argparse.RawDescriptionHelpFormatter
    words = argparse.ArgumentParser(description=__doc__, formatter_class=shape)
    words.add_argument("kit")
    words.add_argument("same")
    words.add_argument("--cards", type=int, default=200)
    words.add_argument("--rows", type=int, nargs="+", default=[1, 16, 32, 64, 128])
    given = words.parse_args()
    first: list[float] = []
    print(f"{'rows per INSERT':18}{'kit':>10}{'':>6}{'C':>10}{'':>6}{'C/kit':>8}")
    for number in given.rows:
        add_at_once(number)
        counts = [import_of(program, given.cards) for program in (given.kit, given.same)]
        first = first or counts
        its = "".join(f"{one:10.0f}{one / other:6.2f}" for one, other in zip(counts, first))
        print(f"{number:<18}{its}{counts[1] / counts[0]:8.2f}", flush=True)


if __name__ == "__main__":
    main()
