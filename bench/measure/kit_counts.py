#!/usr/bin/env python3
"""Counts the instructions of each SQL statement of arrivals.py, with two SQLite implementations.

    bench/run kit_counts [--cards N]

The implementations are the toolchain's crate `sqlite` and the SQLite library. Requires valgrind,
and takes three minutes. callgrind's counts are nearly the same in each run.

The programs are programs/measure_kit.txt and c/same.c. Each works on a new file with one batch
of N cards, 20 of which are open. A statement runs in transactions of its own, so the count of a
writing statement includes its commit. The count of an empty transaction is subtracted. Records
are added after the bytes of their batch were set, although an import sets the bytes after all
records.

The counts are of one run, in thousands. When a block such as a batch file is copied, callgrind
counts at least one instruction for each byte, so these copies take less time than their count
suggests.
"""
import argparse
import os
import pathlib
import subprocess
import tempfile
from typing import Callable, Union

from adopt import SHAPES, holding
from arrivals import Runner, line
from kit import Floor, make, rows

TIMES = 10
BATCH, SESSION, LOT, PRODUCT = 1, 3, "L1", "P1"
ASK, BODY = b"x" * 60, b"y" * 90
Values = tuple[Union[int, str, bytes], ...]
READS: dict[str, Values] = {
    "mark": ("m1",),
    "kept": ("m1", 77),
    "batch_by_name": ("N1",),
    "batch_product": ("N1",),
    "batch_name": (BATCH,),
    "product": (PRODUCT,),
    "running": ("m1",),
    "lot_at": (900_001,),
    "charged": (5,),
    "waiting": (BATCH,),
    "last_session": (),
    "last_batch": (),
    "session": (SESSION,),
    "first_aid": (BATCH, 3),
    "groupings": (BATCH, 3),
}
# Functions of the number of the run, because each run must add other rows.
WRITES: dict[str, Callable[[int], Values]] = {
    "add_session": lambda n: (1_000 + n, "q", BATCH, 3, 5_000 + n),
    "add_blank": lambda n: (7_000 + n, LOT, 0),
    "set_record": lambda n: (BATCH, 3, 1, n, 0),
    "one_runs": lambda n: (BATCH,),
    "one_is_good": lambda n: (BATCH,),
    "add_word": lambda n: (SESSION, 500 + n, 0x9000),
    "set_session": lambda n: (SESSION, 0, n, 0, 0, 255 * n, n),
    "add_reply": lambda n: ("q", 1 + n, ASK, 200, BODY),
    "add_record": lambda n: (BATCH, 5_000 + n, f"X{n}", 0, 0, 0),
    "add_grouping": lambda n: (BATCH, 90_000 + n, 3, bytes(5), 1, 0, 0, bytes(40)),
}


class Counted(Runner):
    """A program under callgrind."""

    def __init__(self, program: str, folder: pathlib.Path) -> None:
        self.profile, self.dumps = folder / "profile", 0
        script = folder / "counted"
        counting = f"valgrind -q --tool=callgrind --callgrind-out-file={self.profile}"
        script.write_text(f'#!/bin/sh\nexec {counting} {program} "$@"\n')
        script.chmod(0o755)
        super().__init__(str(script), folder / "base.db", folder / "texts")

    def count(self, transactions: list[list[str]]) -> float:
        """Returns the mean number of instructions of these transactions, which run one after the
        other."""
        self.since_last()
        self.run([arrival_of(lines) for lines in transactions])
        return self.since_last() / len(transactions)

    def since_last(self) -> int:
        self.dumps += 1
        words = ["callgrind_control", "--dump", str(self.program.pid)]
        subprocess.run(words, check=True, stdout=subprocess.DEVNULL, stderr=subprocess.DEVNULL)
        dumped = pathlib.Path(f"{self.profile}.{self.dumps}")
        totals = dumped.read_text(errors="replace").rpartition("\ntotals: ")[2]
        dumped.unlink()
        return int(totals.split()[0])


def arrival_of(lines: list[str]) -> bytes:
    return "\n".join([line("begin"), *lines, line("commit")]).encode() + b"\0"


def counts_of(program: str, folder: pathlib.Path, cards: int) -> dict[str, float]:
    make(folder / "base.db", rows(holding({}, [], [])), SHAPES["current tables"])
    floor, runner = Floor(folder / "base.db", cards), Counted(program, folder)
    imports, openings, *_ = floor.round()
    for group in (imports, openings):
        runner.run(group.arrivals)
    runner.count([[]])
    empty = runner.count([[]] * TIMES)
    counts = {}
    for name, values in READS.items():
        runner.count([[line(name, *values)]])
        counts[name] = runner.count([[line(name, *values)]] * TIMES) - empty
    for name, of in WRITES.items():
        runner.count([[line(name, *of(TIMES))]])
        counts[name] = runner.count([[line(name, *of(n))] for n in range(TIMES)]) - empty
    runner.end()
    return counts


def main() -> None:
    shape = argparse.RawDescriptionHelpFormatter
    words = argparse.ArgumentParser(description=__doc__, formatter_class=shape)
    words.add_argument("kit")
    words.add_argument("same")
    words.add_argument("--cards", type=int, default=200)
    given = words.parse_args()
    sides = []
    for program in (given.kit, given.same):
        with tempfile.TemporaryDirectory() as folder:
            sides.append(counts_of(os.path.abspath(program), pathlib.Path(folder), given.cards))
    print(f"{'thousand instructions':24}{'kit':>10}{'C':>10}{'C/kit':>8}")
    for name in sides[0]:
        ours, theirs = (side[name] / 1e3 for side in sides)
        print(f"{name:24}{ours:10.1f}{theirs:10.1f}{theirs / ours:8.2f}")


if __name__ == "__main__":
    main()
