#!/usr/bin/env python3
"""Measures the time to open, audit, upgrade and close a database file, and that of SQLite's checks.

    bench/run adopt [FOLDER]

Requires Linux. The script runs programs/measure_adopt.txt, which works in three steps:

- open: the toolchain's crate `sqlite` reads each row
- take: the audit, and the upgrade if the schema version is older
- close: the WAL is copied into the file

For comparison, Python's sqlite3 runs `PRAGMA integrity_check` and `PRAGMA foreign_key_check` on the same file.

The files are made by plain SQL in FOLDER, and removed afterwards. Their contents are batches in which all cards are good, or one batch with a
file of the maximum size and no cards. Each file is made in the current schema version, which the program leaves unchanged, and in versions 1 and
2 with the tables in another order, which it upgrades.

The program and sqlite3 take turns. The script prints the median round: processor seconds, which depend least on other work on the machine, and
their ratios. Only the time of the close is wall-clock time. Memory is the peak resident size so far. It and the length of the WAL are read while
the program waits for its next step. At the end the script checks that each file is in version 3 with its original rows. Exit status: 1 if a step
fails or a file is wrong.
"""
import pathlib
import shutil
import sqlite3
import statistics
import subprocess
import sys
import tempfile
import time
from collections import Counter
from typing import Callable, NamedTuple

from batch_files import Product
from contents import Contents, Lot, Reply, Session, rows
from judging import held
from make_batch import coded
from process import high_water
from schema import version_of
from sound_files import OURS, Shape, make

MEASURE = sys.argv[1]
CARDS = 1_024
ROWS = 4_096
MOST_FILE = 16_777_216
MACHINES = 50
GOOD = (0x9000, 0x9000)
ROUNDS = 3
MIB = 1 << 20
HEADER = "record,aid,rank,enc,tol,dgi"
ASK = b'\0{"do":"answer","session":100000,"index":0,"sw":"9000"}'
BODY = b'{"command":"80E28000050101027000","index":1,"result":"command","session":100000}'


# ---- files


class Size(NamedTuple):
    """The number of batches with CARDS cards each, and the number of kept replies for each card."""

    batches: int
    replies: int


SHAPES = {"current tables": Shape(indices=OURS), "version 1, mixed": Shape(1, "mixed"), "version 2, mixed": Shape(2, "mixed")}


def holding(batches: dict[str, bytes], sessions: list[Session], replies: list[Reply]) -> Contents:
    files = {name: ("P1", raw) for name, raw in batches.items()}
    return Contents({"P1": Product(255, 0, 0)}, [Lot("L1", "P1", 0, 1_000_000)], files, sessions, [], Counter(), set(), set(), replies, {})


def all_good(size: Size) -> Contents:
    raw = "\n".join([HEADER, *(f"R{card},F00000000101,1,0,0,0101027000" for card in range(CARDS)), ""]).encode()
    count = size.batches * CARDS
    sessions = [Session(f"m{n % MACHINES}", f"B{n // CARDS}", f"R{n % CARDS}", n, GOOD) for n in range(count)]
    replies = [Reply(f"m{n % MACHINES}", n // MACHINES + 1, ASK, 200, BODY) for n in range(count * size.replies)]
    return holding({f"B{n}": raw for n in range(size.batches)}, sessions, replies)


def long_file() -> Contents:
    """Returns a batch whose file has the maximum size. Empty lines fill it up."""
    groupings = (coded(f"{0x9001 + row % 4:04X}", bytes([row % 256]) * 2_030) for row in range(ROWS))
    lines = [HEADER, *(f"R{row // 4},F00000000101,1,0,0,{grouping}" for row, grouping in enumerate(groupings)), ""]
    return holding({"B0": "\n".join(lines).encode().ljust(MOST_FILE, b"\n")}, [], [])


FILES: dict[str, Callable[[], Contents]] = {
    "100,000 sessions": lambda: all_good(Size(98, 0)),
    "90 MB": lambda: all_good(Size(196, 1)),
    "a batch of 16 MB": long_file,
}


# ---- the program


class Step(NamedTuple):
    """The result of a step: its word, its seconds, its processor seconds, and the peak memory so far."""

    word: str
    seconds: float
    processor: float
    memory: int


class Ours:
    """The program `measure_adopt` on a file. It waits before each step."""

    def __init__(self, database: pathlib.Path) -> None:
        self.program = subprocess.Popen([MEASURE, database], stdin=subprocess.PIPE, stdout=subprocess.PIPE)

    def processor(self) -> float:
        return int(pathlib.Path(f"/proc/{self.program.pid}/schedstat").read_text().split()[0]) / 1e9

    def step(self) -> Step:
        assert self.program.stdin and self.program.stdout
        before = self.processor()
        self.program.stdin.write(b"\n")
        self.program.stdin.flush()
        words = self.program.stdout.readline().decode().split()
        if len(words) != 3:
            sys.exit(f"measure_adopt: {' '.join(words)}")
        return Step(words[0], int(words[2]) / 1e6, self.processor() - before, high_water(self.program.pid))

    def last_step(self) -> str:
        """Runs the last step, and returns its line. The program exits after it, so nothing else can be read of it."""
        assert self.program.stdin and self.program.stdout
        self.program.stdin.write(b"\n")
        self.program.stdin.close()
        line = self.program.stdout.readline().decode()
        if self.program.wait() != 0:
            sys.exit(f"measure_adopt: status {self.program.returncode}")
        return line


class Round(NamedTuple):
    """The measurements of a round: processor seconds of the open, the take and sqlite3's checks, wall-clock seconds of the close, and sizes in
    bytes."""

    opened: float
    taken: float
    closed: float
    theirs: float
    memory_opened: int
    memory_taken: int
    log: int


def ours(database: pathlib.Path) -> tuple[Step, Step, float, int]:
    program = Ours(database)
    opened, taken = program.step(), program.step()
    if (opened.word, taken.word) != ("opened", "taken"):
        sys.exit(f"{database}: {opened.word}, {taken.word}")
    log = database.with_name(database.name + "-wal").stat().st_size
    words = program.last_step().split()
    if words[0] != "closed":
        sys.exit(f"{database}: {words[0]}")
    return opened, taken, int(words[2]) / 1e6, log


# ---- sqlite3


def theirs(database: pathlib.Path) -> float:
    """Returns the processor seconds of sqlite3's own checks of a file."""
    conn = sqlite3.connect(database)
    start = time.process_time()
    if conn.execute("PRAGMA integrity_check").fetchall() != [("ok",)] or conn.execute("PRAGMA foreign_key_check").fetchall():
        sys.exit(f"{database}: sqlite3 reports damage")
    took = time.process_time() - start
    conn.close()
    return took


# ---- rounds


def one_round(database: pathlib.Path) -> Round:
    copy = database.with_suffix(".copy.db")
    shutil.copyfile(database, copy)
    checked = theirs(copy)
    opened, taken, closed, log = ours(copy)
    return Round(opened.processor, taken.processor, closed, checked, opened.memory, taken.memory, log)


def test_taken(database: pathlib.Path) -> None:
    """Checks that the copy of the last round has the contents of the file, in version 3."""
    copy = database.with_suffix(".copy.db")
    conn = sqlite3.connect(copy)
    if version_of(conn) != 3 or held(copy) != held(database):
        sys.exit(f"{copy} has other contents")
    conn.close()
    copy.unlink()


def measure(name: str, database: pathlib.Path, count: int) -> None:
    median = Round(*(statistics.median(column) for column in zip(*(one_round(database) for _ in range(ROUNDS)))))
    test_taken(database)
    size = database.stat().st_size / MIB
    seconds = "".join(f"{it:9.2f}" for it in (median.opened, median.taken, median.closed, median.theirs))
    ratios = "".join(f"{it:9.2f}" for it in (median.opened / median.theirs, median.taken / median.theirs, median.taken / median.opened))
    sizes = "".join(f"{it / MIB:9.0f}" for it in (median.memory_opened, median.memory_taken, median.log))
    print(f"{name:36}{count:9}{size:9.0f}{seconds}{ratios}{sizes}", flush=True)


def main() -> None:
    columns = ("rows", "MiB", "open s", "take s", "close s", "tests s", "open/t", "take/t", "take/open", "open MiB", "take MiB", "log MiB")
    print(f"{'':36}" + "".join(f"{name:>9}" if len(name) < 9 else f" {name}" for name in columns), flush=True)
    with tempfile.TemporaryDirectory(dir=sys.argv[2] if len(sys.argv) > 2 else None) as folder:
        for label, contents in FILES.items():
            made = rows(contents())
            for shape_label, shape in SHAPES.items():
                database = pathlib.Path(folder) / "file.db"
                make(database, made, shape)
                measure(f"{label}, {shape_label}", database, sum(map(len, made.values())))


if __name__ == "__main__":
    main()
