#!/usr/bin/env python3
"""Makes one random change in each of many sound files, and compares auditor.py and `persod`.

    bench/run random_changes [--cases N] [--seed TEXT] [--keep FOLDER]

A change replaces a cell by a near or a far value of its type, deletes a row, duplicates a row under another key, or swaps two cells. SQLite
checks neither constraints nor references meanwhile. A change that has no effect, or that a key forbids, is drawn again.

The files are those of contents.py, with the tables and indices of the server. One in eight has the tables in another order or of an earlier
schema version. If the two verdicts on a file differ, it is kept in FOLDER. Without a program, the script counts the verdicts of auditor.py. Exit
status: 1 if any verdicts differ.
"""
import argparse
import concurrent.futures
import functools
import pathlib
import random
import shutil
import sqlite3
import sys
import tempfile
from collections import Counter
from typing import Any, NamedTuple

from auditor import verdict_on_copy
from contents import FOR_VERSION, WORKED_ROWS, rows
from judging import by_program
from schema import Table, tables_of
from sound_files import OURS, Shape, make

CASES = 20_000
KINDS = {"cell": 60, "row taken away": 12, "row doubled": 14, "cells swapped": 14}
MOST = 2 ** 63 - 1
NUMBERS = (0, 1, 2, 3, 4, 5, 15, 16, 255, 256, 999, 1000, 1_000_000, 1_000_001, 65_535, 65_536, 0x9000, 0x6100, 0x6A88, 0x6A80, 2 ** 31, 2 ** 32,
           10 ** 18 - 1, 10 ** 18, MOST, -1, -MOST - 1, 200, 409, 500)
TEXTS = ("", " ", "P1", "L1", "B1", "R1", "m1", "office", "x" * 32, "x" * 33, "a b", "\u00e9", "P1\0", "p1", "-", "_", "0")
SHAPES = [Shape(indices=OURS)] * 28 + [Shape(order=order) for order in ("backward", "mixed")] + [Shape(2), Shape(1, "renewed")]


class Cell(NamedTuple):
    table: str
    column: str
    kind: str
    rowid: int


@functools.cache
def sound(is_rich: bool, shape: Shape) -> bytes:
    """Returns the bytes of a sound file."""
    with tempfile.TemporaryDirectory() as folder:
        path = pathlib.Path(folder) / "sound.db"
        make(path, rows(FOR_VERSION[shape.version]) if is_rich else WORKED_ROWS, shape)
        return path.read_bytes()


def some_cell(draw: random.Random, conn: sqlite3.Connection, tables: list[Table], kind: str | None = None) -> Cell | None:
    """Returns a random cell. Each column has the same probability."""
    table, (column, its) = draw.choice([(table.name, column) for table in tables for column in table.columns if kind in (None, column[1])])
    rowids = rowids_of(conn, table)
    return Cell(table, column, its, draw.choice(rowids)) if rowids else None


def rowids_of(conn: sqlite3.Connection, table: str) -> list[int]:
    return [rowid for rowid, in conn.execute(f"SELECT rowid FROM {table}")]


def value_of(conn: sqlite3.Connection, cell: Cell) -> Any:
    return conn.execute(f"SELECT {cell.column} FROM {cell.table} WHERE rowid = ?", (cell.rowid,)).fetchone()[0]


def put(conn: sqlite3.Connection, cell: Cell, value: Any) -> None:
    conn.execute(f"UPDATE {cell.table} SET {cell.column} = ? WHERE rowid = ?", (value, cell.rowid))


def another(draw: random.Random, conn: sqlite3.Connection, cell: Cell, value: Any) -> Any:
    """Returns a near value, a far value, or a value of another row in the same column."""
    if draw.random() < 0.25:
        return draw.choice(conn.execute(f"SELECT {cell.column} FROM {cell.table}").fetchall())[0]
    is_near = draw.random() < 0.6
    if cell.kind == "INTEGER":
        far = draw.choice((draw.choice(NUMBERS), draw.randint(-MOST - 1, MOST), draw.randrange(100_000)))
        return max(-MOST - 1, min(MOST, value + draw.choice((1, -1, 1, -1, 2, -2, 16, 256)))) if is_near else far
    if cell.kind == "TEXT":
        near = (value + draw.choice("x1-_ ."), value[:-1], value.swapcase(), value.replace(value[-1:], draw.choice("0123456789")))
        return draw.choice(near if is_near else TEXTS)
    return changed_bytes(draw, value) if is_near else draw.choice((b"", value * 2, value[::-1], draw.randbytes(len(value)), value.lower()))


def changed_bytes(draw: random.Random, value: bytes) -> bytes:
    """Returns `value` with one byte changed, inserted or removed."""
    at = draw.randrange(len(value) + 1)
    kept = at + draw.randrange(2)
    bit = bytes([value[at] ^ 1 << draw.randrange(8)]) if at < len(value) else b""
    return value[:at] + draw.choice((b"", draw.randbytes(1), bit, draw.choice((b"\n", b"\r", b'"', b",", b"0", b"F")))) + value[kept:]


def double(draw: random.Random, conn: sqlite3.Connection, tables: list[Table]) -> None:
    """Duplicates a row, with another value in one column of each key."""
    table = draw.choice(tables)
    columns = [column for column, _ in table.columns]
    found = conn.execute(f"SELECT rowid, * FROM {table.name}").fetchall()
    if not found:
        return
    rowid, *row = draw.choice(found)
    for column in {draw.choice(key) for key in {table.key, *table.indexed}}:
        place = columns.index(column)
        row[place] = another(draw, conn, Cell(table.name, column, table.columns[place][1], rowid), row[place])
    conn.execute(f"INSERT INTO {table.name} VALUES ({', '.join('?' * len(row))})", row)


def swap(draw: random.Random, conn: sqlite3.Connection, tables: list[Table]) -> None:
    """Swaps two cells of the same type, mostly of the same column or row."""
    if (first := some_cell(draw, conn, tables)) is None:
        return
    its = next(table for table in tables if table.name == first.table)
    like = [column for column, kind in its.columns if kind == first.kind]
    second = draw.choice((first._replace(rowid=draw.choice(rowids_of(conn, first.table))), first._replace(column=draw.choice(like)),
                          some_cell(draw, conn, tables, first.kind)))
    if second is None:
        return
    values = value_of(conn, first), value_of(conn, second)
    if (first.table, first.rowid) == (second.table, second.rowid):
        conn.execute(f"UPDATE {first.table} SET {first.column} = ?, {second.column} = ? WHERE rowid = ?", (*values[::-1], first.rowid))
        return
    # The first cell gets a value that no row has in between, so that a key can forbid only the final values. An integer primary key is also the
    # rowid.
    apart = {"INTEGER": -12345, "TEXT": "no row's", "BLOB": b"no row's"}[first.kind]
    put(conn, first, apart)
    put(conn, second, values[0])
    put(conn, first._replace(rowid=apart) if its.key == (first.column,) and first.kind == "INTEGER" else first, values[1])


def change(draw: random.Random, conn: sqlite3.Connection, tables: list[Table]) -> str:
    kind = draw.choices(list(KINDS), list(KINDS.values()))[0]
    if kind == "row doubled":
        double(draw, conn, tables)
    elif kind == "cells swapped":
        swap(draw, conn, tables)
    elif (cell := some_cell(draw, conn, tables)) is not None:
        if kind == "cell":
            put(conn, cell, another(draw, conn, cell, value_of(conn, cell)))
        else:
            conn.execute(f"DELETE FROM {cell.table} WHERE rowid = ?", (cell.rowid,))
    return kind


def make_case(seed: str, number: int, path: pathlib.Path) -> str:
    """Makes the changed file with this number, and returns the kind of the change."""
    draw = random.Random(f"{seed} {number}")
    shape = draw.choice(SHAPES)
    made = sound(draw.random() < 0.9, shape)
    tables = tables_of(shape.version)
    while True:
        path.write_bytes(made)
        conn = sqlite3.connect(path, isolation_level=None)
        try:
            for pragma in ("synchronous = OFF", "ignore_check_constraints = ON"):
                conn.execute(f"PRAGMA {pragma}")
            conn.execute("BEGIN")
            before = [conn.execute(f"SELECT * FROM {table.name}").fetchall() for table in tables]
            kind = change(draw, conn, tables)
            if before != [conn.execute(f"SELECT * FROM {table.name}").fetchall() for table in tables]:
                conn.execute("COMMIT")
                return kind
        except sqlite3.IntegrityError:
            pass
        finally:
            conn.close()


class Result(NamedTuple):
    number: int
    kind: str
    verdict: str
    why: str
    program: str


def judge(seed: str, number: int, program: str | None, keep: str | None) -> Result:
    with tempfile.TemporaryDirectory() as folder:
        path = pathlib.Path(folder) / "changed.db"
        kind = make_case(seed, number, path)
        found = verdict_on_copy(path)
        program_verdict = by_program(program, path) if program else found.result
        if program_verdict != found.result and keep:
            shutil.copyfile(path, pathlib.Path(keep) / f"{number}.db")
    return Result(number, kind, found.result, found.why, program_verdict)


def main() -> None:
    words = argparse.ArgumentParser(description=__doc__, formatter_class=argparse.RawDescriptionHelpFormatter)
    words.add_argument("program", nargs="?", help="persod")
    words.add_argument("--cases", type=int, default=CASES)
    words.add_argument("--seed", default="audit")
    words.add_argument("--keep", help="folder for files with different verdicts")
    its = words.parse_args()
    counts: Counter = Counter()
    differing = 0
    with concurrent.futures.ProcessPoolExecutor() as pool:
        for found in pool.map(judge, [its.seed] * its.cases, range(its.cases), [its.program] * its.cases, [its.keep] * its.cases, chunksize=50):
            counts[found.kind, found.verdict] += 1
            if found.program != found.verdict:
                differing += 1
                print(f"{found.number} ({found.kind}): auditor.py says {found.verdict} {found.why}, the program {found.program}")
    for kind in KINDS:
        print(f"{kind}: {', '.join(f'{counts[kind, verdict]} {verdict}' for verdict in ('taken', '81', '82'))}")
    asked = "" if its.program else "; only auditor.py judged them"
    print(f"random changes, seed {its.seed}: {its.cases} files, {differing} with different verdicts{asked}")
    sys.exit(differing > 0)


if __name__ == "__main__":
    main()
