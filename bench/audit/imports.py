#!/usr/bin/env python3
"""Imports files of 1 to 70 rows, and compares the rows of `record` and `grouping2` with each file.

    bench/run imports [--seed S]

The names in the files are random, and the comparison uses plain SQL. An import adds sixteen rows in one statement. The files therefore have
every number of rows and of new names modulo sixteen. Exit status: 1 if a row is wrong.
"""
import argparse
import pathlib
import random
import sqlite3
import sys
import tempfile

from served import Server, exchange, free_port, imported, parts, request

MOST_ROWS = 70
HEADER = "record,aid,rank,enc,tol,dgi"
AID = "F00000000101"
# A row: the name of its record, its rank, and its grouping.
Row = tuple[str, int, bytes]


def drawn(draw: random.Random, rows: int) -> list[Row]:
    """Returns rows whose records are in random order. The more rows begin a new record, the fewer rows each record has."""
    new, found, made = draw.choice((0.05, 0.3, 0.7, 0.95, 1)), list[str](), list[Row]()
    for row in range(rows):
        if not found or draw.random() < new:
            found.append(f"R{draw.randrange(1000)}-{row}")
        name = draw.choice(found) if draw.random() > new else found[-1]
        value = draw.randbytes(draw.randrange(1, 20))
        made.append((name, 1 + draw.randrange(3), bytes((1, row, len(value))) + value))
    return made


def text_of(rows: list[Row]) -> bytes:
    lines = [HEADER, *(f"{name},{AID},{rank},0,0,{coded.hex().upper()}" for name, rank, coded in rows)]
    return "".join(f"{line}\n" for line in lines).encode()


def stored(conn: sqlite3.Connection, batch: int) -> tuple[list, list]:
    records = conn.execute("SELECT place, name, state, spoiled, remakes FROM record WHERE batch = ? ORDER BY place", (batch,)).fetchall()
    rows = conn.execute("SELECT line, place, hex(aid), rank, enc, tol, coded FROM grouping2 WHERE batch = ? ORDER BY line", (batch,)).fetchall()
    return records, rows


def wanted(rows: list[Row]) -> tuple[list, list]:
    names = list(dict.fromkeys(name for name, _, _ in rows))
    records = [(place, name, 0, 0, 0) for place, name in enumerate(names)]
    return records, [(line, names.index(name), AID, rank, 0, 0, coded) for line, (name, rank, coded) in enumerate(rows, 2)]


def accepted(port: int, message: bytes) -> None:
    reply = parts(exchange(port, message))
    if not reply or reply[0] != 200:
        sys.exit(f"{message[:200]!r} got the reply {reply}")


def serve(persod: str, database: pathlib.Path, files: list[list[Row]]) -> None:
    server = Server(persod, database, free_port())
    accepted(server.port, request("office", 1, do="product", product="P1", max=255, low=0, check=False))
    for batch, rows in enumerate(files, 1):
        accepted(server.port, imported("office", 1 + batch, f"B{batch}", "P1", text_of(rows)))
    server.kill()


def main() -> None:
    reader = argparse.ArgumentParser()
    reader.add_argument("persod")
    reader.add_argument("--seed", type=int, default=1)
    given = reader.parse_args()
    draw = random.Random(given.seed)
    files = [drawn(draw, count) for count in range(1, MOST_ROWS + 1)]
    with tempfile.TemporaryDirectory() as room:
        database = pathlib.Path(room) / "imports.db"
        serve(given.persod, database, files)
        conn = sqlite3.connect(database)
        for batch, rows in enumerate(files, 1):
            if stored(conn, batch) != wanted(rows):
                sys.exit(f"seed {given.seed}, {len(rows)} rows: the tables have {stored(conn, batch)}, expected {wanted(rows)}")
        conn.close()
    print(f"{MOST_ROWS} files: the tables have the rows and records of each")


main()
