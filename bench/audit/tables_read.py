#!/usr/bin/env python3
"""Checks with the SQLite library that a database file is intact and has the documented rows.

    bench/run tables_read

Python's sqlite3 reads the file. The program of measure/programs/measure_tables.txt serves the set-up of docs/PROTOCOL.md, a spoiled card, its
remake, a good card, and a remake that is refused. The expected rows are written by hand, from PROTOCOL.md and TABLES.md. Exit status: 1 if the
file or a row is wrong.
"""
import pathlib
import sqlite3
import subprocess
import sys
import tempfile

from served import post

MEASURE = sys.argv[1]
FILE = "record,aid,rank,enc,tol,dgi\nR1,F00000000101,1,0,0,0101027000\n"

# Each exchange: the client, the request number, the end of the path, the body, and the status and the body of the reply.
EXCHANGES = [
    ("office", 1, "", '{"do":"product","product":"P1","max":255,"low":0,"check":false}',
     200, '{"product":"P1","result":"created"}'),
    ("office", 2, "", '{"do":"lot","lot":"L1","product":"P1","first":1000,"count":3}',
     200, '{"lot":"L1","result":"created"}'),
    ("office", 3, "/batch/B1/P1", FILE,
     200, '{"batch":"B1","records":1,"result":"created","rows":1}'),
    ("m1", 1, "", '{"do":"open","batch":"B1","blank":1000}',
     200, '{"batch":"B1","blank":1000,"command":"00A4040006F00000000101","index":0,"record":"R1","result":"command","session":1}'),
    ("m1", 2, "", '{"do":"answer","session":1,"index":0,"sw":"9000"}',
     200, '{"command":"80E28000050101027000","index":1,"result":"command","session":1}'),
    ("m1", 3, "", '{"do":"answer","session":1,"index":1,"sw":"6A80"}',
     200, '{"result":"spoiled","session":1}'),
    ("office", 4, "", '{"do":"remake","batch":"B1","record":"R1"}',
     200, '{"batch":"B1","record":"R1","result":"waiting"}'),
    ("m1", 4, "", '{"do":"open","batch":"B1","blank":1001}',
     200, '{"batch":"B1","blank":1001,"command":"00A4040006F00000000101","index":0,"record":"R1","result":"command","session":2}'),
    ("m1", 5, "", '{"do":"answer","session":2,"index":0,"sw":"9000"}',
     200, '{"command":"80E28000050101027000","index":1,"result":"command","session":2}'),
    ("m1", 6, "", '{"do":"answer","session":2,"index":1,"sw":"9000"}',
     200, '{"result":"good","session":2}'),
    ("office", 5, "", '{"do":"remake","batch":"B1","record":"R1"}',
     409, '{"code":68,"refused":"not-failed"}'),
]

# Each query and its rows. A reply is kept with its request bytes: the end of the path, a byte 00, and the body.
ROWS = {
    "SELECT id, number FROM version": [(1, 3)],
    "SELECT name, max, low, checked FROM product": [("P1", 255, 0, 0)],
    "SELECT name, product, low_serial, amount, discarded FROM lot": [("L1", "P1", 1000, 3, 0)],
    "SELECT id, name, product, raw, closed FROM batch": [(1, "B1", "P1", FILE.encode(), 0)],
    "SELECT waiting, running, failed, withdrawn, good, sessions, spoiled FROM batch": [(0, 0, 0, 0, 1, 2, 1)],
    # state 4 is good
    "SELECT batch, place, name, state, spoiled, remakes FROM record": [(1, 0, "R1", 4, 1, 1)],
    "SELECT batch, line, place, aid, rank, enc, tol, coded FROM grouping2":
        [(1, 2, 0, bytes.fromhex("F00000000101"), 1, 0, 0, bytes.fromhex("0101027000"))],
    # state 2 is spoiled, 1 is good
    "SELECT id, machine, batch, place, serial, state, ended, words FROM session ORDER BY id":
        [(1, "m1", 1, 0, 1000, 2, 0, 2), (2, "m1", 1, 0, 1001, 1, 0, 2)],
    # the command after the words that let the session continue: the piece in block 0 (the next block is stored, 1), and the end
    "SELECT app, segment, at_offset, block FROM session ORDER BY id": [(0, 0, 0, 1), (1, 0, 0, 0)],
    "SELECT session, place, sw FROM word ORDER BY session, place":
        [(1, 0, 0x9000), (1, 1, 0x6A80), (2, 0, 0x9000), (2, 1, 0x9000)],
    # kind 0 is opened
    "SELECT serial, lot, kind FROM blank ORDER BY serial": [(1000, "L1", 0), (1001, "L1", 0)],
    "SELECT batch, place, turn FROM remake": [(1, 0, 1)],
    "SELECT client, number, ask, status, body FROM reply ORDER BY client, number":
        sorted((client, number, f"{tail}\0{body}".encode(), status, reply.encode())
               for client, number, tail, body, status, reply in EXCHANGES),
    "SELECT client, upto FROM mark": [],
    # the account of the batch, and that of the blanks: total, good, spoiled, free
    "SELECT count(*), sum(state = 0), sum(state = 1), sum(state = 2), sum(state = 3), sum(state = 4) FROM record": [(1, 0, 0, 0, 0, 1)],
    "SELECT count(*), sum(state = 0), sum(state = 1), sum(state = 2) FROM session": [(2, 0, 1, 1)],
    "SELECT (SELECT sum(amount) FROM lot) - (SELECT count(*) FROM blank)": [(1,)],
}


def write(database: pathlib.Path) -> None:
    messages = b"\0".join(post(client, number, body, tail) for client, number, tail, body, _, _ in EXCHANGES)
    printed = subprocess.run([MEASURE, str(database)], input=messages + b"\1", capture_output=True, check=True).stdout.decode()
    accepted = sum(status == 200 for *_, status, _ in EXCHANGES)
    wanted = f"served {len(EXCHANGES)} accepted {accepted}"
    if not printed.startswith(wanted):
        sys.exit(f"measure_tables printed {printed.strip()!r}, expected {wanted!r}")


def check(database: pathlib.Path) -> int:
    conn = sqlite3.connect(database)
    wanted = {"PRAGMA integrity_check": [("ok",)], "PRAGMA foreign_key_check": [], **ROWS}
    for query, rows in wanted.items():
        found = conn.execute(query).fetchall()
        if found != rows:
            sys.exit(f"{query}\n  returns  {found}\n  expected {rows}")
    tables = {name for name, in conn.execute("SELECT name FROM sqlite_master WHERE type = 'table'")}
    unread = {name for name in tables if not any(f"FROM {name}" in query for query in ROWS)}
    conn.close()
    if unread:
        sys.exit(f"tables that were not read: {sorted(unread)}")
    return len(tables)


def main() -> None:
    with tempfile.TemporaryDirectory() as name:
        database = pathlib.Path(name) / "served.db"
        write(database)
        tables = check(database)
    print(f"sqlite3 {sqlite3.sqlite_version} finds the file intact, and the documented rows in its {tables} tables")


if __name__ == "__main__":
    main()
