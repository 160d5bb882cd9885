#!/usr/bin/env python3
"""Makes sound files, and files with other tables, and checks which ones are accepted.

    bench/run sound_files

The files are made by plain SQL. The sound files have the tables of each schema version, in several orders, and after VACUUM and .dump. Both
auditor.py and `persod` judge the files. To use only auditor.py, run `python3 bench/audit/sound_files.py` without a program.

An accepted file must keep its contents, in the tables of version 3 afterwards. A refused file must not change. Exit status: 1 if a verdict is
wrong.
"""
import pathlib
import random
import shutil
import sqlite3
import subprocess
import sys
import tempfile
from typing import Callable, Iterator, NamedTuple

from auditor import OTHER_TABLES, TAKEN
from contents import FOR_VERSION, WORKED, WORKED_ROWS, Rows, rows
from judging import Case, judge_all
from schema import INDICES, VERSIONS, Table, other_text_of, tables_of, text_of


class Shape(NamedTuple):
    """How a file is made: its schema version, the order and the form of its tables, whether the numbers of the tables have gaps, its indices, and a
    pragma that runs first. With a WAL, the tables and the rows are two commits in the WAL, as a killed writer leaves them."""

    version: int = 3
    order: str = "document"
    text: Callable[[Table], str] = text_of
    has_gaps: bool = False
    indices: tuple[str, ...] = ()
    pragma: str = "journal_mode = DELETE"
    has_wal: bool = False


def with_wal(version: int, indices: tuple[str, ...] = ()) -> Shape:
    return Shape(version, indices=indices, pragma="journal_mode = WAL", has_wal=True)


def mixed(tables: list[Table]) -> list[Table]:
    return random.Random(7).sample(tables, len(tables))


ORDERS: dict[str, Callable[[list[Table]], list[Table]]] = {
    "document": lambda tables: tables,
    "backward": lambda tables: tables[::-1],
    "mixed": mixed,
    # The order after an upgrade, which makes some tables again after the others.
    "renewed": lambda tables: sorted(tables, key=lambda it: it.name in ("version", "grouping", "grouping2", "mark")),
}
OURS = tuple(f"CREATE INDEX {name} ON {columns}" for name, columns in INDICES.items())
FURTHER = "CREATE INDEX by_serial ON blank (lot, serial)"


def in_version(made: Rows, version: int) -> Rows:
    """Returns the rows in an earlier schema version. Version 1 has no release marks."""
    its = dict(made, version=[(1, version)])
    if version < 3 and "grouping2" in its:
        its["grouping"] = its.pop("grouping2")
    return its if version > 1 else {name: rows for name, rows in its.items() if name != "mark"}


def fill(conn: sqlite3.Connection, made: Rows) -> None:
    for name, its in made.items():
        if its:
            conn.executemany(f"INSERT INTO {name} VALUES ({', '.join('?' * len(its[0]))})", its)


def beside(path: pathlib.Path, end: str) -> pathlib.Path:
    """Returns the path with `end` appended, such as `-wal` for the WAL."""
    return path.with_name(path.name + end)


def copied(path: pathlib.Path, to: pathlib.Path) -> None:
    """Copies a database file, and its WAL or journal if it exists."""
    for end in ("", "-wal", "-journal"):
        if (its := beside(path, end)).exists():
            shutil.copyfile(its, beside(to, end))


def make(path: pathlib.Path, made: Rows, shape: Shape = Shape(), *statements: str) -> None:
    """Makes a file of these rows, and executes the statements. SQLite copies and deletes the WAL when the last connection is closed. If the WAL
    must remain, both files are therefore copied before that."""
    for end in ("", "-wal"):
        beside(path, end).unlink(missing_ok=True)
    written = beside(path, "-open") if shape.has_wal else path
    conn = sqlite3.connect(written, isolation_level=None)
    conn.execute("PRAGMA synchronous = OFF")
    conn.execute("PRAGMA wal_autocheckpoint = 0")
    conn.execute(f"PRAGMA {shape.pragma}")
    conn.execute("BEGIN")
    tables = ORDERS[shape.order](tables_of(shape.version))
    for number, table in enumerate(tables):
        if shape.has_gaps:
            conn.execute(f"CREATE TABLE gap{number} (x INTEGER) STRICT")
        conn.execute(shape.text(table))
    if shape.has_gaps:
        for number in range(len(tables)):
            conn.execute(f"DROP TABLE gap{number}")
    for index in shape.indices:
        conn.execute(index)
    conn.execute("COMMIT")
    conn.execute("BEGIN")
    fill(conn, in_version(made, shape.version))
    conn.execute("COMMIT")
    for statement in statements:
        conn.execute(statement)
    if shape.has_wal:
        copied(written, path)
    conn.close()
    if shape.has_wal:
        written.unlink()


def change(path: pathlib.Path, *statements: str) -> None:
    conn = sqlite3.connect(path, isolation_level=None)
    for statement in statements:
        conn.execute(statement)
    conn.close()


def dumped(path: pathlib.Path, to: pathlib.Path) -> None:
    """Makes a new file from the output of `.dump`."""
    if shell := shutil.which("sqlite3"):
        text = subprocess.run([shell, str(path), ".dump"], check=True, capture_output=True).stdout.decode()
    else:
        conn = sqlite3.connect(path)
        text = "\n".join(conn.iterdump())
        conn.close()
    to.unlink(missing_ok=True)
    conn = sqlite3.connect(to)
    conn.executescript(text)
    conn.close()


# The cases.


def shapes(version: int) -> dict[str, Shape]:
    ours = OURS if version == 3 else ()
    return {
        **{f"in the order {order}": Shape(version, order) for order in ORDERS},
        "with the server's indices": Shape(version, indices=ours),
        "with an additional plain index": Shape(version, indices=(*ours, FURTHER)),
        "with gaps in the numbers of the tables": Shape(version, "mixed", has_gaps=True),
        "with gaps and an additional plain index": Shape(version, "backward", has_gaps=True, indices=(FURTHER,)),
        "in another spelling": Shape(version, text=other_text_of),
        "with a WAL": with_wal(version, ours),
        "in small pages": Shape(version, indices=ours, pragma="page_size = 512"),
        "in large pages": Shape(version, indices=ours, pragma="page_size = 65536"),
    }


OTHERS = {
    "an additional UNIQUE index": "CREATE UNIQUE INDEX one_sw ON word (session, place, sw)",
    "an index with a condition": "CREATE INDEX good ON session (serial) WHERE state = 1",
    "an index over an expression": "CREATE INDEX halves ON session (serial / 2)",
    "a view": "CREATE VIEW cards AS SELECT serial FROM session",
    "a trigger": "CREATE TRIGGER late AFTER INSERT ON word BEGIN DELETE FROM remake; END",
    "an additional column": "ALTER TABLE lot ADD COLUMN note TEXT NOT NULL DEFAULT ''",
    "an additional table": "CREATE TABLE note (id INTEGER NOT NULL PRIMARY KEY) STRICT",
    "statistics": "ANALYZE",
}


def sound_cases(folder: pathlib.Path, name: str, made: Rows, version: int) -> Iterator[Case]:
    for label, shape in shapes(version).items():
        path = folder / f"{name}-{version}-{label}.db".replace(" ", "-")
        make(path, made, shape)
        yield Case(f"{name}, version {version}, {label}", path, TAKEN)
        if shape.has_gaps:
            shutil.copyfile(path, vacuumed := path.with_suffix(".vacuum.db"))
            change(vacuumed, "VACUUM")
            yield Case(f"{name}, version {version}, {label}, after VACUUM", vacuumed, TAKEN)
            dumped(path, again := path.with_suffix(".dump.db"))
            yield Case(f"{name}, version {version}, {label}, after .dump", again, TAKEN)


def other_cases(folder: pathlib.Path, name: str, made: Rows, version: int) -> Iterator[Case]:
    for label, statement in OTHERS.items():
        path = folder / f"{name}-{version}-with-{label}.db".replace(" ", "-")
        make(path, made, Shape(version))
        change(path, statement)
        yield Case(f"{name}, version {version}, with {label}", path, OTHER_TABLES)
    for label, pragma in (("in UTF-16", "encoding = 'UTF-16'"), ("with auto-vacuum", "auto_vacuum = FULL")):
        path = folder / f"{name}-{version}-{label}.db".replace(" ", "-")
        make(path, made, Shape(version, pragma=pragma))
        yield Case(f"{name}, version {version}, {label}", path, OTHER_TABLES)


def cases(folder: pathlib.Path) -> Iterator[Case]:
    assert rows(WORKED) == WORKED_ROWS
    for version in VERSIONS:
        yield from sound_cases(folder, "worked", WORKED_ROWS, version)
        yield from sound_cases(folder, "rich", rows(FOR_VERSION[version]), version)
        yield from other_cases(folder, "worked", WORKED_ROWS, version)
    for name, text in (("no file", None), ("an empty file", b""), ("a file of other bytes", b"no database\n" * 100)):
        path = folder / f"{name}.db".replace(" ", "-")
        if text is not None:
            path.write_bytes(text)
        yield Case(name, path, OTHER_TABLES)
    make(path := folder / "no-tables.db", {}, Shape())
    change(path, *(f"DROP TABLE {table.name}" for table in tables_of(3)[::-1]))
    yield Case("a database without tables", path, OTHER_TABLES)


def main() -> None:
    program = sys.argv[1] if len(sys.argv) > 1 else None
    with tempfile.TemporaryDirectory() as folder:
        is_right = judge_all("sound files", list(cases(pathlib.Path(folder))), program)
    sys.exit(not is_right)


if __name__ == "__main__":
    main()
