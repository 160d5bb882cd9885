"""Reads a copy of a server's database file and its WAL with the SQLite library."""
import pathlib
import shutil
import sqlite3
import tempfile
from typing import Any, Callable, TypeVar

TABLES = ("version", "product", "lot", "batch", "record", "grouping2", "session", "word", "blank", "remake", "reply", "mark")
Found = TypeVar("Found")


def is_unfinished(database: pathlib.Path) -> bool:
    """Returns True if a kill interrupted the creation of the file. The server writes its first byte last, and the SQLite library refuses the file
    before that."""
    return database.exists() and database.read_bytes()[:1] == b"\0"


def looked(database: pathlib.Path, look: Callable[[sqlite3.Connection], Found]) -> Found:
    """Returns the result of `look` on a copy. The server holds a lock on the file while it runs. An unfinished file counts as empty."""
    with tempfile.TemporaryDirectory() as folder:
        copy = pathlib.Path(folder) / "copy.db"
        if not is_unfinished(database):
            for end in ("", "-wal"):
                if (path := pathlib.Path(f"{database}{end}")).exists():
                    shutil.copyfile(path, f"{copy}{end}")
        link = sqlite3.connect(copy)
        try:
            return look(link)
        finally:
            link.close()


def is_empty(link: sqlite3.Connection) -> bool:
    return link.execute("SELECT count(*) FROM sqlite_schema").fetchone() == (0,)


def is_whole(link: sqlite3.Connection) -> bool:
    return link.execute("PRAGMA integrity_check").fetchall() == [("ok",)] and link.execute("PRAGMA foreign_key_check").fetchall() == []


def all_rows(link: sqlite3.Connection) -> dict[str, list[Any]]:
    """Returns the rows of each table, sorted."""
    return {table: sorted(link.execute(f"SELECT * FROM {table}").fetchall()) for table in TABLES}
