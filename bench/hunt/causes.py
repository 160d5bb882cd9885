#!/usr/bin/env python3
"""Checks the event line of `persod serve` and `persod report` for each kind of file that they refuse.

    bench/run causes

Each file is a sound one with one change, or isn't a database of persod. Both commands must exit with status 1, print `refused 81` or `refused
82`, nothing on standard output, and one event line with the cause. The file must be unchanged. Without PERSOD_LOG there must be no event line.
As root, the script tries files without permissions as the user nobody. Missing and empty files are tried only with `report`, because `serve`
accepts them. Exit status: 1 if a check fails."""
import os
import pathlib
import shutil
import sqlite3
import subprocess
import sys
import tempfile
from contextlib import contextmanager
from typing import Callable, Iterator, NamedTuple, Optional

from events import expect, path, run
from opened import open_cards
from served import Server, free_port, request
from small_shop import FIRST, accepted, stock

Change = Callable[[pathlib.Path], None]


class File(NamedTuple):
    """A file that is refused: its name, the change of a sound file, the code, and the text after `cause=`. `of_report` is the cause that `report`
    prints, if it differs."""

    what: str
    change: Change
    code: int
    cause: str
    by_report_alone: bool = False
    as_nobody: bool = False
    of_report: str = ""


def sql(text: str) -> Change:
    def change(database: pathlib.Path) -> None:
        link = sqlite3.connect(database)
        link.execute("PRAGMA foreign_keys = OFF")
        link.executescript(text)
        link.close()

    return change


def no_file(database: pathlib.Path) -> None:
    database.unlink()


def empty(database: pathlib.Path) -> None:
    database.write_bytes(b"")


def no_folder(database: pathlib.Path) -> None:
    shutil.rmtree(database.parent)


def folder(database: pathlib.Path) -> None:
    database.unlink()
    database.mkdir()


def dead_link(database: pathlib.Path) -> None:
    database.unlink()
    database.symlink_to(database.with_name("nothing"))


def further_name(database: pathlib.Path) -> None:
    database.with_name("other.db").hardlink_to(database)


def pipe(database: pathlib.Path) -> None:
    database.unlink()
    os.mkfifo(database)


def text(database: pathlib.Path) -> None:
    database.write_bytes(b"This is a letter, and no database.\n" * 200)


def journal(database: pathlib.Path) -> None:
    """Leaves the journal of an SQLite process that is killed within a transaction."""
    stopped = (
        "import os, sqlite3, sys\n"
        "link = sqlite3.connect(sys.argv[1], isolation_level=None)\n"
        "link.execute('PRAGMA journal_mode = DELETE')\n"
        "link.execute('PRAGMA cache_size = 1')\n"
        "link.execute('BEGIN')\n"
        "link.execute('UPDATE reply SET body = randomblob(50000)')\n"
        "os._exit(0)\n"
    )
    subprocess.run([sys.executable, "-c", stopped, str(database)], check=True)


def broken(database: pathlib.Path) -> None:
    """Overwrites pages after the first."""
    with database.open("r+b") as file:
        file.seek(4096)
        file.write(b"\xa5" * 40_960)


def cut(database: pathlib.Path) -> None:
    os.truncate(database, database.stat().st_size // 2)


def rights(file: int, above: int) -> Change:
    def change(database: pathlib.Path) -> None:
        database.chmod(file)
        database.parent.chmod(above)

    return change


def unchecked(sentence: str) -> Change:
    return sql(f"PRAGMA ignore_check_constraints = ON; {sentence}")


NO_FILES = (
    File("no file", no_file, 81, "no-file", by_report_alone=True),
    File("an empty file", empty, 81, "empty", by_report_alone=True),
    File("no folder", no_folder, 81, "no-folder"),
    File("a folder", folder, 81, "folder"),
    File("a dead link", dead_link, 81, "special-file", of_report="no-file"),
    File("a file with a second hard link", further_name, 81, "special-file"),
    File("a pipe", pipe, 81, "special-file"),
    File("a file without read permission", rights(0o000, 0o777), 81, "no-right", as_nobody=True),
    File("a file without write permission", rights(0o444, 0o777), 81, "no-right", as_nobody=True),
    File("a folder without write permission", rights(0o666, 0o555), 81, "no-right", as_nobody=True),
    File("a text", text, 81, "not-sqlite"),
    File("a journal", journal, 81, "journal"),
    File("broken pages", broken, 81, "corrupt"),
    File("half a file", cut, 81, "corrupt"),
)
OTHER_TABLES = (
    File("a row out of its range", unchecked("UPDATE product SET max = 5"), 81, "invalid-database"),
    File("a missing table", sql("DROP TABLE mark"), 81, 'missing-table table="mark"'),
    File("an additional column", sql("ALTER TABLE lot ADD COLUMN note INTEGER"), 81, 'other-table table="lot"'),
    File("a view with a table's name", sql("DROP TABLE mark; CREATE VIEW mark AS SELECT 1 AS client"), 81, 'other-table table="mark"'),
    File("an additional table", sql("CREATE TABLE note (text TEXT)"), 81, 'foreign-table table="note"'),
    File("a table with quotes in its name", sql('CREATE TABLE "a ""b""" (text TEXT)'), 81, 'foreign-table table="a \\x22b\\x22"'),
    File("an additional key", sql("CREATE UNIQUE INDEX further ON product (max)"), 81, 'further-key table="further"'),
    File("a view", sql("CREATE VIEW good AS SELECT * FROM session WHERE state = 1"), 81, 'view table="good"'),
    File("no version row", sql("DELETE FROM version"), 81, "other-version"),
)
DAMAGED = (
    File("a product's name", sql("UPDATE product SET name = 'P 1'; UPDATE lot SET product = 'P 1'; UPDATE batch SET product = 'P 1'"), 82, "products"),
    File("lots that overlap", sql("INSERT INTO lot VALUES ('L2', 'P1', 1005, 10, 0)"), 82, "lots"),
    File("a batch's name", sql("UPDATE batch SET name = 'B 1'"), 82, "files"),
    File("a session's id", sql("UPDATE session SET id = 9 WHERE id = 3; UPDATE word SET session = 9 WHERE session = 3"), 82, "session-ids"),
    File("another batch file", sql("UPDATE batch SET raw = CAST(replace(CAST(raw AS TEXT), 'R5', 'R6') AS BLOB)"), 82, "files"),
    File("a counter", sql("UPDATE batch SET waiting = waiting + 1"), 82, "files"),
    File("an additional word", sql("INSERT INTO word VALUES (2, 0, 36864)"), 82, "files"),
    File("a word with a gap", sql("UPDATE word SET place = 1"), 82, "words"),
    File("no remake", sql("DELETE FROM remake"), 82, "remakes"),
    File("a machine with two sessions", sql("UPDATE session SET machine = 'm2' WHERE machine = 'm3'"), 82, "machines"),
    File("a lot's counter", sql("UPDATE lot SET discarded = discarded + 1"), 82, "lot-counters"),
    File("a missing blank", sql("DELETE FROM blank WHERE serial = 1000"), 82, "opened-blanks"),
    File("a mark's client", sql("UPDATE mark SET client = 'm 1'"), 82, "marks"),
    File("a reply's status", sql("UPDATE reply SET status = 300 WHERE number = 1 AND client = 'office'"), 82, "replies"),
    File("a released reply", sql("UPDATE mark SET upto = 3"), 82, "released-replies"),
)
FILES = *NO_FILES, *OTHER_TABLES, *DAMAGED


@contextmanager
def changed(base: pathlib.Path, file: File) -> Iterator[pathlib.Path]:
    """Yields a changed copy of the sound file, in a new folder that every user may read and write."""
    with tempfile.TemporaryDirectory() as name:
        above = pathlib.Path(name) / "shop"
        pathlib.Path(name).chmod(0o755)
        above.mkdir()
        above.chmod(0o777)
        database = above / "shop.db"
        shutil.copyfile(base, database)
        database.chmod(0o666)
        file.change(database)
        yield database
        if above.exists():
            above.chmod(0o777)


def bytes_of(database: pathlib.Path) -> Optional[bytes]:
    return database.read_bytes() if database.is_file() else None


def refused(program: str, file: File, database: pathlib.Path, user: Optional[str] = None) -> int:
    """Tries a file with both commands, with and without event lines. Returns the number of runs."""
    before, runs = bytes_of(database), 0
    serve = "serve", "--db", database, "--port", free_port(), "--turns", 1
    for words in [("report", "--db", database, "--batch", "B1"), *([] if file.by_report_alone else [serve])]:
        cause = file.of_report if words[0] == "report" and file.of_report else file.cause
        for level in ("1", ""):
            line = [f"refused code={file.code} cause={cause} db={path(database)}"] if level else []
            expect(f"{file.what}, {words[0]}", run(program, *words, level=level, user=user), (1, [], [*line, f"refused {file.code}"]))
            runs += 1
    if file.what != "an empty file":
        expect(f"{file.what}: its bytes", bytes_of(database), before)
    return runs


# A process that reads a file loses its own locks on it, so another process must hold the file.
HOLDER = (
    "import sqlite3, sys\n"
    "link = sqlite3.connect(sys.argv[1])\n"
    "print(*link.execute('SELECT count(*) FROM reply').fetchone(), flush=True)\n"
    "sys.stdin.read()"
)


@contextmanager
def held(database: pathlib.Path) -> Iterator[None]:
    """Keeps the file open in an idle process that uses the SQLite library."""
    with subprocess.Popen([sys.executable, "-c", HOLDER, str(database)], stdin=subprocess.PIPE, stdout=subprocess.PIPE) as holder:
        assert holder.stdout and holder.stdin
        holder.stdout.readline()
        yield
        holder.stdin.close()


def in_use(program: str, base: pathlib.Path) -> int:
    """Tries a file that a server or an idle process has open. Returns the number of runs."""
    file = File("in use", no_file, 81, "in-use")
    with changed(base, file._replace(change=lambda database: None)) as database:
        server = Server(program, database, free_port())
        runs = refused(program, file, database)
        server.kill()
        with held(database):
            runs += refused(program, file, database)
    return runs


def sound_file(program: str, database: pathlib.Path) -> None:
    """Makes a shop with a discarded blank, running sessions and a spoiled one, a status word, a remade record, and a release mark."""
    server = Server(program, database, free_port(), 13)
    stock(server.port, 10, 5)
    open_cards(server.port, 4)
    accepted(server.port, request("m2", 2, do="answer", session=3, index=0, sw="9000"))
    accepted(server.port, request("m0", 2, do="abort", session=1))
    accepted(server.port, request("office", 4, do="remake", batch="B1", record="R1"))
    accepted(server.port, request("office", 5, do="discard", blank=FIRST + 9))
    accepted(server.port, request("m1", 2, do="release", upto=1))
    accepted(server.port, request("m1", 3, do="reset"))
    server.served()


def main() -> None:
    with tempfile.TemporaryDirectory() as name:
        os.chmod(name, 0o755)
        program, base, runs = pathlib.Path(name) / "persod", pathlib.Path(name) / "sound.db", 0
        shutil.copyfile(sys.argv[1], program)
        program.chmod(0o755)
        sound_file(str(program), base)
        for file in FILES:
            with changed(base, file) as database:
                runs += refused(str(program), file, database, "nobody" if file.as_nobody and os.geteuid() == 0 else None)
        runs += in_use(str(program), base)
    print(f"{len(FILES) + 2} kinds of files, {runs} runs: each event line has the right cause")


if __name__ == "__main__":
    main()
