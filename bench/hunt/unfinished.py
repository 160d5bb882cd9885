#!/usr/bin/env python3
"""Kills `persod serve` at each of its writes while it creates a database file. Requires strace.

    bench/run unfinished

After each kill, the SQLite library must either find the copy of the file intact, or refuse it because its first byte, which the server writes last,
is still 0. Another `persod serve` must then create the tables in the file. Exit status: 1 if a check fails, 77 if strace is missing."""
import os
import pathlib
import shutil
import signal
import sqlite3
import subprocess
import sys
import tempfile

from files import is_empty, is_unfinished, is_whole, looked
from served import Server, environment, free_port

MOST_WRITES = 1000
SKIPPED = 77


def is_killed(program: str, database: pathlib.Path, at: int) -> bool:
    """Starts the server, and kills it at write `at`. Returns False if it made fewer writes, and listened."""
    words = program, "serve", "--db", database, "--port", free_port(), "--turns", 1
    inject = f"inject=pwrite64:signal=SIGKILL:when={at}"
    traced = subprocess.Popen(
        ["strace", "-f", "-o", "/dev/null", "-e", "trace=pwrite64", "-e", inject, *map(str, words)], stdin=subprocess.DEVNULL,
        stdout=subprocess.PIPE, stderr=subprocess.DEVNULL, env=environment(""), start_new_session=True,
    )
    assert traced.stdout
    line = traced.stdout.readline()
    if line:
        os.killpg(traced.pid, signal.SIGKILL)
    traced.communicate()
    return not line


def is_refused(database: pathlib.Path) -> bool:
    """Returns True if the SQLite library refuses a copy of the file. Exits if it finds a copy damaged."""
    with tempfile.TemporaryDirectory() as folder:
        copy = pathlib.Path(folder) / "copy.db"
        for end in ("", "-wal"):
            if (path := pathlib.Path(f"{database}{end}")).exists():
                shutil.copyfile(path, f"{copy}{end}")
        link = sqlite3.connect(copy)
        try:
            if not is_whole(link):
                sys.exit(f"{database.name}: the copy is damaged")
            return False
        except sqlite3.DatabaseError as error:
            if str(error) != "file is not a database":
                raise
            return True
        finally:
            link.close()


def main() -> None:
    if not shutil.which("strace"):
        print("strace is missing")
        sys.exit(SKIPPED)
    program = sys.argv[1]
    refused = 0
    with tempfile.TemporaryDirectory() as folder:
        for at in range(1, MOST_WRITES):
            database = pathlib.Path(folder) / f"{at}.db"
            if not is_killed(program, database, at):
                break
            if is_refused(database):
                if not is_unfinished(database):
                    sys.exit(f"killed at write {at}: the first byte is there, but the SQLite library refuses the file")
                refused += 1
            server = Server(program, database, free_port())
            server.kill()
            if looked(database, is_empty):
                sys.exit(f"killed at write {at}: the tables are missing after the next start")
        else:
            sys.exit(f"{MOST_WRITES} writes, and the server doesn't listen")
    print(f"killed at each of {at - 1} writes; the SQLite library refused {refused} of the files, and persod opened all of them")


if __name__ == "__main__":
    main()
