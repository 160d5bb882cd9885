#!/usr/bin/env python3
"""Restores a backup with the commands of docs/OPERATING.md, and checks what the next start finds.

    bench/run restored

The backup is made after `served N`. Then the server opens four cards, finishes one, and is killed, so a newer WAL is next to the file. The
commands of the page move both away, restore the backup, and list the lost work as requests: the four blanks, and the record of the finished
card. The event line of the next start must match the backup, and the SQLite library must find the file intact. The script also restores the
backup next to the newer WAL, and prints the result. Exit status: 1 if a check fails."""
import os
import pathlib
import shutil
import subprocess
import sys
import tempfile

from commands import DAY, TOP, blocks, commands
from events import expect, lines, path
from opened import open_cards
from served import Server, Stopped, free_port, request
from small_shop import FIRST, accepted, kept, stock


def killed(program: str, folder: pathlib.Path) -> pathlib.Path:
    """Makes a file whose server was killed, and an earlier copy of it at the place that the page gives."""
    database, backup = folder / "shop.db", folder / "backup"
    server = Server(program, database, free_port(), 3)
    stock(server.port, 10, 5)
    server.served()
    backup.mkdir()
    shutil.copyfile(database, backup / f"{DAY}.db")
    server = Server(program, database, free_port())
    open_cards(server.port, 4)
    for index in range(2):
        accepted(server.port, request("m2", 2 + index, do="answer", session=3, index=index, sw="9000"))
    server.kill()
    return database


def restored_by_page(program: str, folder: pathlib.Path) -> list[str]:
    """Returns the outputs of the page's commands."""
    text = (TOP / "docs" / "OPERATING.md").read_text().replace("/srv/persod", str(TOP))
    found = [block for block in blocks(text) if "mkdir old" in block.text() or "lost.sql" in block.text()]
    (folder / "bin").mkdir()
    (folder / "bin" / "persod").symlink_to(os.path.abspath(program))
    environment = {**os.environ, "PATH": f"{folder / 'bin'}:{os.environ['PATH']}"}
    printed = []
    for command in (command for block in found for command in commands(block)):
        ran = subprocess.run(["bash", "-c", command.text], cwd=folder, env=environment, capture_output=True, text=True, timeout=300)
        expect(f"the errors of {command.text}", (ran.returncode, ran.stderr), (0, ""))
        printed.append(ran.stdout)
    return printed


def start(program: str, database: pathlib.Path) -> str:
    """Returns the first event line of a start, or how it ended."""
    events = database.with_suffix(".events")
    try:
        Server(program, database, free_port(), 1, events=events).kill()
    except Stopped as stop:
        return str(stop)
    return "".join(lines(events)[:1])


def main() -> None:
    program = sys.argv[1]
    with tempfile.TemporaryDirectory() as name:
        database = killed(program, pathlib.Path(name))
        *moved, report, listed = restored_by_page(program, pathlib.Path(name))
        expect("the output of the first commands", moved, [""] * 3)
        expect("the report", report.splitlines()[:4], ["batch B1", "product P1", "state open", "record R1 waiting 0 -"])
        lost = [f'{{"do":"discard","blank":{FIRST + place}}}' for place in range(4)]
        lost.append('{"do":"withdraw","batch":"B1","record":"R3"}')
        expect("the output of lost.sql", listed, "")
        expect("the requests", (pathlib.Path(name) / "requests").read_text().splitlines(), lost)
        expect("restored", start(program, database), f"opened db={path(database)} log=none batches=1 sessions=0 replies=3")
        expect("the replies", len(kept(database)), 3)
    with tempfile.TemporaryDirectory() as name:
        database = killed(program, pathlib.Path(name))
        shutil.copyfile(pathlib.Path(name) / "backup" / f"{DAY}.db", database)
        beside = start(program, database)
    print(f"restored with the commands of the page: the contents of the backup; restored next to the newer WAL: {beside}")


if __name__ == "__main__":
    main()
