#!/usr/bin/env python3
"""Tests the script service/serve.sh, which keeps a server running, after each kind of exit and signal.

    bench/run loop

- After its connections the server exits, and the script makes a copy that is complete, checked and
  readable only by its owner. It keeps the last KEEP copies, and reports a copy that fails its check
- After a kill, and when the file is no longer in use, the server listens again
- The script exits with status 82 if the file is missing or damaged, if the WAL is damaged, or if an
  argument or a program is wrong
- If a signal ends the script, the script ends its server
- If nobody reads the output of the script, the server continues

The signals are tried in each shell of this machine. The copy that fails is damaged by a `cp` of this test. A stand-in for `persod` reports the
damaged WAL with the lines of docs/EVENTS.md. Exit status: 1 if a check fails."""
import datetime
import os
import pathlib
import re
import shutil
import signal
import sqlite3
import subprocess
import sys
import tempfile
import time
from typing import Callable, Optional

from commands import TOP
from events import expect
from served import environment, exchange, free_port, get
from small_shop import kept, set_up

SECONDS = 300
SCRIPT = TOP / "service" / "serve.sh"
SHELLS = [words for words in (["sh"], ["bash"], ["busybox", "sh"]) if shutil.which(words[0])]
DAMAGING_CP = """#!/bin/sh
PATH=${PATH#*:}
cp "$@" && printf damage | dd of=backup/new.db bs=1 seek=40 conv=notrunc 2>/dev/null
"""
DAMAGED_WAL = """#!/bin/sh
printf '%s\\n' 'refused code=81 cause=damaged-wal commits=2 db="shop.db"' 'refused 81' >&2
exit 1
"""


class Shop:
    """A folder with an empty database file, and the programs that the script finds in its PATH."""

    def __init__(self, persod: str, shopbook: str, folder: pathlib.Path) -> None:
        self.folder, self.bin, self.temporary = folder, folder / "bin", folder / "tmp"
        self.backup, self.database = folder / "backup", folder / "shop.db"
        for made in (self.bin, self.temporary):
            made.mkdir()
        for name, program in (("persod", persod), ("shopbook", shopbook)):
            (self.bin / name).symlink_to(os.path.abspath(program))
        self.database.touch(0o600)

    def program(self, name: str, text: str) -> None:
        """Puts a script before the program with this name."""
        (self.bin / name).unlink(missing_ok=True)
        (self.bin / name).write_text(text)
        (self.bin / name).chmod(0o755)


class Loop:
    """The script, started in the folder of a shop with a free port."""

    def __init__(self, shop: Shop, turns: int = 3, keep: int = 14, level: str = "", shell: Optional[list[str]] = None, to: object = None) -> None:
        self.shop, self.port, self.printed = shop, free_port(), shop.folder / "printed"
        variables = {"PORT": self.port, "TURNS": turns, "KEEP": keep, "TMPDIR": shop.temporary, "PATH": f"{shop.bin}:{os.environ['PATH']}"}
        self.process = subprocess.Popen(
            [*(shell or ["sh"]), SCRIPT], cwd=shop.folder, env={**environment(level), **{name: str(value) for name, value in variables.items()}},
            stdin=subprocess.DEVNULL, stdout=to or self.printed.open("w"), stderr=subprocess.STDOUT, start_new_session=True, umask=0o022,
            preexec_fn=lambda: signal.signal(signal.SIGINT, signal.SIG_DFL) and None,
        )

    def __enter__(self) -> "Loop":
        return self

    def __exit__(self, *_: object) -> None:
        self.process.terminate()
        try:
            self.process.wait(SECONDS)
        finally:
            for server in self.servers():
                os.kill(server, signal.SIGKILL)

    def lines(self, form: str) -> int:
        return len(re.findall(form, self.printed.read_text(), re.MULTILINE))

    def wait_for(self, form: str, count: int = 1) -> None:
        self.wait_until(lambda: self.lines(form) >= count, f"{form}, {count} times")

    def wait_until(self, holds: Callable[[], bool], what: str) -> None:
        begun = time.monotonic()
        while not holds():
            if time.monotonic() > begun + SECONDS:
                sys.exit(f"still waiting for {what}: {self.printed.read_text()}")
            time.sleep(0.05)

    def servers(self) -> list[int]:
        """Returns the processes of the script's group that are servers."""
        found = []
        for entry in pathlib.Path("/proc").glob("[0-9]*/stat"):
            try:
                stat = entry.read_text()
            except (FileNotFoundError, ProcessLookupError):  # the process has exited since
                continue
            name, _, rest = stat.partition("(")[2].rpartition(")")
            state, _, group, *_ = rest.split()
            if name == "persod" and state != "Z" and int(group) == self.process.pid:
                found.append(int(entry.parent.name))
        return found

    def use_turns(self, turns: int = 3) -> None:
        for _ in range(turns):
            exchange(self.port, get("/blanks/P1"))

    def status(self) -> int:
        return self.process.wait(SECONDS)


def mode(path: pathlib.Path) -> str:
    return oct(path.stat().st_mode & 0o777)


# ---- restarts


def goes_on(shop: Shop) -> None:
    """Checks restarts after the connections, after a kill, and when the file is no longer in use. Event lines are on unless PERSOD_LOG says
    otherwise."""
    with Loop(shop) as loop:
        loop.wait_for("^listening ")
        expect("the event line of the start", loop.lines('^made db="shop.db"$'), 1)
        for message in set_up(5, 1):
            exchange(loop.port, message)
        loop.wait_for("^listening ", 2)
        [copy] = shop.backup.iterdir()
        expect("the copy", (len(kept(copy)), mode(copy), mode(shop.backup)), (3, "0o600", "0o700"))
        [server] = loop.servers()
        os.kill(server, signal.SIGKILL)
        loop.wait_for("^listening ", 3)
        loop.use_turns()
        loop.wait_for("^listening ", 4)
        expect("its messages", loop.lines("^serve.sh: "), 0)
    link = sqlite3.connect(shop.database)
    link.execute("SELECT count(*) FROM reply").fetchone()
    with Loop(shop) as loop:
        loop.wait_for("^refused code=81 cause=in-use ", 2)
        link.close()
        loop.wait_for("^listening ")
        expect("the script still runs", loop.process.poll(), None)


def goes_on_unread(shop: Shop) -> None:
    """Checks that neither the script nor the server ends when the reader of the output has exited."""
    reader, writer = os.pipe()
    with Loop(shop, 3, level="all", to=writer) as loop:
        os.close(writer)
        output = os.fdopen(reader)
        for line in output:
            if line.startswith("listening "):
                break
        output.close()
        loop.use_turns(2)
        [before] = loop.servers()
        loop.use_turns(1)
        loop.wait_until(lambda: loop.servers() not in ([], [before]), "the next server")
        loop.process.terminate()
        expect("its status", loop.status(), 143)


# ---- copies


def makes_copies(shop: Shop) -> None:
    """Checks that the last two copies are kept. A copy that fails its check doesn't get the name of a day, and doesn't change the others."""
    today = f"{datetime.date.today().isoformat()}.db"
    shop.backup.mkdir()
    for day in ("2026-01-30", "2026-01-31", "2026-02-01"):
        shutil.copy(shop.database, shop.backup / f"{day}.db")
    with Loop(shop, keep=2) as loop:
        loop.wait_for("^listening ")
        loop.use_turns()
        loop.wait_for("^listening ", 2)
        expect("two copies", sorted(copy.name for copy in shop.backup.iterdir()), ["2026-02-01.db", today])
    (shop.backup / today).unlink()
    shop.program("cp", DAMAGING_CP)
    with Loop(shop, keep=1) as loop:
        loop.wait_for("^listening ")
        loop.use_turns()
        loop.wait_for("^listening ", 2)
        expect("reports", (loop.lines("^refused 8[12]$"), loop.lines("^serve.sh: the copy failed its check")), (1, 1))
        expect("the copy is set aside", sorted(copy.name for copy in shop.backup.iterdir()), ["2026-02-01.db", "failed.db"])
    shop.program("cp", "#!/bin/sh\nprintf part >backup/new.db\nexit 1\n")
    with Loop(shop, keep=1) as loop:
        loop.wait_for("^listening ")
        loop.use_turns()
        loop.wait_for("^serve.sh: no copy was made")
        loop.wait_for("^listening ", 2)
        expect("a part of a copy is deleted", (shop.backup / "new.db").exists(), False)


# ---- the exit of the script


def gives_up(shop: Shop) -> None:
    """Checks each case that needs an operator: status 82 after at most one start, and no new files."""

    def refused(what: str, line: str, **words: int) -> None:
        with Loop(shop, **words) as loop:
            expect(what, (loop.status(), loop.lines(line)), (82, 1))
            expect(f"{what}: nothing is left", (loop.servers(), list(shop.temporary.iterdir())), ([], []))

    refused("wrong arguments", "^error: ", turns=0)
    refused("no copies", "^serve.sh: KEEP ", keep=0)
    with sqlite3.connect(shop.database) as link:
        link.execute("UPDATE lot SET discarded = discarded + 1")
    link.close()
    refused("a damaged file", "^refused 82$")
    shop.program("persod", DAMAGED_WAL)
    refused("a damaged WAL", "^refused code=81 cause=damaged-wal ")
    shop.database.unlink()
    refused("a missing file", "^serve.sh: shop.db is missing")
    expect("no file was made", shop.database.exists(), False)
    (shop.bin / "shopbook").unlink()
    refused("a missing program", "^serve.sh: shopbook is not in PATH")


def ends_its_server(shop: Shop, shell: list[str]) -> None:
    for number in (signal.SIGTERM, signal.SIGINT, signal.SIGHUP):
        with Loop(shop, shell=shell) as loop:
            loop.wait_for("^listening ")
            expect("one server", len(loop.servers()), 1)
            loop.process.send_signal(number)
            what = f"{' '.join(shell)}, {number.name}"
            expect(what, (loop.status(), loop.servers(), list(shop.temporary.iterdir())), (128 + number, [], []))
    link = sqlite3.connect(shop.database)
    link.execute("SELECT count(*) FROM sqlite_schema").fetchone()
    with Loop(shop, shell=shell) as loop:
        loop.wait_for("^refused 81$")
        loop.process.terminate()
        expect("ended between two starts", loop.status(), 143)
    link.close()


def main() -> None:
    persod, shopbook = sys.argv[1:]

    def trial(run: Callable[..., None], *words: object) -> None:
        with tempfile.TemporaryDirectory() as name:
            run(Shop(persod, shopbook, pathlib.Path(name)), *words)

    def all_on_one(shop: Shop) -> None:
        for run in (goes_on, makes_copies_anew, gives_up):
            run(shop)

    def makes_copies_anew(shop: Shop) -> None:
        shutil.rmtree(shop.backup)
        makes_copies(shop)
        (shop.bin / "cp").unlink()

    trial(all_on_one)
    trial(goes_on_unread)
    for shell in SHELLS:
        trial(ends_its_server, shell)
    print("serve.sh: checks and keeps copies; continues after a kill, after a file in use and without a reader; status 82 in six cases;")
    print(f"ends its server after TERM, INT and HUP, in {', '.join(' '.join(shell) for shell in SHELLS)}")


if __name__ == "__main__":
    main()
