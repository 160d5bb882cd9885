#!/usr/bin/env python3
"""Tests the health check service/health.sh: exit status, output, state file, and database rows.

    bench/run health [--checks N]

Without a server, and with a stand-in that doesn't respond or isn't `persod`, the check must report that the server is down. A request without a
reply must be kept before it is sent, and sent again first. For three days of a simulated clock with N checks each (default 10), the database
file must have one row for each check since the last release. Request numbers must stay usable if the state file is lost, if the clock is set
back, or if both happen. As root, the script also fills the disk. Exit status: 1 if a check fails."""
import argparse
import os
import pathlib
import shutil
import socket
import sqlite3
import subprocess
import tempfile
import threading
from typing import Callable, Iterator, Optional

from commands import TOP
from events import expect
from full_disk import Disk
from served import STORAGE, Server, environment, exchange, fixed_reply, free_port, reply_bytes, request
from small_shop import stock

SCRIPT = TOP / "service" / "health.sh"
SHELLS = [words for words in (["sh"], ["bash"], ["busybox", "sh"]) if shutil.which(words[0])]
DATE = """#!/bin/sh
PATH=${PATH#*:}
exec date -d "@$NOW" "$@"
"""
DAY, MINUTE, NOON = 86_400, 60, 1_800_014_400
RESET, RESET_REPLY = '{"do":"reset"}', '{"result":"reset","session":0}'


class Monitor:
    """The script in its own folder, with a clock that the test sets."""

    def __init__(self, folder: pathlib.Path, port: int, shell: Optional[list[str]] = None) -> None:
        self.folder, self.port, self.shell, self.now = folder, port, shell or ["sh"], NOON
        self.bin, self.state = folder / "bin", folder / "monitor.state"
        self.bin.mkdir()
        (self.bin / "date").write_text(DATE)
        (self.bin / "date").chmod(0o755)

    def run(self, *words: str, path: str = "", **variables: str) -> tuple[int, list[str], list[str]]:
        """Returns the exit status, and the lines of standard output and standard error."""
        clock = {"PORT": str(self.port), "TIMEOUT": "1", "NOW": str(self.now), "PATH": path or f"{self.bin}:{os.environ['PATH']}"}
        shell = shutil.which(self.shell[0]) or ""
        ran = subprocess.run([shell, *self.shell[1:], SCRIPT, *words], cwd=self.folder, env={**environment(""), **clock, **variables},
                             stdin=subprocess.DEVNULL, capture_output=True, text=True, timeout=60)
        return ran.returncode, ran.stdout.splitlines(), ran.stderr.splitlines()

    def is_up(self, line: str, word: str = "write", **variables: str) -> None:
        expect(f"{word} at {self.now}", self.run(word, **variables), (0, [f"up {line}"], []))

    def is_down(self, line: str, word: str = "write") -> None:
        """`line` may be a prefix, because the errors of curl end in times."""
        status, printed, errors = self.run(word)
        expect(f"{word} at {self.now}", (status, [text[: len(line) + 5] for text in printed], errors), (1, [f"down {line}"], []))

    def cannot(self, message: str, *words: str, **variables: str) -> None:
        expect(f"{words} {variables}", self.run(*words, **variables), (2, [], [f"health.sh: {message}"]))

    def kept(self) -> list[str]:
        """Returns the fields of the state file: number, day of the last release, pending request."""
        return self.state.read_text().rstrip("\n").split(" ")

    def resets(self, count: int = 1) -> None:
        for _ in range(count):
            self.now += MINUTE
            self.is_up(f"200 {RESET_REPLY}")

    def releases(self) -> None:
        self.is_up(f'200 {{"mark":{self.now - 1},"result":"released"}}')


class Standin:
    """Listens instead of a server. Sends each client the result of `responds` for its message, or nothing at all for None."""

    def __init__(self, responds: Callable[[bytes], Optional[bytes]]) -> None:
        self.listener, self.responds = socket.create_server(("127.0.0.1", 0)), responds
        self.port = self.listener.getsockname()[1]
        self.silent: list[socket.socket] = []
        threading.Thread(target=self.serve, daemon=True).start()

    def serve(self) -> None:
        while True:
            peer, _ = self.listener.accept()
            message = b""
            while b"\r\n\r\n" not in message or message.startswith(b"POST") and not message.endswith(b"}"):
                message += peer.recv(65536)
            response = self.responds(message)
            if response is None:
                self.silent.append(peer)
            else:
                peer.sendall(response)
                peer.close()


def replies(database: pathlib.Path) -> list[tuple[int, str]]:
    """Returns the number and the request of each kept reply to the monitor, by number. Reads a copy of the files of a killed server."""
    with tempfile.TemporaryDirectory() as folder:
        for file in database.parent.glob(f"{database.name}*"):
            shutil.copy(file, folder)
        link = sqlite3.connect(pathlib.Path(folder) / database.name)
        rows = link.execute("SELECT number, ask FROM reply WHERE client = 'monitor' ORDER BY number").fetchall()
        link.close()
    return [(number, ask.removeprefix(b"\0").decode()) for number, ask in rows]


def release(number: int) -> tuple[int, str]:
    return number, f'{{"do":"release","upto":{number - 1}}}'


# ---- the cases


def starts(program: str, folder: pathlib.Path, shell: list[str]) -> None:
    """Checks without a server first. When a server runs, the pending request is sent, and then a new one."""
    monitor, database = Monitor(folder, free_port(), shell), folder / "shop.db"
    for word in ("read", "write", "write"):
        monitor.is_down("curl: (7) ", word)
    number, wanted = release(NOON)
    expect("the pending request", monitor.kept(), [str(number), "-", wanted])
    expect("the mode of the state file", oct(monitor.state.stat().st_mode & 0o777), "0o600")
    server = Server(program, database, monitor.port)
    monitor.resets(2)
    monitor.is_up("409", "read")
    stock(server.port, 3, 1)
    monitor.is_up("200", "read", PRODUCT="P1")
    server.kill()
    expect("the kept replies", replies(database), [release(NOON), (NOON + MINUTE, RESET), (NOON + 2 * MINUTE, RESET)])
    expect("only the state file is left", sorted(file.name for file in folder.iterdir() if not file.name.startswith("shop.db")), ["bin", "monitor.state"])


def days(program: str, folder: pathlib.Path, checks: int) -> None:
    """Runs the checks of three days. The first request of a day is a release, and the file has the replies since then."""
    monitor, database = Monitor(folder, free_port()), folder / "shop.db"
    step = 3 * DAY // 4 // checks
    for day in range(3):
        server, first = Server(program, database, monitor.port), NOON - DAY // 2 + day * DAY
        monitor.now = first
        monitor.releases()
        for _ in range(checks - 1):
            monitor.now += step
            monitor.is_up(f"200 {RESET_REPLY}")
        server.kill()
        wanted = [release(first), *((first + place * step, RESET) for place in range(1, checks))]
        expect(f"the kept replies of day {day + 1}", replies(database), wanted)


def numbers(program: str, folder: pathlib.Path) -> None:
    """Sets the clock back, deletes the state file, does both, and lets another client use a number."""
    monitor, database = Monitor(folder, free_port()), folder / "shop.db"
    server = Server(program, database, monitor.port)
    monitor.releases()
    monitor.resets(3)
    monitor.now = NOON
    last = NOON + 3 * MINUTE
    for number in range(last + 1, last + 4):
        monitor.is_up(f"200 {RESET_REPLY}")
        expect("the clock was set back", monitor.kept()[0], str(number))
    monitor.now = last + DAY
    monitor.state.unlink()
    monitor.releases()
    monitor.resets()
    mark, monitor.now = last + DAY - 1, NOON
    monitor.state.unlink()
    monitor.is_up(f'200 {{"mark":{mark + 1},"result":"released"}}')
    monitor.now += 2 * DAY
    exchange(server.port, request("monitor", monitor.now, do="discard", blank=1000))
    monitor.is_up(f'200 {{"mark":{monitor.now},"result":"released"}}')
    server.kill()
    expect("the kept replies", replies(database), [release(monitor.now + 1)])


def loses(program: str, folder: pathlib.Path) -> None:
    """Uses a stand-in that loses replies. The state file has each request before it is sent, and its repeat gets the kept reply."""
    server = Server(program, folder / "shop.db", free_port())
    seen, lost = [], True

    def forward(message: bytes) -> bytes:
        seen.append((message.split(b" ")[1].decode(), monitor.kept()))
        reply = exchange(server.port, message)
        return b"" if lost else reply

    monitor = Monitor(folder, Standin(forward).port)
    monitor.is_down("curl: (52) ")
    monitor.now += MINUTE
    monitor.is_down("curl: (52) ")
    pending = [str(NOON), "-", release(NOON)[1]]
    expect("the state file when each request arrived", seen, [(f"/c/monitor/{NOON}", pending)] * 2)
    lost = False
    monitor.resets()
    expect("the next request", seen[3], (f"/c/monitor/{monitor.now}", [str(monitor.now), "2027-01-15", RESET]))
    server.kill()
    expect("the kept replies", replies(folder / "shop.db"), [release(NOON), (monitor.now, RESET)])


def others(_: str, folder: pathlib.Path) -> None:
    """Sends responses that `persod` doesn't send, or sends if it can't store a reply."""
    response = None
    monitor = Monitor(folder, Standin(lambda _: response).port)
    for word in ("read", "write"):
        response = None
        monitor.is_down("curl: (28) ", word)
        for response, line in (
            (STORAGE, '503 {"code":503,"refused":"storage"}'),
            (fixed_reply(404, "no-route"), '404 {"code":404,"refused":"no-route"}'),
            (reply_bytes(200, b'{"status":"up"}'), '200 {"status":"up"}'),
            (reply_bytes(200, b"first\nsecond\x07\n" + b"." * 9999), "200 first second  " + "." * 50),
            (b"hello", "curl: (1) "),
        ):
            monitor.is_down(line, word)
    expect("the request is still pending", monitor.kept(), [str(NOON), "-", release(NOON)[1]])


def refuses(_: str, folder: pathlib.Path) -> None:
    """Checks the cases in which no request is sent."""
    monitor = Monitor(folder, free_port())
    usage = "usage: health.sh read, or health.sh write"
    for words in ((), ("",), ("check",), ("read", "write")):
        monitor.cannot(usage, *words)
    for variables in ({"PORT": "x"}, {"PORT": "080"}, {"TIMEOUT": "0"}):
        monitor.cannot("PORT and TIMEOUT must be numbers, at least 1", "read", **variables)
    monitor.cannot("PRODUCT and CLIENT must be names of letters, digits, _ and -", "write", CLIENT="m/1")
    monitor.cannot("none/state can't be written", "write", STATE="none/state")
    for text in ("", "x - -\n", "-\n"):
        monitor.state.write_text(text)
        monitor.cannot("monitor.state can't be read; it may be deleted", "write")
    for name in ("dirname", "tr", "cut"):
        (monitor.bin / name).symlink_to(shutil.which(name))
    monitor.cannot("curl is not in PATH", "read", path=str(monitor.bin))


def fills(program: str, folder: pathlib.Path) -> None:
    """Fills the disk. The server is down until there is space again."""
    disk = Disk(folder)
    with tempfile.TemporaryDirectory() as name:
        monitor = Monitor(pathlib.Path(name), free_port())
        server = Server(program, folder / "shop.db", monitor.port)
        try:
            monitor.releases()
            disk.fill(0)
            for _ in range(10_000):
                monitor.now += MINUTE
                if monitor.run("write")[0]:
                    break
            monitor.is_down('503 {"code":503,"refused":"storage"}')
            disk.free()
            monitor.resets()
        finally:
            server.kill()
            disk.end()


def cases(checks: int) -> Iterator[tuple[Callable[..., None], tuple]]:
    yield from ((starts, (shell,)) for shell in SHELLS)
    yield days, (checks,)
    yield from ((case, ()) for case in (numbers, loses, others, refuses))
    if os.geteuid() == 0:
        yield fills, ()


def main() -> None:
    words = argparse.ArgumentParser(description=__doc__, formatter_class=argparse.RawDescriptionHelpFormatter)
    words.add_argument("program")
    words.add_argument("--checks", type=int, default=10)
    given = words.parse_args()
    for case, arguments in cases(given.checks):
        with tempfile.TemporaryDirectory() as name:
            case(given.program, pathlib.Path(name), *arguments)
    full = "" if os.geteuid() == 0 else "; the disk wasn't filled, which needs root"
    shells = ", ".join(" ".join(shell) for shell in SHELLS)
    print(f"health.sh in {shells}: each check is right, and three days of {given.checks} checks leave the replies of one{full}")


if __name__ == "__main__":
    main()
