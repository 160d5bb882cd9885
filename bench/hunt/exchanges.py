#!/usr/bin/env python3
"""Runs the worked exchanges and messages against `persod serve`, and compares the responses.

    bench/run exchanges [FILE..]

FILE is a file of crates/worked/data that ends with .exchange or .message; the default is all of them. Each case runs with a new server on a new
file and a free port, in up to four ways:

- whole
- in pieces of 7 bytes, if the case has at most 100 messages of at most 4,096 bytes
- by `curl`, if the case is in an .exchange file, has at most 100 requests, and `curl` can send all of them
- cut after every byte before each whole message, if the case is marked `cut`

Each server must exit after its last connection with `served N` and status 0, and the SQLite library must find its file intact. Exit status: 1 if
a response differs."""
import pathlib
import sqlite3
import subprocess
import sys
import tempfile
from typing import Callable, NamedTuple, Optional

from cases import Ask, Case, exchanges_of, messages_of
from served import STORAGE, Server, exchange, free_port, parts

DATA = pathlib.Path(__file__).resolve().parents[2] / "crates" / "worked" / "data"
FEW = 100
SHORT = 4_096
PIECE = 7
Way = Callable[[int, Ask], Optional[bytes]]


class Counts(NamedTuple):
    connections: int
    differences: int


def whole(port: int, ask: Ask) -> bytes:
    return exchange(port, ask.message, end=ask.wanted in (b"", None))


def in_pieces(port: int, ask: Ask) -> bytes:
    return exchange(port, ask.message, PIECE, end=ask.wanted in (b"", None))


def by_curl(port: int, ask: Ask) -> bytes:
    """Returns the response with its head, as `curl` prints it."""
    head, _, body = ask.message.partition(b"\r\n\r\n")
    method, target, _ = head.split(b"\r\n")[0].decode().split(" ")
    words = ["curl", "--silent", "--include", "--raw", "--globoff", "--path-as-is", "--header", "Expect:", "--request", method]
    words += ["--data-binary", "@-"] if method == "POST" else []
    return subprocess.run([*words, f"http://127.0.0.1:{port}{target}"], input=body, capture_output=True, check=True).stdout


def has_curl_words(ask: Ask) -> bool:
    """Returns whether `curl` sends this target unchanged. It escapes and refuses some bytes."""
    target = ask.message.split(b"\r\n")[0].split(b" ")
    return len(target) == 3 and target[1].startswith(b"/") and all(33 <= byte < 127 and byte not in b"#?" for byte in target[1])


def is_right(ask: Ask, came: bytes) -> bool:
    if ask.wanted is None:
        return came != STORAGE and (came == b"" or parts(came) is not None)
    return came == ask.wanted


def check_whole(database: pathlib.Path) -> None:
    with sqlite3.connect(database) as link:
        found = link.execute("PRAGMA integrity_check").fetchall(), link.execute("PRAGMA foreign_key_check").fetchall()
    link.close()
    if found != ([("ok",)], []):
        sys.exit(f"{database}: {found}")


def fronts(case: Case) -> int:
    return sum(len(ask.message) for ask in case.asks)


def run(program: str, name: str, case: Case, way: Way, is_cut: bool = False) -> Counts:
    """Runs a case in one way. With `is_cut`, each message is first sent cut after every byte, and must get no response."""
    turns = len(case.asks) + (fronts(case) if is_cut else 0)
    differences = 0
    with tempfile.TemporaryDirectory() as folder:
        database = pathlib.Path(folder) / "worked.db"
        server = Server(program, database, free_port(), turns)
        for ask in case.asks:
            for cut in range(len(ask.message) if is_cut else 0):
                if came := exchange(server.port, ask.message[:cut], end=True):
                    differences += print_difference(name, ask.line, f"cut after {cut} bytes", b"", came)
            came = way(server.port, ask)
            if not is_right(ask, came):
                differences += print_difference(name, ask.line, way.__name__, ask.wanted, came)
        server.served()
        check_whole(database)
    return Counts(turns, differences)


def print_difference(name: str, line: int, way: str, wanted: Optional[bytes], came: bytes) -> int:
    print(f"{name}:{line}: {way}\n  expected {wanted!r}\n  found    {came!r}", flush=True)
    return 1


def run_file(program: str, path: pathlib.Path) -> Counts:
    is_exchange = path.suffix == ".exchange"
    cases = (exchanges_of if is_exchange else messages_of)(path.read_text())
    counts, curled = [], 0
    for case in cases:
        counts.append(run(program, path.name, case, whole, case.is_cut))
        is_few = len(case.asks) <= FEW
        if is_few and all(len(ask.message) <= SHORT for ask in case.asks):
            counts.append(run(program, path.name, case, in_pieces))
        if is_exchange and is_few and all(has_curl_words(ask) for ask in case.asks):
            counts.append(run(program, path.name, case, by_curl))
            curled += 1
    total = Counts(sum(count.connections for count in counts), sum(count.differences for count in counts))
    by = f", {curled} by curl" if is_exchange else ""
    print(f"{path.name}: {len(cases)} cases{by}, {total.connections} connections, {total.differences} differences", flush=True)
    return total


def main() -> int:
    if len(sys.argv) < 2:
        sys.exit(__doc__)
    named = [pathlib.Path(name) for name in sys.argv[2:]]
    paths = named or sorted([*DATA.glob("*.exchange"), *DATA.glob("*.message")])
    totals = [run_file(sys.argv[1], path) for path in paths]
    wrong = sum(total.differences for total in totals)
    print(f"{len(paths)} files, {sum(total.connections for total in totals)} connections, {wrong} differences")
    return 1 if wrong else 0


if __name__ == "__main__":
    sys.exit(main())
