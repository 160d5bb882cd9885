#!/usr/bin/env python3
"""Flips bits in the WAL of a killed server, and checks that the next start refuses the file.

    bench/run wal_flips [--folder FOLDER] [--requests N] [--kills N] [--seed N]

The script flips each bit of the header in turn, and in each frame one bit of its page and one of its head. If a counted commit still follows the
flip, `serve`, `report` and `shopbook check` must refuse the file with 81 and `cause=damaged-wal`, report the number of such commits, and change
neither file, even if the database file is empty. Without a database file, `serve` must do so. Every flip must be refused, except those in the
last commit and some in the head of the frame before it. These exceptions, and a WAL that ends anywhere within its last commit, must not be
called damaged.

A WAL that the SQLite library wrote must never be refused, but its flips must be reported. Then a server is killed repeatedly during imports of
16 MiB, which spill into the WAL over the remains of earlier imports. None of these files may be called damaged. SIGKILL doesn't lose data that
was passed to the operating system; `bench/run wal_crashes` loses writes. Exit status: 1 if a check fails."""
import argparse
import pathlib
import random
import sqlite3
import sys
import tempfile
import threading
import time

from events import expect, path, run
from make_batch import coded
from served import Server, exchange, free_port, imported, parts, request
from small_shop import FIRST, HEADER, accepted, stock
from wal import COUNT_PAGE, FRAME_HEAD, HEAD, SUSPECT, Pair, Programs, Wal, expect_not_called_damaged, expect_refused, flipped, page_size_in, pair_at

LARGE = 8_000_000
COMMITS = 8


# ---- flips


def killed_shop(program: str, database: pathlib.Path, requests: int) -> Pair:
    server = Server(program, database, free_port())
    stock(server.port, 1000, 20)
    for number in range(1, requests + 1):
        accepted(server.port, request("office", 100 + number, do="discard", blank=FIRST + 500 + number))
    server.kill()
    return pair_at(database)


class Flips:
    """The two files of a killed server, and the numbers of flips that were refused and that weren't detected."""

    def __init__(self, programs: Programs, folder: pathlib.Path, pair: Pair) -> None:
        self.programs, self.database, self.pair = programs, folder / "flipped.db", pair
        wal = Wal(pair.wal, page_size_in(pair.db or b""))
        self.page_size, self.length = wal.page_size, FRAME_HEAD + wal.page_size
        self.used, self.last = wal.used(), wal.last_commit()
        if pair.lost() or self.used < 20 or wal.frames[self.last].page != COUNT_PAGE:
            sys.exit("the killed server left a WAL that can't be tried")
        self.refused = self.unseen = self.last_unseen = 0

    def at(self, place: int) -> int:
        """Returns the offset of a frame."""
        return HEAD + place * self.length

    def flip(self, what: str, bit: int, place: int) -> None:
        """Flips a bit of a frame, or of the header, which is place -1."""
        changed = self.pair._replace(wal=flipped(self.pair.wal, bit))
        if changed.lost():
            expect_refused(self.programs, self.database, what, changed, free_port())
            self.refused += 1
            return
        expect_not_called_damaged(self.programs.persod, self.database, what, changed)
        if place >= self.last:
            self.last_unseen += 1
        elif place == self.last - 1 and bit < (self.at(place) + FRAME_HEAD) * 8:
            self.unseen += 1
        else:
            sys.exit(f"{what}: no start detects it")

    def flip_all(self, draw: random.Random) -> None:
        for bit in range(HEAD * 8):
            self.flip(f"bit {bit} of the header", bit, -1)
        for place in range(self.used):
            for first, count in ((0, FRAME_HEAD), (FRAME_HEAD, self.page_size)):
                bit = (self.at(place) + first) * 8 + draw.randrange(count * 8)
                self.flip(f"bit {bit - self.at(place) * 8} of frame {place}", bit, place)

    def without_database(self) -> None:
        middle = flipped(self.pair.wal, self.at(0) * 8 + FRAME_HEAD * 8)
        for what, db in (("an empty database file", b""), ("no database file", None)):
            expect_refused(self.programs, self.database, what, Pair(db, middle), free_port())

    def torn_ends(self) -> int:
        ends = range(self.at(self.last), self.at(self.used), self.length // 7)
        for end in ends:
            expect_not_called_damaged(self.programs.persod, self.database, f"a WAL that ends at {end}", self.pair._replace(wal=self.pair.wal[:end]))
        return len(ends)


# ---- a WAL of another program


def other_pair(program: str, database: pathlib.Path) -> Pair:
    """Returns the files of a closed shop. Commits of the SQLite library, each of one frame, are still in the WAL."""
    server = Server(program, database, free_port(), 3)
    stock(server.port, 1000, 20)
    server.served()
    link = sqlite3.connect(database, isolation_level=None)
    try:
        link.execute("PRAGMA wal_autocheckpoint = 0")
        for number in range(1, COMMITS + 1):
            link.execute(f"PRAGMA user_version = {number}")
        return pair_at(database)
    finally:
        link.close()


def flip_other(programs: Programs, folder: pathlib.Path) -> int:
    """Checks that a flip is reported if two commits follow it, and that the file is always accepted."""
    pair, database = other_pair(programs.persod, folder / "other.db"), folder / "other-flipped.db"
    wal = Wal(pair.wal, page_size_in(pair.db or b""))
    expect("the commits of SQLite's library", [bool(frame.size) for frame in wal.frames], [True] * COMMITS)
    for place in range(-1, COMMITS):
        bit = (HEAD + place * (FRAME_HEAD + wal.page_size) + FRAME_HEAD) * 8
        changed = pair if place < 0 else pair._replace(wal=flipped(pair.wal, bit))
        lines = [f"{SUSPECT} db={path(database)}"] if 0 <= place < COMMITS - 2 else []
        for program, *words in ((programs.persod, "report", "--db", database, "--batch", "B1"), (programs.shopbook, "check", "--db", database)):
            changed.write(database)
            ran = run(program, *words)
            expect(f"a flip in commit {place} of SQLite's library: {words[0]}", (ran.status, ran.errors), (0, lines))
    return COMMITS


# ---- kills during imports


def large_batch(draw: random.Random) -> bytes:
    """Returns a batch file of almost 16 MiB: 1,000 records of one grouping each."""
    rows = (f"R{place},F00000000101,1,0,0,{coded('8010', draw.randbytes(8200))}" for place in range(1, 1001))
    return "".join(f"{line}\n" for line in [HEADER, *rows]).encode()


def kill_import(program: str, database: pathlib.Path, number: int, raw: bytes, delay: float) -> float | None:
    """Kills a server `delay` seconds after an import was sent to it. Returns the time of the import, if it ended before."""
    server = Server(program, database, free_port())
    begun, replies, took = time.monotonic(), [], []

    def send() -> None:
        try:
            if reply := exchange(server.port, imported("office", 10 + number, f"L{number}", "P1", raw)):
                took.append(time.monotonic() - begun)
                replies.append(reply)
        except OSError:
            pass

    sender = threading.Thread(target=send)
    sender.start()
    time.sleep(delay)
    server.kill()
    sender.join()
    expect(f"the replies to import {number}", [(parts(reply) or (200,))[0] for reply in replies], [200] * len(replies))
    return took[0] if took else None


def kill_imports(program: str, folder: pathlib.Path, kills: int, draw: random.Random) -> None:
    raw, database, longest, large = large_batch(draw), folder / "imports.db", 4.0, 0
    server = Server(program, database, free_port(), 3)
    stock(server.port, 1000, 20)
    server.served()
    fresh = pair_at(database)
    for number in range(1, kills + 1):
        took = kill_import(program, database, number, raw, draw.uniform(0, longest))
        longest = min(longest, 1.1 * took) if took else longest
        pair = pair_at(database)
        large += len(pair.wal) > LARGE
        expect_not_called_damaged(program, folder / "copy.db", f"kill {number}", pair)
        if took or number % 5 == 0:
            fresh.write(database)
    if not large:
        sys.exit("no import spilled into the WAL before it was killed")
    print(f"{kills} kills during imports of {len(raw)} bytes, {large} with over {LARGE} bytes in the WAL; none called damaged", flush=True)


def main() -> None:
    words = argparse.ArgumentParser(description=__doc__, formatter_class=argparse.RawDescriptionHelpFormatter)
    words.add_argument("persod")
    words.add_argument("shopbook")
    words.add_argument("--folder")
    words.add_argument("--requests", type=int, default=60)
    words.add_argument("--kills", type=int, default=40)
    words.add_argument("--seed", default="1")
    given = words.parse_args()
    programs = Programs(given.persod, given.shopbook)
    with tempfile.TemporaryDirectory(dir=given.folder) as name:
        folder = pathlib.Path(name)
        flips = Flips(programs, folder, killed_shop(programs.persod, folder / "killed.db", given.requests))
        flips.flip_all(random.Random(f"{given.seed}/flips"))
        flips.without_database()
        ends = flips.torn_ends()
        print(f"{flips.used} frames: {flips.refused} flips refused, {flips.last_unseen} in the last commit and {flips.unseen} in the head before it not detected", flush=True)
        print(f"{ends} torn ends, none called damaged", flush=True)
        print(f"{flip_other(programs, folder)} flips in a WAL of the SQLite library, none refused", flush=True)
        kill_imports(programs.persod, folder, given.kills, random.Random(f"{given.seed}/kills"))


if __name__ == "__main__":
    main()
