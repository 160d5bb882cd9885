#!/usr/bin/env python3
"""Fills the disk of `persod serve` repeatedly, and checks that it continues when there is space.

    bench/run full_disk [--rounds N] [--seed N]

The script mounts a small tmpfs, so it requires root. First it starts a server without a database file on a full disk: the server must listen, or
exit with status 3 and `storage`.

Then a machine and the office work, one request at a time. In each round almost all space is taken, and after a hundred requests the rest, until
a request gets status 503. While the disk is full:

- the same request gets status 503 again
- the accounts are unchanged, and earlier requests get their replies again
- a request of another client gets status 503, or is refused as on a disk with space
- in every third round, the server is killed and started. It must listen, or exit with status 3 and `storage`

When there is space again, the request is repeated. At the end all requests are sent to a server on a new file that always had space. Replies,
accounts, reports and the rows of all tables must be the same. Exit status: 1 if a check fails."""
import argparse
import pathlib
import random
import subprocess
import sys
import tempfile
from typing import Optional

from anew import accounts, check_same
from kills import check_kept
from served import STORAGE, Server, Stopped, free_port, parts, request
from shop import Machine, Office, Sent, Shop

SIZE = 64 << 20
ROOMS = 0, 0, 1, 2, 5, 10, 20, 50, 100, 300
PAGE = 4096
QUIET = 60
LONGEST = 100
MACHINE, OTHER = "m1", "other"


class Disk:
    """A small disk in memory, and a file that takes its space."""

    def __init__(self, folder: pathlib.Path) -> None:
        self.folder, self.filler = folder, folder / "filler"
        subprocess.run(["mount", "-t", "tmpfs", "-o", f"size={SIZE}", "tmpfs", folder], check=True)

    def fill(self, pages: int) -> None:
        """Takes all space except for `pages` pages."""
        with self.filler.open("wb", buffering=0) as file:
            try:
                while True:
                    file.write(bytes(PAGE))
            except OSError:
                pass
            file.truncate(max(file.tell() // PAGE - pages, 0) * PAGE)

    def free(self) -> None:
        self.filler.unlink(missing_ok=True)

    def end(self) -> None:
        subprocess.run(["umount", self.folder], check=True)


class FullShop(Shop):
    """A shop whose disk is filled some requests after it was freed, and freed after a request was refused."""

    def __init__(self, program: str, disk: Disk, draw: random.Random) -> None:
        super().__init__(free_port())
        self.program, self.disk, self.draw = program, disk, draw
        self.database = disk.folder / "shop.db"
        self.server = Server(program, self.database, self.port)
        self.rounds = self.refused = self.starts = self.others = 0
        self.quiet, self.patience = QUIET, 0
        self.is_full = False

    def once(self, sent: Sent) -> bytes:
        if not self.is_full and self.quiet == 0:
            self.disk.fill(self.draw.choice(ROOMS))
            self.is_full = True
            self.patience = LONGEST
        self.quiet = max(0, self.quiet - 1)
        self.patience -= 1
        if self.is_full and self.patience == 0:
            self.disk.fill(0)
        before = accounts(self.port, self.batches[-3:]) if self.is_full else []
        reply = super().once(sent)
        whole = parts(reply)
        if whole is None or whole[0] == 503:
            self.look(sent, reply, before)
            return b""
        return reply

    def look(self, sent: Sent, reply: bytes, before: list[bytes]) -> None:
        """Checks the server while the disk is full, and then frees the disk."""
        if not self.is_full or reply != STORAGE:
            sys.exit(f"{sent.message!r}: {reply!r}")
        self.rounds += 1
        for _ in range(3):
            if accounts(self.port, self.batches[-3:]) != before:
                sys.exit("a request with status 503 changed the accounts")
            for old in self.draw.sample(self.answered(), min(5, len(self.answered()))):
                if (came := super().once(old)) != old.reply:
                    sys.exit(f"{old.message!r} repeated: {came!r}, expected {old.reply!r}")
                old.turns.pop()
            if super().once(sent) != STORAGE:
                sys.exit(f"{sent.message!r}: another response than 503 while the disk was still full")
            self.refused += 1
        self.other()
        if self.rounds % 3 == 0:
            self.start_anew()
        self.disk.free()
        if self.server.process.poll() is not None:
            self.server = Server(self.program, self.database, self.port)
        self.is_full, self.quiet = False, self.draw.randint(1, QUIET)

    def answered(self) -> list[Sent]:
        """Returns recent requests of the machine with kept replies, since its last start."""
        its = [sent for sent in self.sent if sent.client == MACHINE and sent.is_first]
        since = max((place for place, sent in enumerate(its) if b'"release"' in sent.message), default=0)
        return [sent for sent in its[since:] if sent.reply][-40:]

    def other(self) -> None:
        """Sends a refused request of another client. The refusal is kept if there is space for it."""
        self.others += 1
        reply = Shop.once(self, Sent(OTHER, self.others, request(OTHER, self.others, do="abort", session=999_999), False))
        if reply != STORAGE and (parts(reply) or (0, b""))[0] != 409:
            sys.exit(f"another client's request: {reply!r}")

    def start_anew(self) -> None:
        """Kills the server, and starts another while the disk is full."""
        self.server.kill()
        check_kept(self.database, self.sent, OTHER)
        if any(sent.decided and sent.reply is None for sent in self.sent):
            sys.exit("a request with status 503 is kept")
        try:
            self.server = Server(self.program, self.database, self.port)
            self.starts += 1
        except Stopped as stop:
            if (stop.status, stop.printed) != (3, "storage\n"):
                sys.exit(f"a start on a full disk: {stop}")


def no_file(program: str, disk: Disk) -> str:
    """Starts a server without a database file on a full disk. Returns its output, or that it listens."""
    disk.fill(0)
    stopped: Optional[Stopped] = None
    try:
        server = Server(program, disk.folder / "none.db", free_port())
        server.kill()
    except Stopped as stop:
        stopped = stop
    disk.free()
    if stopped and (stopped.status, stopped.printed) != (3, "storage\n"):
        sys.exit(f"a start without a file on a full disk: {stopped}")
    server = Server(program, disk.folder / "none.db", free_port())
    server.kill()
    for path in disk.folder.glob("none.db*"):
        path.unlink()
    return "storage" if stopped else "it listens"


def run(program: str, disk: Disk, rounds: int, seed: str) -> None:
    print(f"without a file on a full disk: {no_file(program, disk)}")
    shop = FullShop(program, disk, random.Random(f"{seed}/disk"))
    try:
        work(program, shop, rounds, seed)
    finally:
        shop.server.kill()


def work(program: str, shop: FullShop, rounds: int, seed: str) -> None:
    office, machine = Office(shop, seed, 1, 2 * rounds), Machine(shop, MACHINE, seed, 1_000_000)
    while shop.rounds < rounds:
        office.work()
        for _ in range(5):
            machine.make()
    shop.disk.free()
    shop.is_full, shop.quiet = False, sys.maxsize
    with tempfile.TemporaryDirectory() as folder:
        check_same(program, shop.server, shop.database, shop, pathlib.Path(folder), OTHER)
    print(
        f"{shop.rounds} times full, {shop.refused} more responses 503, {shop.starts} of {shop.rounds // 3} starts on a full disk listened; "
        f"{len(shop.sent)} requests, {machine.good} good cards; the same as with space, seed {seed}"
    )


def main() -> None:
    words = argparse.ArgumentParser(description=__doc__, formatter_class=argparse.RawDescriptionHelpFormatter)
    words.add_argument("program")
    words.add_argument("--rounds", type=int, default=60)
    words.add_argument("--seed", default="1")
    given = words.parse_args()
    with tempfile.TemporaryDirectory() as folder:
        disk = Disk(pathlib.Path(folder))
        try:
            run(given.program, disk, given.rounds, given.seed)
        finally:
            disk.end()


if __name__ == "__main__":
    main()
