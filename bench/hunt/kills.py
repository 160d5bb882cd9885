#!/usr/bin/env python3
"""Kills `persod serve` 200 times while machines work, and compares it with a run without kills.

    bench/run kills [--folder FOLDER] [--kills N] [--machines N] [--seed N]

The server is killed by SIGKILL at random moments, one time in five during its start or shortly after it, and started again. The clients repeat
every request without a reply, with the same bytes.

After each kill the SQLite library reads a copy of the file. The copy must be intact and contain every reply that a client got, except for
released numbers. It must not contain anything that wasn't requested. The copy also shows in which connection a request was decided if its reply
was lost.

At the end all requests are sent again, in the order in which they were decided, to a server on a new file that is never killed. Replies,
accounts, reports and the rows of all tables must be the same. SIGKILL doesn't lose data that was passed to the operating system, so this isn't a
test of power failures. Exit status: 1 if a check fails."""
import argparse
import pathlib
import random
import sqlite3
import sys
import tempfile
import time

from anew import check_same
from files import is_empty, is_whole, looked
from served import Server, free_port, parts
from shop import Machine, Office, Reader, Sent, Shop

LONGEST = 0.5
BATCHES = 30
NOT_KEPT = (b'"refused":"number-reused"', b'"refused":"number-released"', b'"refused":"malformed"')
Kept = dict[tuple[str, int], tuple[bytes, int, bytes]]


def kept_rows(link: sqlite3.Connection) -> tuple[Kept, dict[str, int]]:
    """Returns the kept replies, and the release marks of the clients."""
    if is_empty(link):
        return {}, {}
    if not is_whole(link):
        sys.exit("the file isn't intact")
    replies = {(client, number): (ask, status, body) for client, number, ask, status, body in link.execute("SELECT * FROM reply")}
    return replies, dict(link.execute("SELECT client, upto FROM mark").fetchall())


def asked(sent: Sent) -> bytes:
    """Returns the request bytes: the path after the request number, a byte 00, and the body."""
    head, _, body = sent.message.partition(b"\r\n\r\n")
    tail = head.split(b" ")[1].split(b"/", 4)[4:]
    return b"".join(b"/" + part for part in tail) + b"\0" + body


def check_kept(database: pathlib.Path, all_sent: list[Sent], others: str = "") -> int:
    """Checks that each reply is in the file, and that everything in the file was requested, except by the client `others`. Returns the number of
    lost replies."""
    given = [(sent, sent.reply) for sent in all_sent if sent.is_first]
    kept, marks = looked(database, kept_rows)
    asks = {(sent.client, sent.number): asked(sent) for sent, _ in given}
    for key, row in kept.items():
        if key[0] != others and asks.get(key) != row[0]:
            sys.exit(f"{key}: {row[0]!r} is kept, but {asks.get(key)!r} was requested")
    lost = 0
    for sent, reply in given:
        row = kept.get((sent.client, sent.number))
        if reply and sent.number > marks.get(sent.client, 0) and not any(name in reply for name in NOT_KEPT):
            if row is None or (row[1], row[2]) != parts(reply):
                sys.exit(f"{sent.client} {sent.number} got {reply!r}, but {row} is kept")
        if row and sent.decided is None:
            sent.decided = sent.turns[-1]
            lost += reply is None
    return lost


def kill_often(program: str, database: pathlib.Path, shop: Shop, kills: int, draw: random.Random) -> dict[str, int]:
    """Starts and kills the server `kills` times."""
    counts = {"kills": 0, "during a start": 0, "with a lost reply": 0}
    slowest = 0.05
    while counts["kills"] < kills and not shop.is_over.is_set():
        server = Server(program, database, shop.port, wait=False)
        if draw.random() < 0.2:
            time.sleep(draw.uniform(0, 1.2 * slowest))
            counts["during a start"] += 1
        else:
            slowest = server.listen()
            time.sleep(draw.uniform(0, LONGEST))
        server.kill()
        counts["kills"] += 1
        counts["with a lost reply"] += check_kept(database, list(shop.sent))
        if counts["kills"] % 20 == 0:
            print(f"{counts['kills']} kills, {len(shop.sent)} requests", flush=True)
    return counts


def run(program: str, folder: pathlib.Path, kills: int, machines: int, seed: str) -> None:
    shop = Shop(free_port())
    office, reader = Office(shop, seed, machines, BATCHES), Reader(shop, seed)
    makers = [Machine(shop, f"m{place}", seed, place * 1_000_000) for place in range(1, machines + 1)]
    threads = shop.run([*(maker.make for maker in makers), office.work, reader.read])
    try:
        counts = kill_often(program, folder / "killed.db", shop, kills, random.Random(f"{seed}/kills"))
    finally:
        shop.is_over.set()
    server = Server(program, folder / "killed.db", shop.port)
    for thread in threads:
        thread.join()
    if shop.wrong:
        sys.exit("\n".join(shop.wrong))
    check_same(program, server, folder / "killed.db", shop, folder)
    check_kept(folder / "killed.db", shop.sent)
    print(", ".join(f"{count} {name}" for name, count in counts.items()))
    good = sum(maker.good for maker in makers)
    print(f"{len(shop.sent)} requests in {shop.turns} connections, {good} good cards; the same as without kills, seed {seed}")


def main() -> None:
    words = argparse.ArgumentParser(description=__doc__, formatter_class=argparse.RawDescriptionHelpFormatter)
    words.add_argument("program")
    words.add_argument("--folder")
    words.add_argument("--kills", type=int, default=200)
    words.add_argument("--machines", type=int, default=6)
    words.add_argument("--seed", default="1")
    given = words.parse_args()
    with tempfile.TemporaryDirectory(dir=given.folder) as folder:
        run(given.program, pathlib.Path(folder), given.kills, given.machines, given.seed)


if __name__ == "__main__":
    main()
