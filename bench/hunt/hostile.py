#!/usr/bin/env python3
"""Opens 20,000 connections with hostile bytes to `persod serve` while four machines make cards.

    bench/run hostile [--folder FOLDER] [--connections N] [--slow N] [--patience N] [--seed N]

Half of the connections are reset midway. Each of the others must get the response that its bytes require, or no response if they require none. N
more connections send nothing or stop within a message, and N more send a byte from time to time. The server must close these after 5 s and after
10 s, as docs/PROTOCOL.md says, and send no response.

Each request of a machine must get its reply in the time that the connections before it may take: 0.25 s for each, and 3 s for an import or a
body of 16 MiB. Both limits are multiplied by --patience, which a build without proofs needs.

The memory of the server may grow by 1 MiB from the first tenth of the connections to the last, and again by 1 MiB during a hundred connections
with bodies of 16 MiB. By default, the C library keeps up to 64 MiB of freed memory, which would hide any growth. The server therefore runs with
MALLOC_TRIM_THRESHOLD_=131072, so that the C library returns it.

At the end the requests of the machines are sent to a server on a new file, without the other connections. Replies, accounts, reports and the
rows of all tables must be the same. Exit status: 1 if a check fails."""
import argparse
import os
import pathlib
import random
import socket
import statistics
import sys
import tempfile
import threading
import time
from typing import Callable, NamedTuple

from anew import check_same
from peers import EVIL, Peer, dripping, finished, large, reset, silent, some_peer
from served import Server, connect, exchange, free_port, get, parts, received
from shop import MOST, Machine, Office, Sent, Shop

SILENT, DRIPPING = 5.0, 10.0
SLOWNESS = 0.5
SHORT, LONG = 0.25, 3.0
MACHINES, WORKERS = 4, 8
WARM = 0.1
BODIES = 100
GROWTH = 1 << 20
BATCHES = 3


class Answered(NamedTuple):
    """The time of a machine's request, and the maximum allowed time."""

    took: float
    allowed: float


class Crowd(Shop):
    """A shop among hostile peers. For each connection that may still be open, it keeps the maximum time that it may occupy the server."""

    def __init__(self, port: int, patience: float) -> None:
        super().__init__(port)
        self.short, self.long = patience * SHORT, patience * LONG
        self.holds: dict[int, float] = {}
        self.answered: list[Answered] = []

    def begin(self, hold: float, message: bytes = b"") -> tuple[socket.socket, int, float, float]:
        """Connects and sends a message. Returns the connection, its position, the time that all connections up to it may take, and the start time."""
        with self.lock:
            peer = connect(self.port)
            self.turns += 1
            self.holds[self.turns] = hold
            began = time.monotonic()
            peer.sendall(message)
            return peer, self.turns, sum(self.holds.values()), began

    def end(self, turn: int) -> None:
        """Marks a connection and all earlier ones as closed."""
        with self.lock:
            for place in [place for place in self.holds if place <= turn]:
                del self.holds[place]

    def once(self, sent: Sent) -> bytes:
        peer, turn, allowed, begun = self.begin(self.long if b"/batch/" in sent.message[:60] else self.short, sent.message)
        sent.turns.append(turn)
        with peer:
            reply = received(peer)
        took = time.monotonic() - begun
        self.end(turn)
        self.answered.append(Answered(took, allowed))
        if took > allowed:
            self.wrong.append(f"{sent.message!r} took {took:.2f} s; {allowed:.2f} s are allowed")
        if parts(reply) is None or parts(reply)[0] == 503:
            self.wrong.append(f"{sent.message!r}: {reply!r}")
            self.is_over.set()
        return reply


class Peers:
    """The connections other than those of the machines."""

    def __init__(self, shop: Crowd, seed: str) -> None:
        self.shop, self.seed, self.draw = shop, seed, random.Random(seed)
        self.counts: dict[str, int] = {}

    def some(self, count: int, worker: int, kind: Callable[[random.Random], Peer] = some_peer) -> None:
        """Opens `count` connections. Half of them are reset midway."""
        draw = random.Random(f"{self.seed}/{count}/{worker}")
        for _ in range(count):
            self.one(draw, kind(draw), draw.random() < 0.5)
            time.sleep(draw.uniform(0, 0.01))

    def one(self, draw: random.Random, peer: Peer, is_reset: bool) -> None:
        link, turn, _, _ = self.shop.begin(self.shop.long if peer.kind == "large" else self.shop.short)
        self.count(f"{peer.kind}, reset" if is_reset else peer.kind)
        if is_reset:
            link.settimeout(1)
            try:
                link.sendall(peer.message[: draw.randint(0, len(peer.message))])
            except OSError:
                pass
            reset(link)
            return
        came = finished(link, peer.message)
        link.close()
        self.shop.end(turn)
        if not peer.is_right(came):
            self.shop.wrong.append(f"{peer.kind}: {peer.message[:300]!r} got {came!r}, expected {peer.wanted!r}")

    def slow(self, count: int, way: Callable[..., bytes], hold: float) -> None:
        draw = random.Random(f"{self.seed}/{count}/{way.__name__}")
        for _ in range(count):
            link, turn, _, begun = self.shop.begin(0.0)
            came = way(link, draw)
            took = time.monotonic() - begun
            link.close()
            self.shop.end(turn)
            self.count(way.__name__)
            if came or not hold - SLOWNESS < took < hold + self.shop.short + SLOWNESS:
                self.shop.wrong.append(f"{way.__name__}: got {came!r} after {took:.2f} s, expected nothing and the end after {hold:.2f} s")
            time.sleep(draw.uniform(0, 10))

    def count(self, kind: str) -> None:
        with self.shop.lock:
            self.counts[kind] = self.counts.get(kind, 0) + 1


def crowd(peers: Peers, connections: int, slow: int) -> None:
    """Opens `connections` connections in several threads, and the slow ones, and waits for their end."""
    works = [threading.Thread(target=peers.some, args=(connections // WORKERS, worker)) for worker in range(WORKERS)]
    works += [threading.Thread(target=peers.slow, args=(slow, silent, SILENT)), threading.Thread(target=peers.slow, args=(slow, dripping, DRIPPING))]
    for work in works:
        work.start()
    for work in works:
        work.join()


def memory(peers: Peers, server: Server, connections: int, slow: int) -> None:
    """Runs all peers, and checks how much memory the server uses."""
    crowd(peers, int(connections * WARM), 1)
    warm, asked = server.resident(), len(peers.shop.sent)
    crowd(peers, connections - int(connections * WARM) - BODIES, slow - 1)
    later, asked = server.resident(), len(peers.shop.sent) - asked
    peers.some(BODIES, WORKERS, large)
    last, most = server.resident(), server.peak()
    sizes = f"{warm >> 10} KiB, after {asked} requests of the shop {later >> 10}, after {BODIES} bodies of 16 MiB {last >> 10}"
    print(f"resident after {WARM:.0%}: {sizes}; peak {most >> 10}")
    if later - warm > GROWTH or last - later > GROWTH:
        peers.shop.wrong.append("memory grew")


def times_line(answered: list[Answered]) -> str:
    took = [one.took for one in answered]
    nearest = max((one.took / one.allowed for one in answered), default=0)
    text = f"{len(took)} requests: median {statistics.median(took) * 1e3:.0f} ms, longest {max(took):.2f} s; "
    return text + f"at most {nearest:.0%} of the allowed time"


def run(program: str, folder: pathlib.Path, connections: int, slow: int, patience: float, seed: str) -> None:
    os.environ["MALLOC_TRIM_THRESHOLD_"] = "131072"
    shop = Crowd(free_port(), patience)
    server = Server(program, folder / "hostile.db", shop.port)
    office = Office(shop, seed, MACHINES, 0)
    office.stock()
    for _ in range(BATCHES):
        office.bring(*MOST)
    makers = [Machine(shop, f"m{place}", seed, place * 1_000_000) for place in range(1, MACHINES + 1)]
    threads = shop.run([*(maker.make for maker in makers), office.work])
    peers = Peers(shop, seed)
    memory(peers, server, connections, slow)
    shop.is_over.set()
    for thread in threads:
        thread.join()
    print(", ".join(f"{count} {kind}" for kind, count in sorted(peers.counts.items())))
    print(times_line(shop.answered))
    if shop.wrong:
        sys.exit("\n".join(one[:1000] for one in shop.wrong[:20]) + f"\n{len(shop.wrong)} wrong")
    if exchange(shop.port, get("/blanks/evil")).find(b"product-unknown") < 0:
        sys.exit("a message without its last byte was accepted")
    check_same(program, server, folder / "hostile.db", shop, folder, EVIL)
    print(f"{len(shop.sent)} requests of the shop, {sum(maker.good for maker in makers)} good cards; the same as without the peers, seed {seed}")


def main() -> None:
    words = argparse.ArgumentParser(description=__doc__, formatter_class=argparse.RawDescriptionHelpFormatter)
    words.add_argument("program")
    words.add_argument("--folder")
    words.add_argument("--connections", type=int, default=20_000)
    words.add_argument("--slow", type=int, default=6)
    words.add_argument("--patience", type=float, default=1.0)
    words.add_argument("--seed", default="1")
    given = words.parse_args()
    with tempfile.TemporaryDirectory(dir=given.folder) as folder:
        run(given.program, pathlib.Path(folder), given.connections, given.slow, given.patience, given.seed)


if __name__ == "__main__":
    main()
