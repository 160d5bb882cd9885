#!/usr/bin/env python3
"""Measures how long a client of `persod serve` waits next to silent, slow and reset connections.

    bench/run silent [--requests N] [--seconds S] [--strict]

The client sends N requests, each on its own connection, for a batch that doesn't exist: the reply is short, and nothing is written. It does so
first alone, then next to each of these crowds, and then alone again:

    idle      200 connections that send nothing, and 20 that send a byte every half second; each connects again when it is closed
    silent    a flood of connections that send nothing, as many as a process can make
    half      a flood of connections that send only the first part of a message
    reset     a flood of connections that are reset at once

During each flood, 100 messages are also sent in two pieces, 20 ms apart. Every request and every message in two pieces must get its reply, except
next to `half`. There all places are taken by incomplete messages, and the server makes room as docs/PROTOCOL.md says: it drops a connection that
hasn't sent a byte, or otherwise the message that has waited longest. It may therefore drop a client between its connection and its first byte, or
in its pause of 20 ms. Up to one in twenty requests may be lost next to `half`, and their clients must repeat them.

For each crowd the script prints the median, the 99th percentile and the longest wait, each also as a multiple of the first run alone. With
--strict it fails if the median is over 1.5 times that of the first run, or the longest wait is over 50 ms. A busy machine may miss both. Exit
status: 1 if the script fails."""
import argparse
import multiprocessing
import pathlib
import selectors
import socket
import statistics
import struct
import sys
import tempfile
import time
from typing import Any, Callable, NamedTuple

from served import HOST, Server, connect, free_port, get, received, sent

ASK = get("/batch/B9")
WANTED = b"HTTP/1.1 409 "
IDLE, DRIPPING = 200, 20
SPLIT, PAUSE = 100, 0.02
MOST_MEDIAN, MOST_WAIT = 1.5, 0.05
MOST_LOST = 0.05
OPEN = 500
STRANGER = "127.0.0.2"
# IP_BIND_ADDRESS_NO_PORT of Linux
BIND_WITHOUT_PORT = 24


class Waits(NamedTuple):
    """The times of requests in seconds, sorted, and the number of requests that got no reply."""

    took: list[float]
    lost: int

    def figures(self) -> tuple[float, float, float]:
        return statistics.median(self.took), self.took[int(len(self.took) * 0.99)], self.took[-1]


def asked(port: int, requests: int) -> Waits:
    took, lost = [], 0
    for _ in range(requests):
        begun = time.perf_counter()
        came = reply_to(port)
        took.append(time.perf_counter() - begun)
        if came and not came.startswith(WANTED):
            sys.exit(f"an honest client got {came!r}")
        lost += not came
    return Waits(sorted(took), lost)


def reply_to(port: int) -> bytes:
    with connect(port) as peer:
        sent(peer, ASK)
        return received(peer)


def split(port: int) -> int:
    """Sends messages in two pieces, and returns how many got their reply."""
    replied = 0
    for _ in range(SPLIT):
        with connect(port) as peer:
            try:
                peer.sendall(ASK[:20])
                time.sleep(PAUSE)
                peer.sendall(ASK[20:])
            except OSError:
                pass
            replied += received(peer).startswith(WANTED)
    return replied


# ---- crowds: each is a process


def stranger() -> socket.socket:
    """Returns a socket with another source address, so that a flood leaves the ports of the honest client free."""
    peer = socket.socket()
    peer.setsockopt(socket.IPPROTO_IP, BIND_WITHOUT_PORT, 1)
    peer.bind((STRANGER, 0))
    return peer


def begun(port: int) -> socket.socket:
    peer = stranger()
    peer.setblocking(False)
    peer.connect_ex((HOST, port))
    return peer


def idle(port: int, count: Any) -> None:
    """Keeps connections open. Some of them send a byte every half second."""
    watch = selectors.DefaultSelector()
    peers = {}
    dripped = time.monotonic()
    while True:
        while len(peers) < IDLE + DRIPPING:
            peer = begun(port)
            peers[peer] = count.value % (IDLE + DRIPPING) >= IDLE
            count.value += 1
            watch.register(peer, selectors.EVENT_READ)
        if time.monotonic() - dripped > 0.5:
            dripped = time.monotonic()
            for peer, drips in peers.items():
                try:
                    if drips:
                        peer.send(b"a")
                except OSError:
                    pass
        for key, _ in watch.select(0.1):
            watch.unregister(key.fileobj)
            del peers[key.fileobj]
            key.fileobj.close()


def flood(port: int, count: Any, begins: bytes, is_reset: bool) -> None:
    peers: list[socket.socket] = []
    while True:
        peer = stranger()
        try:
            peer.connect((HOST, port))
            peer.send(begins)
        except OSError:
            peer.close()
            continue
        count.value += 1
        if is_reset:
            peer.setsockopt(socket.SOL_SOCKET, socket.SO_LINGER, struct.pack("ii", 1, 0))
            peer.close()
            continue
        peers.append(peer)
        if len(peers) > OPEN:
            peers.pop(0).close()


CROWDS: dict[str, tuple[Callable[..., None], tuple[Any, ...]]] = {
    "idle": (idle, ()),
    "silent": (flood, (b"", False)),
    "half": (flood, (b"GET /batch/", False)),
    "reset": (flood, (b"", True)),
}


def next_to(name: str, port: int, requests: int, seconds: float) -> tuple[Waits, int, float]:
    """Returns the waits of an honest client next to a crowd, the number of messages in two pieces that got a reply, and the connections per second."""
    way, words = CROWDS[name]
    count = multiprocessing.Value("q", 0)
    crowd = multiprocessing.Process(target=way, args=(port, count, *words), daemon=True)
    crowd.start()
    time.sleep(seconds)
    before, start = count.value, time.monotonic()
    waits = asked(port, requests)
    replied = SPLIT if name == "idle" else split(port)
    rate = (count.value - before) / (time.monotonic() - start)
    crowd.terminate()
    crowd.join()
    return waits, replied, rate


def line(name: str, waits: Waits, alone: Waits) -> str:
    texts = [f"{one * 1e3:.3f} ms ({one / other:.2f})" for one, other in zip(waits.figures(), alone.figures())]
    return f"{name}: median {texts[0]}, 99th percentile {texts[1]}, longest {texts[2]}"


def run(program: str, folder: pathlib.Path, requests: int, seconds: float, is_strict: bool) -> list[str]:
    server = Server(program, folder / "silent.db", free_port())
    asked(server.port, requests // 10)
    alone = asked(server.port, requests)
    print(line("alone", alone, alone))
    wrong = []
    for name in CROWDS:
        waits, replied, rate = next_to(name, server.port, requests, seconds)
        ends = f"{rate:.0f} connections per second; {waits.lost} lost; {replied} of {SPLIT} in two pieces"
        print(f"{line(name, waits, alone)}; {ends}", flush=True)
        if waits.lost > (MOST_LOST * requests if name == "half" else 0):
            wrong.append(f"{name}: {waits.lost} requests got no reply")
        if replied < SPLIT and name != "half":
            wrong.append(f"{name}: {SPLIT - replied} messages in two pieces got no reply")
        median, _, longest = waits.figures()
        if is_strict and (median > MOST_MEDIAN * alone.figures()[0] or longest > MOST_WAIT):
            wrong.append(f"{name}: the honest client waited too long")
    print(line("alone again", asked(server.port, requests), alone))
    print(f"at most {server.peak() >> 10} KiB in memory")
    server.kill()
    return wrong


def main() -> None:
    words = argparse.ArgumentParser(description=__doc__, formatter_class=argparse.RawDescriptionHelpFormatter)
    words.add_argument("program")
    words.add_argument("--requests", type=int, default=2_000)
    words.add_argument("--seconds", type=float, default=2.0)
    words.add_argument("--strict", action="store_true")
    given = words.parse_args()
    with tempfile.TemporaryDirectory() as folder:
        wrong = run(given.program, pathlib.Path(folder), given.requests, given.seconds, given.strict)
    if wrong:
        sys.exit("\n".join(wrong))
    print("every request of an honest client got its reply, except next to incomplete messages")


if __name__ == "__main__":
    main()
