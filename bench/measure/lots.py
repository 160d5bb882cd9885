#!/usr/bin/env python3
"""Measures the processor time of requests that find the lot of a blank, by the number of lots.

    bench/run lots

Requires Linux. For 1 lot and for 4,096 lots, the script starts a server on a new database file and registers the lots. Then it opens cards, discards
blanks, and requests openings with blanks that no lot contains, which are refused. The blanks are spread over all lots. The database file is on a
disk in memory.

The store finds the lot of a blank with an index. If it read all lots instead, an opening would take about five times as long with 4,096 lots, and a
discard about seventeen times. Exit status: 1 if a request takes more than LIMIT times as long as with one lot.
"""
import pathlib
import sys
import tempfile

from served import Server, exchange, free_port, imported, parts, request
from small_shop import batch_file

PROGRAM = sys.argv[1]
MANY = 4_096
BLANKS = 20 * MANY
REQUESTS = 400
STEP = BLANKS // REQUESTS
LIMIT = 3
MEMORY = "/dev/shm"


def ask(server: Server, message: bytes, status: int = 200) -> None:
    reply = parts(exchange(server.port, message))
    if not reply or reply[0] != status:
        sys.exit(f"unexpected reply {reply} to {message[:80]!r}")


def set_up(lots: int) -> list[bytes]:
    """Returns the messages that register lots of equal size and import a batch."""
    count = BLANKS // lots
    return [
        request("office", 1, do="product", product="P1", max=255, low=0, check=False),
        *(request("office", 2 + lot, do="lot", lot=f"L{lot}", product="P1", first=lot * count, count=count) for lot in range(lots)),
        imported("office", 2 + lots, "B1", "P1", batch_file(REQUESTS)),
    ]


def mean_time(server: Server, messages: list[bytes], status: int = 200) -> float:
    """Returns the mean processor time of a message in seconds."""
    begun = server.processor()
    for message in messages:
        ask(server, message, status)
    return (server.processor() - begun) / len(messages)


def times(lots: int) -> dict[str, float]:
    """Returns the mean processor time of each kind of request."""
    turns = range(REQUESTS)
    with tempfile.TemporaryDirectory(dir=MEMORY) as folder:
        server = Server(PROGRAM, pathlib.Path(folder) / "shop.db", free_port())
        for message in set_up(lots):
            ask(server, message)
        took = {
            "open": mean_time(server, [request(f"m{turn}", 1, do="open", batch="B1", blank=turn * STEP) for turn in turns]),
            "discard": mean_time(server, [request("store", turn + 1, do="discard", blank=turn * STEP + 1) for turn in turns]),
            "open, refused": mean_time(server, [request("m", turn + 1, do="open", batch="B1", blank=BLANKS + turn) for turn in turns], 409),
        }
        server.kill()
    return took


def main() -> int:
    one, many = times(1), times(MANY)
    for kind in one:
        print(f"{kind}: {one[kind] * 1e3:.2f} ms with one lot, {many[kind] * 1e3:.2f} ms with {MANY:,}, ratio {many[kind] / one[kind]:.2f}")
    return int(any(many[kind] > LIMIT * one[kind] for kind in one))


if __name__ == "__main__":
    sys.exit(main())
