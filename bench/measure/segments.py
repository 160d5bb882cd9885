#!/usr/bin/env python3
"""Measures the processor time of an answer, by the number of segments of its record.

    bench/run segments

Requires Linux. A batch has a record with many applications, and a record with two. Each application has one grouping of 16,000 bytes, so it has
one segment. The largest batch has 16 MB. A card of each record is opened, and its first answers are timed together. The database file is on a
disk in memory.
"""
import json
import pathlib
import sys
import tempfile

from make_batch import coded
from served import Server, exchange, free_port, imported, parts, request

PROGRAM = sys.argv[1]
APPLICATIONS = 2, 64, 255, 500
MANY, FEW = "R1", "R2"
SIZE = 16_000
ANSWERS = 120
MEMORY = "/dev/shm"


def batch_file(applications: int) -> bytes:
    lines = ["record,aid,rank,enc,tol,dgi"]
    for record, count in (MANY, applications), (FEW, 2):
        lines += [f"{record},F00000{number:06X},1,0,0,{coded('9001', bytes(SIZE))}" for number in range(count)]
    return ("\n".join(lines) + "\n").encode()


def asked(server: Server, message: bytes) -> dict[str, object]:
    reply = parts(exchange(server.port, message))
    if not reply or reply[0] != 200:
        sys.exit(f"unexpected reply {reply} to {message[:80]!r}")
    return json.loads(reply[1])


def time_of_answer(server: Server, machine: str, blank: int, record: str) -> float:
    """Returns the mean processor seconds of the first answers of a new card."""
    opened = asked(server, request(machine, 1, do="open", batch="B1", blank=blank))
    assert opened["record"] == record, opened
    begun = server.processor()
    for index in range(ANSWERS):
        asked(server, request(machine, index + 2, do="answer", session=opened["session"], index=index, sw="9000"))
    return (server.processor() - begun) / ANSWERS


def times(applications: int) -> tuple[float, float]:
    """Returns the times for the record with `applications` applications, and for the one with two."""
    with tempfile.TemporaryDirectory(dir=MEMORY) as folder:
        server = Server(PROGRAM, pathlib.Path(folder) / "shop.db", free_port())
        asked(server, request("office", 1, do="product", product="P1", max=255, low=0, check=False))
        asked(server, request("office", 2, do="lot", lot="L1", product="P1", first=1000, count=3))
        asked(server, imported("office", 3, "B1", "P1", batch_file(applications)))
        took = time_of_answer(server, "m1", 1000, MANY), time_of_answer(server, "m2", 1001, FEW)
        server.kill()
    return took


def main() -> None:
    for applications in APPLICATIONS:
        many, few = times(applications)
        print(f"{applications:4} applications: {many * 1e3:.2f} ms per answer; of two: {few * 1e3:.2f} ms; ratio {many / few:.2f}", flush=True)


if __name__ == "__main__":
    main()
