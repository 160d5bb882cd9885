#!/usr/bin/env python3
"""Measures what the requests of one client cost all others: memory for JSON, the time of `shopbook machines`, and starts with a large file.

    bench/run costs [--cards N] [--folder FOLDER] [PART ..]

Requires Linux. The parts `json` and `machines` compare two runs, which take turns, and print the ratio of their medians. `chosen_numbers` and
`lots` measure other costs in the same way.

- json: the memory that a body of 16 MiB takes in addition, if it is nested JSON, and if it is a string
- machines: the time of `shopbook machines` for 40,000 clients, and for 20,000
- starts: the processor time and the memory of a start for a large file, whose cards have twelve requests each. Memory is also given as a multiple
  of the file. `--cards` sets the number of cards (100,352), which must be a multiple of 1,024.

The files are made by plain SQL in FOLDER, and removed afterwards.
"""
import argparse
import pathlib
import shutil
import statistics
import subprocess
import tempfile
import time
from collections import Counter
from typing import Callable, NamedTuple

from batch_files import Product
from contents import Contents, Lot, Reply, Session, rows
from served import Server, exchange, free_port, post
from small_shop import batch_file
from sound_files import OURS, Shape, make

ROUNDS = 3
MIB = 1 << 20
MOST_BODY = 16 * MIB
CLIENTS = 40_000
BATCH_CARDS = 1_024
MOST_BLANKS = 1_000_000
MACHINES = 50
# A record of one grouping that takes ten commands, after the SELECT.
COMMANDS = 11
SMALLEST = 16
GROUPING_SIZE = 147
RESET = b'\0{"do":"reset"}', 200, b'{"result":"reset","session":0}'


class Programs(NamedTuple):
    persod: str
    shopbook: str


# ---- contents of the files


def contents(**parts: object) -> Contents:
    """Returns contents with product P1 and the given parts."""
    empty = Contents({"P1": Product(255, 0, 0)}, [], {}, [], [], Counter(), set(), set(), [], {})
    return empty._replace(**parts)


def with_clients(count: int) -> Contents:
    return contents(replies=[Reply(f"c{place}", 1, *RESET) for place in range(count)])


def with_cards(count: int) -> Contents:
    batches = {f"B{place}": ("P1", batch_file(BATCH_CARDS, GROUPING_SIZE)) for place in range(count // BATCH_CARDS)}
    words = (0x9000,) * COMMANDS
    sessions = [Session(f"m{n % MACHINES}", f"B{n // BATCH_CARDS}", f"R{n % BATCH_CARDS + 1}", n, words) for n in range(count)]
    lots = [Lot(f"L{first}", "P1", first, MOST_BLANKS) for first in range(0, count, MOST_BLANKS)]
    return contents(products={"P1": Product(SMALLEST, 0, 0)}, lots=lots, batches=batches, sessions=sessions)


def file_of(folder: pathlib.Path, name: str, its: Contents) -> pathlib.Path:
    path = folder / f"{name}.db"
    make(path, rows(its), Shape(indices=OURS))
    return path


# ---- measurements


class Start(NamedTuple):
    """The processor time of a start in seconds, its peak memory, and the memory that remains, in bytes."""

    processor: float
    peak: int
    resident: int


def served(program: str, database: pathlib.Path) -> Server:
    """Starts a server on a copy of the file."""
    copy = database.with_suffix(".copy")
    for path in (copy, copy.with_name(f"{copy.name}-wal")):
        path.unlink(missing_ok=True)
    shutil.copyfile(database, copy)
    return Server(program, copy, free_port())


def start(program: str, database: pathlib.Path) -> Start:
    server = served(program, database)
    found = Start(server.processor(), server.peak(), server.resident())
    server.kill()
    return found


def medians(*measures: Callable[[], float]) -> list[float]:
    """Runs the measurements in turn, and returns their medians."""
    return [statistics.median(column) for column in zip(*([measure() for measure in measures] for _ in range(ROUNDS)))]


def report(what: str, first: float, second: float, unit: str) -> None:
    print(f"{what}: {first:.2f} and {second:.2f} {unit}, ratio {first / second:.2f}", flush=True)


def added_memory(program: str, folder: pathlib.Path, body: bytes) -> float:
    """Returns the memory that a server takes for a request in addition, in MiB."""
    server = Server(program, folder / "empty.db", free_port())
    before = server.resident()
    exchange(server.port, post("m1", 1, body))
    found = server.peak() - before
    server.kill()
    return found / MIB


def seconds(words: list[str]) -> float:
    begun = time.perf_counter()
    subprocess.run(words, stdout=subprocess.DEVNULL, check=True)
    return time.perf_counter() - begun


# ---- parts


def json_part(programs: Programs, folder: pathlib.Path, _cards: int) -> None:
    nested = b'{"":' * 120 + b"0" + b"}" * 120
    body = b'{"":[' + b",".join([nested] * (MOST_BODY // (len(nested) + 1) - 1)) + b"]}"
    known = b'{"do":[' + b",".join([nested] * (MOST_BODY // (len(nested) + 1) - 1)) + b"]}"
    text = b'{"do":"' + b"x" * (MOST_BODY - 10) + b'"}'
    for name, nests in (("an unknown member", body), ("a known member", known)):
        found = medians(lambda: added_memory(programs.persod, folder, nests), lambda: added_memory(programs.persod, folder, text))
        report(f"16 MiB of nested JSON in {name}, and of a string", *found, "MiB")


def machines_part(programs: Programs, folder: pathlib.Path, _cards: int) -> None:
    paths = [file_of(folder, f"clients-{count}", with_clients(count)) for count in (CLIENTS, CLIENTS // 2)]
    found = medians(*(lambda path=path: seconds([programs.shopbook, "machines", "--db", str(path)]) for path in paths))
    report(f"shopbook machines with {CLIENTS} and {CLIENTS // 2} clients", *found, "s")


def starts_part(programs: Programs, folder: pathlib.Path, cards: int) -> None:
    paths = [file_of(folder, f"cards-{count}", with_cards(count)) for count in (cards, cards // 2 // BATCH_CARDS * BATCH_CARDS)]
    for path in paths:
        found = [start(programs.persod, path) for _ in range(ROUNDS)]
        size = path.stat().st_size
        processor, peak, resident = (statistics.median(column) for column in zip(*found))
        print(
            f"start with {path.stem.removeprefix('cards-')} cards: {size / MIB:.0f} MiB, {processor:.1f} s; peak {peak / MIB:.0f} MiB, {peak / size:.2f} "
            f"of the file; then {resident / MIB:.0f} MiB, {resident / size:.2f} of the file",
            flush=True,
        )


PARTS = {"json": json_part, "machines": machines_part, "starts": starts_part}


def main() -> None:
    words = argparse.ArgumentParser(description=__doc__, formatter_class=argparse.RawDescriptionHelpFormatter)
    words.add_argument("persod")
    words.add_argument("shopbook")
    words.add_argument("parts", nargs="*", choices=[*PARTS, []], default=list(PARTS))
    words.add_argument("--cards", type=int, default=98 * BATCH_CARDS)
    words.add_argument("--folder")
    given = words.parse_args()
    for name in given.parts:
        with tempfile.TemporaryDirectory(dir=given.folder) as folder:
            PARTS[name](Programs(given.persod, given.shopbook), pathlib.Path(folder), given.cards)


if __name__ == "__main__":
    main()
