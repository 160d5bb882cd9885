#!/usr/bin/env python3
"""Compares the audit of a file with colliding request numbers with the audit of a file with random ones.

    bench/run chosen_numbers

Both files have the same batch, and the kept replies of one client. Only the request numbers differ: those of parts/colliding.py collide in a hash
table with a fixed seed, so with such a table the audit takes quadratic time. `persod report` audits the files in turn.

The script prints the median processor seconds for each file, and their ratio. With a hash table the ratio was 14 for 40,000 replies. Exit status:
1 if the ratio is above MOST, or if a file is refused."""
import pathlib
import random
import resource
import statistics
import subprocess
import sys
import tempfile
from itertools import islice
from typing import Iterable

from colliding import END, colliding
from contents import WORKED, Reply, rows
from sound_files import OURS, Shape, make

PERSOD = sys.argv[1]
CLIENT = "m1"
COUNT = 40_000
ROUNDS = 5
MOST = 3.0
ASK = b'\0{"do":"reset","session":1}'
BODY = b'{"result":"spoiled","session":1}'


def write_file(path: pathlib.Path, numbers: Iterable[int]) -> None:
    replies = [Reply(CLIENT, number, ASK, 200, BODY) for number in numbers]
    make(path, rows(WORKED._replace(replies=replies, marks={})), Shape(indices=OURS))


def seconds_of(path: pathlib.Path) -> float:
    """Returns the processor seconds of `persod report`, which opens and audits the file."""
    before = resource.getrusage(resource.RUSAGE_CHILDREN)
    subprocess.run([PERSOD, "report", "--db", path, "--batch", "B1"], check=True, stdout=subprocess.DEVNULL)
    after = resource.getrusage(resource.RUSAGE_CHILDREN)
    return after.ru_utime + after.ru_stime - before.ru_utime - before.ru_stime


def main() -> int:
    draw = random.Random(7)
    numbers = {"random": [draw.randrange(1, END) for _ in range(COUNT)], "colliding": list(islice(colliding(CLIENT), COUNT))}
    for its in numbers.values():
        draw.shuffle(its)
    with tempfile.TemporaryDirectory() as folder:
        files = {name: pathlib.Path(folder) / f"{name}.db" for name in numbers}
        for name, path in files.items():
            write_file(path, numbers[name])
        rounds = [[seconds_of(path) for path in files.values()] for _ in range(ROUNDS)]
    medians = dict(zip(files, (statistics.median(column) for column in zip(*rounds))))
    ratio = medians["colliding"] / medians["random"]
    for name, seconds in medians.items():
        print(f"{COUNT} {name} numbers: {seconds:.2f} s of processor time")
    print(f"ratio: {ratio:.2f}, at most {MOST}")
    return 0 if ratio <= MOST else 1


if __name__ == "__main__":
    sys.exit(main())
