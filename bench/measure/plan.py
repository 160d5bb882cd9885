#!/usr/bin/env python3
"""Measures the time, speed and memory of `persod plan`, and their growth with the size of the batch.

    bench/run plan [OPTION..]

Requires Linux. The options are passed to `persod plan`. Use only --low and --check, because the batches are made for pieces of 255 bytes.

- ms: the best time of several runs, from the start of the process to its end. The output is
  discarded
- peak: the peak resident size, read while the program waits to write the end of its output
- growth: the ratio of two times divided by the ratio of the two sizes. 1 is linear, and more is
  worse. The time of a batch of one row is subtracted from both times

The last table is for refused files of the maximum size. Their peak is read while the program waits to print the fault.
"""
import pathlib
import subprocess
import sys
import tempfile
from typing import Iterator, NamedTuple

from make_batch import coded
from process import PIPE, best_time, peak

MAKER = pathlib.Path(__file__).resolve().parents[1] / "demo" / "make_batch.py"
HEADER = "record,aid,rank,enc,tol,dgi"
AID = "F00000000101"
RUNS = 25
MOST_FILE = 16_777_216


class Batch(NamedTuple):
    name: str
    text: bytes
    records: int


class Measured(NamedTuple):
    size: int
    seconds: float
    peak: int


def cards(records: int) -> Batch:
    maker = [sys.executable, str(MAKER), "--records", str(records), "--seed", "1"]
    return Batch(f"{records} cards", subprocess.run(maker, check=True, capture_output=True).stdout, records)


def batch(name: str, records: int, rows: Iterator[str]) -> Batch:
    return Batch(name, "\n".join([HEADER, *rows, ""]).encode(), records)


def grouping(k: int, size: int) -> str:
    """Returns grouping `k`. Each `k` has a different identifier, which isn't that of an EMV record."""
    return coded(f"{0x9000 + k:04X}", bytes([k % 256]) * size)


def one_row(size: int) -> Batch:
    return batch(f"1 row of {size} data bytes", 1, iter([f"R1,{AID},1,0,0,{grouping(0, size)}"]))


def one_application(rows: int) -> Batch:
    """Returns a batch with one application. With 4,096 rows it has 256 * 255 bytes, the maximum for an application."""
    made = (f"R1,{AID},1,0,0,{grouping(k, 12 if k % 16 == 0 else 13)}" for k in range(rows))
    return batch(f"{rows} rows of one application", 1, made)


def own_applications(rows: int) -> Batch:
    made = (f"R1,F00000{k:08X},1,0,0,{grouping(k, 13)}" for k in range(rows))
    return batch(f"{rows} applications of one row", 1, made)


def own_segments(applications: int) -> Batch:
    """Returns a batch in which each row is a segment, and the segments are sent in reverse order."""
    made = (f"R1,F00000{a:08X},{256 - k},0,0,{grouping(k, 13)}" for a in range(applications) for k in range(256))
    return batch(f"{applications * 256} segments of one row", 1, made)


def many_records(records: int) -> Batch:
    made = (f"R{r},{AID},1,0,0,{grouping(k, 13)}" for r in range(records) for k in range(4))
    return batch(f"{records} records of four rows", records, made)


def mixed_records(records: int) -> Batch:
    made = (f"R{r},{AID},1,0,0,{grouping(k, 13)}" for k in range(4) for r in range(records))
    return batch(f"{records} records, rows mixed", records, made)


def large_groupings(rows: int) -> Batch:
    made = (f"R1,F00000{k // 3:08X},1,0,0,{grouping(k, 16384)}" for k in range(rows))
    return batch(f"{rows} groupings of 16384 bytes", 1, made)


def output_of(words: list[str], path: pathlib.Path, records: int) -> int:
    """Runs the program once, and returns the size of the output, which has a line for each record."""
    with path.open("rb") as source:
        ran = subprocess.run(words, stdin=source, capture_output=True)
    found = sum(line.startswith(b"record ") for line in ran.stdout.split(b"\n"))
    if ran.returncode or found != records:
        sys.exit(f"{path.name}: status {ran.returncode}, {found} records, {ran.stderr.decode(errors='replace').strip()}")
    return len(ran.stdout)


def measure(words: list[str], made: Batch, folder: pathlib.Path) -> Measured:
    path = folder / f"{made.name.replace(' ', '-')}.csv"
    path.write_bytes(made.text)
    written = output_of(words, path, made.records)
    # The pipe holds the rest of the output.
    highest = peak(words, path, 0, written - PIPE - 1) if written > PIPE else 0
    return Measured(len(made.text), best_time(words, path, RUNS), highest)


def refused() -> Iterator[tuple[str, bytes]]:
    """Yields files of the maximum size that consist of one row, or nearly."""
    header = HEADER.encode() + b"\n"
    yield "a row of commas", b"," * MOST_FILE
    yield "a header, then a row of commas", header + b"," * (MOST_FILE - len(header))
    yield "a row of one field", b"x" * MOST_FILE
    yield "line ends", b"\n" * MOST_FILE


def main() -> None:
    words = [sys.argv[1], "plan", *sys.argv[2:]]
    pairs = [
        (cards(200), cards(40)),
        (one_application(4096), one_application(512)),
        (own_applications(4096), own_applications(512)),
        (own_segments(16), own_segments(2)),
        (many_records(1024), many_records(128)),
        (mixed_records(1024), mixed_records(128)),
        (large_groupings(30), large_groupings(6)),
        (large_groupings(500), large_groupings(30)),
    ]
    with tempfile.TemporaryDirectory() as name:
        folder = pathlib.Path(name)
        startup = measure(words, one_row(2), folder).seconds
        floor = measure(words, one_row(3000), folder).peak
        print(f"persod {' '.join(words[1:])}: best of {RUNS} runs")
        print(f"startup, a batch of one row: {startup * 1000:.2f} ms, {floor / 1024:.0f} KiB\n")
        print(f"{'batch':33} {'bytes':>9} {'ms':>8} {'MB/s':>7} {'peak KiB':>9} {'peak/input':>10} {'less startup':>12} {'growth':>7}")
        for pair in pairs:
            large, small = (measure(words, made, folder) for made in pair)
            times = (large.seconds - startup) / max(small.seconds - startup, 1e-6)
            growth = times / (large.size / small.size)
            for made, it, grown in ((pair[0], large, f"{growth:7.2f}"), (pair[1], small, "")):
                print(
                    f"{made.name:33} {it.size:9} {it.seconds * 1000:8.2f} {it.size / it.seconds / 1e6:7.1f} {it.peak / 1024:9.0f} "
                    f"{it.peak / it.size:10.2f} {(it.peak - floor) / it.size:12.2f} {grown}".rstrip()
                )

        print(f"\n{'refused':33} {'bytes':>9} {'peak KiB':>18} {'peak/input':>18}")
        for name, text in refused():
            path = folder / "refused.csv"
            path.write_bytes(text)
            highest = peak(words, path, PIPE, 0, "stderr")
            print(f"{name:33} {len(text):9} {highest / 1024:18.0f} {highest / len(text):18.2f}")


if __name__ == "__main__":
    main()
