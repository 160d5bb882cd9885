#!/usr/bin/env python3
"""Measures the speed of `tlv_check::is_record` and the memory of `batch_import::check_batch`.

    bench/run check

Requires Linux. The script runs programs/measure_lists.txt.

The speed is the number of bytes divided by the time of `measure_lists records` minus the time of `measure_lists raw`, which only reads the same input. Each
time is the best of several runs, and a difference below 1 ms counts as 1 ms.

The memory is that of `measure_lists batch` minus that of `measure_lists raw` on the same batch, for each row:

- resident: the median of the peak resident size over several runs, including the stack and the pages of the program, in pages of 4 KiB
- less one row: the same minus the value of a batch with one row
- allocated: the peak of the bytes allocated by `malloc`, as the C library's libmemusage counts them, or `-` if this library is missing
"""
import os
import pathlib
import re
import statistics
import subprocess
import sys
import tempfile

from make_batch import tlv
from plan import Batch, cards, many_records, one_application, one_row, own_applications
from process import PIPE, best_time, peak

LISTS = sys.argv[1]
RUNS = 10
PEAK_RUNS = 25
RECORD = 16_000
CONTENT = RECORD - 4
RECORDS = 4000


def filled(part: bytes, size: int) -> bytes:
    """Returns as many copies of `part` as fit into `size` bytes, followed by filler bytes."""
    return (part * (size // len(part))).ljust(size, b"\0")


def nested(levels: int, size: int) -> bytes:
    return filled(tlv("5A", b""), size) if levels == 0 else tlv("E1", nested(levels - 1, size - 4))


def contents() -> dict[str, bytes]:
    return {
        "one primitive object": tlv("5A", b"\1" * (CONTENT - 4)),
        "one object with a long tag": b"\x5F" + b"\x81" * (CONTENT - 3) + b"\1" + b"\0",
        "primitive objects of 3 bytes": filled(tlv("5A", b"\1"), CONTENT),
        "primitive objects of 2 bytes": filled(tlv("5A", b""), CONTENT),
        "these, nested eight levels deep": nested(7, CONTENT),
        "constructed objects in two levels": filled(tlv("E1", tlv("E2", tlv("5A", b""))), CONTENT),
        "empty constructed objects": filled(tlv("E1", b""), CONTENT),
        "fillers": bytes(CONTENT),
    }


def output_of(work: str, path: pathlib.Path) -> str:
    with path.open("rb") as source:
        return subprocess.run([LISTS, work], stdin=source, capture_output=True, check=True, text=True).stdout.strip()


def expect(work: str, path: pathlib.Path, wanted: str) -> None:
    if (found := output_of(work, path)) != wanted:
        sys.exit(f"measure_lists {work}: {found}, expected {wanted}")


def speed(content: bytes, path: pathlib.Path) -> float:
    """Returns the speed in MB/s, on many copies of a record with this content."""
    record = tlv("70", content)
    if len(record) != RECORD:
        sys.exit(f"a record of {len(record)} bytes")
    path.write_bytes(record * RECORDS)
    expect("records", path, str(RECORDS))
    raw, records = (best_time([LISTS, work], path, RUNS) for work in ("raw", "records"))
    return RECORD * RECORDS / max(records - raw, 0.001) / 1e6


def rows_of(made: Batch) -> int:
    return made.text.count(b"\n") - 1


def resident(path: pathlib.Path) -> int:
    """Returns the resident size. Each program blocks when it writes its line, because its pipe is full from the start."""
    raw, batch = (statistics.median_low(peak([LISTS, work], path, PIPE, 0) for _ in range(PEAK_RUNS)) for work in ("raw", "batch"))
    return batch - raw


def most_allocated(work: str, path: pathlib.Path) -> int | None:
    counted = {**os.environ, "LD_PRELOAD": "libmemusage.so", "MEMUSAGE_NO_TIMER": "1"}
    with path.open("rb") as source:
        printed = subprocess.run([LISTS, work], stdin=source, capture_output=True, check=True, env=counted).stderr
    found = re.search(rb"heap peak: (\d+)", printed)
    return int(found[1]) if found else None


def allocated(path: pathlib.Path) -> int | None:
    raw, batch = (most_allocated(work, path) for work in ("raw", "batch"))
    return None if raw is None or batch is None else batch - raw


def write_batch(made: Batch, path: pathlib.Path) -> None:
    path.write_bytes(made.text)
    expect("batch", path, f"rows {rows_of(made)} records {made.records}")


def print_speeds(path: pathlib.Path) -> None:
    print(f"is_record on {RECORDS} records of {RECORD} bytes, best of {RUNS} runs\n")
    print(f"{'content':35} {'MB/s':>7}")
    for name, content in contents().items():
        print(f"{name:35} {speed(content, path):7.0f}")


def print_memory(path: pathlib.Path) -> None:
    write_batch(one_row(2), path)
    floor = resident(path)
    print("\ncheck_batch, bytes for each row in addition to the raw bytes; resident sizes are in pages of 4 KiB")
    print(f"a batch of one row: {floor / 1024:.0f} KiB resident\n")
    print(f"{'batch':33} {'rows':>5} {'resident':>9} {'less one row':>13} {'allocated':>10}")
    for made in (cards(200), one_application(4096), own_applications(4096), many_records(1024)):
        write_batch(made, path)
        rows, pages, bytes_had = rows_of(made), resident(path), allocated(path)
        exact = "-" if bytes_had is None else f"{bytes_had / rows:.1f}"
        print(f"{made.name:33} {rows:5} {pages / rows:9.1f} {(pages - floor) / rows:13.1f} {exact:>10}")


def main() -> None:
    with tempfile.TemporaryDirectory() as name:
        path = pathlib.Path(name) / "input"
        print_speeds(path)
        print_memory(path)


if __name__ == "__main__":
    main()
