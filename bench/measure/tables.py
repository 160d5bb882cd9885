#!/usr/bin/env python3
"""Measures durable commits, and their SQL statements with two SQLite implementations.

    bench/run tables [FOLDER]

Requires Linux, and takes about three minutes. The database files are in FOLDER, and are removed afterwards. FOLDER must be on a disk, because a
commit waits for a sync.

The script measures answers, openings and imports:

- on a file with few sessions and on one with many
- with batch files of several sizes. An opening and a last answer change the counters of their
  batch, which are in the same row as the bytes of the batch file
- with a record of 16 MB

`measure_tables` serves messages on the tables of a new file, one part at a time, and prints the time of each part. Its times include reading a
message and writing its response, but no pipe. For comparison, two programs execute only the SQL statements of each request, in one transaction
(arrivals.py). `measure_kit` uses the toolchain's crate `sqlite`, so no server that uses the crate can be faster. `same` uses the SQLite library
(WAL, synchronous FULL).

The three programs take turns, in chunks of equal messages. The script prints the median chunk, and the processor time of all chunks. At the end
it checks that all files have the same rows, and the SQLite library checks each file that `measure_tables` wrote. Exit status: 1 if a check
fails.
"""
import json
import os
import pathlib
import shutil
import sqlite3
import statistics
import subprocess
import sys
import tempfile
import time
from typing import Callable, Iterable, NamedTuple

import arrivals
from arrivals import Card, Kept, Runner
from make_batch import coded
from served import post

MEASURE, KIT, SAME = sys.argv[1:4]
HEADER = "record,aid,rank,enc,tol,dgi"
AID = "F00000000101"
FEW = 1_000
MANY = 100_000
CARDS = 1_000
STEP = 1_000
CHUNKS = 10
ROWS = 4_096
MOST_FILE = 16_777_216
OTHERS = 100
SELECTED = "00A4040006" + AID
EACH = 16
ANSWERS = 40


# ---- batch files and messages


def batch_file(records: int, rows: int, size: int) -> bytes:
    """Returns a batch file of `records` records and `rows` rows, with `size` data bytes in each grouping. The rows of a record are adjacent."""
    lines = [HEADER]
    each = rows // records
    for row in range(rows):
        grouping = coded(f"{0x9001 + row % each:04X}", bytes([row % 256]) * size)
        lines.append(f"R{row // each},{AID},1,0,0,{grouping}")
    return ("\n".join(lines) + "\n").encode()


def imported(number: int, batch: str, raw: bytes) -> bytes:
    head = f"POST /c/office/{number}/batch/{batch}/P1 HTTP/1.1\r\nHost: localhost\r\nContent-Length: {len(raw)}\r\n\r\n"
    return head.encode() + raw


def get(target: str) -> bytes:
    return f"GET {target} HTTP/1.1\r\nHost: localhost\r\n\r\n".encode()


def set_up() -> list[bytes]:
    return [
        post("office", 1, '{"do":"product","product":"P1","max":255,"low":0,"check":false}'),
        post("office", 2, lot_body("L1", 0, 1_000_000)),
    ]


def lot_body(name: str, first: int, count: int) -> str:
    return f'{{"do":"lot","lot":"{name}","product":"P1","first":{first},"count":{count}}}'


def open_body(batch: str, blank: int) -> str:
    return f'{{"do":"open","batch":"{batch}","blank":{blank}}}'


def answer_body(session: int, index: int) -> str:
    return f'{{"do":"answer","session":{session},"index":{index},"sw":"9000"}}'


# ---- measure_tables


class Ours:
    """The program `measure_tables` on a new file."""

    def __init__(self, database: pathlib.Path) -> None:
        self.database = database
        self.program = subprocess.Popen([MEASURE, database], stdin=subprocess.PIPE, stdout=subprocess.PIPE)

    def processor(self) -> float:
        """Returns the processor time used so far, in seconds."""
        return int(pathlib.Path(f"/proc/{self.program.pid}/schedstat").read_text().split()[0]) / 1e9

    def serve(self, messages: list[bytes]) -> float:
        """Serves the messages, which must all be accepted, and returns the time in seconds. Messages have no bytes 0 and 1."""
        assert self.program.stdin and self.program.stdout
        self.program.stdin.write(b"\0".join(messages) + b"\1")
        self.program.stdin.flush()
        words = self.program.stdout.readline().decode().split()
        wanted = ["served", str(len(messages)), "accepted", str(len(messages)), "microseconds"]
        if words[:5] != wanted:
            sys.exit(f"measure_tables: {' '.join(words)}, expected {len(messages)} accepted")
        return int(words[5]) / 1e6

    def copy(self, target: pathlib.Path) -> None:
        """Copies the file and its WAL while no message is served."""
        for end in ("", "-wal"):
            shutil.copyfile(f"{self.database}{end}", f"{target}{end}")

    def end(self) -> None:
        assert self.program.stdin
        self.program.stdin.close()
        if self.program.wait() != 0:
            sys.exit(f"measure_tables: status {self.program.returncode}")
        test_file(self.database)


def test_file(database: pathlib.Path) -> None:
    conn = sqlite3.connect(database)
    if conn.execute("PRAGMA integrity_check").fetchall() != [("ok",)] or conn.execute("PRAGMA foreign_key_check").fetchall():
        sys.exit(f"{database}: sqlite3 reports damage")
    conn.close()


# ---- the programs to compare with


class Twins:
    """`measure_kit` and `same`, each on a copy of the file."""

    def __init__(self, ours: Ours, folder: pathlib.Path) -> None:
        self.folder = folder
        self.kit = self.over_copy(ours, "kit", KIT)
        self.same = self.over_copy(ours, "same", SAME)

    def over_copy(self, ours: Ours, name: str, program: str) -> Runner:
        """Starts a program on a copy with an empty WAL."""
        database = self.folder / f"{name}.db"
        ours.copy(database)
        conn = sqlite3.connect(database)
        conn.execute("PRAGMA wal_checkpoint(TRUNCATE)")
        conn.close()
        return Runner(program, database, self.folder / "texts")

    def end(self, ours: Ours) -> None:
        """Ends both programs, and checks that their files have the same rows as ours."""
        ours.copy(self.folder / "after.db")
        for name, runner in (("kit", self.kit), ("same", self.same)):
            runner.end()
            test_equal(self.folder / "after.db", self.folder / f"{name}.db")


def reply_body(**members) -> bytes:
    return json.dumps(members, separators=(",", ":"), sort_keys=True).encode()


def opened(client: str, card: Card, session: int, blank: int) -> bytes:
    its = {"batch": card.name, "blank": blank, "command": SELECTED, "index": 0}
    body = reply_body(record=f"R{card.place}", result="command", session=session, **its)
    kept = Kept(client, 1, b"\0" + open_body(card.name, blank).encode(), body)
    return arrivals.opening(kept, card, session, blank, "L1")


def answered(client: str, card: Card, session: int, index: int, command: str) -> bytes:
    """Returns the statements for a status word after which `command`, a piece of the first segment, is returned."""
    body = reply_body(command=command, index=index + 1, result="command", session=session)
    kept = Kept(client, 2 + index, b"\0" + answer_body(session, index).encode(), body)
    cursor = (0, 0, 255 * index, index + 1)
    return arrivals.answer(kept, card, session, "P1", index, cursor)


def ended(client: str, card: Card, session: int) -> bytes:
    """Returns the statements for the last status word of a card with two commands."""
    ask = b"\0" + answer_body(session, 1).encode()
    kept = Kept(client, 3, ask, reply_body(result="good", session=session))
    return arrivals.last_answer(kept, card, session, "P1", 1, (1, 0, 0, 0))


def taken(number: int, id_: int, batch: str, raw: bytes) -> bytes:
    rows = arrivals.rows_of(raw)
    records = len({row[1] for row in rows})
    body = reply_body(batch=batch, records=records, result="created", rows=len(rows))
    kept = Kept("office", number, f"/batch/{batch}/P1".encode() + b"\0" + raw, body)
    return arrivals.importing(kept, id_, batch, "P1", raw)


def test_equal(ours: pathlib.Path, theirs: pathlib.Path) -> None:
    """Checks that both files have the same rows and rowids."""
    one, other = sqlite3.connect(ours), sqlite3.connect(theirs)
    for (table,) in one.execute("SELECT name FROM sqlite_schema WHERE type = 'table'").fetchall():
        query = f"SELECT rowid, * FROM {table} ORDER BY rowid"
        for mine, their in zip(one.execute(query), other.execute(query), strict=True):
            if mine != their:
                sys.exit(f"the rows of {table} differ:\n{str(mine)[:500]}\n{str(their)[:500]}")
    one.close()
    other.close()


# ---- taking turns


class Times(NamedTuple):
    """The seconds of a message for each of the three programs, and its processor seconds in the same order."""

    ours: float
    kit: float
    same: float
    processor: float
    kit_processor: float
    same_processor: float


def in_turn(
    ours: Ours, twins: Twins, messages: list[bytes], same: list[bytes], chunk: int
) -> Times:
    """Serves the messages, and executes their statements with both other programs. All take turns in chunks."""
    runners = [twins.kit, twins.same]
    begun = [it.processor() for it in (ours, *runners)]
    times = []
    for first in range(0, len(messages), chunk):
        span = slice(first, first + chunk)
        theirs = [sum(it.run(same[span])) for it in runners]
        times.append([took / chunk for took in (ours.serve(messages[span]), *theirs)])
    spent = [(it.processor() - its) / len(messages) for it, its in zip((ours, *runners), begun)]
    return Times(*(statistics.median(column) for column in zip(*times)), *spent)


def heading(what: str) -> None:
    names = ("ours", "kit", "C", "kit's", "C's", "cpu ms", "kit", "C", "C's")
    print(f"\n{what:44}" + "".join(f"{name:>9}" for name in names), flush=True)


def print_times(name: str, times: Times, shown: Callable[[float], float], digits: int) -> None:
    """Prints the times, our rate divided by those of `measure_kit` and `same`, the processor times, and the last ratio by processor time."""
    columns = "".join(f"{shown(seconds):9.{digits}f}" for seconds in times[:3])
    parts = "".join(f"{theirs / times.ours:9.2f}" for theirs in times[1:3])
    spent = "".join(f"{1e3 * seconds:9.2f}" for seconds in times[3:])
    last = f"{times.same_processor / times.processor:9.2f}"
    print(f"{name:44}{columns}{parts}{spent}{last}", flush=True)


def print_rates(name: str, times: Times) -> None:
    print_times(name, times, lambda seconds: 1 / seconds, 1 if times.ours > 0.05 else 0)


def print_millis(name: str, times: Times) -> None:
    print_times(name, times, lambda seconds: 1e3 * seconds, 2)


def print_disk(folder: pathlib.Path) -> None:
    """Prints the time to write and sync 4 KiB, at the end of a file and within it."""
    where = subprocess.run(["df", "--output=source,fstype,target", folder], capture_output=True, check=True, text=True).stdout
    source, kind, target = where.splitlines()[1].split()
    if kind in ("tmpfs", "ramfs"):
        sys.exit(f"{folder} isn't on a disk")
    handle = os.open(folder / "probe", os.O_RDWR | os.O_CREAT)
    synced = []
    for place in [*range(300)] * 2:
        start = time.perf_counter()
        os.pwrite(handle, bytes(4_096), place * 4_096)
        os.fdatasync(handle)
        synced.append(time.perf_counter() - start)
    os.close(handle)
    grown, within = (1e3 * statistics.median(part) for part in (synced[:300], synced[300:]))
    print(f"{folder} on {source} ({kind}, {target}): 4 KiB with fdatasync take {grown:.2f} ms at the end of a file, {within:.2f} ms within it")


# ---- few and many sessions


class Kind(NamedTuple):
    """Messages of one kind."""

    name: str
    messages: list[bytes]


def others(sessions: int) -> list[Kind]:
    """Returns messages of all other kinds, in the order in which they must be sent. The last cards of batch M must still be running."""
    span = range(OTHERS)
    first, second = STEP - 2 * OTHERS, STEP - OTHERS
    done = [
        ("abort", [post(f"n{n}", 3, f'{{"do":"abort","session":{sessions + n + 1}}}') for n in range(first, second)]),
        ("reset", [post(f"n{n}", 3, '{"do":"reset"}') for n in range(second, STEP)]),
        ("remake", [post("office", 20_000 + n, f'{{"do":"remake","batch":"M","record":"R{n}"}}') for n in range(first, second)]),
        ("discard", [post("office", 30_000 + n, f'{{"do":"discard","blank":{999_000 + n}}}') for n in span]),
        ("import of one row", [imported(40_000 + n, f"T{n}", batch_file(1, 1, 2)) for n in span]),
        ("withdraw", [post("office", 50_000 + n, f'{{"do":"withdraw","batch":"T{n}","record":"R0"}}') for n in span]),
        ("close", [post("office", 60_000 + n, f'{{"do":"close","batch":"T{n}"}}') for n in span]),
        ("release", [post(f"n{n}", 9, '{"do":"release","upto":1}') for n in span]),
        ("repeat", [post(f"n{n}", 2, answer_body(sessions + n + 1, 0)) for n in span]),
        ("account of a batch", [get("/batch/M") for _ in span]),
        ("report of a batch", [get("/batch/M/report") for _ in span]),
        ("account of blanks", [get("/blanks/P1") for _ in span]),
        ("product", [post("office", 70_000 + n, f'{{"do":"product","product":"Q{n}","max":99,"low":0,"check":true}}') for n in span]),
        ("lot", [post("office", 80_000 + n, lot_body(f"K{n}", 2_000_000 + n, 1)) for n in span]),
    ]
    return [Kind(*it) for it in done]


def base_messages(sessions: int) -> Iterable[list[bytes]]:
    """Yields the messages that import batches of cards, each opened by its own machine, and then batch M."""
    yield set_up()
    raw = batch_file(CARDS, CARDS, 2)
    for batch in range(sessions // CARDS):
        cards = range(batch * CARDS, (batch + 1) * CARDS)
        yield [imported(10 + batch, f"B{batch}", raw), *(post(f"m{n}", 1, open_body(f"B{batch}", n)) for n in cards)]
    yield [imported(9_000, "M", raw)]


class Took(NamedTuple):
    """The seconds and the processor seconds of a message of one kind."""

    name: str
    seconds: float
    processor: float


def serve_kind(ours: Ours, kind: Kind) -> Took:
    processor = ours.processor()
    seconds = ours.serve(kind.messages)
    return Took(kind.name, seconds / len(kind.messages), (ours.processor() - processor) / len(kind.messages))


def measure_both(folder: pathlib.Path, sessions: int) -> list[Took]:
    """Prints the times of commits after `sessions` sessions were opened, and returns the times of all kinds of messages."""
    folder.mkdir()
    ours = Ours(folder / "ours.db")
    spent = sum(ours.serve(messages) for messages in base_messages(sessions))
    twins = Twins(ours, folder)
    size = (folder / "same.db").stat().st_size / 1e6
    heading(f"commits per second, {sessions} earlier sessions")
    tables = {
        "open": opens_in_turn(ours, twins, sessions),
        "answer": answers_in_turn(ours, twins, sessions),
        "last answer": last_answers_in_turn(ours, twins, sessions),
        f"import of {ROWS} rows": imports_in_turn(ours, twins, sessions),
    }
    for name, times in tables.items():
        print_rates(name, times)
    twins.end(ours)
    end = f"a file of {size:.0f} MB, made in {spent:.0f} s; all files have the same rows"
    print(f"({end})", flush=True)
    took = [Took(name, times.ours, times.processor) for name, times in tables.items()]
    took += [serve_kind(ours, kind) for kind in others(sessions)]
    ours.end()
    return took


def last_batch(sessions: int) -> int:
    """Returns the id of batch M, which follows the batches whose cards were opened before."""
    return sessions // CARDS + 1


def card_of(sessions: int, place: int) -> tuple[str, Card, int]:
    """Returns the machine, the record and the session of a card of batch M."""
    return f"n{place}", Card(last_batch(sessions), "M", place), sessions + place + 1


def opens_in_turn(ours: Ours, twins: Twins, sessions: int) -> Times:
    messages = [post(f"n{n}", 1, open_body("M", 900_000 + n)) for n in range(STEP)]
    same = [opened(*card_of(sessions, n), 900_000 + n) for n in range(STEP)]
    return in_turn(ours, twins, messages, same, STEP // CHUNKS)


def answers_in_turn(ours: Ours, twins: Twins, sessions: int) -> Times:
    messages = [post(f"n{n}", 2, answer_body(sessions + n + 1, 0)) for n in range(STEP)]
    handed = [f"80E2800005{coded('9001', bytes([n % 256]) * 2)}" for n in range(STEP)]
    same = [answered(*card_of(sessions, n), 0, handed[n]) for n in range(STEP)]
    return in_turn(ours, twins, messages, same, STEP // CHUNKS)


def last_answers_in_turn(ours: Ours, twins: Twins, sessions: int) -> Times:
    span = range(STEP - 2 * OTHERS)
    messages = [post(f"n{n}", 3, answer_body(sessions + n + 1, 1)) for n in span]
    same = [ended(*card_of(sessions, n)) for n in span]
    return in_turn(ours, twins, messages, same, STEP // CHUNKS)


def imports_in_turn(ours: Ours, twins: Twins, sessions: int) -> Times:
    raw = batch_file(1_024, ROWS, 2)
    messages = [imported(9_100 + n, f"I{n}", raw) for n in range(CHUNKS)]
    same = [taken(9_100 + n, last_batch(sessions) + 1 + n, f"I{n}", raw) for n in range(CHUNKS)]
    return in_turn(ours, twins, messages, same, 1)


def print_growth(folder: pathlib.Path) -> None:
    few, many = (measure_both(folder / str(sessions), sessions) for sessions in (FEW, MANY))
    columns = "".join(f"{name:>9}" for name in (FEW, MANY, "growth", "cpu", "cpu", "growth"))
    print(f"\n{'milliseconds per message, by earlier sessions':44}{columns}")
    for before, after in zip(few, many):
        wall = f"{1e3 * before.seconds:9.3f}{1e3 * after.seconds:9.3f}{after.seconds / before.seconds:9.2f}"
        processor = f"{1e3 * before.processor:9.3f}{1e3 * after.processor:9.3f}{after.processor / before.processor:9.2f}"
        print(f"{before.name:44}{wall}{processor}")


# ---- counters next to a batch file


class File(NamedTuple):
    """A batch file: the data bytes of a grouping, the number of cards to open, and the size of a chunk."""

    name: str
    data: int
    cards: int
    chunk: int


FILES = [File("0.2 MB", 2, 100, 10), File("0.6 MB", 60, 100, 10), File("16 MB", 2_030, 20, 4)]


def measure_file(folder: pathlib.Path, file: File) -> None:
    """Prints the times of openings and answers for a batch file of 1,024 records and 4,096 rows."""
    raw = batch_file(1_024, ROWS, file.data)
    raw += b"\n" * (MOST_FILE - len(raw)) if file.name == "16 MB" else b""
    ours, twins = beside_file(folder, raw)
    opens = [post(f"n{n}", 1, open_body("M", n)) for n in range(file.cards)]
    same = [opened(*card_of(0, n), n) for n in range(file.cards)]
    print_millis("open, which changes counters", in_turn(ours, twins, opens, same, file.chunk))
    answers = [post(f"n{n}", 2, answer_body(n + 1, 0)) for n in range(file.cards)]
    same = [answered(*card_of(0, n), 0, command_of(raw, n)) for n in range(file.cards)]
    print_millis("answer, which changes none", in_turn(ours, twins, answers, same, file.chunk))
    twins.end(ours)
    ours.end()


def beside_file(folder: pathlib.Path, raw: bytes) -> tuple[Ours, Twins]:
    """Imports a file as batch M, and prints the time."""
    folder.mkdir()
    ours = Ours(folder / "ours.db")
    ours.serve(set_up())
    twins = Twins(ours, folder)
    heading(f"milliseconds with a file of {len(raw)} bytes")
    asked, same = [imported(3, "M", raw)], [taken(3, 1, "M", raw)]
    print_millis("its import", in_turn(ours, twins, asked, same, 1))
    return ours, twins


def command_of(raw: bytes, card: int) -> str:
    """Returns the first STORE DATA of a card with four rows of one rank."""
    lines = raw.decode().split()[1 + 4 * card:5 + 4 * card]
    return piece_of("".join(line.rpartition(",")[2] for line in lines), 0)


def piece_of(sent: str, block: int) -> str:
    """Returns the STORE DATA of a segment with this block number."""
    piece = sent[510 * block:510 * (block + 1)]
    is_last = len(sent) <= 510 * (block + 1)
    return f"80E2{'80' if is_last else '00'}{block:02X}{len(piece) // 2:02X}{piece}"


# ---- a record of 16 MB


def measure_record(folder: pathlib.Path) -> None:
    """Prints the times of an opening and of answers for a record with all rows, 16 in each application."""
    raw = record_file()
    ours, twins = beside_file(folder, raw)
    opening = [post("n0", 1, open_body("M", 0))], [opened(*card_of(0, 0), 0)]
    print_millis("open", in_turn(ours, twins, *opening, 1))
    sent = "".join(line.rpartition(",")[2] for line in raw.decode().split()[1:1 + EACH])
    answers = [post("n0", 2 + index, answer_body(1, index)) for index in range(ANSWERS)]
    same = [answered(*card_of(0, 0), index, piece_of(sent, index)) for index in range(ANSWERS)]
    print_millis("answer", in_turn(ours, twins, answers, same, 4))
    twins.end(ours)
    ours.end()


def record_file() -> bytes:
    lines = [HEADER]
    for row in range(ROWS):
        grouping = coded(f"{0x9001 + row % EACH:04X}", bytes([row % 256]) * 2_030)
        lines.append(f"R0,F000000{0x101 + row // EACH:05X},1,0,0,{grouping}")
    return ("\n".join(lines) + "\n").encode()


def main() -> None:
    where = sys.argv[4] if len(sys.argv) > 4 else None
    with tempfile.TemporaryDirectory(dir=where) as name:
        folder = pathlib.Path(name)
        print_disk(folder)
        for file in FILES:
            measure_file(folder / file.name.replace(" ", "_"), file)
        measure_record(folder / "record")
        print_growth(folder)


if __name__ == "__main__":
    main()
