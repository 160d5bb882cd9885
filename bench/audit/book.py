#!/usr/bin/env python3
"""Compares each line of `shopbook` with plain SQL, and checks that it doesn't change the files.

    bench/run book [--cases N] [--seed TEXT]

The sound files are those of contents.py in each shape of sound_files.py, N drawn by drawn.py with the seed, and one of a killed server. Some
have their rows in a WAL. The script also tries damaged files of each schema version.

SQL never reads the files that `shopbook` reads, because the SQLite library would copy and delete the WAL. It reads files with the same rows.

Exit status: 1 if a line or an exit status is wrong, or if a file or its WAL has changed. `is_left` describes the change of a WAL that is
allowed.
"""
import argparse
import json
import pathlib
import random
import sqlite3
import subprocess
import sys
import tempfile
from typing import Any, Iterator, NamedTuple

from contents import FOR_VERSION, WORKED_ROWS, rows
from drawn import drawn
from schema import VERSIONS, tables_of
from sheet import make_cards
from sheet_page import Page, page_lines
from sound_files import OTHERS, Shape, beside, copied, make, shapes, with_wal

CASES = 200
SECONDS = 120
PER_BOOT = 10 ** 7
MOST_BOOT = 10 ** 10 - 1
WAL_HEAD, FRAME_HEAD, GATE = 32, 24, 9
STATES = "running", "good", "spoiled", "discarded"
STATE = "CASE WHEN kind = 1 THEN 'discarded' ELSE CASE session.state WHEN 0 THEN 'running' WHEN 1 THEN 'good' ELSE 'spoiled' END END"
COLUMNS = {
    "file": ("version", "verdict", "rule"),
    "table": ("name", "count"),
    "room": ("name", "count"),
    "product": ("name", "max", "low", "check"),
    "lot": ("name", "product", "first", "count", "free", "used", "discarded"),
    "batch": ("name", "product", "state", "records", "waiting", "running", "failed", "withdrawn", "good", "sessions", "spoiled"),
    "limit": ("name", "used", "allowed"),
    "size": ("bytes",),
    "card": ("record", "session", "machine", "serial", "state", "words", "last"),
    "machine": ("name", "running", "mark", "kept", "boot"),
    "blank": ("serial", "lot", "state", "record", "batch"),
    "sums": ("lots", "total", "free", "good", "running", "spoiled", "discarded"),
}
DIGITS = "serial", "first", "mark"
MOST = {"product": 256, "lot": 4096, "batch": 4096}
Line = tuple[Any, ...]

PRODUCTS = "SELECT 'product', name, max, low, CASE checked WHEN 1 THEN 'yes' ELSE 'no' END FROM product ORDER BY rowid"
CHARGED = "(SELECT count(*) FROM blank WHERE serial >= low_serial AND serial < low_serial + amount{})"
LOTS = f"""SELECT 'lot', name, product, low_serial, amount, amount - {CHARGED.format('')}, {CHARGED.format(' AND kind = 0')}, {CHARGED.format(' AND kind = 1')}
    FROM lot ORDER BY low_serial"""
RECORDS = ", ".join(f"(SELECT count(*) FROM record WHERE batch = b.id AND state = {state})" for state in range(5))
BATCHES = f"""SELECT 'batch', name, product, CASE closed WHEN 1 THEN 'closed' ELSE 'open' END, (SELECT count(*) FROM record WHERE batch = b.id), {RECORDS},
    (SELECT count(*) FROM session WHERE batch = b.id), (SELECT count(*) FROM session WHERE batch = b.id AND state = 2) FROM batch b ORDER BY id"""
BLANKS = f"""SELECT 'blank', blank.serial, blank.lot, {STATE} AS state, record.name, batch.name FROM blank JOIN lot ON lot.name = blank.lot
    LEFT JOIN session ON session.serial = blank.serial LEFT JOIN batch ON batch.id = session.batch
    LEFT JOIN record ON record.batch = session.batch AND record.place = session.place WHERE lot.product = ? ORDER BY blank.serial"""
CARDS = """SELECT 'card', record.name, session.id, machine, serial, CASE session.state WHEN 0 THEN 'running' WHEN 1 THEN 'good' ELSE 'spoiled' END, words,
    (SELECT printf('%04X', sw) FROM word WHERE word.session = session.id ORDER BY word.place DESC LIMIT 1) FROM session
    JOIN record ON record.batch = session.batch AND record.place = session.place JOIN batch ON batch.id = record.batch
    WHERE batch.name = ? ORDER BY record.place, session.id"""
CLIENTS = "SELECT machine FROM session ORDER BY id", "SELECT client FROM reply ORDER BY rowid", "SELECT client FROM mark ORDER BY rowid"


class Wanted(NamedTuple):
    """The expected output and exit of a run."""

    lines: list[Line]
    status: int = 0
    error: str = ""


def check_lines(conn: sqlite3.Connection, version: int, rule: str | None) -> list[Line]:
    counts = {table.name.replace("grouping2", "grouping"): conn.execute(f"SELECT count(*) FROM {table.name}").fetchone()[0]
              for table in tables_of(version) if table.name != "version"}
    counts.setdefault("mark", 0)
    return [("file", version, "unsound" if rule else "sound", rule), *(("table", name, count) for name, count in counts.items()),
            *(("room", name, most - counts[name]) for name, most in MOST.items())]


def list_lines(conn: sqlite3.Connection, size: int) -> list[Line]:
    """Returns the expected lines of `list` for a file of `size` bytes."""
    used = {name: conn.execute(f"SELECT count(*) FROM {name}").fetchone()[0] for name in MOST}
    return [*(line for sql in (PRODUCTS, LOTS, BATCHES) for line in conn.execute(sql)),
            *(("limit", name, used[name], most) for name, most in MOST.items()), ("size", size)]


def blank_lines(conn: sqlite3.Connection, product: str, state: str | None) -> list[Line]:
    its = conn.execute(BLANKS, (product,)).fetchall()
    lots, total = conn.execute("SELECT count(*), coalesce(sum(amount), 0) FROM lot WHERE product = ?", (product,)).fetchone()
    good, running, spoiled, discarded = (sum(line[3] == word for line in its) for word in ("good", "running", "spoiled", "discarded"))
    sums = ("sums", lots, total, total - len(its), good, running, spoiled, discarded)
    return [*(line for line in its if state in (None, line[3])), sums]


def machine_lines(conn: sqlite3.Connection, version: int) -> list[Line]:
    """Returns the expected lines of `machines`: the clients by first appearance. The next boot number is above those of the kept request numbers
    and the release mark."""
    marks = dict(conn.execute("SELECT client, upto FROM mark")) if version > 1 else {}
    found = []
    for name in dict.fromkeys(name for sql in CLIENTS[:2 + (version > 1)] for name, in conn.execute(sql)):
        running = conn.execute("SELECT id FROM session WHERE machine = ? AND state = 0", (name,)).fetchone()
        kept, last = conn.execute("SELECT count(*), coalesce(max(number), 0) FROM reply WHERE client = ?", (name,)).fetchone()
        boot = 1 + max(last, marks.get(name, 0)) // PER_BOOT
        found.append(("machine", name, running and running[0], marks.get(name), kept, boot if boot <= MOST_BOOT else None))
    return found


def runs(twin: pathlib.Path, path: pathlib.Path, version: int, rule: str | None) -> Iterator[tuple[list[str], Wanted]]:
    """Yields the arguments of each run on the file `path`, which has the same rows as `twin`, and the expected result."""
    conn = sqlite3.connect(twin)
    products = [name for name, in conn.execute("SELECT name FROM product")]
    if rule:
        yield ["check"], Wanted(check_lines(conn, version, rule), 1, "refused 82")
        yield ["list"], Wanted([], 1, "refused 82")
        for words in (["cards", "--batch", "B1"], ["blanks", "--product", "P1"], ["machines"], ["sheet", "--batch", "B1"]):
            yield words, Wanted([], 1, "refused 82")
    else:
        yield ["check"], Wanted(check_lines(conn, version, None))
        yield ["list"], Wanted(list_lines(conn, path.stat().st_size))
        yield ["machines"], Wanted(machine_lines(conn, version))
        for batch in conn.execute(BATCHES).fetchall():
            yield ["cards", f"--batch={batch[1]}"], Wanted(cards := conn.execute(CARDS, (batch[1],)).fetchall())
            yield ["sheet", f"--batch={batch[1]}"], Wanted([(line,) for line in page_lines(conn, batch, cards)])
        yield ["cards", "--batch", "B9"], Wanted([], 1, "refused 56")
        yield ["sheet", "--batch", "B9"], Wanted([], 1, "refused 56")
        for product in products:
            for state in (None, *STATES):
                words = ["blanks", f"--product={product}", *(["--state", state] if state else [])]
                yield words, Wanted(blank_lines(conn, product, state))
        yield ["blanks", "--product", "P9"], Wanted([], 1, "refused 52")
    conn.close()


def files_of(path: pathlib.Path) -> dict[str, bytes]:
    """Returns the bytes of a file and of the files next to it. A WAL without a frame is left out."""
    found = {end: beside(path, end) for end in ("", "-wal", "-shm", "-journal")}
    return {end: its.read_bytes() for end, its in found.items() if its.exists() and (end == "" or its.stat().st_size > WAL_HEAD + GATE)}


def is_left(before: dict[str, bytes], after: dict[str, bytes]) -> bool:
    """Returns whether the bytes are unchanged. One change is allowed: if a WAL ends with a frame, as SQLite writes it, an open appends nine bytes,
    as persod's own WAL has them. The last of these bytes differs from the first byte of the salt, so no frame begins with them."""
    wal = before.get("-wal", b"")
    page, salt = int.from_bytes(wal[8:12], "big"), wal[16:17]
    ends_with_frame = len(wal) > WAL_HEAD and (len(wal) - WAL_HEAD) % (FRAME_HEAD + page) == 0
    gate = bytes(GATE - 1) + (b"\1" if salt == b"\0" else b"\0")
    return after == before or ends_with_frame and after == {**before, "-wal": wal + gate}


def text_of(line: Line) -> str:
    return " ".join("-" if cell is None else str(cell) for cell in line)


def object_of(line: Line) -> dict[str, Any]:
    cells = zip(COLUMNS[line[0]], line[1:], strict=True)
    return {"line": line[0], **{key: str(cell) if key in DIGITS and cell is not None else cell for key, cell in cells}}


def difference(program: str, path: pathlib.Path, words: list[str], wanted: Wanted, is_json: bool) -> str | None:
    """Returns how a run differs from the expected result, or None."""
    before = files_of(path)
    run = subprocess.run([program, words[0], "--db", str(path), *words[1:], *(["--json"] if is_json else [])], capture_output=True, timeout=SECONDS)
    text = run.stdout.decode()
    found = Page(text).lines if words[0] == "sheet" else text.splitlines()
    error = run.stderr.decode().splitlines()[-1:]
    if is_json and (lines := [json.loads(line) for line in found]) != (right := [object_of(line) for line in wanted.lines]):
        return next((f"{one} instead of {other}" for one, other in zip(lines, right) if one != other), f"{len(lines)} lines instead of {len(right)}")
    if not is_json and found != (texts := [text_of(line) for line in wanted.lines]):
        return next((f"{one} instead of {other}" for one, other in zip(found, texts) if one != other), f"{len(found)} lines instead of {len(texts)}")
    if (run.returncode, error) != (wanted.status, [wanted.error] if wanted.error else []):
        return f"status {run.returncode} and {error}"
    return None if is_left(before, files_of(path)) else "the file or its WAL has changed"


DAMAGES = {
    "a lot's counter": ("UPDATE lot SET discarded = discarded + 1", "lot-counters"),
    "a batch's counter": ("UPDATE batch SET good = good + 1", "files"),
    "a session's state": ("UPDATE session SET state = 2 WHERE id = 2", "files"),
    "an additional word": ("INSERT INTO word VALUES (1, 2, 36864)", "files"),
    "an additional blank": ("INSERT INTO blank VALUES (1002, 'L1', 0)", "opened-blanks"),
    "an additional remake": ("INSERT INTO remake VALUES (1, 0, 2)", "remakes"),
}


Case = tuple[str, pathlib.Path, list[str], Wanted]


def sound_cases(folder: pathlib.Path, count: int, seed: str) -> Iterator[Case]:
    twin = folder / "twin.db"
    for version in VERSIONS:
        for made, its in (("worked", WORKED_ROWS), ("rich", rows(FOR_VERSION[version]))):
            make(twin, its, Shape(version))
            for shape, how in shapes(version).items():
                make(path := folder / f"{made}-{version}-{shape}.db".replace(" ", "-"), its, how)
                for words, wanted in runs(twin, path, version, None):
                    yield f"{made}, version {version}, {shape}", path, words, wanted
    for number in range(count):
        draw = random.Random(f"{seed} {number}")
        version = draw.choice(VERSIONS)
        its = rows(drawn(draw, version))
        shape, how = draw.choice(list(shapes(version).items()))
        make(twin, its, Shape(version))
        make(path := folder / f"drawn-{number}.db", its, how)
        for words, wanted in runs(twin, path, version, None):
            yield f"drawn {number}, version {version}, {shape}", path, words, wanted
        path.unlink()


def killed_cases(persod: str, folder: pathlib.Path) -> Iterator[Case]:
    """Yields the runs on the file of a killed server, whose WAL wasn't copied into the file."""
    make_cards(persod, path := folder / "killed.db")
    copied(path, twin := folder / "killed-twin.db")
    for words, wanted in runs(twin, path, 3, None):
        yield "a killed server", path, words, wanted


def damaged_cases(folder: pathlib.Path) -> Iterator[Case]:
    twin = folder / "twin.db"
    for version in VERSIONS:
        for number, (name, (sql, rule)) in enumerate(DAMAGES.items()):
            make(twin, WORKED_ROWS, Shape(version), sql)
            for shape, how in (("", Shape(version)), (", with a WAL", with_wal(version))):
                make(path := folder / f"damaged-{version}-{number}{'-wal' if shape else ''}.db", WORKED_ROWS, how, sql)
                for words, wanted in runs(twin, path, version, rule):
                    yield f"{name}, version {version}{shape}", path, words, wanted


def other_cases(folder: pathlib.Path) -> Iterator[Case]:
    for number, (name, sql) in enumerate(OTHERS.items()):
        for shape, how in (("", Shape()), (", with a WAL", with_wal(3))):
            make(path := folder / f"other-{number}{'-wal' if shape else ''}.db", WORKED_ROWS, how, sql)
            yield f"{name}{shape}", path, ["check"], Wanted([], 1, "refused 81")
    for number, (name, text) in enumerate((("no file", None), ("an empty file", b""), ("a file of one byte", b"\0"), ("other bytes", b"no database\n" * 100))):
        path = folder / f"bytes-{number}.db"
        if text is not None:
            path.write_bytes(text)
        yield name, path, ["list"], Wanted([], 1, "refused 81")
    make(path := folder / "emptied.db", WORKED_ROWS, with_wal(3))
    path.write_bytes(b"")
    yield "an empty file, with a WAL", path, ["list"], Wanted([], 1, "refused 81")


def cases(persod: str, folder: pathlib.Path, count: int, seed: str) -> Iterator[Case]:
    yield from killed_cases(persod, folder)
    yield from sound_cases(folder, count, seed)
    yield from damaged_cases(folder)
    yield from other_cases(folder)


def main() -> None:
    parser = argparse.ArgumentParser(description=__doc__.splitlines()[0])
    parser.add_argument("persod")
    parser.add_argument("program")
    parser.add_argument("--cases", type=int, default=CASES)
    parser.add_argument("--seed", default="1")
    words_of = parser.parse_args()
    tried = beside_wal = wrong = 0
    with tempfile.TemporaryDirectory() as folder:
        for name, path, words, wanted in cases(words_of.persod, pathlib.Path(folder), words_of.cases, words_of.seed):
            was_there = path.exists()
            for is_json in (False, True) if words[0] != "sheet" else (False,):
                tried += 1
                beside_wal += "-wal" in files_of(path)
                found = difference(words_of.program, path, words, wanted, is_json)
                if found is None and path.exists() != was_there:
                    found = "a file was created"
                if found is not None:
                    wrong += 1
                    print(f"{name}, {' '.join(words)}{' --json' if is_json else ''}: {found}")
    print(f"book: {tried} runs, {beside_wal} of them next to a WAL with rows, {wrong} wrong")
    sys.exit(wrong > 0)


if __name__ == "__main__":
    main()
