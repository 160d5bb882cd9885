"""Writes arrivals as SQL statements for `measure_kit` and same.c: the fewest reads that decide an
arrival, its writes, and one commit.

measure/programs/measure_kit.txt describes the format of the lines. Nothing is decided here: the
caller knows what the reads return, and supplies the values of the writes. Statements that the
server also uses are taken from the definitions in its specifications.
"""
import pathlib
import re
import subprocess
from typing import NamedTuple, Union

TOP = pathlib.Path(__file__).resolve().parents[2]
OPENING, ANSWER, LAST, IMPORT = KINDS = ("opening", "answer", "last answer", "import")
# Counters are changed relative to their values, so they need no read.
OWN = {
    "begin": "BEGIN",
    "commit": "COMMIT",
    "lot_at": "SELECT name, product FROM lot WHERE low_serial <= ?1 AND ?1 < low_serial + amount",
    # The plus sign makes the SQLite library use the index by place instead of the one by order.
    "first_aid": "SELECT aid FROM grouping2 WHERE batch = ?1 AND place = ?2 "
    "ORDER BY +line LIMIT 1",
    "groupings": "SELECT line, aid, rank, enc, tol, coded FROM grouping2 WHERE batch = ?1 AND "
    "place = ?2 ORDER BY +line",
    # An index answers this query. For a closed batch the server reads one more column.
    "batch_product": "SELECT id, product FROM batch WHERE name = ?1",
    "one_runs": "UPDATE batch SET waiting = waiting - 1, running = running + 1, "
    "sessions = sessions + 1 WHERE id = ?1",
    "one_is_good": "UPDATE batch SET running = running - 1, good = good + 1 WHERE id = ?1",
}
READS = (
    "mark", "kept", "batch_by_name", "running", "charged", "waiting", "last_session", "session",
    "batch_name", "product", "last_batch",
)
WRITES = (
    "add_session", "add_blank", "set_record", "add_word", "set_session", "add_batch", "add_record",
    "add_records", "add_grouping", "add_groupings", "set_raw", "add_reply",
)
WAITING, RUNNING, GOOD = 0, 1, 4
AT_ONCE = 16  # rows that "add_records" and "add_groupings" add


def texts(crate: str) -> dict[str, str]:
    """Returns the statements of a crate, by the names of their definitions."""
    found = {}
    for path in sorted((TOP / "crates" / crate / "specs").glob("*.antt")):
        found.update(re.findall(r'^(\w+)_text = codes "(.*)"$', path.read_text(), re.MULTILINE))
    return found


def chosen() -> dict[str, str]:
    reads, writes = texts("row_reads"), texts("row_writes")
    return {
        **OWN,
        **{name: reads[name] for name in READS},
        **{name: writes[name] for name in WRITES},
    }


TEXTS = chosen()
NUMBERS = {name: number for number, name in enumerate(TEXTS)}


def write_texts(path: pathlib.Path) -> pathlib.Path:
    """Writes the statements to `path`, one in each line."""
    path.write_text("".join(f"{text}\n" for text in TEXTS.values()))
    return path


# ---- lines


def spelt(value: Union[int, str, bytes]) -> str:
    if isinstance(value, int):
        return f"i{value}"
    return f"t{value.encode().hex()}" if isinstance(value, str) else f"b{value.hex()}"


def line(name: str, *values: Union[int, str, bytes]) -> str:
    return " ".join([str(NUMBERS[name]), *map(spelt, values)])


class Kept(NamedTuple):
    """A kept reply: the client, the request number, the request bytes, and the body of the reply."""

    client: str
    number: int
    ask: bytes
    body: bytes


class Card(NamedTuple):
    """The record of a session: the id and the name of its batch, and its place in the batch."""

    batch: int
    name: str
    place: int


def arrival(kept: Kept, reads: list[str], writes: list[str]) -> bytes:
    """Returns the lines of an arrival, followed by a byte 0."""
    first = [line("begin"), line("mark", kept.client), line("kept", kept.client, kept.number)]
    last = [line("add_reply", kept.client, kept.number, kept.ask, 200, kept.body), line("commit")]
    return "\n".join([*first, *reads, *writes, *last]).encode() + b"\0"


# ---- arrivals


def opening(kept: Kept, card: Card, session: int, blank: int, lot: str) -> bytes:
    reads = [
        line("batch_by_name", card.name),
        line("running", kept.client),
        line("lot_at", blank),
        line("charged", blank),
        line("waiting", card.batch),
        line("last_session"),
        line("first_aid", card.batch, card.place),
    ]
    writes = [
        line("add_session", session, kept.client, card.batch, card.place, blank),
        line("add_blank", blank, lot, 0),
        line("set_record", card.batch, card.place, RUNNING, 0, 0),
        line("one_runs", card.batch),
    ]
    return arrival(kept, reads, writes)


def planned(card: Card, session: int, product: str) -> list[str]:
    """Returns the reads before a status word: the session, and the rows from which its commands are
    planned."""
    return [
        line("session", session),
        line("batch_name", card.batch),
        line("batch_product", card.name),
        line("product", product),
        line("groupings", card.batch, card.place),
    ]


def answer(
    kept: Kept, card: Card, session: int, product: str, index: int, cursor: tuple[int, ...]
) -> bytes:
    """Returns the arrival of a status word 9000, after which the session continues with the command
    at the cursor."""
    writes = [
        line("add_word", session, index, 0x9000),
        line("set_session", session, 0, index + 1, *cursor),
    ]
    return arrival(kept, planned(card, session, product), writes)


def last_answer(
    kept: Kept, card: Card, session: int, product: str, index: int, cursor: tuple[int, ...]
) -> bytes:
    """Returns the arrival of a status word 9000 that makes the card good."""
    writes = [
        line("add_word", session, index, 0x9000),
        line("set_session", session, 1, index + 1, *cursor),
        line("set_record", card.batch, card.place, GOOD, 0, 0),
        line("one_is_good", card.batch),
    ]
    return arrival(kept, planned(card, session, product), writes)


def rows_of(raw: bytes) -> list[tuple]:
    """Returns the rows of a batch file as in the table `grouping2`, without the batch. The records
    must be named R0, R1 and so on, by their places."""
    rows = []
    for number, text in enumerate(raw.decode().split()[1:], 2):
        record, aid, rank, enc, tol, coded = text.split(",")
        its = (bytes.fromhex(aid), int(rank), int(enc), int(tol), bytes.fromhex(coded))
        rows.append((number, int(record[1:]), *its))
    return rows


def added(one: str, many: str, rows: list[tuple]) -> list[str]:
    """Returns the lines that add `rows`: one statement for every sixteen rows, and one for each
    remaining row."""
    whole = len(rows) - len(rows) % AT_ONCE
    chunks = [rows[at : at + AT_ONCE] for at in range(0, whole, AT_ONCE)]
    return [
        *(line(many, *(value for row in chunk for value in row)) for chunk in chunks),
        *(line(one, *row) for row in rows[whole:]),
    ]


def importing(kept: Kept, batch: int, name: str, product: str, raw: bytes) -> bytes:
    """Returns the arrival of an import. As in the server, the bytes of the file are set last:
    otherwise every row that refers to the batch would cause a read of the whole batch row."""
    rows = [(batch, *row) for row in rows_of(raw)]
    places = range(max(row[2] for row in rows) + 1)
    records = [(batch, place, f"R{place}", WAITING, 0, 0) for place in places]
    reads = [line("batch_by_name", name), line("product", product), line("last_batch")]
    writes = [
        line("add_batch", batch, name, product, b"", len(records)),
        *added("add_record", "add_records", records),
        *added("add_grouping", "add_groupings", rows),
        line("set_raw", batch, raw),
    ]
    return arrival(kept, reads, writes)


# ---- programs that run arrivals


class Runner:
    """`measure_kit` or `same` on a database file. The program runs the arrivals on its standard
    input."""

    def __init__(self, program: str, database: pathlib.Path, made: pathlib.Path) -> None:
        words = [program, str(database), str(write_texts(made))]
        self.program = subprocess.Popen(words, stdin=subprocess.PIPE, stdout=subprocess.PIPE)

    def run(self, arrivals: list[bytes]) -> list[float]:
        """Runs the arrivals, and returns the time of each in seconds."""
        assert self.program.stdin and self.program.stdout
        took = []
        for one in arrivals:
            self.program.stdin.write(one)
            self.program.stdin.flush()
            took.append(int(self.program.stdout.readline()) / 1e9)
        return took

    def processor(self) -> float:
        """Returns the processor time used so far, in seconds."""
        figures = pathlib.Path(f"/proc/{self.program.pid}/schedstat").read_text()
        return int(figures.split()[0]) / 1e9

    def end(self) -> None:
        self.program.communicate()
        if self.program.returncode != 0:
            raise SystemExit(f"{self.program.args}: status {self.program.returncode}")
