#!/usr/bin/env python3
"""Judges a database file by docs/TABLES.md alone.

    python3 bench/audit/auditor.py FILE

Prints the verdict and the first finding. The verdict is `taken`, `81` if the tables aren't those of any schema version, or `82` if the rows
aren't those of sound contents. The script reads a copy and shares no code with persod. Its time grows with the number of rows and with sorting
them. Exit status: 0 for `taken`, otherwise 1.
"""
import functools
import pathlib
import shutil
import sqlite3
import sys
import tempfile
from collections import Counter, defaultdict, namedtuple
from typing import Any, Callable, Iterator, NamedTuple

from batch_files import Commands, Product, by_record, is_name, rows_of
from schema import tables_of, version_of

TAKEN, OTHER_TABLES, DAMAGED = "taken", "81", "82"
LAST = 10 ** 18 - 1
RUNNING, GOOD, SPOILED = range(3)
WAITING, IS_RUNNING, FAILED, WITHDRAWN, IS_GOOD = range(5)
# The findings of a rule, as texts.
Findings = Iterator[str]


class Verdict(NamedTuple):
    """The result, the first finding, and the names of the rules that the rows break."""

    result: str
    why: str = ""
    sentences: frozenset[str] = frozenset()


class Tables:
    """The rows of each table as named tuples, and indexes for lookups."""

    def __init__(self, conn: sqlite3.Connection, version: int) -> None:
        self.rows: dict[str, list[Any]] = {"mark": []}
        for table in tables_of(version):
            columns = tuple(column for column, _ in table.columns)
            kind = record_kind(table.name, columns)
            self.rows[table.name] = [kind(*row) for row in conn.execute(f"SELECT {', '.join(columns)} FROM {table.name}")]
        self.products = {it.name: Product(it.max, it.low, it.checked) for it in self.rows["product"]}
        self.lots, self.batches, self.records = self.rows["lot"], self.rows["batch"], self.rows["record"]
        self.groupings = self.rows["grouping2" if version == 3 else "grouping"]
        self.sessions, self.blanks, self.remakes = self.rows["session"], self.rows["blank"], self.rows["remake"]
        self.replies, self.marks = self.rows["reply"], self.rows["mark"]
        self.files = {it.id: rows_of(it.raw, self.products[it.product]) or [] for it in self.batches}
        self.product_of = {it.id: it.product for it in self.batches}
        self.lot_named = {it.name: it for it in self.lots}
        self.blank_of = {it.serial: it for it in self.blanks}
        self.sessions_of = grouped(self.sessions, lambda it: (it.batch, it.place))
        self.words_of = {number: [it.sw for it in sorted(its, key=lambda it: it.place)]
                         for number, its in grouped(self.rows["word"], lambda it: it.session).items()}
        self.commands = {(number, place): Commands(its, self.products[self.product_of[number]])
                         for number, rows in self.files.items() for place, its in enumerate(by_record(rows).values())}


@functools.cache
def record_kind(table: str, columns: tuple[str, ...]) -> Any:
    return namedtuple(table, columns)


def grouped(rows: list[Any], key: Callable[[Any], Any]) -> dict[Any, list[Any]]:
    made: dict[Any, list[Any]] = defaultdict(list)
    for row in rows:
        made[key(row)].append(row)
    return made


# Audit rules. Each function checks one rule of docs/TABLES.md, "Audit rules", and yields the rows that break it.


def names_are_in_range(its: Tables) -> Findings:
    """Every name is valid."""
    named = {"product": ["name"], "lot": ["name"], "batch": ["name"], "record": ["name"], "session": ["machine"], "reply": ["client"],
             "mark": ["client"]}
    for table, columns in named.items():
        for row in its.rows[table]:
            if not all(is_name(getattr(row, column)) for column in columns):
                yield f"{table} {row[:2]} has an invalid name"


def serials_and_numbers_are_in_range(its: Tables) -> Findings:
    """Serials are 0 to 10^18 - 1, including the last serial of each lot. Request numbers and release marks are 1 to 10^18 - 1."""
    for lot in its.lots:
        if lot.low_serial < 0 or lot.low_serial + lot.amount - 1 > LAST:
            yield f"lot {lot.name} has serials out of range"
    for table, column in (("reply", "number"), ("mark", "upto")):
        for row in its.rows[table]:
            if not 1 <= getattr(row, column) <= LAST:
                yield f"{table} of {row.client} has a number out of range"


def limits_are_kept(its: Tables) -> Findings:
    """There are at most 256 products, 4,096 lots and 4,096 batches."""
    for table, most in (("product", 256), ("lot", 4096), ("batch", 4096)):
        if len(its.rows[table]) > most:
            yield f"there are {len(its.rows[table])} rows of {table}"


def lots_are_apart(its: Tables) -> Findings:
    """No two lots share a serial."""
    lots = sorted(its.lots, key=lambda it: it.low_serial)
    for lot, following in zip(lots, lots[1:]):
        if lot.low_serial + lot.amount > following.low_serial:
            yield f"lots {lot.name} and {following.name} overlap"


def files_give_their_rows(its: Tables) -> Findings:
    """The file of each batch has no fault under its product, and results in exactly the batch's rows of `record` and `grouping2`."""
    records, groupings = grouped(its.records, lambda it: it.batch), grouped(its.groupings, lambda it: it.batch)
    for batch in its.batches:
        rows = its.files[batch.id]
        if not rows:
            yield f"the file of batch {batch.id} has a fault"
            continue
        places = {name: place for place, name in enumerate(by_record(rows))}
        if sorted((it.place, it.name) for it in records[batch.id]) != [(place, name) for name, place in places.items()]:
            yield f"the file of batch {batch.id} has other records"
        wanted = [(line, places[row.record], *row[1:]) for line, row in enumerate(rows, 2)]
        if sorted(tuple(it)[1:] for it in groupings[batch.id]) != wanted:
            yield f"the file of batch {batch.id} has other groupings"


def numbers_have_no_gap(its: Tables) -> Findings:
    """The ids of batches and sessions count from 1, the places of a session's words from 0, and the turns of a record's remakes from 1."""
    counted: list[tuple[str, list[int], int]] = [("batch", [it.id for it in its.batches], 1), ("session", [it.id for it in its.sessions], 1)]
    counted += [(f"word of session {number}", [it.place for it in rows], 0)
                for number, rows in grouped(its.rows["word"], lambda it: it.session).items()]
    counted += [(f"remake of record {record}", [it.turn for it in rows], 1)
                for record, rows in grouped(its.remakes, lambda it: (it.batch, it.place)).items()]
    for what, numbers, first in counted:
        if sorted(numbers) != list(range(first, first + len(numbers))):
            yield f"the numbers of {what} have a gap"


def sessions_have_their_blanks(its: Tables) -> Findings:
    """The serial of each session is a blank of kind 0 in a lot of the batch's product, and each such blank has a session."""
    for session in its.sessions:
        blank = its.blank_of.get(session.serial)
        if blank is None or blank.kind != 0:
            yield f"session {session.id} has no opened blank"
        elif its.lot_named[blank.lot].product != its.product_of[session.batch]:
            yield f"session {session.id} has a blank of another product"
    serials = {it.serial for it in its.sessions}
    for blank in its.blanks:
        if blank.kind == 0 and blank.serial not in serials:
            yield f"blank {blank.serial} has no session"


def blanks_lie_in_their_lots(its: Tables) -> Findings:
    """The serial of each blank is in its lot."""
    for blank in its.blanks:
        lot = its.lot_named[blank.lot]
        if not lot.low_serial <= blank.serial < lot.low_serial + lot.amount:
            yield f"blank {blank.serial} isn't in its lot"


def words_follow_the_sequence(its: Tables) -> Findings:
    """A session has at most one word for each command of its record, and only the last word may stop it."""
    for session in its.sessions:
        words, commands = its.words_of.get(session.id, []), its.commands.get((session.batch, session.place))
        if commands is None or len(words) > commands.count:
            yield f"session {session.id} has too many words for its record"
        elif not all(commands.goes(index, word) for index, word in enumerate(words[:-1])):
            yield f"session {session.id} continues after a word that stops it"


def standing(its: Tables, session: Any) -> tuple[int, int, tuple[int, int, int, int]] | None:
    """Returns the state of a session, the number of its words, and the cursor of its card: the command after the words that let it continue.
    Returns None if it has too many words."""
    words, commands = its.words_of.get(session.id, []), its.commands.get((session.batch, session.place))
    if commands is None or len(words) > commands.count:
        return None
    going = len(words) - (len(words) > 0 and not commands.goes(len(words) - 1, words[-1]))
    state = SPOILED if session.ended or going < len(words) else GOOD if len(words) == commands.count else RUNNING
    return state, len(words), commands.cursor(going)


def sessions_stand_so(its: Tables) -> Findings:
    """The state, the number of words and the cursor of each session follow from its words, its record and `ended`."""
    for session in its.sessions:
        found = session.state, session.words, (session.app, session.segment, session.at_offset, session.block)
        if found != standing(its, session):
            yield f"session {session.id} has a wrong state, number of words or cursor"


def records_stand_so(its: Tables) -> Findings:
    """Each record has the right numbers of spoiled sessions and remakes, and its state follows from its sessions. Only a withdrawal (3) is a fact
    of its own."""
    remakes = Counter((it.batch, it.place) for it in its.remakes)
    for record in its.records:
        states = [it.state for it in its.sessions_of.get((record.batch, record.place), [])]
        spoiled = states.count(SPOILED)
        if GOOD in states or RUNNING in states:
            state = IS_GOOD if GOOD in states else IS_RUNNING
        else:
            state = WITHDRAWN if record.state == WITHDRAWN else FAILED if record.remakes < spoiled else WAITING
        if (record.state, record.spoiled, record.remakes) != (state, spoiled, remakes[record.batch, record.place]):
            yield f"record {record.batch} {record.place} has a wrong state or counter"


def batches_are_counted(its: Tables) -> Findings:
    """The counters of each batch are the numbers of its records by state, its sessions, and its spoiled sessions."""
    records = {number: Counter(it.state for it in rows) for number, rows in grouped(its.records, lambda it: it.batch).items()}
    sessions = {number: Counter(it.state for it in rows) for number, rows in grouped(its.sessions, lambda it: it.batch).items()}
    for batch in its.batches:
        states, opened = records.get(batch.id, Counter()), sessions.get(batch.id, Counter())
        found = batch.waiting, batch.running, batch.failed, batch.withdrawn, batch.good, batch.sessions, batch.spoiled
        if found != (*(states[state] for state in range(5)), opened.total(), opened[SPOILED]):
            yield f"batch {batch.id} has a wrong counter"


def lots_are_counted(its: Tables) -> Findings:
    """The counter of each lot is the number of its discarded blanks."""
    discarded = Counter(it.lot for it in its.blanks if it.kind == 1)
    for lot in its.lots:
        if lot.discarded != discarded[lot.name]:
            yield f"lot {lot.name} has a wrong counter"


def withdrawn_records_have_no_card(its: Tables) -> Findings:
    """A withdrawn record has no running and no good session."""
    for record in its.records:
        states = {it.state for it in its.sessions_of.get((record.batch, record.place), [])}
        if record.state == WITHDRAWN and states & {GOOD, RUNNING}:
            yield f"record {record.batch} {record.place} is withdrawn and has a card"


def machines_run_once(its: Tables) -> Findings:
    """Each machine has at most one running session."""
    for machine, count in Counter(it.machine for it in its.sessions if it.state == RUNNING).items():
        if count > 1:
            yield f"machine {machine} runs {count} sessions"


def records_have_one_card(its: Tables) -> Findings:
    """Each record has at most one session that is running or good."""
    for record, count in Counter((it.batch, it.place) for it in its.sessions if it.state in (RUNNING, GOOD)).items():
        if count > 1:
            yield f"record {record} has {count} cards"


def records_are_remade_in_turn(its: Tables) -> Findings:
    """A record has as many remakes as spoiled sessions, or one fewer. If it has a running or a good session, the numbers are equal."""
    for record in its.records:
        states = [it.state for it in its.sessions_of.get((record.batch, record.place), [])]
        fewer = states.count(SPOILED) - record.remakes
        if fewer not in (0, 1) or (fewer == 1 and (GOOD in states or RUNNING in states)):
            yield f"record {record.batch} {record.place} is remade {record.remakes} times"


def closed_batches_are_finished(its: Tables) -> Findings:
    """In a closed batch each record is good or withdrawn."""
    closed = {it.id for it in its.batches if it.closed}
    for record in its.records:
        if record.batch in closed and record.state not in (WITHDRAWN, IS_GOOD):
            yield f"record {record.batch} {record.place} isn't finished, and its batch is closed"


def replies_have_their_status(its: Tables) -> Findings:
    """The status of each kept reply is 200 or 409. The rest of a reply isn't checked."""
    for reply in its.replies:
        if reply.status not in (200, 409):
            yield f"reply {reply.client} {reply.number} has status {reply.status}"


def replies_lie_above_marks(its: Tables) -> Findings:
    """Each kept request number is above the release mark of its client."""
    marks = {it.client: it.upto for it in its.marks}
    for reply in its.replies:
        if reply.number <= marks.get(reply.client, 0):
            yield f"reply {reply.client} {reply.number} is released"


AUDIT: list[Callable[[Tables], Findings]] = [
    names_are_in_range, serials_and_numbers_are_in_range, limits_are_kept, lots_are_apart, files_give_their_rows, numbers_have_no_gap,
    sessions_have_their_blanks, blanks_lie_in_their_lots, words_follow_the_sequence, sessions_stand_so, records_stand_so, batches_are_counted,
    lots_are_counted, withdrawn_records_have_no_card, machines_run_once, records_have_one_card, records_are_remade_in_turn,
    closed_batches_are_finished, replies_have_their_status, replies_lie_above_marks,
]


# A database file.


def verdict_on_tables(conn: sqlite3.Connection) -> Verdict | int:
    """Returns the schema version, or a verdict if SQLite or TABLES.md rejects the tables."""
    version = version_of(conn)
    if version is None:
        return Verdict(OTHER_TABLES, "its tables aren't those of any schema version")
    if conn.execute("SELECT id, number FROM version").fetchall() != [(1, version)]:
        return Verdict(OTHER_TABLES, "its version table has other rows")
    broken = conn.execute("PRAGMA integrity_check(1)").fetchone()[0]
    if broken != "ok":
        return Verdict(OTHER_TABLES, broken)
    missing = conn.execute("PRAGMA foreign_key_check").fetchone()
    return Verdict(OTHER_TABLES, f"a row of {missing[0]} refers to a missing row of {missing[2]}") if missing else version


def verdict_of(conn: sqlite3.Connection) -> Verdict:
    conn.text_factory = lambda text: text.decode(errors="surrogateescape")
    found = verdict_on_tables(conn)
    if isinstance(found, Verdict):
        return found
    its = Tables(conn, found)
    whys = {sentence.__name__: why for sentence in AUDIT if (why := next(sentence(its), None))}
    return Verdict(DAMAGED, next(iter(whys.values())), frozenset(whys)) if whys else Verdict(TAKEN)


def verdict_on_copy(path: pathlib.Path) -> Verdict:
    """Returns the verdict on a file that no other program has open."""
    conn = sqlite3.connect(path)
    try:
        return verdict_of(conn)
    except sqlite3.DatabaseError as error:
        return Verdict(OTHER_TABLES, str(error))
    finally:
        conn.close()


def verdict(path: pathlib.Path) -> Verdict:
    """Returns the verdict on a database file and its WAL, and modifies neither."""
    if not path.exists():
        return Verdict(OTHER_TABLES, "there is no file")
    with tempfile.TemporaryDirectory() as folder:
        copy = pathlib.Path(folder) / "copy.db"
        for end in ("", "-wal", "-journal"):
            if (its := path.with_name(path.name + end)).exists():
                shutil.copyfile(its, copy.with_name(copy.name + end))
        return verdict_on_copy(copy)


def main() -> None:
    if len(sys.argv) != 2:
        sys.exit("usage: auditor.py FILE")
    found = verdict(pathlib.Path(sys.argv[1]))
    print(f"{found.result} {found.why}".strip())
    sys.exit(found.result != TAKEN)


if __name__ == "__main__":
    main()
