#!/usr/bin/env python3
"""Changes one thing in sound files, and checks that each changed file is accepted or refused correctly.

    bench/run damaged

The expected verdicts follow from docs/TABLES.md. Both auditor.py and `persod` judge the files. To use only auditor.py, run `python3
bench/audit/damaged.py` without a program.

Each file is made four times: with the tables and indices of the server, with the tables in another order, and in schema versions 2 and 1 if they
have what is changed. For each file with damaged rows, the rule of auditor.py that must find the damage is given. Exit status: 1 if a verdict is
wrong.
"""
import pathlib
import sqlite3
import sys
import tempfile
from typing import Iterator, NamedTuple

import auditor
from auditor import DAMAGED, OTHER_TABLES, TAKEN
from contents import FILE, FOR_VERSION, WORKED_ROWS, file_of, rows
from judging import Case, judge_all
from sound_files import OURS, Shape, make

LAST = 10 ** 18 - 1
SHAPES = {"as the server makes it": Shape(indices=OURS), "in another order": Shape(order="mixed"), "in version 2": Shape(2), "in version 1": Shape(1)}


class Change(NamedTuple):
    """A change of a file by SQL, without checks of references and constraints; the expected verdict; the rule that must find it; and whether the
    rich file is changed."""

    name: str
    sql: str
    wanted: str
    sentence: str | None = None
    is_rich: bool = False


def tables_changed() -> Iterator[Change]:
    """Yields changes of the tables, and of rows that SQLite's own checks find. The verdict is 81."""
    for name, sql in {
        "a table missing": "DROP TABLE remake",
        "the table of groupings missing": "DROP TABLE grouping2",
        "the table of marks missing": "DROP TABLE mark",
        "an additional table": "CREATE TABLE note (id INTEGER NOT NULL PRIMARY KEY) STRICT",
        "an additional column": "ALTER TABLE reply ADD COLUMN note TEXT NOT NULL DEFAULT ''",
        "a column missing": "ALTER TABLE lot DROP COLUMN discarded",
        "a column renamed": "ALTER TABLE lot RENAME COLUMN amount TO count",
        "a table renamed": "ALTER TABLE word RENAME TO words",
        "a table renamed to different case": "ALTER TABLE word RENAME TO w; ALTER TABLE w RENAME TO Word",
        "no version": "DELETE FROM version",
        "version 4": "DROP TABLE version; CREATE TABLE version (id INTEGER NOT NULL PRIMARY KEY CHECK (id = 1),"
                     " number INTEGER NOT NULL CHECK (number = 4)) STRICT; INSERT INTO version VALUES (1, 4)",
        "version 4 in a table of version 3": "UPDATE version SET number = 4",
        "a second version": "INSERT INTO version VALUES (2, 3)",
        "a table that isn't strict": "CREATE TABLE note (name TEXT NOT NULL PRIMARY KEY, upto INTEGER NOT NULL)",
        "an additional UNIQUE index": "CREATE UNIQUE INDEX one_client ON reply (client, number)",
        "a view": "CREATE VIEW cards AS SELECT serial FROM session WHERE state = 1",
        "a trigger": "CREATE TRIGGER late AFTER INSERT ON word BEGIN DELETE FROM remake; END",
    }.items():
        yield Change(name, sql, OTHER_TABLES)
    for table, column, value in [
        ("product", "max", 15), ("product", "max", 256), ("product", "low", 32), ("product", "low", -1), ("product", "checked", 2),
        ("lot", "amount", 0), ("lot", "amount", 1_000_001), ("batch", "closed", 2), ("record", "state", 5), ("record", "state", -1),
        ("grouping2", "rank", 0), ("grouping2", "rank", 1000), ("grouping2", "enc", 3), ("grouping2", "tol", 2), ("session", "state", 3),
        ("session", "ended", 2), ("word", "sw", 65_536), ("word", "sw", -1), ("blank", "kind", 2), ("mark", "upto", 0),
        ("mark", "upto", LAST + 1),
    ]:
        yield Change(f"{table}.{column} is {value}", f"UPDATE {table} SET {column} = {value}", OTHER_TABLES, None, table == "mark")
    for name, sql in {
        "a lot without its product": "UPDATE lot SET product = 'P9'",
        "a batch without its product": "UPDATE batch SET product = 'P9'",
        "a record without its batch": "INSERT INTO record VALUES (2, 0, 'R1', 0, 0, 0)",
        "a grouping without its record": "UPDATE grouping2 SET place = 1",
        "a session without its record": "UPDATE session SET place = 1 WHERE id = 2",
        "a word without its session": "UPDATE word SET session = 3 WHERE session = 2",
        "a blank without its lot": "UPDATE blank SET lot = 'L9' WHERE serial = 1000",
        "a remake without its record": "UPDATE remake SET batch = 2",
        "a product missing": "DELETE FROM product",
        "a lot missing": "DELETE FROM lot",
        "a batch missing": "DELETE FROM batch",
        "a record missing": "DELETE FROM record",
        "a session missing": "DELETE FROM session WHERE id = 2",
    }.items():
        yield Change(name, sql, OTHER_TABLES)


def names_and_numbers() -> Iterator[Change]:
    for name, sql in {
        "a machine": "UPDATE session SET machine = 'm 1' WHERE id = 1",
        "a machine of 33 characters": f"UPDATE session SET machine = '{'m' * 33}' WHERE id = 1",
        "a client without characters": "UPDATE reply SET client = '' WHERE number = 6",
        "a client beyond ASCII": "UPDATE reply SET client = 'm\u00e9' WHERE number = 6",
        "a mark's client": "INSERT INTO mark VALUES ('m.9', 1)",
        "a product": "INSERT INTO product VALUES ('P 2', 16, 0, 0)",
        "a lot": "INSERT INTO lot VALUES ('L/2', 'P1', 900, 1, 0)",
        "a batch": "UPDATE batch SET name = 'B.1'",
        "a record": "UPDATE record SET name = 'R 1'",
    }.items():
        yield Change(f"{name} has an invalid name", sql, DAMAGED, "names_are_in_range")
    for name, sql in {
        "a lot from -1": "INSERT INTO lot VALUES ('L2', 'P1', -1, 1, 0)",
        "a lot to 10^18": f"INSERT INTO lot VALUES ('L2', 'P1', {LAST}, 2, 0)",
        "a lot up to 2^63 - 1 and beyond": f"INSERT INTO lot VALUES ('L2', 'P1', {2 ** 63 - 1}, 1000000, 0)",
        "a reply's number 0": "UPDATE reply SET number = 0 WHERE client = 'm1' AND number = 1",
        "a reply's number 10^18": f"UPDATE reply SET number = {LAST + 1} WHERE client = 'm1' AND number = 1",
    }.items():
        yield Change(f"{name} is out of range", sql, DAMAGED, "serials_and_numbers_are_in_range")
    for name, sql in {
        "an earlier end": "INSERT INTO lot VALUES ('L2', 'P1', 1002, 5, 0)",
        "an earlier start": "INSERT INTO lot VALUES ('L2', 'P1', 998, 3, 0)",
        "all of it": "INSERT INTO lot VALUES ('L2', 'P1', 0, 1000000, 0)",
    }.items():
        yield Change(f"overlapping lots: {name}", sql, DAMAGED, "lots_are_apart")


def files_changed() -> Iterator[Change]:
    header = file_of()
    for name, raw in {
        "no bytes": b"", "only a header": header, "another header": FILE.replace(b"rank", b"rang"),
        "a bad rank": FILE.replace(b",1,0,0,", b",0,0,0,"), "a bad mark": FILE.replace(b",1,0,0,", b",1,3,0,"),
        "a bad name": FILE.replace(b"R1", b"R 1"), "a bad AID": FILE.replace(b"F00000000101", b"F0000000"),
        "a grouping cut short": FILE.replace(b"027000", b"0270"), "a row of five fields": FILE + b"R2,F00000000101,1,0,0\n",
        "a repeated identifier": FILE + FILE[len(header):],
        "differing marks": FILE + b"R1,F00000000101,1,1,0,8000\n", "an additional record": FILE + b"R2,F00000000101,1,0,0,0101027000\n",
        "an additional row": FILE + b"R1,F00000000101,1,0,0,0102027000\n", "another grouping": FILE.replace(b"0101027000", b"0102027000"),
        "another AID": FILE.replace(b"F00000000101", b"F00000000102"), "another rank": FILE.replace(b",1,0,0,", b",2,0,0,"),
        "another mark": FILE.replace(b",1,0,0,", b",1,1,0,"), "the mixed mark": FILE.replace(b",1,0,0,", b",1,2,0,"),
        "another tolerance": FILE.replace(b",1,0,0,", b",1,0,1,"),
        "another record": FILE.replace(b"R1", b"R2"), "4,097 rows": FILE + b"R1,F00000000101,2,0,0,0102027000\n" * 4096,
    }.items():
        yield Change(f"the file has {name}", f"UPDATE batch SET raw = x'{raw.hex()}'", DAMAGED, "files_give_their_rows")
    for column, value in [("coded", "x'0101027001'"), ("coded", "x'01010270'"), ("coded", "x''"), ("coded", "x'0101FF00027000'"),
                          ("aid", "x'F00000000102'"), ("rank", 2), ("enc", 1), ("tol", 1), ("line", 3), ("line", 0)]:
        yield Change(f"a grouping's {column} is {value}", f"UPDATE grouping2 SET {column} = {value}", DAMAGED, "files_give_their_rows")
    for name, sql in {
        "a grouping missing": "DELETE FROM grouping2",
        "a duplicated grouping": "INSERT INTO grouping2 SELECT batch, line + 1, place, aid, rank, enc, tol, coded FROM grouping2",
        "an additional record": "INSERT INTO record VALUES (1, 1, 'R2', 0, 0, 0)",
        "a record's name": "UPDATE record SET name = 'r1'",
    }.items():
        yield Change(name, sql, DAMAGED, "files_give_their_rows")
    yield Change("the product checks a file that fails", "UPDATE product SET checked = 1 WHERE name = 'P2'", TAKEN, None, True)
    yield Change("two groupings swapped", "UPDATE grouping2 SET line = 7 - line + 100 WHERE batch = 2 AND line IN (3, 4);"
                 "UPDATE grouping2 SET line = line - 100 WHERE line > 100",
                 DAMAGED, "files_give_their_rows", True)


def gaps() -> Iterator[Change]:
    for name, sql, is_rich in [
        ("ids of batches", "UPDATE batch SET id = 9 WHERE id = 4; UPDATE record SET batch = 9 WHERE batch = 4;"
         "UPDATE grouping2 SET batch = 9 WHERE batch = 4", True),
        ("ids of sessions", "UPDATE session SET id = 12 WHERE id = 11; UPDATE word SET session = 12 WHERE session = 11", True),
        ("ids of sessions at the start", "UPDATE session SET id = 0 WHERE id = 1; UPDATE word SET session = 0 WHERE session = 1", False),
        ("places of words", "UPDATE word SET place = 2 WHERE session = 2 AND place = 1", False),
        ("places of words at the start", "DELETE FROM word WHERE session = 2 AND place = 0", False),
        ("turns of a remake", "UPDATE remake SET turn = 2", False),
        ("turns of a remake at the start", "UPDATE remake SET turn = 0", False),
        ("turns of two remakes", "UPDATE remake SET turn = 3 WHERE turn = 2", True),
    ]:
        yield Change(f"a gap in {name}", sql, DAMAGED, "numbers_have_no_gap", is_rich)
    yield Change("a gap in the places of records", "UPDATE record SET place = 9 WHERE batch = 1 AND place = 5;"
                 "UPDATE grouping2 SET place = 9 WHERE batch = 1 AND place = 5", DAMAGED, "files_give_their_rows", True)


def blanks() -> Iterator[Change]:
    for name, sql, is_rich in [
        ("a blank row missing", "DELETE FROM blank WHERE serial = 1000", False),
        ("a session's blank is discarded", "UPDATE blank SET kind = 1 WHERE serial = 1000", False),
        ("an opened blank without a session", "INSERT INTO blank VALUES (1002, 'L1', 0)", False),
        ("a discarded blank is opened", "UPDATE blank SET kind = 0 WHERE serial = 1002", True),
        ("a session's serial", "UPDATE session SET serial = 1002 WHERE id = 1", False),
        ("a blank of another product", "UPDATE session SET serial = -1 WHERE id = 1; UPDATE session SET serial = 1000 WHERE id = 9;"
         "UPDATE session SET serial = 1012 WHERE id = 1", True),
    ]:
        yield Change(name, sql, DAMAGED, "sessions_have_their_blanks", is_rich)
    for name, sql in {
        "an opened blank": "UPDATE blank SET lot = 'L9' WHERE serial = 1000",
        "a discarded blank": "UPDATE blank SET lot = 'L3' WHERE serial = 1002",
        "a discarded blank outside all lots": "UPDATE blank SET serial = 2000 WHERE serial = 1002",
        "a discarded blank after its lot": "UPDATE blank SET serial = 1018 WHERE serial = 1017",
        "the start of a lot": "UPDATE lot SET low_serial = 1001, amount = 11 WHERE name = 'L1'",
        "the end of a lot": "UPDATE lot SET amount = 5 WHERE name = 'L2'",
    }.items():
        yield Change(f"{name} doesn't fit its lot", sql, DAMAGED, "blanks_lie_in_their_lots", True)


def words() -> Iterator[Change]:
    for name, sql, is_rich in [
        ("more words than commands", "INSERT INTO word VALUES (2, 2, 36864)", False),
        ("a word in the middle that stops", "UPDATE word SET sw = 27264 WHERE session = 2 AND place = 0", False),
        ("an additional word after one that stops", "INSERT INTO word VALUES (1, 1, 36864)", True),
        ("6A88 to a SELECT, and further words", "UPDATE word SET sw = 27272 WHERE session = 3 AND place = 0", True),
        ("6A88 to an encrypted piece, and further words", "UPDATE word SET sw = 27272 WHERE session = 3 AND place = 1", True),
        ("6A88 to a tolerant piece that isn't the last, and further words", "UPDATE word SET sw = 27272 WHERE session = 3 AND place = 4", True),
    ]:
        yield Change(name, sql, DAMAGED, "words_follow_the_sequence", is_rich)
    for name, sql, is_rich in [
        ("a word missing", "DELETE FROM word WHERE session = 1 AND place = 1", False),
        ("a good card's last word missing", "DELETE FROM word WHERE session = 2 AND place = 1", False),
        ("an additional word", "INSERT INTO word VALUES (4, 2, 36864)", True),
        ("a last word that lets the session continue", "UPDATE word SET sw = 36864 WHERE session = 1 AND place = 1", False),
        ("a last word that stops", "UPDATE word SET sw = 27264 WHERE session = 2 AND place = 1", False),
        ("a running session's state is good", "UPDATE session SET state = 1 WHERE id = 4", True),
        ("a good session's state is running", "UPDATE session SET state = 0 WHERE id = 2", False),
        ("a spoiled session's state is running", "UPDATE session SET state = 0 WHERE id = 1", False),
        ("a spoiled session's state is good", "UPDATE session SET state = 1 WHERE id = 1", False),
        ("a good session is ended", "UPDATE session SET ended = 1 WHERE id = 2", False),
        ("an ended session isn't ended", "UPDATE session SET ended = 0 WHERE id = 5", True),
        ("the number of words is one too low", "UPDATE session SET words = words - 1 WHERE id = 1", False),
        ("the number of words is one too high", "UPDATE session SET words = words + 1 WHERE id = 2", False),
        ("the stopped word isn't counted", "UPDATE session SET words = 0 WHERE id = 1", True),
        ("the cursor is moved by a word that stops", "UPDATE session SET app = 1, block = 0 WHERE id = 1", False),
        *((f"the cursor's {column}", f"UPDATE session SET {column} = {column} + 1 WHERE id = {number}", is_rich)
          for column in ("app", "segment", "at_offset", "block") for number, is_rich in ((1, False), (2, False), (4, True))),
    ]:
        yield Change(name, sql, DAMAGED, "sessions_stand_so", is_rich)


def counters() -> Iterator[Change]:
    for state in range(4):
        yield Change(f"a good record's state is {state}", f"UPDATE record SET state = {state}", DAMAGED, "records_stand_so")
    for name, sql in {
        "a failed record waits": "UPDATE record SET state = 0 WHERE batch = 1 AND place = 2",
        "a waiting record failed": "UPDATE record SET state = 2 WHERE batch = 1 AND place = 3",
        "a running record waits": "UPDATE record SET state = 0 WHERE batch = 1 AND place = 1",
        "a running record is withdrawn": "UPDATE record SET state = 3 WHERE batch = 1 AND place = 1",
        "a record without a session is good": "UPDATE record SET state = 4 WHERE batch = 4",
        "the number of spoiled sessions is one too high": "UPDATE record SET spoiled = spoiled + 1 WHERE batch = 1 AND place = 0",
        "the number of spoiled sessions is one too low": "UPDATE record SET spoiled = spoiled - 1 WHERE batch = 1 AND place = 0",
        "the number of remakes is one too high": "UPDATE record SET remakes = remakes + 1 WHERE batch = 1 AND place = 2",
        "the number of remakes is one too low": "UPDATE record SET remakes = remakes - 1 WHERE batch = 1 AND place = 0",
        "a remake missing": "DELETE FROM remake WHERE turn = 2",
        "a duplicated remake": "INSERT INTO remake VALUES (1, 2, 1)",
    }.items():
        yield Change(name, sql, DAMAGED, "records_stand_so", True)
    for column in ("waiting", "running", "failed", "withdrawn", "good", "sessions", "spoiled"):
        for step in ("+ 1", "- 1"):
            sql = f"UPDATE batch SET {column} = {column} {step} WHERE id = 1"
            yield Change(f"batch.{column} {step}", sql, DAMAGED, "batches_are_counted", True)
    for name, sql in {
        "a waiting record is withdrawn": "UPDATE record SET state = 3 WHERE batch = 4",
        "a withdrawn record waits": "UPDATE record SET state = 0 WHERE batch = 1 AND place = 5",
        "a withdrawn record is failed": "UPDATE record SET state = 2 WHERE batch = 1 AND place = 4",
    }.items():
        yield Change(f"{name}, and the counters are unchanged", sql, DAMAGED, "batches_are_counted", True)
    for name, sql in {
        "the number of discarded blanks is one too high": "UPDATE lot SET discarded = discarded + 1 WHERE name = 'L9'",
        "the number of discarded blanks is one too low": "UPDATE lot SET discarded = discarded - 1 WHERE name = 'L1'",
        "the row of a discarded blank missing": "DELETE FROM blank WHERE serial = 1002",
        "an additional row of a discarded blank": "INSERT INTO blank VALUES (1010, 'L1', 1)",
    }.items():
        yield Change(name, sql, DAMAGED, "lots_are_counted", True)


def rules() -> Iterator[Change]:
    """Yields changes that break one rule between rows. All derived values are set accordingly."""
    for name, sentence, sql, is_rich in [
        ("a withdrawn record with a good card", "withdrawn_records_have_no_card",
         "UPDATE record SET state = 3; UPDATE batch SET good = 0, withdrawn = 1", False),
        ("a withdrawn record with a running card", "withdrawn_records_have_no_card",
         "UPDATE record SET state = 3 WHERE batch = 1 AND place = 1;"
         "UPDATE batch SET running = running - 1, withdrawn = withdrawn + 1 WHERE id = 1", True),
        ("a second running session of a machine", "machines_run_once", "UPDATE session SET machine = 'm2' WHERE id = 8", True),
        ("two good cards of a record", "records_have_one_card",
         "UPDATE word SET sw = 36864; UPDATE session SET state = 1, app = 1, block = 0; DELETE FROM remake;"
         "UPDATE record SET spoiled = 0, remakes = 0; UPDATE batch SET spoiled = 0", False),
        ("a good and a running card of a record", "records_have_one_card",
         "DELETE FROM word WHERE session = 1 AND place = 1; UPDATE session SET state = 0, words = 1 WHERE id = 1; DELETE FROM remake;"
         "UPDATE record SET spoiled = 0, remakes = 0; UPDATE batch SET spoiled = 0", False),
        ("a good card without a remake", "records_are_remade_in_turn", "DELETE FROM remake; UPDATE record SET remakes = 0", False),
        ("a remake of a good card", "records_are_remade_in_turn", "INSERT INTO remake VALUES (1, 0, 2); UPDATE record SET remakes = 2", False),
        ("a remake of a card that wasn't made", "records_are_remade_in_turn",
         "INSERT INTO remake VALUES (4, 0, 1); UPDATE record SET remakes = 1 WHERE batch = 4", True),
        ("a closed batch with a failed record", "closed_batches_are_finished", "UPDATE batch SET closed = 1 WHERE name = 'B0'", True),
        ("a closed batch with a waiting record", "closed_batches_are_finished", "UPDATE batch SET closed = 1 WHERE name = 'b2'", True),
        ("a closed batch with a running record", "closed_batches_are_finished", "UPDATE batch SET closed = 1 WHERE name = 'B1'", True),
        ("a reply of status 500", "replies_have_their_status", "UPDATE reply SET status = 500 WHERE number = 6", False),
        ("a reply of status 0", "replies_have_their_status", "UPDATE reply SET status = 0 WHERE number = 6", False),
        ("a reply of status 201", "replies_have_their_status", "UPDATE reply SET status = 201 WHERE number = 6", False),
        ("a reply at its client's mark", "replies_lie_above_marks", "UPDATE mark SET upto = 5 WHERE client = 'office'", True),
        ("a mark above all of its client's replies", "replies_lie_above_marks", f"INSERT INTO mark VALUES ('m1', {LAST})", False),
        ("257 products", "limits_are_kept", "WITH RECURSIVE n(x) AS (VALUES (1) UNION ALL SELECT x + 1 FROM n WHERE x < 256)"
         "INSERT INTO product SELECT 'Q' || x, 16, 0, 0 FROM n", False),
        ("4,097 lots", "limits_are_kept", "WITH RECURSIVE n(x) AS (VALUES (1) UNION ALL SELECT x + 1 FROM n WHERE x < 4096)"
         "INSERT INTO lot SELECT 'Q' || x, 'P1', 2000 + x, 1, 0 FROM n", False),
        ("4,097 batches", "limits_are_kept", further_batches(4096), False),
    ]:
        yield Change(name, sql, DAMAGED, sentence, is_rich)


def further_batches(count: int) -> str:
    """Returns SQL that adds `count` batches with the same file."""
    numbers = f"WITH RECURSIVE n(x) AS (VALUES (2) UNION ALL SELECT x + 1 FROM n WHERE x < {count + 1})"
    return (f"{numbers} INSERT INTO batch SELECT x, 'Q' || x, 'P1', x'{FILE.hex()}', 0, 1, 0, 0, 0, 0, 0, 0 FROM n;"
            f"{numbers} INSERT INTO record SELECT x, 0, 'R1', 0, 0, 0 FROM n;"
            f"{numbers} INSERT INTO grouping2 SELECT x, line, place, aid, rank, enc, tol, coded FROM n, grouping2 WHERE batch = 1")


def sound_changes() -> Iterator[Change]:
    """Yields changes that leave the rows sound, even if no server would produce them."""
    raw = "UPDATE batch SET raw = x'{}'"
    for name, sql, is_rich in [
        ("nothing", "SELECT 1", False), ("nothing of the rich file", "SELECT 1", True),
        ("a machine's name", "UPDATE session SET machine = 'another' WHERE id = 1", False),
        ("a batch's name", "UPDATE batch SET name = 'B' WHERE id = 1", False),
        ("a product's low", "UPDATE product SET low = 31", False),
        ("a product's max, if no segment has two pieces", "UPDATE product SET max = 16", False),
        ("a product's check, if its file passes", "UPDATE product SET checked = 1", False),
        ("a larger lot", "UPDATE lot SET amount = 1000000", False), ("a smaller lot", "UPDATE lot SET amount = 2", False),
        ("an additional lot", "INSERT INTO lot VALUES ('L2', 'P1', 1003, 1, 0)", False),
        ("a lot at the first serial", "INSERT INTO lot VALUES ('L2', 'P1', 0, 1000, 0)", False),
        ("a lot to the last serial", f"INSERT INTO lot VALUES ('L2', 'P1', {LAST}, 1, 0)", False),
        ("a lot of another product", "UPDATE lot SET product = 'P1' WHERE name = 'L3'", True),
        ("an additional product", "INSERT INTO product VALUES ('P2', 16, 0, 0)", False),
        ("256 products", "WITH RECURSIVE n(x) AS (VALUES (1) UNION ALL SELECT x + 1 FROM n WHERE x < 255)"
         "INSERT INTO product SELECT 'Q' || x, 16, 0, 0 FROM n", False),
        ("4,096 lots", "WITH RECURSIVE n(x) AS (VALUES (1) UNION ALL SELECT x + 1 FROM n WHERE x < 4095)"
         "INSERT INTO lot SELECT 'Q' || x, 'P1', 2000 + x, 1, 0 FROM n", False),
        ("4,096 batches", further_batches(4095), False),
        ("a file with other line ends", raw.format(FILE.replace(b"\n", b"\r\n\r").hex()), False),
        ("a file with a byte order mark", raw.format((b"\xEF\xBB\xBF" + FILE).hex()), False),
        ("a file with quotes", raw.format(FILE.replace(b"R1", b'"R1"').hex()), False),
        ("a file in another spelling",
         raw.format(FILE.replace(b"F00000000101,1", b"f00000000101,001").replace(b"01027000", b"01FF00027000").hex()), False),
        ("another word that lets the session continue", "UPDATE word SET sw = 25087 WHERE session = 2", False),
        ("another word that stops", "UPDATE word SET sw = 0 WHERE session = 1 AND place = 1", False),
        ("a stopped session is also ended", "UPDATE session SET ended = 1 WHERE id = 1", False),
        ("a closed batch", "UPDATE batch SET closed = 1", False), ("an open batch", "UPDATE batch SET closed = 0", True),
        ("an additional discarded blank", "INSERT INTO blank VALUES (1002, 'L1', 1); UPDATE lot SET discarded = 1", False),
        ("another discarded blank", "UPDATE blank SET serial = 1010 WHERE serial = 1002", True),
        ("a withdrawn record waits", "UPDATE record SET state = 0 WHERE batch = 1 AND place = 5;"
         "UPDATE batch SET withdrawn = withdrawn - 1, waiting = waiting + 1 WHERE id = 1", True),
        ("a good session of a record with a spoiled one is ended", "UPDATE session SET ended = 1, state = 2 WHERE id = 2;"
         "UPDATE record SET state = 2, spoiled = 2; UPDATE batch SET good = 0, failed = 1, spoiled = 2", False),
        ("a reply's request bytes", "UPDATE reply SET ask = x'00FF' WHERE number = 6", False), ("a reply's body", "UPDATE reply SET body = x''", False),
        ("a reply's number", f"UPDATE reply SET number = {LAST} WHERE number = 6", False), ("no replies", "DELETE FROM reply", False),
        ("a reply's status", "UPDATE reply SET status = 409", False),
        ("an additional mark", f"INSERT INTO mark VALUES ('m9', {LAST})", False), ("a lower mark", "UPDATE mark SET upto = 1", True),
        ("a mark below all its client's replies",
         "INSERT INTO mark VALUES ('office', 1); DELETE FROM reply WHERE client = 'office' AND number = 1", False),
    ]:
        yield Change(name, sql, TAKEN, None, is_rich)


def all_changes() -> list[Change]:
    return [*tables_changed(), *names_and_numbers(), *files_changed(), *gaps(), *blanks(), *words(), *counters(), *rules(), *sound_changes()]


def make_changed(path: pathlib.Path, its: Change, shape: Shape) -> bool:
    """Makes the file and changes it. Returns False if its version lacks what is changed."""
    sql = its.sql if shape.version == 3 else its.sql.replace("grouping2", "grouping")
    if shape.version == 1 and ("mark " in sql or "TABLE mark" in sql):
        return False
    made = rows(FOR_VERSION[shape.version]) if its.is_rich else WORKED_ROWS
    make(path, made, shape)
    conn = sqlite3.connect(path, isolation_level=None)
    conn.execute("PRAGMA synchronous = OFF")
    conn.execute("PRAGMA ignore_check_constraints = ON")
    conn.executescript(sql)
    conn.close()
    return True


def cases(folder: pathlib.Path) -> Iterator[Case]:
    for number, its in enumerate(all_changes()):
        for place, shape in enumerate(SHAPES):
            path = folder / f"{number}-{place}.db"
            if make_changed(path, its, SHAPES[shape]):
                yield Case(f"{its.name}, {shape}", path, its.wanted, its.sentence)


def main() -> None:
    program = sys.argv[1] if len(sys.argv) > 1 else None
    changes = all_changes()
    unbroken = {sentence.__name__ for sentence in auditor.AUDIT} - {its.sentence for its in changes}
    if unbroken:
        sys.exit(f"no changed file breaks {', '.join(sorted(unbroken))}")
    with tempfile.TemporaryDirectory() as folder:
        is_right = judge_all("damaged files", list(cases(pathlib.Path(folder))), program)
    sys.exit(not is_right)


if __name__ == "__main__":
    main()
