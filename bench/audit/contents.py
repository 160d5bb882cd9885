"""Provides sound contents, and their rows in the tables of docs/TABLES.md.

`Contents` has only facts, kept replies and marks; `rows` derives the tables from them. `WORKED` is the result of a worked exchange with a
spoiled and a remade card. Its rows are also written by hand, in `WORKED_ROWS`. `RICH` has a session, a record, a blank and a batch in every
state.
"""
from collections import Counter, defaultdict
from typing import Any, NamedTuple

from batch_files import Commands, Product, by_record, rows_of

RUNNING, GOOD, SPOILED = range(3)
IS_WAITING, IS_RUNNING, IS_FAILED, IS_WITHDRAWN, IS_GOOD = range(5)
Rows = dict[str, list[tuple[Any, ...]]]


class Lot(NamedTuple):
    name: str
    product: str
    first: int
    count: int


class Session(NamedTuple):
    machine: str
    batch: str
    record: str
    serial: int
    words: tuple[int, ...]
    ended: bool = False


class Reply(NamedTuple):
    client: str
    number: int
    ask: bytes
    status: int
    body: bytes


class Contents(NamedTuple):
    products: dict[str, Product]
    lots: list[Lot]
    batches: dict[str, tuple[str, bytes]]
    sessions: list[Session]
    discarded: list[int]
    remakes: Counter
    withdrawn: set[tuple[str, str]]
    closed: set[str]
    replies: list[Reply]
    marks: dict[str, int]


def state_of(session: Session, commands: Commands) -> tuple[int, tuple[int, int, int, int]]:
    """Returns the state of a session, and the cursor of its card."""
    stops = bool(session.words) and not commands.goes(len(session.words) - 1, session.words[-1])
    cursor = commands.cursor(len(session.words) - stops)
    if stops or session.ended:
        return SPOILED, cursor
    return GOOD if len(session.words) == commands.count else RUNNING, cursor


def record_state(states: list[int], is_withdrawn: bool, remakes: int) -> int:
    if GOOD in states:
        return IS_GOOD
    if RUNNING in states:
        return IS_RUNNING
    if is_withdrawn:
        return IS_WITHDRAWN
    return IS_FAILED if remakes < states.count(SPOILED) else IS_WAITING


def by_card(sessions: list[Session]) -> dict[tuple[str, str], list[Session]]:
    """Returns the sessions of each record, by the names of its batch and the record."""
    made: dict[tuple[str, str], list[Session]] = defaultdict(list)
    for session in sessions:
        made[session.batch, session.record].append(session)
    return made


def batch_rows(its: Contents, name: str, number: int, made: Rows, commands: dict[tuple[str, str], Commands],
               sessions: dict[tuple[str, str], list[Session]]) -> None:
    """Adds the rows of `record`, `grouping2` and `remake` of a batch to `made`, and the commands of its records to `commands`."""
    product, raw = its.batches[name]
    rows = rows_of(raw, its.products[product])
    assert rows is not None, name
    places = {record: place for place, record in enumerate(by_record(rows))}
    made["grouping2"] += [(number, line, places[row.record], *row[1:]) for line, row in enumerate(rows, 2)]
    for record, its_rows in by_record(rows).items():
        commands[name, record] = Commands(its_rows, its.products[product])
        states = [state_of(it, commands[name, record])[0] for it in sessions.get((name, record), [])]
        remakes = its.remakes[name, record]
        state = record_state(states, (name, record) in its.withdrawn, remakes)
        made["record"].append((number, places[record], record, state, states.count(SPOILED), remakes))
        made["remake"] += [(number, places[record], turn + 1) for turn in range(remakes)]


def rows(its: Contents) -> Rows:
    tables = ("product", "lot", "batch", "record", "grouping2", "session", "word", "blank", "remake", "reply", "mark")
    made: Rows = {table: [] for table in tables}
    made["version"] = [(1, 3)]
    made["product"] = [(name, *product) for name, product in its.products.items()]
    made["lot"] = [(*lot, sum(lot.first <= serial < lot.first + lot.count for serial in its.discarded)) for lot in its.lots]
    commands: dict[tuple[str, str], Commands] = {}
    numbers = {name: number for number, name in enumerate(its.batches, 1)}
    sessions_of = by_card(its.sessions)
    for name, number in numbers.items():
        batch_rows(its, name, number, made, commands, sessions_of)
    places = {(batch, name): place for batch, place, name, *_ in made["record"]}
    for number, session in enumerate(its.sessions, 1):
        state, cursor = state_of(session, commands[session.batch, session.record])
        place = places[numbers[session.batch], session.record]
        made["session"].append((number, session.machine, numbers[session.batch], place, session.serial, state, int(session.ended),
                                len(session.words), *cursor))
        made["word"] += [(number, index, word) for index, word in enumerate(session.words)]
    charged = [(session.serial, 0) for session in its.sessions] + [(serial, 1) for serial in its.discarded]
    made["blank"] = [(serial, next(lot.name for lot in its.lots if lot.first <= serial < lot.first + lot.count), kind) for serial, kind in charged]
    for name, number in numbers.items():
        records = [row[3] for row in made["record"] if row[0] == number]
        sessions = [row[5] for row in made["session"] if row[2] == number]
        counters = (*(records.count(state) for state in range(5)), len(sessions), sessions.count(SPOILED))
        made["batch"].append((number, name, *its.batches[name], int(name in its.closed), *counters))
    made["reply"], made["mark"] = [tuple(reply) for reply in its.replies], list(its.marks.items())
    return made


# The worked exchange: a spoiled card, its remake, a good card, and a remake that is refused.

FILE = b"record,aid,rank,enc,tol,dgi\nR1,F00000000101,1,0,0,0101027000\n"
FIRST, SECOND = "00A4040006F00000000101", "80E28000050101027000"


def opened(blank: int, session: int) -> bytes:
    return (f'{{"batch":"B1","blank":{blank},"command":"{FIRST}","index":0,"record":"R1","result":"command","session":{session}}}').encode()


def answered(session: int) -> bytes:
    return f'{{"command":"{SECOND}","index":1,"result":"command","session":{session}}}'.encode()


REPLIES = [
    Reply("office", 1, b'\0{"do":"product","product":"P1","max":255,"low":0,"check":false}', 200, b'{"product":"P1","result":"created"}'),
    Reply("office", 2, b'\0{"do":"lot","lot":"L1","product":"P1","first":1000,"count":3}', 200, b'{"lot":"L1","result":"created"}'),
    Reply("office", 3, b"/batch/B1/P1\0" + FILE, 200, b'{"batch":"B1","records":1,"result":"created","rows":1}'),
    Reply("m1", 1, b'\0{"do":"open","batch":"B1","blank":1000}', 200, opened(1000, 1)),
    Reply("m1", 2, b'\0{"do":"answer","session":1,"index":0,"sw":"9000"}', 200, answered(1)),
    Reply("m1", 3, b'\0{"do":"answer","session":1,"index":1,"sw":"6A80"}', 200, b'{"result":"spoiled","session":1}'),
    Reply("office", 4, b'\0{"do":"remake","batch":"B1","record":"R1"}', 200, b'{"batch":"B1","record":"R1","result":"waiting"}'),
    Reply("m1", 4, b'\0{"do":"open","batch":"B1","blank":1001}', 200, opened(1001, 2)),
    Reply("m1", 5, b'\0{"do":"answer","session":2,"index":0,"sw":"9000"}', 200, answered(2)),
    Reply("m1", 6, b'\0{"do":"answer","session":2,"index":1,"sw":"9000"}', 200, b'{"result":"good","session":2}'),
    Reply("office", 5, b'\0{"do":"remake","batch":"B1","record":"R1"}', 409, b'{"code":68,"refused":"not-failed"}'),
]

WORKED = Contents(
    {"P1": Product(255, 0, 0)}, [Lot("L1", "P1", 1000, 3)], {"B1": ("P1", FILE)},
    [Session("m1", "B1", "R1", 1000, (0x9000, 0x6A80)), Session("m1", "B1", "R1", 1001, (0x9000, 0x9000))],
    [], Counter({("B1", "R1"): 1}), set(), set(), REPLIES, {})

# The rows of WORKED, by hand. Record state 4 is good. Session states 2 and 1 are spoiled and good. The cursor of the spoiled card is at its second
# command, that of the good card at the end.
WORKED_ROWS: Rows = {
    "version": [(1, 3)],
    "product": [("P1", 255, 0, 0)],
    "lot": [("L1", "P1", 1000, 3, 0)],
    "batch": [(1, "B1", "P1", FILE, 0, 0, 0, 0, 0, 1, 2, 1)],
    "record": [(1, 0, "R1", 4, 1, 1)],
    "grouping2": [(1, 2, 0, bytes.fromhex("F00000000101"), 1, 0, 0, bytes.fromhex("0101027000"))],
    "session": [(1, "m1", 1, 0, 1000, 2, 0, 2, 0, 0, 0, 1), (2, "m1", 1, 0, 1001, 1, 0, 2, 1, 0, 0, 0)],
    "word": [(1, 0, 36864), (1, 1, 27264), (2, 0, 36864), (2, 1, 36864)],
    "blank": [(1000, "L1", 0), (1001, "L1", 0)],
    "remake": [(1, 0, 1)],
    "reply": [tuple(reply) for reply in REPLIES],
    "mark": [],
}

# Contents with everything.


def file_of(*lines: str, end: str = "\n") -> bytes:
    return "".join(line + end for line in ("record,aid,rank,enc,tol,dgi", *lines)).encode()


# R1 and R2 have two applications. The first application of R1 has ranks out of order, a segment of three pieces, and a tolerant segment. The rows
# of R1 and R2 are interleaved.
CARDS = file_of(
    "R1,F00000000101,20,0,1,90010E000102030405060708090A0B0C0D",
    "R2,F00000000101,1,0,0,0101027000",
    "R1,F00000000101,3,1,0,8000FF00201122334455667788112233445566778811223344556677881122334455667788",
    "R1,f0000000020202,1,0,0,0201027000",
    "R2,F0000000020202,1,1,1,8000021122",
    "",
    '"R3",F00000000101,001,0,0,01010470000000',
    "R4,F00000000101,1,0,0,0101027000",
    "R5,F00000000101,1,0,0,0101027000",
    "R6,F00000000101,1,0,0,0101027000",
    "R7,F00000000101,1,0,0,0101027000",
    end="\r\n")
MIXED = file_of("R1,F00000000101,1,2,1,9002021122", "R1,F00000000101,2,0,0,0102027000")
PLAIN = file_of("R1,F00000000101,1,0,0,0101027000", "R2,F00000000101,1,0,0,0102027000", "R2,F00000000101,1,0,0,0103027000")
LAST = 10 ** 18 - 1

RICH = Contents(
    {"P1": Product(16, 7, 1), "P2": Product(255, 31, 0), "P-3_a": Product(255, 0, 0)},
    [Lot("L1", "P1", 1000, 12), Lot("L2", "P2", 1012, 6), Lot("L0", "P2", 0, 2), Lot("L9", "P1", LAST - 4, 5), Lot("L3", "P-3_a", 50, 1)],
    {"B1": ("P1", CARDS), "B2": ("P2", PLAIN), "B0": ("P2", FILE), "b2": ("P1", FILE), "B3": ("P2", MIXED)},
    [
        # R1 is spoiled at its SELECT, remade, spoiled at its last command, remade, and then good, with a tolerated status word.
        Session("m1", "B1", "R1", 1000, (0x6A88,)),
        Session("m1", "B1", "R1", 1001, (0x9000, 0x6101, 0x9000, 0x9000, 0x9000, 0x6A88, 0x9000, 0x6283)),
        Session("m2", "B1", "R1", LAST, (0x9000, 0x61FF, 0x9000, 0x9000, 0x9000, 0x6A88, 0x9000, 0x9000)),
        # R2 is in the middle of its sequence. R3 was aborted before its first word. R4 was aborted after one word, and remade. R5 failed and was
        # withdrawn.
        Session("m2", "B1", "R2", 1003, (0x9000, 0x9000)),
        Session("m3", "B1", "R3", 1004, (), True),
        Session("m3", "B1", "R4", 1005, (0x9000,), True),
        Session("m3", "B1", "R5", LAST - 4, (0x6F00,)),
        # Another machine is before its first command. B2 is closed, with one good and one withdrawn record.
        Session("m4", "B1", "R7", 1006, ()),
        Session("m1", "B2", "R1", 1012, (0x9000, 0x9000)),
        Session("m1", "B2", "R2", 1013, (0x9000, 0x6985)),
        Session("m1", "B0", "R1", 1014, (0x9000,), True),
    ],
    [1002, 1017, 50, 0],
    Counter({("B1", "R1"): 2, ("B1", "R4"): 1}), {("B1", "R5"), ("B1", "R6"), ("B2", "R2")}, {"B2"},
    [Reply("office", 5, b"\0{}", 200, b"{}"), Reply("office", LAST, b"", 409, b""), Reply("m1", 10 ** 7 + 1, b"\0", 200, b"\xFF\0"),
     Reply("m2", 1, b"\0{}", 409, b'{"code":68,"refused":"not-failed"}')],
    {"office": 4, "m9": LAST, "m1": 10 ** 7})

# Earlier schema versions lack some of this: version 2 has no mixed encryption, and version 1 no release marks either.
FOR_VERSION = {3: RICH, 2: RICH._replace(batches={name: batch for name, batch in RICH.batches.items() if name != "B3"})}
FOR_VERSION[1] = FOR_VERSION[2]._replace(marks={})
