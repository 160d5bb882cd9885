"""Draws batches of every shape, sound and with one fault, and computes their commands as docs/PROFILE.md describes."""
import functools
from collections import Counter
from typing import Callable, NamedTuple

from make_batch import coded
from row_groups import by_record, segments_of
from shapes_draw import (COUNTS, MOST_BLOCKS, MOST_DATA, MOST_FILE, MOST_RECORDS, MOST_ROWS, Case, Draw, changed, largest, spelt)

HEADER = "record,aid,rank,enc,tol,dgi"
# Sizes near which lengths or pieces change their form.
EDGES = (0, 1, 12, 13, 14, 125, 126, 127, 128, 250, 251, 252, 253, 254, 255, 256, 510, 4090, 4091, 16_000, 16_383, 16_384)
NAMES = {
    21: "marks-differ", 22: "identifier-twice", 23: "too-many-blocks", 30: "not-six-fields", 31: "header", 32: "record-name", 33: "aid",
    34: "rank", 35: "mark", 36: "grouping", 37: "not-a-record", 38: "too-many-rows", 39: "too-many-records", 40: "no-rows",
}

# EMV records: objects within objects.


def tag(draw: Draw, constructed: bool) -> bytes:
    first = draw.choice((0x00, 0x40, 0x80, 0xC0)) | (0x20 if constructed else 0)
    if draw.chance(0.7):
        return bytes([first | draw.randint(1, 30)])
    return bytes([first | 31, *(draw.randint(128, 255) for _ in range(draw.size(0, 4))), draw.randint(0, 127)])


def one_object(draw: Draw, its_tag: bytes, value: bytes) -> bytes:
    n = len(value)
    forms = [bytes([0x82, n >> 8, n & 255])] + [bytes([0x81, n & 255])] * (n < 256) + [bytes([n & 255])] * (n < 128)
    return its_tag + draw.choice(forms) + value


def objects(draw: Draw, depth: int, room: int) -> bytes:
    """Returns objects at this depth and filler bytes, with at most `room` bytes."""
    made = b""
    while room - len(made) >= 12 and draw.chance(0.7):
        size = draw.size(0, room - len(made) - 12)
        if depth <= 8 and draw.chance(0.7):
            made += one_object(draw, tag(draw, True), objects(draw, depth + 1, size))
        else:
            made += one_object(draw, tag(draw, False), draw.filled(size))
    return made + bytes(draw.size(0, min(3, room - len(made))))


def record_data(draw: Draw, most: int) -> bytes:
    if most < 12:
        return b"\x70\x00"
    fillers = [bytes(draw.size(0, 2)) for _ in range(2)]
    return fillers[0] + one_object(draw, b"\x70", objects(draw, 2, draw.size(0, most - 10))) + fillers[1]


def no_record(draw: Draw) -> bytes:
    whole = one_object(draw, b"\x70", objects(draw, 2, draw.size(0, 300)) or b"\0")
    nine_deep = functools.reduce(lambda inner, _: b"\x61" + bytes([len(inner)]) + inner, range(8), b"")
    return draw.choice((b"", whole[:-1], whole + b"\x70\x00", b"\x71" + whole[1:], b"\x70" + bytes([len(nine_deep)]) + nine_deep,
                        b"\x70\x80", b"\x70\x83\0\0\0", b"\x70\x01\x50", b"\x70\x02\x5F\x81"))


# Batches and their commands.


class Product(NamedTuple):
    max: int
    low: int
    check: bool


class Row(NamedTuple):
    record: str
    aid: bytes
    rank: int
    enc: int
    tol: int
    identifier: int
    data: bytes


class Shape(NamedTuple):
    """The weight of a shape, and its minimum and maximum numbers of records, applications of a record and rows of an application, and the maximum
    size of the data."""

    weight: float
    records: tuple[int, int]
    applications: tuple[int, int]
    rows: tuple[int, int]
    data: int


SHAPES = [
    Shape(70, (1, 4), (1, 3), (1, 6), 300),
    Shape(8, (1, 2), (4, 40), (1, 4), 60),
    Shape(5, (1, 2), (1, 2), (1, 300), 40),
    Shape(5, (2, 60), (1, 2), (1, 3), 40),
    Shape(6, (1, 2), (1, 2), (1, 5), MOST_DATA),
    Shape(0.3, (1, 1), (1, 1), (999, 2000), 13),
    Shape(0.3, (1, 2), (41, 4096), (1, 1), 13),
    Shape(0.2, (1, 1), (1, 1), (4096, 4096), 12),
    Shape(0.3, (MOST_RECORDS, MOST_RECORDS), (1, 1), (1, 4), 13),
    Shape(0.2, (1, 20), (1, 10), (1, 4), MOST_DATA),
]
SMALL = SHAPES[0]


def some_product(draw: Draw) -> Product:
    return Product(draw.choice((16, 255, draw.randint(16, 255))), draw.choice((0, 31, draw.randint(0, 31))), draw.chance(0.5))


def is_record_identifier(identifier: int) -> bool:
    return 1 <= identifier >> 8 <= 10 and identifier & 255 != 0


def sent_size(size: int) -> int:
    return size + (3 if size < 255 else 5)


def sizes_in(room: int) -> list[int]:
    """Returns the data sizes of groupings that together have `room` bytes, or one or two bytes fewer."""
    sizes = []
    while room >= 3:
        sizes.append(min(room - 3, 254) if room <= 257 else min(room - 5, MOST_DATA))
        room -= sent_size(sizes[-1])
    return sizes


def sent_of(segments: dict[int, list["Row"]]) -> Counter:
    """Returns the number of bytes to send for each rank."""
    return Counter({rank: sum(sent_size(len(row.data)) for row in rows) for rank, rows in segments.items()})


def blocks_of(sent: Counter, most: int) -> int:
    return sum(-(-size // most) for size in sent.values())


def row_data(draw: Draw, checked: bool, most: int) -> bytes:
    if checked:
        return record_data(draw, most)
    return draw.filled(draw.choice([edge for edge in EDGES if edge <= most]) if draw.chance(0.2) else draw.size(0, most))


def application(draw: Draw, product: Product, record: str, aid: bytes, count: int, most: int, is_full: bool = False) -> list[Row]:
    """Returns up to `count` rows of one application, within its maximum number of blocks. A full application has further rows that use up all
    blocks."""
    ranks = draw.sample(range(1, 1000), draw.size(1, min(count, 999)))
    marks = {rank: (draw.randrange(3), draw.randrange(2)) for rank in ranks}
    identifiers = draw.sample(range(0x0101, 0x0B00) if count < 2000 and draw.chance(0.5) else range(0xF000), count)
    sent: Counter = Counter()
    blocks, rows = 0, []
    for k, identifier in enumerate(identifiers):
        rank = ranks[k % len(ranks)]
        checked = product.check and marks[rank][0] == 0 and is_record_identifier(identifier)
        data = row_data(draw, checked, min(most, MOST_BLOCKS * product.max - 5))
        size = sent[rank] + sent_size(len(data))
        more = -(-size // product.max) - -(-sent[rank] // product.max)
        if blocks + more <= MOST_BLOCKS:
            blocks += more
            sent[rank] = size
            rows.append(Row(record, aid, rank, *marks[rank], identifier, data))
    if is_full or draw.chance(0.03):
        rank = rows[-1].rank
        sizes = sizes_in((MOST_BLOCKS - blocks) * product.max + -sent[rank] % product.max)
        rows += [Row(record, aid, rank, *marks[rank], 0xF000 + k, draw.filled(size)) for k, size in enumerate(sizes)]
    return rows


def some_rows(draw: Draw, product: Product, shape: Shape) -> list[Row]:
    """Returns the rows of a sound batch, with at most as many rows as a file may have and about 1 MB. A few longer batches come from `whole_file`."""
    aids = list({draw.randbytes(draw.size(5, 16)): None for _ in range(shape.applications[1])})
    rows: list[Row] = []
    for record in draw.names(draw.size(*shape.records)):
        for aid in draw.sample(aids, min(len(aids), draw.size(*shape.applications))):
            rows += application(draw, product, record, aid, draw.size(*shape.rows), shape.data)
    if draw.chance(0.3):
        draw.shuffle(rows)
    room, kept = 1_000_000, 0
    for row in rows[:MOST_ROWS]:
        room -= 2 * len(row.data) + 140
        kept += room > 0
    return rows[:max(kept, 1)]


def most_applications(draw: Draw) -> list[Row]:
    """Returns a record that has as many applications as a file may have rows."""
    aids = [f"{k:05}".encode() for k in range(MOST_ROWS)]
    return [Row("R1", aid, draw.randint(1, 999), draw.randrange(3), draw.randrange(2), 0x8000, draw.filled(draw.size(0, 9))) for aid in aids]


class Command(NamedTuple):
    text: str
    is_tolerant_end: bool


def commands_of(rows: list[Row], product: Product) -> list[Command]:
    made = []
    for aid, ranks in segments_of(rows).items():
        made.append(Command(f"00A40400{len(aid):02X}{aid.hex().upper()}", False))
        pieces = []
        for segment in ranks.values():
            sent = bytes.fromhex("".join(coded(f"{row.identifier:04X}", row.data) for row in segment))
            cuts = range(0, len(sent), product.max)
            pieces += [(segment[0], sent[cut:cut + product.max], cut == cuts[-1]) for cut in cuts]
        for block, (row, piece, is_end) in enumerate(pieces):
            first = product.low + (0, 96, 32)[row.enc] + 128 * (block == len(pieces) - 1)
            text = f"80E2{first:02X}{block:02X}{len(piece):02X}{piece.hex().upper()}"
            made.append(Command(text, is_end and row.tol == 1))
    return made


# Batch files as text.


def line_of(draw: Draw, row: Row, odd: bool) -> str:
    """Returns a row of the file. With `odd` it may have any spelling with the same meaning."""
    grouping = coded(f"{row.identifier:04X}", row.data)
    fields = [row.record, row.aid.hex().upper(), str(row.rank), str(row.enc), str(row.tol), grouping]
    if odd:
        if len(row.data) < 255 and draw.chance(0.2):
            fields[5] = f"{row.identifier:04X}FF{len(row.data):04X}{row.data.hex().upper()}"
        fields[2] = fields[2].zfill(draw.randint(1, 3))
        fields = [field.lower() if place in (1, 5) and draw.chance(0.2) else field for place, field in enumerate(fields)]
        fields = [f'"{field}"' if draw.chance(0.1) else field for field in fields]
    return ",".join(fields)


def lines_of(draw: Draw, rows: list[Row], odd: bool = False) -> list[str]:
    return [HEADER] + [line_of(draw, row, odd) for row in rows]


def file_of(draw: Draw, lines: list[str]) -> bytes:
    """Returns a file with line ends of every kind, empty lines, and sometimes a byte order mark."""
    ends = draw.choice((("\n",), ("\r\n",), ("\r",), ("\n", "\r\n", "\r", "\n\n\n", "\r\r")))
    text = "".join(line + draw.choice(ends) for line in lines)
    text = text.rstrip("\r\n") if draw.chance(0.2) and not lines[-1].endswith(",") else text
    return b"\xEF\xBB\xBF" * draw.chance(0.1) + text.encode("latin-1")


def text_of(lines: list[str]) -> bytes:
    return "".join(line + "\n" for line in lines).encode("latin-1")


def whole_file(draw: Draw, product: Product, size: int) -> tuple[list[str], list[Row]]:
    """Returns a sound batch whose lines have exactly `size` bytes."""
    room, rows, lines = size - len(HEADER) - 1, [], [HEADER]
    most = min(MOST_DATA, MOST_BLOCKS * product.max - 5)
    while room > 0:
        row = Row(f"R{len(rows) // 4}", draw.randbytes(8), draw.randint(1, 9), 1, 0, draw.randrange(65536), b"")
        front = len(line_of(draw, row, False)) + 1
        # The last two rows share the remaining bytes, so that the last row is neither too short nor too long.
        share = room if room <= 2 * most else room // 2 if room <= 4 * most else 2 * draw.randint(most // 2, most) + front
        wide = next(it for it in range(3) if fits(share - front - it))
        digits = share - front - wide
        data = draw.filled(digits // 2 if digits // 2 < 255 else digits // 2 - 2)
        rows.append(row._replace(data=data))
        lines.append(line_of(draw, rows[-1], False).replace(f",{row.rank},1,", f",{str(row.rank).zfill(1 + wide)},1,", 1))
        room -= len(lines[-1]) + 1
    return lines, rows


def fits(digits: int) -> bool:
    """Returns whether a grouping with some data can have `digits` more digits than one without data."""
    return digits % 2 == 0 and (digits <= 508 or digits >= 514)


# Faults of a batch: one fault in a sound file.

BAD_FIELDS: dict[int, tuple[tuple[int, ...], Callable[[Draw], str]]] = {
    32: ((0,), lambda draw: draw.choice(("", "R.1", "R 1", " R1", "R1 ", "R\xE9", "A" * draw.size(33, 5000)))),
    33: ((1,), lambda draw: draw.choice(("", "A0" * draw.size(0, 4), "A0" * draw.size(17, 5000), "A" * 11, "G0" * 6, "A0000000 0"))),
    34: ((2,), lambda draw: draw.choice(("", "0", "000", "1000", "0001", "+1", "-1", "1.0", "1a", " 1", "9" * draw.size(4, 5000)))),
    35: ((3, 4), lambda draw: draw.choice(("", "3", "00", "01", " 1", "x", "1" * draw.size(2, 5000)))),
    36: ((5,), lambda draw: bad_grouping(draw)),
}
BAD_HEADERS = ("", "\n\r\n", "a,b,c,d,e,f", HEADER.upper(), HEADER + " ", " " + HEADER, "\xEF\xBB\xBF" * 2 + HEADER, HEADER.replace("tol", "tot"))
SELDOM = (38, 39)
FAULTS = (21, 22, 23, 30, 31, 32, 33, 34, 35, 36, 37, 40)


def bad_grouping(draw: Draw) -> str:
    data = draw.filled(draw.size(1, MOST_DATA))
    whole = coded("8001", data)
    return draw.choice((
        whole[:draw.choice((0, 2))], whole[:4], "8001FF00", f"8001FF{draw.size(MOST_DATA + 1, 65535):04X}" + "00" * draw.size(0, 9),
        whole[:len(whole) - 2 * draw.size(1, len(data))], whole + "00" * draw.size(1, 300), whole + "0", whole[:-1] + "G",
    ))


def too_many(draw: Draw, kind: int) -> tuple[list[str], int]:
    if kind == 38:
        return [HEADER] + ["R1,F00000000101,1,0,0,0101027000"] * draw.randint(MOST_ROWS + 1, 2 * MOST_ROWS), MOST_ROWS + 2
    lines = [f"{name},F00000000101,1,0,0,0101027000" for name in draw.names(draw.randint(MOST_RECORDS + 1, 2 * MOST_RECORDS))]
    again = draw.size(0, MOST_ROWS - MOST_RECORDS - 1)
    return [HEADER] + lines[:1] * again + lines, again + MOST_RECORDS + 2


def with_record_fault(draw: Draw, kind: int, product: Product, rows: list[Row]) -> tuple[list[str], int]:
    """Adds rows to a record that contradict its other rows."""
    one = draw.choice(rows)
    if kind == 21:
        other = (one.enc + draw.randint(1, 2)) % 3
        enc, tol = draw.choice(((other, one.tol), (one.enc, 1 - one.tol), (other, 1 - one.tol)))
        more = [one._replace(enc=enc, tol=tol, identifier=0xF100, data=b"")]
    elif kind == 22:
        more = [one]
    else:
        sent = sent_of(segments_of([row for row in rows if row.record == one.record])[one.aid])
        room = (MOST_BLOCKS - blocks_of(sent, product.max)) * product.max + -sent[one.rank] % product.max + draw.size(4, 40_000)
        more = [one._replace(identifier=0xF100 + k, data=draw.filled(size)) for k, size in enumerate(sizes_in(room))]
    rows = list(rows)
    for row in more:
        rows.insert(draw.randint(0, len(rows)), row)
    return lines_of(draw, rows), 2 + next(place for place, row in enumerate(rows) if row.record == one.record)


def with_fault(draw: Draw, kind: int, product: Product, rows: list[Row]) -> tuple[list[str], int]:
    """Returns the lines of these rows with a fault, and the row that the refusal names."""
    if kind in SELDOM:
        return too_many(draw, kind)
    if kind in (21, 22, 23):
        return with_record_fault(draw, kind, product, rows)
    lines = lines_of(draw, rows)
    if kind == 40:
        return [HEADER], 1
    if kind == 31:
        bad = draw.choice(BAD_HEADERS)
        return [bad] + lines[1:] * bool(bad.strip()), 1
    at = draw.randint(1, len(rows))
    if kind == 37:
        wrong = rows[at - 1]._replace(enc=0, identifier=draw.randint(0x0101, 0x01FF), data=no_record(draw))
        lines.insert(at, line_of(draw, wrong, False))
        return lines, at + 1
    at = draw.choice((0, at)) if kind == 30 else at
    fields = lines[at].split(",")
    if kind == 30:
        fields = fields[:draw.randint(1, 5)] if draw.chance(0.5) else fields + [""] * draw.size(1, 100_000)
    else:
        places, bad_field = BAD_FIELDS[kind]
        fields[draw.choice(places)] = bad_field(draw)
    lines[at] = ",".join(fields)
    return lines, at + 1


# Cases.


class Plan(NamedTuple):
    """A batch file and the expected result of `persod plan`: the fault and its row, or the rows if the file is known to be sound."""

    product: Product
    raw: bytes
    fault: tuple[int, int] | None
    rows: list[Row] | None


def some_plan(draw: Draw, shape: Shape | None = None, fault: float = 0.3) -> Plan:
    product = some_product(draw)
    if shape is None and draw.chance(fault):
        kind = draw.choice(FAULTS if draw.chance(0.997) else SELDOM)
        product = product._replace(check=True) if kind == 37 else product
        lines, row = with_fault(draw, kind, product, some_rows(draw, product, SMALL))
        return Plan(product, text_of(lines), (kind, row), None)
    rows = some_rows(draw, product, shape or draw.choices(SHAPES, [it.weight for it in SHAPES])[0])
    return Plan(product, file_of(draw, lines_of(draw, rows, True)), None, rows)


def measured(plan: Plan) -> None:
    rows = plan.rows or []
    records = by_record(rows)
    largest(bytes_of_a_file=len(plan.raw), rows=len(rows), records=len(records))
    for row in rows:
        largest(name=len(row.record), aid=len(row.aid), rank=row.rank, data=len(row.data))
    for its in records.values():
        applications = segments_of(its)
        largest(rows_of_a_record=len(its), applications_of_a_record=len(applications))
        for ranks in applications.values():
            sent = sent_of(ranks)
            largest(ranks_of_an_application=len(ranks), bytes_of_a_segment=max(sent.values()),
                    blocks_of_an_application=blocks_of(sent, plan.product.max))


def options(product: Product) -> list[str]:
    return ["--max", str(product.max), "--low", str(product.low)] + ["--check"] * product.check


def verdict_on(plan: Plan) -> str:
    if plan.fault:
        kind, row = plan.fault
        return f"refused {kind} {NAMES[kind]} row {row}"
    if plan.rows is None:
        return "any" if len(plan.raw) <= MOST_FILE else "refused 413"
    return f"accepted {len(plan.rows)} rows {len(by_record(plan.rows))} records"


def plan_case(plan: Plan, title: str) -> Case:
    measured(plan)
    wanted = verdict_on(plan)
    COUNTS["batch, " + " ".join(wanted.split()[:2] if plan.rows is None else ["accepted"])] += 1
    lines = ["== " + title, " ".join(["bytes", *options(plan.product)]), *spelt(plan.raw), "  " + wanted]
    return Case("plan", "\n".join(lines) + "\n", 1)


def plan_cases(draw: Draw, count: int) -> list[Case]:
    cases = []
    for k in range(count):
        plan = some_plan(draw)
        if draw.chance(0.1):
            plan = Plan(plan.product, changed(draw, plan.raw, MOST_FILE), None, None)
        cases.append(plan_case(plan, f"batch {k}"))
    return cases


def long_plans(draw: Draw) -> list[Plan]:
    """Returns plans for a record with the maximum number of applications, for files of the maximum size, and for larger files."""
    product, rows = Product(16, 31, False), most_applications(draw)
    plans = [Plan(product, text_of(lines_of(draw, rows)), None, rows)]
    for size in (MOST_FILE, MOST_FILE - 1, MOST_FILE, draw.randint(1_000_000, MOST_FILE)):
        product = some_product(draw)
        lines, rows = whole_file(draw, product, size)
        plans.append(Plan(product, text_of(lines), None, rows))
    return plans + [Plan(plan.product, plan.raw + b"\n" * draw.size(2, 100_000), None, None) for plan in plans[1:3]]
