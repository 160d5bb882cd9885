"""Parses batch files as docs/PROFILE.md describes: their rows, and the cursor of a card after each command."""
import bisect
import re
from typing import Iterator, NamedTuple

from row_groups import by_record, segments_of

HEADER = [b"record", b"aid", b"rank", b"enc", b"tol", b"dgi"]
MOST_ROWS, MOST_RECORDS, MOST_BLOCKS, MOST_DATA = 4096, 1024, 256, 16_384
NAME = re.compile(r"[A-Za-z0-9_-]{1,32}")
QUOTED = re.compile(rb'"([^"]*(?:""[^"]*)*)("|\Z)')
PLAIN = re.compile(rb"[^,\r\n]*")
LINE_ENDS = re.compile(rb"[\r\n]*")


class Product(NamedTuple):
    max: int
    low: int
    checked: int


class Row(NamedTuple):
    record: str
    aid: bytes
    rank: int
    enc: int
    tol: int
    coded: bytes


def is_name(text: str) -> bool:
    return NAME.fullmatch(text) is not None


# The file as text.


def fields_of(raw: bytes) -> Iterator[list[bytes]]:
    """Yields the fields of each row, except empty lines."""
    at = 3 if raw.startswith(b"\xEF\xBB\xBF") else 0
    at = end_of(LINE_ENDS, raw, at)
    while at < len(raw):
        fields = []
        while True:
            field, at = field_at(raw, at)
            fields.append(field)
            if raw[at:at + 1] != b",":
                break
            at += 1
        yield fields
        at = end_of(LINE_ENDS, raw, at)


def field_at(raw: bytes, at: int) -> tuple[bytes, int]:
    """Returns a field and the position of its end."""
    quoted = QUOTED.match(raw, at)
    front = quoted[1].replace(b'""', b'"') if quoted else b""
    start = quoted.end() if quoted else at
    end = end_of(PLAIN, raw, start)
    return front + raw[start:end], end


def end_of(pattern: re.Pattern[bytes], raw: bytes, at: int) -> int:
    found = pattern.match(raw, at)
    return found.end() if found else at


# The six fields.


def bytes_of(field: bytes) -> bytes | None:
    if len(field) % 2 or not re.fullmatch(rb"[0-9A-Fa-f]*", field):
        return None
    return bytes.fromhex(field.decode())


def sent_form(spelt: bytes | None) -> bytes | None:
    """Returns the grouping that `spelt` encodes, in the encoding that is sent, or None if it isn't exactly one grouping."""
    if spelt is None or len(spelt) < 3:
        return None
    is_long = spelt[2] == 255
    size, front = (int.from_bytes(spelt[3:5]), 5) if is_long else (spelt[2], 3)
    if len(spelt) != front + size or size > MOST_DATA:
        return None
    length = bytes([size]) if size < 255 else b"\xFF" + size.to_bytes(2)
    return spelt[:2] + length + spelt[front:]


def row_of(fields: list[bytes], product: Product) -> Row | None:
    """Returns the row of these fields, or None if the row by itself has a fault."""
    if len(fields) != 6:
        return None
    name, aid, coded = fields[0].decode("latin-1"), bytes_of(fields[1]), sent_form(bytes_of(fields[5]))
    is_sound = (is_name(name) and aid is not None and 5 <= len(aid) <= 16
                and re.fullmatch(rb"[0-9]{1,3}", fields[2]) and int(fields[2]) >= 1
                and fields[3] in (b"0", b"1", b"2") and fields[4] in (b"0", b"1") and coded is not None)
    if not is_sound or aid is None or coded is None:
        return None
    row = Row(name, aid, int(fields[2]), int(fields[3]), int(fields[4]), coded)
    return None if product.checked and breaks_check(row) else row


# The check of EMV records.


def breaks_check(row: Row) -> bool:
    is_looked_into = row.enc == 0 and 1 <= row.coded[0] <= 10 and row.coded[1] != 0
    return is_looked_into and not is_record(row.coded[5 if row.coded[2] == 255 else 3:])


def is_record(data: bytes) -> bool:
    found = object_at(data.lstrip(b"\0"))
    return found is not None and found[0] == b"\x70" and is_content(found[1], 2) and not found[2].strip(b"\0")


def object_at(data: bytes) -> tuple[bytes, bytes, bytes] | None:
    """Returns the tag and the value of the first object, and the bytes after it."""
    tag = re.match(rb"[\x00-\xFF][\x80-\xFF]*[\x00-\x7F]" if data and data[0] & 31 == 31 else rb"[\x00-\xFF]", data)
    if tag is None:
        return None
    rest = data[tag.end():]
    front = {0x81: 2, 0x82: 3}.get(rest[0], 1) if rest else 1
    if len(rest) < front or (front == 1 and rest[0] > 127):
        return None
    size = rest[0] if front == 1 else int.from_bytes(rest[1:front])
    return (tag[0], rest[front:front + size], rest[front + size:]) if len(rest) >= front + size else None


def is_content(data: bytes, depth: int) -> bool:
    """Returns whether `data` consists of objects at `depth` and filler bytes."""
    while data := data.lstrip(b"\0"):
        found = object_at(data)
        if found is None:
            return False
        if found[0][0] & 32 and (depth > 8 or not is_content(found[1], depth + 1)):
            return False
        data = found[2]
    return True


# A batch.


def rows_of(raw: bytes, product: Product) -> list[Row] | None:
    """Returns the rows of a batch file under its product, or None if it has a fault."""
    rows: list[Row] = []
    for place, fields in enumerate(fields_of(raw)):
        if place == 0:
            if fields != HEADER:
                return None
            continue
        row = row_of(fields, product)
        if row is None or place > MOST_ROWS:
            return None
        rows.append(row)
    records = by_record(rows)
    if not rows or len(records) > MOST_RECORDS or any(has_fault(its, product) for its in records.values()):
        return None
    return rows


def pieces_of(segment: list[Row], product: Product) -> int:
    return -(-sum(len(row.coded) for row in segment) // product.max)


def has_fault(rows: list[Row], product: Product) -> bool:
    """Returns whether the rows of a record have different `enc` or `tol` in a segment, a repeated identifier, or too many blocks."""
    for ranks in segments_of(rows).values():
        identifiers = [row.coded[:2] for segment in ranks.values() for row in segment]
        if (any((row.enc, row.tol) != (segment[0].enc, segment[0].tol) for segment in ranks.values() for row in segment)
                or len(set(identifiers)) < len(identifiers)
                or sum(pieces_of(segment, product) for segment in ranks.values()) > MOST_BLOCKS):
            return True
    return False


# Commands.


class Part(NamedTuple):
    """A SELECT, whose `segment` is None, or the commands of a segment. `first` is the index of its first command in the sequence."""

    first: int
    app: int
    segment: int | None
    block: int
    pieces: int
    is_tolerant: bool


class Commands:
    """The sequence of a record."""

    def __init__(self, rows: list[Row], product: Product) -> None:
        self.max = product.max
        self.parts: list[Part] = []
        self.count = 0
        applications = segments_of(rows)
        self.applications = len(applications)
        for app, ranks in enumerate(applications.values()):
            self.add(Part(self.count, app, None, 0, 1, False))
            block = 0
            for place, segment in enumerate(ranks.values()):
                pieces = pieces_of(segment, product)
                self.add(Part(self.count, app, place, block, pieces, segment[0].tol == 1))
                block += pieces
        self.starts = [part.first for part in self.parts]

    def add(self, part: Part) -> None:
        self.parts.append(part)
        self.count += part.pieces

    def part_of(self, index: int) -> Part:
        return self.parts[bisect.bisect_right(self.starts, index) - 1]

    def goes(self, index: int, word: int) -> bool:
        """Returns whether the session continues after status word `word` to command `index`."""
        if word == 0x9000 or word >> 8 == 0x61:
            return True
        part = self.part_of(index)
        return word == 0x6A88 and part.is_tolerant and index == part.first + part.pieces - 1

    def cursor(self, index: int) -> tuple[int, int, int, int]:
        """Returns the cursor of a card whose next command is `index`: application, segment, offset and block."""
        if index == self.count:
            return self.applications, 0, 0, 0
        part = self.part_of(index)
        if part.segment is None:
            return part.app, 0, 0, 0
        piece = index - part.first
        return part.app, part.segment, piece * self.max, part.block + piece + 1
