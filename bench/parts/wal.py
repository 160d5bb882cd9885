"""Reads the frames of a WAL (SQLite's database file format, section 4), and counts the commits after a break in it."""
import pathlib
import struct
from typing import NamedTuple, Optional

from events import expect, path, run

HEAD, FRAME_HEAD = 32, 24
COUNT_PAGE = 0xFF000000
MAGIC = 0x377F0682, 0x377F0683
CAUSE = "damaged-wal"
SUSPECT = "suspect-wal"
MOST_KNOWN = 50_000
Sum = tuple[int, int]


def checksum(start: Sum, data: bytes) -> Sum:
    """Returns the checksum of `data`. The words are little-endian, as in every WAL that is made on this machine."""
    first, second = start
    for one, two in struct.iter_unpack("<II", data):
        first = (first + one + second) & 0xFFFFFFFF
        second = (second + two + first) & 0xFFFFFFFF
    return first, second


class Frame(NamedTuple):
    page: int
    size: int
    salts: Sum
    sum: Sum
    is_summed: bool


class Wal:
    """A WAL, and the values of its frames. The checksums of known frames are cached."""

    known: dict[tuple[Sum, bytes], bool] = {}

    def __init__(self, data: bytes, page_size: int) -> None:
        self.frames: list[Frame] = []
        self.has_header = len(data) >= HEAD and struct.unpack(">I", data[:4])[0] in MAGIC and checksum((0, 0), data[:24]) == struct.unpack(">II", data[24:HEAD])
        self.is_cleared = not self.has_header and data[:1] == b"\0"
        self.page_size = struct.unpack(">I", data[8:12])[0] if self.has_header else page_size
        if len(data) < HEAD or not 512 <= self.page_size <= 65536:
            return
        self.salts = struct.unpack(">II", data[16:24])
        before = struct.unpack(">II", data[24:HEAD])
        length = FRAME_HEAD + self.page_size
        for at in range(HEAD, len(data) - length + 1, length):
            raw = data[at : at + length]
            page, size, *words = struct.unpack(">6I", raw[:FRAME_HEAD])
            self.frames.append(Frame(page, size, tuple(words[:2]), tuple(words[2:]), self.is_summed(before, raw)))
            before = tuple(words[2:])

    def is_summed(self, before: Sum, raw: bytes) -> bool:
        if (found := self.known.get((before, raw))) is None:
            if len(self.known) >= MOST_KNOWN:
                self.known.clear()
            found = checksum(checksum(before, raw[:8]), raw[FRAME_HEAD:]) == struct.unpack(">II", raw[16:FRAME_HEAD])
            self.known[before, raw] = found
        return found

    def follows(self, place: int) -> bool:
        """Returns whether a frame is valid after the one before it."""
        frame = self.frames[place]
        salts = self.salts if self.has_header or not place else self.frames[place - 1].salts
        return frame.salts == salts and frame.page != 0 and frame.is_summed

    def lost(self) -> int:
        """Returns the number of counted commits that begin after the first break."""
        if self.is_cleared:
            return 0
        is_whole, count = self.has_header, 0
        for place, frame in enumerate(self.frames):
            follows = self.follows(place)
            count += not is_whole and place > 0 and self.frames[place - 1].size != 0 and follows and frame.page == COUNT_PAGE
            is_whole = is_whole and follows
        return count

    def used(self) -> int:
        """Returns the number of frames that recovery uses."""
        last = 0
        for place, frame in enumerate(self.frames):
            if not self.has_header or not self.follows(place):
                break
            last = place + 1 if frame.size else last
        return last

    def last_commit(self) -> int:
        """Returns the index of the first frame of the last commit."""
        return max((place for place in range(1, self.used()) if self.frames[place - 1].size), default=0)


def flipped(data: bytes, bit: int) -> bytes:
    changed = bytearray(data)
    changed[bit // 8] ^= 1 << bit % 8
    return bytes(changed)


# ---- a database file with its WAL, and how the programs open it


def wal_of(database: pathlib.Path) -> pathlib.Path:
    return pathlib.Path(f"{database}-wal")


def page_size_in(db: bytes) -> int:
    named = int.from_bytes(db[16:18], "big") if len(db) >= 18 else 0
    return 65536 if named == 1 else named


class Pair(NamedTuple):
    """A database file, which may be missing, and its WAL."""

    db: Optional[bytes]
    wal: bytes

    def lost(self) -> int:
        return Wal(self.wal, page_size_in(self.db or b"")).lost()

    def write(self, database: pathlib.Path) -> None:
        database.unlink(missing_ok=True)
        if self.db is not None:
            database.write_bytes(self.db)
        wal_of(database).write_bytes(self.wal)


def pair_at(database: pathlib.Path) -> Pair:
    return Pair(database.read_bytes(), wal_of(database).read_bytes())


class Programs(NamedTuple):
    persod: str
    shopbook: str


def expect_refused(programs: Programs, database: pathlib.Path, what: str, pair: Pair, port: int) -> None:
    """Checks that `serve`, `report` and `shopbook` refuse the two files with cause `damaged-wal`, and change neither."""
    lines = [f"refused code=81 cause={CAUSE} commits={pair.lost()} db={path(database)}", "refused 81"]
    runs = [(programs.persod, "serve", "--db", database, "--port", port, "--turns", 1)]
    if pair.db is not None:
        runs += [(programs.persod, "report", "--db", database, "--batch", "B1"), (programs.shopbook, "check", "--db", database)]
    for program, word, *words in runs:
        pair.write(database)
        ran = run(program, word, *words)
        expect(f"{what}: {word}", (ran.status, ran.printed, ran.errors), (1, [], lines))
        expect(f"{what}: both files after {word}", pair_at(database) == Pair(pair.db or b"", pair.wal), True)


def expect_not_called_damaged(program: str, database: pathlib.Path, what: str, pair: Pair) -> None:
    """Checks that `report` doesn't mention the WAL, whatever else it prints."""
    expect(f"{what}: counted commits after a break", pair.lost(), 0)
    pair.write(database)
    ran = run(program, "report", "--db", database, "--batch", "B1")
    expect(f"{what}: {ran.errors} names the WAL", any(CAUSE in line or SUSPECT in line for line in ran.errors), False)
