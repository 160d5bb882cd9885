"""Sets up a small shop: one product, one lot of blanks from 1000, and one batch, whose cards have two commands each."""
import pathlib
import sqlite3

from events import expect
from files import is_empty, is_whole
from served import exchange, imported, parts, request

HEADER = "record,aid,rank,enc,tol,dgi"
FIRST = 1000


def batch_file(records: int, size: int = 2) -> bytes:
    """Returns a batch file of `records` records, each with one grouping of `size` data bytes."""
    row = "F00000000101,1,0,0,0101" + f"{size:02X}" + "70" + "00" * (size - 1)
    return "".join(f"{line}\n" for line in [HEADER, *(f"R{place},{row}" for place in range(1, records + 1))]).encode()


def set_up(blanks: int, records: int) -> list[bytes]:
    """Returns the first three messages of the office."""
    return [
        request("office", 1, do="product", product="P1", max=255, low=0, check=False),
        request("office", 2, do="lot", lot="L1", product="P1", first=FIRST, count=blanks),
        imported("office", 3, "B1", "P1", batch_file(records)),
    ]


def accepted(port: int, message: bytes) -> bytes:
    """Sends a message, and returns the response. Ends the run if its status isn't 200."""
    reply = exchange(port, message)
    expect(f"the status of {message[:60]!r}", (parts(reply) or (0,))[0], 200)
    return reply


def stock(port: int, blanks: int, records: int) -> None:
    for message in set_up(blanks, records):
        accepted(port, message)


def kept(database: pathlib.Path) -> list[tuple[int, bytes]]:
    """Returns the status and body of each kept reply in a database file, ordered by client and number. Ends the run if the file isn't intact."""
    link = sqlite3.connect(database)
    try:
        if is_empty(link):
            return []
        expect(f"{database} is whole", is_whole(link), True)
        return link.execute("SELECT status, body FROM reply ORDER BY client, number").fetchall()
    finally:
        link.close()
