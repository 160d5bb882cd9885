"""Sends all requests of a run again to a server on a new file, in the order in which they were decided, and compares the results."""
import pathlib
import sys
from typing import Any

from files import all_rows, looked
from served import Server, exchange, free_port, get
from shop import Sent, Shop


def accounts(port: int, batches: list[str]) -> list[bytes]:
    targets = ["/blanks/P1"] + [f"/batch/{batch}{tail}" for batch in batches for tail in ("", "/report")]
    return [exchange(port, get(target)) for target in targets]


def asked_anew(program: str, database: pathlib.Path, shop: Shop) -> list[bytes]:
    """Sends all requests again, undisturbed, to a server on `database`. Returns the replies to the accounts at the end."""
    server = Server(program, database, free_port())
    for sent in sorted(shop.sent, key=Sent.place):
        came = exchange(server.port, sent.message)
        if came != sent.reply:
            sys.exit(f"connection {sent.place()}, {sent.message!r}\n  got    {sent.reply!r}\n  wanted {came!r}")
    found = accounts(server.port, shop.batches)
    server.kill()
    return found


def check_same(program: str, server: Server, database: pathlib.Path, shop: Shop, folder: pathlib.Path, others: str = "") -> None:
    """Kills the server, and compares its database file with that of a new server that gets the same requests. Kept replies of the client `others`
    aren't compared, because its requests aren't sent again."""
    found = accounts(server.port, shop.batches)
    server.kill()
    whole = folder / "anew.db"
    if found != asked_anew(program, whole, shop):
        sys.exit("accounts differ")
    ours, theirs = looked(database, all_rows), looked(whole, all_rows)
    ours["reply"] = [row for row in ours["reply"] if row[0] != others]
    if tables := differing(ours, theirs):
        sys.exit(f"tables differ: {', '.join(tables)}")


def differing(ours: dict[str, list[Any]], theirs: dict[str, list[Any]]) -> list[str]:
    return [table for table in ours if ours[table] != theirs[table]]
