#!/usr/bin/env python3
"""Checks the table "Responses and cards" of docs/SHOP_FLOOR.md with driver.py and the server.

    bench/run bins

With bench/demo/driver.py, the script causes each refusal of an `open` and of an `answer`, a good
card, a spoiled one, one without a status word, and a status 400. After each it compares three
things with the row of the table: the place of the card, whether the machine continues, and
whether the blank is charged. Exit status: 1 if one of them differs.
"""
import json
import pathlib
import re
import sys
import tempfile
from typing import Callable, NamedTuple, Optional

import driver
from commands import TOP
from events import expect
from served import Server, free_port, get, imported, request
from small_shop import FIRST, accepted, batch_file, set_up

OTHER = 5000
RECORDS = 20
HEADING = "## Responses and cards\n"


class Row(NamedTuple):
    """The last three columns of a row."""

    charged: str
    card: str
    machine: str


def table() -> dict[tuple[str, str], Row]:
    """Returns the rows by request and by each code, status or word of the response."""
    rows: dict[tuple[str, str], Row] = {}
    requests: list[str] = []
    page = (TOP / "docs" / "SHOP_FLOOR.md").read_text()
    for line in page.split(HEADING)[1].split("\n## ")[0].splitlines():
        if not line.startswith("| ") or line.startswith("| Request"):
            continue
        asked, response, *rest = (cell.strip() for cell in line.strip("|").split("|"))
        requests = re.findall(r"\w+", asked) or requests
        for key in re.findall(r"\b\d{2,3}\b|`\w+`|command", response):
            rows.update({(one, key.strip("`")): Row(*rest) for one in requests})
    return rows


class Machine(driver.Machine):
    """A driver with a card that returns `word`, and a change before each `answer`."""

    def __init__(self, port: int, boot: int, word: Optional[str] = "9000") -> None:
        super().__init__(port, "m1", boot)
        self.word, self.members = word, {}
        self.before: Callable[[], object] = lambda: None

    def ask(self, request: dict, end: str = "") -> tuple[int, dict]:
        return super().ask({**request, **self.members.get(request["do"], {})}, end)

    def card(self, command: bytes) -> Optional[str]:
        self.before()
        return self.word


class Shop:
    """Batch B1 has records for all trials, B2 is closed, and B3's only record is withdrawn. Blank
    1000 is discarded, and product P2 has a lot."""

    def __init__(self, port: int) -> None:
        self.port, self.boot, self.blank, self.rows, self.seen = port, 0, FIRST, table(), 0
        messages = [
            *set_up(40, RECORDS),
            imported("office", 4, "B2", "P1", batch_file(1)),
            imported("office", 5, "B3", "P1", batch_file(1)),
            request("office", 6, do="withdraw", batch="B2", record="R1"),
            request("office", 7, do="withdraw", batch="B3", record="R1"),
            request("office", 8, do="close", batch="B2"),
            request("office", 9, do="discard", blank=FIRST),
            request("office", 10, do="product", product="P2", max=255, low=0, check=False),
            request("office", 11, do="lot", lot="L2", product="P2", first=OTHER, count=1),
        ]
        for message in messages:
            accepted(port, message)

    def machine(self, word: Optional[str] = "9000") -> Machine:
        self.boot += 1
        started = Machine(self.port, self.boot, word)
        started.start()
        return started

    def charged(self) -> int:
        """Returns the number of charged blanks."""
        accounts = [accepted(self.port, get(f"/blanks/{product}")) for product in ("P1", "P2")]
        return sum(json.loads(account.split(b"\r\n\r\n")[1])["charged"] for account in accounts)

    def fresh(self) -> int:
        self.blank += 1
        return self.blank

    def trial(self, do: str, key: str, machine: Machine, batch: str = "B1", blank: int = 0) -> None:
        """Makes a card, and compares its end with the row of the table."""
        row, before = self.rows[do, key], self.charged()
        why = None
        try:
            made = machine.make(batch, blank or self.fresh())
            came = {True: "good cards", False: "rejects", None: "magazine"}[made]
            stops = made is None
        except driver.Stopped as stopped:
            why, stops = str(stopped), True
            came = "rejects" if stopped.reject else "magazine"
        name = f"{do} {key}"
        expect(f"the card after {name}", came, row.card)
        expect(f"the machine after {name}", stops, row.machine.startswith("stops"))
        if why is not None and key.isdigit():
            expect(f"the code of {name} in {why!r}", key in why, True)
        charges = int(do != "open" and row.charged.startswith("yes"))
        expect(f"new charges after {name}", self.charged() - before, charges)
        self.seen += 1


def openings(shop: Shop) -> None:
    machine = shop.machine()
    shop.trial("open", "56", machine, "B9")
    shop.trial("open", "57", machine, "B2")
    shop.trial("open", "58", machine, blank=9999)
    shop.trial("open", "59", machine, blank=OTHER)
    shop.trial("open", "60", machine, blank=FIRST)
    shop.trial("open", "62", machine, "B3")
    machine.number -= 1
    shop.trial("open", "72", machine)
    shop.machine()
    shop.trial("open", "73", machine)
    machine = shop.machine()
    machine.members = {"open": {"batch": "B 1"}}
    try:
        machine.make("B1", shop.fresh())
    except driver.Stopped as stopped:
        expect("a status 400", (stopped.reject, " 400 " in str(stopped)), (True, True))
        row = shop.rows["any", "400"]
        expect("its row", (row.card, row.machine[:5]), ("rejects", "stops"))
        shop.seen += 1


def busy(shop: Shop) -> None:
    """Opens a session for another card. The reset after the refusal spoils it."""
    machine = shop.machine()
    opened = machine.ask({"do": "open", "batch": "B1", "blank": shop.fresh()})
    expect("the opening of another card", opened[0], 200)
    blank = shop.fresh()
    expect("the card after open 61", machine.make("B1", blank), False)
    expect("the row of 61", shop.rows["open", "61"][1:], ("rejects", "sends `reset`, continues"))
    expect("the next card", machine.make("B1", blank), True)
    shop.seen += 1


def answers(shop: Shop) -> None:
    shop.trial("answer", "good", shop.machine())
    shop.trial("answer", "spoiled", shop.machine("6A80"))
    shop.trial("abort", "spoiled", shop.machine(None))
    for members, code in (({"session": 999}, "63"), ({"index": 7}, "66")):
        machine = shop.machine()
        machine.members = {"answer": members}
        shop.trial("answer", code, machine)
        if code == "66":
            machine.members = {}
            expect("the next card after 66", machine.make("B1", shop.fresh()), True)
    other = request("m2", 1, do="open", batch="B1", blank=shop.fresh())
    session = int(re.search(rb'"session":(\d+)', accepted(shop.port, other))[1])
    machine = shop.machine()
    machine.members = {"answer": {"session": session}}
    shop.trial("answer", "64", machine)
    machine = shop.machine()
    machine.before = lambda: accepted(shop.port, request("m1", 10**17, do="reset"))
    shop.trial("answer", "65", machine)
    machine = shop.machine()
    machine.before = lambda: setattr(machine, "number", machine.number - 1)
    shop.trial("answer", "72", machine)
    machine = shop.machine()
    machine.before = shop.machine
    shop.trial("answer", "73", machine)


def strays(shop: Shop) -> None:
    machine = shop.machine()
    expect("two strays", [machine.make("B1", 9000 + place) for place in range(2)], [False] * 2)
    try:
        sys.exit(f"a third stray card: {machine.make('B1', 9002)}")
    except driver.Stopped as stopped:
        expect("the third", stopped.reject, True)


def main() -> None:
    with tempfile.TemporaryDirectory() as name:
        server = Server(sys.argv[1], pathlib.Path(name) / "shop.db", free_port())
        shop = Shop(server.port)
        openings(shop)
        busy(shop)
        answers(shop)
        strays(shop)
        server.kill()
    print(f"{shop.seen} cards, all as the table in SHOP_FLOOR.md says")


if __name__ == "__main__":
    main()
