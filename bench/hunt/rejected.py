#!/usr/bin/env python3
"""Feeds cards that `persod feed` rejects for each possible cause, and checks its event lines.

    bench/run rejected

Each `rejected` on standard output must have one event line. The line has the request number, and the code and name of the refusal, or says that
a status word of the card spoiled its session. Malformed input lines must be reported with their number and cause. Without PERSOD_LOG, standard
error must contain only `refused 400`. Exit status: 1 if a check fails."""
import pathlib
import sys
import tempfile

from events import expect, run
from served import Server, free_port, imported, request
from small_shop import FIRST, accepted, batch_file, set_up

OTHER = 5000
BAD = {"": "empty", "1001\r": "ends-in-cr", "1001 9000\r": "ends-in-cr", "1001  9000": "space", " 1001": "space", "1001 ": "space", "01001": "serial",
       "x": "serial", "1" * 19: "serial", "1001 900": "word", "1001 9g00": "word"}


def stock(port: int) -> None:
    """Batch B1 has two records, B2 is closed, and blank 1009 is discarded. Product P2 has its own lot."""
    messages = [
        *set_up(20, 2),
        imported("office", 4, "B2", "P1", batch_file(1)),
        request("office", 5, do="withdraw", batch="B2", record="R1"),
        request("office", 6, do="close", batch="B2"),
        request("office", 7, do="discard", blank=FIRST + 9),
        request("office", 8, do="product", product="P2", max=255, low=0, check=False),
        request("office", 9, do="lot", lot="L2", product="P2", first=OTHER, count=1),
    ]
    for message in messages:
        accepted(port, message)


class Machine:
    """Feeds a batch with a new boot number each time."""

    def __init__(self, program: str, port: int) -> None:
        self.program, self.port, self.boot = program, port, 0

    def feed(self, batch: str, typed: str, level: str = "1") -> tuple[int, list[str], list[str]]:
        self.boot += 1
        words = ["feed", "--port", self.port, "--machine", "m1", "--boot", self.boot, "--batch", batch]
        return run(self.program, *words, typed=typed, level=level)

    def number(self, place: int) -> int:
        return self.boot * 10_000_000 + place


def refusals(machine: Machine) -> int:
    """Feeds a batch in which each card is rejected for another reason. Returns the number of event lines."""
    cards = [(9999, 58, "blank-unknown"), (OTHER, 59, "blank-of-other-product"), (FIRST + 9, 60, "blank-used")]
    last = [(FIRST + 2, 62, "nothing-waiting")]
    typed = "".join(f"{serial}\n" for serial, *_ in cards) + f"{FIRST} 6A80\n{FIRST + 1} 9000 6F00\n{FIRST + 2}\n"
    status, printed, errors = machine.feed("B1", typed)
    expect("the results", [line for line in printed if line.endswith(("good", "rejected"))], [
        f"{serial} rejected" for serial in (9999, OTHER, FIRST + 9, FIRST, FIRST + 1, FIRST + 2)
    ])
    wanted = [f"rejected serial={serial} number={machine.number(3 + place)} code={code} name={rule}" for place, (serial, code, rule) in enumerate(cards)]
    wanted += [f"rejected serial={FIRST} number={machine.number(7)} cause=spoiled", f"rejected serial={FIRST + 1} number={machine.number(10)} cause=spoiled"]
    wanted += [f"rejected serial={serial} number={machine.number(11)} code={code} name={rule}" for serial, code, rule in last]
    expect("the lines", (status, errors), (0, wanted))
    return len(wanted)


def main() -> None:
    program = sys.argv[1]
    with tempfile.TemporaryDirectory() as name:
        server = Server(program, pathlib.Path(name) / "shop.db", free_port())
        stock(server.port)
        machine = Machine(program, server.port)
        seen = refusals(machine)
        for batch, code, rule in (("B9", 56, "batch-unknown"), ("B2", 57, "batch-closed")):
            came = machine.feed(batch, f"{FIRST + 3}\n")
            expect(batch, came, (0, [f"{FIRST + 3} rejected"], [f"rejected serial={FIRST + 3} number={machine.number(3)} code={code} name={rule}"]))
            seen += 1
        for line, cause in BAD.items():
            status, printed, errors = machine.feed("B9", f"{FIRST + 3}\n{FIRST + 4}\n{line}\n")
            expect(f"the list with {line!r}", (status, len(printed)), (1, 2))
            expect(f"the line of {line!r}", [text for text in errors if not text.startswith("rejected ")], [f"bad-line line=3 cause={cause}", "refused 400"])
        expect("without event lines", machine.feed("B9", f"{FIRST + 3}\n\n", ""), (1, [f"{FIRST + 3} rejected"], ["refused 400"]))
        server.kill()
    print(f"{seen} rejected cards and {len(BAD)} malformed input lines, each with its event line")


if __name__ == "__main__":
    main()
