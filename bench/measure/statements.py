#!/usr/bin/env python3
"""Counts the SQL statements that `persod serve` executes for each kind of request.

    bench/run statements

Requires gdb, and Linux on x86-64. Takes a few seconds.

The server runs under gdb, which stops it whenever the crate `sqlite` of the toolchain is about
to execute a statement. One of the registers points to the text of the statement. The program is
therefore the real one, and a prepared statement counts each time it is executed.

The counts are for one request each: an opening, an answer within its segment, an answer that
begins the next segment, a last answer, and an import. The batch has two cards of make_batch.py.
An import adds a record and a grouping for each row of its file.
"""
import json
import pathlib
import random
import subprocess
import sys
import tempfile
from collections import Counter
from typing import Any

from make_batch import card
from served import Server, exchange, free_port, imported, parts, request

OPENING, ANSWER, NEXT, LAST, IMPORT = "opening", "answer", "next", "last", "import"
CARDS = 2
# The function that looks up a statement and binds its values, before each execution.
RUNS = "sqlite::connection::Connection::bind::<"
# The function that commits a transaction with changes.
COMMITS = "sqlite_pager::pager::Pager::commit::<"
COMMIT = "(a commit)"
# Runs in gdb's own Python, and writes a line at each stop.
WATCHER = r"""
import gdb, re
VERBS = re.compile(rb"(SELECT|INSERT|UPDATE|DELETE|BEGIN|COMMIT|ROLLBACK|CREATE|DROP|PRAGMA)\b")
REGISTERS = ("rdi", "rsi", "rdx", "rcx", "r8", "r9")
log = open(LOG, "w", buffering=1)

def read(address, size):
    try:
        return bytes(gdb.selected_inferior().read_memory(address, size))
    except (gdb.MemoryError, OverflowError):
        return b""

def number(address):
    return int.from_bytes(read(address, 8), "little")

def text():
    '''Returns a text whose address and length are in two registers, or in memory at a register.'''
    values = [int(gdb.parse_and_eval(f"(unsigned long)${name}")) for name in REGISTERS]
    pairs = [*zip(values, values[1:]), *((number(it), number(it + 8)) for it in values)]
    for place, size in pairs:
        if 4 <= size < 4096 and VERBS.match(read(place, size)):
            return read(place, size).decode()
    return "(text not found)"

class Stop(gdb.Breakpoint):
    def __init__(self, place, line):
        super().__init__(f"*{place}", internal=True)
        self.line = line

    def stop(self):
        log.write((self.line or text()) + "\n")
        return False

for place in RUNS:
    Stop(place, None)
for place in COMMITS:
    Stop(place, COMMIT)
log.write("ready\n")
gdb.execute("continue")
"""


class Watched:
    """A server under gdb, and the statements that it executed."""

    def __init__(self, program: str, folder: pathlib.Path) -> None:
        self.server = Server(program, folder / "shop.db", free_port())
        self.number, self.lines = 0, (folder / "log").open("w+")
        script = folder / "watcher.py"
        names = {"LOG": self.lines.name, "COMMIT": COMMIT, **self.places(program)}
        script.write_text("".join(f"{name} = {it!r}\n" for name, it in names.items()) + WATCHER)
        child = str(self.server.process.pid)
        words = ["gdb", "--batch", "--nx", "--pid", child, "-x", str(script)]
        self.gdb = subprocess.Popen(words, stdout=subprocess.DEVNULL, stderr=subprocess.DEVNULL)
        while self.lines.readline() != "ready\n":
            if self.gdb.poll() is not None:
                sys.exit("gdb can't be attached to the server")

    def places(self, program: str) -> dict[str, list[int]]:
        """Returns the addresses of the program's functions in memory."""
        maps = pathlib.Path(f"/proc/{self.server.process.pid}/maps").read_text()
        base = int(maps.split("-")[0], 16)
        listed = subprocess.run(["nm", program], capture_output=True, check=True, text=True).stdout
        symbols = [line.split(" ", 2) for line in listed.splitlines() if line[0] != " "]
        found = {}
        for name, start in (("RUNS", RUNS), ("COMMITS", COMMITS)):
            found[name] = [base + int(at, 16) for at, _, its in symbols if its.startswith(start)]
            if not found[name]:
                sys.exit(f"{program} has no function {start}")
        return found

    def ask(self, message: bytes) -> dict[str, Any]:
        whole = parts(exchange(self.server.port, message))
        if whole is None or whole[0] != 200:
            sys.exit(f"{message[:200]!r}: {whole}")
        return json.loads(whole[1])

    def asked(self, **members: Any) -> dict[str, Any]:
        self.number += 1
        return self.ask(request("m1", self.number, **members))

    def ran(self) -> Counter[str]:
        """Returns the statements executed since the last call."""
        return Counter(line.rstrip("\n") for line in self.lines.readlines())

    def end(self) -> None:
        self.server.kill()
        self.gdb.wait()


def batch_file() -> bytes:
    draw = random.Random(1)
    lines = [line for place in range(CARDS) for line in card(draw, f"R{place}", 2)]
    return "\n".join(["record,aid,rank,enc,tol,dgi", *lines, ""]).encode()


def counted(server: Watched) -> dict[str, Counter[str]]:
    """Returns the statements of each kind of request while a card is made."""
    server.asked(do="product", product="P1", max=255, low=0, check=False)
    server.asked(do="lot", lot="L1", product="P1", first=0, count=1000)
    server.ran()
    counts = {}
    server.ask(imported("office", 1, "B1", "P1", batch_file()))
    counts[IMPORT] = server.ran()
    reply = server.asked(do="open", batch="B1", blank=0)
    counts[OPENING] = server.ran()
    while reply["result"] == "command":
        reply = server.asked(do="answer", session=reply["session"], index=reply["index"], sw="9000")
        its = server.ran()
        counts[kind_of(reply, its, counts)] = its
    return counts


def kind_of(reply: dict[str, Any], its: Counter[str], counts: dict[str, Counter[str]]) -> str:
    """Returns the kind of a request. The first answer is within its segment, as is each answer with
    the same statements."""
    if reply["result"] == "good":
        return LAST
    return ANSWER if its == counts.get(ANSWER, its) else NEXT


def is_read(text: str) -> bool:
    return text.startswith("SELECT")


def main() -> None:
    if len(sys.argv) != 2:
        sys.exit(__doc__)
    with tempfile.TemporaryDirectory() as folder:
        server = Watched(sys.argv[1], pathlib.Path(folder))
        counts = counted(server)
        server.end()
    kinds = [kind for kind in (OPENING, ANSWER, NEXT, LAST, IMPORT) if kind in counts]
    print("".join(f"{kind:>9}" for kind in kinds))
    shown = {text for its in counts.values() for text in its}
    for text in sorted(shown, key=lambda it: (not is_read(it), it)):
        print("".join(f"{counts[kind][text] or '':>9}" for kind in kinds) + f"  {text}")
    for name, holds in (("reads", is_read), ("all but commits", lambda it: it != COMMIT)):
        sums = [sum(its for text, its in counts[kind].items() if holds(text)) for kind in kinds]
        print("".join(f"{it:9}" for it in sums) + f"  {name}")


if __name__ == "__main__":
    main()
