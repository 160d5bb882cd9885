#!/usr/bin/env python3
"""Counts the instructions of each kind of request to `persod serve`, and of its SQL statements alone.

    bench/run served_counts [--cards N ..]

Requires valgrind, and takes two minutes. callgrind's counts are nearly the same in each run, even on a busy machine. The statements alone are
run by programs/measure_kit.txt, a server that uses the toolchain's crate `sqlite`.

One machine makes cards of make_batch.py with N cards in a batch. Each card has an opening, ten answers that continue, and a last answer. The
script counts the second import, and five cards after the first. It prints the median of each kind, because some commits include a checkpoint.
The database files are in memory.

Below each kind, the script lists the crates with the highest counts, and their counts in the other program. When a block such as a batch file is
copied, callgrind counts about one instruction for 32 bytes."""
import argparse
import pathlib
import re
import shutil
import subprocess
import sys
import tempfile
import time
from collections import Counter
from typing import Callable, NamedTuple

from arrivals import ANSWER, IMPORT, KINDS, LAST, OPENING
from served import Server, exchange, free_port, parts, post
from speed import Machines, Same, Shop, Translator

ANSWERS = 10
COUNTED = 5
SHOWN = 8
C_LIBRARY = re.compile(r"_*(mem|str)\w*$")
ALLOCATOR = re.compile(r"(_int_)?(malloc|free|realloc)\w*$|rattle_(de)?alloc$|unlink_chunk|tcache")


class Asked(NamedTuple):
    """A request, and the body of its reply."""

    message: bytes
    body: bytes


class Phase(NamedTuple):
    """Consecutive requests of a kind, and whether they are counted."""

    kind: str
    is_counted: bool
    asked: list[Asked]


def counted(kind: type[Server], counts: pathlib.Path) -> type[Server]:
    """Returns the server class `kind` under callgrind, which counts nothing at first."""

    class Counted(kind):  # type: ignore[misc, valid-type]
        def command(self, program: str, database: pathlib.Path) -> list[str]:
            return ["valgrind", "--tool=callgrind", "--instr-atstart=no", f"--callgrind-out-file={counts}", *super().command(program, database)]

    return Counted


def control(server: Server, *words: str) -> None:
    subprocess.run(["callgrind_control", *words, str(server.process.pid)], check=True, stdout=subprocess.DEVNULL, stderr=subprocess.DEVNULL)


def phase(server: Server, kind: str, work: Callable[[], None]) -> None:
    """Counts the instructions of the server during `work`."""
    control(server, "--zero")
    control(server, "--instr=on")
    work()
    time.sleep(0.5)
    control(server, "--instr=off")
    control(server, f"--dump={kind.replace(' ', '_')}")


# ---- the two servers


def ours(program: str, machines: str, folder: pathlib.Path, cards: int) -> tuple[list[Phase], pathlib.Path]:
    """Makes the cards. Returns the requests, and the path of a copy of the file before the first batch."""
    database, begun = folder / "ours.db", folder / "kit.db"
    server = counted(Server, folder / "ours.counts")(program, database, free_port())
    shop, asked = Shop(server, cards, Machines(machines, cards)), []
    shop.stock()
    for end in ("", "-wal"):
        if (path := pathlib.Path(f"{database}{end}")).exists():
            shutil.copyfile(path, f"{begun}{end}")

    def go(kind: str, is_counted: bool, make: Callable[[], list[tuple[bytes, bytes]]]) -> bytes:
        """Runs a phase, and returns the body of its last reply."""
        its: list[Asked] = []
        work = lambda: its.extend(Asked(*one) for one in make())
        phase(server, kind, work) if is_counted else work()
        asked.append(Phase(kind, is_counted, its))
        return its[-1].body

    for is_counted in (False, True):
        go(IMPORT, is_counted, lambda: [shop.bring([])])
    requests = lambda count: lambda: shop.machines.cards(server, 1, count)[1][0]
    for number in range(1 + COUNTED):
        go(OPENING, number > 0, requests(1))
        go(ANSWER, number > 0, requests(ANSWERS))
        last = go(LAST, number > 0, requests(1))
        if b'"result":"good"' not in last:
            sys.exit(f"a card ended with {last!r}")
    server.kill()
    return asked, begun


def the_kits(program: str, folder: pathlib.Path, begun: pathlib.Path, asked: list[Phase]) -> None:
    """Runs the SQL statements of the same requests in the other server."""
    translator = Translator(folder / "ours.db")
    translator.batches = {}
    server = counted(Same, folder / "kit.counts")(program, begun, free_port())
    for one in asked:
        texts = [translator.asked(it.message, it.body).same for it in one.asked]

        def send() -> None:
            for text in texts:
                if parts(exchange(server.port, post("same", 0, text))) is None:
                    sys.exit(f"no reply to a {one.kind}")

        phase(server, one.kind, send) if one.is_counted else send()
    server.kill()


# ---- counts


def crate_of(function: str) -> str:
    if C_LIBRARY.match(function):
        return "memory copies"
    return "malloc" if ALLOCATOR.match(function) else function.split("::")[0]


def counts_in(path: pathlib.Path) -> tuple[str, Counter[str]]:
    """Returns the kind that a dump names, and the count of each crate itself."""
    names: dict[str, str] = {}
    kind, function, is_call, taken = "", "", False, Counter[str]()
    for line in path.read_text(errors="replace").splitlines():
        if trigger := re.match(r"desc: Trigger: dump (\w+)", line):
            kind = trigger[1].replace("_", " ")
        elif named := re.match(r"(c?fn)=\((\d+)\)(?: (.*))?$", line):
            names.setdefault(named[2], named[3])
            function = named[2] if named[1] == "fn" else function
        elif line.startswith("calls="):
            is_call = True
        elif cost := re.match(r"[-+*\d]\d* (\d+)$", line):
            if not is_call:
                taken[crate_of(names[function])] += int(cost[1])
            is_call = False
    return kind, taken


def medians(folder: pathlib.Path, name: str) -> dict[str, Counter[str]]:
    """Returns for each kind the dump with the median total."""
    found: dict[str, list[Counter[str]]] = {kind: [] for kind in KINDS}
    for path in folder.glob(f"{name}.counts.*"):
        kind, taken = counts_in(path)
        found[kind].append(taken)
    return {kind: sorted(its, key=Counter.total)[len(its) // 2] for kind, its in found.items()}


def show(cards: int, one: dict[str, Counter[str]], other: dict[str, Counter[str]]) -> None:
    thousands = lambda count, kind: count / 1e3 / (ANSWERS if kind == ANSWER else 1)
    print(f"{cards} cards in a batch, thousand instructions      ours       kit   kit/ours")
    for kind in KINDS:
        mine, its = one[kind].total(), other[kind].total()
        print(f"{kind:46}{thousands(mine, kind):9.0f} {thousands(its, kind):9.0f} {its / mine:10.2f}")
        for crate, count in one[kind].most_common(SHOWN):
            print(f"    {crate:42}{thousands(count, kind):9.0f} {thousands(other[kind][crate], kind):9.0f}")
    mine, its = (sum(counts[kind].total() for kind in KINDS if kind != IMPORT) for counts in (one, other))
    print(f"{'a whole card':46}{mine / 1e3:9.0f} {its / 1e3:9.0f} {its / mine:10.2f}", flush=True)


def main() -> None:
    program, kit, machines = sys.argv[1:4]
    parser = argparse.ArgumentParser()
    parser.add_argument("--cards", type=int, nargs="+", default=[20, 200])
    for cards in parser.parse_args(sys.argv[4:]).cards:
        with tempfile.TemporaryDirectory(dir="/dev/shm") as room:
            folder = pathlib.Path(room)
            asked, begun = ours(program, machines, folder, cards)
            the_kits(kit, folder, begun, asked)
            show(cards, medians(folder, "ours"), medians(folder, "kit"))


if __name__ == "__main__":
    main()
