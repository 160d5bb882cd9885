#!/usr/bin/env python3
"""Kills bench/demo/office.py, and tests that each of its commands takes effect once.

    bench/run office [--seed N] [--commands N] [PART..]

PART is one of:

- `steps`: each kind of command is killed before each of its steps on the disk, in the network and
  on standard output, and then repeated.
- `network`: N commands go over an unreliable network to a server that is often killed. The tool is
  killed at random moments, and each command is repeated until it has printed its result. Machines
  spoil cards or disappear, so that there are records to remake and sessions to end.
- `again`: a record that fails again is remade again by the same command, even if a remake got no
  reply. A reset that arrives after its machine has restarted doesn't end the new session.
- `refusals`: each refusal that the office can get is printed with its sentence, and the place of
  each fault of a batch file is right. Codes and names are those of PROTOCOL.md and PROFILE.md.
- `waits`: --wait shows the progress of a batch that `persod feed` makes, to its end. A second call
  with the same state folder is refused.

Each command must print the result of a first effect: `created` and not `known`, `discarded` and
not refusal 60, `waiting` and not 68. The accounts, `shopbook`, and the number of remakes in the
file must agree with the commands. Exit status: 1 if a check fails."""
import argparse
import importlib.util
import json
import os
import pathlib
import random
import re
import signal
import socket
import subprocess
import sys
import tempfile
import threading
import time
from collections import Counter
from typing import Any, Callable, Iterator, NamedTuple, Optional, Union

import floor
from events import expect
from files import looked
from served import Server, exchange, free_port, get, imported, parts, request
from small_shop import HEADER, batch_file

TOP = pathlib.Path(__file__).resolve().parents[2]
TOOL = TOP / "bench" / "demo" / "office.py"
BOOT = 10_000_000
START_OF_2026 = 1_767_225_600
LOT = 1000
# Runs the tool, and ends its process before step number N.
KILLED = """
import builtins, http.client, os, runpy, sys
left = int(sys.argv[1])
del sys.argv[:2]
def step(call):
    def counted(*words, **named):
        global left
        left -= 1
        if left < 0:
            os._exit(9)
        return call(*words, **named)
    return counted
link = http.client.HTTPConnection
steps = (os, "open fsync replace"), (builtins, "print"), (link, "request getresponse close")
for owner, names in steps:
    for name in names.split():
        setattr(owner, name, step(getattr(owner, name)))
runpy.run_path(sys.argv[0], run_name="__main__")
"""


class Ran(NamedTuple):
    """The exit status of the tool, or minus the signal, and its output."""

    status: int
    printed: str
    errors: str


class Tool:
    """The tool with a state folder, for the server or proxy on a port."""

    def __init__(self, folder: pathlib.Path, port: int) -> None:
        self.folder, self.port = folder, port

    def start(
        self, *words: object, patience: int = 60, by: tuple[str, ...] = ("-B",)
    ) -> subprocess.Popen:
        server = f"http://127.0.0.1:{self.port}"
        places = "--server", server, "--folder", self.folder, "--patience", patience
        return subprocess.Popen(
            [sys.executable, *by, *map(str, [TOOL, *words, *places])],
            stdin=subprocess.DEVNULL, stdout=subprocess.PIPE, stderr=subprocess.PIPE, text=True,
        )

    def run(self, *words: object, **more: Any) -> Ran:
        process = self.start(*words, **more)
        printed, errors = process.communicate(timeout=300)
        return Ran(process.returncode, printed, errors)

    def killed_at(self, step: int, *words: object) -> Ran:
        return self.run(*words, by=("-B", "-c", KILLED, str(step)))

    def done(self, *words: object) -> str:
        """Returns the output of a command that must be accepted."""
        ran = self.run(*words)
        expect(f"the status of {words}: {ran.printed}{ran.errors}", ran.status, 0)
        return without_session(ran.printed)

    def state(self) -> dict:
        return json.loads((self.folder / "state.json").read_text())


def without_session(text: str) -> str:
    return re.sub(r"session [1-9][0-9]* has", "session N has", text)


class Hall:
    """Machines, and another office. They repeat each request until it has a reply."""

    def __init__(self, port: int) -> None:
        self.port, self.numbers = port, Counter()
        self.blanks = iter(range(LOT + 50_000, LOT + 100_000))

    def ask(self, client: str, number: int = 0, **members: Any) -> dict:
        self.numbers[client] = number or self.numbers[client] + 1
        return self.sent(request(client, self.numbers[client], **members))

    def bring(self, batch: str, raw: bytes) -> None:
        self.numbers["hunt"] += 1
        self.sent(imported("hunt", self.numbers["hunt"], batch, "P0", raw))

    def sent(self, message: bytes) -> dict:
        return json.loads(self.responded(message))

    def read(self, path: str) -> str:
        return self.responded(get(path))

    def responded(self, message: bytes) -> str:
        for _ in range(600):
            try:
                found = parts(exchange(self.port, message))
            except OSError:
                found = None
            if found and found[0] < 500:
                expect(f"the status of {message[:200]!r}: {found[1]!r}", found[0], 200)
                return found[1].decode()
            time.sleep(0.05)
        sys.exit(f"no reply to {message!r}")

    def start(self, machine: str, boot: int) -> None:
        self.ask(machine, number=boot * BOOT + 1, do="release", upto=boot * BOOT)
        self.ask(machine, do="reset")

    def open(self, machine: str, batch: str) -> int:
        """Opens a new blank, and returns the session."""
        return self.ask(machine, do="open", batch=batch, blank=next(self.blanks))["session"]

    def spoil(self, machine: str, batch: str) -> None:
        """Opens a new blank, and reports a bad status word, so its record fails."""
        self.ask(machine, do="answer", session=self.open(machine, batch), index=0, sw="6A80")

    def states(self, batch: str) -> dict[str, str]:
        lines = self.read(f"/batch/{batch}/report").splitlines()
        words = [line.split() for line in lines if line.startswith("record ")]
        return {name: state for _, name, state, *_ in words}

    def account(self, batch: str) -> dict:
        return json.loads(self.read(f"/batch/{batch}"))


def stock(hall: Hall, records: int) -> None:
    """Creates product P0, lot L0 with the blanks 1000 to 100999, and batch B0."""
    hall.ask("hunt", do="product", product="P0", max=255, low=0, check=False)
    hall.ask("hunt", do="lot", lot="L0", product="P0", first=LOT, count=100_000)
    hall.bring("B0", batch_file(records))


def count_remakes(database: pathlib.Path) -> int:
    return looked(database, lambda link: link.execute("SELECT count(*) FROM remake").fetchone()[0])


def book(shopbook: str, *words: object) -> list[dict]:
    """Returns the lines of a subcommand of shopbook."""
    ran = subprocess.run([shopbook, *map(str, words), "--json"], capture_output=True, text=True)
    expect(f"shopbook {words}: {ran.stderr}", ran.returncode, 0)
    return [json.loads(line) for line in ran.stdout.splitlines()]


def is_sound(shopbook: str, database: pathlib.Path) -> None:
    lines = book(shopbook, "check", "--db", database)
    verdicts = [line["verdict"] for line in lines if line["line"] == "file"]
    expect("the verdict of shopbook", verdicts, ["sound"])


# ---- steps


class Kind(NamedTuple):
    """A kind of command: the preparation of trial `k`, its arguments, and its expected output."""

    before: Callable[[int], None]
    words: Callable[[int], list]
    printed: Callable[[int], str]


class Kinds:
    """All kinds of commands. Each trial `k` of a kind has its own objects."""

    def __init__(self, hall: Hall, folder: pathlib.Path) -> None:
        self.hall, self.file = hall, folder / "one.csv"
        self.file.write_bytes(batch_file(1))

    def fail(self, k: int) -> None:
        self.hall.bring(f"F{k}", batch_file(1))
        self.hall.spoil(f"f{k}", f"F{k}")

    def disappear(self, k: int) -> None:
        self.hall.bring(f"G{k}", batch_file(1))
        self.hall.start(f"g{k}", 7)
        self.hall.open(f"g{k}", f"G{k}")

    def finish(self, k: int) -> None:
        self.hall.bring(f"C{k}", batch_file(1))
        self.hall.ask("hunt", do="withdraw", batch=f"C{k}", record="R1")

    def nothing(self, k: int) -> None:
        pass

    def discarded(self, k: int) -> str:
        return "".join(f"blank {blank}: discarded\n" for blank in (LOT + 2 * k, LOT + 2 * k + 1))

    def all(self) -> dict[str, Kind]:
        return {
            "product": Kind(self.nothing, lambda k: ["product", f"P{k}", "--max", 40],
                            lambda k: f"product P{k}: created\n"),
            "lot": Kind(self.nothing, lambda k: ["lot", f"L{k}", "P0", 10**6 + 10 * k, 10],
                        lambda k: f"lot L{k}: created\n"),
            "batch": Kind(self.nothing, lambda k: ["batch", f"B{k}", "P0", self.file],
                          lambda k: f"batch B{k}: created, 1 record, 1 row\n"),
            "discard": Kind(self.nothing, lambda k: ["discard", LOT + 2 * k, LOT + 2 * k + 1],
                            self.discarded),
            "withdraw": Kind(self.nothing, lambda k: ["withdraw", "B0", f"R{k}"],
                             lambda k: f"record R{k} of batch B0: withdrawn\n"),
            "remake": Kind(self.fail, lambda k: ["remake", f"F{k}", "R1"],
                           lambda k: f"record R1 of batch F{k}: waiting\n"),
            "free": Kind(self.disappear, lambda k: ["free", f"g{k}"], lambda k: ended(f"g{k}")),
            "close": Kind(self.finish, lambda k: ["close", f"C{k}"],
                          lambda k: f"batch C{k}: closed\n"),
        }


def ended(machine: str) -> str:
    return f"machine {machine}: session N has ended, and its card is spoiled\n"


def steps(given: argparse.Namespace, folder: pathlib.Path) -> str:
    server = Server(given.program, folder / "shop.db", free_port())
    hall, tool, counts = Hall(server.port), Tool(folder / "state", server.port), Counter()
    done: Counter = Counter()
    stock(hall, 100)
    for name, kind in Kinds(hall, folder).all().items():
        for k in range(1, 100):
            if killed_and_again(tool, name, kind, k, counts):
                break
        done[name] = k
    check_accounts(hall, done, 100)
    server.kill()
    check_book(given.shopbook, folder / "shop.db", done)
    final = f"{counts['after the result']} of them after the final result"
    return f"{len(done)} kinds of commands, {counts['kills']} kills, {final}"


def killed_and_again(tool: Tool, name: str, kind: Kind, k: int, counts: Counter) -> bool:
    """Kills a command before its step `k`, and repeats it. Returns true if it has fewer steps."""
    kind.before(k)
    first, wanted = tool.killed_at(k - 1, *kind.words(k)), kind.printed(k)
    if first.status == 0:
        expect(f"{name}, which wasn't killed", without_session(first.printed), wanted)
        return True
    expect(f"the status of {name}, killed before step {k}: {first}", first.status, 9)
    counts["kills"] += 1
    again = tool.run(*kind.words(k))
    came = again.status, without_session(again.printed)
    if came != (0, wanted) and without_session(first.printed) == wanted:
        counts["after the result"] += 1
        return False
    expect(f"{name}, killed before step {k}, and repeated: {again.errors}", came, (0, wanted))
    return False


# ---- network


def network(given: argparse.Namespace, folder: pathlib.Path) -> str:
    floor.FATES = {fate: 2 * count for fate, count in floor.FATES.items()}
    floor.KILLS = 60
    chosen = {"seed": given.seed, "cards": 1, "machines": 1, "program": given.program}
    trial = floor.Floor(argparse.Namespace(**chosen), folder)
    server = floor.Server(trial)
    between = floor.Network(trial, server)
    server.start()
    between.start()
    hall, tool = Hall(trial.port), Tool(folder / "state", between.port)
    stock(hall, given.commands)
    done = commands_over(trial, Kinds(hall, folder).all(), tool, given.commands)
    between.settle()
    check_accounts(hall, done, given.commands)
    server.stop()
    expect("faults of the server", server.faults, [])
    check_book(given.shopbook, folder / "shop.db", done)
    numbers = ", ".join(f"{count} {name}" for name, count in sorted(trial.counts.items()))
    return f"{', '.join(f'{count} {name}' for name, count in done.items())}: {numbers}"


def commands_over(
    trial: floor.Floor, all_kinds: dict[str, Kind], tool: Tool, count: int
) -> Counter:
    """Runs commands of all kinds, and returns the number of each kind.

    A killed command may have printed its result already. Then the next command prints it again."""
    draw, done, before = trial.draw("commands"), Counter(), ""
    for _ in range(count):
        name = draw.choice(list(all_kinds))
        done[name] += 1
        kind, k = all_kinds[name], done[name]
        kind.before(k)
        wanted = kind.printed(k)
        came = repeated(trial, tool, draw, kind.words(k), wanted)
        if came not in (wanted, before + wanted):
            sys.exit(f"{kind.words(k)} printed {came!r}, expected {wanted!r}")
        before = wanted
    return done


def repeated(
    trial: floor.Floor, tool: Tool, draw: random.Random, words: list, wanted: str
) -> str:
    """Runs a command until it has printed its result, and returns it. It is often killed."""
    names = {-signal.SIGKILL: "kills of the tool", 3: "calls without a reply"}
    while True:
        process = tool.start(*words, patience=draw.choice((1, 5, 60)))
        seconds = draw.uniform(0, 1.5) if draw.random() < 0.5 else 300
        killer = threading.Timer(seconds, process.kill)
        killer.start()
        printed, errors = process.communicate()
        killer.cancel()
        status, printed = process.returncode, without_session(printed)
        trial.count(names.get(status, "whole calls"))
        if status == 0 or status == -signal.SIGKILL and printed.endswith(wanted):
            return printed
        if status not in names:
            sys.exit(f"{words}: status {status}, {printed}{errors}")


def check_accounts(hall: Hall, done: Counter, records: int) -> None:
    """Compares the accounts of product P0 and of batch B0 with the commands."""
    discarded, spoiled = 2 * done["discard"], done["remake"] + done["free"]
    blanks = {"discarded": discarded, "spoiled": spoiled, "charged": discarded + spoiled,
              "running": 0, "good": 0, "lots": 1 + done["lot"]}
    batch = {"withdrawn": done["withdraw"], "waiting": records - done["withdraw"], "sessions": 0}
    for wanted, path in (blanks, "/blanks/P0"), (batch, "/batch/B0"):
        account = json.loads(hall.read(path))
        expect(path, {name: account[name] for name in wanted}, wanted)


def check_book(shopbook: str, database: pathlib.Path, done: Counter) -> None:
    """Compares the file with the commands."""
    is_sound(shopbook, database)
    lines = book(shopbook, "list", "--db", database)
    batches = {line["name"]: line for line in lines if line["line"] == "batch"}
    expect("products", sum(line["line"] == "product" for line in lines), 1 + done["product"])
    imports = done["batch"] + done["remake"] + done["free"] + done["close"]
    expect("batches", len(batches), 1 + imports)
    closed = {name for name, line in batches.items() if line["state"] == "closed"}
    expect("closed batches", closed, {f"C{k + 1}" for k in range(done["close"])})
    for letter, kind, state in ("F", "remake", "waiting"), ("G", "free", "failed"):
        counts = [batches[f"{letter}{k + 1}"][state] for k in range(done[kind])]
        expect(f"{state} after {kind}", counts, [1] * done[kind])
    expect("remakes", count_remakes(database), done["remake"])


# ---- again


class Gate(threading.Thread):
    """A proxy. `fate` decides whether a message passes or is lost, or only its reply is lost. A
    number is the status of the proxy's own response."""

    def __init__(self, port: int, fate: Callable[[bytes], str]) -> None:
        super().__init__(daemon=True)
        self.server, self.fate, self.seen = port, fate, []
        self.listener = socket.create_server(("127.0.0.1", 0))
        self.port = self.listener.getsockname()[1]
        self.start()

    def run(self) -> None:
        while True:
            link, _ = self.listener.accept()
            with link:
                message = floor.read_message(link)
                self.seen.append(message)
                link.sendall(self.response(message, self.fate(message)))

    def response(self, message: bytes, fate: str) -> bytes:
        if fate.isdigit():
            return f"HTTP/1.1 {fate} No\r\nContent-Length: 2\r\n\r\nno".encode()
        reply = b"" if fate == "lost" else floor.exchanged(self.server, message)
        return reply if fate == "passes" else b""


class Switch:
    """The fate of messages that contain `part`. All other messages pass, and so do resets under
    number BOOT."""

    def __init__(self, part: bytes) -> None:
        self.part, self.now = part, "passes"

    def __call__(self, message: bytes) -> str:
        is_probe = b"/%d HTTP" % BOOT in message
        return self.now if self.part in message and not is_probe else "passes"


def again(given: argparse.Namespace, folder: pathlib.Path) -> str:
    server = Server(given.program, folder / "shop.db", free_port())
    hall = Hall(server.port)
    stock(hall, 1)
    seen = remade_again(hall, folder)
    expect("remakes", count_remakes(folder / "shop.db"), 3)
    for boot in 3, int(time.time()) - START_OF_2026 - 60, int(time.time()) - 60:
        seen += freed_late(hall, folder, boot)
    server.kill()
    is_sound(given.shopbook, folder / "shop.db")
    expect("messages that persod.conf refuses", [one for one in seen if not is_allowed(one)], [])
    return "a record was remade after each of three failures; three late resets changed nothing"


def remade_again(hall: Hall, folder: pathlib.Path) -> list[bytes]:
    """Remakes a record with the same command: with a reply, without one, and after that."""
    switch = Switch(b'"do":"remake"')
    gate = Gate(hall.port, switch)
    tool, words = Tool(folder / "remakes", gate.port), ("remake", "B0", "R1")
    waiting = "record R1 of batch B0: waiting\n"
    hall.spoil("m1", "B0")
    expect("the first remake", tool.done(*words), waiting)
    hall.spoil("m1", "B0")
    switch.now = "reply lost"
    expect("a remake without a reply", tool.run(*words, patience=1).status, 3)
    expect("the state", hall.states("B0"), {"R1": "waiting"})
    hall.spoil("m1", "B0")
    switch.now = "passes"
    ran = tool.run(*words)
    failed = f"{waiting}record R1 of batch B0: failed again after this remake;\n"
    expect("its repeat", (ran.status, ran.printed[: len(failed)]), (1, failed))
    expect("the state", hall.states("B0"), {"R1": "failed"})
    expect("once more", tool.done(*words), waiting)
    expect("the state", hall.states("B0"), {"R1": "waiting"})
    expect("a remake of a waiting record", tool.run(*words).status, 1)
    return gate.seen


def freed_late(hall: Hall, folder: pathlib.Path, boot: int) -> list[bytes]:
    """Loses a reset, and repeats it after its machine has started again."""
    switch = Switch(b'"do":"reset"')
    gate, machine, batch = Gate(hall.port, switch), f"m-{boot}", f"B-{boot}"
    tool = Tool(folder / machine, gate.port)
    hall.bring(batch, batch_file(3))
    hall.start(machine, boot)
    hall.open(machine, batch)
    switch.now = "lost"
    expect("a reset that is lost", tool.run("free", machine, patience=1).status, 3)
    hall.start(machine, boot + 120)
    hall.open(machine, batch)
    switch.now = "passes"
    ran = tool.run("free", machine)
    released = f"machine {machine}: refused 73 number-released"
    expect(f"its repeat: {ran}", (ran.status, ran.printed.splitlines()[:1]), (1, [released]))
    expect("the account", states_of(hall.account(batch)), (1, 1, 1))
    expect("once more", tool.done("free", machine), ended(machine))
    expect("the account", states_of(hall.account(batch)), (2, 0, 1))
    hall.open(machine, batch)
    expect("a third session", tool.done("free", machine), ended(machine))
    expect("the account", states_of(hall.account(batch)), (3, 0, 0))
    expect("no session", tool.done("free", machine), f"machine {machine}: no session is running\n")
    return gate.seen


def states_of(account: dict) -> tuple[int, int, int]:
    return account["failed"], account["running"], account["waiting"]


def is_allowed(message: bytes) -> bool:
    """Returns whether service/persod.conf lets the office send this request."""
    head, _, body = message.decode().partition("\r\n\r\n")
    text = (TOP / "service" / "persod.conf").read_text()
    paths = [re.compile(found.replace("(?<", "(?P<")) for found in re.findall(r"~ (\^\S+) {", text)]
    path = head.split(" ")[1]
    found = next((one for one in paths if one.search(path)), None)
    if found is None or "persod_name" not in found.groupindex:
        return found is not None
    return found.search(path)["persod_name"] == "office" or body == '{"do":"reset"}'


# ---- refusals

GOOD, AID, ROW = "0101027000", "F00000000101", "R1,F00000000101,1,0,0,"
SECOND = ROW.replace("R1", "R2")
LARGE = "FF4000" + "00" * 16_384
R1, DGI = 'row 2, line 2, record "R1"', "field 6 (dgi)"
# Each fault: the code, the place that the tool prints, and the rows after the header, or a whole
# file.
FAULTS: list[tuple[int, str, Union[list[str], bytes]]] = [
    (21, f"{R1}, rows 2 (line 2) and 3 (line 3), field 4 (enc), cause differs between the two rows",
     [ROW + GOOD, f"R1,{AID},1,1,0,0102027000"]),
    (21, f"{R1}, rows 2 (line 2) and 4 (line 4), field 5 (tol), cause differs between the two rows",
     [ROW + GOOD, SECOND + GOOD, "R1,f00000000101,001,0,1,0102027000"]),
    (22, f'row 3, line 4, record "R2", rows 3 (line 4) and 4 (line 5), {DGI}',
     [ROW + GOOD, "", SECOND + GOOD, f"R2,{AID},2,0,0,{GOOD}"]),
    (23, R1, [f"{ROW}{code}{LARGE}" for code in (9001, 9002, 9003, 9004)]),
    (30, 'row 2, line 3, record "R1", fields 5, cause too few', ["", f"R1,{AID},1,0,0"]),
    (30, f"{R1}, fields 7, cause too many", [ROW + GOOD + ","]),
    (30, "row 1, line 1, fields 1, cause separate fields with commas", b"record;aid;rank;enc;tol;dgi\n"),
    (30, "row 2, line 2, record of 32 bytes, fields 1, cause separate fields with commas",
     [(ROW + GOOD).replace(",", ";")]),
    (31, "row 1, line 1, field 1 (record), cause not the name of the column",
     b"Record,aid,rank,enc,tol,dgi\n"),
    (31, "row 1, line 1, field 5 (tol), cause not the name of the column",
     b"record,aid,rank,enc,tolerate,dgi\n"),
    (31, "row 1", b""),
    (32, "row 2, line 2, record of 3 bytes, field 1 (record), cause character",
     [ROW.replace("R1", "R 1") + GOOD]),
    (32, "row 2, line 2, record of 0 bytes, field 1 (record), cause empty",
     [ROW.replace("R1", "") + GOOD]),
    (32, "row 2, line 2, record of 33 bytes, field 1 (record), cause over 32 bytes",
     [ROW.replace("R1", "R" * 33) + GOOD]),
    (33, f"{R1}, field 2 (aid), cause under 5 bytes", [f"R1,F0000000,1,0,0,{GOOD}"]),
    (33, f"{R1}, field 2 (aid), cause over 16 bytes", [f"R1,{'F0' * 17},1,0,0,{GOOD}"]),
    (33, f"{R1}, field 2 (aid), cause not hexadecimal", [f"R1,{AID}0,1,0,0,{GOOD}"]),
    (34, f"{R1}, field 3 (rank), cause over 3 digits", [f"R1,{AID},1000,0,0,{GOOD}"]),
    (34, f"{R1}, field 3 (rank), cause not decimal", [f"R1,{AID},+1,0,0,{GOOD}"]),
    (34, f"{R1}, field 3 (rank), cause empty", [f"R1,{AID},,0,0,{GOOD}"]),
    (34, f"{R1}, field 3 (rank), cause 0", [f"R1,{AID},00,0,0,{GOOD}"]),
    (35, f"{R1}, field 4 (enc)", [f"R1,{AID},1,3,2,{GOOD}"]),
    (35, f"{R1}, field 5 (tol)", [f"R1,{AID},1,2,2,{GOOD}"]),
    (36, f"{R1}, {DGI}, cause not hexadecimal", [ROW + "0101027"]),
    (36, f"{R1}, {DGI}, cause not hexadecimal", [ROW + '"01\n01"']),
    (36, f"{R1}, {DGI}, cause short identifier", [ROW + "01"]),
    (36, f"{R1}, {DGI}, cause short length", [ROW + "0101FF00"]),
    (36, f"{R1}, {DGI}, cause data over 16,384 bytes", [ROW + "0101FF4001"]),
    (36, f'row 3, line 5, record "R2", {DGI}, cause short data',
     [ROW.replace("R1", '"R1"') + GOOD, "", "", SECOND + "01010270"]),
    (36, f"{R1}, {DGI}, cause bytes after the grouping", [ROW + "010102700000"]),
    (36, f'row 3, line 3, record "R2", {DGI}, cause short identifier',
     b"\xef\xbb\xbf" + "\r".join([HEADER, ROW + GOOD, SECOND]).encode()),
    (37, f"{R1}, {DGI}", [ROW + "0101027001"]),
    (38, 'row 4098, line 4098, record "R1"', [ROW + GOOD] * 4097),
    (39, 'row 1026, line 1026, record "R1025"',
     [f"R{row},{AID},1,0,0,{GOOD}" for row in range(1, 1026)]),
    (40, "row 1, line 1", f"{HEADER}\n".encode()),
]
OBJECTS = [
    (51, "product", "P0", "--max", 40), (52, "lot", "L9", "P9", 0, 1),
    (53, "lot", "L0", "P0", LOT, 1), (54, "lot", "L9", "P0", LOT + 99_999, 2),
    (56, "close", "B9"), (58, "discard", LOT - 1), (67, "remake", "B0", "R9"),
    (68, "remake", "B0", "R1"), (70, "close", "B0"),
]


def table() -> dict[int, tuple[str, str]]:
    """Returns the tool's table of refusals."""
    described = importlib.util.spec_from_file_location("tool", TOOL)
    sys.modules["tool"] = importlib.util.module_from_spec(described)
    described.loader.exec_module(sys.modules["tool"])
    return sys.modules["tool"].REFUSALS


def of_pages() -> dict[int, str]:
    """Returns the codes and names in PROTOCOL.md and PROFILE.md."""
    pages = [(TOP / "docs" / page).read_text() for page in ("PROTOCOL.md", "PROFILE.md")]
    rows = re.findall(r"^\| (\d\d) \| ([a-z][a-z-]+) \|", "".join(pages), re.M)
    rows += re.findall(r'^\| `(\d{3}) .*"refused":"([a-z-]+)"', pages[0], re.M)
    return {int(code): name for code, name in rows}


class Refusals:
    """Commands that are refused. `seen` has the codes whose sentence was printed."""

    def __init__(self, hall: Hall, folder: pathlib.Path) -> None:
        self.hall, self.folder, self.table, self.seen = hall, folder, table(), set()
        self.tool = Tool(folder / "state", hall.port)

    def through(self, fate: Callable[[bytes], str]) -> tuple[Gate, Tool]:
        gate = Gate(self.hall.port, fate)
        return gate, Tool(self.folder / "state", gate.port)

    def refused(
        self, code: int, *words: object, tool: Optional[Tool] = None, place: Optional[str] = None
    ) -> None:
        ran = (tool or self.tool).run(*words)
        name, text = self.table[code]
        first, second, *rest = [*ran.printed.splitlines(), "", ""]
        is_named = first.endswith(f": refused {code} {name}")
        came = ran.status, is_named, second
        expect(f"the lines of {words}: {ran}", came, (1, True, f"  {text}"))
        if place is not None:
            expect(f"the place of {words}", rest[0], f"  {place}")
        self.seen.add(code)

    def of_objects(self) -> None:
        for code, *words in OBJECTS:
            self.refused(code, *words)
        self.tool.done("discard", LOT)
        self.refused(60, "discard", LOT)
        self.tool.done("withdraw", "B0", "R1", "R2", "R3")
        self.refused(69, "withdraw", "B0", "R1")
        self.tool.done("close", "B0")
        self.refused(57, "withdraw", "B0", "R1")
        file = self.folder / "other.csv"
        file.write_bytes(batch_file(2))
        self.refused(55, "batch", "B0", "P0", file)

    def of_files(self) -> None:
        """Tries each fault."""
        self.tool.done("product", "PC", "--check")
        file = self.folder / "fault.csv"
        for code, place, rows in FAULTS:
            lines = rows if isinstance(rows, bytes) else "\n".join([HEADER, *rows, ""]).encode()
            file.write_bytes(lines)
            self.refused(code, "batch", "B1", "PC", file, place=place)

    def of_numbers(self) -> None:
        """Another program uses the next number, or releases the number of a pending request."""
        state = self.tool.state()
        number = state["numbers"]["office"] + 10**12
        text = json.dumps({**state, "numbers": {"office": number}})
        (self.tool.folder / "state.json").write_text(text)
        self.hall.ask("office", number=number + 1, do="discard", blank=LOT + 10)
        self.refused(72, "discard", LOT + 11)
        self.tool.done("discard", LOT + 11)
        gate, tool = self.through(lambda message: "lost")
        expect("no reply", tool.run("discard", LOT + 12, patience=1).status, 3)
        gate.fate = lambda message: "passes"
        mark = self.tool.state()["numbers"]["office"] + BOOT
        self.hall.ask("office", number=mark + 10**6, do="release", upto=mark)
        self.refused(73, "discard", LOT + 12, tool=tool)
        self.tool.done("discard", LOT + 12)
        expect("the last number", self.tool.state()["numbers"]["office"], mark + BOOT + 2)
        Tool(self.folder / "new", self.hall.port).done("discard", LOT + 13)

    def of_messages(self) -> None:
        """Tries responses of a proxy to new requests and to a repeat, and a file that is too large."""
        for code in 400, 403, 404, 405, 431:
            tool = self.through(lambda message, code=code: str(code))[1]
            self.refused(code, "discard", LOT + 20, tool=tool)
            expect("pending requests", self.tool.state()["pending"], [])
        file = self.folder / "large.csv"
        file.write_bytes(bytes(16_777_217))
        ran = self.tool.run("batch", "B1", "P0", file)
        expect("a large file", (ran.status, self.table[413][1] in ran.errors), (1, True))
        self.seen.add(413)
        gate, tool = self.through(lambda one: "reply lost" if b"discard" in one else "passes")
        expect("no reply", tool.run("discard", LOT + 20, patience=1).status, 3)
        gate.fate = lambda message: "403"
        ran = tool.run("discard", LOT + 20)
        expect("its repeat", (ran.status, self.table[403][1] in ran.errors), (3, True))
        gate.fate = lambda message: "passes"
        expect("once more", tool.done("discard", LOT + 20), f"blank {LOT + 20}: discarded\n")

    def of_limit(self) -> None:
        """Exceeds the maximum number of products. P0 and PC exist already."""
        for k in range(254):
            self.hall.ask("hunt", do="product", product=f"X{k}", max=255, low=0, check=False)
        self.refused(71, "product", "X-last")


def refusals(given: argparse.Namespace, folder: pathlib.Path) -> str:
    server = Server(given.program, folder / "shop.db", free_port())
    hall = Hall(server.port)
    stock(hall, 3)
    found = Refusals(hall, folder)
    names = {code: name for code, (name, _) in found.table.items() if code != 403}
    expect("the table", names, of_pages())
    for part in (found.of_objects, found.of_files, found.of_numbers, found.of_messages,
                 found.of_limit):
        part()
    lines = [f"{code} {name}: {text}" for code, (name, text) in sorted(found.table.items())]
    expect("explain", found.tool.done("explain").splitlines(), lines)
    server.kill()
    is_sound(given.shopbook, folder / "shop.db")
    rest = ", ".join(str(code) for code in sorted(set(found.table) - found.seen))
    counts = f"{len(found.seen)} of {len(found.table)} sentences, {len(FAULTS)} faults of files"
    return f"{counts}; only by 'explain': {rest}"


# ---- waits


def waits(given: argparse.Namespace, folder: pathlib.Path) -> str:
    server = Server(given.program, folder / "shop.db", free_port())
    hall, tool = Hall(server.port), Tool(folder / "state", server.port)
    stock(hall, 1)
    lines = progress(given.program, hall, tool, folder / "batch.csv")
    [record] = [name for name, state in hall.states("B1").items() if state == "failed"]
    tool.done("withdraw", "B1", record)
    last = tool.done("account", "B1", "--wait").splitlines()[-1]
    expect("the last line", last, "all records are good or withdrawn, and the batch is open")
    server.kill()
    first = tool.start("close", "B1", patience=60)
    wait_for(lambda: tool.state()["pending"] != [])
    expect("the pending requests", tool.done("pending").splitlines()[1][-15:], "close, batch B1")
    second = tool.run("close", "B1")
    is_told = "another office.py uses the folder" in second.errors
    expect(f"a second call: {second}", (second.status, is_told), (3, True))
    server = Server(given.program, folder / "shop.db", server.port)
    closed = first.communicate()[0], first.returncode
    expect("the first call", closed, ("batch B1: closed\n", 0))
    server.kill()
    is_sound(given.shopbook, folder / "shop.db")
    return f"{lines} lines of progress; a second call was refused during the first one"


def progress(program: str, hall: Hall, tool: Tool, file: pathlib.Path) -> int:
    """Imports a batch with --wait, and makes its 20 cards, one of them spoiled. Returns the number
    of lines."""
    file.write_bytes(batch_file(20))
    waiting = tool.start("batch", "B1", "P0", file, "--wait", "--every", "0.1")
    wait_for(lambda: tool.run("account", "B1").status == 0)
    tool.done("discard", LOT + 99)  # the folder isn't locked meanwhile
    cards = "".join(f"{LOT + k}{' 6A80' if k == 7 else ''}\n" for k in range(20))
    words = "feed --machine m1 --boot 1 --batch B1 --port".split()
    feed = [program, *words, str(hall.port)]
    subprocess.run(feed, input=cards, text=True, check=True, capture_output=True)
    lines = waiting.communicate(timeout=60)[0].splitlines()
    first = ["batch B1: created, 20 records, 20 rows", f"B1 [{'.' * 30}] 20 waiting"]
    last = [f"B1 [{'#' * 28}xx] 19 good, 1 failed", "failed records: 1; remake or withdraw them"]
    expect("the lines", (lines[:2], lines[-2:]), (first, last))
    expect("the status", waiting.returncode, 1)
    return len(lines)


def wait_for(is_true: Callable[[], bool]) -> None:
    for _ in range(600):
        if is_true():
            return
        time.sleep(0.05)
    sys.exit("still waiting after 30 s")


PARTS = {
    "steps": steps, "network": network, "again": again, "refusals": refusals, "waits": waits
}


def chosen() -> Iterator[tuple[str, argparse.Namespace]]:
    plain = argparse.RawDescriptionHelpFormatter
    words = argparse.ArgumentParser(description=__doc__, formatter_class=plain)
    words.add_argument("program")
    words.add_argument("shopbook")
    words.add_argument("parts", nargs="*", metavar="PART", help="default: all")
    words.add_argument("--seed", default="1", help="default: 1")
    words.add_argument("--commands", type=int, default=300, help="1 to 1000 (default: 300)")
    given = words.parse_args()
    for part in given.parts or PARTS:
        yield part, given


def main() -> None:
    for part, given in chosen():
        begun = time.monotonic()
        with tempfile.TemporaryDirectory() as folder:
            found = PARTS[part](given, pathlib.Path(folder))
        print(f"{part}: {found}, in {time.monotonic() - begun:.0f} s", flush=True)


if __name__ == "__main__":
    main()
