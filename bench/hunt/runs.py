#!/usr/bin/env python3
"""Runs `persod` and `shopbook` as their users do, and compares what they print and write.

    bench/run runs

`./test` runs this script with the programs that it has just proved and built. It takes a few seconds. The parts are: arguments, inputs that
can't be read, outputs that can't be written, runs on the standard streams, files that are refused, a machine with a simulated server, a server
over a socket whose files are then reported and read, long outputs, a killed server, and files of each schema version. Exit status: 1 if a check
fails."""
import os
import pathlib
import shutil
import socket
import subprocess
import sys
import tempfile
import threading
from typing import NamedTuple

from contents import RICH, WORKED, rows
from events import Ran, expect, run
from served import Server, environment, exchange, fixed_reply, free_port, get, imported, post, reply_bytes, request
from sound_files import OURS, Shape, make

PERSOD, SHOPBOOK = sys.argv[1:3]
HEADER = "record,aid,rank,enc,tol,dgi\n"
LONG = HEADER + "R1,F00000000101,1,0,0,80001000112233445566778899AABBCCDDEEFF\n"
RESET = 'office 1 {"do":"reset"}\n'
UNCHECKED = HEADER + "R1,F00000000101,1,0,0,0101021122\n"
LARGE = HEADER + "R1,F00000000101,1,0,0,0101FF0FFC" + "00" * 4_092 + "\n"
LONG_PLAN = """record R1
00A4040006F00000000101
80E207001080001000112233445566778899AABBCC
80E2870103DDEEFF
"""
DEFAULT_PLAN = """record R1
00A4040006F00000000101
80E280001380001000112233445566778899AABBCCDDEEFF
"""
WRONG = """error: invalid value '15' for '--max <N>': 15 is not in 16..=255

For more information, try '--help'.
"""


class Run(NamedTuple):
    """The arguments of `persod` and its input, its exit status, its output, and its lines on standard error."""

    words: str
    typed: str
    status: int
    printed: str = ""
    errors: str = ""


RUNS = [
    Run("plan --max 16 --low 7", LONG, 0, LONG_PLAN),
    Run("plan --check", UNCHECKED, 1, errors="refused 37 row 2\n"),
    Run("plan", "", 1, errors="refused 31 row 1\n"),
    Run("plan --max 16", LARGE, 1, errors="refused 23 row 2\n"),
    Run("plan --max 15", "", 2, errors=WRONG),
    Run("plan --max 255 --low 0", LONG, 0, DEFAULT_PLAN),
    Run("plan --max 0255 --low=0", LONG, 0, DEFAULT_PLAN),
    Run("plan --max +255", LONG, 0, DEFAULT_PLAN),
    Run("plan --check --low 7", LONG, 0, DEFAULT_PLAN.replace("80E280", "80E287")),
    Run("plan", LONG, 0, DEFAULT_PLAN),
    Run("drill", RESET, 0, '200 {"result":"reset","session":0}\n'),
    # The last line needs no LF.
    Run("drill", RESET.removesuffix("\n"), 0, '200 {"result":"reset","session":0}\n'),
    Run("drill", "import 3 B1 P1\n.", 0, '409 {"code":52,"refused":"product-unknown"}\n'),
    Run("drill", "office\n", 1, errors="bad line 1\n"),
    Run("drill", "get /batch/B1\noffice\n", 1, '409 {"code":56,"refused":"batch-unknown"}\n', "bad line 2\n"),
    Run("--version", "", 0, "persod 1.0.0\n"),
    Run("-V", "", 0, "persod 1.0.0\n"),
    Run("--version plan", "", 0, "persod 1.0.0\n"),
    Run("report --db none.db --batch B.1", "", 2, errors="bad name\n"),
    Run("feed --port 1 --machine m.1 --boot 1 --batch B1", "", 2, errors="bad name\n"),
    Run("feed --port 1 --machine m1 --boot 1 --batch B.1", "", 2, errors="bad name\n"),
    Run("feed --port 1 --machine m1 --boot 1 --batch=", "", 2, errors="bad name\n"),
    Run("report --db none.db --batch B1", "", 1, errors="refused 81\n"),
]


# Wrong arguments, and a part of the error text.
WRONG_WORDS = {
    "plan --max 15": "'15'", "plan --max 256": "'256'", "plan --max x": "'x'", "plan --max": "--max", "plan --low 32": "'32'",
    "plan --low -1": "'-1'", "plan --max 16 --max 16": "--max", "plan --check --check": "--check", "plan --check=true": "--check",
    "plan --check true": "true", "plan --size 16": "--size", "plan batch.csv": "batch.csv", "plan --version": "--version",
    "drill x": "'x'", "drill --max 3": "--max", "drill --check": "--check", "drill plan": "plan", "--max 16 drill": "--max",
    "print": "print", "": "subcommand",
    "serve --port 1 --turns 1": "--db", "serve --db a --turns 1": "--port", "serve --db a --port 1": "--turns",
    "serve --db a --port 0 --turns 1": "'0'", "serve --db a --port 1 --turns 1000001": "'1000001'", "report --db a": "--batch",
    "feed --machine m1 --boot 1 --batch B1": "--port", "feed --port 1 --boot 1 --batch B1": "--machine",
    "feed --port 1 --machine m1 --batch B1": "--boot", "feed --port 1 --machine m1 --boot 1": "--batch",
    "feed --port 0 --machine m1 --boot 1 --batch B1": "'0'", "feed --port 65536 --machine m1 --boot 1 --batch B1": "'65536'",
    "feed --port 1 --machine m1 --boot 0 --batch B1": "'0'", "feed --port 1 --machine m1 --boot 10000000000 --batch B1": "'10000000000'",
}
STATUSES = "Exit statuses: 0 done; 1 refused; 2 wrong arguments; 3 storage, device or memory\n"
# Requests for help, and parts of its text.
HELP = {
    "--help": ["plan", "drill", "serve", "report", "feed", STATUSES], "help": ["plan", "drill", "--help", STATUSES],
    "drill --help": ["persod drill", STATUSES], "help drill": ["persod drill", STATUSES], "serve --help": [STATUSES],
    "plan --help": ["--max <N>", "16 to 255", "[default: 255]", "--check", "refused N row R", "docs/PROFILE.md", STATUSES],
    "plan -h": ["--low <N>", "0 to 31", "[default: 0]", STATUSES], "report --help": [STATUSES], "feed --help": [STATUSES], "feed -h": [STATUSES],
}


def words() -> None:
    for line, part in WRONG_WORDS.items():
        ran = subprocess.run([PERSOD, *line.split()], stdin=subprocess.DEVNULL, capture_output=True, text=True)
        expect(f"persod {line}", (ran.returncode, ran.stdout, ran.stderr.startswith("error: ") or line == "", part in ran.stderr), (2, "", True, True))
    for line, parts in HELP.items():
        ran = subprocess.run([PERSOD, *line.split()], stdin=subprocess.DEVNULL, capture_output=True, text=True)
        expect(f"persod {line}", (ran.returncode, [part for part in parts if part not in ran.stdout + "\n"], ran.stderr), (0, [], ""))


def streams(folder: pathlib.Path) -> None:
    for its in RUNS:
        ran = subprocess.run([PERSOD, *its.words.split()], input=its.typed, capture_output=True, text=True, env=environment(""), cwd=folder)
        expect(f"persod {its.words}", (ran.returncode, ran.stdout, ran.stderr), its[2:])
    expect("the files", list(folder.iterdir()), [])


def inputs() -> None:
    """Tries an input that can't be read: a folder."""
    for words in ("plan", "drill", "feed --port 1 --machine m1 --boot 1 --batch B1"):
        folder = os.open("/", os.O_RDONLY)
        ran = subprocess.run([PERSOD, *words.split()], stdin=folder, capture_output=True, text=True, env=environment(""))
        expect(f"persod {words} of a folder", (ran.returncode, ran.stdout, ran.stderr), (3, "", "device\n"))
        os.close(folder)


def outputs() -> None:
    """Tries a device that is full, and a pipe whose reader is gone."""
    ours, theirs = os.pipe()
    os.close(ours)
    for words, typed in (("plan", LONG), ("--version", ""), ("plan --help", ""), ("drill", RESET)):
        for output in (os.open("/dev/full", os.O_WRONLY), os.dup(theirs)):
            ran = subprocess.run([PERSOD, *words.split()], input=typed, stdout=output, stderr=subprocess.PIPE, text=True)
            expect(f"persod {words} to a full device or a closed pipe", (ran.returncode, ran.stderr), (3, "device\n"))
            os.close(output)
    os.close(theirs)


# ---- refused files


def refused(cause: str, database: pathlib.Path, code: int = 81) -> None:
    """Tries a file with both programs. Neither may modify it."""
    before = database.read_bytes() if database.is_file() else None
    wanted = [f'refused code={code} cause={cause} db="{database}"', f"refused {code}"]
    expect(f"the report of {database.name}", run(PERSOD, "report", "--db", database, "--batch", "B1"), Ran(1, [], wanted))
    book = run(SHOPBOOK, "list", "--db", database, level="")
    expect(f"the book of {database.name}", book, Ran(1, [], wanted))
    expect(f"the bytes of {database.name}", database.read_bytes() if database.is_file() else None, before)


def causes(folder: pathlib.Path) -> None:
    sound = folder / "sound.db"
    make(sound, rows(RICH), Shape(indices=OURS))
    text, cut, linked = folder / "text.db", folder / "cut.db", folder / "linked.db"
    text.write_text(HEADER)
    cut.write_bytes(b"SQLite format 3\0")
    linked.hardlink_to(text)
    refused("no-file", folder / "none.db")
    refused("no-folder", folder / "none" / "shop.db")
    refused("folder", folder)
    refused("special-file", linked)
    linked.unlink()
    refused("not-sqlite", text)
    refused("invalid-database", cut)
    half, changed, empty = folder / "half.db", folder / "changed.db", folder / "empty.db"
    half.write_bytes(sound.read_bytes()[: sound.stat().st_size // 2])
    refused("corrupt", half)
    make(changed, rows(RICH), Shape(indices=OURS), "UPDATE lot SET discarded = discarded + 1")
    refused("lot-counters", changed, 82)
    make(changed, rows(RICH), Shape(indices=OURS), "DROP TABLE mark")
    refused('missing-table table="mark"', changed)
    empty.touch()
    wanted = Ran(1, [], [f'refused code=81 cause=empty db="{empty}"', "refused 81"])
    expect("the book of an empty file", run(SHOPBOOK, "list", "--db", empty), wanted)
    expect("the bytes of an empty file", empty.read_bytes(), b"")
    expect("the report of an empty file", run(PERSOD, "report", "--db", empty, "--batch", "B1"), wanted)
    if os.geteuid() != 0:
        # Root may write to any file.
        sound.chmod(0o444)
        refused("no-right", sound)
        sound.chmod(0o600)
    server = Server(PERSOD, sound, free_port())
    refused("in-use", sound)
    server.kill()
    journal = sound.with_name("sound.db-journal")
    journal.write_bytes(bytes.fromhex("D9D505F920A163D7"))
    refused("journal", sound)


# ---- a machine


class Asked(NamedTuple):
    """A request that a machine must send: its target and body, and the status and body of the reply."""

    target: str
    body: str
    status: int
    reply: str


CARD = [
    Asked("/c/m1/10000001", '{"do":"release","upto":10000000}', 200, '{"mark":10000000,"result":"released"}'),
    Asked("/c/m1/10000002", '{"do":"reset"}', 200, '{"result":"reset","session":0}'),
    Asked(
        "/c/m1/10000003", '{"batch":"B1","blank":1000,"do":"open"}', 200,
        '{"batch":"B1","blank":1000,"command":"00A4040006F00000000101","index":0,"record":"R1","result":"command","session":1}'
    ),
    Asked(
        "/c/m1/10000004", '{"do":"answer","index":0,"session":1,"sw":"9000"}', 200,
        '{"command":"80E28000050101027000","index":1,"result":"command","session":1}'
    ),
    Asked("/c/m1/10000005", '{"do":"answer","index":1,"session":1,"sw":"9000"}', 200, '{"result":"good","session":1}'),
]
LATE = [CARD[0]._replace(status=409, reply='{"code":73,"mark":20000000,"refused":"number-released"}')]
MADE = ["1000 00A4040006F00000000101 9000", "1000 80E28000050101027000 9000", "1000 good"]


def answer(listener: socket.socket, asked: list[Asked], found: list[str]) -> None:
    """Answers the requests, and adds the target and the body of each to `found`."""
    for its in asked:
        link, _ = listener.accept()
        with link:
            head, _, body = link.recv(65_536).decode().partition("\r\n\r\n")
            found.append(f"{head.split(' ')[1]} {body}")
            link.sendall(reply_bytes(its.status, its.reply.encode()))


def feed(typed: str, asked: list[Asked], wanted: Ran) -> None:
    found: list[str] = []
    with socket.create_server(("127.0.0.1", 0)) as listener:
        server = threading.Thread(target=answer, args=(listener, asked, found), daemon=True)
        server.start()
        port = listener.getsockname()[1]
        ran = run(PERSOD, "feed", "--port", port, "--machine", "m1", "--boot", 1, "--batch", "B1", typed=typed, level="")
        server.join(10)
    expect(f"the feed of {typed!r}", ran, wanted)
    expect("its requests", found, [f"{its.target} {its.body}" for its in asked])


def feeds() -> None:
    feed("1000\n", CARD, Ran(0, MADE, []))
    feed("", CARD[:2], Ran(0, [], []))
    feed("1000 \n", CARD[:2], Ran(1, [], ["refused 400"]))
    feed("1000\n", LATE, Ran(1, [], ["refused 73"]))


# ---- a server


ROW = HEADER + "R1,F00000000101,1,0,0,0101027000\n"
# The set-up; a card that is spoiled; its record is withdrawn; the batch is closed; a request number is used for another request.
STORY = [
    (request("office", 1, do="product", product="P1", max=255, low=0, check=False), 200, '{"product":"P1","result":"created"}'),
    (request("office", 2, do="lot", lot="L1", product="P1", first=1000, count=3), 200, '{"lot":"L1","result":"created"}'),
    (imported("office", 3, "B1", "P1", ROW.encode()), 200, '{"batch":"B1","records":1,"result":"created","rows":1}'),
    (
        request("m1", 1, do="open", batch="B1", blank=1000), 200,
        '{"batch":"B1","blank":1000,"command":"00A4040006F00000000101","index":0,"record":"R1","result":"command","session":1}'
    ),
    (request("m1", 2, do="answer", session=1, index=0, sw="6F00"), 200, '{"result":"spoiled","session":1}'),
    (request("office", 4, do="close", batch="B1"), 409, '{"code":70,"refused":"not-finished"}'),
    (request("office", 5, do="withdraw", batch="B1", record="R1"), 200, '{"batch":"B1","record":"R1","result":"withdrawn"}'),
    (request("office", 6, do="close", batch="B1"), 200, '{"batch":"B1","result":"closed"}'),
    (request("m1", 3, do="open", batch="B1", blank=1001), 409, '{"code":57,"refused":"batch-closed"}'),
    (request("office", 7, do="close", batch="B1"), 409, '{"code":57,"refused":"batch-closed"}'),
    (request("office", 1, do="reset"), 409, '{"code":72,"refused":"number-reused"}'),
]
EVENTS = [
    'answered status=409 code=70 name=not-finished request="POST /c/office/4 HTTP/1.1"',
    'answered status=409 code=57 name=batch-closed request="POST /c/m1/3 HTTP/1.1"',
    'answered status=409 code=57 name=batch-closed request="POST /c/office/7 HTTP/1.1"',
    'answered status=409 code=72 name=number-reused request="POST /c/office/1 HTTP/1.1"',
    f"closed connections={len(STORY)}",
]
REPORT = """batch B1
product P1
state closed
record R1 withdrawn 1 -
records            1
waiting            0
running            0
failed             0
withdrawn          1
good               0
sessions           1
spoiled            1
"""


def send_story(port: int) -> None:
    for message, status, body in STORY:
        expect(f"the reply to {message!r}", exchange(port, message), reply_bytes(status, body.encode()))


def served(folder: pathlib.Path) -> None:
    """Runs the same server twice on one file. The second sends the kept replies again."""
    database, events = folder / "shop.db", folder / "events"
    for first in ("made db=", "opened log=none batches=1 sessions=1 replies=10 db="):
        events.unlink(missing_ok=True)
        server = Server(PERSOD, database, free_port(), len(STORY), events=events)
        send_story(server.port)
        server.served()
        word, *keys = first.removesuffix(" db=").removesuffix("db=").split()
        lines = events.read_text().splitlines()
        expect("the first event line", sorted(lines[0].split()), sorted([word, *keys, f'db="{database}"']))
        expect("the other event lines", lines[1:], EVENTS)
        expect("the mode of the file", database.stat().st_mode & 0o777, 0o600)
        expect("the report", run(PERSOD, "report", "--db", database, "--batch", "B1"), Ran(0, REPORT.splitlines(), []))


def reported(folder: pathlib.Path) -> None:
    """Reads long outputs: the commands of a batch (340 kB), and its report (53 kB) over the socket and from the file."""
    names = [f"RECORD-{place:025}" for place in range(1_024)]
    grouping = "01017F" + "00" * 127
    batch = HEADER + "".join(f"{name},F00000000101,1,0,0,{grouping}\n" for name in names)
    commands = [line for name in names for line in (f"record {name}", "00A4040006F00000000101", f"80E2800082{grouping}")]
    expect("the long plan", run(PERSOD, "plan", typed=batch, level=""), Ran(0, commands, []))
    counts = {"records": 1_024, "waiting": 1_024, "running": 0, "failed": 0, "withdrawn": 0, "good": 0, "sessions": 0, "spoiled": 0}
    lines = ["batch B1", "product P1", "state open", *(f"record {name} waiting 0 -" for name in names)]
    lines += [f"{label:<9} {count:>10}" for label, count in counts.items()]
    database = folder / "reported.db"
    server = Server(PERSOD, database, free_port(), 3)
    expect("the product", exchange(server.port, STORY[0][0]), reply_bytes(200, STORY[0][2].encode()))
    reply = '{"batch":"B1","records":1024,"result":"created","rows":1024}'
    expect("the import", exchange(server.port, imported("office", 3, "B1", "P1", batch.encode())), reply_bytes(200, reply.encode()))
    body = "".join(f"{line}\n" for line in lines).encode()
    expect("the long report", exchange(server.port, get("/batch/B1/report")), reply_bytes(200, body, "text/plain"))
    server.served()
    expect("the printed report", run(PERSOD, "report", "--db", database, "--batch", "B1"), Ran(0, lines, []))


def levels(folder: pathlib.Path) -> None:
    """Tries the values of PERSOD_LOG."""
    for value, is_on in (("", False), ("0", False), ("off", False), ("OFF", True), ("00", True), ("1", True), ("all", True)):
        ran = run(PERSOD, "report", "--db", folder / "none.db", "--batch", "B1", level=value)
        expect(f"the event lines at {value!r}", len(ran.errors), 2 if is_on else 1)
    ran = run(PERSOD, "serve", "--db", folder / "none" / "shop.db", "--port", 1, "--turns", 1)
    expect("a server without a folder", ran.status, 1)
    with socket.create_server(("127.0.0.1", 0)) as listener:
        port = listener.getsockname()[1]
        ran = run(PERSOD, "serve", "--db", folder / "unused.db", "--port", port, "--turns", 1)
    expect("a server without a port", ran, Ran(3, [], [f"unstarted cause=port-in-use port={port}", "device"]))


def killed(folder: pathlib.Path) -> None:
    """Reads the file and the WAL of a killed server, without a change."""
    database = folder / "killed.db"
    wal = database.with_name("killed.db-wal")
    server = Server(PERSOD, database, free_port())
    send_story(server.port)
    message = post("m1", 4, b"{}")
    expect("a request without members", exchange(server.port, message), fixed_reply(400, "malformed"))
    expect("a batch that isn't there", exchange(server.port, get("/batch/B2")), reply_bytes(409, b'{"code":56,"refused":"batch-unknown"}'))
    server.kill()
    before = database.read_bytes(), wal.read_bytes()
    expect("the WAL", len(before[1]) > 0, True)
    expect("the mode of the WAL", wal.stat().st_mode & 0o777, 0o600)
    cards = run(SHOPBOOK, "cards", "--db", database, "--batch", "B1")
    expect("the cards", (cards.status, cards.errors), (0, []))
    expect("the files", (database.read_bytes(), wal.read_bytes()), before)
    events = folder / "events"
    server = Server(PERSOD, database, free_port(), len(STORY), events=events)
    send_story(server.port)
    server.served()
    first = events.read_text().splitlines()[0]
    expect("the first event line", sorted(first.split()), sorted(["opened", "log=taken", "batches=1", "sessions=1", "replies=10", f'db="{database}"']))


def books(folder: pathlib.Path) -> None:
    """Runs each subcommand of `shopbook` for a file of each schema version."""
    for version in (1, 2, 3):
        its = RICH if version == 3 else WORKED
        batch, product = sorted(its.batches)[0], sorted(its.products)[0]
        asks = ["check", "list", f"cards --batch {batch}", f"blanks --product {product}", "machines", f"sheet --batch {batch}"]
        database = folder / f"version-{version}.db"
        make(database, rows(its), Shape(version, indices=OURS if version == 3 else ()))
        before = database.read_bytes()
        for ask in asks:
            word, *others = ask.split()
            for form in ([], ["--json"]) if word not in ("check", "sheet") else ([],):
                ran = run(SHOPBOOK, word, "--db", database, *others, *form)
                expect(f"shopbook {ask} {form} of version {version}", (ran.status, ran.errors, bool(ran.printed)), (0, [], True))
        expect(f"the file of version {version}", database.read_bytes(), before)


def main() -> None:
    parts = [streams, causes, served, reported, levels, killed, books]
    words()
    inputs()
    outputs()
    feeds()
    for part in parts:
        folder = pathlib.Path(tempfile.mkdtemp())
        try:
            part(folder)
        finally:
            shutil.rmtree(folder)
    print(f"{len(RUNS)} runs, {len(parts) + 4} parts, 0 faults")


if __name__ == "__main__":
    main()
