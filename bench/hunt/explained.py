#!/usr/bin/env python3
"""Checks the event lines that explain a refused batch file, a response with status 400, and an upgrade.

    bench/run explained

Each batch file has one change. `persod plan` and an import must both write the expected line `fault`, and without PERSOD_LOG nothing but the
refusal. Each message must get status 400 and the expected cause. A start on a database file of an earlier schema version must report it once.
All expected values were derived by hand from PROFILE.md, PROTOCOL.md and EVENTS.md. Exit status: 1 if a check fails."""
import pathlib
import subprocess
import sys
import tempfile
from typing import NamedTuple

from contents import RICH, WORKED, rows
from events import Ran, expect, lines, path
from served import Server, environment, exchange, fixed_reply, free_port, get, imported, parts, post, request
from sound_files import OURS, Shape, make

HEADER, AID, GOOD = "record,aid,rank,enc,tol,dgi", "F00000000101", "0101027000"
ROW, SECOND = f"R1,{AID},1,0,0,", f"R2,{AID},1,0,0,"
# The products with their options of `persod plan`.
PRODUCTS = {"P1": ("--check",), "P2": ("--max", "16")}


class File(NamedTuple):
    """A refused batch file: the code, the name, the row in the reply, and the pairs of the event line after `name`."""

    code: int
    name: str
    row: int
    pairs: str
    raw: bytes
    product: str = "P1"


def rows_of(*lines_after: str) -> bytes:
    return "\n".join([HEADER, *lines_after, ""]).encode()


def field(number: int, text: str) -> bytes:
    """Returns a file with one data row, whose field `number` is `text`."""
    fields = ["R1", AID, "1", "0", "0", GOOD]
    fields[number - 1] = text
    return rows_of(",".join(fields))


def grouping(text: str, cause: str) -> File:
    return File(36, "grouping", 2, f'row=2 line=2 record="R1" field=6 cause={cause}', field(6, text))


def pieces(size: int) -> str:
    """Returns a grouping with `size` bytes of data, 255 or more."""
    return f"8001FF{size:04X}" + "00" * size


R1 = 'row=2 line=2 record="R1"'
FILES = [
    File(21, "marks-differ", 2, 'row=3 other=2 line=3 record="R1" field=4 cause=enc', rows_of(ROW + GOOD, f"R1,{AID},1,1,0,0102027000")),
    File(
        21, "marks-differ", 2, 'row=4 other=2 line=4 record="R1" field=5 cause=tol',
        rows_of(ROW + GOOD, SECOND + GOOD, f"R1,{AID.lower()},001,0,1,0102027000"),
    ),
    File(
        22, "identifier-twice", 3, 'row=4 other=3 line=5 record="R2" field=6', rows_of(ROW + GOOD, "", SECOND + GOOD, f"R2,{AID},2,0,0,{GOOD}"),
    ),
    # The record begins in row 2, but rows 3 and 5 have the same identifier.
    File(
        22, "identifier-twice", 2, 'row=5 other=3 line=5 record="R1" field=6',
        rows_of(ROW + GOOD, ROW + "0102027000", SECOND + GOOD, f"R1,{AID},2,0,0,0102027000"),
    ),
    # 4,092 bytes of data need 257 commands with 16 bytes each. 4,091 bytes need 256.
    File(23, "too-many-blocks", 2, 'row=2 other=2 line=2 record="R1"', rows_of(ROW + pieces(4_092)), "P2"),
    File(23, "too-many-blocks", 2, 'row=3 other=2 line=3 record="R1"', rows_of(ROW + pieces(4_091), f"R1,{AID},2,0,0,{GOOD}"), "P2"),
    File(30, "not-six-fields", 2, f"{R1} cause=few-fields", rows_of(f"R1,{AID},1,0,0")),
    File(30, "not-six-fields", 1, 'row=1 line=1 record="record" cause=many-fields', f"{HEADER},\n".encode()),
    File(30, "not-six-fields", 1, "row=1 line=1 record-bytes=27 cause=few-fields", HEADER.replace(",", ";").encode()),
    File(31, "header", 1, "row=1 cause=no-rows", b""),
    File(31, "header", 1, 'row=1 line=1 record="Record" field=1 cause=column-name', b"Record,aid,rank,enc,tol,dgi\n"),
    File(31, "header", 1, 'row=1 line=3 record="record" field=3 cause=column-name', b"\xef\xbb\xbf\r\n\r\nrecord,aid,Rank,enc,tol,dgi\r\n"),
    File(32, "record-name", 2, "row=2 line=2 record-bytes=0 field=1 cause=empty", field(1, "")),
    File(32, "record-name", 2, "row=2 line=2 record-bytes=33 field=1 cause=long", field(1, "R" * 33)),
    File(32, "record-name", 2, "row=2 line=2 record-bytes=3 field=1 cause=character", field(1, "R 1")),
    File(33, "aid", 2, f"{R1} field=2 cause=not-hex", field(2, "F00000000")),
    File(33, "aid", 2, f"{R1} field=2 cause=short", field(2, "F0000000")),
    File(33, "aid", 2, f"{R1} field=2 cause=long", field(2, "F0" * 17)),
    File(34, "rank", 2, f"{R1} field=3 cause=empty", field(3, "")),
    File(34, "rank", 2, f"{R1} field=3 cause=not-decimal", field(3, "+1")),
    File(34, "rank", 2, f"{R1} field=3 cause=long", field(3, "0001")),
    File(34, "rank", 2, f"{R1} field=3 cause=zero", field(3, "000")),
    File(35, "mark", 2, f"{R1} field=4 cause=enc", rows_of(f"R1,{AID},1,3,2,{GOOD}")),
    File(35, "mark", 2, f"{R1} field=5 cause=tol", rows_of(f"R1,{AID},1,2,2,{GOOD}")),
    grouping("0101027", "not-hex"),
    grouping('"01\n01"', "not-hex"),
    grouping("01", "short-identifier"),
    grouping("0101FF00", "short-length"),
    grouping("0101FF4001", "long-data"),
    grouping("01010270", "short-data"),
    grouping("010102700000", "trailing"),
    File(
        36, "grouping", 3, 'row=3 line=3 record="R2" field=6 cause=short-identifier',
        b"\xef\xbb\xbf" + "\r".join([HEADER, ROW + GOOD, SECOND]).encode(),
    ),
    File(
        36, "grouping", 3, 'row=3 line=5 record="R2" field=6 cause=short-data',
        "\r\n".join([HEADER, ROW.replace("R1", '"R1"') + GOOD, "", "", SECOND + "01010270"]).encode(),
    ),
    File(37, "not-a-record", 2, f"{R1} field=6", field(6, "0101027001")),
    File(38, "too-many-rows", 4098, 'row=4098 line=4098 record="R1"', rows_of(*[ROW + GOOD] * 4097)),
    File(
        39, "too-many-records", 1026, 'row=1026 line=1026 record="R1025"',
        rows_of(*[f"R{row},{AID},1,0,0,{GOOD}" for row in range(1, 1026)]),
    ),
    File(40, "no-rows", 1, 'row=1 line=1 record="record"', f"{HEADER}\n".encode()),
]

M1 = ' request="POST /c/m1/1 HTTP/1.1"'


def job(body: str, cause: str) -> tuple[bytes, str]:
    return post("m1", 1, body), f"cause={cause}{M1}"


# Malformed messages, and the pairs of the event line after `name=malformed`.
MESSAGES = [
    (b"GET /batch/B1 HTTP/1.1\nHost: x\r\n\r\n", "cause=bare-lf bytes=34"),
    (b"GET /batch/B1 HTTP/2\r\n\r\n", "cause=grammar bytes=24"),
    (b"POST /c/m1/1 HTTP/1.1\r\nTransfer-Encoding: chunked\r\n\r\n", f"cause=transfer-encoding{M1}"),
    (b"POST /c/m1/1 HTTP/1.1\r\nContent-Length: 1,1\r\n\r\n", f"cause=content-length{M1}"),
    (get("/batch/B1?x=1"), 'cause=name request="GET /batch/B1?x=1 HTTP/1.1"'),
    (post("m.1", 1, ""), 'cause=name request="POST /c/m.1/1 HTTP/1.1"'),
    (b"POST /c/m1/01 HTTP/1.1\r\n\r\n", 'cause=number request="POST /c/m1/01 HTTP/1.1"'),
    (imported("m1", 1, "B.1", "P1", b""), 'cause=name request="POST /c/m1/1/batch/B.1/P1 HTTP/1.1"'),
    job("", "body"),
    job('{"do":"reset"', "body"),
    job("[]", "body"),
    # The name of a member that no request has isn't shown.
    job('{"do":"reset","note":1}', "body"),
    job("{}", "missing member=do"),
    job('{"do":7}', "value member=do"),
    job('{"do":"import"}', "value member=do"),
    job('{"do":"discard"}', "missing member=blank"),
    job('{"do":"discard","blank":"1000"}', "value member=blank"),
    job('{"do":"discard","blank":1e3}', "value member=blank"),
    job('{"do":"discard","blank":-0}', "value member=blank"),
    job('{"do":"product","product":"P3","max":256,"low":0,"check":false}', "value member=max"),
    job('{"do":"product","product":"P3","max":255,"check":0}', "missing member=low"),
    job('{"do":"product","product":"P3","max":255,"low":0,"check":0}', "value member=check"),
    job('{"do":"open","batch":["B1"],"blank":1}', "value member=batch"),
    job('{"do":"answer","session":1,"index":0,"sw":9000}', "value member=sw"),
    job('{"do":"answer","session":0,"index":0,"sw":9000}', "value member=session"),
    job('{"do":"release","upto":0}', "value member=upto"),
    job('{"do":"reset","session":1}', "additional member=session"),
    job('{"do":"close","batch":"B1","index":1,"blank":2}', "additional member=blank"),
    job('{"do":"lot","lot":"L1","product":"P1","first":999999999999999999,"count":2}', "value member=count"),
]


def of_files(program: str, folder: pathlib.Path) -> None:
    """Tries each file with `persod plan`, and imports it twice under one request number."""
    database, events = folder / "shop.db", folder / "events"
    server = Server(program, database, free_port(), events=events)
    for number, (product, options) in enumerate(PRODUCTS.items(), 1):
        most = int(options[1]) if "--max" in options else 255
        exchange(server.port, request("office", number, do="product", product=product, max=most, low=0, check="--check" in options))
    wanted = [f"made db={path(database)}"]
    for number, file in enumerate(FILES, 10):
        line, refusal = f"fault code={file.code} name={file.name} {file.pairs}", f"refused {file.code} row {file.row}"
        words, text = ("plan", *PRODUCTS[file.product]), file.raw.decode("latin-1")
        for level in ("1", ""):
            ran = run_with(program, words, file.raw, level)
            expect(f"the plan of {text[:200]!r}", ran, Ran(1, [], [line, refusal] if level else [refusal]))
        body = f'{{"code":{file.code},"refused":"{file.name}","row":{file.row}}}'.encode()
        message = imported("office", number, f"B{number}", file.product, file.raw)
        for _ in range(2):
            expect(f"the import of {text[:200]!r}", parts(exchange(server.port, message)), (409, body))
            asked = f'request="POST /c/office/{number}/batch/B{number}/{file.product} HTTP/1.1"'
            wanted += [f"answered status=409 code={file.code} name={file.name} {asked}", line]
    # A faulty file that is refused for another reason isn't explained.
    message = imported("office", 9, "B9", "P9", FILES[0].raw)
    expect("an unknown product", parts(exchange(server.port, message)), (409, b'{"code":52,"refused":"product-unknown"}'))
    wanted += ['answered status=409 code=52 name=product-unknown request="POST /c/office/9/batch/B9/P9 HTTP/1.1"']
    expect("the event lines of imports", lines(events, len(wanted)), wanted)
    server.kill()


def run_with(program: str, words: tuple[str, ...], raw: bytes, level: str) -> Ran:
    """Runs a program with input that need not be text."""
    ran = subprocess.run([program, *words], input=raw, capture_output=True, env=environment(level), timeout=60)
    return Ran(ran.returncode, ran.stdout.decode().splitlines(), ran.stderr.decode().splitlines())


def of_messages(program: str, folder: pathlib.Path) -> None:
    database, events = folder / "messages.db", folder / "message-events"
    server = Server(program, database, free_port(), len(MESSAGES), events=events)
    for message, _ in MESSAGES:
        expect(f"the response to {message!r}", exchange(server.port, message), fixed_reply(400, "malformed"))
    server.served()
    wanted = [f"answered status=400 code=400 name=malformed {pairs}" for _, pairs in MESSAGES]
    expect("the event lines of messages", lines(events)[1:-1], wanted)


def of_upgrades(program: str, folder: pathlib.Path) -> None:
    """Starts a server twice on a file of each schema version. Only the first start on an older file upgrades it."""
    for version in (1, 2, 3):
        database, events = folder / f"version-{version}.db", folder / f"events-{version}"
        make(database, rows(RICH if version == 3 else WORKED), Shape(version, indices=OURS if version == 3 else ()))
        for is_older in (version < 3, False):
            events.unlink(missing_ok=True)
            Server(program, database, free_port(), events=events).kill()
            found = lines(events, 1 + is_older)
            wanted = [f"upgraded db={path(database)} version={version}"] if is_older else []
            expect(f"the lines before `opened` of version {version}", found[:-1], wanted)
            expect(f"the line of version {version}", found[-1].split()[0], "opened")


def main() -> None:
    with tempfile.TemporaryDirectory() as name:
        for part in (of_files, of_messages, of_upgrades):
            part(sys.argv[1], pathlib.Path(name))
    print(f"{len(FILES)} batch files, {len(MESSAGES)} messages, 3 schema versions: each event line has the right cause")


if __name__ == "__main__":
    main()
