#!/usr/bin/env python3
"""Sends the requests of the office to `persod serve`: products, lots, batches, and remakes.

    python3 bench/demo/office.py product P1 --max 255
    python3 bench/demo/office.py lot L1 P1 1000 500
    python3 bench/demo/office.py batch B1 P1 batch.csv --wait
    python3 bench/demo/office.py remake B1 R7

If a command is killed or gets no reply, repeat it. It takes effect only once: before its
requests are sent, their numbers and bytes are stored in the state folder, and the next call
sends them again. After their replies, even the same command gets new request numbers, and the
earlier ones are released. No other program may use the client name.

Until a batch file has its reply, the state folder contains a copy of it, with its card data.

Exit status: 0 done, 1 refused, 2 wrong argument, 3 no reply or another failure."""
from __future__ import annotations

import argparse
import csv
import fcntl
import http.client
import io
import json
import os
import pathlib
import random
import re
import ssl
import sys
import time
import urllib.parse
from typing import Any, Callable, Iterator, NamedTuple, Optional

LARGEST_SERIAL = 999_999_999_999_999_999
LARGEST_NUMBER = 2**53 - 1  # JSON readers with floating-point numbers read it exactly
LARGEST_FILE = 16_777_216
MOST_BLANKS = 1_000_000
BOOT = 10_000_000  # the request numbers of a boot
START_OF_2026 = 1_767_225_600  # seconds since 1970
TRIES = 3  # to find a number above the release mark
LONGEST_TRY = 60
LONGEST_PAUSE = 2
NAME = re.compile(r"[A-Za-z0-9_-]{1,32}")


class Stop(Exception):
    """The end of a call, with its exit status and message."""

    def __init__(self, status: int, message: str) -> None:
        super().__init__(message)
        self.status = status


# ---- refusals, as docs/PROTOCOL.md and docs/PROFILE.md define them; 403 is from docs/OPERATING.md

TEXTS = """
21 marks-differ: Two rows of one application and rank differ in enc or tol.
22 identifier-twice: Two rows of one application have the same identifier.
23 too-many-blocks: An application of the record needs more than 256 STORE DATA commands.
30 not-six-fields: The row doesn't have six fields.
31 header: Row 1 isn't the header record,aid,rank,enc,tol,dgi.
32 record-name: Field 1 isn't a name of 1 to 32 letters, digits, _ and -.
33 aid: Field 2 isn't an AID of 5 to 16 bytes in hexadecimal.
34 rank: Field 3 isn't a number from 1 to 999 with 1 to 3 digits.
35 mark: Field 4 isn't 0, 1 or 2, or field 5 isn't 0 or 1.
36 grouping: Field 6 isn't exactly one data grouping in hexadecimal.
37 not-a-record: The product's check is on, and field 6 isn't an EMV record.
38 too-many-rows: The file has more than 4,096 data rows.
39 too-many-records: The file has more than 1,024 records.
40 no-rows: The file has no rows except the header.
51 product-differs: The product already exists with a different max, low or check.
52 product-unknown: The product doesn't exist.
53 lot-differs: The lot already exists with a different product, first serial or count.
54 serials-overlap: One of the serials is already in a lot of this or another product.
55 batch-differs: The batch already exists with a different product or a different file.
56 batch-unknown: The batch doesn't exist.
57 batch-closed: The batch is closed.
58 blank-unknown: No lot contains the blank.
59 blank-of-other-product: The lot of the blank and the batch have different products.
60 blank-used: The blank is already charged, because it was opened or discarded before.
61 machine-busy: The machine has a running session.
62 nothing-waiting: No record of the batch is waiting.
63 session-unknown: The session doesn't exist.
64 not-yours: Another client opened the session.
65 session-ended: The session is already good or spoiled.
66 out-of-turn: The index isn't that of the last command that was sent.
67 record-unknown: The batch doesn't contain the record.
68 not-failed: The record isn't failed, and only a failed record can be remade.
69 not-withdrawable: The record isn't waiting or failed, and a running session must end first.
70 not-finished: A record of the batch is neither good nor withdrawn.
71 limit: The database already has the maximum number of products, lots or batches.
72 number-reused: The request number was used before with different request bytes.
73 number-released: The request number is released, so nothing was done: use one above the mark.
74 release-too-far: A release must have a number above the numbers that it releases.
400 malformed: The message is malformed: a proxy may have changed it, or this program is wrong.
403 forbidden: The proxy doesn't allow this request to this client.
404 no-route: The server doesn't have this path.
405 method: The server doesn't allow this method for the path.
413 too-large: The body is larger than the server (16,777,216 bytes) or the proxy allows.
431 head-too-large: The head of the message is larger than 8,192 bytes or 32 header lines.
503 storage: The storage of the server failed or is full, or an allocation failed.
"""
REFUSALS = {
    int(code): (name, text) for code, name, text in re.findall(r"(\d+) (\S+): (.*)", TEXTS)
}


def sentence(code: int) -> str:
    return REFUSALS[code][1] if code in REFUSALS else "This isn't a code of the server."


# ---- requests


class Request(NamedTuple):
    """A request with its number. The body's bytes are the characters of `body` in Latin-1."""

    client: str
    number: int
    tail: str
    body: str

    def members(self) -> dict[str, Any]:
        if self.tail:
            _, _, batch, product = self.tail.split("/")
            return {"do": "batch", "batch": batch, "product": product}
        return json.loads(self.body)

    def is_release(self) -> bool:
        return self.members()["do"] == "release"

    def subject(self) -> str:
        """Returns the object that the request changes."""
        asked = self.members()
        if asked["do"] in ("remake", "withdraw"):
            return f"record {asked['record']} of batch {asked['batch']}"
        if asked["do"] == "release":
            return f"request numbers up to {asked['upto']}"
        if asked["do"] == "reset":
            return f"machine {self.client}"
        kind = {"discard": "blank", "close": "batch"}.get(asked["do"], asked["do"])
        return f"{kind} {asked[kind]}"


class Reply(NamedTuple):
    """A response below status 500. `repeated` is true if the request was sent before."""

    request: Request
    status: int
    text: str
    repeated: bool

    def members(self) -> dict[str, Any]:
        try:
            found = json.loads(self.text)
        except ValueError:
            return {}
        return found if isinstance(found, dict) else {}

    def code(self) -> int:
        return self.members().get("code", self.status)

    def is_decided(self) -> bool:
        """Returns true if the server decided the request, now or before."""
        return {200: "result", 409: "code"}.get(self.status) in self.members()

    def is_of_server(self) -> bool:
        return self.is_decided() or self.members().get("code") == self.status


def body_of(**members: Any) -> str:
    return json.dumps(members, separators=(",", ":"))


def asks_of(requests: list[Request]) -> list[tuple[str, str, str]]:
    """Returns the client, the path after the number, and the body of each request, without the
    release."""
    return [(one.client, one.tail, one.body) for one in requests if not one.is_release()]


# ---- connections


class Line:
    """Connections to the server, or to a proxy in front of it."""

    def __init__(self, given: argparse.Namespace, server: str) -> None:
        self.server, self.patience = server, given.patience
        self.place = place_of(server)
        if self.place.scheme == "https":
            self.context = ssl.create_default_context(cafile=given.authority)
            if given.certificate:
                self.context.load_cert_chain(given.certificate)

    def connection(self) -> http.client.HTTPConnection:
        host, port = self.place.hostname, self.place.port
        if self.place.scheme == "http":
            return http.client.HTTPConnection(host, port, timeout=LONGEST_TRY)
        return http.client.HTTPSConnection(host, port, timeout=LONGEST_TRY, context=self.context)

    def exchange(
        self, method: str, path: str, body: Optional[bytes] = None
    ) -> Optional[tuple[int, str]]:
        """Returns status and body of a complete response below status 500, otherwise None."""
        link = self.connection()
        try:
            try:
                link.request(method, path, body)
            except (BrokenPipeError, ConnectionResetError):
                pass  # an early response may be there
            response = link.getresponse()
            text = response.read().decode("utf-8", "replace")
        except ssl.SSLCertVerificationError as fault:
            raise Stop(3, f"{self.server}: {fault}") from None
        except (OSError, http.client.HTTPException):
            return None
        finally:
            link.close()
        is_whole = (response.getheader("Content-Length") or "").isdigit()
        return (response.status, text) if is_whole and response.status < 500 else None

    def insist(
        self, method: str, path: str, body: Optional[bytes] = None
    ) -> tuple[int, str, int]:
        """Returns status and body of the response, and the number of tries before it."""
        end, pause, tries = time.monotonic() + self.patience, 0.05, 0
        while (came := self.exchange(method, path, body)) is None:
            if time.monotonic() + pause > end:
                raise Stop(3, f"no reply from {self.server} in {self.patience} s")
            if tries == 0:
                note(f"no reply from {self.server} yet; trying for {self.patience} s")
            time.sleep(pause)
            tries, pause = tries + 1, min(2 * pause, LONGEST_PAUSE)
        return came[0], came[1], tries

    def post(self, request: Request, repeated: bool) -> Reply:
        path = f"/c/{request.client}/{request.number}{request.tail}"
        status, text, tries = self.insist("POST", path, request.body.encode("latin-1"))
        return Reply(request, status, text, repeated or tries > 0)

    def read(self, path: str) -> str:
        """Returns the text of an account or a report."""
        return self.accepted(path, *self.insist("GET", path)[:2])

    def account(self, path: str) -> dict[str, Any]:
        return self.parsed(path, self.read(path))

    def account_now(self, path: str) -> Optional[dict[str, Any]]:
        """Returns the account, or None if one try brings no reply."""
        came = self.exchange("GET", path)
        return self.parsed(path, self.accepted(path, *came)) if came else None

    def accepted(self, path: str, status: int, text: str) -> str:
        if status != 200:
            code = Reply(Request("", 0, "", ""), status, text, False).code()
            raise Stop(1, f"GET {path}: refused {code}. {sentence(code)}")
        return text

    def parsed(self, path: str, text: str) -> dict[str, Any]:
        try:
            return json.loads(text)
        except ValueError:
            raise Stop(3, f"{self.server}{path} isn't an account of persod") from None


def place_of(server: str) -> urllib.parse.SplitResult:
    """Returns the parts of the value of --server."""
    place = urllib.parse.urlsplit(server)
    is_whole = place.scheme in ("http", "https") and place.hostname and place.path in ("", "/")
    try:
        if is_whole and place.port != 0:
            return place
    except ValueError:
        pass
    raise Stop(2, f"value of --server is {server}, and must be http://HOST:PORT or https://..")


def note(text: str) -> None:
    print(f"office: {text}", file=sys.stderr, flush=True)


# ---- state folder


class Folder:
    """The state folder: the last request number of each client, and the pending requests."""

    def __init__(self, path: str) -> None:
        self.path = pathlib.Path(path).expanduser()
        self.file = self.path / "state.json"
        self.numbers: dict[str, int] = {}
        self.pending: list[Request] = []
        self.server, self.since = "", ""

    def lock(self) -> None:
        """Locks the folder until this process exits, and reads it."""
        if not self.path.exists():
            self.path.mkdir(mode=0o700, parents=True, exist_ok=True)
            sync(self.path.parent)
        self.held = (self.path / "lock").open("a")
        try:
            fcntl.flock(self.held, fcntl.LOCK_EX | fcntl.LOCK_NB)
        except BlockingIOError:
            raise Stop(3, f"another office.py uses the folder {self.path}") from None
        self.read()

    def read(self) -> None:
        if not self.file.exists():
            return
        try:
            state = json.loads(self.file.read_text("ascii"))
            self.numbers, self.server = state["numbers"], state["server"]
            self.since = state["since"]
            self.pending = [Request(*found) for found in state["pending"]]
        except (ValueError, KeyError, TypeError) as fault:
            raise Stop(3, f"{self.file} is damaged: {fault}") from None

    def store(self) -> None:
        """Replaces the file. After a crash it has its old or its new content."""
        new = self.path / "state.new"
        state = {"numbers": self.numbers, "server": self.server, "since": self.since}
        opened = os.open(new, os.O_WRONLY | os.O_CREAT | os.O_TRUNC, 0o600)
        with open(opened, "w", encoding="ascii") as file:
            json.dump({**state, "pending": self.pending}, file)
            file.flush()
            os.fsync(file.fileno())
        os.replace(new, self.file)
        sync(self.path)

    def begin(self, server: str, requests: list[Request]) -> None:
        """Stores these requests as pending."""
        self.numbers.update({one.client: one.number for one in requests})
        self.server, self.pending = server, requests
        self.since = time.strftime("%Y-%m-%d %H:%M:%S")
        self.store()

    def end(self) -> None:
        self.server, self.since, self.pending = "", "", []
        self.store()


def sync(folder: pathlib.Path) -> None:
    opened = os.open(folder, os.O_RDONLY)
    try:
        os.fsync(opened)
    finally:
        os.close(opened)


# ---- calls


class Office:
    """One call of this program."""

    def __init__(self, given: argparse.Namespace) -> None:
        self.given, self.folder = given, Folder(given.folder)
        self.line = Line(given, given.server)

    def call(self, *asks: tuple[str, str]) -> int:
        """Sends requests of the office after a release, and returns the exit status."""
        return self.once([(self.given.client, *ask) for ask in asks], self.of_office)

    def free(self, machine: str) -> int:
        """Sends a reset under the name of a machine."""
        return self.once([(machine, "", body_of(do="reset"))], self.of_machine)

    def once(
        self, asks: list[tuple[str, str, str]], draw: Callable[[Any], list[Request]]
    ) -> int:
        """Finishes the pending requests of an earlier call. Unless they are the same as `asks`,
        sends `asks` under new numbers."""
        self.folder.lock()
        if self.folder.pending:
            is_same = (self.folder.server, asks_of(self.folder.pending)) == (self.line.server, asks)
            status = self.send(is_same)
            if is_same and status is not None:
                return status
        for _ in range(TRIES):
            self.folder.begin(self.line.server, draw(asks))
            status = self.finish(repeated=False)
            if status is not None:
                return status
        raise Stop(3, "another program releases the numbers of this client")

    def send(self, is_same: bool = False) -> Optional[int]:
        """Sends the pending requests of an earlier call. Returns None if none was decided."""
        subject = self.folder.pending[-1].subject()
        note(f"the requests of {self.folder.since} have no reply: sending them again")
        status = self.finish(repeated=True)
        if status is None and not is_same:
            note(f"{subject}: no request was decided; if it is still wanted, repeat its command")
        return status

    def of_office(self, asks: list[tuple[str, str, str]]) -> list[Request]:
        """Numbers requests of the office. Random white space in the release makes a used number
        visible: refusal 72."""
        client, last = self.given.client, self.folder.numbers.get(self.given.client, 0)
        first = max(last + 1, (int(time.time()) - START_OF_2026) * BOOT)
        if first + len(asks) > LARGEST_NUMBER:
            raise Stop(3, f"{client} has no request number below 2^53 left; use another --client")
        release = body_of(do="release", upto=first - 1) + "".join(random.choices(" \t", k=64))
        asks = [(client, "", release), *asks]
        return [Request(one, first + k, tail, body) for k, (one, tail, body) in enumerate(asks)]

    def of_machine(self, asks: list[tuple[str, str, str]]) -> list[Request]:
        """Numbers a reset of a machine with a higher boot number. Drivers don't use the first
        request number of a boot."""
        [(machine, tail, body)] = asks
        number = higher_boot(self.folder.numbers.get(machine, 0) // BOOT) * BOOT
        if number > LARGEST_SERIAL:
            raise Stop(3, f"machine {machine} has no request numbers left")
        return [Request(machine, number, tail, body)]

    def finish(self, repeated: bool) -> Optional[int]:
        """Sends the pending requests and prints the results. Returns None if none was decided."""
        line = Line(self.given, self.folder.server)
        replies: list[Reply] = []
        for request in self.folder.pending:
            replies.append(self.replied(line, request, repeated))
            if not replies[-1].is_decided() or is_left_out(replies[0], repeated):
                break
        for reply in replies:
            self.learn(reply)
        status = None
        if not is_unsent(replies[0], repeated):
            status = told(line, replies)
            for request in self.folder.pending[len(replies) :]:
                print(f"{request.subject()}: not sent", flush=True)
        self.folder.end()
        return status

    def replied(self, line: Line, request: Request, repeated: bool) -> Reply:
        """Sends a request until it has a reply. A response of a proxy doesn't end a request that
        was sent before."""
        again = "the request is stored: repeat the command, or see 'pending --help'"
        try:
            reply = line.post(request, repeated)
        except Stop as stop:
            raise Stop(3, f"{stop}; {again}") from None
        if reply.repeated and not reply.is_of_server():
            raise Stop(3, f"status {reply.status}. {sentence(reply.status)} Now {again}")
        return reply

    def learn(self, reply: Reply) -> None:
        """Raises the last number after a refusal 73. For the office it adds the numbers of a whole
        boot, because the program that made this release also used the numbers after it."""
        client, last = reply.request.client, reply.members().get("mark", 0)
        if client == self.given.client:
            last += BOOT
        if reply.code() == 73:
            self.folder.numbers[client] = max(self.folder.numbers.get(client, 0), last)


def higher_boot(boot: int) -> int:
    """Returns a boot number above `boot`. If `boot` looks like the seconds of a clock, returns the
    seconds of this clock."""
    for clock in (int(time.time()) - START_OF_2026, int(time.time())):
        if clock // 2 < boot < clock:
            return clock
    return boot + 1


def is_left_out(first: Reply, repeated: bool) -> bool:
    """Returns true if the requests after `first`, a release with a bad number, aren't sent."""
    if not first.request.is_release():
        return False
    return first.code() == 72 or first.code() == 73 and not repeated


def is_unsent(first: Reply, repeated: bool) -> bool:
    """Returns true if the requests had no effect, because the number of the first was released.

    A machine with a running session has released the number BOOT before."""
    if first.code() != 73 or first.request.number == BOOT:
        return first.code() == 73
    return not (repeated if first.request.is_release() else first.repeated)


# ---- results


def told(line: Line, replies: list[Reply]) -> int:
    """Prints the results, and returns the exit status."""
    shown = [one for one in replies if not is_silent(one, len(replies) > 1)]
    for reply in shown:
        print("\n".join(result(reply)), flush=True)
    refused = any(reply.status != 200 for reply in shown)
    return max(int(refused), told_states(line, replies))


def is_silent(reply: Reply, with_others: bool) -> bool:
    return with_others and reply.request.is_release() and reply.code() in (200, 73)


def result(reply: Reply) -> list[str]:
    """Returns the lines about a reply."""
    subject, found = reply.request.subject(), reply.members()
    if reply.status != 200:
        code = reply.code()
        name = REFUSALS[code][0] if code in REFUSALS else ""
        return [f"{subject}: refused {code} {name}", f"  {sentence(code)}", *further(reply)]
    if found["result"] == "reset":
        ended = f"session {found['session']} has ended, and its card is spoiled"
        return [f"{subject}: {ended if found['session'] else 'no session is running'}"]
    sizes = [counted(found[kind], kind[:-1]) for kind in ("records", "rows") if kind in found]
    known = {"known": "already known, with the same contents"}.get(found["result"])
    return [", ".join([f"{subject}: {known or found['result']}", *sizes])]


def counted(count: int, noun: str) -> str:
    return f"{count} {noun}" if count == 1 else f"{count} {noun}s"


def further(reply: Reply) -> list[str]:
    """Returns further lines about a refusal: the place of a fault, or the next step."""
    if reply.code() == 72 and reply.request.is_release():
        return ["  Another program uses this client name. Repeat the command."]
    if reply.code() != 73:
        return fault_lines(reply)
    if reply.request.members()["do"] == "reset":
        return ["  The machine has started, and a start ends its session. If the session is",
                "  still running, run 'free' again."]
    return ["  Another program uses this client name. Look at the account: the request took",
            "  effect once or never."]


def told_states(line: Line, replies: list[Reply]) -> int:
    """Prints which remade records have failed again, and returns 1 if there are any.

    A reply to a repeated request can be old: the record may have got and spoiled a card since."""
    remade = [one.request.members() for one in replies if one.members().get("result") == "waiting"]
    found = 0
    for batch in sorted({members["batch"] for members in remade}):
        try:
            states = record_states(line.read(f"/batch/{batch}/report"))
        except Stop as stop:
            note(f"the states of the records are not known: {stop}")
            continue
        for record in [one["record"] for one in remade if one["batch"] == batch]:
            if states.get(record) == "failed":
                found = 1
                print(f"record {record} of batch {batch}: failed again after this remake;")
                print("  to remake it once more, run the command again", flush=True)
    return found


def record_states(report: str) -> dict[str, str]:
    found = (line.split() for line in report.splitlines() if line.startswith("record "))
    return {words[1]: words[2] for words in found}


# ---- faults of a batch file
#
# The reply has the code and the row. This part finds the line, record, field and cause in the file.

FIELDS = ("record", "aid", "rank", "enc", "tol", "dgi")
FIELD_OF = {22: 6, 32: 1, 33: 2, 34: 3, 36: 6, 37: 6}


class Row(NamedTuple):
    """A row of a batch file. `line` is its first line."""

    number: int
    line: int
    fields: list[str]


def fault_lines(reply: Reply) -> list[str]:
    """Returns the line that locates the fault of a refused batch file."""
    code, row = reply.code(), reply.members().get("row")
    if row is None:
        return []
    raw = reply.request.body.encode("latin-1")
    found = {"row": row, **fault_in(raw, code, row)}
    return ["  " + ", ".join(f"{name} {value}" for name, value in found.items())]


def fault_in(raw: bytes, code: int, number: int) -> dict[str, object]:
    """Returns the line, record, field and cause of a fault of this row."""
    rows = {row.number: row for row in rows_of(raw)}
    if number not in rows:
        return {}
    row = rows[number]
    found: dict[str, object] = {"line": row.line}
    if number > 1:
        name = row.fields[0]
        found["record"] = f'"{name}"' if NAME.fullmatch(name) else f"of {len(name)} bytes"
    pair = conflict(list(rows.values()), row.fields[0], code) if code in (21, 22) else []
    if pair:
        found["rows"] = " and ".join(f"{one.number} (line {one.line})" for one in pair)
    if code == 30:
        found["fields"] = len(row.fields)
        found["cause"] = count_fault(row.fields)
    place = wrong_field(code, row, pair)
    if place:
        found["field"] = f"{place} ({FIELDS[place - 1]})"
        if code in FIELD_FAULTS:
            found["cause"] = FIELD_FAULTS[code](row.fields[place - 1])
    return found


def wrong_field(code: int, row: Row, pair: list[Row]) -> Optional[int]:
    """Returns the number of the field with the fault, if it is a single field."""
    if code == 21:
        return 4 if pair[0].fields[3] != pair[1].fields[3] else 5
    if code == 31 and len(row.fields) == len(FIELDS):
        names = zip(row.fields, FIELDS)
        return next((place for place, (one, name) in enumerate(names, 1) if one != name), None)
    if code == 35:
        return 5 if row.fields[3] in ("0", "1", "2") else 4
    return FIELD_OF.get(code)


def count_fault(fields: list[str]) -> str:
    """Returns the cause of fault 30."""
    if re.search("[;\t]", "".join(fields)):
        return "separate fields with commas"
    return "too few" if len(fields) < len(FIELDS) else "too many"


def rows_of(raw: bytes) -> Iterator[Row]:
    """Returns the rows, as docs/PROFILE.md defines them."""
    csv.field_size_limit(LARGEST_FILE)
    text = (raw[3:] if raw.startswith(b"\xef\xbb\xbf") else raw).decode("latin-1")
    reader = csv.reader(io.StringIO(text, newline=""))
    number, line = 0, 1
    try:
        for fields in reader:
            if fields:
                number += 1
                yield Row(number, line, fields)
            line = reader.line_num + 1
    except csv.Error:
        return


def conflict(rows: list[Row], record: str, code: int) -> list[Row]:
    """Returns the first two rows of a record with fault 21 or 22."""
    seen: dict[tuple[str, str], Row] = {}
    for row in rows[1:]:
        name, aid, rank, enc, tol, dgi = row.fields
        if name != record:
            continue
        key = aid.upper(), str(int(rank)) if code == 21 else dgi[:4].upper()
        other = seen.setdefault(key, row)
        if other is not row and (code == 22 or other.fields[3:5] != [enc, tol]):
            return [other, row]
    return []


def name_fault(text: str) -> str:
    """Returns the first cause of fault 32 that applies."""
    return "empty" if not text else "over 32 bytes" if len(text) > 32 else "character"


def aid_fault(text: str) -> str:
    """Returns the first cause of fault 33 that applies."""
    if not is_hex(text):
        return "not hexadecimal"
    return "under 5 bytes" if len(text) < 10 else "over 16 bytes"


def rank_fault(text: str) -> str:
    """Returns the first cause of fault 34 that applies."""
    if not re.fullmatch("[0-9]*", text):
        return "not decimal"
    return "empty" if not text else "over 3 digits" if len(text) > 3 else "0"


def grouping_fault(text: str) -> str:
    """Returns the first cause of fault 36 that applies."""
    if not is_hex(text):
        return "not hexadecimal"
    data = bytes.fromhex(text)
    if len(data) < 2:
        return "short identifier"
    is_long = data[2:3] == b"\xff"
    if len(data) < (5 if is_long else 3):
        return "short length"
    begin, count = (5, data[3] << 8 | data[4]) if is_long else (3, data[2])
    if count > 16_384:
        return "data over 16,384 bytes"
    return "short data" if len(data) - begin < count else "bytes after the grouping"


def is_hex(text: str) -> bool:
    return len(text) % 2 == 0 and re.fullmatch("[0-9A-Fa-f]*", text) is not None


def column_fault(text: str) -> str:
    """Returns the cause of fault 31."""
    return "not the name of the column"


def marks_fault(text: str) -> str:
    """Returns the cause of fault 21."""
    return "differs between the two rows"


FIELD_FAULTS = {
    21: marks_fault, 31: column_fault, 32: name_fault, 33: aid_fault, 34: rank_fault, 36: grouping_fault,
}


# ---- accounts

STATES = ("waiting", "running", "failed", "withdrawn", "good")
ACCOUNT = ("product", "records", *STATES, "sessions", "spoiled")
BLANKS = ("lots", "total", "free", "charged", "good", "running", "spoiled", "discarded")


def account_text(account: dict[str, Any]) -> str:
    lines = [f"batch      {account['batch']}", f"state      {closed_or_open(account)}"]
    return "\n".join([*lines, *(f"{name:<10} {account[name]}" for name in ACCOUNT)])


def closed_or_open(account: dict[str, Any]) -> str:
    return "closed" if account["closed"] else "open"


def blanks_text(account: dict[str, Any]) -> str:
    lines = [f"{name:<10} {account[name]}" for name in BLANKS]
    return "\n".join([f"product    {account['product']}", *lines])


def bar(account: dict[str, Any], width: int = 30) -> str:
    """Returns the progress of a batch: # for good or withdrawn records, x for failed ones."""
    records, failed = account["records"], account["failed"]
    done = account["good"] + account["withdrawn"]
    hashes = width * done // records
    crosses = width * (done + failed) // records - hashes
    drawn = "#" * hashes + "x" * crosses + "." * (width - hashes - crosses)
    counts = ", ".join(f"{account[name]} {name}" for name in reversed(STATES) if account[name])
    return f"{account['batch']} [{drawn}] {counts}"


def show(text: str, shown: str) -> None:
    """Prints a line of progress. On a terminal it replaces the previous line."""
    if text != shown and sys.stdout.isatty():
        print(f"\r{text:<{len(shown)}}", end="", flush=True)
    elif text != shown:
        print(text, flush=True)


def wait(line: Line, batch: str, seconds: float) -> int:
    """Shows the progress of a batch until no record is waiting or running."""
    shown = ""
    while True:
        account = line.account_now(f"/batch/{batch}")
        text = bar(account) if account else f"{batch}: no reply from {line.server}"
        show(text, shown)
        shown = text
        if account and account["waiting"] + account["running"] == 0:
            print(end="\n" if sys.stdout.isatty() else "")
            return told_end(account)
        time.sleep(seconds)


def told_end(account: dict[str, Any]) -> int:
    if account["failed"]:
        print(f"failed records: {account['failed']}; remake or withdraw them")
        return 1
    print("all records are good or withdrawn, and the batch is " + closed_or_open(account))
    return 0


# ---- subcommands


def product(office: Office, given: argparse.Namespace) -> int:
    settings = {"max": given.max, "low": given.low, "check": given.check}
    return office.call(("", body_of(do="product", product=given.product, **settings)))


def lot(office: Office, given: argparse.Namespace) -> int:
    if given.first + given.count - 1 > LARGEST_SERIAL:
        raise Stop(2, f"the last serial, FIRST + COUNT - 1, is above {LARGEST_SERIAL}")
    blanks = {"first": given.first, "count": given.count}
    return office.call(("", body_of(do="lot", lot=given.lot, product=given.product, **blanks)))


def batch(office: Office, given: argparse.Namespace) -> int:
    raw = given.file.read()
    if len(raw) > LARGEST_FILE:
        raise Stop(1, f"batch {given.batch}: refused 413 too-large. {sentence(413)}")
    status = office.call((f"/batch/{given.batch}/{given.product}", raw.decode("latin-1")))
    return waited(office, given, status)


def discard(office: Office, given: argparse.Namespace) -> int:
    return office.call(*(("", body_of(do="discard", blank=blank)) for blank in given.blank))


def withdraw(office: Office, given: argparse.Namespace) -> int:
    return office.call(*of_records("withdraw", given))


def remake(office: Office, given: argparse.Namespace) -> int:
    return waited(office, given, office.call(*of_records("remake", given)))


def of_records(do: str, given: argparse.Namespace) -> list[tuple[str, str]]:
    return [("", body_of(do=do, batch=given.batch, record=record)) for record in given.record]


def close(office: Office, given: argparse.Namespace) -> int:
    return office.call(("", body_of(do="close", batch=given.batch)))


def free(office: Office, given: argparse.Namespace) -> int:
    return office.free(given.machine)


def release(office: Office, given: argparse.Namespace) -> int:
    return office.call()


def waited(office: Office, given: argparse.Namespace, status: int) -> int:
    """Waits for a batch with --wait. Other calls may use the folder in the meantime."""
    if status or not given.wait:
        return status
    office.folder.held.close()
    return wait(office.line, given.batch, given.every)


def account(office: Office, given: argparse.Namespace) -> int:
    remind(office)
    if given.wait:
        return wait(office.line, given.batch, given.every)
    print(account_text(office.line.account(f"/batch/{given.batch}")))
    return 0


def blanks(office: Office, given: argparse.Namespace) -> int:
    remind(office)
    print(blanks_text(office.line.account(f"/blanks/{given.product}")))
    return 0


def report(office: Office, given: argparse.Namespace) -> int:
    remind(office)
    print(office.line.read(f"/batch/{given.batch}/report"), end="")
    return 0


def remind(office: Office) -> None:
    office.folder.read()
    if office.folder.pending:
        note(f"the requests of {office.folder.since} have no reply: run 'pending'")


def pending(office: Office, given: argparse.Namespace) -> int:
    if given.send or given.forget:
        office.folder.lock()
    office.folder.read()
    if office.folder.pending and given.send:
        return office.send() or 0
    for request in office.folder.pending:
        place = f"{office.folder.server} /c/{request.client}/{request.number}"
        print(f"{place}: {request.members()['do']}, {request.subject()}")
    if office.folder.pending and given.forget:
        office.folder.end()
        print("not sent again; each of these requests took effect once or never")
    elif not office.folder.pending:
        print("no request is pending")
    return 0


def explain(office: Office, given: argparse.Namespace) -> int:
    for code in given.code or sorted(REFUSALS):
        print(f"{code} {REFUSALS[code][0] if code in REFUSALS else '-'}: {sentence(code)}")
    return 0


# ---- arguments


def name_word(text: str) -> str:
    if not NAME.fullmatch(text):
        raise argparse.ArgumentTypeError(f"{text!r} is not 1 to 32 letters, digits, _ and -")
    return text


def number_word(least: int, most: int) -> Callable[[str], int]:
    def read(text: str) -> int:
        if not re.fullmatch(r"[0-9]{1,18}", text) or not least <= int(text) <= most:
            raise argparse.ArgumentTypeError(f"{text!r} is not a number from {least} to {most}")
        return int(text)

    return read


def seconds_word(text: str) -> float:
    is_number = re.fullmatch(r"[0-9]{1,4}(\.[0-9]{1,3})?", text)
    if not is_number or not 0.1 <= float(text) <= 3600:
        raise argparse.ArgumentTypeError(f"{text!r} is not a number from 0.1 to 3600")
    return float(text)


def common() -> argparse.ArgumentParser:
    """Returns the options of every subcommand."""
    words = argparse.ArgumentParser(add_help=False)
    server = os.environ.get("OFFICE_SERVER") or "http://127.0.0.1:8807"
    folder = os.environ.get("OFFICE_FOLDER") or "~/.persod-office"
    words.add_argument(
        "--server", default=server, metavar="URL",
        help="server or proxy, http://HOST:PORT or https://HOST:PORT "
        "(default: OFFICE_SERVER in the environment, or http://127.0.0.1:8807)")
    words.add_argument(
        "--folder", default=folder, metavar="PATH",
        help="state folder, created if it does not exist; one for each client name "
        "(default: OFFICE_FOLDER in the environment, or ~/.persod-office)")
    words.add_argument(
        "--client", type=name_word, default="office", metavar="NAME",
        help=f"client name of this office, {NAMES} (default: office)")
    words.add_argument(
        "--patience", type=number_word(1, 86_400), default=120, metavar="SECONDS",
        help="time for repeating a request without a reply, 1 to 86400 (default: 120)")
    words.add_argument(
        "--certificate", metavar="FILE",
        help="for https: certificate of the office and its key, in PEM (default: none)")
    words.add_argument(
        "--authority", metavar="FILE",
        help="for https: certificate of the CA, in PEM (default: those of the system)")
    return words


NAMES = "1 to 32 letters, digits, _ and -"
SERIALS = f"0 to {LARGEST_SERIAL}"


class Commands:
    """The subcommands, each with the common options."""

    def __init__(self) -> None:
        plain = argparse.RawDescriptionHelpFormatter
        self.words = argparse.ArgumentParser(description=__doc__, formatter_class=plain)
        self.places = self.words.add_subparsers(metavar="COMMAND", required=True)
        self.shared = [common()]

    def add(
        self, task: Callable[[Office, argparse.Namespace], int], does: str, *names: str
    ) -> argparse.ArgumentParser:
        """Adds a subcommand with these names as its first arguments."""
        text = does[0].upper() + does[1:] + "."
        found = self.places.add_parser(
            task.__name__, parents=self.shared, help=does, description=text)
        for one in names:
            found.add_argument(
                one, type=name_word, metavar=one.upper(), help=f"name of the {one}, {NAMES}")
        found.set_defaults(task=task)
        return found

    def add_waiting(
        self, task: Callable[[Office, argparse.Namespace], int], does: str, *names: str
    ) -> argparse.ArgumentParser:
        found = self.add(task, does, *names)
        found.add_argument(
            "--wait", action="store_true",
            help="show the progress of the batch until no record is waiting or running "
            "(default: off)")
        found.add_argument(
            "--every", type=seconds_word, default=1.0, metavar="SECONDS",
            help="time between two accounts with --wait, 0.1 to 3600 (default: 1)")
        return found


def add_set_up(commands: Commands) -> None:
    words = commands.add(product, "register a product", "product")
    words.add_argument(
        "--max", type=number_word(16, 255), default=255, metavar="N",
        help="maximum number of data bytes in a STORE DATA, 16 to 255 (default: 255)")
    words.add_argument(
        "--low", type=number_word(0, 31), default=0, metavar="N",
        help="bits 5 to 1 of P1, 0 to 31 (default: 0)")
    words.add_argument(
        "--check", action="store_true", help="turn on the EMV record check (default: off)")
    words = commands.add(lot, "register the blanks of a lot", "lot", "product")
    words.add_argument(
        "first", type=number_word(0, LARGEST_SERIAL), metavar="FIRST",
        help=f"serial of the first blank, {SERIALS}")
    words.add_argument(
        "count", type=number_word(1, MOST_BLANKS), metavar="COUNT",
        help=f"number of blanks, 1 to {MOST_BLANKS}")
    words = commands.add_waiting(batch, "import a batch file", "batch", "product")
    words.add_argument(
        "file", type=argparse.FileType("rb"), metavar="FILE",
        help=f"batch file, at most {LARGEST_FILE} bytes; - is standard input")


def add_changes(commands: Commands) -> None:
    words = commands.add(discard, "charge blanks that will not be used")
    words.add_argument(
        "blank", type=number_word(0, LARGEST_SERIAL), nargs="+", metavar="BLANK",
        help=f"serial of a bent or lost blank, {SERIALS}")
    for words in (
        commands.add_waiting(remake, "change failed records back to waiting", "batch"),
        commands.add(withdraw, "exclude records from production permanently", "batch"),
    ):
        words.add_argument(
            "record", type=name_word, nargs="+", metavar="RECORD",
            help=f"name of a record, {NAMES}")
    commands.add(close, "close a batch whose records are all good or withdrawn", "batch")
    commands.add(free, "end the session of a machine that is gone", "machine")
    commands.add(release, "release the earlier request numbers, as other requests do")


def add_reads(commands: Commands) -> None:
    commands.add_waiting(account, "print the account of a batch", "batch")
    commands.add(blanks, "print the account of a product's blanks", "product")
    commands.add(report, "print the report of a batch, with the states of records", "batch")
    words = commands.add(
        pending, "print the requests that have no reply, which the next call sends again")
    words = words.add_mutually_exclusive_group()
    words.add_argument("--send", action="store_true", help="send them again (default: off)")
    words.add_argument(
        "--forget", action="store_true", help="never send them again (default: off)")
    words = commands.add(explain, "print the meaning of refusals")
    words.add_argument(
        "code", type=number_word(1, 999), nargs="*", metavar="CODE",
        help="code of a refusal, 1 to 999 (default: all)")


def main() -> int:
    os.umask(0o077)
    commands = Commands()
    add_set_up(commands)
    add_changes(commands)
    add_reads(commands)
    given = commands.words.parse_args()
    try:
        return given.task(Office(given), given)
    except Stop as stop:
        note(str(stop))
        return stop.status
    except OSError as fault:
        note(str(fault))
        return 3
    except KeyboardInterrupt:
        return 130


if __name__ == "__main__":
    sys.exit(main())
