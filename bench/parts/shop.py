"""Simulates a card bureau by a seed: machines that make cards, an office that imports, remakes and closes, and a reader of accounts.

Each runs in its own thread. Each request is kept with its reply and with the positions of its connections among all connections, so that anew.py
can send it again in the order in which the requests were decided: a server accepts connections in the order in which they were made, and serves
one at a time."""
import json
import random
import threading
import time
from dataclasses import dataclass, field
from typing import Any, Callable, Optional

from make_batch import coded
from served import connect, get, imported, parts, received, request

HEADER = "record,aid,rank,enc,tol,dgi"
AIDS = ("F00000000101", "F0000000020202")
STARTS = 10_000_000
LOT = 1_000_000
PAUSE = 0.005
MOST = 1024, 4


@dataclass
class Sent:
    """A request or a GET, the positions of its connections, and the complete response once it has arrived."""

    client: str
    number: int
    message: bytes
    is_first: bool
    turns: list[int] = field(default_factory=list)
    decided: Optional[int] = None
    reply: Optional[bytes] = None

    def place(self) -> int:
        """Returns the connection in which the request was decided."""
        return self.turns[-1] if self.decided is None else self.decided


class Wrong(Exception):
    """A reply that can't be right."""


class Shop:
    """All connections to the server on `port`, and the batches that exist."""

    def __init__(self, port: int) -> None:
        self.port = port
        self.lock = threading.Lock()
        self.turns = 0
        self.sent: list[Sent] = []
        self.batches: list[str] = []
        self.is_over = threading.Event()
        self.wrong: list[str] = []

    def ask(self, client: str, number: int, message: bytes, is_first: bool = True) -> tuple[int, Any]:
        """Sends a request until a complete response other than 503 arrives. Returns its status, and its JSON object or the text of a report."""
        sent = Sent(client, number, message, is_first)
        with self.lock:
            self.sent.append(sent)
        while True:
            reply = self.once(sent)
            whole = parts(reply)
            if whole and whole[0] != 503:
                sent.reply = reply
                return whole[0], json.loads(whole[1]) if whole[1].startswith(b"{") else whole[1].decode()
            time.sleep(PAUSE)

    def once(self, sent: Sent) -> bytes:
        """Sends a request once. The message is sent before another connection is made, so it is served before the other, and its position is known."""
        try:
            with self.lock:
                peer = connect(self.port)
                self.turns += 1
                sent.turns.append(self.turns)
                peer.sendall(sent.message)
            with peer:
                return received(peer)
        except OSError:
            return b""

    def run(self, works: list[Callable[[], None]]) -> list[threading.Thread]:
        """Starts a thread for each of `works`, which repeats it until the run is over."""

        def work(once: Callable[[], None]) -> None:
            try:
                while not self.is_over.is_set():
                    once()
            except Exception as fault:  # noqa: BLE001 the main thread finds it in `wrong`
                self.wrong.append(repr(fault))
                self.is_over.set()

        threads = [threading.Thread(target=work, args=(once,)) for once in works]
        for thread in threads:
            thread.start()
        return threads


class Client:
    """A client with its own request numbers. It checks every reply."""

    def __init__(self, shop: Shop, name: str, seed: str) -> None:
        self.shop, self.name, self.draw = shop, name, random.Random(f"{seed}/{name}")
        self.number, self.mark = 0, 0
        self.replies: list[tuple[int, bytes, int, Any]] = []

    def ask(self, *codes: int, **members: Any) -> tuple[int, Any]:
        """Sends a request under the next number, and returns the reply. The request must be accepted, or refused with one of `codes`."""
        return self.send(request(self.name, self.number + 1, **members), codes)

    def send(self, message: bytes, codes: tuple[int, ...] = ()) -> tuple[int, Any]:
        self.number += 1
        status, reply = self.shop.ask(self.name, self.number, message)
        if status != 200 and (status != 409 or reply["code"] not in codes):
            raise Wrong(f"{message!r}: {status} {reply}")
        self.replies.append((self.number, message, status, reply))
        return status, reply

    def again(self) -> None:
        """Repeats an earlier request, or sends a different one under its number."""
        if not self.replies:
            return
        number, message, *first = self.draw.choice(self.replies[-50:])
        if self.draw.random() < 0.2:
            message, first = request(self.name, number, do="reset", again=1), [400, {"code": 400, "refused": "malformed"}]
            if self.draw.random() < 0.5:
                message, first = request(self.name, number, do="discard", blank=10**17), [409, {"code": 72, "refused": "number-reused"}]
        if number <= self.mark and first[0] != 400:
            first = [409, {"code": 73, "mark": self.mark, "refused": "number-released"}]
        if (came := list(self.shop.ask(self.name, number, message, is_first=False))) != first:
            raise Wrong(f"{message!r} repeated: {came}, expected {first}")

    def release(self, upto: int) -> None:
        self.mark = max(self.mark, upto)
        reply = self.ask(do="release", upto=upto)[1]
        if reply != {"mark": self.mark, "result": "released"}:
            raise Wrong(f"release of {upto}: {reply}")


class Machine(Client):
    """A machine that makes cards of any batch. Some status words spoil the card, some sessions are aborted, and sometimes the driver restarts."""

    def __init__(self, shop: Shop, name: str, seed: str, first: int, faults: float = 0.02) -> None:
        super().__init__(shop, name, seed)
        self.boot, self.blank, self.faults, self.good = 0, first, faults, 0

    def start(self) -> None:
        """Releases the numbers of earlier starts, and ends the running session."""
        self.boot += 1
        self.number = self.boot * STARTS
        self.release(self.number)
        self.ask(do="reset")

    def make(self) -> None:
        """Makes one card, unless no record of the batch is waiting."""
        if self.boot == 0:
            self.start()
        if not self.shop.batches:
            time.sleep(PAUSE)
            return
        batch = self.draw.choice(self.shop.batches)
        status, reply = self.ask(57, 62, do="open", batch=batch, blank=self.blank)
        if status == 409:
            time.sleep(PAUSE)
            return
        self.blank += 1
        index = 0
        while reply["result"] == "command":
            if reply["index"] != index:
                raise Wrong(f"{self.name}: {reply}, expected index {index}")
            reply = self.step(reply)
            index += 1
        self.good += reply["result"] == "good"

    def step(self, reply: Any) -> Any:
        pick = self.draw.random() / self.faults if self.faults else 9
        if pick < 1:
            return self.ask(do="abort", session=reply["session"])[1]
        if pick < 2:
            self.start()
            return {"result": "spoiled"}
        if pick < 6:
            self.again()
        word = "6A80" if pick < 3 else self.draw.choice(("9000", "9000", "6110", "61ff"))
        return self.ask(do="answer", session=reply["session"], index=reply["index"], sw=word)[1]


class Office(Client):
    """The office. It adds products and lots, imports batches (one in ten of the maximum size), remakes or withdraws failed records, discards
    blanks, and closes finished batches."""

    def __init__(self, shop: Shop, seed: str, machines: int, batches: int) -> None:
        super().__init__(shop, "office", seed)
        self.machines, self.left, self.blank = machines, batches, 0

    def work(self) -> None:
        if self.number == 0:
            self.stock()
        if self.left and (not self.shop.batches or self.draw.random() < 0.05):
            self.left -= 1
            self.bring(*(MOST if self.draw.random() < 0.1 else (self.draw.randint(1, 40), self.draw.randint(1, 6))))
        pick = self.draw.random()
        if pick < 0.1:
            self.ask(do="discard", blank=self.blank)
            self.blank += 1
        elif pick < 0.2:
            self.again()
        elif pick < 0.22:
            self.release(self.draw.randint(1, self.number))
        elif self.shop.batches:
            self.tend(self.draw.choice(self.shop.batches))
        time.sleep(PAUSE)

    def stock(self) -> None:
        """Adds product P1 with commands of 40 bytes, one lot for the office and one for each machine."""
        self.ask(do="product", product="P1", max=40, low=0, check=False)
        for lot in range(self.machines + 1):
            self.ask(do="lot", lot=f"L{lot}", product="P1", first=lot * LOT, count=LOT)

    def bring(self, records: int, rows: int) -> None:
        """Imports a batch of `records` records with `rows` rows each."""
        name = f"B{len(self.shop.batches) + 1}"
        self.send(imported(self.name, self.number + 1, name, "P1", batch_file(self.draw, records, rows)))
        self.shop.batches.append(name)

    def tend(self, batch: str) -> None:
        lines = self.shop.ask("", 0, get(f"/batch/{batch}/report"), is_first=False)[1].splitlines()
        if self.draw.random() < 0.02:
            self.ask(57, 70, do="close", batch=batch)
        failed = [line.split()[1] for line in lines if line.startswith("record ") and line.split()[2] == "failed"]
        for record in failed[:3]:
            self.ask(57, do=self.draw.choice(("remake", "remake", "withdraw")), batch=batch, record=record)


class Reader:
    """A client that reads accounts."""

    def __init__(self, shop: Shop, seed: str) -> None:
        self.shop, self.draw = shop, random.Random(f"{seed}/reader")

    def read(self) -> None:
        batch = self.draw.choice(self.shop.batches or ["B0"])
        target = self.draw.choice(("/blanks/P1", f"/batch/{batch}", f"/batch/{batch}/report", "/batch/none"))
        self.shop.ask("", 0, get(target), is_first=False)
        time.sleep(2 * PAUSE)


def batch_file(draw: random.Random, records: int, rows: int) -> bytes:
    """Returns a batch file of `records` records with `rows` rows each, with random data in one or two applications."""
    lines = [HEADER]
    for record in range(records):
        for row in range(rows):
            aid = AIDS[row % 2 if rows > 3 else 0]
            lines.append(f"R{record},{aid},1,0,0,{coded(f'{0x9001 + row:04X}', draw.randbytes(draw.randint(0, 60)))}")
    return ("\n".join(lines) + "\n").encode()
