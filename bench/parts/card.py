"""Simulates cards, and a magazine that feeds them into a reader of pcscd.

A reader is a port of vpcd (Debian's vsmartcard-vpcd). vpcd asks the card for its ATR, and sends
commands and power changes. Each message is its length in two bytes, followed by the bytes.

A card follows ISO/IEC 7816-4 and EMV CPS 1.1: a SELECT with an AID of 5 to 16 bytes, then STORE
DATA with ascending block numbers, until the highest bit of P1 is set. Then the data must consist
of complete groupings. A card records everything that happens to it."""
import collections
import pathlib
import select
import socket
import struct
import threading
import time
from typing import Callable, NamedTuple, Optional

OFF, ON, RESET, ATR = 0, 1, 2, 4
POWERS = {OFF: "off", ON: "on", RESET: "reset"}
GOOD, REJECTS, MAGAZINE = "good", "rejects", "magazine"
SELECT, STORE_DATA = bytes.fromhex("00A40400"), bytes.fromhex("80E2")
# pcscd checks a reader every 0.4 s. If a card is replaced faster, pcscd keeps the ATR of the
# previous card.
EMPTY = 1
MUTE = 2
Grouping = tuple[str, str]


class Event(NamedTuple):
    """An event of a card: `power`, `command` with its answer, or `tray`."""

    kind: str
    what: str
    answer: Optional[str] = None


def atr(serial: int, protocol: int) -> bytes:
    """Returns an ATR for T=0 or T=1 with the 18 digits of a serial as its historical bytes."""
    digits = bytes.fromhex(f"{serial:018}")
    if protocol == 0:
        return bytes([0x3B, len(digits)]) + digits
    body = bytes([0x80 | len(digits), 0x01]) + digits
    check = 0
    for byte in body:
        check ^= byte
    return b"\x3b" + body + bytes([check])


def groupings(data: bytes) -> Optional[list[Grouping]]:
    """Returns the groupings of an application as pairs of identifier and data, or None if one is
    incomplete."""
    found, at = [], 0
    while at < len(data):
        length, start = data[at + 2 : at + 3], at + 3
        if length == b"\xff":
            length, start = data[at + 3 : at + 5], at + 5
        end = start + int.from_bytes(length, "big")
        if max(start, end) > len(data):
            return None
        found.append((data[at : at + 2].hex().upper(), data[start:end].hex().upper()))
        at = end
    return found


class Card:
    """A card. `faults` maps a command (its index, from 0) or a movement to a fault:

    - a status word: the card returns it, whatever the command is
    - `short`: the card returns one byte
    - `mute`: the card doesn't answer, and is pulled out of the reader after some time
    - `pull`, `gone`: the card is pulled out before or after its answer
    - `driver`, `server`: the program is killed when the command arrives, before the answer. With
      `in`, `out` and `moved`, it is killed when the card is fed, before the card is moved to a
      tray, and after that

    A card with the fault `dead` at `in` returns no ATR."""

    def __init__(self, serial: int, protocol: int, faults: dict[object, str]) -> None:
        self.serial, self.protocol, self.faults = serial, protocol, faults
        self.events: list[Event] = []
        self.received: list[tuple[str, list[Grouping]]] = []
        self.met: list[str] = []
        self.count = 0
        self.rest()

    def rest(self) -> None:
        self.application, self.block, self.data, self.has_ended = b"", 0, b"", False

    def atr(self) -> bytes:
        return b"" if "dead at in" in self.met else atr(self.serial, self.protocol)

    def power(self, what: int) -> None:
        self.rest()
        self.events.append(Event("power", POWERS[what]))

    def fault(self, place: object) -> str:
        """Returns the fault at `place`, or "". Each fault happens once."""
        found = self.faults.pop(place, "")
        if found:
            self.met.append(found if isinstance(place, int) else f"{found} at {place}")
        return found

    def command(self, sent: bytes, kill: Callable[[str], None]) -> tuple[bytes, str]:
        """Returns the answer to a command, and its fault."""
        fault, answer = self.fault(self.count), self.by_rules(sent)
        self.count += 1
        if fault in ("driver", "server"):
            kill(fault)
        if fault and fault not in ("gone", "driver", "server"):
            answer = {"short": "90", "mute": "", "pull": ""}.get(fault, fault)
        self.events.append(Event("command", sent.hex().upper(), answer))
        return bytes.fromhex(answer), fault

    def by_rules(self, sent: bytes) -> str:
        """Returns the status word that the standards require."""
        data = sent[5:]
        if not data or len(data) != sent[4]:
            return "6700"
        if sent[:4] == SELECT:
            self.rest()
            self.application = data if 5 <= len(data) <= 16 else b""
            return "9000" if self.application else "6A80"
        if sent[:2] != STORE_DATA:
            return "6D00"
        if not self.application or self.has_ended:
            return "6985"
        if sent[3] != self.block:
            return "6A86"
        return self.store(sent[2], data)

    def store(self, control: int, data: bytes) -> str:
        self.block, self.data, self.has_ended = self.block + 1, self.data + data, control >= 0x80
        if self.has_ended:
            found = groupings(self.data)
            if found is None:
                return "6A80"
            self.received.append((self.application.hex().upper(), found))
        return "9000"


def exactly(link: socket.socket, count: int) -> bytes:
    """Reads exactly `count` bytes. Raises an error if the connection ends first."""
    data = b""
    while len(data) < count:
        piece = link.recv(count - len(data))
        if not piece:
            raise ConnectionResetError
        data += piece
    return data


def message(data: bytes) -> bytes:
    return struct.pack("!H", len(data)) + data


class Magazine(threading.Thread):
    """The cards of one machine, its reader, and its card handler on a Unix socket. `kill` ends the
    `driver` of this machine, or the `server`."""

    def __init__(
        self, port: int, path: pathlib.Path, cards: list[Card], kill: Callable[[str], None]
    ) -> None:
        super().__init__(daemon=True)
        self.port, self.kill, self.cards = port, kill, collections.deque(cards)
        self.card: Optional[Card] = None
        self.link: Optional[socket.socket] = None
        self.pulled = time.monotonic() - EMPTY
        self.handler = socket.socket(socket.AF_UNIX)
        self.handler.bind(str(path))
        self.handler.listen()
        self.drivers: list[socket.socket] = []

    # ---- the card handler

    def order(self, words: list[str]) -> str:
        """Executes an order of the driver, and returns the response line."""
        if words == ["next"]:
            return self.feed()
        [out, tray] = words
        assert out == "out" and tray in (GOOD, REJECTS, MAGAZINE)
        return self.move(tray)

    def feed(self) -> str:
        if self.card is None:
            if not self.cards:
                return "empty"
            self.card = self.cards.popleft()
        if self.link is None:
            time.sleep(max(0.0, self.pulled + EMPTY - time.monotonic()))
            self.link = socket.create_connection(("127.0.0.1", self.port))
            if self.card.fault("in") == "driver":
                self.kill("driver")
        return "in"

    def move(self, tray: str) -> str:
        card = self.card
        if card is None:
            return "none"
        if fault := card.fault("out"):
            self.kill(fault)
            raise ConnectionResetError
        card.events.append(Event("tray", tray))
        self.card = None
        if tray == MAGAZINE:
            self.cards.appendleft(card)
        self.pull()
        if fault := card.fault("moved"):
            self.kill(fault)
        return "out"

    def pull(self) -> None:
        if self.link is not None:
            self.link.close()
            self.pulled = time.monotonic()
        self.link = None

    # ---- the reader

    def from_reader(self, link: socket.socket) -> None:
        card = self.card
        assert card
        # vpcd sends the length and the bytes separately, and TCP would wait for an acknowledgement.
        link.setsockopt(socket.IPPROTO_TCP, socket.TCP_QUICKACK, 1)
        data = exactly(link, *struct.unpack("!H", exactly(link, 2)))
        if data == bytes([ATR]):
            link.sendall(message(card.atr()))
        elif len(data) == 1:
            card.power(data[0])
        else:
            answer, fault = card.command(data, self.kill)
            if answer:
                link.sendall(message(answer))
            elif fault == "mute":
                time.sleep(MUTE)
            if fault in ("mute", "pull", "gone"):
                self.pull()

    # ---- the loop

    def run(self) -> None:
        while True:
            sources = [self.handler, *self.drivers, *([self.link] if self.link else [])]
            for ready in select.select(sources, [], [])[0]:
                if ready is self.handler:
                    self.drivers.append(self.handler.accept()[0])
                elif ready in self.drivers:
                    self.from_driver(ready)
                elif ready is self.link:
                    try:
                        self.from_reader(ready)
                    except OSError:
                        self.pull()

    def from_driver(self, driver: socket.socket) -> None:
        try:
            text = driver.recv(100).decode()
            if text:
                driver.sendall(f"{self.order(text.split())}\n".encode())
                return
        except OSError:
            pass
        self.drivers.remove(driver)
        driver.close()
