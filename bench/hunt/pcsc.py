#!/usr/bin/env python3
"""Makes 50 cards by bench/demo/driver_pcsc.py over pcscd, in two virtual readers.

    bench/run pcsc [--cards N] [--seed N]

Two machines share a batch of realistic records. Their cards use T=0 and T=1 in turn. Some cards
answer 61XX, spoil their session, are mute, or are pulled out before or after an answer. Some
can't be read, and some belong to no lot or to another product, or are discarded. The server and
the drivers are killed at random, and at chosen commands and moves of a card. Replies are lost.
The office remakes each failed record, until all records are good.

Then each card is judged by what it received:

- A good card received exactly the commands of one record, in order, and has the data of this record
  in the batch file. No record has two good cards, and the trays agree with the server.
- Any other card with a session received the first commands of a record, and is among the rejects.
- A card without a session received nothing, and can be fed again unless it is a stray one.
- `shopbook`, the report and the accounts agree with the trays about each blank.

At the end the script plants faults in the evidence, and the judge must find each of them.

Requires Debian's pcscd, libpcsclite1, vsmartcard-vpcd and iproute2, and root or user namespaces.
Everything runs in its own namespaces, because vpcd accepts cards from the network. Exit status:
1 if there is a fault; 77 if something is missing, and ./soak then prints `skipped`."""
import _thread
import argparse
import atexit
import ctypes
import os
import pathlib
import random
import shutil
import signal
import subprocess
import sys
import tempfile
import threading
import time
from collections import Counter
from typing import Any, Optional

from card import GOOD, Card, Magazine
from make_batch import card as record_rows
from pcsc_judge import (
    Evidence, blanks_of, judged, overlooked, plans_of, rows_of, sessions_of, tray_of
)
from served import Server, free_port, get, imported
from shop import HEADER, Client, Shop
from winscard import Failed, Reader

SKIPPED = 77
IN_NAMESPACE = "--in-namespace"
PATH = f"{os.environ.get('PATH', '')}:/usr/sbin:/sbin"
VPCD = pathlib.Path("/usr/lib/pcsc/drivers/serial/libifdvpcd.so")
DRIVER = pathlib.Path(__file__).resolve().parents[1] / "demo" / "driver_pcsc.py"
READER = "Virtual reader"
PORT = 35963
CONFIGURATION = f"""FRIENDLYNAME "{READER}"
DEVICENAME /dev/null:{PORT}
LIBPATH {VPCD}
CHANNELID {PORT}
"""
# One reader of vpcd has two slots. Several readers would share their slots.
MACHINES = 2
FIRST, FOREIGN, UNKNOWN = 1000, 500_000, 900_000
BLANKS = 30, 4  # in each magazine, and in addition for each good card
LOSE = 15
SECONDS = 900
STOPS = ("6A80", "6283", "6F00", "6C05", "6985")


# ---- requirements


def lacking() -> list[str]:
    """Returns what this machine lacks."""
    found = [name for name in ("pcscd", "ip", "unshare") if not shutil.which(name, path=PATH)]
    found += [] if VPCD.exists() else ["vpcd"]
    try:
        ctypes.CDLL("libpcsclite.so.1")
    except OSError:
        found.append("libpcsclite.so.1")
    if not found and subprocess.run([*namespaces(), "true"], capture_output=True).returncode:
        found.append("root or user namespaces")
    return found


def namespaces() -> list[str]:
    """Returns the command that gives a program its own network, mounts and processes, which end
    with it."""
    mapped = [] if os.geteuid() == 0 else ["--map-root-user"]
    return ["unshare", "--net", "--mount", "--pid", "--fork", "--kill-child", *mapped]


def prepare() -> None:
    """Sets up loopback, and a folder for the socket of pcscd."""
    for words in (("ip", "link", "set", "lo", "up"), ("mount", "-t", "tmpfs", "pcsc", "/run")):
        subprocess.run(words, check=True, env={**os.environ, "PATH": PATH})
    pathlib.Path("/run/pcscd").mkdir()


# ---- the shop


class Floor:
    """Shared by all parts."""

    def __init__(self, given: argparse.Namespace, folder: pathlib.Path) -> None:
        self.persod, self.seed, self.folder = given.persod, given.seed, folder
        self.database, self.port = folder / "shop.db", free_port()
        self.is_over, self.counts, self.wrong = threading.Event(), Counter(), []

    def draw(self, *words: object) -> random.Random:
        return random.Random("/".join(map(str, (self.seed, *words))))


class Keeper(threading.Thread):
    """Starts the server again whenever it exits."""

    def __init__(self, floor: Floor) -> None:
        super().__init__(daemon=True)
        self.floor, self.server = floor, Server(floor.persod, floor.database, floor.port)
        self.has_ended, self.is_up = False, threading.Event()
        self.is_up.set()

    def run(self) -> None:
        while not self.has_ended:
            _, errors = self.server.process.communicate()
            self.is_up.clear()
            status = self.server.process.returncode
            if status != -9:
                print(f"the server: status {status}, {errors.decode()}", file=sys.stderr)
                return _thread.interrupt_main()
            if not self.has_ended:
                self.server = Server(self.floor.persod, self.floor.database, self.floor.port)
                self.is_up.set()

    def kill(self) -> None:
        """Kills the server, unless it is still starting."""
        if self.is_up.is_set():
            self.is_up.clear()
            self.floor.counts["kills of the server"] += 1
            self.server.process.kill()

    def stop(self) -> None:
        self.is_up.wait()
        self.has_ended = True
        self.server.process.kill()
        self.join()


class Station(threading.Thread):
    """A machine: its magazine, its reader, and its driver, which is started again and again."""

    def __init__(self, floor: Floor, place: int, cards: list[Card], keeper: Keeper) -> None:
        super().__init__(daemon=True)
        self.floor, self.machine, self.keeper = floor, f"m{place + 1}", keeper
        self.process: Optional[subprocess.Popen[bytes]] = None
        handler = floor.folder / f"{self.machine}.handler"
        self.magazine = Magazine(PORT + place, handler, cards, self.kill)
        words = [floor.port, self.machine, "B1", reader_name(place), handler, "--lose", LOSE]
        words += ["--state", floor.folder / f"{self.machine}.state"]
        self.words = [sys.executable, "-B", str(DRIVER), *map(str, words)]

    def kill(self, what: str) -> None:
        """Kills the server, or this driver."""
        if what == "server":
            return self.keeper.kill()
        if self.process and self.process.poll() is None:
            self.floor.counts["kills of a driver"] += 1
            self.process.kill()
            self.process.wait()

    def run(self) -> None:
        """Starts drivers until one exits by itself after all records are good."""
        self.magazine.start()
        said = self.floor.folder / f"{self.machine}.said"
        while not self.floor.wrong:
            is_last = self.floor.is_over.is_set()
            with said.open("ab") as output:
                self.process = subprocess.Popen(self.words, stdout=output, stderr=output)
                status = self.process.wait()
            self.floor.counts["starts of a driver"] += 1
            self.look_at(status, said.read_text().splitlines()[-5:])
            if status == 0 and is_last:
                return
            if not self.magazine.cards and not is_last:
                self.floor.wrong.append(f"{self.machine}: no cards are left")
            time.sleep(0.3 if status == 0 else 0)

    def look_at(self, status: int, lines: list[str]) -> None:
        """Checks the exit of a driver and the last lines that it printed. On a slow machine 100
        tries may pass while the server starts."""
        if status == 1 and ": no reply to number " in lines[-1]:
            self.floor.counts["drivers without a reply"] += 1
        elif status not in (0, -9) or not self.magazine.is_alive():
            self.floor.wrong.append("\n".join([f"{self.machine}: status {status}", *lines]))


def reader_name(place: int) -> str:
    return f"{READER} 00 {place:02}"


def faults_of(draw: random.Random) -> dict[object, str]:
    """Returns the faults of a card. A third of the cards have none. Many answer 61XX."""
    faults: dict[object, str] = {place: "6110" for place in range(60) if draw.random() < 0.1}
    place, pick = draw.choice((0, 1, 2, 3, draw.randrange(40))), draw.random()
    if pick < 0.12:
        faults[place] = draw.choice(STOPS)
    elif pick < 0.32:
        faults[place] = draw.choice(("pull", "gone", "short", "mute"))
    elif pick < 0.5:
        faults[place] = draw.choice(("driver", "server"))
    elif pick < 0.66:
        faults[draw.choice(("in", "out", "moved"))] = "driver"
    return faults


def cards_for(floor: Floor, place: int, count: int) -> list[Card]:
    """Returns the cards of a machine. One in twelve is a stray one or can't be read."""
    cards = []
    for number in range(count):
        draw, serial = floor.draw("card", place, number), FIRST + place * count + number
        faults = faults_of(draw)
        if number % 12 == 5:
            serial = draw.choice((FOREIGN, UNKNOWN)) + place * count + number
            faults = {}
        elif number == 10:
            faults = {"in": "dead"}
        cards.append(Card(serial, number % 2, faults))
    return cards


def batch_of(floor: Floor, records: int) -> str:
    lines = [HEADER]
    for place in range(1, records + 1):
        draw = floor.draw("record", place)
        lines += record_rows(draw, f"R{place}", draw.choice((1, 2)))
    return "".join(f"{line}\n" for line in lines)


class Bureau:
    """The server, the office and the machines, with all cards."""

    def __init__(self, given: argparse.Namespace, floor: Floor) -> None:
        self.given, self.floor, self.keeper = given, floor, Keeper(floor)
        each = BLANKS[0] + BLANKS[1] * given.cards
        self.blanks = MACHINES * each
        magazines = [cards_for(floor, place, each) for place in range(MACHINES)]
        self.cards = [card for cards in magazines for card in cards]
        self.discarded = {cards[8].serial for cards in magazines}
        self.batch = batch_of(floor, given.cards)
        self.office = Client(Shop(floor.port), "office", str(given.seed))
        self.stations = [
            Station(floor, place, cards, self.keeper) for place, cards in enumerate(magazines)
        ]

    def stock(self) -> None:
        ask = self.office.ask
        for product, lot, first in (("P1", "L1", FIRST), ("P2", "L2", FOREIGN)):
            ask(do="product", product=product, max=255, low=0, check=True)
            ask(do="lot", lot=lot, product=product, first=first, count=self.blanks)
        for blank in sorted(self.discarded):
            ask(do="discard", blank=blank)
        number = self.office.number + 1
        self.office.send(imported("office", number, "B1", "P1", self.batch.encode()))

    def read(self, target: str) -> Any:
        """Returns an account, or the text of a report."""
        return self.office.shop.ask("", 0, get(target), is_first=False)[1]

    def records(self) -> list[list[str]]:
        """Returns the records of the close report: name, state, sessions, blank."""
        lines = self.read("/batch/B1/report").splitlines()
        return [line.split(" ")[1:] for line in lines if line.startswith("record ")]

    def make_all(self) -> None:
        """Remakes failed records, and kills at random, until all records are good."""
        draw, end = self.floor.draw("kills"), time.monotonic() + SECONDS
        next_kill = time.monotonic() + draw.uniform(2, 6)
        while not self.floor.wrong:
            records = self.records()
            if all(state == "good" for _, state, *_ in records):
                return
            for record, state, *_ in records:
                if state == "failed":
                    self.office.ask(do="remake", batch="B1", record=record)
                    self.floor.counts["remakes"] += 1
            if time.monotonic() > end:
                self.floor.wrong.append(f"after {SECONDS} s some records aren't good: {records}")
            if time.monotonic() > next_kill:
                draw.choice(self.stations).kill(draw.choice(("driver", "server")))
                next_kill = time.monotonic() + draw.uniform(2, 6)
            time.sleep(0.2)

    def run(self) -> Evidence:
        """Makes all cards. Returns what they received, and what the server and `shopbook` say."""
        self.keeper.start()
        self.stock()
        for station in self.stations:
            station.start()
        self.make_all()
        self.floor.is_over.set()
        for station in self.stations:
            station.join()
        if self.floor.wrong:
            sys.exit("\n".join(self.floor.wrong))
        report = {record: int(blank) for record, _, _, blank in self.records() if blank != "-"}
        account, batch = self.read("/blanks/P1"), self.read("/batch/B1")
        self.keeper.stop()
        blanks, sums = blanks_of(self.book("blanks", "--product", "P1"))
        strays = {card.serial for card in self.cards if card.serial >= FOREIGN}
        return Evidence(
            cards=self.cards,
            rows=rows_of(self.batch),
            plans=plans_of(self.given.persod, self.batch),
            strays=strays | self.discarded,
            unread={card.serial for card in self.cards if "dead at in" in card.met},
            discarded=self.discarded,
            total=self.blanks,
            sessions=sessions_of(self.book("cards", "--batch", "B1")),
            blanks=blanks,
            report=report,
            accounts=[account, sums],
            batch=batch,
        )

    def book(self, *words: str) -> list[list[str]]:
        """Returns the lines of a subcommand of `shopbook`, split into columns."""
        command = [self.given.shopbook, words[0], "--db", str(self.floor.database), *words[1:]]
        printed = subprocess.run(command, capture_output=True, text=True, check=True).stdout
        return [line.split(" ") for line in printed.splitlines()]


# ---- the run


def start_pcscd(folder: pathlib.Path) -> subprocess.Popen[bytes]:
    """Starts pcscd, and waits until it knows the readers."""
    readers = folder / "readers"
    readers.mkdir()
    (readers / "vpcd").write_text(CONFIGURATION)
    words = [shutil.which("pcscd", path=PATH) or "", "--foreground", "--critical", "--config"]
    process = subprocess.Popen([*words, str(readers)], stdin=subprocess.DEVNULL)
    atexit.register(process.kill)
    for _ in range(100):
        time.sleep(0.1)
        try:
            for place in range(MACHINES):
                Reader(reader_name(place)).is_present()
            return process
        except Failed as wrong:
            why = wrong
    sys.exit(f"pcscd: {why}")


def run(given: argparse.Namespace, folder: pathlib.Path) -> int:
    begun, floor = time.monotonic(), Floor(given, folder)
    pcscd = start_pcscd(folder)
    evidence = Bureau(given, floor).run()
    pcscd.kill()
    return judge(floor, evidence, time.monotonic() - begun)


def judge(floor: Floor, evidence: Evidence, seconds: float) -> int:
    """Prints the figures and all faults."""
    met = Counter(fault for card in evidence.cards for fault in card.met)
    moved = Counter(
        event.what for card in evidence.cards for event in card.events if event.kind == "tray"
    )
    commands = [e for card in evidence.cards for e in card.events if e.kind == "command"]
    good = [card for card in evidence.cards if tray_of(card) == GOOD]
    figures = {
        "good cards with T=0": sum(card.protocol == 0 for card in good),
        "good cards with T=1": sum(card.protocol == 1 for card in good),
        **{f"moves to {tray}": count for tray, count in sorted(moved.items())},
        "commands that cards received": len(commands),
        **floor.counts,
        **{f"cards with {fault}": count for fault, count in sorted(met.items())},
        "seconds": round(seconds),
    }
    for what, count in figures.items():
        print(f"{count:>8}  {what}")
    faults = judged(evidence)
    faults += [f"the judge overlooks {name}" for name in overlooked(evidence)] if not faults else []
    for fault in faults:
        print("FAULT", fault)
    print(f"{len(faults)} faults" if faults else "no faults, and the judge finds planted ones")
    return 1 if faults else 0


def main() -> int:
    words = argparse.ArgumentParser(
        description=__doc__, formatter_class=argparse.RawDescriptionHelpFormatter
    )
    words.add_argument("persod")
    words.add_argument("shopbook")
    words.add_argument("--cards", type=int, default=50)
    words.add_argument("--seed", type=int, default=1)
    words.add_argument(IN_NAMESPACE, action="store_true")
    given = words.parse_args()
    if given.in_namespace:
        signal.signal(signal.SIGTERM, lambda *_: os._exit(143))
        prepare()
        os.environ.pop("PERSOD_LOG", None)
        with tempfile.TemporaryDirectory() as folder:
            return run(given, pathlib.Path(folder))
    if missing := lacking():
        needs = "Debian's pcscd, libpcsclite1, vsmartcard-vpcd and iproute2"
        print(f"pcsc: {', '.join(missing)} missing; it needs {needs}", file=sys.stderr)
        return SKIPPED
    inside = [*namespaces(), sys.executable, "-B", __file__, *sys.argv[1:], IN_NAMESPACE]
    return subprocess.run(inside).returncode


if __name__ == "__main__":
    sys.exit(main())
