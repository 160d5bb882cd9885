#!/usr/bin/env python3
"""Makes 1,000 cards with `persod feed` over an unreliable network, with kills and power failures.

    bench/run floor [--seed N] [--cards N] [--machines N]

A simulated network connects 20 machines and the server. The seed decides the fate of each message. It passes, is lost, arrives twice, arrives
late (instead of the message or in addition to it), is cut, or its reply is lost or cut. The server is killed while it handles messages, and also
exits after a number of connections. It is always started again on its file. Machines lose power, and restart with their next boot number. The
inserted card is then removed or inserted again. An office uses the same network to remake failed records, until each record of the batch has its
good card.

At the end the script compares the output of the machines with the report, the accounts, and the rows of the file. Exit status: 1 if they
disagree.

Two runs with the same seed differ, because the order of threads isn't fixed, but each message has the same fate.
"""
import argparse
import json
import os
import pathlib
import random
import socket
import sqlite3
import subprocess
import sys
import tempfile
import threading
import time
from collections import Counter, defaultdict

from make_batch import coded
from served import post

AIDS = ("F00000000101", "F0000000020202")
MOST = 32
TURNS = 700
TAKEN = 12
# per 1,000 messages
FATES = {"lost": 30, "reply lost": 30, "twice": 30, "late": 20, "late again": 30, "cut": 15, "reply cut": 15, "slow": 30}
KILLS = 6
STOPS = ("6A80", "6283", "6F00", "6A88")
# Blanks per record. Near the end few records wait, and a machine rejects each card that is inserted while none waits.
BLANKS = 40


class Floor:
    """Shared by all parts: the seed, the folder, counters, and whether the run is over."""

    def __init__(self, chosen: argparse.Namespace, folder: pathlib.Path) -> None:
        self.seed, self.cards, self.machines, self.persod = chosen.seed, chosen.cards, chosen.machines, str(chosen.program)
        self.folder, self.file, self.port = folder, str(folder / "shop.db"), free_port()
        self.counts: Counter = Counter()
        self.lock, self.over = threading.Lock(), threading.Event()
        self.serials = iter(range(1000, 1000 + BLANKS * self.cards))

    def draw(self, *words: object) -> random.Random:
        return random.Random("/".join(map(str, (self.seed, *words))))

    def count(self, what: str) -> None:
        with self.lock:
            self.counts[what] += 1

    def take(self, count: int) -> list[int]:
        with self.lock:
            return [serial for serial, _ in zip(self.serials, range(count))]


def free_port() -> int:
    with socket.create_server(("127.0.0.1", 0)) as taken:
        return taken.getsockname()[1]


# ---- the server


class Server(threading.Thread):
    """Starts `persod serve` again whenever it ends, until it is stopped."""

    def __init__(self, floor: Floor) -> None:
        super().__init__()
        self.floor, self.process, self.faults = floor, None, []
        self.ended, self.is_up = False, threading.Event()

    def run(self) -> None:
        words = [self.floor.persod, "serve", "--db", self.floor.file, "--port", str(self.floor.port), "--turns", str(TURNS)]
        while not self.ended:
            self.process = subprocess.Popen(words, stdout=subprocess.PIPE, stderr=subprocess.PIPE, text=True)
            if self.process.stdout.readline().startswith("listening"):
                self.is_up.set()
            _, errors = self.process.communicate()
            self.is_up.clear()
            self.floor.count("starts of the server")
            if self.process.returncode not in (0, -9):
                self.faults.append(f"the server exited with {self.process.returncode}, {errors.strip()}")
                self.ended = True

    def kill(self) -> None:
        if self.is_up.is_set():
            self.floor.count("kills of the server")
            self.process.kill()

    def stop(self) -> None:
        self.ended = True
        self.process.kill()
        self.join()


# ---- the network


def read_message(link: socket.socket) -> bytes:
    """Reads a message of the length that its head gives. Returns nothing if it is incomplete."""
    text = b""
    while piece := link.recv(65_536):
        text += piece
        head, end, body = text.partition(b"\r\n\r\n")
        if end and len(body) >= length_of(head):
            return text
    return b""


def length_of(head: bytes) -> int:
    lines = [line.partition(b":") for line in head.lower().split(b"\r\n")]
    return next((int(value) for name, _, value in lines if name == b"content-length"), 0)


def exchanged(port: int, message: bytes) -> bytes:
    """Returns the response: empty if no server listens, and a prefix if it is cut."""
    reply = b""
    try:
        with socket.create_connection(("127.0.0.1", port), timeout=60) as link:
            link.sendall(message)
            link.shutdown(socket.SHUT_WR)
            while piece := link.recv(65_536):
                reply += piece
    except OSError:
        pass
    return reply


class Network(threading.Thread):
    """Accepts each message on its own connection, and treats it as the seed decides."""

    def __init__(self, floor: Floor, server: Server) -> None:
        super().__init__(daemon=True)
        self.floor, self.server = floor, server
        self.listener = socket.create_server(("127.0.0.1", 0), backlog=256)
        self.port = self.listener.getsockname()[1]
        self.tries: Counter = Counter()
        self.later: list[threading.Timer] = []

    def run(self) -> None:
        while True:
            link, _ = self.listener.accept()
            threading.Thread(target=self.carry, args=[link], daemon=True).start()

    def carry(self, link: socket.socket) -> None:
        with link:
            try:
                message = read_message(link)
                reply = self.reply_to(message) if message else b""
                link.sendall(reply)
            except OSError:
                pass

    def reply_to(self, message: bytes) -> bytes:
        target = message.split(b" ")[1].decode()
        with self.floor.lock:
            self.tries[target] += 1
            draw = self.floor.draw(target, self.tries[target])
        [fate] = draw.choices(["passes", *FATES], [1_000 - sum(FATES.values()), *FATES.values()])
        self.floor.count(fate)
        if draw.randrange(1_000) < KILLS:
            self.after(draw.uniform(0, 0.02), self.server.kill)
        if fate == "lost":
            return b""
        if fate in ("late", "late again"):
            self.after(draw.uniform(0.05, 5), lambda: self.arrive_late(message))
        if fate == "late":
            return b""
        if fate == "twice":
            exchanged(self.floor.port, message)
        if fate == "slow":
            time.sleep(draw.uniform(0.05, 0.5))
        reply = exchanged(self.floor.port, message[: draw.randrange(len(message))] if fate == "cut" else message)
        if fate == "reply cut":
            return reply[: draw.randrange(len(reply) + 1)]
        return b"" if fate == "reply lost" else reply

    def arrive_late(self, message: bytes) -> None:
        if b'"number-released"' in exchanged(self.floor.port, message):
            self.floor.count("late messages with a released number")

    def after(self, seconds: float, task) -> None:
        timer = threading.Timer(seconds, task)
        self.later.append(timer)
        timer.start()

    def settle(self) -> None:
        for timer in self.later:
            timer.join()


# ---- the office


class Office:
    """Repeats each request under the same number until a complete reply arrives."""

    def __init__(self, port: int) -> None:
        self.port, self.number = port, 0

    def ask(self, request: dict) -> tuple[int, dict]:
        self.number += 1
        status, text = self.reply_to(post("office", self.number, json.dumps(request)))
        return status, json.loads(text)

    def put_in(self, tail: str, text: str) -> tuple[int, dict]:
        self.number += 1
        status, text = self.reply_to(post("office", self.number, text, tail))
        return status, json.loads(text)

    def look(self, target: str) -> str:
        return self.reply_to(f"GET {target} HTTP/1.1\r\nHost: localhost\r\n\r\n".encode())[1]

    def reply_to(self, message: bytes) -> tuple[int, str]:
        for tried in range(200):
            if (answer := self.one_try(message)) and answer[0] != 503:
                return answer
            time.sleep(min(0.01 * 2**tried, 0.5))
        sys.exit("the office got no reply")

    def one_try(self, message: bytes) -> tuple[int, str] | None:
        head, _, body = exchanged(self.port, message).partition(b"\r\n\r\n")
        if body and len(body) == length_of(head):
            return int(head.split(b" ")[1]), body.decode()
        return None


def stock(floor: Floor, office: Office, batch: str) -> None:
    half = BLANKS // 2 * floor.cards
    asked = [
        office.ask({"do": "product", "product": "P1", "max": MOST, "low": 0, "check": False}),
        office.ask({"do": "lot", "lot": "L1", "product": "P1", "first": 1000, "count": half}),
        office.ask({"do": "lot", "lot": "L2", "product": "P1", "first": 1000 + half, "count": half}),
        office.put_in("/batch/B1/P1", batch),
    ]
    if any(status != 200 for status, _ in asked):
        sys.exit(f"the set-up was refused: {asked}")


def remake_all(floor: Floor, office: Office) -> None:
    """Remakes failed records until each record is good."""
    while True:
        states = [line.split(" ") for line in office.look("/batch/B1/report").splitlines() if line.startswith("record ")]
        if all(state[2] == "good" for state in states):
            break
        for state in states:
            if state[2] == "failed":
                office.ask({"do": "remake", "batch": "B1", "record": state[1]})
                floor.count("remakes")
        time.sleep(0.5)
    floor.over.set()


# ---- machines


class Machine(threading.Thread):
    """Feeds a few cards with each boot number. Keeps the output for each card."""

    def __init__(self, floor: Floor, name: str, port: int) -> None:
        super().__init__()
        self.floor, self.machine, self.port, self.boot = floor, name, port, 0
        self.applied: dict[int, list[tuple[str, str]]] = defaultdict(list)
        self.ends: dict[int, list[str]] = defaultdict(list)
        self.faults: list[str] = []

    def run(self) -> None:
        left: list[int] = []
        while not self.floor.over.is_set() and not self.faults:
            left += self.floor.take(TAKEN - len(left))
            if not left:
                self.faults.append(f"{self.machine}: no cards are left")
            left = self.feed(left)

    def feed(self, serials: list[int]) -> list[int]:
        """Starts with the next boot number. Returns the cards to insert after it."""
        self.boot += 1
        draw = self.floor.draw(self.machine, "boot", self.boot)
        words = ["feed", "--port", str(self.port), "--machine", self.machine, "--boot", str(self.boot), "--batch", "B1"]
        printed = self.floor.folder / f"{self.machine}-{self.boot}.txt"
        with printed.open("wb") as output:
            process = subprocess.Popen([self.floor.persod, *words], stdin=subprocess.PIPE, stdout=output, stderr=subprocess.PIPE, text=True)
            power = threading.Timer(draw.uniform(0.1, 6), process.kill) if draw.random() < 0.3 else None
            if power:
                power.start()
            _, errors = process.communicate("".join(self.line(serial) for serial in serials))
            if power:
                power.cancel()
        self.floor.count("boots")
        self.count_end(process.returncode, errors)
        return self.left_of(serials, printed.read_text(), draw)

    def line(self, serial: int) -> str:
        """Returns a card and its status words. With most of them the card becomes good."""
        draw = self.floor.draw("card", serial)
        words = [draw.choice(("9000", "9000", "9000", "6110")) for _ in range(draw.randrange(5))]
        if draw.random() < 0.08:
            words.append(draw.choice(STOPS))
        return " ".join([str(serial), *words]) + "\n"

    def count_end(self, status: int, errors: str) -> None:
        if status == -9:
            self.floor.count("power failures")
        elif (status, errors) == (3, "device\n"):
            self.floor.count("feeds that ended after ten tries without a reply")
        elif status != 0 or errors:
            self.faults.append(f"{self.machine}, boot {self.boot}: status {status}, {errors.strip()}")

    def left_of(self, serials: list[int], printed: str, draw: random.Random) -> list[int]:
        """Keeps the output. Half of the cards that were inserted are inserted again."""
        ended, was_in = set(), None
        for line in printed.splitlines():
            serial, *words = line.split(" ")
            if len(words) == 1:
                self.ends[int(serial)].append(words[0])
                ended.add(int(serial))
                was_in = None
            else:
                self.applied[int(serial)].append((words[0], words[1]))
                was_in = int(serial)
        if was_in is not None:
            self.floor.count("cards inserted when a machine stopped")
            if draw.random() < 0.5:
                ended.add(was_in)
        return [serial for serial in serials if serial not in ended]


# ---- the comparison


def batch_of(floor: Floor) -> str:
    """Returns a batch file whose records have two to four groupings for one or two applications."""
    lines = ["record,aid,rank,enc,tol,dgi"]
    for place in range(floor.cards):
        draw = floor.draw("record", place)
        for row in range(draw.randint(2, 4)):
            aid, rank = draw.choice(AIDS), draw.choice((1, 2))
            grouping = coded(f"90{row + 1:02X}", draw.randbytes(draw.randint(1, 60)))
            lines.append(f"R{place + 1},{aid},{rank},{rank - 1},{rank - 1},{grouping}")
    return "\n".join(lines) + "\n"


def planned(floor: Floor, batch: str) -> dict[str, list[str]]:
    """Returns the commands of each record, as `persod plan` prints them."""
    printed = subprocess.run([floor.persod, "plan", "--max", str(MOST)], input=batch, capture_output=True, text=True, check=True).stdout
    plans: dict[str, list[str]] = {}
    for line in printed.splitlines():
        if line.startswith("record "):
            commands = plans.setdefault(line.split(" ")[1], [])
        else:
            commands.append(line)
    return plans


class Outcome:
    """The output of all machines for each card, and the server's report, accounts and file."""

    def __init__(self, floor: Floor, machines: list[Machine], accounts: tuple[dict, dict]) -> None:
        self.applied: dict[int, list[str]] = defaultdict(list)
        self.ends: dict[int, list[str]] = defaultdict(list)
        for machine in machines:
            for serial, commands in machine.applied.items():
                self.applied[serial] += [command for command, _ in commands]
            for serial, ends in machine.ends.items():
                self.ends[serial] += ends
        self.batch, self.blanks = accounts
        printed = subprocess.run([floor.persod, "report", "--db", floor.file, "--batch", "B1"], capture_output=True, text=True, check=True).stdout
        self.records = [line.split(" ") for line in printed.splitlines() if line.startswith("record ")]
        with sqlite3.connect(floor.file) as tables:
            rows = tables.execute("select serial, name, session.state from session join record using (batch, place)").fetchall()
        self.sessions = {serial: (name, state) for serial, name, state in rows}
        self.printed_good = {serial for serial, ends in self.ends.items() if "good" in ends}
        self.counted_good = {int(blank): name for _, name, _, _, blank in self.records if blank != "-"}

    def faults(self, plans: dict[str, list[str]]) -> list[str]:
        found = [f"{serial} was printed as good, but isn't counted as good" for serial in self.printed_good - set(self.counted_good)]
        found += [f"{serial} was printed as good twice" for serial, ends in self.ends.items() if ends.count("good") > 1]
        found += [f"{serial} was printed as rejected and as good" for serial in self.printed_good if self.ends[serial][0] != "good"]
        if len(set(self.counted_good.values())) != len(self.counted_good):
            found.append("a record has two good cards")
        for serial, (name, state) in self.sessions.items():
            if (state == 1) != (self.counted_good.get(serial) == name):
                found.append(f"{serial}: the report and the file differ")
        for serial, commands in self.applied.items():
            if serial not in self.sessions:
                found.append(f"{serial} received commands, but isn't charged")
            elif commands != plans[self.sessions[serial][0]][: len(commands)]:
                found.append(f"{serial} received commands that aren't the first ones of its record")
        for serial in self.printed_good & set(self.sessions):
            if self.applied[serial] != plans[self.sessions[serial][0]]:
                found.append(f"{serial} was printed as good, but didn't receive all commands")
        return found + self.sums()

    def sums(self) -> list[str]:
        blanks, batch, states = self.blanks, self.batch, Counter(state for _, state in self.sessions.values())
        sums = {
            "free and charged blanks": (blanks["free"] + blanks["charged"], blanks["total"]),
            "charged blanks": (blanks["good"] + blanks["running"] + blanks["spoiled"] + blanks["discarded"], blanks["charged"]),
            "blanks with a session": (len(self.sessions), blanks["charged"]),
            "good blanks": (states[1], blanks["good"]),
            "good records": (len(self.counted_good), batch["good"]),
            "spoiled sessions": (states[2], batch["spoiled"]),
            "sessions": (len(self.sessions), batch["sessions"]),
            "records": (sum(batch[state] for state in ("waiting", "running", "failed", "withdrawn", "good")), batch["records"]),
        }
        return [f"{what}: {one} and {other}" for what, (one, other) in sums.items() if one != other]


def run(floor: Floor) -> int:
    server = Server(floor)
    network = Network(floor, server)
    office = Office(network.port)
    server.start()
    network.start()
    batch = batch_of(floor)
    stock(floor, office, batch)
    begun = time.monotonic()
    machines = [Machine(floor, f"m{place + 1}", network.port) for place in range(floor.machines)]
    for machine in machines:
        machine.start()
    remake_all(floor, office)
    for machine in machines:
        machine.join()
    network.settle()
    took = time.monotonic() - begun
    straight = Office(floor.port)
    accounts = json.loads(straight.look("/batch/B1")), json.loads(straight.look("/blanks/P1"))
    server.stop()
    outcome = Outcome(floor, machines, accounts)
    faults = server.faults + [fault for machine in machines for fault in machine.faults] + outcome.faults(planned(floor, batch))
    print_result(floor, outcome, took, faults)
    return 1 if faults else 0


def print_result(floor: Floor, outcome: Outcome, took: float, faults: list[str]) -> None:
    rejected = sum("rejected" in ends for ends in outcome.ends.values())
    figures = {
        "records": len(outcome.records),
        "cards counted good": len(outcome.counted_good),
        "cards printed good": len(outcome.printed_good),
        "cards printed rejected": rejected,
        "blanks charged": outcome.blanks["charged"],
        "commands that cards received": sum(map(len, outcome.applied.values())),
        "messages to the network": sum(floor.counts[fate] for fate in ("passes", *FATES)),
        **floor.counts,
        "seconds": round(took),
    }
    for what, count in figures.items():
        print(f"{count:>8}  {what}")
    for fault in faults:
        print("FAULT", fault)
    print("no faults" if not faults else f"{len(faults)} faults")


def main() -> int:
    words = argparse.ArgumentParser(description=__doc__, formatter_class=argparse.RawDescriptionHelpFormatter)
    words.add_argument("program")
    words.add_argument("--seed", default="1")
    words.add_argument("--cards", type=int, default=1_000)
    words.add_argument("--machines", type=int, default=20)
    os.environ.pop("PERSOD_LOG", None)
    with tempfile.TemporaryDirectory() as folder:
        return run(Floor(words.parse_args(), pathlib.Path(folder)))


if __name__ == "__main__":
    sys.exit(main())
