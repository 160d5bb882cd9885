#!/usr/bin/env python3
"""Makes 200 cards with one `persod feed` while the server is killed ten times and starts slowly.

    bench/run slow_starts [--cards N] [--starts N] [--seconds N]

Each start takes ten additional seconds, as with a large file. The server is killed at regular intervals, in the middle of a card. The feed must
exit with status 0, all cards must be good, and the accounts must agree. The event lines report the repeated requests: some for each start, but
no request ten times. Exit status: 1 if a check fails."""
import argparse
import json
import pathlib
import re
import subprocess
import tempfile
import threading
import time

from events import expect
from served import Server, environment, exchange, free_port, get, parts
from small_shop import FIRST, stock

AGAIN = re.compile(r'again number=\d+ tries=(\d+)( reply="[^"]*")?')


class SlowServer(Server):
    """A server that takes some additional seconds to start."""

    seconds = 10

    def command(self, program: str, database: pathlib.Path) -> list[str]:
        return ["sh", "-c", f'sleep {self.seconds}; exec "$@"', "sh", *super().command(program, database)]


class Starts(threading.Thread):
    """Kills the server and starts it slowly, whenever it is told to."""

    def __init__(self, program: str, database: pathlib.Path, server: Server) -> None:
        super().__init__(daemon=True)
        self.program, self.database, self.server = program, database, server
        self.wanted, self.count = threading.Semaphore(0), 0

    def run(self) -> None:
        while True:
            self.wanted.acquire()
            self.server.kill()
            self.server = SlowServer(self.program, self.database, self.server.port)
            self.count += 1


def feed(program: str, port: int, cards: int, each: int, starts: Starts) -> tuple[int, list[str], list[str]]:
    """Feeds `cards` cards, and has the server killed after every `each` cards. Returns the exit status, the output, and the event lines."""
    words = [program, "feed", "--port", str(port), "--machine", "m1", "--boot", str(int(time.time())), "--batch", "B1"]
    with tempfile.TemporaryFile("w+") as typed, tempfile.TemporaryFile("w+") as errors:
        typed.writelines(f"{FIRST + place}\n" for place in range(cards))
        typed.seek(0)
        process = subprocess.Popen(words, stdin=typed, stdout=subprocess.PIPE, stderr=errors, text=True, env=environment("1"))
        printed, good = [], 0
        assert process.stdout
        for line in process.stdout:
            printed.append(line.rstrip("\n"))
            good += line.endswith(" good\n")
            if line.endswith(" good\n") and good % each == 0 and good < cards:
                starts.wanted.release()
        errors.seek(0)
        return process.wait(), printed, errors.read().splitlines()


def main() -> None:
    words = argparse.ArgumentParser(description=__doc__, formatter_class=argparse.RawDescriptionHelpFormatter)
    words.add_argument("program")
    words.add_argument("--cards", type=int, default=200)
    words.add_argument("--starts", type=int, default=10)
    words.add_argument("--seconds", type=int, default=SlowServer.seconds)
    given = words.parse_args()
    SlowServer.seconds = given.seconds
    begun = time.monotonic()
    with tempfile.TemporaryDirectory() as name:
        database = pathlib.Path(name) / "shop.db"
        server = Server(given.program, database, free_port())
        stock(server.port, given.cards, given.cards)
        starts = Starts(given.program, database, server)
        starts.start()
        each = -(-given.cards // (given.starts + 1))
        status, printed, errors = feed(given.program, server.port, given.cards, each, starts)
        expect("the feed's exit", (status, [line for line in errors if not AGAIN.fullmatch(line)]), (0, []))
        ends = [line.split(" ") for line in printed if len(line.split(" ")) == 2]
        expect("the cards", ends, [[str(FIRST + place), "good"] for place in range(given.cards)])
        account = json.loads((parts(exchange(server.port, get("/batch/B1"))) or (0, b"{}"))[1])
        expect("the account", (account["good"], account["sessions"], account["running"]), (given.cards, given.cards, 0))
        expect("the starts", starts.count, given.starts)
        tries = [int(line[1]) for line in map(AGAIN.fullmatch, errors) if line]
        if not given.starts <= len(tries) <= 10 * given.starts:
            expect("the lines of repeated requests", tries, "some for each start")
        starts.server.kill()
    took = time.monotonic() - begun
    print(f"{given.cards} good cards, {given.starts} starts of {given.seconds} s; {len(tries)} repeats, at most {max(tries)} each; {took:.0f} s")


if __name__ == "__main__":
    main()
