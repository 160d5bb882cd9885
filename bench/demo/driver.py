#!/usr/bin/env python3
"""Makes cards of a batch over `persod serve`: a minimal driver of a machine.

    python3 bench/demo/driver.py PORT MACHINE BATCH FIRST_BLANK [--boot N] [--lose N]

The driver uses the blanks FIRST_BLANK, FIRST_BLANK + 1 and so on, until the batch needs no more
cards. The boot number must be higher at every start, because the request numbers begin with it.
The default is the seconds since 2026-01-01. A used boot number is refused at the first request.
--lose N discards every Nth reply, as an unreliable network does.

A real driver replaces `card`, which sends a command to the reader. Here the card returns 9000 to
every command. The table in docs/SHOP_FLOOR.md, "Responses and cards", says where each card goes.
"""
import argparse
import http.client
import json
import random
import sys
import time

# The pauses between 100 tries last a minute and a half, because a start of the server can take a
# minute.
TRIES = 100
LONGEST_PAUSE = 1
NUMBERS = 10_000_000
START_OF_2026 = 1_767_225_600
# If this many cards in a row aren't blanks of the product, the magazine has the wrong cards.
MOST_STRAYS = 3


class Stopped(SystemExit):
    """The machine stops. If `reject` is true, the inserted card must be rejected. Otherwise it is
    unused and returns to the magazine."""

    def __init__(self, text, reject):
        super().__init__(text)
        self.reject = reject


def new_boot():
    """Returns the seconds since 2026-01-01, so that request numbers are below 2**53. They are
    higher at every start if two starts are a second apart and the clock is never set back."""
    return int(time.time()) - START_OF_2026


class Machine:
    def __init__(self, port, name, boot, lose=0):
        self.port, self.name, self.boot, self.lose = port, name, boot, lose
        self.number, self.sent, self.repeats, self.strays = boot * NUMBERS, 0, 0, 0

    def ask(self, request, end=""):
        """Returns the reply to a request under a new number."""
        self.number += 1
        return self.repeat((json.dumps(request) + end).encode())

    def repeat(self, body):
        """Repeats the same bytes under the same number until the reply arrives, and returns it."""
        for tried in range(TRIES):
            reply = self.send(body)
            if reply is not None:
                self.repeats += tried
                return reply
            time.sleep(min(0.01 * 2**tried, LONGEST_PAUSE))
        raise Stopped(f"{self.name}: no reply to number {self.number}", True)

    def send(self, body):
        """Tries once. Returns status and JSON, or None if no complete reply arrived."""
        link = http.client.HTTPConnection("127.0.0.1", self.port, timeout=60)
        self.sent += 1
        try:
            link.request("POST", f"/c/{self.name}/{self.number}", body)
            if self.lose and self.sent % self.lose == 0:
                time.sleep(0.02)
                return None
            answer = link.getresponse()
            text = answer.read()
        except (OSError, http.client.HTTPException):
            return None
        finally:
            link.close()
        if answer.status >= 500:
            return None
        if answer.status not in (200, 409):
            raise Stopped(f"{self.name}: {answer.status} {text.decode(errors='replace')}", True)
        return answer.status, json.loads(text)

    def start(self):
        """Releases the numbers of earlier boots, and ends the session that was running. Random
        white space ends the first request, so a second start with the same boot number sends
        different bytes and is refused with 72. It doesn't get the replies of the first start."""
        end = "".join(random.choices(" \t", k=64))
        status, reply = self.ask({"do": "release", "upto": self.number}, end)
        if status == 409 and reply["code"] == 72:
            raise Stopped(f"{self.name}: boot {self.boot} was used before: use a higher one", False)
        if status == 409 and reply["code"] == 73:
            raise Stopped(f"{self.name}: boot {self.boot} is too low: use a higher one", False)
        self.done(status, reply)
        self.done(*self.ask({"do": "reset"}))

    def done(self, status, reply):
        if status != 200:
            raise Stopped(f"{self.name}: number {self.number}: {reply}", True)

    def make(self, batch, blank):
        """Makes a card. Returns True if it is good, False if it must be rejected, and None if it
        is unused and the batch needs no more cards."""
        status, reply = self.ask({"do": "open", "batch": batch, "blank": blank})
        if status == 409:
            return self.not_opened(blank, reply)
        self.strays = 0
        while reply["result"] == "command":
            session, index = reply["session"], reply["index"]
            word = self.card(bytes.fromhex(reply["command"]))
            request = {"do": "answer", "session": session, "index": index, "sw": word}
            if word is None:
                request = {"do": "abort", "session": session}
            status, reply = self.ask(request)
            if status == 409:
                return self.broken_off(blank, reply)
        return reply["result"] == "good"

    def not_opened(self, blank, reply):
        """Decides what to do with a card whose `open` was refused."""
        code = reply["code"]
        if code in (57, 62):
            print(f"{self.name}: no more cards: {code} {reply['refused']}", file=sys.stderr)
            return None
        if code not in (58, 59, 60, 61):
            raise self.stopped(blank, reply, reject=code == 73)
        self.strays = self.strays + 1 if code in (58, 59) else 0
        if self.strays == MOST_STRAYS:
            raise self.stopped(blank, reply, reject=True)
        return self.rejected(blank, reply, reset=code == 61)

    def broken_off(self, blank, reply):
        """Decides what to do with a card whose `answer` or `abort` was refused."""
        if reply["code"] not in (65, 66):
            raise self.stopped(blank, reply, reject=True)
        return self.rejected(blank, reply, reset=reply["code"] == 66)

    def rejected(self, blank, reply, reset):
        """Rejects a card. `reset` ends the session that is still running."""
        why = f"{reply['code']} {reply['refused']}"
        print(f"{self.name}: blank {blank} is rejected: {why}", file=sys.stderr)
        if reset:
            self.done(*self.ask({"do": "reset"}))
        return False

    def stopped(self, blank, reply, reject):
        place = "is rejected" if reject else "returns to the magazine"
        why = f"{reply['code']} {reply['refused']}"
        return Stopped(f"{self.name}: stopped, blank {blank} {place}: {why}", reject)

    def card(self, command):
        """Sends a command to the card, once. Returns its status word, or None if it gives none."""
        return "9000"


def main():
    words = argparse.ArgumentParser(
        description=__doc__, formatter_class=argparse.RawDescriptionHelpFormatter)
    for name in ("port", "machine", "batch", "first_blank"):
        words.add_argument(name, type=str if name in ("machine", "batch") else int)
    words.add_argument("--boot", type=int, default=new_boot())
    words.add_argument("--lose", type=int, default=0)
    given = words.parse_args()
    machine = Machine(given.port, given.machine, given.boot, given.lose)
    machine.start()
    blank, good, bad = given.first_blank, 0, 0
    while (made := machine.make(given.batch, blank)) is not None:
        good, bad, blank = good + made, bad + (not made), blank + 1
    print(f"{given.machine}: {good} good, {bad} rejected, "
          f"{machine.sent} requests sent, {machine.repeats} of them again")
    return 0


if __name__ == "__main__":
    sys.exit(main())
