#!/usr/bin/env python3
"""Makes cards of a batch with a PC/SC reader, over `persod serve`.

    python3 bench/demo/driver_pcsc.py PORT MACHINE BATCH READER HANDLER [--state FILE] [--boot N]

READER is the name of the reader, such as `Virtual PCD 00 00`. HANDLER is the Unix socket of the
card handler, which moves the cards. The driver sends it a line, and gets a line:

    next            feeds a card into the reader, unless it has one: `in`, or `empty`
    out TRAY        moves this card to a tray: `out`, or `none` if there is no card

TRAY is `good`, `rejects`, or `magazine` for an unused card. A real machine has its own calls for
this: replace `handle`. It may also know the serials: replace `serial_of`. Here the historical
bytes of the ATR contain the serial, in decimal. It is read before the `open`.

The driver treats a card as follows:

- The connection to a card is exclusive, so no other program can send it anything. The card is
  powered once for all commands.
- Each command is sent once, unchanged, without Le. Nothing else is sent: no GET RESPONSE after
  61XX, and no second try after 6CXX.
- A card that returns no status word, because it was pulled out or is mute, is rejected after an
  `abort`. Nothing is sent to it again.
- After a response, the card goes where the table in docs/SHOP_FLOOR.md, "Responses and cards",
  says.

FILE is MACHINE.state by default. It has the last request and the serial of the card in the
reader. They are on the disk before the request is sent. After a kill, a power failure, or 100
tries without a reply, the card stays in the reader, and the next start first repeats this
request. If the reply is `good`, the card has received everything and is moved to `good`. Any
other card with a session is rejected, because it has lost its power. Each boot number is above
the one in FILE.

Requires libpcsclite1 and a running pcscd. --lose N discards every Nth reply, as in driver.py."""
import argparse
import fcntl
import json
import os
import pathlib
import socket
import sys

from driver import NUMBERS, Machine, Stopped, new_boot
from winscard import Failed, Reader, historical

GOOD, REJECTS, MAGAZINE = "good", "rejects", "magazine"
SECONDS = 5  # maximum time until the reader notices that a card was inserted or removed


class State:
    """The last request of a machine and the serial of its card, in a file."""

    def __init__(self, path):
        self.path = pathlib.Path(path).absolute()
        self.lock = open(f"{self.path}.lock", "w")
        try:
            fcntl.flock(self.lock, fcntl.LOCK_EX | fcntl.LOCK_NB)
        except BlockingIOError:
            sys.exit(f"{self.path}: another driver uses this file")
        self.kept = json.loads(self.path.read_text()) if self.path.exists() else None

    def boot(self):
        return self.kept["number"] // NUMBERS if self.kept else 0

    def keep(self, number, body, blank):
        """Writes the file, unless it already has these values. All data is on the disk when the
        call returns."""
        state = {"number": number, "body": body.decode(), "blank": blank}
        if state == self.kept:
            return
        new = self.path.with_name(f"{self.path.name}.new")
        with open(new, "w") as file:
            file.write(json.dumps(state))
            file.flush()
            os.fsync(file.fileno())
        os.replace(new, self.path)
        folder = os.open(self.path.parent, os.O_RDONLY)
        os.fsync(folder)
        os.close(folder)
        self.kept = state


class CardMachine(Machine):
    def __init__(self, given):
        self.state = State(given.state or f"{given.machine}.state")
        boot = given.boot or max(new_boot(), self.state.boot() + 1)
        if boot <= self.state.boot():
            sys.exit(f"{given.machine}: boot {boot} isn't above {self.state.boot()}, the last one")
        super().__init__(given.port, given.machine, boot, given.lose)
        self.reader, self.blank, self.has_reply = Reader(given.reader), None, True
        self.handler = socket.socket(socket.AF_UNIX)
        self.handler.connect(given.handler)
        self.counts = {GOOD: 0, REJECTS: 0, MAGAZINE: 0}

    def send(self, body):
        self.state.keep(self.number, body, self.blank)
        self.has_reply = True
        reply = super().send(body)
        self.has_reply = reply is not None
        return reply

    def say(self, text):
        print(f"{self.name}: {text}", file=sys.stderr, flush=True)

    # ---- the card

    def handle(self, order):
        """Sends a line to the card handler, and returns the response line."""
        self.handler.sendall(f"{order}\n".encode())
        came = self.handler.recv(100).decode().strip()
        if not came:
            raise SystemExit(f"{self.name}: the card handler is gone")
        return came

    def serial_of(self, atr):
        """Returns the serial of the connected card, or None if it has none."""
        digits = historical(atr).hex()
        return int(digits) if digits.isdecimal() else None

    def connected(self):
        """Powers the card in the reader. Returns its serial, or None if it can't be read."""
        try:
            return self.serial_of(self.reader.connect(SECONDS))
        except Failed as why:
            if not why.is_of_card:
                raise
            self.say(str(why))
            self.reader.disconnect()
            return None

    def put_out(self, tray):
        """Moves the card to a tray. Then the file says that no card is inserted."""
        self.reader.disconnect()
        if self.handle(f"out {tray}") == "out":
            self.counts[tray] += 1
        elif self.blank is not None:
            self.say(f"blank {self.blank} belongs to {tray}, and isn't in the reader")
        self.blank = None
        if self.state.kept:
            self.state.keep(self.state.kept["number"], self.state.kept["body"].encode(), None)
        if not self.reader.wait(False, SECONDS):
            raise SystemExit(f"{self.name}: the card is still in the reader")

    def put_in(self):
        """Feeds cards until one can be read. Returns False if there are no more."""
        while self.handle("next") == "in":
            serial = self.connected() if self.reader.wait(True, SECONDS) else None
            if serial is not None:
                self.blank = serial
                return True
            self.say("a card that can't be read is rejected: discard its blank")
            self.put_out(REJECTS)
        return False

    def card(self, command):
        """Sends a command to the card, once. Returns its status word, the last two bytes, or None
        if it gives none."""
        try:
            answer = self.reader.transmit(command)
        except Failed as why:
            self.say(f"blank {self.blank} gave no status word: {why}")
            return None
        if len(answer) < 2:
            self.say(f"blank {self.blank} gave {len(answer)} bytes and no status word")
            return None
        return answer[-2:].hex().upper()

    # ---- a session

    def tray_after(self, act, *arguments):
        """Returns the tray for the result of `act`, and the reason if the machine stops. Without a
        reply the card stays in the reader."""
        try:
            made = act(*arguments)
        except Stopped as why:
            if not self.has_reply:
                raise
            return (REJECTS if why.reject else MAGAZINE), why
        return {True: GOOD, False: REJECTS, None: MAGAZINE}[made], None

    def recover(self):
        """Repeats the request that was pending when the driver ended, and moves its card to a tray."""
        kept, number = self.state.kept, self.number
        if not kept or kept["blank"] is None:
            return
        self.number, self.blank = kept["number"], kept["blank"]
        tray, _ = self.tray_after(self.made_before, kept["body"])
        self.say(f"blank {self.blank} of the last start belongs to {tray}")
        serial = self.connected() if self.reader.is_present() else None
        if serial not in (None, self.blank):
            raise SystemExit(f"{self.name}: card {serial} is in the reader instead: take it out")
        self.put_out(tray)
        self.number = number

    def made_before(self, body):
        """Returns the result of `make` for a card that lost its power after this request."""
        status, reply = self.repeat(body.encode())
        if status == 409 and json.loads(body)["do"] == "open":
            return self.not_opened(self.blank, reply)
        return status == 200 and reply["result"] == "good"

    def run(self, batch):
        self.recover()
        self.start()
        tray = why = None
        while tray != MAGAZINE and why is None and self.put_in():
            tray, why = self.tray_after(self.make, batch, self.blank)
            self.put_out(tray)
        good, rejected, back = self.counts.values()
        cards = f"{good} good, {rejected} rejected, {back} back to the magazine"
        print(f"{self.name}: {cards}, {self.sent} requests sent, {self.repeats} of them again")
        return str(why or "") or 0


def main():
    words = argparse.ArgumentParser(
        description=__doc__, formatter_class=argparse.RawDescriptionHelpFormatter
    )
    words.add_argument("port", type=int)
    for name in ("machine", "batch", "reader", "handler"):
        words.add_argument(name)
    words.add_argument("--state")
    words.add_argument("--boot", type=int)
    words.add_argument("--lose", type=int, default=0)
    given = words.parse_args()
    try:
        return CardMachine(given).run(given.batch)
    except Failed as why:
        return f"{given.machine}: {why}"


if __name__ == "__main__":
    sys.exit(main())
