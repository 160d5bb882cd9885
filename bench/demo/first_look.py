#!/usr/bin/env python3
"""Shows three cards that are made while replies are lost. Called by ./first-look.

    python3 bench/demo/first_look.py PORT

The server on PORT must be new. An office creates a product, a lot of blanks and a batch of three cards, and a machine makes them. Then the
script prints the report and the account of the blanks, and uses the remaining connections of the server, so that it exits."""
import http.client
import pathlib
import sys

import driver

CARDS = pathlib.Path(__file__).resolve().parents[2] / "data" / "three-cards.csv"
LOSE = 20


def ask(port, method, target, body=None):
    """Returns the status and the body of the response to one message."""
    link = http.client.HTTPConnection("127.0.0.1", port, timeout=60)
    try:
        link.request(method, target, body)
        answer = link.getresponse()
        return f"{answer.status} {answer.read().decode().rstrip()}"
    finally:
        link.close()


def show(port, method, target, body=None):
    print(f"\n{method} {target} {body if isinstance(body, str) else ''}\n{ask(port, method, target, body)}", flush=True)


class Shown(driver.Machine):
    """A machine that prints each command for its card, and each lost reply."""

    def send(self, body):
        reply = super().send(body)
        if reply is None:
            print(f"no reply to number {self.number}: sending the same bytes again", flush=True)
        return reply

    def make(self, batch, blank):
        print(f"\nblank {blank}", flush=True)
        made = super().make(batch, blank)
        print({True: "good", False: "rejected", None: "returned to the magazine: no record is waiting"}[made], flush=True)
        return made

    def card(self, command):
        print(command.hex().upper(), flush=True)
        return super().card(command)


def main():
    port = int(sys.argv[1])
    show(port, "POST", "/c/office/1", '{"do":"product","product":"P1","max":255,"low":0,"check":true}')
    show(port, "POST", "/c/office/2", '{"do":"lot","lot":"L1","product":"P1","first":1000,"count":4}')
    show(port, "POST", "/c/office/3/batch/B1/P1", CARDS.read_bytes())
    machine = Shown(port, "m1", driver.new_boot(), LOSE)
    machine.start()
    blank = 1000
    while machine.make("B1", blank) is not None:
        blank += 1
    print(f"{machine.sent} requests sent, {machine.repeats} of them repeats")
    show(port, "POST", "/c/office/4", '{"do":"close","batch":"B1"}')
    show(port, "GET", "/batch/B1/report")
    show(port, "GET", "/blanks/P1")
    try:
        while True:
            ask(port, "GET", "/blanks/P1")
    except (OSError, http.client.HTTPException):
        print("\nThe server has served all its connections and exited.", flush=True)
    return 0


if __name__ == "__main__":
    sys.exit(main())
