#!/usr/bin/env python3
"""Starts a machine with a used boot number, and checks the event lines of the feed and the server.

    bench/run used_boot

`persod feed` makes a card, and starts again with the same boot number and the next card. Its first two requests are repeats and get the kept
replies. The third is different, so it is refused with 72, the card is rejected, and an event line reports the used boot number. With a lower
boot number the refusal is 73. bench/demo/driver.py, with the boot number of the feed and with its own one twice, must be refused at its first
request. Exit status: 1 if a check fails."""
import pathlib
import subprocess
import sys
import tempfile

from events import expect, lines, run
from served import Server, free_port
from small_shop import stock

DRIVER = pathlib.Path(__file__).resolve().parents[1] / "demo" / "driver.py"
PLAN = ["00A4040006F00000000101", "80E28000050101027000"]


def fed(program: str, port: int, boot: int, card: int) -> tuple[int, list[str], list[str]]:
    return run(program, "feed", "--port", port, "--machine", "m1", "--boot", boot, "--batch", "B1", typed=f"{card}\n")


def driven(port: int, boot: int) -> tuple[int, str]:
    words = [sys.executable, "-B", DRIVER, port, "m1", "B1", 1002, "--boot", boot]
    ran = subprocess.run(list(map(str, words)), capture_output=True, text=True, timeout=300)
    return ran.returncode, ran.stderr.strip()


def main() -> None:
    program = sys.argv[1]
    with tempfile.TemporaryDirectory() as name:
        events = pathlib.Path(name) / "events"
        server = Server(program, pathlib.Path(name) / "shop.db", free_port(), events=events)
        stock(server.port, 20, 10)
        made = [*(f"1000 {command} 9000" for command in PLAN), "1000 good"]
        expect("boot 7", fed(program, server.port, 7, 1000), (0, made, []))
        said = ["rejected serial=1001 number=70000003 code=72 name=number-reused", "boot-used number=70000003"]
        status, printed, errors = fed(program, server.port, 7, 1001)
        expect("boot 7 again", (status, printed, sorted(errors)), (0, ["1001 rejected"], sorted(said)))
        expect("a lower boot", fed(program, server.port, 6, 1001), (1, [], ["refused 73"]))
        answered = [line for line in lines(events, 3) if line.startswith("answered ")]
        expect("the server's lines", answered, [
            'answered status=409 code=72 name=number-reused request="POST /c/m1/70000003 HTTP/1.1"',
            'answered status=409 code=73 name=number-released request="POST /c/m1/60000001 HTTP/1.1"',
        ])
        expect("the driver with the feed's boot", driven(server.port, 7), (1, "m1: boot 7 was used before: use a higher one"))
        expect("the driver with a lower one", driven(server.port, 6), (1, "m1: boot 6 is too low: use a higher one"))
        expect("the driver with a new one", driven(server.port, 8)[0], 0)
        expect("the driver with that again", driven(server.port, 8), (1, "m1: boot 8 was used before: use a higher one"))
        server.kill()
    print("a used boot number and a lower one: reported by the feed, the server, and the driver at its first request")


if __name__ == "__main__":
    main()
