#!/usr/bin/env python3
"""Opens a batch sheet of `shopbook` in a browser without a window, and checks the page.

    bench/run sheet              checks the page
    bench/run sheet --picture    also writes docs/sheet.png, which a person must look at

The batch has 12 records. Some are good, one was spoiled and remade, one is running, and the others are waiting. The script fails if the page has
a script or refers to another file, if the browser doesn't show its texts, or if its digest of the close report isn't that of the output of
`persod report`.

Requires Debian's chromium. As root, the browser runs without its sandbox."""
import hashlib
import os
import pathlib
import re
import shutil
import subprocess
import sys
import tempfile

from events import expect, run
from served import Server, free_port, request
from small_shop import accepted, stock

TOP = pathlib.Path(__file__).resolve().parents[2]
BROWSER = shutil.which("chromium")
SIZE = "900,1100"
CARDS = ["1000", "1001", "1002 9000 6A80", "1003", "1004"]
WANTED = ["Batch B1", "Product P1, open", "R3", "1002", "6A80", "SHA-256 of the batch file", "SHA-256 of the close report"]


def looked(*words: str) -> str:
    """Runs the browser, and returns its output."""
    alone = ["--no-sandbox"] if os.geteuid() == 0 else []
    words = (BROWSER or "", "--headless", "--disable-gpu", "--hide-scrollbars", *alone, *words)
    ran = subprocess.run(words, capture_output=True, text=True, timeout=120)
    expect("the exit status of the browser", ran.returncode, 0)
    return ran.stdout


def make_cards(program: str, database: pathlib.Path) -> None:
    """Makes five cards. The third is spoiled, and its record is remade. A sixth card is running."""
    server = Server(program, database, free_port())
    stock(server.port, 20, 12)
    run(program, "feed", "--port", server.port, "--machine", "m1", "--boot", 7, "--batch", "B1", typed="".join(f"{card}\n" for card in CARDS))
    accepted(server.port, request("office", 4, do="remake", batch="B1", record="R3"))
    accepted(server.port, request("m2", 70_000_001, do="open", batch="B1", blank=1005))
    server.kill()


def main() -> None:
    if not BROWSER:
        sys.exit("sheet: chromium isn't on this machine")
    program, shopbook = sys.argv[1:3]
    with tempfile.TemporaryDirectory() as name:
        folder = pathlib.Path(name)
        database, page = folder / "shop.db", folder / "sheet.html"
        make_cards(program, database)
        printed = subprocess.run([shopbook, "sheet", "--db", database, "--batch", "B1"], capture_output=True, check=True).stdout
        page.write_bytes(printed)
        found = re.findall(rb"(?i)<script|\bon[a-z]+=|\bsrc=|\bhref=|url\(", printed)
        expect("scripts in the page and references to other files", found, [])
        report = subprocess.run([program, "report", "--db", database, "--batch", "B1"], capture_output=True, check=True).stdout
        wanted = [*WANTED, hashlib.sha256(report).hexdigest()]
        shown = looked("--dump-dom", page.as_uri())
        expect("texts that aren't shown", [text for text in wanted if text not in shown], [])
        picture = TOP / "docs" / "sheet.png" if "--picture" in sys.argv else folder / "sheet.png"
        looked(f"--screenshot={picture}", f"--window-size={SIZE}", page.as_uri())
        expect("a picture was written", picture.stat().st_size > 0, True)
    print(f"the sheet of a batch: {len(printed)} bytes, shown by {BROWSER}")


if __name__ == "__main__":
    main()
