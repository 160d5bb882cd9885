#!/usr/bin/env python3
"""Runs every command of the pages in a new folder, and compares the output with the page.

    bench/run commands [PAGE..]

A block is a text between fences, or one that is indented by four spaces. It has commands, each followed by its output if the page shows it. `..`
at the end of a line represents the rest of the line, and on its own line any number of lines. A comment before a block changes its treatment:

    <!-- not run: WHY -->        nothing of it is run
    <!-- prints -->              the output of the last command of the previous block
    <!-- after the set-up -->    first a server is started on a new file, and gets the set-up of docs/PROTOCOL.md, section 8
    <!-- runs on -->             the command runs in a terminal of its own; the next such block stops it first, by Ctrl-C
    <!-- runs on, with the set-up -->    the same, and the server gets the set-up
    <!-- runs on, N turns -->    the same with --turns N or TURNS=N in it, and its connections are used up twice
    <!-- once it is stopped -->  the command in the terminal is stopped first
    <!-- exchange -->            requests and replies of section 8, sent to a server
    <!-- drill -->               lines of a drill after the set-up, each with its output
    <!-- sql -->                 a query of the file of a server that got the set-up

A command without shown output must exit with status 0, and its output must not name a refusal. A command that ends with & runs in the
background, and the script waits until it listens. Port 8807 is replaced by a free port, the day of the page by today, and /srv/persod by the
folder. The folder has links to the entries at the top of the repository. If a page needs a program that isn't on this machine, the script
reports this and continues. Finally, each link of every page must lead to a file. Exit status: 1 if an output differs or a link is dead."""
import atexit
import datetime
import os
import pathlib
import re
import shlex
import shutil
import signal
import subprocess
import sys
import tempfile
import threading
import time
from dataclasses import dataclass, field
from typing import Iterator, Optional

import cases
import exchanges
from served import exchange, free_port, get

TOP = pathlib.Path(__file__).resolve().parents[2]
PAGES = ("README.md", "docs/OPERATING.md", "docs/EVENTS.md", "docs/PROTOCOL.md", "docs/SHOP_FLOOR.md", "docs/TABLES.md", "examples/README.md",
         "man/persod.md", "man/shopbook.md", "man/persod-batch.md")
COMMANDS = set("awk bash cat cp curl date echo export for grep install kill ls mkdir mv persod printf python3 rm sh sleep sqlite3 tail test umask until wait while".split())
COMMANDS |= {"systemd-analyze", "journalctl", "systemctl"}
MAY_LACK = {"systemd-analyze"}
HERE = "bench", "crates", "data", "docs", "examples", "first-look", "install", "service", "test"
LINK = re.compile(r"\]\(([^)#:]+)(?:#[^)]*)?\)")
COMMENT = re.compile(r"<!-- (.*) -->")
SECONDS = 300
DAY = "2026-11-27"
END = "end-of-the-command"


class Stale(Exception):
    """A page that differs from the actual output."""


# ---- reading a page


@dataclass
class Block:
    """A block of a page, with the number of its first line and the text of its comment."""

    line: int
    comment: str
    lines: list[str]

    def text(self) -> str:
        return "\n".join(self.lines) + "\n"


def blocks(text: str) -> Iterator[Block]:
    lines = text.split("\n")
    comment, place = "", 0
    while place < len(lines):
        line, begin = lines[place], place
        if line.startswith("```"):
            place = lines.index("```", place + 1) + 1
            yield Block(begin + 2, comment, lines[begin + 1 : place - 1])
            comment = ""
        elif line.startswith("    ") and (begin == 0 or not lines[begin - 1] or COMMENT.fullmatch(lines[begin - 1])):
            while place < len(lines) and (not lines[place] or lines[place].startswith("    ")):
                place += 1
            yield Block(begin + 1, comment, "\n".join(line[4:] for line in lines[begin:place]).rstrip("\n").split("\n"))
            comment = ""
        else:
            if line:
                found = COMMENT.fullmatch(line)
                comment = found[1] if found else ""
            place += 1


@dataclass
class Command:
    line: int
    text: str
    shown: list[str] = field(default_factory=list)


def is_command(line: str) -> bool:
    words = [word for word in line.split(" ") if not re.match(r"[A-Z_]+=", word)]
    return bool(words) and (words[0] in COMMANDS or words[0].startswith(("./", "bench/")))


def is_whole(text: str) -> bool:
    return subprocess.run(["bash", "-n"], input=text, text=True, capture_output=True).returncode == 0


def commands(block: Block) -> list[Command]:
    """Returns the commands of a block, each with the lines of output after it."""
    found: list[Command] = []
    for number, line in enumerate(block.lines, block.line):
        if found and not found[-1].shown and (found[-1].text.endswith("\\") or not is_whole(found[-1].text)):
            found[-1].text += f"\n{line}"
        elif is_command(line):
            found.append(Command(number, line))
        elif found:
            found[-1].shown.append(line)
        else:
            raise Stale(f"{number}: not a command, and without a comment: {line}")
    return found


def agrees(shown: list[str], came: list[str]) -> bool:
    """Returns whether the output `came` is what the page shows. `..` matches anything."""
    if not shown:
        return not came
    if shown[0] == "..":
        return any(agrees(shown[1:], came[place:]) for place in range(len(came) + 1))
    if not came:
        return False
    same = came[0].startswith(shown[0][:-2].rstrip()) if shown[0].endswith("..") else came[0] == shown[0]
    return same and agrees(shown[1:], came[1:])


# ---- running it


class Job:
    """A command that runs in the background, in its own session."""

    def __init__(self, text: str, folder: pathlib.Path, environment: dict[str, str]) -> None:
        self.output = tempfile.TemporaryFile("w+")
        self.process = subprocess.Popen(
            ["bash", "-c", text], cwd=folder, env=environment, stdin=subprocess.DEVNULL, stdout=self.output, stderr=subprocess.STDOUT,
            start_new_session=True, preexec_fn=lambda: signal.signal(signal.SIGINT, signal.SIG_DFL) and None,
        )
        self.seen = 0
        atexit.register(self.stop)

    def lines(self) -> list[str]:
        self.output.seek(0)
        return self.output.read().splitlines()

    def new_lines(self) -> list[str]:
        """Returns the lines printed since the last call."""
        lines = self.lines()
        self.seen, new = len(lines), lines[self.seen :]
        return new

    def listens(self, count: int = 1) -> None:
        """Waits until it has printed `listening` `count` times, or has exited."""
        begun = time.monotonic()
        while sum(line.startswith("listening ") for line in self.lines()) < count and self.process.poll() is None:
            if time.monotonic() > begun + SECONDS:
                raise Stale(f"it doesn't listen: {self.lines()}")
            time.sleep(0.05)

    def stop(self, number: int = signal.SIGINT) -> None:
        if self.process.poll() is None:
            os.killpg(self.process.pid, number)
            try:
                self.process.wait(10)
            except subprocess.TimeoutExpired:
                os.killpg(self.process.pid, signal.SIGKILL)
                self.process.wait()


class Page:
    """A page, its folder, and the commands that run in the background."""

    def __init__(self, name: str, program: str, shopbook: str, folder: pathlib.Path) -> None:
        self.name, self.folder, self.port = name, folder, free_port()
        self.program, self.terminal, self.exchanges = program, None, ""
        self.jobs: list[Job] = []
        self.last: list[str] = []
        self.ran = self.compared = self.lacking = 0
        self.reasons: list[str] = []
        bin_folder = folder / "bin"
        bin_folder.mkdir()
        (bin_folder / "persod").symlink_to(program)
        (bin_folder / "shopbook").symlink_to(shopbook)
        (bin_folder / ".curlrc").write_text("no-progress-meter\n")
        for entry in HERE:
            (folder / entry).symlink_to(TOP / entry)
        others = {name: value for name, value in os.environ.items() if name != "PERSOD_LOG"}
        self.environment = {**others, "PATH": f"{bin_folder}:{os.environ['PATH']}", "CURL_HOME": str(bin_folder), "PYTHONDONTWRITEBYTECODE": "1"}
        self.shell = subprocess.Popen(
            ["bash"], cwd=folder, env=self.environment, stdin=subprocess.PIPE, stdout=subprocess.PIPE, stderr=subprocess.STDOUT, text=True,
            start_new_session=True,
        )

    def here(self, text: str) -> str:
        """Returns a text of the page with the port, the day and the folder of this run."""
        text = text.replace("8807", str(self.port)).replace(DAY, datetime.date.today().isoformat())
        return text.replace("/srv/persod", str(self.folder))

    def run(self, text: str) -> None:
        for block in blocks(text):
            try:
                self.block(Block(block.line, block.comment, self.here(block.text()).rstrip("\n").split("\n")))
            except Stale as stale:
                raise Stale(f"{self.name}, block at line {block.line}: {stale}") from None
        if self.exchanges:
            self.run_exchanges()

    def block(self, block: Block) -> None:
        kind, _, rest = block.comment.partition(": ")
        if kind == "not run":
            self.reasons.append(f"{self.name}:{block.line} isn't run: {rest}")
        elif kind == "prints":
            self.compare(block.lines, self.last)
        elif kind == "exchange":
            self.exchanges += block.text()
        elif kind == "drill":
            self.drill(block)
        elif kind == "sql":
            database = self.start_set_up()
            self.stop_terminal()
            self.command(Command(block.line, f"sqlite3 {database} {shlex.quote(block.text())}"))
        elif kind.startswith("runs on"):
            self.runs_on(block, re.search(r"(\d+) turns", kind))
        else:
            if kind in ("once it is stopped", "after the set-up"):
                self.stop_terminal()
            if kind == "after the set-up":
                self.start_set_up()
            for command in commands(block):
                self.command(command)
            if kind == "after the set-up":
                self.stop_terminal()

    def compare(self, shown: list[str], came: list[str]) -> None:
        if not agrees(shown, came):
            raise Stale("the page shows\n  " + "\n  ".join(shown) + "\nbut the output is\n  " + "\n  ".join(came))
        self.compared += 1

    def command(self, command: Command) -> None:
        name = next(word for word in command.text.split(" ") if "=" not in word)
        if name in MAY_LACK and not shutil.which(name):
            self.lacking += 1
            self.reasons.append(f"{self.name}:{command.line} isn't run: {name} isn't on this machine")
            return
        if command.text.endswith("&"):
            job = Job(command.text[:-1], self.folder, self.environment)
            job.listens()
            self.jobs.append(job)
            status, came = 0, job.new_lines()
        elif command.text == "wait":
            status, came = 0, [line for job in self.jobs for line in self.waited(job)]
        else:
            status, came = self.asked(command.text)
        self.ran += 1
        self.last = came
        if command.shown:
            self.compare(command.shown, came)
        elif status != 0 or any('"refused"' in line or line.startswith("refused ") for line in came):
            raise Stale(f"{command.text}\nexited with status {status}, and printed\n  " + "\n  ".join(came))

    def waited(self, job: Job) -> list[str]:
        job.process.wait(SECONDS)
        return job.new_lines()

    def asked(self, text: str) -> tuple[int, list[str]]:
        """Runs a command in the page's shell, and returns its exit status and output."""
        script = self.folder / "bin" / "command"
        script.write_text(text + "\n")
        assert self.shell.stdin and self.shell.stdout
        self.shell.stdin.write(f". {script} </dev/null; status=$?; echo; echo {END} $status\n")
        self.shell.stdin.flush()
        watch = threading.Timer(SECONDS, os.killpg, (self.shell.pid, signal.SIGKILL))
        watch.start()
        lines: list[str] = []
        for line in self.shell.stdout:
            if line.startswith(END):
                watch.cancel()
                break
            lines.append(line.rstrip("\n"))
        else:
            raise Stale(f"{text}\nended the shell, or didn't exit: {lines}")
        while lines and not lines[-1]:
            lines.pop()
        return int(line.split(" ")[1]), lines

    def start_set_up(self) -> str:
        """Starts a server on a new file, sends it the set-up, and returns the path of the file."""
        database = f"{tempfile.mkdtemp(dir=self.folder)}/shop.db"
        self.terminal = Job(f"exec persod serve --db {database} --port {self.port} --turns 1000000", self.folder, self.environment)
        self.terminal.listens()
        self.ask_set_up()
        return database

    def ask_set_up(self) -> None:
        for ask in cases.exchanges_of(cases.SET_UP)[0].asks:
            if exchange(self.port, ask.message) != ask.wanted:
                raise Stale(f"the set-up: {ask}")

    def stop_terminal(self) -> None:
        if self.terminal:
            self.terminal.stop()
            self.terminal = None

    def runs_on(self, block: Block, turns: Optional[re.Match[str]]) -> None:
        self.stop_terminal()
        text = block.text()
        if turns:
            text = re.sub(r"(--turns |TURNS=)\d+", rf"\g<1>{turns[1]}", text)
        self.terminal = Job(text, self.folder, self.environment)
        self.terminal.listens()
        for count in range(2 if turns else 0):
            for _ in range(int(turns[1])):
                exchange(self.port, get("/blanks/P1"))
            self.terminal.listens(count + 2)
        if "with the set-up" in block.comment:
            self.ask_set_up()
        if self.terminal.process.poll() is not None:
            raise Stale(f"it has exited: {self.terminal.lines()}")
        self.ran += 1

    def run_exchanges(self) -> None:
        """Runs the exchanges of all blocks of the page as one case."""
        [case] = cases.exchanges_of(f"== {self.name}\n{self.exchanges}")
        count = exchanges.run(self.program, self.name, case, exchanges.whole)
        if count.differences:
            raise Stale(f"{self.name}: {count.differences} of its exchanges differ")
        self.ran += count.connections
        self.compared += count.connections

    def drill(self, block: Block) -> None:
        pairs = [re.split(r" {2,}", line, maxsplit=1) for line in block.lines]
        set_up = [line for line in cases.SET_UP.split("\n")[1:-1] if not line.startswith("  ")]
        script = [line.replace("import office ", "import ") for line in set_up] + [line for line, _ in pairs]
        ran = subprocess.run(
            [self.program, "drill"], input="".join(f"{line}\n" for line in script), capture_output=True, text=True, timeout=SECONDS
        )
        self.compare([shown for _, shown in pairs], ran.stdout.splitlines()[3:])
        self.ran += 1

    def end(self) -> None:
        for job in [*self.jobs, *([self.terminal] if self.terminal else [])]:
            job.stop()
        os.killpg(self.shell.pid, signal.SIGKILL)
        self.shell.wait()


def look(name: str, program: str, shopbook: str) -> bool:
    """Returns whether the outputs of a page are correct."""
    with tempfile.TemporaryDirectory() as folder:
        page = Page(name, program, shopbook, pathlib.Path(folder))
        try:
            page.run((TOP / name).read_text())
        except Stale as stale:
            print(f"STALE {stale}", flush=True)
            return False
        finally:
            page.end()
    print("\n".join([f"{name}: {page.ran} commands ran, {page.compared} outputs are as shown", *page.reasons]), flush=True)
    return True


def dead_links() -> list[str]:
    """Returns the dead links of all pages."""
    pages = [page for folder in (".", "docs", "bench", "examples") for page in sorted((TOP / folder).glob("*.md"))]
    links = [(page, link) for page in pages for link in LINK.findall(page.read_text())]
    return [f"{page.relative_to(TOP)} links to {link}, which doesn't exist" for page, link in links if not (page.parent / link).exists()]


def main() -> int:
    programs = [os.path.abspath(program) for program in sys.argv[1:3]]
    for program in programs:
        if not os.access(program, os.X_OK):
            sys.exit(f"{program} is not an executable file; make one with ./install, or name one in PERSOD or SHOPBOOK")
    looked = [look(name, *programs) for name in sys.argv[3:] or PAGES]
    dead = dead_links()
    print("\n".join([*dead, f"{len(looked)} pages, {looked.count(False)} of them stale; {len(dead)} dead links"]))
    return 0 if all(looked) and not dead else 1


if __name__ == "__main__":
    sys.exit(main())
