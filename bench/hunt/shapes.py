#!/usr/bin/env python3
"""Runs random batches, exchanges and messages, and checks that none fails without cause.

    bench/run shapes [--seed TEXT] [--cases N] [--jobs N]

No contract rules out a call that reports out of memory, a fault of the store or a failed write although nothing failed. The script therefore
makes batches, exchanges and messages of every shape and size up to each limit, by a seed, as files in the formats of docs/WORKED.md. The program
`worked` runs them. It fails if a case ends with such an error, or if two ways of running it differ. Some hundreds more run with `persod plan`
and `persod drill`. A case is one batch, one request or one message.

Small models (shapes_batches.py, shapes_machine.py) compute the expected results. They follow docs/PROFILE.md and docs/PROTOCOL.md, and share no
code with the programs. If bytes were changed at random, any result is accepted.

At the end the script prints the number of cases of each kind and the largest of each size. Exit status: 1 if a result was wrong. The wrong cases
are then left in a folder that is named, each in its own file. Shrink such a case by hand to a file of crates/worked/data.
"""
import argparse
import concurrent.futures
import os
import pathlib
import re
import shutil
import subprocess
import sys
import tempfile
import time
from typing import NamedTuple

from row_groups import by_record
from shapes_batches import SHAPES, Plan, commands_of, long_plans, options, plan_case, plan_cases, some_plan
from shapes_draw import COUNTS, MOST, MOST_FILE, Case, Draw, changed, unpacked
from shapes_exchanges import exchange_cases, long_report, long_talks, longest_session, talk_of
from shapes_messages import message_cases

SEED = "shapes"
CASES = 20_000
# With at least this many cases, the long cases are added.
LONG = 10_000
# The numbers of records that the longest report makes and withdraws: enough for more than 65,536 bytes, but not more, because each further card
# costs more in a store of lists.
REPORT = (840, 184)
# The time limit of a program.
SECONDS = 7200


def outcome(words: list[str], where: pathlib.Path, given: bytes = b"") -> tuple[int, str, str]:
    """Returns the status, the output and the errors of a program. A program over the time limit has no output."""
    try:
        done = subprocess.run(words, cwd=where, input=given, capture_output=True, timeout=SECONDS)
    except subprocess.TimeoutExpired:
        return 124, "", f"no exit after {SECONDS} s"
    return done.returncode, done.stdout.decode("latin-1"), done.stderr.decode("latin-1")


class Hunt:
    """Files of cases, and their results."""

    def __init__(self, program: str, folder: pathlib.Path, jobs: int) -> None:
        self.program, self.folder, self.jobs = program, folder, jobs
        self.wanted: dict[str, int] = {}
        self.failed: list[str] = []

    def put(self, kind: str, cases: list[Case], most: int) -> None:
        """Writes the cases to files of at most `most` cases."""
        for cut in range(0, len(cases), most):
            name = f"{kind}-{len(self.wanted):04}.{cases[cut].kind}"
            taken = cases[cut:cut + most]
            (self.folder / name).write_text("".join(case.text for case in taken))
            self.wanted[name] = len(taken)

    def run(self, *names: str) -> str:
        """Returns the output of `worked` for these files."""
        status, out, err = outcome([self.program, *names], self.folder)
        return out + ("" if status == 0 else f"status {status}\n{err[-3000:]}")

    def run_all(self) -> None:
        """Runs the long files first, and then the others by size, the largest first."""
        names = sorted(self.wanted, key=lambda name: (not name.startswith("long"), -(self.folder / name).stat().st_size))
        with concurrent.futures.ThreadPoolExecutor(self.jobs) as pool:
            for name, said in zip(names, pool.map(self.run, names)):
                self.look(name, said)

    def look(self, name: str, said: str) -> None:
        if said != f"{name}: {self.wanted[name]} cases\n":
            self.failed.append(name)
            print("\n".join(line[:400] for line in said.splitlines()[:40]), flush=True)

    def alone(self) -> None:
        """Writes the cases of the failed files to a file each, and keeps those that fail."""
        singles = {}
        for name in self.failed:
            stem, _, kind = name.rpartition(".")
            for k, text in enumerate(re.split(r"^(?=== )", (self.folder / name).read_text(), flags=re.M)[1:]):
                singles[f"{stem}-{k:03}.{kind}"] = text
        for name, text in singles.items():
            (self.folder / name).write_text(text)
        said = self.run(*singles).splitlines()
        for name, text in singles.items():
            if f"{name}: 1 cases" in said:
                (self.folder / name).unlink()
            else:
                print(f"failed: {self.folder / name} {text.splitlines()[0]}")


# The program `persod`.


class Run(NamedTuple):
    """A run of the program, and its expected output and status. If `out` is None, any output with status 0 or 1 is accepted."""

    name: str
    words: list[str]
    given: bytes
    status: int
    out: str | None
    err: str


def printed(plan: Plan) -> str:
    return "".join(f"record {name}\n" + "".join(command.text + "\n" for command in commands_of(rows, plan.product))
                   for name, rows in by_record(plan.rows or []).items())


def plan_run(draw: Draw, k: int) -> Run:
    plan = some_plan(draw, SHAPES[4] if draw.chance(0.2) else None)
    words, name = ["plan", *options(plan.product)], f"plan-{k:03}"
    if draw.chance(0.1):
        return Run(name, words, changed(draw, plan.raw, MOST_FILE), 0, None, "")
    if plan.fault:
        return Run(name, words, plan.raw, 1, "", f"refused {plan.fault[0]} row {plan.fault[1]}\n")
    return Run(name, words, plan.raw, 0, printed(plan), "")


def drill_run(draw: Draw, k: int) -> Run:
    script, out = talk_of(draw, ["office"], draw.size(5, 100)).script()
    return Run(f"drill-{k:03}", ["drill"], unpacked(script).encode(), 0, out, "")


def is_right(run: Run, status: int, out: str, err: str) -> bool:
    if run.out is None:
        return status == 0 and out != "" or status == 1 and err.startswith("refused ")
    return (status, out, err) == (run.status, run.out, run.err)


def run_persod(program: str, runs: list[Run], jobs: int, folder: pathlib.Path) -> list[Run]:
    """Returns the runs with wrong results."""

    def one(run: Run) -> bool:
        return is_right(run, *outcome([program, *run.words], folder, run.given))

    with concurrent.futures.ThreadPoolExecutor(jobs) as pool:
        return [run for run, right in zip(runs, pool.map(one, runs)) if not right]


def print_figures(seconds: float) -> None:
    print(f"\n{sum(COUNTS.values())} cases in {seconds:.0f} s\n")
    for name, count in sorted(COUNTS.items()):
        print(f"{count:7} {name}")
    print("\nthe largest\n")
    for name, size in sorted(MOST.items()):
        print(f"{size:20,} {name.replace('_', ' ')}")


def hunted(hunt: Hunt, seed: str, cases: int) -> None:
    """Writes the files. Of twenty cases six are batches, nine are requests and five are messages. The long cases are additional."""
    if cases >= LONG:
        hunt.put("long", [long_report(Draw(seed + " long report"), "office", *REPORT).drill("a long report")], 1)
        hunt.put("long", [longest_session(Draw(seed + " longest session"), "office").drill("the longest session")], 1)
        hunt.put("long", [talk.case(f"a long exchange {k}") for k, talk in enumerate(long_talks(Draw(seed + " long exchanges")))], 1)
        hunt.put("long", [plan_case(plan, f"a long batch {k}") for k, plan in enumerate(long_plans(Draw(seed + " long batches")))], 1)
    hunt.put("batches", plan_cases(Draw(seed + " batches"), cases * 6 // 20), 50)
    hunt.put("exchanges", exchange_cases(Draw(seed + " exchanges"), cases * 9 // 20), 8)
    hunt.put("messages", message_cases(Draw(seed + " messages"), cases * 5 // 20), 20)


def persod(program: str, draw: Draw, cases: int, jobs: int, folder: pathlib.Path) -> list[Run]:
    """Runs the program once for each forty cases. Returns the runs with wrong results."""
    runs = [plan_run(draw, k) for k in range(cases // 60)] + [drill_run(draw, k) for k in range(cases // 120)]
    wrong = run_persod(program, runs, jobs, folder)
    for run in wrong:
        (folder / run.name).write_bytes(run.given)
        print(f"failed: persod {' '.join(run.words)} <{folder / run.name}")
    print(f"{len(runs)} runs of persod, {len(wrong)} of them wrong", flush=True)
    return wrong


def main() -> None:
    words = argparse.ArgumentParser(description=__doc__, formatter_class=argparse.RawDescriptionHelpFormatter)
    words.add_argument("worked")
    words.add_argument("persod")
    words.add_argument("--seed", default=SEED)
    words.add_argument("--cases", type=int, default=CASES, help=f"with {LONG} or more, long cases are added")
    words.add_argument("--jobs", type=int, default=os.cpu_count() or 1)
    given = words.parse_args()
    folder = pathlib.Path(tempfile.mkdtemp(prefix="shapes-"))
    hunt, start = Hunt(given.worked, folder, given.jobs), time.monotonic()
    hunted(hunt, given.seed, given.cases)
    print(f"seed {given.seed}: {len(hunt.wanted)} files", flush=True)
    hunt.run_all()
    wrong = persod(given.persod, Draw(given.seed + " persod"), given.cases, given.jobs, folder)
    print_figures(time.monotonic() - start)
    if hunt.failed:
        hunt.alone()
    if hunt.failed or wrong:
        sys.exit(f"{len(hunt.failed)} files and {len(wrong)} runs of persod failed; they are in {folder}")
    shutil.rmtree(folder)
    print("\nno case failed without cause, and no two ways differed")


if __name__ == "__main__":
    main()
