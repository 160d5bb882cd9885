#!/usr/bin/env python3
"""Compares the speed of two builds of `persod serve`, PERSOD and OTHER, in the same run.

    OTHER=/path/to/persod bench/run builds [--folder FOLDER] [--rounds N] [--cards N]

1, 4 and 20 machines (c/machines.c) make cards, and each commit is synced to the disk of FOLDER. The builds take turns with 1,000 requests each,
and every second round begins with the other build. For each number of machines, the script prints the median rate of both builds, and the
median, the lowest and the highest ratio of a round."""
import argparse
import pathlib
import statistics
import sys
import tempfile

sys.path.insert(0, str(pathlib.Path(__file__).resolve().parent.parent / "parts"))
from served import Server, free_port
from speed import MACHINES, Machines, Shop


def rate(shop: Shop, machines: int) -> float:
    shop.ready([])
    return shop.make(machines)[0].rate


def compare(ours: Shop, other: Shop, rounds: int) -> None:
    for machines in MACHINES:
        rates = []
        for number in range(rounds):
            if number % 2:
                of_other, of_ours = rate(other, machines), rate(ours, machines)
            else:
                of_ours, of_other = rate(ours, machines), rate(other, machines)
            rates.append((of_ours, of_other))
        ratios = [one / two for one, two in rates]
        medians = [statistics.median(side) for side in zip(*rates)]
        print(f"{machines:2} machines: {medians[0]:,.0f} and {medians[1]:,.0f} requests per second; ratio {statistics.median(ratios):.2f}, "
              f"{min(ratios):.2f} to {max(ratios):.2f}", flush=True)


def main() -> None:
    words = argparse.ArgumentParser(description=__doc__, formatter_class=argparse.RawDescriptionHelpFormatter)
    words.add_argument("program")
    words.add_argument("other")
    words.add_argument("machines")
    words.add_argument("--folder")
    words.add_argument("--rounds", type=int, default=20)
    words.add_argument("--cards", type=int, default=20)
    given = words.parse_args()
    with tempfile.TemporaryDirectory(dir=given.folder) as folder:
        shops = []
        for name, program in (("ours", given.program), ("other", given.other)):
            server = Server(program, pathlib.Path(folder) / f"{name}.db", free_port())
            shops.append(Shop(server, given.cards, Machines(given.machines, given.cards)))
            shops[-1].stock()
        compare(*shops, given.rounds)
        for shop in shops:
            shop.server.kill()
            shop.machines.process.kill()


if __name__ == "__main__":
    main()
