#!/usr/bin/env python3
"""Opens sound and refused files with `persod report` and `shopbook check`, while one of their allocations fails.

    bench/run refused_files [MOST]

The files are those of the script `causes`, and a sound one. For each file and program, at most MOST allocations (default: 150), evenly spread,
fail in a run of their own. Each run must either have the result of a run without a failed allocation, possibly without the event line, or exit
with status 3 and report `memory`. It must never report another cause, and never modify the file, unless it is empty. Requires cc. Exit status:
1 if a run ends otherwise, or if no allocation failed."""
import os
import pathlib
import subprocess
import sys
import tempfile
from concurrent.futures import ThreadPoolExecutor

from causes import FILES, bytes_of, changed, sound_file, File
from events import Ran
from served import environment

HERE = pathlib.Path(__file__).resolve().parent
SOUND = File("a sound file", lambda database: None, 0, "")


def ran(words: list[str], preloaded: pathlib.Path, **how: object) -> Ran:
    """Runs a program whose allocator is that of refused.c."""
    result = subprocess.run(
        words, stdin=subprocess.DEVNULL, capture_output=True, text=True, timeout=120,
        env={**environment("1"), "LD_PRELOAD": str(preloaded), **{name: str(value) for name, value in how.items()}},
    )
    return Ran(result.returncode, result.stdout.splitlines(), result.stderr.splitlines())


def allocations(words: list[str], preloaded: pathlib.Path, room: pathlib.Path) -> int:
    """Returns the number of allocations of a run."""
    report = room / "report"
    ran(words, preloaded, STEP=10**9, REPORT=report)
    return int(report.read_text().split()[-3])


def is_expected(result: Ran, usual: Ran) -> bool:
    """Returns True if a run with a failed allocation ended as it may. The event line is omitted if its allocation fails."""
    if result.status == 3:
        return result.errors[-1:] == ["memory"] and not any(line.startswith("refused") for line in result.errors)
    return result in (usual, usual._replace(errors=usual.errors[1:]))


def tried(file: File, base: pathlib.Path, commands: list[list[str]], preloaded: pathlib.Path, most: int) -> tuple[int, list[str]]:
    """Tries one file with both programs. Returns the number of failed allocations, and the runs that ended wrongly."""
    count, wrong = 0, []
    with changed(base, file) as database, tempfile.TemporaryDirectory() as room:
        before = bytes_of(database)
        for command in commands:
            words = [word.replace("DB", str(database)) for word in command]
            usual = ran(words, preloaded)
            number = allocations(words, preloaded, pathlib.Path(room))
            for at in range(1, number + 1, number // most + 1):
                result = ran(words, preloaded, AT=at)
                count += 1
                if not is_expected(result, usual):
                    wrong.append(f"{file.what}, {pathlib.Path(words[0]).name}, allocation {at}: {result}")
        if file.what != "an empty file" and bytes_of(database) != before:
            wrong.append(f"{file.what}: the file was modified")
    return count, wrong


def main() -> None:
    persod, shopbook = sys.argv[1:3]
    most = int(sys.argv[3]) if len(sys.argv) > 3 else 150
    commands = [[persod, "report", "--db", "DB", "--batch", "B1"], [shopbook, "check", "--db", "DB"]]
    with tempfile.TemporaryDirectory() as name:
        room = pathlib.Path(name)
        base, preloaded = room / "sound.db", room / "refused.so"
        subprocess.run(["cc", "-O2", "-shared", "-fPIC", "-o", preloaded, HERE / "refused.c"], check=True)
        sound_file(persod, base)
        files = [SOUND, *(file for file in FILES if not file.as_nobody)]
        with ThreadPoolExecutor(os.cpu_count()) as pool:
            results = list(pool.map(lambda file: tried(file, base, commands, preloaded, most), files))
    failed = [line for _, wrong in results for line in wrong]
    count = sum(number for number, _ in results)
    print(*failed, f"{len(files)} kinds of files, {count} failed allocations: {len(failed)} runs ended wrongly", sep="\n")
    sys.exit(bool(failed) or not count)


if __name__ == "__main__":
    main()
