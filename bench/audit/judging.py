"""Compares verdicts on a file: that of auditor.py, and that of `persod report --db FILE --batch NAME` on a copy."""
import concurrent.futures
import pathlib
import shutil
import sqlite3
import subprocess
import tempfile
from collections import Counter
from typing import Any, NamedTuple

from auditor import DAMAGED, OTHER_TABLES, TAKEN, verdict
from schema import version_of

BATCH = "B1"
# If a change removed the batch, the file is accepted, and the report is refused.
BATCH_UNKNOWN = "56"
SECONDS = 120


class Case(NamedTuple):
    """A file, the expected verdict, and sometimes a rule of auditor.py that the file must break."""

    name: str
    path: pathlib.Path
    wanted: str
    sentence: str | None = None


def held(path: pathlib.Path) -> Any:
    """Returns the contents of a file: the rows if it has the tables of any schema version; otherwise the SQL that makes the file again; or its
    bytes."""
    if not path.exists():
        return None
    conn = sqlite3.connect(path)
    conn.text_factory = bytes
    try:
        if version_in(path) is None:
            conn.text_factory = str
            return list(conn.iterdump())
        names = [name.decode() for name, in conn.execute("SELECT name FROM sqlite_schema WHERE type = 'table'")]
        rows = {name.replace("grouping2", "grouping"): sorted(conn.execute(f"SELECT * FROM {name}")) for name in names if name != "version"}
        return {"mark": [], **rows}
    except sqlite3.DatabaseError:
        return path.read_bytes()
    finally:
        conn.close()


def version_in(path: pathlib.Path) -> int | None:
    conn = sqlite3.connect(path)
    try:
        return version_of(conn)
    finally:
        conn.close()


def report(program: str, path: pathlib.Path) -> str:
    """Returns the program's verdict on a file, which it may change: `taken`, the number of a refusal, or a description of anything else."""
    run = subprocess.run([program, "report", "--db", str(path), "--batch", BATCH], capture_output=True, timeout=SECONDS)
    printed = run.stderr.decode(errors="replace")
    refused = printed.removeprefix("refused ").removesuffix("\n")
    if (run.returncode, printed) == (0, "") or (run.returncode, refused) == (1, BATCH_UNKNOWN):
        return TAKEN
    if (run.returncode, run.stdout) == (1, b"") and refused in (OTHER_TABLES, DAMAGED):
        return refused
    return f"status {run.returncode}, {printed!r}"


def by_program(program: str, path: pathlib.Path) -> str:
    """Returns the program's verdict. It also checks that the copy has the same contents afterwards, and the current tables if it was accepted."""
    with tempfile.TemporaryDirectory() as folder:
        copy, same = pathlib.Path(folder) / "copy.db", pathlib.Path(folder) / "same.db"
        for end in ("", "-wal"):
            if (its := path.with_name(path.name + end)).exists():
                shutil.copyfile(its, copy.with_name(copy.name + end))
                # The SQLite library copies and deletes the WAL of a database that it reads.
                shutil.copyfile(its, same.with_name(same.name + end))
        before = held(same)
        answer = report(program, copy)
        if held(copy) != before:
            return f"{answer}, but the contents of the file changed"
        if answer == TAKEN and (again := verdict(copy)).result != TAKEN:
            return f"{answer}, but afterwards auditor.py says {again.result} {again.why}"
        if answer == TAKEN and version_in(copy) != 3:
            return f"{answer}, but left in an earlier schema version"
    return answer


def difference(case: Case, program: str | None) -> str | None:
    """Returns how the verdicts on a file differ from the expected one, or None."""
    found = verdict(case.path)
    if found.result != case.wanted:
        return f"expected {case.wanted}, but auditor.py says {found.result} {found.why}"
    if case.sentence and case.sentence not in found.sentences:
        return f"expected a finding of {case.sentence}, but only {', '.join(found.sentences)} found something"
    answer = by_program(program, case.path) if program else found.result
    return f"expected {case.wanted}, but the program says {answer}" if answer != case.wanted else None


def judge_all(what: str, cases: list[Case], program: str | None) -> bool:
    """Prints the differences and the number of files by verdict. Returns whether there was no difference."""
    with concurrent.futures.ThreadPoolExecutor() as pool:
        found = {case.name: why for case, why in zip(cases, pool.map(lambda case: difference(case, program), cases)) if why}
    for name, why in found.items():
        print(f"{name}: {why}")
    counts = ", ".join(f"{count} {wanted}" for wanted, count in Counter(case.wanted for case in cases).most_common())
    print(f"{what}: {len(cases)} files ({counts}), {len(found)} of them with a wrong verdict" + ("" if program else "; only auditor.py judged them"))
    return not found
