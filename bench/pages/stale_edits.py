#!/usr/bin/env python3
"""Checks that each edit in must-fail and more-edits can be applied to its file.

    bench/run stale_edits

An edit names a file, and has pairs of lines, `old: TEXT` and `new: TEXT`. The old text must occur in the file exactly once, after the previous
pairs were applied. `rt check` tests this only for edits in must-fail. Exit status: 1 if an edit can't be applied."""
import pathlib
import sys
from typing import Optional

TOP = pathlib.Path(__file__).resolve().parents[2]


def fault(edit: pathlib.Path) -> Optional[str]:
    """Returns the reason why an edit can't be applied, or None."""
    path, old, texts = edit, "", {}
    for line in edit.read_text().splitlines():
        word, _, text = line.partition(":")
        text = text.removeprefix(" ")
        if word == "file":
            path = edit.parents[1] / text
            if not path.is_file():
                return f"{text} doesn't exist"
            texts.setdefault(path, path.read_text())
        elif word == "old":
            old = text
        elif word == "new":
            count = texts.get(path, "").count(old)
            if count != 1:
                return f"{path.name} has the old text {count} times: {old}"
            texts[path] = texts[path].replace(old, text)
    return None if any(path.read_text() != text for path, text in texts.items()) else "it changes nothing"


def main() -> int:
    edits = sorted([*TOP.glob("crates/*/must-fail/*.edit"), *TOP.glob("crates/*/more-edits/*.edit")])
    faults = [(edit, why) for edit in edits if (why := fault(edit))]
    for edit, why in faults:
        print(f"{edit.relative_to(TOP)}: {why}")
    print(f"{len(edits)} edits, {len(faults)} can't be applied")
    return 1 if faults else 0


if __name__ == "__main__":
    sys.exit(main())
