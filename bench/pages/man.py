#!/usr/bin/env python3
"""Writes the man pages from the help of the programs, the texts in man/*.md, and tables of the pages.

    bench/run man            writes man/man1/ and man/man5/
    bench/run man --check    fails if a man page differs from its sources, or if groff warns about it

A text is Markdown with a title such as `# persod(1)`, which is completed by the first line of the help, or `# persod-batch(5): PURPOSE`. These
lines are replaced:

    <!-- help: commands -->    the subcommands with their options; also `options`, `exit statuses` and `environment`
    <!-- table of PAGE: HEADER, .. -->    the table of a page whose header has these cells

In a table, the last column describes the others. Other comments are ignored."""
import re
import shutil
import subprocess
import sys
from pathlib import Path
from typing import NamedTuple, Optional

TOP = Path(__file__).resolve().parents[2]
GROFF = "groff", "-man", "-Tutf8", "-ww", "-z"
CHARACTERS = {"\\": r"\e", "-": r"\-", "~": r"\(ti", "^": r"\(ha", "`": r"\(ga"}
OPTION = re.compile(r" +(-\w, )?(--[\w-]+)( <(\w+)>)?(?:  +(.*))?")


class Option(NamedTuple):
    """An option of a program: its letter, its name, the word for its value, and its description."""

    letter: Optional[str]
    name: str
    value: Optional[str]
    text: str

    def roff(self) -> str:
        value = f" {italic(self.value)}" if self.value else ""
        return f"{bold(self.letter) + ', ' if self.letter else ''}{bold(self.name)}{value}"


class Help(NamedTuple):
    """The parts of a help text."""

    about: str
    usage: str
    commands: list[str]
    options: list[Option]
    rest: list[str]

    def own(self) -> list[Option]:
        return [option for option in self.options if option.name not in ("--help", "--version")]


def help_of(program: Path, name: str, *words: str) -> Help:
    """Reads the help of a program or a subcommand."""
    ran = subprocess.run([name, *words, "--help"], executable=program, capture_output=True, text=True, timeout=60, check=True)
    about, usage, *paragraphs = ran.stdout.rstrip("\n").split("\n\n")
    found = Help(about, usage.removeprefix("Usage: "), [], [], [])
    for paragraph in paragraphs:
        heading, *lines = paragraph.split("\n")
        if heading == "Commands:":
            found.commands.extend(line.split()[0] for line in lines if line.split()[0] != "help")
        elif heading == "Options:":
            found.options.extend(options_of(lines))
        else:
            found.rest.append(paragraph)
    return found


def options_of(lines: list[str]) -> list[Option]:
    options: list[Option] = []
    for line in lines:
        match = OPTION.fullmatch(line)
        if match:
            letter, name, _, value, text = match.groups()
            options.append(Option(letter and letter[:2], name, value, text or ""))
        elif options and line.startswith("    "):  # the description of a long option is on the next line
            options[-1] = options[-1]._replace(text=f"{options[-1].text} {line.strip()}".strip())
        else:
            raise SystemExit(f"man.py can't read this line of a help text: {line}")
    return options


# ---- roff


def escaped(text: str) -> str:
    return "".join(CHARACTERS.get(character, character) for character in text)


def bold(text: str) -> str:
    return rf"\fB{escaped(text)}\fR".replace("'", r"\(aq")


def italic(text: str) -> str:
    return rf"\fI{escaped(text)}\fR"


def inline(text: str) -> str:
    """Returns a text in roff. Code in backticks becomes bold, and links lose their targets."""
    text = re.sub(r"\[([^]]*)\]\([^)]*\)", r"\1", text)
    parts = [bold(part) if place % 2 else escaped(part) for place, part in enumerate(text.split("`"))]
    return lines("".join(parts))


def lines(text: str) -> str:
    """Returns the text with each sentence on its own line. No line is a roff request."""
    return re.sub(r"(?m)^(?=[.'])", r"\\&", re.sub(r"(?<=[a-z0-9)R]\.) (?=\S)", "\n", text))


def tagged(tag: str, text: str) -> str:
    return f".TP\n{tag}\n{inline(text)}" if text else f".TP\n{tag}"


def example(text: str) -> str:
    return "\n".join([".PP", ".RS 4", ".nf", *(rf"\&{escaped(line)}".replace("'", r"\(aq") for line in text.split("\n")), ".fi", ".RE"])


# ---- parts from the programs


def paragraph_of(helps: list[Help], label: str) -> str:
    """Returns the paragraph with this label, which must be the same in every help text that has it."""
    found = {paragraph.removeprefix(label) for text in helps for paragraph in text.rest if paragraph.startswith(label)}
    if len(found) != 1:
        raise SystemExit(f"{len(found)} help texts differ in '{label}'")
    return found.pop()


def usage(text: Help) -> str:
    """Returns the usage with the optional options instead of `[OPTIONS]`."""
    optional = " ".join(f"[{option.roff()}]" for option in text.own() if f"{option.name} " not in f"{text.usage} ")
    words = re.sub(r" \[OPTIONS\]", "", text.usage)
    words = re.sub(r"<(\w+)>|([^ <>]+)", lambda word: italic(word[1]) if word[1] else bold(word[2]), words)
    return f"{words} {optional}".rstrip()


def commands(helps: dict[str, Help]) -> str:
    parts = []
    for name, text in helps.items():
        parts += [f".SS {name}", inline(f"{text.about}.")]
        parts += [tagged(option.roff(), option.text) for option in text.own()]
        parts += [f".PP\n{inline(paragraph)}" for paragraph in text.rest if not paragraph.startswith(("Exit statuses: ", "Environment: "))]
    return "\n".join(parts)


def help_part(part: str, program: Help, helps: dict[str, Help]) -> str:
    if part == "commands":
        return commands(helps)
    if part == "options":
        return "\n".join(tagged(option.roff(), option.text) for option in program.options)
    texts = [program, *helps.values()]
    if part == "exit statuses":
        statuses = paragraph_of(texts, "Exit statuses: ").split("; ")
        return "\n".join(tagged(bold(status), text) for status, text in (entry.split(" ", 1) for entry in statuses))
    if part == "environment":
        text = paragraph_of(texts, "Environment: ")
        return tagged(bold(text.split("=")[0]), re.sub(r"\b[A-Z_]+=\w+", r"`\g<0>`", text))
    raise SystemExit(f"man.py has no part '{part}'")


# ---- parts from the texts and pages


def rows_of(table: list[str]) -> list[list[str]]:
    return [[cell.strip() for cell in line.strip("|").split(" | ")] for line in table]


def entries(table: list[str]) -> str:
    """Returns the rows of a table, without its header."""
    return "\n".join(tagged(inline(" ".join(cells if "`" in cells[0] else [f"`{cell}`" for cell in cells])), text) for *cells, text in rows_of(table[2:]))


def table_of(page: str, header: list[str]) -> str:
    for block in (TOP / page).read_text().split("\n\n"):
        table = block.strip("\n").split("\n")
        if table[0].startswith("|") and rows_of(table[:1]) == [header]:
            return entries(table)
    raise SystemExit(f"{page} has no table with the columns {', '.join(header)}")


def block_of(block: str, program: Optional[Help], helps: dict[str, Help]) -> str:
    comment = re.fullmatch(r"<!-- (help|table of ([\w./]+)): (.*) -->", block)
    if comment and comment[2]:
        return table_of(comment[2], comment[3].split(", "))
    if comment and program:
        return help_part(comment[3], program, helps)
    if block.startswith("<!-- "):
        return ""
    if block.startswith("## "):
        return f".SH {block[3:].upper()}"
    if block.startswith("|"):
        return entries(block.split("\n"))
    if block.startswith("    "):
        return example(re.sub("(?m)^    ", "", block))
    return f".PP\n{inline(' '.join(block.split()))}"


def page_of(source: Path, programs: dict[str, Path]) -> tuple[str, str]:
    """Returns the path and the text of the man page of a source."""
    title, *blocks = re.split(r"\n\n(?! )|\n\n(?=    )", source.read_text().rstrip("\n"))
    name, section, purpose = re.fullmatch(r"# ([\w-]+)\((\d)\)(?:: (.*))?", title).groups()
    program, helps, parts = None, {}, []
    if name in programs:
        program = help_of(programs[name], name)
        helps = {command: help_of(programs[name], name, command) for command in program.commands}
        purpose = program.about[0].lower() + program.about[1:]
        parts = [".SH SYNOPSIS\n.nf", *(usage(text) for text in helps.values()), ".fi"]
    version = subprocess.run([programs.get(name, programs["persod"]), "--version"], capture_output=True, text=True, check=True).stdout.strip()
    head = rf'.\" Written by bench/pages/man.py: change the help of the programs, man/{source.name} or a page.'
    head += f'\n.TH {name.upper()} {section} "" "{version}" ""\n.ad l\n.nh\n.SH NAME\n{name} \\- {escaped(purpose)}'
    parts = [head, *parts, *(block_of(block, program, helps) for block in blocks)]
    text = re.sub(r"(?m)^(\.SH .*)\n\.PP$", r"\1", "\n".join(part for part in parts if part))
    return f"man/man{section}/{name}.{section}", f"{text}\n"


def faults_of(path: str, text: str) -> list[str]:
    file = TOP / path
    faults = [f"{path} is outdated: run bench/run man"] * (not file.exists() or file.read_text() != text)
    if not faults and shutil.which(GROFF[0]):
        warnings = subprocess.run([*GROFF, file], capture_output=True, text=True).stderr.splitlines()
        faults = [f"groff: {warning}" for warning in warnings]
    return faults


def main() -> int:
    programs = dict(zip(("persod", "shopbook"), map(Path, sys.argv[1:3])))
    pages = dict(page_of(source, programs) for source in sorted((TOP / "man").glob("*.md")))
    if "--check" not in sys.argv[3:]:
        for path, text in pages.items():
            (TOP / path).parent.mkdir(parents=True, exist_ok=True)
            (TOP / path).write_text(text)
    faults = [fault for path, text in pages.items() for fault in faults_of(path, text)]
    others = sorted(set(map(str, (file.relative_to(TOP) for file in (TOP / "man").glob("man*/*")))) - {*pages})
    faults += [f"{path} has no source" for path in others]
    groff = "" if shutil.which(GROFF[0]) else "; not checked by groff, which isn't on this machine"
    print("\n".join([*faults, f"{len(pages)} man pages, {len(faults)} faults{groff}"]))
    return 1 if faults else 0


if __name__ == "__main__":
    sys.exit(main())
