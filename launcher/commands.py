"""The commands, from the two files that have them: docs/formats.md (words, what they do and print, statuses, lines) and
commands.json here (who uses each, a line of help, an example).

A command is added by its row in docs/formats.md, and by its entry in commands.json: who it is for (`by`), what it does in a
few words (`does`), an example that ends with status 0 on the sample archive, if the commands can make its files, and the
commands whose examples are typed before it (`after`). The examples of all commands can be typed in the order of the file.
"""

import json
import re
from pathlib import Path
from typing import NamedTuple

HOME = Path(__file__).resolve().parent.parent
FORMATS = HOME / "docs" / "formats.md"
ENTRIES: dict = json.loads((HOME / "launcher" / "commands.json").read_text(encoding="utf-8"))
EXAMPLES = {name: entry["example"] for name, entry in ENTRIES.items() if "example" in entry}

ABOUT = ("The owner of an archive indexes it and publishes one SHA-256 digest, the root. A server answers ranked queries with "
         "proofs. A reader who holds only the root checks them.")
# What the launcher answers itself.
OPTIONS = {
    "ats help COMMAND": "the words of a command, what it prints, its statuses, and an example; so with ats COMMAND --help",
    "ats --version": "the commit, the formats, and whether the program is proved",
    "ats --quiet COMMAND ..": "explains no fault on standard error; nor does ATS_QUIET, if that is no terminal",
}
FILES = {"COLLECTION", "INDEX", "INDEX2", "OLDINDEX", "NEWINDEX", "PROOF", "LIST", "FILE", "ROOTS"}

# What a line begins with, and before which table of docs/formats.md its texts stand.
LINES = {"refused: ": "### The texts after `refused: `", "input: ": "The texts after `input: `", "peer: ": "### The texts after `peer: `"}

# Each command may end with 0, 2, 6 and 7, and with a status below if it takes one of these words, or its name begins so.
# tests/package.py compares this with docs/theorems.md.
ENDS = {
    1: {"ROOT", "OLDROOT", "audit", "sweep"},
    3: FILES,
    4: {"COLLECTION", "INDEX", "OLDINDEX", "ROOTS", "R", "QUERY", "trial"},
    5: {"audit", "sweep"},
    8: {"ADDRESS"},
    9: {"ask"},
    10: {"serve"},
}


class Command(NamedTuple):
    """A command, its words, and what it does."""

    name: str
    words: "list[str]"
    does: str


def formats() -> str:
    return FORMATS.read_text(encoding="utf-8")


def table(text: str, heading: str) -> "list[list[str]]":
    """The rows of the first table after the line that begins so, without its head."""
    rows = text[text.index(heading):].split("\n\n")
    found = next(part for part in rows[1:] if part.startswith("|"))
    return [[cell.strip() for cell in re.split(r"(?<!\\)\|", line)[1:-1]] for line in found.splitlines()[2:]]


def commands(text: str) -> "list[Command]":
    found = []
    for typed, does in table(text, "## What the commands are called with"):
        name, *words = typed.strip("`").split()
        found.append(Command(name, words, does))
    return found


def words(text: str) -> "dict[str, str]":
    """What each word of a command is."""
    return {name: means for names, means in table(text, "Each word has its place") for name in names.split(", ")}


def usage(text: str) -> str:
    """The line that the program prints for words of no command."""
    return next(line.strip("`") for status, line, _ in statuses(text) if status == "2")


def statuses(text: str) -> "list[list[str]]":
    return table(text, "Any other status has one line.")


def lines(text: str) -> "list[tuple[str, str, str]]":
    """Each line that begins with one of LINES, and when it is printed."""
    return [(head, cells[-2], cells[-1]) for head, heading in LINES.items() for cells in table(text, heading)]


def ends(command: Command) -> "list[int]":
    """The statuses with which a command may end."""
    own = {command.name.partition("-")[0], *command.words}
    return sorted({0, 2, 6, 7, *(status for status, causes in ENDS.items() if causes & own)})


def plain(markdown: str) -> str:
    """Text without links and marks."""
    return re.sub(r"\[([^]]*)\]\([^)]*\)", r"\1", markdown).replace("`", "")


def outputs(text: str) -> "list[str]":
    """The items of docs/formats.md on what commands print with status 0."""
    listed = text[text.index("\nOn status 0:"):text.index("\nAny other status has one line.")]
    return re.findall(r"^- (.*?)(?=^- |\Z)", re.sub(r"^```$\n", "", listed, flags=re.M), re.M | re.S)


def prints(text: str, name: str) -> str:
    """What a command prints with status 0. Its item names it in the first sentence."""
    return plain(next(item for item in outputs(text) if f"`{name}`" in re.split(r"[.:] ", item)[0])).strip()


def before(name: str) -> "list[str]":
    """The commands whose examples are typed before that of this one, in order."""
    wanted: "list[str]" = []
    for other in ENTRIES[name].get("after", []):
        wanted += [it for it in (*before(other), other) if it not in wanted]
    return wanted
