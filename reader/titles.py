#!/usr/bin/env python3
"""Puts titles into an answer: reads rows `RANK DOC LOWER UPPER` from standard input, as `rank`, `verify` and `ask` print
them, and prints `RANK TITLE LOWER UPPER`, parted by tabs.

The title is the member `title` of the collection's item number DOC, or `document DOC` if it has none. A root commits to
texts only, so such a title is as good as the collection file that it is read from. With --title-line the title is the
first line of the item's text: the root binds it, if the collection has that root and was made with this option. The
owner's publication then has the line `titles: first-line`. Nothing is proved of this script. Python 3.9 and its standard
library are all that it needs.

    ./ats verify $ROOT 3 "blood count" answer.proof | titles.py mine.json
"""
import os
import re
import sys
from typing import Optional

sys.dont_write_bytecode = True
sys.path.insert(0, os.path.join(os.path.dirname(os.path.dirname(os.path.realpath(__file__))), "owner"))
from archive_files import Fault, Words, printable, say  # noqa: E402
from documents import items_of  # noqa: E402

HELP = """In a title, characters that are not printable stand as escapes, so each row is one line.

Status 0: each row is printed with its title. Status 1: a line is no row of this collection, and stands on standard
error; it may be the refusal that the program printed. No row is printed then. Status 2: the words are wrong."""

ROW = re.compile(r"([0-9]+) ([0-9]+) ([0-9]+) ([0-9]+)")


def title(item: object, from_line: bool) -> Optional[str]:
    """The title of an item, if it has one."""
    if from_line:
        text = item.get("text") if isinstance(item, dict) else item
        return text.partition("\n")[0] if isinstance(text, str) else None
    name = item.get("title") if isinstance(item, dict) else None
    return name if isinstance(name, str) else None


def titled(items: list, line: str, from_line: bool) -> Optional[str]:
    """The row with its title, or None if the line is no row of this collection."""
    row = ROW.fullmatch(line)
    if not row or len(row[2]) > 9 or int(row[2]) >= len(items):
        return None
    rank, document, lower, upper = row.groups()
    name = title(items[int(document)], from_line)
    return "\t".join([rank, f"document {document}" if name is None else printable(name), lower, upper])


def main(argv: list[str]) -> int:
    words = Words(__doc__, HELP)
    words.add_argument("--title-line", action="store_true", help="read titles from the first lines of the texts")
    words.add_argument("collection", metavar="COLLECTION")
    said = words.parse_args(argv)
    try:
        items = items_of(said.collection)
    except Fault as fault:
        say(str(fault))
        return 1
    lines = sys.stdin.buffer.read().decode("utf-8", "backslashreplace").split("\n")
    rows = []
    for line in lines if lines[-1] else lines[:-1]:
        row = titled(items, line, said.title_line)
        if row is None:
            say(printable(line))
            return 1
        rows.append(row + "\n")
    sys.stdout.buffer.write("".join(rows).encode())
    return 0


if __name__ == "__main__":
    sys.exit(main(sys.argv[1:]))
