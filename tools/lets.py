#!/usr/bin/env python3
"""Finds a `let` that a proof script states more than twice.

usage: python3 tools/lets.py [NUMBER]

Looks at the answers of all crates (crates/*/proofs/**/Answers.antt). Two are the same if their names, their types and what
they are by have the same words. Prints NUMBER of them, or 20, the one with the most words to spare first: how often it
stands there, its file, the line of the first one, and its text. Then it prints how many there are in how many files.
"""

import collections
import re
import sys
from pathlib import Path
from typing import NamedTuple

HOUSE = Path(__file__).resolve().parent.parent
MOST = 20
ALLOWED = 2
LET = re.compile(r"\blet\s+")
WORD = re.compile(r"[()\[\]{};]|[^\s()\[\]{};]+")


class Repeated(NamedTuple):
    spared: int  # words that would go if it stood there once
    times: int
    path: str
    line: int
    text: str


def of_let(text: str) -> str:
    """What a `let` binds, in one line: all up to its own `in`, which is in no bracket and of no inner one."""
    depth = inner = 0
    for word in WORD.finditer(text):
        depth += (word[0] in "([{") - (word[0] in ")]}")
        if depth < 0 or (word[0] == "in" and depth == inner == 0):
            text = text[: word.start()]
            break
        inner += (word[0] == "let") - (word[0] == "in")
    return re.sub(r"(?<=[(\[{]) | (?=[)\]}])", "", " ".join(text.split()))


def repeated(path: Path) -> list[Repeated]:
    """The `let`s of a file that stand there more than twice."""
    text = re.sub(r"--.*", "", path.read_text(encoding="utf-8"))
    places = collections.defaultdict(list)
    for found in LET.finditer(text):
        end = text.find("\n\n", found.end())
        places[of_let(text[found.end():end if end > 0 else len(text)])].append(text.count("\n", 0, found.start()) + 1)
    name = str(path.relative_to(HOUSE))
    return [Repeated((len(lines) - 1) * len(let.split()), len(lines), name, lines[0], let)
            for let, lines in places.items() if len(lines) > ALLOWED]


def main() -> int:
    if len(sys.argv) > 2 or not all(word.isdigit() for word in sys.argv[1:]):
        print(__doc__.split("\n\n")[1], file=sys.stderr)
        return 2
    every = sorted((one for path in HOUSE.glob("crates/*/proofs/**/Answers.antt") for one in repeated(path)), reverse=True)
    for one in every[: int(sys.argv[1]) if sys.argv[1:] else MOST]:
        print(f"{one.times} times {one.path}:{one.line}: {one.text}")
    print(f"{len(every)} in {len({one.path for one in every})} files stand there more than {ALLOWED} times")
    return 0


if __name__ == "__main__":
    sys.exit(main())
