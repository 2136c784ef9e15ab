#!/usr/bin/env python3
"""Asks a server for the proof of an answer, stores its bytes, and then has the program check them by `verify`. So evidence
is left: `ask` prints the same rows, and keeps nothing.

It sends and reads the frames that docs/formats.md has, within the limits of `ask`. What it prints, and the status, are
those of `ask` too. Nothing is proved of this script. Python 3.9 and its standard library are all that it needs.

    keep.py $ROOT tnra 3 "blood count" 127.0.0.1:7070 answer.proof
"""
import argparse
import os
import subprocess
import sys
from typing import Callable

sys.dont_write_bytecode = True
sys.path.insert(0, os.path.join(os.path.dirname(os.path.dirname(os.path.realpath(__file__))), "owner"))
from archive_files import PROGRAM, Fault, Words, reason, say, shown, store  # noqa: E402
from wire import ALGORITHMS, Ending, asked, parsed, request, try_words  # noqa: E402

HELP = """The words are those of `ask`, and FILE, which gets the bytes of the proof, whether or not they are accepted. It
is replaced as a whole. Write -- before words of which one begins with a dash.

Status 0: the rows are printed. Status 1: the proof is refused, and FILE has it. Status 2 and 4: the words, R or QUERY are
wrong. Status 3: FILE cannot be stored, or the program cannot be run. Status 8: nobody answered at ADDRESS, or the
connection failed. Status 9: the reply is no proof. With the last four FILE is as before. docs/formats.md has each line."""


def checked(command: str, said: argparse.Namespace, proof: bytes) -> int:
    """Stores the proof in FILE, has the program check it by this command, and returns the status."""
    try:
        store(proof, said.file)
    except OSError as error:
        raise Fault(f"{shown(said.file)} cannot be stored: {reason(error)}", 3) from None
    return subprocess.run([said.program, command, said.root, said.rows, said.query, said.file], check=False).returncode


def keep(said: argparse.Namespace) -> int:
    try_words(said.program, "verify", said.root, said.rows, said.query)
    return checked("verify", said, asked(said.address, request(said.algorithm, int(said.rows), os.fsencode(said.query))))


def ended(one: Callable[[argparse.Namespace], int], said: argparse.Namespace) -> int:
    """The status of a script, which says its line if it ends before its proof is checked."""
    try:
        return one(said)
    except Ending as ending:
        if ending.line:
            print(ending.line, flush=True)
        return ending.status
    except Fault as fault:
        say(str(fault))
        return fault.status


def read_words(argv: list[str]) -> argparse.Namespace:
    words = Words(__doc__, HELP)
    words.add_argument("--program", default=PROGRAM, help="another program than ./ats of this repository")
    words.add_argument("root", metavar="ROOT")
    words.add_argument("algorithm", metavar="ALG", choices=ALGORITHMS)
    words.add_argument("rows", metavar="R")
    words.add_argument("query", metavar="QUERY")
    words.add_argument("address", metavar="ADDRESS")
    words.add_argument("file", metavar="FILE")
    return parsed(words, argv)


if __name__ == "__main__":
    sys.exit(ended(keep, read_words(sys.argv[1:])))
