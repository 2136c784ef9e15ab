#!/usr/bin/env python3
"""Asks the servers of all shards of a catalog for the best documents of all together, stores the proof of the answer, and
then has the program check it by `catalog`.

ROOTS is a file with the root of each shard, a line each, as `catalog-root` reads it. ADDRESSES is one with the address of a
server (`serve`) of each, in the same order. All are asked side by side for R rows by TRA, and the rows are merged. A shard
that has fewer of the best is asked again for one row more than these, which is a shorter proof. Whoever puts the file
together need not be trusted, so the reader does it here. Nothing is proved of this script. Python 3.9 and its standard
library are all that it needs.

    catalog.py $ROOT 3 "blood count" roots.txt addresses.txt answer.proof
"""
import argparse
import os
import re
import sys
import tempfile
from collections import Counter
from concurrent.futures import ThreadPoolExecutor
from typing import NamedTuple, Union

sys.dont_write_bytecode = True
sys.path.insert(0, os.path.join(os.path.dirname(os.path.dirname(os.path.realpath(__file__))), "owner"))
from archive_files import PROGRAM, Fault, TooLong, Words, output, printable, read_within, reason, say, shown  # noqa: E402
from keep import checked, ended  # noqa: E402
from publication import MAX_SHARDS, ROOT, catalog_root  # noqa: E402
from wire import Ending, asked, parsed, request, try_words  # noqa: E402

HELP = """The words are those of `catalog`, with both lists before FILE, which is replaced as a whole. Write -- before words of
which one begins with a dash. No answer is complete without each shard. So a server that is missing, too slow, or lies is
named with its shard on standard error, and FILE is as before: start it, or name another one for this shard.

Status 0: the rows are printed. Status 1: a proof is refused; the line is that of `catalog`. Status 2 and 4: the words, R or
QUERY are wrong, or the proof is too long: ask for fewer rows. Status 3: a list or FILE cannot be read or written, or the
program cannot be run. Status 8: a server does not answer. Status 9: its reply is no proof."""

SECONDS = 60  # of one answer
SIDE_BY_SIDE = 64  # servers that are asked at the same time
NAMED = 10  # shards that lines name
MAX_LIST = 1 << 20
MAX_FILE = 1 << 28
TRA = 1  # byte 5 of a proof


class Shard(NamedTuple):
    """One archive of the catalog, and where it is served."""

    number: int
    root: str
    address: str


class Answer(NamedTuple):
    """A proof that the program accepts, and the scores of its rows."""

    proof: bytes
    scores: list[int]


class Failed(Exception):
    """Why a shard has no answer, in a line that says what to do; how the run then ends."""

    def __init__(self, says: str, ending: Ending):
        super().__init__(says)
        self.ending = ending


# The lists


def lines_of(path: str, what: str) -> list[str]:
    try:
        lines = read_within(path, MAX_LIST).decode("utf-8").split("\n")
    except TooLong:
        raise Fault(f"{shown(path)} has more than {MAX_LIST} bytes: give a list of {what}", 3) from None
    except UnicodeDecodeError:
        raise Fault(f"{shown(path)} is not UTF-8: give a list of {what}", 3) from None
    except OSError as error:
        raise Fault(f"{shown(path)} cannot be read: {reason(error)}", 3) from None
    return lines if lines[-1] else lines[:-1]


def shards_of(said: argparse.Namespace) -> list[Shard]:
    """The shards that both lists name. It raises Ending if the roots are not those of the catalog."""
    roots, addresses = lines_of(said.roots, "roots"), lines_of(said.addresses, "addresses")
    if len(roots) != len(addresses):
        raise Fault(f"{shown(said.roots)} has {len(roots)} lines and {shown(said.addresses)} {len(addresses)}: name the "
                    "server of each shard, in the same order", 3)
    wrong = [number for number, root in enumerate(roots, 1) if not re.fullmatch(ROOT, root)]
    if wrong or not 1 <= len(roots) <= MAX_SHARDS:
        raise Fault(f"{shown(said.roots)} is no list of roots of at most {MAX_SHARDS} shards: line {min(wrong, default=1)}", 3)
    if catalog_root(tuple(roots)) != said.root:
        say(f"{shown(said.roots)} has other roots than the catalog {said.root}: ask its owner for the list")
        raise Ending("refused: other-root", 1)
    return [Shard(number, *each) for number, each in enumerate(zip(roots, addresses))]


# Asking


def answer_of(said: argparse.Namespace, shard: Shard, rows: int) -> Answer:
    """What the server of a shard answers if it is asked for so many rows. It raises Failed if that is no answer."""
    where = f"shard {shard.number}: {printable(shard.address)}"
    try:
        proof = asked(shard.address, request("tra", rows, os.fsencode(said.query)), said.seconds)
    except Ending as ending:
        why = "does not answer" if ending.status == 8 else "sends no proof"
        raise Failed(f"{where} {why} ({ending.line}): start its server, or name another one",
                     Ending("", ending.status)) from None
    found = judged(said, shard, rows, proof)
    if proof[5] != TRA:
        raise Failed(f"{where} sends no proof by TRA: name another one", Ending("", 9))
    return found


def judged(said: argparse.Namespace, shard: Shard, rows: int, proof: bytes) -> Answer:
    """The answer that the program finds in a proof."""
    try:
        with tempfile.NamedTemporaryFile(prefix="shard-") as file:
            file.write(proof)
            file.flush()
            status, printed = output(said.program, "verify", shard.root, str(rows), said.query, file.name)
    except OSError as error:
        raise Fault(f"no temporary file can be written: {reason(error)}. Set TMPDIR to a folder with room", 3) from None
    if status == 1:
        line = printed.replace("refused:", f"refused: shard {shard.number}", 1)
        raise Failed(f"shard {shard.number}: {printable(shard.address)} has another archive, or lies: name another one",
                     Ending(line, status))
    if status:
        raise Fault(f"`verify` ended with status {status}: {printable(printed)}", 3)
    return Answer(proof, [int(line.split()[2]) for line in printed.splitlines()])


def all_asked(said: argparse.Namespace, questions: dict[Shard, int]) -> dict[Shard, Answer]:
    """The answers of servers that are asked side by side, each for so many rows. It names all that have none."""
    def one(shard: Shard) -> Union[Answer, Failed]:
        try:
            return answer_of(said, shard, questions[shard])
        except Failed as why:
            return why

    with ThreadPoolExecutor(SIDE_BY_SIDE) as pool:
        found = dict(zip(questions, pool.map(one, questions)))
    failed = [each for each in found.values() if isinstance(each, Failed)]
    for why in failed[:NAMED]:
        say(str(why))
    if failed:
        say(f"no answer is complete without {'this shard' if len(failed) == 1 else f'these {len(failed)} shards'}")
        raise failed[0].ending
    return {shard: each for shard, each in found.items() if isinstance(each, Answer)}


# The file


def counts_of(answers: list[Answer], most: int) -> list[int]:
    """How many of the best rows of all each shard has. Of rows that score the same those of the first shard come first."""
    rows = sorted((-score, shard) for shard, answer in enumerate(answers) for score in answer.scores)[:most]
    counts = Counter(shard for _, shard in rows)
    return [counts[shard] for shard in range(len(answers))]


def cut(answer: Answer, rows: int) -> bytes:
    """The proof with its first rows only: they are its last field, and its check within a catalog asks for no more."""
    end = len(answer.proof) - 4 * len(answer.scores)
    return answer.proof[:end - 2] + rows.to_bytes(2, "big") + answer.proof[end:end + 4 * rows]


def best_asked(said: argparse.Namespace, shards: list[Shard]) -> list[bytes]:
    """The proof of each shard, with those of its rows that are among the best of all."""
    rows = int(said.rows)
    answers = all_asked(said, dict.fromkeys(shards, rows))
    counts = dict(zip(shards, counts_of([answers[each] for each in shards], rows)))
    fewer = {shard: count + 1 for shard, count in counts.items() if count + 1 < rows and count < len(answers[shard].scores)}
    answers.update(all_asked(said, fewer))
    return [cut(answers[shard], count) for shard, count in counts.items()]


def file_of(shards: list[Shard], proofs: list[bytes]) -> bytes:
    """The proof of the catalog, as docs/formats.md has it."""
    head = b"ATSS\1" + len(shards).to_bytes(4, "big") + b"".join(bytes.fromhex(shard.root) for shard in shards)
    data = head + b"".join(len(proof).to_bytes(4, "big") + proof for proof in proofs)
    if len(data) > MAX_FILE:
        raise Ending(f"input: proof of {len(data)} bytes", 4)
    return data


def answer(said: argparse.Namespace) -> int:
    try_words(said.program, "catalog", said.root, said.rows, said.query)
    shards = shards_of(said)
    return checked("catalog", said, file_of(shards, best_asked(said, shards)))


def read_words(argv: list[str]) -> argparse.Namespace:
    words = Words(__doc__, HELP)
    words.add_argument("--program", default=PROGRAM, help="another program than ./ats of this repository")
    words.add_argument("--seconds", type=float, default=SECONDS, help=f"in which each server answers; {SECONDS} if not given")
    words.add_argument("root", metavar="ROOT")
    words.add_argument("rows", metavar="R")
    words.add_argument("query", metavar="QUERY")
    words.add_argument("roots", metavar="ROOTS")
    words.add_argument("addresses", metavar="ADDRESSES")
    words.add_argument("file", metavar="FILE")
    return parsed(words, argv)


if __name__ == "__main__":
    sys.exit(ended(answer, read_words(sys.argv[1:])))
