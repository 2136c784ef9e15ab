#!/usr/bin/env python3
"""Measures what users run, and judges it by the targets of the table below.

usage: python3 bench/run.py [--quick] [--program PATH] [--library ARCHIVE.a] [GROUP ..]
       python3 bench/run.py --table

GROUP is a word before a point in the first column of the table; without one, all are measured. Without a path, the program
and the static library of the check are proved and built if needed. --quick measures everything in a small size, to see that
it works, and judges nothing. --table prints the table, as README.md has it. Ends with status 0 if all targets are met, 1 if
one is not, and 2 if something could not be measured. Needs Linux, gcc, and for the library the kit.
"""

import argparse
import sys
import tempfile
import time
from pathlib import Path
from typing import NamedTuple, Optional

import auditor
import measure
import owner
import reader
import server
from house import House

GROUPS = {
    "rank": owner.ranking,
    "build": owner.building,
    "migrate": owner.migrating,
    "reply": server.proving,
    "replies": server.answering,
    "serve": server.serving,
    "check": reader.checking,
    "page": reader.checking_in_page,
    "both": reader.checking_both,
    "fetch": reader.fetching,
    "load": auditor.loading,
    "sweep": auditor.sweeping,
}


class Row(NamedTuple):
    """What a figure is, what it is compared with, and the most that is accepted."""

    measured: str
    against: str = ""
    most: Optional[float] = None


TABLE = {
    "rank.seconds": Row("`rank` of ten rows, for a frequent, a usual and a rare word"),
    "rank.growth": Row("the same over 16 MiB", "the same over 4 MiB, for each byte", 1.25),
    "rank.over Python": Row("the same", "Python: `json.loads`, and the words of `re.findall` counted in a dictionary", 0.7),
    "build.seconds": Row("`build`"),
    "build.growth": Row("the same over 16 MiB", "the same over 4 MiB, for each byte", 1.2),
    "build.root over build": Row("`root`, which loads the index", "`build`", 1.1),
    "build.MiB held": Row("the most memory of `build`", "", 512),
    "build.over hashing": Row("`build` on one processor", "hashing as many blocks as its trees have", 1.4),
    "build.books over hashing": Row("the same of few long texts", "the same", 2.7),
    "build.processors": Row("`build` on all processors, if there are four", "the same on one", 0.5),
    "migrate.over root": Row("`migrate`", "`root` of the same index", 2.3),
    "migrate.root in blocks": Row("`root` of the migrated index", "`root` of the index", 1.1),
    "migrate.memory": Row("the most memory of `migrate`", "that of `root` and the bytes stored", 1.05),
    "migrate.memory of lists": Row("what `root` of the migrated index holds more", "48 bytes for each list", 1.0),
    "reply.ms by tra": Row("from a request to the last byte of its TRA proof", "", 20),
    "reply.ms by tnra": Row("from a request to the last byte of its TNRA proof", "", 5),
    "reply.in blocks": Row("the same from a server of the migrated index", "the same", 1.05),
    "replies.seconds of few rows": Row("the slowest reply of 14 queries, with at most 100 rows", "", 0.5),
    "replies.seconds of many rows": Row("the same with 1,000 rows", "", 2),
    "replies.growth": Row("the same over 16 MiB", "the same over 4 MiB", 5),
    "serve.ms of ask": Row("`ask` of ten rows by TNRA"),
    "serve.ask over reply": Row("the same", "the reply over an open connection"),
    "serve.ms of a connection": Row("a connection of one request"),
    "serve.MiB held": Row("the memory of `serve`"),
    "serve.memory": Row("the same after 1,000 connections", "the same before them", 1.05),
    "serve.sending over Python": Row("a long reply from its first byte on", "Python sending as many bytes at once", 2),
    "check.ms": Row("one check by the library for C, the fastest"),
    "check.median ms": Row("the same, the median"),
    "check.over hashing": Row("one check of a shorter proof", "hashing as many blocks as the check hashes"),
    "check.long over hashing": Row("one check of a proof of at least 300,000 bytes", "the same", 1.3),
    "check.in blocks": Row("one check of a proof in format Two", "one check of that of the same question in One", 1.05),
    "page.library ms": Row("one check by the library for C"),
    "page.page ms": Row("one check by the page's module, in Node"),
    "page.over library": Row("the fastest of these", "the fastest of those by the library"),
    "both.ms": Row("`both`"),
    "both.over verify": Row("the same", "`verify` of the same proof, which is refused at the end", 1.1),
    "both.library over hashing": Row("one check of at least 300,000 bytes by the library", "hashing as many blocks as it hashes", 1.5),
    "fetch.ms": Row("`fetch`"),
    "fetch.library over hashing": Row("one check of a text of 1 MiB by the library", "hashing as many blocks as it has", 1.5),
    "fetch.over hashing": Row("what `fetch` takes more for a longer text", "hashing as many more blocks", 2.0),
    "fetch.memory": Row("what `fetch` holds more for a longer text", "the bytes that its file has more", 3.0),
    "load.over root": Row("a command that loads an index or two", "`root` of the same", 1.2),
    "load.memory": Row("the most memory of `audit-growth`", "that of `grow`", 1.1),
    "load.ms of growth": Row("`growth`", "", 20),
    "sweep.seconds": Row("`sweep` of 1,000 proofs without loading, on four processors"),
    "sweep.processors": Row("the same", "the same on one processor", 0.35),
    "sweep.over checks": Row("one proof of the sweep on one processor", "one check by the library for C", 3.0),
}


def table() -> str:
    """The table of README.md."""
    lines = ["| Figure | What is measured | Against | At most |", "|---|---|---|---|"]
    for name, row in TABLE.items():
        lines.append(f"| {name} | {row.measured} | {row.against} | {'' if row.most is None else f'{row.most:g}'} |")
    return "\n".join(lines)


def judged(name: str, value: float, is_quick: bool) -> str:
    """What the target says of a value."""
    most = TABLE[name].most
    if most is None or is_quick:
        return ""
    return f"at most {most:g}: {'met' if value <= most else 'NOT MET'}"


def measured(house: House, group: str, is_quick: bool) -> bool:
    """Prints the figures of a group, and returns whether all targets are met."""
    met, start = True, time.monotonic()
    for figure in GROUPS[group](house):
        name = f"{group}.{figure.name}"
        says = judged(name, figure.value, is_quick)
        print(f"{name:34}{figure.of:76}{figure.value:12,.3f}  {says}".rstrip(), flush=True)
        met &= not says.endswith("NOT MET")
    print(f"{group} took {time.monotonic() - start:.0f} s", flush=True)
    return met


def words_of() -> argparse.Namespace:
    """What was typed."""
    words = argparse.ArgumentParser(usage=__doc__.split("usage: ")[1].split("\n\n")[0])
    words.add_argument("--quick", action="store_true")
    words.add_argument("--program")
    words.add_argument("--library")
    words.add_argument("--table", action="store_true")
    words.add_argument("groups", nargs="*")
    given = words.parse_args()
    for group in given.groups:
        if group not in GROUPS:
            words.error(f"{group} is no group: take some of {' '.join(GROUPS)}, or none for all")
    return given


def main() -> int:
    given = words_of()
    if given.table:
        print(table())
        return 0
    program = measure.program_of([given.program] if given.program else [])
    library = str(Path(given.library).resolve()) if given.library else None
    with tempfile.TemporaryDirectory() as folder:
        house = House(program, library, Path(folder), given.quick)
        met = [measured(house, group, given.quick) for group in given.groups or GROUPS]
    print("small sizes: nothing is judged" if given.quick else "all targets are met" if all(met) else "NOT all targets are met")
    return 0 if all(met) else 1


if __name__ == "__main__":
    sys.exit(main())
