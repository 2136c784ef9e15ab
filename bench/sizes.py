"""Prints how long proofs are: the table of docs/questions.md, and more.

usage: python3 bench/sizes.py [PROGRAM]

PROGRAM is the program; without it, it is proved and built if needed. Servers of the index of 16 MiB of notes, and of the
migrated one, make the proofs. Prints a table of each format. The same texts give the same bytes each time.
"""

import sys
import tempfile
from pathlib import Path

import asking
import measure
import reader
from house import House

ROWS = (1, 10, 100, 1000)
ALGORITHMS = ("tnra", "tra")


def table(house: House, index: Path) -> None:
    """The bytes of the proofs of each query, from a server of the index."""
    questions = [(algorithm, rows, house.query(*places)) for places in reader.QUERIES.values() for algorithm in ALGORITHMS for rows in ROWS]
    lengths = map(len, asking.proofs(house.program, index, questions))
    print(f"\n| Query | By | {' | '.join(f'{rows:,} row' + 's' * (rows > 1) for rows in ROWS)} |\n|---|---|{'---|' * len(ROWS)}")
    for name in reader.QUERIES:
        for algorithm in ALGORITHMS:
            print(f"| {name} | `{algorithm}` | {' | '.join(f'{next(lengths):,}' for _ in ROWS)} |")


def main() -> int:
    program = measure.program_of(sys.argv[1:])
    with tempfile.TemporaryDirectory() as folder:
        house = House(program, None, Path(folder), is_quick=False)
        print(f"{len(house.texts('notes', house.large)):,} notes, {house.large} MiB. First format One, then format Two")
        for archive in (house.archive(house.large), house.in_blocks(house.large)):
            table(house, archive.index)
    return 0


if __name__ == "__main__":
    sys.exit(main())
