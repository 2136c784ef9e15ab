#!/usr/bin/env python3
"""Prints the longest chain of crates that wait for one another, and how long the proof of each crate on it takes.

usage: tools/chain.py [FILE]

FILE has the times of a run, as tools/costs.py writes them; without it, out/costs.json. A crate waits for those that
crates.txt names for it, so with any number of processors a run takes at least as long as this chain. Times are by the clock
of that run, so a crate that shared its processor took longer than it would alone. Ends with status 2 if there are no times.
"""

import json
import pathlib
import re
import sys
from typing import Sequence

HOUSE = pathlib.Path(__file__).resolve().parent.parent
TIMES = HOUSE / "out" / "costs.json"
Chain = tuple[float, list[str]]  # its seconds, and its crates, lowest first
NO_CHAIN: Chain = (0, [])
Spans = dict[str, Sequence[float]]  # when the proof of each crate began and ended


def crates_below() -> dict[str, list[str]]:
    """The crates of the repository that each one stands on, by crates.txt."""
    lines = (HOUSE / "crates.txt").read_text(encoding="utf-8").splitlines()
    named = {found[1]: found[2].split() for found in (re.match(r"(\w+)[\w ]*: *(.*)", line) for line in lines) if found}
    return {name: [below for below in some if below in named] for name, some in named.items()}


def longest(spans: Spans, below: dict[str, list[str]]) -> list[str]:
    """The crates of the longest chain, lowest first. `spans` has for each crate when its proof began and ended."""
    chains: dict[str, Chain] = {}

    def chain_to(crate: str) -> Chain:
        if crate not in chains:
            lower = max((chain_to(each) for each in below.get(crate, []) if each in spans), default=NO_CHAIN)
            begin, end = spans[crate]
            chains[crate] = (lower[0] + end - begin, lower[1] + [crate])
        return chains[crate]

    return max(map(chain_to, spans), default=NO_CHAIN)[1]


def show(spans: Spans) -> None:
    """Prints the chain: when the proof of each crate began, and how long it took."""
    chain = longest(spans, crates_below())
    whole = sum(spans[crate][1] - spans[crate][0] for crate in chain)
    print(f"the longest chain: {len(chain)} crates, {whole / 60:.1f} minutes by the clock")
    for crate in chain:
        begin, end = spans[crate]
        print(f"{crate:20} began at {begin / 60:5.1f}, took {(end - begin) / 60:5.1f} minutes")


def main() -> int:
    path = pathlib.Path(sys.argv[1]) if len(sys.argv) > 1 else TIMES
    try:
        times = json.loads(path.read_text(encoding="utf-8"))
    except (OSError, ValueError) as why:
        print(f"{path} has no times: let tools/costs.py run rt ci, which writes them ({why})", file=sys.stderr)
        return 2
    show({crate: kinds["proof"][:2] for crate, kinds in times.items() if "proof" in kinds})
    return 0


if __name__ == "__main__":
    sys.exit(main())
