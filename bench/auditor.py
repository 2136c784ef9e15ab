"""What is run by whoever holds an index: commands that load it, and a sweep of many proofs."""

from typing import Iterator

import measure
import reader
from house import PROCESSORS, Figure, House

ROWS = reader.ROWS
PROVED = "the eighth word and the ninth"
SWEPT_MIB = 4  # 1,000 TRA proofs of that query over so many texts are within the limit of a sweep


def loading(house: House) -> Iterator[Figure]:
    """Each command that loads an index, or two, beside `root` of the same."""
    old = house.built("old", house.texts("notes", house.large)[:-1])
    new, query = house.archive(house.large), house.query(*reader.QUERIES[PROVED])
    doc, files = len(house.texts("notes", house.large)) // 2, {name: house.folder / name for name in "PTBG"}
    commands = {
        "prove": ["prove", new.index, "tra", ROWS, query, files["P"]],
        "audit": ["audit", new.index, ROWS, query, files["P"]],
        "give": ["give", new.index, doc, files["T"]],
        "audit-fetch": ["audit-fetch", new.index, doc, files["T"]],
        "prove-both": ["prove-both", new.index, query, files["B"]],
        "audit-both": ["audit-both", new.index, query, files["B"]],
        "grow": ["grow", old.index, new.index, files["G"]],
        "audit-growth": ["audit-growth", old.index, new.index, files["G"]],
    }
    roots = [house.command("root", each.index) for each in (new, old)]
    root, second, *runs = measure.in_turns(house.loads, *roots, *(house.command(*words) for words in commands.values()))
    took = dict(zip(commands, runs))
    for name, one in took.items():
        loaded = root.seconds + (second.seconds if "grow" in name else 0)
        yield Figure("over root", name, one.seconds / loaded)
    yield Figure("memory", "audit-growth over grow", took["audit-growth"].peak / took["grow"].peak)
    check = measure.in_turns(house.runs, house.command("growth", old.root, new.root, files["G"]))[0]
    yield Figure("ms of growth", f"{files['G'].stat().st_size} bytes", check.seconds * 1e3)


def sweeping(house: House) -> Iterator[Figure]:
    """`sweep` of many times the same proof, without loading: on four processors and on one, and beside the check alone."""
    mib = min(SWEPT_MIB, house.large)
    archive, path, listed = house.archive(mib), house.folder / "swept", house.folder / "list"
    (one,) = reader.proofs(house, archive, [(PROVED, "tra", ROWS)])
    path.write_bytes(one.bytes)
    listed.write_text(f"{ROWS} {path} {one.query}\n" * house.many, encoding="utf-8")
    commands = [house.command("root", archive.index), house.command("sweep", archive.index, listed)]
    seconds = {}
    for processors in (1, PROCESSORS):
        pairs = [[measure.run(command, processors=processors).seconds for command in commands] for _ in range(2)]
        loaded, swept = map(min, zip(*pairs))
        seconds[processors] = swept - loaded
    of = f"{house.many} proofs of {len(one.bytes):,} bytes"
    yield Figure("seconds", f"{of}, {PROCESSORS} processors", seconds[PROCESSORS])
    if house.has_four:
        yield Figure("processors", of, seconds[PROCESSORS] / seconds[1])
    library = reader.library(house)
    check = min(reader.seconds_of(library, one) for _ in range(reader.times_of(house, one)))
    yield Figure("over checks", of, seconds[1] / house.many / check)
