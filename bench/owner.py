"""What an archive's owner runs: `rank`, `build`, `root`, which loads an index, and `migrate`."""

import json
import re
import time
from pathlib import Path
from typing import Iterator

import blocks
import corpora
import measure
from house import Figure, House

SHAPES = ("notes", "books", "lexicon")
A_LIST = 48  # bytes of memory that an index may take more for each list in blocks


def growth(small: measure.Run, large: measure.Run, paths: list[Path]) -> float:
    """How the time grows, over how the files do."""
    before, after = (path.stat().st_size for path in paths)
    return large.seconds / small.seconds / (after / before)


def seconds_of_python(path: Path) -> float:
    """The seconds in which Python reads a collection and counts its words."""
    start, counts = time.perf_counter(), {}
    for text in json.loads(path.read_text(encoding="utf-8")):
        for word in re.findall(r"\w+", text.casefold()):
            counts[word] = counts.get(word, 0) + 1
    return time.perf_counter() - start


def ranking(house: House) -> Iterator[Figure]:
    """`rank` for ten rows and three words: a frequent, a usual and a rare one."""
    shape = corpora.SHAPES["articles"]
    query = corpora.query_of(corpora.vocabulary(shape.vocabulary))
    paths = [house.collection(f"articles-{mib}", house.texts("articles", mib)) for mib in (house.small, house.large)]
    small, large = measure.in_turns(house.runs, *(house.command("rank", path, 10, query) for path in paths))
    yield Figure("seconds", f"articles, {house.large} MiB", large.seconds)
    yield Figure("growth", "articles", growth(small, large, paths))
    python = min(seconds_of_python(paths[1]) for _ in range(house.loads))
    yield Figure("over Python", "articles", large.seconds / python)


def building(house: House) -> Iterator[Figure]:
    """`build`, and `root`, over each shape."""
    for name in SHAPES:
        paths = [house.collection(f"{name}-{mib}", house.texts(name, mib)) for mib in (house.small, house.large)]
        index = house.folder / f"{name}.index"
        builds = [house.command("build", path, index) for path in paths]
        small, large, root = measure.in_turns(house.runs, *builds, house.command("root", index))
        yield Figure("seconds", f"{name}, {house.large} MiB", large.seconds)
        yield Figure("growth", name, growth(small, large, paths))
        yield Figure("root over build", name, root.seconds / large.seconds)
        if name == "notes":
            yield Figure("MiB held", name, large.peak / corpora.MIB)
        yield from by_one_processor(house, name, builds[1], large)


def by_one_processor(house: House, name: str, build: list[str], by_all: measure.Run) -> Iterator[Figure]:
    """The same build on one processor, in turns with hashing as many blocks as the index has."""
    count, turns = blocks.of_index(house.texts(name, house.large)), []
    for _ in range(house.loads):
        turns.append((measure.run(build, processors=1).seconds, house.hashing.seconds(count)))
    one, hashed = map(min, zip(*turns))
    yield Figure("books over hashing" if name == "books" else "over hashing", f"{name}, {count:,} blocks", one / hashed)
    if house.has_four:
        yield Figure("processors", name, by_all.seconds / one)


def migrating(house: House) -> Iterator[Figure]:
    """`migrate`, and `root` over what it stores, beside `root` over the index."""
    one, two = house.archive(house.large).index, house.in_blocks(house.large).index
    commands = [house.command("root", one), house.command("migrate", one, two), house.command("root", two)]
    root, migrate, in_blocks = measure.in_turns(house.runs, *commands)
    lists = len({word for text in house.texts("notes", house.large) for word in text.split()})
    yield Figure("over root", "notes", migrate.seconds / root.seconds)
    yield Figure("root in blocks", "notes", in_blocks.seconds / root.seconds)
    yield Figure("memory", "notes", migrate.peak / (root.peak + two.stat().st_size))
    yield Figure("memory of lists", f"notes, {lists:,} lists", max(in_blocks.peak - root.peak, 0) / (A_LIST * lists))
