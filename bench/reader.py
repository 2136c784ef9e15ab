"""What a reader runs: the check of a proof, alone by the library for C, and by the commands."""

import functools
import shutil
import statistics
import subprocess
import sys
import time
from pathlib import Path
from typing import Callable, Iterator, NamedTuple

import asking
import blocks
import corpora
import measure
from house import Archive, Figure, House

sys.path.append(str(measure.HOME / "reader"))

import ats_reader  # noqa: E402
import play  # noqa: E402

ALGORITHMS = ("tnra", "tra")
ROWS = 10
LONG = 300_000  # bytes of a proof whose check is mostly hashing

# Words by their place in the order of frequency.
QUERIES = {
    "the most frequent word": (0,),
    "the most frequent word and a rare one": (0, 9999),
    "the eighth word and the ninth": (7, 8),
    "the two most frequent words": (0, 1),
    "the five most frequent words": (0, 1, 2, 3, 4),
}
IN_PAGE = [("the two most frequent words", "tnra", ROWS), ("the most frequent word", "tra", 1000)]
NODE = 1 << 40  # bytes of address space: Node reserves far more than it uses
BOTH = {**QUERIES, "thirty-two usual words": tuple(range(100, 132))}

LONG_TEXTS = corpora.Shape(300_000, 20_000, "texts of 300,000 words, each cut to 1 MiB")
FIRST = 1 << 17  # bytes of a first text that is shorter than the others; it is longer than a pipe holds


class Proof(NamedTuple):
    """The bytes of a proof, and the root, the number of rows and the query that it is for."""

    bytes: bytes
    root: str
    rows: int
    query: str


def proofs(house: House, archive: Archive, questions: list[tuple[str, str, int]]) -> list[Proof]:
    """The proofs of questions, each the name of a query, an algorithm and rows, from a server of the archive."""
    asked = [(algorithm, rows, house.query(*QUERIES[name])) for name, algorithm, rows in questions]
    found = zip(asking.proofs(house.program, archive.index, asked), asked)
    return [Proof(proof, archive.root, rows, query) for proof, (_, rows, query) in found]


@functools.lru_cache(maxsize=None)
def library(house: House) -> ats_reader.Reader:
    """The library for C, from its archive or else proved."""
    try:
        return ats_reader.Reader(play.build(house.library or play.proved(), house.folder)[1])
    except measure.NOT_MADE as why:
        measure.stop(f"the library for C is not measured, since it could not be made by rt and gcc: {why}")


def seconds_of(reader: ats_reader.Reader, one: Proof) -> float:
    """The seconds of one check, which accepts."""
    return accepted(reader.check, one.bytes, bytes.fromhex(one.root), one.query, one.rows)


def accepted(check: Callable[..., object], *words: object) -> float:
    """The seconds of one call of the library, which accepts."""
    start = time.perf_counter()
    try:
        check(*words)
    except ats_reader.Fault as fault:
        measure.stop(f"the library does not accept what the program made: {fault}")
    return time.perf_counter() - start


def times_of(house: House, one: Proof) -> int:
    """How often a proof is checked: short ones more often."""
    return 2 if house.is_quick else 20 if len(one.bytes) > LONG else 60


def checking(house: House) -> Iterator[Figure]:
    """Many checks in one process, in turns with hashing as many blocks, and with checks of the same question in format Two."""
    reader, questions = library(house), [(name, algorithm, ROWS) for name in QUERIES for algorithm in ALGORITHMS]
    plain, in_blocks = (proofs(house, archive, questions) for archive in (house.archive(house.large), house.in_blocks(house.large)))
    for (name, algorithm, _), one, two in zip(questions, plain, in_blocks):
        count, turns = blocks.of_check(one.bytes), []
        for _ in range(times_of(house, one)):
            turns.append((seconds_of(reader, one), house.hashing.seconds(count), seconds_of(reader, two)))
        check, hashed, other = map(min, zip(*turns))
        of = f"{name}, {algorithm}, {len(one.bytes):,} bytes"
        yield Figure("ms", of, check * 1e3)
        yield Figure("median ms", of, statistics.median(turn[0] for turn in turns) * 1e3)
        yield Figure("long over hashing" if len(one.bytes) >= LONG else "over hashing", of, check / hashed)
        yield Figure("in blocks", of, other / check)


def checking_in_page(house: House) -> Iterator[Figure]:
    """Many checks by the module of the page, in Node, beside those by the library."""
    made, node = measure.HOME / "web" / "out", shutil.which("node")
    if node is None or not (made / "page.wasm").exists():
        print("the page is not measured: it takes Node, and what web/make.sh makes")
        return
    reader, path = library(house), house.folder / "proof"
    for (name, algorithm, rows), one in zip(IN_PAGE, proofs(house, house.archive(house.large), IN_PAGE)):
        path.write_bytes(one.bytes)
        times = times_of(house, one)
        words = [measure.HOME / "web" / "try" / "times.mjs", made, one.root, rows, one.query, path, times]
        page = [float(line) for line in measure.run([node, *map(str, words)], memory=NODE).printed.splitlines()]
        native = [seconds_of(reader, one) * 1e3 for _ in range(times)]
        of = f"{name}, {algorithm}, {rows} rows, {len(one.bytes):,} bytes"
        for figure, found in (("library ms", native), ("page ms", page)):
            yield Figure(figure, f"{of}, fastest", min(found))
            yield Figure(figure, f"{of}, median", statistics.median(found))
        yield Figure("over library", of, min(page) / min(native))


def checking_both(house: House) -> Iterator[Figure]:
    """`both`, beside `verify` of the same proof, which refuses it as `not-settled` after all that it shows was checked."""
    for archive, format in ((house.archive(house.large), "One"), (house.in_blocks(house.large), "Two")):
        for name, places in BOTH.items():
            path, query = house.folder / "both", house.query(*places)
            house.run("prove-both", archive.index, query, path)
            pairs = []
            for _ in range(house.runs):
                both = measure.run(house.command("both", archive.root, query, path))
                pairs.append((both.seconds, measure.run(house.command("verify", archive.root, 1, query, path), wanted=1).seconds))
            both, verify = map(min, zip(*pairs))
            of = f"{name}, {format}, {path.stat().st_size:,} bytes"
            yield Figure("ms", of, both * 1e3)
            yield Figure("over verify", of, both / verify)
            proof, root = path.read_bytes(), bytes.fromhex(archive.root)
            if format == "One" and len(proof) >= LONG:
                count, reader = blocks.of_check(proof), library(house)
                turns = [(accepted(reader.both, proof, root, query), house.hashing.seconds(count)) for _ in range(4 * house.runs)]
                alone, hashed = map(min, zip(*turns))
                yield Figure("library over hashing", of, alone / hashed)


def peak_of(command: list[str]) -> int:
    """The most bytes of memory that a run held until it printed more than a pipe holds.

    Even the small process that starts other runs holds more than `fetch`. So the peak is read while the run waits for its
    text to be taken.
    """
    with subprocess.Popen(command, stdout=subprocess.PIPE) as process:
        assert process.stdout is not None
        process.stdout.read(1)
        status = Path(f"/proc/{process.pid}/status").read_text(encoding="ascii")
        process.stdout.read()
    return next(int(line.split()[1]) for line in status.splitlines() if line.startswith("VmHWM:")) * 1024


def fetching(house: House) -> Iterator[Figure]:
    """`fetch` of a text of 1 MiB, and of one of 128 KiB: what the process takes by itself cancels out."""
    endless = corpora.texts(LONG_TEXTS, 2 * corpora.MAX_TEXTS)
    long = next(endless)[: corpora.MAX_TEXT]
    archive = house.built("long", [long[:FIRST], long])
    files = [house.folder / f"text-{doc}" for doc in (0, 1)]
    for doc, path in enumerate(files):
        house.run("give", archive.index, doc, path)
    commands = [house.command("fetch", archive.root, doc, path) for doc, path in enumerate(files)]
    short, whole = measure.in_turns(4 * house.runs, *commands)
    count = blocks.of_string(1 + len(long)) - blocks.of_string(1 + FIRST)
    hashed = min(house.hashing.seconds(count) for _ in range(4 * house.runs))
    file, root = files[1].read_bytes(), bytes.fromhex(archive.root)
    count, reader = blocks.of_string(1 + len(long)), library(house)
    turns = [(accepted(reader.text, file, root, 1), house.hashing.seconds(count)) for _ in range(4 * house.runs)]
    alone, hashed = map(min, zip(*turns))
    yield Figure("library over hashing", "a text of 1 MiB", alone / hashed)
    yield Figure("ms", "a text of 1 MiB", whole.seconds * 1e3)
    yield Figure("over hashing", "a text of 1 MiB, without one of 128 KiB", (whole.processor - short.processor) / hashed)
    bytes_more = files[1].stat().st_size - files[0].stat().st_size
    yield Figure("memory", "a text of 1 MiB, without one of 128 KiB", (peak_of(commands[1]) - peak_of(commands[0])) / bytes_more)
