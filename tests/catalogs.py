"""Tries `reader/catalog.py` over real servers on loopback, one for each of 8 and of 64 shards: honest ones, and one that is dead,
slow, or lies.

usage: python3 tests/catalogs.py [--real [--size MIB]] [PROGRAM]

PROGRAM is the program; without it the one that is proved and built if needed. The rows must be those of a merge of what `rank`
prints of each shard, the stored proof that of `prove`, cut by `vectors/make.py`, and the second client of `vectors/` must print
the same. Prints what was tried and whether it passed, and `N passed, M failed`; ends with status 0 if nothing failed.

With --real it makes 64 shards of texts of Debian packages that are installed, at least MIB together (256 if not given), and
prints what each command took and the most memory that it held. The servers are started if there is memory for all of them.
"""

import argparse
import contextlib
import json
import random
import sys
import tempfile
import time
from pathlib import Path
from typing import Callable, Iterator, NamedTuple, Optional

from misbehaving import Reply, replying
from tries import HOME, Ended, Tries
from trying import framed, free_port, measure, program_of

for folder in ("owner", "reader", "vectors"):  # wire.py is of reader/, and stands on what is in owner/
    sys.path.append(str(HOME / folder))

import asking  # noqa: E402, of bench/
import client  # noqa: E402
import documents  # noqa: E402
import make  # noqa: E402
import packages  # noqa: E402
import wire  # noqa: E402

MIB = 1 << 20
REAL_SHARDS = 64
WORDS = ["red", "fox", "hen", "owl", "blue", "cat", "barn", "egg"]
QUESTIONS = [(1, "red hen"), (3, "red hen"), (10, "fox"), (1000, "red fox hen owl cat"), (5, "only3"), (4, "only1 only2 red"), (7, "zebra")]
# The texts of a catalog whose answers are known, with the number of rows, the length and the digest of its proof.
KNOWN = [["red fox", "red red hen", "blue hen"], ["!!"], ["red fox", "red red hen", "blue hen"]]
KNOWN_PROOFS = [(2, 1867, "953a0dec62955b9fd33f8a45138bfe545d7165615c02a30cef5e39cbf56324b8"), (3, 1871, "931cc412e5dbe17a1c55bfa6e492f9a8f9b6b077c552d55e0f304113b1786b59")]
REAL_QUESTIONS = ["memory", "signal handler", "undefined behaviour of the compiler", "harbour ferry"]


class Catalog(NamedTuple):
    """Shards in a folder of their own, with their roots, and where each is served."""

    tries: Tries
    name: str
    roots: list[str]
    addresses: list[str]

    @property
    def root(self) -> str:
        (self.tries.folder / "list").write_text("\n".join(self.roots))
        return self.tries.ask("catalog-root", "list").printed.decode().strip()

    def words(self, r: int, query: str, changed: Optional[dict[int, str]] = None) -> list[str]:
        """The words of the script, whose lists are written, with other addresses for some shards."""
        there = {**dict(enumerate(self.addresses)), **(changed or {})}
        (self.tries.folder / "roots.txt").write_text("".join(f"{root}\n" for root in self.roots))
        (self.tries.folder / "addresses.txt").write_text("".join(f"{there[shard]}\n" for shard in range(len(self.roots))))
        return [self.root, str(r), query, "roots.txt", "addresses.txt", "proof"]

    def ask(self, r: int, query: str, *more: str, changed: Optional[dict[int, str]] = None) -> Ended:
        return self.tries.script("catalog", *more, *self.words(r, query, changed))

    def best(self, r: int, query: str) -> list[tuple[int, int, int]]:
        """The score, shard and document of the best of all, as `rank` has them of each shard."""
        rows = []
        for shard in range(len(self.roots)):
            lines = self.tries.ask("rank", f"{self.name}/{shard}.json", r, query).printed.decode().splitlines()
            rows += [(-int(line.split()[2]), shard, int(line.split()[1])) for line in lines]
        return sorted(rows)[:r]

    def made(self, r: int, query: str, best: list[tuple[int, int, int]]) -> bytes:
        """The proof, of what `prove` stores of each shard."""
        proofs = []
        for shard in range(len(self.roots)):
            count = sum(row[1] == shard for row in best)
            self.tries.ask("prove", f"{self.name}/{shard}.index", "tra", min(r, count + 1), query, "shard.proof")
            proofs.append(make.with_rows(self.tries.read("shard.proof"), lambda rows: rows[:count]))
        return make.Catalog([bytes.fromhex(root) for root in self.roots], proofs).data()


def texts_of(shard: int) -> list[str]:
    """A few texts of few words, so that many documents tie. One word is that of the shard, and some shards have no other."""
    some = random.Random(shard)
    words = WORDS if shard % 5 else []
    return [" ".join([*some.choices(words or ["fern"], k=some.randrange(1, 9)), f"only{shard}"]) for _ in range(1 + shard * 7 % 9)]


def build(tries: Tries, name: str, shards: list[list[str]]) -> list[str]:
    """The roots of the shards' indexes, of which each third is of format Two."""
    roots = []
    (tries.folder / name).mkdir()
    for shard, texts in enumerate(shards):
        collection, index = f"{name}/{shard}.json", f"{name}/{shard}.index"
        (tries.folder / collection).write_text(json.dumps(texts))
        roots.append(tries.root(collection, index))
        if shard % 3 == 1 and name != "known":
            roots[-1] = tries.ask("migrate", index, index).printed.decode().strip()
    return roots


@contextlib.contextmanager
def served(tries: Tries, name: str, roots: list[str]) -> Iterator[Catalog]:
    """A catalog with a server for each shard."""
    ports, servers = [], []
    try:
        for shard in range(len(roots)):
            ports.append(free_port())
            servers.append(asking.started(tries.program, tries.folder / name / f"{shard}.index", 65_535, ports[-1]))
        yield Catalog(tries, name, roots, [f"127.0.0.1:{port}" for port in ports])
    finally:
        for server in servers:
            server.kill()
            server.wait()


# Honest servers


def known(tries: Tries) -> None:
    with served(tries, "known", build(tries, "known", KNOWN)) as one:
        for r, length, digest in KNOWN_PROOFS:
            ended = one.ask(r, "red hen")
            proof = tries.read("proof")
            tries.check(f"a known proof of {r} rows", (ended.status, len(proof), make.digest(proof).hex()) == (0, length, digest))


def honest(one: Catalog) -> None:
    tries, shards = one.tries, len(one.roots)
    for r, query in QUESTIONS:
        ended, best = one.ask(r, query), one.best(r, query)
        rows = [f"{rank} {shard} {document} {-score} {-score}" for rank, (score, shard, document) in enumerate(best, 1)]
        proof, says = tries.read("proof"), f"{shards} shards, {r} rows of {query!r}"
        tries.check(f"{says}: {len(rows)} rows, as merged", ended == Ended(0, "".join(f"{row}\n" for row in rows).encode(), ""))
        tries.check(f"{says}: the second client accepts them", client.catalog(one.root, r, query, proof) == {"status": 0, "lines": rows})
        tries.check(f"{says}: {len(proof)} bytes, as `prove` makes them", proof == one.made(r, query, best))
        tries.check(f"{says}: `catalog` again", tries.ask("catalog", one.root, r, query, "proof") == ended)


# Servers that misbehave


def forwarded(address: str, change: Callable[[bytes, int], Reply]) -> Callable[[bytes], Reply]:
    """The reply of an honest server, after a change of its proof, which is told how many rows were asked for."""
    def reply(request: bytes) -> Reply:
        return change(wire.asked(address, request), int.from_bytes(request[6:8], "big"))

    return reply


def with_rows(change: Callable[[list], list]) -> Callable[[bytes, int], bytes]:
    return lambda proof, _: framed(b"\0" + make.with_rows(proof, change))


def late(proof: bytes, _: int) -> Reply:
    time.sleep(2)
    return framed(b"\0" + proof)


def drop_by_drop(proof: bytes, _: int) -> Iterator[bytes]:
    for byte in framed(b"\0" + proof):
        time.sleep(0.5)
        yield bytes([byte])


def flipped(proof: bytes, _: int) -> bytes:
    return framed(b"\0" + proof[:60] + bytes([proof[60] ^ 1]) + proof[61:])


def flipped_later(proof: bytes, rows: int) -> bytes:
    """Lies only when fewer rows are asked for, so in the second answer."""
    return flipped(proof, rows) if rows < 10 else framed(b"\0" + proof)


# What a server replies that lies, and the line that is printed.
LIES: list[tuple[str, Callable[[bytes, int], Reply], str]] = [
    ("changes a byte of the header", flipped, "other-root"), ("changes it in its second answer", flipped_later, "other-root"),
    ("leaves out its first row", with_rows(lambda rows: rows[1:]), "not-settled"),
    ("leaves out all rows", with_rows(lambda rows: []), "not-settled"),
    ("has its first row twice", with_rows(lambda rows: [rows[0], *rows[:-1]]), "answer-repeated 1"),
    ("has a row of no document", with_rows(lambda rows: [60_000, *rows[1:]]), "answer-out 0"),
    ("sends a byte more", lambda proof, _: framed(b"\0" + proof + b"\0"), "shape trailing"),
    ("sends nothing", lambda proof, _: framed(b"\0"), "shape cut 0"),
]
NO_PROOFS: list[tuple[str, Callable[[bytes, int], Reply], str]] = [
    ("a code", lambda *_: b"\0\0\0\2\1\5", "peer: refused 5"), ("half a proof", lambda proof, _: framed(b"\0" + proof)[:100], "peer: short 100"),
    ("a length that is too long", lambda *_: b"\4\0\0\2\0", "peer: long"), ("no byte", lambda *_: b"", "peer: short 0 4"),
]


def last(one: Catalog) -> int:
    """The shard whose server misbehaves: one that has rows."""
    return len(one.roots) - 2


def failed(one: Catalog, says: str, ended: Ended, status: int, line: str) -> None:
    """The run names the shard, and leaves the file as it was."""
    tries, shard = one.tries, last(one)
    tries.check(f"{len(one.roots)} shards, a server that {says}: shard {shard} is named", ended.status == status and f"shard {shard}: " in ended.said and line in ended.said + ended.printed.decode())
    tries.check("  and no proof is stored", tries.read("proof") == b"before")


def dead(one: Catalog) -> None:
    (one.tries.folder / "proof").write_bytes(b"before")
    ended = one.ask(10, "red fox", changed={last(one): f"127.0.0.1:{free_port()}"})
    failed(one, "is dead", ended, 8, "fault: link")
    one.tries.check("  and it is said that no answer is complete without it", "no answer is complete without this shard" in ended.said and not ended.printed)
    ended = one.ask(10, "red fox", changed={shard: "127.0.0.1:1" for shard in range(len(one.roots))})
    one.tries.check("all are dead: ten lines at most", ended.status == 8 and ended.said.count("fault: link") == min(len(one.roots), 10) and f"these {len(one.roots)} shards" in ended.said)


def slow(one: Catalog) -> None:
    shard = last(one)
    honest_rows = one.ask(10, "red fox").printed
    with replying(forwarded(one.addresses[shard], late)) as address:
        began = time.monotonic()
        ended = one.ask(10, "red fox", changed={shard: address})
        one.tries.check(f"{len(one.roots)} shards, one slow: {time.monotonic() - began:.1f} s", ended.printed == honest_rows and time.monotonic() - began < 15)
    (one.tries.folder / "proof").write_bytes(b"before")
    for says, reply in (("is silent", None), ("sends drop by drop", forwarded(one.addresses[shard], drop_by_drop))):
        with replying(reply) as address:
            began = time.monotonic()
            ended = one.ask(10, "red fox", "--seconds", "2", changed={shard: address})
            failed(one, says, ended, 8, "fault: link")
            one.tries.check(f"  after {time.monotonic() - began:.1f} s", time.monotonic() - began < 12)


def lying(one: Catalog) -> None:
    shard = last(one)
    (one.tries.folder / "proof").write_bytes(b"before")
    for says, change, line in LIES:
        with replying(forwarded(one.addresses[shard], change)) as address:
            ended = one.ask(10, "red fox", changed={shard: address})
            failed(one, says, ended, 1, f"refused: shard {shard} {line}")
    failed(one, "has another shard", one.ask(10, "red fox", changed={shard: one.addresses[shard - 1]}), 1, f"refused: shard {shard} other-root\n")
    for says, change, line in NO_PROOFS:
        with replying(forwarded(one.addresses[shard], change)) as address:
            failed(one, f"sends {says}", one.ask(10, "red fox", changed={shard: address}), 9, line)
    by_tnra = forwarded(one.addresses[shard], lambda proof, _: framed(b"\0" + proof))
    with replying(lambda request: by_tnra(request[:5] + b"\2" + request[6:])) as address:
        failed(one, "answers by TNRA", one.ask(10, "red fox", changed={shard: address}), 9, "no proof by TRA")


def lists(one: Catalog) -> None:
    """Lists of roots and addresses that are wrong."""
    tries, root = one.tries, one.root
    tries.put("lists", {b"roots": "\n".join(one.roots).encode(), b"addresses": "\n".join(one.addresses).encode(), b"few": b"127.0.0.1:1\n",
                        b"swapped": "\n".join(one.roots[::-1]).encode(), b"no-root": b"red fox\n" * len(one.roots), b"bytes": b"\xff", b"long": b"0" * (MIB + 1)})
    (tries.folder / "proof").write_bytes(b"before")
    for says, roots, addresses, status, line in (
        ("fewer addresses", "roots", "few", 3, "the same order"), ("roots in another order", "swapped", "addresses", 1, "refused: other-root"),
        ("words in place of roots", "no-root", "addresses", 3, "line 1"), ("roots that are no text", "bytes", "addresses", 3, "not UTF-8"),
        ("a list that is too long", "long", "addresses", 3, "more than 1048576"), ("no list", "none", "addresses", 3, "cannot be read"),
    ):
        ended = tries.script("catalog", root, "3", "red hen", f"lists/{roots}", f"lists/{addresses}", "proof")
        tries.check(f"{says}: status {status}", ended.status == status and line in ended.said + ended.printed.decode() and tries.read("proof") == b"before")
    for words in ((root, "0", "red"), (root, "3", "!"), (root[1:], "3", "red")):
        ended, said = tries.script("catalog", *words, "lists/roots", "lists/addresses", "proof"), tries.ask("catalog", *words, "lists/roots")
        tries.check(f"words as `catalog` has them: {words[1:]}", (ended.status, ended.printed) == (said.status, said.printed) and said.status in (2, 4))
    ended = tries.script("catalog", root, "3", "red hen", "lists/roots", "lists/addresses", "nowhere/proof")
    tries.check("a proof that cannot be stored", ended.status == 3 and "cannot be stored" in ended.said)


# Real texts


class Table:
    """What commands took so far, a line for each."""

    def __init__(self, tries: Tries) -> None:
        self.tries = tries
        self.needed = 0  # bytes of memory of a server of each shard
        print(f"{'command':40}{'status':>7}{'seconds':>9}{'MiB held':>9}  first line", flush=True)

    def run(self, says: str, *words: object) -> measure.Run:
        """A run of the program."""
        return self.tell(says, [self.ran(self.tries.program, *words)])

    def ran(self, *command: object) -> measure.Run:
        return measure.ended(measure.started(list(map(str, command)), self.tries.folder))

    def tell(self, says: str, runs: list[measure.Run]) -> measure.Run:
        """Prints what runs one after another took: all seconds, and the most memory."""
        seconds, peak = sum(run.seconds for run in runs), max(run.peak for run in runs)
        one = runs[-1]._replace(status=max(run.status for run in runs), seconds=seconds, peak=peak)
        print(f"{says:40}{one.status:>7}{seconds:>9.2f}{peak / MIB:>9.1f}  {one.printed.partition(chr(10))[0]}", flush=True)
        return one


def real_collections(mib: int) -> Iterator[documents.Collection]:
    """Texts of packages in the order of their files, cut where a shard has its part of all, or is full."""
    one, seen = documents.Collection(), set()
    for path in packages.paths():
        data = packages.text_of(path) if path not in seen else b""
        if 0 < len(data) <= packages.MOST:
            seen.add(path)
            if one.text_bytes >= mib * MIB / REAL_SHARDS or one.text_bytes + len(data) > documents.MAX_TEXTS:
                yield one
                one = documents.Collection()
            one.add({"title": str(path), "text": data.decode()})
    yield one


def free_memory() -> int:
    """The bytes of memory that are free on this machine, or become so if they are needed."""
    return int(Path("/proc/meminfo").read_text().partition("MemAvailable:")[2].split()[0]) << 10


def real_shards(table: Table, mib: int) -> list[str]:
    """Builds the shards, and returns their roots: fewer if the packages have no more texts."""
    runs, sizes, (tries, name) = [], [], (table.tries, "real")
    (tries.folder / name).mkdir()
    for shard, one in zip(range(REAL_SHARDS), real_collections(mib)):
        (tries.folder / name / f"{shard}.json").write_bytes(one.data())
        runs.append(table.ran(tries.program, "build", f"real/{shard}.json", f"real/{shard}.index"))
        sizes.append((len(one.items), one.text_bytes))
    texts, size = (sum(each) for each in zip(*sizes))
    tries.check(f"{len(runs)} shards, {texts:,} texts, {size:,} bytes of text", len(runs) == REAL_SHARDS and size >= mib * MIB)
    table.needed = REAL_SHARDS * table.tell("build, all shards one by one", runs).peak
    return [run.printed.strip() for run in runs]


def enclose(rows: bytes, exact: bytes) -> bool:
    """Whether each row has bounds of the score of that rank. Of rows that tie, any may be there."""
    both = list(zip(rows.split(b"\n"), exact.split(b"\n")))[:-1]
    return rows.count(b"\n") == exact.count(b"\n") and all(
        int(row.split()[3]) <= int(of.split()[3]) <= int(row.split()[4]) for row, of in both)


def of_file(table: Table, one: Catalog, says: str, query: str) -> bytes:
    """What the check of the file takes, and its audit, which print the same rows."""
    size = (one.tries.folder / "proof").stat().st_size
    checked = table.run(f"  catalog of {size:,} bytes", "catalog", one.root, 10, query, "proof")
    one.tries.check(f"{query!r}, {says}: accepted", checked.status == 0)
    audited = table.run("  audit-catalog", "audit-catalog", "indexes", 10, query, "proof")
    one.tries.check(f"{query!r}, {says}: audited", (audited.status, audited.printed) == (0, checked.printed))
    return checked.printed.encode()


def asked(table: Table, one: Catalog, query: str) -> bytes:
    """The rows of the file that the reader's script makes of what servers answer."""
    tries, script = one.tries, HOME / "reader" / "catalog.py"
    ended = table.tell(f"{query!r}: reader/catalog.py", [table.ran(sys.executable, script, "--program", tries.program, *one.words(10, query))])
    rows = of_file(table, one, "from servers", query)
    tries.check(f"{query!r}: the rows of the script", ended.printed.encode() == rows)
    return rows


def proved(table: Table, one: Catalog, query: str, algorithm: str) -> bytes:
    """The rows of the file that `prove-catalog` makes."""
    table.run(f"{query!r}: prove-catalog by {algorithm}", "prove-catalog", "indexes", algorithm, 10, query, "proof")
    return of_file(table, one, f"by {algorithm}", query)


def real_proofs(table: Table, one: Catalog) -> None:
    """Files that `prove-catalog` makes by both algorithms. By TRA they have exact scores."""
    for query in REAL_QUESTIONS:
        exact, bounds = (proved(table, one, query, algorithm) for algorithm in ("tra", "tnra"))
        one.tries.check(f"{query!r}: the bounds enclose the scores", enclose(bounds, exact))


def real_answers(table: Table, roots: list[str]) -> None:
    """Files of what a server of each shard answers."""
    began = time.monotonic()
    with served(table.tries, "real", roots) as one:
        print(f"serve: {REAL_SHARDS} of them load their indexes in {time.monotonic() - began:.2f} s", flush=True)
        for query in REAL_QUESTIONS:
            asked(table, one, query)


def real(tries: Tries, mib: int) -> None:
    table = Table(tries)
    roots = real_shards(table, mib)
    if tries.failed:
        print("install more of the packages that owner/packages.py names")
        return
    (tries.folder / "indexes").write_text("".join(f"real/{shard}.index\n" for shard in range(REAL_SHARDS)))
    (tries.folder / "list").write_text("\n".join(roots))
    table.run("catalog-root", "catalog-root", "list")
    real_proofs(table, Catalog(tries, "real", roots, []))
    if table.needed < free_memory():
        real_answers(table, roots)
    else:
        tries.skip(f"a server of each shard: they need {table.needed / MIB:,.0f} MiB, and {free_memory() / MIB:,.0f} are free")


def small(tries: Tries) -> None:
    known(tries)
    for count in (8, 64):
        roots = build(tries, f"of-{count}", [texts_of(shard) for shard in range(count)])
        with served(tries, f"of-{count}", roots) as one:
            for each in (honest, dead, slow, lying, lists):
                each(one)


def main() -> int:
    words = argparse.ArgumentParser(description=__doc__, formatter_class=argparse.RawDescriptionHelpFormatter)
    words.add_argument("--real", action="store_true", help="try real texts")
    words.add_argument("--size", metavar="MIB", type=int, default=256, help="of the real texts together, at least")
    words.add_argument("program", metavar="PROGRAM", nargs="?")
    said = words.parse_args()
    with tempfile.TemporaryDirectory() as folder:
        tries = Tries(Path(folder), program_of([said.program] if said.program else []))
        if said.real:
            real(tries, said.size)
        else:
            small(tries)
        return tries.conclude()


if __name__ == "__main__":
    sys.exit(main())
