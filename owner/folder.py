#!/usr/bin/env python3
"""Writes an archive as plain files, for readers who search it on any host that answers HTTP range requests.

folder.py INDEX2 FOLDER    INDEX2 is an index of format Two, which `ats migrate` writes

Writes the folder FOLDER/ROOT-1; docs/formats.md has its bytes. Nothing in it has to be trusted. Its name has the root and the
layout, and an archive has one such folder byte for byte. So its files never change, and caches may keep them for ever. It is
written beside its place and then moved there. Python 3.9 and its standard library are all that it needs.

Status 0: the folder is there. Status 1: it is not, and the line says what to do. Status 2: the words are wrong.
"""

import functools
import hashlib
import itertools
import multiprocessing
import os
import shutil
import struct
import sys
import tempfile
import threading
from concurrent.futures import ProcessPoolExecutor
from typing import Callable, Iterable, Iterator, NamedTuple, NoReturn, Optional, TypeVar

LAYOUT = 1
BLOCK, ENTRY = 64, 6  # entries of a block of a list; bytes of an entry
GROUP_SHIFT = 2  # 4 documents in a group
LEAST_SHIFT, MOST_HEAD = 6, 1 << 16  # a page has 64 leaves, or twice as many until the head is this short
LONGEST_INDEX = 1 << 29
NO_ROOT, LOW, HIGH = bytes(32), b"", b"\xff"
FEW = 200_000  # entries that one process hashes as soon as several would have started
PORTION = 50_000  # entries that a process gets at a time

Item = TypeVar("Item")
Found = TypeVar("Found")


class Refused(Exception):
    """Why no folder is written, and what to do."""


class Index(NamedTuple):
    texts: list[bytes]
    lists: list[tuple[bytes, bytes]]  # each term with its entries
    root: bytes


class Chain(NamedTuple):
    """A list as it is stored, with the digest of its first block."""

    root: bytes
    stored: bytes


# The index


def read_index(source: str) -> Index:
    with open(source, "rb") as file:
        data = file.read(LONGEST_INDEX + 1)
    if data[:5] == b"ATSI\1":
        raise Refused(f"{source} is an index of format One. Type\n    ats migrate {source} {source}2\nand then give {source}2 to this script")
    if data[:5] != b"ATSI\2" or len(data) > LONGEST_INDEX:
        raise Refused(f"{source} is no index. Make one by\n    ats build COLLECTION INDEX\n    ats migrate INDEX INDEX2")
    try:
        return fields_of(data)
    except (struct.error, ValueError):
        raise Refused(f"{source} is cut or damaged. Make it again by `ats migrate`") from None


def fields_of(data: bytes) -> Index:
    at = 5

    def take(size: int) -> bytes:
        nonlocal at
        at += size
        if at > len(data):
            raise ValueError("cut")
        return data[at - size : at]

    def number(size: int) -> int:
        return int.from_bytes(take(size), "big")

    texts = [take(number(4)) for _ in range(number(4))]
    lists = [(take(number(1)), take(ENTRY * number(4))) for _ in range(number(4))]
    index = Index(texts, lists, take(32))
    if at != len(data) or not texts or not all(entries for _, entries in lists):
        raise ValueError("other fields")
    return index


# Trees of RFC 6962


@functools.lru_cache(1 << 18)  # a document's words that occur once have one entry: most leaves come many times
def leaf_digest(leaf: bytes) -> bytes:
    return hashlib.sha256(b"\0" + leaf).digest()


def levels(leaves: Iterable[bytes]) -> list[list[bytes]]:
    """The digests of a tree from its leaves up. A last digest without a partner rises as it is."""
    sha256 = hashlib.sha256
    found = [list(map(leaf_digest, leaves))]
    while len(found[-1]) > 1:
        row = found[-1]
        above = [sha256(b"\1" + left + right).digest() for left, right in zip(row[::2], row[1::2])]
        found.append(above + row[2 * len(above) :])
    return found


def root_of(leaves: Iterable[bytes]) -> bytes:
    return levels(leaves)[-1][0]


def audit_path(tree: list[list[bytes]], shift: int, part: int) -> bytes:
    """The digests beside the way from the root down to an aligned part of 2^shift leaves, from the root down."""
    path = []
    for row in tree[shift:-1]:
        if part ^ 1 < len(row):
            path.append(row[part ^ 1])
        part >>= 1
    return b"".join(reversed(path))


def count_of_parts(leaves: int, shift: int) -> int:
    return (leaves + (1 << shift) - 1) >> shift


# Leaves and lists


def chain(entries: bytes) -> Chain:
    """Each block of the list, and after it the digest of the next one."""
    stored, following, size = [], b"", BLOCK * ENTRY
    for start in range((len(entries) - 1) // size * size, -1, -size):
        block = entries[start : start + size]
        top = root_of(block[i : i + ENTRY] for i in range(0, len(block), ENTRY))
        stored.append(block + following)
        following = hashlib.sha256(b"\3" + top + (following or NO_ROOT)).digest()
    return Chain(following, b"".join(reversed(stored)))


def with_length(term: bytes) -> bytes:
    return bytes([len(term)]) + term


def dictionary_leaf(term: bytes, documents: int, root: bytes) -> bytes:
    return with_length(term) + struct.pack(">I", documents) + root


def terms_of_documents(index: Index) -> list[list[bytes]]:
    """For each document the leaves of the tree of its terms: the lists, turned over."""
    found: list[list[bytes]] = [[with_length(LOW) + b"\0\0"] for _ in index.texts]
    for term, entries in index.lists:
        front, before, leaf = with_length(term), b"", b""
        for doc, impact in struct.iter_unpack(">I2s", entries):
            if doc >= len(found):
                raise Refused("the index names a document that it does not have. Make it again by `ats migrate`")
            if impact != before:
                before, leaf = impact, front + impact
            found[doc].append(leaf)
    for leaves in found:
        leaves.append(with_length(HIGH) + b"\0\0")
    return found


# Hashing by several processes


def chains(portion: list[bytes]) -> list[Chain]:
    return list(map(chain, portion))


def roots(portion: list[list[bytes]]) -> list[bytes]:
    return list(map(root_of, portion))


def portions(items: Iterable[Item], weight: Callable[[Item], int]) -> Iterator[list[Item]]:
    """Runs of items that weigh about a portion together."""
    run: list[Item] = []
    full = 0
    for item in items:
        run.append(item)
        full += weight(item)
        if full >= PORTION:
            yield run
            run, full = [], 0
    if run:
        yield run


def end_with_maker() -> None:
    """Has this process end when the one that made it is killed. It would wait for more work for ever, and keep what it
    inherited, such as the lock of a folder."""
    def wait() -> None:
        multiprocessing.parent_process().join()
        os._exit(1)

    threading.Thread(target=wait, daemon=True).start()


class Work:
    """Hashes portions, by one process or several, and shows on a terminal how far it is."""

    def __init__(self, entries: int, advance: Optional[Callable[[int, int], None]]):
        self.entries, self.done, self.advance = max(2 * entries, 1), 0, advance
        processes = os.cpu_count() or 1
        self.pool: Optional[ProcessPoolExecutor] = None
        if entries > FEW and processes > 1:
            self.pool = ProcessPoolExecutor(processes, initializer=end_with_maker)

    def each(self, hashed: Callable[[list[Item]], list[Found]], items: list[Item], weight: Callable[[Item], int]) -> list[Found]:
        runs, found = list(portions(items, weight)), []
        results = self.pool.map(hashed, runs) if self.pool else map(hashed, runs)
        for run, result in zip(runs, results):
            found += result
            self.done += sum(map(weight, run))
            self.show()
        return found

    def show(self) -> None:
        if self.advance:
            self.advance(min(self.done, self.entries), self.entries)
        elif sys.stderr.isatty():
            print(f"\rhashed {min(self.done * 100 // self.entries, 100)} %", end="", file=sys.stderr, flush=True)

    def __enter__(self) -> "Work":
        return self

    def __exit__(self, *_: object) -> None:
        if self.pool:
            self.pool.shutdown()
        if sys.stderr.isatty() and not self.advance:
            print("\r" + " " * 16 + "\r", end="", file=sys.stderr)


# The files


def places(parts: Iterable[bytes]) -> list[int]:
    """Where each part begins if they follow one another, and where the last one ends."""
    return [0, *itertools.accumulate(map(len, parts))]


def groups(tree: list[list[bytes]], begins: list[int], records: list[bytes]) -> bytes:
    """For each group where its documents begin and the last one ends, a record for each, and the audit path: all of one length."""
    members, depth = 1 << GROUP_SHIFT, max(len(tree) - 1 - GROUP_SHIFT, 0)
    size = 4 * (members + 1) + len(records[0]) * members + 32 * depth
    found = []
    for group in range(count_of_parts(len(records), GROUP_SHIFT)):
        first = group * members
        own = begins[first : first + members + 1]
        own += own[-1:] * (members + 1 - len(own))
        joined = b"".join(records[first : first + members]).ljust(len(records[0]) * members, b"\0")
        found.append((struct.pack(f">{members + 1}I", *own) + joined + audit_path(tree, GROUP_SHIFT, group)).ljust(size, b"\0"))
    return b"".join(found)


def pages(tree: list[list[bytes]], leaves: list[bytes], begins: list[int], shift: int) -> list[bytes]:
    """Each page of the dictionary: where its first list begins, its leaves, its audit path."""
    found = []
    for page in range(count_of_parts(len(leaves), shift)):
        first = page << shift
        own = b"".join(leaves[first : first + (1 << shift)])
        found.append(struct.pack(">I", begins[first]) + own + audit_path(tree, shift, page))
    return found


def head(header: bytes, terms: list[bytes], own_pages: list[bytes], shift: int) -> bytes:
    """The header, and for each page its length and its first term."""
    sparse = (struct.pack(">I", len(page)) + with_length(terms[i << shift]) for i, page in enumerate(own_pages))
    return b"ATSH" + bytes([LAYOUT, shift]) + header + b"".join(sparse)


def page_shift(terms: list[bytes], header: bytes) -> int:
    """The least one by which the head is short enough."""
    front = len(header) + 6
    return next(shift for shift in itertools.count(LEAST_SHIFT)
                if front + sum(5 + len(term) for term in terms[:: 1 << shift]) <= MOST_HEAD)


def files(index: Index, advance: Optional[Callable[[int, int], None]] = None) -> dict[str, bytes]:
    own_terms = terms_of_documents(index)
    with Work(sum(len(entries) for _, entries in index.lists) // ENTRY, advance) as work:
        lists = work.each(chains, [entries for _, entries in index.lists], lambda entries: len(entries) // ENTRY)
        records = [struct.pack(">I", len(own)) + root for own, root in zip(own_terms, work.each(roots, own_terms, len))]
    terms = [LOW, *(term for term, _ in index.lists), HIGH]
    own = (dictionary_leaf(term, len(entries) // ENTRY, it.root) for (term, entries), it in zip(index.lists, lists))
    leaves = [dictionary_leaf(LOW, 0, NO_ROOT), *own, dictionary_leaf(HIGH, 0, NO_ROOT)]
    dictionary, documents, texts = levels(leaves), levels(records), levels(index.texts)

    header = struct.pack(">BII", 1, len(index.texts), len(leaves)) + b"".join(tree[-1][0] for tree in (dictionary, documents, texts))
    if hashlib.sha256(b"\4" + header).digest() != index.root:
        raise Refused("the index does not have the root that it names. Make it again by `ats migrate`")
    shift = page_shift(terms, header)
    own_pages = pages(dictionary, leaves, [0, *places(it.stored for it in lists)], shift)
    spelt_terms = [b"".join(own) for own in own_terms]
    return {
        "head": head(header, terms, own_pages, shift),
        "dictionary": b"".join(own_pages),
        "lists": b"".join(it.stored for it in lists),
        "texts": b"".join(index.texts),
        "texts-tree": groups(texts, places(index.texts), texts[0]),
        "terms": b"".join(spelt_terms),
        "documents-tree": groups(documents, places(spelt_terms), records),
    }


# The folder


def refuse_another(target: str, found: dict[str, bytes]) -> None:
    """A folder of this name has these bytes, or it is not what its name says."""
    for name, data in found.items():
        path = os.path.join(target, name)
        if not os.path.isfile(path) or open(path, "rb").read() != data:
            raise Refused(f"{path} is not what the archive has. Remove {target}, and type this again")


def store(target: str, found: dict[str, bytes]) -> None:
    """A host that copies the folder meanwhile finds all of it or nothing."""
    beside = tempfile.mkdtemp(prefix=".", suffix=".part", dir=os.path.dirname(target))
    try:
        for name, data in found.items():
            with open(os.path.join(beside, name), "wb") as file:
                file.write(data)
        os.chmod(beside, 0o755)
        os.rename(beside, target)
    finally:
        shutil.rmtree(beside, ignore_errors=True)


def make(source: str, folder: str) -> str:
    index = read_index(source)
    found = files(index)
    target = os.path.join(folder, f"{index.root.hex()}-{LAYOUT}")
    if os.path.lexists(target):
        refuse_another(target, found)
    else:
        os.makedirs(folder, exist_ok=True)
        store(target, found)
    return "\n".join([target, *(f"{name} {len(data)}" for name, data in found.items())])


def stop(status: int, why: str) -> NoReturn:
    print(why, file=sys.stderr)
    sys.exit(status)


def main(words: list[str]) -> None:
    if len(words) != 2:
        stop(2, "usage: folder.py INDEX2 FOLDER")
    try:
        print(make(*words))
    except Refused as why:
        stop(1, f"no folder is written: {why}")
    except OSError as why:
        stop(1, f"no folder is written: {why.filename}: {why.strerror}")


if __name__ == "__main__":
    main(sys.argv[1:])
