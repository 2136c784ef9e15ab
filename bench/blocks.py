"""The SHA-256 blocks (FIPS 180-4) that an index and a check need, and hashing as many by a plain SHA-256 in C."""

import ctypes
import hashlib
import subprocess
import time
from collections import Counter
from pathlib import Path

import measure

SOURCE = measure.HOME / "bench" / "sha256.c"


def of_string(length: int) -> int:
    """The blocks of a string: after it come one bit, eight bytes of length, and padding."""
    return (length + 8) // 64 + 1


def of_tree(leaves: list[int]) -> int:
    """The blocks of a tree whose leaves have these lengths: a tag is hashed before each."""
    return sum(of_string(1 + leaf) for leaf in leaves) + (len(leaves) - 1) * of_string(1 + 64)


def of_index(texts: list[str]) -> int:
    """The blocks of all trees of an index, and of its header. Words are separated by single spaces here."""
    sentinels, frequency, blocks = [3, 4], Counter(), 0
    for text in texts:
        terms = set(text.split())
        frequency.update(terms)
        blocks += of_tree(sentinels + [1 + len(term) + 2 for term in terms])
    blocks += sum(of_tree([6] * count) for count in frequency.values())
    blocks += of_tree([37, 38] + [1 + len(term) + 36 for term in frequency])
    blocks += of_tree([36] * len(texts)) + of_tree([len(text) for text in texts])
    return blocks + of_string(1 + 105)


class Fields:
    """The fields of a proof of format One, one after another, and the blocks of what a check hashes of them."""

    def __init__(self, proof: bytes) -> None:
        self.proof, self.at, self.blocks = proof, 0, 0

    def number(self, size: int) -> int:
        self.at += size
        return int.from_bytes(self.proof[self.at - size : self.at], "big")

    def leaves(self, count: int, size: int) -> int:
        """Passes leaves of one size, and returns their number."""
        self.at += count * size
        self.blocks += count * of_string(1 + size)
        return count

    def terms(self, count: int, more: int) -> int:
        """Passes leaves of terms, each with its position before it and so many bytes after it, and returns their number."""
        for _ in range(count):
            self.at += 4
            self.leaves(1, 1 + self.proof[self.at] + more)
        return count

    def digests(self, leaves: int, count: int) -> None:
        """Passes the digests of a tree, whose number has `count` bytes."""
        digests = self.number(count)
        self.at += 32 * digests
        self.blocks += (leaves + digests - 1) * of_string(1 + 64)

    def slots(self, count: int) -> int:
        """Passes slots, and returns how many terms are present."""
        return sum(self.number(3) >> 16 for _ in range(count))


def of_check(proof: bytes) -> int:
    """The blocks that the check of a proof of format One hashes."""
    fields = Fields(proof)
    is_tra = fields.number(6) & 0xFF == 1
    fields.leaves(1, 105)
    terms = fields.number(2)
    fields.digests(fields.terms(fields.number(2), 36), 2)
    present = fields.slots(terms)
    met = fields.number(4)
    fields.at += 4 * met
    for _ in range(present):
        fields.digests(fields.leaves(fields.number(4), 6), 2)
    if is_tra:
        fields.digests(fields.leaves(met, 36), 4)
        for _ in range(met):
            fields.digests(fields.terms(fields.number(2), 2), 2)
            fields.slots(present)
    rows = fields.number(2)
    assert fields.at + 4 * rows == len(proof)
    return fields.blocks


class Hashing:
    """The plain SHA-256."""

    def __init__(self, folder: Path) -> None:
        made = str(folder / "sha256.so")
        try:
            subprocess.run(["gcc", "-std=c11", "-O2", "-shared", "-fPIC", "-o", made, SOURCE], check=True)
        except measure.NOT_MADE as why:
            measure.stop(f"nothing is compared with hashing, since gcc did not make {SOURCE.name}: {why}")
        library = ctypes.CDLL(made)
        self.blocks = library.sha256_blocks
        self.blocks.restype, self.blocks.argtypes = ctypes.c_uint32, [ctypes.c_uint64]
        digest = ctypes.create_string_buffer(32)
        for size in range(200):
            library.sha256(bytes(size), ctypes.c_size_t(size), digest)
            assert digest.raw == hashlib.sha256(bytes(size)).digest()

    def seconds(self, count: int) -> float:
        """The seconds by the clock of this many blocks, one after another."""
        start = time.perf_counter()
        self.blocks(count)
        return time.perf_counter() - start
