"""Seeded collections for the measures: JSON arrays of strings, in several shapes.

The words follow Zipf's law: the k-th most frequent has a share of about 1/k. A shape with the same
number of bytes gives the same file each time, on each machine.
"""

import functools
import itertools
import json
import random
from typing import Iterator, NamedTuple

MIB = 1 << 20

# The limits of the program.
MAX_DOCUMENTS = 65_536
MAX_TEXT = 1 << 20
MAX_TEXTS = 1 << 24

SEED = 20_080_824


class Shape(NamedTuple):
    """What the texts look like."""

    words: int  # of a text
    vocabulary: int
    says: str


SHAPES = {
    "articles": Shape(200, 20_000, "texts of 200 words"),
    "notes": Shape(60, 20_000, "many short texts, of 60 words"),
    "books": Shape(120_000, 20_000, "few long texts, of 120,000 words"),
    "lexicon": Shape(200, 100_000, "texts of 200 words out of 100,000"),
}


@functools.lru_cache(maxsize=None)
def vocabulary(size: int) -> list[str]:
    """Distinct made-up words, the most frequent first: the first hundred have one syllable."""
    onsets = ["b", "br", "c", "d", "f", "g", "h", "l", "m", "n", "p", "pl", "r", "s", "st", "t", "tr", "v"]
    syllables = [onset + vowel for onset in onsets for vowel in "aeiou"]
    codas = ["", "l", "n", "nd", "r", "s", "st", "t"]
    rng = random.Random(SEED)
    words = rng.sample([a + z for a in syllables for z in codas], 100)
    words += rng.sample([a + b + z for a in syllables for b in syllables for z in codas], min(size - 100, 20_000))
    known = set(words)
    while len(words) < size:
        word = "".join(rng.choice(syllables) for _ in range(3)) + rng.choice(codas)
        if word not in known:
            known.add(word)
            words.append(word)
    return words


def query_of(words: list[str]) -> str:
    """Three words of a vocabulary: a frequent one, a usual one and a rare one."""
    return " ".join(words[k] for k in (9, 99, 999))


def texts(shape: Shape, total: int) -> Iterator[str]:
    """Texts that have `total` bytes together, or a few bytes fewer."""
    words = vocabulary(shape.vocabulary)
    shares = list(itertools.accumulate(1 / (k + 1) for k in range(len(words))))
    rng = random.Random(SEED)
    left = total
    while left > 0:
        text = " ".join(rng.choices(words, cum_weights=shares, k=shape.words))[:left].rstrip()
        left -= max(len(text), 1)
        if text:
            yield text


def write(path: str, shape: Shape, total: int) -> int:
    """Writes a collection, and returns how many documents it has."""
    found = list(texts(shape, total))
    assert len(found) <= MAX_DOCUMENTS and max(map(len, found)) <= MAX_TEXT
    assert sum(map(len, found)) <= MAX_TEXTS
    with open(path, "w", encoding="utf-8") as file:
        json.dump(found, file)
    return len(found)
