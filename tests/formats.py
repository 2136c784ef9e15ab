"""Compares proofs of the same questions in both formats of lists, over random collections.

usage: python3 tests/formats.py [PROGRAM [QUESTIONS]]

PROGRAM is the program; without it, it is proved and built if needed. QUESTIONS is 1,000 if it is not given. Draws small
collections and questions from a fixed seed, builds and migrates each, and proves and verifies each question by both
algorithms in both formats. The rows of both formats must be equal, and no proof of format Two may be longer than that of
format One. Prints how many proofs were shorter, how many were as long, and the bytes of all. Ends with status 0 if all
is as it must be.
"""

import json
import random
import subprocess
import sys
import tempfile
from pathlib import Path
from typing import NamedTuple

from trying import corpora, program_of

QUESTIONS = 1000
EACH = 25  # questions over one collection
DOCUMENTS = 700  # at most; a list in blocks has up to 11 blocks
VOCABULARY = 300  # words at most
WORDS = 12  # of a text, at most
ROWS = (1, 2, 3, 10, 63, 64, 65, 100, 128, 1000)
ALGORITHMS = ("tnra", "tra")
LIMIT = 120  # seconds of one run


class Question(NamedTuple):
    rows: int
    query: str


class Proved(NamedTuple):
    """The lengths of the proofs of one question, in format One and in format Two."""

    one: int
    two: int


class Program:
    """The program over files in a folder of its own."""

    def __init__(self, path: str, folder: Path):
        self.path, self.folder = path, folder

    def run(self, *words: str) -> str:
        ended = subprocess.run([self.path, *words], cwd=self.folder, stdout=subprocess.PIPE, text=True, timeout=LIMIT, check=False)
        if ended.returncode != 0:
            sys.exit(f"{words} ended with status {ended.returncode}: {ended.stdout.strip()}")
        return ended.stdout

    def roots(self, texts: list[str]) -> dict[str, str]:
        """Builds the index ONE, and migrates it to the index TWO. Returns the root of each."""
        (self.folder / "collection").write_text(json.dumps(texts), encoding="utf-8")
        one = self.run("build", "collection", "ONE").strip()
        two = self.run("migrate", "ONE", "TWO").strip()
        return {"ONE": one, "TWO": two}

    def prove(self, index: str, root: str, algorithm: str, asked: Question) -> tuple[int, str]:
        """The length of a proof, and the rows for which it is accepted."""
        self.run("prove", index, algorithm, str(asked.rows), asked.query, "proof")
        rows = self.run("verify", root, str(asked.rows), asked.query, "proof")
        return (self.folder / "proof").stat().st_size, rows


def words_of(rng: random.Random, vocabulary: list[str], count: int) -> str:
    """Words of which the first ones of the vocabulary are the most frequent."""
    shares = [1 / (k + 1) for k in range(len(vocabulary))]
    return " ".join(rng.choices(vocabulary, shares, k=count))


def collection(rng: random.Random, vocabulary: list[str]) -> list[str]:
    """Texts of few words; a text may have none."""
    return [words_of(rng, vocabulary, rng.randint(0, WORDS)) for _ in range(rng.randint(1, DOCUMENTS))]


def question(rng: random.Random, vocabulary: list[str]) -> Question:
    """Frequent and rare words, of which some may be repeated, and sometimes a word that no text has."""
    words = words_of(rng, vocabulary, rng.randint(1, 3)).split() + rng.choices(vocabulary, k=rng.randint(0, 3))
    if rng.random() < 0.2:
        words.append("nowhere")
    return Question(rng.choice(ROWS), " ".join(words))


def in_both(program: Program, roots: dict[str, str], algorithm: str, asked: Question) -> Proved:
    """Proves a question in both formats, and stops if the rows differ or the second proof is longer."""
    (one, rows), (two, other) = (program.prove(index, root, algorithm, asked) for index, root in roots.items())
    if rows != other:
        sys.exit(f"{algorithm}, {asked}: the rows differ:\n{rows}and in format Two\n{other}")
    if two > one:
        sys.exit(f"{algorithm}, {asked}: {one} bytes, and {two} in format Two")
    return Proved(one, two)


def tell(algorithm: str, proved: list[Proved]) -> None:
    one, two = (sum(each[at] for each in proved) for at in (0, 1))
    shorter = sum(each.two < each.one for each in proved)
    saved, least = max(each.one - each.two for each in proved), min(each.two / each.one for each in proved)
    print(f"{algorithm:5}{len(proved):6} questions: {shorter:5} proofs shorter in format Two, {len(proved) - shorter:5} as long, none longer")
    print(f"      {one:,} bytes in format One, {two:,} in Two: {two / one:.4f}; the most saved {saved} bytes, the least ratio {least:.3f}")


def main() -> int:
    path = program_of(sys.argv[1:2])
    questions = int(sys.argv[2]) if len(sys.argv) > 2 else QUESTIONS
    rng, words = random.Random(corpora.SEED), corpora.vocabulary(VOCABULARY)
    proved: dict[str, list[Proved]] = {algorithm: [] for algorithm in ALGORITHMS}
    collections = 0
    with tempfile.TemporaryDirectory() as folder:
        program = Program(path, Path(folder))
        while len(proved["tra"]) < questions:
            vocabulary = words[: rng.randint(1, VOCABULARY)]
            roots = program.roots(collection(rng, vocabulary))
            collections += 1
            for _ in range(min(EACH, questions - len(proved["tra"]))):
                asked = question(rng, vocabulary)
                for algorithm in ALGORITHMS:
                    proved[algorithm].append(in_both(program, roots, algorithm, asked))
    print(f"{questions} questions over {collections} collections, by both algorithms in both formats: the rows of both formats are equal")
    for algorithm, some in proved.items():
        tell(algorithm, some)
    return 0


if __name__ == "__main__":
    sys.exit(main())
