"""What is measured: the program, its archives, and how large and how often."""

import functools
import json
import os
from pathlib import Path
from typing import NamedTuple, Optional

import corpora
import measure
from blocks import Hashing


PROCESSORS = 4  # with fewer, nothing is said of several


class Figure(NamedTuple):
    """A value for a row of the table, and what it is of: a shape of texts, a query, a command."""

    name: str
    of: str
    value: float


class Archive(NamedTuple):
    """An index in its file, and its root."""

    index: Path
    root: str


class House:
    """The program with a folder for its files. Sizes of texts are in MiB; the small one is a quarter of the large one."""

    def __init__(self, program: str, library: Optional[str], folder: Path, is_quick: bool):
        self.program, self.library, self.folder, self.is_quick = program, library, folder, is_quick
        self.small, self.large = (0.25, 1) if is_quick else (4, 16)
        self.runs = 1 if is_quick else 5
        self.loads = 1 if is_quick else 3  # of commands that load an index, which take seconds
        self.has_four = len(os.sched_getaffinity(0)) >= PROCESSORS
        self.many = 50 if is_quick else 1000  # connections, and proofs of a sweep

    def command(self, *words: object) -> list[str]:
        return [self.program, *map(str, words)]

    def run(self, *words: object) -> measure.Run:
        return measure.run(self.command(*words))

    @functools.cached_property
    def hashing(self) -> Hashing:
        return Hashing(self.folder)

    @functools.lru_cache(maxsize=4)
    def texts(self, shape: str, mib: float) -> list[str]:
        """Texts of a shape, of this size together."""
        return list(corpora.texts(corpora.SHAPES[shape], int(mib * corpora.MIB)))

    def collection(self, name: str, texts: list[str]) -> Path:
        """The file of some texts."""
        path = self.folder / f"{name}.json"
        path.write_text(json.dumps(texts), encoding="utf-8")
        return path

    def built(self, name: str, texts: list[str]) -> Archive:
        """The archive of some texts."""
        index = self.folder / f"{name}.index"
        return Archive(index, self.run("build", self.collection(name, texts), index).printed.strip())

    @functools.lru_cache(maxsize=None)
    def archive(self, mib: float, shape: str = "notes") -> Archive:
        """The archive of texts of a shape."""
        return self.built(f"{shape}-{mib}", self.texts(shape, mib))

    @functools.lru_cache(maxsize=None)
    def in_blocks(self, mib: float, shape: str = "notes") -> Archive:
        """The archive of the same texts in format Two."""
        migrated = self.folder / f"{shape}-{mib}.blocks"
        return Archive(migrated, self.run("migrate", self.archive(mib, shape).index, migrated).printed.strip())

    def query(self, *places: int) -> str:
        """Words of the notes, by their place in the order of frequency."""
        return " ".join(corpora.vocabulary(corpora.SHAPES["notes"].vocabulary)[place] for place in places)
