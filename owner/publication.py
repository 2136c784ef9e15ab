"""The file by which an owner publishes roots, as docs/formats.md has it: what it says, how it is written and read, and how
the growth between two roots is tried. `announce.py` and `follow.py` use it, and nothing is proved of it. Python 3.9 and its
standard library are all that it needs.

    one = publication.read(data)
    one.number, one.roots               # 2, ("31a0..",)
    publication.written(one) == data    # a publication is spelt in one way
"""
import hashlib
import os
import re
import tempfile
from typing import NamedTuple, Optional

from archive_files import Ended, run
from folder import root_of

LATEST = "publication.txt"  # has the newest publication
UNICODE = "18.0"            # whose tables the program has

MAX_PUBLICATION = 1 << 20
MAX_SHARDS = 4096
MAX_GROWTH = 4096

NUMBER = "[1-9][0-9]{0,8}"
ROOT = "[0-9a-f]{64}"
FORMS = {
    "publication": NUMBER,
    "date": "[0-9]{4}-[0-9]{2}-[0-9]{2}",
    "unicode": r"[0-9]{1,3}\.[0-9]{1,3}",
    "titles": "none|first-line",
    "name": "[^\x00-\x1f\x7f-\x9f\u2028\u2029]{1,100}",
    "shards": NUMBER,
    "catalog": ROOT,
    "shard": "0|" + NUMBER,
    "root": ROOT,
    "format": "[12]",
    "documents": NUMBER,
    "before": f"none|{ROOT}",
    "growth": "none|[a-z0-9][a-z0-9.-]{0,63}",
}


class OutOfForm(Exception):
    """The bytes are no publication; where, and what should stand there."""


class Shard(NamedTuple):
    """One archive of a catalog: its root, the root that the publication before has for it, and the name of the file of the growth
    between both. A shard that the publication before does not have has no root before it."""

    root: str
    format: int
    documents: int
    before: Optional[str]
    growth: Optional[str]


class Publication(NamedTuple):
    """What an owner gives out at one time. Publications are numbered from 1 without a gap."""

    number: int
    date: str
    unicode: str
    titles: str
    name: Optional[str]  # by which the owner calls the archive
    shards: tuple[Shard, ...]

    @property
    def root(self) -> str:
        """What readers hold: the root of the only archive, or that of the catalog."""
        return self.roots[0] if len(self.shards) == 1 else catalog_root(self.roots)

    @property
    def roots(self) -> tuple[str, ...]:
        return tuple(shard.root for shard in self.shards)

    @property
    def roots_before(self) -> tuple[str, ...]:
        return tuple(shard.before for shard in self.shards if shard.before is not None)

    @property
    def documents(self) -> int:
        return sum(shard.documents for shard in self.shards)


def catalog_root(roots: tuple[str, ...]) -> str:
    """The root of the catalog of these archives: the digest of its header, which has the RFC 6962 root over their roots."""
    header = b"ATSC\1" + len(roots).to_bytes(4, "big") + root_of(map(bytes.fromhex, roots))
    return hashlib.sha256(b"\2" + header).hexdigest()


def name_of(number: int) -> str:
    """The name of the file that keeps a publication after newer ones."""
    return f"publication-{number}.txt"


def written(one: Publication) -> bytes:
    lines = [f"publication: {one.number}", f"date: {one.date}", f"unicode: {one.unicode}", f"titles: {one.titles}",
             *([f"name: {one.name}"] if one.name else []), f"shards: {len(one.shards)}",
             f"catalog: {catalog_root(one.roots)}"]
    for number, shard in enumerate(one.shards):
        lines += [f"shard: {number}", f"root: {shard.root}", f"format: {shard.format}", f"documents: {shard.documents}",
                  f"before: {shard.before or 'none'}", f"growth: {shard.growth or 'none'}"]
    return "".join(line + "\n" for line in lines).encode()


class Reader:
    """Reads the lines of publications in their order."""

    def __init__(self, data: bytes) -> None:
        try:
            self.lines = data.decode("utf-8").split("\n")
        except UnicodeDecodeError:
            raise OutOfForm("it is not UTF-8") from None
        self.at = 0

    def ended(self) -> bool:
        return self.lines[self.at:] == [""]

    def begins(self, word: str) -> bool:
        return self.at < len(self.lines) and self.lines[self.at].startswith(word)

    def value(self, name: str, most: int = 10**9) -> str:
        line = self.lines[self.at] if self.at < len(self.lines) - 1 else ""
        found = re.fullmatch(f"{name}: ({FORMS[name]})", line)
        if not found or found[1].isdigit() and len(found[1]) < 10 and int(found[1]) > most:
            raise OutOfForm(f"line {self.at + 1} is no line `{name}: ..` in its form")
        self.at += 1
        return found[1]

    def number(self, name: str, most: int = 10**9) -> int:
        return int(self.value(name, most))

    def optional(self, name: str) -> Optional[str]:
        value = self.value(name)
        return None if value == "none" else value

    def shard(self, number: int) -> Shard:
        if self.number("shard") != number:
            raise OutOfForm(f"line {self.at} is not `shard: {number}`")
        return Shard(self.value("root"), self.number("format"), self.number("documents", 1 << 16), self.optional("before"),
                     self.optional("growth"))

    def publication(self) -> Publication:
        number, date, unicode = self.number("publication"), self.value("date"), self.value("unicode")
        titles, name = self.value("titles"), self.value("name") if self.begins("name: ") else None
        count, catalog = self.number("shards", MAX_SHARDS), self.value("catalog")
        one = Publication(number, date, unicode, titles, name, tuple(self.shard(each) for each in range(count)))
        if catalog_root(one.roots) != catalog:
            raise OutOfForm("its roots do not give its catalog")
        return one


def read(data: bytes) -> Publication:
    """The publication that these bytes are, and no more."""
    if len(data) > MAX_PUBLICATION:
        raise OutOfForm("it is above 1 MiB")
    reader = Reader(data)
    one = reader.publication()
    if not reader.ended():
        raise OutOfForm(f"line {reader.at + 1} comes after the end")
    return one


def read_all(data: bytes) -> list[Publication]:
    """The publications that follow one another in these bytes, by rising number without a gap. Each has the roots of the
    one before as roots before it."""
    reader, all_of_them = Reader(data), []
    while not reader.ended():
        all_of_them.append(reader.publication())
        if len(all_of_them) > 1 and not follows(all_of_them[-2], all_of_them[-1]):
            raise OutOfForm(f"publication {all_of_them[-1].number} does not follow {all_of_them[-2].number}")
    return all_of_them


def follows(one: Publication, later: Publication) -> bool:
    return later.number == one.number + 1 and later.roots_before == one.roots


def tried_growth(program: str, before: str, root: str, data: bytes) -> Ended:
    """How the program's `growth` ends for the bytes of a file of a growth."""
    with tempfile.TemporaryDirectory() as folder:
        path = os.path.join(folder, "growth")
        with open(path, "wb") as file:
            file.write(data)
        return run(program, "growth", before, root, path)
