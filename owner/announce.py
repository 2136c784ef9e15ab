#!/usr/bin/env python3
"""Writes what the owner of an archive gives out: the next publication, as docs/formats.md has it, in a folder that a web
server or a medium takes to readers.

A publication has the root of each shard and of the catalog, and if the last shard has grown the file that `grow` made. The
program's `growth` is tried under both roots first, and nothing is written if it refuses. The script signs nothing: it prints
the lines that sign the publication and those that check it. Nothing is proved of it. Python 3.9 and its standard library are
all that it needs.

    announce.py site notes-1.index
    announce.py site notes-2.index --growth notes-2.growth
"""
import argparse
import datetime
import os
import re
import sys
from typing import Optional

from archive_files import PROGRAM, Fault, Storing, TooLong, Words, alone_in, read_within, reason, run, say, shown
from publication import (
    FORMS, LATEST, MAX_GROWTH, MAX_PUBLICATION, MAX_SHARDS, UNICODE, OutOfForm, Publication, Shard, name_of, read,
    tried_growth, written)

HELP = """Into the folder SITE go publication-N.txt, a copy of it named publication.txt, and a file growth-N-S if shard S has grown.
Each is written as a whole. Give an INDEX for each shard, in their order, and the GROWTH of the shard that was the last one, if
its root is another than before. The file may lie anywhere.

--anew publishes other roots without a growth. Readers who follow do not accept them until they have asked you.

Status 0: the publication is written. Status 1: it is not, and all files are as before. Status 2: the words are wrong.
Status 3: the program cannot be run."""

SIGN = """{0} is written. In its folder, sign it by one of
    minisign -S -m {0}
    ssh-keygen -Y sign -f KEY -n ats {0}
and readers check it by
    minisign -V -m {0} -p minisign.pub
    ssh-keygen -Y verify -f SIGNERS -I OWNER -n ats -s {0}.sig <{0}"""


def content(path: str, limit: int) -> bytes:
    try:
        return read_within(path, limit)
    except TooLong:
        raise Fault(f"nothing is written: {shown(path)} has more than {limit} bytes") from None
    except OSError as error:
        raise Fault(f"nothing is written: {shown(path)} cannot be read: {reason(error)}") from None


def newest(site: str) -> Optional[Publication]:
    """The publication that readers have, if there is one."""
    path = os.path.join(site, LATEST)
    if not os.path.lexists(path):
        return None
    try:
        return read(content(path, MAX_PUBLICATION))
    except OutOfForm as why:
        raise Fault(f"nothing is written: {shown(path)} is no publication: {why}. Put it back as it was") from None


def archive(program: str, index: str) -> Shard:
    """The root, the format and the number of documents of an index that the program reads."""
    ended = run(program, "root", index)
    if ended.status != 0:
        raise Fault(f"nothing is written: the program reads no index from {shown(index)}: {ended.printed}")
    with open(index, "rb") as file:
        head = file.read(9)
    return Shard(ended.printed, head[4], int.from_bytes(head[5:9], "big"), None, None)


class Site:
    """A folder with publications, the newest one there, and the files that the next one adds."""

    def __init__(self, said: argparse.Namespace) -> None:
        self.said, self.latest = said, newest(said.site)
        self.number = self.latest.number + 1 if self.latest else 1
        self.growths = list(said.growth)
        self.files: dict[str, bytes] = {}

    def publication(self, shards: list[Shard]) -> Publication:
        """The next publication, of these shards."""
        before = self.latest.shards if self.latest else ()
        if len(shards) < len(before) and not self.said.anew:
            raise Fault(f"nothing is written: publication {self.latest.number} has {len(before)} shards. Give an index of "
                        "each, in their order")
        if self.latest and tuple(shard.root for shard in shards) == self.latest.roots:
            raise Fault(f"nothing is written: publication {self.latest.number} has these roots already")
        for at, old in enumerate(before[:len(shards)]):
            shards[at] = self.grown(at, old, shards[at], at == len(before) - 1)
        if self.growths:
            raise Fault(f"nothing is written: no shard needs the growth {shown(self.growths[0])}")
        name = self.said.name or (self.latest.name if self.latest else None)
        return Publication(self.number, self.said.date, UNICODE, self.titles(), name, tuple(shards))

    def titles(self) -> str:
        """Where titles are. Texts that stay as they are do not get title lines later, or lose them."""
        said = "first-line" if self.said.title_line else "none"
        if not self.latest or self.said.anew:
            return said
        if self.said.title_line and self.latest.titles != said:
            raise Fault(f"nothing is written: publication {self.latest.number} says `titles: none`. Leave --title-line out")
        return self.latest.titles

    def grown(self, number: int, old: Shard, new: Shard, is_last: bool) -> Shard:
        """The shard with the root before it and, if this is another one, a growth that the program accepts."""
        if new.root == old.root or self.said.anew:
            return new._replace(before=old.root, growth=None)
        if not is_last:
            raise Fault(f"nothing is written: shard {number} is closed, since another one came after it, and its root is another "
                        f"than that of publication {self.latest.number}. Give its index as it was")
        if not self.growths:
            raise Fault(f"nothing is written: the root of shard {number} is another than that of publication "
                        f"{self.latest.number}. Give the file that `grow` makes from the old index and the new one, by "
                        "--growth. If `grow` makes none, only --anew publishes this root, and readers will ask you why")
        path = self.growths.pop(0)
        data = content(path, MAX_GROWTH)
        ended = tried_growth(self.said.program, old.root, new.root, data)
        if ended != (0, f"grown {old.documents} {new.documents}"):
            raise Fault(f"nothing is written: {shown(path)} shows no growth of shard {number} from publication "
                        f"{self.latest.number}: {ended.printed}. Make it by `grow` from the index that was published then")
        name = f"growth-{self.number}-{number}"
        self.files[name] = data
        return new._replace(before=old.root, growth=name)

    def written(self, shards: list[Shard]) -> dict[str, bytes]:
        """The files of the next publication. The one that readers look for comes last: before it is there, nobody sees the
        rest."""
        data, kept = written(self.publication(shards)), name_of(self.number)
        if os.path.lexists(os.path.join(self.said.site, kept)):
            raise Fault(f"nothing is written: {kept} is there, but {LATEST} is older. If {kept} was given out, copy it to "
                        f"{LATEST}; if not, remove it")
        return {**self.files, kept: data, LATEST: data}

    def write(self, shards: list[Shard]) -> None:
        with Storing() as storing:
            for name, data in self.written(shards).items():
                storing.add(os.path.join(self.said.site, name), data)


def today() -> str:
    return datetime.datetime.now(datetime.timezone.utc).date().isoformat()


def add_options(words: Words) -> None:
    words.add_argument("--anew", action="store_true", help="publish other roots without a growth")
    words.add_argument("--name", metavar="NAME", help="how the archive is called, until another name is given")
    words.add_argument("--date", default=today(), help="YYYY-MM-DD, today if it is not given")
    words.add_argument("--program", default=PROGRAM, help="another program than ./ats of this repository")


def try_options(words: Words, said: argparse.Namespace) -> None:
    try:
        said.date = datetime.date.fromisoformat(said.date).isoformat()
    except ValueError:
        words.error(f"{said.date!r} is no date YYYY-MM-DD")
    if said.name is not None and not re.fullmatch(FORMS["name"], said.name):
        words.error("a name is a line of 1 to 100 characters")


def read_words(argv: list[str]) -> argparse.Namespace:
    words = Words(__doc__, HELP)
    words.add_argument("site", metavar="SITE")
    words.add_argument("index", metavar="INDEX", nargs="+")
    words.add_argument("--growth", metavar="GROWTH", action="append", default=[], help="what `grow` made for a shard")
    words.add_argument("--title-line", action="store_true", help="say, in the first one, that titles are in the texts")
    add_options(words)
    said = words.parse_args(argv)
    try_options(words, said)
    if not os.path.isdir(said.site):
        words.error(f"{said.site!r} is no folder: make it first")
    if len(said.index) > MAX_SHARDS:
        words.error(f"a publication has at most {MAX_SHARDS} shards")
    return said


def main(argv: list[str]) -> int:
    said = read_words(argv)
    try:
        with alone_in(said.site):
            site = Site(said)
            site.write([archive(said.program, index) for index in said.index])
        print(SIGN.format(name_of(site.number)), flush=True)
    except Fault as fault:
        say(str(fault))
        return fault.status
    except OSError as error:
        say(f"the publication may not be whole: {reason(error)}")
        return 1
    return 0


if __name__ == "__main__":
    sys.exit(main(sys.argv[1:]))
