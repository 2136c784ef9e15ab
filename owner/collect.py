#!/usr/bin/env python3
"""Makes a collection of the files below a folder, for `rank` and `build`.

Each file of text, HTML, PDF (by `pdftotext`) or mail is a document, and each message of a mailbox. Its title is that of the
page, the subject of the message, or its path below the folder. Documents are sorted by path, byte by byte, so the same
files give the same collection. With --after, the documents of an older collection keep their numbers, and only files that
it does not have are sorted and added after them: then `grow` can show that nothing was withdrawn. Nothing is proved of this
script. Python 3.9 and its standard library are all that it needs.

    collect.py notes notes-1.json
    collect.py --after notes-1.json notes notes-2.json
    collect.py --shards notes shards
"""
import argparse
import fnmatch
import os
import re
import shutil
import sys
from typing import Callable, Iterable, NamedTuple, Optional

from archive_files import Fault, Storing, Words, alone_in, printable, reason, say, shown, store
from documents import (
    Collection, Full, LeftOut, Making, PassedOver, Place, decoded, documents_of, kind_of, name_of, places)

HELP = """The collection goes to COLLECTION, or to standard output if none is given. It is written when it is complete,
and COLLECTION is then replaced as a whole: no error leaves half a collection there.

Passed over are files that are no documents:
  symbolic links, and what is neither a file nor a folder
  COLLECTION itself, and OLD
  files of programs, styles and data (.js, .css, .svg, .json and their like), unless --include names them
  files that --exclude names
  files or paths that are not UTF-8, files that cannot be converted, and PDF files if there is no `pdftotext`

Left out are files that may be documents. Then nothing is written, unless --partial is given:
  files and folders that cannot be read
  files above 1 MiB (1,048,576 bytes), or 64 MiB for a file to convert, and texts above 1 MiB
  files that would be document 65,537 or later
  files with which all texts are above 16 MiB (16,777,216 bytes)
  files with which the collection is above 64 MiB (67,108,864 bytes)

Lines on standard error name the first ten of each and say how many more there are. A PATTERN is compared with the path and
with the name; `*` and `?` stand for any characters. Documents of OLD are kept whatever the patterns say.

After a file that is too much, a smaller one may still be taken. The last line on standard error says how many files
were taken and how many not. Files whose names begin with a dot are taken like others.

With --shards, COLLECTION is a folder of collections shard-0.json, shard-1.json and so on. Documents go to the last one, until
one would not fit: then this shard is closed for ever, and the next begins with it. A later run keeps all documents in their
places. With --after, the old collection is the first shard of a new folder. The file shards.txt has a line SHARD DOC TITLE for
each document.

The text of a page, a PDF file or a message is a conversion, and no root says that it is a right one. A page's title,
navigation, scripts and styles are no text of it; --title-line puts the title there.

Status 0: the collection is written. Status 1: it is not, and COLLECTION is as before: no file can be taken, a document
of OLD was changed or is missing, or a file cannot be read or written. Status 2: the words are wrong. Status 3: nothing
is written, because files were left out."""

MEND = ("Put each file back as it was, and give a changed text a new name; if all documents are named, give the options "
        "--title-line and --jsonl of the first time. Or begin again without the old collection: no growth can be "
        "shown then")

# Endings of names of files that are no documents, unless they are asked for.
PROGRAMS = frozenset("""bash bat c cc cfg cjs class cmake conf cpp css csv cxx el ex go h hpp ini java jinja js json jsonl
    jsx less lock lua m4 map mjs mk ml ndjson php pl pm po pot properties py pyi rb rs sass scss sh sql svg swift tcl toml ts
    tsx vim wasm xml xsd xsl xslt yaml yml zsh""".split())
MAX_SHARDS = 4096
NAMED = 10  # files that lines name for each reason to leave them

SHARD = re.compile(r"shard-(0|[1-9][0-9]*)\.json")


class Choice(NamedTuple):
    """Which files are documents."""

    include: tuple[str, ...] = ()
    exclude: tuple[str, ...] = ()
    fields: Optional[tuple[str, str]] = None  # that JSON lines have

    def kind(self, name: str) -> str:
        return kind_of(name, self.fields is not None)

    def judge(self, name: str) -> None:
        """Raises PassedOver if a file of this name is not asked for."""
        if matches(name, self.exclude):
            raise PassedOver("--exclude names it")
        if matches(name, self.include):
            return
        kind = self.kind(name)
        if kind == "text" and name.rpartition("/")[2].rpartition(".")[2].lower() in PROGRAMS:
            raise PassedOver("its name is that of a program, a style or data: --include takes it")
        if kind == "pdf" and shutil.which("pdftotext") is None:
            raise PassedOver("there is no pdftotext: install poppler-utils")


def matches(name: str, patterns: Iterable[str]) -> bool:
    return any(fnmatch.fnmatchcase(each, pattern) for pattern in patterns for each in (name, name.rpartition("/")[2]))


class Few:
    """Lines of one kind: the first are printed, the others counted."""

    def __init__(self) -> None:
        self.count = 0

    def say(self, line: str) -> None:
        self.count += 1
        if self.count <= NAMED:
            say(line)

    def end(self, what: str) -> None:
        if self.count > NAMED:
            say(f"{what} {self.count - NAMED} more")


class Changed(Fault):
    """Documents of the old collection do not have their texts any more."""


class Report:
    """How many files were taken, passed over and left out so far, and what a run shows of its way."""

    def __init__(self) -> None:
        self.taken = 0
        self.passed_over, self.left_out, self.changed = Few(), Few(), Few()

    def pass_over(self, path: bytes, why: PassedOver) -> None:
        if isinstance(why, LeftOut):
            self.left_out.say(f"left out {shown(path)}: {why}")
        else:
            self.passed_over.say(f"passed over {shown(path)}: {why}")

    def advance(self, part: int, whole: int) -> None:
        """Is told how many documents of how many have been looked at."""


class Excluded(NamedTuple):
    """A file or folder that is no document, because it is a collection of this run."""

    status: os.stat_result
    why: str


def exclusion(path: Optional[str], why: str) -> list[Excluded]:
    try:
        return [] if path is None else [Excluded(os.stat(path), why)]
    except OSError:
        return []  # it is not there


def is_folder(entry: os.DirEntry, excluded: list[Excluded]) -> bool:
    """Whether the entry is a folder and not a file. It raises PassedOver if it is neither, or is to be left."""
    if entry.is_symlink():
        raise PassedOver("it is a symbolic link")
    status = entry.stat(follow_symlinks=False)
    for each in excluded:
        if os.path.samestat(status, each.status):
            raise PassedOver(each.why)
    if not entry.is_file(follow_symlinks=False) and not entry.is_dir(follow_symlinks=False):
        raise PassedOver("it is neither a file nor a folder")
    return entry.is_dir(follow_symlinks=False)


def paths_below(folder: bytes, excluded: list[Excluded], report: Report) -> list[bytes]:
    """The paths of all files below a folder, sorted."""
    files, folders = [], [folder]
    while folders:
        inner = folders.pop()
        try:
            entries = list(os.scandir(inner))
        except OSError as error:
            report.pass_over(inner, LeftOut(reason(error)))
            continue
        for entry in entries:
            try:
                (folders if is_folder(entry, excluded) else files).append(entry.path)
            except PassedOver as why:
                report.pass_over(entry.path, why)
            except OSError as error:
                report.pass_over(entry.path, LeftOut(reason(error)))
    return sorted(files)


def files_below(folder: str, choice: Choice, excluded: list[Excluded], report: Report) -> dict[str, Place]:
    """Where documents may be: the place of each by its name, in the order of paths."""
    start = os.fsencode(folder)
    files: dict[str, Place] = {}
    for path in paths_below(start, excluded, report):
        try:
            name = decoded(os.path.relpath(path, start).replace(os.fsencode(os.sep), b"/"), "its path is not UTF-8")
            for part, place in places(name, path, choice.kind(name)):
                if part in files:
                    raise PassedOver("its name is that of a part of another file")
                files[part] = place
        except PassedOver as why:
            report.pass_over(path, why)
        except OSError as error:
            report.pass_over(path, LeftOut(reason(error)))
    return files


def keep(collection: Collection, old: str, files: dict[str, Place], making: Making, report: Report) -> list[str]:
    """Puts the documents of an old collection first, and takes their files away from those to add. It returns their
    titles."""
    items = documents_of(old)
    for number, item in enumerate(items):
        why = making.difference(item, files.pop(name_of(item), None))
        if why:
            report.changed.say(f"cannot keep document {number} of {shown(old)}, {name_of(item)!r}: {why}")
        try:
            collection.add(item)
        except Full as full:
            raise Fault(f"{shown(old)} is no collection that the program reads: {full}") from None
        report.advance(number + 1, len(items))
    report.changed.end("cannot keep")
    if report.changed.count:
        raise Changed(f"nothing is written: documents of {shown(old)} were changed or are missing. {MEND}")
    return [item["title"] for item in items]


def add_new(add: Callable[[dict], None], files: dict[str, Place], choice: Choice, making: Making, report: Report) -> None:
    for at, (name, place) in enumerate(files.items(), 1):
        try:
            choice.judge(name if place.size is None else name.rpartition("#")[0])
            add(making.item(name, place))
            report.taken += 1
        except PassedOver as why:
            report.pass_over(place.path + os.fsencode(f"#{name.rpartition('#')[2]}" if place.size is not None else ""), why)
        report.advance(at, len(files))


class Shards:
    """Collections in their order: documents are added to the last one, and the others are closed for ever. Each goes to
    `close`, with its number, when nothing more is added to it."""

    def __init__(self, close: Callable[[int, Collection], None], most: int = MAX_SHARDS) -> None:
        self.number, self.last, self.close, self.most = 0, Collection(), close, most
        self.where: list[str] = []

    def keep(self, olds: list[str], files: dict[str, Place], making: Making, report: Report) -> None:
        """Puts the documents of all old collections in their places."""
        for self.number, old in enumerate(olds):
            self.last = Collection()
            for document, title in enumerate(keep(self.last, old, files, making, report)):
                self.note(document, title)

    def add(self, item: dict) -> None:
        try:
            self.last.add(item)
        except Full:
            if self.number + 1 == self.most:
                raise
            self.close(self.number, self.last)
            self.number, self.last = self.number + 1, Collection()
            self.last.add(item)
        self.note(len(self.last.items) - 1, item["title"])

    def note(self, document: int, title: str) -> None:
        self.where.append(f"{self.number} {document} {printable(title)}\n")


def conclude(report: Report, kept: int, partial: bool) -> None:
    """Says what was taken, and stops the run if there is nothing to write or if files were left out."""
    after, left = f" after {kept}" if kept else "", report.left_out.count
    report.passed_over.end("passed over")
    report.left_out.end("left out")
    say(f"files: {report.taken} taken{after}, {report.passed_over.count} passed over, {left} left out")
    if left and not partial:
        raise Fault("nothing is written: files were left out. Make them smaller or readable, or take --shards if all "
                    "together are too much; --partial writes the rest", 3)
    if not report.taken and not kept:
        raise Fault("nothing is written: there is no document")


def gather(said: argparse.Namespace, olds: list[str], shards: Shards, excluded: list[Excluded], report: Report) -> None:
    """Fills the shards with the documents of the old ones and of the folder, and closes the last one."""
    making = Making(said.title_line, said.jsonl and tuple(said.jsonl))
    files = files_below(said.folder, choice_of(said), excluded, report)
    shards.keep(olds, files, making, report)
    kept = len(shards.where)
    add_new(shards.add, files, choice_of(said), making, report)
    conclude(report, kept, said.partial)
    shards.close(shards.number, shards.last)


def collect(said: argparse.Namespace, report: Report) -> None:
    """Writes one collection."""
    def close(_: int, collection: Collection) -> None:
        if said.collection is None:
            sys.stdout.buffer.write(collection.data())
            sys.stdout.buffer.flush()
        else:
            store(collection.data(), said.collection)

    own = exclusion(said.collection, "it is the collection itself") + exclusion(said.after, "it is the old collection")
    gather(said, [] if said.after is None else [said.after], Shards(close, 1), own, report)


def shard(said: argparse.Namespace, report: Report) -> None:
    """Writes the shards of a folder, and the list of what is where."""
    os.makedirs(said.collection, exist_ok=True)
    own = exclusion(said.collection, "it is the folder of the shards") + exclusion(said.after, "it is the old collection")
    with alone_in(said.collection), Storing() as storing:
        shards = Shards(lambda number, one: storing.add(shard_path(said.collection, number), one.data()))
        olds = old_shards(said.collection)
        if olds and said.after is not None:
            raise Fault(f"{shown(said.collection)} has shards, so it needs no --after")
        gather(said, [said.after] if said.after is not None else olds, shards, own, report)
        storing.add(os.path.join(said.collection, "shards.txt"), "".join(shards.where).encode())


def shard_path(folder: str, number: int) -> str:
    return os.path.join(folder, f"shard-{number}.json")


def old_shards(folder: str) -> list[str]:
    """The collections of all shards that are there."""
    found = [int(SHARD.fullmatch(name)[1]) for name in os.listdir(folder) if SHARD.fullmatch(name)]
    paths = [shard_path(folder, number) for number in range(max(found, default=-1) + 1)]
    for path in paths:
        if not os.path.exists(path):
            raise Fault(f"nothing is written: {shown(path)} is missing. Put it back")
    return paths


def choice_of(said: argparse.Namespace) -> Choice:
    return Choice(tuple(said.include), tuple(said.exclude), said.jsonl and tuple(said.jsonl))


def add_choices(words: Words) -> None:
    """The options that say what is collected."""
    words.add_argument("--include", metavar="PATTERN", action="append", default=[], help="take these files, whatever they are")
    words.add_argument("--exclude", metavar="PATTERN", action="append", default=[], help="leave these files")
    words.add_argument("--jsonl", metavar=("TEXT", "TITLE"), nargs=2, help="take each line of .jsonl files, by these members")
    words.add_argument("--partial", action="store_true", help="go on though files were left out")


def read_words(argv: list[str]) -> argparse.Namespace:
    words = Words(__doc__, HELP)
    words.add_argument("--after", metavar="OLD", help="keep the documents of this collection in their places")
    words.add_argument("--shards", action="store_true", help="make as many collections as the folder needs")
    words.add_argument("--title-line", action="store_true", help="put the title before the text, as its first line")
    add_choices(words)
    words.add_argument("folder", metavar="FOLDER")
    words.add_argument("collection", metavar="COLLECTION", nargs="?")
    said = words.parse_args(argv)
    if not os.path.isdir(said.folder):
        words.error(f"{said.folder!r} is no folder")
    if said.shards and said.collection is None:
        words.error("--shards takes the folder of the shards as COLLECTION")
    return said


def main(argv: list[str]) -> int:
    said = read_words(argv)
    try:
        (shard if said.shards else collect)(said, Report())
    except Fault as fault:
        say(str(fault))
        return fault.status
    except OSError as error:
        say(f"nothing is written: {reason(error)}")
        return 1
    return 0


if __name__ == "__main__":
    sys.exit(main(sys.argv[1:]))
