#!/usr/bin/env python3
"""Follows the roots of an archive for a reader: it keeps each accepted publication in a log, and moves to the next one only
if the program's `growth` accepts that nothing was withdrawn.

SOURCE is a folder, or the address of one by http or https, with what `announce.py` wrote. The log begins with a root that
you got by a way that you trust, or with the newest publication if you say so. It never moves back. What is accepted shows
that no text was withdrawn or changed, and not who added texts: the owner's signature does, by --minisign or --signers.
Nothing is proved of this script. Python 3.9 and its standard library are all that it needs.

    follow.py https://example.org/archive roots.log --root $ROOT --minisign owner.pub
    follow.py https://example.org/archive roots.log
    follow.py --compare roots.log another.log
"""
import argparse
import contextlib
import datetime
import hashlib
import itertools
import os
import re
import sys
from typing import Callable, Iterator, NamedTuple, Optional

sys.dont_write_bytecode = True
sys.path.insert(0, os.path.join(os.path.dirname(os.path.dirname(os.path.realpath(__file__))), "owner"))
from archive_files import (  # noqa: E402
    PROGRAM, Ended, Fault, Storing, TooLong, Words, alone_in, printable, read_within, reason, say, shown, store)
from publication import (  # noqa: E402
    LATEST, MAX_GROWTH, MAX_PUBLICATION, ROOT, UNICODE, OutOfForm, Publication, Shard, name_of, read, read_all,
    tried_growth, written)
from signatures import BadSignature, Check, need  # noqa: E402
from source import Source  # noqa: E402

HELP = """If all is accepted, the root of the newest publication is printed: of its only archive, or of its catalog, and after
it those of its shards, from 0 on. If a publication is
refused, nothing is printed, and lines on standard error say why. The log stays at the last one that was accepted, and the
refused publication and its growth files are stored beside it, as LOG.refused-DIGEST.txt and LOG.refused-DIGEST.growth-S.

A signature is that of publication-N.txt, in publication-N.txt.minisig or publication-N.txt.sig beside it. A publication that
has no such file is not accepted if you give a key, and one whose signature is bad is refused.

Each file is fetched within 30 seconds, and all within 300; a run that ends so goes on the next time. Redirects are not
followed. An archive that became several shards is the first one of them.

Status 0: the log has the newest publication; with --compare both logs have one history. Status 1: a publication is
refused; with --compare the history forked. Status 2: the words are wrong. Status 3: nothing can be told, because a file
is missing, too long, too slow or out of form, or the program cannot be run. The log is then at the last publication that
was accepted; with --compare it also means that the logs have no publication in common."""

MAX_LOG = 1 << 26


class Refused(Exception):
    """Why a publication is not accepted."""


class Log:
    """The publications that were accepted, in the file that keeps them."""

    def __init__(self, path: str) -> None:
        self.path = path
        try:
            self.all = read_all(read_within(path, MAX_LOG)) if os.path.lexists(path) else []
        except OutOfForm as why:
            raise Fault(f"{shown(path)} is no log: {why}. Put it back as it was", 3) from None
        except TooLong:
            raise Fault(f"{shown(path)} is no log: it has more than {MAX_LOG} bytes", 3) from None
        except OSError as error:
            raise Fault(f"{shown(path)} cannot be read: {reason(error)}", 3) from None

    @property
    def last(self) -> Publication:
        return self.all[-1]

    def add(self, one: Publication) -> None:
        store(b"".join(map(written, [*self.all, one])), self.path)
        self.all.append(one)

    def number_of(self, root: str) -> Optional[int]:
        """The latest publication that has this root."""
        return next((one.number for one in reversed(self.all) if root in one.roots), None)

    def history(self) -> dict[int, tuple[str, ...]]:
        """The roots of each number."""
        return {one.number: one.roots for one in self.all}


def publication(source: Source, name: str) -> Publication:
    try:
        return read(source.file(name, MAX_PUBLICATION))
    except OutOfForm as why:
        raise Fault(f"{name} of {printable(source.word)} is no publication: {why}. Ask the owner for it", 3) from None


def numbered(source: Source, number: int, newest: Publication) -> Publication:
    """The publication of this number. The newest one is not fetched again."""
    one = newest if number == newest.number else publication(source, name_of(number))
    if one.number != number:
        raise Refused(f"{name_of(number)} has number {one.number}")
    return one


class Step:
    """The trial of one publication after the last one of the log, and the growth files that were fetched for it."""

    def __init__(self, log: Log, new: Publication, file: Callable[[str, int], bytes], program: str) -> None:
        self.log, self.new, self.file, self.program = log, new, file, program
        self.growths: dict[int, bytes] = {}

    def judge(self) -> None:
        """Raises Refused if the new publication does not show that nothing was withdrawn."""
        old = self.log.last.shards
        if len(self.new.shards) < len(old):
            raise Refused(f"shard {len(self.new.shards)} is gone: its documents were withdrawn")
        for number, (before, after) in enumerate(itertools.zip_longest(old, self.new.shards)):
            self.judge_shard(number, before, after, number == len(old) - 1)

    def judge_shard(self, number: int, old: Optional[Shard], new: Shard, is_last: bool) -> None:
        if new.before != (old.root if old else None):
            raise Refused(self.forked(number, new.before))
        if old is None:
            return
        if new.documents < old.documents:
            raise Refused(f"documents were withdrawn: shard {number} had {old.documents}, and has {new.documents}")
        if new.root == old.root:
            if (new.format, new.documents) != (old.format, old.documents):
                raise Refused(f"shard {number} has the root that it had, with other numbers")
            return
        if not is_last:
            raise Refused(f"shard {number} was closed, and has another root: only the last shard grows")
        if new.growth is None:
            raise Refused(f"shard {number} begins anew, and the owner shows no growth: texts were withdrawn or changed")
        self.judge_growth(number, old, new)

    def judge_growth(self, number: int, old: Shard, new: Shard) -> None:
        data = self.growths[number] = self.file(new.growth, MAX_GROWTH)
        ended = tried_growth(self.program, old.root, new.root, data)
        if ended.status not in (0, 1):
            raise Fault(f"`growth` ended with status {ended.status}: {ended.printed}", 3)
        if ended.status == 1:
            raise Refused(f"shard {number}: {meaning(ended)} ({ended.printed})")
        if ended.printed != f"grown {old.documents} {new.documents}" or data[110] != new.format:
            raise Refused(f"shard {number} has other numbers than its growth shows ({ended.printed})")

    def forked(self, number: int, before: Optional[str]) -> str:
        """Where the history of the new publication leaves that of the log."""
        last = self.log.last.number
        if before is None:
            return f"the history forked: shard {number} has no root before it, but publication {last} of your log has one"
        known = self.log.number_of(before)
        where = f"publication {known} of your log" if known else "no publication of your log"
        return (f"the history forked: shard {number} follows {before}, which is a root of {where}, and not of publication "
                f"{last}")


def meaning(ended: Ended) -> str:
    """What a refusal of `growth` says about the archive."""
    kind = ended.printed.split(" ")[1:2]
    if kind == ["shrunk"]:
        return "documents were withdrawn"
    if kind in (["old-texts"], ["new-texts"]):
        return "texts were withdrawn or changed, or its growth file is false"
    if kind in (["other-old"], ["other-new"]):
        return "its growth file is between other roots: the history forked, or it is the file of another publication"
    return "its growth file is damaged"


def compare_with_log(log: Log, newest: Publication) -> None:
    """Raises Refused if the newest publication is older than the log, or another one of the same number."""
    known = log.history().get(newest.number)
    if known is not None and known != newest.roots:
        raise Refused(f"the history forked: your log has other roots for publication {newest.number}")
    if newest.number < log.last.number:
        raise Refused(f"the source was rolled back: your log has publication {log.last.number}")


def first(source: Source, newest: Publication, root: Optional[str]) -> Publication:
    """The publication with which the log begins: the newest one that has the root, or the newest one if none is given."""
    if root is None:
        say(f"publication {newest.number} is trusted because it is the first one: compare its root with what others have")
        return newest
    for number in range(newest.number, 0, -1):
        one = numbered(source, number, newest)
        if one.root == root:
            return one
    raise Refused("no publication there has the root that you gave")


class Run(NamedTuple):
    """A log, a source, the program by which growths are tried, and by what signatures are, if by anything."""

    log: Log
    source: Source
    program: str
    check: Optional[Check]

    def follow(self, root: Optional[str]) -> None:
        """Brings the log to the newest publication."""
        newest = publication(self.source, LATEST)
        if not self.log.all:
            self.begin(newest, root)
        with self.evidence(newest, {}):
            compare_with_log(self.log, newest)
        for number in range(self.log.last.number + 1, newest.number + 1):
            self.step(number, newest)
        with self.evidence(newest, {}):
            signed = self.signed(newest)
        say(f"publication {newest.number} of {newest.date} is the newest, {signed}: {newest.documents} documents")
        if newest.unicode != UNICODE:
            say(f"it is for Unicode {newest.unicode}, and this program has {UNICODE}: ask the owner for a newer program")

    def begin(self, newest: Publication, root: Optional[str]) -> None:
        with self.evidence(newest, {}):
            one = first(self.source, newest, root)
        with self.evidence(one, {}):
            signed = self.signed(one)
        self.log.add(one)
        say(f"the log begins with publication {one.number} of {one.date}, {signed}")
        self.say_odd_date(one, None)

    def step(self, number: int, newest: Publication) -> None:
        new, old = newest, self.log.last
        with self.evidence(newest, {}):
            new = numbered(self.source, number, newest)
        step = Step(self.log, new, self.source.file, self.program)
        with self.evidence(new, step.growths):
            signed = self.signed(new)
            step.judge()
        self.log.add(new)
        say(f"publication {number} of {new.date} is accepted, {signed}: {old.documents} documents before, {new.documents} with it")
        self.say_odd_date(new, old)

    def signed(self, one: Publication) -> str:
        """Who signed a publication, as a line says it. It raises Refused if the signature is bad."""
        if self.check is None:
            return "nobody's signature checked"
        try:
            return f"signed by {printable(self.check.of(name_of(one.number), written(one), self.source.file))}"
        except BadSignature:
            raise Refused(f"{shown(self.check.key)} has no key that signed it") from None

    def say_odd_date(self, new: Publication, old: Optional[Publication]) -> None:
        if old and new.date <= old.date:
            say(f"its date {new.date} is not after {old.date}, that of publication {old.number}")
        tomorrow = datetime.datetime.now(datetime.timezone.utc).date() + datetime.timedelta(1)
        if new.date > tomorrow.isoformat():  # it may be tomorrow there
            say(f"its date {new.date} is in the future")

    @contextlib.contextmanager
    def evidence(self, one: Publication, growths: dict[int, bytes]) -> Iterator[None]:
        """Keeps a publication that is refused in this block, with its growth files, and says whom to ask."""
        try:
            yield
        except Refused as why:
            data = written(one)
            path = f"{self.log.path}.refused-{hashlib.sha256(data).hexdigest()[:16]}"
            with Storing() as storing:
                storing.add(f"{path}.txt", data)
                for number, growth in growths.items():
                    storing.add(f"{path}.growth-{number}", growth)
            say(f"refused: publication {one.number}: {why}")
            say(f"it is kept in {shown(path + '.txt')}; {self.place()}")
            raise Fault("ask the owner, by another way than this source, which is right; and ask other readers for their "
                        "logs, to see by --compare whether they have the same history") from None

    def place(self) -> str:
        if not self.log.all:
            return "there is no log yet"
        return f"the log {shown(self.log.path)} stays at publication {self.log.last.number}"


def compare(names: list[str]) -> int:
    """Says whether two logs have one history, or where it forks."""
    logs = [Log(name) for name in names]
    for log in logs:
        if not log.all:
            raise Fault(f"{shown(log.path)} is no log: it is missing or empty", 3)
    mine, other = (log.history() for log in logs)
    common = sorted(mine.keys() & other.keys())
    if not common:
        raise Fault("the logs have no publication in common: nothing can be told", 3)
    for number in common:
        if mine[number] != other[number]:
            print(f"fork at publication {number}\n{' '.join(mine[number])}\n{' '.join(other[number])}", flush=True)
            return 1
    ends = [log.last.number for log in logs]
    print(f"same history from publication {common[0]} to {common[-1]}", flush=True)
    if ends[0] != ends[1]:
        longer, to = (ascii(names[ends[1] > ends[0]]), max(ends))
        print(f"{longer} goes on to publication {to}", flush=True)
    return 0


def follow(said: argparse.Namespace) -> int:
    log = Log(said.log)
    if log.all and (said.root or said.trust_first):
        raise Fault(f"{shown(said.log)} has a root: --root and --trust-first are for the first use", 2)
    if not log.all and not said.root and not said.trust_first:
        raise Fault(f"{shown(said.log)} has no root: give the owner's by --root, or take the first by --trust-first", 2)
    Run(log, Source(said.source), said.program, check_of(said)).follow(said.root)
    print("\n".join(dict.fromkeys((log.last.root, *log.last.roots))), flush=True)
    return 0


def check_of(said: argparse.Namespace) -> Optional[Check]:
    tool, key = ("minisign", said.minisign) if said.minisign else ("ssh-keygen", said.signers)
    if key is None:
        return None
    need(tool)
    if not os.path.isfile(key):
        raise Fault(f"the key {shown(key)} is not there", 2)
    return Check(tool, key)


def read_words(argv: list[str]) -> argparse.Namespace:
    words = Words(__doc__, HELP)
    words.add_argument("source", metavar="SOURCE", nargs="?")
    words.add_argument("log", metavar="LOG", nargs="?", default="roots.log", help="roots.log if not given")
    words.add_argument("--root", metavar="ROOT", help="the root with which the log begins")
    words.add_argument("--trust-first", action="store_true", help="begin the log with the newest publication")
    words.add_argument("--minisign", metavar="KEY", help="accept only what the owner of this public key of minisign signed")
    words.add_argument("--signers", metavar="FILE", help="the same of the signers in this file of ssh-keygen")
    words.add_argument("--compare", metavar="LOG", nargs=2, help="compare two logs, and fetch nothing")
    words.add_argument("--program", default=PROGRAM, help="another program than ./ats of this repository")
    said = words.parse_args(argv)
    if (said.source is None) == (said.compare is None):
        words.error("give either SOURCE or --compare with two logs")
    if said.minisign and said.signers:
        words.error("give --minisign or --signers, not both")
    if said.root and said.trust_first:
        words.error("--root and --trust-first exclude each other")
    if said.root is not None and not re.fullmatch(ROOT, said.root):
        words.error("a root has 64 hexadecimal digits, in lower case")
    return said


def main(argv: list[str]) -> int:
    said = read_words(argv)
    try:
        if said.compare:
            return compare(said.compare)
        with alone_in(os.path.dirname(said.log)):
            return follow(said)
    except Fault as fault:
        say(str(fault))
        return fault.status
    except OSError as error:
        say(f"the log is as it was after the last publication that was accepted: {reason(error)}")
        return 3


if __name__ == "__main__":
    sys.exit(main(sys.argv[1:]))
