"""Tries `owner/publish` and `reader/follow.py`, with the real program and real signatures: a folder of real files in three
months, runs that are killed, a full disk, files that were changed or removed.

usage: python3 tests/publish.py [PROGRAM [FILES]]

PROGRAM is the program; without it the one that is proved and built if needed. FILES is how many files of Debian packages on
this machine are taken, 1,900 if it is not given. Prints what was tried and whether it passed, what was skipped, because a tool
is missing or this is not root, and `N passed, M failed`. Ends with status 0 if nothing failed.
"""

import contextlib
import gzip
import hashlib
import itertools
import os
import random
import re
import shutil
import signal
import subprocess
import sys
import tempfile
import threading
import time
from pathlib import Path
from typing import Iterator, NamedTuple

from tries import HOME, LIMIT, Ended, Tries, working
from trying import program_of, wait_until

sys.path.append(str(HOME / "owner"))
import archive_files  # noqa: E402

PUBLISH = HOME / "owner" / "publish"
PLACES = ("/usr/share/doc", "/usr/share/man", "/usr/share/perl", "/usr/share/info")
MOST = 12_000  # bytes of one file, so that the whole fits one archive
KILLS = 20
MONTHS = ("2024-05-31", "2024-06-30", "2024-07-31")
CHOICE = ("--exclude", "*.html", "--include", "*.json")
THIRD = ("--date", MONTHS[2], *CHOICE)  # the words of the third month
# Runs a script, and kills it before its change of a name in a folder with this number.
COUNTED = """
import os, runpy, signal, sys
left, script = int(sys.argv[1]), sys.argv[2]
def count(event, _):
    global left
    if event in ("os.mkdir", "os.rename", "os.remove", "os.rmdir"):
        left -= 1
        if left == 0:
            os.kill(os.getpid(), signal.SIGKILL)
sys.argv[:2] = []
sys.path.insert(0, os.path.dirname(script))
sys.addaudithook(count)
runpy.run_path(script, run_name="__main__")
"""
MINISIGN = ("minisign", "minisign -G -W -p {0}.pub -s {0}", ".minisig", "--minisign", "{0}.pub")
SSH = ("ssh-keygen", "ssh-keygen -q -t ed25519 -N '' -f {0} && echo me@example.org $(cat {0}.pub) >{0}.signers", ".sig", "--signers", "{0}.signers")


def real_files(count: int) -> Iterator[tuple[str, bytes]]:
    """Files of packages of all kinds, in any order, by name; those that are packed, as they are after unpacking."""
    paths = [path for place in PLACES for path in sorted(Path(place).rglob("*"))]
    random.shuffle(paths)
    for path in paths:
        if count and path.is_file() and not path.is_symlink():
            name, data = str(path.relative_to("/")), path.read_bytes()
            if path.suffix == ".gz":
                name, data = "unpacked/" + name.removesuffix(".gz"), gzip.decompress(data)
            if len(data) <= MOST:
                count -= 1
                yield name, data


def digest_of(*folders: Path) -> str:
    """What is in the folders: names, bytes, times and inodes."""
    lines = [f"{path} {path.stat().st_mtime_ns} {path.stat().st_ino}" for folder in folders for path in sorted(folder.rglob("*"))]
    return hashlib.sha256("\n".join(lines).encode()).hexdigest() + content_of(*folders)


def content_of(*folders: Path) -> str:
    one = hashlib.sha256()
    for folder in folders:
        for path in sorted(folder.rglob("*")):
            one.update(str(path.relative_to(folder)).encode() + (path.read_bytes() if path.is_file() else b""))
    return one.hexdigest()


class Place(NamedTuple):
    """A folder of files, and what is published of it."""

    tries: Tries
    files: Path
    public: Path

    @property
    def state(self) -> Path:
        return Path(f"{self.public}.owner")

    @property
    def words(self) -> list[object]:
        return [sys.executable, PUBLISH, self.files, self.public, "--program", self.tries.program]

    def publish(self, *more: object) -> Ended:
        return self.tries.run(*self.words, *more)

    def start(self, said: int, *more: object) -> "subprocess.Popen[bytes]":
        """A run in a session of its own."""
        return subprocess.Popen(list(map(str, [*self.words, *more])), stdout=subprocess.DEVNULL, stderr=said,
                                start_new_session=True)

    def grow(self, date: str) -> tuple[Ended, float]:
        """Publishes real files of which some are taken, and says how many seconds that takes."""
        began = time.monotonic()
        ended = self.publish("--date", date, *CHOICE)
        seconds = time.monotonic() - began
        print(f"    {seconds:.1f} s: {ended.printed.decode().splitlines()[:2]}", flush=True)
        grew = ended.status == 0 and b" added to " in ended.printed
        self.tries.check(f"documents are published on {date}", grew, ended)
        return ended, seconds

    def put(self, name: str, data: bytes) -> None:
        path = self.files / name
        path.parent.mkdir(parents=True, exist_ok=True)
        path.write_bytes(data)

    def follow(self, log: str, *more: object) -> Ended:
        return self.tries.script("follow", self.public, log, *more)


def place(tries: Tries, name: str) -> Place:
    (tries.folder / name).mkdir()
    return Place(tries, tries.folder / name / "files", tries.folder / name / "public")


def says(run: "subprocess.Popen[bytes]", line: str) -> bool:
    """Whether the run comes to say the line. It is killed if it says nothing for long."""
    killer = threading.Timer(LIMIT, run.kill)
    killer.start()
    found = any(said.decode() == line for said in run.stderr)
    killer.cancel()
    return found


def root_of(ended: Ended) -> str:
    return ended.printed.decode().split("root: ")[-1].strip()


# Few files


def first_steps(tries: Tries) -> None:
    one = place(tries, "small")
    one.put("a.txt", b"the harbour froze")
    one.put("b.html", b"<title>Ferry</title><p>The mail came")
    one.put("c.js", b"no text")
    ended = one.publish("--name", "Harbour \u2713", "--date", MONTHS[0])
    tries.check("the first time: five lines", ended.status == 0 and ended.printed.count(b"\n") == 5 and ended.printed.startswith(b"changed: 2 documents added to 0\n"))
    tries.check("the first time: one line for each step", "building the index\n" in ended.said and "\r" not in ended.said)
    tries.check("its name and its titles", {"name: Harbour \u2713", "titles: first-line"} < set((one.public / "publication.txt").read_text().splitlines()))
    before = digest_of(one.public, one.state)
    again = one.publish()
    tries.check("a run without a change changes no file", again.status == 0 and digest_of(one.public, one.state) == before and again.printed.startswith(b"changed: nothing\n") and root_of(again) == root_of(ended))
    one.put("0.txt", b"earlier by name")
    runs = [subprocess.Popen([*map(str, one.words), "--date", MONTHS[1]], stdout=subprocess.PIPE, stderr=subprocess.DEVNULL) for _ in range(2)]
    tries.check("two at one time: one publishes", sorted(run.communicate()[0].split(b"\n")[0] for run in runs) == [b"changed: 1 document added to 2", b"changed: nothing"])
    followed = one.follow("small.log", "--root", root_of(ended))
    tries.check("readers follow, and are told that no signature was checked", followed.status == 0 and followed.said.count("nobody's signature checked") == 3)
    tries.check("the host's folder has the root that the program serves", tries.ask("root", next(one.state.glob(f"{followed.printed.decode().strip()}.index"))).printed == followed.printed)
    shutil.rmtree(one.public / f"{root_of(ended)}-1")
    tries.check("a folder that its owner removed stays away", one.publish().status == 0 and not (one.public / f"{root_of(ended)}-1").exists())


def waits(tries: Tries) -> None:
    """A run that finds another one at work in the folder says so, once, and goes on after it."""
    one = Place(tries, tries.folder / "small" / "files", tries.folder / "small" / "public")
    with archive_files.alone_in(str(one.state)):
        run = one.start(subprocess.PIPE)
        tries.check("a run that waits says so", says(run, f"waiting: another run works in {str(one.state)!r}\n"))
    said = run.communicate()[1]
    tries.check("and goes on when it may, without another word of that", run.returncode == 0 and b"waiting" not in said)


def refusals(tries: Tries) -> None:
    one = Place(tries, tries.folder / "small" / "files", tries.folder / "small" / "public")
    text, before = (one.files / "a.txt").read_bytes(), content_of(one.public, one.state)
    for says, change, why in (("changed", lambda: one.put("a.txt", b"the harbour never froze"), "it has another text"), ("removed", (one.files / "a.txt").unlink, "it is missing")):
        change()
        ended = one.publish()
        named = re.search(f"cannot keep document 0 of .*, 'a.txt': {why}\n", ended.said)
        tries.check(f"a {says} file is refused, by name and with the way out", ended.status == 1 and bool(named) and "Put each file back" in ended.said and "--anew" in ended.said)
        tries.check(f"a {says} file: all stays", content_of(one.public, one.state) == before)
        one.put("a.txt", text)
        tries.check(f"a {says} file that is put back", one.publish().status == 0)
    one.put("big.txt", b"a" * ((1 << 20) + 1))
    ended = one.publish()
    tries.check("a file that is too long is refused", ended.status == 3 and "--partial" in ended.said and content_of(one.public, one.state) == before)
    (one.files / "big.txt").unlink()
    for says, name, wanted in (("a lost index", "*.index", "put it back"), ("a lost collection", "*.json", "put it back")):
        newest = next(path for path in one.state.glob(name) if f"root: {path.stem}" in (one.public / "publication.txt").read_text())
        newest.rename(tries.folder / "away")
        ended = one.publish()
        tries.check(f"{says} is named", ended.status == 1 and wanted in ended.said and newest.name in ended.said)
        (tries.folder / "away").rename(newest)
    tries.check("a key that is none", one.publish("--sign", one.files / "nowhere").status == 1 and content_of(one.public, one.state) == before)
    (one.files / "a.txt").unlink()
    tries.check("an owner begins again", one.publish("--anew").status == 0)
    tries.check("who follows refuses that", one.follow("small.log").status == 1)


def signatures(tries: Tries) -> None:
    for tool, make, ending, option, public_key in (MINISIGN, SSH):
        if shutil.which(tool) is None:
            tries.skip(f"signatures by {tool}: it is not installed")
            continue
        one = place(tries, tool)
        key, other = (str(tries.folder / tool / name) for name in ("key", "other"))
        for each in (key, other):
            assert tries.run("sh", "-c", make.format(each)).status == 0
        one.put("a.txt", b"fox")
        ended = one.publish("--date", MONTHS[0])
        missing = one.follow(f"{tool}.log", "--root", root_of(ended), option, public_key.format(key))
        tries.check(f"{tool}: a publication without a signature begins no log", missing.status == 3 and f"publication-1.txt{ending}" in missing.said)
        tries.check(f"{tool}: it is signed later", f"signed: publication-1.txt{ending}" in one.publish("--sign", key).printed.decode())
        one.put("b.txt", b"hen")
        tries.check(f"{tool}: the next one is signed", one.publish("--date", MONTHS[0], "--sign", key).status == 0)
        followed = one.follow(f"{tool}.log", "--root", root_of(ended), option, public_key.format(key))
        tries.check(f"{tool}: both are accepted", followed.status == 0 and followed.said.count(", signed by ") == 3)
        tries.check(f"{tool}: a date that is not after the one before is said", f"its date {MONTHS[0]} is not after {MONTHS[0]}" in followed.said)
        wrong = one.follow(f"{tool}-other.log", "--root", root_of(ended), option, public_key.format(other))
        tries.check(f"{tool}: another key is refused", wrong.status == 1 and "has no key that signed it" in wrong.said)
        one.put("c.txt", b"owl")
        one.publish("--date", "2999-01-01", "--sign", other)
        forged = one.follow(f"{tool}.log", option, public_key.format(key))
        tries.check(f"{tool}: a publication that somebody else signed is refused, and the log stays", forged.status == 1 and tries.read(f"{tool}.log").count(b"publication: ") == 2)
        future = one.follow("future.log", "--trust-first", option, public_key.format(other))
        tries.check(f"{tool}: a date in the future is said", future.status == 0 and "its date 2999-01-01 is in the future" in future.said)
        (tries.folder / "future.log").unlink()


def shards(tries: Tries) -> None:
    """More than one archive holds: the archive that is there is shard 0, grows until it is full, and is then closed."""
    one, words = place(tries, "shards"), [b"fox ", b"hen ", b"owl "]

    def month(number: int, names: range) -> tuple[Ended, list[str]]:
        for at in names:
            one.put(f"{at:02}.txt", words[at % 3] * 250_000)
        ended = one.publish("--date", f"2024-0{number}-01")
        return ended, re.findall("^root: (.*)$", (one.public / "publication.txt").read_text(), re.M)

    first, roots = month(1, range(15))
    tries.check("15 MB are one archive", first.status == 0 and len(roots) == 1 and one.follow("shards.log", "--root", root_of(first)).status == 0)
    second, roots = month(2, range(15, 19))
    followed = one.follow("shards.log")
    tries.check("19 MB are two shards", second.status == 0 and len(roots) == 2 and f"documents in {len(roots)} shards" in second.printed.decode())
    tries.check("readers follow to the catalog", followed.printed.decode().split() == [root_of(second), *roots])
    third, later = month(3, range(19, 21))
    tries.check("the last shard grows, and the first stays", third.status == 0 and later[0] == roots[0] and later[1] != roots[1] and one.follow("shards.log").status == 0)
    growths = re.findall("^growth: (.*)$", (one.public / "publication.txt").read_text(), re.M)
    tries.check("and only the last has a growth", growths == ["none", "growth-3-1"])
    before = digest_of(one.public, one.state)
    tries.check("a run without a change changes no file of shards", one.publish().status == 0 and digest_of(one.public, one.state) == before)
    one.put("03.txt", b"cat")
    ended = one.publish()
    tries.check("a changed file of a closed shard is refused", ended.status == 1 and "'03.txt': it has another text" in ended.said and digest_of(one.public, one.state) == before)


def workers_end(tries: Tries) -> None:
    """A run that is killed while its workers hash. They end with it, and the next run need not wait for the folder."""
    one = place(tries, "workers")
    for at in range(500):
        one.put(f"{at:03}.txt", " ".join(f"w{word}" for word in range(at, at + 500)).encode())
    run = one.start(subprocess.PIPE)
    hashes = says(run, "making the folder for hosts\n") and wait_until(lambda: len(working(run.pid)) > 2)
    tries.check("several processes hash", hashes)
    run.kill()
    run.communicate()
    tries.check("they end with the run that is killed", wait_until(lambda: not working(run.pid), 5))
    tries.check("and the next run goes on", one.publish().status == 0)


def program_is_left(tries: Tries) -> None:
    """A run that is killed alone, whose program then makes one file after the other where the run has its files."""
    one, program = place(tries, "left"), tries.folder / "left" / "program"
    one.put("a.txt", b"red fox")
    program.write_text('#!/bin/sh\nwhile : >"$2.$((made += 1))"; do :; done\n')
    program.chmod(0o755)
    run = one.start(subprocess.DEVNULL, "--program", program)
    wait_until(lambda: len(list(one.state.rglob("*.json.*"))) > 100)
    run.kill()
    run.wait()
    ended = one.publish()
    tries.check("a run after one whose program still writes", ended.status == 0, ended)
    tries.check("which then ends", wait_until(lambda: not working(run.pid)))
    with contextlib.suppress(ProcessLookupError):
        os.killpg(run.pid, signal.SIGKILL)


def copied(one: Place, name: str) -> Place:
    """The same place, as it is."""
    other = Place(one.tries, one.files, one.tries.folder / name / "public")
    shutil.rmtree(other.public.parent, ignore_errors=True)
    for source, target in ((one.public, other.public), (one.state, other.state)):
        shutil.copytree(source, target)
    return other


def see_killed(tries: Tries, other: Place, where: str, wanted: str) -> None:
    """Of a run that was killed over a place where the log of the same name has two months."""
    shutil.copy(tries.folder / f"{other.files.parent.name}.log", tries.folder / "killed.log")
    read = other.follow("killed.log")
    number = 2 + (b"publication: 3" in tries.read("killed.log"))
    tries.check(f"killed {where}: readers have publication {number}", read.status == 0)
    ended = other.publish(*THIRD)
    same = ended.status == 0 and content_of(other.public, other.state) == wanted
    tries.check("  the next run goes on, to the same bytes", same, ended)


def killed_at_each_change(tries: Tries) -> None:
    """Runs of which each is killed before another change of the names in folders."""
    one = place(tries, "changes")
    for number, date in enumerate(MONTHS[:2]):
        one.put(f"{number}.txt", b"red fox")
        root = root_of(one.publish("--date", date))
        one.follow("changes.log", *(["--root", root] if number == 0 else []))
    one.put("2.txt", b"red hen")
    whole = copied(one, "whole")
    whole.publish(*THIRD)
    wanted = content_of(whole.public, whole.state)
    for change in itertools.count(1):
        other = copied(one, "killed")
        counted = [sys.executable, "-B", "-c", COUNTED, change, *other.words[1:], *THIRD]
        ended = tries.run(*counted, TMPDIR=str(other.public.parent))
        if ended.status != -signal.SIGKILL:
            break
        see_killed(tries, other, f"before change {change}", wanted)
    tries.check(f"a run with fewer than {change} changes ends", ended.status == 0 and change > 20, ended)


FEW = (first_steps, waits, refusals, signatures, shards, workers_end, program_is_left, killed_at_each_change)


# Real files


def months(tries: Tries, files: list[tuple[str, bytes]]) -> Place:
    """A folder that grows over three months, as far as before the third is published."""
    one, roots = place(tries, "real"), []
    cut = [0, len(files) * 8 // 10, len(files) * 9 // 10, len(files)]
    for month, date in enumerate(MONTHS):
        for name, data in files[cut[month]:cut[month + 1]]:
            one.put(name, data)
        if month < 2:
            ended, _ = one.grow(date)
            roots.append(root_of(ended))
            followed = one.follow("real.log", *(["--root", roots[0]] if month == 0 else []))
            tries.check(f"{cut[month + 1]} real files, month {month + 1}", followed.status == 0, followed)
    return one


def third_month(tries: Tries, one: Place) -> tuple[float, str]:
    """How many seconds a whole run takes, and what is there after it."""
    whole = copied(one, "whole")
    _, seconds = whole.grow(MONTHS[2])
    tries.check("the third month", whole.follow("whole.log", "--trust-first").status == 0)
    return seconds, content_of(whole.public, whole.state)


def killed(tries: Tries, one: Place) -> None:
    """Runs that are killed: readers have the old archive or the new one, and the next run goes on. A run that ended
    before it was killed is no trial: its moment, and those that are left, are drawn again from the time before it."""
    seconds, wanted = third_month(tries, one)
    moments, late = [random.random() * seconds for _ in range(KILLS)], 0
    while moments and late <= KILLS:
        moment, other = moments.pop(), copied(one, "killed")
        if is_killed(other, moment, with_program=len(moments) % 2 == 1):
            see_killed(tries, other, f"after {moment:.1f} s", wanted)
        else:
            late += 1
            moments = [random.random() * moment for _ in [*moments, moment]]
    tries.check(f"{KILLS} runs are killed, apart from {late} that ended before", not moments)


def is_killed(other: Place, moment: float, with_program: bool) -> bool:
    """Starts a run and kills it after some seconds, with the program that it started or without. Says whether it still
    ran."""
    run = other.start(subprocess.DEVNULL, *THIRD)
    time.sleep(moment)
    with contextlib.suppress(ProcessLookupError):  # it may have ended before
        (os.killpg if with_program else os.kill)(run.pid, signal.SIGKILL)
    return run.wait() == -signal.SIGKILL


def full_disk(tries: Tries, one: Place) -> None:
    if os.geteuid() != 0:
        tries.skip("a full disk: this is not root")
        return
    disk = tries.folder / "disk"
    disk.mkdir()
    if tries.run("mount", "-t", "tmpfs", "-o", "size=512m", "none", disk).status != 0:
        tries.skip("a full disk: no tmpfs can be mounted")
        return
    try:
        other = Place(tries, one.files, disk / "place" / "public")
        for source, target in ((one.public, other.public), (one.state, other.state)):
            shutil.copytree(source, target)
        before = content_of(other.public)
        size = sum(path.stat().st_size for path in next(one.public.glob("*-1")).iterdir())
        for part in (0, 0.04, 0.5, 1, 1.5, 1.9):
            free, kilobytes = os.statvfs(disk), int(size * part) >> 10
            (disk / "filler").write_bytes(bytes(max(free.f_bavail * free.f_frsize - (kilobytes << 10), 0)))
            ended = other.publish("--date", MONTHS[2])
            tries.check(f"a disk with {kilobytes} kB left: {ended.said.splitlines()[-1][:100]}", ended.status == 1 and "nothing is published" in ended.said and content_of(other.public) == before)
            (disk / "filler").unlink()
        tries.check("and with room the next run goes on", other.publish("--date", MONTHS[2]).status == 0 and other.follow("disk.log", "--trust-first").status == 0)
        elsewhere = Place(tries, one.files, disk / "x")
        tries.run("mkdir", disk / "x")
        tries.run("mount", "-t", "tmpfs", "-o", "size=1m", "none", disk / "x")
        tries.check("a folder that is a file system of its own", elsewhere.publish().status == 1 and not list((disk / "x").iterdir()))
        tries.run("umount", disk / "x")
    finally:
        tries.run("umount", disk)


def main() -> int:
    program, count = program_of(sys.argv[1:2]), int(sys.argv[2]) if len(sys.argv) > 2 else 1900
    seed = random.randrange(1 << 30)
    random.seed(seed)
    with tempfile.TemporaryDirectory() as folder:
        tries = Tries(Path(folder), program)
        for each in FEW:
            each(tries)
        files = list(real_files(count))
        print(f"    {len(files)} real files of {sum(len(data) for _, data in files):,} bytes, seed {seed}", flush=True)
        one = months(tries, files)
        killed(tries, one)
        full_disk(tries, one)
        return tries.conclude()


if __name__ == "__main__":
    sys.exit(main())
