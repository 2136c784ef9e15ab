"""Exposes the program to faults of a real machine, and reports what each leaves.

usage: python3 tests/machine_faults.py [PROGRAM]

PROGRAM is the program; without it, it is proved and built if needed. Tries a full disk, standard outputs that take
nothing, other things in place of a plain file, files that may not be read or written, files that change while they are
read, and ends by `kill -9` while a command stores. Prints for each the status, what was printed and what is left, and
whether that is as it should be: a stored file that is not whole is a prefix, and no command takes it for whole. Ends with
status 0 if all is. As root it mounts a small disk in memory and runs as nobody if permissions count; else it reports what
it cannot try.
"""

import collections
import itertools
import os
import random
import resource
import shutil
import signal
import subprocess
import sys
import tempfile
import threading
import time
from pathlib import Path
from typing import Callable, Iterator, NamedTuple, Optional

import faults
import tracing
from trying import BEFORE, MORE_ROOT, MORE_TEXTS, QUERY, REQUEST, ROOT, ROOT_IN_BLOCKS, ROW, TEXTS
from trying import Differs, Skipped, Tally, corpora, expect, framed, free_port, program_of

WAIT = 5  # seconds after which a command that waits is ended
LIMIT = 120
KILLS = 60
STEP = 23  # calls, with a file that is read in pieces of one byte
LARGE = 2 * corpora.MIB  # bytes of text of the larger collection
NOBODY = 65534
DISK = 64 << 10  # bytes of the small disk
KILLED = -signal.SIGKILL


class House(NamedTuple):
    """The program in a folder that anyone may enter, three short texts, and a larger collection. Of both the index, and
    the migrated one; of the short texts also a proof, the file of a text, that of a growth, and the proof of all documents."""

    program: str
    folder: Path
    index: bytes
    blocks: bytes
    proof: bytes
    large_index: bytes
    large_blocks: bytes
    text: bytes
    growth: bytes
    both: bytes

    def stored(self, words: list[str]) -> bytes:
        """What the words of a command store."""
        stored = {"prove": self.proof, "give": self.text, "grow": self.growth, "prove-both": self.both}
        if words[0] in stored:
            return stored[words[0]]
        is_large = words[1] in ("LARGE", "L")
        if words[0] == "build":
            return self.large_index if is_large else self.index
        return self.large_blocks if is_large else self.blocks


class Done(NamedTuple):
    """How a run ended: None if it still waited and was ended."""

    status: Optional[int]
    printed: str


def run(house: House, *words: str, patience: float = LIMIT, **how: object) -> Done:
    given = {"stdout": subprocess.PIPE, "stdin": subprocess.DEVNULL, "stderr": subprocess.DEVNULL, "cwd": house.folder, **how}
    with subprocess.Popen([house.program, *words], **given) as process:  # type: ignore[call-overload]
        try:
            printed = process.communicate(timeout=patience)[0]
            return Done(process.returncode, (printed or b"").decode())
        except subprocess.TimeoutExpired:
            process.kill()
            return Done(None, (process.communicate()[0] or b"").decode())


def build(program: str, folder: Path) -> House:
    """The programs' own work, on files with which nothing goes wrong."""
    folder.chmod(0o755)
    own = shutil.copy(program, folder / "ats")
    os.chmod(own, 0o755)
    (folder / "X").write_text(TEXTS, encoding="utf-8")
    corpora.write(str(folder / "LARGE"), corpora.SHAPES["notes"], LARGE)
    (folder / "Y").write_text(MORE_TEXTS, encoding="utf-8")
    house = House(own, folder, *[b""] * 8)
    for words, printed in (
        (["build", "X", "I"], ROOT + "\n"),
        (["migrate", "I", "M"], ROOT_IN_BLOCKS + "\n"),
        (["prove", "I", "tnra", "1", QUERY, "P"], "proof 365\n"),
        (["build", "LARGE", "L"], None),
        (["migrate", "L", "LM"], None),
        (["build", "Y", "J"], MORE_ROOT + "\n"),
        (["give", "I", "1", "T"], "text 190\n"),
        (["grow", "I", "J", "G"], "growth 313\n"),
        (["prove-both", "I", QUERY, "B"], "both 645\n"),
    ):
        done = run(house, *words)
        expect(" ".join(words), (done.status, printed or done.printed), (0, done.printed))
    return House(own, folder, *((folder / name).read_bytes() for name in ("I", "M", "P", "L", "LM", "T", "G", "B")))


def left(path: Path, whole: bytes, before: Optional[bytes] = None) -> str:
    """How much of the whole file a stored file has."""
    if not path.exists():
        return "no file"
    held = path.read_bytes()
    if before is not None and held == before:
        return "the file as before"
    if held == whole:
        return "the whole file"
    if whole.startswith(held):
        return f"a prefix of {len(held)} of {len(whole)} bytes" if held else "an empty file"
    raise Differs(f"{path.name} holds {len(held)} bytes that are no prefix of the whole")


def refused_prefix(house: House, path: Path, what: str, is_index: bool) -> None:
    """Every reader refuses a prefix."""
    if is_index:
        for words in (["root", str(path)], ["migrate", str(path), str(path)]):
            done = run(house, *words)
            expect(f"{words[0]} of {what}", (done.status, done.printed.startswith("input: index at ")), (4, True))
    else:
        done = run(house, "verify", ROOT, "1", QUERY, str(path))
        expect(f"verify of {what}", (done.status, done.printed.startswith("refused: shape cut ")), (1, True))


# The words of the commands that use no link and no list. Those that store do so in N.
COMMANDS = [
    ["N" if word == command.stores else word for word in command.words]
    for command in faults.COMMANDS
    if command.name not in ("ask", "serve", "sweep") and command.words[1] != "M"
]

# The commands that store, each over a large file and over a small one.
STORES = [["build", "LARGE"], ["migrate", "L"], ["prove", "I", "tnra", "1", QUERY]]
SMALL_STORES = [["build", "X"], ["migrate", "I"], ["prove", "I", "tnra", "1", QUERY]]


def every_command(house: House, wanted: Done, **how: object) -> str:
    """Each command ends like this, and those that store have stored the whole file."""
    for words in COMMANDS:
        new = house.folder / "N"
        new.unlink(missing_ok=True)
        done = run(house, *words, **how)
        expect(" ".join(words[:1]), done, wanted)
        if "N" in words:
            expect(f"{words[0]} leaves", left(new, house.stored(words)), "the whole file")
    return f"status {wanted.status}, {wanted.printed!r}; those that store leave the whole file"


def output_full(house: House) -> str:
    with open("/dev/full", "wb") as full:
        return every_command(house, Done(7, ""), stdout=full)


def output_closed(house: House) -> str:
    return every_command(house, Done(7, ""), stdout=None, preexec_fn=lambda: os.close(1))


def all_closed(house: House) -> str:
    return every_command(house, Done(7, ""), stdin=None, stdout=None, stderr=None, preexec_fn=lambda: os.closerange(0, 3))


def output_gone(house: House) -> str:
    reading, writing = os.pipe()
    os.close(reading)
    try:
        return every_command(house, Done(7, ""), stdout=writing)
    finally:
        os.close(writing)


def server_output_closed(house: House) -> str:
    address = f"127.0.0.1:{free_port()}"
    done = run(house, "serve", "I", "1", address, stdout=None, preexec_fn=lambda: os.close(1))
    expect("serve", done, Done(7, ""))
    return "status 7; it does not wait for a reader"


def reader_output_closed(house: House) -> str:
    """The link gets the number of the closed output, and what is printed must not go over it."""
    with faults.Server(framed(b"\x00" + house.proof)) as peer:
        words = ["ask", ROOT, "tnra", "1", QUERY, f"127.0.0.1:{peer.port}"]
        done = run(house, *words, stdout=None, preexec_fn=lambda: os.close(1))
        expect("ask", done, Done(7, ""))
    expect("what the server got", peer.came, REQUEST)
    return "status 7; the server gets the request alone"


def stores_into(house: House, path: Path, words: list[str], **how: object) -> str:
    """A store that does not end: what is reported, what is left, and that it is refused."""
    before = path.read_bytes() if path.exists() else None
    done = run(house, *words, str(path), **how)
    what = left(path, house.stored(words), before)
    if what.startswith(("a prefix", "an empty")):
        refused_prefix(house, path, what, words[0] != "prove")
        what += ", which is refused where it is read"
    return f"{words[0]}: status {done.status}, {done.printed!r}, leaves {what}"


def full_disk(house: House) -> str:
    if os.geteuid() != 0:
        raise Skipped("only root can mount a small disk; see the limit of a file's length")
    disk = house.folder / "disk"
    disk.mkdir(exist_ok=True)
    mounted = subprocess.run(["mount", "-t", "tmpfs", "-o", f"size={DISK}", "ats-faults", str(disk)], capture_output=True, check=False)
    if mounted.returncode != 0:
        raise Skipped(f"no disk can be mounted here: {mounted.stderr.decode().strip()}")
    try:
        said = []
        for words in STORES:
            path, room = disk / words[0], DISK - sum(each.stat().st_size for each in disk.iterdir())
            said.append(stores_into(house, path, words))
            expect("the prefix", path.read_bytes(), house.stored(words)[:room])
            if words[0] == "build":
                path.unlink()  # so that the next one has room
    finally:
        subprocess.run(["umount", str(disk)], check=True)
        disk.rmdir()
    for one in said:
        expect("status", "status 3, 'fault: shelf\\n'" in one, True)
    return "; ".join(said)


def limited(length: int, handler: signal.Handlers) -> Callable[[], None]:
    def prepare() -> None:
        signal.signal(signal.SIGXFSZ, handler)
        resource.setrlimit(resource.RLIMIT_FSIZE, (length, length))
        resource.setrlimit(resource.RLIMIT_CORE, (0, 0))

    return prepare


def long_file(house: House) -> str:
    """A file that may not grow further, with the system's signal for that ignored, and with the signal in effect."""
    path, said = house.folder / "N", []
    for handler, status in ((signal.SIG_IGN, "3, 'fault: shelf\\n'"), (signal.SIG_DFL, f"{-signal.SIGXFSZ}, ''")):
        for words in STORES:
            length = 100 if words[0] == "prove" else 100_000
            path.write_bytes(BEFORE)
            one = stores_into(house, path, words, preexec_fn=limited(length, handler), restore_signals=False)
            expect(words[0], f"status {status}," in one, True)
            said.append(f"{one} ({'signal ignored' if handler == signal.SIG_IGN else 'ended by the signal'})")
    return "; ".join(said)


FAULT = Done(3, "fault: shelf\n")


def of_files(name: str) -> list[list[str]]:
    """The commands that read the file of a text or of a growth, or the proof of all documents, with that file of this name, or
    an index."""
    texts = [["fetch", ROOT, "1", name], ["audit-fetch", "I", "1", name], ["give", name, "1", "N"]]
    texts += [["both", ROOT, QUERY, name], ["audit-both", "I", QUERY, name], ["audit-both", name, QUERY, "B"], ["prove-both", name, QUERY, "N"]]
    return [*texts, ["growth", ROOT, MORE_ROOT, name], ["audit-growth", "I", "J", name], ["audit-growth", "I", name, "G"], ["grow", "I", name, "N"]]


def not_a_file(house: House) -> str:
    """A folder, a name below a file, and a name that is too long: in place of a file that is read, and of one that is stored."""
    folder = house.folder / "folder"
    folder.mkdir(exist_ok=True)
    for name in ("folder", "X/below", "a" * 300, "nowhere/file", ""):
        of_index = [["root", name], ["migrate", name, name]]
        for words in (["rank", name, "1", QUERY], *of_index, ["verify", ROOT, "1", QUERY, name], ["audit", "I", "1", QUERY, name], *of_files(name)):
            expect(f"{words[0]} of {name[:9]!r}", run(house, *words), FAULT)
        for words in SMALL_STORES:
            expect(f"{words[0]} into {name[:9]!r}", run(house, *words, name), FAULT)
    expect("the folder", list(folder.iterdir()), [])
    folder.rmdir()
    return "status 3, 'fault: shelf'; nothing is changed"


def permissions(house: House) -> str:
    if os.geteuid() != 0:
        how: dict[str, object] = {}
    else:
        how = {"user": NOBODY, "group": NOBODY, "extra_groups": []}
    open_folder, hidden, fixed = house.folder / "open", house.folder / "hidden", house.folder / "open" / "fixed"
    open_folder.mkdir(exist_ok=True)
    open_folder.chmod(0o777)
    hidden.write_text(TEXTS, encoding="utf-8")
    fixed.write_bytes(BEFORE)
    hidden.chmod(0)
    fixed.chmod(0o444)
    expect("rank of what may not be read", run(house, "rank", "hidden", "1", QUERY, **how), FAULT)
    for words in SMALL_STORES:
        expect(f"{words[0]} into what may not be written", run(house, *words, "open/fixed", **how), FAULT)
        if how:
            expect(f"{words[0]} into a folder of others", run(house, *words, "other", **how), FAULT)
            expect("a file there", (house.folder / "other").exists(), False)
    expect("the file", left(fixed, house.index, BEFORE), "the file as before")
    expect("build where nobody may", run(house, "build", "X", "open/index", **how), Done(0, ROOT + "\n"))
    hidden.chmod(0o600)
    shutil.rmtree(open_folder)
    return "status 3, 'fault: shelf'; the file is as before"


def pipes(house: House) -> str:
    """A named pipe that nobody opens, one that somebody reads or writes, and standard input."""
    pipe = house.folder / "pipe"
    os.mkfifo(pipe)
    for words in (["rank", "pipe", "1", QUERY], ["build", "X", "pipe"]):
        expect(f"{words[0]} with nobody there", run(house, *words, patience=WAIT), Done(None, ""))

    def write() -> None:
        try:
            pipe.write_text(TEXTS, encoding="utf-8")
        except BrokenPipeError:
            pass

    writer = threading.Thread(target=write)
    writer.start()
    expect("rank of what is written", run(house, "rank", "pipe", "1", QUERY, patience=WAIT), FAULT)
    writer.join()
    taken: list[bytes] = []
    holder = os.open(pipe, os.O_RDWR)
    done = run(house, "build", "X", "pipe", patience=WAIT)
    taken.append(os.read(holder, 1 << 16))
    os.close(holder)
    expect("build into what is read", (done, taken[0]), (Done(0, ROOT + "\n"), house.index))
    pipe.unlink()
    with subprocess.Popen(["cat", house.folder / "X"], stdout=subprocess.PIPE) as cat:
        expect("rank of standard input", run(house, "rank", "/dev/stdin", "1", QUERY, stdin=cat.stdout), FAULT)
    return "waits until somebody opens the other end; what is read then is refused (status 3, 'fault: shelf'), what is stored goes through"


def devices(house: House) -> str:
    expect("rank of /dev/null", run(house, "rank", "/dev/null", "1", QUERY), Done(4, "input: not json\n"))
    expect("root of /dev/null", run(house, "root", "/dev/null"), Done(4, "input: index at 0\n"))
    expect("rank of /dev/zero", run(house, "rank", "/dev/zero", "1", QUERY), Done(4, "input: longer than 67108864\n"))
    expect("verify of /dev/zero", run(house, "verify", ROOT, "1", QUERY, "/dev/zero"), Done(1, "refused: shape long 67108864\n"))
    expect("fetch of /dev/zero", run(house, "fetch", ROOT, "1", "/dev/zero"), Done(1, "refused: shape long 2097152\n"))
    expect("both of /dev/zero", run(house, "both", ROOT, QUERY, "/dev/zero"), Done(1, "refused: shape long 67108864\n"))
    expect("audit-growth of /dev/zero", run(house, "audit-growth", "I", "J", "/dev/zero"), Done(1, "refused: shape long 4096\n"))
    for words in SMALL_STORES:
        expect(f"{words[0]} into /dev/full", run(house, *words, "/dev/full"), FAULT)
    return "/dev/null is an empty file, /dev/zero one that is too long, /dev/full a full disk"


def replace(path: Path, _: bytes) -> None:
    """Puts an empty file in its place."""
    empty = path.with_name("E")
    empty.write_bytes(b"")
    empty.replace(path)


CHANGES: dict[str, Callable[[Path, bytes], object]] = {
    "cut": lambda path, whole: os.truncate(path, len(whole) // 2),
    "emptied": lambda path, whole: os.truncate(path, 0),
    "taken away": lambda path, whole: path.unlink(missing_ok=True),
    "longer": lambda path, whole: path.write_bytes(whole + b" "),
    "replaced": replace,
}

# A file that is taken away or replaced while it is read is read whole; before that, this is what is printed.
INSTEAD = {
    "taken away": ["fault: shelf\n"],
    "replaced": ["input: not json\n", "input: index at 0\n", "refused: shape cut 0\n"],
}


def fits_what_was_read(ended: tracing.Ended, kind: str, answer: str) -> bool:
    printed = ended.printed.decode()
    if kind in INSTEAD and printed not in [answer, *INSTEAD[kind]]:
        return False
    return {
        0: printed == answer,
        1: printed.startswith("refused: shape "),
        3: printed == "fault: shelf\n",
        4: printed == "input: not json\n" or printed.startswith("input: index at "),
    }.get(ended.status, False)


def changed(house: House, words: list[str], whole: bytes, kind: str, pieces: bool) -> Iterator[tracing.Ended]:
    """The runs over the file C that is changed before one of their calls: before each, or in pieces before some."""
    path = house.folder / "C"
    for call in range(1, 1 << 20, STEP if pieces else 1):
        path.write_bytes(whole)
        plan = tracing.Plan(call=call, pieces=pieces, act=lambda: CHANGES[kind](path, whole))
        ended = tracing.run([house.program, *words], plan, str(house.folder))
        if not ended.failed:
            return
        yield ended


def changes(house: House) -> str:
    """The file that is read is cut, emptied, removed, replaced or extended before the program's calls in turn."""
    counts: collections.Counter[int] = collections.Counter()
    for words, whole, answer in (
        (["rank", "C", "1", QUERY], TEXTS.encode(), ROW),
        (["root", "C"], house.index, ROOT + "\n"),
        (["migrate", "C", "N"], house.index, ROOT_IN_BLOCKS + "\n"),
        (["verify", ROOT, "1", QUERY, "C"], house.proof, ROW),
        (["fetch", ROOT, "1", "C"], house.text, "red red hen\n"),
        (["both", ROOT, QUERY, "C"], house.both, "1\n"),
        (["audit-growth", "I", "J", "C"], house.growth, "grown 3 4\n"),
    ):
        for kind, pieces in itertools.product(CHANGES, (False, True)):
            for ended in changed(house, words, whole, kind, pieces):
                expect(f"{words[0]} of a file {kind}, {ended}", fits_what_was_read(ended, kind, answer), True)
                counts[ended.status] += 1
    for name in ("C", "N"):
        (house.folder / name).unlink(missing_ok=True)
    told = ", ".join(f"{count} with status {status}" for status, count in sorted(counts.items()))
    return f"{sum(counts.values())} runs: {told}; what was read is judged as it was read"


def killed_at_each_call(house: House) -> str:
    """`kill -9` before each of the program's calls in turn, in pieces of one byte."""
    path, found = house.folder / "N", {}
    for words in SMALL_STORES:
        refused = set()
        for call in range(1, 1 << 20):
            path.write_bytes(BEFORE)
            ended = tracing.run([house.program, *words, "N"], tracing.Plan(call=call, pieces=True, kill=True), str(house.folder))
            if not ended.failed:
                break
            expect("status", ended.status, KILLED)
            what = left(path, house.stored(words), BEFORE)
            if what.startswith(("a prefix", "an empty")) and what not in refused:
                refused_prefix(house, path, what, words[0] != "prove")
                refused.add(what)
            kind = " ".join(what.split()[:2])
            found[kind] = found.get(kind, 0) + 1
    return f"{sum(found.values())} runs leave {found}; each prefix is refused"


def wait_for_store(path: Path, process: "subprocess.Popen[bytes]") -> None:
    """Waits until the file is no longer what it was, or the process has ended."""
    while process.poll() is None and path.stat().st_size == len(BEFORE):
        time.sleep(0.0001)


def killed_while_storing(house: House, words: list[str], seconds: Optional[float], rng: random.Random) -> tuple[str, str]:
    """Ends a command within these seconds, or just after the store began. Returns what it printed, and what it left."""
    path = house.folder / "N"
    path.write_bytes(BEFORE)
    process = subprocess.Popen([house.program, *words, "N"], stdout=subprocess.PIPE, cwd=house.folder)
    if seconds is None:
        wait_for_store(path, process)
    time.sleep(rng.uniform(0, 0.002 if seconds is None else seconds))
    process.kill()
    printed = process.communicate()[0].decode()
    return printed, left(path, house.stored(words), BEFORE)


def killed_at_random(house: House) -> str:
    """`kill -9` at random times of `build` and `migrate` over a larger index, in turn: a third within the whole run, the
    others just after the store began."""
    path, rng, whole_runs = house.folder / "N", random.Random(corpora.SEED), []
    found: collections.Counter[str] = collections.Counter()
    for words in STORES[:2]:
        path.unlink(missing_ok=True)
        start = time.monotonic()
        root = run(house, *words, "N").printed
        whole_runs.append((words, root, time.monotonic() - start))
    for turn in range(KILLS):
        words, root, seconds = whole_runs[turn % 2]
        printed, what = killed_while_storing(house, words, None if turn % 3 else seconds, rng)
        if what.startswith(("a prefix", "an empty")):
            refused_prefix(house, path, what, True)
        elif what == "the whole file":
            expect("root of the whole", run(house, "root", "N"), Done(0, root))
        if printed:
            expect("what is left after the root was printed", (printed, what), (root, "the whole file"))
        found[" ".join(what.split()[:2])] += 1
    return f"{KILLS} runs leave {dict(found)}; each prefix is refused"


TRIES: list[tuple[str, Callable[[House], str]]] = [
    ("standard output is /dev/full", output_full),
    ("standard output is closed", output_closed),
    ("standard input, output and errors are closed", all_closed),
    ("standard output is a pipe that nobody reads", output_gone),
    ("a server's standard output is closed", server_output_closed),
    ("a reader's standard output is closed", reader_output_closed),
    ("the disk is full", full_disk),
    ("the file may not grow further", long_file),
    ("a folder or no name in place of a file", not_a_file),
    ("a file without permission", permissions),
    ("a pipe in place of a file", pipes),
    ("a device in place of a file", devices),
    ("a file that changes while it is read", changes),
    ("kill -9 before each call of build, migrate and prove", killed_at_each_call),
    ("kill -9 at random times of a larger build and of its migration", killed_at_random),
]


def main() -> int:
    program, tally = program_of(sys.argv[1:]), Tally()
    with tempfile.TemporaryDirectory() as folder:
        house = build(program, Path(folder))
        for says, one in TRIES:
            tally.attempt(says, one, house)
    return tally.conclude()


if __name__ == "__main__":
    sys.exit(main())
