"""What the scripts beside this one share: files that are read within a limit and stored whole, names that are safe to
print, words of a command line, and runs of the program. Nothing is proved of it. Python 3.9 and its standard library are
all that it needs.

    data = archive_files.read_within("mine.json", 1 << 26)
    archive_files.store(data, "copy.json")
"""
import argparse
import contextlib
import fcntl
import os
import stat
import subprocess
import sys
from typing import Callable, Iterator, NamedTuple, Optional, Union

HOME = os.path.dirname(os.path.dirname(os.path.abspath(__file__)))
BAR_AWAY = "\r\x1b[K"
PROGRAM = os.path.join(HOME, "ats")
Name = Union[str, bytes]  # of a file


class Fault(Exception):
    """Why a script stops, in a line that says what to do, and the status with which it ends."""

    def __init__(self, line: str, status: int = 1):
        super().__init__(line)
        self.status = status


class TooLong(Exception):
    """A file has more bytes than the limit."""


class Words(argparse.ArgumentParser):
    """The words of a script. Its help begins with the comment at the script's head, and its errors print no word raw."""

    def __init__(self, comment: str, statuses: str):
        super().__init__(description=comment, epilog=statuses, formatter_class=argparse.RawDescriptionHelpFormatter)

    def error(self, message: str) -> None:
        super().error(printable(message))


class Ended(NamedTuple):
    """How a run of the program ended, and what it printed, without the last line feed."""

    status: int
    printed: str


def printable(text: str) -> str:
    """The text in one line: characters that are not printable stand as escapes."""
    return "".join(each if each.isprintable() else ascii(each)[1:-1] for each in text)


def shown(path: Name) -> str:
    """A name of a file as Python writes strings: it may hold anything."""
    return repr(os.fsdecode(path))


def say(line: str) -> None:
    """Prints a line on standard error, in place of a bar that may stand there."""
    print(f"{BAR_AWAY if sys.stderr.isatty() else ''}{line}", file=sys.stderr, flush=True)


def reason(error: OSError) -> str:
    return error.strerror or printable(str(error))


def read_within(path: Name, limit: int) -> bytes:
    """The bytes of a file. It raises OSError if the file cannot be read or is no regular one, and TooLong if it has more
    bytes than the limit; it opens a pipe without waiting, and reads no more than shows that a file is too long."""
    with open(path, "rb", opener=lambda name, flags: os.open(name, flags | os.O_NONBLOCK)) as file:
        if not stat.S_ISREG(os.fstat(file.fileno()).st_mode):
            raise OSError(None, "it is no regular file")
        data = file.read(limit + 1)
    if len(data) > limit:
        raise TooLong
    return data


class Storing:
    """Files that are written under other names first. At the end of the block all are moved into their places, in their
    order. If it ends by an error none is, and what was written is removed."""

    def __init__(self) -> None:
        self.parts: list[tuple[str, str]] = []

    def __enter__(self) -> "Storing":
        return self

    def add(self, path: str, data: bytes) -> None:
        part = f"{path}.{os.getpid()}.part"
        with open(part, "xb") as file:
            self.parts.append((part, path))
            file.write(data)
            file.flush()
            os.fsync(file.fileno())

    def __exit__(self, kind: Optional[type], *rest: object) -> None:
        try:
            while kind is None and self.parts:
                os.replace(*self.parts[0])
                del self.parts[0]
        finally:
            for part, _ in self.parts:
                os.remove(part)


def store(data: bytes, path: str) -> None:
    """Stores a file so that its name has either what it had or the whole new content."""
    with Storing() as storing:
        storing.add(path, data)


def took(lock: int) -> bool:
    """Takes the lock of a file that is open, unless another run has it. Says whether it did."""
    try:
        fcntl.flock(lock, fcntl.LOCK_EX | fcntl.LOCK_NB)
    except BlockingIOError:
        return False
    return True


@contextlib.contextmanager
def alone_in(folder: str) -> Iterator[None]:
    """Lets one run at a time work in the folder: the others say that they wait, and do so."""
    held = os.open(folder or ".", os.O_RDONLY | os.O_CLOEXEC)
    try:
        if not took(held):
            say(f"waiting: another run works in {shown(folder or '.')}")
            fcntl.flock(held, fcntl.LOCK_EX)
        yield
    finally:
        os.close(held)


SAID: set[str] = set()  # lines of the program on standard error, each of which one run of a script prints once


def output(program: str, *words: str, tick: Callable[[], None] = lambda: None) -> tuple[int, str]:
    """Runs the program with these words, and calls `tick` each second meanwhile. No shell reads them. Returns the status and
    what it printed."""
    try:
        with subprocess.Popen([program, *words], stdin=subprocess.DEVNULL, stdout=subprocess.PIPE, stderr=subprocess.PIPE) as one:
            printed, said = waited(one, tick)
    except OSError as error:
        raise Fault(f"the program {shown(program)} cannot be run: {reason(error)}. Name it by --program", 3) from None
    for line in said.decode("utf-8", "backslashreplace").splitlines():
        if line not in SAID:
            say(printable(line))
        SAID.add(line)
    return one.returncode, printed.decode("utf-8", "backslashreplace").rstrip("\n")


def run(program: str, *words: str, tick: Callable[[], None] = lambda: None) -> Ended:
    """The same of a command that prints one line."""
    status, printed = output(program, *words, tick=tick)
    return Ended(status, printable(printed))


def waited(one: subprocess.Popen, tick: Callable[[], None]) -> tuple[bytes, bytes]:
    while True:
        try:
            return one.communicate(timeout=1)
        except subprocess.TimeoutExpired:
            tick()
