"""What the tests share: three short texts with what the program says of them, and the count of what passed.

What the measures have too is imported here from their folder.
"""

import struct
import subprocess
import sys
import time
from pathlib import Path
from typing import Callable, Optional

HOME = Path(__file__).resolve().parent.parent
sys.path.append(str(HOME / "bench"))

import corpora  # noqa: E402, F401
import measure  # noqa: E402, F401
from asking import free_port  # noqa: E402, F401
from measure import program_of  # noqa: E402, F401

TEXTS = '["red fox","red red hen","blue hen"]'
QUERY = "red hen"
REQUEST = bytes.fromhex("0000000d0102000100077265642068656e")  # one row by TNRA
ROW = "1 1 13014 13014\n"
ROOT = "297978110ffb580733eaf8938f9328114690e802ab3108a3bfabc34ba2db2490"
ROOT_IN_BLOCKS = "2951f46d5980442cd63e807581d1fe33fdd82af7d29a0b4267f871c88b998e82"  # of the same texts
MORE_TEXTS = TEXTS[:-1] + ',"fox hen"]'
MORE_ROOT = "158bee81463a856290f8c62a370947e939a44b77a87bbd3c1d0dfe924202cd3c"
CATALOG_ROOT = "cd0eb767d8f063b94abbe9107249329252168b3fbf608cab244429cabb1198d4"  # of the three texts twice
BEFORE = b"before"  # the content of a file before another one is stored under its name


class Differs(Exception):
    """What came is not what was wanted."""


class Skipped(Exception):
    """There is no way to try it on this machine."""


def expect(what: str, came: object, wanted: object) -> None:
    if came != wanted:
        raise Differs(f"{what}: {came!r}, wanted {wanted!r}")


def wait_until(true: Callable[[], object], seconds: float = 20) -> object:
    end = time.monotonic() + seconds
    while not true() and time.monotonic() < end:
        time.sleep(0.02)
    return true()


def framed(body: bytes) -> bytes:
    """A frame of a request or of a reply."""
    return struct.pack(">I", len(body)) + body


def catalog_file(roots: list[str], proofs: list[bytes]) -> bytes:
    """The proof of a catalog, made of those of its shards."""
    return b"ATSS\1" + struct.pack(">I", len(roots)) + b"".join(map(bytes.fromhex, roots)) + b"".join(map(framed, proofs))


class Tally:
    """Counts what was tried, and prints each try. Of a case that is named only failures are printed, with its name."""

    MOST_SHOWN = 900  # characters of what came instead

    def __init__(self, case: str = "") -> None:
        self.case = case
        self.passed = self.failed = 0
        self.skipped: list[str] = []

    def check(self, says: str, passed: object, got: object = "") -> None:
        self.passed += bool(passed)
        self.failed += not passed
        if not passed:
            print(f"FAILED: {self.named(says)}" + (f": {str(got)[-self.MOST_SHOWN:]}" if got != "" else ""), flush=True)
        elif not self.case:
            print(f"passed: {says}", flush=True)

    def attempt(self, says: str, one: Callable[..., Optional[str]], *given: object) -> None:
        """A try that says what it saw, and raises what differs or why this machine cannot try it."""
        try:
            told = one(*given)
        except Skipped as why:
            self.skip(f"{says}: {why}")
        except (Differs, OSError, StopIteration, subprocess.SubprocessError) as why:
            self.check(says, False, why)
        else:
            self.check(f"{says}: {told}" if told else says, True)

    def skip(self, says: str) -> None:
        self.skipped.append(self.named(says))

    def add(self, case: "Tally") -> None:
        """Counts a case."""
        self.passed, self.failed = self.passed + case.passed, self.failed + case.failed
        self.skipped += case.skipped

    def named(self, says: str) -> str:
        return f"{self.case}: {says}" if self.case else says

    def conclude(self) -> int:
        """Prints what was skipped and how many passed, and returns the status."""
        for says in self.skipped:
            print(f"skipped: {says}")
        print(f"{self.passed} passed, {self.failed} failed", flush=True)
        return 1 if self.failed else 0
