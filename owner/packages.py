"""Texts of the Debian packages that are installed on this machine, for `owner/demo` and for trials. Nothing is proved of
this. Python 3.9 and its standard library are all that it needs.

    taken = packages.copied(2 << 20, Path("texts"))
    taken.texts, taken.size     # 166, 2099999: files below the folder, and the bytes of text of an archive of them
"""
import gzip
import os
import zlib
from pathlib import Path
from typing import Iterator, NamedTuple

from documents import MAX_TEXT, Making, PassedOver, kind_of, places

# Whose texts are taken, as far as they are installed. The later ones have many megabytes, the last ones of pages, which have
# to be converted.
PACKAGES = """bash coreutils grep sed tar gzip findutils util-linux dpkg apt man-db git-man openssh-client openssl procps
    systemd passwd login mount e2fsprogs cron rsync curl wget less make gdb manpages manpages-dev debian-policy
    developers-reference doc-debian perl perl-doc perl-modules-* vim-runtime git lintian cmake-data postgresql-[0-9]*
    libpython3*-stdlib libstdc++-*-dev linux-libc-dev nodejs fpc-source-* golang-*-src rust-src linux-headers-*-common
    libboost*-dev gnulib *-doc linux-doc-*""".split()
LISTS = Path("/var/lib/dpkg/info")
MOST = MAX_TEXT - 1000  # bytes of a file, so that its title fits before it
MAKING = Making(title_line=True)  # documents as `owner/publish` makes them


class Taken(NamedTuple):
    """How many files were copied, and how many bytes of text an archive has of them."""

    texts: int
    size: int


def paths() -> Iterator[Path]:
    """The files of the packages that may be texts."""
    for package in PACKAGES:
        for own in sorted((*LISTS.glob(f"{package}.list"), *LISTS.glob(f"{package}:*.list"))):
            for line in own.read_text("utf-8", "ignore").splitlines():
                if os.path.isfile(line) and not os.path.islink(line):
                    yield Path(line)


def text_of(path: Path) -> bytes:
    """What the file says, or nothing if it is no text that an archive takes."""
    try:
        data = gzip.decompress(path.read_bytes()) if path.suffix == ".gz" else path.read_bytes()
        data.decode("utf-8")
        return data
    except (OSError, EOFError, UnicodeDecodeError, zlib.error):
        return b""


def size_of(name: str, path: Path) -> int:
    """The bytes of text that an archive has of a file: a page is shorter, and each document has its title."""
    try:
        parts = places(name, os.fsencode(path), kind_of(name, False))
        return sum(len(MAKING.item(part, place)["text"].encode()) for part, place in parts)
    except PassedOver:
        return 0


def copy(name: str, data: bytes, folder: Path) -> int:
    """Copies a text below the folder, unless an archive has nothing of it, and returns the bytes that it has."""
    target = folder / name
    target.parent.mkdir(parents=True, exist_ok=True)
    target.write_bytes(data)
    size = size_of(name, target)
    if not size:
        target.unlink()
    return size


def copied(size: int, folder: Path) -> Taken:
    """Copies texts until an archive of them has at least this many bytes, or no more are there. No file has more than one in 32
    of these bytes."""
    sizes: dict[str, int] = {}
    left, most = size, min(size >> 5, MOST)
    for path in paths():
        name = str(path.relative_to("/")).removesuffix(".gz")
        data = text_of(path) if name not in sizes else b""
        if 0 < len(data) <= most:
            sizes[name] = copy(name, data, folder)
            left -= sizes[name]
        if left <= 0:
            break
    return Taken(sum(map(bool, sizes.values())), size - left)
