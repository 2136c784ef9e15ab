"""Real texts of Debian's packages, as far as they are installed: manual pages, a Bible, a policy manual, licences."""

import glob
import gzip
import re
import shutil
import subprocess
from pathlib import Path

MOST = 12 << 20  # bytes of one collection


def opened(path: str) -> str:
    raw = Path(path).read_bytes()
    return (gzip.decompress(raw) if path.endswith(".gz") else raw).decode("utf-8", "replace").replace("\0", " ")


def within(texts: "list[str]") -> "list[str]":
    """As many as there is room for, each of at most 1 MiB."""
    found, size = [], 0
    for text in texts:
        size += len(text.encode())
        if size > MOST:
            break
        if text.strip() and len(text.encode()) < 1 << 20:
            found.append(text)
    return found


def manual_pages() -> "list[str]":
    """Of manpages: without the macros at the start of lines, which keeps their columns."""
    found = sorted(glob.glob("/usr/share/man/man[1-8]/*.gz"))
    return [re.sub(r"^\.[A-Za-z]+ ?|\\f.|\\[-&]", "", opened(path), flags=re.M) for path in found]


def bible() -> "list[str]":
    """Of bible-kjv: each chapter."""
    if not shutil.which("bible"):
        return []
    said = subprocess.run(
        ["bible", "-f", "gen1:1-rev22:21"], stdout=subprocess.PIPE, check=False, timeout=120
    ).stdout.decode()
    chapters: "dict[str, list[str]]" = {}
    for line in said.splitlines():
        chapters.setdefault(line.split(":")[0], []).append(line)
    return [f"{name}\n" + "\n".join(lines) for name, lines in chapters.items()]


def policy() -> "list[str]":
    """Of debian-policy: each section."""
    found = glob.glob("/usr/share/doc/debian-policy/policy.txt.gz") or glob.glob(
        "/usr/share/doc/debian-policy/*.txt.gz"
    )
    return [part for path in sorted(found) for part in re.split(r"\n(?=[0-9A-Z]+\.[0-9.]* \S)", opened(path))]


def licences() -> "list[str]":
    """Of all packages: their copyright files."""
    return [f"{Path(path).parent.name}\n{opened(path)}" for path in sorted(glob.glob("/usr/share/doc/*/copyright"))]


def collections() -> "dict[str, list[str]]":
    """Those that are there."""
    made = {"manual pages": manual_pages, "bible": bible, "policy": policy, "licences": licences}
    return {name: texts for name, make in made.items() for texts in [within(make())] if texts}
