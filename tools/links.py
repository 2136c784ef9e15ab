"""Finds links of the pages that lead nowhere.

usage: python3 tools/links.py

Tries each link of the .md files that git knows: that the file or folder is there, and that a page has the anchor, which
is a heading or an `<a id="..">`. Addresses on the network are not tried. Prints a line for each link that leads nowhere,
and ends with status 1 if there is one, else with 0.
"""

import re
import subprocess
import sys
from functools import lru_cache
from pathlib import Path

HOUSE = Path(__file__).resolve().parent.parent


def pages() -> list[Path]:
    listed = subprocess.run(["git", "ls-files", "*.md"], cwd=HOUSE, capture_output=True, text=True, check=True)
    return [HOUSE / name for name in listed.stdout.splitlines()]


def prose(page: Path) -> str:
    """The page without its blocks of code."""
    return re.sub(r"^(```+).*?^\1", "", page.read_text(encoding="utf-8"), flags=re.M | re.S)


def anchor(heading: str) -> str:
    """The anchor of a heading, as forges make it."""
    shown = re.sub(r"\[([^]]*)\]\([^)]*\)", r"\1", heading).strip().lower()
    return re.sub(r"[^\w\- ]", "", shown).replace(" ", "-")


@lru_cache(maxsize=None)
def anchors(page: Path) -> frozenset:
    text = prose(page)
    return frozenset(map(anchor, re.findall(r"^#+ (.*)$", text, re.M))) | frozenset(re.findall(r'<a id="([^"]+)"', text))


def fault(page: Path, link: str) -> str:
    """Why the link of the page leads nowhere, or nothing."""
    path, _, name = link.partition("#")
    target = (page.parent / path).resolve() if path else page
    if not target.exists():
        return "no such file: name one that is there"
    return f"{target.name} has no such anchor: take one of its headings, or give it an id" if name and name not in anchors(target) else ""


def main() -> int:
    links = [(page, link) for page in pages() for link in re.findall(r"\]\(([^)\s]+)\)", re.sub(r"`[^`\n]*`", "", prose(page)))]
    wrong = [(page, link, fault(page, link)) for page, link in links if not re.match(r"[a-z]+:", link) and fault(page, link)]
    for page, link, why in wrong:
        print(f"{page.relative_to(HOUSE)}: {link}: {why}")
    return 1 if wrong else 0


if __name__ == "__main__":
    sys.exit(main())
