#!/usr/bin/env python3
"""Lays out the page: index.html names the SHA-256 of every other file, so its own SHA-256 stands for the whole page.

pin.py PAGE.wasm OUT [--name NAME] [--root ROOT] [HOST..]

NAME and ROOT are of the archive that the page is for: then it asks nobody for a root. It may ask the HOSTs, such as
https://archive.example.org, beside the one that it comes from.
"""

import argparse
import base64
import gzip
import hashlib
import html
import re
import shutil
import sys
from pathlib import Path

import bundle

HERE = Path(__file__).resolve().parent
BUNDLES = ("page", "worker")


def pin(data: bytes) -> str:
    return "sha256-" + base64.b64encode(hashlib.sha256(data).digest()).decode()


def filled(files: "dict[str, bytes]", said: argparse.Namespace) -> bytes:
    """The page with its pins, by which page.mjs fetches what becomes a worker, and the module."""
    template = (HERE / "index.html").read_text(encoding="utf-8")
    template = re.sub(r"PIN\((.*?)\)", lambda it: pin(files[it[1]]), template)
    for word, value in (
        ("MODULE", hashlib.sha256(files["page.wasm"]).hexdigest()),
        ("HOSTS", "".join(" " + it for it in said.hosts)),
        ('"NAME"', f'"{html.escape(said.name)}"'),
        ('"ROOT"', f'"{said.root}"'),
    ):
        template = template.replace(word, value)
    return template.encode()


def words() -> argparse.Namespace:
    said = argparse.ArgumentParser(description=__doc__, formatter_class=argparse.RawDescriptionHelpFormatter)
    said.add_argument("module", metavar="PAGE.wasm", type=Path)
    said.add_argument("out", metavar="OUT", type=Path)
    said.add_argument("hosts", metavar="HOST", nargs="*")
    said.add_argument("--name", default="", help="of the archive")
    said.add_argument("--root", default="", help="of the archive, 64 digits")
    found = said.parse_args()
    for it in found.hosts:
        if not re.fullmatch(r"https?://[a-z0-9.:\[\]-]+", it):
            said.error(f"{it} is not the address of a host, as in https://archive.example.org")
    if not re.fullmatch("([0-9a-f]{64})?", found.root):
        said.error("a root has 64 digits from 0 to 9 and a to f")
    return found


def main(said: argparse.Namespace) -> None:
    files = {f"{name}.mjs": bundle.bundle(name) for name in BUNDLES}
    files.update({"page.css": (HERE / "page.css").read_bytes(), "page.wasm": said.module.read_bytes()})
    files["index.html"] = filled(files, said)
    shutil.rmtree(said.out, ignore_errors=True)
    said.out.mkdir(parents=True)
    for name, data in sorted(files.items()):
        (said.out / name).write_bytes(data)
        print(f"{hashlib.sha256(data).hexdigest()}  {name}  {len(data)} bytes")
    packed = {name: len(gzip.compress(data, 9, mtime=0)) for name, data in files.items()}
    print(f"{sum(packed.values())} bytes by gzip, {packed['page.wasm']} of them the module")


if __name__ == "__main__":
    main(words())
