#!/usr/bin/env python3
"""Has the program end with each status, and compares the process's own status and output with what they must be.

usage: python3 tests/statuses.py [PROGRAM]

PROGRAM is the program; without it, it is proved and built if needed. Makes an index of three short texts and the proof of a
query, and runs commands over these files, over loopback addresses and into /dev/full. Prints a line for each status, and
ends with status 0 if each that can be tried here is as it must be. No contract reaches the process: it is proved that `main`
returns the status of a run, and this script sees that the process ends with it.
"""

import json
import resource
import subprocess
import sys
import tempfile
from pathlib import Path
from typing import Callable, NamedTuple

import sockets
from sockets import House, Server
from trying import QUERY, REQUEST, ROW, TEXTS, Skipped, Tally, expect, framed, free_port, program_of

SPACE = 8 << 20  # bytes of address space: enough to begin, and too few for the large collection
LARGE = ["word " * 200_000] * 4  # 4 MB of text
USAGE = "usage: rank build root "


class Files(NamedTuple):
    """What the commands read, in one folder."""

    house: House
    folder: Path

    def run(self, *words: str, **how: object) -> "tuple[int, str]":
        """The status and the output of a run in the folder."""
        given = {"stdout": subprocess.PIPE, "stdin": subprocess.DEVNULL, "cwd": self.folder, "timeout": sockets.LIMIT, **how}
        done = subprocess.run([self.house.program, *words], check=False, **given)  # type: ignore[call-overload]
        return done.returncode, (done.stdout or b"").decode()


def build(program: str, folder: Path) -> Files:
    (folder / "X").write_text(TEXTS, encoding="utf-8")
    (folder / "LARGE").write_text(json.dumps(LARGE), encoding="utf-8")
    files = Files(House(program, str(folder / "I"), "", b""), folder)
    status, root = files.run("build", "X", "I")
    expect("build", (status, len(root)), (0, 65))
    expect("prove", files.run("prove", "I", "tnra", "1", QUERY, "P"), (0, "proof 365\n"))
    proof = (folder / "P").read_bytes()
    (folder / "foisted").write_bytes(proof[:-1] + b"\2")  # the row's document is 2 in place of 1
    return files._replace(house=House(program, str(folder / "I"), root.strip(), framed(b"\0" + proof)))


def done(files: Files) -> None:
    expect("verify", files.run("verify", files.house.root, "1", QUERY, "P"), (0, ROW))
    expect("ask", sockets.ask_peer(files.house, lambda link: link.sendall(files.house.reply)), (ROW, 0))
    with Server(files.house, 1) as server:
        expect("the reply", sockets.asked(server, [REQUEST]), files.house.reply)
        expect("serve", server.end(), (["connection 1 requests 1 end"], 0))


def refused(files: Files) -> None:
    expect("verify", files.run("verify", files.house.root, "1", QUERY, "foisted"), (1, "refused: not-settled\n"))
    expect("audit", files.run("audit", "I", "1", QUERY, "foisted"), (1, "refused: not-settled\n"))


def usage(files: Files) -> None:
    for words in ([], ["verify"], ["verify", files.house.root, "1", QUERY, "P", "more"], ["\udcff"]):
        status, printed = files.run(*words)
        expect(f"the words {words}", (status, printed.startswith(USAGE)), (2, True))


def shelf(files: Files) -> None:
    expect("verify of no file", files.run("verify", files.house.root, "1", QUERY, "none"), (3, "fault: shelf\n"))
    expect("build into no folder", files.run("build", "X", "none/I"), (3, "fault: shelf\n"))


def bad_input(files: Files) -> None:
    expect("no rows", files.run("verify", files.house.root, "0", QUERY, "P"), (4, "input: r 0\n"))
    expect("no index", files.run("root", "X"), (4, "input: index at 0\n"))


def collision(files: Files) -> None:
    raise Skipped("no two strings with one SHA-256 digest are known; ats_cases plays it under weak hash functions")


def memory(files: Files) -> None:
    def small() -> None:
        resource.setrlimit(resource.RLIMIT_AS, (SPACE, SPACE))

    expect("rank of a small collection", files.run("rank", "X", "1", QUERY, preexec_fn=small), (0, ROW))
    expect("rank of a large one", files.run("rank", "LARGE", "1", QUERY, preexec_fn=small), (6, "memory\n"))


def unprinted(files: Files) -> None:
    if not Path("/dev/full").exists():
        raise Skipped("there is no /dev/full here")
    with open("/dev/full", "wb") as full:
        for words in (["verify", files.house.root, "1", QUERY, "P"], ["verify", files.house.root, "1", QUERY, "foisted"], []):
            expect(f"the words {words[:1]}", files.run(*words, stdout=full), (7, ""))


def link(files: Files) -> None:
    port = free_port()
    expect("ask where nobody listens", sockets.ask(files.house, f"127.0.0.1:{port}"), ("fault: link\n", 8))
    with Server(files.house, 1) as server:
        words = ["serve", "I", "1", server.address]
        expect("serve where another one does", files.run(*words), (8, "fault: link\n"))


def peer(files: Files) -> None:
    said = sockets.ask_peer(files.house, lambda link: link.sendall(bytes.fromhex("000000020102")))
    expect("a refusal", said, ("peer: refused 2\n", 9))
    expect("nothing", sockets.ask_peer(files.house, lambda link: None), ("peer: short 0 4\n", 9))


def faults(files: Files) -> None:
    with Server(files.house, 1) as server:
        client = server.client()
        client.sendall(REQUEST[:10])
        sockets.reset(client)
        expect("a reset", server.end(), (["connection 1 requests 0 fault", "faults 1"], 10))


STATUSES: "list[Callable[[Files], None]]" = [
    done, refused, usage, shelf, bad_input, collision, memory, unprinted, link, peer, faults
]


def main() -> int:
    if len(sys.argv) > 2 or sys.argv[1:] == ["-h"]:
        sys.exit(__doc__)
    program, tally = program_of(sys.argv[1:]), Tally()
    with tempfile.TemporaryDirectory() as folder:
        files = build(program, Path(folder))
        for status, one in enumerate(STATUSES):
            tally.attempt(f"status {status}: {one.__name__.replace('_', ' ')}", one, files)
    return tally.conclude()


if __name__ == "__main__":
    sys.exit(main())
