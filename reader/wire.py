"""Asks a server for the proof of an answer, by the frames that docs/formats.md has and within the limits of `ask`. `keep.py`
and `catalog.py` use it, and nothing is proved of it. Python 3.9 and its standard library are all that it needs.

    wire.asked("127.0.0.1:7070", wire.request("tra", 3, b"blood count"))    # the bytes of a proof
"""
import argparse
import math
import os
import re
import socket
import struct
import time

from archive_files import Words, run

ALGORITHMS = {"tra": 1, "tnra": 2}
SILENCE = 30  # seconds of each call that connects, reads or writes
ADDRESSES = 32  # of one name, at most
MAX_REPLY = (1 << 26) + 1

LINK = "fault: link"


class Ending(Exception):
    """The line with which a run ends before a proof is stored, and its status: those of `ask`."""

    def __init__(self, line: str, status: int):
        super().__init__(line)
        self.line, self.status = line, status


def parsed(words: Words, argv: list[str]) -> argparse.Namespace:
    """The words of a script, which must be UTF-8 as those of `ask`."""
    said = words.parse_args(argv)
    try:
        for word in argv:
            os.fsencode(word).decode("utf-8")
    except UnicodeDecodeError:
        words.error("a word is not UTF-8")
    return said


def try_words(program: str, command: str, root: str, rows: str, query: str) -> None:
    """Has the program try the words, which it does before it reads a file. An empty one is no proof."""
    ended = run(program, command, root, rows, query, os.devnull)
    if ended.status != 1:
        raise Ending(ended.printed, ended.status)


def places(address: str) -> list[tuple]:
    """What a socket needs to connect, for each address of the name: its family and the address."""
    found = re.fullmatch(rb"(?s)(?:\[([0-9A-Fa-f:.]+(?:%[0-9]+)?)\]:|(.+):\+?)0*([0-9]{1,5})", os.fsencode(address))
    if not found or int(found[3]) > 65535:
        raise Ending(LINK, 8)
    family = socket.AF_INET6 if found[1] else socket.AF_UNSPEC
    flags = socket.AI_NUMERICHOST if found[1] else 0
    all_of_them = socket.getaddrinfo(found[1] or found[2], int(found[3]), family, socket.SOCK_STREAM, 0, flags)
    return [(each[0], each[4]) for each in all_of_them][:ADDRESSES]


def be_patient(link: socket.socket, end: float) -> None:
    """Lets the next call wait as long as `ask` does, but not beyond the end."""
    link.settimeout(max(min(SILENCE, end - time.monotonic()), 0.001))


def connected(address: str, end: float) -> socket.socket:
    """A connection to the first place that accepts one."""
    for family, place in places(address):
        link = socket.socket(family, socket.SOCK_STREAM)
        be_patient(link, end)
        try:
            link.connect(place)
            return link
        except OSError:
            link.close()
    raise Ending(LINK, 8)


def request(algorithm: str, rows: int, query: bytes) -> bytes:
    return struct.pack(">IBBHH", len(query) + 6, 1, ALGORITHMS[algorithm], rows, len(query)) + query


def receive(link: socket.socket, came: bytearray, wanted: int, end: float) -> None:
    """Reads until this number of bytes of the reply is there."""
    while len(came) < wanted:
        be_patient(link, end)
        part = link.recv(min(wanted - len(came), 1 << 16))
        if not part:
            whole = int.from_bytes(came[:4], "big") + 4 if len(came) >= 4 else 4
            raise Ending(f"peer: short {len(came)} {whole}", 9)
        came += part


def reply(link: socket.socket, end: float) -> bytes:
    """The proof of one reply, after which nothing is read."""
    came = bytearray()
    receive(link, came, 4, end)
    length = int.from_bytes(came, "big")
    if length > MAX_REPLY:
        raise Ending(f"peer: long {length}", 9)
    if length == 0:
        raise Ending("peer: bad 0 0", 9)
    receive(link, came, 5, end)
    kind = came[4]
    if kind > 1 or kind == 1 and length != 2:
        raise Ending(f"peer: bad {length} {kind}", 9)
    receive(link, came, 4 + length, end)
    if kind == 1:
        raise Ending(f"peer: refused {came[5]}", 9)
    return bytes(came[5:])


def asked(address: str, frame: bytes, seconds: float = math.inf) -> bytes:
    """The proof that the server has for a request, if it comes within this time. It raises Ending if none comes."""
    end = time.monotonic() + seconds
    try:
        with connected(address, end) as link:
            be_patient(link, end)
            link.sendall(frame)
            return reply(link, end)
    except OSError:
        raise Ending(LINK, 8) from None
