"""Runs a server over loopback as a process of its own, and times requests over an open connection to it."""

import contextlib
import socket
import struct
import subprocess
import threading
import time
from typing import Iterator, NamedTuple

from measure import stop

CODES = {"tra": 1, "tnra": 2}  # of the algorithms in a request

HEAD = 5  # bytes of a reply before its proof: a length and a kind

LOADING = 600  # seconds after which a server must listen
LIMIT = 120  # the longest wait in seconds


class Reply(NamedTuple):
    """The proof that arrived, and the seconds from the request to the last byte and from the first byte to it."""

    proof: bytearray
    seconds: float
    sending: float


def request(algorithm: str, rows: int, query: str) -> bytes:
    words = query.encode()
    return struct.pack(">IBBHH", len(words) + 6, 1, CODES[algorithm], rows, len(words)) + words


def receive(link: socket.socket, room: memoryview) -> int:
    """Fills the buffer, and returns its size."""
    came = 0
    while came < len(room):
        count = link.recv_into(room[came:])
        if count == 0:
            stop(f"the server ended a reply after {came} bytes of {len(room)}")
        came += count
    return came


def reply(link: socket.socket, asked: bytes) -> Reply:
    """The reply to a request over an open connection."""
    head = bytearray(HEAD)
    start = time.perf_counter()
    link.sendall(asked)
    receive(link, memoryview(head))
    begun = time.perf_counter()
    length, kind = struct.unpack(">IB", head)
    if kind != 0:
        stop(f"the server refused {asked!r}")
    proof = bytearray(length - 1)
    receive(link, memoryview(proof))
    end = time.perf_counter()
    return Reply(proof, end - start, end - begun)


def fastest(link: socket.socket, asked: bytes, times: int) -> Reply:
    """The fastest of some replies to the same request."""
    return min((reply(link, asked) for _ in range(times)), key=lambda one: one.seconds)


def free_port(host: str = "127.0.0.1") -> int:
    """A port where nobody listens: one that the system chose just before."""
    family = socket.AF_INET6 if ":" in host else socket.AF_INET
    with socket.socket(family) as one:
        one.bind((host, 0))
        return one.getsockname()[1]


def started(program: str, index: object, connections: int, port: int) -> "subprocess.Popen[str]":
    """A server for this many connections, after it has loaded the index and listens."""
    command = [program, "serve", str(index), str(connections), f"127.0.0.1:{port}"]
    server = subprocess.Popen(command, stdout=subprocess.PIPE, text=True)
    killer = threading.Timer(LOADING, server.kill)
    killer.start()
    assert server.stdout is not None
    first = server.stdout.readline()
    killer.cancel()
    if first != "listening\n":
        stop(f"the server does not listen: {first.strip()}")
    # Its later output is read, so that it never blocks on that.
    threading.Thread(target=server.stdout.read).start()
    return server


def connected(port: int) -> socket.socket:
    return socket.create_connection(("127.0.0.1", port), timeout=LIMIT)


def proofs(program: str, index: object, questions: list[tuple[str, int, str]]) -> list[bytes]:
    """The proof of each question, an algorithm with rows and a query, from one server of the index."""
    with served(program, index) as link:
        return [bytes(reply(link, request(*question)).proof) for question in questions]


@contextlib.contextmanager
def served(program: str, index: object) -> Iterator[socket.socket]:
    """An open connection to a server of the index, which ends with it."""
    port = free_port()
    server = started(program, index, 1, port)
    try:
        with connected(port) as link:
            yield link
        server.wait(LIMIT)
    finally:
        server.kill()
