"""Tries the program over real sockets: servers and readers as processes of their own, and peers that misbehave.

usage: python3 tests/sockets.py [--silence] [PROGRAM]

PROGRAM is the program; without it, it is proved and built if needed. Prints each try and whether it passed, and ends with
status 0 if none failed. With --silence peers that fall silent are tried too: for each of these the program waits 30
seconds, as long as it waits for any peer.
"""

import json
import random
import re
import socket
import string
import struct
import subprocess
import sys
import tempfile
import threading
import time
from pathlib import Path
from typing import Callable, NamedTuple, Optional

from trying import HOME, QUERY, REQUEST, ROW, TEXTS, Skipped, Tally, expect, framed, free_port, measure, program_of

LIMIT = 120  # the longest wait in seconds
SILENCE = 30  # seconds that the program waits for a silent peer
LATE = 0.5  # seconds that a client waits before it reads


class House(NamedTuple):
    """The program, an index with its root, and the reply to REQUEST over it."""

    program: str
    index: str
    root: str
    reply: bytes


def build(program: str, folder: Path) -> House:
    """An index of three short texts; the reply is made from the proof that `prove` stores."""
    texts, index, proof = folder / "texts.json", folder / "index", folder / "proof"
    texts.write_text(TEXTS, encoding="utf-8")
    root = measure.run([program, "build", str(texts), str(index)]).printed.strip()
    measure.run([program, "prove", str(index), "tnra", "1", QUERY, str(proof)])
    return House(program, str(index), root, framed(b"\x00" + proof.read_bytes()))


class Server:
    """`serve` as a process, from its first line on."""

    def __init__(self, house: House, connections: int, host: str = "127.0.0.1", name: Optional[str] = None):
        self.host, self.port = host, free_port(host)
        self.address = f"{name or (f'[{host}]' if ':' in host else host)}:{self.port}"
        command = [house.program, "serve", house.index, str(connections), self.address]
        self.process = subprocess.Popen(command, stdout=subprocess.PIPE, text=True)
        self.killer = threading.Timer(5 * LIMIT, self.process.kill)
        self.killer.start()
        assert self.process.stdout is not None
        self.first = self.process.stdout.readline()

    def __enter__(self) -> "Server":
        return self

    def __exit__(self, *_: object) -> None:
        self.process.kill()
        self.process.wait()
        self.killer.cancel()

    def client(self) -> socket.socket:
        return socket.create_connection((self.host, self.port), timeout=LIMIT)

    def end(self) -> tuple[list[str], int]:
        """The lines after the first, and the status."""
        assert self.process.stdout is not None
        return self.process.stdout.read().splitlines(), self.process.wait(LIMIT)


def read_all(client: socket.socket) -> bytes:
    """All bytes until the end."""
    pieces = []
    while piece := client.recv(1 << 16):
        pieces.append(piece)
    return b"".join(pieces)


def asked(server: Server, pieces: list[bytes]) -> bytes:
    """Writes the pieces, each as a packet of its own, ends, and reads to the end."""
    with server.client() as client:
        client.setsockopt(socket.IPPROTO_TCP, socket.TCP_NODELAY, 1)
        for piece in pieces:
            client.sendall(piece)
        client.shutdown(socket.SHUT_WR)
        return read_all(client)


def reset(client: socket.socket) -> None:
    """Ends the connection at once by a reset, without an end of input."""
    client.setsockopt(socket.SOL_SOCKET, socket.SO_LINGER, struct.pack("ii", 1, 0))
    client.close()


def run(house: House, *words: str) -> tuple[str, int]:
    done = subprocess.run([house.program, *words], capture_output=True, text=True, timeout=LIMIT, check=False)
    return done.stdout, done.returncode


def ask(house: House, address: str) -> tuple[str, int]:
    return run(house, "ask", house.root, "tnra", "1", QUERY, address)


def ask_peer(house: House, answer: Callable[[socket.socket], None]) -> tuple[str, int]:
    """Asks a peer that reads the request and then does what it is given to do."""
    with socket.socket() as door:
        door.bind(("127.0.0.1", 0))
        door.listen()
        door.settimeout(LIMIT)

        def peer() -> None:
            link, _ = door.accept()
            with link:
                link.recv(len(REQUEST), socket.MSG_WAITALL)
                answer(link)

        thread = threading.Thread(target=peer)
        thread.start()
        came = ask(house, f"127.0.0.1:{door.getsockname()[1]}")
        thread.join()
    return came


def serves(house: House, pieces: list[bytes], replies: bytes, line: str) -> None:
    """One client writes the pieces, and gets the replies; the server prints this line for it and ends with status 0."""
    with Server(house, 1) as server:
        expect("first line", server.first, "listening\n")
        expect("replies", asked(server, pieces), replies)
        expect("end", server.end(), ([f"connection 1 {line}"], 0))


def one_request(house: House) -> None:
    serves(house, [REQUEST], house.reply, "requests 1 end")


def byte_by_byte(house: House) -> None:
    serves(house, [bytes([byte]) for byte in REQUEST], house.reply, "requests 1 end")


def two_in_one(house: House) -> None:
    serves(house, [REQUEST * 2], house.reply * 2, "requests 2 end")


def many_in_one(house: House) -> None:
    serves(house, [REQUEST * 500], house.reply * 500, "requests 500 end")


def refusals(house: House) -> None:
    no_term = framed(bytes.fromhex("010200010003") + b"...")
    no_rows = framed(bytes.fromhex("010200000000"))
    no_algorithm = framed(bytes.fromhex("010300010000"))
    replies = bytes.fromhex("000000020102" "000000020104" "000000020101")
    serves(house, [no_term + no_rows + no_algorithm], replies, "requests 3 end")


def long_frame(house: House) -> None:
    serves(house, [bytes.fromhex("00001001")], b"", "requests 0 bad")


def cut_frame(house: House) -> None:
    serves(house, [REQUEST[:10]], b"", "requests 0 cut")


def long_reply(house: House) -> None:
    """A reply of two megabytes to a client that reads late. The server ends with what follows the request unread."""
    words = [first + last for first in string.ascii_lowercase for last in "aeiouwxyz"]
    some = random.Random(1)
    texts, index, proof = (Path(f"{house.index}.long.{what}") for what in ("texts", "index", "proof"))
    texts.write_text(json.dumps([" ".join(word for word in words if some.random() < 0.5) for _ in range(1000)]), encoding="utf-8")
    measure.run([house.program, "build", str(texts), str(index)])
    query = " ".join(words[::7][:32])
    measure.run([house.program, "prove", str(index), "tra", "1000", query, str(proof)])
    request = framed(struct.pack(">BBHH", 1, 1, 1000, len(query)) + query.encode())
    reply = framed(b"\x00" + proof.read_bytes())
    expect("a reply of two megabytes", len(reply) > 2_000_000, True)
    with Server(house._replace(index=str(index)), 1) as server, server.client() as client:
        client.sendall(request + b"\xff" * 4096)
        time.sleep(LATE)
        came = read_all(client)
        expect("bytes of the reply", len(came), len(reply))
        expect("the reply", came == reply, True)
        expect("end", server.end(), (["connection 1 requests 1 bad"], 0))


def nothing_at_all(house: House) -> None:
    serves(house, [], b"", "requests 0 end")


def gone_before_reply(house: House) -> None:
    with Server(house, 2) as server:
        with server.client() as client:
            client.sendall(REQUEST)
        expect("the next reply", asked(server, [REQUEST]), house.reply)
        lines, status = server.end()
        # Whether the reply or its refusal is seen first depends on timing.
        expect("the next line", lines[1], "connection 2 requests 1 end")
        expect("status", status, 10 if lines[0].endswith("fault") else 0)


def resets(house: House) -> None:
    with Server(house, 2) as server:
        client = server.client()
        client.sendall(REQUEST[:10])
        reset(client)
        expect("the next reply", asked(server, [REQUEST]), house.reply)
        lines = ["connection 1 requests 0 fault", "connection 2 requests 1 end", "faults 1"]
        expect("end", server.end(), (lines, 10))


def a_hundred(house: House) -> None:
    with Server(house, 100) as server:
        for _ in range(100):
            expect("rows", ask(house, server.address), (ROW, 0))
        expect("end", server.end(), ([f"connection {i + 1} requests 1 end" for i in range(100)], 0))


def address_in_use(house: House) -> None:
    with Server(house, 1) as server:
        expect("another server", run(house, "serve", house.index, "1", server.address), ("fault: link\n", 8))
        expect("the first server's reply", asked(server, [REQUEST]), house.reply)


def address_again(house: House) -> None:
    with Server(house, 1) as server:
        expect("reply", asked(server, [REQUEST]), house.reply)
        server.end()
        again = subprocess.Popen([house.program, "serve", house.index, "1", server.address], stdout=subprocess.PIPE, text=True)
        assert again.stdout is not None
        expect("first line", again.stdout.readline(), "listening\n")
        expect("rows", ask(house, server.address), (ROW, 0))
        expect("status", again.wait(LIMIT), 0)


def nobody_listens(house: House) -> None:
    expect("a reader", ask(house, f"127.0.0.1:{free_port('127.0.0.1')}"), ("fault: link\n", 8))


def no_address(house: House) -> None:
    for address in ("here", "127.0.0.1", "127.0.0.1:65536", "no-such-host.invalid:7070"):
        expect(f"a reader at {address}", ask(house, address), ("fault: link\n", 8))
        expect(f"a server at {address}", run(house, "serve", house.index, "1", address), ("fault: link\n", 8))


def other_addresses(house: House) -> None:
    with Server(house, 1, name="localhost") as server:
        expect("rows by a name", ask(house, server.address), (ROW, 0))
    try:
        free_port("::1")
    except OSError as fault:
        raise Skipped("no IPv6 here") from fault
    with Server(house, 1, host="::1") as server:
        expect("rows over IPv6", ask(house, server.address), (ROW, 0))


def replies_of_peers(house: House) -> None:
    def drip(link: socket.socket) -> None:
        link.setsockopt(socket.IPPROTO_TCP, socket.TCP_NODELAY, 1)
        for byte in house.reply:
            link.sendall(bytes([byte]))

    expect("byte by byte", ask_peer(house, drip), (ROW, 0))
    for name, reply, wanted in [
        ("more than the reply", house.reply + b"more", (ROW, 0)),
        ("cut", house.reply[:100], ("peer: short 100 370\n", 9)),
        ("nothing", b"", ("peer: short 0 4\n", 9)),
        ("a code", bytes.fromhex("000000020102"), ("peer: refused 2\n", 9)),
        ("too long", bytes.fromhex("04000002"), ("peer: long 67108866\n", 9)),
        ("of no kind", bytes.fromhex("0000000107"), ("peer: bad 1 7\n", 9)),
        ("another proof", house.reply.replace(b"\x03red", b"\x03rod"), ("refused: dict-root\n", 1)),
    ]:
        expect(name, ask_peer(house, lambda link: link.sendall(reply)), wanted)
    expect("reset", ask_peer(house, reset), ("fault: link\n", 8))


def silent_client(house: House) -> None:
    with Server(house, 2) as server, server.client() as client:
        client.sendall(REQUEST[:10])
        expect("the next reply", asked(server, [REQUEST]), house.reply)
        lines = ["connection 1 requests 0 fault", "connection 2 requests 1 end", "faults 1"]
        expect("end", server.end(), (lines, 10))


def client_that_never_reads(house: House) -> None:
    # Replies of many kilobytes fill the system's buffer for the client.
    index = house.index + ".archive"
    measure.run([house.program, "build", str(HOME / "examples" / "archive.json"), index])
    words = b"the of and to in a is for on with was by that as at from it be not"
    long = framed(struct.pack(">BBHH", 1, 1, 1000, len(words)) + words)
    with Server(house._replace(index=index), 2) as server, server.client() as client:
        client.sendall(long * 1000)
        expect("the next reply's kind", asked(server, [REQUEST])[4:5], b"\x00")
        lines, status = server.end()
        expect("the first line", bool(re.fullmatch(r"connection 1 requests \d+ fault", lines[0])), True)
        expect("end", (lines[1:], status), (["connection 2 requests 1 end", "faults 1"], 10))


def silent_server(house: House) -> None:
    expect("a reader", ask_peer(house, lambda link: time.sleep(SILENCE + 5)), ("fault: link\n", 8))


TRIES: list[tuple[str, Callable[[House], None]]] = [
    ("a request gets its proof", one_request),
    ("so it does byte by byte", byte_by_byte),
    ("two requests in one piece get two replies", two_in_one),
    ("500 requests in one piece get 500 replies", many_in_one),
    ("requests out of range get their codes", refusals),
    ("a frame that is too long ends its connection", long_frame),
    ("ten bytes and then the end are a cut frame", cut_frame),
    ("a reply of two megabytes, read late, and bytes after its request that the server never reads", long_reply),
    ("a client that says nothing and goes", nothing_at_all),
    ("a client that goes before its reply, and the next one", gone_before_reply),
    ("a client that resets in a frame, and the next one", resets),
    ("a hundred readers in a row", a_hundred),
    ("an address that is in use", address_in_use),
    ("an address that was in use just before", address_again),
    ("an address at which nobody listens", nobody_listens),
    ("words that are no address", no_address),
    ("a host's name and an IPv6 address", other_addresses),
    ("what other servers may reply", replies_of_peers),
]

SILENT: list[tuple[str, Callable[[House], None]]] = [
    ("a client that falls silent in a frame, and the next one", silent_client),
    ("a client that never reads, and the next one", client_that_never_reads),
    ("a server that never replies", silent_server),
]


def main() -> int:
    words = [word for word in sys.argv[1:] if word != "--silence"]
    tries = TRIES + (SILENT if "--silence" in sys.argv[1:] else [])
    program, tally = program_of(words), Tally()
    with tempfile.TemporaryDirectory() as folder:
        house = build(program, Path(folder))
        for says, one in tries:
            tally.attempt(says, one, house)
    if tries == TRIES:
        tally.skip(f"{len(SILENT)} with peers that fall silent, which take --silence")
    return tally.conclude()


if __name__ == "__main__":
    sys.exit(main())
