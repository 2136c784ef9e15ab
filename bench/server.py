"""What a server runs: `serve` over loopback, and the replies that readers get."""

import socket
import statistics
import threading
import time
from pathlib import Path
from typing import Iterator

import asking
import corpora
import measure
from house import Figure, House

ALGORITHMS = ("tra", "tnra")
FEW_ROWS, MANY_ROWS = (1, 10, 100), 1000
ROWS = 10
QUICKEST = (9999,)
LONGEST = (0, 1, 2, 3, 4, 5, 6, 7)

# Queries by the places of their words in the order of frequency.
QUERIES = [
    (0,), (9,), (999,),
    (0, 1), (0, 9999), (9, 99), (0, 0), (0, 0, 1),
    (0, 1, 2), (9, 99, 999),
    (0, 1, 2, 3, 4), (0, 9, 99, 999, 9999),
    LONGEST, (3, 30, 60, 90, 300, 600, 900, 3000),
]
PROVED = (7, 8)  # its TRA proof has 700 KB
PROOFS = 20  # from each server, in turn; the fastest counts


def queries(house: House) -> list[str]:
    return [house.query(*places) for places in QUERIES]


def proving(house: House) -> Iterator[Figure]:
    """From the request to the last byte of a proof, over an open connection, in both formats."""
    one, two = house.archive(house.large).index, house.in_blocks(house.large).index
    with asking.served(house.program, one) as link, asking.served(house.program, two) as other:
        for algorithm in ALGORITHMS:
            asked = asking.request(algorithm, ROWS, house.query(*PROVED))
            turns = [(asking.reply(link, asked), asking.reply(other, asked)) for _ in range(PROOFS)]
            proof, in_blocks = (min(replies, key=lambda one: one.seconds) for replies in zip(*turns))
            of = f"{algorithm}, {len(proof.proof):,} bytes"
            yield Figure(f"ms by {algorithm}", of, proof.seconds * 1e3)
            yield Figure("in blocks", of, in_blocks.seconds / proof.seconds)


def slowest(house: House, mib: float) -> dict[tuple[str, int], float]:
    """The seconds of the slowest reply over all queries, by algorithm and rows."""
    with asking.served(house.program, house.archive(mib).index) as link:
        return {
            (algorithm, rows): max(asking.fastest(link, asking.request(algorithm, rows, query), house.runs).seconds for query in queries(house))
            for algorithm in ALGORITHMS
            for rows in (*FEW_ROWS, MANY_ROWS)
        }


def answering(house: House) -> Iterator[Figure]:
    """The slowest replies, and how they grow with the texts."""
    small, large = slowest(house, house.small), slowest(house, house.large)
    for (algorithm, rows), seconds in large.items():
        of = f"{algorithm}, {rows} rows"
        yield Figure("seconds of few rows" if rows <= FEW_ROWS[-1] else "seconds of many rows", of, seconds)
        yield Figure("growth", of, seconds / small[algorithm, rows])


def sent_by_python(length: int) -> float:
    """The seconds in which a proof of this many bytes arrives, sent by Python at once, after the head of its reply."""
    with socket.socket() as door:
        door.bind(("127.0.0.1", 0))
        door.listen()
        link = socket.create_connection(door.getsockname())
        other, _ = door.accept()
    with link, other:
        sender = threading.Thread(target=other.sendall, args=(bytes(asking.HEAD + length),))
        sender.start()
        asking.receive(link, memoryview(bytearray(asking.HEAD)))
        start = time.perf_counter()
        asking.receive(link, memoryview(bytearray(length)))
        seconds = time.perf_counter() - start
        sender.join()
    return seconds


def held(process: int) -> int:
    """The bytes of memory that a process holds."""
    status = Path(f"/proc/{process}/status").read_text(encoding="ascii")
    return next(int(line.split()[1]) for line in status.splitlines() if line.startswith("VmRSS:")) * 1024


def readers(house: House, port: int) -> Iterator[Figure]:
    """`ask`, with its process, its connection and its check, beside the reply over an open connection."""
    with asking.connected(port) as link:
        replies = [asking.fastest(link, asking.request("tnra", ROWS, query), house.runs).seconds for query in queries(house)]
    ask = house.command("ask", house.archive(house.large).root, "tnra", ROWS)
    asks = [measure.in_turns(house.runs, [*ask, query, f"127.0.0.1:{port}"])[0].seconds for query in queries(house)]
    yield Figure("ms of ask", "median of the queries", statistics.median(asks) * 1e3)
    yield Figure("ask over reply", "median of the queries", statistics.median(a / b for a, b in zip(asks, replies)))


def connections(house: House, server: int, port: int) -> Iterator[Figure]:
    """Many connections one after another, of one request each."""
    before, start = held(server), time.perf_counter()
    asked = asking.request("tnra", ROWS, house.query(*QUICKEST))
    for _ in range(house.many):
        with asking.connected(port) as link:
            asking.reply(link, asked)
    yield Figure("ms of a connection", f"mean of {house.many}", (time.perf_counter() - start) / house.many * 1e3)
    yield Figure("MiB held", "after the readers", before / corpora.MIB)
    yield Figure("memory", f"after {house.many} connections", held(server) / before)


def long_reply(house: House, port: int) -> Iterator[Figure]:
    """The reply to the query of most words, from its first byte on."""
    with asking.connected(port) as link:
        found = [asking.reply(link, asking.request("tnra", ROWS, house.query(*LONGEST))) for _ in range(house.runs)]
    length = len(found[0].proof)
    python = min(sent_by_python(length) for _ in range(house.runs))
    yield Figure("sending over Python", f"{length:,} bytes", min(one.sending for one in found) / python)


def serving(house: House) -> Iterator[Figure]:
    """One server for all readers."""
    port, count = asking.free_port(), 1 + house.runs * len(QUERIES) + house.many + 1
    server = asking.started(house.program, house.archive(house.large).index, count, port)
    try:
        yield from readers(house, port)
        yield from connections(house, server.pid, port)
        yield from long_reply(house, port)
        if server.wait(asking.LIMIT) != 0:
            measure.stop(f"the server ended with status {server.returncode}")
    finally:
        server.kill()
