#!/usr/bin/env python3
"""Passes questions on to processes of `ats serve`, and keeps slow readers away from them.

relay.py ADDRESS PROCESS..    each as HOST:PORT; readers call ADDRESS, and each PROCESS serves the same index

A connection is one question. A process gets a whole request, writes its reply as fast as this machine takes it, and is
free: how slowly a reader sends or reads costs memory here, and no process. A process that dies, does not answer, or is
out of memory rests for a second, and another is asked. Nobody has to trust the relay, since readers check each reply.

It prints a line for whatever is wrong with a process, and nothing about a question. It ends at a signal.
"""

import asyncio
import contextlib
import sys
from typing import NamedTuple

REQUEST = range(6, 4096 + 1)      # bytes of the body of a request
LONGEST_REPLY = (1 << 26) + 1     # bytes of the body of a reply
OUT_OF_MEMORY = b"\1\6"           # the body of a reply of a process that is out of memory
CONNECTIONS = 1000                # at the same time
MEMORY = 1 << 30                  # bytes of replies that come or wait for their readers; at least one whole reply
PIECE = 1 << 16                   # bytes that are read or written at a time

ARRIVING = 10    # seconds in which a request must be whole
PATIENCE = 20    # seconds in which a question is given to a process; `ask` waits 30
ANSWERING = 60   # seconds in which a process must have replied
TAKING = 300     # seconds in which a reader must have taken the reply
RESTING = 1      # seconds for which a process that failed is not asked


class Process(NamedTuple):
    """Where a process listens."""

    host: str
    port: int

    def __str__(self) -> str:
        return f"{self.host}:{self.port}"


class Failed(Exception):
    """A process gave no answer."""


def process_of(word: str) -> Process:
    host, _, port = word.rpartition(":")
    if not host or not port.isdigit():
        sys.exit(f"relay.py: {word} is not HOST:PORT")
    return Process(host.strip("[]"), int(port))


async def read_frame(link: asyncio.StreamReader, bodies: range) -> bytearray:
    """One whole frame, in one copy. Ends with ValueError if its length is none of these."""
    head = await link.readexactly(4)
    length = int.from_bytes(head, "big")
    if length not in bodies:
        raise ValueError(f"a frame of {length} bytes")
    frame = bytearray(4 + length)
    frame[:4], came = head, 4
    while came < len(frame):
        piece = await link.read(min(PIECE, len(frame) - came))
        if not piece:
            raise EOFError(f"{came} bytes of a frame of {len(frame)}")
        frame[came:came + len(piece)] = piece
        came += len(piece)
    return frame


async def write_frame(link: asyncio.StreamWriter, frame: bytearray) -> None:
    """Writes as fast as the reader takes it, so that the link keeps no copy of what waits."""
    link.transport.set_write_buffer_limits(0)
    with memoryview(frame) as bytes_:
        for start in range(0, len(frame), PIECE):
            link.write(bytes_[start:start + PIECE])
            await link.drain()
    link.write_eof()


async def reply_of(process: Process, request: bytearray) -> bytearray:
    """What the process replies to the request, which ends its connection."""
    link, out = await asyncio.open_connection(*process, limit=PIECE)
    try:
        out.write(request)
        out.write_eof()
        reply = await read_frame(link, range(1, LONGEST_REPLY + 1))
    finally:
        out.close()
    if reply[4:] == OUT_OF_MEMORY:
        raise Failed("it is out of memory")
    return reply


class Memory:
    """The bytes of replies that are held. They are taken before a process is asked, when nobody knows how many will come."""

    def __init__(self) -> None:
        self.held = 0
        self.given = asyncio.Condition()

    async def take(self) -> int:
        """Room for any reply, once it is there."""
        async with self.given:
            await self.given.wait_for(lambda: self.held + LONGEST_REPLY + 4 <= MEMORY)
            self.held += LONGEST_REPLY + 4
        return LONGEST_REPLY + 4

    async def give(self, size: int) -> None:
        async with self.given:
            self.held -= size
            self.given.notify_all()


class Relay:
    """The processes that are free, and the memory for their replies."""

    def __init__(self, processes: "list[Process]"):
        self.free: "asyncio.Queue[Process]" = asyncio.Queue()
        for process in processes:
            self.free.put_nowait(process)
        self.connections = 0
        self.memory = Memory()

    async def asked_once(self, request: bytearray) -> bytearray:
        """The reply of the next process that is free. One that fails rests."""
        process = await self.free.get()
        try:
            reply = await asyncio.wait_for(reply_of(process, request), ANSWERING)
        except (OSError, EOFError, ValueError, Failed, asyncio.TimeoutError) as why:
            print(f"{process}: {why or type(why).__name__}", flush=True)
            asyncio.get_running_loop().call_later(RESTING, self.free.put_nowait, process)
            raise Failed from why
        except asyncio.CancelledError:
            self.free.put_nowait(process)
            raise
        self.free.put_nowait(process)
        return reply

    async def asked(self, request: bytearray) -> bytearray:
        """The reply of the first process that has one."""
        while True:
            with contextlib.suppress(Failed):
                return await self.asked_once(request)

    async def serve(self, reader: asyncio.StreamReader, writer: asyncio.StreamWriter) -> None:
        request = await asyncio.wait_for(read_frame(reader, REQUEST), ARRIVING)
        taken = await asyncio.wait_for(self.memory.take(), PATIENCE)
        try:
            reply = await asyncio.wait_for(self.asked(request), PATIENCE + ANSWERING)
            await self.memory.give(taken - len(reply))
            taken = len(reply)
            await asyncio.wait_for(write_frame(writer, reply), TAKING)
        finally:
            await self.memory.give(taken)

    async def connected(self, reader: asyncio.StreamReader, writer: asyncio.StreamWriter) -> None:
        """Serves one reader, whatever it does."""
        if self.connections >= CONNECTIONS:
            writer.transport.abort()
            return
        self.connections += 1
        try:
            await self.serve(reader, writer)
            writer.close()
        except (OSError, EOFError, ValueError, asyncio.TimeoutError):
            writer.transport.abort()
        finally:
            self.connections -= 1


async def run(address: Process, processes: "list[Process]") -> None:
    relay = Relay(processes)
    server = await asyncio.start_server(relay.connected, *address, limit=8192, backlog=CONNECTIONS)
    async with server:
        await server.serve_forever()


if __name__ == "__main__":
    if len(sys.argv) < 3:
        sys.exit(__doc__)
    with contextlib.suppress(KeyboardInterrupt):
        asyncio.run(run(process_of(sys.argv[1]), [process_of(word) for word in sys.argv[2:]]))
