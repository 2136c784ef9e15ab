"""A web server over a folder, and a server of proofs, which misbehave as they are told, for `folders.py` and
`catalogs.py`."""

import contextlib
import functools
import http.server
import socket
import threading
import time
from pathlib import Path
from typing import Callable, Iterable, Iterator, NamedTuple, Optional, Union

LONG = 60  # seconds of silence, more than any script waits


class Handler(http.server.SimpleHTTPRequestHandler):
    """Serves a folder. What is below the name of a trick gets the trick."""

    def do_GET(self) -> None:
        self.server.asked.append(self.path)
        trick = TRICKS.get(self.path.split("/")[1])
        with contextlib.suppress(OSError):
            if trick:
                trick(self)
            else:
                super().do_GET()

    def log_message(self, *_: object) -> None:
        pass

    def begin(self, length: Optional[int]) -> None:
        self.send_response(200)
        if length is not None:
            self.send_header("Content-Length", str(length))
        self.end_headers()

    def redirect(self, place: str) -> None:
        self.send_response(302)
        self.send_header("Location", place)
        self.end_headers()

    def reply(self, data: bytes, length: int) -> None:
        self.begin(length)
        self.wfile.write(data)

    def endless(self) -> None:
        self.begin(None)
        while True:
            self.wfile.write(b"publication: 1\n" * 1000)

    def slowly(self, data: bytes) -> None:
        """A byte each second."""
        for at in range(LONG):
            self.wfile.write(data[at % len(data):][:1])
            self.wfile.flush()
            time.sleep(1)

    def slow_body(self) -> None:
        self.begin(1000)
        self.slowly(b"publication: 1\n")


TRICKS: dict[str, Callable[[Handler], None]] = {
    "other-host": lambda self: self.redirect(f"http://localhost:{self.server.other}/publication.txt"),
    "file": lambda self: self.redirect("file:///etc/passwd"),
    "endless": Handler.endless,
    "slow": Handler.slow_body,
    "slow-head": lambda self: self.slowly(b"HTTP/1.0 200 OK\r\nX: "),
    "silent": lambda self: time.sleep(LONG),
    "cut": lambda self: self.reply(b"publication: 1\n", 1000),
    "escapes": lambda self: self.reply(b"publication: \x1b[31m1\n", 20),
    "no-http": lambda self: self.wfile.write(b"\x1b[31m\r\n\r\n"),
    "many-heads": lambda self: self.wfile.write(b"HTTP/1.0 200 OK\r\n" + b"X: 1\r\n" * 1000),
}


class Web(NamedTuple):
    """A web server: the paths that it was asked for, and where it listens."""

    asked: list[str]
    port: int

    @property
    def address(self) -> str:
        return f"http://127.0.0.1:{self.port}"


@contextlib.contextmanager
def web(folder: Path, other: int = 0) -> Iterator[Web]:
    """Serves the folder. The trick `other-host` redirects to the port `other`."""
    handler = functools.partial(Handler, directory=str(folder))
    server = http.server.ThreadingHTTPServer(("127.0.0.1", 0), handler)
    server.asked, server.other, server.daemon_threads, server.block_on_close = [], other, True, False
    threading.Thread(target=server.serve_forever, daemon=True).start()
    try:
        yield Web(server.asked, server.server_address[1])
    finally:
        server.shutdown()
        server.server_close()


Reply = Union[bytes, Iterable[bytes], None]  # whole, in pieces, or none


def answer(link: socket.socket, replies: Callable[[bytes], Reply]) -> None:
    """Reads one request, and sends the reply for it, or nothing for a long time."""
    with link, contextlib.suppress(OSError):
        head = link.recv(4, socket.MSG_WAITALL)
        reply = replies(head + link.recv(int.from_bytes(head, "big"), socket.MSG_WAITALL))
        if reply is None:
            time.sleep(LONG)
        else:
            for piece in [reply] if isinstance(reply, bytes) else reply:
                link.sendall(piece)
            link.shutdown(socket.SHUT_WR)
            link.recv(1)


@contextlib.contextmanager
def replying(reply: Union[Reply, Callable[[bytes], Reply]], family: int = socket.AF_INET) -> Iterator[str]:
    """A server that has one reply for each request, or one that the request decides. It is the address."""
    replies = reply if callable(reply) else lambda _: reply
    host = "::1" if family == socket.AF_INET6 else "127.0.0.1"
    with socket.socket(family) as listener:
        listener.bind((host, 0))
        listener.listen()

        def serve() -> None:
            with contextlib.suppress(OSError):
                while True:
                    link, _ = listener.accept()
                    threading.Thread(target=answer, args=[link, replies], daemon=True).start()

        threading.Thread(target=serve, daemon=True).start()
        port = listener.getsockname()[1]
        yield f"[{host}]:{port}" if family == socket.AF_INET6 else f"{host}:{port}"
        with contextlib.suppress(OSError):
            listener.shutdown(socket.SHUT_RDWR)  # wakes who accepts
