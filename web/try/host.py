"""A host of files on this machine that may lie: for each request `act` gets what an honest host would answer, and
changes it."""

import re
import threading
import time
from pathlib import Path
from typing import Callable, NamedTuple, Optional

import server


class Reply(NamedTuple):
    """What is sent. `length` is announced; if it is more than the body, the host stops in the middle."""

    status: int
    body: bytes
    kind: str = "application/octet-stream"
    length: Optional[int] = None


class Request(NamedTuple):
    """What was asked for: the path, and the first and last byte if it is a range."""

    path: str
    first: Optional[int]
    last: Optional[int]

    @property
    def name(self) -> str:
        return self.path.rsplit("/", 1)[-1]


Act = Callable[[Request, Reply], Reply]


def honest(_: Request, reply: Reply) -> Reply:
    return reply


class Handler(server.Handler):
    server: "Host"

    def do_GET(self) -> None:
        request, reply = self.asked()
        changed = self.server.act(request, reply)
        self.send_response(changed.status)
        self.send_header("Content-Type", changed.kind)
        self.send_header("Content-Length", str(changed.length or len(changed.body)))
        if self.server.is_kept and changed.status == 206 and request.first is not None:
            size = Path(self.translate_path(request.path)).stat().st_size
            self.send_header("Content-Range", f"bytes {request.first}-{request.first + len(reply.body) - 1}/{size}")
            self.send_header("ETag", '"1"')
        self.end_headers()
        self.wfile.write(changed.body)
        self.close_connection = bool(changed.length)

    def do_OPTIONS(self) -> None:
        self.send_response(204)
        self.send_header("Content-Length", "0")
        self.end_headers()

    def end_headers(self) -> None:
        self.send_header("Access-Control-Allow-Origin", "*")
        self.send_header("Access-Control-Allow-Headers", "Range")
        super().end_headers()

    def asked(self) -> "tuple[Request, Reply]":
        path, file = self.path.split("?")[0], Path(self.translate_path(self.path))
        wanted = re.fullmatch(r"bytes=([0-9]+)-([0-9]+)", self.headers.get("Range", ""))
        first, last = (int(wanted[1]), int(wanted[2])) if wanted else (None, None)
        if not file.is_file():
            return Request(path, first, last), Reply(404, b"no", "text/plain")
        data = file.read_bytes()
        if first is None or last is None:
            return Request(path, None, None), Reply(200, data, self.guess_type(str(file)))
        return Request(path, first, last), Reply(206, data[first : last + 1]) if first < len(data) else Reply(416, b"")


class Host(server.Server):
    """Serves folders as `act` says."""

    def __init__(self, folders: "list[Path]"):
        super().__init__(folders)
        self.RequestHandlerClass = Handler
        self.act: Act = honest
        self.is_kept = False  # whether ranges have what browsers need to keep them
        threading.Thread(target=self.serve_forever, daemon=True).start()

    def __exit__(self, *words: object) -> None:
        self.shutdown()
        super().__exit__(*words)


# Lies. Each is about files of an archive only, so that the page itself comes.

FILES = ("head", "dictionary", "lists", "texts", "texts-tree", "terms", "documents-tree")


def about(names: "tuple[str, ...]", lie: Act) -> Act:
    return lambda request, reply: lie(request, reply) if request.name in names and reply.status == 206 else reply


def flipped(data: bytes, at: int) -> bytes:
    """The same with one bit changed."""
    return data[:at] + bytes([data[at] ^ 1]) + data[at + 1 :]


def one_bit(_: Request, reply: Reply) -> Reply:
    return reply._replace(body=flipped(reply.body, len(reply.body) // 2)) if reply.body else reply


def cut(_: Request, reply: Reply) -> Reply:
    return reply._replace(body=reply.body[: len(reply.body) // 2])


def nothing(_: Request, reply: Reply) -> Reply:
    return reply._replace(body=b"")


def stops(_: Request, reply: Reply) -> Reply:
    return reply._replace(body=reply.body[: len(reply.body) // 2], length=len(reply.body))


def portal(_: Request, __: Reply) -> Reply:
    return Reply(200, b"<!doctype html><title>Log in</title><p>Log in to this network." + b" " * 300, "text/html")


def gone(_: Request, __: Reply) -> Reply:
    return Reply(404, b"no", "text/plain")


LIES = {
    "one bit": one_bit,
    "cut": cut,
    "nothing": nothing,
    "stops in the middle": stops,
    "a page to log in": portal,
    "gone": gone,
}


def slow(seconds: float) -> Act:
    def act(_: Request, reply: Reply) -> Reply:
        time.sleep(seconds)
        return reply

    return act
