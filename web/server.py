"""A small file server with ranges, to read an archive on this machine: nothing else listens to it. It gives out the
files of some folders, of which the first one that has a file counts. For readers elsewhere take a real web server:
docs/service.md has what it needs. """

import http.server
import io
import os
import re
from pathlib import Path
from typing import BinaryIO, Optional


class Handler(http.server.SimpleHTTPRequestHandler):
    """Files as the standard library gives them out, and single ranges of them."""

    protocol_version = "HTTP/1.1"
    timeout = 60
    server: "Server"

    def translate_path(self, path: str) -> str:
        found = [self.below(folder, path) for folder in self.server.folders]
        return next(filter(os.path.isfile, found), found[0])

    def below(self, folder: Path, path: str) -> str:
        self.directory = str(folder)
        found = super().translate_path(path)
        return os.path.join(found, "index.html") if os.path.isdir(found) else found

    def send_head(self) -> Optional[BinaryIO]:
        wanted = re.fullmatch(r"bytes=([0-9]{1,12})-([0-9]{1,12})", self.headers.get("Range", ""))
        path = self.translate_path(self.path)
        if not wanted or not os.path.isfile(path):
            return super().send_head()
        first, last = int(wanted[1]), int(wanted[2])
        with open(path, "rb") as file:
            size = os.fstat(file.fileno()).st_size
            file.seek(first)
            part = file.read(max(min(last + 1, size) - first, 0))
        if not part:
            self.send_error(416)
            return None
        self.send_response(206)
        self.send_header("Content-Type", self.guess_type(path))
        self.send_header("Content-Range", f"bytes {first}-{first + len(part) - 1}/{size}")
        self.send_header("Content-Length", str(len(part)))
        self.end_headers()
        return io.BytesIO(part)

    def end_headers(self) -> None:
        # The name of a folder of an archive has its root, so its files never change.
        is_kept = re.search(r"/[0-9a-f]{64}-1/", self.path)
        self.send_header("Cache-Control", "public, max-age=31536000, immutable" if is_kept else "no-cache")
        super().end_headers()

    def log_message(self, *_: object) -> None:
        pass


class Server(http.server.ThreadingHTTPServer):
    """Serves these folders at `base`, on this machine only."""

    def __init__(self, folders: "list[Path]", port: int = 0):
        self.folders = folders
        super().__init__(("127.0.0.1", port), Handler)
        self.base = f"http://127.0.0.1:{self.server_address[1]}"

    def handle_error(self, *_: object) -> None:
        """Readers leave when they like."""
