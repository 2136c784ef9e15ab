"""Runs scripts and the program in a folder of its own, and counts what passed, for `folders.py`, `publish.py` and `catalogs.py`."""

import contextlib
import os
import subprocess
import sys
from pathlib import Path
from typing import Iterator, NamedTuple, Optional

from trying import HOME, Tally, free_port

LIMIT = 600  # seconds of one run
STRANGE = 'new\nline "\t\u202e\x1b[31m\U0001f98a.txt'


class Ended(NamedTuple):
    status: int
    printed: bytes
    said: str


def working(session: int) -> list[int]:
    """The processes of a session that have not ended: all those of a run, if it was started in one of its own."""
    found = []
    for path in Path("/proc").glob("[0-9]*/stat"):
        with contextlib.suppress(OSError):  # it has ended meanwhile
            state, _, _, of, *_ = path.read_bytes().rpartition(b")")[2].split()
            if int(of) == session and state != b"Z":
                found.append(int(path.parent.name))
    return found


class Tries(Tally):
    """What was tried so far, in a folder of its own."""

    def __init__(self, folder: Path, program: str):
        super().__init__()
        self.folder, self.program = folder, program

    def run(self, *words: object, given: bytes = b"", output: Optional[Path] = None, place: str = ".", **variables: str) -> Ended:
        """A run that ends by itself; what it prints goes to `output` if that is said."""
        command = [str(word) for word in words]
        with contextlib.ExitStack() as stack:
            printed = stack.enter_context(open(output, "wb")) if output else subprocess.PIPE
            done = subprocess.run(command, input=given, stdout=printed, stderr=subprocess.PIPE, cwd=self.folder / place,
                                  env={**os.environ, "no_proxy": "*", **variables}, timeout=LIMIT, check=False)
        return Ended(done.returncode, done.stdout or b"", done.stderr.decode())

    def script(self, name: str, *words: object, given: bytes = b"", output: Optional[Path] = None) -> Ended:
        own = ["--program", self.program] if name in ("announce", "catalog", "follow", "keep") else []
        folder = "reader" if name in ("catalog", "follow", "keep", "titles") else "owner"
        return self.run(sys.executable, HOME / folder / f"{name}.py", *own, *words, given=given, output=output)

    def collect(self, *words: object, output: Optional[Path] = None) -> Ended:
        return self.script("collect", *words, output=output)

    def ask(self, *words: object) -> Ended:
        """A run of the program."""
        return self.run(self.program, *words)

    def root(self, collection: str, index: str) -> str:
        """Builds an index, and returns its root."""
        ended = self.ask("build", collection, index)
        assert ended.status == 0, ended
        return ended.printed.decode().strip()

    def put(self, name: str, files: dict[bytes, bytes]) -> Path:
        """A folder with these files."""
        folder = os.fsencode(self.folder / name)
        for inner in {os.path.dirname(path) for path in files}:
            os.makedirs(os.path.join(folder, inner), exist_ok=True)
        for path, data in files.items():
            with open(os.path.join(folder, path), "wb") as file:
                file.write(data)
        return self.folder / name

    def read(self, name: str) -> bytes:
        return (self.folder / name).read_bytes()

    def parts(self) -> list[Path]:
        """Files that a script began to write and left."""
        return list(self.folder.rglob("*.part"))

    @contextlib.contextmanager
    def serving(self, index: str, connections: int) -> Iterator[str]:
        """The address of the program's server for this many connections."""
        address = f"127.0.0.1:{free_port()}"
        with subprocess.Popen([self.program, "serve", index, str(connections), address], cwd=self.folder, stdout=subprocess.PIPE) as server:
            try:
                self.check("a server listens", server.stdout.readline() == b"listening\n")
                yield address
                server.wait(LIMIT)
            finally:
                server.kill()
