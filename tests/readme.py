"""Types every command line of README.md, docs/questions.md and docs/owners.md, and compares what each prints with what
stands below it.

usage: python3 tests/readme.py PROGRAM

PROGRAM is the program, as ./ats. The lines of a page run in their order, in a folder with the examples beside them; those
of the questions follow README.md in one folder. FOLDER is a folder of three texts, and archive-2.index has one text more
than the archive. Lines over TCP run beside a server. A line passes if it prints what stands below it, and ends with status
1 if that is a refusal, else with 0. What needs the kit is left out, and named. Ends with status 0 if no line failed.
"""

import json
import os
import re
import shutil
import subprocess
import sys
import tempfile
import zipfile
from pathlib import Path
from typing import NamedTuple, Optional

HOME = Path(__file__).resolve().parent.parent
LIMIT = 60  # seconds of one line
TOOLS = ("minisign", "make", "parallel")  # lines that name these are left out where they are not installed
LEFT_OUT = ("rt ci", "python3 reader/play.py")
TEXTS = {"one.txt": "a blood count", "two.txt": "count the hens", "three.txt": "red fox"}


class Line(NamedTuple):
    typed: str
    printed: Optional[list[str]]  # none where the page does not say


def blocks(page: str) -> list[list[str]]:
    """The lines of each block of a page."""
    text = (HOME / page).read_text(encoding="utf-8")
    return [block.splitlines() for block in re.findall(r"^```\n(.*?)^```$", text, re.M | re.S)]


def lines_of(block: list[str]) -> list[Line]:
    """The commands of a block, each with its output. In a block without `$` each line is a command."""
    if not any(line.startswith("$ ") for line in block):
        return [Line(line, None) for line in block]
    lines: list[Line] = []
    for line in block:
        if line.startswith("$ "):
            lines.append(Line(line[2:], []))
        else:
            lines[-1].printed.append(line)
    return lines


def type_in(shell_lines: list[str], folder: Path) -> subprocess.CompletedProcess:
    """Runs the last line after the others, which set variables. The program is on the path, too."""
    there = {**os.environ, "PATH": f"{folder}:{os.environ['PATH']}"}
    return subprocess.run(["sh", "-c", "\n".join(shell_lines)], cwd=folder, env=there, capture_output=True, text=True, timeout=LIMIT, check=False)


def status_wanted(line: Line) -> int:
    return 1 if any(printed.startswith("refused: ") for printed in line.printed or []) else 0


class Session:
    """The lines that were typed so far, in a folder of their own."""

    def __init__(self, folder: Path):
        self.folder, self.failed = folder, 0
        self.variables: list[str] = []
        self.rows: Optional[list[str]] = None  # what the reader's line printed first
        self.served: Optional[Line] = None  # the line that serves readers

    def report(self, line: Line, passed: bool) -> None:
        print(f"{'passed' if passed else 'FAILED'}: {line.typed}", flush=True)
        self.failed += not passed

    def run(self, typed: str) -> subprocess.CompletedProcess:
        return type_in([*self.variables, typed.replace("FOLDER", "folder")], self.folder)

    def try_line(self, line: Line) -> None:
        if line.typed in LEFT_OUT or any(tool in line.typed and shutil.which(tool) is None for tool in TOOLS):
            print(f"left out: {line.typed}")
            return
        ended = self.run(line.typed)
        printed, said = ended.stdout.splitlines(), ended.stderr.splitlines()
        self.report(line, ended.returncode == status_wanted(line) and line.printed in (None, printed, said + printed))
        if re.match(r"[A-Z]+=", line.typed):
            self.variables.append(line.typed)
        if " verify " in line.typed and ended.returncode == 0 and self.rows is None:
            self.rows = printed

    def try_over_tcp(self, serve: Line, ask: Line) -> None:
        """The reader's line prints what `verify` printed, and the server ends well."""
        with subprocess.Popen(["sh", "-c", "exec " + serve.typed], cwd=self.folder, stdout=subprocess.PIPE, text=True) as server:
            listening = server.stdout.readline()
            asked = self.run(ask.typed)
            server.wait(LIMIT)
        self.report(serve, listening == "listening\n" and server.returncode == 0)
        self.report(ask, asked.returncode == 0 and asked.stdout.splitlines() == self.rows)

    def try_listening(self, serve: Line) -> None:
        """The server listens. It would serve for long, so it is ended."""
        with subprocess.Popen(["sh", "-c", "exec " + serve.typed], cwd=self.folder, stdout=subprocess.PIPE, text=True) as server:
            listening = server.stdout.readline()
            server.terminate()
        self.report(serve, listening == "listening\n")

    def try_block(self, block: list[Line]) -> None:
        if any(" ask " in line.typed for line in block):
            self.served = next((line for line in block if " serve " in line.typed), self.served)
            self.try_over_tcp(self.served, block[-1])
            return
        for line in block:
            (self.try_listening if " serve " in line.typed else self.try_line)(line)

    def try_page(self, page: str) -> None:
        for block in blocks(page):
            self.try_block(lines_of(block))

    def prepare_questions(self) -> None:
        """Makes what the questions name: the archive's collection here, an index with one text more, a proof that a page saved."""
        texts = json.loads((HOME / "examples" / "archive.json").read_text(encoding="utf-8"))
        (self.folder / "archive.json").write_text(json.dumps(texts), encoding="utf-8")
        (self.folder / "archive-2.json").write_text(json.dumps([*texts, "A new note."]), encoding="utf-8")
        self.variables.append("ROOT2=" + self.run("./ats build archive-2.json archive-2.index").stdout.strip())
        with zipfile.ZipFile(self.folder / "blood-count.zip", "w") as saved:
            saved.write(self.folder / "answer.proof", "answer.proof")


def prepare(folder: Path, program: Path) -> None:
    (folder / "ats").symlink_to(program)
    for name in ("examples", "owner", "reader", "web"):  # copied, so that the scripts find the program beside them
        shutil.copytree(HOME / name, folder / name)
    (folder / "folder").mkdir()
    for name, text in TEXTS.items():
        (folder / "folder" / name).write_text(text, encoding="utf-8")


def main() -> int:
    if len(sys.argv) != 2:
        print(__doc__.split("\n\n")[1], file=sys.stderr)
        return 2
    program = Path(sys.argv[1]).resolve()
    with tempfile.TemporaryDirectory() as reader, tempfile.TemporaryDirectory() as owner:
        sessions = [Session(Path(reader)), Session(Path(owner))]
        for session in sessions:
            prepare(session.folder, program)
        sessions[0].try_page("README.md")
        sessions[0].prepare_questions()
        sessions[0].try_page("docs/questions.md")
        sessions[1].try_page("docs/owners.md")
        return 1 if any(session.failed for session in sessions) else 0


if __name__ == "__main__":
    sys.exit(main())
