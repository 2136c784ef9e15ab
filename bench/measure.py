"""The program, and runs of it with what they took."""

import os
import shutil
import subprocess
import sys
from pathlib import Path
from typing import NamedTuple, NoReturn

HOME = Path(__file__).resolve().parent.parent
ONE_RUN = str(HOME / "bench" / "one_run.py")
LIMIT = 300  # seconds of one run
MEMORY = 8 << 30  # bytes of address space of one run


# What a call of gcc or of rt raises.
NOT_MADE = (OSError, subprocess.CalledProcessError)


class Run(NamedTuple):
    """How a run ended (below 0: by that signal), what it printed, and what it took."""

    status: int
    printed: str
    seconds: float  # by the clock
    processor: float  # the same of all its processors together
    peak: int  # the most bytes of memory that it held


def stop(why: str) -> NoReturn:
    """Ends the script with status 2: nothing was measured or tried."""
    print(why, file=sys.stderr)
    sys.exit(2)


def program() -> str:
    """The program, which ./prove proves and builds if needed, and keeps in out/."""
    if subprocess.run([HOME / "prove"], check=False).returncode:
        stop("there is no program to run: ./prove says above why it could not be built. Or name a program")
    return str(HOME / "out" / "ats")


def program_of(words: list[str]) -> str:
    """The program that the first word names, or else the one that is proved and built if needed."""
    if not words:
        return program()
    if not os.access(words[0], os.X_OK):
        stop(f"{words[0]} is no program: name one that is built, or none")
    return str(Path(words[0]).resolve())


def cases_program() -> str:
    """The program that plays the cases, proved and built if needed, and kept in out/ too."""
    room = HOME / "crates" / "ats_cases"
    built = subprocess.run(["rt", "run"], cwd=room, capture_output=True, text=True, check=False)
    if not (room / "out" / "ats_cases").exists():
        stop(f"there is no program of the cases, since rt run in crates/ats_cases says:\n{built.stdout}{built.stderr}")
    (HOME / "out").mkdir(exist_ok=True)
    return shutil.copy(room / "out" / "ats_cases", HOME / "out" / "ats_cases")


def started(command: list[str], folder: Path, limit: int = LIMIT, memory: int = MEMORY, processors: int = 0) -> "subprocess.Popen[str]":
    """A run in the folder, started by a small process of its own, on the first processors, or on all (0)."""
    by = [sys.executable, "-IS", ONE_RUN, str(limit), str(memory), str(processors)]
    return subprocess.Popen([*by, *command], stdout=subprocess.PIPE, stderr=subprocess.PIPE, cwd=folder, text=True)


def ended(process: "subprocess.Popen[str]") -> Run:
    """Waits for the end of a run."""
    printed, told = process.communicate()
    status, seconds, processor, peak = told.split()[-4:]
    return Run(int(status), printed, float(seconds), float(processor), int(peak))


def run(command: list[str], wanted: int = 0, memory: int = MEMORY, processors: int = 0) -> Run:
    """One run, which must end with the wanted status."""
    one = ended(started(command, Path(os.curdir), memory=memory, processors=processors))
    if one.status != wanted:
        late = f" after the {LIMIT} seconds that it may take" if one.seconds >= LIMIT else ""
        stop(f"{command[:2]} ended with status {one.status}{late}, and not with {wanted}: {one.printed.strip()[-500:]}")
    return one


def least(*runs: Run) -> Run:
    """The least of each that some runs of one command took."""
    return Run(runs[0].status, runs[0].printed, *map(min, zip(*(one[2:] for one in runs))))


def in_turns(times: int, *commands: list[str]) -> list[Run]:
    """The least that each command took. They take turns, since the speed of a machine may change from one minute to the next."""
    turns = [[run(command) for command in commands] for _ in range(times)]
    return [least(*runs) for runs in zip(*turns)]
