#!/usr/bin/env python3
"""Prints the processor time that a run of `rt ci` or `./prove` spends on each crate, and the longest chain of crates in it.

usage: tools/costs.py COMMAND..   such as tools/costs.py rt ci
       tools/costs.py NUMBER      the number of a process that runs already

Looks at the processes below the command twice a second until it ends. The words of a process and the folder that it
works in say its crate, and what it does for it:

proof   the check of the crate
tests   the check of its tests
edits   the tries of its edits, and the second proof that they begin with
builds  compiling, linking and running what was proved

Other processes are on the line of `rt` itself. What ended between two looks is on a line of its own. The times are also
written to out/costs.json, for tools/chain.py. Ends with the status of the command. Linux only: the times come from /proc.
"""

import json
import os
import pathlib
import re
import resource
import subprocess
import sys
import time
from typing import Callable, Optional

import chain

TICKS = os.sysconf("SC_CLK_TCK")
PAUSE = 0.5  # seconds between two looks
KINDS = ("proof", "tests", "edits", "builds")
ITSELF = ("rt", "")
Job = tuple[str, str]  # a crate, and a kind of work
Times = dict[str, dict[str, list[float]]]  # for both: first and last seen, and the processor seconds


class Process:
    """What was seen last of a process."""

    def __init__(self, number: int, fields: list[str]) -> None:
        self.number, self.parent, self.started = number, int(fields[1]), fields[19]
        self.seconds = (int(fields[11]) + int(fields[12])) / TICKS

    def job(self) -> Optional[Job]:
        """The crate and the kind of work, or none."""
        folder = pathlib.Path(f"/proc/{self.number}")
        try:
            words = (folder / "cmdline").read_bytes().decode(errors="replace").split("\0")[:-1]
            place = os.readlink(folder / "cwd")
        except OSError:  # it has ended
            return None
        return job_of(words, place)


def job_of(words: list[str], place: str) -> Optional[Job]:
    """The crate and the kind of work of a process with these words, in this folder."""
    ran = next((re.search(r"/rt-run-[^/]+/bin/(\w+?)(?:_tests)?$", word) for word in words if "/rt-run-" in word), None)
    if ran:
        return ran[1], "builds"
    if "--crate-name" not in words[:-1]:
        found = re.search(r"/crates/(\w+)$", place)
        return (found[1], "builds") if found and words and "/rt" not in " ".join(words[:2]) else None
    crate = words[words.index("--crate-name") + 1]
    if "/rt-edit-" in place:
        return crate, "edits"
    if "--crate-checked" in words:
        return crate, "builds"
    return crate, "tests" if "--test" in words else "proof"


def processes() -> dict[int, Process]:
    """All processes of the machine, by their numbers."""
    found = {}
    for folder in pathlib.Path("/proc").glob("[0-9]*"):
        try:
            fields = (folder / "stat").read_text().rsplit(")", 1)[1].split()
        except (OSError, IndexError):
            continue
        found[int(folder.name)] = Process(int(folder.name), fields)
    return found


class Run:
    """A command, and what its processes took so far."""

    def __init__(self, number: int) -> None:
        self.number, self.start = number, time.monotonic()
        self.jobs: dict[tuple[int, str], Job] = {}  # by the number and the start of a process
        self.seconds: dict[tuple[int, str], float] = {}  # the same
        self.spans: dict[Job, tuple[float, float]] = {}  # when a job was seen first and last

    def is_below(self, process: Optional[Process], every: dict[int, Process]) -> bool:
        """Whether the command started it, or something that the command started."""
        while process and process.number != self.number and (process.number, process.started) not in self.jobs:
            process = every.get(process.parent)
        return process is not None

    def look(self) -> None:
        """Notes what each process of the command has taken."""
        every, now = processes(), time.monotonic() - self.start
        for process in every.values():
            key = process.number, process.started
            if not self.is_below(process, every):
                continue
            if self.jobs.get(key, ITSELF) == ITSELF:
                self.jobs[key] = process.job() or ITSELF
            self.seconds[key] = process.seconds
            begin, _ = self.spans.get(self.jobs[key], (now, now))
            self.spans[self.jobs[key]] = begin, now

    def times(self) -> Times:
        """For each crate and kind of work: when it was seen first and last, and the processor seconds."""
        sums: dict[Job, float] = {}
        for key, job in self.jobs.items():
            sums[job] = sums.get(job, 0) + self.seconds[key]
        found: Times = {}
        for (crate, kind), seconds in sums.items():
            found.setdefault(crate, {})[kind] = [*(round(at, 2) for at in self.spans[crate, kind]), round(seconds, 2)]
        return found


def edits_of(crate: str) -> int:
    return len(list((chain.HOUSE / "crates" / crate / "must-fail").glob("*.edit")))


def row(name: str, sums: list[float], note: str = "") -> None:
    cells = "".join(f"{seconds:9.0f}" if seconds else f"{'':9}" for seconds in sums)
    print(f"{name:20}{cells}{sum(sums):9.0f}{note}".rstrip())


def show(times: Times, missed: float) -> None:
    """Prints the table: the dearest crate first."""
    print(f"{'processor seconds':20}{''.join(f'{kind:>9}' for kind in KINDS)}{'all':>9}")
    sums = {crate: [kinds.get(kind, [0, 0, 0])[2] for kind in KINDS] for crate, kinds in times.items() if crate != ITSELF[0]}
    for crate in sorted(sums, key=lambda crate: -sum(sums[crate])):
        row(crate, sums[crate], f"  {edits_of(crate)} edits" if edits_of(crate) else "")
    itself = times.get(ITSELF[0], {}).get(ITSELF[1], [0, 0, 0])[2]
    row("all crates", [sum(some) for some in zip(*sums.values())] or [0])
    print(f"rt itself {itself:.0f}, ended between two looks {missed:.0f}")
    whole = sum(map(sum, sums.values())) + itself + missed
    print(f"in all {whole:.0f} seconds, {whole / 60:.0f} minutes\n")


def followed(run: Run, is_running: Callable[[], bool]) -> float:
    """Looks until the command has ended, and returns the seconds by the clock."""
    while is_running():
        run.look()
        time.sleep(PAUSE)
    return time.monotonic() - run.start


def run_command(words: list[str]) -> tuple[Run, float, float, int]:
    """Runs the command. Returns what it took, its seconds by the clock, what was missed, and its status."""
    command = subprocess.Popen(words)
    run = Run(command.pid)
    clock = followed(run, lambda: command.poll() is None)
    used = resource.getrusage(resource.RUSAGE_CHILDREN)
    return run, clock, max(used.ru_utime + used.ru_stime - sum(run.seconds.values()), 0), command.returncode


def main() -> int:
    words = sys.argv[1:]
    if not words or words[0].startswith("-"):
        print(__doc__.split("\n\n")[1], file=sys.stderr)
        return 2
    if words[0].isdigit():
        run = Run(int(words[0]))
        clock, missed, status = followed(run, pathlib.Path(f"/proc/{words[0]}").exists), 0, 0
    else:
        run, clock, missed, status = run_command(words)
    times = run.times()
    chain.TIMES.parent.mkdir(exist_ok=True)
    chain.TIMES.write_text(json.dumps(times), encoding="utf-8")
    print(f"\n{clock:.0f} seconds by the clock, {clock / 60:.1f} minutes, on {len(os.sched_getaffinity(0))} processors")
    show(times, missed)
    chain.show({crate: kinds["proof"][:2] for crate, kinds in times.items() if "proof" in kinds})
    return status


if __name__ == "__main__":
    sys.exit(main())
