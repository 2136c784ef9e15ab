#!/usr/bin/env python3
"""Prints which functions of a crate the check spends the most processor time on.

usage: tools/slowest.py [--test] CRATE [CRATE ..]

Each crate is checked alone, by one process, from nothing: the command of `rt check` is run again without the work that
earlier checks kept. The libraries below it must be built, which `rt check` in its folder does. As each function is
reported, the processor time of the check so far is read, so other work on the machine matters little. The first
function's time includes reading the libraries, so it is on the crate's line and not in the list. A function's time
includes the lemma files that are checked for it. With --test the tests are checked too, which are all that some crates
have. Linux only: the times come from /proc, of the check and of the processes that it starts.
"""

import os
import pathlib
import re
import subprocess
import sys
import time
from typing import Iterator, Union

HOUSE = pathlib.Path(__file__).resolve().parent.parent
TICKS = os.sysconf("SC_CLK_TCK")
MOST = 20


def fields_of(process: Union[int, str]) -> list[str]:
    """The fields of the process's status from its state on."""
    return pathlib.Path(f"/proc/{process}/stat").read_text().rsplit(")", 1)[1].split()


def below(process: int) -> list[int]:
    """The processes that this one or one below it started, and that run."""
    parents: dict[int, list[int]] = {}
    for folder in pathlib.Path("/proc").glob("[0-9]*"):
        try:
            parents.setdefault(int(fields_of(folder.name)[1]), []).append(int(folder.name))
        except OSError:
            continue
    found = [process]
    for one in found:
        found += parents.get(one, [])
    return found[1:]


def spent(process: int) -> float:
    """The seconds of processor time that the process and those below it have used, with those that ended."""
    ticks = 0
    for one in [process] + below(process):
        try:
            ticks += sum(int(field) for field in fields_of(one)[11:15])
        except OSError:
            continue
    return ticks / TICKS


def checks_below(process: int) -> Iterator[list[str]]:
    """The commands of the checks that this process or one below it runs."""
    for one in below(process):
        try:
            words = pathlib.Path(f"/proc/{one}/cmdline").read_bytes().decode().split("\0")[:-1]
        except (OSError, ValueError):
            continue
        if words[1:2] == ["check"] and "--crate-name" in words:
            yield words


def command_of(crate: str, flags: list[str]) -> list[str]:
    """The command by which rt checks the crate with these flags."""
    started = subprocess.Popen(
        ["rt", "check", "--jobs", "1"] + flags,
        cwd=HOUSE / "crates" / crate,
        stdout=subprocess.DEVNULL,
        stderr=subprocess.DEVNULL,
        start_new_session=True,
    )
    try:
        while started.poll() is None:
            for words in checks_below(started.pid):
                if words[words.index("--crate-name") + 1] == crate:
                    return words
            time.sleep(0.02)
    finally:
        if started.poll() is None:
            os.killpg(started.pid, 15)
        started.wait()
    sys.exit(f"{crate}: rt check ended before its command was seen")


def from_nothing(words: list[str]) -> list[str]:
    """The command without the kept work, and with a line for each function."""
    made = []
    skip = False
    for word in words:
        if skip:
            skip = False
        elif word == "--incremental":
            skip = True
        else:
            made.append(word)
    return made if "--progress" in made else made + ["--progress"]


def times_of(crate: str, flags: list[str]) -> tuple[list[tuple[float, str]], float]:
    """Each function of the crate with the processor time of its check, and the time of the whole."""
    check = subprocess.Popen(
        from_nothing(command_of(crate, flags)),
        cwd=HOUSE / "crates" / crate,
        stdout=subprocess.PIPE,
        stderr=subprocess.STDOUT,
        text=True,
        bufsize=1,
    )
    before = 0.0
    times = []
    for line in check.stdout:
        found = re.match(r"(?:so far: )?checked (\S+), \d+ of \d+", line)
        if found:
            now = spent(check.pid)
            times.append((now - before, found[1]))
            before = now
    _, _, used = os.wait4(check.pid, 0)
    return times, used.ru_utime + used.ru_stime


def main() -> int:
    flags = sys.argv[1:2] if sys.argv[1:2] == ["--test"] else []
    crates = sys.argv[1 + len(flags) :]
    if not crates or crates[0].startswith("-"):
        print(__doc__.split("\n\n")[1], file=sys.stderr)
        return 2
    every = []
    for crate in crates:
        times, whole = times_of(crate, flags)
        every += times[1:]
        first = times[0][0] if times else 0
        rest = whole - sum(seconds for seconds, _ in times)
        print(f"{crate}: {whole:.0f} s, {len(times)} functions, {first:.0f} s to the first, {rest:.0f} s after the last")
    for seconds, name in sorted(every, reverse=True)[:MOST]:
        print(f"{seconds:7.1f} s  {name}")
    return 0


if __name__ == "__main__":
    sys.exit(main())
