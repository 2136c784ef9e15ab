"""Runs one command as a child of a small process, and reports what it took.

usage: python3 bench/one_run.py SECONDS BYTES PROCESSORS COMMAND..

To a command the system counts at least the memory that its parent held when it was started, so what is measured is started by
this. The command is ended after SECONDS, and has at most BYTES of address space. It runs on the first PROCESSORS
processors, or on all if that is 0. It keeps standard output. The last line on standard error has its status (below 0: the
signal that ended it), its seconds by the clock, the seconds of all its processors, and the most bytes of memory that it held.
"""

import os
import resource
import signal
import sys
import time


def begin(command: list[str], memory: int, processors: int) -> None:
    """Becomes the command."""
    resource.setrlimit(resource.RLIMIT_AS, (memory, memory))
    if processors:
        os.sched_setaffinity(0, sorted(os.sched_getaffinity(0))[:processors])
    os.execv(command[0], command)


def main() -> None:
    seconds, memory, processors = map(int, sys.argv[1:4])
    start = time.monotonic()
    child = os.fork()
    if child == 0:
        begin(sys.argv[4:], memory, processors)
    for number in (signal.SIGALRM, signal.SIGTERM):
        signal.signal(number, lambda *_: os.kill(child, signal.SIGKILL))
    signal.alarm(seconds)
    _, status, used = os.wait4(child, 0)
    took = time.monotonic() - start
    print(os.waitstatus_to_exitcode(status), took, used.ru_utime + used.ru_stime, used.ru_maxrss * 1024, file=sys.stderr)


if __name__ == "__main__":
    main()
