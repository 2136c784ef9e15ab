"""Runs a program and lets one of its growths or of its calls to the system fail, from outside of it.

It traces the program by ptrace, so it needs Linux on x86-64, and a program that kept its symbols, as `rt run` leaves it.
A growth is a call of the program's allocator; a refused one returns that there is no memory. A call that fails returns an
error and does nothing. Counting begins when the program does, after the work of the system's loader. Threads are followed,
too: their growths and calls are counted in the order in which they occur, which may differ from run to run.
"""

import contextlib
import ctypes
import functools
import os
import signal
import struct
import subprocess
import tempfile
import threading
from pathlib import Path
from typing import Callable, NamedTuple, Optional

LIMIT = 120  # seconds of one run

# The functions by which a program of the kit allocates from the system's library.
ALLOCATORS = ("rattle_alloc", "rattle_realloc")

# System calls by their numbers on x86-64.
READS = {0: "read", 17: "pread64", 45: "recvfrom"}
WRITES = {1: "write", 18: "pwrite64", 44: "sendto"}
SENDMSG = 46
OTHERS = {2: "open", 8: "lseek", 41: "socket", 42: "connect", 43: "accept", 49: "bind", 50: "listen", 54: "setsockopt"}
OTHERS.update({20: "writev", 257: "openat", 288: "accept4", SENDMSG: "sendmsg"})
CALLS = {**READS, **WRITES, **OTHERS}

EIO = 5

TRACEME, PEEK, POKE, CONT, GETREGS, SETREGS, SYSCALL, SETOPTIONS = 0, 1, 4, 7, 12, 13, 24, 0x4200
# System calls are distinguished from other stops; new threads are traced; the program ends when the tracer does.
OPTIONS = 1 | 8 | 0x100000
SYSTEM_STOP = signal.SIGTRAP | 0x80
ANY_OF_MINE = 0x40000000 | 0x20000000  # to wait for: all threads that this thread traces
BREAKPOINT = 0xCC
NOTHING = bytes.fromhex("f30f1efa")  # endbr64, with which the allocators begin, and which does nothing

FIELDS = "r15 r14 r13 r12 rbp rbx r11 r10 r9 r8 rax rcx rdx rsi rdi orig_rax rip cs eflags rsp ss fs_base gs_base ds es fs gs"


class Registers(ctypes.Structure):
    """The registers in the order of the system's `user_regs_struct`."""

    _fields_ = [(name, ctypes.c_ulonglong) for name in FIELDS.split()]


class Plan(NamedTuple):
    """What should fail. Numbers count from 1, and 0 lets nothing fail."""

    growth: int = 0
    onward: bool = False  # so do all growths after that one
    call: int = 0
    pieces: bool = False  # each read and write moves one byte at most
    kill: bool = False  # the program is killed before that call, which does not fail
    act: Optional[Callable[[], object]] = None  # is done before that call, which does not fail


class Ended(NamedTuple):
    """How a run ended: its status, or the number of a signal below 0; None if it was ended at the limit."""

    status: Optional[int]
    printed: bytes
    complained: bytes  # on standard error
    growths: int
    calls: int
    failed: str  # the name of what was made to fail, or empty


class Untraceable(Exception):
    """The program or the system does not allow it."""


library = ctypes.CDLL(None, use_errno=True)
library.ptrace.restype = ctypes.c_long
library.ptrace.argtypes = [ctypes.c_long, ctypes.c_long, ctypes.c_void_p, ctypes.c_void_p]


def trace(request: int, pid: int, address: int = 0, data: int = 0) -> int:
    ctypes.set_errno(0)
    answer = library.ptrace(request, pid, address, data)
    if answer == -1 and ctypes.get_errno():
        raise OSError(ctypes.get_errno(), os.strerror(ctypes.get_errno()))
    return answer


class Image(NamedTuple):
    """Where a program begins and where its allocators are, counted from the start of its file in memory."""

    entry: int
    allocators: dict[int, str]
    moves: bool  # it may be loaded at any address

    @staticmethod
    def of(program: str) -> "Image":
        file = Path(program).read_bytes()
        if file[:6] != b"\x7fELF\x02\x01":
            raise Untraceable(f"{program} is no program of this machine")
        entry, sections, size, count = (struct.unpack_from(form, file, at)[0] for form, at in (("<Q", 24), ("<Q", 40), ("<H", 58), ("<H", 60)))
        headers = [struct.unpack_from("<IIQQQQIIQQ", file, sections + size * at) for at in range(count)]
        found: dict[int, str] = {}
        for _, kind, _, _, start, length, link, _, _, _ in headers:
            if kind == 2:  # the table of symbols
                names = headers[link][4]
                for at in range(start, start + length, 24):
                    name, info, _, section, value, _ = struct.unpack_from("<IBBHQQ", file, at)
                    text = file[names + name : file.index(b"\0", names + name)].decode()
                    if text in ALLOCATORS and section:
                        found[value] = text
        if not found:
            raise Untraceable(f"{program} does not name its allocators")
        return Image(entry, found, struct.unpack_from("<H", file, 16)[0] == 3)


class Thread:
    """A thread of the program."""

    def __init__(self) -> None:
        self.is_inside = False  # of a system call
        self.answer: Optional[int] = None  # what that call should return
        self.length: Optional[int] = None  # the former content of the register of its third word


class Tracer:
    """One run. One thread starts and follows it, as the system requires."""

    def __init__(self, command: list[str], plan: Plan, folder: Optional[str], image: Image):
        self.plan, self.image = plan, image
        self.growths, self.calls, self.failed = 0, 0, ""
        self.allocators: set[int] = set()  # their addresses
        self.printed, self.complained = tempfile.TemporaryFile(), tempfile.TemporaryFile()
        self.process = subprocess.Popen(
            command,
            stdin=subprocess.DEVNULL,
            stdout=self.printed,
            stderr=self.complained,
            cwd=folder,
            preexec_fn=lambda: trace(TRACEME, 0),
        )
        self.pid = self.process.pid
        self.now = self.pid  # the thread that stopped last
        self.threads = {self.pid: Thread()}

    def follow(self) -> Ended:
        killer = threading.Timer(LIMIT, os.kill, [self.pid, signal.SIGKILL])
        killer.start()
        try:
            self.begin()
            status = self.run()
        finally:
            late = not killer.is_alive()
            killer.cancel()
        self.process.returncode = os.waitstatus_to_exitcode(status)
        ended = None if late else self.process.returncode
        with self.printed, self.complained:
            self.printed.seek(0)
            self.complained.seek(0)
            return Ended(ended, self.printed.read(), self.complained.read(), self.growths, self.calls, self.failed)

    def wait(self) -> int:
        self.now, status = os.waitpid(-1, ANY_OF_MINE)
        return status

    @property
    def thread(self) -> Thread:
        return self.threads[self.now]

    def registers(self) -> Registers:
        registers = Registers()
        trace(GETREGS, self.now, 0, ctypes.addressof(registers))
        return registers

    def put(self, registers: Registers) -> None:
        trace(SETREGS, self.now, 0, ctypes.addressof(registers))

    def peek(self, address: int) -> int:
        return trace(PEEK, self.now, address) & (1 << 64) - 1

    def poke(self, address: int, word: int) -> None:
        trace(POKE, self.now, address, word)

    def stop_at(self, address: int) -> int:
        """Makes the program stop there, and returns what was there."""
        word = self.peek(address)
        self.poke(address, word & ~0xFF | BREAKPOINT)
        return word

    def begin(self) -> None:
        """Runs the system's loader, up to the entry of the program."""
        self.wait()
        trace(SETOPTIONS, self.pid, 0, OPTIONS)
        program = os.readlink(f"/proc/{self.pid}/exe")
        lines = Path(f"/proc/{self.pid}/maps").read_text(encoding="utf-8").splitlines()
        start = min(int(line.split("-")[0], 16) for line in lines if line.endswith(program))
        base = start if self.image.moves else 0
        entry = base + self.image.entry
        word = self.stop_at(entry)
        trace(CONT, self.pid)
        self.wait()
        self.poke(entry, word)
        registers = self.registers()
        registers.rip = entry
        self.put(registers)
        self.allocators = {base + at for at in self.image.allocators}
        for address in self.allocators:
            if self.stop_at(address).to_bytes(8, "little")[:4] != NOTHING:
                raise Untraceable(f"{program} has allocators that begin otherwise")

    def run(self) -> int:
        """Follows the program to its end, and returns the status that the system gives."""
        looks = self.plan.growth == 0 or self.plan.pieces
        resumed = 0
        while True:
            with contextlib.suppress(ProcessLookupError):  # it was killed
                trace(SYSCALL if looks else CONT, self.now, 0, resumed)
            status = self.wait()
            while not os.WIFSTOPPED(status):
                if self.now == self.pid:
                    return status
                self.threads.pop(self.now, None)
                status = self.wait()
            resumed = self.stopped(status)

    def stopped(self, status: int) -> int:
        """Does what a stop requires, and returns the signal with which the thread goes on."""
        stop = os.WSTOPSIG(status)
        if self.now not in self.threads:  # it begins
            self.threads[self.now] = Thread()
        elif stop == SYSTEM_STOP:
            self.thread.is_inside = not self.thread.is_inside
            self.enter() if self.thread.is_inside else self.leave()
        elif stop == signal.SIGTRAP and status >> 16:  # it has begun a thread
            pass
        elif stop == signal.SIGTRAP and self.registers().rip - 1 in self.allocators:
            self.grow()
        else:
            return stop
        return 0

    def enter(self) -> None:
        registers = self.registers()
        number = registers.orig_rax
        if number not in CALLS:
            return
        self.calls += 1
        if self.calls == self.plan.call:
            self.failed = CALLS[number]
            if self.plan.kill:
                os.kill(self.pid, signal.SIGKILL)
                return
            if self.plan.act:
                self.plan.act()
            else:
                self.thread.answer = -EIO
                registers.orig_rax = (1 << 64) - 1
        if self.thread.answer is None and self.plan.pieces and (number in READS or number in WRITES) and registers.rdx > 1:
            self.thread.length, registers.rdx = registers.rdx, 1
        elif self.thread.answer is None:
            return
        self.put(registers)

    def leave(self) -> None:
        if self.thread.answer is None and self.thread.length is None:
            return
        registers = self.registers()
        if self.thread.answer is not None:
            registers.rax = self.thread.answer & (1 << 64) - 1
        if self.thread.length is not None:
            registers.rdx = self.thread.length
        self.thread.answer = self.thread.length = None
        self.put(registers)

    def grow(self) -> None:
        self.growths += 1
        registers = self.registers()
        registers.rip -= 1
        if self.growths == self.plan.growth or self.failed and self.plan.onward:
            self.failed = "growth"
            registers.rax, registers.rip = 0, self.peek(registers.rsp)
            registers.rsp += 8
            self.put(registers)
            return
        registers.rip += len(NOTHING)
        self.put(registers)


def run(command: list[str], plan: Plan = Plan(), folder: Optional[str] = None) -> Ended:
    """Runs the command, whose first word is the path of a program, in the folder, by the plan."""
    return Tracer(command, plan, folder, image(command[0])).follow()


@functools.lru_cache
def image(program: str) -> Image:
    return Image.of(program)
