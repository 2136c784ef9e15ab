"""Tries service/: the unit, the balancer and the web server's configuration, with what Debian has of them.

usage: python3 tests/service.py [--program PROGRAM] [--measure]

It runs processes of `serve` on loopback, starts each again by the unit's own rules, puts HAProxy before them with the
configuration of service/, and sends readers and peers that misbehave. Prints each try and whether it passed, what was
skipped, and at the end 'N passed, M failed'. Ends with status 0 if none failed. With --measure it prints instead what a
process holds, and how many readers four processes serve, by size of the archive.
"""

import argparse
import contextlib
import itertools
import re
import resource
import shutil
import signal
import socket
import socketserver
import struct
import subprocess
import sys
import tempfile
import threading
import time
import urllib.error
import urllib.request
from concurrent.futures import ThreadPoolExecutor
from pathlib import Path
from typing import Callable, Iterator, NamedTuple, Optional

from trying import Differs, Skipped, Tally, corpora, expect, free_port

HOME = Path(__file__).resolve().parent.parent
SERVICE = HOME / "service"
sys.path.append(str(HOME / "web" / "try"))
from nginx import Nginx  # noqa: E402

READERS = 200
TRICKLING = 20
QUERY = "blood count"
ROWS = 3
LIMIT = 60  # the longest wait in seconds
EXPOSED = 2.0  # the most that systemd-analyze may say


def need(*tools: str) -> None:
    for tool in tools:
        if shutil.which(tool) is None:
            raise Skipped(f"{tool} is not installed")


def run(*words: object, **more: object) -> "subprocess.CompletedProcess[str]":
    return subprocess.run([str(word) for word in words], capture_output=True, text=True, timeout=LIMIT, check=False, **more)


# What an archive is here


class Archive(NamedTuple):
    """An index with its root, and the rows of QUERY."""

    index: Path
    root: str
    rows: str


def archive(program: str, folder: Path, name: str, texts: Path) -> Archive:
    index = folder / f"{name}.index"
    root = run(program, "build", texts, index).stdout.strip()
    proof = folder / f"{name}.proof"
    run(program, "prove", index, "tnra", ROWS, QUERY, proof)
    return Archive(index, root, run(program, "verify", root, ROWS, QUERY, proof).stdout)


# The unit


def unit() -> dict[str, str]:
    """The last value of each setting."""
    lines = (SERVICE / "ats@.service").read_text(encoding="utf-8").splitlines()
    return dict(line.split("=", 1) for line in lines if "=" in line and not line.startswith("#"))


UNITS = {"ats@7071.service": "/usr/lib/ats/out/ats", "ats-relay@7069.service": "/usr/lib/ats/relay.py"}


def units_are_valid(folder: Path) -> None:
    need("systemd-analyze")
    for name, program in UNITS.items():
        text = (SERVICE / re.sub("@[0-9]+", "@", name)).read_text(encoding="utf-8")
        (folder / name).write_text(text.replace(program, "/bin/true"), encoding="utf-8")
        said = run("systemd-analyze", "verify", "--man=no", folder / name)
        expect(f"systemd-analyze verify {name}", (said.returncode, said.stdout + said.stderr), (0, ""))


def units_are_closed(_: Path) -> None:
    need("systemd-analyze")
    for name in UNITS:
        said = run("systemd-analyze", "security", "--offline=true", SERVICE / re.sub("@[0-9]+", "@", name)).stdout
        found = re.search(r"exposure level for \S+ ([0-9.]+)", said)
        if found is None:
            raise Skipped("this systemd-analyze does not rate a file")
        print(f"    exposure {found[1]} of {name}")
        if float(found[1]) >= EXPOSED:
            raise Differs(f"exposure {found[1]} of {name}, wanted below {EXPOSED}")


def calls_of(filters: str) -> set[str]:
    """The system calls in a list of names and groups, as systemd has them."""
    found: set[str] = set()
    for name in filters.split():
        if name.startswith("@"):
            lines = run("systemd-analyze", "syscall-filter", name).stdout.splitlines()
            found |= calls_of(" ".join(line.strip() for line in lines[1:] if not line.strip().startswith("#")))
        else:
            found.add(name)
    return found


def unit_allows_its_calls(program: str, one: Archive) -> None:
    """The calls that a process makes from its start to its end are those that the unit allows."""
    need("systemd-analyze", "strace")
    text = (SERVICE / "ats@.service").read_text(encoding="utf-8")
    allowed: set[str] = set()
    for filters in re.findall("^SystemCallFilter=(.*)$", text, re.M):
        allowed = allowed - calls_of(filters[1:]) if filters.startswith("~") else allowed | calls_of(filters)
    port = free_port()
    log = one.index.with_suffix(".strace")
    process = subprocess.Popen(["strace", "-f", "-qq", "-o", log, program, "serve", one.index, "1", f"127.0.0.1:{port}"],
                               stdout=subprocess.PIPE, text=True)
    assert process.stdout is not None
    process.stdout.readline()
    expect("the reply's rows", ask(program, one, f"127.0.0.1:{port}").stdout, one.rows)
    process.wait(LIMIT)
    made = set(re.findall(r"^\d+ +(\w+)\(", log.read_text(encoding="utf-8"), re.M))
    expect("calls that the unit forbids", sorted(made - allowed - {"execve"}), [])


# Processes, as the unit starts and restarts them


class Process:
    """`serve` at a port, started again by the rules of the unit."""

    def __init__(self, program: str, index: Path, port: int, memory: Optional[int] = None):
        self.words = [program, "serve", str(index), "65535", f"127.0.0.1:{port}"]
        self.memory, self.ending, self.statuses = memory, False, []
        self.never = {int(word) for word in unit()["RestartPreventExitStatus"].split()}
        self.pause = float(unit()["RestartSec"])
        self.listening = threading.Event()
        self.process: Optional["subprocess.Popen[str]"] = None
        self.keeper = threading.Thread(target=self.keep, daemon=True)
        self.keeper.start()

    def limit(self) -> None:
        if self.memory is not None:
            resource.setrlimit(resource.RLIMIT_AS, (self.memory, self.memory))

    def keep(self) -> None:
        while not self.ending:
            with subprocess.Popen(self.words, stdout=subprocess.PIPE, text=True, preexec_fn=self.limit) as self.process:
                assert self.process.stdout is not None
                for line in self.process.stdout:
                    if line == "listening\n":
                        self.listening.set()
            self.statuses.append(self.process.returncode)
            if self.process.returncode in self.never:
                return
            time.sleep(self.pause)

    def kill(self) -> None:
        assert self.process is not None
        self.process.send_signal(signal.SIGKILL)

    def end(self) -> None:
        self.ending = True
        if self.process is not None:
            self.process.kill()
        self.keeper.join(LIMIT)


@contextlib.contextmanager
def processes(program: str, index: Path, ports: list[int]) -> Iterator[list[Process]]:
    """One process at each port, once they listen."""
    made = [Process(program, index, port) for port in ports]
    try:
        for one in made:
            if not one.listening.wait(LIMIT):
                raise Differs(f"no process listens: {one.statuses}")
        yield made
    finally:
        for one in made:
            one.end()


# The relay, and HAProxy with the configuration of service/


class Relay(NamedTuple):
    """A process of the relay, and the port where it listens."""

    process: "subprocess.Popen[bytes]"
    port: int

    def most_memory(self) -> int:
        """The most bytes that it has held."""
        said = Path(f"/proc/{self.process.pid}/status").read_text(encoding="ascii")
        return int(re.search(r"VmHWM:\s*([0-9]+) kB", said)[1]) * 1024  # type: ignore[index]


@contextlib.contextmanager
def relay(ports: list[int], **limits: int) -> Iterator[Relay]:
    """The relay before processes at these ports, with some of its limits changed."""
    port = free_port()
    start = "import sys; sys.path.insert(0, sys.argv.pop(1)); import relay; " + "".join(
        f"relay.{name} = {value}; " for name, value in limits.items())
    start += "relay.asyncio.run(relay.run(relay.process_of(sys.argv[1]), [relay.process_of(word) for word in sys.argv[2:]]))"
    words = [sys.executable, "-B", "-c", start, SERVICE, f"127.0.0.1:{port}", *(f"127.0.0.1:{one}" for one in ports)]
    with subprocess.Popen(words, stdout=subprocess.DEVNULL) as process:
        try:
            wait_for(port)
            yield Relay(process, port)
        finally:
            process.terminate()


class Balancer:
    """HAProxy before the relay at a port. Readers call `port`."""

    def __init__(self, folder: Path, behind: int):
        need("haproxy")
        self.port, self.folder, self.settings = free_port(), folder, folder / "haproxy.cfg"
        self.write(behind)

    def write(self, behind: int) -> None:
        text = (SERVICE / "haproxy.cfg").read_text(encoding="utf-8")
        for there, here in (("bind :7070", f"bind 127.0.0.1:{self.port}"), ("127.0.0.1:7069", f"127.0.0.1:{behind}")):
            if there not in text:
                raise Differs(f"{there} is not in haproxy.cfg")
            text = text.replace(there, here)
        self.settings.write_text(text, encoding="utf-8")
        said = run("haproxy", "-c", "-f", self.settings)
        expect("haproxy -c", (said.returncode, said.stderr), (0, ""))

    def __enter__(self) -> "Balancer":
        self.log = open(self.folder / "haproxy.log", "w", encoding="utf-8")
        self.process = subprocess.Popen(["haproxy", "-W", "-f", self.settings], stdout=self.log, stderr=self.log)
        wait_for(self.port)
        return self

    def __exit__(self, *_: object) -> None:
        self.process.terminate()
        self.process.wait(LIMIT)
        self.log.close()

    def reload(self, behind: int) -> None:
        """As `systemctl reload haproxy` does: connections that are there end as they began."""
        self.write(behind)
        self.process.send_signal(signal.SIGUSR2)
        time.sleep(2)


@contextlib.contextmanager
def service(house: "House", ports: list[int]) -> Iterator[int]:
    """The relay and HAProxy before processes at these ports. Gives the port that readers call."""
    with relay(ports) as behind, Balancer(house.folder, behind.port) as balancer:
        yield balancer.port


def wait_for(port: int) -> None:
    for _ in range(100):
        with contextlib.suppress(OSError), socket.create_connection(("127.0.0.1", port), timeout=1):
            return
        time.sleep(0.1)
    raise Differs(f"nobody listens at port {port}")


# Readers


def ask(program: str, one: Archive, address: str) -> "subprocess.CompletedProcess[str]":
    return run(program, "ask", one.root, "tnra", ROWS, QUERY, address)


def request(rows: int, query: str) -> bytes:
    words = query.encode()
    return struct.pack(">IBBHH", len(words) + 6, 1, 2, rows, len(words)) + words


def connected(port: int, number: int) -> socket.socket:
    """A connection from an address of this machine that eight readers share."""
    link = socket.socket()
    link.settimeout(LIMIT)
    link.bind((f"127.1.{number // 8 // 250}.{number // 8 % 250 + 1}", 0))
    link.connect(("127.0.0.1", port))
    return link


def read_all(link: socket.socket) -> bytes:
    pieces = []
    while piece := link.recv(1 << 16):
        pieces.append(piece)
    return b"".join(pieces)


def read_proof(port: int, number: int, folder: Path) -> Path:
    """The proof in a reply to QUERY."""
    with connected(port, number) as link:
        link.sendall(request(ROWS, QUERY))
        came = read_all(link)
    proof = folder / f"reader-{number}.proof"
    if came[4:5] != b"\0" or len(came) != 4 + int.from_bytes(came[:4], "big"):
        raise Differs(f"reader {number} got {came[:8]!r}, {len(came)} bytes")
    proof.write_bytes(came[5:])
    return proof


def readers(program: str, port: int, archives: list[Archive], folder: Path, numbers: range) -> float:
    """Each number's reader gets a proof, all at once; each is accepted under one of the roots. Returns the seconds."""
    start = time.monotonic()
    with ThreadPoolExecutor(len(numbers)) as pool:
        proofs = list(pool.map(lambda number: read_proof(port, number, folder), numbers))
    seconds = time.monotonic() - start
    rows = {one.rows for one in archives}
    for proof in proofs:
        printed = [run(program, "verify", one.root, ROWS, QUERY, proof).stdout for one in archives]
        if not rows.intersection(printed):
            raise Differs(f"{proof.name}: {printed}")
    return seconds


class House(NamedTuple):
    """The program, two archives, and a folder to write to."""

    program: str
    old: Archive
    new: Archive
    folder: Path


def many_readers(house: House) -> None:
    ports = [free_port() for _ in range(4)]
    with processes(house.program, house.old.index, ports), service(house, ports) as port:
        seconds = readers(house.program, port, [house.old], house.folder, range(READERS))
        print(f"    {READERS} readers at once in {seconds:.1f} s")
        expect("`ask` itself", ask(house.program, house.old, f"127.0.0.1:{port}").stdout, house.old.rows)


def trickle(port: int, number: int, end: threading.Event) -> None:
    """Half of the peers send a request byte by byte and never whole; half ask, and take a byte of the reply a second."""
    with contextlib.suppress(OSError), connected(port, 100_000 + 8 * number) as link:
        link.setsockopt(socket.SOL_SOCKET, socket.SO_RCVBUF, 2048)
        if number % 2:
            link.sendall(request(1000, QUERY))
        for byte in itertools.cycle(request(ROWS, QUERY)[:-1]):
            if number % 2:
                link.recv(1)
            else:
                link.sendall(bytes([byte]))
            if end.wait(1):
                return


@contextlib.contextmanager
def trickling(port: int) -> Iterator[None]:
    end = threading.Event()
    peers = [threading.Thread(target=trickle, args=(port, number, end)) for number in range(TRICKLING)]
    for peer in peers:
        peer.start()
    time.sleep(2)
    try:
        yield
    finally:
        end.set()
        for peer in peers:
            peer.join(LIMIT)


def peers_that_trickle(house: House) -> None:
    ports = [free_port() for _ in range(4)]
    with processes(house.program, house.old.index, ports), service(house, ports) as port, trickling(port):
        seconds = readers(house.program, port, [house.old], house.folder, range(READERS))
        print(f"    {READERS} readers beside {TRICKLING} peers that trickle in {seconds:.1f} s")


@contextlib.contextmanager
def long_replies() -> Iterator[int]:
    """The port of a stand-in for a process, whose reply is longer than what the system keeps for a connection."""
    with socket.create_server(("127.0.0.1", 0)) as door:
        def answer() -> None:
            link, _ = door.accept()
            with link, contextlib.suppress(OSError):
                link.recv(1 << 16)
                link.sendall(struct.pack(">I", 1 << 25) + bytes(1 << 25))

        threading.Thread(target=answer, daemon=True).start()
        yield door.getsockname()[1]


def whole_connections_end(_: House) -> None:
    """A reader that takes a byte now and then is ended, though it is never silent."""
    with long_replies() as process, relay([process], TAKING=3) as before, connected(before.port, 1) as link:
        link.sendall(request(ROWS, QUERY))
        end = time.monotonic() + 5
        while time.monotonic() < end:
            link.recv(1)
            time.sleep(0.1)
        try:
            came = len(read_all(link))
        except ConnectionError:
            came = 0
    if came >= 1 << 25:
        raise Differs("the reply came whole")


SHARED, SLOW_READERS = 1 << 28, 40  # bytes of replies that the relay may hold; readers who take nothing


@contextlib.contextmanager
def many_long_replies() -> Iterator[int]:
    """The port of a stand-in for a process that gives every connection a long reply."""
    class Door(socketserver.ThreadingTCPServer):
        daemon_threads, request_queue_size = True, SLOW_READERS

    class Answer(socketserver.BaseRequestHandler):
        def handle(self) -> None:
            with contextlib.suppress(OSError):
                self.request.recv(1 << 16)
                self.request.sendall(struct.pack(">I", 1 << 25) + bytes(1 << 25))

    with Door(("127.0.0.1", 0), Answer) as door:
        threading.Thread(target=door.serve_forever, daemon=True).start()
        yield door.server_address[1]
        door.shutdown()


def relay_keeps_its_memory(_: House) -> None:
    """Readers who take nothing hold no more than the replies for which there is room, in one copy each."""
    with many_long_replies() as process, relay(8 * [process], MEMORY=SHARED) as before, contextlib.ExitStack() as stack:
        for number in range(SLOW_READERS):
            stack.enter_context(connected(before.port, number)).sendall(request(ROWS, QUERY))
        time.sleep(8)
        most = before.most_memory()
    print(f"    {most / corpora.MIB:.0f} MiB of {SHARED / corpora.MIB:.0f} MiB for replies")
    if most > SHARED + 64 * corpora.MIB:
        raise Differs(f"the relay has held {most} bytes")


def is_refused(stack: contextlib.ExitStack, port: int) -> bool:
    """A connection from the one address is ended at once. If not, it stays open as long as the stack does."""
    try:
        link = stack.enter_context(connected(port, 0))
        link.settimeout(0.5)
        return link.recv(1) == b""
    except socket.timeout:
        return False
    except ConnectionError:
        return True


def one_address_is_bounded(house: House) -> None:
    ports = [free_port()]
    with processes(house.program, house.old.index, ports), service(house, ports) as port, contextlib.ExitStack() as stack:
        expect("connections that were refused", [is_refused(stack, port) for _ in range(10)], 8 * [False] + 2 * [True])


def killed_process(house: House) -> None:
    ports = [free_port() for _ in range(4)]
    with processes(house.program, house.old.index, ports) as made, service(house, ports) as port:
        killer = threading.Timer(0.1, made[0].kill)
        killer.start()
        readers(house.program, port, [house.old], house.folder, range(READERS))
        killer.join()
        time.sleep(2)
        expect("statuses of the killed process", made[0].statuses, [-signal.SIGKILL])
        readers(house.program, port, [house.old], house.folder, range(8))


def changed_index(house: House) -> None:
    """New processes and a relay are started beside the old ones, and HAProxy is pointed at them."""
    old, new = ([free_port() for _ in range(4)] for _ in range(2))
    with contextlib.ExitStack() as stack:
        stack.enter_context(processes(house.program, house.old.index, old))
        balancer = stack.enter_context(Balancer(house.folder, stack.enter_context(relay(old)).port))
        stack.enter_context(processes(house.program, house.new.index, new))
        behind = stack.enter_context(relay(new)).port
        with ThreadPoolExecutor(1) as pool:
            during = pool.submit(steadily, house, balancer.port, 6.0)
            time.sleep(2)
            balancer.reload(behind)
            print(f"    {during.result()} readers while the index was changed")
        readers(house.program, balancer.port, [house.new], house.folder, range(8))


def steadily(house: House, port: int, seconds: float) -> int:
    """Readers one group after another, who accept an answer under either root. Returns how many."""
    end, count = time.monotonic() + seconds, 0
    while time.monotonic() < end:
        readers(house.program, port, [house.old, house.new], house.folder, range(count, count + 8))
        count += 8
    return count


def least_memory(house: House) -> int:
    """Bytes of address space with which the program starts, and cannot load the index."""
    for kib in range(2048, 65536, 256):
        said = run("sh", "-c", f'ulimit -v {kib} && exec "$@"', "sh", house.program, "root", house.old.index)
        if said.stdout == "memory\n":
            return kib * 1024
    raise Skipped("no limit of address space was found at which the program starts and is out of memory")


def no_memory_to_load(house: House) -> None:
    """A process that cannot load its index ends with 6 and is started again; the others serve."""
    ports = [free_port() for _ in range(4)]
    small = Process(house.program, house.old.index, ports[3], memory=least_memory(house))
    try:
        with processes(house.program, house.old.index, ports[:3]), service(house, ports) as port:
            readers(house.program, port, [house.old], house.folder, range(READERS))
    finally:
        small.end()
    expect("statuses of the process without memory", set(small.statuses) - {-signal.SIGKILL}, {6})


def no_memory_to_answer(house: House) -> None:
    """A process that runs out of memory as it answers says so by a code, and another process is asked."""
    ports = [free_port() for _ in range(4)]
    with processes(house.program, house.old.index, ports) as made, service(house, ports) as port:
        assert made[0].process is not None
        resource.prlimit(made[0].process.pid, resource.RLIMIT_AS, (1 << 20, 1 << 20))
        readers(house.program, port, [house.old], house.folder, range(READERS))


# The web server


def web_server_is_valid(folder: Path) -> None:
    need("nginx", "openssl")
    text = (SERVICE / "nginx.conf").read_text(encoding="utf-8")
    run("openssl", "req", "-x509", "-newkey", "rsa:2048", "-nodes", "-days", "1", "-subj", "/CN=localhost",
        "-keyout", folder / "key.pem", "-out", folder / "cert.pem")
    text = re.sub("ssl_certificate_key .*;", f"ssl_certificate_key {folder}/key.pem;", text)
    text = re.sub("ssl_certificate .*;", f"ssl_certificate {folder}/cert.pem;", text)
    made = folder / "nginx.conf"
    made.write_text(f"pid {folder}/nginx.pid; error_log stderr; events {{}} http {{ access_log off; {text} }}", encoding="utf-8")
    said = run("nginx", "-t", "-q", "-c", made)
    expect("nginx -t", (said.returncode, said.stderr), (0, ""))


KEPT, ASKED_AGAIN = "public, max-age=31536000, immutable", "no-cache"


def caches_keep_what_never_changes(folder: Path) -> None:
    """A file in a folder ROOT-1 is kept for ever, and what lies beside it is asked for again. Other sites may read both."""
    need("nginx")
    shelf, kept = folder / "shelf", f"{'0123456789abcdef' * 4}-1"
    (shelf / kept).mkdir(parents=True)
    for name in (f"{kept}/head", "publication.txt", "growth-2-1"):
        (shelf / name).write_bytes(bytes(100))
    with Nginx(shelf, folder / "nginx") as host:
        for name, status, caches in ((f"{kept}/head", 206, KEPT), ("publication.txt", 206, ASKED_AGAIN),
                                     ("growth-2-1", 206, ASKED_AGAIN), (f"{kept}/none", 404, None), ("none", 404, None)):
            expect(f"status, caches and other sites of {name}", headers(f"{host.base}/{name}"), (status, caches, "*"))


PAGE = {"index.html": "text/html; charset=utf-8", "page.css": "text/css; charset=utf-8", "page.wasm": "application/wasm",
        "page.mjs": "application/javascript; charset=utf-8", "publication.txt": "application/octet-stream"}


def page_is_served_as_a_page(folder: Path) -> None:
    """The page lies beside the folder of an archive. Browsers start its scripts and its module only by their types."""
    need("nginx")
    shelf = folder / "page"
    shelf.mkdir()
    for name in PAGE:
        (shelf / name).write_bytes(bytes(2000))
    with Nginx(shelf, folder / "nginx-page") as host:
        for name, kind in {**PAGE, "": PAGE["index.html"]}.items():
            with urllib.request.urlopen(f"{host.base}/{name}", timeout=LIMIT) as reply:
                expect(f"type of {name or 'the folder'}", reply.headers["Content-Type"], kind)


def headers(address: str) -> "tuple[int, Optional[str], Optional[str]]":
    """The status of a request for ten bytes, how long it is kept, and which sites may read it."""
    try:
        reply = urllib.request.urlopen(urllib.request.Request(address, headers={"Range": "bytes=0-9"}), timeout=LIMIT)
    except urllib.error.HTTPError as refused:
        reply = refused
    with reply:
        return reply.status, reply.headers["Cache-Control"], reply.headers["Access-Control-Allow-Origin"]


# What it takes


NOTES = corpora.SHAPES["notes"]
LARGE_QUERY = corpora.query_of(corpora.vocabulary(NOTES.vocabulary))


def large(program: str, folder: Path, mib: int) -> Path:
    """The index of this many MiB of notes."""
    texts, index = folder / "notes.json", folder / "notes.index"
    corpora.write(str(texts), NOTES, mib * corpora.MIB)
    subprocess.run([program, "build", texts, index], check=True, stdout=subprocess.DEVNULL)
    return index


def held(process: Process) -> int:
    """The bytes of memory that a process holds."""
    assert process.process is not None
    found = re.search(r"VmRSS:\s+(\d+)", Path(f"/proc/{process.process.pid}/status").read_text(encoding="utf-8"))
    return int(found[1]) * 1024 if found else 0


def served(port: int, query: str, number: int, end: float) -> int:
    """How many replies one reader gets until the end, one after another, each over a connection of its own."""
    count = 0
    while time.monotonic() < end:
        with connected(port, 8 * number) as link:
            link.sendall(request(10, query))
            count += read_all(link)[4:5] == b"\0"
        time.sleep(0.17)  # one address may call 60 times in ten seconds
    return count


def measure(program: str, folder: Path, mib: int) -> None:
    """Prints what an index of this many MiB of notes takes."""
    index, ports, seconds = large(program, folder, mib), [free_port() for _ in range(4)], 10.0
    start = time.monotonic()
    with processes(program, index, ports) as made:
        loaded = time.monotonic() - start
        with relay(ports) as behind, Balancer(folder, behind.port) as balancer, ThreadPoolExecutor(READERS) as pool:
            end = time.monotonic() + seconds
            counts = list(pool.map(lambda number: served(balancer.port, LARGE_QUERY, number, end), range(READERS)))
            print(f"{mib:3} MiB: {held(made[0]) / corpora.MIB:4.0f} MiB a process, four load in {loaded:.1f} s, "
                  f"{sum(counts) / seconds:.0f} answers a second", flush=True)


def tries(house: House) -> list[tuple[str, Callable[[], None]]]:
    on_files = [("the units are valid", units_are_valid), ("the units are closed", units_are_closed),
                ("the web server's configuration is valid", web_server_is_valid),
                ("caches keep what never changes", caches_keep_what_never_changes),
                ("the page is served as a page", page_is_served_as_a_page)]
    on_processes = [("200 readers at once", many_readers), ("peers that trickle", peers_that_trickle),
                    ("a whole connection ends", whole_connections_end), ("one address is bounded", one_address_is_bounded),
                    ("the relay keeps its memory", relay_keeps_its_memory),
                    ("a killed process", killed_process), ("another index", changed_index),
                    ("a process without memory for its index", no_memory_to_load),
                    ("a process without memory for an answer", no_memory_to_answer)]
    return [*((name, lambda one=one: one(house.folder)) for name, one in on_files),
            ("the unit allows what a process calls", lambda: unit_allows_its_calls(house.program, house.old)),
            *((name, lambda one=one: one(house)) for name, one in on_processes)]


def main() -> int:
    words = argparse.ArgumentParser(description=__doc__, formatter_class=argparse.RawDescriptionHelpFormatter)
    words.add_argument("--program", default=str(HOME / "ats"))
    words.add_argument("--measure", action="store_true")
    given, tally = words.parse_args(), Tally()
    with tempfile.TemporaryDirectory() as name:
        folder, program = Path(name), given.program
        if given.measure:
            for mib in (1, 4, 16):
                measure(program, folder, mib)
            return 0
        texts = folder / "more.json"
        kept = (HOME / "examples" / "archive.json").read_text(encoding="utf-8").rstrip().removesuffix("]")
        texts.write_text(kept + ', "blood count blood count, and a count of red blood"]', encoding="utf-8")
        house = House(program, archive(program, folder, "old", HOME / "examples" / "archive.json"),
                      archive(program, folder, "new", texts), folder)
        for says, one in tries(house):
            tally.attempt(says, one)
    return tally.conclude()


if __name__ == "__main__":
    sys.exit(main())
