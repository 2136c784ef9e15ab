"""Lets each growth and each call of the commands fail in turn, one in each run, and counts how the runs end.

usage: python3 tests/faults.py [--quick] [PROGRAM [CASES]]

PROGRAM is the program and CASES that of `crates/ats_cases`; without them both are proved and built if needed.
The program runs over real files and over loopback addresses; --quick leaves out the runs in pieces of one byte. CASES
plays the same commands over objects in memory, for which a refused growth is a fault. Prints a line for each command
and for what fails: how many runs ended with which status. Each run must end with its answer, with status 6, or with
that of an object that failed (3, 7, 8 or 10); what is printed must be a text of that status; a stored file must be
as it was, or a prefix, or whole, and any other file as it was. Ends with status 0 if each run did.
"""

import collections
import re
import socket
import sys
import tempfile
import threading
import time
from pathlib import Path
from typing import Iterator, NamedTuple, Optional

import tracing
from trying import (
    BEFORE, CATALOG_ROOT, MORE_ROOT, MORE_TEXTS, QUERY, REQUEST, ROOT, ROOT_IN_BLOCKS, ROW, TEXTS, catalog_file, framed, free_port,
    measure, program_of)

NO_MEMORY = framed(b"\x01\x06")  # the reply if memory ran out for a proof

SERVED = "connection 1 requests {} {}\n"


class House(NamedTuple):
    """The program, the content of its files, and the reply to REQUEST."""

    program: str
    folder: Path
    files: dict[str, bytes]
    reply: bytes


class Command(NamedTuple):
    """Words, the file that they store, and the answer."""

    words: list[str]
    answer: str
    stores: Optional[str] = None

    @property
    def name(self) -> str:
        return self.words[0]


COMMANDS = [
    Command(["rank", "X", "1", QUERY], ROW),
    Command(["build", "X", "I"], ROOT + "\n", "I"),
    Command(["root", "I"], ROOT + "\n"),
    Command(["prove", "I", "tnra", "1", QUERY, "P"], "proof 365\n", "P"),
    Command(["verify", ROOT, "1", QUERY, "P"], ROW),
    Command(["audit", "I", "1", QUERY, "P"], ROW),
    Command(["sweep", "I", "L"], "1 right 1\n"),
    Command(["ask", ROOT, "tnra", "1", QUERY, "ADDRESS"], ROW),
    Command(["serve", "I", "1", "ADDRESS"], "listening\n" + SERVED.format(1, "end")),
    Command(["migrate", "I", "M"], ROOT_IN_BLOCKS + "\n", "M"),
    Command(["migrate", "M", "N"], ROOT_IN_BLOCKS + "\n", "N"),  # an index in blocks is stored as it is
    Command(["give", "I", "1", "T"], "text 190\n", "T"),
    Command(["fetch", ROOT, "1", "T"], "red red hen\n"),
    Command(["audit-fetch", "I", "1", "T"], "red red hen\n"),
    Command(["prove-both", "I", QUERY, "B"], "both 645\n", "B"),
    Command(["both", ROOT, QUERY, "B"], "1\n"),
    Command(["audit-both", "I", QUERY, "B"], "1\n"),
    Command(["grow", "I", "J", "G"], "growth 313\n", "G"),
    Command(["growth", ROOT, MORE_ROOT, "G"], "grown 3 4\n"),
    Command(["audit-growth", "I", "J", "G"], "grown 3 4\n"),
    Command(["catalog-root", "S"], CATALOG_ROOT + "\n"),
    Command(["catalog", CATALOG_ROOT, "1", QUERY, "C"], "1 0 1 13014 13014\n"),
    Command(["prove-catalog", "E", "tnra", "1", QUERY, "D"], "catalog 807\n", "D"),
    Command(["audit-catalog", "E", "1", QUERY, "C"], "1 0 1 13014 13014\n"),
]


class Peer:
    """The other end of one conversation, in a thread of its own. It tolerates any fault."""

    def __init__(self) -> None:
        self.came, self.is_over = b"", threading.Event()
        self.thread = threading.Thread(target=self.try_to_talk)

    def __enter__(self) -> "Peer":
        self.thread.start()
        return self

    def __exit__(self, *_: object) -> None:
        self.is_over.set()
        self.thread.join()

    def try_to_talk(self) -> None:
        try:
            self.talk()
        except OSError:
            pass

    def talk(self) -> None:
        """Nobody is there to talk to."""

    def read(self, link: socket.socket, length: int) -> None:
        link.settimeout(0.1)
        while len(self.came) < length:
            try:
                piece = link.recv(length - len(self.came))
            except socket.timeout:
                if self.is_over.is_set():
                    return
                continue
            if not piece:
                return
            self.came += piece


class Server(Peer):
    """Reads a request and sends the reply."""

    def __init__(self, reply: bytes):
        super().__init__()
        self.reply, self.door = reply, socket.create_server(("127.0.0.1", 0))
        self.port = self.door.getsockname()[1]

    def talk(self) -> None:
        self.door.settimeout(0.05)
        with self.door:
            while not self.is_over.is_set():
                try:
                    link, _ = self.door.accept()
                except socket.timeout:
                    continue
                with link:
                    self.read(link, len(REQUEST))
                    link.sendall(self.reply)
                    link.shutdown(socket.SHUT_WR)
                    self.read(link, 1 << 20)
                    return


class Client(Peer):
    """Sends one request as soon as a server listens, and reads the reply."""

    def __init__(self) -> None:
        super().__init__()
        self.port = free_port()

    def talk(self) -> None:
        while not self.is_over.is_set():
            try:
                link = socket.create_connection(("127.0.0.1", self.port))
            except ConnectionRefusedError:
                time.sleep(0.002)
                continue
            with link:
                link.sendall(REQUEST)
                link.shutdown(socket.SHUT_WR)
                self.read(link, 1 << 20)
                return


def build(program: str, folder: Path) -> House:
    """The three short texts, the same with a fourth, what the commands store of them, as the program makes it, and a catalog of
    the first twice."""
    (folder / "X").write_text(TEXTS, encoding="utf-8")
    (folder / "Y").write_text(MORE_TEXTS, encoding="utf-8")
    (folder / "E").write_text("I\nI\n", encoding="utf-8")
    for words in [["build", "Y", "J"], *(command.words for command in COMMANDS if command.stores)]:
        ended = tracing.run([program, *words], folder=str(folder))
        if ended.status != 0:
            sys.exit(f"{words[0]} ended with status {ended.status}: {ended.printed.decode()}")
    (folder / "L").write_text(f"1 P {QUERY}\n", encoding="utf-8")
    (folder / "S").write_text(f"{ROOT}\n{ROOT}\n", encoding="utf-8")
    proof = (folder / "P").read_bytes()
    (folder / "C").write_bytes(catalog_file([ROOT, ROOT], [proof, proof[:-6] + b"\0\0"]))  # the second shard does not show the row
    files = {name: (folder / name).read_bytes() for name in "XYIJPLMNTBGSCED"}
    return House(program, folder, files, framed(b"\x00" + files["P"]))


def peer_of(house: House, command: Command) -> Peer:
    if command.name == "ask":
        return Server(house.reply)
    return Client() if command.name == "serve" else Peer()


def texts(command: Command) -> dict[int, list[str]]:
    """What may be printed with each status except 7."""
    if command.name != "serve":
        return {0: [command.answer], 3: ["fault: shelf\n"], 6: ["memory\n"], 8: ["fault: link\n"]}
    head = "listening\n"
    faults = [head + SERVED.format(count, "fault") + "faults 1\n" for count in (0, 1)]
    links = ["", head, *[head + SERVED.format(count, end) for count in (0, 1) for end in ("end", "cut", "fault")]]
    return {
        0: [command.answer],
        3: ["fault: shelf\n"],
        6: [lines + "memory\n" for lines in links],
        8: [lines + "fault: link\n" for lines in links[:2]],
        10: faults,
    }


def text_fits(command: Command, status: int, printed: str) -> bool:
    known = texts(command)
    if status == 7:
        return any(text.startswith(printed) for some in known.values() for text in some)
    return printed in known.get(status, [])


def files_fit(house: House, command: Command, status: int) -> bool:
    """The stored file is as before or a prefix, and whole if the answer was printed; any other file is as before."""
    for name, whole in house.files.items():
        held = (house.folder / name).read_bytes()
        if name != command.stores:
            fits = held == whole
        elif status == 0:
            fits = held == whole
        else:
            fits = held == BEFORE or status in (3, 7) and whole.startswith(held)
        if not fits:
            return False
    return {path.name for path in house.folder.iterdir()} == set(house.files)


def talk_fits(house: House, command: Command, status: int, peer: Peer) -> bool:
    """What a peer got is a prefix of the right bytes, or the reply that memory ran out; whole if the answer was printed."""
    if command.name not in ("ask", "serve"):
        return True
    right = [REQUEST] if command.name == "ask" else [house.reply, NO_MEMORY]
    return peer.came in right if status == 0 else any(whole.startswith(peer.came) for whole in right)


def tried(house: House, command: Command, plan: tracing.Plan) -> tuple[tracing.Ended, str]:
    """One run over fresh files, and its status, or what is wrong with it."""
    for name, whole in house.files.items():
        (house.folder / name).write_bytes(BEFORE if name == command.stores else whole)
    with peer_of(house, command) as peer:
        address = f"127.0.0.1:{getattr(peer, 'port', 0)}"
        words = [address if word == "ADDRESS" else word for word in command.words]
        ended = tracing.run([house.program, *words], plan, str(house.folder))
    if ended.status is None:
        return ended, "HANGS"
    what = f"status {ended.status}, printed {ended.printed!r}, on standard error {ended.complained!r}"
    if ended.complained or not text_fits(command, ended.status, ended.printed.decode()):
        return ended, f"WRONG TEXT: {what}"
    if not files_fit(house, command, ended.status):
        return ended, f"WRONG FILES: {what}"
    if not talk_fits(house, command, ended.status, peer):
        return ended, f"WRONG BYTES OVER THE LINK: {what}, {peer.came!r}"
    return ended, str(ended.status)


def tell(name: str, what: str, runs: collections.Counter[str]) -> bool:
    """Prints a line of the table, and below it each run that is wrong."""
    right = {end: count for end, count in runs.items() if end.isdigit()}
    counts = "".join(f"{right.get(status, 0) or '-':>6}" for status in ("0", "3", "6", "7", "8", "10"))
    print(f"{name:14}{what:27}{sum(runs.values()):>6}{counts}", flush=True)
    for end, count in runs.items():
        if end not in right:
            print(f"    {count} times {end}", flush=True)
    return len(right) == len(runs)


def head(says: str) -> None:
    print(f"\n{says}\n{'command':14}{'what fails':27}{'runs':>6}{'0':>6}{'3':>6}{'6':>6}{'7':>6}{'8':>6}{'10':>6}")


def fail_in_turn(house: House, command: Command, what: str, plans: Iterator[tracing.Plan]) -> bool:
    """Runs one plan after another, until nothing is left that can fail."""
    runs: collections.Counter[str] = collections.Counter()
    for plan in plans:
        ended, end = tried(house, command, plan)
        if not ended.failed:
            break
        runs[end if end.isdigit() else f"{end}, at {ended.failed} {plan.growth or plan.call}"] += 1
    return tell(command.name, what, runs)


def over_real_objects(program: str, ways: list[str]) -> bool:
    head("over real files and loopback addresses")
    passed = True
    with tempfile.TemporaryDirectory() as folder:
        house = build(program, Path(folder))
        for command in COMMANDS:
            for way in ways:
                counted = range(1, 1 << 20)
                plans = {
                    "each growth": (tracing.Plan(growth=at) for at in counted),
                    "each growth and all later": (tracing.Plan(growth=at, onward=True) for at in counted),
                    "each call": (tracing.Plan(call=at) for at in counted),
                    "each call, bytes singly": (tracing.Plan(call=at, pieces=True) for at in counted),
                }
                passed = fail_in_turn(house, command, way, plans[way]) and passed
    return passed


class Case(NamedTuple):
    """A command over objects in memory, with the lines before it and those after what it prints."""

    before: list[str]
    command: Command
    printed: str
    status: int = 0
    after: list[str] = []


def lines_of(text: str) -> list[str]:
    """What is printed, in the words of a document of cases."""
    *lines, rest = text.split("\n")
    return [*lines, *([f": part {rest}"] if rest else [])]


def block(house: House, case: Case, moves: int) -> str:
    """The case as a block of a document, in pieces of this many bytes."""
    files = [f": bytes {name} {whole.hex()}" for name, whole in house.files.items() if name != case.command.stores]
    files += [f": bytes Q {REQUEST.hex()}", f": bytes R {house.reply.hex()}", ": keep texts X"]
    words = " ".join(f'"{word}"' if " " in word else word for word in case.command.words)
    lines = [f": moves {moves}", *files, *case.before, f"$ ./ats {words}", *lines_of(case.printed)]
    lines += [f": status {case.status}", *case.after, ": holds X texts"]
    return "```\n" + "\n".join(lines) + "\n```\n\n"


# The player plays the vectors too, and there are none here.
NO_VECTOR = "0 vectors passed\n"
MOST_PLAYED = 300  # cases of one run, which has a limit of time


def play(cases: str, folder: Path, document: str, plan: tracing.Plan = tracing.Plan()) -> tracing.Ended:
    for name, text in (("archive.json", "[]"), ("cases.md", document), ("QUERIES.md", ""), ("vectors.md", "")):
        (folder / name).write_text(text, encoding="utf-8")
    return tracing.run([cases], plan, str(folder))


def links(command: Command) -> list[str]:
    return {"ask": [": link R"], "serve": [": link Q"]}.get(command.name, [])


def played(command: Command, ended: tracing.Ended) -> str:
    """The status of the command, or what is wrong with it; None if the refused growth was the player's own."""
    printed = ended.printed.decode()
    if ended.status == 0 and printed == "1 cases passed\n" + NO_VECTOR:
        return "0"
    told = re.fullmatch(
        r"differs: .*\nstatus (\d+), wanted 0; (\d+) files, links or numbers differ; printed:\n(.*)wanted:\n.*0 cases passed\n" + NO_VECTOR,
        printed,
        re.DOTALL,
    )
    if told is None:
        is_own = not printed or "not played: " in printed or "not understood: " in printed
        return "" if is_own else f"WRONG: status {ended.status}, printed {ended.printed!r}"
    status, text = int(told[1]), told[3]
    if told[2] != "0" or not text_fits(command, status, text):
        return f"WRONG: status {status}, {told[2]} other files, printed {text!r}"
    return str(status)


def growths_in_memory(house: House, cases: str, folder: Path) -> bool:
    head("over objects in memory, a growth of which is refused")
    passed = True
    for command in COMMANDS:
        document = block(house, Case(links(command), command, command.answer), 4096)
        runs: collections.Counter[str] = collections.Counter()
        for at in range(1, 1 << 20):
            ended = play(cases, folder, document, tracing.Plan(growth=at))
            if not ended.failed:
                break
            runs[played(command, ended)] += 1
        own = runs.pop("", 0)
        passed = tell(command.name, f"each growth (+{own} own)", runs) and passed
    return passed


def shelf_cases(house: House, command: Command, reads: int) -> Iterator[Case]:
    """The shelf fails at each call in turn: the reads, the start and the appends, each of one byte; and then not at all."""
    whole = house.files.get(command.stores or "", b"")
    calls = reads + (1 + len(whole) if command.stores else 0)
    for call in range(1, max(calls + 2, 251 if command.name == "build" else 0)):
        kept = whole[: max(call - reads - 2, 0)]
        before, after = [f": shelf-fails {call}"], []
        if command.stores:
            before += [f": bytes F {(whole if call > calls else kept).hex()}", ": keep kept F"]
            after = [f": none {command.stores}" if call < reads + 2 else f": holds {command.stores} kept"]
        if call > calls:
            yield Case(before, command, command.answer, 0, after)
        else:
            yield Case(before, command, "fault: shelf\n", 3, after)


def sink_cases(command: Command) -> Iterator[Case]:
    for call in range(1, len(command.answer) + 2):
        printed = command.answer[: call - 1]
        before = [f": sink-fails {call}", *links(command)]
        yield Case(before, command, printed, 0 if call > len(command.answer) else 7)


def link_cases(house: House, command: Command) -> Iterator[Case]:
    """The link fails at each call in turn. A reader writes first; a server reads first, and tries a further frame last."""
    asks = command.name == "ask"
    write = REQUEST if asks else house.reply
    reads = len(house.reply if asks else REQUEST)
    first = 0 if asks else reads
    calls = len(write) + reads + (0 if asks else 1)
    for call in range(1, calls + 2):
        kept = write[: max(call - 1 - first, 0)]
        before = [f": bytes F {kept.hex()}", f": link {'R' if asks else 'Q'} {call}"]
        if call > calls:
            printed, status = command.answer, 0
        elif asks:
            printed, status = "fault: link\n", 8
        else:
            printed, status = "listening\n" + SERVED.format(int(call == calls), "fault") + "faults 1\n", 10
        yield Case(before, command, printed, status, [": wrote 1 F"])


def end_cases(command: Command) -> Iterator[Case]:
    """The caller or the door fails at each call in turn."""
    lines = ["fault: link\n"] if command.name == "ask" else ["fault: link\n", "listening\nfault: link\n"]
    for call, printed in enumerate(lines, 1):
        yield Case([*links(command), f": end-fails {call}"], command, printed, 8)
    yield Case([*links(command), f": end-fails {len(lines) + 1}"], command, command.answer)


def reads_of(house: House, command: Command) -> int:
    """How many calls read the files of a command, a byte in each and then their ends: those that its words name, and those of
    its list."""
    read = [word for word in command.words if word in house.files and word != command.stores]
    listed = {"sweep": "P", "prove-catalog": "IIII", "audit-catalog": "II"}.get(command.name, "")
    return sum(len(house.files[name]) + 1 for name in [*read, *listed])


def calls_in_memory(house: House, cases: str, folder: Path) -> bool:
    print("\nover objects in memory, a call of which fails, in pieces of one byte")
    ends = {"ask": "caller", "serve": "door"}
    linked = [command for command in COMMANDS if command.name in ends]
    others = [command for command in COMMANDS if command.name not in ends]
    rows = [(command.name, "shelf", shelf_cases(house, command, reads_of(house, command))) for command in others]
    rows += [(command.name, "sink", sink_cases(command)) for command in COMMANDS]
    rows += [(command.name, "link", link_cases(house, command)) for command in linked]
    rows += [(command.name, ends[command.name], end_cases(command)) for command in linked]
    passed = True
    for name, what, some in rows:
        blocks = [block(house, case, 1) for case in some]
        wrong = ""
        for first in range(0, len(blocks), MOST_PLAYED):
            part = blocks[first:first + MOST_PLAYED]
            ended = play(cases, folder, "".join(part))
            if (ended.status, ended.printed.decode()) != (0, f"{len(part)} cases passed\n" + NO_VECTOR):
                wrong += f"WRONG: status {ended.status}, {ended.printed.decode()[:2000]}"
        print(f"{name:14}{what:8}{len(blocks):>6} cases: {wrong or 'each as wanted'}", flush=True)
        passed = not wrong and passed
    return passed


def over_memory(program: str, cases: str) -> bool:
    with tempfile.TemporaryDirectory() as home, tempfile.TemporaryDirectory() as folder:
        house = build(program, Path(home))
        return all([growths_in_memory(house, cases, Path(folder)), calls_in_memory(house, cases, Path(folder))])


def main() -> int:
    named = [word for word in sys.argv[1:] if word != "--quick"]
    ways = ["each growth", "each growth and all later", "each call", "each call, bytes singly"]
    if "--quick" in sys.argv[1:]:
        ways.pop()
    program = program_of(named)
    cases = named[1] if len(named) > 1 else measure.cases_program()
    passed = over_memory(program, cases)
    passed = over_real_objects(program, ways) and passed
    print("\neach run ended as it may" if passed else "\nWRONG runs are told above")
    return 0 if passed else 1


if __name__ == "__main__":
    sys.exit(main())
