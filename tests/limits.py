"""Runs the commands at their limits and on hostile files, and reports what each run took.

usage: python3 tests/limits.py [--quick] [PROGRAM]

PROGRAM is the program; without it, it is proved and built if needed. Makes collections at the limits (65,536
documents, texts of 2^20 bytes, 16 MiB of text), migrates their indexes, answers queries of up to 32 terms with up to
1,000 rows in both formats, asks for a proof that would be too long, shows all documents with every word, checks the
answer of 4,096 shards, and gives the program files that promise more than they hold, nest deeply or are as long as they
may be. With --quick it only does the last of these. Prints for each run its status, its first line, its seconds and the
most memory that it held, and whether that is as it should be:

- At the limits memory suffices: no run ends with status 6.
- `verify`, `audit` and `ask` print the same rows, with the scores of `rank`. `fetch` and `audit-fetch` print the same text.
  `both` and `audit-both` print the documents that a search of the texts finds.
- A hostile file is refused by its line, in memory proportional to its length, at most the amount in its row. Small objects
  in JSON take most: an object with a member takes nearly a kilobyte, some 120 bytes for each of its own.

Ends with status 0 if all is as it should be. Needs 4 GiB of memory and 3 GiB of disk. Takes up to half an hour, since each
command that reads an index builds it again; the hostile files take a minute.
"""

import json
import socket
import struct
import subprocess
import sys
import tempfile
import threading
from pathlib import Path
from typing import Callable, Iterator, NamedTuple, Optional, Union

from trying import catalog_file, corpora, free_port, measure, program_of

MIB = corpora.MIB
LIMIT = 300  # seconds of one run
MEMORY = 4 << 30  # bytes of address space of one run
ROWS = 1000
MAX_PROOF = 1 << 26
MAX_INDEX = 1 << 29
MAX_TEXT_FILE = 1 << 21
MAX_GROWTH = 1 << 12
MAX_CATALOG = 1 << 28
MAX_SHARDS = 4096
MAX_LIST = 1 << 20
NO_ROOT = "00" * 32

# Bytes of a TRA proof over 65,536 documents, each of which has one of the query's 21 words. Nearly all are met before the
# answer is settled. Of each it shows some forty leaves of its terms, and as many digests.
TOO_LONG = 116_077_733

# Bytes of the proof of 65,536 documents that have 32 words. Of each it shows 32 of 86 leaves of its terms, which needs 32
# digests, so 1,412 bytes in all, and 46 bytes more: its number, an entry of the whole list, and its leaf.
BOTH_TOO_LONG = 95_570_809
BOTH_TOO_LONG_IN_BLOCKS = 95_561_881  # the first entries of 31 other lists need 7 digests each in place of 16

# Each begins four words of all documents and one word of the query.
LETTERS = "abcdefghijklmnopqrstu"


class Table:
    """The runs so far, one a line."""

    def __init__(self, program: str, folder: Path):
        self.program, self.folder, self.wrong = program, folder, 0
        print(f"{'run':66}{'status':>6}{'seconds':>9}{'MiB':>7}  first line")

    def start(self, *words: str) -> "subprocess.Popen[str]":
        """A run in the folder."""
        return measure.started([self.program, *words], self.folder, LIMIT, MEMORY)

    def tell(self, says: str, ended: measure.Run, wrong: str) -> None:
        first = "".join(ended.printed.splitlines()[:1])[:48]
        print(f"{says[:65]:66}{ended.status:>6}{ended.seconds:>9.2f}{ended.peak / MIB:>7.0f}  {first}", flush=True)
        if wrong:
            self.wrong += 1
            print(f"    WRONG: {wrong}", flush=True)

    def wanted(self, says: str, words: list[str], status: int = 0, first: Optional[str] = None, rows: Optional[int] = None, peak: Optional[int] = None) -> list[str]:
        """The lines of a run that must end with this status, first line and number of rows, and hold at most this much memory."""
        ended = measure.ended(self.start(*words))
        lines, wrong = ended.printed.splitlines(), []
        if ended.status != status:
            wrong.append(f"wanted is status {status}")
        if first is not None and lines[:1] != [first]:
            wrong.append(f"wanted is {first!r}")
        if rows is not None and len(lines) != rows:
            wrong.append(f"{len(lines)} rows, wanted are {rows}")
        if peak is not None and ended.peak > peak:
            wrong.append(f"wanted are at most {peak / MIB:.0f} MiB")
        self.tell(says, ended, "; ".join(wrong))
        return lines

    def same(self, says: str, came: object, wanted: object) -> None:
        if came != wanted:
            self.wrong += 1
            print(f"    WRONG: {says} differ", flush=True)


def scores(lines: list[str]) -> list[tuple[str, ...]]:
    """The bounds of each row."""
    return [tuple(line.split()[2:]) for line in lines]


def ask(table: Table, says: str, index: str, root: str, algorithm: str, query: str, rows: list[str]) -> None:
    """Puts a question to a server of its own; the seconds are those of the reader."""
    address = f"127.0.0.1:{free_port()}"
    server = table.start("serve", index, "1", address)
    assert server.stdout is not None
    server.stdout.readline()
    asked = table.wanted(says, ["ask", root, algorithm, str(ROWS), query, address], rows=len(rows))
    table.same("the rows of ask and verify", asked, rows)
    served = measure.ended(server)
    is_right = served.status == 0 and served.printed == "connection 1 requests 1 end\n"
    table.tell("    and its server", served, "" if is_right else "the server")


def answers(table: Table, name: str, index: str, root: str, query: str, best: list[str], algorithms: tuple[str, ...], served: bool) -> None:
    """Proves, verifies, audits and asks one query with 1,000 rows, and compares all with the plain ranking."""
    for algorithm in algorithms:
        proved = table.wanted(f"{name}: prove by {algorithm}", ["prove", index, algorithm, str(ROWS), query, "P"])
        if not proved[0].startswith("proof "):
            continue
        rows = table.wanted(f"{name}: verify by {algorithm}", ["verify", root, str(ROWS), query, "P"], rows=len(best))
        if algorithm == "tra":
            table.same("the scores of verify and rank", scores(rows), scores(best))
        audited = table.wanted(f"{name}: audit by {algorithm}", ["audit", index, str(ROWS), query, "P"], rows=len(best))
        table.same("the rows of audit and verify", audited, rows)
        if served:
            ask(table, f"{name}: ask by {algorithm}", index, root, algorithm, query, rows)


def migrate(table: Table, name: str) -> str:
    """Migrates the index I to M, reads M, and migrates it again, which leaves its bytes. Returns its root."""
    (root,) = table.wanted(f"{name}: migrate", ["migrate", "I", "M"], rows=1)
    table.wanted(f"{name}, in blocks: root", ["root", "M"], first=root)
    table.wanted(f"{name}, in blocks: migrate", ["migrate", "M", "N"], first=root)
    table.same("the bytes of both migrated indexes", (table.folder / "N").read_bytes(), (table.folder / "M").read_bytes())
    (table.folder / "N").unlink()
    return root


def texts_and_growth(table: Table, name: str, root: str, in_blocks: str, documents: int, doc: int) -> None:
    """Gives and fetches one text, and shows the growth of the index I into itself in blocks, M; both are audited too."""
    table.wanted(f"{name}: give", ["give", "I", str(doc), "T"], rows=1)
    text = table.wanted(f"{name}: fetch", ["fetch", root, str(doc), "T"])
    table.same("the text of audit-fetch", table.wanted(f"{name}: audit-fetch", ["audit-fetch", "I", str(doc), "T"]), text)
    table.wanted(f"{name}: grow", ["grow", "I", "M", "G"], first="growth 217")
    table.wanted(f"{name}: growth", ["growth", root, in_blocks, "G"], first=f"grown {documents} {documents}")
    table.wanted(f"{name}: audit-growth", ["audit-growth", "I", "M", "G"], first=f"grown {documents} {documents}")


def all_documents(table: Table, name: str, index: str, root: str, query: str) -> None:
    """Shows all documents of an index that have every word of a query, and compares them with a search of the texts."""
    words = set(query.split())
    texts = json.loads((table.folder / "X").read_text(encoding="utf-8"))
    found = [str(doc) for doc, text in enumerate(texts) if words <= set(text.split())]
    table.wanted(f"{name}: prove-both", ["prove-both", index, query, "B"], rows=1)
    for command, first in (("both", root), ("audit-both", index)):
        lines = table.wanted(f"{name}: {command}", [command, first, query, "B"])
        table.same(f"the documents of {command} and of a search", lines, found)


def most_text(table: Table) -> None:
    words = corpora.vocabulary(corpora.SHAPES["notes"].vocabulary)
    corpora.write(str(table.folder / "X"), corpora.SHAPES["notes"], corpora.MAX_TEXTS)
    (root,) = table.wanted("16 MiB of notes: build", ["build", "X", "I"])
    table.wanted("16 MiB of notes: root", ["root", "I"], first=root)
    in_blocks = migrate(table, "16 MiB of notes")
    for name, query, algorithms, served in (
        ("16 MiB of notes, 2 terms", " ".join(words[:2]), ("tnra", "tra"), True),
        ("16 MiB of notes, 32 terms", " ".join(words[:32]), ("tnra",), True),
        ("16 MiB of notes, 32 rare terms", " ".join(words[15_000:15_032]), ("tra",), False),
    ):
        best = table.wanted(f"{name}: rank", ["rank", "X", str(ROWS), query])
        answers(table, name, "I", root, query, best, algorithms, served)
        if len(algorithms) == 2:
            answers(table, f"{name}, in blocks", "M", in_blocks, query, best, algorithms, served)
    documents = len(json.loads((table.folder / "X").read_text(encoding="utf-8")))
    texts_and_growth(table, "16 MiB of notes", root, in_blocks, documents, documents // 2)
    for name, places in (("2 words", range(2)), ("32 rare words", range(15_000, 15_032))):
        query = " ".join(words[k] for k in places)
        all_documents(table, f"16 MiB of notes, {name}", "I", root, query)
        all_documents(table, f"16 MiB of notes, {name}, in blocks", "M", in_blocks, query)
    table.wanted("16 MiB of notes, 33 terms: rank", ["rank", "X", "1", " ".join(words[:33])], 4, "input: query of 33 terms")


def words_of(end: str, count: int) -> str:
    """The words of the first letters with this end."""
    return " ".join(letter + end for letter in LETTERS[:count])


def text(document: int) -> str:
    """All words but those in c, and one of these in place of its upper neighbour: between them the others lie far apart."""
    own = LETTERS[document % len(LETTERS)]
    words = [letter + end for letter in LETTERS for end in "bdef"]
    return " ".join(own + "c" if word == own + "d" else word for word in words)


def write_most_documents(path: Path) -> None:
    texts = [text(document) for document in range(corpora.MAX_DOCUMENTS)]
    assert sum(map(len, texts)) <= corpora.MAX_TEXTS
    path.write_text(json.dumps(texts), encoding="utf-8")


def too_long(table: Table, says: str, words: list[str], length: int) -> None:
    """A proof that is refused for its length, and of which no file is left."""
    table.wanted(says, [*words, "N"], 4, f"input: proof of {length} bytes")
    table.same("no file, and what a proof that is too long leaves,", (table.folder / "N").exists(), False)


def most_documents(table: Table) -> None:
    write_most_documents(table.folder / "X")
    (root,) = table.wanted("65,536 documents: build", ["build", "X", "I"])
    too_long(table, "65,536 documents, 21 terms: prove by tra", ["prove", "I", "tra", str(ROWS), words_of("c", 21)], TOO_LONG)
    query = words_of("c", 10)
    best = table.wanted("65,536 documents, 10 terms: rank", ["rank", "X", str(ROWS), query], rows=ROWS)
    answers(table, "65,536 documents, 10 terms", "I", root, query, best, ("tra",), True)
    in_blocks = migrate(table, "65,536 documents")
    answers(table, "65,536 documents, 10 terms, in blocks", "M", in_blocks, query, best, ("tra",), False)
    texts_and_growth(table, "65,536 documents", root, in_blocks, 65_536, 65_535)
    all_documents(table, "65,536 documents, a word of all", "I", root, "ab")
    all_documents(table, "65,536 documents, 10 words of which each has one", "I", root, query)
    query = f"{words_of('b', 21)} {words_of('f', 11)}"
    for index, length in (("I", BOTH_TOO_LONG), ("M", BOTH_TOO_LONG_IN_BLOCKS)):
        too_long(table, "65,536 documents, 32 words of all: prove-both", ["prove-both", index, query], length)


def longest_texts(table: Table) -> None:
    text = "".join(f"w{word} " for word in range(1 << 18))[: corpora.MAX_TEXT]
    (table.folder / "X").write_text(json.dumps([text] * 16), encoding="utf-8")
    (root,) = table.wanted("16 texts of 2^20 bytes: build", ["build", "X", "I"])
    best = table.wanted("16 texts of 2^20 bytes: rank", ["rank", "X", str(ROWS), "w7 w70000"], rows=16)
    answers(table, "16 texts of 2^20 bytes", "I", root, "w7 w70000", best, ("tnra", "tra"), True)
    in_blocks = migrate(table, "16 texts of 2^20 bytes")
    answers(table, "16 texts of 2^20 bytes, in blocks", "M", in_blocks, "w7 w70000", best, ("tnra", "tra"), False)
    texts_and_growth(table, "16 texts of 2^20 bytes", root, in_blocks, 16, 15)
    all_documents(table, "16 texts of 2^20 bytes", "I", root, "w7 w70000")
    (table.folder / "X").write_text(json.dumps([text + "x"]), encoding="utf-8")
    table.wanted("a text of 2^20 + 1 bytes: build", ["build", "X", "N"], 4, "input: text 0 too long")


def most_shards(table: Table) -> None:
    """A catalog of 4,096 equal shards, of which the first thousand show their row."""
    (table.folder / "X").write_text('["red fox"]', encoding="utf-8")
    (root,) = table.wanted("one text: build", ["build", "X", "I"])
    table.wanted("one text: prove", ["prove", "I", "tra", "2", "red", "P"])
    proof = (table.folder / "P").read_bytes()
    (table.folder / "S").write_text(f"{root}\n" * MAX_SHARDS, encoding="utf-8")
    (catalog,) = table.wanted("4,096 shards: catalog-root", ["catalog-root", "S"])
    proofs = [proof] * ROWS + [proof[:-6] + b"\0\0"] * (MAX_SHARDS - ROWS)
    (table.folder / "C").write_bytes(catalog_file([root] * MAX_SHARDS, proofs))
    rows = table.wanted("4,096 shards: catalog", ["catalog", catalog, str(ROWS), "red", "C"], rows=ROWS)
    table.same("the shards of the rows", [row.split()[1] for row in rows], [str(shard) for shard in range(ROWS)])


def repeated(front: bytes, unit: bytes, back: bytes, length: int) -> Iterator[bytes]:
    """A file of almost that length: the unit as often as it fits."""
    times = (length - len(front) - len(back)) // len(unit)
    yield front
    part = unit * (MIB // len(unit))
    while times >= MIB // len(unit):
        yield part
        times -= MIB // len(unit)
    yield unit * times + back


class Hostile(NamedTuple):
    """A file, what the program says of it, and how many bytes may be held for each of its own."""

    says: str
    pieces: Union[bytes, Iterator[bytes]]
    first: str
    times: int = 4


def collections() -> Iterator[Hostile]:
    longest = 1 << 26
    yield Hostile("64 MiB of [[[[", repeated(b"", b"[", b"", longest), "input: not json")
    yield Hostile('64 MiB of {"a":{"a":', repeated(b"", b'{"a":', b"", longest), "input: not json")
    yield Hostile("one string of 64 MiB", repeated(b'["', b"a", b'"]', longest), "input: text 0 too long")
    yield Hostile("a string of 64 MiB that does not end", repeated(b'["', b"a", b"", longest), "input: not json")
    yield Hostile("16 million empty strings", repeated(b'[""', b',""', b"]", 3 * 16_000_000 + 1), "input: 16000000 documents", 64)
    yield Hostile("64 MiB of numbers", repeated(b"[0", b",0", b"]", longest), "input: item 0", 64)
    yield Hostile("64 MiB of empty arrays", repeated(b"[[]", b",[]", b"]", longest), "input: item 0", 64)
    # An object with a member takes nearly 1 KiB, so that 64 MiB of them would take 8 GiB.
    yield Hostile("16 MiB of small objects", repeated(b'[{"a":0}', b',{"a":0}', b"]", 1 << 24), "input: item 0", 140)
    yield Hostile("a number of 64 MiB", repeated(b"[", b"1", b"]", longest), "input: not json")
    yield Hostile("64 MiB and a byte of blanks", repeated(b"", b" ", b"", longest + 1), "input: longer than 67108864")


FRONT = b"ATSI\x01"
IN_BLOCKS = b"ATSI\x02"


def number(value: int) -> bytes:
    return struct.pack(">I", value)


def indexes() -> Iterator[Hostile]:
    yield Hostile("an index of 2^32 - 1 texts", FRONT + b"\xff" * 4, "input: index at 5")
    yield Hostile("an index of 65,536 texts with none of them", FRONT + number(65_536), "input: index at 9")
    yield Hostile("an index of a text of 2^32 - 1 bytes", FRONT + number(1) + b"\xff" * 4, "input: index at 9")
    yield Hostile("an index of a text of 2^20 bytes with none of them", FRONT + number(1) + number(MIB), "input: index at 13")
    yield Hostile("an index of 2^32 - 1 terms", FRONT + number(1) + number(0) + b"\xff" * 4, "input: index at 13")
    terms = FRONT + number(1) + number(1) + b"a" + number(1) + b"\x01a" + b"\xff" * 4
    yield Hostile("an index of a term of 2^32 - 1 entries", terms, "input: index at 20")
    yield Hostile("an index of 2^29 bytes of nothing", repeated(b"", b"\0", b"", MAX_INDEX), "input: index at 0")
    yield Hostile("an index of 2^29 + 1 bytes", repeated(b"", b"\0", b"", MAX_INDEX + 1), f"input: longer than {MAX_INDEX}")
    yield Hostile("an index in blocks of 65,536 texts with none of them", IN_BLOCKS + number(65_536), "input: index at 9")
    for says, front in (("a text and 2^29 bytes behind it", FRONT), ("the same in blocks", IN_BLOCKS)):
        text = front + number(1) + number(1) + b"a"
        yield Hostile(says, repeated(text, b"\0", b"", MAX_INDEX), "input: index at 17")


HEADER = b"\x01" + number(65_536) + number(16_777_218) + b"\xaa" * 96


def front(terms: int) -> bytes:
    return b"ATSP\x01\x01" + HEADER + struct.pack(">H", terms)


def dictionary(leaves: int, digests: int) -> bytes:
    """Leaves with terms of 64 bytes, and digests."""
    each = b"".join(number(at) + b"\x40" + b"t" * 64 + b"\xff" * 4 + b"\xbb" * 32 for at in range(leaves))
    return struct.pack(">H", leaves) + each + struct.pack(">H", digests) + b"\xcc" * 32 * digests


SLOTS = b"\x01\x00\x00" * 32


def greatest() -> Iterator[Hostile]:
    """Proofs in which one count after another is the largest, and nothing follows it."""
    told = front(32)
    yield Hostile("a proof of 65,535 terms", front(65_535), f"refused: shape count {len(told) - 2}")
    yield Hostile("a proof of 65,535 leaves", told + b"\xff\xff", f"refused: shape count {len(told)}")
    yield Hostile("a proof of 64 leaves with none of them", told + b"\0\x40", f"refused: shape cut {len(told) + 2}")
    leaves = told + dictionary(64, 0)[:-2]
    yield Hostile("a proof of 65,535 digests with none of them", leaves + b"\xff\xff", f"refused: shape cut {len(leaves) + 2}")
    slots = leaves + b"\xff\xff" + b"\xcc" * 32 * 65_535 + SLOTS
    yield Hostile("a proof of 2^32 - 1 met documents", slots + b"\xff" * 4, f"refused: shape count {len(slots)}")
    yield Hostile("a proof of 65,536 met documents with none of them", slots + number(65_536), f"refused: shape cut {len(slots) + 4}")
    met = slots + number(65_536) + b"".join(map(number, range(65_536)))
    yield Hostile("a proof of 2^32 - 1 entries", met + b"\xff" * 4, f"refused: shape count {len(met)}")
    yield Hostile("a proof of 65,536 entries with none of them", met + number(65_536), f"refused: shape cut {len(met) + 4}")
    lists = met + (number(65_536) + b"".join(number(at) + b"\xff\xff" for at in range(65_536)) + b"\0\0") * 32
    documents = lists + (b"\xff" * 4 + b"\xdd" * 32) * 65_536
    yield Hostile("a proof of 2^32 - 1 digests", documents + b"\xff" * 4, f"refused: shape count {len(documents)}")
    digests = documents + number(65_536) + b"\xee" * 32 * 65_536
    yield Hostile("a proof of 65,536 digests and no terms", digests, f"refused: shape cut {len(digests)}")
    leaves = b"".join(number(at) + b"\x40" + b"t" * 64 + b"\xff\xff" for at in range(8))
    section = b"\0\x08" + leaves + b"\0\x01" + b"\xee" * 32 + b"\0\0\0" * 32
    answer = struct.pack(">H", 1000) + b"\0\0\0\0" * 1000
    yield Hostile("a whole proof of nearly 2^26 bytes", digests + section * 65_536 + answer, "refused: other-root")
    small = b"\0\x01" + number(0) + b"\0" + b"\xff\xff" + b"\0\0" + b"\0\0\0" * 32
    whole = documents + number(0) + small * 65_536 + answer
    yield Hostile(f"a whole proof of {len(whole)} bytes, 32 lists of 65,536", whole, "refused: other-root")
    yield Hostile("the same with a byte more", whole + b"\0", f"refused: shape trailing {len(whole)}")
    yield Hostile("2^26 + 1 bytes", repeated(whole, b"\0", b"", MAX_PROOF + 1), f"refused: shape long {MAX_PROOF}")


def greatest_of_both() -> Iterator[Hostile]:
    """The same for a reader who wants proofs without rows."""
    for one in greatest():
        yield one._replace(first=one.first.replace("other-root", "answer-shown 1000"))


ARCHIVE = b"\x01" + HEADER


def given() -> Iterator[Hostile]:
    """Files of a text."""
    told = b"ATSF" + ARCHIVE
    yield Hostile("a text of 2^32 - 1 bytes", told + b"\xff" * 4, f"refused: shape count {len(told)}")
    yield Hostile("a text of 2^20 bytes with none of them", told + number(MIB), f"refused: shape cut {len(told) + 4}")
    text = told + number(MIB) + b"a" * MIB
    yield Hostile("a text of 32 digests with none of them", text + b"\x20", f"refused: shape cut {len(text) + 1}")
    yield Hostile("2^21 + 1 bytes", repeated(text, b"\0", b"", MAX_TEXT_FILE + 1), f"refused: shape long {MAX_TEXT_FILE}")


def grown() -> Iterator[Hostile]:
    """Files of a growth."""
    told = b"ATSG" + ARCHIVE + ARCHIVE
    yield Hostile("a growth of 255 digests", told + b"\xff", f"refused: shape count {len(told)}")
    yield Hostile("a growth of 64 digests with none of them", told + b"\x40", f"refused: shape cut {len(told) + 1}")
    yield Hostile("a growth of 64 digests", told + b"\x40" + b"\xcc" * 2048, "refused: other-old")
    yield Hostile("64 MiB", repeated(told, b"\0", b"", 1 << 26), f"refused: shape long {MAX_GROWTH}")


def catalogs() -> Iterator[Hostile]:
    """Proofs of catalogs."""
    told = b"ATSS\x01"
    yield Hostile("a catalog of 2^32 - 1 shards", told + b"\xff" * 4, "refused: shape count 5")
    yield Hostile("a catalog of 4,096 shards with none of them", told + number(MAX_SHARDS), "refused: shape cut 9")
    roots = told + number(MAX_SHARDS) + b"\xaa" * 32 * MAX_SHARDS
    yield Hostile("a shard's proof of 2^32 - 1 bytes", roots + b"\xff" * 4, f"refused: shape count {len(roots)}")
    yield Hostile("a shard's proof of 2^26 bytes with none of them", roots + number(MAX_PROOF), f"refused: shape cut {len(roots) + 4}")
    end = len(roots) + 4 * MAX_SHARDS
    yield Hostile("4,096 empty proofs, and zeros up to 2^28 bytes", repeated(roots, b"\0", b"", MAX_CATALOG), f"refused: shape trailing {end}")
    yield Hostile("4,096 empty proofs", roots + bytes(4 * MAX_SHARDS), "refused: other-root")
    yield Hostile("2^28 + 1 bytes", repeated(roots, b"\0", b"", MAX_CATALOG + 1), f"refused: shape long {MAX_CATALOG}")


def lists_of_roots() -> Iterator[Hostile]:
    line = b"00" * 32 + b"\n"
    yield Hostile("4,097 roots", line * (MAX_SHARDS + 1), "input: list line 4097")
    yield Hostile("1 MiB of line feeds", b"\n" * MAX_LIST, "input: list line 4097")
    yield Hostile("a line of 1 MiB", b"0" * MAX_LIST, "input: list line 1")
    yield Hostile("1 MiB and a byte", b"0" * (MAX_LIST + 1), f"input: longer than {MAX_LIST}")


def hostile_files(table: Table) -> None:
    words: list[tuple[Callable[[], Iterator[Hostile]], list[list[str]], int]] = [
        (collections, [["rank", "H", "1", "a"]], 4),
        (indexes, [["root", "H"], ["migrate", "H", "N"]], 4),
        (greatest, [["verify", NO_ROOT, "1000", " ".join(f"q{at}" for at in range(32)), "H"]], 1),
        (greatest_of_both, [["both", NO_ROOT, " ".join(f"q{at}" for at in range(32)), "H"]], 1),
        (given, [["fetch", NO_ROOT, "0", "H"]], 1),
        (grown, [["growth", NO_ROOT, NO_ROOT, "H"]], 1),
        (catalogs, [["catalog", NO_ROOT, "1000", "a", "H"]], 1),
        (lists_of_roots, [["catalog-root", "H"]], 4),
    ]
    path = table.folder / "H"
    for kinds, commands, status in words:
        for one in kinds():
            with open(path, "wb") as file:
                for piece in [one.pieces] if isinstance(one.pieces, bytes) else one.pieces:
                    file.write(piece)
            length = path.stat().st_size
            for command in commands:
                table.wanted(f"{command[0]}: {one.says}", command, status, one.first, peak=16 * MIB + one.times * length)
    path.unlink()
    table.same("no file, and what a refused index leaves,", (table.folder / "N").exists(), False)


def hostile_peers(table: Table) -> None:
    """Peers that promise a reply of the largest length, and send nothing, or as many zero bytes."""
    for says, reply, wanted, status, peak in (
        ("nothing of the 2^26 + 1 bytes that it promises", number(MAX_PROOF + 1), "peer: short 4 67108869", 9, 16),
        ("a reply of 2^26 + 1 bytes", number(MAX_PROOF + 1) + b"\0" * (MAX_PROOF + 1), "refused: shape magic 0", 1, 16 + 4 * 64),
        ("2^32 - 1 bytes promised", b"\xff" * 4, "peer: long 4294967295", 9, 16),
    ):
        with socket.create_server(("127.0.0.1", 0)) as door:

            def peer() -> None:
                link, _ = door.accept()
                with link:
                    link.recv(64)
                    link.sendall(reply)

            thread = threading.Thread(target=peer)
            thread.start()
            address = f"127.0.0.1:{door.getsockname()[1]}"
            table.wanted(f"ask: {says}", ["ask", NO_ROOT, "tra", "1", "a", address], status, wanted, peak=peak * MIB)
            thread.join()


def main() -> int:
    program = program_of([word for word in sys.argv[1:] if word != "--quick"])
    with tempfile.TemporaryDirectory() as folder:
        table = Table(program, Path(folder))
        hostile_files(table)
        hostile_peers(table)
        if "--quick" not in sys.argv[1:]:
            most_text(table)
            most_documents(table)
            longest_texts(table)
            most_shards(table)
    print("all is as it should be" if table.wrong == 0 else f"{table.wrong} are not as they should be")
    return 1 if table.wrong else 0


if __name__ == "__main__":
    sys.exit(main())
