"""The checks of what an archive's server sends, over the shared library that README.md makes.

    reader = Reader("libats_reader.so.1")
    for row in reader.check(proof, root, "blood count", 3): print(row.doc, row.lower, row.upper)
    text = reader.text(file, root, 31)                  # bytes
    docs = reader.both(proof, root, "blood count")      # [31]
    for row in reader.catalog(proof, root, "blood count", 3): print(row.shard, row.doc, row.lower, row.upper)
    root = reader.catalog_root([root_of_shard_0, root_of_shard_1])      # of the catalog of these shards
    grown = reader.growth(file, old_root, new_root)     # Growth(old=36, new=40)
    terms = reader.query("blood count")                 # [Term(term=b"blood", weight=1), ..]

A root is 32 bytes, and a query a str, or bytes. Each call returns only what was accepted. Else it raises Refused, or
another Fault; its text is the line that the command prints, and its numbers are those of that line. Wrong types and
sizes are a TypeError or a ValueError. A reader has no state, so threads may share it.

`python3 ats_reader.py LIBRARY verify|both|fetch|growth|catalog|catalog-root|query ..` prints what the command of this
name prints, and ends with its status; `query QUERY` prints terms and weights.
"""
import ctypes
import re
import sys
from typing import List, NamedTuple, Optional, Sequence, Tuple, Union

VERSION = 1
MOST_ROWS, MOST_DOCS, MOST_TERMS, MOST_SHARDS = 1000, 65536, 32, 4096
SHARD = 64
U8, U32, U64, SIZE = ctypes.c_uint8, ctypes.c_uint32, ctypes.c_uint64, ctypes.c_size_t


class CRow(ctypes.Structure):
    _fields_ = [("doc", U64), ("lower", U64), ("upper", U64)]


class CCatalogRow(ctypes.Structure):
    _fields_ = [("shard", U64), ("doc", U64), ("lower", U64), ("upper", U64)]


class CTerm(ctypes.Structure):
    _fields_ = [("word", U8 * 64), ("size", U32), ("weight", U32)]


class Verdict(ctypes.Structure):
    _fields_ = [("status", U32), ("reason", U32), ("count", U64), ("first", U64), ("second", U64)]


class Row(NamedTuple):
    """A document of an answer, counted from 0, with bounds of its score."""
    doc: int
    lower: int
    upper: int


class CatalogRow(NamedTuple):
    """A document of a catalog's answer: its shard and its number there, counted from 0, with bounds of its score."""
    shard: int
    doc: int
    lower: int
    upper: int


class Term(NamedTuple):
    term: bytes
    weight: int


class Growth(NamedTuple):
    """How many documents there were, and how many there are."""
    old: int
    new: int


class Fault(Exception):
    """Nothing is shown. `status` and `reason` are those of ats_reader.h, `numbers` those of the line, and `shard` the
    number of the shard if its proof is refused, else None."""

    def __init__(self, line: str, status: int, reason: int, numbers: Tuple[int, int], shard: Optional[int] = None):
        super().__init__(line)
        self.line, self.status, self.reason, self.numbers, self.shard = line, status, reason, numbers, shard


class Refused(Fault):
    """The server's bytes are not accepted."""


PROTOTYPES = {
    "ats_check": "bytes root bytes u32 room", "ats_both": "bytes root bytes room", "ats_text": "bytes root u32",
    "ats_growth": "bytes root root", "ats_query": "bytes room", "ats_catalog": "bytes root bytes u32 room",
    "ats_catalog_root": "bytes root",
}
WORDS = {"bytes": [ctypes.c_char_p, SIZE], "root": [ctypes.c_char_p], "u32": [U32], "room": [ctypes.c_void_p, SIZE]}


class Reader:
    """The library's calls. `library` is the path or the name of the shared library."""

    def __init__(self, library: str = "libats_reader.so.1"):
        self._calls = calls = ctypes.CDLL(library)
        for name, words in PROTOTYPES.items():
            call = getattr(calls, name)
            call.restype, call.argtypes = None, [it for word in words.split() for it in WORDS[word]]
            call.argtypes += [ctypes.POINTER(Verdict)]
        calls.ats_line.restype = calls.ats_version.restype = U32
        calls.ats_line.argtypes = [ctypes.POINTER(Verdict), ctypes.c_char_p, SIZE, ctypes.POINTER(SIZE)]
        unicode = (U32 * 3)()
        if calls.ats_version(unicode) != VERSION:
            raise ValueError(f"{library} is not of version {VERSION}")
        self.unicode = tuple(unicode)

    def check(self, proof: bytes, root: bytes, query: Union[str, bytes], r: int) -> List[Row]:
        """The best `r` documents, best first."""
        rows = (CRow * MOST_ROWS)()
        found = self._call("ats_check", _bytes(proof), _root(root), _query(query), _number(r), (rows, MOST_ROWS))
        return [Row(row.doc, row.lower, row.upper) for row in rows[:found.count]]

    def both(self, proof: bytes, root: bytes, query: Union[str, bytes]) -> List[int]:
        """All documents that have every term of the query, rising."""
        docs = (U32 * MOST_DOCS)()
        found = self._call("ats_both", _bytes(proof), _root(root), _query(query), (docs, MOST_DOCS))
        return docs[:found.count]

    def catalog(self, proof: bytes, root: bytes, query: Union[str, bytes], r: int) -> List[CatalogRow]:
        """The best `r` documents of all shards of a catalog, best first."""
        rows = (CCatalogRow * MOST_ROWS)()
        found = self._call("ats_catalog", _bytes(proof), _root(root), _query(query), _number(r), (rows, MOST_ROWS))
        return [CatalogRow(row.shard, row.doc, row.lower, row.upper) for row in rows[:found.count]]

    def catalog_root(self, roots: Sequence[bytes]) -> bytes:
        """The root of the catalog whose shards have these roots, shard 0 first."""
        root = ctypes.create_string_buffer(32)
        self._call("ats_catalog_root", _bytes(b"".join(_root(it)[0] for it in roots)), (root,))
        return root.raw

    def text(self, file: bytes, root: bytes, doc: int) -> bytes:
        """The text of a document."""
        found = self._call("ats_text", _bytes(file), _root(root), _number(doc))
        return file[found.first:found.first + found.second]

    def growth(self, file: bytes, old_root: bytes, new_root: bytes) -> Growth:
        """The numbers of documents under both roots: the texts of the old one are the first of the new one."""
        found = self._call("ats_growth", _bytes(file), _root(old_root), _root(new_root))
        return Growth(found.first, found.second)

    def query(self, query: Union[str, bytes]) -> List[Term]:
        """The terms of a query, each once, in the order of their bytes."""
        terms = (CTerm * MOST_TERMS)()
        found = self._call("ats_query", _query(query), (terms, MOST_TERMS))
        return [Term(bytes(term.word[:term.size]), term.weight) for term in terms[:found.count]]

    def line(self, verdict: Verdict) -> str:
        text, size = ctypes.create_string_buffer(128), SIZE()
        if self._calls.ats_line(verdict, text, len(text), size):
            raise MemoryError
        return text.raw[:size.value].decode("ascii")

    def _call(self, name: str, *words: tuple) -> Verdict:
        verdict = Verdict()
        getattr(self._calls, name)(*[it for word in words for it in word], verdict)
        if verdict.status == 0:
            return verdict
        if verdict.status == 6:
            raise MemoryError
        kind = Refused if verdict.status == 1 else Fault
        shard = verdict.count if verdict.reason >= SHARD else None
        raise kind(self.line(verdict), verdict.status, verdict.reason, (verdict.first, verdict.second), shard)


def _bytes(data: bytes) -> tuple:
    if not isinstance(data, bytes):
        raise TypeError("a proof or a file is bytes")
    return data, len(data)


def _root(root: bytes) -> tuple:
    if not (isinstance(root, bytes) and len(root) == 32):
        raise ValueError("a root is 32 bytes, not its digits")
    return (root,)


def _query(query: Union[str, bytes]) -> tuple:
    return _bytes(query.encode() if isinstance(query, str) else query)


def _number(number: int) -> tuple:
    if not 0 <= number < 1 << 32:
        raise ValueError("a number of rows or of a document has 32 bits")
    return (number,)


def printed(reader: Reader, command: str, *words: str) -> bytes:
    """What the command prints for what is accepted."""
    roots = [bytes.fromhex(word) for word in words[:{"query": 0, "catalog-root": 0, "growth": 2}.get(command, 1)]]
    file = b"" if command == "query" else _read(words[-1])
    if command == "verify":
        rows = reader.check(file, *roots, words[2], int(words[1]))
        lines = [" ".join(map(str, (rank, *row))) for rank, row in enumerate(rows, 1)]
    elif command == "catalog":
        merged = reader.catalog(file, *roots, words[2], int(words[1]))
        lines = [" ".join(map(str, (rank, *row))) for rank, row in enumerate(merged, 1)]
    elif command == "catalog-root":
        lines = [reader.catalog_root(_listed(file)).hex()]
    elif command == "both":
        lines = list(map(str, reader.both(file, *roots, words[1])))
    elif command == "fetch":
        return reader.text(file, *roots, int(words[1])) + b"\n"
    elif command == "growth":
        lines = ["grown %d %d" % reader.growth(file, *roots)]
    else:
        lines = [f"{term.decode()} {weight}" for term, weight in reader.query(words[0])]
    return "".join(line + "\n" for line in lines).encode()


def _listed(file: bytes) -> List[bytes]:
    """The roots that the lines of a list spell."""
    lines = file[:-1].split(b"\n") if file.endswith(b"\n") else file.split(b"\n")
    good = [re.fullmatch(b"[0-9a-f]{64}", line) is not None for line in lines]
    if len(lines) > MOST_SHARDS or not all(good):
        bad = MOST_SHARDS if len(lines) > MOST_SHARDS else good.index(False)
        raise Fault(f"input: list line {bad + 1}", 4, 0, (bad + 1, 0))
    return [bytes.fromhex(line.decode("ascii")) for line in lines]


def _read(path: str) -> bytes:
    with open(path, "rb") as file:
        return file.read()


def main(library: str, *words: str) -> int:
    try:
        sys.stdout.buffer.write(printed(Reader(library), *words))
        return 0
    except Fault as fault:
        print(fault.line)
        return fault.status
    except MemoryError:
        print("memory")
        return 6


if __name__ == "__main__":
    sys.exit(main(*sys.argv[1:]))
