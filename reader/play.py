#!/usr/bin/env python3
"""Builds the callers, and plays all vectors of the checks and of words with each. Prints how many passed and failed, and
which callers were skipped since their toolchain is missing.

python3 reader/play.py              proves the static library by ./prove, builds it and plays
python3 reader/play.py ARCHIVE.a    takes a static library that is built already
"""
import argparse
import concurrent.futures
import ctypes
import json
import os
import shutil
import subprocess
import sys
import tempfile
import time
from typing import Any, Callable, Iterator, Optional

HERE = os.path.dirname(os.path.abspath(__file__))
TOP = os.path.dirname(HERE)
CRATE = os.path.join(TOP, "crates", "ats_reader")
sys.dont_write_bytecode = True
sys.path[:0] = [HERE, os.path.join(TOP, "tests")]
from ats_reader import CCatalogRow, CRow, CTerm, Fault, Reader, Verdict, printed
from trying import Tally

Entry = dict[str, Any]  # what a file of vectors has of one of them
Parts = list[list[Any]]  # long bytes: see vectors/README.md
Ended = tuple[int, bytes]  # a status, and what is printed
Call = Callable[[list[str], Optional[bytes]], Ended]  # of a command's words but for its file, and of that file
Told = tuple[int, int, int, int, int]  # the numbers of a verdict


def proved() -> str:
    """Proves the static library by ./prove, and returns its path."""
    if subprocess.run([os.path.join(TOP, "prove"), "ats_reader"]).returncode:
        sys.exit("there is no library to call: ./prove says above why it could not be built")
    return os.path.join(CRATE, "out", "libats_reader.a")


def library(named: Optional[str]) -> str:
    """The path of the static library: of the one that is named, or of the one that is proved."""
    if named is None:
        return proved()
    if not os.path.isfile(named):
        sys.exit(f"there is no library {named!r}: ./prove ats_reader makes crates/ats_reader/out/libats_reader.a")
    return named


def install(archive: str, folder: str) -> tuple[str, str]:
    """Installs the library below a folder by the Makefile, and returns the paths of its two forms."""
    words = [f"ARCHIVE={os.path.abspath(archive)}", f"PREFIX={folder}/prefix", f"OUT={folder}/made"]
    subprocess.run(["make", "--silent", "-C", HERE, "install", *words], check=True)
    return os.path.join(folder, "prefix", "lib", "libats_reader.a"), os.path.join(folder, "prefix", "lib", "libats_reader.so.1")


def build(archive: str, folder: str) -> tuple[str, str]:
    """Makes `check` by C and `libats_reader.so.1` in the folder."""
    static, shared = install(archive, folder)
    check = os.path.join(folder, "check")
    subprocess.run(["gcc", "-std=c11", "-O2", "-Wall", "-Wextra", "-Werror", "-I", HERE, "-o", check,
                    os.path.join(HERE, "check.c"), static], check=True)
    return check, shared


# ---- the callers: each a name, and the words that call it

def by_go(folder: str) -> list[str]:
    made, lib = os.path.join(folder, "check-go"), os.path.join(folder, "prefix", "lib")
    flags = {"PKG_CONFIG_PATH": os.path.join(lib, "pkgconfig"), "GOCACHE": os.path.join(folder, "go"), "GOPROXY": "off",
             "CGO_LDFLAGS_ALLOW": "-Wl,-rpath.*", "CGO_LDFLAGS": f"-Wl,-rpath,{lib}"}
    subprocess.run(["go", "build", "-o", made, os.path.join(HERE, "check.go")], check=True, env={**os.environ, **flags},
                   cwd=folder)
    return [made]


def by_rust(folder: str) -> list[str]:
    made, lib = os.path.join(folder, "check-rust"), os.path.join(folder, "prefix", "lib")
    subprocess.run(["rustc", "--edition", "2021", "-O", "-L", lib, "-C", f"link-arg=-Wl,-rpath,{lib}", "-o", made,
                    os.path.join(HERE, "check.rs")], check=True)
    return [made]


def by_node(folder: str) -> list[str]:
    return ["node", os.path.join(HERE, "check.mjs"), os.path.join(TOP, "web", "out", "page.wasm")]


def by_portable(folder: str) -> list[str]:
    return [os.path.join(HERE, "portable", "out", "check")]


def by_arm64(folder: str) -> list[str]:
    return ["qemu-aarch64", "-L", "/usr/aarch64-linux-gnu", os.path.join(HERE, "portable", "out", "check-arm64")]


# a caller: the tools and the files that must be there, and what makes it
SAMPLES: dict[str, tuple[list[str], list[str], Callable[[str], list[str]]]] = {
    "go": (["go", "pkg-config"], [], by_go),
    "rust": (["rustc"], [], by_rust),
    "node": (["node"], ["web/out/page.wasm"], by_node),
    "portable": ([], ["reader/portable/out/check"], by_portable),
    "arm64": (["qemu-aarch64"], ["reader/portable/out/check-arm64"], by_arm64),
}


def callers(check: str, folder: str) -> dict[str, list[str]]:
    """The callers that can be made here; the others are named."""
    made = {"c": [check]}
    for name, (tools, files, make) in SAMPLES.items():
        lacks = [tool for tool in tools if not shutil.which(tool)]
        lacks += [file for file in files if not os.path.exists(os.path.join(TOP, file))]
        if lacks:
            print(f"skipped: {name}, since there is no {lacks[0]}")
        else:
            made[name] = make(folder)
    return made


# ---- the vectors

def vector(name: str) -> Any:
    with open(os.path.join(TOP, "vectors", name + ".json"), encoding="ascii") as file:
        return json.load(file)


def joined(parts: Parts) -> bytes:
    """The bytes of parts, as vectors/README.md says."""
    out = bytearray()
    for part in parts:
        piece = bytes.fromhex(part[0])
        if len(part) == 2:
            out += piece * part[1]
        else:
            out += b"".join(i.to_bytes(4, "big") + piece for i in range(part[2], part[2] + part[1]))
    return bytes(out)


def changed(proof: bytes, changes: list[tuple[int, int, str]]) -> bytes:
    for start, end, digits in changes:
        proof = proof[:start] + bytes.fromhex(digits) + proof[end:]
    return proof


def lines(it: Entry) -> bytes:
    return "".join(line + "\n" for line in it["lines"]).encode("ascii")


def listed(words: list[str]) -> bytes:
    return "".join(word + "\n" for word in words).encode("ascii")


def bad_lists() -> Iterator[tuple[str, list[str], bytes, int, bytes]]:
    """Lists of roots in which a line is bad, and the line that is printed for it."""
    root = "5e" * 32
    for number, bad in [(1, b""), (1, b"\n"), (2, listed([root, root.upper()])), (2, listed([root]) + b"\r"),
                        (2, listed([root, ""])), (4097, listed(["x"] * 4097))]:
        yield "lists", ["catalog-root"], bad, 4, f"input: list line {number}\n".encode("ascii")


def verified(it: Entry, proof: bytes) -> tuple[list[str], bytes, int, bytes]:
    return ["verify", it["root"], str(it["r"]), it["query"]], proof, it["status"], lines(it)


def cases() -> Iterator[tuple[str, list[str], Optional[bytes], int, bytes]]:
    """Each vector: file, the words of a command but for its file, that file or None, the status, and what is printed."""
    proofs = vector("proofs")
    for it in proofs.values():
        yield "proofs", *verified(it, bytes.fromhex(it["proof"]))
    for it in vector("changed"):
        of = proofs[it["of"]]
        yield "changed", *verified({**of, **it}, changed(bytes.fromhex(of["proof"]), it["changes"]))
    for it in vector("made"):
        yield "made", *verified(it, bytes.fromhex(it["proof"]))
    for it in vector("inputs"):
        yield "inputs", *verified({**it, "root": "00" * 32, "query": it["text"] * it["times"]}, bytes(it["zeros"]))
    for it in vector("large"):
        yield "large", *verified(it, joined(it["proof"]))
    for it in vector("both"):
        yield "both", ["both", it["root"], it["query"]], joined(it["proof"]), it["status"], lines(it)
    for it in vector("catalogs"):
        yield "catalogs", ["catalog", it["root"], str(it["r"]), it["query"]], bytes.fromhex(it["proof"]), it["status"], lines(it)
        if "roots" in it:
            yield "catalogs", ["catalog-root"], listed(it["roots"]), 0, listed([it["root"]])
    yield from bad_lists()
    for it in vector("texts"):
        text = joined(it["text"]) + b"\n" if it["status"] == 0 else lines(it)
        yield "texts", ["fetch", it["root"], str(it["document"])], joined(it["file"]), it["status"], text
    for it in vector("growths"):
        yield "growths", ["growth", it["old_root"], it["new_root"]], joined(it["file"]), it["status"], lines(it)
    for it in vector("words"):
        if it["terms"] and len(it["terms"]) <= 32 and sum(count for _, count in it["terms"]) <= 255:
            yield "words", ["query", it["text"]], None, 0, "".join(f"{term} {count}\n" for term, count in it["terms"]).encode()


def by_program(program: list[str], folder: str, words: list[str], file: Optional[bytes]) -> Ended:
    """What a caller prints and how it ends."""
    with tempfile.NamedTemporaryFile(dir=folder) as to:
        to.write(file or b"")
        to.flush()
        words = words if file is None else [*words, to.name]
        ran = subprocess.run([*program, *(word.encode() for word in words)], capture_output=True, timeout=120)
    return ran.returncode, ran.stdout


def by_python(reader: Reader, folder: str, words: list[str], file: Optional[bytes]) -> Ended:
    name = os.path.join(folder, "file-python")
    with open(name, "wb") as to:
        to.write(file or b"")
    try:
        return 0, printed(reader, *words, *([] if file is None else [name]))
    except Fault as fault:
        return fault.status, fault.line.encode("ascii") + b"\n"


# ---- what no vector shows

def rooms(shared: str) -> Iterator[bool]:
    """Too little room, what is left of it, and a query that is not UTF-8."""
    calls, size = ctypes.CDLL(shared), ctypes.c_size_t
    it, all_of = vector("proofs")["two terms, three rows by tnra"], vector("both")[0]
    merged = next(it for it in vector("catalogs") if len(it.get("roots", [])) == 2 and len(it["lines"]) == it["r"] == 3)
    whole, asked = bytes.fromhex(merged["proof"]), merged["query"].encode()
    proof, root, query = bytes.fromhex(it["proof"]), bytes.fromhex(it["root"]), it["query"].encode()
    shown = [tuple(map(int, line.split()[1:])) for line in it["lines"]]

    def told(verdict: Verdict) -> Told:
        return verdict.status, verdict.reason, verdict.count, verdict.first, verdict.second

    def check(query: bytes, r: int, room: int) -> tuple[Told, list[tuple[int, ...]]]:
        rows, verdict = (CRow * 6)(*[(7, 8, 9)] * 6), Verdict()
        calls.ats_check(proof, size(len(proof)), root, query, size(len(query)), r, rows, size(room), ctypes.byref(verdict))
        return told(verdict), [(row.doc, row.lower, row.upper) for row in rows]

    def catalog(query: bytes, r: int, room: int) -> tuple[Told, list[tuple[int, ...]]]:
        rows, verdict = (CCatalogRow * 6)(*[(7, 8, 9, 10)] * 6), Verdict()
        calls.ats_catalog(whole, size(len(whole)), bytes.fromhex(merged["root"]), query, size(len(query)), r, rows, size(room),
                          ctypes.byref(verdict))
        return told(verdict), [(row.shard, row.doc, row.lower, row.upper) for row in rows]

    def root_of(roots: bytes) -> tuple[Told, bytes]:
        root, verdict = ctypes.create_string_buffer(b"." * 32, 32), Verdict()
        calls.ats_catalog_root(roots, size(len(roots)), root, ctypes.byref(verdict))
        return told(verdict), root.raw

    def both(room: int) -> tuple[Told, list[int]]:
        docs, verdict, bytes_of = (ctypes.c_uint32 * 6)(*[7] * 6), Verdict(), joined(all_of["proof"])
        text = all_of["query"].encode()
        calls.ats_both(bytes_of, size(len(bytes_of)), bytes.fromhex(all_of["root"]), text, size(len(text)), docs, size(room),
                       ctypes.byref(verdict))
        return told(verdict), list(docs)

    def terms(query: bytes, room: int) -> tuple[Told, list[tuple[bytes, int, int]]]:
        terms, verdict = (CTerm * 3)(*[(tuple([7] * 64), 8, 9)] * 3), Verdict()
        calls.ats_query(query, size(len(query)), terms, size(room), ctypes.byref(verdict))
        return told(verdict), [(bytes(term.word), term.size, term.weight) for term in terms]

    def line(verdict: Told, room: int) -> tuple[int, int, bytes]:
        text, told = ctypes.create_string_buffer(b"." * 30, 30), size(99)
        status = calls.ats_line(ctypes.byref(Verdict(*verdict)), text, size(room), ctypes.byref(told))
        return status, told.value, text.raw

    untouched, kept = [(7, 8, 9)] * 6, (bytes([7] * 64), 8, 9)
    yield check(query, 3, 6) == ((0, 0, 3, 0, 0), shown + untouched[3:])
    yield check(query, 3, 3) == ((0, 0, 3, 0, 0), shown + untouched[3:])
    yield check(query, 3, 2) == ((2, 3, 0, 2, 0), untouched)
    yield check(query, 0, 0) == ((4, 2, 0, 0, 0), untouched)
    yield check(query, 1001, 6) == ((4, 2, 0, 1001, 0), untouched)
    yield check(b"red \xff", 3, 6) == ((2, 1, 0, 0, 0), untouched)
    yield check(b"...", 3, 6) == ((4, 5, 0, 0, 0), untouched)
    yield check(query, 2, 6) == ((1, 33, 0, 0, 0), untouched)
    best, left = [tuple(map(int, line.split()[1:])) for line in merged["lines"]], [(7, 8, 9, 10)] * 6
    yield catalog(asked, 3, 6) == ((0, 0, 3, 0, 0), best + left[3:])
    yield catalog(asked, 3, 2) == ((2, 3, 0, 2, 0), left)
    yield catalog(asked, 1001, 6) == ((4, 2, 0, 1001, 0), left)
    yield catalog(b"red \xff", 3, 6) == ((2, 1, 0, 0, 0), left)
    yield catalog(asked, 2, 6) == ((1, 33, 0, 0, 0), left)
    yield catalog(b"red fox", 3, 6) == ((1, 84, 0, 0, 0), left)
    shards = b"".join(map(bytes.fromhex, merged["roots"]))
    yield root_of(shards) == ((0, 0, 2, 0, 0), bytes.fromhex(merged["root"]))
    for wrong in (b"", shards[1:], bytes(32 * 4097)):
        yield root_of(wrong) == ((4, 49, 0, len(wrong), 0), b"." * 32)
    found = list(map(int, all_of["lines"]))
    yield both(6) == ((0, 0, len(found), 0, 0), found + [7] * (6 - len(found)))
    yield both(len(found)) == ((0, 0, len(found), 0, 0), found + [7] * (6 - len(found)))
    yield both(len(found) - 1) == ((2, 38, 0, len(found) - 1, len(found)), [7] * 6)
    yield terms(b"Red hen red", 3) == ((0, 0, 2, 0, 0), [(b"hen" + bytes(61), 3, 1), (b"red" + bytes(61), 3, 2), kept])
    yield terms(b"Red hen red", 1) == ((2, 48, 0, 1, 2), [kept] * 3)
    yield terms(b"red \xff", 3) == ((2, 1, 0, 0, 0), [kept] * 3)
    yield terms(b"...", 3) == ((4, 5, 0, 0, 0), [kept] * 3)
    yield line((1, 30, 0, 12, 3), 30) == (0, 23, b"refused: term-slot 12 3" + b"." * 7)
    yield line((1, 30, 0, 12, 3), 23) == (0, 23, b"refused: term-slot 12 3" + b"." * 7)
    yield line((1, 30, 0, 12, 3), 22) == (2, 23, b"." * 30)
    yield line((2, 3, 0, 2, 0), 30) == (0, 22, b"usage: room for 2 rows" + b"." * 8)
    yield line((2, 38, 0, 2, 3), 30) == (0, 27, b"usage: room for 2 documents" + b"." * 3)
    yield line((2, 1, 0, 0, 0), 30) == (0, 25, b"usage: query is not UTF-8" + b"." * 5)
    yield line((6, 34, 0, 0, 0), 30) == (0, 6, b"memory" + b"." * 24)
    yield line((1, 94, 1, 12, 3), 30) == (2, 31, b"." * 30)
    yield line((1, 73, 4, 12, 0), 30) == (0, 29, b"refused: shard 4 shape cut 12.")
    yield line((0, 0, 3, 0, 0), 30) == (0, 0, b"." * 30)
    yield line((1, 97, 0, 0, 0), 30) == (0, 0, b"." * 30)
    yield line((1, 80, 2 ** 32, 0, 0), 30) == (0, 0, b"." * 30)


def compare(made: dict[str, list[str]], folder: str) -> None:
    """Prints how long the library and its portable form take for the longest accepted proof, from start to end."""
    words, file = max(((it[1], it[2]) for it in cases() if it[0] == "large" and it[3] == 0), key=lambda it: len(it[1]))
    for name in ("c", "portable"):
        times = []
        for _ in range(5 if name in made else 0):
            start = time.perf_counter()
            by_program(made[name], folder, words, file)
            times.append(time.perf_counter() - start)
        if times:
            print(f"{name}: {min(times) * 1e3:.0f} ms for a proof of {len(file):,} bytes")


def play(name: str, call: Call, many: bool) -> list[Tally]:
    """Plays all vectors with a caller, and counts each file; a program is called for several at a time."""
    tallies: dict[str, Tally] = {}
    with concurrent.futures.ThreadPoolExecutor(os.cpu_count() if many else 1) as pool:
        # A word that a program is called with has no byte 0.
        all_cases = [it for it in cases() if not (many and "\0" in "".join(it[1]))]
        got = pool.map(lambda it: call(it[1], it[2]), all_cases)
        for (file, words, _, status, text), found in zip(all_cases, got):
            about = f"{words[-1][:40]!r} {text[:60]} {found[0]} {found[1][:60]}"
            tallies.setdefault(file, Tally(f"{file} by {name}")).check(about, found == (status, text))
    return list(tallies.values())


def play_rooms(shared: str) -> Tally:
    tally = Tally("rooms")
    for i, right in enumerate(rooms(shared)):
        tally.check(str(i), right)
    return tally


def main(archive: str) -> int:
    every = Tally()
    with tempfile.TemporaryDirectory() as folder:
        check, shared = build(archive, folder)
        reader = Reader(shared)
        tallies = play("python", lambda words, file: by_python(reader, folder, words, file), False)
        made = callers(check, folder)
        for name, program in made.items():
            tallies += play(name, lambda words, file: by_program(program, folder, words, file), True)
        compare(made, folder)
        tallies.append(play_rooms(shared))
    for tally in tallies:
        print(f"{tally.case}: {tally.passed}")
        every.add(tally)
    return every.conclude()


if __name__ == "__main__":
    words = argparse.ArgumentParser(description=__doc__, formatter_class=argparse.RawDescriptionHelpFormatter)
    words.add_argument("archive", metavar="ARCHIVE.a", nargs="?")
    sys.exit(main(library(words.parse_args().archive)))
