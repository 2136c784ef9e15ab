#!/usr/bin/env python3
"""Makes the files of this folder, and the cases of them that the gate plays: `vectors/make.py [PROGRAM]`, where PROGRAM
is `./ats` at the top if it is not given. If that is a build without proof, its first call says so.

Roots and honest proofs of both formats come from the program. The roots, and the proofs of format Two, must be those
that this script makes itself. The changes of honest proofs, and the trees that no archive has, are made here. The
expected results are those of `client.py`. If the program gives any other, this script stops and writes no further
file. README.md explains the files. The script needs only Python's standard library.
"""
from __future__ import annotations

import copy
import functools
import hashlib
import json
import subprocess
import sys
import tempfile
from dataclasses import dataclass, field
from pathlib import Path
from typing import Any, Callable, Collection, Iterable, Iterator, Optional, Sequence, TypeVar, Union

import blocks
import client

HERE = Path(__file__).resolve().parent
TOP = HERE.parent
LONGEST = 2**26
NOTHING = bytes(32)
BLOCK = 64

# How the lists of an archive are hashed, as the version of its proofs: each is one tree, or in blocks.
ONE, TWO = 1, 2
HEADER_TAGS = {ONE: b'\2', TWO: b'\4'}

T = TypeVar('T')
Entry = dict[str, Any]  # what a file of vectors has of one of them
Parts = list[list[Any]]  # long bytes: see below
Pair = tuple[int, int]
Piece = tuple[str, bytes]
Named = Iterator[Piece]  # bytes, each with what they are
Archives = dict[int, dict[str, 'Archive']]  # by format and name
Change = Callable[['Proof', 'Archive'], Any]
Shown = tuple[str, 'Made', int, str]  # what it shows, and its question
Whole = Union['Proof', 'Given', 'Grown', 'Catalog']  # what has fields


# The program

class Program:
    """The program over files in a folder of its own."""

    def __init__(self, path: Path, folder: str) -> None:
        self.path = str(path)
        self.folder = Path(folder)
        self.errors: Optional[int] = None

    def run(self, *words: str) -> tuple[int, str]:
        done = subprocess.run([self.path, *words], cwd=self.folder, stdout=subprocess.PIPE, stderr=self.errors, check=False)
        self.errors = subprocess.DEVNULL  # ./ats says at each call that its build is not proved, and once is enough
        return done.returncode, done.stdout.decode()

    def done(self, *words: str) -> str:
        status, text = self.run(*words)
        if status != 0:
            raise SystemExit(f'{words}: status {status}: {text}')
        return text

    def build(self, texts: list[str]) -> tuple[bytes, str]:
        """The bytes of the index, and the root in hexadecimal."""
        (self.folder / 'collection').write_text(json.dumps(texts), encoding='ascii')
        root = self.done('build', 'collection', 'index').strip()
        return (self.folder / 'index').read_bytes(), root

    def migrate(self, index: bytes) -> tuple[bytes, str]:
        """The bytes of the index of the same texts in format TWO, and the root in hexadecimal."""
        (self.folder / 'index').write_bytes(index)
        root = self.done('migrate', 'index', 'index').strip()
        return (self.folder / 'index').read_bytes(), root

    def rank(self, r: int, query: str) -> str:
        return self.done('rank', 'collection', str(r), query)

    def prove(self, index: bytes, algorithm: str, r: int, query: str) -> bytes:
        (self.folder / 'index').write_bytes(index)
        self.done('prove', 'index', algorithm, str(r), query, 'proof')
        return (self.folder / 'proof').read_bytes()

    def verify(self, root: str, r: int, query: str, proof: bytes) -> Entry:
        """The status and the lines."""
        (self.folder / 'proof').write_bytes(proof)
        status, text = self.run('verify', root, str(r), query, 'proof')
        return agreed((root, r, query), {'status': status, 'lines': text.splitlines()}, client.verify(root, r, query, proof))


def agreed(about: object, told: Any, wanted: T) -> T:
    """The result of the second client, which must be that of the program."""
    if told != wanted:
        raise SystemExit(f'{about}: the program prints {told}, and the second client {wanted}')
    return wanted


# Trees

def digest(data: bytes) -> bytes:
    return hashlib.sha256(data).digest()


def number(value: int, size: int) -> bytes:
    return value.to_bytes(size, 'big')


def split(count: int) -> int:
    """The largest power of two below the count."""
    return 1 << ((count - 1).bit_length() - 1)


def tree_root(leaves: list[bytes]) -> bytes:
    if len(leaves) == 1:
        return digest(b'\0' + leaves[0])
    middle = split(len(leaves))
    return digest(b'\1' + tree_root(leaves[:middle]) + tree_root(leaves[middle:]))


def elided(leaves: list[bytes], shown: Collection[int], start: int = 0) -> list[bytes]:
    """The digests of the maximal subtrees without a shown position, from left to right."""
    if not any(start <= at < start + len(leaves) for at in shown):
        return [tree_root(leaves)]
    if len(leaves) == 1:
        return []
    middle = split(len(leaves))
    return elided(leaves[:middle], shown, start) + elided(leaves[middle:], shown, start + middle)


def rebuilt(count: int, shown: list[tuple[int, bytes]], digests: list[bytes], start: int = 0) -> bytes:
    """The root of `count` leaves, of which some are shown as pairs; the digests are taken from left to right."""
    if not shown:
        return digests.pop(0)
    if count == 1:
        return digest(b'\0' + shown[0][1])
    middle = split(count)
    left = rebuilt(middle, [leaf for leaf in shown if leaf[0] < start + middle], digests, start)
    right = rebuilt(count - middle, [leaf for leaf in shown if leaf[0] >= start + middle], digests, start + middle)
    return digest(b'\1' + left + right)


def link(root: bytes, after: bytes) -> bytes:
    """The digest of the string of a block."""
    return digest(b'\3' + root + after)


def chain_root(leaves: list[bytes]) -> bytes:
    """The digest of a list in blocks."""
    after = NOTHING
    for start in reversed(range(0, len(leaves), BLOCK)):
        after = link(tree_root(leaves[start:start + BLOCK]), after)
    return after


def list_root(version: int, leaves: list[bytes]) -> bytes:
    return tree_root(leaves) if version == ONE else chain_root(leaves)


def list_digests(version: int, leaves: list[bytes], count: int) -> list[bytes]:
    """The digests that the first `count` leaves of a list need."""
    if version == ONE:
        return elided(leaves, range(count))
    start = (count - 1) // BLOCK * BLOCK
    block, after = leaves[start:start + BLOCK], leaves[start + BLOCK:]
    return elided(block, range(count - start)) + ([chain_root(after)] if after else [])


def rebuilt_list(version: int, count: int, shown: list[bytes], digests: list[bytes]) -> bytes:
    """The root of a list of `count` leaves, of which the first ones are shown."""
    if version == ONE:
        return rebuilt(count, list(enumerate(shown)), digests)
    starts = range(0, len(shown), BLOCK)
    after = digests.pop() if BLOCK * len(starts) < count else NOTHING
    for start in reversed(starts):
        block = list(enumerate(shown[start:start + BLOCK]))
        after = link(rebuilt(min(BLOCK, count - start), block, digests), after)
    return after


def dictionary_leaf(term: bytes, count: int, root: bytes) -> bytes:
    return number(len(term), 1) + term + number(count, 4) + root


def terms_leaf(term: bytes, impact: int) -> bytes:
    return number(len(term), 1) + term + number(impact, 2)


def list_leaf(document: int, impact: int) -> bytes:
    return number(document, 4) + number(impact, 2)


def documents_leaf(count: int, root: bytes) -> bytes:
    return number(count, 4) + root


def root_of_header(version: int, header: Header) -> str:
    return digest(HEADER_TAGS[version] + header.data()).hex()


# Archives

class Archive:
    """What the bytes of an index say, with all trees made again in the format of its version. Its root, which the
    program has printed, must be the one that these trees give."""

    def __init__(self, index: bytes, printed: str) -> None:
        self.index = index
        self.version = index[4]
        self.at = 5
        self.texts = [self.take(self.number(4)) for _ in range(self.number(4))]
        self.lists: dict[bytes, list[Pair]] = {}
        for _ in range(self.number(4)):
            term = self.take(self.number(1))
            self.lists[term] = [(self.number(4), self.number(2)) for _ in range(self.number(4))]
        told = self.take(32).hex()
        self.make_trees()
        if not self.root == told == printed:
            raise SystemExit('the root of this script is not the root of the program')

    def take(self, size: int) -> bytes:
        self.at += size
        return self.index[self.at - size:self.at]

    def number(self, size: int) -> int:
        return int.from_bytes(self.take(size), 'big')

    def make_trees(self) -> None:
        terms = [(term, len(entries), list_root(self.version, self.list_leaves(term)))
                 for term, entries in sorted(self.lists.items())]
        self.dictionary = [(b'', 0, NOTHING), *terms, (b'\xff', 0, NOTHING)]
        self.documents: list[list[tuple[bytes, int]]] = [[(b'', 0)] for _ in self.texts]
        for term, entries in sorted(self.lists.items()):
            for document, impact in entries:
                self.documents[document].append((term, impact))
        for own in self.documents:
            own.append((b'\xff', 0))
        self.document_leaves = [documents_leaf(len(own), tree_root([terms_leaf(*leaf) for leaf in own]))
                                for own in self.documents]
        roots = [tree_root([dictionary_leaf(*leaf) for leaf in self.dictionary]), tree_root(self.document_leaves),
                 tree_root(self.texts)]
        self.header = Header(1, len(self.texts), len(self.dictionary), roots)
        self.root = root_of_header(self.version, self.header)

    def list_leaves(self, term: bytes) -> list[bytes]:
        return [list_leaf(*entry) for entry in self.lists[term]]

    def terms_section(self, document: int, positions: Collection[int]) -> tuple[list[tuple[int, bytes, int]], list[bytes]]:
        """Leaves and digests of a document's terms, of which these positions are shown."""
        terms = self.documents[document]
        leaves = [(at, *terms[at]) for at in positions]
        return leaves, elided([terms_leaf(*leaf) for leaf in terms], positions)


def migrated(program: Program, archive: Archive) -> Archive:
    """The same texts in format TWO. The bytes of the index may differ in the version and in the root alone."""
    other = Archive(*program.migrate(archive.index))
    if other.index != archive.index[:4] + number(TWO, 1) + archive.index[5:-32] + bytes.fromhex(other.root):
        raise SystemExit('the program migrates otherwise than this script')
    return other


# Proofs

@dataclass
class Header:
    version: int
    documents: int
    leaves: int
    roots: list

    def data(self) -> bytes:
        return b''.join(data for _, data in self.fields())

    def fields(self) -> Named:
        yield 'version of the header', number(self.version, 1)
        yield 'number of documents', number(self.documents, 4)
        yield 'number of dictionary leaves', number(self.leaves, 4)
        for name, root in zip(('dictionary', 'documents', 'texts'), self.roots):
            yield f'root of the {name}', root


@dataclass
class Prefix:
    entries: list
    digests: list


@dataclass
class Section:
    leaves: list
    digests: list
    slots: list


@dataclass
class Proof:
    """The fields of a proof."""
    algorithm: int
    header: Header
    terms: int
    leaves: list
    digests: list
    slots: list
    met: list
    prefixes: list
    documents: list = field(default_factory=list)
    document_digests: list = field(default_factory=list)
    sections: list = field(default_factory=list)
    rows: list = field(default_factory=list)
    version: int = ONE

    def root(self) -> str:
        return root_of_header(self.version, self.header)

    def data(self) -> bytes:
        return b''.join(data for _, data in self.fields())

    def fields(self) -> Named:
        """Each field's name and bytes, in order."""
        yield 'magic', b'ATSP'
        yield 'version', number(self.version, 1)
        yield 'algorithm', number(self.algorithm, 1)
        yield from self.header.fields()
        yield 'number of terms', number(self.terms, 2)
        yield 'dictionary: number of leaves', number(len(self.leaves), 2)
        for at, term, count, root in self.leaves:
            yield 'dictionary leaf: position', number(at, 4)
            yield from term_fields('dictionary leaf', term)
            yield 'dictionary leaf: number of documents', number(count, 4)
            yield 'dictionary leaf: root of the list', root
        yield from digest_fields('dictionary', self.digests, 2)
        yield from slot_fields('slot', self.slots)
        yield 'number of met documents', number(len(self.met), 4)
        for document in self.met:
            yield 'met document', number(document, 4)
        for prefix in self.prefixes:
            yield 'list: number of entries', number(len(prefix.entries), 4)
            for place, impact in prefix.entries:
                yield 'entry: place among the met documents', number(place, 4)
                yield 'entry: impact', number(impact, 2)
            yield from digest_fields('list', prefix.digests, 2)
        if self.algorithm == 1:
            yield from self.document_fields()
        yield 'number of rows', number(len(self.rows), 2)
        for row in self.rows:
            yield 'row: place among the met documents', number(row, 4)

    def document_fields(self) -> Named:
        for count, root in self.documents:
            yield 'documents leaf: number of leaves of its terms', number(count, 4)
            yield 'documents leaf: root of its terms', root
        yield from digest_fields('documents', self.document_digests, 4)
        for section in self.sections:
            yield 'terms: number of leaves', number(len(section.leaves), 2)
            for at, term, impact in section.leaves:
                yield 'terms leaf: position', number(at, 4)
                yield from term_fields('terms leaf', term)
                yield 'terms leaf: impact', number(impact, 2)
            yield from digest_fields('terms', section.digests, 2)
            yield from slot_fields('terms slot', section.slots)


def term_fields(name: str, term: bytes) -> Named:
    yield f'{name}: length of the term', number(len(term), 1)
    yield f'{name}: term', term


def digest_fields(name: str, digests: list[bytes], size: int) -> Named:
    yield f'{name}: number of digests', number(len(digests), size)
    for each in digests:
        yield f'{name}: digest', each


def slot_fields(name: str, slots: list[Pair]) -> Named:
    for kind, index in slots:
        yield f'{name}: kind', number(kind, 1)
        yield f'{name}: index', number(index, 2)


class Reader:
    """Reads the bytes of an honest proof."""

    def __init__(self, data: bytes) -> None:
        self.data = data
        self.at = 4

    def take(self, size: int) -> bytes:
        self.at += size
        return self.data[self.at - size:self.at]

    def number(self, size: int) -> int:
        return int.from_bytes(self.take(size), 'big')

    def digests(self, size: int) -> list[bytes]:
        return [self.take(32) for _ in range(self.number(size))]

    def slots(self, count: int) -> list[Pair]:
        return [(self.number(1), self.number(2)) for _ in range(count)]

    def proof(self) -> Proof:
        version, algorithm = self.number(1), self.number(1)
        header = Header(self.number(1), self.number(4), self.number(4), [self.take(32) for _ in range(3)])
        terms = self.number(2)
        leaves = [(self.number(4), self.take(self.number(1)), self.number(4), self.take(32))
                  for _ in range(self.number(2))]
        digests = self.digests(2)
        slots = self.slots(terms)
        met = [self.number(4) for _ in range(self.number(4))]
        present = sum(kind for kind, _ in slots)
        prefixes = [self.prefix() for _ in range(present)]
        proof = Proof(algorithm, header, terms, leaves, digests, slots, met, prefixes, version=version)
        if algorithm == 1:
            proof.documents = [(self.number(4), self.take(32)) for _ in met]
            proof.document_digests = self.digests(4)
            proof.sections = [self.section(present) for _ in met]
        proof.rows = [self.number(4) for _ in range(self.number(2))]
        if proof.data() != self.data:
            raise SystemExit('this script encodes a proof otherwise than the program')
        return proof

    def prefix(self) -> Prefix:
        entries = [(self.number(4), self.number(2)) for _ in range(self.number(4))]
        return Prefix(entries, self.digests(2))

    def section(self, present: int) -> Section:
        leaves = [(self.number(4), self.take(self.number(1)), self.number(2)) for _ in range(self.number(2))]
        return Section(leaves, self.digests(2), self.slots(present))


def with_places(proof: Whole) -> Iterator[tuple[str, int, int]]:
    """Each field's name, first byte and end."""
    at = 0
    for name, data in proof.fields():
        yield name, at, at + len(data)
        at += len(data)


def patched(data: bytes, changes: list[list[Any]]) -> bytes:
    for start, end, hexadecimal in reversed(changes):
        data = data[:start] + bytes.fromhex(hexadecimal) + data[end:]
    return data


def difference(old: bytes, new: bytes) -> list[list[Any]]:
    """One change that turns the old bytes into the new ones, without what they have in common at both ends."""
    start = 0
    while start < min(len(old), len(new)) and old[start] == new[start]:
        start += 1
    kept = 0
    while kept < min(len(old), len(new)) - start and old[-1 - kept] == new[-1 - kept]:
        kept += 1
    return [[start, len(old) - kept, new[start:len(new) - kept].hex()]]


# The collections and the questions

def drawn_texts() -> list[str]:
    """Texts of small words, of which few are frequent and many are rare."""
    state, texts = 1, []
    for document in range(40):
        words = []
        for _ in range(4 + document % 7):
            state = (6364136223846793005 * state + 1442695040888963407) % 2**64
            words.append(f'w{((state >> 33) % 13) * ((state >> 45) % 13) // 13}')
        texts.append(' '.join(words))
    return texts


COLLECTIONS = {
    'foxes': ['red fox', 'red red hen', 'blue hen'],
    'silent': ['!!'],
    'street': ['Stra\u00dfe'],
    'dogs': ["The quick brown fox doesn't jump.", 'The lazy dog sleeps. The dog dreams.'],
    'ties': ['ant bee', 'bee ant', 'ant ant cat', 'bee cat', 'cat', 'dog bee', 'ant bee', '', '...'],
    'beyond': [
        'Stra\u00dfe und Gasse', 'STRASSE, Stra\u00dfe!', '\u039f\u0394\u039f\u03a3 \u03bf\u03b4\u03cc\u03c2',
        '\u041c\u043e\u0441\u043a\u0432\u0430 \u2014 \u041c\u041e\u0421\u041a\u0412\u0410',
        '\u6771\u4eac\u30bf\u30ef\u30fc', '\ufb01n fin \u00bd \u2167', 'na\u00efve nai\u0308ve', '\ua7ce \ua7cf',
        "L'\u00e9t\u00e9 \u05e9\u05f4\u05e1 x\u0345y",
    ],
    'planes': ['\uff21 \U00010400', '\U00010428'],
    'copies': ['a'] * 200,
    'one more than a block': ['a'] * 65,
    'more foxes': ['red fox', 'red red hen', 'blue hen', 'fox hen'],
    'three letters': list('abc'),
    'six letters': list('abcdef'),
    'seven letters': list('abcdefg'),
    'drawn': drawn_texts(),
    'sample': [item['text'] for item in json.loads((TOP / 'examples/archive.json').read_text(encoding='utf-8'))],
}

QUESTIONS = {
    'two terms': ('foxes', 1, 'red hen'), 'two terms, two rows': ('foxes', 2, 'red hen'),
    'two terms, three rows': ('foxes', 3, 'RED hen'), 'one term': ('foxes', 5, 'fox'),
    'absent, after all': ('foxes', 1, 'zebra'), 'absent, before all': ('foxes', 1, 'aaa'),
    'a term twice': ('foxes', 1, 'red hen hen'), 'bounds that differ': ('foxes', 1, 'fox red'),
    'present and absent': ('foxes', 2, 'aaa red hen zebra'),
    'an absent term, then two of other weights': ('foxes', 2, 'aaa red red hen'),
    'an absent term twice, then two': ('foxes', 2, 'aaa aaa red hen'), 'more rows than documents': ('foxes', 1000, 'red'),
    'four terms': ('foxes', 2, 'hen blue red fox'), 'a term 255 times': ('foxes', 1, 'red ' * 255),
    '32 terms': ('foxes', 1, 'red ' + ' '.join(f'a{i}' for i in range(31))),
    'no term in the archive': ('silent', 1, 'red'), 'folded': ('street', 1, 'STRASSE'),
    'two documents': ('dogs', 10, 'The dog'), 'an apostrophe': ('dogs', 1, "DOESN'T"),
    'a tie for one row': ('ties', 1, 'ant'), 'a tie for two rows': ('ties', 2, 'ant'),
    'ties of two terms': ('ties', 3, 'ant bee'), 'a tie of many': ('ties', 4, 'bee'),
    'two rare terms': ('ties', 1000, 'cat dog'),
    'sharp s': ('beyond', 3, 'STRASSE'), 'Greek': ('beyond', 2, '\u039f\u0394\u039f\u03a3'),
    'Cyrillic': ('beyond', 1, '\u043c\u043e\u0441\u043a\u0432\u0430'),
    'Japanese': ('beyond', 2, '\u6771 \u30bf\u30ef\u30fc'), 'a ligature and numbers': ('beyond', 2, 'FIN \u00bd \u2177'),
    'of Unicode 17': ('beyond', 1, '\ua7ce'), 'marks': ('beyond', 2, "na\u00efve l'\u00e9t\u00e9 X\u03b9Y"),
    'on both sides of U+10000': ('planes', 1, '\U00010428 \uff41'),
    'absent, below U+10000': ('planes', 1, '\uff42'), 'absent, above U+10000': ('planes', 1, '\U00010429'),
    'one of many copies': ('copies', 1, 'a'),
    'a frequent word': ('drawn', 3, 'w0'), 'two drawn words': ('drawn', 2, 'w3 w5'),
    'drawn words, one twice': ('drawn', 1, 'w1 w8 w8'),
    'the sample': ('sample', 3, 'blood count'), 'the court': ('sample', 1, 'the court'),
}


# Questions whose proofs are also given with lists in blocks.
IN_BLOCKS = ['two terms', 'one of many copies']


def honest(program: Program, archives: Archives) -> dict[str, Entry]:
    """Each question by each algorithm, with the proof and the lines that verify prints for it."""
    proofs: dict[str, Entry] = {}

    def tell(name: str, version: int, algorithm: str, data: bytes) -> None:
        archive, r, query = QUESTIONS[name]
        root = archives[version][archive].root
        told = program.verify(root, r, query, data)
        blocks = ', in blocks,' if version == TWO else ''
        proofs[f'{name}{blocks} by {algorithm}'] = {
            'archive': archive, 'root': root, 'algorithm': algorithm, 'r': r, 'query': query, **told,
            'proof': data.hex(),
        }

    for name, (archive, r, query) in QUESTIONS.items():
        for algorithm in ('tnra', 'tra'):
            one, two = honest_in_both(program, archives, archive, algorithm, r, query)
            tell(name, ONE, algorithm, one)
            if name in IN_BLOCKS:
                tell(name, TWO, algorithm, two)
    return proofs


def honest_in_both(program: Program, archives: Archives, name: str, algorithm: str, r: int, query: str) -> tuple[bytes, bytes]:
    """The program's proofs of both formats. Only the lists' digests differ, and what follows from them."""
    one, two = (program.prove(archives[version][name].index, algorithm, r, query) for version in (ONE, TWO))
    if in_blocks(one, archives[TWO][name]).data() != two:
        raise SystemExit(f'{name}, {algorithm}, {r}, {query}: the program proves otherwise in blocks than this script')
    return one, two


def in_blocks(data: bytes, archive: Archive) -> Proof:
    """The honest proof of the same texts for this archive, whose lists are in blocks."""
    proof = Reader(data).proof()
    proof.version, proof.header = TWO, archive.header
    shown_leaves([leaf[0] for leaf in proof.leaves])(proof, archive)
    terms = [proof.leaves[index][1] for kind, index in proof.slots if kind]
    for term, prefix in zip(terms, proof.prefixes):
        prefix.digests = list_digests(TWO, archive.list_leaves(term), len(prefix.entries))
    return proof


# What the tables of Unicode decide

WORDS = [
    'red fox', 'RED Fox red', "doesn't", 'doesn\u2019t', "can't've", "'quoted'", 'a.b', 'example.com.', '3.14',
    '1,000.50', '1, 2', '1.a', 'a:b', 'a\u00b7b', 'foo_bar __init__', '_', 'x-ray', 'user@example.org', 'e2e 2nd',
    'Stra\u00dfe STRASSE', '\u1e9e', '\ufb01n', '\u0149', '\u0130stanbul', 'ISTANBUL \u0131stanbul',
    '\u039f\u0394\u039f\u03a3 \u03bf\u03b4\u03bf\u03c2 \u03bf\u03b4\u03cc\u03c2', '\u1fb3 \u0391\u0399', '\u01c4 \u01c5 \u01c6',
    '\u212a \u212b', '\u00e9 e\u0301', '\u041c\u041e\u0421\u041a\u0412\u0410 \u0401', '\u0540\u0561\u0575 \u0587',
    '\u13a0 \uab70', '\u1c90 \u10d0', '\u6771\u4eac\u30bf\u30ef\u30fc', '\u3072\u3089', '\uff76\uff80\uff76\uff85',
    '\ud55c\uad6d\uc5b4', '\u0e44\u0e17\u0e22', '\u05e9\u05f4\u05e1 \u05e9"\u05e1 a"b', '\u0633\u0644\u0627\u0645',
    '\u0939\u093f\u0928\u094d\u0926\u0940', '\u00bd \u00b2 \u2460', '\u2160 \u2167', '\u24b6 \u24d0', '\u0345', ' \u0345',
    'x\u0345y', '\U0001f44d \U0001f600', '1\ufe0f\u20e3', '\U0001f1e9\U0001f1ea', 'soft\u00adhyphen', 'zero\u200dwidth',
    'zero\u200bwidth', 'a\u0000b', 'a\r\nb', '\uff11\uff12\uff13 \uff21', '\u0663\u066b\u0661\u0664', '\U0001d400',
    'a\u0378b', '\ue000', '\ufeffa', '\u1c89 \u1c8a', '\ua7ce \ua7cf', '\ua7dd \u0277', '\U00016ea0 \U00016ebb',
    'a' * 64, 'a' * 65, '\u00df' * 32, '\u00df' * 33, '\u0130' * 22, '\u4e00' + 'b' * 63,
    'a\u200d\U0001f600', '\u24b6\u200d\u24c2', '  \u0345', '\n\u0345', '\u0345\u0345', '\U0001f1e6\U0001f1e7\u0345',
    "\u05d0'", '\u05d0\' \u05d0"', "a\u0308'b", '\uff41 \U00010428',
    "1'2", '1;2', '1:2', 'a,b', 'a;b', 'a_.b', 'a._b', 'a.1', 'a..b', '1..2', "a'\u0308b",
    '\U0001f1e6\U0001f1e7\U0001f1e8\U0001f1e9\u0345', '\U0001f1e6\U0001f1e7\u0345\U0001f1e8\U0001f1e9',
    '\U0001f1e6\u0345\U0001f1e7\U0001f1e8\U0001f1e9', 'a\u200d#', ' \u0345 \u0345',
    '1_2', '_1', '1_', '\u30bf_\u30bf', '_\u30bf', '\u30bf_', 'a\u30bf \u30bfa', '\u05d0"a a"\u05d0',
    '\u000b\u0345', '\u0085\u0345', '\u2028\u0345', '\r\u0345', '\n\u0308a', 'a\u200d\u0308\U0001f600',
]


def terms_of(program: Program, text: str) -> list[list[Any]]:
    """The terms of a text with their counts, read from the index of this one text."""
    archive = Archive(*program.build([text]))
    impacts = {1 + 22000 * count // (10 * count + 12): count for count in range(1, 50)}
    told = [(term, impacts[entries[0][1]]) for term, entries in sorted(archive.lists.items())]
    return [[term.decode(), count] for term, count in agreed(text, told, client.terms(text))]


# Numbers: documents, documents that have the term, how often each of these has it, and other words there

NUMBERS = [
    (1, 1, 1, 0), (2, 1, 1, 0), (3, 1, 1, 1), (3, 2, 1, 2), (5, 2, 3, 1), (36, 5, 2, 10), (100, 100, 3, 7),
    (1000, 1, 1, 0), (1000, 10, 4, 60), (5000, 40, 1, 200), (65536, 1, 1, 0), (65536, 2, 7, 900), (65536, 65536, 1, 0),
    (1, 1, 100000, 0),
    # at each threshold of idf, and below it; 1722 is that of 5 of 36 above
    (5, 5, 1, 0), (96, 44, 1, 0), (46, 39, 1, 0), (21, 18, 1, 0), (23, 18, 1, 0), (34, 13, 1, 0), (28, 20, 1, 0),
    (40, 14, 1, 0), (26, 17, 1, 0), (36, 1, 1, 0), (57, 34, 1, 0), (99, 54, 1, 0), (10, 1, 1, 0),
]


def told_numbers(program: Program, documents: int, having: int, count: int, others: int) -> Entry:
    """The score and the impact of a term: the program prints the score, and the impact is in its index."""
    with_term = ' '.join(['x'] * count + ['y'] * others)
    archive = Archive(*program.build([with_term] * having + ['y'] * (documents - having)))
    impact = archive.lists[b'x'][0][1]
    score = int(program.rank(1, 'x').split()[2])
    length = count + others
    terms = having * length + documents - having
    idf = client.idf(documents, having)
    agreed((documents, having), (impact, score), (client.impact(count, length, terms, documents), idf * impact))
    return {'N': documents, 'f': having, 'idf': idf, 'c': count, 'len': length, 'T': terms, 'impact': impact, 'score': score}


# Refused for its numbers: R, the query, and the length of the proof

# R, a text, how often the query repeats it, and the number of zero bytes of the proof.
INPUTS = [
    (0, 'red', 1, 0), (1001, 'red', 1, 0), (0, '...', 1, 0), (1, '...', 1, 0), (1, '', 1, 0), (1, 'a', 65, 0),
    (1, 'a', 4001, 0), (1, '\u00e9', 2001, 0), (1, 'a ', 256, 0), (1, ' '.join(f'a{i}' for i in range(33)), 1, 0),
    (1, ' '.join(f'a{i}' for i in range(33)) + ' ', 8, 0), (1, ' ', 4000, 0), (1, ' ', 4001, 0),
    (1, '\U0001f600', 1, 0), (1, 'red', 1, 0), (1, 'red', 1, LONGEST), (1, 'red', 1, LONGEST + 1),
    (0, 'red', 1, LONGEST + 1), (1, '...', 1, LONGEST + 1),
]


def told_input(program: Program, r: int, text: str, times: int, zeros: int) -> Entry:
    answer = program.verify(NOTHING.hex(), r, text * times, bytes(zeros))
    return {'r': r, 'text': text, 'times': times, 'zeros': zeros, **answer}


# Changes of bytes: faults of shape

RANGES = {
    'magic': (0x41545350, 0x41545350), 'version': (1, 2), 'algorithm': (1, 2), 'version of the header': (1, 1),
    'number of documents': (1, 65536), 'number of dictionary leaves': (2, 16777218), 'number of terms': (1, 32),
    'dictionary: number of leaves': (1, 64), 'dictionary leaf: length of the term': (0, 64), 'slot: kind': (0, 1),
    'number of met documents': (0, 65536), 'list: number of entries': (1, 65536),
    'documents: number of digests': (0, 65536), 'terms: number of leaves': (1, 64),
    'terms leaf: length of the term': (0, 64), 'terms slot: kind': (0, 1), 'number of rows': (0, 1000),
}

# Fields that are the same in proofs of both algorithms, and have others after them.
COMMON = {
    'magic', 'version', 'algorithm', 'version of the header', 'number of documents', 'number of dictionary leaves',
    'root of the dictionary', 'root of the documents', 'root of the texts', 'number of terms',
    'dictionary: number of leaves', 'dictionary leaf: position', 'dictionary leaf: length of the term',
    'dictionary leaf: term', 'dictionary leaf: number of documents', 'dictionary leaf: root of the list',
    'dictionary: number of digests', 'dictionary: digest', 'slot: kind', 'slot: index', 'number of met documents',
}

RISING = ['dictionary leaf: position', 'slot: index', 'met document', 'terms leaf: position', 'terms slot: index']


def cuts(data: bytes, places: dict[str, Pair]) -> Named:
    """The bytes cut in the first field of each name, before its last byte; fields that both algorithms have, once."""
    for name, (_, end) in places.items():
        if data[5] == 1 and name in COMMON:
            continue
        yield f'cut in: {name}', data[:end - 1]
    yield 'no bytes', b''
    yield 'cut after the front', data[:6]
    yield 'without the last byte', data[:-1]


def cuts_in_second_digests(data: bytes) -> Named:
    """The bytes cut in the second digest of each run of digests, before its last byte."""
    fields = list(with_places(Reader(data).proof()))
    ends: dict[str, int] = {}
    for (before, _, _), (name, _, end) in zip(fields, fields[1:]):
        if name == before and name.endswith(': digest'):
            ends.setdefault(name, end)
    for name, end in ends.items():
        yield f'cut in: the second {name}', data[:end - 1]


def out_of_range(data: bytes, places: dict[str, Pair]) -> Named:
    """The first field of each name just below its range and just above it."""
    for name, (least, greatest) in RANGES.items():
        if name in places:
            start, end = places[name]
            for value in (least - 1, greatest + 1):
                if value >= 0:
                    yield f'{name}: {value}', data[:start] + number(value, end - start) + data[end:]


def not_rising(proof: Proof, data: bytes) -> Named:
    """The second field of each name equal to the first and, if possible, below it; ids and positions must rise."""
    for name in RISING:
        places = [(start, end) for each, start, end in with_places(proof) if each == name]
        if len(places) < 2:
            continue
        (start, end), (other, last) = places[:2]
        first = int.from_bytes(data[start:end], 'big')
        for value in (first, first - 1):
            if value >= 0:
                yield f'{name}: {value} after {first}', data[:other] + number(value, last - other) + data[last:]


def kind_before_index(proof: Proof, data: bytes) -> Named:
    """The second slot has a kind out of range and an index below the one before it: the kind comes first."""
    first, second = [start for name, start, _ in with_places(proof) if name == 'slot: kind']
    new = data[:first + 1] + number(1, 2) + data[first + 3:second] + number(2, 1) + number(0, 2) + data[second + 3:]
    yield 'a slot has a bad kind, and an index below the one before it', new


def shape_changes(data: bytes) -> Named:
    proof = Reader(data).proof()
    places: dict[str, Pair] = {}
    for name, start, end in with_places(proof):
        if end > start:
            places.setdefault(name, (start, end))
    yield from cuts(data, places)
    yield from out_of_range(data, places)
    yield from not_rising(proof, data)
    yield from kind_before_index(proof, data)
    yield 'one byte more', data + b'\0'
    yield 'the bytes twice', data + data
    yield 'the other algorithm is named', data[:5] + number(3 - data[5], 1) + data[6:]
    yield 'the other version is named', other_version(data)
    yield 'two faults: the one in the first field is reported', b'BTSP' + number(3, 1) + data[5:]
    yield 'a field that is cut is not tried for its range', data[:111] + b'\0'


def other_version(data: bytes) -> bytes:
    return data[:4] + number(3 - data[4], 1) + data[5:]


def version_changes(data: bytes) -> Named:
    """The versions of a proof with lists in blocks."""
    yield 'version: 3', data[:4] + number(3, 1) + data[5:]
    yield 'version of the header: 2', data[:6] + number(2, 1) + data[7:]
    yield 'the other version is named', other_version(data)


# Changes of parts: refusals by the check, and changes that are accepted

def entry(at: int, place: int, impact: Optional[int] = None) -> Callable[[Proof, int], None]:
    """Lets an entry of a list name this place among the met documents, or have this impact too."""
    def change(proof: Proof, which: int) -> None:
        entries = proof.prefixes[which].entries
        entries[at] = (place, entries[at][1] if impact is None else impact)
    return change


def with_entry(which: int, at: int, place: int, impact: Optional[int] = None) -> Change:
    return lambda proof, archive: entry(at, place, impact)(proof, which)


def shown_leaves(positions: list[int]) -> Change:
    """Shows these leaves of the dictionary, with the digests that they need. Present slots stay with their terms."""
    def change(proof: Proof, archive: Archive) -> None:
        of_slots = [(kind, proof.leaves[index][0]) for kind, index in proof.slots]
        proof.leaves = [(at, *archive.dictionary[at]) for at in positions]
        proof.digests = elided([dictionary_leaf(*leaf) for leaf in archive.dictionary], positions)
        proof.slots = [(kind, positions.index(at)) for kind, at in of_slots]
    return change


def without_leaf(which: int) -> Change:
    """Shows one leaf fewer of the dictionary, with the digests that the others need."""
    def change(proof: Proof, archive: Archive) -> None:
        del proof.leaves[which]
        leaves = [dictionary_leaf(*leaf) for leaf in archive.dictionary]
        proof.digests = elided(leaves, [leaf[0] for leaf in proof.leaves])
    return change


def longer_lists(counts: list[int]) -> Change:
    """Shows these numbers of entries of the lists, the documents that they name, and rows for the same documents."""
    def change(proof: Proof, archive: Archive) -> None:
        terms = [leaf[1] for leaf in (proof.leaves[index] for kind, index in proof.slots if kind)]
        documents = [proof.met[row] for row in proof.rows]
        entries = [archive.lists[term][:count] for term, count in zip(terms, counts)]
        proof.met = sorted({document for shown in entries for document, _ in shown})
        proof.prefixes = [
            Prefix([(proof.met.index(document), impact) for document, impact in shown],
                   list_digests(archive.version, archive.list_leaves(term), len(shown)))
            for term, shown in zip(terms, entries)
        ]
        proof.rows = [proof.met.index(document) for document in documents]
        if proof.algorithm == 1:
            show_documents(proof, archive, terms)
    return change


def show_documents(proof: Proof, archive: Archive, terms: list[bytes]) -> None:
    """The leaves, digests and slots that a proof with random access shows of its met documents."""
    leaves = archive.document_leaves
    proof.documents = [(int.from_bytes(leaves[at][:4], 'big'), leaves[at][4:]) for at in proof.met]
    proof.document_digests = elided(leaves, proof.met)
    proof.sections = []
    for document in proof.met:
        positions, slots = shown_terms([leaf[0] for leaf in archive.documents[document]], terms)
        proof.sections.append(Section(*archive.terms_section(document, positions), slots))


def shown_terms(own: list[bytes], terms: list[bytes]) -> tuple[list[int], list[Pair]]:
    """The positions of the leaves that show which of the terms are there, and the slots."""
    spots = [own.index(term) if term in own else max(at for at, each in enumerate(own) if each < term) for term in terms]
    positions = sorted({at for term, spot in zip(terms, spots) for at in ([spot] if term in own else [spot, spot + 1])})
    return positions, [(int(term in own), positions.index(spot)) for term, spot in zip(terms, spots)]


def more_terms(which: int) -> Change:
    """Shows all leaves of a met document's terms."""
    def change(proof: Proof, archive: Archive) -> None:
        section, document = proof.sections[which], proof.met[which]
        spots = [section.leaves[index][0] for _, index in section.slots]
        section.leaves, section.digests = archive.terms_section(document, range(len(archive.documents[document])))
        section.slots = [(kind, spot) for (kind, _), spot in zip(section.slots, spots)]
    return change


def these_terms(which: int, positions: Collection[int], slots: list[Pair]) -> Change:
    """Shows these leaves of a met document's terms, and says these slots of them."""
    def change(proof: Proof, archive: Archive) -> None:
        proof.sections[which] = Section(*archive.terms_section(proof.met[which], positions), slots)
    return change


def more_met(documents: list[int]) -> Change:
    """Says that further documents are met, which no entry names."""
    def change(proof: Proof, archive: Archive) -> None:
        proof.met += documents
        for _ in documents if proof.algorithm == 1 else []:
            proof.documents.append((2, NOTHING))
            proof.sections.append(Section([(0, b'', 0)], [], [(0, 0)] * len(proof.prefixes)))
    return change


def rows(*places: int) -> Change:
    def change(proof: Proof, archive: Archive) -> None:
        proof.rows = list(places)
    return change


def assigned(part: str, at: int, value: object) -> Callable[[Any, Archive], None]:
    """Puts a value at a place of a list of the proof."""
    return lambda proof, archive: getattr(proof, part).__setitem__(at, value)


def leaf_with(part: str, at: int, which: int, value: object) -> Change:
    """Puts a value into a shown leaf, a slot or a documents leaf."""
    def change(proof: Proof, archive: Archive) -> None:
        leaf = list(getattr(proof, part)[at])
        leaf[which] = value
        getattr(proof, part)[at] = tuple(leaf)
    return change


def section_with(which: int, at: int, field_at: int, value: object, part: str = 'leaves') -> Change:
    """The same in a met document's terms."""
    def change(proof: Proof, archive: Archive) -> None:
        items = getattr(proof.sections[which], part)
        item = list(items[at])
        item[field_at] = value
        items[at] = tuple(item)
    return change


def absent(at: int) -> Change:
    """Calls a present term absent, and leaves its list out."""
    def change(proof: Proof, archive: Archive) -> None:
        which = sum(kind for kind, _ in proof.slots[:at])
        proof.slots[at] = (0, proof.slots[at][1])
        del proof.prefixes[which]
        for section in proof.sections:
            del section.slots[which]
    return change


def nothing_met(proof: Proof, archive: Archive) -> None:
    """Says that no document is met, and has no row."""
    proof.met, proof.documents, proof.sections, proof.rows = [], [], [], []
    if proof.algorithm == 1:
        proof.document_digests = [tree_root(archive.document_leaves)]


def all_of(*changes: Change) -> Change:
    def change(proof: Proof, archive: Archive) -> None:
        for each in changes:
            each(proof, archive)
    return change


def header_with(**parts: object) -> Change:
    def change(proof: Proof, archive: Archive) -> None:
        for name, value in parts.items():
            setattr(proof.header, name, value)
    return change


def digests_of(where: Callable[[Proof], list[bytes]], change: Callable[[list[bytes]], object]) -> Change:
    """Changes the digests of the dictionary, or of a part of the proof."""
    return lambda proof, archive: change(where(proof))


OTHER = bytes(range(32))
DICTIONARY = lambda proof: proof.digests
LISTS = lambda which: lambda proof: proof.prefixes[which].digests
DOCUMENTS = lambda proof: proof.document_digests
TERMS = lambda which: lambda proof: proof.sections[which].digests
DROP = lambda digests: digests.pop()
ADD = lambda digests: digests.append(OTHER)
BEND = lambda digests: digests.__setitem__(0, OTHER)

FOXES, FOXES_3, ONE_FOX = 'two terms', 'two terms, three rows', 'one term'
ZEBRA, AAA = 'absent, after all', 'absent, before all'
TIES, TIED, BEE, CAT_DOG = 'a tie for one row', 'a tie for two rows', 'a tie of many', 'two rare terms'
WITH_ABSENT, EARLY, SILENT = 'present and absent', 'bounds that differ', 'no term in the archive'
COURT, RED, SAMPLE = 'the court', 'more rows than documents', 'the sample'
COPIES = 'one of many copies'

ALL_FOXES = shown_leaves(list(range(6)))

BOTH: list[tuple[Any, ...]] = [
    # the header and the number of terms
    (FOXES, 'the header has another number of documents', header_with(documents=4)),
    (FOXES, 'another root of the texts', lambda proof, archive: assigned('roots', 2, OTHER)(proof.header, archive)),
    # the dictionary
    (FOXES, 'dictionary: a position at the number of leaves', leaf_with('leaves', 1, 0, 6)),
    (FOXES, 'dictionary: a digest too few', digests_of(DICTIONARY, DROP)),
    (FOXES, 'dictionary: a digest too many', digests_of(DICTIONARY, ADD)),
    (FOXES, 'dictionary: another digest', digests_of(DICTIONARY, BEND)),
    (FOXES, 'dictionary: another number of documents of a term', leaf_with('leaves', 0, 2, 1)),
    (FOXES, 'dictionary: another root of a list', leaf_with('leaves', 1, 3, OTHER)),
    (FOXES, 'dictionary: another term', leaf_with('leaves', 0, 1, b'heN')),
    (FOXES, 'dictionary: a position that needs as many digests', leaf_with('leaves', 1, 0, 5)),
    (FOXES, 'dictionary: all leaves are shown', shown_leaves(list(range(6)))),
    (ZEBRA, 'dictionary: all leaves are shown, for an absent term', shown_leaves(list(range(6)))),
    # the slots
    (FOXES, 'slot: another leaf', leaf_with('slots', 0, 1, 1)),
    (FOXES, 'slot: no such leaf', leaf_with('slots', 1, 1, 2)),
    (FOXES, 'slot: both are wrong', all_of(leaf_with('slots', 0, 1, 1), leaf_with('slots', 1, 1, 9))),
    (FOXES, 'slot: a present term is called absent', absent(0)),
    (FOXES, 'slot: a present term is called absent at the last leaf', absent(1)),
    (ZEBRA, 'slot: no leaf after an absent term', leaf_with('slots', 0, 1, 1)),
    (ZEBRA, 'slot: an absent term between leaves that are no neighbours',
     all_of(shown_leaves([3, 4, 5]), without_leaf(1), leaf_with('slots', 0, 1, 0))),
    (ONE_FOX, 'slot: a present term is called absent between leaves that are no neighbours, and nothing is met',
     all_of(shown_leaves([1, 2, 3]), absent(0), without_leaf(1), leaf_with('slots', 0, 1, 0), nothing_met)),
    (FOXES, 'slot: a present term is called absent, before its leaf',
     all_of(ALL_FOXES, absent(0), leaf_with('slots', 0, 1, 2))),
    (ONE_FOX, 'slot: a present term is called absent, before its leaf, and nothing is met',
     all_of(ALL_FOXES, absent(0), leaf_with('slots', 0, 1, 1), nothing_met)),
    (ONE_FOX, 'slot: a present term is called absent, at its leaf, and nothing is met',
     all_of(ALL_FOXES, absent(0), nothing_met)),
    (ONE_FOX, 'slot: a present term is called absent between two below it, and nothing is met',
     all_of(ALL_FOXES, absent(0), leaf_with('slots', 0, 1, 0), nothing_met)),
    (ONE_FOX, 'slot: a present term is called absent between two above it, and nothing is met',
     all_of(ALL_FOXES, absent(0), leaf_with('slots', 0, 1, 3), nothing_met)),
    (ZEBRA, 'slot: an absent term between two below it', all_of(ALL_FOXES, leaf_with('slots', 0, 1, 3))),
    (AAA, 'slot: an absent term between two above it', all_of(ALL_FOXES, leaf_with('slots', 0, 1, 1))),
    (FOXES, 'slot: index: 2 after 3', all_of(ALL_FOXES, leaf_with('slots', 1, 1, 2))),
    (FOXES, 'slot: index: 257, which ends in the right byte', leaf_with('slots', 1, 1, 257)),
    (FOXES, 'slot: index: 65535', leaf_with('slots', 1, 1, 65535)),
    (ZEBRA, 'slot: index of an absent term: 65535', leaf_with('slots', 0, 1, 65535)),
    # the lists
    (FOXES, 'list: an entry names no met document', with_entry(0, 0, 3)),
    (FOXES, 'list: an entry names no met document, at the largest place', with_entry(1, 0, 2**32 - 1)),
    (FOXES, 'list: another impact', with_entry(0, 0, 2, 1064)),
    (FOXES, 'list: another document', with_entry(0, 0, 0)),
    (FOXES, 'list: a digest too many', digests_of(LISTS(0), ADD)),
    (FOXES, 'list: a digest too many in the last list', digests_of(LISTS(1), ADD)),
    (FOXES, 'list: more entries than the list has',
     lambda proof, archive: proof.prefixes[1].entries.append((2, 1))),
    (COURT, 'list: a digest too few', digests_of(LISTS(0), DROP)),
    (COURT, 'list: another digest', digests_of(LISTS(1), BEND)),
    (BEE, 'list: places 0, 0, 99', all_of(with_entry(0, 0, 0), with_entry(0, 1, 0), with_entry(0, 2, 99))),
    (BEE, 'list: places 0, 99, 0', all_of(with_entry(0, 0, 0), with_entry(0, 1, 99), with_entry(0, 2, 0))),
    (WITH_ABSENT, 'list: the number of a term counts absent ones', with_entry(0, 0, 2, 1)),
    (WITH_ABSENT, 'list: an entry names no met document, after an absent term', with_entry(0, 0, 99)),
    (WITH_ABSENT, 'list: a digest too many, after an absent term', digests_of(LISTS(0), ADD)),
    (WITH_ABSENT, 'list: more entries than the list has, after an absent term',
     lambda proof, archive: proof.prefixes[0].entries.append((0, 1))),
    (WITH_ABSENT, 'list: a document twice', lambda proof, archive: entry(
        1, proof.prefixes[1].entries[0][0])(proof, 1)),
    # the met documents
    (FOXES, 'met: a document that no entry names', more_met([9])),
    (FOXES, 'met: two documents that no entry names', more_met([7, 9])),
    # the rows
    (FOXES, 'row: no met document', rows(3)),
    (FOXES, 'row: the second names no met document', rows(1, 99)),
    (FOXES, 'row: the document of an earlier row', rows(1, 1)),
    (FOXES_3, 'row: places 1, 1, 99', rows(1, 1, 99)),
    (FOXES_3, 'row: places 1, 99, 1', rows(1, 99, 1)),
    # the answer
    (FOXES, 'answer: two rows when one is asked for', rows(1, 0)),
    (FOXES, 'answer: another document', rows(0)),
    (FOXES, 'answer: no row', rows()),
    (FOXES_3, 'answer: one row too few, with nothing left unseen', rows(1, 0)),
    (FOXES_3, 'answer: the first two rows exchanged', rows(0, 1, 2)),
    (FOXES_3, 'answer: the two rows that tie exchanged', rows(1, 2, 0)),
    (TIED, 'answer: rows exchanged', lambda proof, archive: proof.rows.reverse()),
    (TIES, 'answer: no row', rows()),
    (SILENT, 'answer: a row when nothing is met', rows(0)),
    (SAMPLE, 'answer: the last two of three rows exchanged', lambda proof, archive: (
        proof.rows.append(proof.rows.pop(1)))),
    (CAT_DOG, 'answer: a row is left out', lambda proof, archive: proof.rows.pop()),
    # more than is needed
    (EARLY, 'longer: whole lists', longer_lists([1, 2])),
    (TIES, 'longer: one entry more', longer_lists([2])),
    (BEE, 'longer: the whole list', longer_lists([5])),
    (BEE, 'longer: the whole list, and others of those that tie', all_of(longer_lists([5]), rows(4, 0, 3, 1))),
    # two faults
    (FOXES, 'two: header and dictionary', all_of(header_with(leaves=7), digests_of(DICTIONARY, DROP))),
    (FOXES, 'two: number of terms and digests of the dictionary', digests_of(DICTIONARY, DROP), {'query': 'hen'}),
    (FOXES, 'two: number of terms and root of the dictionary', digests_of(DICTIONARY, BEND), {'query': 'hen'}),
    (FOXES, 'two: dictionary and slot', all_of(digests_of(DICTIONARY, BEND), leaf_with('slots', 1, 1, 2))),
    (FOXES, 'two: slot and entry', all_of(leaf_with('slots', 1, 1, 2), with_entry(0, 0, 3))),
    (FOXES, 'two: root of the first list and entry of the second', all_of(with_entry(0, 0, 2, 1), with_entry(1, 0, 3))),
    (FOXES, 'two: entry and digests of one list', all_of(with_entry(1, 1, 3), digests_of(LISTS(1), ADD))),
    (FOXES, 'two: more entries than the list has, and the last names no met document',
     lambda proof, archive: proof.prefixes[1].entries.extend([(2, 1), (99, 1)])),
    (FOXES, 'two: more entries than the list has, and the last names the document of the first',
     lambda proof, archive: proof.prefixes[1].entries.append((1, 1))),
    (FOXES, 'two: list and met documents', all_of(more_met([9]), with_entry(1, 1, 0, 1))),
    (FOXES, 'two: met documents and row', all_of(more_met([9]), rows(4))),
]

TRA_ALONE: list[tuple[Any, ...]] = [
    (ONE_FOX, 'documents: a digest too few', digests_of(DOCUMENTS, DROP)),
    (ONE_FOX, 'documents: another digest', digests_of(DOCUMENTS, BEND)),
    (FOXES, 'documents: a digest too many', digests_of(DOCUMENTS, ADD)),
    (FOXES, 'documents: another number of terms', leaf_with('documents', 0, 0, 5)),
    (FOXES, 'documents: another root of terms', leaf_with('documents', 2, 1, OTHER)),
    (SILENT, 'documents: nothing is met, and no digest', digests_of(DOCUMENTS, DROP)),
    (SILENT, 'documents: nothing is met, and another digest', digests_of(DOCUMENTS, BEND)),
    (FOXES, 'terms: a position at the number of leaves', section_with(0, 1, 0, 4)),
    (FOXES, 'terms: a digest too few', digests_of(TERMS(0), DROP)),
    (FOXES, 'terms: a digest too many', digests_of(TERMS(2), ADD)),
    (FOXES, 'terms: another digest', digests_of(TERMS(1), BEND)),
    (FOXES, 'terms: another impact', section_with(1, 0, 2, 897)),
    (FOXES, 'terms: another term', section_with(2, 0, 1, b'heN')),
    (CAT_DOG, 'terms: a digest too many, of document 2, which is met first', digests_of(TERMS(0), ADD)),
    (CAT_DOG, 'terms: another impact, of document 5, which is met last', section_with(3, 1, 2, 897)),
    (CAT_DOG, 'terms slot: a present term is called absent, of document 4', section_with(2, 0, 0, 0, 'slots')),
    (CAT_DOG, 'terms slot: no such leaf, of document 5', section_with(3, 1, 1, 2, 'slots')),
    (FOXES, 'terms slot: an absent term after its neighbours', section_with(0, 0, 1, 1, 'slots')),
    (FOXES, 'terms slot: an absent term is called present', section_with(0, 0, 0, 1, 'slots')),
    (FOXES, 'terms slot: a present term is called absent', section_with(0, 1, 0, 0, 'slots')),
    (FOXES, 'terms slot: no such leaf', section_with(1, 1, 1, 7, 'slots')),
    (WITH_ABSENT, 'terms slot: the number of a term counts absent ones', section_with(1, 1, 1, 7, 'slots')),
    (FOXES, 'terms slot: an absent term between two below it', these_terms(0, range(4), [(0, 0), (1, 2)])),
    (FOXES, 'terms slot: an absent term between two above it', these_terms(0, range(4), [(0, 2), (1, 2)])),
    (FOXES, 'terms slot: a present term is called absent, before its leaf', these_terms(0, range(4), [(0, 1), (0, 1)])),
    (RED, 'terms slot: a present term is called absent, at its leaf', these_terms(0, range(4), [(0, 2)])),
    (RED, 'terms slot: a present term is called absent between two below it', these_terms(0, range(4), [(0, 0)])),
    (RED, 'terms slot: a present term is called absent between leaves that are no neighbours',
     these_terms(0, [1, 3], [(0, 0)])),
    (FOXES, 'terms slot: index: 0 after 1', these_terms(0, range(4), [(0, 1), (1, 0)])),
    (FOXES, 'terms slot: index: 257, which ends in the right byte', section_with(1, 1, 1, 257, 'slots')),
    (FOXES, 'terms slot: index: 65535', section_with(1, 1, 1, 65535, 'slots')),
    (EARLY, 'terms: all leaves are shown', more_terms(0)),
    (FOXES, 'terms: all leaves are shown of each', all_of(more_terms(0), more_terms(1), more_terms(2))),
    (FOXES, 'answer: the threshold is above the last row', lambda proof, archive: (
        longer_lists([1, 1])(proof, archive), setattr(proof, 'rows', [0, 1])), {'r': 2}),
    (FOXES, 'two: met documents and documents', all_of(more_met([9]), digests_of(DOCUMENTS, ADD))),
    (FOXES, 'two: documents and terms', all_of(leaf_with('documents', 0, 0, 5), section_with(0, 0, 2, 1))),
    (FOXES, 'two: digests and slot of one document',
     all_of(digests_of(TERMS(0), ADD), section_with(0, 0, 1, 1, 'slots'))),
    (FOXES, 'two: slot of document 0 and digests of document 1',
     all_of(section_with(0, 1, 0, 0, 'slots'), digests_of(TERMS(1), ADD))),
    (FOXES, 'two: terms and row', all_of(section_with(2, 0, 2, 1), rows(3))),
    (FOXES, 'two: slot of a document and row', all_of(section_with(0, 1, 0, 0, 'slots'), rows(3))),
]


def bare_next(proof: Proof, archive: Archive) -> None:
    """Gives the root of the next block's tree in place of the digest of its string."""
    proof.prefixes[0].digests[-1] = tree_root(archive.list_leaves(b'a')[BLOCK:2 * BLOCK])


LISTS_IN_BLOCKS = [
    (FOXES, 'list: another impact', with_entry(0, 0, 2, 1064)),
    (FOXES, 'list: a digest too many, of bytes 00 as after the last block', digests_of(LISTS(0), lambda digests: (
        digests.append(NOTHING)))),
    (FOXES, 'list: more entries than the list has',
     lambda proof, archive: proof.prefixes[1].entries.append((2, 1))),
    (COPIES, 'list: another digest', digests_of(LISTS(0), BEND)),
    (COPIES, 'list: no digest of the next block', digests_of(LISTS(0), DROP)),
    (COPIES, 'list: the digest of the next block twice', digests_of(LISTS(0), lambda digests: digests.append(digests[-1]))),
    (COPIES, 'list: the digest of the next block first', digests_of(LISTS(0), lambda digests: (
        digests.insert(0, digests.pop())))),
    (COPIES, 'list: the next block has the root of its tree in place of its digest', bare_next),
    (COPIES, 'list: a digest of the block too few', digests_of(LISTS(0), lambda digests: digests.pop(0))),
    (COPIES, 'list: the digests of the list as one tree', lambda proof, archive: setattr(
        proof.prefixes[0], 'digests', list_digests(ONE, archive.list_leaves(b'a'), 1))),
]

# The same bytes for another question, or under another root.
ASKED: list[tuple[str, str, dict[str, Any]]] = [
    (FOXES, 'under another root', {'root': NOTHING.hex()}),
    (FOXES, 'for another number of terms', {'query': 'hen'}),
    (FOXES, 'for another number of terms, under another root', {'query': 'hen', 'root': NOTHING.hex()}),
    (FOXES, 'for another term', {'query': 'red fox'}),
    (FOXES, 'for two rows', {'r': 2}),
    (FOXES_3, 'for two rows', {'r': 2}),
    (FOXES_3, 'for a thousand rows', {'r': 1000}),
    (FOXES, 'for a term with weight two', {'query': 'red red hen'}),
    (EARLY, 'for a term with weight nine', {'query': 'red' + ' fox' * 9}),
    (COURT, 'for two rows', {'r': 2}),
]


def changed(program: Program, archives: Archives, proofs: dict[str, Entry]) -> list[Entry]:
    """Changes of honest proofs, each with what the program prints for it."""
    told = []

    def tell(of: str, about: str, changes: list[list[Any]], **asked: Any) -> None:
        honest_one = proofs[of]
        question = {name: asked.get(name, honest_one[name]) for name in ('root', 'r', 'query')}
        data = patched(bytes.fromhex(honest_one['proof']), changes)
        answer = program.verify(question['root'], question['r'], question['query'], data)
        told.append({'of': of, 'about': about, **asked, 'changes': changes, **answer})

    def tell_change(of: str, about: str, change: Change, **asked: Any) -> None:
        data = bytes.fromhex(proofs[of]['proof'])
        proof = copy.deepcopy(Reader(data).proof())
        change(proof, archives[proof.version][proofs[of]['archive']])
        tell(of, about, difference(data, proof.data()), **asked)

    def tell_in_blocks() -> None:
        one, two = f'{FOXES} by tnra', f'{FOXES}, in blocks, by tnra'
        tell(one, 'under the root of these texts with lists in blocks', [], root=proofs[two]['root'])
        tell(two, 'under the root of these texts with lists of one tree', [], root=proofs[one]['root'])
        data = bytes.fromhex(proofs[two]['proof'])
        for about, new in version_changes(data):
            tell(two, about, difference(data, new))
        for name, about, change in LISTS_IN_BLOCKS:
            tell_change(f'{name}, in blocks, by tnra', about, change)

    for algorithm in ('tnra', 'tra'):
        of = f'{FOXES} by {algorithm}'
        data = bytes.fromhex(proofs[of]['proof'])
        for about, new in shape_changes(data):
            tell(of, about, difference(data, new))
        of = f'{COURT} by {algorithm}'
        data = bytes.fromhex(proofs[of]['proof'])
        for about, new in cuts_in_second_digests(data):
            tell(of, about, difference(data, new))
        for name, about, change, *asked in BOTH + (TRA_ALONE if algorithm == 'tra' else []):
            of = f'{name} by {algorithm}'
            tell_change(of, about, change, **(asked[0] if asked else {}))
        for name, about, asked in ASKED:
            tell(f'{name} by {algorithm}', about, [], **asked)
    tell_in_blocks()
    return told


# Trees that no archive has: what the check does not ask

class Made:
    """Any dictionary, documents and lists, and a proof that shows chosen parts of them."""

    def __init__(self, documents: int, **parts: object) -> None:
        self.proof = Proof(2, Header(1, documents, 0, [NOTHING, NOTHING, NOTHING]), 1, [], [], [], [], [], rows=[0])
        for name, value in parts.items():
            setattr(self.proof, name, value)

    def list_root(self, count: int, entries: list[Pair], digests: Iterable[bytes] = ()) -> bytes:
        """Shows the first entries of a list, pairs of a document and an impact, and returns its root."""
        proof = self.proof
        places = {document: at for at, document in enumerate(proof.met)}
        proof.prefixes.append(Prefix([(places[each], impact) for each, impact in entries], list(digests)))
        shown = [list_leaf(*each) for each in entries]
        return rebuilt_list(proof.version, count, shown, list(digests)) if len(shown) <= count else NOTHING

    def dictionary(self, count: int, leaves: list[tuple[int, bytes, int, bytes]], digests: Iterable[bytes] = ()) -> None:
        """Shows leaves of a dictionary of `count`: position, term, number of documents, root of the list."""
        proof = self.proof
        proof.leaves, proof.digests, proof.header.leaves = leaves, list(digests), count
        shown = [(leaf[0], dictionary_leaf(*leaf[1:])) for leaf in leaves]
        proof.header.roots[0] = rebuilt(count, shown, list(digests))

    def documents(self, leaves: list[tuple[int, bytes]], digests: Iterable[bytes], sections: list[Section]) -> None:
        """Shows the leaves of the met documents, and a section for each."""
        proof = self.proof
        proof.algorithm, proof.documents, proof.document_digests, proof.sections = 1, leaves, list(digests), sections
        shown = [(at, documents_leaf(*leaf)) for at, leaf in zip(proof.met, leaves) if at < proof.header.documents]
        proof.header.roots[1] = rebuilt(proof.header.documents, shown, list(digests))


def one_list(documents: int, count: int, entries: list[Pair], digests: Iterable[bytes] = (), rows: Iterable[int] = (0,), term: bytes = b'x', version: int = ONE) -> Made:
    """A dictionary of one term between sentinels, with this list."""
    met = sorted({each for each, _ in entries})
    made = Made(documents, version=version, met=met, slots=[(1, 0)], rows=list(rows))
    root = made.list_root(count, entries, digests)
    made.dictionary(3, [(1, term, count, root)], [OTHER, OTHER])
    return made


def two_lists(fronts: tuple[list[Pair], list[Pair]], rows: Iterable[int]) -> Made:
    """Four entries of hen and three of red, of which these prefixes are shown; the coefficients are 2 and 5."""
    made = Made(4, terms=2, met=sorted({each for front in fronts for each, _ in front}), slots=[(1, 0), (1, 1)],
                rows=list(rows))
    leaves = []
    for at, (term, count, front) in enumerate(zip((b'hen', b'red'), (4, 3), fronts), 1):
        digests = elided([b'unseen'] * count, range(len(front)))
        leaves.append((at, term, count, made.list_root(count, front, digests)))
    made.dictionary(4, leaves, [OTHER, OTHER])
    return made


def random_access(documents: int, entries: list[Pair], counts: list[int], sections: list[Section], digests: Iterable[bytes], rows: Iterable[int] = (0,), term: bytes = b'x') -> Made:
    """The same by random access: each met document has this number of leaves of terms, and this section."""
    return looked_up(one_list(documents, len(entries), entries, rows=rows, term=term), counts, sections, digests)


def looked_up(made: Made, counts: list[int], sections: list[Section], digests: Iterable[bytes]) -> Made:
    leaves = []
    for count, section in zip(counts, sections):
        shown = [(leaf[0], terms_leaf(*leaf[1:])) for leaf in section.leaves]
        leaves.append((count, rebuilt(count, shown, list(section.digests)) if count else NOTHING))
    made.documents(leaves, digests, sections)
    return made


def whole_dictionary(leaves: list[bytes], places: list[int]) -> Made:
    """A dictionary of these terms, all shown, of which two are present, each with a list of one entry of document 0."""
    made = Made(5, terms=2, met=[0], slots=[(1, at) for at in places])
    roots = {at: made.list_root(1, [(0, 100 + which)]) for which, at in enumerate(places)}
    made.dictionary(len(leaves), [(at, term, 1, roots.get(at, OTHER)) for at, term in enumerate(leaves)])
    return made


CUT = [(0, 900), (1, 800), (2, 10)], [(2, 300)]
WHOLE = [(0, 900), (1, 800), (2, 10), (3, 5)], [(2, 300), (1, 200), (0, 50)]


def bounds_apart() -> Iterator[Shown]:
    """Answers on which a client decides wrongly if it uses only the lower bounds, or only the upper ones."""
    yield 'bounds: a document with no row has its upper bound above the last row, and not its lower bound', two_lists(
        CUT, [0]), 1, 'hen red'
    yield 'bounds: the upper bound of the second row is above the lower bound of the first, and not above its upper bound', (
        two_lists(CUT, [0, 1])), 2, 'hen red'
    yield 'bounds: the threshold is above the lower bound of the last row, and not above its upper bound', two_lists(
        ([(0, 900), (1, 100)], [(0, 300)]), [0, 1]), 2, 'hen red'
    yield 'bounds: the threshold is equal to the bounds of the last row', two_lists(
        ([(0, 900), (1, 100)], [(0, 300), (1, 20)]), [0, 1]), 2, 'hen red'


def made_digests(count: int) -> list[bytes]:
    """So many digests of nothing that is known."""
    return [digest(number(at, 1)) for at in range(count)]


def made_in_blocks() -> Iterator[Shown]:
    """Proofs with lists in blocks."""
    yield 'in blocks: the largest number of entries', one_list(
        2, 2**32 - 1, [(0, 7)], made_digests(7), version=TWO), 1, 'x'
    yield 'in blocks: the digest of the next block is 32 bytes 00', one_list(
        100, 100, [(0, 5)], [*made_digests(6), NOTHING], version=TWO), 1, 'x'
    yield 'in blocks: an entry in a list of 0 entries', one_list(5, 0, [(0, 5)], version=TWO), 1, 'x'
    yield 'in blocks: the root of a list is that of the tree of its only block', of_other_version(ONE), 1, 'x'
    yield 'lists of one tree: the root of a list is that of a list in blocks', of_other_version(TWO), 1, 'x'


def of_other_version(version: int) -> Made:
    """The root of the list is by this version; the proof has the other one, and the root of the header is by that."""
    made = one_list(5, 2, [(0, 5), (1, 5)], version=version)
    made.proof.version = ONE + TWO - version
    return made


def made_proofs() -> Iterator[Shown]:
    """Each with what it shows, and its question."""
    def has(impact: int) -> Section:
        return Section([(1, b'x', impact)], [OTHER, OTHER], [(1, 0)])
    yield 'a met document at the number of documents', one_list(1, 1, [(1, 5)]), 1, 'x'
    yield 'a met document far above the number of documents', one_list(1, 1, [(2**32 - 1, 5)]), 1, 'x'
    yield 'more entries than documents', one_list(2, 3, [(0, 7), (1, 6), (2, 5)]), 1, 'x'
    yield 'the largest number of entries', one_list(2, 2**32 - 1, [(0, 7)], made_digests(32)), 1, 'x'
    yield 'entries of 2^31 documents, which is above what 32 bits hold of 2 f + 1', one_list(
        2, 2**31, [(0, 7)], made_digests(31)), 1, 'x'
    yield 'more entries than documents, cut after as many as there are documents', one_list(
        2, 3, [(0, 7), (1, 6)], made_digests(1)), 1, 'x'
    yield 'more entries than documents, cut after as many as there are documents, and the threshold counts', one_list(
        2, 3, [(0, 7), (1, 6)], made_digests(1), rows=(0, 1)), 3, 'x'
    yield 'a term of 64 bytes', one_list(5, 1, [(0, 5)], term=b'x' * 64), 1, 'x' * 64
    yield 'impacts that rise', one_list(5, 2, [(0, 5), (1, 9)], rows=(1, 0)), 2, 'x'
    yield 'impacts that rise, and not all are shown', one_list(5, 4, [(0, 5), (1, 9)], made_digests(1), rows=(1,)), 1, 'x'
    yield 'an impact of 0', one_list(5, 1, [(0, 0)]), 1, 'x'
    yield 'a last shown impact of 0, with entries after it', one_list(5, 4, [(0, 7), (1, 0)], made_digests(1), (0, 1)), 9, 'x'
    yield 'the largest score', one_list(65536, 1, [(3, 65535)]), 1, 'x ' * 255
    yield 'the largest threshold', one_list(65536, 2, [(3, 65535)], made_digests(1)), 1, 'x ' * 255
    yield 'impacts that rise, and the threshold is above the last row', one_list(
        5, 4, [(0, 5), (1, 9)], made_digests(1), rows=(1, 0)), 2, 'x'
    yield 'terms out of order', whole_dictionary([b'z', b'x', b'a', b'y'], [1, 3]), 1, 'y x'
    yield 'a dictionary with no sentinel', whole_dictionary([b'x', b'y'], [0, 1]), 1, 'x y'
    yield 'an entry in a list of 0 entries', one_list(5, 0, [(0, 5)]), 1, 'x'
    twice = one_list(5, 1, [(0, 5)])
    twice.dictionary(2, [(0, b'x', 9, OTHER), (1, b'x', 1, twice.proof.leaves[0][3])])
    twice.proof.slots = [(1, 1)]
    yield 'a term that is in the dictionary twice', twice, 1, 'x'
    before = one_list(5, 1, [(0, 5)])
    before.dictionary(2, [(0, b'x', 1, before.proof.leaves[0][3]), (1, b'x', 9, OTHER)])
    before.proof.slots = [(1, 0)]
    yield 'a term that is in the dictionary twice, and the slot has the first of the two', before, 1, 'x'
    largest = one_list(5, 1, [(0, 5)])
    largest.dictionary(16777218, [(16777217, b'x', 1, largest.proof.leaves[0][3])], made_digests(2))
    yield 'the largest dictionary, and its last leaf', largest, 1, 'x'
    between = Made(5, slots=[(0, 0)], rows=[])
    between.dictionary(4, [(1, b'w', 1, OTHER), (2, b'z', 1, OTHER)], made_digests(2))
    yield 'absent between terms that are no sentinels', between, 1, 'x'
    yield from bounds_apart()
    yield 'whole lists of two terms', two_lists(WHOLE, [1, 0, 2]), 3, 'hen red'
    yield 'whole lists of two terms, the last two of three rows exchanged', two_lists(
        WHOLE, [1, 2, 0]), 3, 'hen red'
    yield 'random access: a met document at the number of documents', random_access(
        1, [(1, 5)], [3], [has(5)], made_digests(1)), 1, 'x'
    yield 'random access: a term of 64 bytes', random_access(
        5, [(1, 5)], [3], [Section([(1, b'x' * 64, 5)], [OTHER, OTHER], [(1, 0)])], made_digests(3), term=b'x' * 64), 1, 'x' * 64
    yield 'random access: the list and the document have different impacts', random_access(
        5, [(1, 5)], [3], [has(9)], made_digests(3)), 1, 'x'
    yield 'random access: the document does not have the term of its list', random_access(
        5, [(1, 5)], [2], [Section([(0, b'', 0), (1, b'\xff', 0)], [], [(0, 0)])], made_digests(3)), 1, 'x'
    yield 'random access: a document with 0 leaves', random_access(5, [(1, 5)], [0], [has(5)], made_digests(3)), 1, 'x'
    yield 'random access: the largest number of leaves', random_access(
        5, [(1, 5)], [2**32 - 1], [Section([(0, b'x', 6)], made_digests(32), [(1, 0)])], made_digests(3)), 1, 'x'
    yield 'random access: the largest score', random_access(
        65536, [(0, 1)], [1], [Section([(0, b'x', 65535)], [], [(1, 0)])], made_digests(16)), 1, 'x ' * 255
    yield from made_in_blocks()


def made_answers(program: Program) -> list[Entry]:
    told = []
    for about, made, r, query in made_proofs():
        data, root = made.proof.data(), made.proof.root()
        answer = program.verify(root, r, query, data)
        told.append({'about': about, 'root': root, 'r': r, 'query': query, **answer, 'proof': data.hex()})
    return told


# Long bytes, in parts: bytes and how many times over; or also a number that is put before them and counts up

# Fields that are in one piece with those before them.
GOING_ON = {
    'entry: impact', 'documents leaf: root of its terms', 'terms leaf: position', 'terms leaf: length of the term',
    'terms leaf: term', 'terms leaf: impact', 'terms: number of digests', 'terms slot: kind', 'terms slot: index',
}
LEAST = 63  # pieces that come fewer times over are kept as they are


def pieces(proof: Proof) -> list[Piece]:
    """The bytes of a proof in pieces that may repeat, each with the name of its first field."""
    whole: list[Piece] = []
    has_many = len(proof.sections) >= LEAST
    for name, data in proof.fields():
        if name in GOING_ON or has_many and name == 'terms: digest':
            whole[-1] = (whole[-1][0], whole[-1][1] + data)
        else:
            whole.append((name, data))
    return whole


def is_next(before: Piece, piece: Piece) -> bool:
    """Whether the first 4 bytes are a number that is larger by 1, and the others are equal."""
    (name, old), (other, new) = before, piece
    is_greater = len(new) >= 4 and int.from_bytes(new[:4], 'big') == int.from_bytes(old[:4], 'big') + 1
    return name == other and is_greater and old[4:] == new[4:]


def run_length(whole: list[Piece], at: int, goes_on: Callable[[Piece, Piece], bool]) -> int:
    """How many pieces from this one on continue the piece before them."""
    end = at + 1
    while end < len(whole) and goes_on(whole[end - 1], whole[end]):
        end += 1
    return end - at


def in_parts(whole: list[Piece]) -> Parts:
    """These pieces in parts. A piece that comes only once is in one part with its neighbours."""
    parts, at, once = [], 0, b''
    while at < len(whole):
        data = whole[at][1]
        equal, rising = run_length(whole, at, lambda before, piece: before == piece), run_length(whole, at, is_next)
        times = max(equal, rising)
        if times < LEAST:
            once, at = once + data, at + 1
            continue
        parts += [[once.hex(), 1]] if once else []
        parts.append([data.hex(), times] if equal == times else [data[4:].hex(), times, int.from_bytes(data[:4], 'big')])
        at, once = at + times, b''
    return parts + ([[once.hex(), 1]] if once else [])


def bytes_in_parts(data: bytes) -> Parts:
    """Bytes in parts: a byte that comes many times over is one part."""
    return in_parts([('byte', data[at:at + 1]) for at in range(len(data))])


def expanded(parts: Parts) -> bytes:
    whole = []
    for data, times, *start in parts:
        data = bytes.fromhex(data)
        whole += [number(start[0] + at, 4) + data for at in range(times)] if start else [data] * times
    return b''.join(whole)


# Proofs with the largest numbers that a proof may have

ALL = 65536


def everything_met(rows: Iterable[int]) -> Made:
    """A list of all entries that a proof may show, whose documents tie."""
    return one_list(ALL, ALL, [(document, 5) for document in range(ALL)], rows=rows)


def everything_looked_up(rows: Iterable[int]) -> Made:
    """The same by random access: each document has this one term and no sentinels."""
    one = Section([(0, b'x', 5)], [], [(1, 0)])
    return random_access(ALL, [(document, 5) for document in range(ALL)], [1] * ALL, [one] * ALL, [], rows)


def too_many_documents_digests() -> Made:
    made = random_access(5, [(1, 5)], [1], [Section([(0, b'x', 5)], [], [(1, 0)])], [OTHER] * 3)
    made.proof.document_digests = [OTHER] * ALL
    return made


def absent_terms(count: int) -> Made:
    """`count` absent terms, each between two leaves of its own, far from one another in the largest dictionary."""
    made, size = Made(5, terms=count, slots=[(0, 2 * at) for at in range(count)], rows=[]), 16777218
    leaves = [(size // count * at + side, f'a{at:02}{end}'.encode(), 1, OTHER)
              for at in range(count) for side, end in ((1, 'a'), (2, 'c'))]
    made.dictionary(size, leaves, [OTHER] * len(elided_places(size, [leaf[0] for leaf in leaves])))
    return made


def elided_places(count: int, shown: list[int], start: int = 0) -> list[Pair]:
    """The maximal subtrees without a shown position, each as its first position and its size."""
    if not any(start <= at < start + count for at in shown):
        return [(start, count)]
    if count == 1:
        return []
    middle = split(count)
    return elided_places(middle, shown, start) + elided_places(count - middle, shown, start + middle)


def many_terms() -> Made:
    """A document of the largest number of leaves. As many are shown as a proof may show, far from one another."""
    size = 2**32 - 1
    leaves = [(size // 64 * at + 1, f'x{at:02}'.encode(), at) for at in range(64)]
    section = Section(leaves, [OTHER] * len(elided_places(size, [leaf[0] for leaf in leaves])), [(1, 63)])
    return random_access(5, [(1, 5)], [size], [section], [OTHER] * 3, term=b'x63')


def many_documents() -> Made:
    """Documents far from one another, by random access."""
    met = list(range(3, ALL, ALL // 64))
    one = Section([(0, b'x', 5)], [], [(1, 0)])
    digests = [OTHER] * len(elided_places(ALL, met))
    return random_access(ALL, [(document, 5) for document in met], [1] * 64, [one] * 64, digests, range(64))


def large_proofs() -> Iterator[Shown]:
    absent = ' '.join(f'a{at:02}b' for at in range(32))
    yield 'the largest numbers of entries, of met documents, and of rows', everything_met(range(1000)), 1000, 'x'
    yield 'the same, and one row too few', everything_met(range(999)), 1000, 'x'
    yield 'random access: the largest numbers of entries and of met documents', everything_looked_up([ALL - 1]), 1, 'x'
    yield 'random access: the largest number of digests of the documents', too_many_documents_digests(), 1, 'x'
    yield '64 leaves of the dictionary, and more than 255 digests', absent_terms(32), 1, absent
    yield 'random access: 64 leaves of the terms of a document, and more than 255 digests', many_terms(), 1, 'x63'
    yield 'random access: more than 255 digests of the documents', many_documents(), 64, 'x'
    shown = [(document, 5) for document in range(BLOCK + 1)]
    yield 'in blocks: all of 64 entries', one_list(100, BLOCK, shown[:BLOCK], version=TWO), 1, 'x'
    yield 'in blocks: 65 entries in a list of 64', one_list(100, BLOCK, shown, version=TWO), 1, 'x'
    yield 'in blocks: 65 entries in a list of 66', one_list(100, BLOCK + 2, shown, made_digests(1), version=TWO), 1, 'x'


def fronts(program: Program, archives: Archives) -> Iterator[tuple[str, Proof, int]]:
    """Proofs that show the first entries of a list of equal texts, in blocks. The best r texts need r entries."""
    def front(name: str, algorithm: str, r: int) -> Proof:
        return Reader(honest_in_both(program, archives, name, algorithm, r, 'a')[1]).proof()

    for algorithm in ('tnra', 'tra'):
        for r in (63, 64, 65, 128, 200):
            yield f'in blocks: {r} of 200 entries by {algorithm}', front('copies', algorithm, r), r
    yield 'in blocks: 65 of 65 entries, one in the last block', front('one more than a block', 'tnra', 65), 65
    for digests, about in ((0, 'no digest of the next block'), (2, 'the digest of the next block twice')):
        proof = front('one more than a block', 'tnra', 64)
        proof.prefixes[0].digests *= digests
        yield f'in blocks: 64 of 65 entries, and {about}', proof, 64
    proof = front('copies', 'tnra', 128)
    entries = proof.prefixes[0].entries
    proof.prefixes[0].entries = entries[BLOCK:] + entries[:BLOCK]
    yield 'in blocks: two blocks exchanged', proof, 128


def large(program: Program, archives: Archives) -> list[Entry]:
    told = []

    def tell(about: str, proof: Proof, r: int, query: str) -> None:
        data, parts, root = proof.data(), in_parts(pieces(proof)), proof.root()
        agreed(about, expanded(parts), data)
        answer = program.verify(root, r, query, data)
        told.append({'about': about, 'root': root, 'r': r, 'query': query, **answer, 'proof': parts})

    for about, made, r, query in large_proofs():
        tell(about, made.proof, r, query)
    for about, proof, r in fronts(program, archives):
        tell(about, proof, r, 'a')
    return told


# Frames: requests to a server, and its replies. All come from the second client; the gate compares the program

def reply(data: bytes) -> bytes:
    """The reply that has this proof."""
    return client.framed(b'\0' + data)


def replies(honest: bytes) -> Named:
    """Replies to the question for one row, by what they are."""
    yield 'the proof, and a byte after the reply', honest + b'\0'
    for size in (0, 1, 3):
        yield f'cut in its length, after {size} bytes', honest[:size]
    yield 'cut after its length', honest[:4]
    yield 'cut after its kind', honest[:5]
    yield 'cut in the proof', honest[:100]
    yield 'without the last byte', honest[:-1]
    yield 'a length above the largest', number(LONGEST + 2, 4)
    yield 'a length above the largest, and a kind that does not exist', number(LONGEST + 2, 4) + b'\2'
    yield 'the largest length in 4 bytes', b'\xff' * 4
    yield 'the largest length of a reply, and no more', number(LONGEST + 1, 4)
    yield 'no body', bytes(4)
    yield 'no body, and more bytes', bytes(4) + b'\7'
    yield 'a kind that does not exist', number(2, 4) + b'\2\1'
    yield 'a kind that does not exist, and cut after it', number(366, 4) + b'\xff'
    yield 'a code of no byte', number(1, 4) + b'\1'
    yield 'a code of two bytes', number(3, 4) + b'\1\1\1'
    yield 'a code of many bytes, and cut after the kind', number(LONGEST + 1, 4) + b'\1'
    yield 'cut before the code', number(2, 4) + b'\1'
    for code in (0, 1, 2, 3, 4, 5, 6, 255):
        yield f'code {code}', client.framed(bytes([1, code]))
    yield 'code 2, and more bytes', client.framed(b'\1\2') + honest
    yield 'a proof of no bytes', client.framed(b'\0')
    yield 'a proof with a byte more', reply(honest[5:] + b'\0')
    yield 'a proof without its last byte', reply(honest[5:-1])
    yield 'a proof with another front', reply(b'B' + honest[6:])
    yield 'a proof with another front, and cut', reply(b'B' + honest[6:])[:-1]


def asked(proofs: dict[str, Entry]) -> list[Entry]:
    """What `ask` writes, what it reads, and what it then prints."""
    told = []

    def tell(about: str, of: str, parts: Parts, **other: Any) -> None:
        asks = {name: other.get(name, proofs[of][name]) for name in ('root', 'algorithm', 'r', 'query')}
        answer = client.ask(asks['root'], asks['r'], asks['query'], expanded(parts))
        request = bytes_in_parts(client.request(asks['algorithm'], asks['r'], asks['query']))
        told.append({'about': about, **asks, 'request': request, **answer, 'reply': parts})

    honest_ones = [f'{name} by {algorithm}' for name in (FOXES, FOXES_3, ZEBRA, 'sharp s', 'a term 255 times')
                   for algorithm in ('tnra', 'tra')]
    for of in (*honest_ones, f'{FOXES}, in blocks, by tnra'):
        tell(of, of, bytes_in_parts(reply(bytes.fromhex(proofs[of]['proof']))))
    of = f'{FOXES} by tnra'
    honest = reply(bytes.fromhex(proofs[of]['proof']))
    for about, data in replies(honest):
        tell(about, of, bytes_in_parts(data))
    tell('the longest reply, of bytes 00', of, [[(number(LONGEST + 1, 4) + b'\0').hex(), 1], ['00' * 1024, LONGEST // 1024]])
    tell('the proof of the other algorithm', of, bytes_in_parts(honest), algorithm='tra')
    tell('a query with capital letters and many spaces', of, bytes_in_parts(honest), query='  RED   Hen')
    tell('a query of 4,000 bytes', of, bytes_in_parts(honest), query='red hen'.ljust(4000))
    tell('the proof of another archive', of, bytes_in_parts(honest), root=NOTHING.hex())
    tell('the proof for one row', of, bytes_in_parts(honest), r=2)
    tell('the proof for one row, and 1,000 are asked for', of, bytes_in_parts(honest), r=1000)
    tell('the proof for another query', of, bytes_in_parts(honest), query='hen')
    return told


def asking(algorithm: int, r: int, query: bytes, version: int = 1, size: Optional[int] = None) -> bytes:
    """A request with any fields."""
    size = len(query) if size is None else size
    return client.framed(bytes([version, algorithm]) + number(r, 2) + number(size, 2) + query)


def codes() -> Named:
    """Requests that get a code, by what is wrong with them."""
    many, distinct = b'red ' * 256, b' '.join(b'a%d' % at for at in range(33))
    for version in (0, 2):
        yield f'version {version}', asking(2, 1, b'red', version)
    for algorithm in (0, 3):
        yield f'algorithm {algorithm}', asking(algorithm, 1, b'red')
    yield 'a length of the query that is too small', asking(2, 1, b'red', size=2)
    yield 'a length of the query that is too large', asking(2, 1, b'red', size=4)
    yield 'a query that is no UTF-8', asking(2, 1, b'red \xff')
    yield 'a query with half a surrogate pair', asking(2, 1, b'\xed\xa0\x80')
    for r in (0, 1001, 65535):
        yield f'{r} rows', asking(2, r, b'red')
    yield 'no query', asking(2, 1, b'')
    yield 'a query with no term', asking(2, 1, b'...')
    yield 'a query of 4,001 bytes', asking(2, 1, b'red'.ljust(4001))
    yield 'a query of 4,001 bytes with no term', asking(2, 1, b' ' * 4001)
    yield 'a query of 256 words', asking(2, 1, many)
    yield 'a query of 33 terms', asking(2, 1, distinct)
    yield 'the longest request', asking(2, 1, b'red'.ljust(4090))
    yield 'two: no rows, and a query that is no UTF-8', asking(2, 0, b'\xff')
    yield 'two: no rows, and no algorithm', asking(3, 0, b'red')
    yield 'two: no rows, and a query with no term', asking(2, 0, b'...')
    yield 'two: no rows, and a query of 4,001 bytes', asking(2, 0, b'red'.ljust(4001))
    yield 'two: a query of 4,001 bytes, and of 33 terms', asking(2, 1, distinct.ljust(4001))


def links(first: bytes) -> Iterator[tuple[str, Parts]]:
    """What arrives over a link, by how it ends; the first request is honest."""
    code = asking(2, 1, b'...')
    yield 'nothing', []
    yield 'two requests', bytes_in_parts(first + first)
    yield 'a request that gets a code, and another one', bytes_in_parts(code + first)
    for size in (1, 3, 4, 6, len(first) - 1):
        yield f'a request that is cut after {size} bytes', bytes_in_parts(first[:size])
    yield 'a request, and another one that is cut', bytes_in_parts(first + first[:9])
    for size in (0, 5, 4097, 2**32 - 1):
        yield f'a request of {size} bytes', bytes_in_parts(number(size, 4))
    yield 'a request, one of 5 bytes, and another one', bytes_in_parts(first + number(5, 4) + b'abcde' + first)
    yield '65,536 requests', [[code.hex(), 65536]]
    yield '65,537 requests', [[code.hex(), 65537]]


def served(proofs: dict[str, Entry]) -> list[Entry]:
    """What arrives at `serve`, what it replies, and what it then prints."""
    known = {(each['archive'], each['algorithm'], each['r'], each['query']): bytes.fromhex(each['proof'])
             for name, each in proofs.items() if 'in blocks' not in name}
    told = []

    def reply_to(archive: str, body: bytes) -> bytes:
        asks = client.question(body)
        if isinstance(asks, int):
            return client.framed(bytes([1, asks]))
        algorithm, r, query = asks
        return reply(known[archive, algorithm, r, query.strip()])

    def tell(about: str, parts: Parts, archive: str = 'foxes') -> None:
        bodies, end = client.requests(expanded(parts))
        ends = [f'connection 1 requests {len(bodies)} {end}']
        sent = in_parts([('reply', reply_to(archive, body)) for body in bodies])
        told.append({'about': about, 'archive': archive, 'requests': parts, 'status': 0, 'lines': ['listening', *ends], 'replies': sent})

    for name in (FOXES, ZEBRA, '32 terms', 'sharp s'):
        for of in (f'{name} by tnra', f'{name} by tra'):
            each = proofs[of]
            tell(of, bytes_in_parts(client.request(each['algorithm'], each['r'], each['query'])), each['archive'])
    tell('a query of 4,000 bytes', bytes_in_parts(client.request('tnra', 1000, 'red'.ljust(4000))))
    for about, data in codes():
        tell(about, bytes_in_parts(data))
    for about, parts in links(client.request('tnra', 1, 'red hen')):
        tell(about, parts)
    return told


# Texts of documents. All come from the second client; the gate compares the program

LONGEST_TEXT_FILE = 2**21
LONGEST_TEXT = 2**20

# Documents whose texts are given, by their collections.
GIVEN = {
    'foxes': [0, 1, 2], 'silent': [0], 'street': [0], 'ties': [3, 7, 8], 'beyond': [0, 8], 'copies': [0, 127, 128, 199],
    'one more than a block': [0, 64], 'drawn': [20, 39], 'sample': [31],
}


@dataclass
class Given:
    """The fields of a file that gives a text."""
    version: int
    header: Header
    text: bytes
    digests: list

    def root(self) -> str:
        return root_of_header(self.version, self.header)

    def data(self) -> bytes:
        return b''.join(data for _, data in self.fields())

    def fields(self) -> Named:
        yield 'magic', b'ATSF'
        yield 'format', number(self.version, 1)
        yield from self.header.fields()
        yield 'length of the text', number(len(self.text), 4)
        yield 'text', self.text
        yield from digest_fields('texts', self.digests, 1)


TEXT_RANGES = {
    'magic': (0x41545346, 0x41545346), 'format': (1, 2), 'version of the header': (1, 1),
    'number of documents': (1, 65536), 'number of dictionary leaves': (2, 16777218),
    'length of the text': (0, LONGEST_TEXT), 'texts: number of digests': (0, 32),
}


def given(archive: Archive, document: int) -> Given:
    """The honest file."""
    return Given(archive.version, archive.header, archive.texts[document], elided(archive.texts, [document]))


def made_text(documents: int, document: int, text: bytes, digests: list[bytes], version: int = ONE) -> Given:
    """A file under a root that no archive has: all that the check does not ask of the header is 0 or least."""
    root = rebuilt(documents, [(document, text)], list(digests))
    return Given(version, Header(1, documents, 2, [NOTHING, NOTHING, root]), text, list(digests))


def field_changes(whole: Whole, ranges: dict[str, Pair]) -> Named:
    """The bytes cut in each field, and the first number of each name just out of its range."""
    data, seen = whole.data(), set()
    for name, start, end in with_places(whole):
        if start < end:
            yield f'cut in: {name}', data[:end - 1]
        if name in ranges and name not in seen:
            for value in (ranges[name][0] - 1, ranges[name][1] + 1):
                if 0 <= value < 256 ** (end - start):
                    yield f'{name}: {value}', data[:start] + number(value, end - start) + data[end:]
        seen.add(name)


def text_shapes(honest: Given) -> Named:
    """Faults of shape, by what they are."""
    data = honest.data()
    yield from field_changes(honest, TEXT_RANGES)
    yield 'no bytes', b''
    yield 'one byte more', data + b'\0'
    yield 'the bytes twice', data + data
    yield 'the magic of an index', b'ATSI' + data[4:]
    yield 'the magic of a proof', b'ATSP' + data[4:]
    yield 'two faults: the one in the first field is reported', data[:4] + b'\3' + data[5:110] + b'\xff' * 4
    yield 'a field that is cut is not tried for its range', data[:110] + b'\xff'
    yield 'the text is longer by a byte, and its length is not', data[:114] + b'x' + data[114:]
    yield 'the largest length of a text, and the text is cut', data[:110] + number(LONGEST_TEXT, 4) + data[114:]
    yield 'the largest number of bytes, which are 00', bytes(LONGEST_TEXT_FILE)
    yield 'one byte more than the largest number', bytes(LONGEST_TEXT_FILE + 1)


def changed_copy(honest: T, **parts: object) -> T:
    """The same with other parts."""
    changed = copy.deepcopy(honest)
    for name, value in parts.items():
        setattr(changed, name, value)
    return changed


def text_changes(honest: Given) -> Iterator[tuple[str, Given]]:
    """Changes of what the file says, by what they are."""
    text, digests = honest.text, honest.digests
    yield 'another first byte of the text', changed_copy(honest, text=b'X' + text[1:])
    yield 'two bytes of the text exchanged', changed_copy(honest, text=text[1::-1] + text[2:])
    yield 'the text without its last byte', changed_copy(honest, text=text[:-1])
    yield 'the text with a byte more', changed_copy(honest, text=text + b' ')
    yield 'no text', changed_copy(honest, text=b'')
    yield 'another digest', changed_copy(honest, digests=[digest(digests[0]), *digests[1:]])
    yield 'digests from the right to the left', changed_copy(honest, digests=digests[::-1])
    yield 'a digest too few', changed_copy(honest, digests=digests[:-1])
    yield 'no digest', changed_copy(honest, digests=[])
    yield 'a digest too many', changed_copy(honest, digests=[*digests, NOTHING])
    yield '32 digests', changed_copy(honest, digests=(digests * 32)[:32])
    for name in ('documents', 'leaves'):
        header = copy.deepcopy(honest.header)
        setattr(header, name, getattr(header, name) + 1)
        yield f'the header has one more of: {name}', changed_copy(honest, header=header)
    for at, name in enumerate(('dictionary', 'documents', 'texts')):
        header = copy.deepcopy(honest.header)
        header.roots[at] = digest(header.roots[at])
        yield f'the header has another root of the {name}', changed_copy(honest, header=header)
    yield 'the other format', changed_copy(honest, version=ONE + TWO - honest.version)


def leaf_up(count: int, position: int, digests: list[bytes]) -> list[bytes]:
    """The same digests in the order of an audit path (RFC 6962 2.1.1): from the leaf up."""
    if count == 1:
        return []
    middle = split(count)
    if position < middle:
        return leaf_up(middle, position, digests[:-1]) + digests[-1:]
    return leaf_up(count - middle, position - middle, digests[1:]) + digests[:1]


def made_texts() -> Iterator[tuple[str, Given, int]]:
    """Files that are accepted under roots which no archive has, with what each shows, and its document."""
    for version, blocks in ((ONE, ''), (TWO, 'in blocks: ')):
        yield blocks + 'bytes that are no UTF-8', made_text(1, 0, b'\xff\x00red', [], version), 0
    yield 'the longest text', made_text(2, 1, b'x' * LONGEST_TEXT, [OTHER]), 1
    yield 'the first of the largest number of documents', made_text(65536, 0, b'red', made_digests(16)), 0
    yield 'the last of the largest number of documents', made_text(65536, 65535, b'red', made_digests(16)), 65535
    yield 'the last of 65,535 documents, which needs one digest less', made_text(65535, 65534, b'red', made_digests(15)), 65534
    yield 'the last of 32,769 documents, which needs one digest', made_text(32769, 32768, b'red', made_digests(1)), 32768
    yield 'digests of bytes 00', made_text(3, 1, b'red', [NOTHING, NOTHING]), 1


def texts(archives: Archives) -> list[Entry]:
    """Honest files, changed ones and made ones, each with what `fetch` prints of it."""
    told = []

    def tell(about: str, root: str, document: int, data: bytes, **other: Any) -> None:
        answer = client.fetch(root, document, data)
        if 'text' in answer:
            answer['text'] = bytes_in_parts(answer['text'])
        told.append({'about': about, **other, 'root': root, 'document': document, **answer, 'file': bytes_in_parts(data)})

    for name, documents in GIVEN.items():
        for version, blocks in ((ONE, ''), (TWO, ', in blocks')):
            for document in documents:
                archive = archives[version][name]
                tell(f'document {document} of {name}{blocks}', archive.root, document, given(archive, document).data(),
                     archive=name)
    one, two = (given(archives[version]['foxes'], 1) for version in (ONE, TWO))
    root = one.root()
    for about, data in text_shapes(one):
        tell(about, root, 1, data)
    for whole, blocks in ((one, ''), (two, 'in blocks: ')):
        for about, changed_one in text_changes(whole):
            tell(blocks + about, whole.root(), 1, changed_one.data())
    tell('under another root', NOTHING.hex(), 1, one.data())
    tell('under the root of these texts with lists in blocks', two.root(), 1, one.data())
    tell('in blocks: under the root of these texts with lists of one tree', root, 1, two.data())
    for document in (0, 2, 3, 65536, 999999999):
        tell(f'for document {document}', root, document, one.data())
    drawn = given(archives[ONE]['drawn'], 20)
    changed_one = changed_copy(drawn, digests=leaf_up(drawn.header.documents, 20, drawn.digests))
    tell('digests from the leaf up', drawn.root(), 20, changed_one.data())
    tell('two: under another root, and document 3', NOTHING.hex(), 3, one.data())
    short = changed_copy(one, digests=one.digests[:1])
    tell('two: document 3, and a digest too few', root, 3, short.data())
    tell('two: a digest too few, and another text', root, 1, changed_copy(short, text=b'blue hen').data())
    tell('two: under another root, and a byte more', NOTHING.hex(), 1, one.data() + b'\0')
    for about, whole, document in made_texts():
        tell(about, whole.root(), document, whole.data())
    look_over_files('texts', told, {'other-root', 'doc-out', 'text-misfit', 'text-root'})
    return told


def look_over_files(name: str, told: list[Entry], refusals: set[str]) -> None:
    """Each refusal and each kind of fault must occur; these files have no algorithm and no order."""
    words = [each['lines'][0].split() for each in told if each['status'] == 1]
    kinds = {'long', 'cut', 'magic', 'version', 'count', 'trailing'}
    missing = (refusals - {line[1] for line in words}) | (kinds - {line[2] for line in words if line[1] == 'shape'})
    if missing:
        raise SystemExit(f'{name}: no vector for {sorted(missing)}')


# Growth between two archives. All comes from the second client; the gate compares the program

LONGEST_GROWTH = 4096

# Collections whose texts are the first ones of another, and the formats of both.
GROWING = [
    ('foxes', 'more foxes', ONE, ONE), ('foxes', 'more foxes', ONE, TWO), ('foxes', 'more foxes', TWO, ONE),
    ('foxes', 'more foxes', TWO, TWO), ('foxes', 'foxes', ONE, ONE), ('foxes', 'foxes', ONE, TWO),
    ('foxes', 'foxes', TWO, ONE), ('three letters', 'seven letters', ONE, ONE), ('six letters', 'seven letters', ONE, ONE),
    ('three letters', 'six letters', TWO, TWO), ('one more than a block', 'copies', ONE, ONE),
    ('one more than a block', 'copies', ONE, TWO), ('sample', 'sample', ONE, TWO), ('silent', 'silent', ONE, ONE),
]


@dataclass
class Grown:
    """The fields of a file that shows a growth."""
    old_version: int
    old: Header
    new_version: int
    new: Header
    digests: list

    def roots(self) -> tuple[str, str]:
        return root_of_header(self.old_version, self.old), root_of_header(self.new_version, self.new)

    def data(self) -> bytes:
        return b''.join(data for _, data in self.fields())

    def fields(self) -> Named:
        yield 'magic', b'ATSG'
        for which, version, header in (('old', self.old_version, self.old), ('new', self.new_version, self.new)):
            yield f'{which}: format', number(version, 1)
            for name, data in header.fields():
                yield f'{which}: {name}', data
        yield from digest_fields('growth', self.digests, 1)


GROWTH_RANGES = {
    'magic': (0x41545347, 0x41545347), 'growth: number of digests': (0, 64),
    **{f'{which}: {name}': TEXT_RANGES[name] for which in ('old', 'new')
       for name in ('format', 'version of the header', 'number of documents', 'number of dictionary leaves')},
}


def subproof(count: int, leaves: list[bytes], is_known: bool = True) -> list[bytes]:
    """The digests of RFC 6962 2.1.2: the first `count` leaves are the old ones."""
    if count == len(leaves):
        return [] if is_known else [tree_root(leaves)]
    middle = split(len(leaves))
    left, right = leaves[:middle], leaves[middle:]
    if count <= middle:
        return subproof(count, left, is_known) + [tree_root(right)]
    return subproof(count - middle, right, False) + [tree_root(left)]


def grown(old: Archive, new: Archive) -> Grown:
    """The honest file."""
    return Grown(old.version, old.header, new.version, new.header, subproof(len(old.texts), new.texts))


def made_growth(old: int, new: int, digests: list[bytes], root: bytes = NOTHING) -> Grown:
    """A file under roots that no archive has. `root` is that of the old texts if they are a whole left part."""
    roots = client.pair(root, old, new, list(digests))
    headers = [Header(1, count, 2, [NOTHING, NOTHING, each]) for count, each in zip((old, new), roots)]
    return Grown(ONE, headers[0], TWO, headers[1], list(digests))


def growth_shapes(honest: Grown) -> Named:
    """Faults of shape, by what they are."""
    data = honest.data()
    yield from field_changes(honest, GROWTH_RANGES)
    yield 'no bytes', b''
    yield 'one byte more', data + b'\0'
    yield 'the magic of a text', b'ATSF' + data[4:]
    yield 'two faults: the one in the first field is reported', data[:4] + b'\3' + data[5:216] + b'\xff'
    yield 'a field that is cut is not tried for its range', data[:116] + b'\xff'
    yield 'the largest number of bytes', data.ljust(LONGEST_GROWTH, b'\0')
    yield 'one byte more than the largest number', data.ljust(LONGEST_GROWTH + 1, b'\0')


def growth_changes(honest: Grown) -> Iterator[tuple[str, Grown]]:
    """Changes of what the file says, by what they are."""
    digests = honest.digests
    for at, name in enumerate(('first', 'second', 'third')):
        yield f'another {name} digest', changed_copy(honest, digests=[*digests[:at], digest(digests[at]), *digests[at + 1:]])
    yield 'the digests in reverse order', changed_copy(honest, digests=digests[::-1])
    yield 'without the last digest', changed_copy(honest, digests=digests[:-1])
    yield 'without the first digest', changed_copy(honest, digests=digests[1:])
    yield 'no digest', changed_copy(honest, digests=[])
    yield 'a digest too many', changed_copy(honest, digests=[*digests, NOTHING])
    yield '64 digests', changed_copy(honest, digests=(digests * 64)[:64])
    for which in ('old', 'new'):
        for name in ('documents', 'leaves'):
            header = copy.deepcopy(getattr(honest, which))
            setattr(header, name, getattr(header, name) + 1)
            yield f'the {which} header has one more of: {name}', changed_copy(honest, **{which: header})
        header = copy.deepcopy(getattr(honest, which))
        header.roots[2] = digest(header.roots[2])
        yield f'the {which} header has another root of the texts', changed_copy(honest, **{which: header})
        version = f'{which}_version'
        yield f'the other format of the {which} archive', changed_copy(honest, **{version: ONE + TWO - getattr(honest, version)})


def made_growths() -> Iterator[tuple[str, Grown]]:
    """Files under roots that no archive has, with what each shows."""
    for old, new in ((1, 2), (1, 65536), (32768, 65536), (32769, 65536), (65535, 65536), (65536, 65536), (5, 8), (7, 8)):
        count = client.needed(old, new)
        root = NOTHING if old & (old - 1) else OTHER
        yield f'from {old} to {new} documents; digests: {count}', made_growth(old, new, made_digests(count), root)
    whole = made_growth(4, 6, made_digests(1), OTHER)
    yield 'an old part that is known has no digest: one more for it', changed_copy(whole, digests=[OTHER, *whole.digests])


def growths(archives: Archives) -> list[Entry]:
    """Honest files, changed ones and made ones, each with what `growth` prints of it."""
    told = []

    def tell(about: str, roots: Sequence[str], data: bytes, **other: Any) -> None:
        old, new = roots
        told.append({'about': about, **other, 'old_root': old, 'new_root': new, **client.growth(old, new, data),
                     'file': bytes_in_parts(data)})

    for old, new, old_version, new_version in GROWING:
        one, other = archives[old_version][old], archives[new_version][new]
        blocks = [', in blocks' if version == TWO else '' for version in (old_version, new_version)]
        tell(f'{old}{blocks[0]}, to {new}{blocks[1]}', (one.root, other.root), grown(one, other).data(), old=old, new=new)
    one, two = archives[ONE]['foxes'], archives[ONE]['more foxes']
    honest, roots = grown(one, two), (one.root, two.root)
    for about, data in growth_shapes(honest):
        tell(about, roots, data)
    for about, changed_one in growth_changes(honest):
        tell(about, roots, changed_one.data())
    back = Grown(ONE, two.header, ONE, one.header, honest.digests)
    tell('the two roots exchanged', roots[::-1], honest.data())
    tell('the two headers exchanged', roots, back.data())
    tell('fewer documents than before', roots[::-1], back.data())
    tell('another old root', (NOTHING.hex(), roots[1]), honest.data())
    tell('another new root', (roots[0], NOTHING.hex()), honest.data())
    tell('the same texts with another first one, and the digests of the old ones', *withdrawn(one, two, True))
    tell('the same texts with another first one, and the digests of the new ones', *withdrawn(one, two, False))
    tell('two: another old root, and another new root', (NOTHING.hex(), NOTHING.hex()), honest.data())
    tell('two: another new root, and fewer documents than before', (roots[1], NOTHING.hex()), back.data())
    tell('two: fewer documents than before, and a digest too few', roots[::-1], changed_copy(back, digests=back.digests[1:]).data())
    wrong = changed_copy(honest, digests=[NOTHING] * 2)
    tell('two: a digest too few, and other digests', roots, wrong.data())
    wrong = changed_copy(honest, digests=[NOTHING] * 3)
    tell('two: the digests give neither root', roots, wrong.data())
    tell('two: another old root, and a byte more', (NOTHING.hex(), roots[1]), honest.data() + b'\0')
    for about, whole in made_growths():
        tell(about, whole.roots(), whole.data())
    look_over_files('growths', told, {'other-old', 'other-new', 'shrunk', 'growth-misfit', 'old-texts', 'new-texts'})
    return told


def withdrawn(one: Archive, two: Archive, has_old_digests: bool) -> tuple[tuple[str, str], bytes]:
    """The roots and the file of a growth in which the first text was changed, with digests of the old or the new texts."""
    texts = [b'red hen', *two.texts[1:]]
    header = copy.deepcopy(two.header)
    header.roots[2] = tree_root(texts)
    digests = subproof(len(one.texts), two.texts if has_old_digests else texts)
    whole = Grown(ONE, one.header, ONE, header, digests)
    return whole.roots(), whole.data()


# All documents with every term. All comes from the second client; the gate compares the program

# Queries by their collections.
BOTH_ASKED = {
    'foxes': [
        'red hen', 'RED hen', 'red hen hen', 'fox', 'hen', 'red fox', 'fox hen', 'blue red', 'hen blue red fox', 'zebra', 'aaa zebra',
        'red zebra', 'aaa hen', 'aaa red hen zebra', 'red ' * 255, 'red ' + ' '.join(f'a{at}' for at in range(31)),
    ],
    'silent': ['red'], 'street': ['STRASSE'], 'dogs': ['the', 'The dog', 'dog lazy sleeps'],
    'ties': ['ant bee', 'bee cat', 'cat dog', 'ant bee cat', 'bee'],
    'beyond': ['strasse gasse', '\u03bf\u03b4\u03bf\u03c3', 'na\u00efve nai\u0308ve'], 'planes': ['\U00010428 \uff41'],
    'copies': ['a'], 'one more than a block': ['a', 'a b'], 'three letters': ['a', 'a b'],
    'drawn': ['w0 w3', 'w1 w8', 'w3 w5 w11'], 'sample': ['blood count', 'the court'],
}
BOTH_ASKED_IN_BLOCKS = ['foxes', 'silent', 'copies', 'one more than a block', 'sample']


def both_counts(archive: Archive, terms: list[bytes]) -> list[int]:
    """How many entries are shown of each list: the first of the shortest is whole if all terms are present."""
    counts = [len(archive.lists[term]) for term in terms if term in archive.lists]
    whole = counts.index(min(counts)) if len(counts) == len(terms) else len(counts)
    return [count if at == whole else 1 for at, count in enumerate(counts)]


def shown_for_both(archive: Archive, query: str, counts: Optional[list[int]] = None) -> Proof:
    """The honest proof, or one that shows these numbers of entries."""
    terms = [term for term, _ in client.terms(query)]
    positions, slots = shown_terms([leaf[0] for leaf in archive.dictionary], terms)
    proof = Proof(1, copy.deepcopy(archive.header), len(terms), [], [], [], [], [], version=archive.version)
    proof.slots = [(kind, positions[index]) for kind, index in slots]
    proof.leaves = [(at, *archive.dictionary[at]) for at in range(len(archive.dictionary))]
    shown_leaves(positions)(proof, archive)
    longer_lists(both_counts(archive, terms) if counts is None else counts)(proof, archive)
    return proof


@functools.lru_cache(maxsize=None)
def terms_in(text: bytes) -> set[bytes]:
    return {term for term, _ in client.terms(text.decode())}


def having_all(archive: Archive, query: str) -> list[str]:
    """The documents that have every term of the query, by their texts alone."""
    return [str(at) for at, text in enumerate(archive.texts) if terms_in(query.encode()) <= terms_in(text)]


# Numbers of entries that are shown of the lists, for a query of a collection.
BOTH_SHOWN = [
    ('foxes', 'red hen', [1, 1]), ('foxes', 'red hen', [2, 2]), ('foxes', 'red hen', [1, 2]), ('foxes', 'red zebra', [2]),
    ('foxes', 'hen', [1]), ('ties', 'ant bee', [1, 5]), ('ties', 'ant bee', [3, 4]), ('ties', 'ant bee', [3, 1]),
    ('copies', 'a', [199]), ('copies', 'a', [64]), ('copies', 'a', [128]), ('one more than a block', 'a', [64]),
]

BY_TNRA = lambda proof, archive: setattr(proof, 'algorithm', 2)
ONE_EACH = longer_lists([1, 1])

BOTH_CHANGES = [
    # the algorithm and the rows
    ('red hen', 'by tnra', BY_TNRA),
    ('zebra', 'by tnra, and nothing is met', BY_TNRA),
    ('red hen', 'a row', rows(0)),
    ('red hen', 'a row, of the other document', rows(1)),
    ('red hen', 'two rows of one document', rows(0, 0)),
    ('red hen', 'a row that names no met document', rows(9)),
    ('red hen', 'the largest number of rows', rows(*range(1000))),
    # the header and the dictionary
    ('red hen', 'the header has another number of documents', header_with(documents=4)),
    ('red hen', 'another root of the texts', lambda proof, archive: assigned('roots', 2, OTHER)(proof.header, archive)),
    ('red hen', 'dictionary: a digest too few', digests_of(DICTIONARY, DROP)),
    ('red hen', 'dictionary: another digest', digests_of(DICTIONARY, BEND)),
    ('red hen', 'dictionary: one document has red, as one entry is shown', leaf_with('leaves', 1, 2, 1)),
    ('red hen', 'dictionary: all leaves are shown', ALL_FOXES),
    # the slots
    ('red hen', 'slot: another leaf', leaf_with('slots', 0, 1, 1)),
    ('red hen', 'slot: no such leaf', leaf_with('slots', 1, 1, 2)),
    ('red hen', 'slot: a present term is called absent', absent(0)),
    ('red hen', 'slot: a present term is called absent at the last leaf', absent(1)),
    ('fox', 'slot: a present term is called absent, at its leaf, and nothing is met', all_of(ALL_FOXES, absent(0), nothing_met)),
    ('fox', 'slot: a present term is called absent, before its leaf, and nothing is met',
     all_of(ALL_FOXES, absent(0), leaf_with('slots', 0, 1, 1), nothing_met)),
    ('zebra', 'slot: no leaf after an absent term', leaf_with('slots', 0, 1, 1)),
    ('aaa zebra', 'slot: an absent term between two below it', all_of(ALL_FOXES, leaf_with('slots', 1, 1, 3))),
    # the lists
    ('red hen', 'list: an entry names no met document', with_entry(1, 0, 2)),
    ('red hen', 'list: a document twice', with_entry(0, 1, 1)),
    ('red hen', 'list: a digest too many in the whole list', digests_of(LISTS(0), ADD)),
    ('red hen', 'list: a digest too few in the other list', digests_of(LISTS(1), DROP)),
    ('red hen', 'list: an entry more than the digests leave', lambda proof, archive: proof.prefixes[1].entries.append((1, 1))),
    ('red hen', 'list: another impact', with_entry(0, 0, 1, 1064)),
    ('red hen', 'list: another document', all_of(with_entry(0, 0, 0), with_entry(0, 1, 1))),
    ('red hen', 'list: another digest', digests_of(LISTS(1), BEND)),
    ('aaa red hen zebra', 'list: a digest too many, after an absent term', digests_of(LISTS(0), ADD)),
    ('red hen', 'met: a document that no entry names', more_met([9])),
    # the documents and their terms
    ('red hen', 'documents: a digest too few', digests_of(DOCUMENTS, DROP)),
    ('red hen', 'documents: another digest', digests_of(DOCUMENTS, BEND)),
    ('red hen', 'documents: another number of terms', leaf_with('documents', 0, 0, 5)),
    ('zebra', 'documents: nothing is met, and no digest', digests_of(DOCUMENTS, DROP)),
    ('red hen', 'terms: a digest too few', digests_of(TERMS(0), DROP)),
    ('red hen', 'terms: another digest', digests_of(TERMS(1), BEND)),
    ('red hen', 'terms: another impact', section_with(1, 0, 2, 897)),
    ('red hen', 'terms: all leaves are shown of each', all_of(more_terms(0), more_terms(1))),
    ('red hen', 'terms slot: an absent term is called present', section_with(1, 1, 0, 1, 'slots')),
    ('red hen', 'terms slot: a present term is called absent', section_with(0, 1, 0, 0, 'slots')),
    ('red hen', 'terms slot: a present term is called absent, at its leaf', these_terms(0, range(4), [(1, 1), (0, 2)])),
    ('red hen', 'terms slot: a present term is called absent, before its leaf', these_terms(0, range(4), [(1, 1), (0, 1)])),
    ('red zebra', 'terms slot: no such leaf, after an absent term', section_with(0, 0, 1, 7, 'slots')),
    # two faults
    ('red hen', 'two: by tnra, and a row', all_of(rows(0), BY_TNRA)),
    ('red hen', 'two: by tnra, and another header', all_of(header_with(documents=4), BY_TNRA)),
    ('red hen', 'two: a row, and another header', all_of(rows(0), header_with(documents=4))),
    ('red hen', 'two: a row, and no whole list', all_of(ONE_EACH, rows(1))),
    ('red hen', 'two: another header, and no whole list', all_of(ONE_EACH, header_with(leaves=7))),
    ('red hen', 'two: another digest of a list, and no whole list', all_of(ONE_EACH, digests_of(LISTS(1), BEND))),
    ('red hen', 'two: slot of a document, and no whole list', all_of(ONE_EACH, section_with(1, 1, 0, 1, 'slots'))),
    ('red hen', 'two: the first list and a document', all_of(with_entry(0, 0, 1, 1), digests_of(TERMS(0), ADD))),
    ('red hen', 'two: documents and terms', all_of(digests_of(DOCUMENTS, BEND), section_with(0, 0, 2, 1))),
]

BOTH_IN_BLOCKS = [
    ('red hen', 'by tnra', BY_TNRA),
    ('red hen', 'a row', rows(0)),
    ('red hen', 'list: another impact', with_entry(0, 0, 1, 1064)),
    ('red hen', 'list: a digest too many, of bytes 00 as after the last block', digests_of(LISTS(0), lambda digests: (
        digests.append(NOTHING)))),
    ('red hen', 'list: no digest of the other entry', digests_of(LISTS(1), DROP)),
    ('red hen', 'met: a document that no entry names', more_met([9])),
    ('red hen', 'terms slot: an absent term is called present', section_with(1, 1, 0, 1, 'slots')),
]


def both_shapes(data: bytes) -> Named:
    """A few faults of shape: the bytes are read as those of a proof."""
    yield 'no bytes', b''
    yield 'without the last byte', data[:-1]
    yield 'one byte more', data + b'\0'
    yield 'the magic of a text', b'ATSF' + data[4:]
    yield 'version: 3', data[:4] + b'\3' + data[5:]
    yield 'algorithm: 3', data[:5] + b'\3' + data[6:]
    yield 'the other version is named', other_version(data)
    yield 'the other algorithm is named', data[:5] + b'\2' + data[6:]
    yield 'one row, which is not there', data[:-2] + number(1, 2)
    yield 'number of rows: 1001', data[:-2] + number(1001, 2)


def made_for_both() -> Iterator[tuple[str, Made, str]]:
    """Proofs under roots that no archive has, with what each shows, and its query."""
    lacks = Section([(0, b'', 0), (1, b'\xff', 0)], [], [(0, 0)])

    def has(impact: int) -> Section:
        return Section([(1, b'x', impact)], [OTHER, OTHER], [(1, 0)])

    def one_met(made: Made, count: int = 3, section: Optional[Section] = None) -> Made:
        return looked_up(made, [count], [section or has(5)], made_digests(3))

    def front(count: int, digests: int, impact: int = 7, version: int = ONE) -> Made:
        return one_met(one_list(5, count, [(1, impact)], made_digests(digests), (), version=version))

    yield 'an impact of 0 in the list and in the document', one_met(one_list(5, 1, [(1, 0)], rows=()), 3, has(0)), 'x'
    yield 'the document does not have the term of its list', one_met(one_list(5, 1, [(1, 5)], rows=()), 2, lacks), 'x'
    yield 'a last shown impact of 0, with an entry after it', front(2, 1, 0), 'x'
    yield 'more entries than documents, cut after as many as there are documents', looked_up(
        one_list(2, 3, [(0, 7), (1, 6)], made_digests(1), ()), [3, 3], [has(5)] * 2, []), 'x'
    yield 'the largest number of entries', front(2**32 - 1, 32), 'x'
    yield 'in blocks: the largest number of entries', front(2**32 - 1, 7, version=TWO), 'x'
    yield '257 entries, of which one is shown', front(257, 9), 'x'
    yield 'in blocks: an entry in a list of 65', front(65, 7, version=TWO), 'x'
    yield 'in blocks: an entry in a list of 0', front(0, 0, version=TWO), 'x'
    yield 'an entry in a list of 0', front(0, 0), 'x'
    for version, about in ((ONE, 'in blocks: the root of a list is that of the tree of its only block'),
                           (TWO, 'the root of a list is that of a list in blocks')):
        yield about, looked_up(changed_rows(of_other_version(version)), [3, 3], [has(5)] * 2, made_digests(2)), 'x'
    yield 'a met document at the number of documents', looked_up(
        one_list(1, 1, [(1, 5)], rows=()), [3], [has(5)], made_digests(1)), 'x'
    between = Made(5, slots=[(0, 0)], rows=[])
    between.dictionary(4, [(1, b'w', 1, OTHER), (2, b'z', 1, OTHER)], made_digests(2))
    between.documents([], [OTHER], [])
    yield 'absent between terms that are no sentinels', between, 'x'
    yield 'each of two lists has a document that the other has not, and both documents have both terms', two_whole(
        [1], [2], [(b'x', 5), (b'y', 5)], [(1, 0), (1, 1)]), 'x y'
    yield 'both lists have the same documents, and these have neither term', two_whole(
        [1, 2], [2, 1], [(b'w', 5), (b'z', 5)], [(0, 0), (0, 0)]), 'x y'
    yield 'both lists have the same documents, and these have only the first term', two_whole(
        [1, 2], [2, 1], [(b'x', 5), (b'z', 5)], [(1, 0), (0, 0)]), 'x y'
    yield 'both lists have the same documents, and these have only the second term', two_whole(
        [1, 2], [2, 1], [(b'w', 5), (b'y', 5)], [(0, 0), (1, 1)]), 'x y'
    yield 'the largest numbers of entries and of met documents, of which none has the term', looked_up(
        one_list(ALL, ALL, [(at, 5) for at in range(ALL)], rows=()), [2] * ALL, [lacks] * ALL, []), 'x'


def changed_rows(made: Made) -> Made:
    """The same with no row."""
    made.proof.rows = []
    return made


def two_whole(first: list[int], second: list[int], leaves: list[tuple[bytes, int]], slots: list[Pair]) -> Made:
    """The lists of x and y, with these documents; documents 1 and 2, of 5, have these leaves and slots."""
    made = Made(5, terms=2, met=sorted({*first, *second}), slots=[(1, 0), (1, 1)], rows=[])
    roots = [made.list_root(len(each), [(at, 5) for at in each]) for each in (first, second)]
    terms = zip((1, 2), (b'x', b'y'), (len(first), len(second)), roots)
    made.dictionary(4, list(terms), [OTHER, OTHER])
    section = Section([(1, *leaves[0]), (2, *leaves[1])], [OTHER], slots)
    return looked_up(made, [3, 3], [section] * 2, made_digests(3))


def both(archives: Archives, proofs: dict[str, Entry]) -> list[Entry]:
    """Honest files, changed ones and made ones, each with what `both` prints of it."""
    told = []

    def tell(about: str, root: str, query: str, proof: Union[bytes, Proof], **other: Any) -> None:
        data = proof if isinstance(proof, bytes) else proof.data()
        parts = bytes_in_parts(data) if isinstance(proof, bytes) else in_parts(pieces(proof))
        agreed(about, expanded(parts), data)
        told.append({'about': about, **other, 'root': root, 'query': query, **client.both(root, query, data), 'proof': parts})

    def tell_honest(name: str, archive: Archive, queries: list[str]) -> None:
        for query in queries:
            about = f'{name}, in blocks' if archive.version == TWO else name
            tell(about, archive.root, query, shown_for_both(archive, query), archive=name)
            agreed((name, query), told[-1]['lines'], having_all(archive, query))

    def tell_change(about: str, archive: Archive, query: str, change: Change) -> None:
        proof = shown_for_both(archive, query)
        change(proof, archive)
        tell(about, archive.root, query, proof)

    for name, queries in BOTH_ASKED.items():
        for version in (ONE, TWO) if name in BOTH_ASKED_IN_BLOCKS else (ONE,):
            tell_honest(name, archives[version][name], queries)
    for name, query, counts in BOTH_SHOWN:
        for version, blocks in ((ONE, ''), (TWO, ', in blocks')):
            archive = archives[version][name]
            shown = ' and '.join(map(str, counts))
            tell(f'entries that are shown{blocks}: {shown}', archive.root, query, shown_for_both(archive, query, counts))
    one, two = archives[ONE]['foxes'], archives[TWO]['foxes']
    for query, about, change in BOTH_CHANGES:
        tell_change(about, one, query, change)
    for query, about, change in BOTH_IN_BLOCKS:
        tell_change(f'in blocks: {about}', two, query, change)
    honest_one, honest_two = (shown_for_both(archive, 'red hen') for archive in (one, two))
    for about, data in both_shapes(honest_one.data()):
        tell(about, one.root, 'red hen', data)
    tell('under another root', NOTHING.hex(), 'red hen', honest_one)
    tell('under the root of these texts with lists in blocks', two.root, 'red hen', honest_one)
    tell('in blocks: under the root of these texts with lists of one tree', one.root, 'red hen', honest_two)
    tell('for another number of terms', one.root, 'hen', honest_one)
    tell('for another term', one.root, 'red fox', honest_one)
    tell('for other weights', one.root, 'red red hen', honest_one)
    tell('two: by tnra, and a byte more', one.root, 'red hen', honest_one.data()[:5] + b'\2' + honest_one.data()[6:] + b'\0')
    tell('two: for another number of terms, under another root', NOTHING.hex(), 'hen', honest_one)
    for name in ('two terms', 'two terms, in blocks,', 'absent, after all', 'present and absent'):
        for algorithm in ('tnra', 'tra'):
            each = proofs[f'{name} by {algorithm}']
            proof = Reader(bytes.fromhex(each['proof'])).proof()
            tell(f'the proof that `prove` makes of {name} by {algorithm}', each['root'], each['query'], proof)
            if algorithm == 'tra' and proof.rows:
                proof.rows = []
                tell(f'the proof that `prove` makes of {name} by {algorithm}, without its rows', each['root'], each['query'], proof)
    for about, made, query in made_for_both():
        tell(about, made.proof.root(), query, made.proof)
    look_over_both(told)
    return told


def look_over_both(told: list[Entry]) -> None:
    """Each refusal must occur, and a few kinds of fault."""
    words = [each['lines'][0].split() for each in told if each['status'] == 1]
    wanted = REFUSALS - {'answer-out', 'answer-repeated', 'not-settled'} | {'not-tra', 'answer-shown', 'no-whole-list'}
    kinds = {'cut', 'magic', 'version', 'algorithm', 'count', 'trailing'}
    missing = (wanted - {line[1] for line in words}) | (kinds - {line[2] for line in words if line[1] == 'shape'})
    if missing:
        raise SystemExit(f'both: no vector for {sorted(missing)}')


# Catalogs: archives under one root. All comes from the second client but the proofs of the shards, which the program makes

# The shards of each, by their collections and formats.
CATALOGS = {
    'one shard': [('foxes', ONE)],
    'both formats': [('foxes', ONE), ('more foxes', TWO)],
    'no word between': [('foxes', ONE), ('silent', ONE), ('foxes', ONE)],
    'seven shards': [('ties', ONE), ('foxes', TWO), ('drawn', ONE), ('dogs', ONE), ('beyond', TWO), ('more foxes', ONE),
                     ('ties', TWO)],
}

CATALOG_QUESTIONS = [
    ('one shard', 2, 'red hen'), ('both formats', 1, 'red hen'), ('both formats', 3, 'red hen'),
    ('both formats', 1000, 'fox hen'), ('both formats', 2, 'zebra'), ('no word between', 1, 'red hen'),
    ('no word between', 3, 'red hen'), ('seven shards', 1, 'fox'), ('seven shards', 1, 'w1 w8 w8'),
    ('seven shards', 4, 'ant fox hen w3'),
]

CATALOG_RANGES = {
    'magic': (0x41545353, 0x41545353), 'version': (1, 1), 'number of shards': (1, 4096), 'length of a proof': (0, LONGEST),
}


@dataclass
class Catalog:
    """The roots of the shards, and the bytes of the proof of each."""
    roots: list
    proofs: list

    def root(self) -> str:
        return digest(HEADER_TAGS[ONE] + b'ATSC' + number(1, 1) + number(len(self.roots), 4) + tree_root(self.roots)).hex()

    def data(self) -> bytes:
        return b''.join(data for _, data in self.fields())

    def fields(self) -> Named:
        yield 'magic', b'ATSS'
        yield 'version', number(1, 1)
        yield 'number of shards', number(len(self.roots), 4)
        for root in self.roots:
            yield 'root of a shard', root
        for proof in self.proofs:
            yield 'length of a proof', number(len(proof), 4)
            yield 'proof of a shard', proof


def in_catalog(program: Program, archives: Archives, name: str, algorithm: str, r: int, query: str) -> Catalog:
    """An answer of all shards: the proof of each for so many rows, of which only those stay that are among the best of all."""
    shards = [archives[version][one] for one, version in CATALOGS[name]]
    proofs = [program.prove(shard.index, algorithm, r, query) for shard in shards]
    roots = [bytes.fromhex(shard.root) for shard in shards]
    found = client.terms_of_query(query)
    best = client.merged([client.shard(at, *each, found) for at, each in enumerate(zip(roots, proofs))])[:r]
    counts = [sum(row[0] == at for row in best) for at in range(len(shards))]
    return Catalog(roots, [with_rows(data, lambda rows: rows[:count]) for data, count in zip(proofs, counts)])


def with_rows(data: bytes, change: Callable[[list[int]], list[int]]) -> bytes:
    """A proof with other rows."""
    proof = Reader(data).proof()
    proof.rows = change(proof.rows)
    return proof.data()


def changed_shard(honest: Catalog, at: int, change: Callable[[bytes], bytes]) -> Catalog:
    """A catalog's proof with another proof of one shard."""
    return changed_copy(honest, proofs=[*honest.proofs[:at], change(honest.proofs[at]), *honest.proofs[at + 1:]])


def catalog_shapes(honest: Catalog) -> Named:
    """Faults of shape, by what they are."""
    data = honest.data()
    yield from field_changes(honest, CATALOG_RANGES)
    yield 'no bytes', b''
    yield 'one byte more', data + b'\0'
    yield 'the magic of a proof', b'ATSP' + data[4:]
    yield 'the proof of one shard alone', honest.proofs[0]


def catalog_changes(honest: Catalog) -> Iterator[tuple[str, Catalog]]:
    """Changes of what a proof shows of two shards, the first one with one row and the second with two, by what they are."""
    one, two = honest.proofs
    yield 'another first root', changed_copy(honest, roots=[NOTHING, honest.roots[1]])
    yield 'the two roots exchanged', changed_copy(honest, roots=honest.roots[::-1])
    yield 'the two shards exchanged', Catalog(honest.roots[::-1], honest.proofs[::-1])
    yield 'without the last shard', Catalog(honest.roots[:1], honest.proofs[:1])
    yield 'each shard twice', Catalog(honest.roots * 2, honest.proofs * 2)
    yield 'the two proofs exchanged', changed_copy(honest, proofs=honest.proofs[::-1])
    yield 'the first proof for both shards', changed_copy(honest, proofs=[one, one])
    yield 'a proof without bytes', changed_copy(honest, proofs=[one, b''])
    yield 'a proof with a byte more', changed_copy(honest, proofs=[one + b'\0', two])
    yield 'two: another root, and a proof with a byte more', Catalog([NOTHING, honest.roots[1]], [one + b'\0', two])
    yield 'two: faults of both proofs', changed_copy(honest, proofs=[one[:-1], b''])
    no_row = with_rows(one, lambda rows: [])
    yield 'two: a row that is left out, and a fault of the second proof', changed_copy(honest, proofs=[no_row, b''])
    for about, at, change in CHANGED_ROWS:
        yield about, changed_shard(honest, at, lambda data: with_rows(data, change))


# Other rows of one of two shards.
CHANGED_ROWS = [
    ('the first row is left out', 1, lambda rows: rows[1:]), ('the last row is left out', 1, lambda rows: rows[:-1]),
    ('the row of the first shard is left out', 0, lambda rows: []),
    ('the rows of a shard exchanged', 1, lambda rows: rows[::-1]), ('a row twice', 1, lambda rows: [rows[0], *rows]),
    ('a row out of the met documents', 0, lambda rows: [9]),
]


def catalogs_asked(honest: Catalog) -> Iterator[tuple[str, str, int, str]]:
    """Roots and questions other than those that the proof is for, by what they are."""
    root = honest.root()
    yield 'under another root', NOTHING.hex(), 3, 'red hen'
    yield 'under the root of its first shard', honest.roots[0].hex(), 3, 'red hen'
    yield 'for fewer rows', root, 2, 'red hen'
    yield 'for more rows', root, 4, 'red hen'
    yield 'for another query', root, 3, 'red fox'
    yield 'for other weights', root, 3, 'red hen hen'


def tying_rows(tie: Catalog) -> Iterator[tuple[str, Catalog]]:
    """Proofs of one row of three shards, of which the first and the last are the same."""
    first, middle, last = tie.proofs
    yield 'the other of two rows that tie', changed_copy(tie, proofs=[last, middle, first])
    yield 'neither of two rows that tie', changed_copy(tie, proofs=[last, middle, last])
    yield 'both of two rows that tie', changed_copy(tie, proofs=[first, middle, first])


def catalogs(program: Program, archives: Archives) -> list[Entry]:
    """Honest proofs and changed ones, each with what `catalog` prints of it. An honest one has the roots of its shards."""
    told = []

    def tell(about: str, root: str, r: int, query: str, data: bytes, **other: Any) -> None:
        answer = client.catalog(root, r, query, data)
        told.append({'about': about, **other, 'root': root, 'r': r, 'query': query, **answer, 'proof': data.hex()})

    def tell_changes(algorithm: str) -> None:
        honest = in_catalog(program, archives, 'both formats', algorithm, 3, 'red hen')
        for about, changed_one in catalog_changes(honest):
            tell(f'{about} by {algorithm}', honest.root(), 3, 'red hen', changed_one.data())
        for about, root, r, query in catalogs_asked(honest):
            tell(f'{about} by {algorithm}', root, r, query, honest.data())
        tie = in_catalog(program, archives, 'no word between', algorithm, 1, 'red hen')
        for about, changed_one in tying_rows(tie):
            tell(f'{about} by {algorithm}', tie.root(), 1, 'red hen', changed_one.data())

    for name, r, query in CATALOG_QUESTIONS:
        for algorithm in ('tra', 'tnra'):
            honest = in_catalog(program, archives, name, algorithm, r, query)
            roots = [root.hex() for root in honest.roots]
            tell(f'{name} by {algorithm}', honest.root(), r, query, honest.data(), roots=roots)
            agreed(told[-1], told[-1]['status'], 0)
    honest = in_catalog(program, archives, 'both formats', 'tnra', 3, 'red hen')
    for about, data in catalog_shapes(honest):
        tell(about, honest.root(), 3, 'red hen', data)
    for algorithm in ('tra', 'tnra'):
        tell_changes(algorithm)
    return told


# The files

REFUSALS = {
    'other-root', 'slot-count', 'dict-misfit', 'dict-root', 'slot-wrong', 'index-out', 'repeated', 'list-misfit',
    'list-root', 'unmet', 'docs-misfit', 'docs-root', 'terms-misfit', 'terms-root', 'term-slot', 'answer-out',
    'answer-repeated', 'not-settled',
}
SHAPES = {'cut', 'magic', 'version', 'algorithm', 'count', 'order', 'trailing'}
DOCUMENTS_ALONE = {'docs-misfit', 'docs-root', 'terms-misfit', 'terms-root', 'term-slot'}


def look_over(told: list[Entry]) -> None:
    """Each refusal and each kind of fault must occur, by each algorithm that has it."""
    for algorithm, wanted in (('tnra', REFUSALS - DOCUMENTS_ALONE), ('tra', REFUSALS)):
        words = [each['lines'][0].split() for each in told if each['of'].endswith(algorithm) and each['status'] == 1]
        missing = (wanted - {line[1] for line in words}) | (SHAPES - {line[2] for line in words if line[1] == 'shape'})
        if missing:
            raise SystemExit(f'{algorithm}: no vector for {sorted(missing)}')


def save(name: str, items: Union[list[Any], dict[str, Any]]) -> None:
    """A list with an item in each line, or an object with a member in each."""
    if isinstance(items, dict):
        lines, ends = [f'{json.dumps(key)}: {json.dumps(value)}' for key, value in items.items()], '{}'
    else:
        lines, ends = [json.dumps(item) for item in items], '[]'
    text = ends[0] + '\n' + ',\n'.join(lines) + '\n' + ends[1] + '\n'
    (HERE / name).write_text(text, encoding='ascii')


def main(words: list[str]) -> None:
    with tempfile.TemporaryDirectory() as folder:
        program = Program(Path(words[0]).resolve() if words else TOP / 'ats', folder)
        built = {name: Archive(*program.build(texts)) for name, texts in COLLECTIONS.items()}
        archives = {ONE: built, TWO: {name: migrated(program, one) for name, one in built.items()}}
        proofs = honest(program, archives)
        told = changed(program, archives, proofs)
        look_over(told)
        save('archives.json', {
            name: {'root': one.root, 'header': one.header.data().hex(),
                   'root_in_blocks': two.root, 'header_in_blocks': two.header.data().hex(),
                   **({'file': 'examples/archive.json'} if name == 'sample' else {'texts': COLLECTIONS[name]})}
            for (name, one), two in zip(archives[ONE].items(), archives[TWO].values())
        })
        save('proofs.json', proofs)
        save('changed.json', told)
        save('made.json', made_answers(program))
        save('words.json', [{'text': text, 'terms': terms_of(program, text)} for text in WORDS])
        save('numbers.json', [told_numbers(program, *each) for each in NUMBERS])
        save('inputs.json', [told_input(program, *each) for each in INPUTS])
        save('large.json', large(program, archives))
        save('asked.json', asked(proofs))
        save('served.json', served(proofs))
        save('texts.json', texts(archives))
        save('growths.json', growths(archives))
        save('both.json', both(archives, proofs))
        save('catalogs.json', catalogs(program, archives))
        save('fields.json', {
            name: [[start, end, label, proofs[name]['proof'][2 * start:2 * end]]
                   for label, start, end in with_places(Reader(bytes.fromhex(proofs[name]['proof'])).proof())]
            for name in (f'{FOXES} by tnra', f'{FOXES} by tra', f'{COPIES}, in blocks, by tnra')
        })
    blocks.save()


if __name__ == '__main__':
    main(sys.argv[1:])
