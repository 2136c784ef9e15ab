"""A second client: `verify`, `ask`, `fetch`, `growth`, `both`, `catalog` and the answers of a server, by docs/client.md
and docs/formats.md.

`make.py` compares all that the program prints with this, which shares no code with the program. It is written to be
compared with those pages, step by step. It is no client for other texts, since of Unicode it knows only what the
vectors need. Python 3.9 and its standard library are all that is needed.
"""
import hashlib
import unicodedata
from collections import Counter
from types import SimpleNamespace
from typing import Any, Iterator, Optional, Union

LONGEST = 2**26
LONGEST_TEXT_FILE = 2**21
LONGEST_TEXT = 2**20
LONGEST_GROWTH = 4096
LONGEST_CATALOG = 2**28
LATER = 2**32 - 1
BLOCK = 64
NOTHING = bytes(32)

Leaf = tuple[int, bytes]  # its position, and what is hashed
Slot = tuple[int, int]  # its kind, and an index
Found = list[tuple[bytes, int]]  # the terms of a query, and how often it has each
Fields = SimpleNamespace  # what was read, by its name
Present = tuple[int, bytes, int, Fields]  # number, term, weight and leaf
Row = tuple[int, int, int, int]  # shard, document and both bounds
Checked = tuple[list[Row], int]  # the rows of a shard, and the most that its other documents can score
Answer = dict[str, Any]  # the status, and the lines or the text


class Refused(Exception):
    """The text of a line after `refused: `, `input: ` or `peer: `."""


# Hashes and trees

def digest(data: bytes) -> bytes:
    return hashlib.sha256(data).digest()


def cut(count: int) -> int:
    """The largest power of two below the count."""
    return 2 ** ((count - 1).bit_length() - 1)


def rebuilt(count: int, leaves: list[Leaf], digests: list[bytes], misfit: str) -> bytes:
    """The root of so many leaves, of which those are shown; each is a position and its bytes."""
    if any(position >= count for position, _ in leaves):
        raise Refused(misfit)
    unused = iter(digests)
    root = node(0, count, leaves, unused)
    if root is None or next(unused, None) is not None:
        raise Refused(misfit)
    return root


def node(start: int, count: int, leaves: list[Leaf], digests: Iterator[bytes]) -> Optional[bytes]:
    if not leaves:
        return next(digests, None)
    if count == 1:
        return digest(b'\0' + leaves[0][1])
    half, at = cut(count), 0
    while at < len(leaves) and leaves[at][0] < start + half:
        at += 1
    left = node(start, half, leaves[:at], digests)
    right = node(start + half, count - half, leaves[at:], digests)
    return None if left is None or right is None else digest(b'\1' + left + right)


def rebuilt_chain(count: int, leaves: list[Leaf], digests: list[bytes], misfit: str) -> bytes:
    """The digest of a list of so many leaves in blocks, of which the first ones are shown."""
    if len(leaves) > count:
        raise Refused(misfit)
    last, after = (len(leaves) - 1) // BLOCK, NOTHING
    if BLOCK * (last + 1) < count:
        if not digests:
            raise Refused(misfit)
        digests, after = digests[:-1], digests[-1]
    for block in range(last, -1, -1):
        size = min(BLOCK, count - BLOCK * block)
        shown = [(position % BLOCK, leaf) for position, leaf in leaves if position // BLOCK == block]
        root = rebuilt(size, shown, digests if block == last else [], misfit)
        after = digest(b'\3' + root + after)
    return after


# The terms of a text

# Characters that came after Unicode 14.0, whose tables Python 3.11 has: all are letters of alphabets.
FOLDED_LATER = {'\u1c89': '\u1c8a', '\ua7ce': '\ua7cf', '\ua7dd': '\u0277', '\U00016ea0': '\U00016ebb'}
LETTERS_LATER = set(FOLDED_LATER) | set(FOLDED_LATER.values())

MARKS = {
    '\r': 'CR', '\n': 'LF', '"': 'Double_Quote', "'": 'Single_Quote', '.': 'MidNumLet', '\u2019': 'MidNumLet',
    ':': 'MidLetter', '\u00b7': 'MidLetter', '\u05f4': 'MidLetter', ',': 'MidNum', ';': 'MidNum', '\u066b': 'Numeric',
    '_': 'ExtendNumLet', ' ': 'WSegSpace', '\u200d': 'ZWJ', '\u200b': 'Other', '\u000b': 'Newline',
    '\u0085': 'Newline', '\u2028': 'Newline',
}
PICTOGRAPHS = {'\U0001f44d', '\U0001f600', '\u24c2'}
WITHOUT_SPACES = ('CJK', 'HIRAGANA', 'THAI')


def is_alphabetic(char: str) -> bool:
    return char.isalpha() or unicodedata.category(char) == 'Nl' or '\u24b6' <= char <= '\u24e9' or char == '\u0345' or (
        char in LETTERS_LATER)


def break_class(char: str) -> str:
    """The Word_Break property of a character, as far as the vectors have such ones."""
    category, name = unicodedata.category(char), unicodedata.name(char, '')
    if char in MARKS:
        return MARKS[char]
    if '\U0001f1e6' <= char <= '\U0001f1ff':
        return 'Regional_Indicator'
    if category in ('Mn', 'Mc', 'Me'):
        return 'Extend'
    if category == 'Cf':
        return 'Format'
    if category == 'Nd':
        return 'Numeric'
    if 'KATAKANA' in name:
        return 'Katakana'
    if name.startswith('HEBREW LETTER'):
        return 'Hebrew_Letter'
    return 'ALetter' if is_alphabetic(char) and not name.startswith(WITHOUT_SPACES) else 'Other'


LETTERS = {'ALetter', 'Hebrew_Letter'}
IN_LETTERS = {'MidLetter', 'MidNumLet', 'Single_Quote'}
IN_NUMBERS = {'MidNum', 'MidNumLet', 'Single_Quote'}
BLANK = {'CR', 'LF', 'Newline'}
JOINED = {'Extend', 'Format', 'ZWJ'}
RUN = LETTERS | {'Numeric', 'Katakana', 'ExtendNumLet'}


def words(text: str) -> list[str]:
    """The pieces between the boundaries of UAX #29."""
    pieces: list[str] = []
    for at, char in enumerate(text):
        if at > 0 and is_joined(text, at):
            pieces[-1] += char
        else:
            pieces.append(char)
    return pieces


def is_joined(text: str, at: int) -> bool:
    """Whether the rules WB3 to WB999 leave no boundary in front of the character."""
    before, after = break_class(text[at - 1]), break_class(text[at])
    if before in BLANK or after in BLANK:
        return (before, after) == ('CR', 'LF')
    if before == 'ZWJ' and text[at] in PICTOGRAPHS:
        return True
    if before == after == 'WSegSpace' or after in JOINED:
        return True
    return is_joined_in_words(past(text, at), [after, *coming(text, at + 1)])


def past(text: str, at: int) -> list[str]:
    """The classes before this place, the nearest first, without what WB4 joins to the one before it."""
    classes: list[str] = []
    for place in range(at):
        each = break_class(text[place])
        if not classes or each not in JOINED or break_class(text[place - 1]) in BLANK:
            classes.insert(0, each)
    return classes


def coming(text: str, at: int) -> list[str]:
    """The first class from this place on that WB4 does not join to the one before it."""
    return [each for each in map(break_class, text[at:]) if each not in JOINED][:1]


def is_joined_in_words(left: list[str], right: list[str]) -> bool:
    before, after = left[0], right[0]
    two_before, two_after = (left + ['none'])[1], (right + ['none'])[1]
    if before in LETTERS | {'Numeric'} and after in LETTERS | {'Numeric'}:
        return True
    if before in LETTERS and after in IN_LETTERS and two_after in LETTERS:
        return True
    if two_before in LETTERS and before in IN_LETTERS and after in LETTERS:
        return True
    if before == 'Hebrew_Letter' and after == 'Single_Quote':
        return True
    if before == two_after == 'Hebrew_Letter' and after == 'Double_Quote':
        return True
    if two_before == after == 'Hebrew_Letter' and before == 'Double_Quote':
        return True
    if before == two_after == 'Numeric' and after in IN_NUMBERS:
        return True
    if two_before == after == 'Numeric' and before in IN_NUMBERS:
        return True
    if before == after == 'Katakana' or before in RUN and after == 'ExtendNumLet' or before == 'ExtendNumLet' and after in RUN:
        return True
    flags = next((at for at, each in enumerate(left) if each != 'Regional_Indicator'), len(left))
    return after == 'Regional_Indicator' and flags % 2 == 1


def terms(text: str) -> Found:
    """Each term with its count in the text, in byte order."""
    counts: Counter[bytes] = Counter()
    for word in words(text):
        if any(is_alphabetic(char) or unicodedata.category(char) in ('Nd', 'Nl', 'No') for char in word):
            term = ''.join(FOLDED_LATER.get(char, char.casefold()) for char in word).encode()
            counts.update([term] if len(term) <= 64 else [])
    return sorted(counts.items())


def terms_of_query(query: str) -> Found:
    size = len(query.encode())
    if size > 4000:
        raise Refused(f'query of {size} bytes')
    found = terms(query)
    count = sum(weight for _, weight in found)
    if not found:
        raise Refused('query has no term')
    if count > 255:
        raise Refused(f'query of {count} words')
    if len(found) > 32:
        raise Refused(f'query of {len(found)} terms')
    return found


def terms_of_question(r: int, query: str) -> Found:
    if not 1 <= r <= 1000:
        raise Refused(f'r {r}')
    return terms_of_query(query)


# The numbers of a term

def idf(documents: int, having: int) -> int:
    q = 1024 * (2 * documents + 2) // (2 * having + 1)
    if q < 1024:
        return 1
    e = q.bit_length() - 11
    return 1 + 8 * e + sum(each <= q >> e for each in (1117, 1218, 1328, 1448, 1579, 1722, 1878))


def impact(count: int, length: int, terms_of_all: int, documents: int) -> int:
    return 1 + 22000 * count * terms_of_all // ((10 * count + 3) * terms_of_all + 9 * length * documents)


# Reading the bytes

class Reader:
    """Reads the fields of a file. Each is tried whether it is there, and then for its range."""

    def __init__(self, data: bytes, longest: int = LONGEST) -> None:
        if len(data) > longest:
            raise Refused(f'shape long {longest}')
        self.data, self.at = data, 0

    def end(self) -> None:
        if self.at < len(self.data):
            raise Refused(f'shape trailing {self.at}')

    def take(self, size: int) -> bytes:
        if len(self.data) - self.at < size:
            raise Refused(f'shape cut {self.at}')
        self.at += size
        return self.data[self.at - size:self.at]

    def number(self, size: int, least: int = 0, most: int = LATER, kind: str = 'count') -> int:
        start = self.at
        value = int.from_bytes(self.take(size), 'big')
        if not least <= value <= most:
            raise Refused(f'shape {kind} {start}')
        return value

    def digests(self, size: int, most: int = LATER) -> list[bytes]:
        return [self.take(32) for _ in range(self.number(size, 0, most))]

    def format(self) -> int:
        return self.number(1, 1, 2, 'version')

    def header(self) -> Fields:
        """The numbers and roots of a header, and its bytes."""
        start = self.at
        self.number(1, 1, 1, 'version')
        documents, size = self.number(4, 1, 65536), self.number(4, 2, 16777218)
        roots = [self.take(32) for _ in range(3)]
        return Fields(documents=documents, size=size, roots=roots, data=self.data[start:self.at])

    def term(self) -> tuple[bytes, bytes]:
        """The term, and its bytes from its length on."""
        start = self.at
        term = self.take(self.number(1, 0, 64))
        return term, self.data[start:self.at]

    def leaves(self, rest: list[int]) -> list[Fields]:
        """Leaves with terms: each has a position, a term, what follows it, and the bytes that are hashed."""
        leaves, least = [], 0
        for _ in range(self.number(2, 1, 64)):
            position = self.number(4, least, LATER, 'order')
            term, data = self.term()
            values = [self.take(size) for size in rest]
            leaves.append(Fields(position=position, term=term, values=values, data=data + b''.join(values)))
            least = position + 1
        return leaves

    def slots(self, count: int) -> list[Slot]:
        slots, least = [], 0
        for _ in range(count):
            kind = self.number(1, 0, 1)
            least = self.number(2, least, LATER, 'order')
            slots.append((kind, least))
        return slots

    def met(self) -> list[int]:
        met, least = [], 0
        for _ in range(self.number(4, 0, 65536)):
            met.append(self.number(4, least, LATER, 'order'))
            least = met[-1] + 1
        return met

    def prefix(self) -> Fields:
        entries = [(self.number(4), self.number(2)) for _ in range(self.number(4, 1, 65536))]
        return Fields(entries=entries, digests=self.digests(2))

    def section(self, present: int) -> Fields:
        leaves = self.leaves([2])
        return Fields(leaves=leaves, digests=self.digests(2), slots=self.slots(present))

    def proof(self) -> Fields:
        self.number(4, 0x41545350, 0x41545350, 'magic')
        proof = Fields(format=self.format(), is_tra=self.number(1, 1, 2, 'algorithm') == 1)
        proof.header = self.header()
        proof.terms = self.number(2, 1, 32)
        proof.dictionary = Fields(leaves=self.leaves([4, 32]), digests=self.digests(2), slots=self.slots(proof.terms))
        present = sum(kind for kind, _ in proof.dictionary.slots)
        proof.met = self.met()
        proof.lists = [self.prefix() for _ in range(present)]
        if proof.is_tra:
            proof.document_leaves = [self.take(4) + self.take(32) for _ in proof.met]
            proof.document_digests = self.digests(4, 65536)
            proof.sections = [self.section(present) for _ in proof.met]
        proof.rows = [self.number(4) for _ in range(self.number(2, 0, 1000))]
        self.end()
        return proof

    def archive(self) -> Fields:
        return Fields(format=self.format(), header=self.header())

    def text(self) -> Fields:
        self.number(4, 0x41545346, 0x41545346, 'magic')
        given = self.archive()
        given.text = self.take(self.number(4, 0, LONGEST_TEXT))
        given.digests = self.digests(1, 32)
        self.end()
        return given

    def growth(self) -> Fields:
        self.number(4, 0x41545347, 0x41545347, 'magic')
        shown = Fields(old=self.archive(), new=self.archive(), digests=self.digests(1, 64))
        self.end()
        return shown

    def catalog(self) -> list[tuple[bytes, bytes]]:
        """The root of each shard, and the bytes of its proof."""
        self.number(4, 0x41545353, 0x41545353, 'magic')
        self.number(1, 1, 1, 'version')
        roots = [self.take(32) for _ in range(self.number(4, 1, 4096))]
        shards = [(root, self.take(self.number(4, 0, LONGEST))) for root in roots]
        self.end()
        return shards


# The check

def check_root(archive: Fields, root: bytes, why: str = 'other-root') -> None:
    """The archive's format and header are those of the root."""
    if digest((b'\2' if archive.format == 1 else b'\4') + archive.header.data) != root:
        raise Refused(why)


def shows(section: Fields, slot: Slot, term: bytes) -> bool:
    kind, index = slot
    leaves = section.leaves[index:index + 2]
    if kind == 1:
        return leaves != [] and leaves[0].term == term
    return len(leaves) == 2 and leaves[1].position == leaves[0].position + 1 and leaves[0].term < term < leaves[1].term


def check_dictionary(proof: Fields, found: Found) -> None:
    if proof.terms != len(found):
        raise Refused(f'slot-count {proof.terms}')
    section = proof.dictionary
    leaves = [(leaf.position, leaf.data) for leaf in section.leaves]
    if rebuilt(proof.header.size, leaves, section.digests, 'dict-misfit') != proof.header.roots[0]:
        raise Refused('dict-root')
    for at, (term, _) in enumerate(found):
        if not shows(section, section.slots[at], term):
            raise Refused(f'slot-wrong {at}')


def check_list(proof: Fields, at: int, shown: Fields, leaf: Fields) -> set[int]:
    met, named = proof.met, set()
    for entry, (place, _) in enumerate(shown.entries):
        if place >= len(met):
            raise Refused(f'index-out {at} {entry}')
        if place in named:
            raise Refused(f'repeated {at} {entry}')
        named.add(place)
    leaves = [(entry, met[place].to_bytes(4, 'big') + height.to_bytes(2, 'big'))
              for entry, (place, height) in enumerate(shown.entries)]
    count, root = leaf.values
    rebuilt_list = rebuilt if proof.format == 1 else rebuilt_chain
    if rebuilt_list(int.from_bytes(count, 'big'), leaves, shown.digests, f'list-misfit {at}') != root:
        raise Refused(f'list-root {at}')
    return named


def check_lists(proof: Fields, present: list[Present]) -> None:
    named = set()
    for (at, _, _, leaf), shown in zip(present, proof.lists):
        named |= check_list(proof, at, shown, leaf)
    for index in range(len(proof.met)):
        if index not in named:
            raise Refused(f'unmet {index}')


def check_documents(proof: Fields, present: list[Present]) -> None:
    if not proof.is_tra:
        return
    leaves = list(zip(proof.met, proof.document_leaves))
    if rebuilt(proof.header.documents, leaves, proof.document_digests, 'docs-misfit') != proof.header.roots[1]:
        raise Refused('docs-root')
    for document, own, section in zip(proof.met, proof.document_leaves, proof.sections):
        shown = [(leaf.position, leaf.data) for leaf in section.leaves]
        if rebuilt(int.from_bytes(own[:4], 'big'), shown, section.digests, f'terms-misfit {document}') != own[4:]:
            raise Refused(f'terms-root {document}')
        for (at, term, _, _), slot in zip(present, section.slots):
            if not shows(section, slot, term):
                raise Refused(f'term-slot {document} {at}')


def check_rows(proof: Fields) -> None:
    for row, place in enumerate(proof.rows):
        if place >= len(proof.met):
            raise Refused(f'answer-out {row}')
        if place in proof.rows[:row]:
            raise Refused(f'answer-repeated {row}')


# The answer

def bounds(proof: Fields, coefficients: list[int], rests: list[int]) -> tuple[list[int], list[int]]:
    """The two bounds of each met document."""
    lows, highs = [0] * len(proof.met), [sum(rests)] * len(proof.met)
    if proof.is_tra:
        for place, section in enumerate(proof.sections):
            lows[place] = sum(
                coefficient * int.from_bytes(section.leaves[index].values[0], 'big')
                for coefficient, (kind, index) in zip(coefficients, section.slots) if kind == 1)
        return lows, lows
    for coefficient, rest, shown in zip(coefficients, rests, proof.lists):
        for place, height in shown.entries:
            lows[place] += coefficient * height
            highs[place] -= rest
    return lows, [low + high for low, high in zip(lows, highs)]


def check_settled(proof: Fields, r: int, lows: list[int], highs: list[int], threshold: int) -> None:
    rows, others = proof.rows, set(range(len(proof.met))) - set(proof.rows)
    is_settled = len(rows) <= r and (len(rows) == r or not others and threshold == 0)
    is_settled = is_settled and all(highs[row] <= lows[before] for before, row in zip(rows, rows[1:]))
    if is_settled and rows:
        last = lows[rows[-1]]
        is_settled = threshold <= last and all(highs[each] <= last for each in others)
    if not is_settled:
        raise Refused('not-settled')


def check_shown(proof: Fields, root: bytes, found: Found) -> tuple[list[Present], list[int]]:
    """Checks all before the rows. Returns number, term, weight and leaf of each present term, and how many documents have it."""
    check_root(proof, root)
    check_dictionary(proof, found)
    slots, leaves = proof.dictionary.slots, proof.dictionary.leaves
    present = [(at, term, weight, leaves[index])
               for at, ((term, weight), (kind, index)) in enumerate(zip(found, slots)) if kind == 1]
    check_lists(proof, present)
    check_documents(proof, present)
    return present, [int.from_bytes(leaf.values[0], 'big') for _, _, _, leaf in present]


def scored(proof: Fields, root: bytes, found: Found) -> tuple[list[int], list[int], int]:
    """Checks all but the last step. Returns the two bounds of each met document, and the threshold."""
    present, counts = check_shown(proof, root, found)
    check_rows(proof)
    coefficients = [weight * idf(proof.header.documents, count) for (_, _, weight, _), count in zip(present, counts)]
    rests = [0 if len(shown.entries) == count else coefficient * shown.entries[-1][1]
             for count, coefficient, shown in zip(counts, coefficients, proof.lists)]
    return (*bounds(proof, coefficients, rests), sum(rests))


def answer(proof: Fields, root: bytes, r: int, found: Found) -> list[str]:
    """The rows of an accepted proof."""
    lows, highs, threshold = scored(proof, root, found)
    check_settled(proof, r, lows, highs, threshold)
    return [f'{rank} {proof.met[row]} {lows[row]} {highs[row]}' for rank, row in enumerate(proof.rows, 1)]


def verify(root: str, r: int, query: str, data: bytes) -> Answer:
    """The status and the lines."""
    try:
        found = terms_of_question(r, query)
    except Refused as why:
        return {'status': 4, 'lines': [f'input: {why}']}
    try:
        return {'status': 0, 'lines': answer(Reader(data).proof(), bytes.fromhex(root), r, found)}
    except Refused as why:
        return {'status': 1, 'lines': [f'refused: {why}']}


# Catalogs

def catalog_root(roots: list[bytes]) -> bytes:
    header = b'ATSC\1' + len(roots).to_bytes(4, 'big') + rebuilt(len(roots), list(enumerate(roots)), [], 'none')
    return digest(b'\2' + header)


def shard(number: int, root: bytes, data: bytes, found: Found) -> Checked:
    """The rows of a shard, each with its number, and the most that another of its documents can score."""
    try:
        proof = Reader(data).proof()
        lows, highs, threshold = scored(proof, root, found)
    except Refused as why:
        raise Refused(f'shard {number} {why}') from None
    others = set(range(len(proof.met))) - set(proof.rows)
    rows = [(number, proof.met[row], lows[row], highs[row]) for row in proof.rows]
    return rows, max([threshold, *(highs[each] for each in others)])


def merged(shards: list[Checked]) -> list[Row]:
    """Of the next rows of all shards the best, until none is left."""
    rows, waiting = [], [list(rows) for rows, _ in shards]
    while any(waiting):
        first = max(filter(None, waiting), key=lambda next_ones: (next_ones[0][2], next_ones[0][3], -next_ones[0][0]))
        rows.append(first.pop(0))
    return rows


def answer_of_all(shards: list[tuple[bytes, bytes]], root: bytes, r: int, found: Found) -> list[str]:
    """The rows of an accepted proof of a catalog."""
    if catalog_root([each for each, _ in shards]) != root:
        raise Refused('other-root')
    checked = [shard(number, each, data, found) for number, (each, data) in enumerate(shards)]
    rows = merged(checked)
    floor = rows[-1][2] if len(rows) == r else 0
    is_falling = all(row[3] <= before[2] for before, row in zip(rows, rows[1:]))
    if len(rows) > r or not is_falling or any(rest > floor for _, rest in checked):
        raise Refused('not-settled')
    return [' '.join(map(str, (rank, *row))) for rank, row in enumerate(rows, 1)]


def catalog(root: str, r: int, query: str, data: bytes) -> Answer:
    """The status and the lines."""
    try:
        found = terms_of_question(r, query)
    except Refused as why:
        return {'status': 4, 'lines': [f'input: {why}']}
    try:
        return {'status': 0, 'lines': answer_of_all(Reader(data, LONGEST_CATALOG).catalog(), bytes.fromhex(root), r, found)}
    except Refused as why:
        return {'status': 1, 'lines': [f'refused: {why}']}


# All documents with every term

def check_both(proof: Fields, root: bytes, found: Found) -> None:
    if not proof.is_tra:
        raise Refused('not-tra')
    if proof.rows:
        raise Refused(f'answer-shown {len(proof.rows)}')
    _, counts = check_shown(proof, root, found)
    is_whole = any(len(shown.entries) == count for count, shown in zip(counts, proof.lists))
    if len(counts) == len(found) and not is_whole:
        raise Refused('no-whole-list')


def both_documents(proof: Fields) -> list[int]:
    """The met documents that have every term of the query: none if a term is absent."""
    if any(kind == 0 for kind, _ in proof.dictionary.slots):
        return []
    return [document for document, section in zip(proof.met, proof.sections) if all(kind == 1 for kind, _ in section.slots)]


def both(root: str, query: str, data: bytes) -> Answer:
    """The status and the lines."""
    try:
        found = terms_of_query(query)
    except Refused as why:
        return {'status': 4, 'lines': [f'input: {why}']}
    try:
        proof = Reader(data).proof()
        check_both(proof, bytes.fromhex(root), found)
    except Refused as why:
        return {'status': 1, 'lines': [f'refused: {why}']}
    return {'status': 0, 'lines': [str(document) for document in both_documents(proof)]}


# The text of a document

def own_text(given: Fields, root: bytes, document: int) -> bytes:
    """The text, if it is that of the document under the root."""
    header, digests = given.header, given.digests
    check_root(given, root)
    if document >= header.documents:
        raise Refused(f'doc-out {header.documents}')
    if rebuilt(header.documents, [(document, given.text)], digests, f'text-misfit {len(digests)}') != header.roots[2]:
        raise Refused('text-root')
    return given.text


def fetch(root: str, document: int, data: bytes) -> Answer:
    """The status, and the text or the lines. The text is printed as it is, with a line feed after it."""
    try:
        return {'status': 0, 'text': own_text(Reader(data, LONGEST_TEXT_FILE).text(), bytes.fromhex(root), document)}
    except Refused as why:
        return {'status': 1, 'lines': [f'refused: {why}']}


# Growth

def needed(old: int, new: int, is_known: bool = True) -> int:
    """How many digests show that the first `old` of `new` texts are the old ones."""
    if old == new:
        return 0 if is_known else 1
    half = cut(new)
    return 1 + (needed(old, half, is_known) if old <= half else needed(old - half, new - half, False))


def pair(root: bytes, old: int, new: int, digests: list[bytes], is_known: bool = True) -> tuple[bytes, bytes]:
    """The digests of the old part and of the new one. `root` is that of all old texts."""
    if old == new:
        whole = root if is_known else digests[0]
        return whole, whole
    half, others, last = cut(new), digests[:-1], digests[-1]
    if old <= half:
        before, after = pair(root, old, half, others, is_known)
        return before, digest(b'\1' + after + last)
    before, after = pair(root, old - half, new - half, others, False)
    return digest(b'\1' + last + before), digest(b'\1' + last + after)


def grown(shown: Fields, old_root: bytes, new_root: bytes) -> tuple[int, int]:
    """The two numbers of documents, if nothing was withdrawn."""
    check_root(shown.old, old_root, 'other-old')
    check_root(shown.new, new_root, 'other-new')
    old, new = shown.old.header, shown.new.header
    if old.documents > new.documents:
        raise Refused(f'shrunk {old.documents} {new.documents}')
    if len(shown.digests) != needed(old.documents, new.documents):
        raise Refused(f'growth-misfit {len(shown.digests)}')
    before, after = pair(old.roots[2], old.documents, new.documents, shown.digests)
    if before != old.roots[2]:
        raise Refused('old-texts')
    if after != new.roots[2]:
        raise Refused('new-texts')
    return old.documents, new.documents


def growth(old_root: str, new_root: str, data: bytes) -> Answer:
    """The status and the lines."""
    try:
        shown = Reader(data, LONGEST_GROWTH).growth()
        old, new = grown(shown, bytes.fromhex(old_root), bytes.fromhex(new_root))
    except Refused as why:
        return {'status': 1, 'lines': [f'refused: {why}']}
    return {'status': 0, 'lines': [f'grown {old} {new}']}


# Frames

ALGORITHMS = {'tra': 1, 'tnra': 2}


def framed(body: bytes) -> bytes:
    return len(body).to_bytes(4, 'big') + body


def request(algorithm: str, r: int, query: str) -> bytes:
    text = query.encode()
    return framed(bytes([1, ALGORITHMS[algorithm]]) + r.to_bytes(2, 'big') + len(text).to_bytes(2, 'big') + text)


def proof_of_reply(data: bytes) -> bytes:
    """The bytes of the proof that a reply has."""
    if len(data) < 4:
        raise Refused(f'short {len(data)} 4')
    size = int.from_bytes(data[:4], 'big')
    if size > LONGEST + 1:
        raise Refused(f'long {size}')
    if size == 0:
        raise Refused('bad 0 0')
    if len(data) > 4 and (data[4] > 1 or data[4] == 1 and size != 2):
        raise Refused(f'bad {size} {data[4]}')
    if len(data) < 4 + size:
        raise Refused(f'short {len(data)} {4 + size}')
    if data[4] == 1:
        raise Refused(f'refused {data[5]}')
    return data[5:4 + size]


def ask(root: str, r: int, query: str, data: bytes) -> Answer:
    """The status and the lines of `ask` when these bytes come and then the link ends."""
    try:
        proof = proof_of_reply(data)
    except Refused as why:
        return {'status': 9, 'lines': [f'peer: {why}']}
    return verify(root, r, query, proof)


def requests(data: bytes) -> tuple[list[bytes], str]:
    """The bodies of the frames that come over a link, and how it ends."""
    bodies: list[bytes] = []
    at = 0
    while at < len(data) and len(bodies) < 65536:
        size = int.from_bytes(data[at:at + 4], 'big')
        if len(data) - at >= 4 and not 6 <= size <= 4096:
            return bodies, 'bad'
        if len(data) - at < 4 + size or len(data) - at < 4:
            return bodies, 'cut'
        bodies.append(data[at + 4:at + 4 + size])
        at += 4 + size
    return bodies, 'limit' if len(bodies) == 65536 else 'end'


def question(body: bytes) -> Union[int, tuple[str, int, str]]:
    """The algorithm, the number of rows and the query of a request; or the code of the reply."""
    version, algorithm, r, size = body[0], body[1], int.from_bytes(body[2:4], 'big'), int.from_bytes(body[4:6], 'big')
    try:
        query = body[6:].decode()
    except UnicodeDecodeError:
        return 1
    if version != 1 or algorithm not in (1, 2) or size != len(body) - 6:
        return 1
    if not 1 <= r <= 1000:
        return 4
    try:
        terms_of_question(r, query)
    except Refused as why:
        return 2 if str(why) == 'query has no term' else 3
    return ('tra' if algorithm == 1 else 'tnra'), r, query
