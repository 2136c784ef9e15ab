#!/usr/bin/env python3
"""Writes the vectors as cases of the commands, which the gate plays: `vectors/blocks.py`, or `make.py`, which calls this.

Each entry of the JSON files here becomes a block of `crates/ats_cases/data/vectors.md`. `cases.md` there explains the
lines of a block. Not played is `fields.json`, which says nothing of the program.
"""

import json
from pathlib import Path
from typing import Any, Iterator

HERE = Path(__file__).resolve().parent
PLAYED = HERE.parent / 'crates' / 'ats_cases' / 'data' / 'vectors.md'
NO_ROOT = '0' * 64
ZEROS = 4096

Entry = dict[str, Any]
Parts = list[list[Any]]

HEAD = """# The vectors

The entries of the files of `vectors/`, as blocks of commands. `vectors/blocks.py` writes this page, and `cases.md` explains its lines.
"""


def is_plain(text: str) -> bool:
    """Whether a text can stand in a line as it is."""
    return all(' ' <= letter <= '~' for letter in text) and '`' not in text


def word(text: str, lines: list[str]) -> str:
    """A word of a command. If it cannot stand between quotation marks, it becomes the note `q`."""
    if is_plain(text) and '"' not in text:
        return f'"{text}"'
    lines += [f': bytes Q {text.encode().hex()}', ': keep q Q']
    return '@q'


def fill(name: str, parts: Parts) -> list[str]:
    """Fills a file with parts: bytes, how often, and if each time begins with a number, the first of these."""
    if len(parts) == 1 and parts[0][1:] == [1]:
        return [f': bytes {name} {parts[0][0]}']
    lines = [f': file {name}']
    for part in parts:
        if len(part) == 3:
            lines.append(f': count {name} {part[1]} {part[2]} {part[0]}')
        elif part[1] > 0:
            lines += [f': bytes Part {part[0]}', f': join {name} {part[1]} Part']
    return lines


def result(entry: Entry) -> list[str]:
    """What is printed, and the status if it is not 0."""
    for line in entry['lines']:
        if not line or line.startswith(('$ ./ats', ': ')) or not is_plain(line):
            raise SystemExit(f'no line of a case: {line!r}')
    return [*entry['lines'], *([f': status {entry["status"]}'] if entry['status'] else [])]


def index_note(archive: str, version: int) -> str:
    """The note that holds the index of an archive, in the format of this version."""
    return f'{archive.replace(" ", "-")}-{version}'


def index_of(name: str, archive: str, version: int) -> str:
    return f': put {name} {index_note(archive, version)}'


def archive(name: str, entry: Entry) -> Iterator[list[str]]:
    if 'file' in entry:
        yield [f'$ ./ats build {entry["file"]} I']
    else:
        yield [f': file X {json.dumps(entry["texts"])}', '$ ./ats build X I']
    yield [entry['root'], f': keep {index_note(name, 1)} I']
    yield ['$ ./ats migrate I J', entry['root_in_blocks'], f': keep {index_note(name, 2)} J']


def verify(entry: Entry) -> list[str]:
    lines: list[str] = []
    query = word(entry['query'], lines)
    return [*lines, f'$ ./ats verify {entry["root"]} {entry["r"]} {query} P', *result(entry)]


def proof(entry: Entry) -> list[str]:
    lines = [f': bytes P {entry["proof"]}', ': keep proof P', index_of('I', entry['archive'], int(entry['proof'][8:10], 16))]
    query = word(entry['query'], lines)
    lines += [f'$ ./ats prove I {entry["algorithm"]} {entry["r"]} {query} P', f'proof {len(entry["proof"]) // 2}', ': holds P proof']
    return lines + verify(entry)


def changed(entry: Entry, proofs: dict[str, Entry]) -> list[str]:
    honest = proofs[entry['of']]
    lines = [f': bytes P {honest["proof"]}']
    lines += [f': patch P {start} {end} {put}'.rstrip() for start, end, put in entry['changes']]
    return lines + verify({**honest, **entry})


def made(entry: Entry) -> list[str]:
    return [f': bytes P {entry["proof"]}', *verify(entry)]


def large(entry: Entry) -> list[str]:
    return [*fill('P', entry['proof']), *verify(entry)]


def printed(line: str) -> str:
    return line if line and is_plain(line) else f': prints {line.encode().hex()}0a'


def words(entry: Entry) -> list[str]:
    return [f': terms {entry["text"].encode().hex()}', *(printed(f'{term} {times}') for term, times in entry['terms'])]


def numbers(entry: Entry) -> list[str]:
    with_term = [': file D "', f': add D {entry["c"]} x;', f': add D {entry["len"] - entry["c"]} y;', ': add D 1 "']
    lines = [*with_term, ': file Next ,', ': join Next 1 D', ': file X [', ': join X 1 D']
    lines += [f': join X {entry["f"] - 1} Next', f': add X {entry["N"] - entry["f"]} ,"y"', ': add X 1 ]']
    return [*lines, '$ ./ats rank X 1 x', f'1 0 {entry["score"]} {entry["score"]}']


def inputs(entry: Entry) -> list[str]:
    lines = [*fill('Q', [[entry['text'].encode().hex(), entry['times']]]), ': keep q Q']
    whole, rest = divmod(entry['zeros'], ZEROS)
    lines += fill('P', [['00' * ZEROS, whole], ['00' * rest, 1]]) if entry['zeros'] else [': file P']
    return [*lines, f'$ ./ats verify {NO_ROOT} {entry["r"]} @q P', *result(entry)]


def asked(entry: Entry) -> list[str]:
    lines = [*fill('Reply', entry['reply']), *fill('Request', entry['request']), ': link Reply']
    query = word(entry['query'], lines)
    lines.append(f'$ ./ats ask {entry["root"]} {entry["algorithm"]} {entry["r"]} {query} here')
    return [*lines, *result(entry), ': wrote 1 Request']


def served(entry: Entry) -> list[str]:
    lines = [index_of('I', entry['archive'], 1), *fill('Requests', entry['requests']), *fill('Replies', entry['replies'])]
    return [*lines, ': link Requests', '$ ./ats serve I 1 here', *result(entry), ': wrote 1 Replies']


def length(parts: Parts) -> int:
    return sum((len(part[0]) // 2 + (4 if len(part) == 3 else 0)) * part[1] for part in parts)


def byte(parts: Parts, at: int) -> int:
    """The byte at this place of parts, whose first one is long enough."""
    return int(parts[0][0][2 * at:2 * at + 2], 16)


def text(entry: Entry) -> list[str]:
    lines = [*fill('F', entry['file']), ': keep file F']
    if 'archive' in entry:
        lines += [index_of('I', entry['archive'], byte(entry['file'], 4)), f'$ ./ats give I {entry["document"]} F']
        lines += [f'text {length(entry["file"])}', ': holds F file']
    if 'text' in entry:
        lines += fill('Text', entry['text'])
    lines.append(f'$ ./ats fetch {entry["root"]} {entry["document"]} F')
    if 'text' not in entry:
        return lines + result(entry)
    return [*lines, ': prints-file Text', ': prints 0a', *([f': status {entry["status"]}'] if entry['status'] else [])]


def growth(entry: Entry) -> list[str]:
    lines = [*fill('F', entry['file']), ': keep file F']
    if 'old' in entry:
        lines += [index_of('A', entry['old'], byte(entry['file'], 4)), index_of('B', entry['new'], byte(entry['file'], 110))]
        lines += ['$ ./ats grow A B F', f'growth {length(entry["file"])}', ': holds F file']
    return [*lines, f'$ ./ats growth {entry["old_root"]} {entry["new_root"]} F', *result(entry)]


def both(entry: Entry) -> list[str]:
    lines = fill('P', entry['proof'])
    query = word(entry['query'], lines)
    if 'archive' in entry:
        lines += [': keep proof P', index_of('I', entry['archive'], byte(entry['proof'], 4))]
        lines += [f'$ ./ats prove-both I {query} P', f'both {length(entry["proof"])}', ': holds P proof']
    return [*lines, f'$ ./ats both {entry["root"]} {query} P', *result(entry)]


def catalog(entry: Entry) -> list[str]:
    lines = fill('P', [[entry['proof'], 1]] if entry['proof'] else [])
    query = word(entry['query'], lines)
    if 'roots' in entry:
        roots = ''.join(f'{root}\n' for root in entry['roots'])
        lines += [f': bytes R {roots.encode().hex()}', '$ ./ats catalog-root R', entry['root']]
    return [*lines, f'$ ./ats catalog {entry["root"]} {entry["r"]} {query} P', *result(entry)]


def block(lines: list[str]) -> str:
    return '```\n' + '\n'.join(lines) + '\n```\n'


def read(name: str) -> Any:
    return json.loads((HERE / f'{name}.json').read_text(encoding='ascii'))


def document() -> str:
    """The page, from the files that stand here."""
    archives, proofs = read('archives'), read('proofs')
    pages: dict[str, list[list[str]]] = {'archives': [sum(archive(name, entry), []) for name, entry in archives.items()]}
    pages['proofs'] = [proof(entry) for entry in proofs.values()]
    pages['changed'] = [changed(entry, proofs) for entry in read('changed')]
    lists = [('made', made), ('words', words), ('numbers', numbers), ('inputs', inputs), ('large', large), ('asked', asked)]
    for name, as_lines in [*lists, ('served', served), ('texts', text), ('growths', growth), ('both', both), ('catalogs', catalog)]:
        pages[name] = [as_lines(entry) for entry in read(name)]
    return HEAD + ''.join(f'\n## {name}.json\n\n' + '\n'.join(block(lines) for lines in page) for name, page in pages.items())


def save() -> None:
    PLAYED.write_text(document(), encoding='ascii')


if __name__ == '__main__':
    save()
