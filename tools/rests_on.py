#!/usr/bin/env python3
"""Prints the files and lines that a promise rests on.

usage: tools/rests_on.py COMMAND        such as verify
       tools/rests_on.py DEFINITION     such as IsTopOrCollides, or ats_client.Headline.IsTopOrCollides
       tools/rests_on.py CRATE::CALL    such as ats_top::run_with, or ats_terms::Query::read
       tools/rests_on.py --short ONE    one of these, as a row for each crate, with its files
       tools/rests_on.py --inner        the definitions that no public contract rests on, and which are in the wrong folder

A definition rests on each name in it that is in scope there, and on all that these rest on. What follows a point is a
field and does not count. A name counts even if a variable shadows it. A call rests on the names in its signature and
its clauses. `verify`, `ask`, `fetch`, `both`, `growth` and `catalog` rest on their clause of the law LAW, with its
comment. The premise `Ran` of a law is not followed: the contract of `run` returns it and the law takes it, so what both say
together does not depend on it. Any other command rests on the definition that docs/theorems.md quotes for its status 0
(COMMANDS), and `Ran`, which says when a status is returned, is a definition of its own.

A struct, an enum or a trait of the code counts if it is named, with all its lines. If contracts see a type as one
value, only its comment and the type of that value count. What the members of a trait are for one type does not count.

The lines of a definition go from its comment to its end. Imports, headings and the lines between definitions do not
count. The modules of the library come last, without lines. What needs no import, such as ⊥ and Unit, and what code
imports from std or from the kit's crates are not listed.

Public contracts are those of the calls, types and traits that a crate's src/lib.rt exports, of the calls that it has
for C, and of what a program's src/main.rt takes from its own modules; with the methods of all types that these name.
Views and invariants of types are no part of them, nor are proofs. What only these or private calls name belongs in
specs/Inner/.
"""

import collections
import pathlib
import re
import signal
import sys
from typing import Collection, Iterable, Iterator, Optional, Sequence, Union

HOUSE = pathlib.Path(__file__).resolve().parent.parent
CRATES = sorted(folder.name for folder in (HOUSE / "crates").iterdir() if (folder / "src").is_dir())
LAW = "printed_answers_are_right"
BY_LAW = ("verify", "ask", "fetch", "both", "growth", "catalog")
COMMANDS = {
    "rank": "IsRanked",
    "build": "IsBuilt",
    "root": "Root.IsRooted",
    "prove": "IsProofStored",
    "serve": "AreAllServed",
    "audit": "IsAuditedRight",
    "sweep": "IsSwept",
    "trial": "IsTrial",
    "migrate": "IsMigrated",
    "give": "IsTextStored",
    "audit-fetch": "IsFetchAudited",
    "prove-both": "IsBothStored",
    "audit-both": "IsBothAudited",
    "grow": "IsGrowthStored",
    "audit-growth": "IsGrowthAudited",
    "prove-catalog": "IsCatalogStored",
    "audit-catalog": "IsCatalogAudited",
}

WORD = r"[^\W\d](?:[\w']|-(?=\w))*"
KEYWORDS = ("abbrev", "unfoldable", "private", "pub", "record", "data")
GHOST_USE = re.compile(rf"^ *(pub |ghost )?use (Rattle[\w.'-]*?)(?:\.\{{([^}}]*)\}}| as ({WORD}))?;?$", re.M)
CODE_USE = re.compile(r"^(?:pub )?use ([\w:]+?)(?:::\{([^}]*)\})?;", re.M)
ITEM = re.compile(r"(?:pub(?:\(\w+\))? )?(?:extern \"C\" )?(struct|enum|trait|fn) (\w+)")
METHOD = re.compile(r"    (pub )?fn (\w+)")
PUBLIC_ITEM = re.compile(r"^pub (?:struct|enum|trait|fn) (\w+)", re.M)
ITEM_FOR_C = re.compile(r"^#\[unsafe\(no_mangle\)\]\n(?:pub )?extern \"C\" fn (\w+)", re.M)

# A file of a crate and a name in it. Of the library and of proofs the module is kept, without a name.
Key = collections.namedtuple("Key", "crate file name")
PREMISE = Key("ats_top", "specs/Run.antt", "Ran")
# The numbers of a definition's lines, and the names in it that may be in scope, each with what follows its first point.
Piece = collections.namedtuple("Piece", "numbers words")


def words_of(text: str) -> set[tuple[str, str]]:
    """The names in the text, each with the name after its first point."""
    return set(re.findall(rf"(?<![\w.'])({WORD})(?:\.({WORD}))?", text))


def operators_in(text: str, names: Iterable[str]) -> set[str]:
    """Those of the names that are operators, such as ◌≡◌, and have their signs in the text."""
    return {name for name in names if "◌" in name and all(part in text for part in name.split("◌"))}


def named(list_of_names: str) -> Iterator[tuple[str, str]]:
    """The names of an import, each with its name here: `a, b as c`."""
    for part in list_of_names.split(","):
        words = part.split()
        if words:
            yield words[0], words[-1]


class File:
    """A file's pieces by name, with the names of their members, and what is in scope."""

    def __init__(self, crate: str, path: str) -> None:
        self.crate = crate
        self.path = path
        self.lines = (HOUSE / "crates" / crate / path).read_text().split("\n")
        self.text = "\n".join(self.lines)
        self.pieces: dict[str, Piece] = {}
        self.functions: set[str] = set()
        self.members: dict[str, str] = {}
        self.imports: dict[str, tuple[str, str]] = {}
        self.exports: set[str] = set()
        self.modules: dict[str, str] = {}
        for kind, module, names, alias in GHOST_USE.findall(self.text):
            for there, here in named(names):
                self.imports[here] = (module, there)
                if kind == "pub ":
                    self.exports.add(here)
            if alias:
                self.modules[alias] = module
            if not names and not alias:
                sys.exit(f"{crate}/{path}: an import that this script does not read: {module}")

    def add(self, name: str, numbers: Sequence[int], text: str) -> None:
        """Keeps a piece that has the lines of these numbers."""
        words = words_of(text) | {(sign, "") for sign in operators_in(text, self.imports)}
        self.pieces[name] = Piece(numbers, words)

    def comment_above(self, first: int, marks: Union[str, tuple[str, ...]]) -> int:
        """The number of the first of the lines above this one that begin with one of the marks."""
        while first > 0 and self.lines[first - 1].strip().startswith(marks):
            first -= 1
        return first


# ---- files of definitions


def defined(line: str, current: Optional[str]) -> Optional[str]:
    """The name whose definition begins in this line, if one does after that of `current`."""
    words = re.match(rf"((?:(?:{'|'.join(KEYWORDS)}) )*)({WORD})", line)
    if not words or words[2] in ("use", "mod") or (words[2] == current and not words[1]):
        return None
    if words[2] == "module":
        sys.exit(f"a module block, which this script does not read: {line}")
    return words[2]


def definitions(crate: str, path: str) -> File:
    """A file of specs/."""
    file = File(crate, path)
    starts: list[tuple[int, str]] = []
    for number, line in enumerate(file.lines):
        name = defined(line, starts[-1][1] if starts else None)
        if name:
            starts.append((number, name))
    ends = [number for number, _ in starts[1:]] + [len(file.lines)]
    for (start, name), end in zip(starts, ends):
        while not file.lines[end - 1].strip() or file.lines[end - 1].startswith("--"):
            end -= 1
        body = "\n".join(re.sub(r'"[^"]*"', "", line).split("--")[0] for line in file.lines[start:end])
        file.add(name, range(file.comment_above(start, "--"), end), body)
        if file.lines[start].startswith("pub data"):
            for member in re.findall(rf"^  ({WORD}) :", body, re.M):
                file.members[member] = name
    return file


# ---- files of code


def code_of(lines: list[str]) -> str:
    return "\n".join(line.split("//")[0] for line in lines)


def end_of_signature(lines: list[str], start: int) -> int:
    """The number after the last line of the signature and the clauses of a function."""
    indent = re.match(" *", lines[start])[0]
    clauses = False
    for number in range(start, len(lines)):
        line = lines[number]
        clauses = clauses or line.strip().startswith(("requires", "ensures"))
        if line in (indent + "{", indent + "{}"):
            return number
        if line.endswith(";") or (line.endswith(("{", "}")) and not clauses):
            return number + 1
    sys.exit(f"a function without an end: {lines[start]}")


def end_of_block(lines: list[str], start: int) -> int:
    """The number after the last line of what begins in this one with a brace or ends with a semicolon."""
    indent = re.match(" *", lines[start])[0]
    for number in range(start, len(lines)):
        line = lines[number]
        if line.startswith((indent + "}", indent + ")")) or (number == start and line.endswith((";", "}"))):
            return number + 1
    sys.exit(f"a block without an end: {lines[start]}")


def add_clauses(file: File, call: str, start: int, end: int) -> None:
    """The named promises of a call, each with the call's comment and its first line."""
    head = [*range(file.comment_above(start, ("//", "#")), start + 1)]
    firsts = {n: found[1] for n in range(start, end) if (found := re.match(rf"    ensures ({WORD}) {{", file.lines[n]))}
    for first, last in zip(firsts, [*firsts, end][1:]):
        numbers = range(first, last)
        file.add(f"{call}: {firsts[first]}", head + [*numbers], code_of([file.lines[n] for n in numbers]))


def without_generics(text: str) -> str:
    text = text.replace("->", "")
    while "<" in text:
        text = re.sub(r"<[^<>]*>", "", text)
    return text


def impls(file: File) -> Iterator[tuple[Optional[str], str, int, int]]:
    """The blocks of a file that give a type its methods: the trait if there is one, the type, and where they are."""
    for start, line in enumerate(file.lines):
        if re.match(r"(?:unsafe )?impl\b", line):
            head = without_generics(line).split("{")[0].split()
            of = head.index("for") if "for" in head else None
            yield (head[of - 1] if of else None), head[of + 1 if of else -1], start, end_of_block(file.lines, start)


def ghosts(file: File, start: int, end: int) -> Iterator[tuple[str, int, int]]:
    """The ghost members of a block, each with the numbers of its lines."""
    for number in range(start, end):
        found = re.match(rf"    ghost ({WORD}) = ", file.lines[number])
        if found:
            last = number
            while not file.lines[last].endswith("};"):
                last += 1
            yield found[1], number, last + 1


def add_contracts(file: File, trait: Optional[str], of_type: str, start: int, end: int) -> None:
    """The public contracts of a block: of its methods, and what a trait's ghost members are for the type."""
    head = file.lines[start]
    for number in range(start, end):
        found = METHOD.match(file.lines[number])
        if found and (trait or found[1]):
            last = end_of_signature(file.lines, number)
            text = code_of([head] + file.lines[number:last])
            above = file.comment_above(number, ("//", "#"))
            file.add(f"{of_type}::{found[2]}", range(above, last), text)
    for name, number, last in ghosts(file, start, end):
        if name not in ("view", "invariant", "from_gives"):
            file.add(f"{of_type}::{trait} {name}", range(number, last), code_of([head] + file.lines[number:last]))


def keep_value_alone(file: File, of_type: str, start: int, end: int) -> None:
    """Contracts see this type as one value: only its comment and that value's line count."""
    for name, number, last in ghosts(file, start, end):
        if name == "Value":
            item = next(i for i, line in enumerate(file.lines) if (m := ITEM.match(line)) and m[2] == of_type)
            above = range(file.comment_above(item, ("//", "#")), item)
            file.add(of_type, [*above, *range(number, last)], code_of(file.lines[number:last]))


def code(crate: str, path: str) -> File:
    """A file of src/."""
    file = File(crate, path)
    for start, line in enumerate(file.lines):
        found = ITEM.match(line)
        if found:
            end = (end_of_signature if found[1] == "fn" else end_of_block)(file.lines, start)
            numbers = range(file.comment_above(start, ("//", "#")), end)
            file.add(found[2], numbers, code_of(file.lines[start:end]))
            if found[1] == "fn":
                file.functions.add(found[2])
                add_clauses(file, found[2], start, end)
    for trait, of_type, start, end in impls(file):
        if trait == "Model":
            keep_value_alone(file, of_type, start, end)
        else:
            add_contracts(file, trait, of_type, start, end)
    for module, names in CODE_USE.findall(file.text):
        parent, _, last = module.rpartition("::")
        for there, here in named(names or last):
            file.imports.setdefault(here, (module if names else parent, there))
    return file


# ---- what a name stands for


class House:
    """All files of the crates, read once."""

    def __init__(self) -> None:
        self.files = {}
        for crate in CRATES:
            folder = HOUSE / "crates" / crate
            for path in sorted(folder.glob("specs/**/*.antt")):
                name = path.relative_to(folder).as_posix()
                self.files[crate, name] = definitions(crate, name)
            for path in sorted(folder.glob("src/*.rt")):
                self.files[crate, f"src/{path.name}"] = code(crate, f"src/{path.name}")

    def in_definitions(self, module: str, name: str) -> Optional[Key]:
        """What the name of a module of definitions stands for, or None."""
        _, crate, *path = module.split(".")
        if crate not in CRATES or path[0] != "specs":
            return Key("library", module, "")
        if path[-1] == "TheVariants" and name[0].islower():
            return None
        if path[1] == "declared":
            return self.in_code(crate, path[2], path[3] if len(path) > 3 else name)
        file = self.files[crate, "/".join(path) + ".antt"]
        if name in file.pieces or name in file.members:
            return Key(crate, file.path, file.members.get(name, name))
        if name in file.exports:
            return self.in_definitions(*file.imports[name])
        return None

    def in_code(self, crate: str, module: str, name: str) -> Optional[Key]:
        """What the name of a module of code stands for, or None."""
        file = self.files.get((crate, f"src/{module}.rt"))
        return Key(crate, file.path, name) if file and name in file.pieces else None

    def exported(self, crate: str, name: str) -> Optional[Key]:
        """What the name stands for that a crate exports, or None."""
        lib = self.files.get((crate, "src/lib.rt"))
        if not lib or name not in lib.imports:
            return None
        module, there = lib.imports[name]
        return self.exported(module, there) if module in CRATES else self.in_code(crate, module, there)

    def imported(self, file: File, path: str, name: str) -> Optional[Key]:
        """What an import of a file stands for, or None."""
        if path.startswith("Rattle."):
            key = self.in_definitions(path, name)
            if not key:
                sys.exit(f"{file.crate}/{file.path}: nothing is called {name} in {path}")
            return key
        head, _, module = path.partition("::")
        if head == "crate":
            return self.in_code(file.crate, module, name)
        return self.exported(head, name) if head in CRATES else None

    def resolve(self, file: File, name: str, member: str) -> Optional[Key]:
        """What a name in a file stands for, or None if it is a variable, a field or not of the house."""
        if name in file.members or (name in file.pieces and name not in file.functions):
            return Key(file.crate, file.path, file.members.get(name, name))
        if name in file.modules:
            return self.in_definitions(file.modules[name], member) if member else None
        return self.imported(file, *file.imports[name]) if name in file.imports else None

    def is_function(self, key: Key) -> bool:
        return key.crate != "library" and key.name in self.files[key.crate, key.file].functions

    def below(self, key: Key) -> set[Key]:
        """What a piece names. A definition or a clause never names a function of the code."""
        file = self.files[key.crate, key.file]
        found = (self.resolve(file, *word) for word in file.pieces[key.name].words)
        return {below for below in found if below and not self.is_function(below)}

    def rests_on(self, keys: Iterable[Key], without: Iterable[Key] = ()) -> set[Key]:
        """These and all that they rest on, without following some."""
        reached = set()
        left = list(keys)
        while left:
            key = left.pop()
            if key not in reached and key not in without:
                reached.add(key)
                if key.crate != "library":
                    left += self.below(key)
        return reached

    def lines(self, key: Key) -> int:
        return len(self.files[key.crate, key.file].pieces[key.name].numbers)

    def all_definitions(self) -> Iterator[Key]:
        for (crate, path), file in self.files.items():
            if path.startswith("specs/"):
                yield from (Key(crate, path, name) for name in file.pieces)

    def all_exported(self) -> Iterator[Key]:
        """What others can name: by src/lib.rt, by a public module of it, from C, or by running a program."""
        for crate in CRATES:
            lib = self.files.get((crate, "src/lib.rt"))
            program = self.files.get((crate, "src/main.rt"))
            yield from filter(None, (self.exported(crate, name) for name in (lib.imports if lib else ())))
            for module, there in program.imports.values() if program else ():
                yield from filter(None, [self.in_code(crate, module, there)])
            modules = re.findall(r"^pub mod (\w+);", lib.text, re.M) if lib else []
            for (owner, path), file in self.files.items():
                if owner == crate and path.startswith("src/"):
                    marks = ITEM_FOR_C if path.removeprefix("src/").removesuffix(".rt") not in modules else PUBLIC_ITEM
                    yield from (Key(crate, path, name) for name in marks.findall(file.text) if name in file.pieces)

    def public_contracts(self) -> set[Key]:
        """What the crates export, and the contracts of the types that are exported or named there."""
        public, left = set(), set(self.all_exported())
        while left:
            public |= left
            types = {key for key in self.rests_on(public) if key.file.startswith("src/")}
            left = {contract for key in types for contract in self.contracts_of(key.crate, key.name)} - public
        return public

    def contracts_of(self, crate: str, of_type: str) -> Iterator[Key]:
        for (owner, path), file in self.files.items():
            if owner == crate and path.startswith("src/"):
                yield from (Key(crate, path, name) for name in file.pieces if name.startswith(of_type + "::"))


# ---- what is asked, and what is printed


def asked(house: House, name: str) -> list[Key]:
    """The pieces that are asked for: a call or one of its clauses, or a definition, of which a command names one."""
    if name in BY_LAW:
        crate, law = "ats_top", f"{LAW}: {name}"
        found = [Key(crate, path, law) for (owner, path), file in house.files.items() if owner == crate and law in file.pieces]
    elif "::" in name:
        crate, call = name.split("::", 1)
        found = [key for key in house.public_contracts() if key.crate == crate and key.name == call]
    else:
        *where, last = COMMANDS.get(name, name).split(".")
        found = [
            key
            for key in house.all_definitions()
            if key.name == last and set(where) <= {key.crate, pathlib.Path(key.file).stem}
        ]
    if len(set(found)) != 1:
        listed = "".join(f"\n  {key.crate}/{key.file}" for key in found)
        sys.exit(f"{len(found)} pieces are called {name}{listed}")
    return found


def by_file(keys: Iterable[Key]) -> list[tuple[tuple[str, str], list[Key]]]:
    """The pieces by crate and file, from the crate on top down; specs/ before src/."""
    order = re.findall(r"^(\w+)[ \w]*:", (HOUSE / "crates.txt").read_text(), re.M)
    groups = collections.defaultdict(list)
    for key in sorted(keys):
        if key.crate != "library":
            groups[key.crate, key.file].append(key)
    return sorted(groups.items(), key=lambda group: (-order.index(group[0][0]), group[0][1]))


def total(house: House, keys: Iterable[Key]) -> int:
    return sum(map(house.lines, keys))


def print_sum(house: House, keys: Collection[Key]) -> None:
    """How much is in specs/ and in src/, and which modules of the library are named."""
    print()
    for folder, what in (("specs/", "definitions"), ("src/", "types and calls")):
        there = [key for key in keys if key.file.startswith(folder)]
        files = {(key.crate, key.file) for key in there}
        print(f"{folder}: {len(files)} files, {len(there)} {what}, {total(house, there)} lines")
    modules = {key.file.removeprefix("Rattle.") for key in keys if key.crate == "library"}
    print("library: " + ", ".join(sorted(modules)))


def print_long(house: House, keys: Collection[Key]) -> None:
    print("| Crate | File | Definitions | Lines |\n|---|---|---|---|")
    for (crate, path), there in by_file(keys):
        names = ", ".join(f"`{key.name}` {house.lines(key)}" for key in there)
        print(f"| {crate} | {path} | {names} | {total(house, there)} |")


def print_short(house: House, keys: Collection[Key]) -> None:
    print("| Crate | Files, each with its lines that count | Lines |\n|---|---|---|")
    rows = collections.defaultdict(list)
    for (crate, path), there in by_file(keys):
        rows[crate].append((path, total(house, there)))
    for crate, files in rows.items():
        links = (f"[{pathlib.Path(path).stem}](../crates/{crate}/{path}) {lines}" for path, lines in files)
        print(f"| {crate} | {', '.join(links)} | {sum(lines for _, lines in files)} |")


def print_crates(house: House, keys: Collection[Key]) -> None:
    """How many lines of each crate count."""
    lines: "collections.Counter[str]" = collections.Counter()
    for (crate, _), there in by_file(keys):
        lines[crate] += total(house, there)
    print()
    for crate, count in lines.items():
        print(f"{crate}: {count} lines")


def inner(house: House) -> set[Key]:
    """The definitions that no public contract rests on."""
    return set(house.all_definitions()) - house.rests_on(house.public_contracts())


def is_in_inner(key: Key) -> bool:
    return key.file.startswith("specs/Inner/")


def print_inner(house: House) -> None:
    every, found = set(house.all_definitions()), inner(house)
    print_long(house, found)
    print_crates(house, found)
    print(f"\n{len(found)} of {len(every)} definitions, {total(house, found)} of {total(house, every)} lines")
    outside = {key for key in found if not is_in_inner(key)}
    print(f"{len(outside)} of these definitions, {total(house, outside)} lines, are not in specs/Inner/")
    for key in sorted(filter(is_in_inner, every - found)):
        print(f"{key.crate}/{key.file}: a public contract rests on {key.name}")


def main() -> None:
    words = sys.argv[1:]
    house = House()
    if words == ["--inner"]:
        print_inner(house)
        return
    short = words[:1] == ["--short"]
    names = words[1:] if short else words
    if len(names) != 1 or names[0].startswith("-"):
        sys.exit(__doc__)
    keys = house.rests_on(asked(house, names[0]), [PREMISE] if names[0] in BY_LAW else [])
    if short:
        print_short(house, keys)
    else:
        print_long(house, keys)
        print_crates(house, keys)
    print_sum(house, keys)


if __name__ == "__main__":
    signal.signal(signal.SIGPIPE, signal.SIG_DFL)
    main()
