"""What can be found out about a fault after the program has ended: by its line, its words, and the files and addresses that
they name. What is found is how things stand then, which may be otherwise than the program found it."""

import contextlib
import os
import re
import resource
import socket
import stat
import subprocess
from typing import Iterator

import commands
from commands import Command

# What a command is at for long: that of its name, or else of the first of these words that it takes.
DOING = {
    "ask": "waiting for {ADDRESS}", "serve": "loading {INDEX} until it prints listening",
    "trial": "proving, checking and auditing 20 queries over 2,000 texts",
    "prove-catalog": "loading the indexes of {LIST}, twice",
    "grow": "loading {OLDINDEX}, then {NEWINDEX}", "audit-growth": "loading {OLDINDEX}, then {NEWINDEX}",
}
VERBS = {"COLLECTION": "indexing", "INDEX": "loading", "PROOF": "checking", "FILE": "checking"}
READ_AGAIN = ("fetch", "audit-fetch")
FULL = 1 << 16  # a disk with fewer free bytes is called full


def size(path: str) -> str:
    with contextlib.suppress(OSError):
        count = os.stat(path).st_size
        return f"{count >> 20} MiB" if count >> 20 else f"{(count >> 10) + 1} KiB"
    return "no file"


def doing(command: Command, given: "list[str]") -> str:
    named = {word: f"{one} ({size(one)})" if word in commands.FILES else one for word, one in zip(command.words, given)}
    if command.name in DOING:
        return DOING[command.name].format_map(named)
    return next((f"{verb} {named[word]}" for word, verb in VERBS.items() if word in named), "at work")


def line_again(program: str, words: "list[str]", status: int) -> str:
    """The line of a command whose output was not read, since it may be a text. It changes nothing, so it is run again."""
    if words[0] not in READ_AGAIN or status not in (1, 4):
        return ""
    ran = subprocess.run([program, *words], stdout=subprocess.PIPE, check=False)
    return ran.stdout.decode("utf-8", "replace").partition("\n")[0] if ran.returncode == status else ""


# Lines


def pattern(line: str) -> str:
    """A regular expression for a line of docs/formats.md, in which words in capitals stand for anything."""
    return re.sub(r"[A-Z]+", lambda it: rf"(?P<{it[0]}>\S+)", re.escape(line))


def sentence(text: str, line: str) -> str:
    """When this line is printed, with its numbers, or nothing."""
    for head, printed, when in commands.lines(text):
        found = re.fullmatch(pattern(head + printed.strip("`")), line)
        if found:
            return re.sub(r"[A-Z]+", lambda it: found.groupdict().get(it[0], it[0]), commands.plain(when).split(". ")[0])
    return ""


def detail(text: str, line: str) -> str:
    """What another table of docs/formats.md says of a fault of shape, or of a server's code. Or nothing."""
    shape, code = re.fullmatch(r"refused: shape (\w+) (\d+)", line), re.fullmatch(r"peer: refused (\d+)", line)
    rows = commands.table(text, "### The codes of a reply" if code else "### Faults of shape")
    named = code[1] if code else f"`{shape[1]}`" if shape else ""
    found = "; ".join(commands.plain(when) for names, when in rows if named in names.split(", "))
    return found.replace("AT", shape[2]) if shape else found


def of_line(text: str, status: int, line: str) -> str:
    """The sentence of docs/formats.md for a line, or else for its status."""
    shard = re.fullmatch(r"refused: shard (\d+) (.*)", line)
    if shard:
        return f"in the proof of shard {shard[1]}, {of_line(text, status, f'refused: {shard[2]}')}"
    found = ": ".join(filter(None, (sentence(text, line), detail(text, line))))
    return found or next(commands.plain(when) for number, _, when in commands.statuses(text) if int(number) == status)


# Files


def folder_of(path: str) -> str:
    return os.path.dirname(path) or "."


def unreadable(path: str) -> str:
    """Why a file cannot be read, or nothing."""
    if not os.path.lexists(path) and not os.path.isdir(folder_of(path)):
        return f"there is no folder {folder_of(path)}"
    try:
        mode = os.stat(path).st_mode
    except FileNotFoundError:
        return f"there is no file {path}"
    except OSError as error:
        return f"{path} cannot be read: {error.strerror}"
    if stat.S_ISDIR(mode):
        return f"{path} is a folder, and a file is wanted"
    if not os.access(path, os.R_OK):
        return f"{path} may not be read by this user"
    return f"{path} is no file that can be read from any offset" if not stat.S_ISREG(mode) else ""


def is_full(place: "str | int") -> bool:
    room = os.fstatvfs(place) if isinstance(place, int) else os.statvfs(place)
    return room.f_bavail * room.f_frsize < FULL or (room.f_files > 0 and room.f_favail == 0)


def unwritable(path: str) -> str:
    """Why a file cannot be stored, or nothing."""
    place = path if os.path.exists(path) else folder_of(path)
    if os.path.isdir(path):
        return f"{path} is a folder, and a file is to be stored"
    if not os.path.exists(place):
        return f"there is no folder {place}"
    if not os.path.isdir(folder_of(path)):
        return f"{folder_of(path)} is no folder"
    if is_full(folder_of(path)):
        return f"the disk of {path} is full; what is there is no whole file"
    if not os.access(place, os.W_OK):
        return f"{place} may not be written to by this user"
    most = resource.getrlimit(resource.RLIMIT_FSIZE)[0]
    return f"a file may have at most {most} bytes here (ulimit -f)" if most != resource.RLIM_INFINITY else ""


def named_in(path: str) -> Iterator[str]:
    """The proofs that a list names."""
    with contextlib.suppress(OSError), open(path, encoding="utf-8", errors="surrogateescape") as lines:
        for line in lines:
            if len(parts := line.rstrip("\n").split(" ", 2)) == 3:
                yield parts[1]


def of_files(command: Command, given: "list[str]") -> "list[str]":
    files = [(word, path) for word, path in zip(command.words, given) if word in commands.FILES]
    stored = [files.pop()[1]] if "stores " in command.does else []
    read = [path for _, path in files]
    read += [path for word, name in files if word == "LIST" for path in named_in(name)]
    found = [why for why in (*map(unreadable, read), *map(unwritable, stored)) if why]
    return found or ["each file that is named can be read and written at this moment: try again"]


def of_output(command: Command) -> str:
    whole = "; the file is stored whole" if "stores " in command.does else ""
    try:
        mode = os.fstat(1).st_mode
    except OSError:
        return f"standard output is closed{whole}"
    if stat.S_ISREG(mode) and is_full(1):
        return f"the disk of standard output is full{whole}"
    return f"{'nobody reads standard output' if stat.S_ISFIFO(mode) or stat.S_ISSOCK(mode) else 'standard output takes nothing'}{whole}"


# Addresses


def of_address(address: str, listens: bool) -> str:
    """What stands in the way at an address: of listening, or of a connection."""
    name, _, port = address.rpartition(":")
    if not re.fullmatch("[0-9]+", port) or int(port) > 65535:
        return f"{address} is no address: it is a name or an IP address, a colon and a port"
    try:
        places = socket.getaddrinfo(name.strip("[]"), int(port), type=socket.SOCK_STREAM)
    except (OSError, UnicodeError):
        return f"the name {name} is unknown here"
    family, kind, protocol, _, place = places[0]
    try:
        with socket.socket(family, kind, protocol) as link:
            link.settimeout(5)
            link.setsockopt(socket.SOL_SOCKET, socket.SO_REUSEADDR, 1)
            (link.bind if listens else link.connect)(place)
    except ConnectionRefusedError:
        return f"nothing listens at {address}"
    except OSError as error:
        return f"{address}: {(error.strerror or 'no answer within 5 seconds').lower()}"
    return f"{address} is free at this moment" if listens else f"something listens at {address}, but the reply did not come whole: ask again"


def find(text: str, command: Command, given: "list[str]", status: int, line: str) -> "list[str]":
    """What there is to say after this status and line, if the words are those of the command."""
    if status == 3:
        return of_files(command, given)
    if status == 7:
        return [of_output(command)]
    if status == 8:
        return [of_address(given[-1], command.name == "serve")]
    return [of_line(text, status, line)]
