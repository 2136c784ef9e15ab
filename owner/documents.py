"""What the documents of a collection are: how one is made of a file or of a part of it, how many one collection takes, and
how a collection file is read. `collect.py` and `titles.py` use it, and nothing is proved of it. Python 3.9 and its standard
library are all that it needs.

    collection = documents.Collection()
    collection.add(documents.Making(title_line=True).item("a/fox.txt", documents.Place(b"folder/a/fox.txt")))
    collection.data()     # [ {"title": "a/fox.txt", "text": "a/fox.txt\\nred fox"} ]
"""
import hashlib
import json
import re
from typing import Iterator, NamedTuple, Optional

import conversions
from archive_files import Fault, Name, TooLong, read_within, reason, shown
from conversions import Converted

MAX_TEXT = 1 << 20
MAX_TEXTS = 1 << 24
MAX_DOCUMENTS = 1 << 16
MAX_COLLECTION = 1 << 26
MAX_CONVERTED = 1 << 26  # of a file or a part whose text is a conversion

BEGIN, BETWEEN, END = b"[\n", b",\n", b"\n]\n"  # of the JSON of a collection
NO_LINE = re.compile("[\x00-\x1f\x7f-\x9f\u2028\u2029]")  # what does not stand in a line as itself

KINDS = {"html": "html", "htm": "html", "xhtml": "html", "pdf": "pdf", "eml": "mail", "mbox": "mbox", "jsonl": "lines",
         "ndjson": "lines"}


class PassedOver(Exception):
    """Why a file is no document: it is not of their kind."""


class LeftOut(PassedOver):
    """Why a file that may be a document is none: a limit, or that it cannot be read."""


class Full(LeftOut):
    """Why a collection does not take one document more."""


class Collection:
    """The items so far, each as the bytes of its JSON, and how much they are together."""

    def __init__(self) -> None:
        self.items: list[bytes] = []
        self.text_bytes = 0
        self.json_bytes = len(BEGIN + END)

    def add(self, item: dict) -> None:
        data = json.dumps(item, ensure_ascii=False).encode()
        text_bytes = self.text_bytes + len(item["text"].encode())
        json_bytes = self.json_bytes + len(data) + (len(BETWEEN) if self.items else 0)
        if len(self.items) == MAX_DOCUMENTS:
            raise Full("there are 65,536 documents already")
        if text_bytes > MAX_TEXTS:
            raise Full("with it all texts would be above 16 MiB")
        if json_bytes > MAX_COLLECTION:
            raise Full("with it the collection would be above 64 MiB")
        self.items.append(data)
        self.text_bytes, self.json_bytes = text_bytes, json_bytes

    def data(self) -> bytes:
        return BEGIN + BETWEEN.join(self.items) + END


class Place(NamedTuple):
    """Where the bytes of a document are: in a file, or in a part of it."""

    path: bytes
    kind: str = "text"
    begin: int = 0
    size: Optional[int] = None  # of a part


def kind_of(name: str, has_lines: bool) -> str:
    """How the text of a file of this name is made. JSON lines are so only if it is said which members to take."""
    kind = KINDS.get(name.rpartition(".")[2].lower(), "text")
    return "text" if kind == "lines" and not has_lines else kind


def places(name: str, path: bytes, kind: str) -> Iterator[tuple[str, Place]]:
    """Where the documents of a file are, by their names: a mailbox and a file of JSON lines have several."""
    if kind == "mbox":
        parts = messages(path)
    elif kind == "lines":
        parts = lines(path)
    else:
        yield name, Place(path, kind)
        return
    for number, (begin, end) in enumerate(parts, 1):
        yield f"{name}#{number}", Place(path, "mail" if kind == "mbox" else "json", begin, end - begin)


def messages(path: bytes) -> Iterator[tuple[int, int]]:
    """Where the messages of a mailbox begin and end. Each comes after a line `From ..`, which an empty line is before. Empty
    lines at its end are no part of it, so that it stays what it is when another one comes."""
    begin, end, at, is_after_empty = -1, 0, 0, True
    with open(path, "rb") as file:
        for line in file:
            if is_after_empty and line.startswith(b"From "):
                if begin >= 0:
                    yield begin, end
                begin = at + len(line)
            at += len(line)
            is_after_empty = not line.strip()
            end = max(begin, end if is_after_empty else at)
    if begin >= 0:
        yield begin, end


def lines(path: bytes) -> Iterator[tuple[int, int]]:
    """Where the lines of a file that are not empty begin and end."""
    at = 0
    with open(path, "rb") as file:
        for line in file:
            if line.strip():
                yield at, at + len(line)
            at += len(line)


class Making(NamedTuple):
    """How documents are made of files."""

    title_line: bool = False
    fields: Optional[tuple[str, str]] = None  # of JSON lines: the members that have the text and the title

    def item(self, name: str, place: Place) -> dict:
        """The document at a place: its title and its text, its name if that is another than the title, and the digest of
        bytes whose text is a conversion."""
        data = content(place, MAX_TEXT if place.kind == "text" else MAX_CONVERTED)
        title, text = self.converted(place.kind, data)
        title = title or name
        if self.title_line:
            text = f"{line_of(title)}\n{text}"
        if len(text.encode()) > MAX_TEXT:
            raise LeftOut("it is above 1 MiB")
        item = {"title": title, "text": text}
        if title != name:
            item["path"] = name
        if place.kind != "text":
            item["sha256"] = digest(data)
        return item

    def difference(self, item: dict, place: Optional[Place]) -> str:
        """Why a place no longer gives this item, or nothing. What was converted is compared by its digest, since another
        version of the converter may make another text of it."""
        if place is None:
            return "it is missing"
        try:
            if "sha256" in item:
                same = digest(content(place, MAX_CONVERTED)) == item["sha256"]
            else:
                same = self.item(name_of(item), place._replace(kind="text"))["text"] == item["text"]
        except PassedOver as why:
            return str(why)
        return "" if same else "it has another text"

    def converted(self, kind: str, data: bytes) -> Converted:
        try:
            if kind == "html":
                return conversions.of_html(data)
            if kind == "pdf":
                return Converted("", conversions.text_of_pdf(data, MAX_TEXT).decode("utf-8"))
            if kind == "mail":
                return conversions.of_mail(data)
            if kind == "json":
                return conversions.of_json(data, *(self.fields or ("text", "title")))
            return Converted("", data.decode("utf-8"))
        except UnicodeDecodeError:
            raise PassedOver("it is not UTF-8") from None
        except conversions.NotConverted as why:
            raise PassedOver(why) from None
        except conversions.TooSlow as why:
            raise LeftOut(why) from None
        except TooLong:
            raise LeftOut("its text is above 1 MiB") from None


def content(place: Place, limit: int) -> bytes:
    try:
        if place.size is None:
            return read_within(place.path, limit)
        if place.size > limit:
            raise TooLong
        with open(place.path, "rb") as file:
            file.seek(place.begin)
            return file.read(place.size)
    except OSError as error:
        raise LeftOut(reason(error)) from None
    except TooLong:
        raise LeftOut(f"it is above {limit >> 20} MiB") from None


def decoded(data: bytes, why_not: str) -> str:
    try:
        return data.decode("utf-8")
    except UnicodeDecodeError:
        raise PassedOver(why_not) from None


def digest(data: bytes) -> str:
    return hashlib.sha256(data).hexdigest()


def line_of(title: str) -> str:
    """The title in one line. Only a fixed set of characters stands as escapes, so that each version of Python makes the
    same line."""
    return NO_LINE.sub(lambda found: ascii(found[0])[1:-1], title)


def name_of(item: dict) -> str:
    """The path of the file of an item that `collect.py` made, and the number of its part."""
    return item.get("path", item["title"])


def items_of(path: Name) -> list:
    """The items of a collection file, whatever they are."""
    try:
        items = json.loads(read_within(path, MAX_COLLECTION).decode("utf-8"))
    except TooLong:
        raise Fault(f"{shown(path)} is no collection: it is above 64 MiB") from None
    except OSError as error:
        raise Fault(f"{shown(path)} is no collection: {reason(error)}") from None
    except (ValueError, RecursionError) as error:
        raise Fault(f"{shown(path)} is no collection: {error}") from None
    if not isinstance(items, list):
        raise Fault(f"{shown(path)} is no collection: it is no array")
    return items


def documents_of(path: Name) -> list[dict]:
    """The items of a collection file that `collect.py` made: each has a title and a text."""
    items = items_of(path)
    for number, item in enumerate(items):
        if not (isinstance(item, dict) and is_text(item.get("title")) and is_text(item.get("text")) and is_text(name_of(item))):
            raise Fault(f"document {number} of {shown(path)} has no title or no text: collect.py did not make this file")
    return items


def is_text(value: object) -> bool:
    """A string that UTF-8 can spell."""
    return isinstance(value, str) and not re.search("[\ud800-\udfff]", value)
