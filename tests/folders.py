"""Tries the scripts for an archive's owner and for readers who follow it: `owner/collect.py` and `announce.py`,
`reader/follow.py`, `keep.py` and `titles.py`, with the real program and a real web server; and what `owner/demo` takes.

usage: python3 tests/folders.py [PROGRAM]

PROGRAM is the program; without it the one that is proved and built if needed. Makes folders with hostile names and
contents, runs the scripts over them and over servers that misbehave, and prints what was tried and whether it passed.
Ends with what was skipped, because a program is missing or this is root, and with `N passed, M failed`; with status 0 if
nothing failed.
"""

import contextlib
import gzip
import io
import json
import os
import runpy
import shutil
import sys
import tempfile
from pathlib import Path
from typing import Iterator, NamedTuple, Optional

import roots
from tries import HOME, STRANGE, Ended, Tries
from trying import program_of

import packages  # of owner/, which roots.py puts on the path

MIB = 1 << 20
MAX_COLLECTION = 1 << 26
IS_ROOT = os.geteuid() == 0

# The files of the first folder, by path, and why a file is passed over.
FILES: dict[bytes, tuple[bytes, Optional[str]]] = {
    b"-dash.txt": (b"a leading dash", None),
    b"a/empty.txt": (b"", None),
    b"a/fox.txt": (b"red fox", None),
    b"a.txt": (b"a dot comes before a slash", None),
    b"b/.hidden": (b"blue hen", None),
    b"b/lines.txt": (b"red\r\nred hen\r\n", None),
    b"b/mark.txt": (b"\xef\xbb\xbfa byte order mark", None),
    STRANGE.encode(): (b"a\0b", None),
    b"c/latin.txt": (b"Stra\xdfe", "it is not UTF-8"),
    b"c/surrogate.txt": (b"\xed\xa0\x80", "it is not UTF-8"),
    b"c/name \xff.txt": (b"red fox", "its path is not UTF-8"),
    b"c/red.txt": (b"red fox", None),
    b"d/most.txt": (b"a" * MIB, None),
    b"d/most, in two bytes each": ("\u00e9".encode() * (MIB // 2), None),
    b"d/zeros": (bytes(MIB), None),
}
LINKS = {b"f/file": b"../a.txt", b"f/folder": b"..", b"f/nothing": b"nowhere"}
OTHERS = {**dict.fromkeys(LINKS, "it is a symbolic link"), b"g/pipe": "it is neither a file nor a folder"}

PAGE = b"""<!DOCTYPE html><html><head><title>Hens &amp; foxes</title><style>p { color: red }</style></head>
<body><nav>home</nav><h1>The hen</h1><svg><title>beak</title></svg><script>var wolf = 1 < 2;</script><p>A <b>red</b> fox&nbsp;ran<br>off.</p>
<pre>
one

  two  three</pre><ul><li>one<li>two</ul></body>"""
PAGE_TEXT = "The hen\nbeak\nA red fox ran\noff.\none\n\n  two  three\none\ntwo"
MAILS = b"""From a@b.c Mon
Subject: Hi =?utf-8?q?caf=C3=A9?=
From: a@b.c

hello
>From here

From d@e.f Tue
Content-Type: text/html

<p>page</p>
"""


def items_of(data: bytes) -> list[tuple[bytes, bytes]]:
    return [(item["title"].encode(), item["text"].encode()) for item in json.loads(data)]


def name_of(item: dict) -> str:
    return item.get("path", item["title"])


def make_hostile(tries: Tries) -> None:
    folder = tries.put("hostile", {name: data for name, (data, _) in FILES.items()})
    for name in ("f", "g"):
        (folder / name).mkdir()
    for link, target in LINKS.items():
        os.symlink(target, os.path.join(os.fsencode(folder), link))
    os.mkfifo(folder / "g" / "pipe")


def hostile(tries: Tries) -> None:
    make_hostile(tries)
    ended = tries.collect("hostile")
    wanted = sorted((name, data) for name, (data, why) in FILES.items() if why is None)
    tries.check("hostile files: the others are taken, by path", ended.status == 0 and items_of(ended.printed) == wanted)
    reasons = {**OTHERS, **{name: why for name, (_, why) in FILES.items() if why}}
    lines = [f"passed over {os.path.join('hostile', os.fsdecode(name))!r}: {why}" for name, why in reasons.items()]
    lines.append(f"files: {len(wanted)} taken, {len(reasons)} passed over, 0 left out")
    tries.check("hostile files: the reasons are said", sorted(ended.said.splitlines()) == sorted(lines))
    stored = tries.collect("hostile", "hostile/z.json")
    again = tries.collect("hostile/", "hostile/z.json")
    same = tries.read("hostile/z.json") == ended.printed
    tries.check("a collection within its folder is no part of itself", stored.status == again.status == 0 and same)
    after = tries.collect("--after", "hostile/z.json", "hostile", "z.json")
    tries.check("hostile files: each keeps its number", after.status == 0 and tries.read("z.json") == ended.printed and f"\nfiles: 0 taken after {len(wanted)}, " in after.said)
    rows = tries.ask("rank", "z.json", "2", "red hen")
    named = tries.script("titles", "z.json", given=rows.printed)
    tries.check("rank and titles: red hen", [line.split("\t")[1] for line in named.printed.decode().splitlines()] == ["b/lines.txt", "b/.hidden"])


def unreadable(tries: Tries) -> None:
    if IS_ROOT:
        tries.skip("files and folders that cannot be read: this is root, who reads all")
        return
    folder = tries.put("secret", {b"a.txt": b"fox", b"e/secret.txt": b"red fox", b"h/x": b""})
    (folder / "e" / "secret.txt").chmod(0)
    (folder / "h").chmod(0)
    ended = tries.collect("secret")
    tries.check("a file and a folder that cannot be read: nothing is written", ended.status == 3 and not ended.printed and ended.said.count("Permission denied") == 2)
    tries.check("the rest, if that is said", tries.collect("--partial", "secret").status == 0)
    (folder / "h").chmod(0o700)


def title_lines(tries: Tries) -> None:
    tries.put("titled", {b"a/hen.txt": b"red", STRANGE.encode(): b"fox"})
    ended = tries.collect("--title-line", "titled", "titled.json")
    line = 'new\\nline "\\t\u202e\\x1b[31m\U0001f98a.txt'
    wanted = [(b"a/hen.txt", b"a/hen.txt\nred"), (STRANGE.encode(), f"{line}\nfox".encode())]
    tries.check("a title is the first line of its text", ended.status == 0 and items_of(tries.read("titled.json")) == wanted)
    rows = tries.ask("rank", "titled.json", "1", "hen.txt")
    named = tries.script("titles", "--title-line", "titled.json", given=rows.printed)
    tries.check("a word of the title is found, and the title is read from there", named.printed.split(b"\t")[1:2] == [b"a/hen.txt"])
    named = tries.script("titles", "--title-line", "titled.json", given=b"1 1 5 9\n")
    tries.check("what a title line has of a terminal's escapes is printed as escapes", named.printed == ('1\t' + line.replace("\u202e", "\\u202e") + "\t5\t9\n").encode())
    ended = tries.collect("--after", "titled.json", "titled", "titled-2.json")
    tries.check("without the option of the first time all are other texts", ended.status == 1 and ended.said.count("it has another text") == 2 and "--title-line" in ended.said)
    tries.put("long", {b"t": b"a" * (MIB - 2)})
    tries.check("a text that is full with its title", tries.collect("--title-line", "long", "long.json").status == 0 and tries.ask("rank", "long.json", "1", "t").status == 0)
    tries.put("long", {b"t": b"a" * (MIB - 1)})
    tries.check("and one byte more", tries.collect("--title-line", "long").status == 3)


def titles(tries: Tries) -> None:
    items = ["red fox", {"text": ""}, {"text": "", "title": 7}, {"text": "", "title": STRANGE}, {"text": "", "title": "\ud800 Stra\u00dfe"}]
    (tries.folder / "titles.json").write_text(json.dumps(items))
    ended = tries.script("titles", "titles.json", given="".join(f"{at + 1} {at} 5 9\n" for at in range(5)).encode())
    names = ["document 0", "document 1", "document 2", 'new\\nline "\\t\\u202e\\x1b[31m\U0001f98a.txt', "\\ud800 Stra\u00dfe"]
    wanted = "".join(f"{at + 1}\t{name}\t5\t9\n" for at, name in enumerate(names))
    tries.check("titles, and items with none", ended == Ended(0, wanted.encode(), ""))
    tries.check("no rows", tries.script("titles", "titles.json") == Ended(0, b"", ""))
    for line in ("refused: other-root", "1 5 5 9", "1 0 5", "1 " + "9" * 5000 + " 5 9", "1 -1 5 9", "\u0661 0 5 9"):
        ended = tries.script("titles", "titles.json", given=f"1 0 5 9\n{line}\n".encode())
        tries.check(f"no row: {line[:20]}", ended == Ended(1, b"", line + "\n"))
    for name, data in (("no JSON", b"["), ("no array", b"{}"), ("no UTF-8", b'["\xff"]'), ("deep", b"[" * 200000)):
        (tries.folder / "bad.json").write_bytes(data)
        ended = tries.script("titles", "bad.json", given=b"1 0 5 9\n")
        tries.check(f"no collection: {name}", ended.status == 1 and "is no collection" in ended.said and not ended.printed)


def faults(tries: Tries) -> None:
    before = tries.read("z.json")
    (tries.folder / "empty").mkdir()
    ended = tries.collect("empty", "z.json")
    tries.check("an empty folder: nothing is written", ended.status == 1 and tries.read("z.json") == before)
    ended = tries.collect("titled", "nowhere/many.json")
    tries.check("a folder that is not there to write to", ended.status == 1 and "nothing is written" in ended.said)
    tries.check("a folder in place of the collection", tries.collect("titled", "empty").status == 1 and not tries.parts())
    ended = tries.collect("nowhere\x1b[31m")
    tries.check("a folder to read that is not there", ended.status == 2 and "\x1b" not in ended.said)
    tries.check("shards without a folder for them", tries.collect("--shards", "titled").status == 2)
    if os.path.exists("/dev/full"):
        tries.check("a full standard output", tries.collect("titled", output=Path("/dev/full")).status == 1)
    for name, data in (("no JSON", b"["), ("half a surrogate", b'[{"title": "\\ud800", "text": ""}]'), ("no title", b'["fox"]')):
        (tries.folder / "bad.json").write_bytes(data)
        ended = tries.collect("--after", "bad.json", "titled", "new.json")
        tries.check(f"no old collection: {name}", ended.status == 1 and "bad.json" in ended.said and not (tries.folder / "new.json").exists())


class Limit(NamedTuple):
    """A folder at a limit and one above it, and the line of the program for the latter."""

    name: str
    at: dict[bytes, bytes]
    above: dict[bytes, bytes]
    line: str


def of_zeros(more: int) -> dict[bytes, bytes]:
    """Files whose collection has exactly 64 MiB, and some bytes more: a zero takes six bytes there."""
    files = {**{b"%02d" % at: bytes(MIB) for at in range(10)}, b"10": b""}
    room = MAX_COLLECTION - len(spelt(files)) + more
    return {**files, b"10": bytes(room // 6) + b"a" * (room % 6)}


def spelt(files: dict[bytes, bytes]) -> bytes:
    """The collection of these files without any limit."""
    items = [json.dumps({"title": name.decode(), "text": data.decode()}) for name, data in sorted(files.items())]
    return ("[\n" + ",\n".join(items) + "\n]\n").encode()


def limits() -> Iterator[Limit]:
    yield Limit("a text of 1 MiB", {b"a": b"a" * MIB}, {b"a": b"a" * (MIB + 1)}, "input: text 0 too long\n")
    most = {b"%02d" % at: b"fox " * (MIB // 4) for at in range(16)}
    yield Limit("texts of 16 MiB", most, {**most, b"16": b"a"}, "input: texts of 16777217 bytes\n")
    many = {b"%05d" % at: b"fox" for at in range(65536)}
    yield Limit("65,536 documents", many, {**many, b"65536": b"fox"}, "input: 65537 documents\n")
    yield Limit("a collection of 64 MiB", of_zeros(0), of_zeros(1), "input: longer than 67108864\n")


def at_limits(tries: Tries) -> None:
    for number, limit in enumerate(limits()):
        folder, name = f"limit-{number}", f"limit-{number}.json"
        tries.put(folder, limit.at)
        ended = tries.collect(folder, name)
        tries.check(f"{limit.name}: taken", ended.status == 0 and tries.read(name) == spelt(limit.at))
        tries.check(f"{limit.name}: the program takes it", tries.ask("rank", name, "1", "fox").status == 0)
        tries.put(folder, {path: data for path, data in limit.above.items() if limit.at.get(path) != data})
        ended = tries.collect(folder, name)
        tries.check(f"{limit.name}, and one more: nothing is written", ended.status == 3 and ended.said.count("left out ") == 1 and tries.read(name) == spelt(limit.at))
        ended = tries.collect("--partial", folder, name)
        left = 0 if len(limit.above) > 1 else 1
        tries.check(f"{limit.name}, and one more: the rest, if that is said and if there is one", ended.status == left)
        (tries.folder / name).write_bytes(spelt(limit.above))
        ended = tries.ask("rank", name, "1", "fox")
        tries.check(f"{limit.name}, and one more: the program refuses it", ended == Ended(4, limit.line.encode(), ""))
        shutil.rmtree(tries.folder / folder)


def later_fits(tries: Tries) -> None:
    tries.put("large", {**{b"%02d" % at: b"fox " * (MIB // 4) for at in range(15)}, b"15": b"a" * (MIB - 10), b"16": b"a" * 11, b"17": b"hen " * 2 + b"ab"})
    ended = tries.collect("--partial", "large", "large.json")
    tries.check("after a file that is too much a smaller one is taken", ended.status == 0 and ended.said == "left out 'large/16': with it all texts would be above 16 MiB\nfiles: 17 taken, 0 passed over, 1 left out\n")


def pages(tries: Tries) -> None:
    tries.put("pages", {b"a.html": PAGE, b"b.HTM": b"<p>unclosed <script>wolf", b"c.txt": b"<b>", b"d.html": b"<p>\xff", b"e.html": b"<![bad" + b"<" * 100})
    ended = tries.collect("pages", "pages.json")
    items = {name_of(item): item for item in json.loads(tries.read("pages.json"))}
    tries.check("pages: what they show is the text", ended.status == 0 and [items[name]["text"] for name in ("a.html", "b.HTM", "c.txt")] == [PAGE_TEXT, "unclosed", "<b>"])
    tries.check("pages: their titles", [items[name]["title"] for name in ("a.html", "b.HTM")] == ["Hens & foxes", "b.HTM"])
    tries.check("a page that is not UTF-8", "d.html" not in items and "'pages/d.html': it is not UTF-8" in ended.said)
    old = json.loads(tries.read("pages.json"))
    old[0]["text"] = "as another converter has it"
    (tries.folder / "pages.json").write_text(json.dumps(old))
    ended = tries.collect("--after", "pages.json", "pages", "pages-2.json")
    tries.check("a converted file that is the same keeps its text", ended.status == 0 and json.loads(tries.read("pages-2.json")) == old)
    tries.put("pages", {b"a.html": PAGE + b"<!-- -->"})
    ended = tries.collect("--after", "pages.json", "pages", "pages-3.json")
    tries.check("a converted file that was changed is named", ended.status == 1 and "document 0 of 'pages.json', 'a.html': it has another text" in ended.said)


def choices(tries: Tries) -> None:
    """Programs and data only if they are named, and lines that stay few."""
    tries.put("chosen", {b"a/x.js": b"var hen", b"b.svg": b"<svg/>", b"c.txt": b"fox", b"d.md": b"# hen", **{b"bad/%02d" % at: b"\xff" for at in range(14)}})
    ended = tries.collect("chosen", "chosen.json")
    tries.check("programs are passed over, and ten of sixteen lines say so", [name for name, _ in items_of(tries.read("chosen.json"))] == [b"c.txt", b"d.md"] and ended.said.count("passed over 'chosen/") == 10 and "passed over 6 more" in ended.said)
    tries.collect("--include", "*.js", "--exclude", "*.txt", "chosen", "chosen.json")
    tries.check("patterns that include and exclude", [name for name, _ in items_of(tries.read("chosen.json"))] == [b"a/x.js", b"d.md"])
    ended = tries.collect("--after", "chosen.json", "chosen", "chosen-2.json")
    tries.check("what was taken is kept without them", ended.status == 0 and [name for name, _ in items_of(tries.read("chosen-2.json"))] == [b"a/x.js", b"d.md", b"c.txt"])
    tries.put("chosen", {b"bad/%02d.txt" % at: b"a" * (MIB + 1) for at in range(12)})
    ended = tries.collect("chosen", "chosen.json")
    tries.check("twelve files are left out, and ten lines say so", ended.status == 3 and ended.said.count("left out 'chosen/") == 10 and "left out 2 more" in ended.said)
    changed = [{"title": f"{at:02}", "text": ""} for at in range(13)]
    (tries.folder / "gone.json").write_text(json.dumps(changed))
    ended = tries.collect("--after", "gone.json", "chosen", "chosen.json")
    tries.check("thirteen files are missing, and ten lines say so", ended.status == 1 and ended.said.count("it is missing") == 10 and "cannot keep 3 more" in ended.said)


def messages(tries: Tries) -> None:
    """Mailboxes, messages and JSON lines: each part is a document, and new parts come after the others."""
    tries.put("mail", {b"box.mbox": MAILS, b"one.eml": b"Subject: \n" + MAILS.partition(b"\n")[2], b"bad.eml": b"\xff\xfe", b"x.jsonl": b'{"t": "red fox", "n": "Fox"}\n\n{"t": 3}\n[]\n'})
    ended = tries.collect("--title-line", "--jsonl", "t", "n", "mail", "mail.json")
    texts = {name_of(item): item["text"] for item in json.loads(tries.read("mail.json"))}
    tries.check("messages of a mailbox", (texts["box.mbox#1"], texts["box.mbox#2"]) == ("Hi caf\u00e9\nFrom: a@b.c\n\nhello\nFrom here", "box.mbox#2\n\npage"))
    tries.check("JSON lines", texts["x.jsonl#1"] == "Fox\nred fox" and "'mail/x.jsonl#2': it has no text 't'" in ended.said and "'mail/x.jsonl#3'" in ended.said)
    tries.put("mail", {b"box.mbox": MAILS + b"\n" + MAILS})
    ended = tries.collect("--title-line", "--jsonl", "t", "n", "--after", "mail.json", "mail", "mail-2.json")
    tries.check("a mailbox that grew", ended.status == 0 and json.loads(tries.read("mail-2.json"))[:len(texts)] == json.loads(tries.read("mail.json")) and len(json.loads(tries.read("mail-2.json"))) == len(texts) + 2)
    tries.put("mail", {b"box.mbox": MAILS.replace(b"hello", b"yello")})
    ended = tries.collect("--title-line", "--jsonl", "t", "n", "--after", "mail.json", "mail", "mail-3.json")
    tries.check("a message that was changed is named", ended.status == 1 and "'box.mbox#1': it has another text" in ended.said)


def pdf_of(words: str) -> bytes:
    """A PDF of one page with these words."""
    shown = f"BT /F1 12 Tf 20 100 Td ({words}) Tj ET".encode()
    objects = [b"<< /Type /Catalog /Pages 2 0 R >>", b"<< /Type /Pages /Kids [3 0 R] /Count 1 >>",
               b"<< /Type /Page /Parent 2 0 R /MediaBox [0 0 300 200] /Contents 4 0 R /Resources << /Font << /F1 5 0 R >> >> >>",
               b"<< /Length %d >>\nstream\n%s\nendstream" % (len(shown), shown), b"<< /Type /Font /Subtype /Type1 /BaseFont /Helvetica >>"]
    data, places = b"%PDF-1.4\n", []
    for number, each in enumerate(objects, 1):
        places.append(len(data))
        data += b"%d 0 obj\n%s\nendobj\n" % (number, each)
    table = b"".join(b"%010d 00000 n \n" % place for place in places)
    return data + b"xref\n0 6\n0000000000 65535 f \n%strailer\n<< /Size 6 /Root 1 0 R >>\nstartxref\n%d\n%%%%EOF\n" % (table, len(data))


def pdfs(tries: Tries) -> None:
    if shutil.which("pdftotext") is None:
        tries.skip("PDF files: pdftotext is not installed")
        return
    tries.put("pdfs", {b"-o x.pdf": pdf_of("a red fox"), b"bad.pdf": b"%PDF-1.4\nno more", b"c.txt": b"hen"})
    ended = tries.collect("pdfs", "pdfs.json")
    texts = {item["title"]: item["text"].split() for item in json.loads(tries.read("pdfs.json"))}
    tries.check("PDF files: their text", ended.status == 0 and texts == {"-o x.pdf": ["a", "red", "fox"], "c.txt": ["hen"]})
    none = tries.run(sys.executable, HOME / "owner" / "collect.py", "pdfs", PATH="/nowhere")
    tries.check("PDF files without pdftotext", none.status == 0 and none.said.count("there is no pdftotext") == 2)
    tries.check("a damaged PDF file", "'pdfs/bad.pdf': pdftotext cannot read it" in ended.said)
    tries.check("PDF files again", tries.collect("--after", "pdfs.json", "pdfs", "pdfs-2.json").status == 0 and tries.read("pdfs-2.json") == tries.read("pdfs.json"))


def of_shards(tries: Tries, *shards: str) -> list[int]:
    """How many documents each shard has, if the program takes them and shards.txt has them in their places."""
    items = [items_of(tries.read(f"shards/{name}")) for name in shards]
    lines = [f"{shard} {document} {title.decode()}" for shard, each in enumerate(items) for document, (title, _) in enumerate(each)]
    taken = all(tries.ask("rank", f"shards/{name}", "1", "fox").status == 0 for name in shards)
    return [len(each) for each in items] if taken and tries.read("shards/shards.txt").decode().splitlines() == lines else []


def shards(tries: Tries) -> None:
    full = {b"m%02d" % at: b"fox " * (MIB // 4) for at in range(17)}
    tries.put("sharded", full)
    ended = tries.collect("--shards", "sharded", "sharded/shards")
    tries.check("a full shard: the next begins", ended.status == 0)
    shutil.move(tries.folder / "sharded" / "shards", tries.folder / "shards")
    names = ["shard-0.json", "shard-1.json"]
    tries.check("what is where is listed", of_shards(tries, *names) == [16, 1])
    first = tries.read("shards/shard-0.json")
    tries.put("sharded", {b"a small one": b"hen", b"n00": b"fox " * (MIB // 4)})
    ended = tries.collect("--shards", "sharded", "shards")
    tries.check("a closed shard stays closed", ended.status == 0 and tries.read("shards/shard-0.json") == first and of_shards(tries, *names) == [16, 3])
    last = tries.read("shards/shard-1.json")
    tries.put("sharded", {b"o00": b"a" * (MIB + 1), b"o01": b"fox"})
    ended = tries.collect("--shards", "sharded", "shards")
    tries.check("a file above a limit: the shards stay", ended.status == 3 and tries.read("shards/shard-1.json") == last)
    tries.put("sharded", {b"o00": b"fox", b"m03": b"fox"})
    ended = tries.collect("--shards", "sharded", "shards")
    tries.check("a file of a closed shard that was changed", ended.status == 1 and "document 3 of 'shards/shard-0.json', 'm03'" in ended.said and tries.read("shards/shard-1.json") == last)
    (tries.folder / "shards" / "shard-0.json").rename(tries.folder / "shard-0.json")
    ended = tries.collect("--shards", "sharded", "shards")
    tries.check("a shard that is missing", ended.status == 1 and "'shards/shard-0.json' is missing" in ended.said)
    (tries.folder / "shard-0.json").rename(tries.folder / "shards" / "shard-0.json")
    tries.put("sharded", {b"m03": full[b"m03"]})
    tries.put("began", {b"b": b"fox"})
    tries.collect("began", "began.json")
    tries.put("began", {b"a%02d" % at: b"fox " * (MIB // 4) for at in range(16)})
    ended = tries.collect("--shards", "--after", "began.json", "began", "began.shards")
    first, second = (items_of(tries.read(f"began.shards/shard-{at}.json")) for at in (0, 1))
    tries.check("who began with one archive goes on with it as shard 0", ended.status == 0 and first[0] == (b"b", b"fox") and (len(first), len(second)) == (16, 1))
    tries.check("nothing else is left there", sorted(os.listdir(tries.folder / "shards")) == [*names, "shards.txt"])


def of_packages(tries: Tries) -> None:
    """What `owner/demo` takes has the size that is asked for in the archive: pages are shorter there than as files."""
    page = b"<title>Fox</title>" + b"<p><b>red</b> <i>fox</i></p>" * 100
    files = {**{b"%02d.html" % at: page for at in range(30)}, b"30.txt": b"\xff", **{b"%02d.txt" % at: b"hen " * 700 for at in range(31, 61)},
             **{b"%02d.gz" % at: gzip.compress(b"owl " * 700) for at in range(61, 71)}}
    own = tries.put("packages", files)
    (own / "bash.list").write_text("".join(f"{own / name.decode()}\n" for name in [*files, b"missing"]))
    packages.LISTS = own
    for size, is_there in ((100_000, True), (1_000_000, False)):
        said, texts = io.StringIO(), tries.folder / f"packages-{size}"
        with contextlib.redirect_stdout(said):
            runpy.run_path(str(HOME / "owner" / "demo"))["take"](size, texts)
        ended = tries.run(sys.executable, HOME / "owner" / "publish", texts, f"public-{size}", "--program", tries.program)
        has = int(ended.printed.decode().partition(" bytes of text")[0].rpartition(" ")[2].replace(",", ""))
        tries.check(f"texts of packages for {size:,} bytes: the archive has {has:,}", f", {has:,} bytes" in said.getvalue() and (size <= has < size + 4000) == is_there)
        tries.check("and it is said if there are no more", (f"less than {size:,} bytes" in said.getvalue()) != is_there)


def players(tries: Tries) -> None:
    """What plays the vectors to readers' programs says how it is called."""
    helped, missing = (tries.run(sys.executable, HOME / "reader" / "play.py", word) for word in ("--help", "nowhere.a"))
    helps = helped.status == 0 and b"ARCHIVE.a" in helped.printed and not helped.said
    tries.check("help of the vectors' player", helps)
    line = "there is no library 'nowhere.a': ./prove ats_reader makes crates/ats_reader/out/libats_reader.a\n"
    tries.check("a library that is missing", missing == Ended(1, b"", line))


def main() -> int:
    program = program_of(sys.argv[1:])
    with tempfile.TemporaryDirectory() as folder:
        tries = Tries(Path(folder), program)
        for each in (hostile, unreadable, title_lines, titles, faults, at_limits, later_fits, pages, choices, messages, pdfs, shards, of_packages, players, *roots.CASES):
            each(tries)
        tries.check("no script leaves half a file", not tries.parts())
        return tries.conclude()


if __name__ == "__main__":
    sys.exit(main())
