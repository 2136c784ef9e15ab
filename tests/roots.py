"""Tries `owner/announce.py`, `reader/follow.py` and `keep.py`, for `folders.py`: archives that grow, owners and servers that
misbehave, and signatures."""

import re
import shutil
import socket
import sys
from concurrent.futures import ThreadPoolExecutor
from pathlib import Path

from misbehaving import replying, web
from tries import HOME, STRANGE, Ended, Tries
from trying import ROOT

sys.path.append(str(HOME / "owner"))
from publication import catalog_root  # noqa: E402

FORGED = "f" * 64  # a root that no archive has


def publish(tries: Tries, site: str, number: int, more: dict[bytes, bytes]) -> str:
    """Adds files to the notes, publishes them under the next number, and returns the root."""
    tries.put("notes", more)
    old, new = f"notes-{number - 1}", f"notes-{number}"
    after = ["--after", f"{old}.json"] if number > 1 else []
    tries.check(f"folder {number} is collected", tries.collect(*after, "notes", f"{new}.json").status == 0)
    root = tries.root(f"{new}.json", f"{new}.index")
    growth = []
    if number > 1:
        tries.check(f"folder {number} has grown", tries.ask("grow", f"{old}.index", f"{new}.index", f"{new}.growth").status == 0)
        growth = ["--growth", f"{new}.growth"]
    ended = tries.script("announce", site, f"{new}.index", *growth)
    tries.check(f"publication {number} is written", ended.status == 0 and ended.printed.startswith(b"publication-%d.txt is written" % number))
    return root


def month(number: int) -> dict[bytes, bytes]:
    """Files that sort before and after those that are there."""
    return {b"2031-%02d.txt" % number: b"ferry %d" % number, b"0 before all %02d.txt" % (20 - number): b"mail %d" % number}


def followed(tries: Tries) -> list[str]:
    """The roots of a folder that grows three times, each followed over the network."""
    site = tries.folder / "site"
    site.mkdir()
    with web(site) as server:
        roots = [publish(tries, "site", 1, {b"2031-01.txt": b"the harbour froze", STRANGE.encode(): b"fox"})]
        ended = tries.script("follow", server.address, "roots.log", "--root", roots[0])
        tries.check("a log begins with the root that is given", ended.status == 0 and ended.printed.decode() == roots[0] + "\n")
        shutil.copy(tries.folder / "roots.log", tries.folder / "away.log")
        for number in (2, 3, 4):
            roots.append(publish(tries, "site", number, month(number)))
            ended = tries.script("follow", server.address + "/", "roots.log")
            tries.check(f"publication {number} is followed", ended.status == 0 and ended.printed.decode() == roots[-1] + "\n")
        shutil.copy(tries.folder / "away.log", tries.folder / "early.log")
        shutil.copy(tries.folder / "away.log", tries.folder / "busy.log")
        with ThreadPoolExecutor() as pool:
            ends = list(pool.map(lambda _: tries.script("follow", server.address, "busy.log"), range(3)))
        tries.check("three at one time", all(ended.status == 0 for ended in ends) and tries.read("busy.log") == tries.read("roots.log"))
        ended = tries.script("follow", server.address, "away.log")
        tries.check("one who was away comes to the newest", ended.status == 0 and ended.said.count("is accepted") == 3 and tries.read("away.log") == tries.read("roots.log"))
    return roots


def first_use(tries: Tries, roots: list[str]) -> None:
    ended = tries.script("follow", "site", "late.log", "--root", roots[1])
    tries.check("an old root begins a log that comes to the newest", ended.status == 0 and ended.printed.decode() == roots[-1] + "\n")
    ended = tries.script("follow", "site", "first.log", "--trust-first")
    tries.check("the first root is trusted if that is said, and a line says so", ended.status == 0 and "is trusted because it is the first one" in ended.said)
    tries.check("no root and no log", tries.script("follow", "site", "none.log").status == 2)
    tries.check("a root for a log that has one", tries.script("follow", "site", "roots.log", "--root", roots[0]).status == 2)
    tries.check("a root that is misspelt", tries.script("follow", "site", "none.log", "--root", roots[0].upper()).status == 2)
    ended = tries.script("follow", "site", "none.log", "--root", FORGED)
    tries.check("a root that no publication has", ended.status == 1 and "no publication there has the root" in ended.said and not (tries.folder / "none.log").exists())
    ended = tries.script("follow", "site", "roots.log")
    tries.check("nothing is newer", ended.status == 0 and ended.printed.decode() == roots[-1] + "\n")
    (tries.folder / "bad.log").write_bytes(tries.read("roots.log").replace(roots[1].encode(), roots[2].encode(), 1))
    tries.check("a log that somebody changed", tries.script("follow", "site", "bad.log").status == 3)
    (tries.folder / STRANGE).write_bytes(b"no log")
    ended = tries.script("follow", "site", STRANGE)
    tries.check("names are printed as escapes", ended.status == 3 and "\x1b" not in ended.said and ended.said.count("\n") == 1)


def kept_promises(tries: Tries) -> None:
    """What an owner cannot do by mistake."""
    broken = tries.folder / "broken"
    shutil.copytree(tries.folder / "notes", broken)
    (broken / "2031-01.txt").write_bytes(b"the harbour never froze")
    tries.check("a collection with a changed text", tries.collect("broken", "changed.json").status == 0)
    (broken / "2031-02.txt").unlink()
    ended = tries.collect("--after", "notes-4.json", "broken", "broken.json")
    lines = ended.said.splitlines()
    tries.check("a file that was changed is named", "cannot keep document 0 of 'notes-4.json', '2031-01.txt': it has another text" in lines)
    tries.check("a file that is missing is named", any(re.fullmatch("cannot keep document [0-9]+ of 'notes-4.json', '2031-02.txt': it is missing", line) for line in lines))
    tries.check("and nothing is written", ended.status == 1 and not (tries.folder / "broken.json").exists())
    tries.check("a collection that begins again", tries.collect("broken", "broken.json").status == 0)
    for name in ("changed", "broken"):
        tries.root(f"{name}.json", f"{name}.index")
    same = tries.script("announce", "site", "notes-4.index")
    tries.check("one root is not published twice", same.status == 1 and "has these roots already" in same.said)
    for name, more in (("no growth", []), ("the growth between other roots", ["--growth", "notes-3.growth"]), ("no growth file", ["--growth", "notes-3.json"])):
        ended = tries.script("announce", "site", "broken.index", *more)
        tries.check(f"another root is not published with {name}", ended.status == 1 and "nothing is written" in ended.said)
    tries.check("what is no index is not published", tries.script("announce", "site", "broken.json").status == 1)
    tries.check("a date that is none", tries.script("announce", "--date", "31 May", "site", "broken.index").status == 2)
    tries.check("a growth that no shard needs", tries.script("announce", tries.put("new", {b"x": b""}), "broken.index", "--growth", "notes-3.growth").status == 1)
    shutil.copy(tries.folder / "site" / "publication-3.txt", tries.folder / "new" / "publication.txt")
    shutil.copy(tries.folder / "site" / "publication-4.txt", tries.folder / "new" / "publication-4.txt")
    ended = tries.script("announce", "new", "notes-4.index", "--growth", "notes-4.growth")
    tries.check("a number that was given out is not used again", ended.status == 1 and "publication-4.txt is there" in ended.said)


def site_of(tries: Tries, name: str, old: str = "site") -> Path:
    return Path(shutil.copytree(tries.folder / old, tries.folder / name))


def edited(tries: Tries, name: str, old: str, *edits: tuple[str, str]) -> str:
    """A copy of a site in which the fifth publication is edited, by patterns of its lines. Its catalog is that of its roots."""
    site = site_of(tries, name, old)
    text = (site / "publication.txt").read_text()
    for pattern, new in edits:
        text = re.sub(f"(?m)^{pattern}$", new, text)
    text = re.sub("(?m)^catalog: .*$", f"catalog: {catalog_root(re.findall('^root: (.*)$', text, re.M))}", text)
    for each in ("publication.txt", "publication-5.txt"):
        (site / each).write_text(text)
    return name


def refused(tries: Tries, says: str, site: str, *wanted: str) -> None:
    """A publication is not followed: the log stays, both are kept, and the lines say why and whom to ask."""
    log = f"{site}.log"
    before = tries.read("roots.log")
    (tries.folder / log).write_bytes(before)
    ended = tries.script("follow", site, log)
    kept = [path.read_bytes() for path in tries.folder.glob(f"{log}.refused-*.txt")]
    said = all(word in ended.said for word in ("refused: publication", "ask the owner", *wanted))
    tries.check(f"{says} is refused", ended.status == 1 and not ended.printed and said)
    tries.check(f"{says}: both are kept", tries.read(log) == before and len(kept) == 1 and kept[0] != before and kept[0].startswith(b"publication: "))


def unread(tries: Tries, says: str, site: str, *wanted: str, log: str = "roots.log") -> None:
    """Nothing can be told: the log stays, and nothing else is printed."""
    before = tries.read(log)
    ended = tries.script("follow", site, log)
    said = ended.said.count("\n") == 1 and "\x1b" not in ended.said and all(word in ended.said for word in wanted)
    tries.check(f"{says}: the log stays", ended.status == 3 and not ended.printed and said and tries.read(log) == before)


def misbehaving_owner(tries: Tries, roots: list[str]) -> None:
    back = site_of(tries, "back")
    shutil.copy(back / "publication-3.txt", back / "publication.txt")
    refused(tries, "a publication that was rolled back", "back", "rolled back", "your log has publication 4")
    fork = site_of(tries, "fork", "back")
    (fork / "publication-4.txt").unlink()
    tries.check("an owner begins again", tries.script("announce", "--anew", "fork", "changed.index").status == 0)
    refused(tries, "another publication of the same number", "fork", "forked", "publication 4")
    site_of(tries, "later", "fork")
    tries.check("and goes on", tries.script("announce", "--anew", "later", "broken.index").status == 0)
    refused(tries, "a publication after another root", "later", "forked", "a root of no publication of your log")
    for name, wanted in (("changed", "begins anew"), ("broken", "documents were withdrawn: shard 0 had 8, and has 7")):
        site_of(tries, f"anew-{name}")
        tries.check(f"an owner publishes what is {name}", tries.script("announce", "--anew", f"anew-{name}", f"{name}.index").status == 0)
        refused(tries, f"an archive that is {name}", f"anew-{name}", wanted, "publication 5")


def false_growths(tries: Tries, roots: list[str]) -> None:
    site_of(tries, "next")
    new = publish(tries, "next", 5, month(5))
    true = tries.read("next/growth-5-0")
    (tries.folder / "unicode.log").write_bytes(tries.read("roots.log"))
    ended = tries.script("follow", edited(tries, "unicode", "next", ("unicode: .*", "unicode: 19.0")), "unicode.log")
    tries.check("another version of Unicode is accepted, and a line says so", ended.status == 0 and "it is for Unicode 19.0" in ended.said)
    refused(tries, "a publication after an older root", edited(tries, "older", "next", ("before: .*", f"before: {roots[2]}")), "forked", "a root of publication 3 of your log")
    refused(tries, "numbers that the growth does not show", edited(tries, "number", "next", ("documents: .*", "documents: 11")), "other numbers")
    refused(tries, "another format", edited(tries, "format", "next", ("format: 1", "format: 2")), "other numbers")
    refused(tries, "a root that did not change with other numbers", edited(tries, "same", "next", (f"root: {new}", f"root: {roots[3]}")), "other numbers")
    refused(tries, "a growth between other roots", edited(tries, "other", "next", ("growth: .*", "growth: growth-4-0")), "refused: other-old")
    # The header of the first archive in place of the new one: fewer documents, though the publication says otherwise.
    shrunk = true[:110] + tries.read("next/growth-2-0")[4:110] + true[216:]
    for name, data, wanted in (("false", true[:-1] + bytes([true[-1] ^ 1]), "withdrawn or changed"), ("cut", true[:-1], "damaged"), ("shrunk", shrunk, "documents were withdrawn (refused: shrunk 8 2)")):
        edits = [(f"root: {new}", f"root: {roots[0]}")] if name == "shrunk" else []
        edited(tries, name, "next", *edits)
        (tries.folder / name / "growth-5-0").write_bytes(data)
        refused(tries, f"a growth that is {name}", name, wanted)
        kept = [path.read_bytes() for path in tries.folder.glob(f"{name}.log.refused-*.growth-0")]
        tries.check(f"a growth that is {name}: it is kept", kept == [data])


def unreadable_sources(tries: Tries) -> None:
    for name, gone in (("gone-growth", "growth-5-0"), ("gone-newest", "publication.txt")):
        (site_of(tries, name, "next") / gone).unlink()
        unread(tries, f"a missing {gone}", name, gone, "No such file")
    (tries.folder / "early.site").mkdir()
    shutil.copy(tries.folder / "site" / "publication.txt", tries.folder / "early.site")
    unread(tries, "a missing publication in between", "early.site", "publication-2.txt", log="early.log")
    for name, old, new in (("up", "growth: .*", "growth: ../growth-5-0"), ("twice", "root: (.*)", r"root: \1\nroot: \1"), ("blank", "date: ", "date:"), ("end", "growth: (.*)", r"growth: \1\nmore: 1"), ("many", "shards: 1", "shards: 4097")):
        unread(tries, f"a publication out of form: {name}", edited(tries, f"form-{name}", "next", (f"{old}.*" if name == "blank" else old, new)), "is no publication")
    long = site_of(tries, "long-file", "next")
    (long / "publication.txt").write_bytes(b"x" * ((1 << 20) + 1))
    unread(tries, "a publication above its limit", "long-file", "more than 1048576 bytes")
    (long / "publication.txt").unlink()
    (long / "publication.txt").mkdir()
    unread(tries, "a folder in place of a publication", "long-file", "publication.txt")
    for source in ("file:///etc", "ftp://127.0.0.1/x", "http://", "http://127.0.0.1/?x", "http://127.0.0.1/\n", "nowhere", "http://[::1/"):
        tries.check(f"no source: {source!r}", tries.script("follow", source, "roots.log").status == 2)


def misbehaving_network(tries: Tries) -> None:
    site = tries.folder / "site"
    with web(site) as other, web(site, other.port) as server:
        for trick, wanted in (("other-host", f"redirects to http://localhost:{other.port}/publication.txt"), ("file", ""), ("endless", "more than 1048576 bytes"), ("cut", "out of form"), ("no-http", "out of form"), ("many-heads", "out of form"), ("escapes", "is no publication"), ("nowhere", "status 404")):
            unread(tries, f"a server with the trick {trick}", f"{server.address}/{trick}", wanted)
        tries.check("no redirect is followed", not other.asked)
        with ThreadPoolExecutor() as pool:
            ends = list(pool.map(lambda trick: tries.script("follow", f"{server.address}/{trick}", "roots.log"), ("slow", "slow-head", "silent")))
        tries.check("a slow body, a slow head and silence end after 30 seconds", all(ended.status == 3 and "more than 30 seconds" in ended.said for ended in ends))
    unread(tries, "a server that is gone", server.address, "refused")


def compared(tries: Tries, roots: list[str]) -> None:
    other = tries.read("fork/publication.txt")
    fork = tries.read("roots.log")
    (tries.folder / "fork.log").write_bytes(fork[:fork.index(b"publication: 4\n")] + other)
    root = re.search(b"root: (.*)", other)[1].decode()
    for one, two, status, wanted in (
            ("roots.log", "away.log", 0, "same history from publication 1 to 4\n"),
            ("early.log", "roots.log", 0, "same history from publication 1 to 1\n'roots.log' goes on to publication 4\n"),
            ("roots.log", "late.log", 0, "same history from publication 2 to 4\n"),
            ("first.log", "roots.log", 0, "same history from publication 4 to 4\n"),
            ("roots.log", "fork.log", 1, f"fork at publication 4\n{roots[3]}\n{root}\n"),
            ("first.log", "early.log", 3, ""), ("roots.log", "none.log", 3, "")):
        ended = tries.script("follow", "--compare", one, two)
        tries.check(f"logs compared: {one} and {two}", (ended.status, ended.printed.decode()) == (status, wanted))
    tries.check("one log cannot be compared", tries.script("follow", "--compare", "roots.log").status == 2)


def growing(tries: Tries) -> None:
    roots = followed(tries)
    first_use(tries, roots)
    kept_promises(tries)
    misbehaving_owner(tries, roots)
    false_growths(tries, roots)
    unreadable_sources(tries)
    compared(tries, roots)
    misbehaving_network(tries)


def of_shards(tries: Tries) -> None:
    """The shards that were collected: the first is full, the second grows, and a third begins."""
    (tries.folder / "two").mkdir()
    first, second = tries.root("shards/shard-0.json", "s0.index"), tries.root("shards/shard-1.json", "s1.index")
    tries.check("the first one by itself", tries.script("announce", "two", "s0.index").status == 0)
    tries.check("its root begins a log", tries.script("follow", "two", "shards.log", "--root", first).printed.decode() == first + "\n")
    tries.check("another one after it", tries.script("announce", "two", "s0.index", "s1.index").status == 0)
    ended = tries.script("follow", "two", "shards.log")
    catalog = catalog_root([first, second])
    tries.check("the catalog is followed", ended.status == 0 and ended.printed.decode() == f"{catalog}\n{first}\n{second}\n")
    tries.check("its root begins a log, too", tries.script("follow", "two", "catalog.log", "--root", catalog).printed == ended.printed)
    tries.check("the root of a shard of two begins none", tries.script("follow", "two", "shard.log", "--root", second).status == 1)
    tries.check("the last shard grows", tries.collect("--shards", "sharded", "shards").status == 0)
    grown = tries.root("shards/shard-1.json", "s1b.index")
    tries.check("its growth", tries.ask("grow", "s1.index", "s1b.index", "s1.growth").status == 0)
    tries.check("a shard is missing", tries.script("announce", "two", "s1b.index").status == 1)
    closed = tries.script("announce", "two", "s1b.index", "s1.index", "--growth", "s1.growth")
    tries.check("a closed shard does not grow", closed.status == 1 and "shard 0 is closed" in closed.said)
    ended = tries.script("announce", "two", "s0.index", "s1b.index", "notes-1.index", "--growth", "s1.growth")
    tries.check("one has grown, and one begins", ended.status == 0)
    text = (tries.folder / "two" / "publication.txt").read_text()
    site_of(tries, "uncatalogued", "two")
    (tries.folder / "uncatalogued" / "publication.txt").write_text(re.sub("catalog: .*", f"catalog: {catalog}", text))
    unread(tries, "a list of roots that does not give the catalog", "uncatalogued", "its roots do not give its catalog", log="shards.log")
    ended = tries.script("follow", "two", "shards.log")
    tries.check("all three are followed", ended.status == 0 and ended.printed.decode().splitlines()[1:3] == [first, grown] and len(ended.printed.splitlines()) == 4)
    site_of(tries, "reopened", "two")
    tries.check("an owner changes a closed shard", tries.script("announce", "--anew", "reopened", "s0.index", "s1.index", "notes-1.index").status == 0)
    shutil.copy(tries.folder / "shards.log", tries.folder / "reopened.log")
    ended = tries.script("follow", "reopened", "reopened.log")
    tries.check("a closed shard that changed is refused", ended.status == 1 and "documents were withdrawn: shard 1" in ended.said or "shard 1 was closed" in ended.said)
    tries.check("an owner takes a shard away", tries.script("announce", "--anew", "two", "s0.index", "s1b.index").status == 0)
    ended = tries.script("follow", "two", "shards.log")
    tries.check("a shard that is gone is refused", ended.status == 1 and "shard 2 is gone: its documents were withdrawn" in ended.said)


# The worked roots of catalogs: of the texts of `trying.py`, and of these with an archive of one text without a word between them.
CATALOGS = ((1, "85889aa12fe6cb8663e3592c416a7881d82fef1372df94d0196f48b02ada28cc"), (3, "9d9d31e9462a92d3022ee1e108f5d223338c9d32698c60cb35afb73724361a7c"))


def catalogs(tries: Tries) -> None:
    """The roots of worked catalogs, and that the program says the same."""
    (tries.folder / "wordless.json").write_text('["!!"]')
    roots = [ROOT, tries.root("wordless.json", "wordless.index"), ROOT]
    for count, wanted in CATALOGS:
        (tries.folder / "roots.txt").write_text("\n".join(roots[:count]) + "\n")
        ended = tries.ask("catalog-root", "roots.txt")
        tries.check(f"the root of a worked catalog of {count}", catalog_root(roots[:count]) == wanted == ended.printed.decode().strip())


def signed(tries: Tries) -> None:
    """The lines that `announce.py` prints sign a publication, and refuse a changed one."""
    site = tries.put("signed", {b"x": b""})
    lines = [line.strip() for line in tries.script("announce", "signed", "notes-1.index").printed.decode().splitlines()]
    home = tries.put("home", {b"x": b""})
    for tool, make in (("minisign", f"minisign -G -W -p minisign.pub -s {home}/.minisign/minisign.key"), ("ssh-keygen", "ssh-keygen -q -t ed25519 -N '' -f KEY && echo OWNER $(cat KEY.pub) >SIGNERS")):
        if shutil.which(tool) is None:
            tries.skip(f"signatures by {tool}: it is not installed")
            continue
        (home / ".minisign").mkdir(exist_ok=True)
        sign, check = (line for line in lines if line.startswith(tool))
        for says, line, status in (("a key", make, 0), ("the line that signs", sign, 0), ("the line that checks", check, 0)):
            tries.check(f"{tool}: {says}", tries.run("sh", "-c", line, place="signed", HOME=str(home)).status == status)
        data = (site / "publication-1.txt").read_bytes()
        (site / "publication-1.txt").write_bytes(data.replace(b"documents: 2", b"documents: 3"))
        tries.check(f"{tool}: a changed publication", tries.run("sh", "-c", check, place="signed", HOME=str(home)).status != 0)
        (site / "publication-1.txt").write_bytes(data)


REPLIES = {
    "nothing": b"", "three bytes": b"\0\0\0", "a length only": b"\0\0\0\5", "half a proof": b"\0\0\0\5\0ab",
    "a length of 0": bytes(4), "a length that is too long": b"\4\0\0\2\0", "another kind": b"\0\0\0\2\2\0",
    "a code of two bytes": b"\0\0\0\3\1\4\4", "a code": b"\0\0\0\2\1\5", "an empty proof": b"\0\0\0\1\0",
    "no proof": b"\0\0\0\5\0abcd", "bytes after it": b"\0\0\0\5\0abcdmore",
}
WORDS = ((FORGED, "tnra", "0", "fox"), (FORGED, "tnra", "1001", "fox"), (FORGED, "tra", "1", "!"), (FORGED, "tra", "01", "fox"), ("f" * 63, "tra", "1", "fox"), (FORGED, "tra", "1", "a" * 4001))
ADDRESSES = ("", "127.0.0.1", ":7070", "127.0.0.1:65536", "127.0.0.1:x", "[127.0.0.1]:80", "[::1]80", "nobody.invalid:80")


def alike(tries: Tries, says: str, *words: str) -> None:
    """`keep.py` ends as `ask` does."""
    asked, kept = tries.ask("ask", *words), tries.script("keep", "--", *words, "kept.proof")
    tries.check(f"{says}: as `ask`", (kept.status, kept.printed) == (asked.status, asked.printed))


def kept(tries: Tries) -> None:
    (tries.folder / "kept.proof").write_bytes(b"before")
    with replying(b"\0\0\0\2\1\1") as address:
        for words in WORDS:
            alike(tries, f"words {words[0][:2]} {words[1]} {words[2]} {words[3][:3]}", *words, address)
    for address in ADDRESSES:
        alike(tries, f"the address {address!r}", FORGED, "tnra", "1", "fox", address)
    for says, reply in REPLIES.items():
        before = tries.read("kept.proof")
        with replying(reply) as address:
            alike(tries, f"a reply of {says}", FORGED, "tnra", "1", "fox", address)
        proof = reply[5:9] if reply[4:5] == b"\0" and len(reply) >= 4 + int.from_bytes(reply[:4], "big") else before
        tries.check(f"a reply of {says}: what is kept", tries.read("kept.proof") == proof)
    if socket.has_ipv6:
        with replying(REPLIES["a code"], socket.AF_INET6) as address:
            alike(tries, "an address of IPv6", FORGED, "tnra", "1", "fox", address)
    with replying(None) as address:
        alike(tries, "silence", FORGED, "tnra", "1", "fox", address)
    with replying(REPLIES["no proof"]) as address:
        ended = tries.script("keep", FORGED, "tnra", "1", "fox", address, "nowhere/kept.proof")
        tries.check("a proof that cannot be stored", ended.status == 3 and "cannot be stored" in ended.said)


def honest(tries: Tries) -> None:
    """The proof of a real server is kept byte for byte, and its rows are printed."""
    root = tries.root("notes-4.json", "notes-4.index")
    made = tries.ask("prove", "notes-4.index", "tra", "3", "ferry mail", "made.proof")
    rows = tries.ask("verify", root, "3", "ferry mail", "made.proof")
    with tries.serving("notes-4.index", 2) as address:
        ended = tries.script("keep", root, "tra", "3", "ferry mail", address, "honest.proof")
        tries.check("a real server: the rows", made.status == 0 and ended == Ended(0, rows.printed, "") and rows.printed.count(b"\n") == 3)
        tries.check("a real server: the proof is kept", tries.read("honest.proof") == tries.read("made.proof"))
        ended = tries.script("keep", FORGED, "tra", "3", "ferry mail", address, "refused.proof")
        tries.check("a refused proof is evidence", ended == Ended(1, b"refused: other-root\n", "") and tries.read("refused.proof") == tries.read("made.proof"))


CASES = (growing, of_shards, catalogs, signed, kept, honest)
