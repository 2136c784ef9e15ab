"""What a person does with the page, over hosts that are honest, lie or fail, in one browser."""

import base64
import io
import json
import re
import subprocess
import tempfile
import time
import zipfile
from pathlib import Path
from typing import Any, NamedTuple

import browsers
import host as hosts

HERE = Path(__file__).resolve().parent
PERSON = (HERE / "person.js").read_text(encoding="utf-8")
QUERY = "blood count"
SAYS = ["1. Document 31 · score 80138", "2. Document 10 · score 38892", "3. Document 28 · score 28252"]
REFUSED = "The check’s line: refused: "
READY, ASKED = "Ready.", "The link has a question. Press Search."
# Not by deleting the store, which waits until each page that had it open is gone.
FORGETTING = """new Promise(done => {
  localStorage.clear();
  const opening = indexedDB.open('ats-ranges', 1);
  opening.onupgradeneeded = () => opening.result.createObjectStore('ranges');
  opening.onsuccess = () => {
    const all = opening.result.transaction('ranges', 'readwrite');
    all.objectStore('ranges').clear();
    all.oncomplete = () => { opening.result.close(); done(0); };
  };
  opening.onerror = opening.onblocked = () => done(0);
  setTimeout(done, 3000, 0); // Firefox at times holds the store for a page that is gone; the page then does without
})"""
# Holds the store of the page for ever, as another page may.
HOLDING = """new Promise(done => {
  const opening = indexedDB.open('ats-ranges', 1);
  opening.onsuccess = () => {
    const held = opening.result.transaction('ranges', 'readwrite').objectStore('ranges');
    const hold = () => { held.get('').onsuccess = hold; };
    hold();
    done(0);
  };
})"""


class Tally:
    """Counts what was tried."""

    def __init__(self) -> None:
        self.passed = self.failed = 0

    def see(self, right: bool, about: str, got: object = "") -> None:
        self.passed, self.failed = self.passed + bool(right), self.failed + (not right)
        if not right:
            print(f"FAILED: {about}: {str(got)[:900]}", flush=True)


class Made(NamedTuple):
    """An archive: its texts and its root. Or a catalog, with all texts of its archives, and each of these."""

    texts: "list[str]"
    root: str
    shards: "tuple[Made, ...]" = ()


class World(NamedTuple):
    """The program, a host with the page and the archives, a second one with other publications, and saved proofs."""

    program: str
    host: hosts.Host
    archives: "dict[str, Made]"
    shelves: "dict[str, Path]"
    page: Path
    saved: "dict[str, bytes]"


class Person:
    """Who uses the page in a browser, and sees whether it is as it should be."""

    def __init__(self, browser: browsers.Browser, world: World, tally: Tally) -> None:
        self.browser, self.world, self.tally, self.run = browser, world, tally, browser.run
        self.host, self.base = world.host, world.host.base

    def see(self, right: object, about: str, got: object = "") -> None:
        self.tally.see(bool(right), f"{self.browser.name}: {about}", got)

    def shows(self, got: Any, about: str, **wanted: object) -> None:
        """Sees that what the page shows has all of this."""
        self.see({name: got[name] for name in wanted} == wanted, about, got)

    def do(self, what: str, **words: Any) -> Any:
        return self.run(f"({PERSON}).{what}({json.dumps(words)})")

    def of(self, name: str, what: str = "textContent") -> Any:
        """A property of an element of the page."""
        return self.run(f"document.getElementById('{name}').{what}")

    def press(self, name: str) -> None:
        self.run(f"(document.getElementById('{name}').click(), 0)")

    def wait_for(self, name: str, what: str = "hidden", wanted: object = False) -> None:
        browsers.wait(lambda: self.of(name, what) == wanted)

    def open(self, more: str = "", ready: str = READY) -> None:
        """Opens the page, of which `more` follows the address. Another page comes first: a link that differs only after
        # loads nothing."""
        self.browser.open("about:blank")
        self.browser.open(more if more.startswith("http") else f"{self.base}/{more}")
        browsers.wait(lambda: self.of("state").startswith(ready))

    def visit(self, name: str = "first") -> str:
        """Opens the page for an archive, as a browser that was never there, over an honest host."""
        self.host.act = hosts.honest
        self.browser.open(f"{self.base}/page.css")
        self.run(FORGETTING)
        if isinstance(self.browser, browsers.Chromium):
            self.browser.forget()
        root = self.world.archives[name].root
        self.open(f"#root={root}")
        return root

    def stand_before(self, shelf: str, name: str) -> Any:
        """Opens the page for an archive, over a host with these publications. Returns what is offered."""
        self.host.folders[1] = self.world.shelves[shelf]
        self.visit(name)
        return self.do("offer")

    def ask(self, query: str = QUERY, all_of: bool = False) -> Any:
        return self.do("ask", query=query, all=all_of)

    def file(self, data: bytes, drop: bool = False) -> Any:
        """Opens a saved proof."""
        return self.do("file", name="it.zip", base64=base64.b64encode(data).decode(), drop=drop)


# ---- answers


def try_answers(me: Person) -> None:
    began = time.monotonic()
    me.visit()
    opening = time.monotonic() - began
    got = me.ask()
    rows = got["rows"]
    print(f"    {me.browser.name}: ready {opening:.2f} s after opening, an answer {got['ms']:.0f} ms after asking")
    me.see(got["kind"] == "good" and [it["says"].split(" · ✓")[0] for it in rows] == SAYS, "three rows", got)
    me.shows(got, "fewer than ten", verdict="✓ Checked: all 3 that have any of these words, of 36 documents")
    me.see(all(it["checked"] for it in rows) and rows[0]["marks"] == ["blood", "count", "count"], "marks", rows)
    me.see("no other document scores above 0" in got["checked"], "what was checked", got)
    me.see("“\u2068blood\u2069”" in got["facts"], "the words", got)
    marks = me.ask("strasse")["rows"][0]["marks"]
    me.see("strasse" not in marks[0] and "Straße" in marks, "a word that is written otherwise", marks)
    said = "✓ Checked: the best 10 of 36 documents, and none left out"
    me.shows(me.ask("the"), "ten rows", verdict=said, more=True)
    got = me.do("more")
    me.see("the best 20 of 36" in got["verdict"] and len(got["rows"]) == 20, "ten more", got["verdict"])
    got = me.ask(QUERY, True)
    me.shows(got, "all documents", verdict="✓ Checked: 1 of 36 documents has every one of these words, and no other")
    me.see(len(got["rows"]) == 1, "one row", got)
    for all_of in (False, True):
        me.ask(QUERY, all_of)
        got = me.do("lie")
        me.see(got["kind"] == "bad" and got["line"].startswith(REFUSED) and got["isSeen"], "a lie", got)


def try_questions(me: Person) -> None:
    """What the page says of words that no document has, of signs, and of limits."""
    me.visit()
    me.shows(me.ask("zyzzyva"), "nothing found", kind="good", verdict="✓ No document has this word", rows=[])
    me.shows(me.ask("zyzzyva qwxz"), "nothing found of two", verdict="✓ No document has any of these words")
    got = me.ask("blood parrot zyzzyva", True)
    me.shows(got, "no document", verdict="✓ No document has every one of these words")
    me.see("zyzzyva" in got["said"], "the word that none has", got)
    absent = "No document has “\u2068zyzzyva\u2069”."
    me.shows(me.ask("blood zyzzyva"), "a word that is absent", kind="good", said=absent)
    for query, *passed in (
        ("blo*d -count", "*", "-"),
        ("blood AND count", "AND"),
        ('"blood" count', "“ ”"),
        ('blood "count', '"'),
    ):
        notes = me.ask(query)["said"]
        me.see("Passed over: " in notes and all(f"\u2068{it}\u2069" in notes for it in passed), query, notes)
    got = me.ask("BLOOD AND COUNT")
    me.see("Passed over" not in got["said"] and "\u2068and\u2069" in got["facts"], "AND among capitals", got)
    for query, line in (
        ("...", "input: query has no term"),
        ("x" * 4001, "input: query of 4001 bytes"),
        ("a " * 256, "input: query of 256 words"),
        (" ".join(f"w{i}" for i in range(33)), "input: query of 33 terms"),
    ):
        me.shows(me.ask(query), line, line=f"The check’s line: {line}")
    got = me.ask("blood\tcount")
    me.see(not got["shown"] and "U+0009" in got["state"], "a sign that no command can carry", got)
    got = me.do("ask", query=QUERY, root="0778")
    me.see(not got["shown"] and "64 digits" in got["state"], "a short root", got)


def try_phrases(me: Person) -> None:
    me.visit()
    texts = me.world.archives["first"].texts
    for query, count in (
        ('"blood count"', 1),
        ('"count blood"', 0),
        ('"blood pressure" lorry', 1),
        ('"Her blood Count"', 1),
    ):
        got, phrase = me.ask(query), query.split('"')[1].lower()
        own = [i for i, it in enumerate(texts) if phrase in it.lower()]
        me.see([it["doc"] for it in got["rows"]] == own and len(own) == count, query, got)
        me.see("each checked" in got["said"], "what the page found", got["said"])
        me.see("every one of these words" in got["verdict"], "what is proved of it", got["verdict"])
    rows = me.ask('"blood count"')["rows"]
    me.see(rows[0]["marks"] == ["blood count"], "a phrase is marked", rows)
    me.visit()
    me.host.act = lambda request, reply: hosts.gone(request, reply) if request.name == "texts" else reply
    notes = me.ask('"blood pressure"')["said"]
    me.see("did not come" in notes and "may have it too" in notes, "texts that do not come", notes)


def try_whole(me: Person) -> None:
    me.visit("grown")
    made, rows = me.world.archives["grown"], me.ask("zugzwang move game")["rows"]
    at, row = next((i, it) for i, it in enumerate(rows) if it["title"] == "A long game")
    me.see({"zugzwang", "move"} <= set(row["marks"]), "the excerpt has most different words", row)
    got = me.do("open", at=at)
    is_first = got["text"] == made.texts[row["doc"]] and got["hit"].startswith("Hit 1 of ") and got["isSeen"]
    me.see(is_first, "a whole text at its first hit", got["hit"])
    me.shows(got, "where the keyboard is", focus="whole-title", list=False)
    me.press("later")
    got = me.do("whole")
    me.see(got["hit"].startswith("Hit 2 of ") and got["isSeen"], "the next hit", got["hit"])
    cited = me.do("copied", id="cite")
    me.see(made.root in cited and f"Document {row['doc']} " in cited, "a line to cite", cited)
    me.run("history.back()")
    me.wait_for("whole", wanted=True)
    me.wait_for("list")
    me.see(me.run("document.activeElement.textContent") == "A long game", "back where it was")
    me.ask("columns")
    me.see(me.do("open", at=0)["laidOut"], "a text with columns keeps its lines")
    me.ask("hits")
    start = time.monotonic()
    got = me.do("open", at=0)
    me.see("of the first 10,000, of 200,000" in got["hit"] and got["marks"] == 500, "a text of hits", got["hit"])
    print(f"    {me.browser.name}: 1 MB with 200,000 hits is open after {time.monotonic() - start:.2f} s")


def try_frames(me: Person) -> None:
    """A text that looks like a row, or that draws over what is near, stays in its frame. So does one of markup."""
    me.visit("grown")
    for query in ("imitation", "markup", "שלום"):
        row = me.ask(query)["rows"][0]
        own = me.world.archives["grown"].texts[row["doc"]][:10]
        me.see(own in row["title"] + row["text"] and own not in row["outside"], f"the text for {query}", row)
        for frame in me.do("frames"):
            me.shows(frame, "its frame", contain="paint", overflow="hidden")
            me.see(frame["border"] != "0px", "its border", frame)
    direction = me.run("getComputedStyle(document.querySelector('#list .text')).direction")
    me.see(direction == "rtl", "a text from right to left", direction)


# ---- hosts that lie and fail


def try_lies(me: Person) -> None:
    """Each lie, of the files for an answer and of those for texts. Then the host is honest, and the same page has an
    answer."""
    me.host.is_kept = isinstance(me.browser, browsers.Chromium)  # whose cache can be emptied for each trial
    texts = me.world.archives["first"].texts
    for about, lie in hosts.LIES.items():
        me.visit()
        me.host.act = hosts.about(("head", "dictionary", "lists"), lie)
        got = me.ask()
        me.see(got["kind"] == "bad" and not got["rows"] and "The check" not in got["line"], about, got)
        me.host.act = hosts.honest
        got = me.ask()
        me.see(got["kind"] == "good" and len(got["rows"]) == 3, f"{about}, and honest afterwards", got)
        me.visit()
        me.host.act = hosts.about(("texts", "texts-tree"), lie)
        got = me.ask()
        rows = got["rows"]
        hidden = all(texts[it["doc"]][:30] not in it["text"] + it["title"] for it in rows)
        is_said = all("did not come" in it["note"] for it in rows)
        me.see(got["kind"] == "good" and len(rows) == 3 and hidden and is_said, f"{about}, for texts", got)
        me.host.act = hosts.honest
        me.run("(document.querySelectorAll('.note button').forEach(it => it.click()), 0)")
        rows = me.do("settled")["rows"]
        me.see(all(it["checked"] for it in rows), f"{about}, texts that are asked for again", rows)
    me.host.is_kept = False


def try_root_that_changes(me: Person) -> None:
    """Nothing stays green under a root that it is not of."""
    me.visit()
    me.host.act = hosts.about(hosts.FILES, hosts.slow(0.4))
    got = me.do("askAndType", query=QUERY, root="00" * 32, ms=300)
    me.shows(got, "a root typed meanwhile", shown=False, rows=[])
    me.see("so the question was stopped" in got["state"], "why there is no answer", got)
    me.visit()
    me.ask()
    got = me.do("askAndType", query=QUERY, root=me.world.archives["grown"].root, ms=1)
    me.shows(got, "a root typed after an answer", shown=False, rows=[])


def try_held_store(me: Person) -> None:
    """A store that does not answer delays an answer, and does not stop it."""
    me.visit()
    me.run(HOLDING)
    began = time.monotonic()
    got = me.ask()
    took = time.monotonic() - began
    me.see(got["kind"] == "good" and len(got["rows"]) == 3 and took < 5, "a store that is held", (took, got))


def try_links(me: Person) -> None:
    root, grown = me.visit(), me.world.archives["grown"].root
    got = me.ask("Gärtner & “court”", True)
    link = me.do("copied", id="link")
    cited = me.do("copied", id="cite-all") if got["rows"] else root
    me.see(root in cited, "lines to cite", cited)
    me.open(link, ASKED)
    me.see(me.of("answer", "hidden"), "a link asks nothing by itself")
    me.press("go")
    me.wait_for("answer")
    me.see(me.of("verdict") == got["verdict"], "the answer of a link", me.of("verdict"))
    for sign in ("%00", "%0A"):
        me.open(f"#root={root}&query=blood{sign}count", "The link has a query with the sign")
        me.see(me.of("query", "value") == "", f"a link with {sign}", me.of("state"))
    me.visit()
    me.do("ask", query=QUERY, root=grown)
    me.run(f"(location.hash = 'root={root}', 0)")
    me.wait_for("offer")
    me.see(me.of("root", "value") == grown, "a link does not replace a root that was typed")
    me.press("take")
    me.see(me.of("root", "value") == root, "the root of the link is taken")
    me.open(f"#root={root}&host=http://127.0.0.1:9", "The link names the host http://127.0.0.1:9")
    me.see("may not ask" in me.of("state"), "a host that the page may not ask", me.of("state"))


# ---- catalogs


def best_of(program: str, made: Made, query: str) -> "list[tuple[str, int]]":
    """The documents of all archives that have any word, the best first, with their scores: by `rank` of each."""
    found = []
    for number, shard in enumerate(made.shards):
        with tempfile.NamedTemporaryFile("w", suffix=".json", encoding="utf-8") as collection:
            json.dump(shard.texts, collection)
            collection.flush()
            words = [program, "rank", collection.name, "1000", query]
            ran = subprocess.run(words, stdout=subprocess.PIPE, stderr=subprocess.DEVNULL, text=True, check=True)
        found += [(f"{number}-{it[1]}", int(it[2])) for it in map(str.split, ran.stdout.splitlines())]
    return sorted(found, key=lambda it: -it[1])


def see_best(me: Person, got: Any, best: "list[tuple[str, int]]", about: str) -> None:
    """The rows are the best of these, within their bounds. Those that tie may come in any order."""
    scores = dict(best)
    for row, (_, wanted) in zip(got["rows"], best):
        bounds = [int(it) for it in re.findall("[0-9]+", row["says"].split("score ")[1])]
        right = scores[row["doc"]] == wanted and bounds[0] <= wanted <= bounds[-1] and row["checked"]
        me.see(right, f"{about}: row {row['doc']}", (row, wanted))


def try_catalogs(me: Person) -> None:
    made, program = me.world.archives["catalog"], me.world.program
    me.visit("catalog")
    for query in (QUERY, "the", "the court", "zugzwang"):
        best = best_of(program, made, query)
        got = me.ask(query)
        me.see(got["kind"] == "good" and len(got["rows"]) == min(10, len(best)), f"a catalog: {query}", got)
        see_best(me, got, best, query)
        if got["more"]:
            said = f"the best 10 of {len(made.texts)} documents in 3 archives"
            me.see(said in got["verdict"], query, got["verdict"])
            see_best(me, me.do("more"), best, f"{query}, ten more")
        having = [{doc for doc, _ in best_of(program, made, word)} for word in query.split()]
        all_of = set.intersection(*having)
        got = me.ask(query, True)
        me.see({it["doc"] for it in got["rows"]} <= all_of, f"all with {query}", got)
        said = f"✓ Checked: {len(all_of)} of " if all_of else "✓ No document has"
        me.see(got["kind"] == "good" and got["verdict"].startswith(said), query, got["verdict"])
    try_catalog_texts(me, made)


def try_catalog_texts(me: Person, made: Made) -> None:
    texts = [(f"{i}-{k}", text) for i, it in enumerate(made.shards) for k, text in enumerate(it.texts)]
    own = [name for name, text in texts if "blood count" in text.lower()]
    got = me.ask('"blood count"')
    me.see([it["doc"] for it in got["rows"]] == own and own, "words together in a catalog", got)
    shard, doc = own[0].split("-")
    name, text = f"Document {doc} of archive {shard}", dict(texts)[own[0]]
    got = me.do("open", at=0)
    me.shows(got, "a whole text of a catalog", text=text)
    me.see(f"{name}, " in got["said"], "which one it is", got["said"])
    cited, link = me.do("copied", id="cite"), me.run("location.href")
    me.see(made.root in cited and f"{name} of the catalog" in cited, "to cite it", cited)
    me.open(link, ASKED)
    me.press("go")
    me.wait_for("whole")
    me.shows(me.do("whole"), "a link to a text of a catalog", text=text)


def try_catalog_lies(me: Person) -> None:
    """Hosts that lie about the list of roots or in one archive, or do not have it."""
    roots = [it.root for it in me.world.archives["catalog"].shards]

    def swapped(request: hosts.Request, reply: hosts.Reply) -> hosts.Reply:
        one, other = (it.encode() for it in roots[:2])
        body = reply.body.replace(one, b"-").replace(other, one).replace(b"-" + b"\n", other + b"\n")
        return reply._replace(body=body) if request.name == "publication.txt" else reply

    def in_one(lie: hosts.Act) -> hosts.Act:
        return lambda request, reply: lie(request, reply) if roots[1] in request.path else reply

    lies = {it: in_one(hosts.about(("head", "dictionary", "lists"), lie)) for it, lie in hosts.LIES.items()}
    for about, lie in {**lies, "other roots": swapped}.items():
        root = me.visit("catalog")
        me.host.act = lie
        me.open(f"#root={root}")
        got = me.ask()
        named = "Archive 1: " in got["said"] or got["line"].endswith("roots of another catalog")
        me.see(got["kind"] == "bad" and not got["rows"] and named, f"a catalog, {about}", got)
        me.host.act = hosts.honest
        got = me.ask()
        me.see(got["kind"] == "good" and got["rows"], f"a catalog, honest after {about}", got)
    got = me.do("lie")
    me.see(got["kind"] == "bad" and got["line"].startswith(REFUSED), "a lie about a catalog", got)


def try_catalog_growth(me: Person) -> None:
    made, grown = me.world.archives["catalog"], me.world.archives["catalog grown"]
    before, after = (len(it.shards[2].texts) for it in (made, grown))
    said = f"✓ Archive 2 grew from {before} to {after} documents; archives were added, 3 before and now 4"
    got = me.stand_before("catalog grown", "catalog")
    me.shows(got, "a catalog that grew", verdict=f"{said}; nothing was withdrawn", root=grown.root)
    me.see("in 3 archives" in me.ask("the")["verdict"], "an answer under the old catalog", got)
    me.press("take")
    got = me.ask("the")
    me.see("in 4 archives" in got["verdict"] and got["kind"] == "good", "an answer under the new catalog", got)
    got = me.stand_before("became a catalog", "first")
    me.see(got["take"] and "rchives were added, 1 before and now 2" in got["verdict"], "what became a catalog", got)
    got = me.stand_before("catalog forked", "catalog")
    me.shows(got, "a catalog that forked", verdict="✗ The host offers another archive", take=False)


# ---- roots


def try_growth(me: Person) -> None:
    first, grown = me.world.archives["first"], me.world.archives["grown"]
    said = f"✓ The archive grew from 36 to {len(grown.texts)} documents; nothing was withdrawn"
    got = me.stand_before("grown", "first")
    me.shows(got, "a growth", kind="good", verdict=said, root=grown.root, take=True)
    got = me.ask()
    me.see(got["kind"] == "good" and "of 36 documents" in got["verdict"], "an answer under the old root", got)
    me.press("keep")
    me.press("take")
    me.shows(me.do("seen"), "the new root is in the address", hash=f"#root={grown.root}", shown=False)
    got, said = me.ask(), f"of {len(grown.texts)} documents"
    me.see(got["kind"] == "good" and said in got["verdict"], "an answer under the new root", got)
    me.host.folders[1] = me.world.shelves["first"]
    me.open(f"#root={grown.root}")
    me.shows(me.do("offer"), "a rollback", verdict="✗ The host is behind", take=False)
    me.host.folders[1] = me.world.shelves["newest only"]
    me.visit()
    got, newer = me.ask(), me.do("offer")
    me.see("Refused" not in got["verdict"] and newer["take"], "only a newer folder is there", (got, newer))
    me.shows(me.stand_before("fork", "first"), "a fork with the growth of another archive", kind="bad", take=False)
    me.see(me.of("root", "value") == first.root, "the root stays")


# ---- saved proofs


def try_saving(me: Person) -> None:
    """Saves answers of both ways, and has the program check them as their own file says."""
    for name in ("catalog", "first"):
        me.visit(name)
        for query, all_of in ((QUERY, False), ("it's a 'quoted' $(court) `x` \"count", False), ("the court", True)):
            save(me, name, query, all_of)


def save(me: Person, name: str, query: str, all_of: bool) -> None:
    made, rows = me.world.archives[name], me.ask(query, all_of)["rows"]
    data = base64.b64decode(me.do("save")["base64"])
    me.world.saved[f"{me.browser.name} {name} {query}"] = data
    ran = commands_in(me, data)
    proofs = len(made.shards) if made.shards and all_of else 1
    is_whole = len(ran) == bool(made.shards) + proofs + len(rows)
    me.see(is_whole and all(it.returncode == 0 for it in ran), "the commands of a saved proof", ran)
    if made.shards:
        me.see(ran.pop(0).stdout.decode() == f"{made.root}\n", "the catalog's root of a saved proof")
    lines = [it.split(" ") for each in ran[:proofs] for it in each.stdout.decode().splitlines()]
    docs = [str(it["doc"]).split("-")[-1] for it in rows]
    me.see([it[0] if all_of else it[-3] for it in lines] == docs, "what they say", (lines, docs))
    me.see(made.root in ran[0].args[-1] or all_of, "the root in them")


def commands_in(me: Person, data: bytes) -> "list[subprocess.CompletedProcess[bytes]]":
    """What the commands do that a saved proof has."""
    with tempfile.TemporaryDirectory() as name, zipfile.ZipFile(io.BytesIO(data)) as it:
        me.see(it.testzip() is None, "a ZIP file that is whole")
        it.extractall(name)
        (Path(name) / "ats").symlink_to(Path(me.world.program).resolve())
        lines = (Path(name) / "how-to-check.txt").read_text().splitlines()
        quiet = {"cwd": name, "stdout": subprocess.PIPE, "stderr": subprocess.DEVNULL}
        return [subprocess.run(["sh", "-c", it], **quiet, check=False) for it in lines if it.startswith("./ats ")]


def try_opening(me: Person) -> None:
    """Opens what another browser has saved. The host is gone meanwhile."""
    for name, data in me.world.saved.items():
        for drop in (False, True):
            me.visit()
            me.open()
            me.host.act = hosts.gone
            got = me.file(data, drop)
            me.see(got["kind"] == "good" and all(it["checked"] for it in got["rows"]), name, got)
        me.see(me.of("origin").startswith("From the file"), "where the root came from", me.of("origin"))
    try_changed(me, data)


def try_changed(me: Person, data: bytes) -> None:
    me.visit("grown")
    got = me.file(data)
    me.see(got["line"].endswith("refused: other-root") and got["other"] and not got["rows"], "another root", got)
    me.press("other")
    me.wait_for("answer", "className", "good")
    with zipfile.ZipFile(io.BytesIO(data)) as it:
        start, size = data.index(it.read("answer.proof")), it.getinfo("answer.proof").file_size
        own = next(name for name in it.namelist() if name.endswith(".text"))
        words = data.index(it.read(own))
    me.open()
    for at in (start, start + 20, start + size // 2, start + size - 1):
        got = me.file(hosts.flipped(data, at))
        me.shows(got, f"bit {at}", kind="bad", rows=[])
        me.see(got["line"].startswith(REFUSED), f"the line for bit {at}", got)
    got = me.file(hosts.flipped(data, words + 120))
    row = next(it for it in got["rows"] if f"{it['doc']}.text" == own)
    me.see("The check’s line: refused: text-root" in row["note"] and not row["text"], "a bit of a text", row)
    for changed in (data[: len(data) // 2], b"PK\3\4", b"", b"{}"):
        got = me.file(changed)
        me.see(got["kind"] == "bad" and "Not a saved proof" in got["verdict"], "a file that is no saved proof", got)


# ---- looks


def try_sight(me: Person) -> None:
    me.visit("grown")
    for width, height in ((1200, 800), (390, 844)):
        me.browser.size(width, height)
        me.ask("game")
        got = me.do("sight")
        is_seen = got["heading"] and (got["result"] or width < 500)
        me.see(is_seen, f"what is on the screen at {width} x {height}", got)
    for width in (390, 320):
        me.browser.size(width, 844)
        me.see(me.run("document.documentElement.scrollWidth <= innerWidth"), f"{width} pixels")


def try_looks(me: Person) -> None:
    """The keyboard alone, both colours, headings for those who do not see, no other host, no complaint."""
    browser = me.browser
    browser.size(1200, 800)
    me.visit()
    me.run("(document.getElementById('query').focus(), 0)")
    browser.type(QUERY)
    browser.press("Enter", "\r")
    me.wait_for("answer", "className", "good")
    me.do("settled")
    me.see("Checked" in me.of("heard"), "the result is announced", me.of("heard"))
    reached = reached_by_keys(me)
    me.see({"open", "SUMMARY", "go", "best"} <= reached, "the keyboard reaches all", sorted(reached))
    me.run("(document.querySelectorAll('details').forEach(it => { it.open = true; }), 0)")
    left = {"save", "link", "cite-all", "lie", "root", "open"} - reached - reached_by_keys(me)
    me.see(not left, "and what is behind the headings", left)
    for dark in (False, True):
        browser.size(390, 844, dark)
        least = me.do("leastContrast")
        me.see(least >= 4.5, f"contrast, {'dark' if dark else 'light'}", least)
    browser.size(1200, 800)
    headings = names_of(browser, "heading")
    has_title = any(it.startswith("A runner of twenty-nine") for it in headings)
    me.see(headings[0] == "Search an archive" and has_title, "headings", headings)
    controls = names_of(browser, "button", "link", "searchbox", "textbox", "radio")
    me.see(all(controls), "each control has a name", controls)
    me.see(browser.complaints() == [], "no complaint of the browser", browser.complaints())
    me.see(browser.asked_hosts() <= {me.base.split("/")[2]}, "no other host", browser.asked_hosts())
    browser.send("Emulation.setScriptExecutionDisabled", value=True)
    browser.send("Page.navigate", url=f"{me.base}/index.html")
    time.sleep(1)
    me.see(any("needs JavaScript" in it for it in names_of(browser)), "without JavaScript")
    browser.send("Emulation.setScriptExecutionDisabled", value=False)


def reached_by_keys(me: Person) -> "set[str]":
    """What the Tab key reaches: its name, or else its class or kind."""
    reached, active = set(), "document.activeElement"
    for _ in range(40):
        me.browser.press("Tab")
        reached.add(me.run(f"{active}.id || {active}.className || {active}.tagName"))
    return reached


def names_of(browser: browsers.Chromium, *roles: str) -> "list[str]":
    """The names of what has one of these roles, or any, for those who do not see."""
    tree = browser.send("Accessibility.getFullAXTree")["nodes"]
    of_roles = [it for it in tree if not roles or it.get("role", {}).get("value") in roles]
    return [it.get("name", {}).get("value", "") for it in of_roles]


def try_pins(me: Person) -> None:
    """Each file that the page loads, changed by one bit: the page must not get ready."""
    for name in ("page.css", "page.mjs", "page.wasm", "worker.mjs"):

        def changed(request: hosts.Request, reply: hosts.Reply, name: str = name) -> hosts.Reply:
            is_it = request.name == name
            return reply._replace(body=hosts.flipped(reply.body, len(reply.body) - 2)) if is_it else reply

        me.host.act = changed
        me.browser.open("about:blank")
        me.browser.open(f"{me.base}/?{name}#root={me.world.archives['first'].root}")
        time.sleep(1.5)
        is_bare = me.run("getComputedStyle(document.querySelector('main')).maxWidth") == "none"
        me.see(me.of("state") != READY or (name == "page.css" and is_bare), f"a changed {name}", me.of("state"))


def try_built_in(me: Person) -> None:
    """A page that was made for one archive asks for no digits, and has its name."""
    own, me.host.folders[0] = me.host.folders[0], me.world.page
    me.browser.open(f"{me.base}/page.css")
    me.run("(localStorage.clear(), 0)")
    me.open()
    got = me.ask()
    me.shows(got, "a page for one archive", kind="good")
    me.see(me.of("name") == "Notes & more" and not me.of("root-place", "open"), "its name", me.of("name"))
    is_root = me.world.archives["first"].root in got["checked"]
    me.see(is_root and me.of("origin").startswith("It is built into this page"), "its root", got["checked"])
    me.host.folders[0] = own


TRIALS = (
    try_answers,
    try_catalogs,
    try_catalog_lies,
    try_catalog_growth,
    try_questions,
    try_phrases,
    try_whole,
    try_frames,
    try_lies,
    try_root_that_changes,
    try_held_store,
    try_links,
    try_growth,
    try_saving,
    try_sight,
    try_built_in,
)


def pictures(me: Person, folder: Path) -> None:
    """The page as a person sees it, for README."""
    me.browser.size(900, 760)
    me.visit()
    me.ask()
    picture(me, folder / "page.png")
    me.stand_before("grown", "first")
    me.browser.size(900, 560)
    picture(me, folder / "page-grown.png")


def picture(me: Person, file: Path) -> None:
    me.run("(document.activeElement.blur(), scrollTo(0, 0), 0)")
    me.browser.screenshot(file)
