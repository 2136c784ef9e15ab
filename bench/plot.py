"""Draws docs/proof-sizes.svg: how long proofs are, by both algorithms and in both formats of lists.

usage: python3 bench/plot.py [PROGRAM]

PROGRAM is the program; without it, it is proved and built if needed. Over 16 MiB of each sample shape it builds the index
and migrates it. A server of each index then makes the proofs: those of one query for 1 to 1,000 rows, and those of single
words for the best row, from the rarest words to the most frequent one. Prints the bytes of all proofs, and draws them.
"""

import math
import sys
import tempfile
from collections import Counter
from html import escape
from pathlib import Path
from typing import Iterator, NamedTuple

import asking
import corpora
import measure
from house import House

PICTURE = measure.HOME / "docs" / "proof-sizes.svg"
ALGORITHMS = ("tnra", "tra")
ROWS = (1, 2, 5, 10, 20, 50, 100, 200, 500, 1000)
# Words by their place in the order of frequency, for the best row each.
PLACES = (0, 1, 3, 9, 30, 99, 300, 999, 3000, 9999, 19_999, 99_999)


class Point(NamedTuple):
    """The rows that are asked for, or the documents that have a word, and the bytes of the proof in both formats."""

    at: int
    one: int
    two: int


# By the name of a panel, and in it by the name of a shape.
Panels = dict[str, dict[str, list[Point]]]


# The proofs

def documents_of(texts: list[str]) -> Counter[str]:
    """How many documents have each word."""
    found: Counter[str] = Counter()
    for text in texts:
        found.update(set(text.split()))
    return found


def measured(house: House, name: str) -> Iterator[tuple[str, list[Point]]]:
    """The points of one shape, for each panel by its name."""
    words, documents = corpora.vocabulary(corpora.SHAPES[name].vocabulary), documents_of(house.texts(name, house.large))
    single = sorted({documents[words[k]]: words[k] for k in PLACES if k < len(words) and words[k] in documents}.items())
    query = corpora.query_of(words)
    panels = {f"{algorithm} rows": [(rows, algorithm, rows, query) for rows in ROWS] for algorithm in ALGORITHMS}
    panels |= {f"{algorithm} list": [(count, algorithm, 1, word) for count, word in single] for algorithm in ALGORITHMS}
    questions = [question[1:] for panel in panels.values() for question in panel]
    archives = house.archive(house.large, name), house.in_blocks(house.large, name)
    found = zip(*(map(len, asking.proofs(house.program, archive.index, questions)) for archive in archives))
    for panel, asked in panels.items():
        yield panel, [Point(question[0], *next(found)) for question in asked]


def tell(panel: str, name: str, points: list[Point]) -> None:
    print(f"{panel}, {name}: at, bytes in format One, in format Two")
    for point in points:
        print(f"{point.at:8,}{point.one:12,}{point.two:12,}", flush=True)


# The picture

WIDTH, HEIGHT = 560, 660
LEFT, BETWEEN, PANEL_WIDTH = 68, 76, 170  # the names of the lines are in the gap after a panel
TOPS, PANEL_HEIGHT = (130, 430), 190
LINE = 18  # between two lines of text

STYLE = """
text { font: 16px system-ui, -apple-system, "Segoe UI", Helvetica, Arial, sans-serif; fill: #1f2328 }
.head { font-weight: 600; font-size: 18px }
.page { fill: #ffffff }
.grid { stroke: #d1d9e0; stroke-width: 1 }
path { fill: none; stroke-linejoin: round; stroke-linecap: round }
.one { stroke-width: 6; opacity: .4 }
.two { stroke-width: 2 }
path.notes, path.plain { stroke: #0550ae } text.notes { fill: #0550ae }
path.articles { stroke: #bc4c00 } text.articles { fill: #bc4c00 }
path.lexicon { stroke: #1a7f37 } text.lexicon { fill: #1a7f37 }
path.books { stroke: #8250df } text.books { fill: #8250df }
path.plain { stroke: #59636e }
@media (prefers-color-scheme: dark) {
text { fill: #f0f6fc }
.page { fill: #0d1117 }
.grid { stroke: #3d444d }
path.notes { stroke: #79c0ff } text.notes { fill: #79c0ff }
path.articles { stroke: #ffa657 } text.articles { fill: #ffa657 }
path.lexicon { stroke: #7ee787 } text.lexicon { fill: #7ee787 }
path.books { stroke: #d2a8ff } text.books { fill: #d2a8ff }
path.plain { stroke: #9198a1 }
}
"""


class Axis(NamedTuple):
    """Values from the first mark to the last one, each mark with its text."""

    marks: list[tuple[float, str]]
    is_log: bool = True

    def share(self, value: float) -> float:
        """How far along the axis a value stands, from 0 to 1."""
        first, last = self.marks[0][0], self.marks[-1][0]
        if self.is_log:
            return math.log(value / first) / math.log(last / first)
        return (value - first) / (last - first)


BY_ROWS = Axis([(1, "1"), (10, "10"), (100, "100"), (1000, "1,000")])
BY_LIST = Axis([(1, "1"), (100, "100"), (10_000, "10,000"), (60_000, "")])
BYTES = Axis([(1000, "1 kB"), (10_000, "10 kB"), (100_000, "100 kB"), (1_000_000, "1 MB"), (10_000_000, "10 MB")])
FEW_BYTES = Axis([(0, "0"), (500, "500"), (1000, "1 kB"), (1500, "1.5 kB"), (2000, "2 kB")], False)


class Panel(NamedTuple):
    """One of the four pictures."""

    name: str
    column: int
    row: int
    across: Axis
    up: Axis
    head: str

    @property
    def left(self) -> int:
        return LEFT + self.column * (PANEL_WIDTH + BETWEEN)

    @property
    def bottom(self) -> int:
        return TOPS[self.row] + PANEL_HEIGHT

    def place(self, at: float, count: float) -> tuple[float, float]:
        return self.left + self.across.share(at) * PANEL_WIDTH, self.bottom - self.up.share(count) * PANEL_HEIGHT


PANELS = [
    Panel("tnra rows", 0, 0, BY_ROWS, BYTES, "TNRA"),
    Panel("tra rows", 1, 0, BY_ROWS, BYTES, "TRA"),
    Panel("tnra list", 0, 1, BY_LIST, FEW_BYTES, "TNRA"),
    Panel("tra list", 1, 1, BY_LIST, FEW_BYTES, "TRA"),
]


def text(x: float, y: float, says: str, kind: str = "", anchor: str = "start") -> str:
    named = f' class="{kind}"' if kind else ""
    return f'<text x="{x:.0f}" y="{y:.0f}" text-anchor="{anchor}"{named}>{escape(says)}</text>'


def line(kind: str, places: list[tuple[float, float]]) -> str:
    return f'<path class="{kind}" d="M' + " L".join(f"{x:.1f} {y:.1f}" for x, y in places) + '"/>'


def frame(panel: Panel) -> Iterator[str]:
    """The head of a panel, and its grid with the marks of both axes."""
    yield text(panel.left, TOPS[panel.row] - 14, panel.head, "head")
    for value, says in panel.up.marks:
        y = panel.bottom - panel.up.share(value) * PANEL_HEIGHT
        yield f'<line class="grid" x1="{panel.left}" x2="{panel.left + PANEL_WIDTH}" y1="{y:.1f}" y2="{y:.1f}"/>'
        if panel.column == 0:
            yield text(panel.left - 8, y + 5, says, anchor="end")
    for value, says in panel.across.marks:
        x = panel.left + panel.across.share(value) * PANEL_WIDTH
        yield text(x, panel.bottom + LINE + 3, says, anchor="middle")


def spread(wanted: list[float]) -> list[float]:
    """Heights in the same order, a line of text apart, each as near to the wanted one as a pass down and one up find."""
    order = sorted(range(len(wanted)), key=lambda at: wanted[at])
    heights = sorted(wanted)
    for at in range(1, len(heights)):
        heights[at] = max(heights[at], heights[at - 1] + LINE)
    over = max(heights[-1] - max(wanted), 0) / 2 if heights else 0
    return [heights[order.index(at)] - over for at in range(len(wanted))]


def curves(panel: Panel, shapes: dict[str, list[Point]]) -> Iterator[str]:
    """A wide line in format One and a thin one in format Two for each shape, and its name at its end."""
    ends, right = {}, panel.left + PANEL_WIDTH
    for name, points in shapes.items():
        one = [panel.place(point.at, point.one) for point in points]
        two = [panel.place(point.at, point.two) for point in points]
        yield line(f"one {name}", one)
        yield line(f"two {name}", two)
        if one[-1][0] > right - PANEL_WIDTH / 4:
            ends[name] = (one[-1][1] + two[-1][1]) / 2
        else:  # it ends early: the name stands below it
            yield text((one[0][0] + one[-1][0]) / 2, max(y for _, y in one + two) + LINE + 2, name, name, "middle")
    yield from formats_named(panel, max(shapes.values(), key=lambda points: points[-1].at)[-1])
    for name, y in zip(ends, spread(list(ends.values()))):
        yield text(right + 6, y + 5, name, name)


def formats_named(panel: Panel, end: Point) -> Iterator[str]:
    """The formats of the two lines that go furthest, if they end apart."""
    (x, one), (_, two) = panel.place(end.at, end.one), panel.place(end.at, end.two)
    if two - one > LINE / 2:
        yield text(x, one - 8, "One", anchor="end")
        yield text(x, two + LINE, "Two", anchor="end")


def legend() -> Iterator[str]:
    yield text(12, 30, "Bytes of a proof, over 16 MiB of text", "head")
    yield line("one plain", [(14, 55), (54, 55)]) + text(64, 60, "format One")
    yield line("two plain", [(174, 55), (214, 55)]) + text(224, 60, "format Two")
    yield text(12, TOPS[0] - 42, "A query of three words, by the rows asked for:")
    yield text(12, TOPS[1] - 42, "One word and one row, by the documents that have it:")


def drawn(panels: Panels) -> str:
    parts = [*legend()]
    for panel in PANELS:
        parts += [*frame(panel), *curves(panel, panels[panel.name])]
    says = "Proof sizes by rows and by the length of a list, for both algorithms, both formats and four shapes of texts"
    head = f'<svg xmlns="http://www.w3.org/2000/svg" viewBox="0 0 {WIDTH} {HEIGHT}" width="{WIDTH}" role="img" style="max-width:100%;height:auto">'
    page = f'<rect class="page" width="{WIDTH}" height="{HEIGHT}" rx="6"/>'
    return "\n".join([head, f"<title>{says}</title>", f"<style>{STYLE}</style>", page, *parts, "</svg>"]) + "\n"


def main() -> int:
    program = measure.program_of(sys.argv[1:])
    panels: Panels = {panel.name: {} for panel in PANELS}
    for name in corpora.SHAPES:
        with tempfile.TemporaryDirectory() as folder:
            for panel, points in measured(House(program, None, Path(folder), is_quick=False), name):
                panels[panel][name] = points
                tell(panel, name, points)
    PICTURE.write_text(drawn(panels), encoding="utf-8")
    return 0


if __name__ == "__main__":
    sys.exit(main())
