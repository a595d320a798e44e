"""Draws a boot as SVG: time downwards, PEI before DXE, a box for each start and each part that never started.

An arc leads from the module that had what an expression asks for to the module that asks. There are two shapes: one as wide as a page on a
screen, and a narrow one in bands, so that a printer breaks between them. All text is of one width a letter and is broken before it is drawn,
so that no label meets another. `report` uses it.
"""
import math
import re
import textwrap
from bisect import bisect_right
from collections.abc import Callable, Iterator
from dataclasses import dataclass, field
from html import escape
from typing import NamedTuple

from explained import CORE, NOBODY, PHASES, Boot, Mark, Start, Wait

NAMESPACE = 'xmlns="http://www.w3.org/2000/svg"'
LINE, PAD, SPACE = 15, 5, 7  # a line of text, the room round the lines of a box, and the room below it
LETTER = {"name": 7.3, "small": 6.7, "mark": 6.7, "lane": 10}  # pixels of a letter's width
MOST_LINES = 6  # of one kind in a box; the page has the whole list
BAND = 880  # a band's most height: a printed page takes it


@dataclass(frozen=True)
class Shape:
    """How wide a picture is: the room of the arcs left of a box, a box, and where the columns of text in it are, each with its width."""
    word: str
    gutter: int
    box: int
    columns: tuple[tuple[int, int], ...]
    band: int

    def width(self) -> int:
        return self.gutter + self.box

    def column(self, cell: int) -> tuple[int, int]:
        """The place and the width of a cell's column; cells that have none of their own are in the last one, one below the other."""
        return self.columns[min(cell, len(self.columns) - 1)]


# On a wide screen a box has three columns: who starts and why, what it waited for, what it installs. On a phone and in print it has one.
WIDE = Shape("wide", 80, 1000, ((12, 290), (312, 240), (562, 430)), 1 << 30)
NARROW = Shape("narrow", 44, 276, ((12, 258),), BAND)

# A licence's colour of those by Okabe and Ito, which all eyes tell apart; its word is in the box too.
COLOURS = {"apriori": "#e69f00", "absent": "#7f7f7f", "true": "#009e73", "shadow": "#cc79a7", "before": "#56b4e9", "after": "#0072b2"}
WAITS_COLOUR = "#d55e00"
MEANINGS = {
    "apriori": "an a priori list names it",
    "absent": "it has no expression",
    "true": "its expression holds",
    "shadow": "again, from memory",
    "before": "with the driver that its BEFORE names",
    "after": "with the driver that its AFTER names",
}

STYLE = f"""
.boot text {{ font: 11px ui-monospace, 'DejaVu Sans Mono', Menlo, Consolas, monospace; fill: #222 }}
.boot .name {{ font-size: 12px; font-weight: bold }}
.boot .lane {{ font: bold 14px sans-serif }}
.boot .box {{ fill: #fafafa; stroke: #999 }}
.boot .waits .box {{ fill: #fff; stroke: {WAITS_COLOUR}; stroke-dasharray: 5 3 }}
.boot .arc {{ fill: none; stroke: #555; stroke-width: 1; opacity: .5 }}
.boot .lacking {{ stroke: {WAITS_COLOUR}; stroke-dasharray: 2 3; opacity: .8 }}
.boot .head {{ fill: #555 }}
.boot .moves {{ stroke: {WAITS_COLOUR}; stroke-width: 1.5; stroke-dasharray: 8 4 }}
.boot .mark {{ fill: #555 }}
.boot .lit {{ stroke: #000; stroke-width: 2; opacity: 1 }}
""" + "".join(f".boot .{licence} .colour {{ fill: {colour} }}\n" for licence, colour in [*COLOURS.items(), ("waits", WAITS_COLOUR)])


class Text(NamedTuple):
    """A line of text in a row: the class of its letters, the pixels from the left of the box, and the line from 0."""
    style: str
    x: int
    line: int
    text: str


@dataclass
class Row:
    """A row of the picture: a start, a part that waits, or a mark."""
    phase: str
    what: Start | Wait | Mark | None
    texts: list[Text]
    y: int = 0

    def is_box(self) -> bool:
        return isinstance(self.what, Start | Wait)

    def height(self) -> int:
        lines = 1 + max(text.line for text in self.texts)
        return lines * LINE + (2 * PAD if self.is_box() else PAD)

    def middle(self) -> int:
        return self.y + PAD + LINE // 2

    def identity(self) -> str:
        """The anchor on the page that tells all of it."""
        if isinstance(self.what, Start):
            return f"start{self.what.place}"
        return f"waits{self.what.module}{self.what.phase}" if isinstance(self.what, Wait) else ""


@dataclass
class Arc:
    """An arc from one row to another of its lane, and what it says."""
    source: Row
    target: Row
    style: str
    says: str

    def trunk(self, gutter: int, height: int) -> int:
        """Where its upright part is: the longer it is, the further from the boxes."""
        length = abs(self.target.middle() - self.source.middle())
        return gutter - 8 - round((gutter - 14) * math.log1p(length / 60) / math.log1p(height / 60))

    def svg(self, gutter: int, height: int) -> str:
        begin, end, x, tip = self.source.middle(), self.target.middle(), self.trunk(gutter, height), gutter - 5
        turn = min(12, abs(end - begin) // 2) * (1 if end > begin else -1)
        path = f"M{gutter} {begin}Q{x} {begin} {x} {begin + turn}V{end - turn}Q{x} {end} {tip} {end}"
        ends = f'data-from="{self.source.identity()}" data-to="{self.target.identity()}"'
        head = f'<path class="head" d="M{tip} {end - 3}L{gutter} {end}L{tip} {end + 3}z"/>'
        return f'<path class="{self.style}" {ends} d="{path}"><title>{escape(self.says)}</title></path>{head}'


@dataclass
class Band:
    """A part of the picture: its rows, the arcs that begin or end in it, and the uprights of those that pass it, by place and class."""
    top: int
    height: int
    rows: list[Row] = field(default_factory=list)
    arcs: list[Arc] = field(default_factory=list)
    passing: set[tuple[int, str]] = field(default_factory=set)


class Wrapper(textwrap.TextWrapper):
    """Breaks a text between words, and a GUID in front of its last part."""
    wordsep_simple_re = re.compile(r"(\s+|(?<=-)(?=[0-9a-f]{12}\b))")


Lines = list[tuple[str, str]]  # each with the class of its letters


def wrapped(text: str, width: int, style: str = "small", most: int = MOST_LINES) -> Lines:
    """A text in lines of at most a width, and no more of them than some."""
    lines = Wrapper(int(width / LETTER[style]), break_on_hyphens=False).wrap(text)
    return [(style, line) for line in (lines if len(lines) <= most else [*lines[: most - 1], ".."])]


class Picture:
    """The rows of a boot in the order of time, each at its place."""

    def __init__(self, boot: Boot, name: Callable[[str], str], shape: Shape = WIDE) -> None:
        self.boot, self.name, self.shape = boot, name, shape
        self.handoff = next((mark.line for mark in boot.marks if mark.kind == "handoff"), len(boot.trace) + 1)
        self.rows: list[Row] = []
        self.first: dict[tuple[str, int], Row] = {}  # the first start of each module, or the box of one that waits
        self.moves: Row | None = None
        self.arcs: list[Arc] = []
        self.fill()
        self.place()
        self.link()

    # Rows

    def fill(self) -> None:
        events = sorted([*self.boot.starts, *self.merged_marks()], key=lambda event: event.line)
        stopped = set()
        for phase in PHASES:
            own = [event for event in events if self.phase_of(event) == phase]
            if own or any(wait.phase == phase for wait in self.boot.waits):
                self.rows.append(self.row(phase, None, [[("lane", phase.upper())]]))
            for event in own:
                self.rows.append(self.row_of(event, phase))
                if isinstance(event, Mark) and event.kind == f"{phase} stop":
                    self.rows += self.waiting(phase)
                    stopped.add(phase)
            if phase not in stopped:
                self.rows += self.waiting(phase)

    def phase_of(self, event: Start | Mark) -> str:
        return event.phase if isinstance(event, Start) else "pei" if event.line <= self.handoff else "dxe"

    def merged_marks(self) -> list[Mark]:
        """The marks, with neighbours of one kind in one."""
        merged: list[Mark] = []
        lines = sorted(start.line for start in self.boot.starts)
        for mark in self.boot.marks:
            last = merged[-1] if merged else None
            if last and last.kind == mark.kind and bisect_right(lines, last.line) == bisect_right(lines, mark.line):
                last.words = [*last.words, *mark.words]
            else:
                merged.append(Mark(mark.line, mark.kind, list(mark.words)))
        return merged

    def row(self, phase: str, what: Start | Wait | Mark | None, cells: list[Lines]) -> Row:
        """A row with the lines of each cell in its column."""
        texts, filled = [], dict.fromkeys(self.shape.columns, 0)
        for cell, lines in enumerate(cells):
            column = self.shape.column(cell)
            texts += [Text(style, column[0], filled[column] + at, text) for at, (style, text) in enumerate(lines)]
            filled[column] += len(lines)
        return Row(phase, what, texts)

    def wrap(self, cell: int, text: str, style: str = "small", most: int = MOST_LINES) -> Lines:
        return wrapped(text, self.shape.column(cell)[1], style, most)

    def row_of(self, event: Start | Mark, phase: str) -> Row:
        if isinstance(event, Mark):
            row = self.row(phase, event, [wrapped(self.mark_text(event), self.shape.box - 12, "mark")])
            self.moves = row if event.kind == "migrate" else self.moves
            return row
        row = self.row(phase, event, [self.start_name(event), self.start_needs(event), self.start_doing(event)])
        self.first.setdefault((phase, event.module), row)
        return row

    def mark_text(self, mark: Mark) -> str:
        words = mark.words
        if mark.kind == "notify":
            told = [f"{words[at]} of {self.boot.label(words[at + 1])} for {self.name(words[at + 2])}" for at in range(0, len(words), 3)]
            return "\N{BLACK DIAMOND} " + "; ".join(told)
        if mark.kind in ("report", "dxe volume"):
            numbers = [word for word in words if word.isdigit()]
            return f"volume{'s' if len(numbers) > 1 else ''} {', '.join(numbers)} {'reported' if mark.kind == 'report' else 'discovered'}"
        texts = {"migrate": "memory moves {0} \N{RIGHTWARDS ARROW} {1}", "handoff": "hands off, HOB list at {0}"}
        return texts.get(mark.kind, mark.kind.upper().replace("STOP", "stops")).format(*words)

    def start_name(self, start: Start) -> Lines:
        beside = f" {self.boot.label(start.beside)}" if start.beside is not None else ""
        name = self.wrap(0, f"{start.place} {self.boot.label(start.module)}", "name")
        return name + self.wrap(0, f"{start.why}{beside} \N{MIDDLE DOT} module {start.module}")

    def start_needs(self, start: Start) -> Lines:
        makers = dict.fromkeys(maker for _, maker in self.shown_needs(start) if maker != NOBODY)
        return self.wrap(1, f"\N{LEFTWARDS ARROW} {', '.join(map(self.boot.label, makers))}") if makers else []

    def start_doing(self, start: Start) -> Lines:
        """What a start installs, and the notifications that ran meanwhile."""
        lines, installed = [], self.boot.installed(start)
        for word, shown in (("installs", True), ("may install", False)):
            if names := [self.name(guid) for guid, did in installed if did == shown]:
                lines += self.wrap(2, f"{word} {', '.join(names)}")
        if start.notifications:
            told = dict.fromkeys(self.boot.label(note.module) for note in start.notifications)
            lines += self.wrap(2, f"\N{BLACK DIAMOND} {len(start.notifications)} notified: {', '.join(told)}", most=3)
        return lines

    def waiting(self, phase: str) -> list[Row]:
        rows = []
        for wait in (wait for wait in self.boot.waits if wait.phase == phase):
            again = wait.module in self.boot.started(phase)
            name = self.wrap(0, f"\N{MULTIPLICATION SIGN} {self.boot.label(wait.module)}", "name")
            name += self.wrap(0, f"{'not again' if again else 'never starts'}: {wait.reason} \N{MIDDLE DOT} module {wait.module}")
            missing = self.wrap(1, f"missing {', '.join(self.name(guid) for guid, _ in wait.lacks)}") if wait.lacks else []
            rows.append(self.row(phase, wait, [name, missing]))
            self.first.setdefault((phase, wait.module), rows[-1])
        return rows

    def place(self) -> None:
        y = PAD
        for row in self.rows:
            row.y = y
            y += row.height() + SPACE
        self.height = y

    # Arcs

    def link(self) -> None:
        for row in self.rows:
            if isinstance(row.what, Start):
                for guid, maker in self.shown_needs(row.what):
                    self.arc(row, maker, "arc", f"{self.name(guid)}, of {self.boot.label(maker)}")
                if row.what.beside is not None:
                    self.arc(row, str(row.what.beside), "arc", f"{row.what.why} {self.boot.label(row.what.beside)}")
            elif isinstance(row.what, Wait):
                for guid, givers in row.what.lacks:
                    for giver, _ in givers:
                        self.arc(row, giver, "arc lacking", f"{self.name(guid)}, which {self.boot.label(giver)} may install")

    def shown_needs(self, start: Start) -> list[tuple[str, str]]:
        """What a start asked for; of the thirteen protocols that a driver without an expression asks for, the last that came."""
        last = self.boot.last_met(start) if start.why == "absent" else None
        return [last] if last else start.needs

    def arc(self, row: Row, maker: str, style: str, says: str) -> None:
        source = self.moves if maker == CORE else self.first.get((row.phase, int(maker))) if maker.isdigit() else None
        if source is not None and source is not row:
            self.arcs.append(Arc(source, row, style, says))

    # SVG

    def bands(self) -> list[Band]:
        """The picture in bands, none of which cuts a row."""
        bands, top = [], 0
        for row, after in zip(self.rows, [*self.rows[1:], None], strict=True):
            end = after.y - SPACE // 2 if after else self.height
            if after is None or after.y + after.height() - top > self.shape.band:
                bands.append(Band(top, end - top))
                top = end
        tops = [band.top for band in bands]
        for row in self.rows:
            bands[bisect_right(tops, row.y) - 1].rows.append(row)
        for arc in self.arcs:
            first, last = sorted(bisect_right(tops, row.middle()) - 1 for row in (arc.source, arc.target))
            for band in {first, last}:
                bands[band].arcs.append(arc)
            for band in bands[first + 1 : last]:
                band.passing.add((arc.trunk(self.shape.gutter, self.height), arc.style))
        return bands

    def html(self) -> str:
        """The picture as elements of the page."""
        return f'<div class="picture {self.shape.word}">{"".join(map(self.band, self.bands()))}</div>'

    def band(self, band: Band) -> str:
        inside = f'<g transform="translate(0 {-band.top})">{self.drawn(band)}</g>'
        size = f'viewBox="0 0 {self.shape.width()} {band.height}" width="{self.shape.width()}" height="{band.height}"'
        return f'<svg class="boot" {NAMESPACE} {size} role="img" aria-label="Starts in the order of time">{inside}</svg>'

    def whole(self) -> str:
        """The picture as a file of its own."""
        drawn = "".join(map(self.drawn, self.bands()))
        size = f'width="{self.shape.width()}" height="{self.height}" viewBox="0 0 {self.shape.width()} {self.height}"'
        return f'<svg class="boot" {NAMESPACE} {size}><style>{STYLE}</style><rect width="100%" height="100%" fill="#fff"/>{drawn}</svg>\n'

    def drawn(self, band: Band) -> str:
        gutter = self.shape.gutter
        moves = "".join(self.drawn_moves(row) for row in band.rows if row is self.moves)
        passing = "".join(f'<path class="{style}" d="M{at} {band.top}V{band.top + band.height}"/>' for at, style in sorted(band.passing))
        arcs = "".join(arc.svg(gutter, self.height) for arc in band.arcs)
        return moves + passing + arcs + "".join(map(self.drawn_row, band.rows))

    def drawn_moves(self, row: Row) -> str:
        y = row.y + row.height() + SPACE // 2 - 1
        return f'<line class="moves" x1="0" x2="100%" y1="{y}" y2="{y}"/>'

    def drawn_row(self, row: Row) -> str:
        gutter, first = self.shape.gutter, row.y + PAD + LINE - 4
        left = gutter if row.is_box() else gutter - 6
        texts = "".join(f'<text class="{text.style}" x="{left + text.x}" y="{first + LINE * text.line}">{escape(text.text)}</text>' for text in row.texts)
        if not row.is_box():
            return texts
        kind, name = row.what.why if isinstance(row.what, Start) else "waits", row.identity()
        box = f'<rect class="box" x="{gutter}" y="{row.y}" width="{self.shape.box - 1}" height="{row.height()}" rx="3"/>'
        colour = f'<rect class="colour" x="{gutter}" y="{row.y}" width="6" height="{row.height()}"/>'
        return f'<a href="#{name}" class="{kind}" id="{self.shape.word}-{name}" data-box="{name}">{box}{colour}{texts}</a>'


def graph(boot: Boot, name: Callable[[str], str]) -> str:
    """The graph of needs in the language of Graphviz: from who had it to who asked for it."""
    lines = ["digraph needs {", "    rankdir=LR;", '    node [shape=box, fontname="sans-serif"];', '    edge [fontname="sans-serif", fontsize=9];']
    started = {(start.phase, start.module) for start in boot.starts}
    parts = [*started, *((wait.phase, wait.module) for wait in boot.waits)]
    for phase, number in sorted(parts, key=lambda part: (part[0] == "dxe", part[1])):
        style = "" if (phase, number) in started else f', style=dashed, color="{WAITS_COLOUR}"'
        lines.append(f"    {phase}{number} [label={quoted(boot.modules[number].label())}{style}];")
    lines += dict.fromkeys(graph_edges(boot, name))
    return "\n".join([*lines, "}", ""])


def graph_edges(boot: Boot, name: Callable[[str], str]) -> Iterator[str]:
    known = {f"{each.phase}{each.module}" for each in [*boot.starts, *boot.waits]} | {CORE}
    needs = [(start.phase, maker, start.module, guid, "") for start in boot.starts for guid, maker in start.needs]
    dashed = f', style=dashed, color="{WAITS_COLOUR}"'
    needs += [(wait.phase, giver, wait.module, guid, dashed) for wait in boot.waits for guid, givers in wait.lacks for giver, _ in givers]
    for phase, maker, number, guid, style in needs:
        source = maker if maker == CORE else phase + maker
        if source in known:
            yield f"    {source} -> {phase}{number} [label={quoted(name(guid))}{style}];"


def quoted(text: str) -> str:
    return '"' + text.replace("\\", "\\\\").replace('"', '\\"') + '"'
