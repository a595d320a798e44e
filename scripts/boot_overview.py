"""A boot on one screen: a small mark for each start, coloured by its licence, and one for each part that never started. `report` uses it."""
from collections.abc import Callable, Iterator
from dataclasses import dataclass
from html import escape

from boot_picture import COLOURS, MEANINGS, NAMESPACE, WAITS_COLOUR
from explained import NOBODY, PHASES, Boot, Start, Wait

MARK, STEP, ROW, FRONT = 22, 25, 22, 44  # of the picture as a file: a mark's width, that with the room behind it, a row's height, the phase's word
COLUMNS = 40  # marks in a row of it
LINE = 17
MOST_WAITS = 8  # that the file names
LICENCES = [*COLOURS, "waits"]
MEANING = MEANINGS | {"waits": "it never started"}


@dataclass
class Mark:
    """A mark: the phase, a licence or `waits`, the name of its box, what is on it, and what it says."""
    phase: str
    licence: str
    box: str
    sign: str
    says: str


class Overview:
    """The marks of a boot, in the order of time."""

    def __init__(self, boot: Boot, name: Callable[[str], str]) -> None:
        self.boot, self.name = boot, name
        starts = [self.start(start) for start in boot.starts]
        self.marks = starts + [self.wait(wait) for wait in boot.never_started()]

    def start(self, start: Start) -> Mark:
        makers = list(dict.fromkeys(self.boot.label(maker) for _, maker in start.needs if maker != NOBODY))
        gives = [self.name(guid) for guid, _ in self.boot.installed(start)]
        says = f"{start.place} {self.boot.label(start.module)}: {MEANINGS.get(start.why, start.why)}"
        says += f"; waited for {some(makers)}" if makers else ""
        says += f"; installs {some(gives)}" if gives else ""
        return Mark(start.phase, start.why, f"start{start.place}", str(start.place), says)

    def wait(self, wait: Wait) -> Mark:
        return Mark(wait.phase, "waits", f"waits{wait.module}{wait.phase}", "\N{MULTIPLICATION SIGN}", self.never(wait))

    def never(self, wait: Wait) -> str:
        return f"{self.boot.label(wait.module)} never started: {self.boot.cause(wait, self.name)}"

    def of_phase(self, phase: str) -> list[Mark]:
        return [mark for mark in self.marks if mark.phase == phase]

    def licences(self) -> list[str]:
        there = {mark.licence for mark in self.marks}
        return [licence for licence in LICENCES if licence in there]

    # On the page

    def html(self) -> str:
        rows = "".join(f'<div class="phase"><b>{phase.upper()}</b><div>{"".join(map(html_mark, marks))}</div></div>'
                       for phase in PHASES if (marks := self.of_phase(phase)))
        legend = "".join(f'<li><i class="mark {licence}"></i>{licence}: {MEANING[licence]}</li>' for licence in self.licences())
        return f'<div class="overview">{rows}</div><p class="says" aria-live="polite">&nbsp;</p><ul class="legend">{legend}</ul>'

    # As a file

    def svg(self, title: str) -> str:
        """The overview as a picture of its own, with the names of some that never started."""
        drawn, y = [], 2 * LINE
        for phase in PHASES:
            marks = self.of_phase(phase)
            drawn += [svg_text(0, y + 15, phase.upper(), "lane")] if marks else []
            drawn += [svg_mark(mark, FRONT + at % COLUMNS * STEP, y + at // COLUMNS * ROW) for at, mark in enumerate(marks)]
            y += -(-len(marks) // COLUMNS) * ROW + (LINE // 2 if marks else 0)
        words = list(self.words())
        drawn += [svg_text(FRONT, y + LINE * at, text, style) for at, (text, style) in enumerate(words, 1)]
        width, height = FRONT + COLUMNS * STEP, y + LINE * len(words) + LINE // 2
        inside = svg_text(0, 14, title, "lane") + "".join(drawn)
        return (f'<svg class="overview" {NAMESPACE} width="{width}" height="{height}" viewBox="0 0 {width} {height}"><style>{STYLE}</style>'
                f'<rect width="100%" height="100%" fill="#fff"/>{inside}</svg>\n')

    def words(self) -> Iterator[tuple[str, str]]:
        """The lines below the marks: what the colours mean, and who never started."""
        for licence in self.licences():
            yield f"\N{BLACK SQUARE} {licence}: {MEANING[licence]}", f"says {licence}"
        waits = self.boot.first_causes()
        for wait in waits[:MOST_WAITS]:
            yield f"\N{MULTIPLICATION SIGN} {self.never(wait)}", "says"
        if len(waits) > MOST_WAITS:
            yield f"and {len(waits) - MOST_WAITS} others", "says"


STYLE = ".overview text { font: 12px sans-serif; fill: #222 } .overview .lane { font-weight: bold; font-size: 14px } " \
        ".overview .sign { font-size: 10px; fill: #fff; text-anchor: middle } .overview .waits .sign { fill: #222 } " + " ".join(
            f".overview .{licence} rect {{ fill: {colour} }} .overview .says.{licence} {{ fill: {colour} }}" for licence, colour in COLOURS.items()
        ) + f" .overview .waits rect {{ fill: #fff; stroke: {WAITS_COLOUR}; stroke-width: 1.5; stroke-dasharray: 4 2 }} .overview .says.waits {{ fill: {WAITS_COLOUR} }}"


def some(names: list[str], most: int = 4) -> str:
    return ", ".join(names[:most]) + (f" and {len(names) - most} more" if len(names) > most else "")


def html_mark(mark: Mark) -> str:
    return f'<a class="mark {mark.licence}" href="#{mark.box}" data-mark="{mark.box}" title="{escape(mark.says)}">{mark.sign}</a>'


def svg_mark(mark: Mark, x: int, y: int) -> str:
    box = f'<rect x="{x + 1}" y="{y + 1}" width="{MARK}" height="{ROW - 4}" rx="2"/>'
    return f'<g class="{mark.licence}"><title>{escape(mark.says)}</title>{box}{svg_text(x + 1 + MARK // 2, y + 14, mark.sign, "sign")}</g>'


def svg_text(x: int, y: int, text: str, style: str) -> str:
    return f'<text class="{style}" x="{x}" y="{y}">{escape(text)}</text>'
