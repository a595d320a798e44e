"""Writes the page on a boot: one file of HTML with its styles and its pictures inside, and nothing that it loads from elsewhere.

`report` uses it.
"""
import math
import re
from collections.abc import Iterable
from dataclasses import dataclass
from html import escape

from boot_overview import Overview
from boot_picture import NARROW, Picture
from boot_picture import STYLE as PICTURE_STYLE
from explained import CORE, NOBODY, Boot, Module, Range, Start, Wait
from guid_names import GUID
from page_style import SCRIPT, STYLE

LONG = 120  # of a word of the trace with more letters, as the bytes of a large HOB, the beginning is shown
MOST_NOTES = 50  # notifications of one start that are listed; the trace has all
MOST_CAUSES = 6  # parts that never started, on the first screen
MOST_USERS = 8  # modules that ask for a GUID, or may install it, in the list of GUIDs
FOLDED = 40  # a table with more rows is folded

RESULTS = {
    "Done": "PEI handed off to DXE, and DXE ended with no driver left that may start.",
    "NoMemory": "PEI ended without permanent memory: no module installed it.",
    "NoIpl": "PEI ended without a hand-off: no module installed the DXE IPL PPI.",
    "Spent": "The boot was cut off: the plan's fuel was used up.",
    "Deep": "The boot was cut off: more than 64 scripts were inside one another.",
}
MEMORY = {"moved": "when memory moved", "end": "at the end"}


@dataclass
class Source:
    """What a page is on: its title, the plan with its text, the trace, and the program that answered."""
    title: str
    plan: str
    plan_text: str
    trace: str | None
    program: list[str]

    def number(self, word: str) -> int:
        """The last number of a line of the plan; 0 without the line."""
        found = re.search(rf"^{word} (?:\S+ )?(\S+)\r?$", self.plan_text, re.MULTILINE)
        return int(found[1], 0) if found else 0

    def room(self, part: str, boot: Boot) -> int | None:
        """The bytes that the heap had for the HOB list: temporary RAM without its page region, or as the hand-off HOB says at the end."""
        if part == "moved" or boot.moved is None:
            return self.number("temp") - self.number("pages")
        return boot.heap_room()


@dataclass
class Names:
    """The names of GUIDs, and how a page shows a GUID."""
    names: dict[str, str]

    def short(self, guid: str) -> str:
        """A name, or both ends of a GUID without one."""
        return self.names.get(guid, f"{guid[:8]}..{guid[-4:]}" if GUID.fullmatch(guid) else guid)

    def html(self, guid: str) -> str:
        """A GUID in a list: its name, with the GUID on hover."""
        return f'<abbr title="{escape(guid)}">{escape(self.names[guid])}</abbr>' if guid in self.names else code(guid)

    def full(self, guid: str) -> str:
        """A GUID with its name and its text."""
        return f"<b>{escape(self.names[guid])}</b> {code(guid)}" if guid in self.names else code(guid)

    def hovered(self, text: str) -> str:
        """A text in which each GUID that has a name shows it on hover."""
        return GUID.sub(lambda match: self.on_hover(match[0]), escape(text))

    def on_hover(self, guid: str) -> str:
        return f'<abbr title="{escape(self.names[guid])}">{guid}</abbr>' if guid in self.names else guid

    def plain(self, text: str) -> str:
        """A text with names in the place of GUIDs."""
        return GUID.sub(lambda match: self.names.get(match[0], match[0]), text)

    def named(self, text: str) -> str:
        """A text with names in the place of GUIDs, as an expression is read."""
        return GUID.sub(lambda match: self.html(match[0]), escape(text))


def code(guid: str) -> str:
    return f'<span class="guid">{escape(guid)}</span>'


def link(text: str, anchor: str) -> str:
    return f'<a href="#{anchor}">{text}</a>'


def word(text: str) -> str:
    return f'<span class="word">{escape(text)}</span>'


def items(each: Iterable[str]) -> str:
    """A list, where it has any item."""
    found = "".join(f"<li>{item}</li>" for item in each)
    return f"<ul>{found}</ul>" if found else ""


def table(heads: list[str], rows: Iterable[str], style: str) -> str:
    head = "".join(f"<th>{each}</th>" for each in heads)
    return f'<table class="{style}"><thead><tr>{head}</tr></thead><tbody>{"".join(rows)}</tbody></table>'


def row(identity: str, cells: dict[str, str]) -> str:
    """A row of a table; on a narrow screen each cell shows its head."""
    shown = "".join(f'<td data-head="{head}">{cell}</td>' for head, cell in cells.items())
    return f'<tr id="{identity}">{shown}</tr>'


def section(identity: str, title: str, body: str, rows: int = 0) -> str:
    """A part of the page; a long one is folded, and its title unfolds it."""
    is_open = "" if rows > FOLDED else " open"
    count = f' <span class="rows">{rows:,}</span>' if rows else ""
    return f'<details class="part" id="{identity}"{is_open}><summary><h2>{title}{count}</h2></summary>{body}</details>'


def users(links: list[str]) -> str:
    """The modules that do something with a GUID."""
    more = f" and {len(links) - MOST_USERS} more" if len(links) > MOST_USERS else ""
    return ", ".join(links[:MOST_USERS]) + more


# The parts of the page, in their order, and how the list of contents names them.
PARTS = {"never": "never started", "starts": "starts", "memory": "memory", "each": "each start", "modules": "modules", "guids": "GUIDs", "trace": "trace"}


@dataclass
class Page:
    """A page on a boot; its parts are methods, in the order in which they are on it."""
    boot: Boot
    names: Names
    source: Source

    def __post_init__(self) -> None:
        modules = list(reversed(self.boot.modules.values()))
        self.by_guid = {module.guid: module for module in modules}
        self.by_place = {(str(module.volume), module.guid): module for module in modules}
        self.waiting = {(str(wait.module), wait.phase) for wait in self.boot.waits}
        self.came_to: dict[int, list[str]] = {}  # links to what became of each module
        for start in self.boot.starts:
            self.came_to.setdefault(start.module, []).append(link(f"start {start.place}", f"start{start.place}"))
        for wait in self.boot.waits:
            self.came_to.setdefault(wait.module, []).append(link(f"waits in {wait.phase.upper()}", f"waits{wait.module}{wait.phase}"))

    def html(self, picture: Picture) -> str:
        head = '<meta charset="utf-8"><meta name="viewport" content="width=device-width, initial-scale=1">'
        head += f"<title>{escape(self.source.title)}</title><style>{PICTURE_STYLE}{STYLE}</style>"
        parts = [self.contents(), self.head(), self.waits(), self.picture(picture), self.memory(), self.starts(), self.modules(), self.guids(), self.trace()]
        body = "\n".join([*parts, self.foot()])
        return f'<!DOCTYPE html>\n<html lang="en"><head>{head}</head>\n<body>{body}<script>{SCRIPT}</script></body></html>\n'

    # Words

    def module(self, number: int | str | None) -> str:
        """A link to a module."""
        if number is None or not str(number).isdigit():
            return "the core" if number == CORE else "a module"
        return link(escape(self.boot.modules[int(number)].label()), f"module{number}")

    def expression(self, module: Module, phase: str) -> str:
        return f"<code>{self.names.named(module.expressions.get(phase, NOBODY))}</code>"

    # The first screen

    def contents(self) -> str:
        links = " ".join(link(title, identity) for identity, title in PARTS.items())
        search = '<input id="filter" type="search" placeholder="filter by module, GUID or name" aria-label="filter"><span id="found"></span>'
        return f'<nav>{links}{search}</nav>'

    def head(self) -> str:
        boot, verdict = self.boot, ""
        counts = {count: f"{number:,}" for count, number in boot.counts().items() if number or count in ("modules", "never started")}
        counts |= {"actions taken (fuel)": f"{boot.fuel:,}"}
        if (most := boot.heap_most()) is not None:
            counts["bytes of the HOB list"] = f"{most:,}"
        if self.source.trace:
            verdict = f'<li class="verdict"><b>yes</b> the rules of PI 1.8 allow the boot that {escape(self.source.trace)} records</li>'
        shown = "".join(f"<div><dt>{count}</dt><dd>{escape(number)}</dd></div>" for count, number in counts.items())
        result = f'<li class="result"><b>{escape(boot.result)}</b> {RESULTS.get(boot.result, "")}</li>'
        overview = Overview(boot, self.names.short).html()
        return f'<h1>{escape(self.source.title)}</h1><ul class="verdicts">{verdict}{result}</ul>{self.causes()}{overview}<dl class="counts">{shown}</dl>'

    def causes(self) -> str:
        """Who never started, in a line each."""
        waits = self.boot.first_causes()
        if not waits:
            return '<p class="causes">Every PEIM and DXE driver started. SMM drivers and applications are not looked at.</p>'
        lines = [f"<li>{link(escape(self.boot.label(wait.module)), f'waits{wait.module}{wait.phase}')} {self.cause(wait)}</li>" for wait in waits]
        more = f"<li>{link(f'and {len(lines) - MOST_CAUSES} more', 'never')}</li>" if len(lines) > MOST_CAUSES else ""
        return f'<div class="causes"><b>{len(lines)} never started</b><ul>{"".join(lines[:MOST_CAUSES])}{more}</ul></div>'

    def cause(self, wait: Wait) -> str:
        return f"({wait.phase.upper()}): {escape(self.boot.cause(wait, self.names.short))}"

    # Who never started

    def waits(self) -> str:
        waits = "".join(self.wait(wait) for wait in self.boot.waits)
        return section("never", "Never started, and what is missing", waits or "<p>Every PEIM and DXE driver started.</p>")

    def wait(self, wait: Wait) -> str:
        module = self.boot.modules[wait.module]
        missing = [f"missing {self.names.full(guid)}: {self.givers(wait, guid, givers)}" for guid, givers in wait.lacks]
        has = [f"installed {self.names.full(guid)}, by {self.module(maker)}" for guid, maker in wait.has]
        parts = [f"<h3>{self.module(wait.module)} {word(wait.phase.upper())} {word(wait.reason)}</h3>"]
        parts += [f"<p>{wait.says()} {self.named_driver(wait, module)}</p>", items(missing + has), self.would(wait, module)]
        if self.has_expression(wait, module):
            parts.append(f"<p>expression {self.expression(module, wait.phase)}</p>")
        return f'<article class="wait" id="waits{wait.module}{wait.phase}">{"".join(parts)}</article>'

    def has_expression(self, wait: Wait, module: Module) -> bool:
        return module.expressions.get(wait.phase, NOBODY) != NOBODY

    def named_driver(self, wait: Wait, module: Module) -> str:
        """The driver that BEFORE or AFTER names."""
        found = GUID.search(module.expressions.get(wait.phase, "")) if wait.reason in ("before", "after") else None
        if found is None:
            return ""
        named = self.by_guid.get(found[0])
        return f"It names {self.module(named.number)}." if named else f"No volume has the driver {self.names.full(found[0])}."

    def givers(self, wait: Wait, guid: str, givers: list[tuple[str, str]]) -> str:
        if not givers:
            return "no module's script installs it"
        told = [self.giver(wait, giver, *state.split(" ")) for giver, state in givers]
        return "; ".join(told) + ("; and others" if guid in wait.more else "")

    def giver(self, wait: Wait, giver: str, state: str, more: str = "") -> str:
        """A module that may install what is missing, and why it has not."""
        if giver == CORE and state == "waits":
            return "the core installs it when memory has moved"
        if state == "gone":
            return f"{self.module(giver)} installed it, and {self.module(more)} uninstalled it"
        says = {
            "started": "started without installing it, or uninstalled it", "waits": "waits itself", "any": "may install any GUID",
            "failed": f"its call got {escape(more)}",
        }.get(state, escape(state))
        if state == "waits" and (giver, wait.phase) in self.waiting:
            says = link(says, f"waits{giver}{wait.phase}")
        return f"{self.module(giver)} may install it, and {says}"

    def would(self, wait: Wait, module: Module) -> str:
        if wait.would or wait.unless:
            ways = [f"{word} {' and '.join(map(self.names.html, guids))}" for word, guids in (("with", wait.would), ("without", wait.unless)) if guids]
            return f"<p>It would start {', '.join(ways)}.</p>"
        if wait.would is not None and self.has_expression(wait, module):
            return "<p>The expression holds as it is.</p>"
        return "<p>No change of what is installed would make it hold.</p>" if wait.would is None and wait.reason == "false" else ""

    # Who started

    def picture(self, picture: Picture) -> str:
        note = "An arc leads from the module that had a GUID to the module that asked for it. "
        note += "\N{LEFTWARDS ARROW} names these modules too; \N{BLACK DIAMOND} notifications that ran."
        if self.boot.waits:
            note += " Dashed: never started."
        narrow = Picture(self.boot, self.names.short, NARROW)
        return section("starts", "Starts, in the order of time", f"<p>{note}</p>{picture.html()}{narrow.html()}")

    # Memory

    def memory(self) -> str:
        boot = self.boot
        parts = ["<p>Memory never moved.</p>"]
        if boot.moved:
            parts = [f"<p>The HOB list began at <code>{boot.moved[0]:#x}</code> and moved to <code>{boot.moved[1]:#x}</code>.</p>"]
        parts += [self.heap_bar(part, used) for part, used in boot.heap.items()]
        return section("memory", "Memory", "".join(parts) + self.map())

    def heap_bar(self, part: str, used: int) -> str:
        """How much of the heap's room the HOB list takes."""
        room = self.source.room(part, self.boot)
        share = min(100, 100 * used / room) if room else 0
        of = f" of {room:,} bytes ({'below 0.1' if share < 0.1 else f'{share:.1f}'} %)" if room else " bytes"
        return f'<p>HOB list {MEMORY.get(part, part)}: <b>{used:,}</b>{of}</p><div class="bar"><i style="width:{share:.2f}%"></i></div>'

    def map(self) -> str:
        """The map that the HOB list gives."""
        if not self.boot.map:
            return f"<p>The HOB list gives no memory map ({escape(self.boot.map_refused) or 'there is none'}).</p>"
        shown = table(["base", "length", "kind", "state", "length, by powers of two"], map(range_row, self.boot.map), "map")
        return f"<h3>The memory that the HOB list gives DXE</h3>{shown}"

    # Tables

    def starts(self) -> str:
        heads = ["no.", "module", "why", "asked for, and who had installed it", "installs", "line"]
        return section("each", "Each start", table(heads, map(self.start, self.boot.starts), "stacks starts"), len(self.boot.starts))

    def start(self, start: Start) -> str:
        needs = [f"{self.names.html(guid)}: {'not installed' if maker == NOBODY else self.module(maker)}" for guid, maker in start.needs]
        gives = [f"{'' if did else 'maybe '}{self.names.html(guid)}" for guid, did in self.boot.installed(start)]
        notes = [
            f"{link(f'line {note.line}', f'line{note.line}')}: {escape(note.kind)} of {self.module(note.module)} for {self.names.html(note.guid)}"
            for note in start.notifications[:MOST_NOTES]
        ]
        beside = f" {self.module(start.beside)}" if start.beside is not None else ""
        return row(f"start{start.place}", {
            "no.": f"{start.place}",
            "module": f"{self.module(start.module)} {word(start.phase.upper())}",
            "why": f"{escape(start.why)}{beside}",
            "asked for": self.folded(start, items(needs)),
            "installs": items(gives) + (f"\N{BLACK DIAMOND} notified:{items(notes)}" if notes else ""),
            "line": link(f"{start.line}", f"line{start.line}"),
        })

    def folded(self, start: Start, needs: str) -> str:
        """The thirteen protocols that a driver without an expression asks for, folded away after the last that was installed."""
        last = self.boot.last_met(start) if start.why == "absent" else None
        if last is None:
            return needs
        summary = f"the architectural protocols; the last was {self.names.html(last[0])}, by {self.module(last[1])}"
        return f"<details><summary>{summary}</summary>{needs}</details>"

    def modules(self) -> str:
        heads = ["no.", "name and file", "volume", "type", "expression", "may install", "became"]
        return section("modules", "Modules", table(heads, map(self.module_row, self.boot.modules.values()), "stacks modules"), len(self.boot.modules))

    def module_row(self, module: Module) -> str:
        gives = dict.fromkeys(guid for given in module.gives.values() for guid in given)
        return row(f"module{module.number}", {
            "no.": f"{module.number}",
            "module": (f"<b>{escape(module.name)}</b><br>" if module.name != NOBODY else "") + code(module.guid),
            "volume": f"{module.volume}",
            "type": escape(module.kind),
            "expression": "<br>".join(f"{phase.upper()}: {self.expression(module, phase)}" for phase in module.expressions),
            "may install": "<br>".join(self.names.html(guid) for guid in gives),
            "came to": ", ".join(self.came_to.get(module.number, [])),
        })

    def guids(self) -> str:
        """Each GUID that an expression asks for or a script may install, with those modules."""
        asking: dict[str, list[str]] = {}
        giving: dict[str, list[str]] = {}
        for module in self.boot.modules.values():
            for guid in module.asked():
                asking.setdefault(guid, []).append(self.module(module.number))
            for guid in dict.fromkeys(guid for given in module.gives.values() for guid in given):
                giving.setdefault(guid, []).append(self.module(module.number))
        found = sorted(asking | giving, key=lambda guid: (guid not in self.names.names, self.names.short(guid).lower()))
        rows = [row(f"guid-{guid}", {"name": escape(self.names.names.get(guid, NOBODY)), "GUID": code(guid), "asked for by": users(asking.get(guid, [])),
                                     "may be installed by": users(giving.get(guid, []))}) for guid in found]
        return section("guids", "GUIDs", table(["name", "GUID", "expressions of", "scripts of"], rows, "stacks guids"), len(rows))

    # The trace

    def trace(self) -> str:
        lines = "".join(self.trace_line(number, line) for number, line in enumerate(self.boot.trace, 1))
        return section("trace", "Trace", f'<ol class="trace">{lines}</ol>', len(self.boot.trace))

    def trace_line(self, number: int, line: str) -> str:
        """A line with its anchor, and the name of the module that is in it."""
        words = line.split(" ")
        place = words[2:4] if words[1:2] == ["start"] or words[0] == "notify" else words[1:3] if words[0] == "waiting" else []
        module = self.by_place.get((place[0], place[1])) if len(place) == 2 else None
        says = f" <em>{escape(module.label())}</em>" if module and module.name != NOBODY else ""
        begins = ' class="begins"' if words[1:2] == ["start"] else ""
        return f'<li id="line{number}"{begins}>{self.names.hovered(shortened(line))}{says}</li>'

    # The foot

    def foot(self) -> str:
        source = self.source
        trace = f", trace {escape(source.trace)}" if source.trace else ""
        return f'<footer><p>{escape("; ".join(source.program))}</p><p>plan {escape(source.plan)}{trace}</p><pre>{escape(source.plan_text)}</pre></footer>'


def range_row(each: Range) -> str:
    """A range of the map; its bar is as long as the number of binary digits of its length."""
    width = 100 * math.log2(max(each.length, 2)) / 52
    bar = f'<div class="bar {escape(each.kind)} {escape(each.state)}"><i style="width:{width:.0f}%"></i></div>'
    cells = [f"<code>{each.base:#x}</code>", length_text(each.length), escape(each.kind), escape(each.state), bar]
    return f"<tr>{''.join(f'<td>{cell}</td>' for cell in cells)}</tr>"


def shortened(line: str) -> str:
    """A line whose long words are cut; the JSON has them whole."""
    return re.sub(rf"\S{{{LONG + 1},}}", lambda match: f"{match[0][:LONG]}.. ({len(match[0])} letters)", line)


def length_text(length: int) -> str:
    """A length in bytes in the largest unit that it is a multiple of."""
    for unit, size in (("GiB", 1 << 30), ("MiB", 1 << 20), ("KiB", 1 << 10)):
        if length >= size and length % size == 0:
            return f"{length // size:,} {unit}"
    return f"{length:,} bytes"
