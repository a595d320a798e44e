"""What the programs tell of one boot, as data: the lines of `pitools explain`, the trace of `piboot boot`, and the map of `pitools gcd`.

`report` stands on it. It reads printed lines alone (docs/EXPLAIN.md, docs/FORMATS.md), and no volume and no plan.
"""
import struct
from collections import Counter
from collections.abc import Callable, Iterator
from dataclasses import dataclass, field

from guid_names import GUID, plain_name

CORE, NOBODY = "core", "-"
PHASES = ("pei", "dxe")


# Why a part never started, by its word in a line `waits`.
REASONS = {
    "false": "Its expression does not hold.",
    "malformed": "Its expression cannot be read, so it never holds.",
    "shadow": "It registered for shadow, and memory did not move, so it did not start a second time.",
    "unrequested": "Its expression begins with SOR, and no module requested it by Schedule().",
    "before": "It starts only just before the driver that it names, and that driver did not start after it.",
    "after": "It starts only just after the driver that it names, and that driver did not start before it.",
    "absent": "It has no dependency expression, so it needs all 13 architectural protocols.",
    "scheduled": "It was scheduled, and the boot was cut off before its turn.",
    "unreported": "Its volume was never reported to the PEI core.",
    "undiscovered": "DXE never discovered its volume: no FV HOB has its base, and no driver processed it.",
}
CUT_OFF = "It might have started, and the boot was cut off before its turn."


@dataclass
class Module:
    """A module of the catalogue. What it gives is what its script may install, by phase, in order of first mention."""
    number: int
    volume: int
    guid: str
    kind: str
    name: str
    expressions: dict[str, str] = field(default_factory=dict)
    gives: dict[str, list[str]] = field(default_factory=dict)

    def asked(self) -> list[str]:
        """The GUIDs that its expressions ask for, each once; BEFORE and AFTER name a driver."""
        texts = [text for text in self.expressions.values() if not text.startswith(("before ", "after "))]
        return list(dict.fromkeys(guid for text in texts for guid in GUID.findall(text)))

    def label(self) -> str:
        """What a person calls it."""
        return self.guid if self.name == "-" else self.name


@dataclass
class Notification:
    """A notification that ran: the line at which it began, its kind, the module that registered it, and what it was registered for."""
    line: int
    kind: str
    module: int | None
    guid: str


@dataclass
class Start:
    """A start: its place in the boot from 1, why it came, what its expression pushes with who had installed it, and its line of the trace."""
    place: int
    module: int
    phase: str
    why: str
    beside: int | None
    needs: list[tuple[str, str]] = field(default_factory=list)
    line: int = 0
    notifications: list[Notification] = field(default_factory=list)
    installs: int = 0  # the calls of its own that installed something


@dataclass
class Wait:
    """A part that never started. A GUID that is missing comes with each module that may install it, and a word on why that one did not."""
    module: int
    phase: str
    reason: str
    detail: list[str] = field(default_factory=list)  # the words after the reason
    lacks: list[tuple[str, list[tuple[str, str]]]] = field(default_factory=list)
    more: list[str] = field(default_factory=list)  # the GUIDs of those that yet others may install
    has: list[tuple[str, str]] = field(default_factory=list)
    would: list[str] | None = None
    unless: list[str] = field(default_factory=list)

    def says(self) -> str:
        """Why the part never started, in a sentence."""
        holds = self.reason in ("false", "absent") and self.would == [] or (self.phase, self.reason) == ("pei", "absent")
        return CUT_OFF if holds else REASONS.get(self.reason, self.reason)


@dataclass
class Range:
    """A range of the memory space map."""
    base: int
    length: int
    kind: str
    state: str


@dataclass
class Mark:
    """Something between starts that the trace tells: memory moves, a volume comes, a phase stops, or a notification runs outside of a start."""
    line: int
    kind: str
    words: list[str]


@dataclass
class Boot:
    """One boot."""
    modules: dict[int, Module] = field(default_factory=dict)
    starts: list[Start] = field(default_factory=list)
    waits: list[Wait] = field(default_factory=list)
    moved: tuple[int, int] | None = None
    heap: dict[str, int] = field(default_factory=dict)
    fuel: int = 0
    result: str = ""
    trace: list[str] = field(default_factory=list)
    marks: list[Mark] = field(default_factory=list)
    map: list[Range] = field(default_factory=list)
    map_refused: str = ""

    def started(self, phase: str) -> set[int]:
        return {start.module for start in self.starts if start.phase == phase}

    def counts(self) -> dict[str, int]:
        """How many of each there are; the lists are those that the trace has at its end."""
        lists = Counter({words[0]: int(words[1]) for words in map(str.split, self.trace) if words[0] in LISTS and len(words) == 2})
        first = {phase: len(self.started(phase)) for phase in PHASES}
        starts = Counter(start.phase for start in self.starts)
        return {
            "modules": len(self.modules),
            "starts in PEI": starts["pei"],
            "starts in DXE": starts["dxe"],
            "second starts": starts["pei"] - first["pei"],
            "never started": len(self.never_started()),
            "notifications": sum(line.startswith("notify ") for line in self.trace),
            **{LISTS[word]: lists[word] for word in LISTS},
        }

    def heap_most(self) -> int | None:
        """The HOB list at its longest: it only grows."""
        return max(self.heap.values(), default=None)

    def heap_room(self) -> int | None:
        """The bytes that the heap has for the HOB list at the end: from MemoryBottom to FreeMemoryTop of the hand-off HOB."""
        body = next((words[2] for words in map(str.split, self.trace) if words[:2] == ["hob", "1"] and len(words) == 3), "")
        if len(body) < 2 * HANDOFF_BODY:
            return None
        bottom, top = struct.unpack_from("<8x8xQQ", bytes.fromhex(body[: 2 * HANDOFF_BODY]))
        return top - bottom

    def never_started(self) -> list[Wait]:
        """The parts that never started; one that waits for its second start is none of them."""
        started = {phase: self.started(phase) for phase in PHASES}
        return [wait for wait in self.waits if wait.module not in started[wait.phase]]

    def first_causes(self) -> list[Wait]:
        """The parts that never started; first those that miss what no module installs, since others wait for these."""
        return sorted(self.never_started(), key=lambda wait: all(givers for _, givers in wait.lacks))

    def cause(self, wait: Wait, name: Callable[[str], str]) -> str:
        """Why a part never started, in a line."""
        missing = sorted(wait.lacks, key=lambda lack: bool(lack[1]))
        if not missing:
            return wait.says().removesuffix(".")
        guid, givers = missing[0]
        who = f"which {self.label(givers[0][0])} may install" if givers else "which no module's script installs"
        return f"missing {name(guid)}, {who}" + (f", and {len(missing) - 1} more" if len(missing) > 1 else "")

    def label(self, number: int | str | None) -> str:
        """What a person calls a module, by its number."""
        if number == CORE or not str(number).isdigit():
            return "the core" if number == CORE else "a module"
        return self.modules[int(number)].label()

    makers: dict[int, int] = field(default_factory=dict)  # of each handle the module that made it
    shown: dict[tuple[str, int], set[str]] = field(default_factory=dict)  # what each module did install, by phase

    def installed(self, start: Start) -> list[tuple[str, bool]]:
        """What the module of a start may have installed in it, and whether what is told shows that it did."""
        shown = self.shown.get((start.phase, start.module), set())
        return [(guid, guid in shown) for guid in self.modules[start.module].gives.get(start.phase, [])] if start.installs else []

    def name_modules(self, names: dict[str, str]) -> None:
        """Gives a module without a name that of its file's GUID, where there is one."""
        for module in self.modules.values():
            if module.name == NOBODY:
                module.name = names.get(module.guid, NOBODY)

    def last_met(self, start: Start) -> tuple[str, str] | None:
        """Of what a start asked for, what came from the module that started last, with that module."""
        places = {str(each.module): each.place for each in reversed(self.starts) if each.phase == start.phase}
        met = [(guid, maker) for guid, maker in start.needs if maker in places]
        return max(met, key=lambda need: places[need[1]], default=None)


INSTALLS = (["call", "install", "Success"], ["call", "reinstall", "Success"])
LISTS = {"ppis": "PPIs", "callbacks": "callbacks", "dispatches": "dispatch notifications", "pendings": "queued pairs", "hobs": "HOBs", "handles": "interfaces"}


# The lines of `explain`

def read_explanation(lines: list[str]) -> Boot:
    """Reads what `pitools explain` printed. A line that has no form is a ValueError that names it."""
    boot = Boot()
    for number, line in enumerate(lines, 1):
        try:
            read_line(boot, line)
        except (ValueError, IndexError, KeyError) as fault:
            raise ValueError(f"line {number} of explain's is none of its forms: `{line[:100]}`") from fault
    if not boot.result:
        raise ValueError("explain's lines end without a result")
    return boot


def read_line(boot: Boot, line: str) -> None:
    word, *words = line.split(" ")
    if word in ("moved", "heap", "fuel", "result"):
        read_total(boot, word, words)
    elif word == "module":
        number, volume, guid, kind, name = words
        boot.modules[int(number)] = Module(int(number), int(volume), guid, kind, name if name == "-" else plain_name(name))
    elif word == "expr":
        boot.modules[int(words[0])].expressions[words[1]] = " ".join(words[2:])
    elif word == "gives":
        boot.modules[int(words[0])].gives.setdefault(words[1], []).append(" ".join(words[2:]))
    elif word == "start":
        number, phase, why, *beside = words
        boot.starts.append(Start(len(boot.starts) + 1, int(number), phase, why, int(beside[0]) if beside else None))
    elif word == "needed":
        boot.starts[-1].needs.append((words[1], words[2]))
    else:
        read_wait(boot, word, words)


def read_total(boot: Boot, word: str, words: list[str]) -> None:
    if word == "moved":
        boot.moved = int(words[0], 0), int(words[1], 0)
    elif word == "heap":
        boot.heap[words[0]] = int(words[1], 0)
    elif word == "fuel":
        boot.fuel = int(words[0])
    else:
        boot.result = words[0]


def read_wait(boot: Boot, word: str, words: list[str]) -> None:
    if word == "waits":
        boot.waits.append(Wait(int(words[0]), words[1], words[2], words[3:]))
    elif word == "lacks":
        if words[-1] == "more":
            boot.waits[-1].more.append(words[1])
        boot.waits[-1].lacks.append((words[1], list(givers_of(words[2:]))))
    elif word == "has":
        boot.waits[-1].has.append((words[1], words[2]))
    elif word == "would":
        boot.waits[-1].would = [guid for guid in words[1:] if guid != NOBODY]
    elif word == "unless":
        boot.waits[-1].unless = words[1:]
    else:
        raise ValueError(word)


def givers_of(words: list[str]) -> Iterator[tuple[str, str]]:
    """Each module that may install a GUID, with what is said of it: one word, or two where the first asks for another."""
    rest = iter([word for word in words if word not in (NOBODY, "more")])
    for giver in rest:
        state = next(rest)
        yield giver, f"{state} {next(rest)}" if state in ("gone", "failed") else state


# The trace

def read_trace(boot: Boot, trace: list[str]) -> None:
    """Gives each start its line and the notifications that ran while it did, and gathers what stands between starts."""
    boot.trace = trace
    by_name = {(str(module.volume), module.guid): module.number for module in reversed(boot.modules.values())}
    starts = iter(boot.starts)
    running: list[int | None] = []  # the modules whose scripts run, the innermost last
    start: Start | None = None
    for number, line in enumerate(trace, 1):
        words = line.split(" ")
        if words[0] in PHASES and words[1] == "start":
            start = next_start(starts, words, boot, number)
            running = [start.module]
        elif words[0] == "notify":
            note = Notification(number, words[1], by_name.get((words[2], words[3])), words[4])
            read_notification(boot, start if running else None, note)
            running.append(note.module)
        elif words[0] == "end" and running:
            running.pop()
        elif words[:3] in INSTALLS and start and running:
            start.installs += running[-1] == start.module
            boot.makers |= {int(shown, 0): running[-1] for shown in words[3:]}
        elif words[0] in ("migrate", "report", "handoff") or words[1:2] == ["stop"] or words[:2] == ["dxe", "volume"]:
            boot.marks.append(Mark(number, " ".join(words[:2]) if words[0] in PHASES else words[0], words[1:]))
    boot.shown = shown_makers(boot)


def read_notification(boot: Boot, start: Start | None, note: Notification) -> None:
    """A notification runs inside a start, or while no module does."""
    if start:
        start.notifications.append(note)
    else:
        boot.marks.append(Mark(note.line, "notify", [note.kind, str(note.module), note.guid]))


def next_start(starts: Iterator[Start], words: list[str], boot: Boot, number: int) -> Start:
    """The start that a line of the trace tells, which is the next one of `explain`."""
    start = next(starts, None)
    if start is None or (boot.modules[start.module].guid, start.phase) != (words[3], words[0]):
        raise ValueError(f"line {number} of the trace starts a module that explain does not: the two are of other boots")
    start.line = number
    return start


def shown_makers(boot: Boot) -> dict[tuple[str, int], set[str]]:
    """The GUIDs that modules did install: by the list of PPIs, by who made the handle that has the protocol, and by needs that were met."""
    shown: dict[tuple[str, int], set[str]] = {}
    for words in map(str.split, boot.trace):
        if words[0] == "ppi" and words[1].isdigit():
            shown.setdefault(("pei", int(words[1])), set()).add(words[2])
        elif words[0] == "handle" and (maker := boot.makers.get(int(words[1]))) is not None:
            shown.setdefault(("dxe", maker), set()).add(words[2])
    for each in [*boot.starts, *boot.waits]:
        for guid, maker in (each.needs if isinstance(each, Start) else each.has):
            if maker.isdigit():
                shown.setdefault((each.phase, int(maker)), set()).add(guid)
    return shown


# The map

HOB_HEADER, HANDOFF_BODY, END_HOB = 8, 48, (0xFFFF, b"")


def hob_list(trace: list[str]) -> bytes:
    """The HOB list that a trace ends with: of each HOB the header, its type and length and four zeros, and the bytes that its line has."""
    told = [words[1:] for words in map(str.split, trace) if words[0] == "hob"]
    hobs = [*((int(kind), bytes.fromhex(body.replace("-", ""))) for kind, body in told), END_HOB]
    return b"".join(struct.pack("<HHI", kind, HOB_HEADER + len(body), 0) + body for kind, body in hobs)


def read_map(boot: Boot, lines: list[str]) -> None:
    """Reads what `pitools gcd` printed; where the HOB list tells no memory it says why."""
    for words in (line.split(" ") for line in lines):
        if words[0] == "range":
            boot.map.append(Range(int(words[1], 0), int(words[2], 0), words[3], words[4]))
        elif words[0] == "refused":
            boot.map_refused = " ".join(words[1:])
