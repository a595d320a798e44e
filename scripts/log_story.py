"""What a log's boot leaves to tell: why it failed, which module ran then, which wait still and for what, whose code has the GUIDs that lack,
and which modules are not looked at. `log-to-trace` says it, and writes it to `log.json`, which `report` reads.
"""
import uuid
from collections import Counter
from collections.abc import Iterable, Iterator
from typing import Any

from boot_log import MEMORY_PPI
from explained import CORE, GUID
from volume_reader import files_at, guid_text, sections_of
from volume_texts import ARCHITECTURAL, NOT_LOOKED_AT, File, Module, Shipped, Volume

MOST, MOST_LACKS = 10, 3  # of a kind that are told on standard error, and GUIDs of a module; log.json has all
NAMES = ARCHITECTURAL | {MEMORY_PPI: "gEfiPeiMemoryDiscoveredPpiGuid"}
CODE_SECTIONS = (0x10, 0x11, 0x12)  # PE32, PIC, TE
VOLUME_IMAGE, VOLUME_SECTION, FIRST_CODE, LAST_CODE = 0x0B, 0x17, 0x03, 0x0F  # the types of files with code lie between these
Giver = Module | str


def listed(head: str, items: list[str]) -> str:
    """A head with a line for each item, of very many for the first ones."""
    more = [f"and {len(items) - MOST:,} more"] if len(items) > MOST else []
    return "\n    ".join([head, *items[:MOST], *more])


def named(guid: str) -> str:
    """A GUID with its name."""
    return f"{guid} ({NAMES[guid]})" if guid in NAMES else guid


def asked(module: Module, phase: str) -> list[str]:
    """The GUIDs that a module's expression pushes; a driver without one asks for the architectural protocols."""
    words = next((words for words in map(str.split, module.body) if words[:2] == ["depex", phase]), None)
    if words is None:
        is_told = any(line.startswith("section 13 " if phase == "dxe" else "section 1b ") for line in module.body)
        return list(ARCHITECTURAL) if phase == "dxe" and not is_told else []
    return [] if words[2] in ("before", "after") else list(dict.fromkeys(GUID.findall(" ".join(words))))


# Whose code has a GUID


def files_in(volume: memoryview) -> Iterator[tuple[int, str, memoryview]]:
    """The type, the name and the body of each file in a volume and in those inside it that may have machine code."""
    waiting = [volume]
    while waiting:
        volume = waiting.pop()
        for at, front, size in files_at(volume):
            kind, body = volume[at + 18], volume[at + front : at + size]
            if kind == VOLUME_IMAGE:
                waiting += [section[behind:] for inner, section, behind in sections_of(body) if inner == VOLUME_SECTION]
            elif FIRST_CODE <= kind <= LAST_CODE:
                yield kind, guid_text(volume, at), body


def codes_in(volume: memoryview) -> Iterator[tuple[str, bytes]]:
    """The name of each file with machine code in a volume and in those inside it, with the code of a section."""
    for _, name, body in files_in(volume):
        for kind, section, behind in sections_of(body):
            if kind in CODE_SECTIONS:
                yield name, bytes(section[behind:])


def holders(volumes: list[Shipped], guids: Iterable[str]) -> dict[str, list[str]]:
    """The names of the files whose code has the bytes of each GUID."""
    wanted = {guid: uuid.UUID(guid).bytes_le for guid in guids}
    found: dict[str, list[str]] = {guid: [] for guid in wanted}
    for shipped in volumes if wanted else []:
        if not shipped.path:
            continue
        with open(shipped.path, "rb") as file:
            for name, code in codes_in(memoryview(file.read())):
                for guid, pattern in wanted.items():
                    if pattern in code and name not in found[guid]:
                        found[guid].append(name)
    return found


class Story:
    """What the events of a boot tell beside its starts, as they come, and what follows from them in the end."""

    def __init__(self, catalogue: list[Volume]) -> None:
        self.catalogue = catalogue
        self.files = {file.name: file for volume in reversed(catalogue) for file in reversed(volume.files)}
        self.file_names: dict[str, str] = {}
        self.given: dict[str, dict[str, Giver]] = {"pei": {}, "dxe": {}}
        self.failed: list[tuple[int, str, str]] = []  # the line, what it says, and what ran then
        self.last: tuple[int, str, Module] | None = None  # the line, the phase and the module of the last start
        self.core_line = 0  # at which the DXE core starts

    def shown(self, name: str) -> str:
        """A file's name, and the one for a person, which its volume or the log has."""
        file = self.files.get(name)
        return str(file) if file and file.titles else f"{name} {self.file_names.get(name, '')}".rstrip()

    def giver(self, giver: Giver) -> str:
        return "the core" if giver == CORE else self.shown(giver.name)

    # As the boot goes

    def start(self, line: int, phase: str, module: Module) -> None:
        self.last = line, phase, module

    def start_core(self, line: int) -> None:
        """The DXE core starts, and no module runs any more."""
        self.last, self.core_line = None, line

    def give(self, phase: str, guid: str, giver: Giver) -> None:
        self.given[phase].setdefault(guid, giver)

    def take_back(self, phase: str, guid: str, giver: Giver) -> None:
        """The install that was told before failed."""
        if self.given[phase].get(guid) is giver:
            del self.given[phase][guid]

    def fail(self, line: int, text: str) -> None:
        self.failed.append((line, text, self.running()))

    def running(self) -> str:
        """What runs now."""
        return self.shown(self.last[2].name) if self.last else "the DXE core" if self.core_line else "no module"

    # In the end

    def waits(self, phase: str, volumes: list[Volume]) -> list[tuple[Module, list[str]]]:
        """The modules of a phase that never started, each with the GUIDs that it lacks."""
        modules = [module for volume in volumes for module in volume.modules() if module.has_part(phase) and not module.scripts[phase]]
        return [(module, [guid for guid in asked(module, phase) if guid not in self.given[phase]]) for module in modules]

    def needs(self) -> list[tuple[str, Giver | None]]:
        """What the module that started last asked for, with who had installed it."""
        _, phase, module = self.last or (0, "", None)
        return [(guid, self.given[phase].get(guid)) for guid in asked(module, phase)] if module else []

    def cores(self, phase: str) -> list[str]:
        """What the core installed itself."""
        return [guid for guid, giver in self.given[phase].items() if giver == CORE]

    def not_looked_at(self) -> list[tuple[str, File]]:
        """The modules that have no part for PEI or DXE, each with its kind."""
        return [(NOT_LOOKED_AT[file.kind], file) for volume in self.catalogue for file in volume.files if file.kind in NOT_LOOKED_AT]


def counted(kinds: Iterable[str]) -> str:
    """How many there are of each kind, in words."""
    return ", ".join(f"{number} {kind}{'s' if number > 1 else ''}" for kind, number in Counter(kinds).items())


# Words


def failure_words(story: Story, last_line: tuple[int, str]) -> list[str]:
    """Why a boot failed, by its log, and which module ran then."""
    told = [f"line {line}, in {ran}: {text}" for line, text, ran in story.failed]
    words = [listed("the log says why the boot failed:", told)] if told else []
    words.append(f"the last line of the boot is line {last_line[0]}: {last_line[1]}")
    if not story.last:
        words.append(f"the DXE core ran then, from line {story.core_line} on" if story.core_line else "no module ran then")
    else:
        line, phase, module = story.last
        needs = [f"{named(guid)} of {story.giver(giver)}" if giver else f"{named(guid)}, which was not there" for guid, giver in story.needs()]
        words.append(f"{story.shown(module.name)} ran then, in {phase.upper()}, from line {line} on; it had waited for {', '.join(needs) or 'nothing'}")
    return words


def wait_words(story: Story, waits: dict[str, list[tuple[Module, list[str]]]]) -> list[str]:
    """Which modules wait still, and for what."""
    told = [f"{story.shown(module.name)} in {phase.upper()}, for {some(lacks)}" for phase, each in waits.items() for module, lacks in each]
    return [listed(f"{len(told)} module{'s wait' if len(told) > 1 else ' waits'} in the end:", told)] if told else []


def some(lacks: list[str]) -> str:
    """The first of the GUIDs that a module waits for, by their names."""
    shown = ", ".join(named(guid) for guid in lacks[:MOST_LACKS]) + (f" and {len(lacks) - MOST_LACKS} more" if len(lacks) > MOST_LACKS else "")
    return shown or "no GUID: its turn had not come, or its expression is false"


def holder_words(story: Story, found: dict[str, list[str]]) -> list[str]:
    """Whose code has each GUID that no module installed."""
    told = [f"{named(guid)}: {', '.join(story.shown(name) for name in names[:MOST]) or 'no code of the volumes'}" for guid, names in found.items()]
    return [listed("no module of the log installs what these wait for; what code has its bytes:", told)] if told else []


# Data


def as_data(story: Story, boot: dict[str, Any], waits: dict[str, list[tuple[Module, list[str]]]], found: dict[str, list[str]]) -> dict[str, Any]:
    """All of it, for programs."""
    ran = None
    if story.last:
        line, phase, module = story.last
        needs = [{"guid": guid, "giver": giver.name if isinstance(giver, Module) else giver} for guid, giver in story.needs()]
        ran = {"line": line, "phase": phase, "module": module.name, "name": story.shown(module.name), "needs": needs}
    return {
        "boot": boot,
        "failed": [{"line": line, "text": text, "ran": ran} for line, text, ran in story.failed],
        "ran": ran,
        "waits": [{"phase": phase, "module": module.name, "name": story.shown(module.name), "lacks": lacks} for phase, each in waits.items() for module, lacks in each],
        "holders": {guid: [{"module": name, "name": story.shown(name)} for name in names] for guid, names in found.items()},
        "core": {phase: story.cores(phase) for phase in ("pei", "dxe")},
        "not_looked_at": [{"kind": kind, "module": file.name, "name": story.shown(file.name)} for kind, file in story.not_looked_at()],
    }
