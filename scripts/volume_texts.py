"""The texts of volumes as `pitools text` prints them, with scripts in the place of code. `log-to-trace` stands on it."""
import os
from collections.abc import Iterator
from typing import NamedTuple

import pitools

DONE = 0  # a status of pitools
NO_VOLUME = {"Short", "Signature", "Revision", "FileSystem"}  # the causes of what is no volume at all
FILE_SYSTEMS = {"ffs2": "8c8ce578-8a3d-4f1c-9935-896185c32dd3", "ffs3": "5473c07a-3dcb-4dca-bd6f-1e9689e7349a"}
A_PRIORI = ("1b45cc0a-156a-428a-af62-49864da0e6e6", "fc510ee7-ffdc-11d4-bd41-0080c73c8881")
# The types of files as a text has them, and the phases for which they have a part.
PHASES = {"peim": ["pei"], "driver": ["dxe"], "combined": ["pei", "dxe"], "mm-dxe": ["dxe"]}
FREEFORM, PEI_CORE, DXE_CORE, VOLUME_IMAGE = "freeform", "04", "05", "volume-image"
# The types of cores and of applications, which a text has as words.
TYPE_OF = {"security-core": "03", "pei-core": PEI_CORE, "dxe-core": DXE_CORE, "application": "09"}
# Modules without a part for PEI or DXE, by the types of their files (PI 1.8, volume 3, "EFI_FV_FILETYPE").
NOT_LOOKED_AT = {
    "03": "SEC core", PEI_CORE: "PEI core", DXE_CORE: "DXE core", "09": "application", "0a": "MM driver", "0d": "MM core", "0e": "standalone MM driver",
    "0f": "standalone MM core",
}
# The architectural protocols (PI 1.8, volume 2), which a driver without an expression asks for, by EDK2's names.
ARCHITECTURAL = {
    "a46423e3-4617-49f1-b9ff-d1bfa9115839": "gEfiSecurityArchProtocolGuid",
    "26baccb1-6f42-11d4-bce7-0080c73c8881": "gEfiCpuArchProtocolGuid",
    "26baccb2-6f42-11d4-bce7-0080c73c8881": "gEfiMetronomeArchProtocolGuid",
    "26baccb3-6f42-11d4-bce7-0080c73c8881": "gEfiTimerArchProtocolGuid",
    "665e3ff6-46cc-11d4-9a38-0090273fc14d": "gEfiBdsArchProtocolGuid",
    "665e3ff5-46cc-11d4-9a38-0090273fc14d": "gEfiWatchdogTimerArchProtocolGuid",
    "b7dfb4e1-052f-449f-87be-9818fc91b733": "gEfiRuntimeArchProtocolGuid",
    "1e5668e2-8481-11d4-bcf1-0080c73c8881": "gEfiVariableArchProtocolGuid",
    "6441f818-6362-4e44-b570-7dba31dd2453": "gEfiVariableWriteArchProtocolGuid",
    "5053697e-2cbc-4819-90d9-0580deee5754": "gEfiCapsuleArchProtocolGuid",
    "1da97072-bddc-4b30-99f1-72a0b56fff2a": "gEfiMonotonicCounterArchProtocolGuid",
    "27cfac88-46cc-11d4-9a38-0090273fc14d": "gEfiResetArchProtocolGuid",
    "27cfac87-46cc-11d4-9a38-0090273fc14d": "gEfiRealTimeClockArchProtocolGuid",
}
USER_INTERFACE, VOLUME = ["section", "15"], ["section", "17"]
EXPRESSIONS = [["section", "13"], ["section", "1b"]]  # those that have no text: malformed ones, and with bytes behind their end


def title_of(words: list[str]) -> str:
    """The name in a line of a user interface section: as a word, or as bytes."""
    return words[1] if words[0] == "ui" else bytes.fromhex("".join(words[2:])).decode("utf-16-le", "replace").rstrip("\0")


class File:
    """A file of a volume: its line, and those of its body that say what it is, and not what it does."""

    def __init__(self, volume: "Volume", line: str) -> None:
        self.volume, self.line = volume, line
        _, word, self.name, *_ = line.split()
        self.kind = TYPE_OF.get(word, word)
        self.body: list[str] = []
        self.nested: list[Volume] = []
        self.titles: list[list[str]] = []  # the lines of its name for a person
        self.fault = ""

    def __str__(self) -> str:
        shown = title_of(self.titles[0]) if self.titles else ""
        return f"{self.name} {shown if shown.isprintable() else ''}".rstrip()

    def is_list(self) -> bool:
        """Whether it is an a priori list."""
        return self.kind == FREEFORM and self.name in A_PRIORI

    def counts(self, _words: list[str]) -> bool:
        """Whether a line of its body is kept."""
        return self.is_list()

    def read(self, words: list[str]) -> None:
        """Reads a line of its body."""
        if self.counts(words):
            self.body.append(" ".join(words))
        elif words[0] == "ui" or words[:2] == USER_INTERFACE:
            self.titles.append(words)
        if words[0] == "body" and (self.kind in PHASES or self.kind == VOLUME_IMAGE or self.is_list()):
            self.fault = "is packed, or has no sections: `scripts/cut-volumes` unpacks volumes"
        elif self.kind == VOLUME_IMAGE and words[:2] == VOLUME:
            self.fault = "holds a volume that `pitools text` has no text for"

    def text(self) -> list[str]:
        return [self.line, *self.body, *("    " + line for inner in self.nested for line in inner.text())]


class Module(File):
    """A file with a part for PEI or DXE."""

    def __init__(self, volume: "Volume", line: str) -> None:
        super().__init__(volume, line)
        self.scripts: dict[str, list[list[str]]] = {"pei": [], "dxe": []}  # for each start its actions

    def counts(self, words: list[str]) -> bool:
        """Kept are its expressions."""
        return words[0] == "depex" or words[:2] in EXPRESSIONS

    def has_part(self, phase: str) -> bool:
        return phase in PHASES[self.kind]

    def is_sor(self) -> bool:
        """Whether its first expression for DXE begins with SOR."""
        expressions = [words for words in map(str.split, self.body) if words[:2] in (["depex", "dxe"], ["section", "13"])]
        return expressions[:1] != [] and expressions[0][2:3] == ["sor"]

    def script(self, phase: str) -> list[str]:
        """The actions of all starts: a second start passes over those of the first."""
        starts = [actions + ["ret Success"] for actions in self.scripts[phase]]
        if len(starts) == 2:
            starts.insert(0, ["shadow", f"skip_if 1 {len(starts[0])}"])
        return sum(starts, [])

    def text(self) -> list[str]:
        lines = super().text()
        for phase in PHASES[self.kind]:
            if script := self.script(phase):
                lines += [f"script {phase}", "    block", *(f"    {action}" for action in script), "end"]
        return lines + [" ".join(words) for words in self.titles]


class Volume:
    """A volume: its files, and its place in the catalogue, where those nested in it follow."""

    def __init__(self, catalogue: list["Volume"], line: str, lines: Iterator[str], base: int | None, parent: "Volume | None") -> None:
        """Reads a volume from the lines behind its first one."""
        self.line, self.base, self.parent, self.number = line, base, parent, len(catalogue)
        _, length, *words = line.split()
        self.length, self.file_system = int(length, 0), FILE_SYSTEMS[words[0] if words else "ffs2"]
        self.files: list[File] = []
        self.name: list[str] = []
        catalogue.append(self)
        for words in map(str.split, lines):
            if words == ["end"]:
                return
            self.read(catalogue, words, lines)

    def read(self, catalogue: list["Volume"], words: list[str], lines: Iterator[str]) -> None:
        """Reads a line of a volume, and those that belong to it."""
        line = " ".join(words)
        if words[0] == "name":
            self.name = [line]
        elif words[0] == "file":
            self.files.append(Module(self, line) if words[1] in PHASES else File(self, line))
        elif words[0] == "volume":
            self.files[-1].nested.append(Volume(catalogue, line, lines, None, self))
        elif words[0] == "script":
            for inner in lines:
                if inner.split() == ["end"]:
                    break
        else:
            self.files[-1].read(words)

    def modules(self) -> list[Module]:
        return [file for file in self.files if isinstance(file, Module)]

    def family(self) -> list["Volume"]:
        """The volume, and after it each one nested in it."""
        return [self] + [each for file in self.files for inner in file.nested for each in inner.family()]

    def has_drivers(self) -> bool:
        return any(module.has_part("dxe") for each in self.family() for module in each.modules())

    def text(self) -> list[str]:
        return [self.line, *self.name, *(line for file in self.files for line in file.text()), "end"]


class Shipped(NamedTuple):
    """A volume of the shipped plan: its base there, its file, its length, and its text."""

    base: int
    path: str
    length: int
    text: str


def text_of(path: str) -> str:
    """The text of the volume in a file."""
    os.stat(path)
    status, printed = pitools.answer("text", path)
    said = printed.decode()
    if status == DONE:
        return said
    words = said.split()
    if words[:2] != ["refused", "image"]:
        raise ValueError(f"`pitools text` ends with status {status} and {said.strip() or 'no word'}")
    at, cause = int(words[3]), words[4]
    if cause in NO_VOLUME:
        raise ValueError(f"{path}: no volume with a file system: `scripts/cut-volumes` cuts the volumes out of an image")
    what = "has no sound size" if cause == "FileSize" else f"is at fault: {cause}"
    raise ValueError(f"{path}: the file or header at {at:#x} {what}")


def read_shipped(volumes: list[tuple[int, str]]) -> list[Shipped]:
    """The volumes of a plan, by their bases and files."""
    texts = [(base, path, text_of(path)) for base, path in volumes]
    return [Shipped(base, path, int(text.split()[1], 0), text) for base, path, text in texts]


def read_catalogue(volumes: list[Shipped], bases: list[int]) -> list[Volume]:
    """All volumes with the bases that they get, those nested in one behind it."""
    catalogue: list[Volume] = []
    for shipped, base in zip(volumes, bases):
        lines = iter(shipped.text.splitlines())
        for volume in Volume(catalogue, next(lines), lines, base, None).family():
            for file in volume.files:
                if file.fault:
                    raise ValueError(f"{shipped.path}: the file {file.name} {file.fault}")
    return catalogue
