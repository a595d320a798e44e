"""Reads a debug log of EDK2's cores: its bytes as text, what its lines say, and the boots that it tells of. `log-to-trace` stands on it.

A log comes over a serial line, through a terminal, or from a tool that writes to its lines: it may be UTF-16, its lines may end with CR LF,
carry time stamps, colour codes and noise, or be in upper case. So what a line says is looked for at any place in it, in any case.
"""
import heapq
import re
from collections.abc import Iterator
from typing import NamedTuple

MOST_BYTES = 64 << 20
MOST_EVENTS, MOST_SPANS = 2_000_000, 8  # starts, installs and the like; boots whose lines are told
GUID = r"([0-9A-F]{8}(?:-[0-9A-F]{4}){3}-[0-9A-F]{12})"
HEX = r"0x([0-9A-F]{1,16})"
WORD = r"(?<![A-Z])"  # what follows is no end of a longer word: an SMM core writes SmmInstallProtocolInterface
FAILED = r"(?:ASSERT(?:!:|_EFI_ERROR \(|_RETURN_ERROR \(| \[| [^\s(]{1,200}\(\d{1,9}\):)|!!!! \w{1,9} Exception Type|Synchronous Exception at )"
# What a line may say; of two that begin at one place the first counts.
FORMS = {
    "begin": rf"{WORD}SecCoreStartup\w*(?:\({HEX})?|UEFI firmware \(version",
    "reset": rf"{WORD}ResetSystem2?: ",
    "peim": rf"{WORD}Loading PEIM {GUID}",
    "image": rf"{WORD}Loading (PEIM|driver) at {HEX} EntryPoint={HEX}(?: (\S{{1,200}}))?",
    "driver": rf"{WORD}Loading driver {GUID}",
    "waits": rf"{WORD}(?<!MM )Driver {GUID} was discovered but not loaded",
    "ppi": rf"{WORD}Install PPI: {GUID}",
    "refused": rf"{WORD}InstallProtocolInterface: {GUID} ([0-9A-F]{{1,16}}) failed with",
    "protocol": rf"{WORD}InstallProtocolInterface: {GUID} ([0-9A-F]{{1,16}})",
    "volume": rf"The (\d{{1,9}})th FV start address is {HEX}, size is {HEX}",
    "fv_hob": rf"{WORD}FV Hob +{HEX} - {HEX}",
    "memory": rf"PeiInstallPeiMemory MemoryBegin {HEX}, MemoryLength {HEX}",
    "stack": rf"Temp Stack *: BaseAddress={HEX} Length={HEX}",
    "heap": rf"Temp Heap *: BaseAddress={HEX} Length={HEX}",
    "move": rf"TemporaryRamMigration\({HEX}, {HEX}, {HEX}\)",
    "resume": rf"{WORD}Enter S3 PEIM",
    "bds": r"\[Bds\] ?Entry",
    "failed": rf"{WORD}({FAILED}.{{0,300}})",
    "spoiled": rf"{WORD}(?:Loading (?:PEIM|driver)(?! at )|Install PPI:|InstallProtocolInterface:(?! input handle))",
}
FORM = re.compile("|".join(f"(?P<{kind}>{form})" for kind, form in FORMS.items()), re.IGNORECASE)
# What the forms begin with: a form is looked for where one of these words stands; that of a volume has its number before it.
VOLUME_TOLD, MOST_DIGITS = "th fv start address is ", 13
BEGINNINGS = [
    "seccorestartup", "uefi firmware (", "resetsystem", "loading peim", "loading driver", "driver ", "install ppi:", "installprotocolinterface:", "fv hob",
    "peiinstallpeimemory", "temp stack", "temp heap", "temporaryrammigration(", "enter s3 peim", "[bds]", "assert", "!!!! ", "synchronous exception",
    VOLUME_TOLD,
]
# Of a terminal's codes those for colours stand inside a word, and the others between two.
COLOUR = re.compile(rb"\x1b\[[0-9;:]*m")
CODE = re.compile(rb"\x1b(?:\[[0-?]*[ -/]*[@-~]|\][^\x07\x1b]*(?:\x07|\x1b\\)|[()][0-9A-Za-z]|[ -Z\\^-~])")
NOISE = bytes(byte for byte in range(256) if not 0x20 <= byte < 0x7F and byte not in b"\n\t\r")
# A text of one's own, one start or one install a line (docs/LOGS.md).
OWN = re.compile(rf"(pei|dxe|installed)\s+\{{?{GUID}\}}?", re.IGNORECASE)

FFS2_PPI = "8c8ce578-8a3d-4f1c-9935-896185c32dd3"  # the PEI core installs it first of all, and once
MEMORY_PPI = "f894643d-c449-42d1-8ea8-85bdd8c65bde"  # the PEI core installs it once memory has moved
PEI_KINDS = {"peim", "ppi", "volume", "memory", "stack", "heap", "move"}
MEMORY_KINDS = {"memory", "stack", "move", "moved"}
STAGES = ["started no module", "reached PEI", "reached DXE", "reached the end of DXE"]
# What it means that a boot has no line of some kinds.
LACKING = [
    ({"begin", "boot volume"}, "SecCoreStartup ..` or `The 0th FV start address ..", "what came before its first line is not known"),
    ({"ppi"}, "Install PPI: ..", "no PEIM installs a PPI, and no expression over one holds"),
    ({"boot volume", "volume"}, "The Nth FV start address is ..", "the plan's first volume is taken for the boot volume, and no other is reported"),
    (MEMORY_KINDS, "PeiInstallPeiMemory ..` or `Temp Stack ..", "no module installs memory, and the boot ends with PEI"),
    ({"driver"}, "Loading driver ..", "no driver starts, and DXE stops at once"),
    ({"protocol"}, "InstallProtocolInterface: ..", "no driver installs a protocol, and no expression over one holds"),
    ({"bds", "waits"}, "[Bds] Entry", "DXE did not come to its end, or the log ends before that"),
]


class Event(NamedTuple):
    """What a line of the log says: its number from 1, its place in the text, a kind of FORMS, and the words of its form: GUIDs and numbers in lower case."""

    line: int
    at: int
    kind: str
    words: tuple[str, ...]

    def number(self, at: int) -> int:
        return int(self.words[at], 16)

    def mark(self) -> str:
        """The kind, with a name of its own for what comes once in a boot."""
        if self.kind == "volume" and int(self.words[0]) == 0:
            return "boot volume"
        if self.kind == "ppi" and self.words[0] in (FFS2_PPI, MEMORY_PPI):
            return "core" if self.words[0] == FFS2_PPI else "moved"
        return self.kind


class Boot:
    """The events of one boot in their order, and which marks they bear."""

    def __init__(self, is_own: bool = False) -> None:
        self.events: list[Event] = []
        self.marks: set[str] = set()
        self.is_own = is_own  # of a text of one's own, and of no log
        self.text, self.end = "", 0  # the log's text, and the place in it where the boot ends

    def add(self, event: Event) -> None:
        self.events.append(event)
        self.marks.add(event.mark())

    def ends_before(self, event: Event) -> bool:
        """Whether an event is of the next boot: it shows a start of the core again, comes after a reset, or is PEI's after DXE's."""
        if event.kind == "begin":
            return not self.marks <= {"begin"}
        again = event.mark() in ("core", "boot volume") and event.mark() in self.marks
        return again or "reset" in self.marks or event.kind in PEI_KINDS and "driver" in self.marks

    def resumes(self) -> bool:
        """Whether it is a resume from S3, which ends in PEI."""
        return "resume" in self.marks and "driver" not in self.marks

    def is_whole(self) -> bool:
        """Whether it came to its end."""
        return self.is_own or self.resumes() or self.stage() == 3

    def stage(self) -> int:
        """How far it came, as a place in STAGES."""
        if {"bds", "waits"} & self.marks:
            return 3
        return 2 if "driver" in self.marks else int("peim" in self.marks)

    def rank(self) -> tuple[bool, int]:
        """A whole boot, from its beginning to the end of DXE, is above all others; of these the one that came further."""
        begins = bool({"begin", "boot volume", "core"} & self.marks)
        return begins and self.stage() == 3, self.stage()

    def last_line(self) -> tuple[int, str]:
        """The last line that says anything, with its number."""
        last = self.events[-1]
        shown = self.text[last.at : self.end].rstrip()
        return last.line + shown.count("\n"), shown.rpartition("\n")[2].strip()[:300]

    def span(self) -> str:
        return f"{self.events[0].line} to {self.events[-1].line}"

    def lacks(self) -> list[str]:
        """A sentence for each kind of lines that it has none of."""
        return [f"no line `{line}`: {meaning}" for marks, line, meaning in LACKING if not marks & self.marks]


# The text


def in_bytes(data: bytes) -> bytes:
    """The text of some bytes, a byte a letter: UTF-16 is known by its mark or by its many zeros."""
    if data[:2] in (b"\xff\xfe", b"\xfe\xff"):
        return data.decode("utf-16", "replace").encode("ascii", "ignore")
    zeros = [data[start::2].count(0) for start in (0, 1)]
    if max(zeros) > len(data) // 4 and min(zeros) < len(data) // 16:
        return data.decode("utf-16-be" if zeros[0] > zeros[1] else "utf-16-le", "replace").encode("ascii", "ignore")
    return data


def text_of(data: bytes) -> str:
    """The text of a log, without a terminal's codes and without bytes that are no text; its lines end with LF."""
    text = CODE.sub(b" ", COLOUR.sub(b"", in_bytes(data))).translate(None, NOISE).replace(b"\r\n", b"\n")
    return (text if b"\n" in text else text.replace(b"\r", b"\n")).decode("ascii")


def places(text: str, word: str) -> Iterator[int]:
    """Where a word stands in a text."""
    at = text.find(word)
    while at >= 0:
        yield at
        at = text.find(word, at + len(word))


def events_of(text: str) -> Iterator[Event]:
    """What the lines of a log say, in order."""
    small = text.lower()
    line, counted, end = 1, 0, 0
    for at in heapq.merge(*(places(small, word) for word in BEGINNINGS)):
        at = small.rfind("the ", max(at - MOST_DIGITS, 0), at) if small.startswith(VOLUME_TOLD, at) else at
        found = FORM.match(text, at) if at >= end else None
        if found is None:
            continue
        line, counted, end = line + text.count("\n", counted, at), at, found.end()
        kind, words = found.lastgroup or "", [word for word in found.groups()[found.lastindex or 0 :] if word is not None]
        yield Event(line, at, kind, tuple(words) if kind in ("image", "failed") else tuple(word.lower() for word in words))


def own_events(text: str) -> Iterator[Event]:
    """The events of a text of one's own. An install before the first line `dxe` is that of a PPI, and later that of a protocol."""
    at, kinds = 0, {"pei": "peim", "dxe": "driver", "installed": "ppi"}
    for number, line in enumerate(text.split("\n"), 1):
        said = line.split("#")[0].strip()
        found = OWN.fullmatch(said)
        if found:
            word = found[1].lower()
            kinds["installed"] = "protocol" if word == "dxe" else kinds["installed"]
            yield Event(number, at, kinds[word], (found[2].lower(), *(["0"] if kinds[word] == "protocol" else [])))
        elif said:
            raise ValueError(f"line {number}, `{said[:60]}`: a text of one's own has lines `pei GUID`, `dxe GUID` and `installed GUID` alone")
        at += len(line) + 1


def is_own(text: str) -> bool:
    """Whether the first line that says anything is one of a text of one's own."""
    lines = (line.split("#")[0].strip() for line in text[:1 << 20].split("\n"))
    return bool(OWN.fullmatch(next((line for line in lines if line), "")))


# Its boots


def boots_of(text: str) -> list[Boot]:
    """The boots that a log tells of in which a module started, or that of a text of one's own."""
    if is_own(text):
        boot = Boot(is_own=True)
        for event in own_events(text):
            boot.add(event)
        boot.text, boot.end = text, len(text)
        return [boot] if boot.events else []
    boots = [Boot()]
    for number, event in enumerate(events_of(text)):
        if number == MOST_EVENTS:
            raise ValueError(f"the log has more than {MOST_EVENTS:,} starts and installs")
        if boots[-1].ends_before(event):
            boots.append(Boot())
        boots[-1].add(event)
    ends = [boot.events[0].at for boot in boots[1:]] + [len(text)]
    for boot, end in zip(boots, ends, strict=True):
        boot.text, boot.end = text, end
    return [boot for boot in boots if {"peim", "driver"} & boot.marks]


def choose(boots: list[Boot], number: int | None) -> tuple[list[Boot], str]:
    """The boots that are answered, and a word on the choice if there was one.

    It is the boot of this number from 1; or else the last whole one, or the last that came as far as any, and the last resume from S3."""
    if not boots:
        raise ValueError("no module starts in the log: it has no line `Loading PEIM GUID`, as a build with DEBUG_INFO and DEBUG_LOAD writes it")
    if number is not None and not 1 <= number <= len(boots):
        raise ValueError(f"the log has {len(boots)} boots: there is no boot {number if number < 10**9 else 'of this number'}")
    if number:
        taken, whys = [number - 1], {number - 1: "as asked for"}
    else:
        taken, whys = best_of(boots)
    if len(boots) == 1:
        return boots, ""
    chosen = " and ".join(f"boot {place + 1} is taken, {whys[place]}" for place in taken)
    return [boots[place] for place in taken], f"the log has {len(boots)} boots, of lines {spans(boots, taken)}; {chosen}"


def best_of(boots: list[Boot]) -> tuple[list[int], dict[int, str]]:
    """The places of the last boot of those that came furthest, and of the last resume, with what each is."""
    numbered = list(enumerate(boots))
    plain = [(boot.rank(), place) for place, boot in numbered if not boot.resumes()]
    resumed = [place for place, boot in numbered if boot.resumes()][-1:]
    rank, place = max(plain, default=((False, 0), 0))
    taken = [place] if plain and (rank[1] >= 2 or not resumed) else []
    return taken + resumed, {place: f"the last that {STAGES[rank[1]]}", **{at: "the last that resumed from S3" for at in resumed}}


def spans(boots: list[Boot], taken: list[int]) -> str:
    """The lines of each boot; of very many those of the first, of the last, and of those that are taken."""
    shown = [*range(len(boots))] if len(boots) <= MOST_SPANS else sorted({*range(MOST_SPANS // 2), *taken, *range(len(boots) - MOST_SPANS // 2, len(boots))})
    return ", ".join(f"{'.. ' if at and at - 1 not in shown else ''}{at + 1}: {boots[at].span()}" for at in shown)


def read_log(path: str) -> str:
    """The text of a log's file."""
    with open(path, "rb") as file:
        data = file.read(MOST_BYTES + 1)
    if len(data) > MOST_BYTES:
        raise ValueError(f"{path} is longer than {MOST_BYTES >> 20} MiB")
    return text_of(data)
