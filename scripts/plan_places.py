"""Where temporary RAM, RAM and the volumes of a plan lie: as a log tells, as far as a plan may have it. `log-to-trace` stands on it."""
from typing import NamedTuple

from boot_log import Boot

PAGE, FLASH_END = 0x1000, 1 << 32
# docs/FORMATS.md, "Plan": from where to where things may lie, and the least and most bytes of each memory.
LEAST_BASE, TOP = 0x100000, 1 << 40
SIZES = {"temp": (0x4000, 0x100000), "ram": (PAGE, 0x10000000)}
MEMORIES = {"temp": "temporary RAM", "ram": "RAM"}


class Span(NamedTuple):
    """Some bytes of the address space."""

    base: int
    length: int

    def end(self) -> int:
        return self.base + self.length

    def meets(self, other: "Span") -> bool:
        return self.base < other.end() and other.base < self.end()

    def __str__(self) -> str:
        return f"{self.base:#x} of {self.length:#x} bytes"


class Told(NamedTuple):
    """What a log tells: both memories, the boot volume, and other volumes, as far as it does."""

    memories: dict[str, Span]
    boot_volume: Span | None
    volumes: list[Span]


def told_by(boot: Boot) -> Told:
    """The places that the lines of a boot tell, each by the first of its lines."""
    first = {kind: next((event for event in boot.events if event.kind == kind), None) for kind in ("move", "stack", "heap", "memory", "begin")}
    memories = {}
    if first["memory"]:
        memories["ram"] = Span(first["memory"].number(0), first["memory"].number(1))
    if first["move"]:
        memories["temp"] = Span(first["move"].number(0), first["move"].number(2))
    elif first["stack"] and first["heap"]:
        stack, heap = (Span(first[kind].number(0), first[kind].number(1)) for kind in ("stack", "heap"))
        if stack.end() == heap.base or heap.end() == stack.base:
            memories["temp"] = Span(min(stack.base, heap.base), stack.length + heap.length)
    volumes = {int(event.words[0]): Span(event.number(1), event.number(2)) for event in reversed(boot.events) if event.kind == "volume"}
    spans = [span for number, span in sorted(volumes.items()) if number]
    spans += [Span(event.number(0), event.number(1) + 1 - event.number(0)) for event in boot.events if event.kind == "fv_hob"]
    if first["begin"] and first["begin"].words and FLASH_END > first["begin"].number(0) >= FLASH_END // 2:
        spans.append(Span(first["begin"].number(0), FLASH_END - first["begin"].number(0)))
    return Told(memories, volumes.get(0), [span for span in dict.fromkeys(spans) if span != volumes.get(0)])


class Places:
    """The places of a plan as they are given, none of which meets another, and a sentence for each that is not as the log tells."""

    def __init__(self) -> None:
        self.taken: list[Span] = []
        self.notes: list[str] = []

    def why_not(self, span: Span, unit: int) -> str:
        """What stands against a place; nothing where it may be had."""
        if span.base < LEAST_BASE or span.end() > TOP:
            return f"a plan has places from {LEAST_BASE:#x} to {TOP:#x}"
        if span.base % unit or unit == PAGE and span.length % unit:
            return f"it is no multiple of {unit}"
        met = next((other for other in self.taken if span.meets(other)), None)
        return f"it meets {met}" if met else ""

    def take(self, span: Span) -> Span:
        self.taken.append(span)
        return span

    def free(self, length: int) -> Span:
        """A place below 4 GiB, as high as there is one."""
        span = Span((FLASH_END - length) // PAGE * PAGE, length)
        while met := next((other for other in self.taken if span.meets(other)), None):
            span = Span((met.base - length) // PAGE * PAGE, length)
        return self.take(span)

    def memory(self, word: str, told: Span | None, own: Span) -> Span:
        """The place of a memory: as told, with no more bytes than a plan may have, else the plan's own."""
        if told:
            least, most = SIZES[word]
            why = self.why_not(told, PAGE) or (f"a plan's has {least:#x} bytes or more" if told.length < least else "")
            if not why and told.length > most:
                self.notes.append(f"{MEMORIES[word]} at {told} is cut to {most:#x} bytes, the most that a plan has")
            if not why:
                return self.take(Span(told.base, min(told.length, most)))
            self.notes.append(f"{MEMORIES[word]} is not at {told}, as the log tells: {why}")
        return self.free(own.length) if self.why_not(own, PAGE) else self.take(own)

    def volumes(self, told: Told, own: list[Span]) -> list[Span]:
        """The place of each volume: of the first what the log tells of the boot volume, of another what it tells of this length, else its own."""
        places: dict[int, Span] = {}
        for span in ([told.boot_volume] if told.boot_volume else []) + told.volumes:
            open_places = [0] if span is told.boot_volume else range(1, len(own))
            number = next((number for number in open_places if own[number].length == span.length and number not in places), None)
            if number is None:
                continue
            if why := self.why_not(span, 8):
                self.notes.append(f"volume {number} is not at {span}, as the log tells: {why}")
            else:
                places[number] = self.take(span)
        for number, span in enumerate(own):
            if number not in places:
                places[number] = self.free(span.length) if self.why_not(span, 8) else self.take(span)
        return [places[number] for number in range(len(own))]
