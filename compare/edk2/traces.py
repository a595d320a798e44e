"""Two traces of one boot in one form: what both cores tell, without what only one of them has (docs/COMPARISON.md)."""
from dataclasses import dataclass, field

from random_boots import RAM_BASE, RAM_SIZE

TEMP_BASE, TEMP_SIZE = 0x80000000, 0x100000
LISTS = ("ppi", "callback", "dispatch", "hob", "handle")
COUNTS = ("ppis", "callbacks", "dispatches", "pendings", "pending", "hobs", "handles")
SHOWN_ADDRESSES = ("pool", "desc", "hob", "pages", "memory")
SHOWN_HOBS = {3, 4, 5, 6, 9}


@dataclass
class Trace:
    """The lines of a run in order, those of the lists at its end, and what EDK2 asserted."""

    run: list[str] = field(default_factory=list)
    lists: list[str] = field(default_factory=list)
    asserts: list[str] = field(default_factory=list)


def number(word: str) -> str:
    """A printed number; an address in memory that the core gave is no more than that, since EDK2's core takes heap for itself."""
    value = int(word, 16)
    is_address = RAM_BASE <= value < RAM_BASE + RAM_SIZE or TEMP_BASE <= value < TEMP_BASE + TEMP_SIZE
    return "ADDRESS" if is_address else word


def modules_of(audit: list[str]) -> dict[str, str]:
    """Volume and file name by the number of a module."""
    lines = [line.split() for line in audit]
    return {words[1]: f"{words[2]}:{words[3]}" for words in lines if words[:1] == ["module"]}


def hob(words: list[str]) -> str | None:
    """A HOB of those that scripts make; of one of pages its length and type, and its address is the core's own choice."""
    kind, body = int(words[1]), bytes.fromhex(words[2]) if words[2] != "-" else b""
    if kind == 2 and body[:16] == bytes(16):
        return f"hob 2 {int.from_bytes(body[24:32], 'little'):#x} type {int.from_bytes(body[32:36], 'little')}"
    return f"hob {kind} {words[2]}" if kind in SHOWN_HOBS else None


def of_call(words: list[str]) -> list[str]:
    if words[1] in SHOWN_ADDRESSES:
        return words[:3]
    return words[:3] + [number(word) for word in words[3:]] if words[1] == "locate" else words


def entry(words: list[str], modules: dict[str, str]) -> str | None:
    """A line of the lists at the end."""
    if words[0] == "hob":
        return hob(words)
    if words[0] == "ppi":
        return f"ppi {modules.get(words[1], words[1])} {words[2]} {number(words[3])}"
    if words[0] in ("callback", "dispatch"):
        return f"{words[0]} {words[1]} {modules.get(words[2], words[2])} {words[3]}"
    return " ".join(words)


def step(words: list[str]) -> str:
    """A line of the run."""
    if words[0] == "call" and len(words) > 3:
        return " ".join(of_call(words))
    if words[0] in ("migrate", "handoff"):
        return words[0]
    if words[:2] == ["dxe", "start"]:
        return " ".join(words[:4])
    if words[0] == "waiting":
        return " ".join(words[:3]) + (" shadow" if words[-1] == "shadow" else "")
    return " ".join(words)


def read(lines: list[str], audit: list[str]) -> Trace:
    """The trace that a program printed."""
    trace, modules = Trace(), modules_of(audit)
    for line in lines:
        words = line.split()
        if not words or words[0] in COUNTS:
            continue
        if words[0] == "assert":
            # Without the number of the source's line.
            trace.asserts.append(" ".join([words[0], words[1].split(":")[0], *words[2:]]))
        elif words[0] in LISTS:
            shown = entry(words, modules)
            trace.lists += [shown] if shown else []
        else:
            trace.run.append(step(words))
    trace.lists.sort(key=lambda line: LISTS.index(line.split()[0]))
    return trace


def is_same(ours: str, theirs: str) -> bool:
    """Whether two lines are one. A call of EDK2's in which the boot ended has no status."""
    return ours == theirs or theirs.endswith(" unfinished") and ours.startswith(theirs.removesuffix("unfinished"))


def without_unfinished(ours: Trace, theirs: Trace) -> list[str]:
    """Our lists without the handles that EDK2 was still making when the boot ended: it has not told their numbers."""
    pairs = zip(ours.run, theirs.run)
    answers = [left.split()[3:] for left, right in pairs if right.endswith(" unfinished") and is_same(left, right)]
    numbers = {int(answer[0], 16) for answer in answers if answer}
    return [line for line in ours.lists if not (line.startswith("handle ") and int(line.split()[1]) in numbers)]


def first_difference(ours: Trace, theirs: Trace) -> str | None:
    """The first line in which two traces differ, in the run and then in the lists; or what EDK2 asserted where no line does."""
    lists = without_unfinished(ours, theirs)
    for place, one, other in (("line", ours.run, theirs.run), ("lists", lists, theirs.lists)):
        for at in range(max(len(one), len(other))):
            left = one[at] if at < len(one) else "-"
            right = other[at] if at < len(other) else "-"
            if not is_same(left, right):
                return f"{place} {at + 1}: here `{left}`, EDK2 `{right}`"
    if set(ours.asserts) != set(theirs.asserts):
        return f"EDK2: {' '.join(sorted(set(theirs.asserts)))}"
    return None
