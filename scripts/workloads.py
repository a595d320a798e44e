"""The work that `scripts/measure` has done: plans, volumes, HOB lists and traces that are made by rule.

A row is a name, the program, its words, and what writes its files. Rows of one family differ in a size alone, so that the
measure can tell how what they take grows. Volumes are made from texts by `pitools volume`.
"""
import struct
from collections.abc import Callable, Iterable
from dataclasses import dataclass
from functools import partial
from pathlib import Path
from typing import Any

from made_volumes import PEIM, RAW_FILE, a_priori, body_of, file, filled, fitting, guid, in_bytes, made
from meeting_guids import meeting_guids

KIB, MIB = 1 << 10, 1 << 20
TEMP, RAM, BASE = 0x80000000, 0x40000000, 0x100000000
TEMP_LEN, RAM_LEN = MIB, 64 * MIB
MOST_ACTIONS = 1024
PPI, CALLBACK, DISPATCH = "ppi", "callback", "dispatch"
RICH = Path(__file__).resolve().parent.parent / "compare/rich"


def script(phase: str, actions: Iterable[str], *blocks: Iterable[str]) -> list[str]:
    lines = [f"script {phase}"]
    for block in (actions, *blocks):
        lines += ["block", *block, "ret Success"]
    return [*lines, "end"]


def peim(number: int, actions: Iterable[str], depex: str = "", *blocks: Iterable[str]) -> list[str]:
    front = [f"depex pei {depex}"] if depex else []
    return [f"file peim {guid(1, number)}", *front, *script("pei", actions, *blocks)]


def driver(number: int, depex: str, actions: Iterable[str]) -> list[str]:
    return [f"file driver {guid(4, number)}", f"depex dxe {depex}", *script("dxe", actions)]


# Actions of scripts.
def set_to(register: int, number: int) -> str:
    return f"set r{register} {number:#x}"


def desc(register: int, kind: str, name: str, last: int) -> str:
    return f"desc r{register} {kind} {name} {'r' if kind == PPI else 'block '}{last}"


def on_registers(action: str, *registers: int) -> str:
    return " ".join([action, *(f"r{register}" for register in registers)])


install, notify = partial(on_registers, "install"), partial(on_registers, "notify")


def locate(name: str) -> str:
    return f"locate r4 r5 {name} 0"


def install_memory(length: int) -> list[str]:
    return [set_to(14, RAM), set_to(15, length), "memory r14 r15"]


def install_ppi(name: str) -> list[str]:
    return [set_to(0, 0), desc(1, PPI, name, 0), install(1)]


def peims_of(actions: list[str], first: int = 0, front: list[str] | None = None, blocks: list[list[str]] | None = None) -> list[list[str]]:
    """As many PEIMs as it takes for so many actions, each with the same ones in front; pairs stay together."""
    front = front or []
    room = (MOST_ACTIONS - 1 - len(front)) // 2 * 2
    return [peim(first + at // room, front + actions[at : at + room], "", *(blocks or [])) for at in range(0, len(actions), room)]


def text_of(files: Iterable[list[str]]) -> str:
    return "".join(f"{line}\n" for lines in files for line in lines)


def write_boot(folder: Path, volume: bytes, ram: int = RAM_LEN, fuel: int = 1000000) -> None:
    """The plan `plan` and its volume."""
    plan = f"temp {TEMP:#x} {TEMP_LEN:#x}\nram {RAM:#x} {ram:#x}\nvolume {BASE:#x} a.fv\nfuel {fuel}\n"
    (folder / "plan").write_text(plan, encoding="ascii")
    (folder / "a.fv").write_bytes(volume)


# The boots, as the texts of their volumes' files.
def logs(peims: int, lines: int) -> list[list[str]]:
    return [peim(number, ["log ten ------"] * lines) for number in range(peims)]


def sets(count: int) -> list[list[str]]:
    return peims_of([set_to(0, 1)] * count)


def tree(count: int) -> list[list[str]]:
    """Each PEIM waits for the PPI of the one at half its number; the first to start is placed last."""
    return [peim(n, install_ppi(guid(2, n)), guid(2, (n - 1) // 2) if n else "") for n in range(count - 1, -1, -1)]


def line(count: int) -> list[list[str]]:
    """Each PEIM waits for the PPI of the one placed behind it."""
    return [peim(n, install_ppi(guid(2, n)), guid(2, n - 1) if n else "") for n in range(count - 1, -1, -1)]


def shadowed(count: int, actions: int) -> list[list[str]]:
    last = peim(count - 1, install_memory(RAM_LEN))
    return [peim(n, ["shadow"] + [set_to(0, 1)] * actions) for n in range(count - 1)] + [last]


def installs_and_locates(count: int) -> list[list[str]]:
    """Each installs a PPI of a new GUID, and locates it."""
    room = 250
    return [
        peim(first, [set_to(0, 0)] + [action for n in range(first, min(first + room, count)) for action in
                                      (desc(1, PPI, guid(2, n), 0), install(1), locate(guid(2, n)))])
        for first in range(0, count, room)
    ]


def other_notifications(kind: str, count: int) -> list[list[str]]:
    """So many notifications of GUIDs that nobody installs, then as many installs of another GUID."""
    registered = [action for n in range(count) for action in (desc(1, kind, guid(2, n), 1), notify(1))]
    room = 1000
    installed = [set_to(0, 0), desc(1, PPI, guid(3, 0), 0)]
    return peims_of(registered, blocks=[[]]) + [peim(10000 + n, installed + [install(1)] * room) for n in range(count // room)]


def reinstalled_to_another() -> list[str]:
    """A PPI that is installed, and reinstalled under another GUID."""
    return [set_to(0, 0), desc(1, PPI, guid(6, 0), 0), install(1), desc(2, PPI, guid(6, 1), 0), "reinstall r1 r2"]


def in_turn(fuel: int, first: list[str] | None = None) -> list[list[str]]:
    """After the move, and these actions, `notify` of eight and `install` of eight in turn, of two GUIDs, until the fuel is spent."""
    front = [set_to(0, 0), desc(1, CALLBACK, guid(2, 0), 1), desc(2, PPI, guid(2, 1), 0)]
    pair = [notify(*[1] * 8), install(*[2] * 8)]
    return [peim(0, install_memory(256 * MIB) + (first or [])), *peims_of(pair * (fuel // 2 + 1), 1, front, [[]])]


def ppis(count: int) -> list[list[str]]:
    room = 400
    return [peim(first, [set_to(0, 0)] + [action for n in range(first, min(first + room, count)) for action in
                                          (desc(1, PPI, guid(2, n), 0), install(1))]) for first in range(0, count, room)]


def ppis_and_locates(count: int) -> list[list[str]]:
    """After the move so many PPIs of as many GUIDs, then as many locates of the last."""
    return [peim(90000, install_memory(256 * MIB)), *ppis(count), *peims_of([locate(guid(2, count - 1))] * count, count)]


def reinstalls_of_the_last(count: int) -> list[list[str]]:
    """After the move so many PPIs, then as many reinstalls of the last of them."""
    again = [set_to(0, 0), locate(guid(2, count - 1)), desc(6, PPI, guid(2, count - 1), 0)]
    return [peim(90000, install_memory(256 * MIB)), *ppis(count), *peims_of(["reinstall r4 r6", "reinstall r6 r4"] * (count // 2), count, again)]


def toggles(waiters: int) -> list[list[str]]:
    """PEIMs that wait for two GUIDs, of which one comes and goes as often as there are waiters."""
    waiting = [peim(n, [], f"{guid(2, 0)} AND {guid(2, 1)}") for n in range(waiters)]
    front = [set_to(0, 0), desc(1, PPI, guid(2, 0), 0), desc(2, PPI, guid(2, 2), 0), install(1)]
    return waiting + peims_of(["reinstall r1 r2", "reinstall r2 r1"] * (waiters // 2), waiters, front)


def hand_off() -> list[str]:
    return peim(0, install_memory(RAM_LEN) + install_ppi("dxe-ipl-ppi") + [f"hob 5 {struct.pack('<QQ', BASE, 0).hex()}"])


def install_protocol(name: str) -> str:
    return f"install new r2 {name} r1"


def locate_protocol(name: str) -> str:
    return f"locate r2 r3 {name}"


def drivers_in_line(count: int) -> list[list[str]]:
    return [hand_off()] + [driver(n, guid(5, n - 1) if n else "true", [set_to(1, 0), install_protocol(guid(5, n))]) for n in range(count - 1, -1, -1)]


def drivers_after(count: int) -> list[list[str]]:
    return [hand_off()] + [driver(n, f"after {guid(4, n - 1)}" if n else "true", []) for n in range(count - 1, -1, -1)]


def drivers_on_request(count: int) -> list[list[str]]:
    """Each driver waits for a request, which the one placed behind it makes."""
    request = [[f"schedule {guid(4, n + 1)}"] if n + 1 < count else [] for n in range(count)]
    return [hand_off()] + [driver(n, "sor true" if n else "true", request[n]) for n in range(count - 1, -1, -1)]


def protocols(names: list[str]) -> list[list[str]]:
    """Drivers that install these protocols, each on a handle of its own."""
    installed = [install_protocol(name) for name in names]
    room = 1000
    return [hand_off()] + [driver(n, "true", [set_to(1, 0), *installed[n : n + room]]) for n in range(0, len(names), room)]


def protocol_notifications(count: int, names: int) -> list[list[str]]:
    """A driver's notifications of so many GUIDs in turn, and another driver's installs of a GUID that none of them names."""
    room = 1000
    noted = [f"notify {guid(5, n % names)} block 1" for n in range(count)]
    listening = [[f"file driver {guid(4, first)}", "depex dxe true", *script("dxe", noted[first : first + room], [])] for first in range(0, count, room)]
    return [hand_off(), *listening, *(driver(count + at, "true", files) for at, files in enumerate(installs_of(guid(6, 0), count, room)))]


def installs_of(name: str, count: int, room: int) -> list[list[str]]:
    """So many installs of a protocol, each on a handle of its own, in scripts of so many."""
    return [[set_to(1, 0)] + [install_protocol(name)] * min(room, count - first) for first in range(0, count, room)]


def one_handle(count: int) -> list[list[str]]:
    """A handle of so many protocols, of which the first is taken off and put on again as often."""
    first = [set_to(1, 0), install_protocol(guid(5, 0))]
    put = [[set_to(1, 0), locate_protocol(guid(5, 0))] + [f"install on r2 {guid(5, n)} r1" for n in range(at, min(at + 1000, count))] for at in range(1, count, 1000)]
    turn = [f"uninstall r2 {guid(5, 0)} r1", f"install on r2 {guid(5, 0)} r1"]
    turns = [[set_to(1, 0), locate_protocol(guid(5, 1)), *turn * 500]] * (count // 500)
    return [hand_off(), *(driver(n, "true", actions) for n, actions in enumerate([first, *put, *turns]))]


def many_files() -> bytes:
    """16,384 files of 4,088 bytes in 64 MiB, of which 4,096 are PEIMs with an expression."""
    expression = body_of("depex pei memory-ppi\n").ljust(24, b"\0")
    body = expression + body_of(f"raw {'00' * (4088 - 24 - 4 - 24)}\n")
    return filled(b"".join(file(RAW_FILE if n % 4 else PEIM, in_bytes(guid(1, n)), body) for n in range(16384)), system="ffs3")


def large_scripts(count: int) -> list[list[str]]:
    return [[f"file peim {guid(1, n)}", *script("pei", [f"log {'a' * 60}"] * (MOST_ACTIONS - 1))] for n in range(count)]


def hob_list(places: Iterable[int]) -> bytes:
    """A hand-off HOB, a CPU of 48 bits, and HOBs of 4 KiB of system memory at these places, none of which touches another."""
    hand = struct.pack("<HHIII5Q", 1, 56, 0, 9, 0, 0, 0, 0, 0, 0)
    cpu = struct.pack("<HHIBB6x", 6, 16, 0, 48, 16)
    resource = b"".join(struct.pack("<HHI16sIIQQ", 3, 48, 0, bytes(16), 0, 0, n * 0x2000, 0x1000) for n in places)
    return hand + cpu + resource + struct.pack("<HHI", 0xFFFF, 8, 0)


@dataclass(frozen=True)
class Row:
    """One work. Where `traced` is set, the plain program's `boot` of the plan writes the file `trace` first."""

    name: str
    program: str
    words: list[str]
    write: Callable[[Path], None]
    family: str = ""
    size: int = 0
    traced: bool = False


def booted(name: str, files: Callable[[], list[list[str]]], size: int = 0, ram: int = RAM_LEN, fuel: int = 1000000, verb: str = "boot") -> Row:
    """A row that boots a volume. Where it has a size, the name up to the comma in front of it is its family's."""
    words = ["check", "plan", "trace"] if verb == "check" else [verb, "plan"]
    program = "pitools" if verb == "check" else "piboot"
    family = f"{verb} {name}" if size else ""
    shown = f"{name}, {size:,}" if size else name
    return Row(shown, program, words, lambda folder: write_boot(folder, fitting(text_of(files())), ram, fuel), family, size, verb == "check")


def audited(name: str, volume: Callable[[], bytes]) -> Row:
    return Row(f"audit: {name}", "piboot", ["audit", "plan"], lambda folder: write_boot(folder, volume()))


def nothing(_: Path) -> None:
    pass


def write_rich(folder: Path) -> None:
    """A boot that was made by chance, of 6 KB of volumes: its 48.8 MB of text took 77 s when lists were walked."""
    (folder / "plan").write_bytes((RICH / "plan").read_bytes())
    for text in RICH.glob("*.volume"):
        (folder / f"{text.stem}.fv").write_bytes(made(text.read_text(encoding="ascii")))


def write_gcd(folder: Path, places: Iterable[int]) -> None:
    (folder / "hobs").write_bytes(hob_list(places))
    (folder / "commands").write_text("top system 12 0x1000\n", encoding="ascii")


def gcd_row(order: str, places: Iterable[int], size: int) -> Row:
    return Row(f"gcd of HOBs {order}, {size:,}", "pitools", ["gcd", "hobs", "commands"], lambda folder: write_gcd(folder, places), f"gcd {order}", size)


def family(name: str, files: Callable[[int], list[list[str]]], smallest: int, **more: Any) -> list[Row]:
    """Rows of one work at n, 2n, 4n and 8n."""
    return [booted(name, lambda n=size: files(n), size, **more) for size in (smallest, 2 * smallest, 4 * smallest, 8 * smallest)]


def rows() -> list[Row]:
    after = dict(ram=256 * MIB)
    found = [Row("refused words", "piboot", ["boot"], nothing)]
    found += [booted("one PEIM in so many KiB of RAM", lambda: logs(1, 1), size, ram=size * KIB) for size in (4, 65536, 262144)]
    found += family("PEIMs of ten logs", lambda n: logs(n, 10), 512)
    found += family("a tree of PEIMs", tree, 512)
    found += family("a line of PEIMs", line, 512)
    found += family("logs", lambda n: logs(n // 1000, 1000), 32000)
    found += family("set", sets, 112500)
    found += family("shadowed PEIMs, each with 100 set", lambda n: shadowed(n, 100), 256)
    found += family("shadowed PEIMs", lambda n: shadowed(n, 0), 256)
    found += family("installs with a locate each", installs_and_locates, 1250)
    found += family("callbacks of other GUIDs, and as many installs", lambda n: other_notifications(CALLBACK, n), 500)
    found += family("dispatch notifications of others, and as many installs", lambda n: other_notifications(DISPATCH, n), 500)
    for size in (1000, 10000, 100000, 800000):
        found.append(booted("notify and install of eight in turn, fuel", lambda n=size: in_turn(n), size, fuel=size, **after))
    for size in (1000, 2000, 4000, 8000):
        behind = "the same after one reinstall to another GUID, fuel"
        found.append(booted(behind, lambda n=size: in_turn(n, reinstalled_to_another()), size, fuel=size, **after))
    found += family("installs with a locate each after one such reinstall", lambda n: [peim(90000, reinstalled_to_another()), *installs_and_locates(n)], 1250)
    found += family("PPIs", ppis, 1250)
    found += family("PPIs, and as many locates of the last", ppis_and_locates, 8000, **after)
    found += family("reinstalls of the last of as many PPIs", reinstalls_of_the_last, 1000, **after)
    found += family("a PPI that comes and goes for as many waiting PEIMs", toggles, 250)
    found.append(Row("a boot made by chance", "piboot", ["boot", "plan"], write_rich))
    found += family("drivers in a line", drivers_in_line, 500)
    found += family("drivers, each AFTER another", drivers_after, 500)
    found += family("drivers, each requested by another", drivers_on_request, 500)
    found += family("protocols", lambda n: protocols([guid(5, number) for number in range(n)]), 1000)
    found += family("protocols whose GUIDs meet in a hash table", lambda n: protocols(meeting_guids(n)), 1000)
    found += family("notifications of one protocol, and as many installs of another", lambda n: protocol_notifications(n, 1), 8000)
    found += family("notifications of as many protocols, and as many installs of another", lambda n: protocol_notifications(n, n), 8000)
    found += family("a handle of so many protocols, its first taken off and put on again", one_handle, 1000)
    found += [Row(f"generate {size}", "piboot", ["generate", str(size)], nothing, "generate", size) for size in (512, 1024, 2048, 4096)]
    found += [audited("16,384 files in 64 MiB", many_files), audited("256 scripts of 64 KiB", lambda: fitting(text_of(large_scripts(250))))]
    found += [audited("4 million a priori names of nobody", lambda: a_priori(4000000, 0)), audited("4 million of 4,096 PEIMs", lambda: a_priori(4000000, 4096))]
    found += [gcd_row("from the front", range(size), size) for size in (2725, 5450, 10900, 21800)]
    found += [gcd_row("from the back", range(size - 1, -1, -1), size) for size in (2725, 5450, 10900, 21800)]
    found += family("check a line of PEIMs", line, 512, verb="check")
    found += family("check installs with a locate each", installs_and_locates, 1250, verb="check")
    return found
