"""Reads a boot a second time, from the texts of its volumes and the trace, and says in the words of `explain` why each module started or did not.

It is written apart from `pitools explain` and knows nothing of memory or of choices. Statuses and addresses are the trace's; what stands
in a register, in the lists of PPIs, notifications and protocols, and which script a notification runs, follow from the scripts.
`check-explain` stands on it.
"""
import uuid
from collections.abc import Iterator
from dataclasses import dataclass, field

from module_reading import GUID, Module, change, holds, read_tree

MEMORY_PPI = "f894643d-c449-42d1-8ea8-85bdd8c65bde"
CORE = "core"
MOST_GIVERS = 16  # of one GUID that are named
HEADER = 8  # the bytes of a HOB's header


class Differs(Exception):
    """The trace is not what the scripts say."""


@dataclass(eq=False)
class Descriptor:
    """A descriptor of PEI: its kind, its GUID, and of a notification the module and the block that it runs."""
    kind: str
    guid: str
    module: Module | None = None
    block: int = 0
    value: int = 0


@dataclass(eq=False)
class Ppi:
    """A place in the list of PPIs, in which a reinstall puts another descriptor."""
    descriptor: Descriptor


@dataclass(eq=False)
class Interface:
    handle: int
    guid: str
    value: int


@dataclass(eq=False)
class Frame:
    """A script that runs: the notifications that the last call has still to run are its sweep."""
    module: Module
    actions: list[list[str]]
    registers: dict[str, object] = field(default_factory=dict)
    at: int = 0
    status: str = "Success"
    sweep: Iterator[tuple[Descriptor, Descriptor]] = iter(())


class Boot:
    """What a trace tells of a boot: who started, by which licence, and what was there by then."""

    def __init__(self, modules: list[Module], memory: list[tuple[int, bytes]]) -> None:
        self.modules, self.memory = modules, memory
        self.phase, self.frames, self.sweep = "pei", [], iter(())
        self.ppis: list[Ppi] = []
        self.callbacks: list[Descriptor] = []
        self.dispatches: list[Descriptor] = []
        self.queue: list[tuple[Descriptor, Descriptor]] = []
        self.interfaces: list[Interface] = []
        self.handles = 0
        self.givers: dict[str, dict[str, Module | str]] = {"pei": {}, "dxe": {}}  # who has each GUID that is there
        self.notes: list[tuple[str, Module, int]] = []
        self.started: dict[str, list[Module]] = {"pei": [], "dxe": []}
        self.starts: list[str] = []
        self.known: dict[str, list[int]] = {"pei": [], "dxe": []}  # the volumes that each phase came to know
        self.waiting: dict[tuple[str, Module], str] = {}
        self.shadows: list[Module] = []
        self.requested: list[Module] = []
        self.moved: list[str] = []
        self.fuel, self.result = 0, ""
        self.heap = HEADER  # the end HOB

    # What is there

    def note(self, actor: Module | str) -> None:
        """Who has what is there now: for what has just come the one who acted."""
        givers = self.givers[self.phase]
        there = [ppi.descriptor.guid for ppi in self.ppis] if self.phase == "pei" else [each.guid for each in self.interfaces]
        self.givers[self.phase] = {guid: givers.get(guid, actor) for guid in there}

    def guid_at(self, address: object) -> str:
        """The GUID in a volume at an address."""
        for base, image in self.memory:
            if isinstance(address, int) and base <= address and address + 16 <= base + len(image):
                return str(uuid.UUID(bytes_le=image[address - base : address - base + 16]))
        raise Differs("a descriptor was made of a GUID at no place of a volume")

    # Lines

    def read(self, lines: list[str]) -> None:
        for number, line in enumerate(lines, 1):
            try:
                self.read_line(line.split(" "), line)
            except (Differs, KeyError, StopIteration, IndexError, ValueError) as fault:
                raise Differs(f"line {number} of the trace, `{line[:80]}`: {fault!r}") from fault
            if line.startswith("result "):
                self.result = line

    def read_line(self, words: list[str], line: str) -> None:
        match words:
            case [("pei" | "dxe") as phase, "start", volume, name, licence]:
                self.start(phase, int(volume), name, licence)
            case ["notify", kind, volume, name, guid]:
                self.notified(kind, int(volume), name, guid)
            case ["call", *_] | ["log", *_] | ["end", _]:
                self.act(words, line)
            case ["hob", _, body]:
                self.heap += HEADER + len(body.replace("-", "")) // 2
            case ["migrate", old, new]:
                self.moved = [old, new]
            case ["core", "install", "Success"]:
                self.sweep = self.installs([Descriptor("ppi", MEMORY_PPI)])
                self.note(CORE)
            case ["handoff", _]:
                self.phase = "dxe"
            case ["report", volume]:
                self.known["pei"].append(int(volume))
            case ["dxe", "volume", volume]:
                self.known["dxe"].append(int(volume))
            case ["waiting", volume, name, reason]:
                twins = [each for each in self.named(int(volume), name, self.phase) if (self.phase, each) not in self.waiting]
                part = next(each for each in twins if (each in self.started[self.phase]) == (reason == "shadow"))
                self.waiting[self.phase, part] = reason

    def named(self, volume: int, name: str, phase: str) -> list[Module]:
        return [each for each in self.modules if (each.volume, each.name) == (volume, name) and phase in each.parts]

    # Starts

    def start(self, phase: str, volume: int, name: str, licence: str) -> None:
        if self.frames:
            raise Differs("a module starts inside a script")
        before = self.started[phase]
        twins = [each for each in self.named(volume, name, phase) if (each in before) == (licence == "shadow")]
        module = next((each for each in twins if self.may_start(each, phase, licence)), twins[0])
        before.append(module)
        self.starts.append(f"start {module.number} {phase} {self.licence(module, phase, licence)}")
        for guid in module.asked(phase):
            maker = self.givers[phase].get(guid, "-")
            self.starts.append(f"needed {module.number} {guid} {maker.number if isinstance(maker, Module) else maker}")
        blocks = module.blocks.get(phase)
        self.fuel -= 0 if blocks else 1  # a part without a script ends by no action
        self.frames = [Frame(module, blocks[0] if blocks else [["ret", "Success"]])]

    def may_start(self, module: Module, phase: str, licence: str) -> bool:
        """Tells two modules of one name apart, by their expressions."""
        text = module.expressions.get(phase, "")
        if licence == "true":
            return (tree := read_tree(text)) is not None and holds(tree, set(self.givers[phase]))
        return licence in ("apriori", "shadow") or (text == "" if licence == "absent" else text.startswith(licence))

    def licence(self, module: Module, phase: str, licence: str) -> str:
        """A companion's line names the driver that its expression names."""
        if licence not in ("before", "after"):
            return licence
        name = GUID.findall(module.expressions[phase])[0]
        beside = next(each for each in self.order("dxe") if each.name == name)
        return f"{licence} {beside.number}"

    # Notifications

    def notified(self, kind: str, volume: int, name: str, guid: str) -> None:
        if kind == "protocol":
            module, block, registers = next(self.frames[-1].sweep)
        else:
            sweep = self.frames[-1].sweep if self.frames else self.sweep
            ppi, note = self.queue.pop(0) if kind == "dispatch" else next(sweep)
            module, block, registers = note.module, note.block, {"r0": ppi.value, "r1": ppi}
            if ppi.guid != guid:
                raise Differs(f"{ppi.guid} is due")
        if (module.volume, module.name) != (volume, name):
            raise Differs(f"a notification of module {module.number} is due")
        self.frames.append(Frame(module, module.blocks[self.phase][block], registers))

    def pairs(self, places: list[int], notes: list[Descriptor]) -> Iterator[tuple[Descriptor, Descriptor]]:
        """The callbacks that a call runs, each tested at its turn."""
        for place in places:
            for note in notes:
                if self.ppis[place].descriptor.guid == note.guid:
                    yield self.ppis[place].descriptor, note

    def queued(self, ppis: list[Descriptor], notes: list[Descriptor]) -> None:
        self.queue += [(ppi, note) for ppi in ppis for note in notes if ppi.guid == note.guid]

    def installs(self, new: list[Descriptor]) -> Iterator[tuple[Descriptor, Descriptor]]:
        first = len(self.ppis)
        self.ppis += [Ppi(descriptor) for descriptor in new]
        self.queued(new, self.dispatches)
        return self.pairs(list(range(first, len(self.ppis))), list(self.callbacks))

    # Actions

    def act(self, words: list[str], line: str) -> None:
        """The top script goes on, past what prints nothing, to the action that printed this line."""
        frame = self.frames[-1]
        if next(frame.sweep, None) is not None:
            raise Differs("a notification is due")
        while (action := frame.actions[frame.at])[0] in ("set", "add", "addr", "skip_if"):
            frame.at += 1
            self.fuel += 1
            self.write(frame, action)
        frame.at += 1
        self.fuel += 1
        if action[0] == "ret":
            if words != ["end", action[1]]:
                raise Differs(f"{action} is due")
            self.frames.pop()
        elif action[0] == "log":
            if line != f"log {action[1]}":
                raise Differs(f"{action} is due")
        elif words[:2] == ["call", action[0]]:
            frame.status = words[2]
            if words[2] == "Success":
                getattr(self, f"{self.phase}_{action[0]}", lambda *_: None)(frame, action[1:], words[3:])
                self.note(frame.module)
        else:
            raise Differs(f"{action} is due")

    def write(self, frame: Frame, action: list[str]) -> None:
        registers = frame.registers
        match action:
            case ["skip_if", condition, count]:
                frame.at += int(count) if (frame.status == "Success") == (condition == "0") else 0
                return
            case ["set", register, number]:
                registers[register] = int(number, 0)
            case ["add", register, number] if isinstance(registers.get(register), int):
                registers[register] = (registers[register] + int(number, 0)) % 2**64
            case ["addr", register, what, _] if not isinstance(registers.get(what, 0), int):
                registers[register] = 0  # an address in the heap, at which no volume is
            case _:
                frame.status = "InvalidParameter"
                return
        frame.status = "Success"

    def pei_pool(self, frame: Frame, words: list[str], _: list[str]) -> None:
        frame.registers[words[0]] = Descriptor("pool", "")

    def pei_desc(self, frame: Frame, words: list[str], _: list[str]) -> None:
        register, kind, *rest = words
        guid, *rest = [self.guid_at(frame.registers[rest[1]]), *rest[2:]] if rest[0] == "at" else rest
        made = Descriptor(kind, guid, frame.module)
        if kind == "ppi":
            made.value = frame.registers[rest[0]]
        else:
            made.block = int(rest[1])
        frame.registers[register] = made

    def pei_install(self, frame: Frame, words: list[str], _: list[str]) -> None:
        frame.sweep = self.installs([frame.registers[word] for word in words])

    def pei_reinstall(self, frame: Frame, words: list[str], _: list[str]) -> None:
        old, new = (frame.registers[word] for word in words)
        place = next(at for at, ppi in enumerate(self.ppis) if ppi.descriptor is old)
        self.ppis[place].descriptor = new
        self.queued([new], self.dispatches)
        frame.sweep = self.pairs([place], list(self.callbacks))

    def pei_notify(self, frame: Frame, words: list[str], _: list[str]) -> None:
        notes = [frame.registers[word] for word in words]
        callbacks = [note for note in notes if note.kind == "callback"]
        dispatches = [note for note in notes if note.kind == "dispatch"]
        self.queued([ppi.descriptor for ppi in self.ppis], dispatches)
        self.callbacks += callbacks
        self.dispatches += dispatches
        frame.sweep = self.pairs(list(range(len(self.ppis))), callbacks)

    def pei_locate(self, frame: Frame, words: list[str], shown: list[str]) -> None:
        register, value, guid, instance = words
        frame.registers[register] = [ppi.descriptor for ppi in self.ppis if ppi.descriptor.guid == guid][int(instance)]
        frame.registers[value] = int(shown[0], 0)

    def pei_pages(self, frame: Frame, words: list[str], shown: list[str]) -> None:
        frame.registers[words[0]] = int(shown[0], 0)

    def pei_boot_mode(self, frame: Frame, words: list[str], shown: list[str]) -> None:
        if words[0] == "get":
            frame.registers[words[1]] = int(shown[0], 0)

    def pei_shadow(self, frame: Frame, _: list[str], __: list[str]) -> None:
        self.shadows.append(frame.module)

    def dxe_schedule(self, _: Frame, words: list[str], __: list[str]) -> None:
        gone = self.requested + self.started["dxe"]
        waits = [each for each in self.order("dxe") if each.expressions.get("dxe", "").startswith("sor ") and each not in gone]
        self.requested.append(next(each for each in waits if each.name == words[0]))

    def tell(self, guid: str, value: int, handle: int) -> Iterator[tuple[Module, int, dict[str, object]]]:
        return iter([(module, block, {"r0": value, "r1": ("handle", handle)}) for noted, module, block in self.notes if noted == guid])

    def dxe_install(self, frame: Frame, words: list[str], _: list[str]) -> None:
        form, register, guid, value = words
        if form == "new":
            self.handles += 1
            frame.registers, number = frame.registers | {register: ("handle", self.handles)}, frame.registers[value]
        else:
            number = frame.registers[value]
        handle = frame.registers[register][1]
        self.interfaces.append(Interface(handle, guid, number))
        frame.sweep = self.tell(guid, number, handle)

    def interface(self, frame: Frame, register: str, guid: str, value: str) -> Interface:
        handle, number = frame.registers[register][1], frame.registers[value]
        return next(each for each in self.interfaces if (each.handle, each.guid, each.value) == (handle, guid, number))

    def dxe_reinstall(self, frame: Frame, words: list[str], _: list[str]) -> None:
        register, guid, old, new = words
        there = self.interface(frame, register, guid, old)
        there.value = frame.registers[new]
        frame.sweep = self.tell(guid, there.value, there.handle)

    def dxe_uninstall(self, frame: Frame, words: list[str], _: list[str]) -> None:
        self.interfaces.remove(self.interface(frame, *words))

    def dxe_locate(self, frame: Frame, words: list[str], shown: list[str]) -> None:
        register, value, guid = words
        frame.registers[register] = ("handle", min(each.handle for each in self.interfaces if each.guid == guid))
        frame.registers[value] = int(shown[0], 0)

    def dxe_notify(self, frame: Frame, words: list[str], _: list[str]) -> None:
        self.notes.append((words[0], frame.module, int(words[2])))

    # What is told

    def order(self, phase: str) -> list[Module]:
        """The parts of the volumes that a phase knows, in its order."""
        return [each for volume in self.known[phase] for each in self.ranked(volume, phase)]

    def ranked(self, volume: int, phase: str) -> list[Module]:
        parts = [each for each in self.modules if each.volume == volume and phase in each.parts]
        return sorted(parts, key=lambda each: each.ranks.get(phase, len(self.modules))) if phase == "pei" else parts

    def reason(self, module: Module, phase: str) -> str | None:
        """Why a part of a known volume waits: as the trace says, or where the boot ended before its phase stopped, by its expression."""
        if module in self.started[phase]:
            waits = phase == "pei" and module in self.shadows and self.started[phase].count(module) == 1
            return "shadow" if waits else None
        if (phase, module) in self.waiting:
            return self.waiting[phase, module]
        word = module.expressions.get(phase, "").partition("@")[0].partition(" ")[0]
        if phase == "dxe" and (word in ("", "before", "after") or word == "sor" and module not in self.requested):
            return {"": "absent", "sor": "unrequested"}.get(word, word)
        return "malformed" if word == "malformed" else "false"

    def waits(self, module: Module, phase: str, reason: str) -> list[str]:
        """The lines on a part that waits."""
        givers, number = self.givers[phase], module.number
        told = [f"waits {number} {phase} {reason}"]
        for guid in module.asked(phase):
            if guid in givers:
                maker = givers[guid]
                told.append(f"has {number} {guid} {maker.number if isinstance(maker, Module) else maker}")
                continue
            may = [each for each in self.modules if guid in each.gives(phase)]
            pairs = [f"{each.number} {'started' if each in self.started[phase] else 'waits'}" for each in may]
            pairs[MOST_GIVERS:] = ["more"] * (len(pairs) > MOST_GIVERS)
            if phase == "pei" and guid == MEMORY_PPI:
                pairs.insert(0, "core waits")
            told.append(f"lacks {number} {guid} {' '.join(pairs) or '-'}")
        return told + self.change(module, phase)

    def change(self, module: Module, phase: str) -> list[str]:
        """The lines on the change that would make a part's expression hold."""
        found = change(module, phase, set(self.givers[phase]))
        if found is None:
            return []
        come, go = found
        told = [f"would {module.number} {' '.join(come) or '-'}"] if come or not go else []
        return told + ([f"unless {module.number} {' '.join(go)}"] if go else [])

    def told(self) -> list[str]:
        """All lines but those of modules, and that of the heap as it moved."""
        lines = list(self.starts)
        for phase in ("pei", "dxe"):
            reasons = [(module, self.reason(module, phase)) for module in self.order(phase)]
            lines += [line for module, reason in reasons if reason for line in self.waits(module, phase, reason)]
        for phase, reason in (("pei", "unreported"), ("dxe", "undiscovered")):
            unknown = [each for each in self.modules if phase in each.parts and each.volume not in self.known[phase]]
            lines += [f"waits {each.number} {phase} {reason}" for each in unknown]
        moved = [f"moved {' '.join(self.moved)}"] if self.moved else []
        return [*lines, *moved, f"heap end {self.heap}", f"fuel {self.fuel}", self.result]

    def catalogue(self) -> list[str]:
        lines = []
        for module in self.modules:
            lines.append(f"module {module.number} {module.shown}")
            for phase in module.parts:
                lines.append(f"expr {module.number} {phase} {module.expressions.get(phase, '-')}")
                lines += [f"gives {module.number} {phase} {given}" for given in module.gives(phase)]
        return lines
