"""Random boots by rule: the texts of a boot's volumes (docs/FORMATS.md, the text of a volume), made from a campaign and a seed."""
import random
from dataclasses import dataclass, field

TEMP = "temp 0x80000000 0x80000"
RAM_BASE, RAM_SIZE = 0x40000000, 0x4000000
FUEL = 2000
FIRST_VOLUME, VOLUME_STEP = 0xFF000000, 0x100000
VOLUME_LENGTH = 0x8000

PPIS = [f"00000002-0000-4000-8000-0000000000{i:02x}" for i in range(1, 6)]
PROTOCOLS = [f"00000003-0000-4000-8000-0000000000{i:02x}" for i in range(1, 5)]
FORMATS_OF_VOLUMES = ["78e58c8c3d8a1c4f9935896185c32dd3", "7ac07354cb3dca4dbd6f1e9689e7349a"]
MEMORY_LENGTHS = ["0x200000", "0x400000"]
FIRST_DRIVER = 0x20


def module_name(number: int) -> str:
    """The file name of a module by its number in a boot."""
    return f"00000001-0000-4000-8000-0000000000{number:02x}"


def volume_base(number: int) -> int:
    """Where a volume of the plan lies."""
    return FIRST_VOLUME + VOLUME_STEP * number


def plan_of(volumes: int) -> str:
    """The plan of so many volumes, v0.fv and so on."""
    lines = [TEMP, f"ram {RAM_BASE:#x} {RAM_SIZE:#x}", f"fuel {FUEL}", "pages 0x40000"]
    return "\n".join(lines + [f"volume {volume_base(i):#x} v{i}.fv" for i in range(volumes)]) + "\n"


@dataclass(frozen=True)
class Campaign:
    """What the scripts and volumes of a campaign's boots may hold."""

    phase: str  # "pei" or "dxe"
    actions: tuple[str, ...]  # drawn with equal weight, so that one that stands twice comes twice as often
    kinds: tuple[str, ...] = ()  # of notifications in PEI
    marks: frozenset[str] = field(default_factory=frozenset)
    absent: float = 0.4  # how often a PEIM has no expression
    volumes: int = 1
    told: int | None = None  # how many of DXE's volumes have an FV HOB; None: all
    drivers: int = 4
    leaf: bool = False  # notifications install nothing
    by_expression: bool = False  # drivers start by their expressions, and else in the order of an a priori list
    types: tuple[str, ...] = ("driver",)


def marked(*words: str) -> frozenset[str]:
    return frozenset(words)


PEI = ("install",) * 4 + ("locate",) * 2 + ("log", "wrong", "mode", "hob", "pool")
NOTIFY = ("notify",) * 3
MOVE = ("memory", "pages", "pages", "value", "value", "peek", "peek")
DXE = ("install",) * 3 + ("on",) * 2

CAMPAIGNS: dict[str, Campaign] = {
    "pei-plain": Campaign("pei", PEI, absent=0.3),
    "pei-report": Campaign("pei", PEI + ("report",) * 3 + ("notify",) * 2, kinds=("callback",), absent=0.5, volumes=4),
    "pei-callback": Campaign("pei", PEI + NOTIFY, kinds=("callback",), marks=marked("again")),
    "pei-reinstall": Campaign("pei", PEI + ("reinstall",) * 3 + ("notify",) * 2, kinds=("callback",), marks=marked("again"), absent=0.5),
    "pei-memory": Campaign("pei", PEI + MOVE),
    "pei-memory-callback": Campaign("pei", PEI + ("memory", "notify", "notify", "value", "peek"), kinds=("callback",)),
    "pei-apriori": Campaign("pei", PEI, marks=marked("apriori"), absent=0.2),
    "pei-apriori-volumes": Campaign("pei", PEI, marks=marked("apriori", "all-apriori"), absent=0.2, volumes=3),
    "pei-shadow": Campaign("pei", PEI + ("shadow",) * 3),
    "pei-shadow-callback": Campaign("pei", PEI + ("notify", "shadow") * 3, kinds=("callback",), absent=0.5),
    "pei-s3": Campaign("pei", PEI + ("shadow", "shadow", "s3")),
    "pei-dispatch": Campaign("pei", PEI + NOTIFY, kinds=("dispatch",)),
    "pei-memory-dispatch": Campaign("pei", PEI + ("memory", "notify", "notify", "value", "peek"), kinds=("dispatch",)),
    "pei-lists": Campaign("pei", PEI + NOTIFY, kinds=("callback",), marks=marked("lists")),
    "pei-both": Campaign("pei", PEI + NOTIFY, kinds=("callback", "dispatch")),
    "pei-all": Campaign(
        "pei",
        PEI + NOTIFY + ("reinstall", "reinstall", "memory", "pages", "value", "peek"),
        kinds=("callback",),
        marks=marked("again", "apriori"),
    ),
    "pei-nested": Campaign("pei", PEI, marks=marked("nested"), absent=0.5),
    "pei-malformed": Campaign("pei", PEI, marks=marked("malformed"), absent=0.2),
    "pei-states": Campaign("pei", PEI, marks=marked("states", "apriori")),
    "pei-sums": Campaign("pei", PEI, marks=marked("sums", "apriori")),
    "pei-apriori-files": Campaign("pei", PEI, marks=marked("apriori", "apriori-again"), absent=0.2),
    "dxe-plain": Campaign("dxe", DXE + ("locate", "wrong", "log", "dispatch")),
    "dxe-process": Campaign("dxe", ("install", "install", "process", "process", "log"), volumes=2, told=1, drivers=5),
    "dxe-uninstall": Campaign("dxe", ("install", "install", "on", "on", "locate", "locate", "uninstall", "uninstall", "uninstall", "wrong")),
    "dxe-locate": Campaign("dxe", ("install", "install", "on", "on", "locate", "locate", "locate", "reinstall", "reinstall")),
    "dxe-leaf": Campaign("dxe", DXE + ("notify", "notify", "uninstall", "reinstall", "log"), leaf=True),
    "dxe-notify": Campaign("dxe", DXE + ("notify", "notify", "log")),
    "dxe-notify-changes": Campaign("dxe", DXE + ("notify", "notify", "uninstall", "reinstall")),
    "dxe-apriori-volumes": Campaign("dxe", DXE + ("log",), volumes=3, drivers=6, marks=marked("all-apriori"), by_expression=True),
    "dxe-companions": Campaign("dxe", ("install",) * 3 + ("log",), marks=marked("companions"), by_expression=True, drivers=5),
    "dxe-requests": Campaign("dxe", ("install",) * 3 + ("schedule",) * 2, marks=marked("sor"), by_expression=True, drivers=5),
    "dxe-batch": Campaign("dxe", ("install",) * 3 + ("log",), by_expression=True, drivers=5),
    "dxe-comings": Campaign("dxe", ("install",) * 3 + ("uninstall",) * 3, by_expression=True, drivers=6),
    "dxe-types": Campaign("dxe", ("install",) * 3 + ("log",), by_expression=True, drivers=5, types=("driver", "combined", "mm-dxe")),
    "dxe-nested": Campaign("dxe", ("install",) * 3 + ("log",), marks=marked("nested"), drivers=5),
    "dxe-malformed": Campaign("dxe", ("install",) * 3 + ("log",), marks=marked("malformed"), by_expression=True, drivers=5),
    "dxe-states": Campaign("dxe", ("install",) * 3 + ("log", "process"), marks=marked("states"), volumes=2, drivers=6),
    "dxe-sums": Campaign("dxe", ("install",) * 3 + ("log", "process"), marks=marked("sums"), volumes=2, drivers=6),
    "dxe-apriori-files": Campaign("dxe", DXE + ("log",), drivers=6, marks=marked("apriori", "apriori-again"), by_expression=True),
    "dxe-all": Campaign(
        "dxe",
        DXE + ("notify", "notify", "uninstall", "reinstall", "locate", "locate", "log", "wrong", "process", "dispatch", "schedule"),
        leaf=True,
        volumes=2,
        told=1,
        drivers=5,
    ),
}

# States of a file in a volume of erase polarity 1: sound ones, ones with bits beside the highest, dead ones, and ones of no meaning.
STATES = ["f8", "f0", "f9", "fb", "f4", "e8", "ef", "fd", "fe", "fc", "fa", "ff", "d8", "de", "b8", "78", "38", "00"]

# Expressions as bytes that neither reader takes: an operator without operands, a value left over, a GUID that is cut, an unknown
# opcode, SOR in the midst, no END.
MALFORMED = ["03 08", "06 06 08", "02 0011 08", "0a 08", "06 09 08", "06"]


class Boot:
    """One random boot: draws from its own source, so that a campaign and a seed say it."""

    def __init__(self, campaign: Campaign, seed: str) -> None:
        self.campaign = campaign
        self.draw = random.Random(seed)
        self.has_memory = False

    def chance(self, share: float) -> bool:
        return self.draw.random() < share

    def volumes(self) -> list[str]:
        """The texts of the plan's volumes."""
        return self.pei_volumes() if self.campaign.phase == "pei" else self.dxe_volumes()

    # Expressions.

    def expression(self, guids: list[str], depth: int = 2) -> str:
        if depth == 0 or self.chance(0.45):
            return self.draw.choice(guids + ["true"] if self.chance(0.9) else ["false"])
        if self.chance(0.25):
            return "not " + self.expression(guids, depth - 1)
        operator = self.draw.choice(["and", "or"])
        return f"({self.expression(guids, depth - 1)} {operator} {self.expression(guids, depth - 1)})"

    def malformed(self, section: str) -> list[str] | None:
        if "malformed" in self.campaign.marks and self.chance(0.3):
            return [f"section {section} {self.draw.choice(MALFORMED)}"]
        return None

    def file(self, line: str) -> list[str]:
        """The line that begins a file, and what of its header is otherwise than it should be."""
        lines, marks = [line], self.campaign.marks
        if "states" in marks and self.chance(0.25):
            lines.append(f"# state {self.draw.choice(STATES)}")
        if "sums" in marks and self.chance(0.3):
            lines.append("# sum counted")
        if "sums" in marks and self.chance(0.12):
            lines.append(f"# sum {self.draw.choice(['header', 'file'])}")
        return lines

    # PEI.

    def pei_action(self, blocks: int, is_notified: bool) -> list[str]:
        """The lines of one drawn action with what it needs; none where it can't stand here."""
        action = self.draw.choice(self.campaign.actions)
        return getattr(self, "pei_" + action)(blocks, is_notified)

    def pei_install(self, blocks: int, is_notified: bool) -> list[str]:
        count = self.draw.randint(2, 3) if "lists" in self.campaign.marks and self.chance(0.4) else 1
        lines: list[str] = []
        registers = [f"r{i + 2}" for i in range(count)]
        for register in registers:
            lines += [f"set r10 {self.draw.randint(1, 30)}", f"desc {register} ppi {self.draw.choice(PPIS)} r10"]
        lines.append("install " + " ".join(registers))
        if "again" in self.campaign.marks and self.chance(0.15):
            lines.append("install " + registers[-1])
        return lines

    def pei_notify(self, blocks: int, is_notified: bool) -> list[str]:
        if blocks == 1:
            return []
        count = self.draw.randint(2, 3) if "lists" in self.campaign.marks and self.chance(0.4) else 1
        registers = [f"r{i + 5}" for i in range(count)]
        lines = [
            f"desc {r} {self.draw.choice(self.campaign.kinds)} {self.draw.choice(PPIS)} block {self.draw.randint(1, blocks - 1)}"
            for r in registers
        ]
        return lines + ["notify " + " ".join(registers)]

    def pei_locate(self, blocks: int, is_notified: bool) -> list[str]:
        return [f"locate r{self.draw.randint(2, 3)} r11 {self.draw.choice(PPIS)} {self.draw.choice([0, 0, 0, 1, 2])}"]

    def pei_reinstall(self, blocks: int, is_notified: bool) -> list[str]:
        lines = [f"set r10 {self.draw.randint(31, 60)}"]
        if is_notified and self.chance(0.3):
            return lines + [f"desc r4 ppi {self.draw.choice(PPIS)} r10", "reinstall r1 r4"]
        guid = self.draw.choice(PPIS)
        new = guid if self.chance(0.7) else self.draw.choice(PPIS)
        return lines + [f"locate r2 r11 {guid} {self.draw.choice([0, 0, 1])}", f"desc r4 ppi {new} r10", "reinstall r2 r4"]

    def pei_pool(self, blocks: int, is_notified: bool) -> list[str]:
        return [f"pool r8 {self.draw.choice([0, 1, 8, 20, 65521, 300])}"]

    def pei_value(self, blocks: int, is_notified: bool) -> list[str]:
        """A PPI whose value is an address in the heap."""
        return ["pool r8 16", "store r8 0 0102030405060708", "addr r9 r8 0", f"desc r2 ppi {self.draw.choice(PPIS)} r9", "install r2"]

    def pei_peek(self, blocks: int, is_notified: bool) -> list[str]:
        return [f"locate r2 r11 {self.draw.choice(PPIS)} 0", "peek r11 8"]

    def pei_hob(self, blocks: int, is_notified: bool) -> list[str]:
        kind = self.draw.choice([3, 4, 6, 9])
        length = {3: 40, 6: 8, 9: 48}.get(kind, self.draw.choice([16, 17, 20, 24, 33]))
        return [f"hob {kind} {self.draw.randbytes(length).hex()}"]

    def pei_pages(self, blocks: int, is_notified: bool) -> list[str]:
        if is_notified:
            # One that runs often would want more pages than a plan has.
            return []
        return [f"pages r9 {self.draw.choice([0, 1, 4, 4, 6, 7, 9, 10, 11, 14])} {self.draw.choice([1, 1, 2, 3])}"]

    def pei_mode(self, blocks: int, is_notified: bool) -> list[str]:
        if self.chance(0.5):
            return [f"set r9 {self.draw.choice([0, 1, 2, 0x10, 0x12, 0x20])}", "boot_mode set r9"]
        return ["boot_mode get r9"]

    def pei_s3(self, blocks: int, is_notified: bool) -> list[str]:
        return ["set r9 0x11", "boot_mode set r9"]

    def pei_memory(self, blocks: int, is_notified: bool) -> list[str]:
        if self.has_memory:
            return []
        self.has_memory = True
        return [f"set r12 {RAM_BASE:#x}", f"set r13 {self.draw.choice(MEMORY_LENGTHS)}", "memory r12 r13"]

    def pei_shadow(self, blocks: int, is_notified: bool) -> list[str]:
        return ["shadow"] + (["skip_if 0 1", "log second or again"] if self.chance(0.5) else [])

    def pei_wrong(self, blocks: int, is_notified: bool) -> list[str]:
        wrong = ["install r15", "notify r15", "reinstall r15 r15", "install r1", "notify r2", f"desc r3 ppi {PPIS[0]} r15", "peek r15 4"]
        return [self.draw.choice(wrong + ["add r15 1"])]

    def pei_log(self, blocks: int, is_notified: bool) -> list[str]:
        return [f"log n{self.draw.randint(0, 99)}"]

    def pei_report(self, blocks: int, is_notified: bool) -> list[str]:
        base = volume_base(self.draw.randint(0, 3)).to_bytes(8, "little").hex()
        kind = self.draw.choice(FORMATS_OF_VOLUMES) if self.chance(0.9) else "00" * 16
        lines = ["pool r8 48", f"store r8 0 {kind}", f"store r8 16 {base}00400000", "addr r9 r8 0"]
        return lines + ["desc r2 ppi volume-info-ppi r9", "install r2"]

    def pei_block(self, blocks: int, is_notified: bool) -> list[str]:
        lines = ["block"]
        for _ in range(self.draw.randint(1, 7)):
            lines += self.pei_action(blocks, is_notified)
        return lines + [f"ret {self.draw.choice(['Success', 'NotFound'])}"]

    def peim(self, number: int) -> list[str]:
        lines = self.file(f"file peim {module_name(number)}")
        if self.draw.random() > self.campaign.absent:
            lines += self.malformed("1b") or ["depex pei " + self.expression(PPIS + ["memory-ppi"])]
        blocks = self.draw.choice([1, 2, 3]) if self.campaign.kinds else 1
        lines.append("script pei")
        for block in range(blocks):
            lines += self.pei_block(blocks, block > 0)
        return lines + ["end"]

    def a_priori(self, name: str, numbers: list[int], share: float) -> list[str]:
        if "all-apriori" not in self.campaign.marks and "apriori" not in self.campaign.marks or not self.chance(share):
            return []
        lines: list[str] = []
        for _ in range(2 if "apriori-again" in self.campaign.marks and self.chance(0.6) else 1):
            drawn = self.draw.sample(numbers, self.draw.randint(1, len(numbers)))
            lines += self.file(f"file freeform {name}") + ["guids " + " ".join(module_name(i) for i in drawn)]
        return lines

    def last_peims(self) -> list[str]:
        """The DXE IPL's PPI behind the move, and memory where no other module gives it."""
        lines = [f"file peim {module_name(0x80)}", "depex pei memory-ppi", "script pei", "block"]
        lines += ["set r1 0", "desc r2 ppi dxe-ipl-ppi r1", "install r2", "ret Success", "end"]
        if not self.has_memory and self.chance(0.8):
            lines += [f"file peim {module_name(0x81)}", "script pei", "block", f"set r1 {RAM_BASE:#x}", "set r2 0x400000"]
            lines += ["memory r1 r2", "ret Success", "end"]
        return lines

    def nested(self, number: int, files: list[str]) -> list[str]:
        if "nested" not in self.campaign.marks or not self.chance(0.7):
            return []
        # The empty section lets the volume begin at a multiple of 8: EDK2 copies one that does not, which then has another address.
        return [f"file volume-image {module_name(number)}", "raw", f"volume {0x1000}"] + files + ["end"]

    def pei_volume(self, first: int, count: int, is_first: bool) -> str:
        numbers = list(range(first, first + count))
        lines = [f"volume {VOLUME_LENGTH:#x}"] + self.a_priori("pei-apriori", numbers, 0.6)
        for number in numbers:
            lines += self.nested(0x60 + number, self.peim(0x40 + number))
            lines += self.peim(number)
        return "\n".join(lines + (self.last_peims() if is_first else []) + ["end"]) + "\n"

    def pei_volumes(self) -> list[str]:
        others = range(1, self.campaign.volumes)
        first = self.pei_volume(1, self.draw.randint(2, 5), True)
        return [first] + [self.pei_volume(0x10 * i, self.draw.randint(1, 3), False) for i in others]

    # DXE.

    def dxe_action(self, blocks: int) -> list[str]:
        return getattr(self, "dxe_" + self.draw.choice(self.campaign.actions))(blocks)

    def handle(self, first: int = 2) -> str:
        return f"r{self.draw.randint(first, 5)}"

    def dxe_install(self, blocks: int) -> list[str]:
        return [f"set r10 {self.draw.randint(1, 30)}", f"install new {self.handle()} {self.draw.choice(PROTOCOLS)} r10"]

    def dxe_on(self, blocks: int) -> list[str]:
        return [f"set r10 {self.draw.randint(1, 30)}", f"install on {self.handle(1)} {self.draw.choice(PROTOCOLS)} r10"]

    def dxe_locate(self, blocks: int) -> list[str]:
        return [f"locate {self.handle()} r11 {self.draw.choice(PROTOCOLS)}"]

    def dxe_reinstall(self, blocks: int) -> list[str]:
        guid = self.draw.choice(PROTOCOLS)
        return [f"set r12 {self.draw.randint(31, 60)}", f"locate r3 r11 {guid}", f"reinstall r3 {guid} r11 r12"]

    def dxe_uninstall(self, blocks: int) -> list[str]:
        guid = self.draw.choice(PROTOCOLS)
        return [f"locate r3 r11 {guid}", f"uninstall r3 {guid} r11"]

    def dxe_wrong(self, blocks: int) -> list[str]:
        guid = self.draw.choice(PROTOCOLS)
        wrong = [f"uninstall {self.handle(1)} {guid} r12", f"reinstall {self.handle(1)} {guid} r12 r12"]
        return ["set r12 99", self.draw.choice(wrong + [f"uninstall r14 {PROTOCOLS[0]} r12", "add r14 1"])]

    def dxe_notify(self, blocks: int) -> list[str]:
        return [f"notify {self.draw.choice(PROTOCOLS)} block {self.draw.randint(1, blocks - 1)}"] if blocks > 1 else []

    def dxe_schedule(self, blocks: int) -> list[str]:
        return [f"schedule {module_name(FIRST_DRIVER + self.draw.randrange(self.campaign.drivers))}"]

    def dxe_dispatch(self, blocks: int) -> list[str]:
        return ["dispatch"]

    def dxe_process(self, blocks: int) -> list[str]:
        # Behind a volume's begin lies none.
        base = volume_base(self.draw.randrange(3)) + (0x40 if self.chance(0.05) else 0)
        return [f"set r12 {base:#x}", "process r12"]

    def dxe_log(self, blocks: int) -> list[str]:
        return [f"log n{self.draw.randint(0, 99)}"]

    def dxe_block(self, blocks: int, is_notified: bool) -> list[str]:
        lines: list[str] = []
        for _ in range(self.draw.randint(1, 7)):
            lines += self.dxe_action(blocks)
        if is_notified and self.campaign.leaf:
            lines = [line for line in lines if line.split()[0] in ("log", "locate")] or ["log leaf"]
        return ["block"] + lines + ["ret Success"]

    def driver_expression(self) -> list[str]:
        marks, share = self.campaign.marks, self.draw.random()
        if not self.campaign.by_expression:
            return ["depex dxe true"]
        if "companions" in marks and share < 0.25:
            named = module_name(FIRST_DRIVER + self.draw.randrange(self.campaign.drivers))
            return [f"depex dxe {self.draw.choice(['before', 'after'])} {named}"]
        if "sor" in marks and share < 0.45:
            return ["depex dxe sor " + self.expression(PROTOCOLS, 1)]
        return self.malformed("13") or ["depex dxe " + self.expression(PROTOCOLS)]

    def driver(self, number: int) -> list[str]:
        lines = self.file(f"file {self.draw.choice(self.campaign.types)} {module_name(number)}")
        lines += self.driver_expression() + ["script dxe"]
        blocks = self.draw.choice([1, 2, 3]) if "notify" in self.campaign.actions else 1
        for block in range(blocks):
            lines += self.dxe_block(blocks, block > 0)
        return lines + ["end"]

    def driver_volume(self, numbers: list[int]) -> str:
        lines = [f"volume {VOLUME_LENGTH:#x}"]
        if not self.campaign.by_expression:
            lines += ["file freeform dxe-apriori", "guids " + " ".join(module_name(i) for i in numbers)]
        elif numbers:
            lines += self.a_priori("dxe-apriori", numbers, 0.5)
        for number in numbers:
            lines += self.nested(0x60 + number, self.driver(0x40 + number))
            lines += self.driver(number)
        return "\n".join(lines + ["end"]) + "\n"

    def first_volume(self) -> str:
        """One PEIM that gives memory, the DXE IPL's PPI, and an FV HOB for each volume that DXE is told of."""
        told = self.campaign.told if self.campaign.told is not None else self.campaign.volumes
        lines = [f"volume {VOLUME_LENGTH:#x}", f"file peim {module_name(1)}", "script pei", "block"]
        lines += [f"set r0 {RAM_BASE:#x}", "set r1 0x400000", "memory r0 r1", "set r2 0", "desc r3 ppi dxe-ipl-ppi r2", "install r3"]
        for number in range(1, told + 1):
            lines.append(f"hob 5 {volume_base(number).to_bytes(8, 'little').hex()}{0x20000.to_bytes(8, 'little').hex()}")
        return "\n".join(lines + ["ret Success", "end", "end"]) + "\n"

    def dxe_volumes(self) -> list[str]:
        numbers = list(range(FIRST_DRIVER, FIRST_DRIVER + self.campaign.drivers))
        shares = [numbers[i :: self.campaign.volumes] for i in range(self.campaign.volumes)]
        return [self.first_volume()] + [self.driver_volume(share) for share in shares]
