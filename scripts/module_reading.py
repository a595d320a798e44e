"""Reads what the text of a volume says of its modules: names, expressions and scripts; and what an expression asks for.

All is read in the text that `pitools text` prints. What the words `desc`, `install` and `reinstall` of a script do is said here a second
time, apart from the tool: that makes it a second reading. `boot_reading` and `check-explain` stand on it.
"""
import re
import sys
from collections.abc import Callable, Iterator
from dataclasses import dataclass, field

from volume_reader import sections_of

PARTS = {"peim": ["pei"], "driver": ["dxe"], "combined": ["pei", "dxe"], "mm-dxe": ["dxe"]}
EXPRESSION = {"1b": "pei", "13": "dxe"}
NAME, VOLUME, RAW = "15", "17", "19"  # other types of sections
GUID = re.compile(r"[0-9a-f]{8}(?:-[0-9a-f]{4}){3}-[0-9a-f]{12}")
# The architectural protocols (PI 1.8, volume 2), in the order of docs/FORMATS.md.
ARCHITECTURAL = """
    a46423e3-4617-49f1-b9ff-d1bfa9115839 26baccb1-6f42-11d4-bce7-0080c73c8881 26baccb2-6f42-11d4-bce7-0080c73c8881
    26baccb3-6f42-11d4-bce7-0080c73c8881 665e3ff6-46cc-11d4-9a38-0090273fc14d 665e3ff5-46cc-11d4-9a38-0090273fc14d
    b7dfb4e1-052f-449f-87be-9818fc91b733 1e5668e2-8481-11d4-bcf1-0080c73c8881 6441f818-6362-4e44-b570-7dba31dd2453
    5053697e-2cbc-4819-90d9-0580deee5754 1da97072-bddc-4b30-99f1-72a0b56fff2a 27cfac88-46cc-11d4-9a38-0090273fc14d
    27cfac87-46cc-11d4-9a38-0090273fc14d
""".split()
sys.setrecursionlimit(10_000)  # an expression has up to 1,023 opcodes

Tree = tuple | str
Way = dict[str, bool]  # of GUIDs, whether they are installed
MOST_WAYS = 16  # that are kept of an AND or OR
File = tuple[str, str, list[str]]  # its type, its name, and its lines


@dataclass(eq=False)
class Module:
    """A file with a part for PEI or DXE, as the text of its volume has it."""
    number: int
    volume: int
    name: str
    parts: list[str]
    shown: str = "-"
    named: bool = False
    ranks: dict[str, int] = field(default_factory=dict)
    expressions: dict[str, str] = field(default_factory=dict)
    scripts: dict[str, list[str]] = field(default_factory=dict)
    blocks: dict[str, list[list[list[str]]]] = field(default_factory=dict)

    def is_malformed(self, phase: str) -> bool:
        return self.expressions.get(phase, "").startswith("malformed@")

    def asked(self, phase: str) -> list[str]:
        """The GUIDs that the expression pushes, in order of first mention; a driver without one asks for the architectural protocols."""
        text = self.expressions.get(phase, "")
        if phase == "dxe" and not text:
            return list(ARCHITECTURAL)
        return [] if text.startswith(("before", "after", "malformed@")) else list(dict.fromkeys(GUID.findall(text)))

    def gives(self, phase: str) -> list[str]:
        """What its script may install: GUIDs, and any where it reads one in a volume."""
        given, reads = [], False
        for action in (action for block in self.blocks.get(phase, []) for action in block):
            match (phase, *action):
                case ("pei", "desc", _, "ppi", "at", _, _):
                    reads = True
                case ("pei", "desc", _, "ppi", guid, _) | ("dxe", "install", "new" | "on", _, guid, _) | ("dxe", "reinstall", _, guid, _, _):
                    given.append(guid)
        return list(dict.fromkeys(given)) + ["any"] * reads


# Texts of volumes

def shown_name(code: bytes) -> str:
    """The name in a user interface section, up to its zero; - where there is none."""
    units = [int.from_bytes(code[at : at + 2], "little") for at in range(0, len(code), 2)]
    if len(code) % 2 or 0 not in units or units[0] == 0:
        return "-"
    text = "".join(chr(unit) if 0x20 < unit < 0x7F and unit != 0x5C else f"\\u{unit:04x}" for unit in units[: units.index(0)])
    return r"\u002d" if text == "-" else text


def read_volumes(text: str, nested: Callable[[bytes], list[list[File]]]) -> list[list[File]]:
    """The files of a volume's text, and behind them those of each volume nested in it, as lines of their own or as bytes."""
    volumes: list[list[File]] = []
    inside: list[list[File]] = []  # the volumes that have no end yet
    in_script = False
    for line in text.splitlines():
        word, *words = line.split(" ")
        if word == "volume":
            volumes.append([])
            inside.append(volumes[-1])
        elif word == "end" and not in_script:
            inside.pop()
        elif word == "file":
            inside[-1].append((words[0], words[1], []))
        elif inside[-1]:
            kind, _, lines = inside[-1][-1]
            lines.append(line)
            in_script = word == "script" or in_script and word != "end"
            if kind == "volume-image":
                volumes += [each for section, code in sections_told(line) if section == VOLUME for each in nested(code)]
    return volumes


def sections_told(line: str) -> list[tuple[str, bytes]]:
    """The types and bytes of the sections that a line tells as bytes or as a name: one, or all of a file whose sections do not lie as `volume` lays them."""
    word, *words = line.split(" ")
    if word == "body":
        return [(f"{kind:02x}", section[front:]) for kind, section, front in sections_of(bytes.fromhex(words[0]))]
    if word == "ui":
        return [(NAME, (words[0] + "\0").encode("utf-16-le"))]
    return [(words[0], bytes.fromhex(words[1]))] if word == "section" else []


def read_module(module: Module, lines: list[str], dis: Callable[[str, bytes], str]) -> None:
    """Fills a module from the lines of its file; `dis` has the text of an expression or a script that stands as bytes, none where it is neither."""
    script: list[str] | None = None
    for line in lines:
        word, _, rest = line.partition(" ")
        if word == "end":
            script = None
        elif script is not None:
            script.append(line)
        elif word == "script":
            script = add_script(module, rest)
        elif word == "depex":
            phase, _, text = rest.partition(" ")
            module.expressions.setdefault(phase, text)
        for kind, code in sections_told(line) if script is None else []:
            read_section(module, kind, code, dis)
    module.blocks = {phase: blocks_of(told) for phase, told in module.scripts.items()}


def add_script(module: Module, phase: str) -> list[str]:
    """Where the lines of a script go: the first of each phase of the file counts."""
    return module.scripts.setdefault(phase, []) if phase in module.parts and phase not in module.scripts else []


def read_section(module: Module, kind: str, code: bytes, dis: Callable[[str, bytes], str]) -> None:
    """Fills a module from a section that stands as bytes. The first of each type counts; one of a name counts too where it has none."""
    if kind == NAME and not module.named:
        module.shown, module.named = shown_name(code), True
    elif (phase := EXPRESSION.get(kind)) in module.parts:
        module.expressions.setdefault(phase, dis(phase, code) or "malformed@")
    elif kind == RAW and (text := dis("script", code)):
        first, *told = text.split("\n")
        add_script(module, first.removeprefix("phase ")).extend(told)


def blocks_of(lines: list[str]) -> list[list[list[str]]]:
    """The actions of each block of a script, as words; the text of a log is one."""
    blocks: list[list[list[str]]] = []
    for line in lines:
        word, _, rest = line.partition(" ")
        if word == "block":
            blocks.append([])
        else:
            blocks[-1].append(["log", rest] if word == "log" else line.split(" "))
    return blocks


# Expressions

def tree_of(words: Iterator[str]) -> Tree:
    """The tree of an expression with all its brackets: a word, ("not", tree), or (operator, left, right)."""
    word = next(words)
    if word == "not":
        return ("not", tree_of(words))
    if word != "(":
        return word
    left, operator, right = tree_of(words), next(words), tree_of(words)
    next(words)
    return (operator, left, right)


def read_tree(text: str) -> Tree | None:
    """The tree of an expression's text; none where it is of another form."""
    if text in ("", "-") or text.startswith(("before", "after", "malformed@")):
        return None
    return tree_of(iter(re.findall(r"[()]|[^\s()]+", text.removeprefix("sor "))))


def holds(tree: Tree, there: set[str]) -> bool:
    match tree:
        case ("not", inner):
            return not holds(inner, there)
        case ("and", left, right):
            return holds(left, there) and holds(right, there)
        case ("or", left, right):
            return holds(left, there) or holds(right, there)
    return tree == "true" or tree in there


def cost(way: Way, there: set[str]) -> int:
    """How many GUIDs are not as a way says."""
    return sum((guid in there) != installed for guid, installed in way.items())


def ways_to(truth: bool, tree: Tree, there: set[str]) -> list[Way]:
    """The ways that are kept in which a tree has this truth, the cheapest first."""
    match tree:
        case ("not", inner):
            return ways_to(not truth, inner, there)
        case ("and" | "or" as operator, *sides):
            left, right = (ways_to(truth, side, there) for side in sides)
            if (operator == "and") == truth:
                pairs = ((one, other) for one in left for other in right)
                found = [one | other for one, other in pairs if all(one.get(guid, said) == said for guid, said in other.items())]
            else:
                found = left + right
            return sorted(found, key=lambda way: cost(way, there))[:MOST_WAYS]
        case "true" | "false":
            return [{}] if (tree == "true") == truth else []
    return [{tree: truth}]


def change(module: Module, phase: str, there: set[str]) -> tuple[list[str], list[str]] | None:
    """The GUIDs that must come and those that must go for a part's expression to hold; none where no way is left."""
    text = module.expressions.get(phase, "")
    tree = read_tree(text)
    found = ways_to(True, tree, there) if tree else [] if text else [dict.fromkeys(module.asked(phase), True)]
    if not found:
        return None
    first = found[0]
    come = [guid for guid, installed in first.items() if installed and guid not in there]
    go = [guid for guid, installed in first.items() if not installed and guid in there]
    if tree and not holds(tree, there.union(come).difference(go)):
        raise ValueError(f"module {module.number}: the change does not make its expression hold")
    return come, go
