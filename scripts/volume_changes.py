"""Changes to the texts of volumes, in words: `what-if` stands on it. Lines are changed where they are, so that all else of a text stays as it is."""
import re
from collections.abc import Callable
from dataclasses import dataclass, field

from guid_names import GUID
from volume_texts import PHASES

SHAPES = {
    "depex": "depex MODULE [pei|dxe] EXPRESSION",
    "no-depex": "no-depex MODULE",
    "drop": "drop MODULE",
    "apriori-drop": "apriori-drop MODULE",
    "gives": "gives MODULE GUID",
    "no-gives": "no-gives MODULE GUID",
}
SPARE, VALUE = "r14", "r15"  # registers that no script of log-to-trace uses
IDLE = f"    set {SPARE} 0"


@dataclass
class File:
    """A file in a text: its type and name, and the lines that belong to it, from the one that names it."""
    kind: str
    guid: str
    first: int
    last: int = 0  # the line after its last


@dataclass
class Text:
    """The text of a volume, by lines."""
    path: str
    lines: list[str]
    files: list[File] = field(default_factory=list)

    def __post_init__(self) -> None:
        self.scan()

    def scan(self) -> None:
        """Finds the files. A volume inside a file has files of its own."""
        self.files, inside = [], False
        for at, words in enumerate(map(words_of, self.lines)):
            if inside:
                inside = words != ["end"]
            elif words[:1] == ["script"]:
                inside = True
            elif words[:1] in (["file"], ["pad"], ["end"], ["volume"]):
                self.close(at)
                if words[0] == "file":
                    self.files.append(File(words[1], words[2].strip("{}").lower(), at))

    def close(self, at: int) -> None:
        """The file before a line ends there."""
        if self.files and not self.files[-1].last:
            self.files[-1].last = at

    def replace(self, first: int, last: int, lines: list[str]) -> None:
        self.lines[first:last] = lines
        self.scan()

    def places(self, file: File, test: Callable[[list[str]], bool]) -> list[int]:
        """The lines of a file whose words pass a test."""
        return [at for at in range(file.first, file.last) if test(words_of(self.lines[at]))]


def words_of(line: str) -> list[str]:
    """The words of a line without its comment."""
    words = line.split()
    return line.partition("#")[0].split() if words[:1] != ["log"] else words


class Changes:
    """Applies changes to texts. Modules and GUIDs are named as a person names them."""

    def __init__(self, texts: list[Text], names: dict[str, str]) -> None:
        self.texts, self.names = texts, names
        self.guids: dict[str, list[str]] = {}
        for guid, name in names.items():
            self.guids.setdefault(name.lower(), []).append(guid)

    def apply(self, change: str) -> None:
        """Applies one change. One that has no form, or names nothing, is a ValueError that says what is allowed."""
        word, *words = change.split()
        need = {"depex": 2, "gives": 2, "no-gives": 2}.get(word, 1)
        if word not in SHAPES or len(words) < need or (len(words) > need and word != "depex"):
            shapes = [SHAPES[word]] if word in SHAPES else list(SHAPES.values())
            raise ValueError(f"`{change}` is no change; it has the form {', or '.join(f'`{shape}`' for shape in shapes)}")
        {
            "depex": self.depex,
            "no-depex": self.no_depex,
            "drop": self.drop,
            "apriori-drop": self.apriori_drop,
            "gives": self.gives,
            "no-gives": self.no_gives,
        }[word](*([words[0], " ".join(words[1:])] if word == "depex" else words))

    # What a person names

    def guid(self, word: str) -> str:
        """The GUID that a word is, or is the name of."""
        if GUID.fullmatch(word.strip("{}")):
            return word.strip("{}").lower()
        found = self.guids.get(word.lower(), [])
        if len(found) != 1:
            raise ValueError(f"{word}: " + (f"{len(found)} GUIDs have this name; name it by its GUID" if found else "no GUID has this name; --names FILE has more"))
        return found[0]

    def module(self, word: str) -> tuple[Text, File]:
        """The module of a name or GUID: the only file with a part for PEI or DXE that has it."""
        if GUID.fullmatch(word.strip("{}")):
            wanted = {word.strip("{}").lower()}
        else:
            wanted = set(self.guids.get(word.lower(), []))
        found = [(text, file) for text in self.texts for file in text.files if file.guid in wanted and file.kind in PHASES]
        if len(found) != 1:
            raise ValueError(f"{word}: " + ("no module of the volumes has this name or GUID" if not found else f"{len(found)} modules have it; name one by its GUID"))
        return found[0]

    # The changes

    def depex(self, word: str, expression: str) -> None:
        text, file = self.module(word)
        phases = PHASES[file.kind]
        first, _, rest = expression.partition(" ")
        phase, expression = (first, rest) if first in ("pei", "dxe") and rest else (phases[0], expression)
        if phase not in phases:
            raise ValueError(f"{word} has no part for {phase}")
        line = f"depex {phase} {self.spelled(expression)}"
        old = text.places(file, lambda words: words[:2] == ["depex", phase])
        at = old[0] if old else file.first + 1
        text.replace(at, at + len(old[:1]), [line])

    def spelled(self, expression: str) -> str:
        """An expression with GUIDs in place of names; its other words stay."""
        return re.sub(r"[A-Za-z_][\w-]*", lambda match: self.guids[match[0].lower()][0] if len(self.guids.get(match[0].lower(), [])) == 1 else match[0], expression)

    def no_depex(self, word: str) -> None:
        text, file = self.module(word)
        old = text.places(file, lambda words: words[:1] == ["depex"])
        if not old:
            raise ValueError(f"{word} has no expression")
        for at in reversed(old):
            text.replace(at, at + 1, [])

    def drop(self, word: str) -> None:
        text, file = self.module(word)
        text.replace(file.first, file.last, [])

    def apriori_drop(self, word: str) -> None:
        guid, found = self.module(word)[1].guid, False
        for text in self.texts:
            for at, line in enumerate(text.lines):
                words = words_of(line)
                if words[:1] == ["guids"] and guid in [each.strip("{}").lower() for each in words[1:]]:
                    text.replace(at, at + 1, [" ".join(each for each in words if each.strip("{}").lower() != guid)])
                    found = True
        if not found:
            raise ValueError(f"no a priori list names {word}")

    def gives(self, word: str, guid: str) -> None:
        """The module installs the GUID, with the value 0, before all else that its script does."""
        text, file = self.module(word)
        name, phase = self.guid(guid), PHASES[file.kind][0]
        installs = [f"desc {SPARE} ppi {name} {VALUE}", f"install {SPARE}"] if phase == "pei" else [f"install new {SPARE} {name} {VALUE}"]
        lines = [f"    {action}" for action in (f"set {VALUE} 0", *installs)]
        blocks = text.places(file, lambda words: words == ["block"])
        if blocks:
            text.replace(blocks[0] + 1, blocks[0] + 1, lines)
        else:
            text.replace(file.last, file.last, [f"script {phase}", "    block", *lines, "    ret Success", "end"])

    def no_gives(self, word: str, guid: str) -> None:
        """No action of the module's scripts installs the GUID. Another action takes the place of each one that did, so jumps lead where they led."""
        text, file = self.module(word)
        name, found, held = self.guid(guid), False, set[str]()
        for at in range(file.first, file.last):
            words = words_of(text.lines[at])
            if words[:1] == ["block"]:
                held = set()
            elif words[:1] == ["desc"]:
                held.discard(words[1])
                if words[2] == "ppi" and words[3].strip("{}").lower() == name:
                    held.add(words[1])
                    text.lines[at], found = IDLE, True
            elif words[:2] in (["install", "new"], ["install", "on"]) and words[3].strip("{}").lower() == name:
                text.lines[at], found = IDLE, True
            elif words[:1] == ["install"] and held & set(words[1:]):
                rest = [each for each in words[1:] if each not in held]
                text.lines[at] = f"    install {' '.join(rest)}" if rest else IDLE
        if not found:
            raise ValueError(f"no action of {word} installs {guid}")
