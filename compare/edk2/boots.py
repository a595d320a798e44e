"""One boot on this project's machine and on EDK2's cores: its files, both traces, and what explains a difference."""
import itertools
import os
import re
import subprocess
from dataclasses import dataclass

from random_boots import plan_of
from traces import Trace, first_difference, read
from volumes import PITOOLS, made

HERE = os.path.dirname(os.path.abspath(__file__))
OUT = f"{HERE}/out"
PLAIN = os.environ.get("PLAIN", f"{HERE}/../plain/out/plain")
PEI, DXE = f"{OUT}/edk2-pei", f"{OUT}/edk2-dxe"
PIBOOT = os.environ.get("PIBOOT", os.path.normpath(f"{HERE}/../../crates/piboot/out/piboot"))
SECONDS = int(os.environ.get("SECONDS_MOST", "60"))

# Each known difference, by the word that gives the plain program EDK2's rule for it, under the
# phases whose boots can show it; docs/COMPARISON.md has a row for each.
RULES = {
    "pei": (
        "shadow-current-alone",
        "shadow-at-once",
        "shadow-not-on-s3",
        "memory-again",
        "dispatch-by-lists",
        "callbacks-by-notification",
        "nested-in-turn",
        "file-walk",
    ),
    "dxe": (
        "batch",
        "push-sticky",
        "left-over-holds",
        "types-in-turn",
        "locate-first-installed",
        "notify-behind-the-running",
        "process-none-corrupted",
        "file-walk",
    ),
}
MOST_RULES = 3
SAME, UNEXPLAINED = "same", "unexplained"
# What `pitools follow` makes of the order of EDK2's starts: it boots so, and prints EDK2's trace; it boots so, and other lines differ;
# it boots so, and may start another module where EDK2 starts none any more; one of the starts may not be; or no answer in time.
AS_EDK2, OTHER_LINES, MORE_STARTS, NO_ORDER, NO_ANSWER = "as EDK2", "other lines", "more starts", "no order", "no answer"
NO, REFUSALS = 11, (1, 2, 3, 4, 5, 12, 16)  # statuses of `pitools follow`: the order is none of a boot, or files, images, names or it are refused
# What `pitools passes` makes of a boot beside EDK2's trace: AS_EDK2 or OTHER_LINES as above; the lines are EDK2's but for the order of those
# `waiting`; the lines are EDK2's as far as they go, and the driver whose turn it is, which may not start, is the next that EDK2 starts; or refused.
OTHER_WAITING, LEFT, REFUSED = "as EDK2 but for the order of waiting", "left at EDK2's next start", "refused"
IN_TURN = (AS_EDK2, LEFT)
# The words of differences by order alone, of which `passes` takes over EDK2's rule; with the last one lines `waiting` may come in another order.
BY_ORDER, BY_TYPES = ("same", "shadow-at-once", "batch"), "types-in-turn"
AS_BUILT = "# as built"


@dataclass(frozen=True)
class Outcome:
    """How a boot compared."""

    word: str  # SAME, UNEXPLAINED, or the rules that explain it
    difference: str
    followed: str  # AS_EDK2 or one of the other four
    passed: str  # one of IN_TURN, or one of the other four

    def is_in_turn(self) -> bool:
        """Whether `passes` prints what it has to: of a boot that differs by order alone EDK2's lines, or up to its next start."""
        words = self.word.split(" + ")
        if not set(words) <= {*BY_ORDER, BY_TYPES}:
            return True
        return self.passed in IN_TURN or self.passed == OTHER_WAITING and BY_TYPES in words


def output(words: list[str], folder: str, **more: str) -> list[str]:
    """The lines that a program prints in a folder."""
    try:
        done = subprocess.run(
            words, cwd=folder, stdout=subprocess.PIPE, stderr=subprocess.DEVNULL,
            timeout=SECONDS, env=os.environ | more if more else None,
        )
    except subprocess.TimeoutExpired:
        return ["timeout"]
    return done.stdout.decode(errors="replace").split("\n")[:-1]


def write(folder: str, texts: list[str], plan: str | None = None) -> None:
    """Writes a boot: its plan, and each volume as text and as bytes."""
    os.makedirs(folder, exist_ok=True)
    with open(f"{folder}/plan", "w", encoding="utf-8") as file:
        file.write(plan or plan_of(len(texts)))
    for number, text in enumerate(texts):
        with open(f"{folder}/v{number}.volume", "w", encoding="utf-8") as file:
            file.write(text)
        with open(f"{folder}/v{number}.fv", "wb") as volume:
            volume.write(made(text))


def audit_of(folder: str) -> list[str]:
    """What `piboot audit` prints, which numbers the volumes and modules."""
    audit = output([PIBOOT, "audit", "plan"], folder)
    if audit[-1:] != ["result Done"]:
        # EDK2 refuses no image as a whole: by its rule for files the volumes have their numbers.
        audit = output([PLAIN, "audit", "plan", "--edk2=file-walk"], folder)
    with open(f"{folder}/audit", "w", encoding="utf-8") as file:
        file.write("\n".join(audit) + "\n")
    return audit


def edk2(folder: str, audit: list[str]) -> Trace:
    """EDK2's trace. Its DXE core gets readable volumes, unless the boot asks for them as they are built."""
    with open(f"{folder}/v0.volume", encoding="utf-8") as file:
        more = {"AS_BUILT": "1"} if AS_BUILT in file.read() else {}
    return read(output([PEI, "plan", "audit", DXE], folder, **more), audit)


def both(folder: str) -> tuple[list[str], Trace, Trace]:
    """The audit of a folder's boot, this machine's trace, and EDK2's."""
    audit = audit_of(folder)
    return audit, read(output([PIBOOT, "boot", "plan"], folder), audit), edk2(folder, audit)


def followed(folder: str, audit: list[str], theirs: Trace) -> str:
    """What comes of a boot on this machine in the order of EDK2's starts. The order is kept as a file of the folder."""
    starts = [line.split() for line in theirs.run if line.startswith(("pei start ", "dxe start "))]
    with open(f"{folder}/order", "w", encoding="utf-8") as file:
        file.writelines(f"{phase} {volume} {name}\n" for phase, _, volume, name, *_ in starts)
        file.write("stop\n")
    try:
        done = subprocess.run([PITOOLS, "follow", "plan", "order"], cwd=folder, stdout=subprocess.PIPE, stderr=subprocess.DEVNULL, timeout=SECONDS)
    except subprocess.TimeoutExpired:
        return NO_ANSWER
    lines = done.stdout.decode(errors="replace").split("\n")[:-1]
    if done.returncode in (NO, *REFUSALS):
        return NO_ORDER
    if lines[-1:] == ["stop"]:
        return MORE_STARTS
    return OTHER_LINES if first_difference(read(lines, audit), theirs) else AS_EDK2


def passed(folder: str, audit: list[str], theirs: Trace) -> str:
    """What comes of a boot on this machine in the order of EDK2's dispatchers."""
    try:
        done = subprocess.run([PITOOLS, "passes", "plan"], cwd=folder, stdout=subprocess.PIPE, stderr=subprocess.DEVNULL, timeout=SECONDS)
    except subprocess.TimeoutExpired:
        return NO_ANSWER
    lines = done.stdout.decode(errors="replace").split("\n")[:-1]
    if done.returncode in REFUSALS:
        return REFUSED
    turn = lines[-2].split()[1:] if done.returncode == NO else []
    ours = read(lines[:-2] if done.returncode == NO else lines, audit)
    if first_difference(ours, theirs) is None:
        return AS_EDK2
    if turn and is_left(ours.run, turn, theirs.run):
        return LEFT
    sort_waiting(ours)
    return OTHER_LINES if first_difference(ours, sort_waiting(Trace(theirs.run[:], theirs.lists, theirs.asserts))) else OTHER_WAITING


def is_left(ours: list[str], turn: list[str], theirs: list[str]) -> bool:
    """Whether a run is EDK2's up to the next start of EDK2's, which is that of this driver. A run that stopped is compared up to there."""
    at = ours.index("dxe stop") if "dxe stop" in ours else len(ours)
    return theirs[:at] == ours[:at] and theirs[at : at + 1] == [" ".join(["dxe", "start", *turn[1:]])]


def sort_waiting(trace: Trace) -> Trace:
    """The trace with its lines `waiting` in order."""
    places = [at for at, line in enumerate(trace.run) if line.startswith("waiting ")]
    for at, line in zip(places, sorted(trace.run[at] for at in places)):
        trace.run[at] = line
    return trace


def is_explained(folder: str, audit: list[str], theirs: Trace, rules: tuple[str, ...]) -> bool:
    """Whether the plain program prints EDK2's trace with some of EDK2's rules."""
    words = [PLAIN, "boot", "plan"] + [f"--edk2={rule}" for rule in rules]
    return first_difference(read(output(words, folder), audit), theirs) is None


def explained_by(folder: str, audit: list[str], theirs: Trace, phase: str) -> tuple[str, ...]:
    """The fewest rules of EDK2's with which the plain program's trace is EDK2's; () where none do."""
    known = RULES.get(phase, tuple(dict.fromkeys(RULES["pei"] + RULES["dxe"])))
    for count in range(1, MOST_RULES + 1):
        for rules in itertools.combinations(known, count):
            if is_explained(folder, audit, theirs, rules):
                return rules
    return ()


def compare(folder: str, phase: str = "") -> Outcome:
    """Boots a folder's volumes on both. With a phase only the rules of that one are asked for a difference."""
    audit, ours, theirs = both(folder)
    difference = first_difference(ours, theirs)
    if difference is None:
        return Outcome(SAME, "", followed(folder, audit, theirs), passed(folder, audit, theirs))
    rules = explained_by(folder, audit, theirs, phase)
    return Outcome(" + ".join(rules) or UNEXPLAINED, difference, followed(folder, audit, theirs), passed(folder, audit, theirs))


def kind(difference: str) -> str:
    """A difference without its line, numbers and GUIDs: two boots of one kind differ in the same way."""
    without_names = re.sub(r"[0-9a-f]{8}-[-0-9a-f]*", "G", difference)
    return re.sub(r" n\d+| 0x[0-9a-f]+| \d+", " ", without_names)
