"""The smallest boot of each known difference, cases/NAME: a plan, volumes, both traces as they are compared
(here.trace and edk2.trace), the rules of EDK2's that explain it (rules), none where no word does, and what
comes of it here in the order of EDK2's starts (followed) and by `pitools passes` (passed).
"""
import os
import re
import tempfile

from boots import HERE, both, explained_by, followed, is_explained, passed, write
from traces import Trace, first_difference

CASES = f"{HERE}/cases"
PAGE = os.path.normpath(f"{HERE}/../../docs/COMPARISON.md")
ROW_BARS = 7


def read_file(path: str) -> str:
    """A file's text, empty where there is none."""
    if not os.path.exists(path):
        return ""
    with open(path, encoding="utf-8") as file:
        return file.read()


def every() -> list[str]:
    """The names of all cases."""
    return sorted(name for name in os.listdir(CASES) if os.path.isdir(f"{CASES}/{name}"))


def rules_of(name: str) -> tuple[str, ...]:
    return tuple(read_file(f"{CASES}/{name}/rules").split())


def write_boot(name: str, folder: str) -> None:
    """Writes a case's boot into a folder."""
    kept = f"{CASES}/{name}"
    count = len([file for file in os.listdir(kept) if file.endswith(".volume")])
    texts = [read_file(f"{kept}/v{number}.volume") for number in range(count)]
    write(folder, texts, read_file(f"{kept}/plan"))


def text_of(trace: Trace) -> str:
    """What is kept of a trace: the lines that are compared."""
    return "".join(f"{line}\n" for line in trace.run + trace.lists + sorted(set(trace.asserts)))


def keep(name: str, ours: Trace, theirs: Trace, rules: tuple[str, ...], words: dict[str, str]) -> None:
    """Writes what is expected of a case from now on."""
    kept = {"here.trace": text_of(ours), "edk2.trace": text_of(theirs), "rules": " ".join(rules) + "\n", **words}
    for file, text in kept.items():
        with open(f"{CASES}/{name}/{file}", "w", encoding="utf-8") as out:
            out.write(text)


def faults_of(name: str, is_new: bool) -> list[str]:
    """Boots a case on both: what is otherwise than expected. Of a new one it is kept."""
    with tempfile.TemporaryDirectory(prefix="edk2-case-") as folder:
        write_boot(name, folder)
        audit, ours, theirs = both(folder)
        words = {"followed": followed(folder, audit, theirs) + "\n", "passed": passed(folder, audit, theirs) + "\n"}
        if is_new:
            keep(name, ours, theirs, explained_by(folder, audit, theirs, ""), words)
        rules = rules_of(name)
        is_right = not rules or is_explained(folder, audit, theirs, rules)
    difference = first_difference(ours, theirs)
    print(f"{name}: {' + '.join(rules) or 'no word'}; in EDK2's order: {words['followed'].strip()}; by passes: {words['passed'].strip()}: {difference}", flush=True)
    told = {"here.trace": text_of(ours), "edk2.trace": text_of(theirs), **words}
    faults = [f"another one than {file}" for file, text in told.items() if text != read_file(f"{CASES}/{name}/{file}")]
    faults += [] if is_right else ["its rules do not explain it"]
    faults += [] if difference else ["both traces are the same"]
    return [f"{name}: {fault}" for fault in faults]


def faults_of_page() -> list[str]:
    """The rows of docs/COMPARISON.md without a case or a case's rules, and the cases without a row."""
    rows = [line for line in read_file(PAGE).split("\n") if line.count("|") == ROW_BARS]
    rows = [row for row in rows if not row.startswith(("| Matter", "|--"))]
    known, shown, faults = set(every()), set[str](), []
    for row in rows:
        words = set(re.findall(r"`([a-z0-9-]+)`", row))
        cases, matter = words & known, row.split("|")[1].strip()
        shown |= cases
        faults += [] if cases else [f"COMPARISON: no example of: {matter}"]
        faults += [f"{name}: its row names no {rule}" for name in cases for rule in rules_of(name) if rule not in words]
    return faults + [f"{name}: no row of COMPARISON names it" for name in sorted(known - shown)]


def check(names: list[str], is_new: bool = False) -> int:
    """Boots cases, all where none is named, and prints what is otherwise than expected: how many faults."""
    faults = [fault for name in names or every() for fault in faults_of(name, is_new)]
    if not names:
        faults += faults_of_page()
    for fault in faults:
        print(f"fault: {fault}")
    return len(faults)
