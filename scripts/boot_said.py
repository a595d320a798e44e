"""What the programs say of one boot: `json` and `report` stand on it. A plan's volumes are looked for next to the plan."""
import os
import tempfile
import time

import pitools
import speaking
from explained import Boot, hob_list, read_explanation, read_map, read_trace
from file_kinds import PLAN, TRACE, expect

NO, HOBS_REFUSED = 11, 13  # exit statuses of pitools that are no fault of a command line
IN_TURNS = "passes"  # in the place of a trace: the boot in the order of EDK2's dispatchers


class NotTold(ValueError):
    """A program did not say what it was asked for: its exit status, and the line that it printed in place of it."""

    def __init__(self, text: str, status: int, answer: str) -> None:
        super().__init__(text)
        self.status, self.answer = status, answer


def read_boot(plan: str, trace: str | None) -> Boot:
    """The plan's boot, that of a trace, or that in the order of EDK2's dispatchers, as the programs print it."""
    expect(plan, PLAN)
    folder, name = os.path.split(os.path.abspath(plan))
    if trace == IN_TURNS:
        words = [name, IN_TURNS]
    elif trace:
        expect(trace, TRACE)
        words = [name, os.path.relpath(trace, folder)]
    else:
        words = [name]
    boot = read_explanation(lines_of(said("pitools", folder, "explain", *words)))
    read_trace(boot, lines_of(text_of(folder, name, trace)))
    if any(mark.kind == "handoff" for mark in boot.marks):
        with tempfile.TemporaryDirectory() as work:
            for file, content in (("hobs", hob_list(boot.trace)), ("commands", b"")):
                with open(os.path.join(work, file), "wb") as it:
                    it.write(content)
            read_map(boot, lines_of(said("pitools", work, "gcd", "hobs", "commands")))
    else:
        boot.map_refused = "PEI handed nothing on"
    return boot


def text_of(folder: str, name: str, trace: str | None) -> bytes:
    """The text of that boot."""
    if trace == IN_TURNS:
        return said("pitools", folder, "passes", name)
    return content_of(trace) if trace else said("piboot", folder, "boot", name)


def said(program: str, folder: str, *words: str) -> bytes:
    """What a program prints, run in a folder. A refusal is a NotTold."""
    began = time.monotonic()
    speaking.working(f"{program} {' '.join(words)}", began)
    status, printed = pitools.answer(*words, folder=folder, program=program)
    speaking.clear()
    answer = printed.decode(errors="replace").strip()
    if status == NO and words[0] == "explain" and words[-1] == IN_TURNS:
        raise NotTold(f"{os.path.join(folder, words[1])}: EDK2 would start a driver that the rules do not allow there, and no page is made: {answer}", status, answer)
    if status == NO and words[0] == "explain":
        raise NotTold(no_boot(os.path.join(folder, words[-1]), int(answer.removeprefix("no "))), status, answer)
    if not answer or answer.startswith("refused ") and status != HOBS_REFUSED:
        raise NotTold(f"{program} {' '.join(words)}: {answer or f'exit status {status}'}", status, answer)
    return printed


def no_boot(trace: str, number: int) -> str:
    """What is said of a trace that is no boot's, by its first line that no boot prints there."""
    with open(trace, encoding="ascii", errors="replace") as file:
        line = next((line.rstrip("\n") for at, line in enumerate(file, 1) if at == number), None)
    shown = "it ends there" if line is None else f"`{line[:120]}`"
    return f"{trace}: line {number}: {shown}: no boot of the plan that the rules allow goes on so, and no page is made; docs/CHECK.md says what to look for"


def lines_of(text: bytes) -> list[str]:
    return text.decode("ascii", "replace").removesuffix("\n").split("\n")


def content_of(path: str) -> bytes:
    with open(path, "rb") as file:
        return file.read()
