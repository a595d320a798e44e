"""How a script of this folder speaks to a person: notes, the state of long work on a terminal, and one line in the place of a traceback."""
import argparse
import os
import re
import sys
import time
from collections.abc import Callable

import pitools


def name() -> str:
    """The script's name, as its messages begin."""
    return os.path.basename(sys.argv[0]).removeprefix("piboot-")


def command(script: str) -> str:
    """What a person writes to run another script: its path in a checkout, or the command that is installed."""
    return f"scripts/{script}" if os.path.exists(pitools.FINDER) else f"piboot-{script}"


class Version(argparse.Action):
    """Prints which programs the script uses, and ends it."""

    def __call__(self, reader: argparse.ArgumentParser, *_: object) -> None:
        print("\n".join(pitools.version()))
        reader.exit()


def parser(doc: str | None) -> argparse.ArgumentParser:
    """A reader of a command line whose help is a script's first comment, with the names that a person writes here."""
    text = re.sub(r"scripts/([a-z-]+)", lambda match: command(match[1]), doc or "")
    reader = argparse.ArgumentParser(description=text, formatter_class=argparse.RawDescriptionHelpFormatter)
    reader.add_argument("--version", action=Version, nargs=0, help="print the version, the commit and the kit")
    return reader


def note(text: str) -> None:
    clear()
    print(f"{name()}: {text}", file=sys.stderr)


def clear() -> None:
    """Takes the line of `working` off the terminal."""
    if sys.stderr.isatty():
        print("\r\033[K", end="", file=sys.stderr, flush=True)


def working(text: str, since: float) -> None:
    """On a terminal a line says what is at work and for how long; the next one takes its place."""
    if sys.stderr.isatty():
        print(f"\r\033[K{name()}: {text}, {time.monotonic() - since:.0f} s", end="", file=sys.stderr, flush=True)


def run(work: Callable[[], int]) -> int:
    """The exit status of a script's work. What the machine or the files refuse is one line, with status 1."""
    try:
        return work()
    except BrokenPipeError:
        os.dup2(os.open(os.devnull, os.O_WRONLY), sys.stdout.fileno())
        return 1
    except OSError as fault:
        note(f"{fault.filename}: {fault.strerror}" if fault.filename else str(fault))
    except ValueError as fault:
        note(str(fault))
    except RecursionError:
        note("a part of the input is nested too deep")
    except KeyboardInterrupt:
        clear()
        return 130
    return 1
