"""Tells a file by its content, for who hands in another one than is asked for. `report`, `look` and `log-to-trace` use it."""
import re

from guid_names import volumes_in_image
from speaking import command

READ = 1 << 20  # bytes that are looked at
PLAN, TRACE, LOG, IMAGE, VOLUME_TEXT = "a plan", "a trace", "a log", "a firmware image", "the text of a volume"
# A kind, and a pattern of its first line.
TEXTS = [
    (TRACE, rb"(?:report|pei start|refused|result) "),
    (PLAN, rb"(?:temp|ram|pages|fuel) |volume 0x\S+ \S+$"),
    (VOLUME_TEXT, rb"volume \S+(?: ffs[23]\b.*)?$"),
    ("an order of starts", rb"(?:pei|dxe) \d+ [0-9a-f]{8}-"),
    ("what pitools explain prints", rb"module \d+ \d+ [0-9a-f]{8}-\S+ \S+ \S+$"),
    ("what piboot audit prints", rb"volume \d+ \S+ \d+|module \d+ \d+ [0-9a-f]{8}-"),
]
LOG_LINE = re.compile(rb"Loading (?:PEIM|driver)|SecCoreStartup|Install PPI|InstallProtocolInterface|PROGRESS CODE", re.IGNORECASE)
HEX = re.compile(rb"\s*(?:[0-9a-fA-F]{2}\s*){8,}")


def beginning(path: str) -> bytes:
    with open(path, "rb") as file:
        return file.read(READ)


def kind_of(content: bytes) -> str:
    """What a file is, as far as its first bytes show; empty where they do not."""
    if not content:
        return "an empty file"
    if next(volumes_in_image(content), None) is not None:
        return IMAGE
    if content.startswith(b"\x01\x00\x38\x00"):
        return "a HOB list"
    first = next((line.strip() for line in content.splitlines() if line.strip() and not line.startswith(b"#")), b"")
    kind = next((kind for kind, pattern in TEXTS if re.match(pattern, first)), "")
    if kind == "" and LOG_LINE.search(content):
        return LOG
    return kind or ("hexadecimal text" if HEX.match(content) else "")


def remedy(kind: str) -> str:
    """What makes of a file of a kind one that is asked for."""
    commands = {LOG: f"{command('log-to-trace')} makes a trace of it", IMAGE: f"{command('cut-volumes')} makes a plan and volumes of it",
                VOLUME_TEXT: "pitools volume makes the volume"}
    return f"; {commands[kind]}" if kind in commands else ""


def expect(path: str, *kinds: str) -> None:
    """A file that is plainly of another kind than is asked for is a ValueError, which says what it is and what to do with it."""
    content = beginning(path)
    kind = kind_of(content)
    if kind and kind not in kinds:
        raise ValueError(f"{path}: this is {kind}, and {kinds[0]} is asked for{remedy(kind)}")
    if TRACE in kinds and b"\r\n" in content:
        raise ValueError(f"{path}: its lines end with CR and LF; those of a trace end with LF alone")
