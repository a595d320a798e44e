"""Names of GUIDs, and of the modules whose files they name. `report`, `name` and `look` use it.

The names of EDK2's packages are in edk2.names, beside this file. Other names come from files of these kinds, told apart by their content:
lines `NAME GUID`, a .dec file of EDK2, a debug log of EDK2's cores, lines of `pitools explain`, the text of a volume, a plan, and volumes.
A file that comes later wins; of two names in one file, the first does.
"""
import os
import re
from collections.abc import Iterator

from volume_reader import SIGNATURE_AT, files_at, guid_text, header_length, little, sections_of

GUID = re.compile(r"[0-9a-f]{8}(?:-[0-9a-f]{4}){3}-[0-9a-f]{12}", re.IGNORECASE)
ESCAPED = re.compile(r"\\u([0-9a-f]{4})")
EDK2 = os.path.join(os.path.dirname(os.path.realpath(__file__)), "edk2.names")
VOLUME_SIGNATURE = b"_FVH"
USER_INTERFACE = 0x15  # the type of a section that has a module's name
UNNAMED = "-"

LOADING = re.compile(r"Loading (?:PEIM|driver) (" + GUID.pattern + ")", re.IGNORECASE)
IMAGE = re.compile(r"EntryPoint=\S+ (\w+)\.efi", re.IGNORECASE)
PAIR = re.compile(r"(?:guid )?(\S+)\s+\{?(" + GUID.pattern + r")\}?", re.IGNORECASE)
KEYWORDS = {"guids", "name", "pei", "dxe", "installed"}  # that begin lines with a GUID in other texts, and are no names
MODULE = re.compile(r"module \d+ \d+ (" + GUID.pattern + r") \S+ (\S+)")
FILE = re.compile(r"\s*file \S+ \{?(" + GUID.pattern + r")\}?", re.IGNORECASE)
INTERFACE = re.compile(r"\s*(?:section 15 ([0-9a-f]+)|ui (\S+))", re.IGNORECASE)
PLAN, VOLUME = re.compile(r"^(?:temp|ram) ", re.MULTILINE), re.compile(r"^volume \S+ (\S+)", re.MULTILINE)


def all_names(files: list[str]) -> dict[str, str]:
    """The names of EDK2 and those of some files."""
    names: dict[str, str] = {}
    for path in [EDK2, *files]:
        names |= names_in_file(path)
    return names


def names_in_file(path: str) -> dict[str, str]:
    """The names in a file; of a plan, those in its volumes."""
    with open(path, "rb") as file:
        content = file.read()
    if VOLUME_SIGNATURE in content:
        return names_in_image(content)
    text = content.decode("utf-8", "replace")
    if PLAN.search(text) is None:
        return names_in_text(text)
    found: dict[str, str] = {}
    for name in VOLUME.findall(text):
        found |= names_in_file(os.path.join(os.path.dirname(path), name))
    return found


def names_in_text(text: str) -> dict[str, str]:
    """The names in a text of any of its kinds."""
    found, module = names_in_log(text), ""
    for line in text.splitlines():
        if (match := MODULE.match(line)) is not None:
            if match[2] != UNNAMED:
                found.setdefault(match[1], plain_name(match[2]))
        elif (match := FILE.match(line)) is not None:
            module = match[1].lower()
        elif module and (match := INTERFACE.match(line)) is not None:
            found.setdefault(module, name_of_section(bytes.fromhex(match[1])) if match[1] else plain_name(match[2]))
        elif (pair := pair_of(line)) is not None:
            found.setdefault(*pair)
    return {guid: name for guid, name in found.items() if name}


def pair_of(line: str) -> tuple[str, str] | None:
    """The GUID and the name of a line `NAME GUID`, or of a line of a .dec file: `NAME = { 0x.., .. }`."""
    line = line.split("#")[0].strip()
    name, _, value = line.partition("=")
    if value and (guid := dec_guid(value)) is not None:
        return guid, name.strip()
    match = PAIR.fullmatch(line)
    return (match[2].lower(), match[1]) if match and match[1] not in KEYWORDS else None


def dec_guid(value: str) -> str | None:
    """The GUID of a value in a .dec file."""
    numbers = re.findall(r"0x([0-9a-f]+)", value, re.IGNORECASE)
    if value.count("{") != 2 or len(numbers) != 11:
        return None
    digits = "".join(number.zfill(width)[-width:] for number, width in zip(numbers, [8, 4, 4] + [2] * 8)).lower()
    return "-".join([digits[:8], digits[8:12], digits[12:16], digits[16:20], digits[20:]])


def names_in_log(text: str) -> dict[str, str]:
    """The names of the modules in a core's log: one line has the file's GUID, and one of the next the image's name."""
    found, loading = {}, ""
    for line in text.splitlines():
        if (match := LOADING.search(line)) is not None:
            loading = match[1].lower()
        elif loading and (match := IMAGE.search(line)) is not None:
            found[loading], loading = match[1], ""
    return found


def names_in_image(image: bytes) -> dict[str, str]:
    """The names of the modules in all volumes of an image that are not packed."""
    found: dict[str, str] = {}
    for volume in volumes_in_image(image):
        for guid, section in interfaces_of(volume):
            if name := name_of_section(section):
                found.setdefault(guid, name)
    return found


def volumes_in_image(image: bytes) -> Iterator[bytes]:
    """Each volume of an image, those inside others too."""
    at = image.find(VOLUME_SIGNATURE)
    while at >= 0:
        start = at - SIGNATURE_AT
        if header_length(image, start):
            yield image[start : start + little(image, start + 32, 8)]
        at = image.find(VOLUME_SIGNATURE, at + 1)


def interfaces_of(volume: bytes) -> Iterator[tuple[str, bytes]]:
    """The GUID of each file of a volume and the bytes of its first user interface section; what cannot be read is passed over."""
    try:
        for at, front, size in files_at(volume):
            body = volume[at + front : at + size]
            section = next((whole[length:] for kind, whole, length in readable_sections(body) if kind == USER_INTERFACE), None)
            if section is not None:
                yield guid_text(volume, at), section
    except ValueError:
        return


def readable_sections(body: bytes) -> Iterator[tuple[int, bytes, int]]:
    try:
        yield from sections_of(body)
    except ValueError:
        return


def name_of_section(section: bytes) -> str:
    """The text of a user interface section, up to its null; empty without one."""
    units = [int.from_bytes(section[at : at + 2], "little") for at in range(0, len(section) - 1, 2)]
    return printable(section[: 2 * units.index(0)]) if 0 in units else ""


def plain_name(name: str) -> str:
    r"""A module's name as its section has it: in a line of `explain`, a character that no word may have is \uXXXX."""
    units = b"".join(int(part[1:], 16).to_bytes(2, "little") if part.startswith("\0") else part.encode("utf-16-le")
                     for part in re.split(r"(\0[0-9a-f]{4})", ESCAPED.sub("\0\\1", name)))
    return printable(units)


def printable(units: bytes) -> str:
    """UTF-16 text, with a sign in the place of what cannot be printed."""
    return "".join(letter if letter.isprintable() else "\N{REPLACEMENT CHARACTER}" for letter in units.decode("utf-16-le", "replace"))
