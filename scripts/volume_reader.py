"""Finds firmware volumes, their files and sections in bytes that may be no sound image, and copies none of them. `cut-volumes` uses it."""
import re
import struct
import uuid
from collections.abc import Iterator

SIGNATURE, SIGNATURE_AT = re.compile(b"_FVH"), 40  # PI 1.8, volume 3, "Firmware Volume Header"
FFS2 = "8c8ce578-8a3d-4f1c-9935-896185c32dd3"
FFS3 = "5473c07a-3dcb-4dca-bd6f-1e9689e7349a"
FILE_SYSTEMS = {uuid.UUID(system).bytes_le: system for system in (FFS2, FFS3)}
PAD, LARGE_FILE, ERASE_POLARITY = 0xF0, 0x01, 0x800
# The state of a file is the highest of these bits that is set (PI 1.8, volume 3, "EFI_FFS_FILE_HEADER").
HEADER_CONSTRUCTION, HEADER_VALID, DATA_VALID, MARKED_FOR_UPDATE, DELETED, HEADER_INVALID = (1 << bit for bit in range(6))
MOST_FILES, MOST_SECTIONS = 16384, 256  # of a volume and of a file; the machine refuses a volume with more (docs/FORMATS.md)

Bytes = bytes | memoryview


def little(data: Bytes, at: int, size: int) -> int:
    return int.from_bytes(data[at : at + size], "little")


def guid_text(data: Bytes, at: int = 0) -> str:
    return str(uuid.UUID(bytes_le=bytes(data[at : at + 16])))


def has_file_system(volume: Bytes) -> bool:
    """Whether a volume has a file system of firmware files."""
    return bytes(volume[16:32]) in FILE_SYSTEMS


def header_length(data: Bytes, at: int) -> int:
    """The length of the header of the volume that begins at an offset; 0 if none does. Its FvLength may pass the bytes."""
    length = little(data, at + 48, 2)
    if at < 0 or length < 56 or length % 2 or at + length > len(data) or little(data, at + 32, 8) < length:
        return 0
    words = sum(struct.unpack_from(f"<{length // 2}H", data, at))
    return length if words % 0x10000 == 0 else 0


def volumes_in(data: Bytes) -> Iterator[tuple[int, int]]:
    """The offset and length of the volume at each signature, but of none inside another: the length is 0 if none begins there.

    The last may be cut off."""
    found = SIGNATURE.search(data)
    while found:
        at, start = found.start(), found.start() - SIGNATURE_AT
        length = little(data, start + 32, 8) if header_length(data, start) else 0
        yield start, length
        found = SIGNATURE.search(data, start + length if 0 < length <= len(data) - start else at + 4)


def file_state(volume: Bytes, at: int) -> int:
    """The state of the file at an offset: its highest bit that is not as erased."""
    state = volume[at + 23] ^ (0xFF if little(volume, 44, 4) & ERASE_POLARITY else 0)
    return 1 << (state & 0x3F).bit_length() >> 1


def file_size(volume: Bytes, at: int) -> tuple[int, int]:
    """The length of the header of the file at an offset, and the size of the file."""
    front, size = (32, little(volume, at + 24, 8)) if volume[at + 19] & LARGE_FILE else (24, little(volume, at + 20, 3))
    if size < front or at + size > len(volume):
        raise ValueError(f"the file {guid_text(volume, at)} at {at:#x} has no sound size: what follows it is not read")
    return front, size


def files_at(volume: Bytes) -> Iterator[tuple[int, int, int]]:
    """The offset of each file of a volume whose data is valid, the length of its header, and its size."""
    erased = (b"\xff" if little(volume, 44, 4) & ERASE_POLARITY else b"\0") * 24
    extended, files = little(volume, 52, 2), 0
    at = extended + little(volume, extended + 16, 4) if extended else header_length(volume, 0)
    at += -at % 8
    while at + 24 <= len(volume) and volume[at : at + 24] != erased:
        state = file_state(volume, at)
        if state in (0, HEADER_CONSTRUCTION, HEADER_INVALID):
            at += 24
            continue
        files += 1
        if files > MOST_FILES:
            raise ValueError(f"a volume has more than {MOST_FILES:,} files: the others are not read")
        front, size = file_size(volume, at)
        if state in (DATA_VALID, MARKED_FOR_UPDATE):
            yield at, front, size
        at += size + -size % 8


def sections_of(body: Bytes) -> Iterator[tuple[int, Bytes, int]]:
    """The type and bytes of each section of a file's body, with the length of its header."""
    at, sections = 0, 0
    while at + 4 <= len(body):
        size, front = little(body, at, 3), 4
        if size == 0xFFFFFF:
            size, front = little(body, at + 4, 4), 8
        if size < front or at + size > len(body):
            raise ValueError(f"the section at {at:#x} has no sound size: what follows it is not read")
        sections += 1
        if sections > MOST_SECTIONS:
            raise ValueError(f"it has more than {MOST_SECTIONS} sections: the others are not read")
        yield body[at + 3], body[at : at + size], front
        at += size + -size % 4
