"""Volumes for `measure` and `try-hostile`: from their texts, by `pitools volume`; and files in bytes, with any size and content, behind a header that was made so."""
import tempfile
import uuid

import pitools

HEADER_LENGTH, FILE_HEADER, LARGE, MOST_SIZE = 72, 24, 0x01, 0xFFFFFE
FREEFORM, PEIM, RAW_FILE = 0x02, 0x06, 0x01
PEI_APRIORI = uuid.UUID("1b45cc0a-156a-428a-af62-49864da0e6e6").bytes_le
MIB = 1 << 20


def guid(kind: int, number: int) -> str:
    return f"{kind:08x}-0000-4000-8000-{number:012x}"


def in_bytes(name: str) -> bytes:
    return uuid.UUID(name).bytes_le


def answered(text: str) -> tuple[int, bytes]:
    """What `pitools volume` answers for a text, and its exit status."""
    with tempfile.NamedTemporaryFile("w", suffix=".volume", encoding="ascii") as file:
        file.write(text)
        file.flush()
        return pitools.answer("volume", file.name)


def made(text: str) -> bytes:
    """The volume that a text describes."""
    status, printed = answered(text)
    if status:
        raise ValueError(f"pitools volume: {printed.decode().strip()}")
    return printed


def volume(files: str, length: int = 4 * MIB) -> bytes:
    return made(f"volume {length}\n{files}end\n")


def fitting(files: str) -> bytes:
    """An FFS3 volume of files, of the least length that is a multiple of 4 KiB. A refusal at the `end` says the whole need, one before it only what is needed so far."""
    end, length, short, enough, fitted = files.count("\n") + 2, 4096, 0, 0, b""
    while enough - short != 4096:
        status, printed = answered(f"volume {length} ffs3\n{files}end\n")
        if status:
            *_, line, cause, need = printed.split()
            if cause != b"NoRoom":
                raise ValueError(f"pitools volume: {printed.decode().strip()}")
            if int(line) == end:
                return made(f"volume {-(-int(need) // 4096) * 4096} ffs3\n{files}end\n")
            short = length
        else:
            enough, fitted = length, printed
        length = -(-(short + enough) // 8192) * 4096 if enough else 2 * length
    return fitted


def aligned(data: bytes) -> bytes:
    """The bytes up to the next multiple of 8, as files stand in a volume."""
    return data + b"\xff" * (-len(data) % 8)


def filled(body: bytes, length: int = 64 * MIB, system: str = "ffs2") -> bytes:
    """A volume with these bytes behind its header, and erased ones behind them."""
    return (made(f"volume {length} {system}\nend\n")[:HEADER_LENGTH] + body).ljust(length, b"\xff")


def file(kind: int, name: bytes, body: bytes) -> bytes:
    """A file of no checksum of its data, a large one where its size asks for it."""
    large = FILE_HEADER + len(body) > MOST_SIZE
    front = name + bytes([0, 0, kind, LARGE if large else 0]) + (0 if large else FILE_HEADER + len(body)).to_bytes(3, "little") + bytes(1)
    front += (FILE_HEADER + 8 + len(body)).to_bytes(8, "little") if large else b""
    return aligned(front[:16] + bytes([-sum(front) % 256, 0xAA]) + front[18:23] + b"\xf8" + front[24:] + body)


def body_of(text: str) -> bytes:
    """The sections of the one file that a text describes, as bytes."""
    shown = made(f"volume 65536\nfile peim {guid(1, 0)}\n{text}end\n")
    size = int.from_bytes(shown[HEADER_LENGTH + 20 : HEADER_LENGTH + 23], "little")
    return shown[HEADER_LENGTH + FILE_HEADER : HEADER_LENGTH + size]


def a_priori(names: int, known: int) -> bytes:
    """A volume with an a priori list of so many names: of that many PEIMs again and again, or of nobody where there are none."""
    those = [in_bytes(guid(1, number)) for number in range(known)] or [in_bytes(guid(9, 0))]
    listed = b"".join(those) * (names // len(those))
    section = b"\xff\xff\xff\x19" + (8 + len(listed)).to_bytes(4, "little") + listed
    peims = b"".join(file(PEIM, name, b"") for name in those[:known])
    return filled(file(FREEFORM, PEI_APRIORI, section) + peims, system="ffs3")
