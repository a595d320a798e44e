"""Volumes as bytes: what `pitools volume` makes of a text, and then what the text's comments ask for.

A comment behind a line `file` or `pad` of the outermost volume, which `pitools volume` passes over, changes that file's header:

    # state HH      its State byte, in hexadecimal
    # sum header    a wrong header checksum
    # sum file      a wrong file checksum
    # sum counted   the attribute 0x40, and the checksum of the body that it asks for
    # size HH       its Size, in hexadecimal, with a header checksum to it
"""
import os
import subprocess
import tempfile

PITOOLS = os.environ.get("PITOOLS", "pitools")
HEADER_LENGTH, HEADER_SUM, FILE_SUM, ATTRIBUTES, SIZE, STATE = 24, 16, 17, 19, 20, 23
EXTENDED_HEADER, FIXED_SUM, COUNTED = 52, 0xAA, 0x40


def changes(text: str) -> list[tuple[int, list[str]]]:
    """The changes that comments ask for: the number of a file of the outermost volume, and the comment's words."""
    found: list[tuple[int, list[str]]] = []
    depth, files = 0, 0
    for words in (line.split() for line in text.split("\n") if line.strip()):
        if words[0] in ("volume", "script"):
            depth += 1
        elif words[0] == "end":
            depth -= 1
        elif words[0] in ("file", "pad") and depth == 1:
            files += 1
        elif words[0] == "#" and words[1:2] and words[1] in ("state", "sum", "size") and files:
            found.append((files - 1, words[1:]))
    return found


def file_places(volume: bytes) -> list[int]:
    """Where the files of a volume without large ones begin."""
    extended = int.from_bytes(volume[EXTENDED_HEADER:EXTENDED_HEADER + 2], "little")
    at = extended + 24 if extended else int.from_bytes(volume[48:50], "little")
    places: list[int] = []
    while at + HEADER_LENGTH <= len(volume) and volume[at:at + HEADER_LENGTH] != b"\xff" * HEADER_LENGTH:
        places.append(at)
        at += -(-int.from_bytes(volume[at + SIZE:at + STATE], "little") // 8) * 8
    return places


def change(volume: bytearray, at: int, words: list[str]) -> None:
    """Changes the header of the file at a place as a comment asks for."""
    size = int.from_bytes(volume[at + SIZE:at + STATE], "little")
    if words[0] == "state":
        volume[at + STATE] = int(words[1], 16)
    elif words[0] == "size":
        other = int(words[1], 16).to_bytes(3, "little")
        volume[at + HEADER_SUM] = (volume[at + HEADER_SUM] + sum(volume[at + SIZE:at + STATE]) - sum(other)) % 256
        volume[at + SIZE:at + STATE] = other
    elif words[1] == "header":
        volume[at + HEADER_SUM] ^= 0x55
    elif words[1] == "file":
        volume[at + FILE_SUM] ^= 0x55
    elif words[1] == "counted":
        volume[at + ATTRIBUTES] |= COUNTED
        volume[at + HEADER_SUM] = (volume[at + HEADER_SUM] - COUNTED) % 256
        volume[at + FILE_SUM] = -sum(volume[at + HEADER_LENGTH:at + size]) % 256


def built(text: str) -> bytes:
    """The bytes that `pitools volume` makes of a text; ValueError where it refuses it."""
    with tempfile.NamedTemporaryFile(mode="w", encoding="utf-8") as file:
        file.write(text)
        file.flush()
        ran = subprocess.run([PITOOLS, "volume", file.name], stdout=subprocess.PIPE, check=False)
    if ran.returncode:
        raise ValueError(ran.stdout.decode().strip())
    return ran.stdout


def made(text: str) -> bytes:
    """The bytes of a volume's text; ValueError where it is none."""
    volume = bytearray(built(text))
    places = file_places(volume)
    for number, asked in changes(text):
        change(volume, places[number], asked)
    return bytes(volume)
