"""Unpacks the packed sections of a firmware image, within bounds that no hostile image passes. `cut-volumes` uses it.

LZMA sections are unpacked here, Brotli's by Debian's package brotli, and EFI's, Tiano's and LZMA's for x86 code by uefitool-cli.
"""
import contextlib
import glob
import lzma
import math
import os
import resource
import shutil
import struct
import subprocess
import tempfile
import time
import uuid
from collections.abc import Iterator

from volume_reader import ERASE_POLARITY, FFS3, guid_text, little

# All bytes that an image unpacks or has in volumes inside of volumes: so many, so many more for each of its own, and at most the last.
LEAST_HELD, HELD_A_BYTE, MOST_HELD = 16 << 20, 32, 256 << 20
MOST_DICTIONARY, PART = 128 << 20, 1 << 20
# What other programs may take for one image: seconds in all, and bytes each, with all that is mapped into them.
LEAST_SECONDS, BYTES_A_SECOND = 4, 1 << 16
LEAST_MEMORY, MEMORY_A_BYTE = 64 << 20, 8
COMPRESSED, GUID_DEFINED = 0x01, 0x02
PACKED = (COMPRESSED, GUID_DEFINED)
NEEDS_PROCESSING = 0x01
VOLUME_IMAGE, LARGE_FILE, FILE_STATE = 0x0B, 0x01, 0xF8
# How sections are packed: by the GUID of a GUID-defined section, or by the byte of a compressed one.
LZMA, LZMA_X86 = "ee4e5898-3914-4259-9d6e-dc7bd79403cf", "d42ae6bd-1352-4bfb-909a-ca72a6eae889"
BROTLI, TIANO = "3d532050-5cda-4fd0-879e-0f7f630d5afb", "a31280ad-481e-41b6-95e8-127f4c984779"
EXTRACTED = {LZMA_X86: "LZMA for x86 code", TIANO: "Tiano's compression"}


def path_of(tool: str, package: str, packing: str) -> str:
    """The path of a tool that unpacks."""
    path = shutil.which(tool)
    if not path:
        raise ValueError(f"it is packed by {packing}, which Debian's {package} unpacks, and that is not installed")
    return path


def wrapped(section: memoryview) -> bytes:
    """A volume of FFS3 whose one file has this section alone (PI 1.8, volume 3, "Firmware Volume Header" and "EFI_FFS_FILE_HEADER2")."""
    size = 32 + len(section)
    file = bytearray(uuid.UUID(int=1).bytes_le + struct.pack("<BBBB3sBQ", 0, 0, VOLUME_IMAGE, LARGE_FILE, b"", 0, size))
    file[16], file[17], file[23] = -sum(file) % 256, 0xAA, FILE_STATE
    length = 72 + size + -size % 8
    head = bytearray(bytes(16) + uuid.UUID(FFS3).bytes_le + struct.pack("<Q4sIHHHBBII8x", length, b"_FVH", ERASE_POLARITY, 72, 0, 0, 0, 2, 1, length))
    head[50:52] = struct.pack("<H", -sum(struct.unpack("<36H", head)) % 0x10000)
    return bytes(head + file) + section + b"\xff" * (-size % 8)


def volumes_dumped(folder: str) -> bytes:
    """The volumes that UEFIExtract has written into its folder."""
    bodies = glob.glob(f"{folder}/**/* Volume image section/*/body.bin", recursive=True)
    made = b""
    for name in sorted(name for name in bodies if name.count(" Volume image section") == 1):
        for part in (os.path.join(os.path.dirname(name), "header.bin"), name):
            with open(part, "rb") as file:
                made += file.read()
    return made


class Unpacker:
    """How many bytes of an image may still be held, and for how long other programs may still work on it."""

    def __init__(self, image_length: int) -> None:
        self.most = self.left = min(MOST_HELD, LEAST_HELD + HELD_A_BYTE * image_length)
        self.seconds = LEAST_SECONDS + image_length / BYTES_A_SECOND
        self.memory = LEAST_MEMORY + MEMORY_A_BYTE * self.most

    def held_by(self, kind: int, section: memoryview, front: int) -> memoryview:
        """What a section holds: a compressed or a GUID-defined one, or one with a volume."""
        self.take(0)
        body = section[front:]
        if kind == COMPRESSED and body[4:5] != b"\0":
            return memoryview(self.by_uefiextract(section, little(body, 0, 4), "EFI's standard compression"))
        if kind == GUID_DEFINED and little(body, 18, 2) & NEEDS_PROCESSING:
            return memoryview(self.by_guid(guid_text(body), section, section[little(body, 16, 2) :]))
        held = {COMPRESSED: body[5:], GUID_DEFINED: section[little(body, 16, 2) :]}.get(kind, body)
        self.take(len(held))
        return held

    def take(self, length: int) -> None:
        """So many more bytes are held. Once they are too many no more section is unpacked."""
        self.left -= length
        if self.left < 0:
            raise self.too_much()

    def too_much(self) -> ValueError:
        return ValueError(f"it unpacks to too much: all sections of an image may unpack to {self.most >> 20} MiB, by its length")

    # Ways to pack

    def by_guid(self, packing: str, section: memoryview, data: memoryview) -> bytes:
        if packing == LZMA:
            return self.by_lzma(data)
        if packing == BROTLI:
            return self.by_brotli(data)
        if packing in EXTRACTED:
            return self.by_uefiextract(section, little(data, 4 if packing == TIANO else 5, 4), EXTRACTED[packing])
        raise ValueError(f"it is packed in a way that is not known here: {packing}")

    def by_lzma(self, data: memoryview) -> bytes:
        reader, parts = lzma.LZMADecompressor(lzma.FORMAT_ALONE, memlimit=MOST_DICTIONARY), []
        try:
            while not reader.eof and not (parts and reader.needs_input):
                parts.append(reader.decompress(b"" if parts else data, max_length=PART))
                self.take(len(parts[-1]))
        except (lzma.LZMAError, EOFError) as fault:
            raise ValueError(f"LZMA cannot unpack it: {fault}") from None
        if not reader.eof:
            raise ValueError("LZMA cannot unpack it: the data ends too early")
        return b"".join(parts)

    def by_brotli(self, data: memoryview) -> bytes:
        """The stream follows the lengths of what comes out and of the room to work in."""
        tool = path_of("brotli", "brotli", "Brotli")
        with tempfile.TemporaryFile() as packed, self.clock():
            packed.write(data[16:])
            packed.seek(0)
            with subprocess.Popen([tool, "-dc"], stdin=packed, stdout=subprocess.PIPE, stderr=subprocess.DEVNULL, preexec_fn=self.limit) as program:
                made = program.stdout.read(self.left + 1) if program.stdout else b""
                if len(made) > self.left:
                    program.kill()
        self.take(len(made))
        if program.returncode:
            raise ValueError("brotli cannot unpack it")
        return made

    def by_uefiextract(self, section: memoryview, unpacked_length: int, packing: str) -> bytes:
        """UEFIExtract takes volumes alone: the section is put into one, and the volumes come out in a folder."""
        tool = path_of("UEFIExtract", "uefitool-cli", packing)
        if unpacked_length > self.left:
            raise self.too_much()
        with tempfile.TemporaryDirectory() as folder, self.clock():
            with open(os.path.join(folder, "packed.fv"), "wb") as file:
                file.write(wrapped(section))
            self.run([tool, "packed.fv", "all"], folder)
            made = volumes_dumped(f"{folder}/packed.fv.dump")
        if not made:
            raise ValueError("UEFIExtract found no volume in it")
        self.take(len(made))
        return made

    # Other programs

    @contextlib.contextmanager
    def clock(self) -> Iterator[None]:
        """Counts the time that other programs take."""
        if self.seconds <= 0:
            raise ValueError("other programs have taken all the time that they may for an image of this length")
        begun = time.monotonic()
        try:
            yield
        finally:
            self.seconds -= time.monotonic() - begun

    def limit(self) -> None:
        """Bounds the memory and the time of another program, in its own process."""
        resource.setrlimit(resource.RLIMIT_AS, (self.memory, self.memory))
        resource.setrlimit(resource.RLIMIT_CPU, (math.ceil(self.seconds), math.ceil(self.seconds)))

    def run(self, words: list[str], folder: str) -> None:
        """Runs a program that says nothing."""
        silent = {"stdout": subprocess.DEVNULL, "stderr": subprocess.DEVNULL, "preexec_fn": self.limit}
        try:
            subprocess.run(words, cwd=folder, check=False, timeout=max(self.seconds, 1), **silent)
        except subprocess.TimeoutExpired:
            raise ValueError(f"{os.path.basename(words[0])} takes too long") from None
