#!/usr/bin/env python3
"""Protocols whose GUIDs meet in the hash table in which the handles of a protocol are found.

    scripts/meeting_guids.py COUNT BASE [other]     the text of a volume at BASE: so many protocols, each on a handle of its own;
                                                    `other`: as many GUIDs that do not meet

The hasher's seed is fixed, so whoever writes a volume can search for such GUIDs; `compare/meeting_guids.rs` does, built by `rustc`. They agree
in the place at which a look-up begins and in the tag by which it tells entries apart, so that it goes through all of them.
"""
import subprocess
import sys
import tempfile
import uuid
from pathlib import Path

SEARCH = Path(__file__).resolve().parent.parent / "compare/meeting_guids.rs"
INSTALLS = 1000  # in a driver


def meeting_guids(count):
    """So many GUIDs that meet."""
    with tempfile.TemporaryDirectory() as folder:
        program = Path(folder) / "meeting_guids"
        subprocess.run(["rustc", "--edition", "2021", "-O", "-o", program, SEARCH], check=True)
        return subprocess.run([program, str(count)], stdout=subprocess.PIPE, text=True, check=True).stdout.split()


def other_guids(count):
    return [str(uuid.UUID(bytes_le=number.to_bytes(16, "little"))) for number in range(count)]


def files(guids, base, length):
    """A PEIM that hands off, and drivers of a thousand installs each."""
    hob = base.to_bytes(8, "little") + length.to_bytes(8, "little")
    lines = ["file peim 00000001-0000-4000-8000-000000000000", "script pei", "block", "set r0 0x40000000", "set r1 0x2000000"]
    lines += ["memory r0 r1", "set r2 0", "desc r3 ppi dxe-ipl-ppi r2", "install r3", f"hob 5 {hob.hex()}", "ret Success", "end"]
    for first in range(0, len(guids), INSTALLS):
        lines += [f"file driver 00000002-0000-4000-8000-{first:012x}", "depex dxe true", "script dxe", "block", "set r0 1"]
        lines += [f"install new r1 {guid} r0" for guid in guids[first:first + INSTALLS]]
        lines += ["ret Success", "end"]
    return "\n".join(lines) + "\n"


def main(count, base, guids_of):
    length = (count * 32 + 0x20000) & ~0xFFF
    print(f"volume {length}", files(guids_of(count), base, length), "end", sep="\n")


if __name__ == "__main__":
    main(int(sys.argv[1], 0), int(sys.argv[2], 0), other_guids if sys.argv[3:] == ["other"] else meeting_guids)
