#!/usr/bin/env python3
"""guids.py EDK2 OBJECT..   C code that defines the GUIDs that objects of EDK2 ask for, by the .dec files of its packages."""
import glob
import re
import subprocess
import sys


def wanted(objects: list[str]) -> set[str]:
    """The GUIDs that the objects use and do not define."""
    names: set[str] = set()
    for path in objects:
        listed = subprocess.run(["nm", "-u", path], capture_output=True, text=True, check=True).stdout
        names.update(re.findall(r"\bg\w+(?:Guid|Type)$", listed, re.M))
    return names


def declared(edk2: str) -> dict[str, str]:
    """The initializer of each GUID of the packages' declarations; the first one counts."""
    found: dict[str, str] = {}
    for path in sorted(glob.glob(edk2 + "/Md*Pkg/*.dec")):
        text = open(path, encoding="utf-8", errors="replace").read()
        for name, value in re.findall(r"^\s*(g\w+)\s*=\s*(\{[^#\n]*\})", text, re.M):
            found.setdefault(name, value)
    return found


def main() -> None:
    values = declared(sys.argv[1])
    print("#include <Base.h>")
    for number, name in enumerate(sorted(wanted(sys.argv[2:])), 1):
        # One that no package declares is the platform's own: any value that no other has.
        print(f"GUID {name} = {values.get(name, f'{{ 0xdead0000 + {number} }}')};")


main()
