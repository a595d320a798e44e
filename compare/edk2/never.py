#!/usr/bin/env python3
"""never.py OBJECT..   C code with the functions that objects of EDK2 ask for and that no boot calls (image loading, status codes, gauges): each says so and ends."""
import re
import subprocess
import sys

DEFINED = set("TDBRVWCGt")


def symbols(objects: list[str]) -> tuple[set[str], set[str]]:
    """The names that the objects use, and those that they define."""
    used: set[str] = set()
    defined: set[str] = set()
    for path in objects:
        for line in subprocess.run(["nm", path], capture_output=True, text=True, check=True).stdout.splitlines():
            words = line.split()
            if words[-2] == "U":
                used.add(words[-1])
            elif words[-2] in DEFINED:
                defined.add(words[-1])
    return used, defined


def main() -> None:
    used, defined = symbols(sys.argv[1:])
    print("extern int printf (const char *, ...);\nextern int fflush (void *);\nextern void _exit (int);")
    for name in sorted(used - defined):
        # The C library's names begin with a small letter or an underscore.
        if re.match(r"[A-Z]", name):
            print(f'int {name} (void) {{ printf ("never {name}\\n"); fflush (0); _exit (4); }}')


main()
