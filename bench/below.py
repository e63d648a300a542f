#!/usr/bin/env python3
"""bench/below.py NAME ..   prints these crates and all crates here that they stand on, lowest first"""
import os
import re
import sys


def main():
    if len(sys.argv) < 2:
        sys.exit(__doc__)
    top = os.path.dirname(os.path.dirname(os.path.abspath(__file__)))
    lines = [it.split(":") for it in open(f"{top}/crates.txt", encoding="utf-8") if re.match(r"\w", it)]
    below = {names.split()[0]: uses.split() for names, uses in lines}
    found = []

    def add(name):
        """Adds a crate after those that it stands on."""
        for it in below.get(name, []):
            add(it)
        if name in below and name not in found:
            found.append(name)

    for name in sys.argv[1:]:
        add(name)
    print(*found)


main()
