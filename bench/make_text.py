#!/usr/bin/env python3
"""Makes a deterministic text of code, as a printer of modules would write it: make_text.py MEGABYTES FILE."""

import sys

LINES = [
    "    local.get 0",
    "    i32.const {n}",
    "    i32.add",
    "    local.set 1",
    "    block",
    "    local.get 1",
    "    i32.const {m}",
    "    i32.lt_u",
    "    br_if 0",
    "    i32.load offset={m} align=1",
    "    drop",
    "    end",
    "    i64.const -{n}",
    "    call {m}",
    "    drop",
]


def main():
    size = int(sys.argv[1]) * 1_000_000
    seed = 12345
    written = 0
    with open(sys.argv[2], "w", encoding="ascii") as out:
        written += out.write("(module\n  (type (func))\n")
        while written < size:
            written += out.write("  (func (type 0) (local i32 i64)\n")
            for line in LINES * 8:
                seed = (seed * 1103515245 + 12345) % 2**31
                written += out.write(line.format(n=seed % 100000, m=seed % 50) + "\n")
            written += out.write("  )\n")
        out.write(")\n")


main()
