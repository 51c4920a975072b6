#!/usr/bin/env python3
"""Sets the numbers of lines in the tables of docs/TRUST.md to what the files of definitions have now.

usage: python3 tools/port/count_pages.py        at the top of the repository

`cargo test -p pages` compares them, and says of each other number in the pages what it should be.
"""
import re

TRUST = "docs/TRUST.md"
ROW = re.compile(r"^\| ([^|]+) \| ([^|]+) \| ([\d,]+) \|$")


def files(cell):
    """The paths in `codec FrameSet, Request; codec_tlvs Tlv`."""
    for part in cell.split("; "):
        crate, _, names = part.partition(" ")
        for name in names.split(", "):
            yield f"crates/{crate}/specs/{name}.antt"


def lines(path):
    with open(path) as f:
        return len(f.read().splitlines())


def main():
    with open(TRUST) as f:
        rows = f.read().splitlines(keepends=True)
    inside = False
    for at, row in enumerate(rows):
        m = ROW.match(row.rstrip("\n"))
        inside = row.startswith("| read | files | lines |") or (inside and row.startswith("|"))
        if inside and m:
            rows[at] = f"| {m[1]} | {m[2]} | {sum(map(lines, files(m[2]))):,} |\n"
    with open(TRUST, "w") as f:
        f.write("".join(rows))


main()
