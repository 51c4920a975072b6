#!/usr/bin/env python3
"""Brings the names of definitions and lemmas in the pages to today's spelling, after respell.py has renamed them.

usage: python3 tools/port/respell_pages.py MAP [PAGE..]      at the top of the repository

MAP has a line for each name, the old one and the new one (`respell.py --map`, run before the names are changed). Another name is
respelled if no file below crates/ defines it any more, and one defines its snake case, or that and _lem behind it. Without PAGE these
are all pages: those at the top, and those below docs/.

Only code is read: what stands between two backquotes, and blocks that are fenced and marked antt, rt or rattle. A token is respelled if
all of it is an old name with a hump or a dash. A name without either may be a function's: it stays, and so do parts of a path, options
and files.
"""
import glob
import re
import sys

TOKEN = re.compile(r"[^\W\d][\w'₀-₉-]*")
SPAN = re.compile(r"`([^`]*)`")
FENCE = re.compile(r"^\s*```(\w*)")
MARKS = {"antt", "rt", "rattle"}
SIGNATURE = re.compile(r"^\s*(?:(?:abbrev|unfoldable|pub|opaque) )*([^\W\d][\w'-]*(?: [^\W\d][\w'-]*)*)(?= :(?:\s|$)| [({]|$)")
# A name of a definition before its port, in the middle-dotted form.
MODULE = re.compile(r"\b(Rattle)·(\w+)(?:·\w+)?")


def defined():
    """Every name that a definition or a lemma has, below crates/."""
    names = set()
    for path in glob.glob("crates/*/specs/**/*.antt", recursive=True) + glob.glob("crates/*/proofs/**/*.antt", recursive=True):
        with open(path) as f:
            for m in map(SIGNATURE.match, f):
                names.update(m[1].split() if m else ())
    return names


class Names(dict):
    """The map, and what the tree says of other names."""

    def __init__(self, pairs):
        super().__init__(pairs)
        self.there = defined()

    def __missing__(self, name):
        new = re.sub(r"([a-z0-9])([A-Z])", r"\1_\2", name.replace("-", "_")).lower()
        if not name[0].islower() or name in self.there:
            return name
        # of a definition and a lemma with one name, the lemma had the dash
        for one in (new + "_lem", new) if "-" in name else (new,):
            if one in self.there:
                return one
        return name


def respelled(code, to):
    """The code, with its old names replaced."""

    def one(m):
        before, behind = code[: m.start()], code[m.end() :]
        name = m[0]
        if not re.search("[-A-Z]", name):
            return name
        if before.endswith(("/", "-", "..")) or behind.startswith(("/", "=")) or re.match(r"\.[a-z]+\b(?!\s*\()", behind):
            return name
        return to[name]

    return MODULE.sub(r"\1.\2", TOKEN.sub(one, code))


def page(text, to):
    """The page, with its old names replaced. A span may go on over the end of a line."""
    out, fence = [], None
    prose = []

    def flush():
        whole = "".join(prose)
        prose.clear()

        out.append(SPAN.sub(lambda m: "`" + respelled(m[1], to) + "`", whole))

    for line in text.splitlines(keepends=True):
        m = FENCE.match(line)
        if m:
            flush()
            fence = m[1] if fence is None else None
            out.append(line)
        elif fence is not None:
            out.append(respelled(line, to) if fence in MARKS else line)
        elif not line.strip():
            prose.append(line)
            flush()
        else:
            prose.append(line)
    flush()
    return "".join(out)


def main(argv):
    if not argv:
        print(__doc__.strip(), file=sys.stderr)
        return 2
    with open(argv[0]) as f:
        to = Names(line.split() for line in f if line.strip())
    n = 0
    for path in argv[1:] or sorted(glob.glob("*.md") + glob.glob("docs/**/*.md", recursive=True)):
        with open(path) as f:
            text = f.read()
        new = page(text, to)
        if new != text:
            with open(path, "w") as f:
                f.write(new)
            n += 1
    print(f"respell_pages: {n} pages")
    return 0


if __name__ == "__main__":
    raise SystemExit(main(sys.argv[1:]))
