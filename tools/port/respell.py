#!/usr/bin/env python3
"""Brings the names of this repository's own definitions and lemmas to today's spelling, snake case, after port.py has run.

usage: python3 tools/port/respell.py        at the top of the repository
       python3 tools/port/respell.py --map  prints the renames and writes nothing

Types, modules, functions of src/ and exported names keep their names. Where a lemma would have a definition's name it ends in _lem.
"""
import collections
import glob
import os
import re
import sys

TOKEN = re.compile(r"[^\W\d][\w'₀-₉-]*")
SIGNATURE = re.compile(r"^\s*(?:(?:abbrev|unfoldable|pub|opaque) )*([^\W\d][\w'-]*(?: [^\W\d][\w'-]*)*) :(?=\s|$)")
CONSTRUCTORS = re.compile(r"^\s*([a-z][\w'-]*)\s*$")
WORDS = {"use", "module", "record", "data", "pub", "abbrev", "unfoldable", "let", "in", "where"}
WALKS = ("Proof.antt", "Answers.antt", "Invariants.antt")
# A definition that would take the name of a constructor beside it.
BY_HAND = {"leftAlone": "is_left_alone"}
# Fields of records that share their name with a definition that stands in the same record.
SHARED_FIELDS = {"behind-places", "behind-sessions", "flows-open", "ports-open", "for-mp", "in-plan"}
RECORD = re.compile(r"^(\s*)(?:pub |abbrev )*record \S.* where\s*$")
CLAUSE = re.compile(r"^\s*(ghost|requires|ensures)\b")


def files():
    for crate in sorted(os.listdir("crates")):
        for kind in ("specs", "proofs", "src"):
            for path in sorted(glob.glob(f"crates/{crate}/{kind}/**/*.antt", recursive=True) + glob.glob(f"crates/{crate}/{kind}/**/*.rt", recursive=True)):
                yield path


def snake(name):
    return re.sub(r"([a-z0-9])([A-Z])", r"\1_\2", name.replace("-", "_")).lower()


def renames():
    """Old name: new name, of every definition and lemma that has a hump or a dash."""
    where = collections.defaultdict(set)
    for path in files():
        if path.endswith(".rt") or (os.path.basename(path) in WALKS and path.count("/") > 3):
            continue
        with open(path) as f:
            for line in f:
                m = SIGNATURE.match(line)
                for name in m[1].split() if m else ():
                    if name not in WORDS:
                        where[name].add(path)
    groups = collections.defaultdict(list)
    for name in where:
        if name[0].islower() and name not in BY_HAND:
            groups[snake(name)].append(name)
    to = {}
    for new, names in groups.items():
        humps = [n for n in names if re.search("[A-Z]", n)]
        specs = lambda n: any("/specs/" in p for p in where[n])
        # the definition keeps the plain name: one of specs/ before one of proofs/, one with a hump before one with a dash
        first = sorted(names, key=lambda n: (not specs(n), n not in humps, n != new, n))[0]
        for name in names:
            to[name] = new if name == first or len(names) == 1 else new + "_lem"
    to.update(BY_HAND)
    return {a: b for a, b in to.items() if a != b}


def fields(text):
    """The places of the names of fields: in the records that are declared, and in the records that are written out."""
    places, inside, at = set(), None, 0
    for line in text.splitlines(keepends=True):
        m = RECORD.match(line)
        if m:
            inside = len(m[1])
        elif inside is not None and line.strip():
            if len(line) - len(line.lstrip()) <= inside:
                inside = None
            else:
                m = re.match(r"\s*(?:pub )?(?=[^\W\d][\w'-]* :)", line)
                if m:
                    places.add(at + m.end())
        at += len(line)
    for m in re.finditer(r"record\s*\{", text):
        deep, i = 0, m.end() - 1
        fresh = True
        while i < len(text):
            c = text[i]
            deep += (c in "{([") - (c in "})]")
            if not deep:
                break
            if fresh and deep == 1 and TOKEN.match(text, i):
                places.add(i)
                fresh = False
            if deep == 1 and c in "{;":
                fresh = True
            i += 1
    return places


def respelled(text, path, to, foreign):
    """The text, whose tokens of `to` are respelled, but for the names that the file imports from elsewhere."""
    kit = set()
    for m in re.finditer(r"use ([\w.']+)\.\{([^}]*)\}", text):
        if foreign(m[1]):
            kit |= {n.strip() for n in m[2].split(",")}
    rust = path.endswith(".rt")
    places = set() if rust else fields(text)

    def one(m, before, at):
        name = m[0]
        if name not in to or name in kit:
            return name
        if at + m.start() in places or (before.endswith(".") and not re.search(r"\b[A-Z]\w*\.$", before)):
            return snake(name) + "_is" if name in SHARED_FIELDS else snake(name)
        return to[name]

    out, ghost, deep, at = [], False, 0, 0
    for line in text.splitlines(keepends=True):
        here, at = at, at + len(line)
        code, mark, comment = line, "", ""
        sign = "//" if rust else "--"
        m = re.search(rf"(?:^|\s){sign}(?=\s|$)", line)
        if m:
            code, comment = line[: m.start()], line[m.start() :]
        if rust and not (ghost or CLAUSE.match(line)):
            out.append(line)
            continue
        out.append(TOKEN.sub(lambda t: one(t, code[: t.start()], here), code) + re.sub(r"[a-z0-9]+[A-Z]\w*|`[^`]+`", lambda c: TOKEN.sub(lambda t: to.get(t[0], t[0]) if re.search("[A-Z]", t[0]) or c[0][0] == "`" else t[0], c[0]), comment))
        if rust:
            deep += code.count("{") - code.count("}")
            ghost = deep > 0
            if not ghost:
                deep = 0
    return "".join(out)


def main(argv):
    to = renames()
    if argv == ["--map"]:
        for a in sorted(to):
            print(a, to[a])
        return 0
    own = {c for c in os.listdir("crates")}
    foreign = lambda module: not (module.startswith("Rattle.") and module.split(".")[1] in own)
    n = 0
    for path in files():
        with open(path) as f:
            text = f.read()
        new = respelled(text, path, to, foreign)
        if new != text:
            with open(path, "w") as f:
                f.write(new)
            n += 1
    print(f"respell: {len(to)} names, {n} files")
    return 0


if __name__ == "__main__":
    raise SystemExit(main(sys.argv[1:]))
