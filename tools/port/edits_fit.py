#!/usr/bin/env python3
"""Verifies that every edit of a wrong program applies: crates/*/wrong/*.edit and crates/*/must-fail/*.edit.

usage: python3 tools/port/edits_fit.py          at the top of the repository
       python3 tools/port/edits_fit.py CRATE..  the edits of these crates

Each `old:` text has to stand exactly once in its file, both as the file is (so host/wrong reads an edit) and as the pairs before it
left it (so rt reads one), and has to be replaced by another text. Prints the edits that do not fit; exits 1 if there are any.
"""
import glob
import os
import sys


def pairs(text):
    """The (file, old, new) of an edit, or a word on what is wrong with it."""
    found, path, old = [], None, None
    for line in text.splitlines():
        if line.startswith("file: "):
            path = line[len("file: ") :]
        elif line.startswith("old: "):
            if old is not None:
                return None, "an 'old:' has no 'new:'"
            old = line[len("old: ") :]
        elif line.startswith("new:"):
            if old is None or path is None:
                return None, "a 'new:' has no 'old:' or no 'file:'"
            new = line[len("new:") :]
            found.append((path, old, new[1:] if new.startswith(" ") else new))
            old = None
    if old is not None:
        return None, "an 'old:' has no 'new:'"
    return (found, None) if found else (None, "it has no pair")


def fault(crate, path):
    """Why the edit does not fit, or None."""
    with open(path, encoding="utf-8") as f:
        found, why = pairs(f.read())
    if why:
        return why
    texts, was = {}, {}
    for file, old, new in found:
        if not file.startswith(("src/", "specs/")):
            return f"{file} is not below src/ or specs/"
        if file not in texts:
            at = os.path.join(crate, file)
            if not os.path.isfile(at):
                return f"there is no {at}"
            with open(at, encoding="utf-8") as f:
                texts[file] = was[file] = f.read()
        if old == new:
            return f"it replaces nothing in {file}"
        for text, state in ((was[file], "as it is"), (texts[file], "as the pairs before left it")):
            if text.count(old) != 1:
                return f"{file}, {state}, has {text.count(old)} times: {old}"
        texts[file] = texts[file].replace(old, new)
    return None


def main(names):
    crates = sorted(names or os.listdir("crates"))
    n, bad = 0, 0
    for crate in crates:
        folder = os.path.join("crates", crate)
        for path in sorted(glob.glob(os.path.join(folder, "wrong", "*.edit")) + glob.glob(os.path.join(folder, "must-fail", "*.edit"))):
            n += 1
            why = fault(folder, path)
            if why:
                bad += 1
                print(f"{path}: {why}")
    print(f"edits_fit: {n - bad} of {n} edits fit, {bad} do not")
    return 1 if bad else 0


if __name__ == "__main__":
    sys.exit(main(sys.argv[1:]))
