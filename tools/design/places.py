#!/usr/bin/env python3
"""Lists the places in crates/*/src that docs/DESIGN-PASS.md counts: places.py POINT, from 1 to 7, or no number for the counts alone."""

import collections
import glob
import re
import sys

NUMBER = r"u8|u16|u32|u64|usize"


def sources():
    for path in sorted(glob.glob("crates/*/src/*.rt")):
        with open(path, encoding="utf-8") as file:
            yield path, re.sub(r"//[^\n]*", "", file.read())


def functions():
    """Path, name, what stands before the body (clauses too), and the body."""
    for path, text in sources():
        for found in re.finditer(r"^( *)(?:pub )?(?:const )?(?:extern \"C\" )?fn (\w+)(.*?)\n\1\{\n(.*?)\n\1\}", text, re.M | re.S):
            yield path, found[2], found[3], found[4]
        for found in re.finditer(r"^( *)(?:pub )?fn (\w+)([^\n;]*)\{\n(.*?)\n\1\}", text, re.M | re.S):
            yield path, found[2], found[3], found[4]


def parameters(head):
    head = re.split(r"\n\s+(?:requires|ensures)\b", head)[0]
    inside = head[head.find("(") + 1 : head.rfind("->") if "->" in head else head.rfind(")")]
    return [part.strip().rstrip(")").strip() for part in re.split(r",(?![^<\[(]*[>\])])", inside) if ":" in part]


def result(head):
    found = re.search(r"\) -> ([^\n]+)", re.split(r"\n\s+(?:requires|ensures)\b", head)[0])
    return found[1].strip() if found else ""


def shaped():
    """Enums with a case that holds nothing beside one that holds something; fields that are flags; numbers that say `none`; numbers of kinds."""
    for path, text in sources():
        for found in re.finditer(r"enum (\w+) \{(.*?)\n\}", text, re.S):
            cases = re.findall(r"^\s+(\w+)(\(|,)", found[2], re.M)
            if any(end == "(" for _, end in cases) and any(end == "," for _, end in cases):
                yield path, f"enum {found[1]}"
        for found in re.finditer(r"struct (\w+)(?:<[^>]*>)? \{(.*?)\n\}", text, re.S):
            for flag in re.findall(r"(\w+): bool", found[2]):
                yield path, f"flag {found[1]}.{flag}"
        kinds = re.findall(rf"const ([A-Z0-9_]+): (?:{NUMBER}) = (?:\d{{1,3}}|0x[0-9A-F]0+);", text)
        if len(kinds) >= 3 and not re.search(r"layout|plan/src/words", path):
            yield path, f"numbers of kinds {kinds[0]} to {kinds[-1]} ({len(kinds)})"
    for path, name, head, body in functions():
        if re.fullmatch(NUMBER, result(head)) and re.search(r"return 0;|return [A-Z_]+;|\n    0$|^    0$|\n    NO_\w+$", body):
            yield path, f"a number for none or a kind: {name}"
        elif re.fullmatch(r"Port|Flow", result(head)) and re.search(r"no_port\(\)|no_flow\(\)|number: 0", body):
            yield path, f"an empty row for none: {name}"


def twins():
    """Functions whose bodies have one shape: the same but for names and numbers."""
    groups = collections.defaultdict(list)
    for path, name, _, body in functions():
        words = re.findall(r"[A-Za-z_]\w*|\d\w*|\S", body)
        keep = {"if", "while", "for", "match", "return", "let", "mut", "else", "true", "false", "loop", "in", "as"}
        shape = " ".join(word if word in keep or not re.match(r"\w", word) else "x" for word in words)
        if len(words) >= 16 and "extern" not in path and "tmavolice_c" not in path:
            groups[shape].append((path, name))
    for group in groups.values():
        if len(group) > 1:
            yield group[0][0], "twins " + ", ".join(f"{path.split('/')[1]} {name}" for path, name in group)


def loops():
    for path, name, _, body in functions():
        for found in re.finditer(r"^ *(while (?!let)[^\n]*|loop) \{", body, re.M):
            yield path, f"{name}: {found[1]}"


def by_hand():
    """Octets of a number by division, a 0 or 1 for a bool, fields copied one by one, runs compared, text printed by pieces."""
    for path, name, head, body in functions():
        if body.count("/ 256") + body.count("* 256") + body.count("* 65536") + body.count("/ 65536") >= 2:
            yield path, f"a number and its octets: {name}"
        if re.search(r"\{\n\s+return [01];\n\s+\}\n\s+[01]$", body):
            yield path, f"a number of a bool: {name}"
        if re.search(r"\{\n\s+return (?:true|false);\n\s+\}\n\s+(?:true|false)$", body):
            yield path, f"a bool of a bool: {name}"
        if len(re.findall(r"^\s+(\w+): \w+\.\1,$", body, re.M)) >= 2:
            yield path, f"fields copied one by one: {name}"
        if re.search(r"^\s+(\w+): \1,$", body, re.M):
            yield path, f"a field named twice: {name}"
        if name in ("same_octets", "same_mp", "least", "cap", "put_decimal", "put_hex", "hex", "unhex") or name.startswith("tell"):
            yield path, f"written by hand: {name}"


def repeated():
    """Facts that three or more contracts require, and three or more parameters that three or more functions take together."""
    facts = collections.defaultdict(list)
    runs = collections.defaultdict(list)
    for path, name, head, _ in functions():
        for clause in re.findall(r"requires\s+(?:\w+ )?\{(.*?)\}\s*(?=requires|ensures|$)", head, re.S):
            for fact in re.sub(r"[()]", "", clause).split("×"):
                fact = re.sub(r"\.(?:old|now)\b", "", " ".join(fact.split()))
                facts[re.sub(r"\blength (?:b|image|l)\b", "length image", fact)].append(f"{path.split('/')[1]} {name}")
        names = parameters(head)
        for i in range(len(names) - 2):
            runs[tuple(names[i : i + 3])].append(f"{path.split('/')[1]} {name}")
    for fact, users in facts.items():
        if len(users) >= 3:
            yield "", f"{len(users)} contracts: {fact}: {', '.join(users)}"
    for run, users in runs.items():
        if len(users) >= 3:
            yield "", f"{len(users)} functions: ({', '.join(run)}): {', '.join(users)}"


def places_beside():
    """A slice with a place or an end in it as a parameter of its own."""
    for path, name, head, _ in functions():
        names = " ".join(parameters(head))
        if "[u8]" in names and re.search(r"\b(?:at|from|start|row|low|upto|place): usize", names):
            yield path, f"{name}({', '.join(parameters(head))})"


def switches():
    """A parameter that is compared three times or more, to choose what is done."""
    for path, name, head, body in functions():
        for parameter in parameters(head):
            word = re.escape(parameter.split(":")[0].strip())
            if len(re.findall(rf"if {word} == ", body)) >= 2 or re.search(rf"same_octets\({word}, b\"|same_octets\(b\"\w+\", {word}", body):
                yield path, f"{name} by {word}"
        for found in re.finditer(r"match (\w+) \{", body):
            if len(re.findall(r"=>", body)) >= 4:
                yield path, f"{name} matches {found[1]}"


POINTS = [shaped, twins, loops, by_hand, repeated, places_beside, switches]


def main():
    wanted = [int(word) for word in sys.argv[1:]]
    for number, point in enumerate(POINTS, 1):
        places = list(point())
        if number in wanted:
            for path, words in places:
                print(f"{path}: {words}" if path else words)
        if not wanted or number in wanted:
            print(f"point {number}: {len(places)} places")


main()
