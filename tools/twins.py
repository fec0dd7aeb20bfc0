#!/usr/bin/env python3
"""Lists pairs of functions in crates/*/src/*.rt whose bodies are nearly the same, most alike first.

A body is cut into tokens; names of values count as they stand, and types, sizes and numbers count as one token each.
Usage: tools/twins.py [LEAST]   LEAST is the least share of tokens in common that is listed, 0.75 if not given.
"""
import difflib
import glob
import itertools
import re
import sys

FUNCTION = re.compile(r"^\s*(?:pub(?:\(crate\))? )?(?:extern \"C\" )?fn (\w+)")


def functions(path):
    """Each function of a file: its name, its line, and the text of its body."""
    lines = open(path).read().split("\n")
    i = 0
    while i < len(lines):
        found = FUNCTION.match(lines[i])
        if not found:
            i += 1
            continue
        start, depth, body = i, 0, []
        opened = False
        while i < len(lines):
            line = lines[i]
            if not opened and line.strip() == "{" or (not opened and line.rstrip().endswith("{") and "ensures" not in line and "requires" not in line):
                opened = True
                depth = 0
            if opened:
                body.append(line)
                depth += line.count("{") - line.count("}")
                if depth <= 0:
                    break
            elif line.rstrip().endswith(";"):
                break
            i += 1
        i += 1
        yield found.group(1), start + 1, "\n".join(body[1:-1])


def tokens(body):
    body = re.sub(r"//.*", "", body)
    found = re.findall(r"\"(?:[^\"\\]|\\.)*\"|\w+|[^\w\s]", body)
    return ["9" if t[0].isdigit() else "T" if re.fullmatch(r"[ui](8|16|32|64|128|size)|[A-Z]\w*", t) else t for t in found]


def main():
    least = float(sys.argv[1]) if len(sys.argv) > 1 else 0.75
    found = []
    for path in sorted(glob.glob("crates/*/src/**/*.rt", recursive=True)):
        if path.endswith("tests.rt"):
            continue
        for name, line, body in functions(path):
            cut = tokens(body)
            if len(cut) >= 8:
                found.append((f"{path}:{line} {name}", cut))
    pairs = []
    for (a, x), (b, y) in itertools.combinations(found, 2):
        if min(len(x), len(y)) / max(len(x), len(y)) < least:
            continue
        share = difflib.SequenceMatcher(None, x, y, autojunk=False).ratio()
        if share >= least:
            pairs.append((share, a, b))
    for share, a, b in sorted(pairs, reverse=True):
        print(f"{share:.2f}  {a}  ~  {b}")
    print(f"{len(pairs)} pairs")


main()
