#!/usr/bin/env python3
"""Brings the definitions and lemmas of this repository to snake case.

usage: python3 tools/snake_names.py [--list]     at the top, once, on what the kit's port.py wrote

A name with a dash that an .antt file of this repository gives a type (a definition, a lemma, a field, a helper below a `where`) or
binds by a `let` becomes a name with underscores, wherever it stands in an .antt file, in the `ghost use` lines, clauses and ghost
members of an .rt file, and in the comments of .antt files. Functions of the code, strings, names of the library and names that the
check makes (`loop-i-preserved`, `goal.returns-2`) stay, and so does a word of plain English in a comment (ENGLISH). --list prints
the names, and where the new one was in use before.
"""
import os
import re
import sys

# what the library's modules are called, from which a name is not ours
FOREIGN = re.compile(r"^\s*(?:pub )?(?:ghost )?use (?:Rattle\.(?:std|core|std_\w+)\.|mathlib|Prim|native|lib\.|logic|Lib)")
NAME = r"[a-z_][\w']*(?:-[\w']+)+"
EDGE = r"(?<![\w'\-])%s(?![\w'\-])"
SIGNATURE = re.compile(r"^[ \t]*(?:(?:pub|abbrev|unfoldable)[ \t]+)*((?:%s|[a-z_][\w']*)(?:[ \t]+(?:%s|[a-z_][\w']*))*)[ \t]*:(?![ \t]*goal\.)" % (NAME, NAME))
LET = re.compile(r"\blet[ \t]+(%s)[ \t]*[:=]" % NAME)
GOAL = re.compile(r"^[ \t]*(?:(?:pub|abbrev|unfoldable)[ \t]+)*(%s)[ \t]*:[ \t]*goal\." % NAME)
ENGLISH = {"two-rate"}


def files(root):
    for folder, dirs, names in os.walk(os.path.join(root, "crates")):
        dirs[:] = sorted(d for d in dirs if d != "out")
        for name in sorted(names):
            if name.endswith((".antt", ".rt")):
                yield os.path.join(folder, name)


def read(path):
    with open(path, encoding="utf-8") as f:
        return f.read()


def own_names(texts):
    own, foreign, goals = set(), set(), set()
    for path, text in texts.items():
        if not path.endswith(".antt"):
            continue
        for line in text.splitlines():
            if line.lstrip().startswith("--"):
                continue
            if FOREIGN.match(line):
                foreign.update(re.findall(NAME, line))
                continue
            if line.lstrip().startswith("use ") or line.lstrip().startswith("pub use "):
                continue
            m = GOAL.match(line)
            if m:
                goals.add(m.group(1))
            m = SIGNATURE.match(line)
            if m:
                own.update(n for n in m.group(1).split() if "-" in n)
            own.update(LET.findall(line))
            own.update(n for n in re.findall(r"[({]\s*((?:%s|[a-z][\w']*)(?:\s+(?:%s|[a-z][\w']*))*)\s*:" % (NAME, NAME), line) for n in n.split() if "-" in n)
    return own - foreign - goals


def snake(name):
    return name.replace("-", "_")


def turn_comment(line, turn):
    if re.match(r"--   \S+(, \S+)*   ", line):
        return turn(line)
    return re.sub(r"[\w'-]+", lambda m: m.group(0) if m.group(0) in ENGLISH else turn(m.group(0)), line)


def turn_antt(text, turn):
    out = []
    for line in text.split("\n"):
        if line.lstrip().startswith("--"):
            out.append(turn_comment(line, turn))
        elif FOREIGN.match(line):
            out.append(line)
        else:
            out.append(turn(line))
    return "\n".join(out)


def turn_rt(text, turn):
    out, depth, inside = [], 0, False
    for line in text.split("\n"):
        bare = line.lstrip()
        if bare.startswith("//"):
            out.append(line)
            continue
        if not inside and re.match(r"(pub )?(ghost|requires|ensures)\b", bare) or re.search(r"\b(requires|ensures)( \w+)? \{", bare):
            inside, depth = True, 0
        if inside:
            line = turn(line)
            depth += line.count("{") - line.count("}")
            if depth <= 0:
                inside = False
        out.append(line)
    return "\n".join(out)


def main():
    root = os.path.dirname(os.path.dirname(os.path.realpath(__file__)))
    if len(sys.argv) > 1 and sys.argv[1] != "--list":
        sys.exit(__doc__)
    texts = {path: read(path) for path in files(root)}
    own = own_names(texts)
    if len(sys.argv) > 1:
        for name in sorted(own):
            before = [p for p, t in texts.items() if re.search(EDGE % re.escape(snake(name)), t)]
            print(name, *(os.path.relpath(p, root) for p in before[:4]))
        return
    if not own:
        return
    pattern = re.compile(EDGE % ("(" + "|".join(sorted(map(re.escape, own), key=len, reverse=True)) + ")"))

    def turn(code):
        return pattern.sub(lambda m: snake(m.group(0)), code)

    for path, text in texts.items():
        new = (turn_antt if path.endswith(".antt") else turn_rt)(text, turn)
        if new != text:
            with open(path, "w", encoding="utf-8") as f:
                f.write(new)


main()
