#!/usr/bin/env python3
"""Brings the repository's own names in specs/ and proofs/ to one spelling.

usage: python3 tools/spell_names.py          at the top of the repository: renames in place
       python3 tools/spell_names.py --list   prints each name with its new spelling, and changes nothing

A fact or a type (a name with a capital) goes to upper camel case: Bare-below becomes BareBelow. Every other
definition, lemma, field, constructor and local name of a definition goes to snake case: may-end becomes may_end,
chosenSigned becomes chosen_signed. Names of goals and of what the check generates keep their spelling, as do
names of libraries, functions of src/, strings and comments of src/. It stops where two names would fall together.
"""
import os
import re
import sys

NAME = r"[A-Za-z_][A-Za-z0-9_'₀-₉-]*"
TOKEN = re.compile(r"(?<![A-Za-z0-9_'₀-₉-])" + NAME)
LEAD = r"(?:(?:abbrev|unfoldable|pub|data|record|module)\s+)*"
DECLARED = re.compile(r"^(\s*)(" + LEAD + r")((?:" + NAME + r"\s+)*" + NAME + r")\s*(?::(?:\s|$)|\{|\()")
# Where the plain rule would give a name that stands for something else.
CHOSEN = {"row-after": "met_row", "row-after-iff": "met_row_iff", "computed-answers": "computed_answers_lem"}
# Names that functions of src/ have too, as a definition may.
SHARED = {"by_tag", "end_day"}
GOAL = re.compile(r"^\s*(?:abbrev\s+)?(?:pub\s+)?(" + NAME + r")\s*:\s*goal\.")


def files(root):
    for folder, dirs, names in os.walk(os.path.join(root, "crates")):
        dirs[:] = sorted(d for d in dirs if d != "out")
        for name in sorted(names):
            yield os.path.join(folder, name)


def read(path):
    with open(path, encoding="utf-8") as f:
        return f.read()


def wants(name):
    return "-" in name or (name[0].islower() and re.search(r"[a-z][A-Z]", name) is not None)


def respelled(name):
    if name in CHOSEN:
        return CHOSEN[name]
    if name[0].isupper():
        first, *rest = name.split("-")
        return first + "".join(w[:1].upper() + w[1:] for w in rest)
    name = re.sub(r"(?<=[a-z])([A-Z])(?=[a-z])", lambda m: "_" + m.group(1).lower(), name)
    return name.replace("-", "_")


def gather(root):
    """The names that the repository declares, and among them the fields; the names of goals; what it imports."""
    names, fields, goals, foreign = {}, set(), set(), set()
    for path in files(root):
        if not path.endswith(".antt"):
            continue
        text = read(path)
        for line in text.splitlines():
            if line.lstrip().startswith("--"):
                continue
            use = re.match(r"use ([^{]*)\{(.*)\}", line)
            if use:
                own = re.match(r"Rattle\.(\w+)\.(specs|proofs)\.", use.group(1))
                if not (own and os.path.isdir(os.path.join(root, "crates", own.group(1)))):
                    foreign.update(TOKEN.findall(use.group(2)))
                continue
            if line.startswith("use "):
                continue
            goal = GOAL.match(line)
            if goal:
                goals.add(goal.group(1))
                continue
            found = DECLARED.match(line)
            if not found:
                continue
            for name in found.group(3).split():
                if wants(name):
                    names.setdefault(name, os.path.relpath(path, root))
                    if found.group(1):
                        fields.add(name)
    for name in list(names):
        if name in goals or name in foreign:
            del names[name]
    return names, fields, goals, foreign


def turn_antt(text, names, fields, seen):
    out = []
    for line in text.splitlines(keepends=True):
        code, comment = line, ""
        if line.lstrip().startswith("--"):
            code, comment = "", line
        if GOAL.match(code):
            out.append(code)
            continue
        def one(m):
            name = m.group(0)
            if name not in names:
                return name
            before = code[: m.start()]
            if before.endswith("."):
                owner = re.search(r"([A-Za-z_'₀-₉·◌0-9-]+|\))\.$", before)
                word = owner.group(1) if owner else ""
                if word[:1].isupper() and "Rattle." in before[-200:]:
                    return names[name]
                if name not in fields:
                    seen.append(line.strip())
                    return name
            return names[name]
        out.append(TOKEN.sub(one, code) + comment)
    return "".join(out)


def turn_rt(text, names):
    pieces = re.split(r'("(?:\\.|[^"\\])*"|//[^\n]*)', text)
    for i in range(0, len(pieces), 2):
        pieces[i] = TOKEN.sub(lambda m: names.get(m.group(0), m.group(0)), pieces[i])
    return "".join(pieces)


def main():
    root = os.getcwd()
    declared, fields, goals, foreign = gather(root)
    names = {n: respelled(n) for n in declared}
    everything = set()
    for path in files(root):
        if path.endswith(".antt"):
            for line in read(path).splitlines():
                if not line.lstrip().startswith("--"):
                    everything.update(TOKEN.findall(line))
    clash = False
    for n, new in sorted(names.items()):
        others = [m for m in names if m != n and names[m] == new]
        if others or (new in everything and new not in SHARED):
            print(f"falls together: {n} -> {new} ({declared[n]}) with {others or 'a name that stands'}")
            clash = True
    if "--list" in sys.argv:
        for n, new in sorted(names.items()):
            print(f"{n} -> {new} ({declared[n]}){' field' if n in fields else ''}")
        return 0
    if clash:
        return 1
    seen = []
    for path in files(root):
        if path.endswith(".antt"):
            text = read(path)
            new = turn_antt(text, names, fields, seen)
        elif path.endswith(".rt"):
            text = read(path)
            new = turn_rt(text, names)
        else:
            continue
        if new != text:
            with open(path, "w", encoding="utf-8") as f:
                f.write(new)
    for line in seen:
        print("left behind a dot:", line[:150])
    return 0


if __name__ == "__main__":
    sys.exit(main())
