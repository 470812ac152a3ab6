#!/usr/bin/env python3
"""Brings the repository's own definitions and lemmas to one spelling.

usage: respell.py [--list]        at the top of the repository

Types are in upper camel case, all else is in snake case; a dash stands only between the parts of a lemma's name:

    rowOf, coefs-high, gcdIn-same, Least-point  ->  row_of, coefs_high, gcd_in-same, LeastPoint

Names that Rattle makes for goals, names of the library and names of src/ stay. With --list it prints the map and changes
nothing. A name that would fall together with another one is left and named. A second run changes nothing.
"""

import glob
import os
import re
import sys

# a word of antt: whatever stands between white space and brackets
WORD = r"[^\s(){}\[\].;,@\"«»⌜⌝⟦⟧`|]+"
TOKEN = re.compile(WORD)
DECLARED = re.compile(r"^(\s*)((?:(?:pub|abbrev|unfoldable|pattern|data|record|ruleset)\s+)*)(" + WORD + r")((?:\s*\([^()]*(?:\([^()]*\)[^()]*)*\)|\s*\{[^{}]*\})*)\s*:\s")


# lemmas that would have their function's name
LEMMAS = {
    "crates/solver_laws/proofs/Signs.antt": {"none_above": "none_above_lem", "none_below": "none_below_lem"},
    "crates/solver/proofs/Constants.antt": {"none_of": "none_of_lem"},
}


def files(kinds):
    for kind in kinds:
        yield from sorted(glob.glob(kind, recursive=True))


def declared():
    """(name, in specs, is a field or a constructor) of each declaration, and the names that Rattle gives."""
    own, given = set(), set()
    for path in files(["crates/*/specs/**/*.antt", "crates/*/proofs/**/*.antt"]):
        in_specs = "/specs/" in path
        inside = False
        for line in open(path, encoding="utf-8"):
            if line.startswith("--"):
                continue
            if line.strip() and not line[0].isspace():
                inside = re.match(r"((pub|abbrev|pattern)\s+)*(record|data)\s", line) is not None
            for alias in re.findall(r" as (" + WORD + ")", line) if re.match(r"(pub )?use ", line) else []:
                own.add((alias, False, False))
            m = DECLARED.match(line)
            if not m:
                continue
            name = m.group(3)
            if re.search(r":\s*goal\.", line):
                given.add(name)
            elif not m.group(1) or inside or m.group(2):
                own.add((name, in_specs, bool(m.group(1)) and inside))
    return own, given


def snake(name):
    name = re.sub(r"(?<=[a-z0-9])(?=[A-Z])", "_", name)
    return name.lower()


def respelled(name, in_specs, member):
    if not re.fullmatch(r"[A-Za-z][A-Za-z0-9_'′-]*", name):
        return name
    name = name.replace("′", "'")
    if name[0].isupper():
        return "".join(part[:1].upper() + part[1:] for part in name.split("-")) if in_specs and not member else name
    name = "-".join(part if part[:1].isupper() else snake(part) for part in name.split("-"))
    return name.replace("-", "_") if in_specs or member else name


def bare(path):
    """The words of a file that are no part of a path, and where it is code, the names of parameters and fields."""
    text = open(path, encoding="utf-8").read()
    if path.endswith(".rt"):
        return set(re.findall(r"\b([a-z_][a-z0-9_]*):", text)) | set(re.findall(r"[,{] ?([a-z_][a-z0-9_]*)(?=[,}])", "".join(l for l in text.splitlines(True) if l.startswith("ghost use"))))
    return {m.group(0) for m in TOKEN.finditer(text) if m.start() == 0 or text[m.start() - 1] != "."}


def chosen():
    own, given = declared()
    words = {path: bare(path) for path in files(["crates/*/specs/**/*.antt", "crates/*/proofs/**/*.antt", "crates/*/src/**/*.rt"])}
    whole = {path: set(TOKEN.findall(open(path, encoding="utf-8").read())) for path in words}
    to = {}
    for name, in_specs, member in sorted(own):
        new = respelled(name, in_specs, member)
        if new != name:
            to.setdefault(name, set()).add(new)
    clear, left = {}, []
    for name, news in sorted(to.items()):
        new = sorted(news)[-1]
        if len(news) > 1:
            left.append((name, sorted(news), "two spellings: took " + new))
        if name in given:
            left.append((name, [new], "a name that Rattle gives a goal"))
            continue
        both = [p for p in words if name in whole[p] and new in words[p]]
        if both and not any(n == name and m for n, _, m in own):
            left.append((name, [new], "there already: " + ", ".join(both[:3])))
            continue
        clear[name] = new
    for new in sorted(set(clear.values())):
        olds = [o for o in clear if clear[o] == new]
        if len(olds) > 1 and any(sum(o in whole[p] for o in olds) > 1 for p in words):
            left.append((" and ".join(olds), [new], "fall together in one file"))
    return clear, left


def main():
    if not os.path.isdir("crates"):
        sys.exit("respell: no crates/ here")
    if "--list" not in sys.argv:
        for path, names in LEMMAS.items():
            if not os.path.exists(path):
                continue
            old = open(path, encoding="utf-8").read()
            if any(n in old for n in ("noneAbove", "noneOf")):
                open(path, "w", encoding="utf-8").write(TOKEN.sub(lambda m: names.get(m.group(0), m.group(0)), old))
    clear, left = chosen()
    for name, news, why in left:
        print(f"left: {name} -> {' or '.join(news)}: {why}")
    if "--list" in sys.argv:
        for name, new in sorted(clear.items()):
            print(f"{name} -> {new}")
        return
    changed = 0
    for path in files(["crates/*/specs/**/*.antt", "crates/*/proofs/**/*.antt", "crates/*/src/**/*.rt", "crates/*/must-fail/*.edit", "docs/*.md", "README.md"]):
        old = open(path, encoding="utf-8").read()
        new = TOKEN.sub(lambda m: clear.get(m.group(0), m.group(0)), old)
        if new != old:
            open(path, "w", encoding="utf-8").write(new)
            changed += 1
    print(f"respell: {len(clear)} names, {changed} files")


main()
