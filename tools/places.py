#!/usr/bin/env python3
"""Lists the places in crates/*/src where an older form may stand: tools/places.py [POINT..] [-v].

1 enums like Option or Result, flags, numbers     2 twins      3 loops with an index
4 casts, conversions by hand                    5 facts in three or more contracts, parameters that travel together
6 buffers with a length beside                  7 switches on a step, tables of functions
"""
import collections, glob, re, sys

KEYWORDS = set("""as bool break const continue crate else enum false fn for i32 i64 if impl in let loop match mod move mut
pub ref return self Self struct true type u8 u32 u64 use usize where while Some None Ok Err Result Option""".split())


def sources():
    for path in sorted(glob.glob("crates/*/src/**/*.rt", recursive=True)):
        yield path, open(path).read().split("\n")


def code(line):
    """A line without its comment; nothing of a contract."""
    line = re.sub(r"//.*", "", line)
    return "" if re.match(r"\s*(ghost|requires|ensures)\b", line) else line


def lines_with(*patterns):
    for path, lines in sources():
        for number, line in enumerate(lines, 1):
            if any(re.search(p, code(line)) for p in patterns):
                yield f"{path}:{number}: {line.strip()}"


def functions():
    """Each function: its path, line, name, parameters, its whole text and its body."""
    start = r"^( *)(?:pub(?:\([a-z]+\))? )?fn (\w+)"
    for path, lines in sources():
        text = "\n".join(lines)
        heads = list(re.finditer(start, text, re.M))
        for found, following in zip(heads, heads[1:] + [None]):
            indent, name = found.groups()
            whole = text[found.start() : following.start() if following else len(text)]
            end = re.search(r"^%s\}" % indent, whole, re.M)
            whole = whole[: end.end()] if end else whole
            opened = re.search(r"^%s\{$|\{$" % indent, whole, re.M)
            yield path, text[: found.start()].count("\n") + 1, name, parameters_of(whole), whole, whole[opened.end() :] if opened else ""


def parameters_of(whole):
    """The parameters between the outermost parentheses."""
    rest = whole[whole.index("(") :]
    depth = 0
    for at, c in enumerate(rest):
        depth += (c == "(") - (c == ")")
        if depth == 0:
            break
    return [p.strip() for p in re.split(r",(?![^<(\[]*[>)\]])", rest[1:at]) if p.strip()]


FLAGS = {
    "a flag with a value": r"\(bool, ",
    "a result in a result": r"\bResult<Result<",
    "numbers for kinds": r"\bkind: u8|^\s*\d( \| \d)* =>|\[at\] = \d|put_\w+\(page, at, \d|kind (==|!=) \d",
    "numbers for refusals": r"\(u8, usize\)|fn fault\(|\bcode (==|!=)|\bcode, 5\d|fn (number|\w+_stands?|\w+_correspond|\w+_fits|\w+_posts)\(.*\) -> u8",
}


def point1():
    """Enums with a case that Option or Result has (but for the kinds of nodes), and in each function: flags, acts that answer a flag, numbers for kinds or refusals."""
    for path, lines in sources():
        for found in re.finditer(r"enum (\w+)[^{]*\{((?:[^}]|\{[^}]*\})*?)\n\}", "\n".join(lines)):
            if re.search(r"^\s*(None|Some|Ok|Err)\b", found.group(2), re.M) and "Leaf" not in found.group(2):
                yield f"{path}: enum {found.group(1)}"
    for path, line, name, parameters, whole, body in functions():
        text = "\n".join(code(part) for part in whole.split("\n"))
        for what, pattern in FLAGS.items():
            if re.search(pattern, text, re.M):
                yield f"{path}:{line} {name}: {what}"
        if re.search(r"-> bool\b", whole.split("{")[0]) and any("&mut" in p for p in parameters):
            yield f"{path}:{line} {name}: changes something and answers a flag"


def shape(body):
    body = re.sub(r"//.*", "", body)
    words = re.findall(r"\w+|[^\s\w]", body)
    return " ".join(w if w in KEYWORDS or not re.match(r"\w", w) else "x" for w in words)


def point2():
    groups = collections.defaultdict(list)
    for path, line, name, parameters, whole, body in functions():
        s = shape(body)
        if len(s.split()) >= 14:
            groups[s].append(f"{path}:{line} {name}")
    for twins in groups.values():
        if len(twins) > 1:
            yield " ~ ".join(twins)


def point3():
    yield from lines_with(r"\bfor (?!_ )\w+ in [^{\[]*\.\.", r"\bwhile\b", r"\b(\w+) = \1\.wrapping_add\(1\)")


def point4():
    yield from lines_with(r"\bas (u|i)(8|16|32|64|size)\b", r"\w\[k\] = .*\w\[k\]", r"fn (eq|ne|cmp|clone|wide|narrow|told)\b")


def point5():
    facts = collections.defaultdict(set)
    groups = collections.defaultdict(set)
    for path, line, name, parameters, whole, body in functions():
        for clause in re.findall(r"^ *requires (?:\w+ )?\{ (.*) \}$", whole, re.M):
            facts[re.sub(r"\b\w+\.(now|old)\b|\b(row|x|y|c|counts|self|start|count)\b", "_", clause)].add(f"{path}:{name}")
        typed = [p for p in parameters if ":" in p]
        for first, second in zip(typed, typed[1:]):
            groups[first + ", " + second].add(f"{path}:{name}")
    for what, places in sorted(facts.items()) + sorted(groups.items()):
        if len(places) >= 3:
            yield f"{len(places)} x {what}"


def point6():
    yield from lines_with(r"^\s*(pub )?(\w+_count|count|used|bounded): usize,", r"\[0; (MAX_ROW_LENGTH|MOST|NUMBERS)\]", r": \[u8; 32\]")


def point7():
    yield from lines_with(r"\bfn\(", r"\bdyn\b", r"\benum Step\b", r"\bControlFlow\b.*\benum\b")


def main():
    wanted = [a for a in sys.argv[1:] if a.isdigit()] or list("1234567")
    for point in wanted:
        found = list(globals()["point" + point]())
        print(f"point {point}: {len(found)}")
        if "-v" in sys.argv:
            for place in found:
                print("  " + place)


main()
