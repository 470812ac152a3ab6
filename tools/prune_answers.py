#!/usr/bin/env python3
"""tools/prune_answers.py crates/NAME: removes the answers of a crate's proofs that the check finds alone.

All answers go at first; those that a check then asks for come back, until the crate proves, with `--margin` too. Run it in a crate that proves, at the top of a
checkout, with nothing uncommitted, and `rt tidy` after it."""
import glob
import os
import re
import subprocess
import sys

ANSWER = re.compile(r"^(?:pub )?([A-Za-z_][^\s:]*) : goal\.")
DEFINITION = re.compile(r"^(?:pub |abbrev |unfoldable )*[A-Za-z_][^\s:]* :(?: |$)")


def blocks_of(text):
    """The lines before the first definition, then each definition with its lines; an answer has its name, all else None."""
    blocks = [[None, []]]
    for line in text.split("\n"):
        answer = ANSWER.match(line)
        if answer or DEFINITION.match(line):
            blocks.append([answer.group(1) if answer else None, []])
        blocks[-1][1].append(line)
    return blocks


def write(path, blocks, gone):
    kept = [lines for name, lines in blocks if name not in gone]
    if any(name and name not in gone for name, _ in blocks):
        with open(path, "w") as file:
            file.write("\n".join("\n".join(lines) for lines in kept).rstrip("\n") + "\n")
    elif os.path.exists(path):
        os.remove(path)


def check(crate, *options):
    run = subprocess.run(["rt", "check", *options], cwd=crate, capture_output=True, text=True)
    return run.returncode == 0, run.stdout + run.stderr


def wanted(folder, name, said):
    """Whether the check asks for this answer: it names the goal, and the function or the file."""
    function = folder.split("proofs/", 1)[1].replace("/", ".")
    named = re.search(r"(?<![\w-])" + re.escape(name) + r"(-clause-[\w-]+)?(?![\w-])", said)
    return named and (folder.split("/", 2)[2] in said or function in said or function.split(".")[-1] in said)


def main():
    crate = sys.argv[1].rstrip("/")
    paths = sorted(p for p in glob.glob(crate + "/proofs/**/Answers.antt", recursive=True))
    texts = {path: open(path).read() for path in paths}
    blocks = {path: blocks_of(text) for path, text in texts.items()}
    gone = {path: {name for name, _ in parts if name} for path, parts in blocks.items()}
    total = sum(len(names) for names in gone.values())
    for _ in range(12):
        for path in paths:
            write(path, blocks[path], gone[path])
        proved, said = check(crate)
        if proved:
            proved, said = check(crate, "--margin")
        if proved:
            left = sum(len(names) for names in gone.values())
            print(f"{crate}: {left} of {total} answers went")
            return
        back = [(path, name) for path in paths for name in gone[path] if wanted(os.path.dirname(path), name, said)]
        if not back:
            break
        for path, name in back:
            gone[path].discard(name)
    for path, text in texts.items():
        os.makedirs(os.path.dirname(path), exist_ok=True)
        with open(path, "w") as file:
            file.write(text)
    sys.exit(f"{crate}: no end was found; all answers stand as they were")


main()
