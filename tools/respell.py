#!/usr/bin/env python3
"""Brings the repository's own definitions and lemmas to one spelling: words in snake case, facts and
types in camel case. Run once, at the top of a repository that port.py has turned.

Names are those that .antt files of specs/ and proofs/ declare. A name of a goal that an answer file
answers is Rattle's own and stays, as do names of code, texts in quotes and comments."""

import collections
import os
import re
import sys

DECLARED = re.compile(r"^\s*(?:(?:abbrev|unfoldable|pub)\s+)*([^\s:(){}.,;λ=]+)\s*:\s+(.*)$")
TYPE = re.compile(r"^\s*(?:pub\s+)?(?:data|record)\s+(\S+)")
GOAL = re.compile(r"(goal|given|need)\.")
# a path: words joined by dots
PATH = re.compile(r"[^\s(){}\[\],;«»|\"]+")
STEP = re.compile(r"^[a-z][0-9']?$")
# what a fact is called that was written with a small letter
FACTS = {"made-part": "MadePart", "takes-then": "TakesThen", "free-then": "FreeThen", "accept-rest": "AcceptRest"}
# what is respelled in one crate alone
ALONE = {"rules": {"coded": "IsCoded"}}
# port.py gives uses of this constructor another name than its declaration
ODD = {"step_of_lem": "step_of"}


def files(root, ends):
    for folder, dirs, names in os.walk(os.path.join(root, "crates")):
        dirs[:] = sorted(d for d in dirs if d != "out")
        for name in sorted(names):
            if name.endswith(ends):
                yield os.path.join(folder, name)


def camel(name):
    return "".join(part[:1].upper() + part[1:] for part in name.split("-"))


def spelled(name):
    if name in FACTS:
        return FACTS[name]
    return camel(name) if name[0].isupper() else name.replace("-", "_")


def collect(root):
    """The names to respell, and those of them that are fields of records."""
    own, fields = set(), set()
    for path in files(root, (".antt",)):
        record = None
        with open(path, encoding="utf-8") as f:
            for line in f:
                depth = len(line) - len(line.lstrip())
                if line.strip() and record is not None and depth <= record:
                    record = None
                kind = TYPE.match(line)
                if kind:
                    own.add(kind[1])
                    record = depth
                    continue
                it = DECLARED.match(line)
                if not it or line.lstrip().startswith(("let ", "--")) or GOAL.match(it[2]):
                    continue
                own.add(it[1])
                if record is not None:
                    fields.add(it[1])
    names = {n for n in own if "-" in n and n[0].isalpha()}
    seen = collections.Counter(spelled(n) for n in names)
    for name in sorted(names):
        if seen[spelled(name)] > 1 or (spelled(name) in own and spelled(name) not in names):
            sys.exit(f"respell: {name} would fall together with another name")
    return names, fields


def respelled(text, names, fields, answers, alone={}):
    """A piece of text without comments and quotes."""

    def path(match):
        words = match[0].split(".")
        for i, word in enumerate(words):
            word = words[i] = ODD.get(word, alone.get(word, word))
            if word not in names:
                continue
            # behind a step of a proof stand Rattle's own names, and fields of records
            if answers and i > 0 and STEP.match(words[0]) and word not in fields:
                continue
            words[i] = spelled(word)
        return ".".join(words)

    return PATH.sub(path, text)


def turned(text, names, fields, answers, comment, alone):
    out = []
    for line in text.split("\n"):
        at = line.find(comment)
        code, rest = (line, "") if at < 0 else (line[:at], line[at:])
        parts = code.split('"')
        for i in range(0, len(parts), 2):
            parts[i] = respelled(parts[i], names, fields, answers, alone)
        out.append('"'.join(parts) + rest)
    return "\n".join(out)


def pages(root):
    docs = os.path.join(root, "docs")
    for folder in (root, docs):
        for name in sorted(os.listdir(folder)) if os.path.isdir(folder) else []:
            if name.endswith(".md"):
                yield os.path.join(folder, name)


def main():
    root = os.path.realpath(sys.argv[1] if len(sys.argv) > 1 else ".")
    names, fields = collect(root)
    changed = 0

    def write(path, new, old):
        nonlocal changed
        if new != old:
            changed += 1
            with open(path, "w", encoding="utf-8") as f:
                f.write(new)

    for path in files(root, (".antt", ".rt")):
        with open(path, encoding="utf-8") as f:
            old = f.read()
        base = os.path.basename(path)
        comment = "//" if path.endswith(".rt") else "--"
        alone = ALONE.get(os.path.relpath(path, os.path.join(root, "crates")).split(os.sep)[0], {})
        new = turned(old, names, fields, base in ("Answers.antt", "Invariants.antt"), comment, alone)
        write(path, new, old)
    for path in pages(root):
        with open(path, encoding="utf-8") as f:
            old = f.read()
        new = re.sub(r"`([^`\n]+)`", lambda m: "`" + respelled(m[1], names, fields, False) + "`", old)
        write(path, new, old)
    print(f"respell: {len(names)} names, {changed} files")


if __name__ == "__main__":
    main()
