#!/usr/bin/env python3
"""Spells the repository's own definitions and lemmas as today's Rattle spells its own: words in snake case.

Run once at the top of the repository, after the toolchain's port.py: `python3 tools/port/names.py`. It reads what the files of specs/ and
of proofs/ (but for the proofs of single functions) declare, and writes each such name of more than one word with underscores: `scaleOf` and
`scale-of` become `scale_of`. A name of Rattle source, a name that a file imports from a library, and a type or a module (in upper camel
case) stay. Where two names would fall together the lemma gets `_lem`. Contracts in src/, must-fail edits and what stands between back
quotes in the documents follow. `--list` prints the names and changes nothing.
"""
import collections
import glob
import os
import re
import sys

WORDS = r"(?:pub|abbrev|unfoldable|opaque)"
DECLARED = re.compile(r"^(\s*)((?:%s\s+)*)([^\s:(){}.,;]+)\s*:\s" % WORDS)
TOKEN = re.compile(r"[^\s(){}\[\];.,\"«»`λ:|]+")
USE = re.compile(r"^\s*(?:pub\s+)?use\s+([^\s{]+?)\.?\{([^}]*)\}", re.M)
# spelled by their sense
SPECIAL = {"getD-sets-at": "get_or_sets_at", "getD-sets-below": "get_or_sets_below"}
# fields of records, which may share a definition's name
FIELDS = {"sheet-after", "well-formed", "same_size"}
# types that began with a small letter
TYPES = {"atMost39": "AtMost39"}


def snake(name):
    if name in SPECIAL:
        return SPECIAL[name]
    if name in TYPES:
        return TYPES[name]
    name = re.sub(r"(?<=[a-z0-9])(?=[A-Z])", "_", name)
    head, tail = (name[0], name[1:]) if name else ("", "")
    return (head + tail).replace("-", "_").lower()


def shared_files():
    """The files of specs/ and the lemma files of proofs/: not the folder of a single function's proof."""
    for path in sorted(glob.glob("crates/*/specs/**/*.antt", recursive=True) + glob.glob("crates/*/proofs/**/*.antt", recursive=True)):
        shared = path.count("/") == 3 or "/specs/" in path
        if shared or os.path.basename(path) not in ("Proof.antt", "Answers.antt", "Invariants.antt"):
            yield path


def built(path):
    """Whether a file lies in a crate's out/, which holds what the toolchain built."""
    return path.split("/")[2] == "out"


def declared():
    names = collections.defaultdict(set)
    for path in shared_files():
        for line in open(path, encoding="utf-8"):
            code = line.split("--")[0] if line.lstrip().startswith("--") else line
            found = DECLARED.match(code)
            if found and not found.group(3)[0].isupper():
                names[found.group(3)].add(path)
    return names


def foreign(text):
    """What a file imports from a library of the kit."""
    out = set()
    for path, items in USE.findall(text):
        if not (path.startswith("Rattle.") and path.split(".")[1] in CRATES):
            for item in items.split(","):
                words = item.split()
                if words:
                    out.add(words[-1])
    return out


CRATES = {os.path.basename(path) for path in glob.glob("crates/*")}


def plan():
    names = declared()
    wanted = collections.defaultdict(list)
    for name in names:
        wanted[snake(name)].append(name)
    turned = {}
    clashes = []
    for new, olds in wanted.items():
        olds.sort(key=lambda name: (not any("/specs/" in path for path in names[name]), "-" in name, name != new, name))
        if len(olds) > 1:
            clashes.append((new, olds))
        for place, old in enumerate(olds):
            to = new if place == 0 or old in FIELDS else new + "_lem" * place
            if to != old:
                turned[old] = to
    return turned, clashes, names


def turn_line(line, turned, kept):
    def one(found):
        word = found.group(0)
        return turned[word] if word in turned and word not in kept else word
    return TOKEN.sub(one, line)


def main():
    turned, clashes, names = plan()
    if "--list" in sys.argv:
        for old in sorted(turned):
            print(old, turned[old])
        for new, olds in clashes:
            print("together:", new, olds, [sorted(names[old]) for old in olds])
        return
    camel = {old: new for old, new in turned.items() if re.search(r"[a-z0-9][A-Z]", old)}
    for path in sorted(path for path in glob.glob("crates/**/*.antt", recursive=True) if not built(path)):
        text = open(path, encoding="utf-8").read()
        new = turn_line(text, turned, foreign(text))
        if new != text:
            open(path, "w", encoding="utf-8").write(new)
    for path in sorted(glob.glob("crates/*/src/**/*.rt", recursive=True)):
        text = open(path, encoding="utf-8").read()
        new = turn_line(text, camel, foreign(text))
        if new != text:
            open(path, "w", encoding="utf-8").write(new)
    for path in sorted(glob.glob("crates/*/must-fail/*.edit")):
        lines = open(path, encoding="utf-8").read().split("\n")
        of_code = any(line.startswith("file: src/") for line in lines)
        out = [turn_line(line, camel if of_code else turned, set()) if line.startswith(("old:", "new:")) else line for line in lines]
        if out != lines:
            open(path, "w", encoding="utf-8").write("\n".join(out))
    scripts = {os.path.basename(path) for path in glob.glob("tools/**/*", recursive=True)} | {os.path.basename(p) for p in glob.glob("*")}
    said = {old: new for old, new in turned.items() if old not in scripts}
    for path in ["README.md"] + sorted(glob.glob("docs/**/*.md", recursive=True)):
        text = open(path, encoding="utf-8").read()
        new = re.sub(r"`[^`\n]+`", lambda found: turn_line(found.group(0), said, set()), text)
        if new != text:
            open(path, "w", encoding="utf-8").write(new)


if __name__ == "__main__":
    main()
