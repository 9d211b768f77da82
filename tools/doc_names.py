#!/usr/bin/env python3
"""Brings names in the documents to the tree's: after port.py and snake_names.py, and harmless a second time.

usage: python3 tools/doc_names.py OLD FILE..      at the top of the repository

OLD is the commit before the names changed. The files of definitions and lemmas below specs/ and proofs/ have kept their order, so the names
that one of them declared at OLD and those that it declares now are paired one by one; a file with another number of them gives none and is
printed, and so is a name that would get two. Words in backticks are turned, and a cited Proof.antt becomes the folder of the function's proof,
whatever files that holds.
"""

import re
import subprocess
import sys

MODIFIERS = r"(?:(?:pub|abbrev|unfoldable|open) )*"
WORD = re.compile(r"[^\W\d][\w'′-]*")


def git(*words):
    return subprocess.run(["git", *words], stdout=subprocess.PIPE, text=True, check=True).stdout


def declared(text):
    found = []
    for line in text.replace("«", "").replace("»", "").splitlines():
        if line.lstrip().startswith("--"):
            continue
        kind, rest = re.match(rf"\s*{MODIFIERS}(record |data )?(.*)", line).groups()
        it = re.match(r"(\S+)" if kind else r"([^\s:(){}.;,]+(?: [^\s:(){}.;,]+)*) :(?: |$)", rest)
        if it and len(line) - len(line.lstrip()) <= 4:
            found += it.group(1).split()
    return found


def turned(old):
    names = {}
    for path in git("ls-tree", "-r", "--name-only", old, "crates").splitlines():
        if not re.fullmatch(r"crates/\w+/(specs|proofs)/.*\.antt", path) or path.endswith("/Proof.antt"):
            continue
        before = declared(git("show", f"{old}:{path}"))
        try:
            with open(path, encoding="utf-8") as it:
                after = declared(it.read())
        except FileNotFoundError:
            print(f"gone: {path}")
            continue
        if len(before) != len(after):
            print(f"other declarations: {path}: " + ", ".join(sorted({*before} - {*after})))
            continue
        for one, other in zip(before, after):
            names.setdefault(one, set()).add(other)
    for name, found in sorted(names.items()):
        if len(found) > 1:
            print(f"two names: {name}: {', '.join(sorted(found))}")
    return {name: min(found) for name, found in names.items() if len(found) == 1}


def main(old, *files):
    names = turned(old)

    def quoted(it):
        text = re.sub(r"/Proof\.antt$", "/", it.group(1))
        return "`" + WORD.sub(lambda word: names.get(word.group(), word.group()), text) + "`"

    for file in files:
        with open(file, encoding="utf-8") as it:
            text = it.read()
        # An indented block is code.
        now = "".join(line if line.startswith("    ") else re.sub(r"`([^`\n]+)`", quoted, line) for line in text.splitlines(True))
        with open(file, "w", encoding="utf-8") as it:
            it.write(now)
        print(f"{file}: {sum(a != b for a, b in zip(text.splitlines(), now.splitlines()))} lines")


main(*sys.argv[1:])
