#!/usr/bin/env python3
"""Brings this repository's own definitions and lemmas to snake case.

usage: python3 tools/snake_names.py [--check]      at the top of the repository, once, after port.py

A definition, lemma, field or constructor that specs/ or a file of lemmas in proofs/ declares in lower camel case, or with dashes,
is respelled in snake case wherever it stands as a whole word: in specs/, proofs/, the clauses of src/ and the must-fail edits.
Types and modules keep their upper camel case. Names that only a file Proof.antt declares stay: they are those of goals.
Functions, fields and variants of src/ have this spelling already. With --check nothing is written.
It prints the names that fall together, which stay as they are.
"""

import glob
import re
import sys

WORD = re.compile(r"[^\s(){}.;,@\"«»\[\]\\`]+")
# A field of a definition's record and one of src/, of two types.
FIELDS = {"sent_at"}
MODIFIERS = {"pub", "abbrev", "unfoldable", "open"}
DECLARED = re.compile(r"^( *)((?:(?:pub|abbrev|unfoldable|open) )*)([^\s:(){}.;,]+(?: [^\s:(){}.;,]+)*) :(?: |$)")
IMPORT = re.compile(r"^ *(?:pub )?(?:ghost )?use ([^\s;{]+?)\.?(?:\{([^}]*)\})?(?: as \S+)?;?$")


def read(path):
    with open(path, encoding="utf-8") as it:
        return it.read()


def is_lemmas(path):
    return path.endswith(".antt") and not path.endswith("/Proof.antt")


def snake(name):
    name = re.sub(r"(?<=[a-z0-9])([A-Z])", lambda it: "_" + it.group(1).lower(), name)
    return name.replace("-", "_")


def is_ours(name):
    return bool(re.match(r"[a-z][A-Za-z0-9_'-]*$", name)) and (bool(re.search(r"[A-Z]", name)) or "-" in name)


def declared(files):
    """The names that files of definitions and lemmas declare, each with the files."""
    out = {}
    for path in files:
        for line in read(path).splitlines():
            if line.lstrip().startswith("--"):
                continue
            it = DECLARED.match(line)
            if it:
                for name in it.group(3).split():
                    if name not in MODIFIERS | {"record", "data", "where", "let", "in"}:
                        out.setdefault(name, set()).add(path)
    return out


def imported(files):
    """The names that files take from a library, each with the files."""
    out = {}
    own = {path.split("/")[1] for path in files}
    for path in files:
        for line in read(path).splitlines():
            it = IMPORT.match(line)
            if it and it.group(2):
                parts = it.group(1).split(".")
                if parts[0] == "Rattle" and len(parts) > 1 and parts[1] in own:
                    continue
                for name in it.group(2).split(","):
                    out.setdefault(name.split(" as ")[-1].strip(), set()).add(path)
    return out


def main(argv):
    antt = sorted(glob.glob("crates/*/specs/**/*.antt", recursive=True) + glob.glob("crates/*/proofs/**/*.antt", recursive=True))
    source = sorted(glob.glob("crates/*/src/**/*.rt", recursive=True))
    edits = sorted(glob.glob("crates/*/must-fail/*.edit"))
    lemmas = [path for path in antt if is_lemmas(path)]
    names, library = declared(lemmas), imported(antt)
    turned = {}
    for name in names:
        if is_ours(name):
            if name in library:
                print(f"stays, since a library has it: {name}")
            else:
                turned[name] = snake(name)
    words = {path: set(WORD.findall(read(path))) for path in antt + source}
    bases = {}
    for name, to in turned.items():
        bases.setdefault(to, []).append(name)
    for to, of in sorted(bases.items()):
        of = of + [to] if to in names else of
        if to in FIELDS:
            continue
        if to in library:
            turned.update((name, to + "_lem") for name in of)
        elif len(of) > 1 and any(len(it.intersection(of)) > 1 for it in words.values()):
            # The definition has the name, and a lemma on it that would have the same gets _lem.
            first = next((name for name in of if re.search("[A-Z]", name)), None) or next(name for name in of if any("/specs/" in path for path in names[name]))
            turned.update((name, to if name == first else to + "_lem") for name in of)
        else:
            continue
        print(f"fall together: {to}: " + ", ".join(f"{name} -> {turned[name]}" for name in of))
    for name, to in sorted(turned.items()):
        for path in (path for path in antt + source if name in words[path] and to in words[path]):
            print(f"look: {path}: {name} becomes {to}, which stands there")
    print(f"{len(turned)} names")
    for path in antt + source + edits:
        text = read(path)
        is_code = path.endswith(".rt")

        def word(it):
            name = it.group()
            # In code a dash is an operator; there only names in camel case are those of specs/.
            return turned.get(name, name) if not (is_code and "-" in name) else name

        now = WORD.sub(word, text)
        if now != text and "--check" not in argv:
            with open(path, "w", encoding="utf-8") as out:
                out.write(now)


main(sys.argv[1:])
