#!/usr/bin/env python3
"""Lists the pairs of places of crates/*/src that have the same shape.

usage: python3 tools/twins.py [LINES]      at the top of the repository

A line's shape is what is left when each name, number and text is made one; comments, imports and lines that only list names (fields, arguments,
arms that give a number) are passed over. Two places are a pair where LINES lines (5 unless told) have the same shapes one after the other; a pair
that goes on is one pair.
"""
import glob
import re
import sys

KEYWORDS = set("as break const continue else enum extern false fn for if impl in let loop match mod mut pub ref return self struct trait true "
               "type use where while ensures requires u8 u16 u32 u64 i64 usize bool None Some Ok Err".split())
WIDE = {"u8", "u16", "u32", "u64", "i64", "usize"}


def shape(line):
    line = re.sub(r'b?"(\\.|[^"\\])*"', "S", line)
    line = re.sub(r"b?'(\\.|[^'\\])'", "N", line)
    def one(found):
        word = found.group(0)
        if word[0].isdigit():
            return "N"
        return "W" if word in WIDE else word if word in KEYWORDS else "x"
    return re.sub(r"\w+", one, line).replace(" ", "")


def shapes(path):
    kept, inside = [], False
    with open(path, encoding="utf-8") as file:
        for number, line in enumerate(file, 1):
            text = line.split("//")[0].strip()
            if inside or text.startswith(("use ", "ghost use ", "pub mod ", "mod ", "#")):
                inside = not text.endswith((";", "]"))
                continue
            if not re.fullmatch(r"(pub|[\W_xNW])*", shape(text).replace("(", "f").replace("{", "f")):
                kept.append((shape(text), number))
    return kept


def main():
    least = int(sys.argv[1]) if len(sys.argv) > 1 else 5
    places = {}
    lines = {path: shapes(path) for path in sorted(glob.glob("crates/*/src/*.rt"))}
    for path, kept in lines.items():
        for at in range(len(kept) - least + 1):
            places.setdefault(tuple(s for s, _ in kept[at:at + least]), []).append((path, at))
    matched = set()
    for found in places.values():
        for i, (a, at_a) in enumerate(found):
            for b, at_b in found[i + 1:]:
                if a != b or at_a + least <= at_b:
                    matched.add((a, b, at_a, at_b))
    pairs = 0
    for a, b, at_a, at_b in sorted(matched):
        if (a, b, at_a - 1, at_b - 1) in matched:
            continue
        run = least
        while (a, b, at_a + run - least + 1, at_b + run - least + 1) in matched:
            run += 1
        pairs += 1
        print(f"{a}:{lines[a][at_a][1]} ~ {b}:{lines[b][at_b][1]} ({run} lines)")
    print(f"{pairs} pairs of {least} lines or more")


main()
