#!/usr/bin/env python3
"""Turns the names of tools/respell.tsv in the code spans and the fenced blocks of pages.

usage: tools/respell_pages.py FILE.md.."""
import os
import re
import sys

WORD = re.compile(r'[^\s(){}.;,@"«»`:|]+')
TABLE = os.path.join(os.path.dirname(os.path.realpath(__file__)), "respell.tsv")


def main():
    if not sys.argv[1:]:
        sys.exit(__doc__)
    with open(TABLE, encoding="utf-8") as f:
        table = dict(line.rstrip("\n").split("\t") for line in f if line.strip())
    turn = lambda m: WORD.sub(lambda w: table.get(w[0], w[0]), m[0])
    for path in sys.argv[1:]:
        with open(path, encoding="utf-8") as f:
            old = f.read()
        new = re.sub(r"(?ms)^```.*?^```|`[^`\n]+`|^    [^\n]+$", turn, old)
        if new != old:
            with open(path, "w", encoding="utf-8") as f:
                f.write(new)
            print("turned", path)


main()
