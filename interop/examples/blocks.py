"""Looks for each block of C in papers (blocks.py PAPER.. -- PROGRAM..) in the programs: it must stand in one of them word for
word. A block is what stands between ```c and ```. Says how many there are; exit status 1 if one is in no program."""

import pathlib
import re
import sys


def main():
    at = sys.argv.index("--")
    programs = [pathlib.Path(name).read_text() for name in sys.argv[at + 1:]]
    found = 0
    for paper in sys.argv[1:at]:
        text = pathlib.Path(paper).read_text()
        for block in re.finditer(r"^```(?:c|C|h)\n(.*?)^```", text, re.M | re.S):
            found += 1
            if not any(block[1].strip("\n") in program for program in programs):
                line = text.count("\n", 0, block.start()) + 1
                sys.exit(f"{paper}:{line}: this C stands in no program of interop/examples")
    if not found:
        sys.exit("there is no block of C in the papers")
    print(f"{found} blocks of C in the papers")


main()
