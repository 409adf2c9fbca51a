#!/usr/bin/env python3
"""Brings the repository's own definitions and lemmas to snake case, as the kit's library spells its own.

usage: tools/respell.py --make     writes tools/respell.tsv: a row for each name that is declared in specs/ or proofs/ and
                                   spelled otherwise, old, a tab, new
       tools/respell.py            turns the names of tools/respell.tsv in each .antt file, and in the clauses, the ghost
                                   items and the comments' code spans of each .rt file

A word in camel case becomes snake case. A dash stays between two names of definitions, as in length-drop, and becomes an
underscore between other words. A name that another library has too, one that the prover makes, and one whose new
spelling is taken, stay."""
import collections
import glob
import os
import re
import sys

TOP = os.path.join(os.path.dirname(os.path.realpath(__file__)), "..")
TABLE = os.path.join(TOP, "tools", "respell.tsv")
WORD = re.compile(r'[^\s(){}.;,@"«»`]+')
HEAD = re.compile(r"^(\s*)(?:(?:abbrev|unfoldable|pub|ghost) )*(record |data )?([^\s(){}.;,@:\"]+)((?: +\([^)]*\)| +\{[^}]*\})*) *:(?:\s|$)(.*)")
USE = re.compile(r"(?:^|\n)\s*(?:pub )?(?:ghost )?use ([\w·+]+(?:\.[\w·+]+)*)(?:\.\{([^}]*)\})?")
CLAUSE = re.compile(r"(?:requires|ensures)\s*\*?\s*(?:\w+\s*)?\{|ghost\s*(?:\w+\s*(?::\s*(?:(?:owns|lends)\s*)?|=\s*))?\{")
MADE = re.compile(r"\b(?:tie|lts|goal|Lts|Tie)\.[\w-]*")


# Names that would be hidden by one in the same file.
BY_HAND = {"read_number": "read_number_lem"}


def files(kind):
    return sorted(p for p in glob.glob(os.path.join(TOP, "crates/*/**/*." + kind), recursive=True) if "/out/" not in p)


def read(path):
    with open(path, encoding="utf-8") as f:
        return f.read()


def snake(word):
    word = re.sub(r"([a-z0-9])([A-Z])", lambda m: m[1] + "_" + m[2], word)
    word = re.sub(r"([A-Z]+)([A-Z][a-z])", lambda m: m[1] + "_" + m[2], word)
    return word.lower()


def declared():
    """Names that specs/ and proofs/ declare, other libraries' names, all words, the names of specs/, and of fields."""
    own, others, words, plain, fields = collections.Counter(), set(), set(), set(), set()
    for p in files("antt"):
        text = read(p)
        for m in USE.finditer(text):
            module = m[1]
            if not re.match(r"Rattle\.(?!std\b|core\b)\w+\.(specs|proofs)\b", module):
                others.update(re.findall(WORD, m[2] or ""))
        code = re.sub(r"--[^\n]*", "", text)
        words.update(WORD.findall(code))
        for line in code.split("\n"):
            m = HEAD.match(line)
            if m and not re.match(r"(?:tie|goal)\.", m[5].strip()) and not m[3].startswith(("λ", "→", "←")):
                own[m[3]] += 1
                if m[1]:
                    fields.add(m[3])
                if "/specs/" in p:
                    plain.add(m[3])
    return own, others, words, plain, fields


def made_names():
    """Names that the prover makes, where a proof file cites them."""
    made = set()
    for p in files("antt"):
        for m in MADE.finditer(read(p)):
            made.add(m[0].split(".", 1)[1])
    return made


def make():
    own, others, words, plain, fields = declared()
    made = made_names()
    heads = {n for n in plain if "-" not in n} | {n for n in others if "-" not in n and n[:1].islower()}
    heads |= {"take", "drop", "length", "append", "set", "map", "replicate"}
    spelled = {}
    for name in own:
        if not re.match(r"^[a-z]", name) or name in others or name in made:
            continue
        parts = name.split("-")
        out = snake(parts[0])
        for i in range(1, len(parts)):
            joined = parts[i - 1] in heads and parts[i] in heads and not name.endswith("-spec")
            out += ("-" if joined else "_") + snake(parts[i])
        if out != name:
            spelled[name] = out
    by_new = collections.defaultdict(list)
    for a, b in spelled.items():
        by_new[b].append(a)
    for b, olds in by_new.items():
        # a definition and a lemma of one spelling: the lemma gets an ending
        if len(olds) > 1 or b in own:
            for a in olds:
                if "-" in a:
                    spelled[a] = b + ("_fact" if a in fields else "_lem")
    spelled.update(BY_HAND)
    if len(set(spelled.values())) < len(spelled):
        sys.exit("names fall together: " + ", ".join(n for n, k in collections.Counter(spelled.values()).items() if k > 1))
    for b in sorted(set(spelled.values())):
        if b in own or b in others:
            print("taken:", b, file=sys.stderr)
    with open(TABLE, "w", encoding="utf-8") as f:
        for a in sorted(spelled):
            f.write(f"{a}\t{spelled[a]}\n")
    print(len(spelled), "names", file=sys.stderr)


def turner(table):
    return lambda text: WORD.sub(lambda m: table.get(m[0], m[0]), text)


def closing(text, at):
    """The place behind the brace that closes the one before `at`."""
    depth = 1
    while at < len(text) and depth:
        depth += {"{": 1, "}": -1}.get(text[at], 0)
        at += 1
    return at


def turn_rust(text, turn):
    """The clauses, ghost items and the comments' code spans of a source file."""
    out, at = [], 0
    pattern = re.compile(r"//[^\n]*|ghost\s+use\b[^;]*;|" + CLAUSE.pattern + r'|"(?:\\.|[^"\\])*"|' + r"b?'(?:\\.|[^'\\])'")
    while True:
        m = pattern.search(text, at)
        if not m:
            out.append(text[at:])
            return "".join(out)
        out.append(text[at : m.start()])
        found = m[0]
        if found.startswith("//"):
            out.append(re.sub(r"`[^`\n]*`", lambda s: turn(s[0]), found))
            at = m.end()
        elif found.startswith("ghost") and not found.endswith("{"):
            out.append(turn(found))
            at = m.end()
        elif found.endswith("{") and found[0] in "reg":
            end = closing(text, m.end())
            out.append(found + turn(text[m.end() : end]))
            at = end
        else:
            out.append(found)
            at = m.end()


def turn_antt(text, turn):
    """The code, and the comments' code spans."""
    out = []
    for line in text.split("\n"):
        m = re.search(r"(?:^|(?<=\s))--", line)
        code, comment = (line[: m.start()], line[m.start() :]) if m else (line, "")
        kept = []
        code = MADE.sub(lambda s: kept.append(s[0]) or f"\x00{len(kept) - 1}\x00", code)
        code = turn(code)
        code = re.sub("\x00(\\d+)\x00", lambda s: kept[int(s[1])], code)
        out.append(code + re.sub(r"`[^`\n]*`", lambda s: turn(s[0]), comment))
    return "\n".join(out)


def main():
    if sys.argv[1:] == ["--make"]:
        make()
        return
    if sys.argv[1:]:
        sys.exit(__doc__)
    with open(TABLE, encoding="utf-8") as f:
        turn = turner(dict(line.rstrip("\n").split("\t") for line in f if line.strip()))
    changed = 0
    for kind, how in (("antt", turn_antt), ("rt", turn_rust)):
        for p in files(kind):
            old = read(p)
            new = how(old, turn)
            if new != old:
                with open(p, "w", encoding="utf-8") as f:
                    f.write(new)
                changed += 1
    print(changed, "files turned")


main()
