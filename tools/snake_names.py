#!/usr/bin/env python3
"""Turns the names of this repository's own definitions and lemmas to snake case.

usage: tools/snake_names.py [--list]      at the top, right after port.py, once; --list only prints old and new names

A camel hump becomes `_`. A dash stays where it joins two functions' names, as in `length-drop`, and else becomes `_`. What is renamed is what
a file of specs/, or a file right in proofs/, defines: values, lemmas, constructors and fields. Names that src/ declares, that a library
exports or that the check makes keep their spelling.
"""

import collections
import glob
import os
import re
import sys

WORD = r"[^\s(){}\[\];.,\"`]+"
MARKS = {"abbrev", "unfoldable", "pub", "record", "data"}
NEVER = {"use", "module", "where", "let", "in", "elim", "as", "unfolding", "infixr", "infixl", "infix", "ruleset", "open", "mod", "_"}

# std's own word for the same thing, and new spellings where the plain one is taken.
OWN = {"getD": "get_or"}
TAKEN = {
    "all_get_d": "all_get_or",
    "auto-tests": "auto_tests_lem",
    "channel-in": "channel_in_lem",
    "of-channel": "of_channel_lem",
    "to-apu": "to_apu_lem",
    "divides-both": "divides_both_lem",
    "no-channel": "no_channel_lem",
    "old-tests": "old_tests_lem",
    "on_line": "on_line_lem",
    "one_more": "one_more_lem",
    "read_done": "read_done_lem",
    "shift_in": "shift_in_lem",
    "step_by": "step_by_lem",
}


def read(path):
    with open(path, encoding="utf-8") as f:
        return f.read()


def uncomment(text):
    return re.sub(r"--[^\n]*", "", text)


def defined(text):
    """The names that a file declares: the words before the colon of a signature or of a field, or after record and data."""
    out = set()
    for line in text.split("\n"):
        words = line.split()
        while words and words[0] in MARKS:
            words.pop(0)
        if not words or words[0] in NEVER:
            continue
        head = line.split("(")[0].split("{")[0].split()
        head = [w for w in head if w not in MARKS]
        if ":" in head:
            names = head[: head.index(":")]
            if names and not set(names) & NEVER and "=" not in names and "→" not in names:
                out |= set(names)
        elif re.match(r"\s*(?:(?:abbrev|unfoldable|pub|record|data)\s+)+", line) and head:
            out.add(head[0])
    return out


def hump(word):
    word = OWN.get(word, word)
    if not re.match(r"[a-z]", word):
        return word
    return re.sub(r"(?<=[a-z0-9])([A-Z]+)", lambda m: "_" + m.group(1).lower(), word)


def plan():
    files = sorted(glob.glob("crates/*/specs/**/*.antt", recursive=True) + glob.glob("crates/*/proofs/**/*.antt", recursive=True) + glob.glob("crates/*/src/**/*.rt", recursive=True))
    texts = {p: read(p) for p in files}
    own, libs, made, rust, calls = set(), set(), set(), set(), set()
    for p, t in texts.items():
        t = uncomment(t)
        if p.endswith(".rt"):
            calls |= set(re.findall(r"\bfn\s+(\w+)", t))
            rust |= set(re.findall(r"\b(?:fn|struct|enum|const|mod)\s+(\w+)", t)) | set(re.findall(r"\b(\w+)\s*:", t))
            continue
        body = []
        for line in t.split("\n"):
            m = re.match(r"\s*use\s+(\S+)\.\{(.*)\}", line)
            if m and not re.match(r"Rattle\.(?!std\.|core\.|io\.|os\.|libc\.)", m.group(1)):
                for x in m.group(2).split(","):
                    libs |= set(x.strip().split(" as ")[0].split("."))
            if not re.match(r"\s*use\s", line):
                body.append(line)
        if os.path.basename(p) == "Proof.antt":
            made |= set(re.findall(r"(?:@|\.)(" + WORD + ")", "\n".join(body)))
        else:
            own |= defined(t)
    plain = {hump(x) for x in own | libs | calls if "-" not in x}

    def new(word):
        bits = [hump(x) for x in word.split("-")]
        for i in range(1, len(bits)):
            one, two = "_".join(bits[:i]), "_".join(bits[i:])
            if one in plain and two in plain:
                return one + "-" + two
        return "_".join(bits)

    turned = {}
    for x in sorted(own - libs):
        if x in rust and x not in TAKEN or not re.match(r"[A-Za-z]", x) or ("-" in x and x in made):
            continue
        y = TAKEN.get(x, new(x))
        if y != x:
            turned[x] = y
    return texts, turned, own, libs, rust


def main():
    texts, turned, own, libs, rust = plan()
    if "--list" in sys.argv:
        places = collections.defaultdict(set)
        for p, t in texts.items():
            for w in set(re.findall(WORD, t)):
                places[w].add(p)
        back = collections.defaultdict(set)
        for x, y in turned.items():
            back[y].add(x)
        for y, xs in sorted(back.items()):
            if len(xs) > 1:
                print("together:", y, sorted(xs))
            elif places[y]:
                kind = "src" if y in rust else "lib" if y in libs else "own" if y in own else "-"
                print("taken:", y, "by", kind, sorted(xs), sorted(places[y])[:5], len(places[y]))
        for x, y in turned.items():
            print(x, y)
        return
    bound = "\\w'◌-"
    pattern = re.compile(f"(?<![{bound}])(" + "|".join(re.escape(x) for x in sorted(turned, key=len, reverse=True)) + f")(?![{bound}])")
    for p, t in texts.items():
        now = pattern.sub(lambda m: turned[m.group(1)], t)
        if now != t:
            with open(p, "w", encoding="utf-8") as f:
                f.write(now)


main()
