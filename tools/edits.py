#!/usr/bin/env python3
"""Lists the must-fail edits whose text does not stand once.

usage: tools/edits.py        at the top

An edit, crates/NAME/must-fail/*.edit, has lines 'file: ', 'old: ' and 'new: ', and its pairs are applied one after the other. Each old text has to
stand exactly once in its file at that point. Prints the others, with how often they stand, and ends with 1 if there are any.
"""

import glob
import os
import sys


def read(path):
    if not os.path.isfile(path):
        return ""
    with open(path, encoding="utf-8") as f:
        return f.read()


def pairs(text):
    """The file, the old text and the new text of each pair."""
    out, name = [], None
    for line in text.split("\n"):
        if line.startswith("file: "):
            name = line[6:].strip()
        elif line.startswith("old: "):
            out.append([name, line[5:], None])
        elif line.startswith("new: "):
            out[-1][2] = line[5:]
    return out


def main():
    edits = sorted(glob.glob("crates/*/must-fail/*.edit"))
    bad = 0
    for edit in edits:
        crate = os.path.dirname(os.path.dirname(edit))
        texts = {}
        found = pairs(read(edit))
        wrong = [] if found else ["no pair"]
        for name, old, new in found:
            text = texts.setdefault(name, read(os.path.join(crate, name or "")))
            if name is None or new is None or old == new:
                wrong.append(f"not a whole pair: {old}")
            elif text.count(old) != 1:
                wrong.append(f"stands {text.count(old)} times in {name}: {old}")
            else:
                texts[name] = text.replace(old, new)
        for line in wrong:
            print(f"{edit}: {line}")
        bad += bool(wrong)
    print(f"{len(edits)} edits, {bad} whose text does not stand once")
    return 1 if bad else 0


if __name__ == "__main__":
    sys.exit(main())
