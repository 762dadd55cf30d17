#!/usr/bin/env python3
"""Counts the places of docs/DESIGN-PASS.md in crates/*/src, point by point; with -l it lists them.

It reads the sources as text. What a place is, a rule below says in one line; which of them stay, the page says.
"""
import pathlib
import re
import sys

ROOT = pathlib.Path(__file__).resolve().parent.parent / "crates"
NUMBER = r"u8|u16|u32|u64|usize"


def code_of(path):
    """The file's lines without comments, with their numbers."""
    return [(n, line.split("//")[0].rstrip()) for n, line in enumerate(path.read_text().split("\n"), 1)]


def functions(lines):
    """(line, name, signature, body) of each function: the head up to its body, and the body's lines."""
    found, i = [], 0
    while i < len(lines):
        n, text = lines[i]
        head = re.match(r"( *)(?:pub(?:\([a-z]+\))? )?(?:const )?(?:extern \"C\" )?fn (\w+)", text)
        if head is None:
            i += 1
            continue
        indent, sign, j = head.group(1), [], i
        while j < len(lines):
            sign.append(lines[j][1].strip())
            if lines[j][1] == indent + "{" or (lines[j][1].endswith(" {") and "ensures" not in lines[j][1]):
                break
            j += 1
        k = j + 1
        while k < len(lines) and lines[k][1] != indent + "}":
            k += 1
        found.append((n, head.group(2), " ".join(sign), [t for _, t in lines[j + 1 : k] if t.strip()]))
        i = j + 1
    return found


def params(sign):
    """The parameters' text, and what is answered."""
    head = re.split(r" (?:requires|ensures)\b", sign)[0]
    answer = re.search(r"\) -> ([^{]*)", head)
    return head, (answer.group(1).strip() if answer else "")


def shape(sign, body):
    """The function with types, numbers, texts and its own name taken out."""
    head, _ = params(sign)
    text = re.sub(r"fn \w+", "fn F", head.replace("pub ", "")) + "\n" + "\n".join(body)
    text = re.sub(rf"\b(?:{NUMBER})\b", "U", text)
    text = re.sub(r'b"[^"]*"', "S", text)
    return re.sub(r"\b(?:0x[0-9A-Fa-f_]+|\d[\d_]*)\b", "N", text)


def main():
    places = {}

    def note(point, what, path, n, text):
        places.setdefault((point, what), []).append(f"{path.relative_to(ROOT.parent)}:{n}: {text.strip()}")

    twins = {}
    for path in sorted(ROOT.glob("*/src/**/*.rt")):
        lines = code_of(path)
        enum = None
        for n, text in lines:
            if re.match(r"\s*(pub )?enum ", text):
                enum = text
            if text == "}":
                enum = None
            if enum and re.match(r"\s+(Nothing|Nowhere|Broken),", text):
                note(1, "an enum with a variant for nothing", path, n, enum.strip(" {") + text)
            if re.match(rf"\s+(pub )?(number|ok|stop|still|phase|state|kind|emit|form|sort): ({NUMBER}|bool),", text):
                note(1, "a field that is a number for a kind or refusal, or a flag beside values", path, n, text)
            if re.search(r"\b(131072|131071)\b", text):
                note(1, "131,072 for no place", path, n, text)
            if re.match(r"\s*while ", text):
                note(3, "while", path, n, text)
            if re.search(r"\bstd::num::wrapping_\w+\(", text):
                note(2, "a function of std for each width, where a method is", path, n, text)
            if re.search(r"/ 256( / 256)* % 256\) as u8", text):
                note(2, "a number's bytes written out", path, n, text)
        for n, name, sign, body in functions(lines):
            head, answer = params(sign)
            if answer in ("u8", "u64") and re.search(
                r"number$|check$|refusal$|^also$|^count$|_of$|^(sort|sign|closed|gap|after|opened|digit|state_byte|bank_byte|auto_kind)$", name
            ):
                note(1, "a function that answers a number for a kind or refusal", path, n, f"{name} -> {answer}")
            if re.search(r"\blow: &", head) and re.search(r"\bhigh: &", head):
                note(5, "both banks as two parameters", path, n, name)
                if re.search(r"\bentries: &", head):
                    note(5, "banks, record (and ROM) as parameters of their own", path, n, name)
            if re.search(r"\bbank: u8,.*\baddr: u16", head):
                note(5, "bank and address as two parameters", path, n, name)
            if re.search(r"\b(out|line): &mut \[u8\], (at|used): usize", re.sub(r"\s+", " ", head)):
                note(6, "a buffer and the place in it as two parameters", path, n, name)
            if re.search(r"show: Show|inside: bool|width: u8", head):
                note(7, "a switch passed down", path, n, name)
            if len(body) >= 1:
                twins.setdefault(shape(sign, body), []).append((path, n, name))
            if len(body) >= 4 and body[0].strip().startswith("match ") and all(
                re.match(r"\s+[\w:|. _(){}=,]+ => [\w:x-]+,$", t) for t in body[1:-1]
            ):
                note(4, "a conversion by hand: one match from name to name", path, n, name)
        text = "\n".join(t for _, t in lines)
        for name in re.findall(r"count: u8,\n\s+pub items: \[", text):
            note(6, "an array with its count beside it", path, 0, "count, items")
    for group in twins.values():
        if len(group) > 1:
            for path, n, name in group:
                note(2, "functions alike but for types, numbers and texts", path, n, name)

    proofs = list(ROOT.glob("*/proofs/**/Answers.antt"))
    for path in proofs:
        note(8, "files of answers", path, 1, "")
    for path in ROOT.glob("*/proofs/**/Invariants.antt"):
        note(8, "files of invariants", path, 1, "")
    for (point, what), found in sorted(places.items()):
        print(f"{point}. {len(found):4} {what}")
        if "-l" in sys.argv and point != 8:
            for line in found:
                print("       " + line)


main()
