#!/usr/bin/env -S python3 -B
"""The tries of the program refusals, and the lines expected of it, from document 01's table with document 02's requests 2 (the sum) and 4
(what channels moved: numbers 13 and 14).

Nothing here looks at the program or its output.

    python3 oracle/refusals.py list > crates/refusals/stdin
    python3 oracle/refusals.py > crates/refusals/stdout

A try is a kind (0 a listed call as docs/CALLS.md has it, 1 fresh, 2 page look, 3 file check, 4 section look, 5 count, 6 add), its words,
what is given, and the end of its line.
"""
import sys

M = 2**64
# the sum of both banks as tries lend them: every byte $A5, but for the first of $7F, which is $5A
SUM = 131072 * 0xA5 - 0xA5 + 0x5A
CALLS = ["cycle", "read", "write", "pad", "plug", "answer", "back"]
WORDS = {
    0: "all in order ", 1: "low bank of ", 2: "high bank of ", 3: "record as fresh's, of ", 4: "record of 256, fresh's of ",
    5: "record of 512, fresh's of ", 6: "ROM of ", 7: "capacity 2, next slot ", 8: "capacity 2, kept ", 9: "bit cycles ",
    10: "pending countdown ", 11: "reading bits ", 12: "bit cycles 264, reading countdown ", 13: "buttons of port 0 ",
    14: "buttons of port 1 ", 15: "pad word of port 0 ", 16: "pad word of port 1 ", 17: "channel ", 18: "wait ", 19: "clock ",
    20: "bad in all numbers up to 6 from ", 21: "event ", 22: f"clock {M - 1}, event ", 23: "port ", 24: "address $", 25: "sum ",
}
# what each try of an operation or of back is about, and its value
TRIES = [
    (0, 0), (1, 65535), (1, 65536), (1, 65537), (2, 65535), (2, 65536), (2, 65537), (3, 0), (3, 255), (3, 256), (3, 512), (4, 512), (5, 256),
    (6, 4194304), (6, 4194305), (7, 1), (7, 2), (8, 0), (8, 1), (8, 2), (8, 3), (9, 0), (9, 1), (9, 4096), (9, 4097), (17, 7), (17, 8),
    (18, 55), (18, 56), (10, 297), (10, 298), (11, 0), (11, 1), (11, 16), (11, 17), (12, 263), (12, 264), (13, 65520), (13, 65528),
    (14, 65520), (14, 65521), (15, 65520), (15, 65528), (16, 65520), (16, 65521), (19, M - 2), (19, M - 1), (20, 1), (20, 2), (20, 3),
    (20, 4), (21, 4), (21, 5), (22, 5), (23, 1), (23, 2), (24, 0x2133), (24, 0x2134), (24, 0x213F), (24, 0x2140), (24, 0x2143), (24, 0x2144),
    (25, 0), (25, 2**32 - 1),
]


def little(n, width):
    return n.to_bytes(width, "little")


def asked(call, about):
    """Whether a call takes what a try is about."""
    if about == 6:
        return call != "back"
    if about in (21, 22):
        return call == "cycle"
    if about == 23:
        return call in ("pad", "plug")
    if about == 24:
        return call == "answer"
    return True


def state(about, value):
    """All that a call is given: everything in order, but for what the try is about."""
    s = {"low": 65536, "high": 65536, "record": 512, "fresh": 512, "rom": 0, "slot": 0, "kept": 2, "bits": 264, "auto": (0, 0, 0),
         "words": [0, 0, 0, 0], "channel": None, "wait": 0, "clock": 0, "event": 0, "port": 0, "addr": 0x2134,
         "sum": SUM}
    named = {1: "low", 2: "high", 6: "rom", 7: "slot", 8: "kept", 9: "bits", 17: "channel", 18: "wait", 19: "clock", 21: "event", 22: "event",
             23: "port", 24: "addr", 25: "sum"}
    if about in named:
        s[named[about]] = value
    if about == 3:
        s["record"] = value
    if about in (3, 4, 5):
        s["fresh"] = value
    if about in (3, 5):
        s["kept"] = value // 256
    if about == 4:
        s["record"] = 256
    if about == 10:
        s["auto"] = (1, 0, value)
    if about == 11:
        s["auto"] = (2, value, 0)
    if about == 12:
        s["auto"] = (2, 16, value)
    if 13 <= about <= 16:
        s["words"][about - 13] = value
    if about == 20:
        s.update(event=5, port=2, addr=0x2133, slot=2)
        s.update({"rom": 4194305} if value <= 3 else {})
        s.update({"record": 255} if value <= 2 else {})
        s.update({"high": 65535} if value <= 1 else {})
    if about == 22:
        s["clock"] = M - 1
    return s


def in_range(s):
    kind, bits, countdown = s["auto"]
    return (1 <= s["bits"] <= 4096 and (kind != 1 or countdown <= 297) and (kind != 2 or 1 <= bits <= 16 and countdown < s["bits"])
            and all(word % 16 == 0 for word in s["words"]) and (s["channel"] or 0) < 8 and s["wait"] <= 55)


def number(call, s):
    """Document 01's table, in number order, each call testing what it takes; none tests the sum.

    The newest entry is sound here, so never 9.
    """
    capacity = s["fresh"] // 256
    if s["low"] != 65536 or s["high"] != 65536:
        return 1
    if s["record"] == 0 or s["record"] % 256 or s["record"] != s["fresh"]:
        return 2
    if call != "back" and s["rom"] > 4194304:
        return 3
    if not in_range(s) or s["slot"] >= capacity or s["kept"] > capacity:
        return 4
    if call == "cycle" and s["event"] > 4:
        return 5
    if call in ("pad", "plug") and s["port"] > 1 or call == "answer" and not 0x2134 <= s["addr"] <= 0x2143:
        return 6
    if call == "cycle" and s["clock"] == M - 1:
        return 7
    if call == "back" and s["kept"] == 0:
        return 8
    return 0


def power_on():
    """An entry of the machine at power-on, with bit cycles 264."""
    e = bytearray(256)
    e[0] = 0x7E
    e[5:12] = bytes([255] * 7)
    e[12:15] = bytes([1, 255, 1])
    e[22] = 2
    e[40] = e[46] = 1
    e[57:59] = little(264, 2)
    e[98:194] = bytes([255] * 6 + [0] + [255] * 5) * 8
    return e


def image(s):
    e = power_on()
    e[34], e[35], e[36:40] = s["auto"][0], s["auto"][1], little(s["auto"][2], 4)
    for place, word in zip((42, 48, 52, 54), s["words"]):
        e[place:place + 2] = little(word, 2)
    e[57:59] = little(s["bits"], 2)
    if s["channel"] is not None:
        e[61:63] = bytes([1, s["channel"]])
    e[67:71] = little(s["wait"], 4)
    e[214:222] = little(s["clock"], 8)
    return e[:222]


def machine(s):
    """The machine as the library has it: the image, 34 zeros, next slot, kept, record length and the sum."""
    return image(s) + bytes(34) + b"".join(little(s[name], 8) for name in ("slot", "kept", "fresh")) + little(s["sum"], 4)


def listed(call, s, newest):
    """The bytes of a listed call: every byte of both banks is $A5, but for the first of $7F, so that an exchange of the banks would show.
    Behind a back step stands the newest entry."""
    slot = (s["slot"] - 1) % max(s["fresh"] // 256, 1)
    first, word, last = {"cycle": (s["event"], 0, 3), "read": (0x7E, 0x1234, 0), "write": (0x7E, 0x1234, 0), "pad": (s["port"], 0x8000, 0),
                         "plug": (s["port"], 0, 0), "answer": (0, s["addr"], 7), "back": (slot, 0, 0)}[call]
    lent = b"".join(little(s[name], 4) for name in ("record", "low", "high", "rom"))
    head = machine(s) + lent + bytes([CALLS.index(call) + 1, first]) + little(word, 2)
    head += bytes([last, 1] + [0xA5] * 16) + little(0xA5000000, 4) * 7 + little(0x5A010000, 4)
    return head + (newest if call == "back" else b"")


def ended(n):
    return f": {n}, {'all as it was' if n else 'changed'}\n"


def operations():
    for call in CALLS:
        for about, value in TRIES:
            if asked(call, about):
                s = state(about, value)
                words = f"{call}, {WORDS[about]}{value:04x}" if about == 24 else f"{call}, {WORDS[about]}{value}"
                yield 0, words, listed(call, s, power_on()), ended(number(call, s))


# what fresh is given: the lengths of both banks, record length, bit cycles
FRESH = ([(65536, 65536, length, bits) for length, bits in
          [(0, 264), (255, 264), (256, 264), (257, 264), (512, 264), (512, 0), (512, 1), (512, 4096), (512, 4097), (255, 0)]]
         + [(low, high, 512, 264) for low, high in [(65535, 65536), (65537, 65536), (65536, 65535), (65536, 65537), (0, 0)]]
         + [(65535, 65536, 255, 0), (65536, 65537, 512, 4097)])


def fresh():
    """The numbers of fresh, in their order: 1, 2, 10. If it is refused, its sum is 0."""
    for low, high, length, bits in FRESH:
        n = 1 if (low, high) != (65536, 65536) else 2 if length == 0 or length % 256 else 10 if not 1 <= bits <= 4096 else 0
        words = f"fresh, banks of {low} and {high}, record of {length}, bit cycles {bits}"
        given = little(low, 4) + little(high, 4) + little(length, 4) + little(bits, 2)
        bits, length, total = (1, 0, 0) if n else (bits, length, SUM)
        yield 1, words, given, f": {n}, bit cycles {bits}, record length {length}, slot 0, kept 0, sum {total}\n"


# bytes of the newest entry, each with its place
PATCHES = [
    [(0, 125)], [(0, 126)], [(0, 127)], [(0, 128)], [(34, 3)], [(34, 1), (36, 41), (37, 1)], [(34, 1), (36, 42), (37, 1)],
    [(35, 1)], [(36, 1)], [(34, 1), (35, 1)], [(34, 2)], [(34, 2), (35, 1)], [(34, 2), (35, 16)], [(34, 2), (35, 17)],
    [(34, 2), (35, 16), (36, 7), (37, 1)], [(34, 2), (35, 16), (36, 8), (37, 1)], [(40, 0)], [(40, 1)], [(40, 2)], [(41, 1)],
    [(41, 2)], [(42, 16)], [(42, 8)], [(46, 0)], [(46, 1)], [(46, 2)], [(47, 1)], [(47, 2)], [(48, 16)], [(48, 8)], [(52, 16)],
    [(52, 8)], [(54, 16)], [(54, 8)], [(56, 1)], [(56, 2)], [(57, 0), (58, 0)], [(57, 1), (58, 0)], [(57, 0), (58, 16)],
    [(57, 1), (58, 16)], [(59, 3)], [(59, 4)], [(60, 1)], [(60, 2)], [(61, 1)], [(61, 2)], [(61, 1), (62, 7)],
    [(61, 1), (62, 8)], [(62, 1)], [(63, 1)], [(66, 1)], [(67, 55)], [(67, 56)], [(68, 1)], [(71, 1)], [(71, 2)], [(72, 1)],
    [(72, 2)], [(75, 1)], [(75, 2)], [(76, 1)], [(76, 2)], [(96, 1)], [(96, 2)], [(97, 1)], [(97, 2)], [(222, 4)], [(222, 5)],
    [(222, 1), (223, 255), (224, 255), (225, 1)], [(222, 1), (225, 2)], [(223, 1)], [(226, 1)], [(222, 1), (226, 1)],
    [(222, 1), (230, 1)], [(222, 3), (238, 1)], [(222, 4), (238, 1)], [(239, 1)], [(255, 1)],
]


def entry_in_range(e):
    """Document 01's ranges of an entry."""
    def at(place, width):
        return int.from_bytes(e[place:place + width], "little")

    kind, bits, countdown, cycles = e[34], e[35], at(36, 4), at(57, 2)
    flags = [40, 41, 46, 47, 56, 60, 61, 71, 72] + [74 + 3 * c + k for c in range(8) for k in (1, 2)]
    olds = [223 + 4 * i for i in range(4)]
    return (e[0] in (0x7E, 0x7F) and 1 <= cycles <= 4096
            and (kind == 0 and bits == 0 and countdown == 0 or kind == 1 and bits == 0 and countdown <= 297
                 or kind == 2 and 1 <= bits <= 16 and countdown < cycles)
            and all(e[place] <= 1 for place in flags) and all(at(place, 2) % 16 == 0 for place in (42, 48, 52, 54))
            and e[59] <= 3 and (e[61] == 1 or e[62] == 0 and at(63, 4) == 0) and e[62] < 8 and at(67, 4) <= 55
            and e[222] <= 4 and all(at(place, 3) < 131072 for place in olds) and not any(e[olds[0] + 4 * e[222]:239]) and not any(e[239:]))


def entries():
    for patch in PATCHES:
        e = power_on()
        for place, byte in patch:
            e[place] = byte
        words = "back, newest entry's byte" + "".join(f" {place}={byte}" for place, byte in patch)
        yield 0, words, listed("back", state(0, 0), e), ended(0 if entry_in_range(e) else 9)


def pages():
    """The first and last page of each bank begin with a byte of their own."""
    first = {0: 1, 255: 2, 256: 3, 511: 4}
    banks = [(65535, 65536, 0), (65537, 65536, 0), (65536, 65535, 0), (65536, 65537, 0)]
    for low, high, page in banks + [(65536, 65536, page) for page in (0, 255, 256, 511, 512, 65535)] + [(65535, 65536, 512)]:
        n = 1 if (low, high) != (65536, 65536) else 12 if page > 511 else 0
        part = "0" if n else f"256, first byte {first[page]}"
        given = little(low, 4) + little(high, 4) + little(page, 2)
        yield 2, f"page look, banks of {low} and {high}, page {page}", given, f", part of {part}: {n}\n"


def row_formed(r):
    count = r[1] + 256 * r[2]
    zeros = {1: 5, 2: 4, 3: 5, 4: 4, 5: 3, 6: 5, 7: 3}
    return (r[0] in zeros and not any(r[zeros[r[0]]:]) and (r[0] not in (1, 7) or count >= 1) and (r[0] != 1 or r[4] <= 3)
            and (r[0] != 5 or r[2] <= 1) and (r[0] != 6 or r[1] == 0))


def file_check(f):
    if not 32 <= len(f) <= 65536:
        return 11
    rows = [(int.from_bytes(f[8 * k:8 * k + 4], "little"), int.from_bytes(f[8 * k + 4:8 * k + 8], "little")) for k in range(4)]
    at = 32
    for start, length in rows:
        if start != at:
            return 11
        at += length
    script = f[rows[3][0]:]
    if at != len(f) or rows[0][1] != 2 or not 1 <= rows[1][1] <= 4096 or len(script) % 8:
        return 11
    return 0 if all(row_formed(script[i:i + 8]) for i in range(0, len(script), 8)) else 11


# lengths of the sections; kind, count and flags of the script's first row; a gap before the fill, and bytes missing at the end
LENGTHS = [(2, 1, 0, 0), (1, 1, 0, 0), (3, 1, 0, 0), (2, 0, 0, 0), (2, 4096, 0, 0), (2, 4097, 0, 0), (2, 1, 65501, 0), (2, 1, 65502, 0),
           (2, 1, 0, 7), (2, 1, 0, 8), (2, 1, 0, 9)]
ROWS = [(0, 1, 0), (1, 0, 0), (1, 1, 0), (1, 1, 4), (7, 0, 0), (7, 1, 0), (7, 1, 1), (8, 1, 0)]
PLANS = ([lengths + (1, 1, 3, 0, 0) for lengths in LENGTHS] + [(2, 1, 0, 8) + row + (0, 0) for row in ROWS]
         + [(2, 1, 0, 0, 1, 1, 3) + spoiled for spoiled in [(1, 0), (0, 1), (0, 4), (0, 35)]])


def files():
    for plan in PLANS:
        lengths, (kind, count, flags), (gap, missing) = plan[:4], plan[4:7], plan[7:]
        starts = [32, 32 + lengths[0] + gap]
        starts += [starts[1] + lengths[1], starts[1] + lengths[1] + lengths[2]]
        contents = b"".join(little(start, 4) + little(length, 4) for start, length in zip(starts, lengths))
        row = bytes([kind, count, 0, 0, flags]) if lengths[3] else bytes(5)
        size = starts[3] + lengths[3] - missing
        n = file_check((contents + bytes(starts[3] - 32) + row + bytes(9))[:size])
        given = contents + little(size, 4) + little(starts[3], 4) + row
        words = "file check, settings of {}, fill of {}, ROM of {}, script of {}, row {} {} 0 0 {}, gap of {}, missing {}".format(*plan)
        yield 3, words, given, f": {n}\n"
        if plan in (PLANS[0], PLANS[3]):
            for section in (0, 1, 2, 3, 4, 255):
                refused = 11 if section > 3 else n
                end = f", part of {0 if refused else lengths[section]}: {refused}\n"
                yield 4, f"section look, section {section}", given + bytes([section]), end


# which total is not 7, and what it is; a share: channel, general bytes, units, table bytes, number of the DMA state, held
COUNTS = ([(place, total, channel, 1, 1, 1, state, 1) for channel, state in [(0, 0), (7, 3)]
           for place in (channel, 8 + channel, 16 + channel, 24 + state, 28) for total in (M - 2, M - 1)]
          + [(0, M - 5, 0, 4, 0, 0, 2, 1), (0, M - 4, 0, 4, 0, 0, 2, 1), (23, M - 5, 7, 0, 1, 4, 3, 1), (23, M - 4, 7, 0, 1, 4, 3, 1)]
          + [(7, 0, 7, M - 1, 0, 0, 2, 1), (7, 1, 7, M - 1, 0, 0, 2, 1)]
          # full totals that the share leaves alone: of another channel, of another state, of a figure that it has none of
          + [(1, M - 1, 0, 1, 1, 1, 0, 1), (25, M - 1, 0, 1, 1, 1, 0, 1), (28, M - 1, 0, 1, 1, 1, 0, 0), (8, M - 1, 0, 0, 0, 0, 0, 0)])


def told(what, before, after):
    """The figures that changed, with their places."""
    return "".join(f", {what} {place} is {new}" for place, (old, new) in enumerate(zip(before, after)) if old != new)


def counts():
    """Places: general bytes, units and table bytes of channels 0 to 7, held by state, held at all. A total over 2^64 - 1 is 13."""
    for place, total, channel, general, units, table, state, held in COUNTS:
        before = [7] * 29
        before[place] = total
        share = {channel: general, 8 + channel: units, 16 + channel: table, 24 + state: held, 28: held}
        after = [old + share.get(i, 0) for i, old in enumerate(before)]
        n = 13 if max(after) >= M else 0
        words = (f"count, total {place} of {total}, channel {channel}, general bytes {general}, units {units}, table bytes {table}, "
                 f"state {state}, held {held}")
        given = b"".join(little(x, 8) for x in (total, general, units, table, held)) + bytes([place, channel, state])
        said = "" if n else told("total", before, after)
        yield 5, words, given, f"{said}: {n}, {'changed' if said else 'all as it was'}\n"


# how many files there are; the column and the place of a figure; what the first file has there, and what the file added has
ADDS = ([(2, column, place, M - 6, figure) for column in ("all", "survivors") for place in (0, 28) for figure in (5, 6)]
        + [(2, "all", 7, 3, M - 4), (2, "all", 7, 4, M - 4), (2, "survivors", 16, 3, M - 4), (2, "survivors", 16, 4, M - 4)]
        + [(3, "all", 24, 5, 4), (3, "all", 24, 5, 5), (3, "all", 24, 5, 6), (3, "all", 28, M - 1, 0), (3, "all", 28, M - 1, 1)]
        + [(files, "all", 28, 2, 3) for files in (254, 255, 256, 257, M - 1)]
        # both numbers at their limits
        + [(files, column, 28, M - 1, figure) for files in (255, 256) for column in ("all", "survivors") for figure in (0, 1)])


def adds():
    """A total over 2^64 - 1 is 13, then a file after the 256th 14. Of two files with the largest figure the first has it."""
    for files, column, place, first, figure in ADDS:
        n = 13 if first + figure >= M else 14 if files >= 256 else 0
        said = ""
        if n == 0:
            figures = [first] + [0] * (files - 1) + [figure]
            largest = max(figures)
            now = [("total", first, sum(figures)), ("largest", first, largest), ("file", 1, figures.index(largest) + 1)]
            said = f", files {files + 1}" + "".join(f", {column} {what} {place} is {new}" for what, old, new in now if old != new)
        words = f"add, {files} files, {column} total {place} of {first}, figure {figure}"
        given = little(files, 8) + little(first, 8) + little(figure, 8) + bytes([column == "survivors", place])
        yield 6, words, given, said + ended(n)


def main():
    tries = [*fresh(), *operations(), *entries(), *pages(), *files(), *counts(), *adds()]
    if sys.argv[1:] == ["list"]:
        for kind, words, given, _ in tries:
            sys.stdout.buffer.write(bytes([kind, len(words)]) + words.encode() + (given if kind == 0 else given.ljust(50, b"\0")))
    else:
        print("".join(words + end for _, words, _, end in tries), end="")


if __name__ == "__main__":
    main()
