#!/usr/bin/env python3
"""Writes the cases of record_vectors, stdin, and what it is to print, stdout: `python3 vectors.py` rewrites both, and
with `--to FOLDER` writes them there.

A case is a line: how many numbers are lent, in decimal, and the message in groups, one space before each. A group is
bytes, two hexadecimal digits each; `*` and a number after them say how often they stand there.

What is printed for it is a line: number, count and place of the answer, and the length of the shortest message of the
record (2026-06), which is 0 of each refusal; the checksum of the whole lent table after the call; and `ok`, where the
numbers past the accepted rows, or after a refusal the whole table, are unchanged. Behind `; ` stands the same of a
second call, by the rule of thousandths (2026-11); and behind another `; ` the length by the main rule and that by the
rule of thousandths, as they are answered without a table: 0 only where the message is refused whatever is lent.

Before a call number i of the table is 0xb1a0000000000000 + i. The checksum starts at 7, and the high and then the low
32 bits of each number of the table, h, take it from s to s * 1000003 + h, modulo 2^31 - 1.

Reader and writer are those of ../vectors/hessian_format.py; what the writer writes gives the lengths. Most cases are
given with their answers, and each random message is made together with its rows. A row has four numbers here; `ends`
gives the fifth ones.
"""
import os
import sys

sys.dont_write_bytecode = True
sys.path.insert(0, os.path.join(os.path.dirname(os.path.abspath(__file__)), "../vectors"))
from hessian_cases import (  # noqa: E402
    BEETLE, BROKEN, CARS, CODES, COLORS, DOUBLE_LENGTHS, EDGES, INT_LENGTHS, LINKED, LONE, LONG_LENGTHS, NAN_LENGTHS,
    NO_FIELDS, ONE_FIELD, PAIRS, SMILE, TOUR, TYPES, Chance, Maker, arguments, checksum, chunked, class_of, data_of,
    each, groups, raw, some, text_of, write_files,
)
from hessian_format import (  # noqa: E402
    BYTES, COLLECTIONS, DOUBLE, LONGEST, LONGEST_CHUNK, MOST_OPEN, OBJECTS, TEXT, THOUSANDTHS, THREE, bits, bytes_heads,
    ends, fits, halves, int_form, int_forms, joined, judged, long_forms, shortest, shortest_length, tabled, text_heads,
    units_of, wide,
)

LENT = 8000
ROW = 5
MOST_INPUT = 400000

# ---- lines
PATTERN = [0xB1A0000000000000 + i for i in range(LENT)]


def summed(table, s=7):
    """The checksum s with the numbers of a table added."""
    return checksum((half for t in table for half in (t >> 32, t % 2**32)), s)


UNTOUCHED = [summed([])]
for t in PATTERN:
    UNTOUCHED.append(summed([t], UNTOUCHED[-1]))


def answer(read, length, size, lent):
    """What is to be printed of a call, by what is read, the length of the shortest message, the message's size, and the
    numbers lent."""
    if isinstance(read, tuple):
        return f"{read[0]} 0 {read[1]} 0 {UNTOUCHED[lent]} ok"
    if lent // ROW < len(read):
        return f"9 {len(read)} 0 0 {UNTOUCHED[lent]} ok"
    table = [n for row in tabled(read) for n in row]
    return f"0 {len(read)} {size} {length} {summed(table + PATTERN[len(table) : lent])} ok"


CASES = {}


def both_rules(data, of):
    """What a message comes to by the main rule and by that of thousandths. Without a 5f they are the same."""
    main = of(data)
    return main, of(data, THOUSANDTHS) if b"\x5f" in data else main


def case(data, lent=None):
    """A case, and what it is read as. Where it does not matter how many numbers are lent, some are to spare."""
    read = judged(data)
    if lent is None:
        rows = 7 if isinstance(read, tuple) else len(read)
        lent = ROW * rows + len(CASES) % 13
    lent = min(lent, LENT)
    lengths = both_rules(data, shortest_length)
    answers = [answer(*found, len(data), lent) for found in zip(both_rules(data, judged), lengths)]
    CASES.setdefault(" ".join([str(lent), *groups(data)]), "; ".join([*answers, "{} {}".format(*lengths)]))
    return read


def accepted(message, *rows):
    """A message that none of the refusals 1 to 8 is given; with these rows, where they are named."""
    read = case(data_of(message))
    assert isinstance(read, list) and (not rows or read == list(rows)), (message, read)


def refused(message, number, place):
    read = case(data_of(message))
    assert read == (number, place), (message, read)


# ---- examples of 01
CAR = (15, 0, 1, 0), (16, 1, 3, 3), (17, 6, 5, 5), (13, 12, 0, 1), (7, 13, 3, 3)
accepted("43 03 'Car' 91 05 'color' 60 03 'red'", *CAR)
accepted("57 90 91 5a", (9, 0, 2, 0), (3, 1, 0, 0), (3, 2, 1, 0))
# the marked ones, and what they become
accepted("49 0000012c", (3, 0, 300, 0))
accepted("c9 2c", (3, 0, 300, 0))
accepted("bf", (3, 0, 47, 0))
accepted("c8 30", (3, 0, 48, 0))
accepted("c7 ef", (3, 0, -17, 0))
accepted("49 00040000", (3, 0, 262144, 0))
accepted("59 0000012c", (4, 0, 300, 0))
accepted("f9 2c", (4, 0, 300, 0))
accepted("4a 000000d04b920ba0", (6, 0, 0xD04B920BA0, 0))
accepted("4b 00e3838f", (6, 0, 0xD04B920BA0, 0))
accepted("44 4028800000000000", (5, 0, bits(12.25), 0))
accepted("5f 41440000", (5, 0, bits(12.25), 0))
accepted("52 0007 'hello, ' 05 'world'", (7, 0, 12, 12))
accepted("0c 'hello, world'", (7, 0, 12, 12))
accepted("7a 90 91", (9, 0, 2, 0), (3, 1, 0, 0), (3, 2, 1, 0))
accepted("79 51 90", (9, 0, 1, 0), (14, 1, 0, 0))
refused("51 90", 6, 0)
# those that are run only
refused("", 1, 0)
refused("5a", 3, 0)
refused("90 90", 8, 1)
refused("01 c3", 2, 2)
refused("01 80", 4, 1)
refused("01 f09f9880", 4, 1)
accepted("02 f09f9880", (7, 0, 2, 4))
refused("43 00 90", 2, 3)
accepted("5d 00", (5, 0, 0, 0))
accepted("5b", (5, 0, 0, 0))
accepted("44 8000000000000000", (5, 0, 2**63, 0))
accepted("5f 80000000", (5, 0, 2**63, 0))
accepted(raw("52 fffe") + b"a" * 65534 + raw("02 f09f9880"), (7, 0, 65536, 65538))
accepted(raw("52 8000") + b"a" * 32768 + raw("53 8000") + b"a" * 32766 + SMILE.encode(), (7, 0, 65536, 65538))
refused(raw("52 ffff") + b"a" * 65534 + raw("f09f9880 00"), 4, 65537)
accepted(b"\x79" * 31 + b"\x78", *[(9, i, int(i < 31), 0) for i in range(32)])
refused(b"\x79" * 32 + b"\x78", 7, 32)
accepted(b"\x57" * 32 + b"\x5a" * 32)
refused(b"\x57" * 33 + b"\x5a" * 33, 7, 32)


# ---- 2026-07: the fifth numbers. Those of the first two are given there
def ending(message, *fifths):
    """A message that is accepted, and the fifth numbers of its rows."""
    read = case(data_of(message))
    assert isinstance(read, list) and ends(read) == list(fifths), (message, read)


ending("57 90 91 5a", 3, 2, 3)
ending("43 03 'Car' 91 05 'color' 60 03 'red'", 3, 2, 3, 5, 5)
for message in each("4e | 46 | 54 | 90 | e0 | 5b | 4b 00000000 | 00 | 20 | 78 | 57 5a | 58 90 | 48 5a"):
    ending(message, 1)
# values in each other, beside each other, at the end of their holder and before it
ending("79 79 79 90", 4, 4, 4, 4)
ending("7a 79 90 91", 4, 3, 3, 4)
ending("7a 90 79 91", 4, 2, 4, 4)
ending("7b 78 79 78 78", 5, 2, 4, 4, 5)
ending("48 90 79 91 48 5a 92 5a", 6, 2, 4, 4, 5, 6)
ending("57 48 90 91 5a 58 91 92 48 78 57 5a 5a 5a", 9, 4, 3, 4, 6, 6, 9, 8, 9)
ending("7a 79 51 91 51 90", 4, 3, 3, 4)
# types, spelled out and by number, belong to their list or map
ending("70 00", 2, 2)
ending("4d 00 5a", 2, 2)
ending("72 00 90 91", 4, 2, 3, 4)
ending("55 00 90 91 5a", 4, 2, 3, 4)
ending("56 00 92 90 91", 4, 2, 3, 4)
ending("4d 00 90 91 5a", 4, 2, 3, 4)
ending("71 00 70 90", 4, 2, 4, 4)
ending("7a 71 01 't' 90 4d 90 91 92 5a", 8, 4, 3, 4, 8, 6, 7, 8)
# definitions end after their names; before a value they do not belong to it, in a holder they do
ending("D 90", 2, 2, 3)
ending("D D F 4e", 2, 2, 4, 4, 7, 6, 7, 8)
ending("43 00 93 00 00 00 4e", 5, 2, 3, 4, 5, 6)
ending("D 60", 2, 2, 3)
ending("F 60 90", 3, 2, 3, 5, 5)
ending("F 60 F 61 90", 3, 2, 3, 9, 7, 6, 7, 9, 9)
ending("7a D 90 91", 5, 3, 3, 4, 5)
ending("7a 90 D 91", 5, 2, 4, 4, 5)
ending("79 D D 61", 6, 3, 3, 5, 5, 6)
ending("7a 79 D 60 60", 6, 5, 4, 4, 5, 6)
ending("48 D 90 D 91 5a", 7, 3, 3, 4, 6, 6, 7)
ending("71 00 D 60", 5, 2, 4, 4, 5)
ending("55 00 D 90 D 91 5a", 8, 2, 4, 4, 5, 7, 7, 8)

# ---- the draft's examples, corrected
for message in each("20 | 23 010203 | 2a 'ssssssssss' | 54 | 46 | 4e"):
    accepted(message)
for n, head, tail in ((25, "34 19", ""), (4096, "42 1000", ""), (1024, "41 0400", "20"), (1025, "42 0401", "")):
    accepted(raw(head) + b"s" * n + raw(tail), (8, 0, n, 0))
accepted(raw("41 0ffd") + b"s" * 4093 + raw("42 0803") + b"s" * 2051, (8, 0, 6144, 0))
accepted("4a 000000d04b9284b8", (6, 0, 0xD04B9284B8, 0))
accepted("4b 4b920ba0", (6, 0, 0x4B920BA0 * 60000, 0))
DOUBLES = {"5b": 0, "5c": 1, "5d00": 0, "5d80": -128, "5d7f": 127, "5e0000": 0, "5e8000": -32768, "5e7fff": 32767}
for message, n in DOUBLES.items():
    accepted(message, (5, 0, bits(float(n)), 0))
EXAMPLES = {"90": 0, "80": -16, "bf": 47, "c800": 0, "c000": -2048, "c700": -256, "cfff": 2047, "c003": -2045}
EXAMPLES.update({"d40000": 0, "d00000": -262144, "d7ffff": 262143, "4900000000": 0, "490000012c": 300})
for message, n in EXAMPLES.items():
    accepted(message, (3, 0, n, 0))
EXAMPLES = {"e0": 0, "d8": -8, "d9": -7, "ef": 15, "f800": 0, "f000": -2048, "f001": -2047, "f700": -256, "ffff": 2047}
EXAMPLES.update({"3c0000": 0, "380000": -262144, "380001": -262143, "3fffff": 262143})
EXAMPLES.update({"5900000000": 0, "590000012c": 300, "4c000000000000012c": 300})
for message, n in EXAMPLES.items():
    accepted(message, (4, 0, n, 0))
accepted("56 04 '[int' 92 90 91", (10, 0, 2, 0), (18, 1, 4, 4), (3, 7, 0, 0), (3, 8, 1, 0))
FIRST = (10, 1, 2, 0), (18, 2, 4, 4), (3, 7, 0, 0), (3, 8, 1, 0)
SECOND = (10, 9, 3, 0), (19, 10, 0, 0), (3, 11, 2, 0), (3, 12, 3, 0), (3, 13, 4, 0)
accepted("72 04 '[int' 90 91", *((kind, place - 1, *rest) for kind, place, *rest in FIRST))
accepted("7a 72 04 '[int' 90 91 73 90 92 93 94", (9, 0, 2, 0), *FIRST, *SECOND)
for message in ("48 91 03 'fee' a0 03 'fie' c900 03 'foe' 5a", BEETLE, CARS, COLORS, LINKED):
    accepted(message)
for message in each("00 | 05 'hello' | 01 c383 | 53 0005 'hello' | 52 0007 'hello, ' 05 'world'"):
    accepted(message)
# as they are printed
refused("62 0400 'ssss'", 6, 0)
refused("41 0004 'ssss'", 2, 7)
refused("4c 0000012c", 2, 5)
refused("73 90 92 93 94", 6, 1)
refused("72 04 '[int' 90 91 73 90 92 93 94", 8, 8)
refused(CARS[3:], 8, 41)
refused("43 0b 'example.Color' 91 04 'name' 60 03 'RED'", 3, 13)
refused("7c 43 0d 'example.Color' 91 04 'name' 60 03 'RED' 60 90 05 'GREEN' 60 04 'BLUE' 51 91", 8, 41)
refused("52 0007 'hello,' 05 'world'", 3, 10)
accepted("34 05 'hello'", (8, 0, 5, 0))

# ---- the points decided
refused("43 00 c901", 7, 2)
refused("43 00 c9", 2, 3)
refused("58 c7", 2, 2)
refused("51 c7", 2, 2)
refused("4f 4e", 3, 1)
refused("58 49 7fffffff 40", 3, 6)
refused("53 ffff 80", 4, 3)
refused("42 ffff 80", 2, 4)
refused("01 f0", 4, 1)
refused("01 e0", 2, 2)
refused("01 e080", 4, 1)
refused("01 c1", 4, 1)
refused("02 f490", 4, 1)
refused("02 f0", 2, 2)
refused("43 00 90 5a", 3, 3)
refused("57 43 00 90 5a", 3, 4)
refused("90 40", 8, 1)
refused("90 5a", 8, 1)
for message in each("58 e1 | 4f e0 | 70 e0 | 55 e0 | 56 e0 | 4d e0 | 56 00 e0 | 43 00 e0 | 79 51 e0 | 43 e0"):
    refused(message, 3, len(message) - 1)
accepted("52 0000 52 0000 00", (7, 0, 0, 0))
accepted("41 0000 41 0000 20", (8, 0, 0, 0))
accepted("52 0001 'a' 52 0000 31 01" + "62" * 257, (7, 0, 258, 258))
refused("52 0000 20", 3, 3)
refused("41 0000 00", 3, 3)
accepted("05 00 efbfbe efbfbf efb790 7f", (7, 0, 5, 11))
accepted("52 0002 61c3a9 02 f09f9880", (7, 0, 4, 7))
refused("52 0001 f09f 01 9880", 4, 3)
refused("52 0002 f09f 01 9880", 4, 3)

# ---- single numbers: each form's bounds
BOUNDS = [2**31 - 1, 262144, 262143, 2048, 2047, 256, 255, 48, 47, 1, 0, -1, -16, -17]
BOUNDS += [-256, -257, -2048, -2049, -262144, -262145, -(2**31)]
for n in BOUNDS:
    for form in int_forms(n):
        accepted(form, (3, 0, n, 0))
for n in BOUNDS + [2**63 - 1, 2**53 + 1, 2**31, 16, 15, -8, -9, -(2**31) - 1, -(2**63)]:
    for form in long_forms(n):
        accepted(form, (4, 0, n, 0))
    accepted(b"\x4a" + n.to_bytes(8, "big", signed=True), (6, 0, n, 0))
for n in (-(2**31), -1, 0, 1, 2**31 - 1):
    accepted(b"\x4b" + n.to_bytes(4, "big", signed=True), (6, 0, 60000 * n, 0))
for n in (-128, -127, -2, -1, 1, 2, 3, 126):
    accepted(b"\x5d" + n.to_bytes(1, "big", signed=True), (5, 0, bits(float(n)), 0))
for n in (-32767, -257, -256, -255, -1, 1, 255, 256, 257, 16383, 16384, 32766):
    accepted(b"\x5e" + n.to_bytes(2, "big", signed=True), (5, 0, bits(float(n)), 0))
FLOATS = [0, 3, 0x400001, 0x7FFFFF, 0x800000, 0x800001, 0x3EAAAAAB, 0x3F800000, 0x7F7FFFFF]
FLOATS += [0x7F800000, 0x7F800001, 0x7FBFFFFF, 0x7FC00000, 0x7FFFFFFF, *(1 << i for i in range(23))]
for n in FLOATS:
    for sign in (0, 1):
        accepted(b"\x5f" + (sign << 31 | n).to_bytes(4, "big"))
accepted("5f 7f800001", (5, 0, 0x7FF0000020000000, 0))
accepted("5f 00000001", (5, 0, 0x36A0000000000000, 0))
for n in (0, 1, 2**63, 2**64 - 1, 0x7FF0000000000001, 0xFFF8000000000000, bits(0.1)):
    accepted(b"\x44" + n.to_bytes(8, "big"), (5, 0, n, 0))

# ---- texts and bytes: each form's bounds, characters of each size
for n in (0, 1, 15, 16, 31, 32, 255, 256, 1023, 1024):
    for head in text_heads(n):
        accepted(head + b"a" * n, (7, 0, n, n))
    for head in bytes_heads(n):
        accepted(head + b"\xff" * n, (8, 0, n, 0))
    accepted(text_of("\u20ac" * n), (7, 0, n, 3 * n))
    accepted(raw("52 0001 'x'") + text_of("\u00e9" * n), (7, 0, n + 1, 2 * n + 1))
    accepted(text_of(SMILE * (n // 2) + "y" * (n % 2)), (7, 0, n, 4 * (n // 2) + n % 2))
    accepted(text_heads(n)[0] + halves(SMILE * (n // 2) + "y" * (n % 2)), (7, 0, n, 4 * (n // 2) + n % 2))
for c in EDGES:
    accepted(text_of(chr(c)))
    accepted(b"\x7a" + text_of("a" + chr(c) + "z") + b"\x90")
    for size in range(1, len(chr(c).encode())):
        refused(b"\x79\x02" + chr(c).encode()[:size], 2, 2 + size)
for broken in each(BROKEN + "| fe | ff"):
    refused(b"\x02" + broken, 4, 1)
    refused(b"\x7a\x90\x04a" + broken + b"b", 4, 4)
    refused(raw("70 52 0001 'a' 02") + broken, 4, 6)
    refused(b"\x43\x02" + broken, 4, 2)
    refused(raw("43 00 91 02") + broken, 4, 4)

# ---- 2026-04: pairs of halves. The first is what a Java library writes for U+1F600, written down by hand
accepted("02 eda0bdedb880", (7, 0, 2, 4))
accepted("52 0003 'a' eda0bdedb880 03 f09f9880 'z'", (7, 0, 6, 10))
accepted("26 eda0bdedb880", (8, 0, 6, 0))
NAMED = (15, 0, 1, 0), (16, 1, 2, 4), (17, 9, 2, 4), (13, 16, 0, 1), (7, 17, 2, 4)
accepted("43 02 eda0bdedb880 91 02 edafbfedbfbf 60 02 eda080edb080", *NAMED)
accepted("71 02 eda0bdedb880 90", (10, 0, 1, 0), (18, 1, 2, 4), (3, 8, 0, 0))
accepted("4d 02 eda0bdedb880 90 91 5a", (12, 0, 1, 0), (18, 1, 2, 4), (3, 8, 0, 0), (3, 9, 1, 0))
for message, fault in LONE.items():
    refused(message, *fault)
    for before in each("7a 90 | 43 | 43 00 91 | 70"):
        refused(before + raw(message), fault[0], len(before) + fault[1])
for c in map(chr, EDGES):
    if c > "\uffff":
        accepted(b"\x04a" + halves(c) + b"z", (7, 0, 4, 6))
        for size in range(1, 6):
            refused(b"\x79\x02" + halves(c)[:size], 2, 2 + size)
accepted(raw("52 fffe") + b"a" * 65534 + raw("02 eda0bdedb880"), (7, 0, 65536, 65538))
accepted(raw("52 fffe") + halves(SMILE) * 32767 + raw("02 eda0bdedb880"), (7, 0, 65536, 131072))
refused(raw("52 ffff") + halves(SMILE) * 32767 + raw("eda0bdedb880 00"), 4, 3 + 6 * 32767)

# ---- lists, maps and objects: each form, with few and many elements, types spelled out and by number
for n in (0, 1, 7, 8, 47, 48):
    accepted(b"\x57" + some(n) + b"\x5a")
    accepted(b"\x58" + int_form(n) + some(n))
    accepted(b"\x48" + some(2 * n) + b"\x5a")
    for form in int_forms(n):
        accepted(b"\x58" + form + b"\x90" * n)
        accepted(b"\x56\x00" + form + b"\x90" * n)
        accepted(b"\x43\x01a" + form + b"\x00" * n + b"\x60" + some(n))
    for before, form in TYPES:
        accepted(before + b"\x55" + form + some(n) + b"\x5a")
        accepted(before + b"\x56" + form + int_form(n) + some(n))
        accepted(before + b"\x4d" + form + some(2 * n) + b"\x5a")
        if n <= 7:
            accepted(before + bytes([0x70 + n]) + form + some(n))
    for form in int_forms(0):
        accepted(class_of(n) + b"\x4f" + form + some(n))
    # one element more or less
    refused(b"\x57" + b"\x90" * n + b"\x5a\x90", 8, n + 2)
    refused(b"\x57" + b"\x90" * n, 2, n + 1)
    refused(b"\x58" + int_form(n) + b"\x90" * n + b"\x5a", 8, 1 + len(int_form(n)) + n)
    refused(b"\x58" + int_form(n + 1) + b"\x90" * n, 2, 1 + len(int_form(n + 1)) + n)
    refused(b"\x58" + int_form(n + 1) + b"\x90" * n + b"\x5a", 3, 1 + len(int_form(n + 1)) + n)
    refused(b"\x48" + b"\x90" * (2 * n + 1) + b"\x5a", 3, 2 * n + 2)
    refused(class_of(n) + b"\x60" + b"\x90" * (n + 1), 8, len(class_of(n)) + 1 + n)
    refused(class_of(n + 1) + b"\x60" + b"\x90" * n, 2, len(class_of(n + 1)) + 1 + n)
for n in range(8):
    for start in (bytes([0x78 + n]), bytes([0x70 + n, 0]), bytes([0x70 + n]) + b"\x01t"):
        accepted(start + some(n))
        refused(start + some(n) + b"\x4e", 8, len(start + some(n)))
        if n:
            refused(start + b"\x90" * (n - 1), 2, len(start) + n - 1)

# ---- class definitions before values
accepted("D 90", (15, 0, 0, 0), (16, 1, 0, 0), (3, 3, 0, 0))
STANDING = "D D 90 | D D D 62 | 57 D 90 D 91 5a | 57 D 60 D 61 5a | 58 92 D 90 D D 91 | 7a D 90 D 91 | 55 00 D 90 5a"
STANDING += "| 56 00 91 D 90 | 71 00 D 90 | 48 D 90 91 5a | 48 90 D 91 5a | 48 D 60 D 61 D 60 D 62 5a"
STANDING += "| 4d 00 D 90 D 91 5a | F 60 D 90 | F 60 D 61 | F 60 F 61 F 62 90 | F 4f 90 D D 90"
STANDING += "| F F 7a 60 D 60 90 61 62 | D F 61 57 D 60 D 62 5a"
for message in each(STANDING):
    accepted(message)
CLOSED = "57 D 5a | 57 90 D 5a | 55 00 D 5a | 48 D 5a | 48 90 D 5a | 48 D 90 5a | 4d 00 D 5a | 4d 00 90 D 5a | 79 D 5a"
for message in each(CLOSED + "| D 40 | D 5a"):
    refused(message, 3, len(message) - 1)
CUT = "D D | 57 D | 58 91 D | 79 D | 48 D | 48 90 D | 48 90 91 D | 55 00 D | 56 00 91 D | 4d 00 D | F 60 D"
for message in each(CUT):
    refused(message, 2, len(message))
refused("43 00 91 60", 3, 3)
refused("60 D", 6, 0)
refused("57 60 D 5a", 6, 1)
for n in range(17):
    for k in sorted({0, n - 1, n, 15} & set(range(16))):
        message = NO_FIELDS * n + bytes([0x60 + k])
        if k < n:
            accepted(message)
        else:
            refused(message, 6, 3 * n)
accepted(NO_FIELDS * 17 + b"\x4f\xa0")
refused(NO_FIELDS * 16 + b"\x4f\xa0", 6, 48)
for form in each("8f | 80 | 91 | c7ff | c000 | d3ffff | 49 ffffffff | 49 80000000 | 49 7fffffff | 49 00000001"):
    refused(NO_FIELDS + b"\x4f" + form, 6, 3)
    refused(b"\x7a\x90" + NO_FIELDS + b"\x4f" + form + b"\x90", 6, 5)

# ---- references
GIVEN = "79 51 c800 | 79 51 d40000 | 79 51 49 00000000 | 58 91 51 90 | 57 51 90 51 90 5a | 71 00 51 90 | 56 00 91 51 90"
GIVEN += "| 55 00 51 90 5a | 48 51 90 51 90 5a | 4d 00 51 90 4e 5a | F 60 51 90 | F 79 4f 90 51 91 | 7a 78 51 91"
for message in each(GIVEN):
    accepted(message)
EIGHT = raw("78 48 5a 55 00 5a D 60 4d 00 5a 70 00 56 00 90 58 90")
accepted(b"\x57" + EIGHT + b"".join(b"\x51" + int_form(n) for n in range(9)) + b"\x5a")
refused(b"\x57" + EIGHT + b"\x51\x99\x5a", 6, 1 + len(EIGHT))
for form in each("91 | 8f | 80 | c7ff | c801 | d3ffff | d40001 | 49 00000001 | 49 7fffffff | 49 80000000"):
    refused(b"\x79\x51" + form, 6, 1)
for message in each("7a 51 91 78 | 48 51 91 78 5a"):
    refused(message, 6, 1)
# texts, bytes, references and definitions are not numbered
for message in each("7a 78 51 92 | 7b 01 'a' 78 51 92 | 7b 21 00 90 51 91 | 7b 51 90 78 51 92 | 79 D 51 91"):
    refused(message, 6, len(message) - 2)
accepted(b"\x57" + b"\x78" * 300 + raw("51 c92c 5a"))
refused(b"\x57" + b"\x78" * 300 + raw("51 c92d 5a"), 6, 301)

# ---- types
accepted("71 00 70 90", (10, 0, 1, 0), (18, 1, 0, 0), (10, 2, 0, 0), (19, 3, 0, 0))
accepted("7a 4d 01 'a' 5a 4d 90 5a", (9, 0, 2, 0), (12, 1, 0, 0), (18, 2, 1, 1), (12, 5, 0, 0), (19, 6, 0, 0))
accepted("7b 70 01 'a' 70 01 'a' 70 91")
for message in each("7b 70 01 'a' 70 01 'a' 70 92 | 43 01 'a' 90 70 90 | 7a 01 'a' 70 90 | 7a 70 00 70 91"):
    refused(message, 6, len(message) - 1)
for form in each("90 | 8f | c7ff | c800 | d3ffff | 49 80000000 | 49 7fffffff"):
    for code in (0x70, 0x77, 0x55, 0x56, 0x4D):
        refused(bytes([code]) + form, 6, 1)
    refused(b"\x7a\x90\x70" + form, 6, 3)

# ---- counts
for form in each("8f | 80 | c7ff | c000 | d3ffff | d00000 | 49 ffffffff | 49 80000000"):
    for before in each("58 | 56 00 | 7a 70 00 56 90 | 43 00 | 57 90 58 | 48 90 58 | 79 43 02 c3a9 'b'"):
        refused(before + form, 5, len(before))
    for size in range(1, len(form)):
        refused(b"\x58" + form[:size], 2, 1 + size)
        refused(b"\x43\x00" + form[:size], 2, 2 + size)
refused(raw("58 49 7fffffff") + b"\x90" * 1000, 2, 1006)
refused(raw("56 00 49 7fffffff") + b"\x90" * 100, 2, 107)

# ---- cut at each byte
for message in map(raw, (TOUR, BEETLE, COLORS, LINKED, "52 0007 'hello, ' 05 'world'")):
    accepted(message)
    for size in range(1, len(message)):
        refused(message[:size], 2, size)
    for rest in (b"\x00", b"\x40", b"\x5a\x5a", b"\x43"):
        refused(message + rest, 8, len(message))

# ---- 32 open containers: each form that holds one value, as what opens and what closes it
NESTS = "79 / | 58 91 / | 58 49 00000001 / | 57 / 5a | 71 00 / | 56 00 91 / | 55 00 / 5a | 48 90 / 5a | 48 / 90 5a"
NESTS += "| 4d 00 90 / 5a | 4d 00 / 90 5a | 60 / | 4f 90 / | 7a 90 / | 7a / 90 | 57 90 / 91 5a"
for nest in NESTS.split("|"):
    start, end = map(raw, nest.split("/"))
    before = ONE_FIELD if start[0] in OBJECTS else b""
    accepted(before + start * 32 + b"\x90" + end * 32)
    accepted(before + start * 31 + b"\x78" + end * 31)
    refused(before + start * 33 + b"\x90" + end * 33, 7, len(before + start * 32))
    refused(before + start * 32 + b"\x78" + end * 32, 7, len(before + start * 32))
    refused(before + start * 32 + start[:1], 7, len(before + start * 32))
    accepted(before + b"\x7a" + (start * 30 + b"\x78" + end * 30) * 2)
for code in sorted({*COLLECTIONS, *OBJECTS}):
    refused(b"\x79" * 32 + bytes([code]), 7, 32)
    refused(b"\x79" * 32 + bytes([code]) + b"\x40", 7, 32)
    refused(NO_FIELDS * 16 + b"\x57" * 32 + bytes([code]) + b"\x90" * 8 + b"\x5a" * 33, 7, 80)
# 7 comes before anything else about the container
WRONG = "58 8f | 58 c7 | 58 5a | 55 91 | 55 8f 5a | 70 40 | 4f 8f | 4f 4e | 4f c7 | 60 90 | 48 5a | 4d 01 80 | 56 00 8f"
for message in each(WRONG):
    refused(b"\x79" * 32 + message, 7, 32)
for message in each("51 90 | 51 af | 01 'a' | 21 00 | 4e | D 4e | 52 0000 00"):
    accepted(b"\x79" * 32 + message)
for message in each("D 78 | D 60"):
    refused(b"\x79" * 32 + message, 7, 35)
# a container is open until its last value is complete
for message in each("7a 90 78 | 57 90 78 5a | 48 90 78 5a | 58 92 90 78"):
    refused(b"\x79" * 31 + message, 7, 31 + message.index(0x78))
refused(b"\x79" * 31 + raw("48 78 90 5a"), 7, 32)
refused(ONE_FIELD + b"\x79" * 31 + raw("60 78"), 7, 36)
accepted(b"\x79" * 30 + b"\x57" + b"\x78" * 40 + b"\x5a")
accepted(b"\x57" + (b"\x79" * 30 + b"\x78") * 8 + b"\x5a")
refused(b"\x57" + (b"\x79" * 30 + b"\x78") * 8 + b"\x79" * 31 + b"\x78\x5a", 7, 1 + 8 * 31 + 31)
ALL_FORMS = raw("57 58 91 79 55 00 56 00 91 71 90 48 90 4d 91 90 60 4f 90")
accepted(ONE_FIELD + ALL_FORMS * 3 + raw("57 79 4e 5a") + b"\x5a" * 12)
refused(ONE_FIELD + ALL_FORMS * 3 + raw("57 79 70 00 5a") + b"\x5a" * 12, 7, len(ONE_FIELD + ALL_FORMS * 3) + 2)

# ---- 256 types
FULL = b"\x57" + b"\x70\x00" * 256
accepted(FULL + b"\x5a")
for message in each("70 c8ff 5a | 4d 90 5a 5a | 55 c8ff 5a 5a | 56 90 90 5a"):
    accepted(FULL + message)
refused(FULL + b"\x70\x00\x5a", 7, 514)
for form in each("00 | 01 | 01 'a' | 1f | 01 80 | 30 00 | 30 | 33 ff | 52 0000 00 | 52 | 53 0000 | 53 0001 c0"):
    for code in (0x70, 0x71, 0x55, 0x56, 0x4D):
        refused(FULL + bytes([code]) + form, 7, 514)
refused(FULL + b"\x70", 2, 514)
for form in each("c900 | 8f | c7ff"):
    refused(FULL + b"\x70" + form, 6, 514)
for form in each("40 | 45 | 47 | 50 | 20 | 34 | 41 | 43 | 4e | 51 | 5a | 5b | 60 | 78 | e0"):
    refused(FULL + b"\x70" + form, 3, 514)
accepted(b"\x57" + raw("4d 01 'a' 5a 55 00 5a 56 00 90 72 00 90 91") * 64 + b"\x5a")
refused(b"\x57" + raw("4d 01 'a' 5a 55 00 5a 56 00 90 72 00 90 91") * 64 + raw("4d 00 5a 5a"), 7, 2 + 14 * 64)

# ---- 256 class definitions
accepted(NO_FIELDS * 256 + b"\x90")
accepted(NO_FIELDS * 256 + b"\x4f\xc8\xff")
accepted(NO_FIELDS * 256 + b"\x6f")
accepted(b"\x57" + (NO_FIELDS + b"\x90") * 256 + b"\x5a")
refused(NO_FIELDS * 256, 2, 768)
refused(NO_FIELDS * 256 + b"\x4f\xc9\x00", 6, 768)
for message in each("D 90 | 43 | 43 40 | 43 01 80 | 43 00 8f | 43 00 c901"):
    refused(NO_FIELDS * 256 + message, 7, 768)
refused(b"\x57" + (NO_FIELDS + b"\x90") * 256 + NO_FIELDS + b"\x90\x5a", 7, 1 + 256 * 4)
refused(b"\x48" + (NO_FIELDS + b"\x90") * 256 + b"\x90" + NO_FIELDS + b"\x90\x5a", 7, 2 + 256 * 4)

# ---- 256 fields
for form in int_forms(256):
    accepted(b"\x43\x00" + form + b"\x00" * 256 + b"\x60" + b"\x90" * 256)
    refused(b"\x43\x00" + form + b"\x00" * 256 + b"\x60" + b"\x90" * 255, 2, 2 + len(form) + 256 + 1 + 255)
for form in int_forms(257) + each("cfff | d7ffff | 49 7fffffff"):
    refused(b"\x43\x00" + form, 7, 2)
    refused(b"\x43\x00" + form + b"\x00" * 257 + b"\x60" + b"\x90" * 257, 7, 2)
    refused(b"\x79" + NO_FIELDS + b"\x43\x01a" + form, 7, 7)
    for size in range(1, len(form)):
        refused(b"\x43\x00" + form[:size], 2, 2 + size)
accepted(class_of(256) + class_of(255) + b"\x7a\x60" + b"\x90" * 256 + b"\x61" + b"\x91" * 255)
accepted(class_of(255) * 3 + b"\x62" + b"\x4e" * 255)


# ---- 262,144 bytes
accepted(chunked(LONGEST, TEXT), (7, 0, LONGEST - 12, LONGEST - 12))
accepted(chunked(LONGEST, BYTES), (8, 0, LONGEST - 12, 0))
assert len(PAIRS) == LONGEST
accepted(PAIRS, (7, 0, 65534 + 0x5558, 4 + 4 * (32767 + 10922)))
accepted(b"\x57" + (b"\x53\x80\x00" + b"a" * 32768) * 7 + chunked(LONGEST - 2 - 7 * 32771, TEXT) + b"\x5a")
accepted(b"\x57" + b"\x90" * (LONGEST - 2) + b"\x5a")
accepted(b"\x57" + b"\x78" * (LONGEST - 8) + b"\x51" + int_forms(LONGEST - 8)[-1] + b"\x5a")
refused(b"\x57" + b"\x78" * (LONGEST - 8) + b"\x51" + int_forms(LONGEST - 7)[-1] + b"\x5a", 6, LONGEST - 7)
refused(chunked(LONGEST, TEXT).replace(b"\x53", b"\x52"), 2, LONGEST)
refused(chunked(LONGEST - 1, TEXT) + b"\x00", 8, LONGEST - 1)
refused(chunked(LONGEST + 1, TEXT)[:-1], 2, LONGEST)
refused(chunked(LONGEST, TEXT)[:-1] + b"\x80", 4, LONGEST - 1)
refused(b"\x57" + b"\x90" * (LONGEST - 1), 2, LONGEST)
refused(b"\x57" + b"\x90" * (LONGEST - 2) + b"\x40", 3, LONGEST - 1)
refused(b"\x90" * LONGEST, 8, 1)
refused(b"\x40" * LONGEST, 3, 0)
refused(chunked(LONGEST + 1, TEXT), 1, 0)
refused(chunked(LONGEST + 1, BYTES), 1, 0)
refused(b"\x57" + b"\x90" * (LONGEST - 1) + b"\x5a", 1, 0)
for code in (0x90, 0x40, 0x5A, 0x57, 0x79):
    refused(bytes([code]) * (LONGEST + 1), 1, 0)
refused(chunked(270000, BYTES), 1, 0)

# ---- how many numbers are lent
assert answer(judged(raw("57 90 91 5a")), 3, 4, 15).startswith("0 3 4 3 ")
assert answer(judged(raw("57 90 91 5a")), 3, 4, 14) == f"9 3 0 0 {UNTOUCHED[14]} ok"
assert answer(judged(raw("90")), 1, 1, 4) == f"9 1 0 0 {UNTOUCHED[4]} ok"
assert answer(judged(raw("90 90")), 0, 2, 0) == "8 0 1 0 7 ok"
for message in (*each("90 | 57 90 91 5a | 48 5a | 72 00 4e 4e | D 79 60"), *map(raw, (TOUR, BEETLE, COLORS, LINKED))):
    needed = ROW * len(judged(message))
    for lent in (0, 1, 3, 4, 5, 9, needed // 2, *range(needed - 6, needed + 7), needed + 40, LENT - 1, LENT):
        if lent >= 0:
            case(message, lent)
for message in (b"", *each("5a | 90 90 | 51 90 | 7a 90 91 40 | 7b 90 91 | 7a 90 01 80 | 58 8f | 72 00 90 40")):
    for lent in (0, 1, 4, 5, 9, 10, 14, 100, LENT):
        case(message, lent)
assert LENT == 1600 * ROW
for n in (1597, 1598, 1599, 1600, 1601):
    for lent in (LENT, LENT - 1, LENT - 4, LENT - 5, 0):
        case(b"\x57" + b"\x90" * n + b"\x5a", lent)
        case(b"\x58" + int_form(n) + b"\x4e" * n, lent)
for lent in (0, 4, 5, 6, LENT):
    case(chunked(LONGEST, TEXT), lent)
    case(b"\x57" + b"\x90" * (LONGEST - 2) + b"\x5a", lent)
    case(b"\x57" + b"\x90" * (LONGEST - 1) + b"\x5a", lent)

# ---- each first byte
for code in range(256):
    for zeros in (0, 8):
        case(bytes([code]) + b"\x00" * zeros)

# ---- where a value, a type, a count, a number, a name or a chunk is due: each kind of code
DUE = "D | 57 | 79 | 48 | 48 90 | F 60 | 55 | 56 | 70 | 4d | 58 | 56 00 | 43 | 43 00 | 43 00 91 | D 4f | 79 51"
for before in each(DUE + "| 52 0001 'a' | 41 0001 ff"):
    for code in CODES:
        case(before + bytes([code]) + b"\x00" * 9)


# ---- 2026-11: 5f by the rule of thousandths
def counting(message, *doubles):
    """A message that is accepted, and its doubles by the rule of thousandths; all else is as by the main rule."""
    data = data_of(message)
    main, read = case(data), judged(data, THOUSANDTHS)
    assert [row for row in main if row[0] != DOUBLE] == [row for row in read if row[0] != DOUBLE], (message, read)
    assert [row[:2] for row in main] == [row[:2] for row in read], (message, read)
    assert [row[2] for row in read if row[0] == DOUBLE] == [bits(x) for x in doubles], (message, read)


# 9 is the first that is not the same divided by 1000
assert all(n * 0.001 == n / 1000 for n in range(9)) and 9 * 0.001 == 0.009000000000000001 != 9 / 1000
EXAMPLES = {"00000000": 0.0, "00000001": 0.001, "ffffffff": -0.001, "00000009": 0.009000000000000001, "000003e8": 1.0}
EXAMPLES.update({"fffffc18": -1.0, "41440000": 1094975.4880000001, "7fffffff": 2147483.647, "80000000": -2147483.648})
EXAMPLES.update({"7f800001": 2139095.041, "7fc00000": 2143289.344, "ff800000": -8388.608, "3f800000": 1065353.216})
for four, double in EXAMPLES.items():
    counting("5f" + four, double)
# beside the other doubles, and in all that holds a value
counting("7f 5b 5c 5d ff 5e 0100 5f 00000100 44 4028800000000000 5f 0000007b", 0, 1, -1, 256, 0.256, 12.25, 0.123)
counting("58 98 5f 00000009 5f 0000000a 5d 09 5e 0009 44 0000000000000001 90 e9 5f fffffff7",
         0.009000000000000001, 0.01, 9, 9, 5e-324, -0.009000000000000001)
counting("57 5f 000007d0 57 5f 00000bb8 5a 5f 00000fa0 5a", 2, 3, 4)
counting("48 5f 00000001 5f 00000002 48 5f 00000003 5f 00000005 5a 5f 00000004 5a", 0.001, 0.002, 0.003, 0.005, 0.004)
for message in each("72 01 't' | 56 01 't' 92"):
    counting(message + raw("5f 00000001 5f 00002710"), 0.001, 10)
counting("55 01 't' 5f 00000001 5f 00002710 5a", 0.001, 10)
counting("4d 01 't' 01 'a' 5f 0000007b 5f 0000007b 01 'b' 5a", 0.123, 0.123)
counting("43 03 'Log' 92 01 't' 01 'v' 7a 60 4b 00e3838f 5f 000186a0 4f 90 5f 00000000 5f fffe7960", 100, 0, -100)
counting("7b F 60 5f 0000000b 60 79 5f 0000000d 51 90", 0.011, 0.013000000000000001)
# its four bytes are no codes, and 5f elsewhere opens no double
counting("7b 5f 5f5f5f5f 5f 5a5a5a5a 5f 40404040", 1600085.855, 1515870.81, 1077952.5760000001)
counting("7f 01 '_' 21 5f 49 5f00005f 59 5f00005f 4c 5f00000000000009 4a 5f00000000000009 4b 5f000009")
# cut, followed, or where none may stand
for message in each("5f | 79 5f | 57 5f | 48 5f | 48 90 5f | F 60 5f | 72 00 90 5f | 7a 5f 00000009 5f"):
    for size in range(4):
        refused(message + b"\x00" * size, 2, len(message) + size)
for message in each("5f 00000009 90 | 5f 00000009 5f 00000009"):
    refused(message, 8, 5)
for message in each("58 | D 4f | 70 | 43 | 79 51"):
    refused(message + raw("5f 00000009"), 3, len(message))
for lent in (0, 4, 5, 9, 10, 14, 15, 16, LENT):
    case(raw("5f 00000009"), lent)
    case(raw("7a 5f 00000009 5f fffffff7"), lent)
accepted(b"\x57" + raw("5f 00000009") * 52428 + raw("90 90 5a"))
refused(b"\x57" + raw("5f 00000009") * 52428 + raw("90 90 90 5a"), 1, 0)


def near_halves():
    """Counts whose product lies halfway between two doubles, or as near to that as there are of their length."""
    significand = bits(0.001) % 2**52 + 2**52
    odd = significand // 4
    assert odd % 2
    yield from (n << k for n in (9, 11, 13, 15) for k in range(28))
    # so many bits of the product are lost; they are a multiple of 4, as the significand is
    for lost in range(4, 32):
        step = 2 ** (lost - 2)
        for distance in (-1, 1, -3, 3):
            n = pow(odd, -1, step) * (step // 2 + distance) % step
            found = [m for m in range(n, 8 * step, step) if (m * significand).bit_length() == 53 + lost]
            assert all(m * significand % 2**lost == (2 ** (lost - 1) + 4 * distance) % 2**lost for m in found)
            yield found[lost % len(found)]


def counts():
    """2,000 counts: the edges, those near halves, where the product passes a power of two, and random ones."""
    sizes = [*range(40), *near_halves(), *(1000 << k for k in range(22))]
    sizes += [b**k for b in (2, 10) for k in range(32)]
    sizes += [0x7F800000, 0x7F800001, 0x7FC00000, 0x3F800000, 0x41440000, 0x00800000, 0x007FFFFF]
    found = dict.fromkeys(n * sign for size in sizes for n in (size - 1, size, size + 1) for sign in (1, -1))
    found = [n for n in found if fits(n, 32)]
    chance = Chance(2)
    while len(found) < 2000:
        n = chance.number(33)
        found += [n] if fits(n, 32) and n not in found else []
    assert {0, 9, 2**31 - 1, -(2**31), -(2**31) + 1} <= set(found) and len(found) == len(set(found)) == 2000
    return found


for n in counts():
    case(wide(0x5F, n, 4), ROW)


# ---- 2026-06: the length of the shortest message
def measured(message, length, thousandths=None):
    """A message that is accepted, and how long the shortest message of its record is; by the rule of thousandths as
    long, where no other length is named."""
    data = data_of(message)
    read, lengths = case(data), both_rules(data, shortest_length)
    assert isinstance(read, list), (data[:99].hex(), read)
    assert lengths == (length, length if thousandths is None else thousandths), (data[:99].hex(), lengths)


# numbers in each form, in a list
for n, length in INT_LENGTHS.items():
    for form in int_forms(n):
        measured(b"\x79" + form, 1 + length)
for n, length in LONG_LENGTHS.items():
    for form in long_forms(n):
        measured(b"\x79" + form, 1 + length)
for n, length in {**{bits(x): length for x, length in DOUBLE_LENGTHS.items()}, **NAN_LENGTHS, bits(-0.0): 5}.items():
    measured(b"\x79" + wide(0x44, n, 8), 1 + length)
for n, length in ((0, 1), (1, 1), (2, 2), (-1, 2), (127, 2), (-128, 2), (128, 3), (-129, 3), (32767, 3), (-32768, 3)):
    measured(b"\x79" + wide(0x5E, n, 2), 1 + length)
    if fits(n, 8):
        measured(b"\x79" + wide(0x5D, n, 1), 1 + length)
for n in (0, 1, -1, 2**31 - 1, -(2**31)):
    measured(b"\x79" + wide(0x4B, n, 4), 6)
    measured(b"\x79" + wide(0x4A, 60000 * n, 8), 6)
    for rest in (-1, 1):
        measured(b"\x79" + wide(0x4A, 60000 * n + rest, 8), 10)
for n in (60000 * 2**31, -60000 * (2**31 + 1), 60000 * 2**40, 2**63 - 1, -(2**63)):
    measured(b"\x79" + wide(0x4A, n, 8), 10)


# texts and bytes in many chunks
def heads(kind, units):
    """The bytes that the heads of so many units take, where no pair stands at a cut."""
    full = max(units - 1, 0) // LONGEST_CHUNK
    rest = units - LONGEST_CHUNK * full
    return 3 * full + (1 if rest < (32 if kind == TEXT else 16) else 2 if rest < 1024 else 3)


def cut(content, size):
    return [content[i : i + size] for i in range(0, len(content), size)]


assert [heads(TEXT, n) for n in (0, 31, 32, 1024, 65535, 65536, 131070, 131071)] == [1, 1, 2, 3, 3, 4, 6, 7]
SIZES = [0, 1, 15, 16, 31, 32, 1023, 1024, 65534, 65535, 65536, 65550, 65551, 65566, 65567, 66558, 66559]
for n in SIZES + [131069, 131070, 131071, 131101, 131102, 200000]:
    for kind in (TEXT, BYTES):
        length = n + heads(kind, n)
        measured(joined(kind, [b"", b"", b"a" * min(n, 65535), b"", *cut(b"a" * (n - 65535), 40000), b""]), length)
        for size in ([1, 13] if n < 65534 else [13] if n % 65535 < 2 else []) + [20001, 65534, 65535]:
            if size < n:
                measured(joined(kind, cut(b"a" * n, size), THREE), length)
for kind in (TEXT, BYTES):
    measured(joined(kind, cut(b"a" * 262000, 60000)), 262012)
    measured(joined(kind, cut(b"a" * 262132, 65533)), 262144)
for c, n in (("\u00e9", 65536), ("\u20ac", 65535), ("\u20ac", 65536)):
    parts = [(c * units).encode() for units in (32768, n - 32768)]
    measured(joined(TEXT, parts, THREE), len(c.encode()) * n + heads(TEXT, n))


def in_six(content):
    """The content with each SMILE as a pair of halves."""
    return content.replace(SMILE.encode(), halves(SMILE))


def paired(parts, length):
    """A text of these chunks, with each SMILE in four bytes and in six, and how long its shortest form is."""
    parts = [part.encode() for part in parts if part]
    for spell in (bytes, in_six):
        measured(joined(TEXT, parts, spell=spell), length)


# a pair is not cut: where the 65,535th unit is the first half of one, the chunk has 65,534
for at in range(65532, 65537):
    for pairs in (1, 2):
        first = 65534 if at in (65534, 65536 - 2 * pairs) else 65535
        for units in (at + 2 * pairs, 65534 + 32, 65534 + 1024, 65534 + 65536):
            rest = units - at - 2 * pairs
            length = at + 4 * pairs + rest + (3 + heads(TEXT, units - first) if units > 65535 else 3)
            paired(["a" * (at - 1), "a" + SMILE * pairs, *cut("b" * rest, 65535)], length)
            paired(["a" * 40000, "a" * (at - 40000) + SMILE, SMILE * (pairs - 1), *cut("b" * rest, 33333)], length)
# the same at the second cut, which comes earlier where the first one does
for first in (65534, 65535):
    start = "a" * 65534 + (SMILE if first == 65534 else "abb")
    for at in range(first + 65533, first + 65537):
        second = 65534 if at == first + 65534 else 65535
        for rest in (1, 30):
            length = at + 2 * (first == 65534) + 4 + rest + 6 + heads(TEXT, at + 2 + rest - first - second)
            filler = "b" * (at - units_of(TEXT, start.encode()))
            paired(["a" * 30000, start[30000:], *cut(filler, 50000), SMILE + "c" * rest], length)
# nothing but pairs: each chunk has 65,534 units
for n, length in ((1, 1), (15, 1), (16, 2), (511, 2), (512, 3), (32767, 3), (32768, 4), (43000, 6)):
    paired([SMILE * (n // 3), SMILE * (n - n // 3)], 4 * n + length)
# an odd unit before them, and it has 65,535
for n, length in ((32767, 3), (32768, 4)):
    measured(joined(TEXT, [f"x{SMILE * 9999}".encode(), SMILE.encode() * (n - 9999)]), 1 + 4 * n + length)
measured(joined(TEXT, [SMILE.encode() * n for n in (1, 32767, 32765)]), 4 * 65533 + 6)

# names: of types, of classes and of fields
NAMES = [(text_heads(5)[-1] + b"name1", 6), (raw("52 0000 52 0002 'na' 52 0000 30 03 'me1'"), 6), (raw("53 0000"), 1)]
NAMES += [(joined(TEXT, cut(b"a" * n, 13)), n + heads(TEXT, n)) for n in (31, 32, 1024, 65535, 65536)]
NAMES += [(raw("52 0002 eda0bdedb880 53 0002 f09f9880"), 9)]
NAMES += [(joined(TEXT, [b"a" * 65533, f"a{SMILE}".encode()], spell=in_six), 65542)]
for name, length in NAMES:
    measured(b"\x70" + name, 1 + length)
    measured(b"\x56" + name + raw("49 00000001 90"), 2 + length)
    measured(b"\x55" + name + raw("90 91 5a"), 3 + length)
    measured(b"\x4d" + name + raw("c801 91 5a"), 4 + length)
    measured(b"\x43" + name + raw("90 4e"), 3 + length)
    measured(raw("43 00 49 00000002 01 'a'") + name + raw("4f c800 90 91"), 8 + length)

# lists and maps: open and counted, with types spelled out and by number
for n in (0, 1, 3, 6, 7, 8, 9, 46, 47, 48, 49, 300):
    length = n + (1 if n < 8 else 2)
    measured(b"\x7a" + b"\x57" + b"\x90" * n + b"\x5a\x90", 2 + length)
    measured(b"\x55\x53\x00\x01t" + b"\x90" * n + b"\x5a", 2 + length)
    measured(raw("7a 70 01 't' 55 49 00000000") + b"\x90" * n + b"\x5a", 5 + length)
    measured(raw("79 48") + b"\x90" * 2 * n + b"\x5a", 1 + 2 * n + 2)
    measured(raw("4d 52 0000 01 't'") + b"\x90" * 2 * n + b"\x5a", 2 + 2 * n + 2)
    measured(raw("7a 4d 00 5a 4d c800") + b"\x90" * 2 * n + b"\x5a", 4 + 2 * n + 3)
    for form in int_forms(n):
        measured(b"\x79\x58" + form + b"\x4e" * n, 1 + length)
        measured(b"\x56\x01t" + form + b"\x4e" * n, 2 + length)
        measured(raw("7a 4d 01 't' 5a 56 d40000") + form + b"\x4e" * n, 6 + length)
measured(b"\x57" * 32 + b"\x5a" * 32, 32)
measured(raw("58 91") * 31 + raw("58 90"), 32)
measured(raw("58 d40002") + raw("57 90 90 5a") * 2, 7)
for number, length in ((0, 1), (47, 1), (48, 2), (255, 2)):
    for form in int_forms(number):
        measured(b"\x57" + b"\x70\x00" * 256 + b"\x70" + form + b"\x5a", 2 + 512 + 1 + length)
        measured(b"\x57" + b"\x70\x00" * 256 + b"\x4d" + form + raw("90 90 5a 5a"), 2 + 512 + 4 + length)

# objects and classes
for number, length in ((0, 1), (14, 1), (15, 1), (16, 2), (47, 2), (48, 3), (255, 3)):
    for form in int_forms(number):
        measured(NO_FIELDS * (number + 1) + b"\x4f" + form, 3 * (number + 1) + length)
        measured(NO_FIELDS * number + raw("43 00 d40001 00 57 4f") + form + b"\x91\x5a", 3 * number + 4 + 2 + length)
for n, length in ((0, 1), (1, 1), (3, 1), (15, 1), (16, 1), (47, 1), (48, 2), (255, 2), (256, 2)):
    for form in int_forms(n):
        measured(b"\x43\x53\x00\x01C" + form + b"\x30\x00" * n + b"\x4e", 3 + length + n + 1)
        measured(b"\x43\x00" + form + b"\x01f" * n + b"\x4f\x90" + b"\xc8\x00" * n, 2 + length + 2 * n + 1 + n)
# definitions by themselves, before and inside
measured("43 30 01 'C' 49 00000001 53 0001 'f' 90", 7)
measured("57 43 30 01 'C' c801 30 01 'f' 90 F D 91 5a", 16)
measured("43 00 c801 00 60 43 00 c800 43 00 90 4f d40002", 12)
measured("48 43 00 c800 c800 43 00 c800 c800 5a", 10)

# references, after so many values
for number, length in ((0, 1), (47, 1), (48, 2), (1000, 2), (2047, 2), (2048, 3), (9999, 3)):
    for form in int_forms(number):
        measured(b"\x57" + b"\x78" * number + b"\x51" + form + b"\x5a", (2 if number else 1) + number + 1 + length)
measured(b"\x57" + (b"\x78" * 20 + raw("51 49 00000013")) * 10 + b"\x5a", 2 + 10 * 22)
measured("7b 51 49 00000000 79 51 d40001 51 c801", 8)

# 5f by both rules
BY_COUNT = {1000: 1, 2000: 2, -1000: 2, 127000: 2, -128000: 2, 128000: 3, -129000: 3, 32767000: 3, -32768000: 3}
BY_COUNT.update({500: 5, -500: 5, 125: 5, 1500: 5, 127500: 5, 32768000: 5, -32769000: 5, 2147483000: 5, 33250: 5})
BY_COUNT.update({1: 9, -1: 9, 9: 9, 100: 9, 999: 9, 1001: 9, -32767999: 9, 2**31 - 1: 9, -(2**31): 9})
for n, length in BY_COUNT.items():
    measured(b"\x79" + wide(0x5F, n, 4), 6, 1 + length)
    measured(b"\x7a" + wide(0x5F, n, 4) * 2, 11, 1 + 2 * length)
measured("5f 00000000", 1)
for n, length in ((0x3F800000, 1), (0x40000000, 2), (0xC3000000, 2), (0x43000000, 3), (0xC7000000, 3), (0x47000000, 5)):
    measured(wide(0x5F, n, 4), length, 9)
measured("7f 5f 3f800000 5f 000003e8 5f 3fc00000 44 3ff0000000000000 5d 01 5e 07d0 90", 18, 26)
measured("48 01 'a' 5f 000007d0 01 'b' 5f 000001f4 44 3ff8000000000000 5f 00000009 5a", 26, 27)
measured("43 30 01 'C' c802 01 'x' 01 'y' 4f d40000 5f 0001e848 5f 00000001", 19, 20)
# beyond the ceiling, where the writer refuses 1
for n in (8, 9):
    measured(b"\x57" + raw("5f 00000009") * 29126 + b"\x90" * n + b"\x5a", 5 * 29126 + n + 2, LONGEST - 8 + n)
for n in (0, 1, 2, 3, 500, 1500):
    start, end = (bytes([0x79 + n]), b"") if n < 7 else (b"\x57", b"\x5a")
    doubles = raw("5f 00000009") * n
    content = chunked(LONGEST - 8 - len(start + doubles + end), TEXT)
    measured(start + content + doubles + end, LONGEST - 8, LONGEST - 8 + 4 * n)

# ---- random messages
chance = Chance(1)

made = 0
while made < 530:
    maker = Maker(chance, 2 + chance.below(30))
    maker.value(MOST_OPEN)
    message, rows = maker.data, len(maker.rows)
    if len(message) > 250:
        continue
    made += 1
    assert judged(message) == [tuple(row) for row in maker.rows], message.hex()
    assert ends(judged(message)) == maker.ends, message.hex()
    found = shortest(message, tabled(judged(message)))
    assert len(message) >= len(found) == shortest_length(found), message.hex()
    lent = ROW * rows + chance.choice((0, 1, 2, 3, 4, 9, 40, -1, -5, -ROW * rows, -ROW * chance.below(rows + 1)))
    case(message, max(0, lent))
    # a byte changed, the message cut short, a byte inserted
    at = chance.below(len(message))
    case(message[:at] + chance.byte() + message[at + 1 :], ROW * rows + chance.below(8))
    case(message[:at], ROW * rows + chance.below(8))
    case(message[:at] + chance.byte() + message[at:], ROW * rows + chance.below(8))

assert sum(len(line) + 1 for line in CASES) <= MOST_INPUT
write_files(arguments(__file__).to, [*CASES.items()])
