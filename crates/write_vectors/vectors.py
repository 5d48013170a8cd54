#!/usr/bin/env python3
"""Writes the cases of write_vectors, stdin, and what it is to print, stdout: `python3 vectors.py` rewrites both, and
with `--to FOLDER` writes them there.

A case is a line: how many bytes of output are lent and how many rows are claimed, in decimal; the source in groups, one
space before each; ` ;`; and the rows of the table, one space before each. A group is bytes, two hexadecimal digits each;
a row is five decimals with commas between: kind, place, first, second, and by how much the fifth number is above the
row's own number, modulo 2^64. `*` and a number after a group or a row say how often it stands there.

What is printed for it is a line: number, count and place of the answer; the checksum of the whole lent output after the
call; and `ok`, where the output past what was written, or after a refusal the whole output, is unchanged. Before the call
byte i of the output is (i * 7 + 3) % 251. The checksum starts at 7, and each byte b takes it from s to s * 1000003 + b,
modulo 2^31 - 1.

Writer and reader are those of ../vectors/hessian_format.py. The reader is asked what rows a message has, and whether
what is written reads back as the same record. Most rows have four numbers here, and get the fifth ones of the record
that they would be, so that something else is tested.
"""
import functools
import itertools
import os
import struct
import sys

sys.dont_write_bytecode = True
sys.path.insert(0, os.path.join(os.path.dirname(os.path.abspath(__file__)), "../vectors"))
from hessian_cases import (  # noqa: E402
    BEETLE, BROKEN, CARS, COLORS, DOUBLE_LENGTHS, EDGES, INT_LENGTHS, LINKED, LONE, LONG_LENGTHS, NAN_LENGTHS,
    NO_FIELDS, PAIRS, TOUR, TYPES, Chance, Maker, arguments, checksum, chunked, class_of, data_of, each, groups, raw,
    some, text_of, write_files,
)
from hessian_format import (  # noqa: E402
    BYTES, LONGEST, MOST_OPEN, STRINGS, TEXT, TEXTS, WORD, bytes_heads, date_form, double_form, ends, halves, int_form,
    int_forms, judged, long_form, long_forms, string_at, text_form, text_heads, units_of, wide, written,
)

MOST_LENT = 270000
MOST_ROWS = 2000
MOST_INPUT = 400000

# ---- lines
PATTERN = bytes((i * 7 + 3) % 251 for i in range(MOST_LENT))


@functools.lru_cache(maxsize=None)
def untouched(lent):
    return checksum(PATTERN[:lent])


def answer(found, lent):
    """The line to be printed, by what is written, and the bytes lent."""
    if isinstance(found, int):
        return f"{found} 0 0 {untouched(lent)} ok"
    if lent < len(found):
        return f"9 {len(found)} 0 {untouched(lent)} ok"
    return f"0 {len(found)} 0 {checksum(found + PATTERN[len(found) : lent])} ok"


def row_words(rows):
    """The rows, each as often as it stands there in turn."""
    rows = [(*row[:4], (row[4] - at) % WORD) for at, row in enumerate(rows)]
    words, at = [], 0
    while at < len(rows):
        end = at
        while end < len(rows) and rows[end] == rows[at]:
            end += 1
        words.append(",".join(map(str, rows[at])) + (f"*{end - at}" if end - at > 1 else ""))
        at = end
    return words


CASES = {}
# any number would do; this one keeps the cases as they were
chance = Chance(12953007724344040943)


def contents(source, rows):
    return [string_at(source, row[1], TEXT if row[0] in TEXTS else BYTES)[0] for row in rows if row[0] in STRINGS]


def read(message):
    """The rows of a message that is accepted."""
    rows = judged(message)
    assert isinstance(rows, list), (message, rows)
    return [tuple(n % WORD for n in row) for row in rows]


def same(source, rows, other_source, other_rows):
    return [(kind, *rest) for kind, _, *rest in rows] == [(kind, *rest) for kind, _, *rest in other_rows] and contents(
        source, rows
    ) == contents(other_source, other_rows)


def ended(rows, claimed=WORD):
    """The rows with their fifth numbers, as the ones claimed are to have them; the others have 0."""
    return [(*row, end % WORD) for row, end in itertools.zip_longest(rows, ends(rows[:claimed]), fillvalue=0)]


def case_of(source, rows, claimed=None, lent=None):
    """A case of rows of five numbers, and what is written. Where it does not matter how many bytes are lent, some are
    to spare."""
    claimed = len(rows) if claimed is None else claimed
    found = written(source, rows, claimed)
    if isinstance(found, bytes):
        back = ended(read(found))
        assert same(source, rows[:claimed], found, back), (source, rows)
        assert written(found, back, claimed) == found
    if lent is None:
        lent = (7 if isinstance(found, int) else len(found)) + len(CASES) % 13
    assert len(rows) <= MOST_ROWS and len(source) <= MOST_LENT
    assert all(0 <= n < WORD for row in [*rows, [claimed]] for n in row)
    lent = min(max(lent, 0), MOST_LENT)
    line = " ".join([str(lent), str(claimed), *groups(source), ";", *row_words(rows)])
    CASES.setdefault(line, answer(found, lent))
    return found


def case(source, rows, claimed=None, lent=None):
    """The same of rows of four numbers."""
    return case_of(source, ended(rows, len(rows) if claimed is None else claimed), claimed, lent)


def unplaced(rows):
    """Places that are not looked at are made 0."""
    return [row if row[0] in STRINGS else (row[0], 0, *row[2:]) for row in rows]


def rewrites(message, shortest=None, lent=None):
    """A message that is accepted, and what its record is written as; that it stays as it is, where nothing is named."""
    message = data_of(message)
    rows = read(message)
    found = case(message, rows if len(CASES) % 4 == 0 else unplaced(rows), lent=lent)
    assert found == (message if shortest is None else data_of(shortest)), (message, found)


def shortens(message):
    """A message that is accepted, in any spelling."""
    message = data_of(message)
    rows = read(message)
    found = case(message, rows if len(CASES) % 4 == 0 else unplaced(rows))
    assert isinstance(found, bytes) and len(found) <= len(message), message


def writes(source, rows, shortest):
    found = case(data_of(source), rows)
    assert found == data_of(shortest), (source, rows, found)


def refused(number, source, rows, claimed=None, lent=None):
    found = case(data_of(source), rows, claimed, lent)
    assert found == number, (source, rows, found)


def none(source, rows, claimed=None, lent=None):
    refused(10, source, rows, claimed, lent)


SMILE = "\U0001f600".encode()
NULL, ZERO = (0, 0, 0, 0), (3, 0, 0, 0)
# a class definition without fields, and its name at a place
EMPTY_CLASS = (15, 0, 0, 0), (16, 0, 0, 0)

# ---- examples of 01
CAR = "43 03 'Car' 91 05 'color' 60 03 'red'"
rewrites(CAR)
writes(CAR, [(15, 0, 1, 0), (16, 1, 3, 3), (17, 6, 5, 5), (13, 12, 0, 1), (7, 13, 3, 3)], CAR)
# the marked ones
rewrites("49 0000012c", "c92c")
rewrites("bf")
rewrites("c8 30")
rewrites("c7 ef")
rewrites("49 00040000")
rewrites("59 0000012c", "f92c")
rewrites("4a 000000d04b920ba0", "4b 00e3838f")
rewrites("44 4028800000000000", "5f 41440000")
rewrites("52 0007 'hello, ' 05 'world'", "0c 'hello, world'")
rewrites("57 90 91 5a", "7a 90 91")
rewrites("79 51 90")
none("51 90", [(14, 0, 0, 0)])
# those that are run only
none("", [])
rewrites("02 f09f9880")
rewrites("5d 00", "5b")
rewrites("44 8000000000000000", "5f 80000000")
rewrites("5f 80000000")
PAIR = raw("52 fffe") + b"a" * 65534 + b"\x02" + SMILE
rewrites(PAIR)
rewrites(raw("52 8000") + b"a" * 32768 + raw("53 8000") + b"a" * 32766 + SMILE, PAIR)
rewrites(b"\x79" * 31 + b"\x78")
rewrites(b"\x57" * 31 + b"\x78" + b"\x5a" * 31, b"\x79" * 31 + b"\x78")
none("", [(9, 0, 1, 0)] * 32 + [(9, 0, 0, 0)])

# ---- single numbers: each form's bounds, from each form
AROUND = [2**31 - 1, 262144, 262143, 2048, 2047, 48, 47, 16, 15, 1, 0, -1, -8, -9, -16, -17]
AROUND += [-2048, -2049, -262144, -262145, -(2**31)]
for n in AROUND:
    for form in int_forms(n):
        rewrites(form, int_form(n))
for n in AROUND + [2**63 - 1, 2**31, -(2**31) - 1, -(2**63)]:
    for form in long_forms(n):
        rewrites(form, long_form(n))
for n, size in INT_LENGTHS.items():
    assert len(int_form(n)) == size
for n, size in LONG_LENGTHS.items():
    assert len(long_form(n)) == size
for n in (0, 1, -1, 2**31 - 1, 2**31, -(2**31), -(2**31) - 1, 2**40):
    for rest in (-1, 0, 1):
        writes("", [(6, 0, (60000 * n + rest) % WORD, 0)], date_form(60000 * n + rest))
for n in (2**63 - 1, -(2**63), 59999, 60001, -59999):
    rewrites(wide(0x4A, n, 8))
assert date_form(60000) == raw("4b 00000001") and date_form(60001)[0] == 0x4A and date_form(60000 * 2**31)[0] == 0x4A


def double(x):
    return int.from_bytes(struct.pack(">d", x), "big")


for x, size in DOUBLE_LENGTHS.items():
    assert len(double_form(double(x))) == size, x
    rewrites(wide(0x44, double(x), 8), double_form(double(x)))
for n in (0, 1, 2, -1, 127, -128):
    for form in ([] if n not in (0, 1) else [bytes([0x5B + n])]) + [wide(0x5D, n, 1), wide(0x5E, n, 2)]:
        rewrites(form, double_form(double(n)))
    rewrites(b"\x5f" + struct.pack(">f", n), double_form(double(n)))
for single in (1, 3, 0x7FFFFF, 0x800000, 0x7F800001, 0x7FBFFFFF, 0x7FC00000, 0x7FFFFFFF, 0x3EAAAAAB, 0x7F7FFFFF):
    for sign in (0, 1 << 31):
        rewrites(wide(0x5F, sign | single, 4))
# NaNs with and without a float, doubles next to a float's
for bits, size in NAN_LENGTHS.items():
    assert len(double_form(bits)) == size
    rewrites(wide(0x44, bits, 8), double_form(bits))
for bits in (1, WORD - 1, 0x7FF0000000000001, 0x3FF0000000000001, 0x36A0000000000001, 0x369FFFFFFFFFFFFF, 0x47EFFFFFE0000001):
    rewrites(wide(0x44, bits, 8))

# ---- texts and bytes: each form's bounds, from each form
for n in (0, 1, 15, 16, 31, 32, 255, 256, 1023, 1024):
    for form in text_heads(n):
        rewrites(form + b"a" * n, text_heads(n)[0] + b"a" * n)
    for form in bytes_heads(n):
        rewrites(form + b"\xff" * n, bytes_heads(n)[0] + b"\xff" * n)
    shortens(raw("52 0001 'x'") + text_of("\u00e9" * n))
    shortens(text_of("\u20ac" * n))
    shortens(text_of("\U0001f600" * (n // 2)))
    shortens(raw("41 0000 41 0001 00") + bytes_heads(n)[-1] + b"\x01" * n)
rewrites("52 0000 52 0000 00", "00")
rewrites("41 0000 41 0000 20", "20")
rewrites("52 0002 f09f9880 52 0001 c3a9 02 f09f9880", "05 f09f9880 c3a9 f09f9880")
for c in EDGES:
    shortens(text_of("a" + chr(c) + "z"))
for n in (65534, 65535, 65536, 65537, 131070, 131071):
    text = b"a" * n
    for cut in (1, n // 3, min(n, 65535)):
        chunks = [text[i : i + cut] for i in range(0, n, cut)] if cut > 1 else [text[:1], text[1:65536], text[65536:]]
        spelled = b"".join(wide(0x52, len(chunk), 2) + chunk for chunk in chunks) + b"\x00"
        shortens(spelled)
        shortens(spelled.replace(b"\x52", b"\x41")[:-1] + b"\x20")
# a pair at each place around the cut; none may be cut through
for at in (65533, 65534, 65535):
    content = b"a" * at + SMILE + b"b" * 65536
    parts = [b"a" * at, SMILE + b"b" * 40000, b"b" * 25536]
    sizes = [at, 40002, 25536]
    spelled = b"".join(wide(0x52, n, 2) + part for n, part in zip(sizes, parts)) + b"\x00"
    rewrites(spelled, text_form(content))
assert text_form(b"a" * 65534 + SMILE) == PAIR
assert text_form(b"a" * 65533 + SMILE) == raw("53 ffff") + b"a" * 65533 + SMILE
for size in (32767, 32768, 40000):
    pairs = raw("52 8000") + SMILE * 16384 + wide(0x53, 2 * (size - 16384), 2) + SMILE * (size - 16384)
    rewrites(pairs, text_form(SMILE * size))
shortens(raw("52 ffff") + b"\xe2\x82\xac" * 65535 + raw("53 0800") + b"\xc3\xa9" * 2048)
assert text_form(SMILE * 32768)[:3] == raw("52 fffe") and text_form(SMILE * 32768)[-5:] == b"\x02" + SMILE

# ---- 2026-04: pairs of halves. The first is what a Java library writes for U+1F600, written down by hand
writes("02 eda0bdedb880", [(7, 0, 2, 4)], "02 f09f9880")
none("02 eda0bdedb880", [(7, 0, 2, 6)])
writes("52 0003 'a' eda0bdedb880 03 f09f9880 'z'", [(7, 0, 6, 10)], "06 'a' f09f9880 f09f9880 'z'")
for size in (8, 12, 14, 16):
    none("52 0003 'a' eda0bdedb880 03 f09f9880 'z'", [(7, 0, 6, size)])
writes("26 eda0bdedb880", [(8, 0, 6, 0)], "26 eda0bdedb880")
none("26 eda0bdedb880", [(8, 0, 4, 0)])
# in a class name, a field name and a value, and in a type name: with the length in four bytes, and with that in six
NAMES = "43 02 eda0bdedb880 91 02 edafbfedbfbf 60 02 eda080edb080"
NAMED = [(15, 0, 1, 0), (16, 1, 2, 4), (17, 9, 2, 4), (13, 16, 0, 1), (7, 17, 2, 4)]
writes(NAMES, NAMED, "43 02 f09f9880 91 02 f48fbfbf 60 02 f0908080")
for at in (1, 2, 4):
    none(NAMES, [*NAMED[:at], (*NAMED[at][:3], 6), *NAMED[at + 1 :]])
writes("71 02 eda0bdedb880 90", [(10, 0, 1, 0), (18, 1, 2, 4), ZERO], "71 02 f09f9880 90")
none("71 02 eda0bdedb880 90", [(10, 0, 1, 0), (18, 1, 2, 6), ZERO])
writes("4d 02 eda0bdedb880 5a", [(12, 0, 0, 0), (18, 1, 2, 4)], "4d 02 f09f9880 5a")
none("4d 02 eda0bdedb880 5a", [(12, 0, 0, 0), (18, 1, 2, 6)])
for place in range(len(raw(NAMES)) + 1):
    assert (case(raw(NAMES), [(7, place, 2, 4)]) == 10) == (place not in (1, 9, 17))
# halves that are no pair: with the lengths that they would have as characters, and as a pair
for message in LONE:
    for units, size in ((1, 3), (1, 4), (2, 4), (2, 6), (3, 7)):
        none(message, [(7, 0, units, size)])
for c in map(chr, EDGES):
    if c > "\uffff":
        rewrites(b"\x04a" + halves(c) + b"z", b"\x04a" + c.encode() + b"z")
for n in (16, 30, 32, 1022, 1024):
    rewrites(text_heads(n)[-1] + halves("\U0001f600") * (n // 2), text_of("\U0001f600" * (n // 2)))
# beyond 65,535 units: chunks of 65,534
SIX = raw("eda0bdedb880")
rewrites(raw("52 fffe") + b"a" * 65534 + b"\x02" + SIX, PAIR)
rewrites(raw("52 8000") + b"a" * 32768 + raw("53 8000") + b"a" * 32766 + SIX, PAIR)
for size in (32767, 32768, 40000):
    pairs = raw("52 8000") + SIX * 16384 + wide(0x53, 2 * (size - 16384), 2) + SIX * (size - 16384)
    rewrites(pairs, text_form(SMILE * size))
for at in (65533, 65534, 65535):
    spelled = wide(0x52, at, 2) + b"a" * at + wide(0x53, 40002, 2) + SIX + b"b" * 40000
    rewrites(spelled, text_form(b"a" * at + SMILE + b"b" * 40000))
rewrites(PAIRS, text_form(SMILE * 32767 + b"abcd" + SMILE * 10922))

# ---- lists, maps and objects
SIZES = (0, 7, 8, 47, 48)
for n in SIZES:
    values = some(n)
    counted = b"\x58" + int_form(n) + values
    listed = bytes([0x78 + n]) + values if n < 8 else counted if n < 48 else b"\x57" + values + b"\x5a"
    for form in int_forms(n):
        rewrites(b"\x58" + form + values, listed)
    rewrites(b"\x57" + values + b"\x5a", listed)
    rewrites(listed)
    for before, spelled in TYPES:
        shortest = text_form(b"[int") if not before else b"\x00" if spelled == b"\x00" else int_form(spelled[0] == 0x91)
        typed = bytes([0x70 + n]) + shortest + values if n < 8 else b"\x56" + shortest + int_form(n) + values
        typed = typed if n < 48 else b"\x55" + shortest + values + b"\x5a"
        for message in (b"\x55" + spelled + values + b"\x5a", b"\x56" + spelled + int_form(n) + values):
            rewrites(before + message, before + typed)
        if n < 8:
            rewrites(before + bytes([0x70 + n]) + spelled + values, before + typed)
        mapped = values * 2 + b"\x5a"
        rewrites(before + b"\x4d" + spelled + mapped, before + b"\x4d" + shortest + mapped)
    rewrites(b"\x48" + values * 2 + b"\x5a")
    shortens(class_of(n) + raw("4f d40000") + values)
    shortens(raw("43 52 0000 01 'a' 49") + n.to_bytes(4, "big") + b"\x30\x00" * n + b"\x60" + values)
for n in (48, 300, 1999):
    writes("", [(9, 0, n, 0)] + [ZERO] * n, b"\x57" + b"\x90" * n + b"\x5a")
writes("01 't'", [(10, 0, 1998, 0), (18, 0, 1, 1)] + [NULL] * 1998, raw("55 01 't'") + b"\x4e" * 1998 + b"\x5a")
writes("", [(11, 0, 999, 0)] + [ZERO] * 999 + [NULL] * 999, b"\x48" + b"\x90" * 999 + b"\x4e" * 999 + b"\x5a")
for message in each("D 90 | D D 61 | 57 D 90 D 91 5a | 48 D 60 D 61 D 60 D 62 5a | F 60 F 61 F 62 90 | D F 61 57 D 60 D 62 5a"):
    shortens(message)
for message in (BEETLE, CARS, COLORS, LINKED, TOUR):
    shortens(message)
# classes 15, 16 and 255
for number, shortest in ((0, "60"), (14, "6e"), (15, "6f"), (16, "4f a0"), (47, "4f bf"), (48, "4f c830"), (255, "4f c8ff")):
    classes = NO_FIELDS * (number + 1)
    for form in int_forms(number)[-1 if number == 255 else 0 :]:
        rewrites(classes + b"\x4f" + form, classes + data_of(shortest))
    if number < 16:
        rewrites(classes + bytes([0x60 + number]))
# references of each size
for number, shortest in ((0, "51 90"), (47, "51 bf"), (48, "51 c830"), (300, "51 c92c")):
    for form in int_forms(number):
        values = b"\x78" * max(number, 47)
        rewrites(b"\x57" + values + b"\x51" + form + b"\x5a", b"\x57" + values + data_of(shortest) + b"\x5a")
none("", [(9, 0, 301, 0)] + [(9, 0, 0, 0)] * 300 + [(14, 0, 301, 0)])
writes("", [(9, 0, 1990, 0)] + [(9, 0, 0, 0)] * 1989 + [(14, 0, 1989, 0)], b"\x57" + b"\x78" * 1989 + raw("51 cfc5 5a"))

# ---- 10: each number of each kind of row wrong
SMALL = each(
    "4e | 46 | 54 | 91 | e1 | 5c | 4b 00000001 | 02 c3a9 'b' | 00 | 22 0102 | 20 | 78 | 79 90 | 48 5a"
    "| 48 90 91 5a | 70 01 't' | 71 01 't' 90 | 4d 01 't' 5a | 4d 00 90 91 5a | 7a 70 01 't' 70 90 | 7a 4d 01 't' 5a 4d 90 5a"
    "| 7b 70 00 71 01 'u' 90 70 91 | D 90 | D 60 | F 60 4e | 43 01 'C' 92 01 'f' 02 'gh' 60 90 91 | D F 61 90 | 79 51 90"
    "| 7a 78 51 91 | 7a D 60 60 | 7a 01 'a' 21 'a'"
)


def changed(rows, at, which, n):
    row = list(rows[at])
    row[which] = n % WORD
    return [*rows[:at], tuple(row), *rows[at + 1 :]]


for message in SMALL:
    rows = read(message)
    for at, (kind, place, first, second) in enumerate(rows):
        for n in sorted({kind + 1, chance.choice(range(20)), kind + chance.choice((-1, 256, 2**32, 2**63))} - {kind}):
            case(message, changed(rows, at, 0, n))
        for n in (first + 1, first - 1, first + chance.choice((2**32, 2**63))):
            case(message, changed(rows, at, 2, n))
        for n in (second + 1, second - chance.choice((1, 2**32, 2**63))):
            case(message, changed(rows, at, 3, n))
        wrong = (place + 1, chance.choice((len(message), 2**32 + place, WORD - 1))) if kind in STRINGS else (WORD - 1,)
        for n in wrong:
            case(message, changed(rows, at, 1, n))
# an int is 32 bits with its sign
for n in (2**31, 2**32 - 1, 2**32, -(2**31) - 1, 2**63, -(2**32)):
    none("", [(3, 0, n % WORD, 0)])
for kind in range(7):
    for second in (1, 2**63, WORD - 1):
        none("", [(kind, 0, 0, second)])
for kind in range(3):
    for first in (1, 2**63, WORD - 1):
        none("", [(kind, 0, first, 0)])
for kind in (20, 21, 255, 256, 259, 2**32 + 3, 2**63 + 3, WORD - 1):
    none("", [(kind, 0, 0, 0)])

# ---- 10: rows missing, one too many, swapped; claims
for message in (*SMALL, raw(CAR), raw(COLORS), raw("7a 55 01 't' 58 92 90 91 5a 48 01 'k' 4d 90 5a 5a")):
    rows = unplaced(read(message))
    for at in range(len(rows)):
        case(message, rows[:at] + rows[at + 1 :])
        case(message, rows[:at] + rows[at : at + 1] + rows[at:])
        if at + 1 < len(rows) and rows[at] != rows[at + 1]:
            case(message, [*rows[:at], rows[at + 1], rows[at], *rows[at + 2 :]])
    none(message, [*rows, chance.choice((NULL, (14, 0, 0, 0), EMPTY_CLASS[0]))])
    none(message, rows, 0)
    for claimed in (len(rows) + 1, chance.choice((2**32, 2**59, 2**61, 2**62, 2**63)) + len(rows)):
        none(message, rows, claimed)
    # a row lent and not claimed is not looked at
    assert isinstance(case(message, [*rows, chance.choice(((99, 99, 99, 99), NULL, rows[0]))], len(rows)), bytes)
    if len(rows) > 1:
        case(message, rows, len(rows) - 1)
for claimed in (0, 1, 2, 2**62, 2**63, WORD - 1):
    none("", [], claimed)
for n in (1998, 2000, 2001, 2**62, WORD - 1):
    none("", [(9, 0, 1998, 0)] + [ZERO] * 1998, n)
# containers with more values than rows, also where a count would wrap round
for n in (1, 2, 47, 48, 2**31, 2**32, 2**62, 2**63, WORD - 3):
    none("", [(9, 0, n, 0)])
    none("", [(11, 0, n, 0)])
    none("01 't'", [(10, 0, n, 0), (18, 0, 1, 1)])
    none("01 't'", [(12, 0, n, 0), (18, 0, 1, 1)])
    none("", [(9, 0, n + 2, 0), ZERO, ZERO])
    none("", [(11, 0, n + 1, 0), ZERO, ZERO])
none("", [(11, 0, 2**63, 0)])
none("", [(11, 0, 2**63 + 1, 0), ZERO, ZERO])
# fewer values than rows
none("", [(9, 0, 1, 0), ZERO, ZERO])
none("", [(11, 0, 1, 0), ZERO, ZERO, ZERO])
none("", [(11, 0, 1, 0), ZERO])

# ---- 10: classes, types and references that are not given
none("00", [(13, 0, 0, 0)])
for number in (1, 2, 16, 256, 2**31, 2**32, WORD - 1):
    none("00", [*EMPTY_CLASS, (13, 0, number, 0)])
    none("00", [*EMPTY_CLASS * 2, (13, 0, number + (number == 1), 0)])
for fields in (1, 2, WORD - 1, 2**32):
    none("00", [*EMPTY_CLASS, (13, 0, 0, fields), ZERO])
    none("00", [(15, 0, 3, 0), (16, 0, 0, 0), *[(17, 0, 0, 0)] * 3, (13, 0, 0, fields), ZERO, ZERO])
none("00", list(EMPTY_CLASS))
none("00", [EMPTY_CLASS[0], ZERO])
none("00", [(15, 0, 1, 0), (16, 0, 0, 0), ZERO])
none("00", [(15, 0, 1, 0), (16, 0, 0, 0), (16, 0, 0, 0), ZERO])
none("00", [(15, 0, 1, 0), (17, 0, 0, 0), (17, 0, 0, 0), ZERO])
none("00", [(15, 0, 1, 0), (16, 0, 0, 0), (7, 0, 0, 0), ZERO])
none("00", [(9, 0, 1, 0), *EMPTY_CLASS])
none("00", [(15, 0, 1, 0), (16, 0, 0, 0), (13, 0, 0, 1), (17, 0, 0, 0)])
for number in (0, 1, 255, 2**31, 2**32, WORD - 3):
    none("01 't'", [(10, 0, 0, number), (19, 0, number, 0)])
    none("01 't'", [(12, 0, 0, number), (19, 0, number, 0)])
    none("01 't'", [(9, 0, 2, 0), (10, 0, 0, 0), (18, 0, 1, 1), (10, 0, 0, number + 1), (19, 0, number + 1, 0)])
    none("01 't'", [(9, 0, 2, 0), (10, 0, 0, 0), (18, 0, 1, 1), (12, 0, 0, number + 2), (18, 0, 1, 1)])
    none("01 't'", [(9, 0, 2, 0), (12, 0, 0, 0), (18, 0, 1, 1), (10, 0, 0, number + 1), (19, 0, 0, 0)])
    none("", [(14, 0, number, 0)])
    none("", [(9, 0, 1, 0), (14, 0, number + 1, 0)])
    none("", [(9, 0, 2, 0), (14, 0, number + 1, 0), (9, 0, 0, 0)])
none("01 't'", [(10, 0, 0, 0), (7, 0, 1, 1)])
none("01 't'", [(10, 0, 0, 0), (16, 0, 1, 1)])
none("01 't'", [(10, 0, 1, 0), ZERO, (18, 0, 1, 1)])
none("01 't'", [(9, 0, 1, 0), (18, 0, 1, 1), ZERO])
none("01 't'", [(9, 0, 0, 0), (19, 0, 0, 0)])
none("01 't'", [(10, 0, 0, 0), (18, 0, 1, 1), (18, 0, 1, 1)])
none("01 't'", [(10, 0, 0, 0)])

# ---- 10: places that open no such item
SOURCE = raw("52 0003 'ab' c3a9 03 f09f9880 'z' 41 0002 0141 22 4142 30 02 'cd' 53 0002 'ef' 34 01 00 42 0002 ff01 02 c3")
for place in [*range(len(SOURCE) + 2), 2**31, 2**32, 2**63, WORD - 1]:
    for kind in (TEXT, BYTES):
        found = string_at(SOURCE, place, kind)
        units = units_of(kind, found[0]) if found else 2
        size = len(found[0]) if found else 2
        row = (kind, place, units, size if kind == TEXT else 0)
        assert (case(SOURCE, [row]) == 10) == (found is None)
for kind, rest in ((7, [NULL]), (16, []), (17, []), (18, [])):
    for place, units, size in ((0, 6, 9), (0, 3, 4), (0, 6, 8), (0, 5, 9), (0, 9, 9), (0, 6, 6), (7, 3, 5), (7, 3, 4), (8, 3, 5)):
        text = (kind, place, units, size)
        if kind == 7:
            rows = [text]
        elif kind == 16:
            rows = [(15, 0, 0, 0), text, NULL]
        elif kind == 17:
            rows = [(15, 0, 2, 0), (16, 7, 3, 5), text, (17, 0, 6, 9), NULL]
        else:
            rows = [(12, 0, 0, 0), text]
        case(SOURCE, rows)
# a text that is not well formed, or is cut
for broken in each(BROKEN):
    none(b"\x02" + broken + b"aa", [(7, 0, 2, 2)])
    none(b"\x02" + broken, [(7, 0, 2, len(broken))])
none("01 f09f9880", [(7, 0, 1, 4)])
none("52 0001 f09f9880 01 'a'", [(7, 0, 2, 4)])
none("52 0001 'a'", [(7, 0, 1, 1)])
none("52 0001 'a' 21 62", [(7, 0, 2, 2)])
none("41 0001 'a' 01 62", [(8, 0, 2, 0)])
none("52 0001 'a' 52", [(7, 0, 1, 1)])
none("53 00", [(7, 0, 0, 0)])
none("30", [(7, 0, 0, 0)])
none("34 02 01", [(8, 0, 2, 0)])
none("34 02 01", [(8, 0, 1, 0)])
# a source that is no message, items that lie in each other, the same item twice, places backward
writes("40 40 02 'hi' 40", [(7, 2, 2, 2)], "02 'hi'")
writes("23 02 'hi'", [(9, 0, 2, 0), (7, 1, 2, 2), (8, 0, 3, 0)], "7a 02 'hi' 23 02 'hi'")
writes("52 0001 'a' 02 'bc'", [(9, 0, 2, 0), (7, 4, 2, 2), (7, 0, 3, 3)], "7a 02 'bc' 03 'abc'")
writes("01 't'", [(9, 9, 2, 0), (7, 0, 1, 1), (7, 0, 1, 1)], "7a 01 't' 01 't'")
writes("02 'ab'", [(15, 7, 1, 0), (16, 0, 2, 2), (17, 0, 2, 2), (13, 7, 0, 1), (7, 0, 2, 2)], "43 02 'ab' 91 02 'ab' 60 02 'ab'")
writes("01 't'", [(9, 0, 2, 0), (10, 0, 0, 0), (18, 0, 1, 1), (12, 0, 0, 1), (18, 0, 1, 1)], "7a 70 01 't' 4d 01 't' 5a")

# ---- 10: ceilings
for start in ((9, 0, 1, 0), (11, 0, 1, 0)):
    width = 1 if start[0] == 9 else 2
    for depth in (30, 31, 32):
        rest = [ZERO] * (width - 1) * depth
        assert (case(b"", [start] * depth + [(9, 0, 0, 0)] + rest) == 10) == (depth == 32)
        assert (case(b"", [start] * depth + [(11, 0, 0, 0)] + rest) == 10) == (depth == 32)
    assert isinstance(case(b"", [start] * 32 + [ZERO] * (32 * (width - 1) + 1)), bytes)
    none("", [start] * 33 + [ZERO] * (33 * (width - 1) + 1))
F = [(15, 0, 1, 0), (16, 0, 0, 0), (17, 0, 0, 0)]
assert isinstance(case(b"\x00", F + [(13, 0, 0, 1)] * 32 + [NULL]), bytes)
none("00", F + [(13, 0, 0, 1)] * 33 + [NULL])
none("00", [*EMPTY_CLASS] + [(9, 0, 1, 0)] * 32 + [(13, 0, 0, 0)])
assert isinstance(case(b"\x00", [*EMPTY_CLASS] + [(9, 0, 1, 0)] * 31 + [(13, 0, 0, 0)]), bytes)
typed = [row for i in range(32) for row in ((10, 0, 1, i), (18, 0, 0, 0))]
assert isinstance(case(b"\x00", typed + [ZERO]), bytes)
none("00", typed + [(12, 0, 0, 0), (19, 0, 0, 0)])
# a container is closed after its last value
assert isinstance(case(b"", [(9, 0, 2, 0)] + ([(9, 0, 1, 0)] * 30 + [(9, 0, 0, 0)]) * 2), bytes)
none("", [(9, 0, 2, 0)] + [(9, 0, 1, 0)] * 30 + [(9, 0, 0, 0)] + [(9, 0, 1, 0)] * 31 + [(9, 0, 0, 0)])
for n in (256, 257):
    rows = [(9, 0, n, 0), *(row for i in range(n) for row in ((10, 0, 0, i), (18, 0, 0, 0)))]
    assert (case(b"\x00", rows) == 10) == (n > 256)
    rows = [*EMPTY_CLASS * n, (13, 0, n - 1, 0)]
    assert (case(b"\x00", rows) == 10) == (n > 256)
    rows = [(15, 0, n, 0), (16, 0, 0, 0), *[(17, 0, 0, 0)] * n, (13, 0, 0, n), *[NULL] * n]
    assert (case(b"\x00", rows) == 10) == (n > 256)
rows = [(9, 0, 257, 0), *(row for i in range(256) for row in ((10, 0, 0, i), (18, 0, 0, 0)))]
assert isinstance(case(b"\x00", [*rows, (12, 0, 0, 255), (19, 0, 255, 0)]), bytes)
none("00", [*rows, (12, 0, 0, 256), (19, 0, 256, 0)])
for fields in (257, 2**31, 2**32, WORD - 1):
    none("00", [(15, 0, fields, 0), (16, 0, 0, 0), *[(17, 0, 0, 0)] * 300, NULL])

# ---- sources: none, the longest, too long
for row in (NULL, ZERO, (9, 0, 0, 0), (11, 0, 0, 0), (6, 0, 1, 0)):
    assert isinstance(case(b"", [row]), bytes)
for row in ((7, 0, 0, 0), (8, 0, 0, 0), (10, 0, 0, 0), (15, 0, 0, 0)):
    none("", [row])
for lent in (0, 100):
    for size in (LONGEST, LONGEST + 1):
        for fill in (b"a", b"\x40"):
            source = fill * size
            number = 1 if size > LONGEST else None
            assert (case(source, [NULL], lent=lent) == 1) == (size > LONGEST)
            refused(number or 10, source, [NULL], 0, lent)
            refused(number or 10, source, [NULL], 2, lent)
            refused(number or 10, source, [(20, 0, 0, 0)], 1, lent)
            refused(number or 10, source, [(7, 0, 1, 1)], 1, lent)
whole = chunked(LONGEST, TEXT)
rewrites(whole)
rewrites(whole, lent=MOST_LENT)
rewrites(whole, lent=LONGEST - 1)
rewrites(chunked(LONGEST, BYTES))
refused(1, whole + b"\x00", [(7, 0, LONGEST - 12, LONGEST - 12)])
writes(b"a" * (LONGEST - 2) + b"\x01z", [(7, LONGEST - 2, 1, 1)], "01 'z'")
writes(b"a" * (LONGEST - 1) + b"\x00", [(7, LONGEST - 1, 0, 0)], "00")
none(b"a" * (LONGEST - 1) + b"\x01", [(7, LONGEST - 1, 1, 1)])

# ---- shortest messages of 262,144 bytes, and longer ones
FULL = (7, 0, 65535, 65535)
for n, number in ((65525, 0), (65526, 0), (65527, 1)):
    # three texts of 65,538 bytes, and one of three bytes more than its characters
    source = raw("53 ffff") + b"a" * 65535 + wide(0x53, n, 2) + b"b" * n
    rows = [(9, 0, 4, 0), FULL, FULL, FULL, (7, 65538, n, n)]
    for lent in (LONGEST, LONGEST - 1, MOST_LENT, 0):
        found = case(source, rows, lent=lent)
        assert found == 1 if number else len(found) == LONGEST - (65526 - n)
    none(source, [*rows, NULL])
    none(source, [*rows[:-1], (7, 65538, n, n + 1)])
for source, row in ((raw("30 84") + b"a" * 132, (7, 0, 132, 132)), (raw("34 84") + b"a" * 132, (8, 0, 132, 0))):
    for ints in (37, 38, 39):
        rows = [(9, 0, 1956 + ints, 0), *[row] * 1956, *[ZERO] * ints]
        found = case(source, rows)
        assert found == 1 if ints > 38 else len(found) == LONGEST - (38 - ints)
        none(source, [*rows[:-1], (3, 0, 2**31, 0)])
    none(source, [(9, 0, 1995, 0), *[row] * 1956, *[ZERO] * 38])
many = [(9, 0, 70, 0), *[(7, 0, LONGEST - 12, LONGEST - 12)] * 70]
refused(1, whole, many)
none(whole, [*many[:-1], (7, 0, LONGEST - 12, LONGEST - 11)])
none(whole, [*many[:-1], (7, 1, LONGEST - 12, LONGEST - 12)])
none(whole, many, 70)
none(whole, many, 72)
refused(1, whole, many, lent=0)
refused(1, whole, [(9, 0, 1, 0), (7, 0, LONGEST - 12, LONGEST - 12)])
refused(1, whole, [(11, 0, 1, 0), (7, 0, LONGEST - 12, LONGEST - 12), NULL])
refused(1, whole, [(15, 0, 0, 0), (16, 0, LONGEST - 12, LONGEST - 12), NULL])
refused(1, whole, [(15, 0, 3, 0), *[(16, 0, LONGEST - 12, LONGEST - 12)], *[(17, 0, LONGEST - 12, LONGEST - 12)] * 3, NULL])
refused(1, whole, [(12, 0, 0, 0), (18, 0, LONGEST - 12, LONGEST - 12)])


# ---- 10: each fifth number of each kind of row wrong
def with_fifth(rows, at, n):
    return [*rows[:at], (*rows[at][:4], n % WORD), *rows[at + 1 :]]


def wrong_fifth(source, rows, at, n, claimed=None, lent=None):
    """One fifth number is changed, which is refused. `rows` have the right ones."""
    assert rows[at][4] != n % WORD
    assert case_of(data_of(source), with_fifth(rows, at, n), claimed, lent) == 10, (source, rows, at, n)


# the two tables that 2026-07 gives
LIST_ROWS = [(9, 0, 2, 0, 3), (3, 1, 0, 0, 2), (3, 2, 1, 0, 3)]
assert case_of(raw("57 90 91 5a"), LIST_ROWS) == raw("7a 90 91")
CAR_ROWS = [(15, 0, 1, 0, 3), (16, 1, 3, 3, 2), (17, 6, 5, 5, 3), (13, 12, 0, 1, 5), (7, 13, 3, 3, 5)]
assert case_of(raw(CAR), CAR_ROWS) == raw(CAR)
# holders in each other, beside each other and at the end of one, types, definitions in holders
HELD = each(
    "79 79 79 90 | 7b 78 79 90 91 | 7a 90 79 91 | 48 90 79 91 92 48 5a 5a | 7a 71 01 't' 70 90 4d 90 79 91 92 5a"
    "| 7a D 90 D 61 | 71 00 F 60 79 90 | F 60 F 61 4e"
)
seen = {}
for message in (*SMALL, *HELD):
    rows = ended(read(message))
    for at, (kind, *_, right) in enumerate(rows):
        wrong = {0, at, at + 1, right - 1, right + 1, len(rows), right + 2**32, right + 2**63, WORD - 1} - {right}
        # all of them for the first two rows of a kind
        seen[kind] = seen.get(kind, 0) + 1
        wrong = sorted(wrong) if seen[kind] <= 2 else [chance.choice(sorted(wrong)), right + chance.choice((-1, 1))]
        for n in wrong:
            wrong_fifth(message, rows, at, n)
assert sorted(seen) == list(range(20))
# all fifth numbers wrong alike: rows counted from 1, or from the row itself, and 0
for message in (raw(CAR), *HELD[:3]):
    rows = ended(read(message))
    for fifths in ([row[4] + 1 for row in rows], [row[4] - at for at, row in enumerate(rows)], [0] * len(rows)):
        assert case_of(message, [(*row[:4], n) for row, n in zip(rows, fifths)]) == 10
# two fifth numbers exchanged
for one, two in ((0, 1), (1, 2), (0, 2), (3, 4)):
    rows = ended(read(raw("7b 78 79 90 91")))
    wrong_fifth("7b 78 79 90 91", with_fifth(rows, two, rows[one][4]), one, rows[two][4])
# 10 comes before 9 and before a shortest message that is too long; a source that is too long comes before 10
for lent in (0, 1, 2):
    wrong_fifth("57 90 91 5a", LIST_ROWS, 2, 2, lent=lent)
for at in (0, 1, 35, 70):
    wrong_fifth(whole, ended(many), at, 70)
assert case_of(b"a" * (LONGEST + 1), with_fifth(LIST_ROWS, 0, 2)) == 1
# a row that is lent and not claimed is not looked at; a holder whose end is past the claim
assert case_of(raw("57 90 91 5a"), [*LIST_ROWS, (3, 0, 0, 0, 99)], 3) == raw("7a 90 91")
assert case_of(raw("57 90 91 5a"), LIST_ROWS, 2) == 10
# the ends that a row would have if a definition were part of the value after it, or a type none of its list
wrong_fifth("D 90", ended(read(raw("D 90"))), 0, 3)
wrong_fifth("7a D 90 91", ended(read(raw("7a D 90 91"))), 1, 4)
wrong_fifth("71 00 90", ended(read(raw("71 00 90"))), 0, 2)
wrong_fifth("71 00 90", ended(read(raw("71 00 90"))), 1, 3)

# ---- how many bytes are lent
for message in (*SMALL, raw(CAR), raw(TOUR), raw(BEETLE), PAIR, b"\x57" + b"\x91" * 60 + b"\x5a"):
    rows = unplaced(read(message))
    needed = len(written(message, ended(rows), len(rows)))
    for lent in (0, needed - 1, needed, needed + 40):
        case(message, rows, lent=lent)
for lent in (0, 1, 7, 1000, MOST_LENT):
    none("", [], lent=lent)
    none("00", [(7, 0, 0, 1)], lent=lent)
    assert case(b"", [NULL], lent=lent) == b"N"

# ---- random records
chance = Chance(2)


def random_number(n):
    """Another number near this one, or any."""
    below = chance.below
    return (n + chance.choice((1, -1, 2, 8, 256, 2**32, 2**63, below(20), -below(20), below(2**31)))) % WORD


def damaged(message, rows):
    """A source and rows with something changed."""
    at, kind = chance.below(len(rows)), chance.below(8)
    if kind < 3:
        which = chance.choice((0, 1, 2, 2, 3))
        return message, changed(rows, at, which, chance.below(20) if which == 0 else random_number(rows[at][which]))
    if kind == 3:
        return message, rows[:at] + rows[at + 1 :]
    if kind == 4:
        return message, rows[:at] + [chance.choice(rows)] + rows[at:]
    if kind == 5:
        other = chance.below(len(rows))
        swapped = list(rows)
        swapped[at], swapped[other] = rows[other], rows[at]
        return message, swapped
    if kind == 6:
        return message[: chance.below(len(message))], rows
    at = chance.below(len(message))
    return message[:at] + chance.byte() + message[at + 1 :], rows


made = 0
while made < 110:
    maker = Maker(chance, 2 + chance.below(20))
    maker.value(MOST_OPEN)
    message, rows = maker.data, [tuple(n % WORD for n in row) for row in maker.rows]
    if len(message) > 160:
        continue
    made += 1
    shortens(message)
    rows = unplaced(rows)
    found = written(message, ended(rows), len(rows))
    case(message, rows, lent=len(found) - chance.choice((0, 1, 1, 2, len(found))))
    case(*damaged(message, rows))
    if chance.below(3):
        case(*damaged(message, rows))
    else:
        # a fifth number changed; now and then it stays right
        at, right = chance.below(len(rows)), ended(rows)
        case_of(message, with_fifth(right, at, chance.choice((random_number(right[at][4]), chance.choice(right)[4]))))

assert sum(len(line) + 1 for line in CASES) <= MOST_INPUT
write_files(arguments(__file__).to, [*CASES.items()])
