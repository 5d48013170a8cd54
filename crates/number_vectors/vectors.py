#!/usr/bin/env python3
"""Writes the cases of number_vectors, stdin, and what it is to print, stdout: `python3 vectors.py` rewrites both, and
with `--to FOLDER` writes them there.

What a form stands for says ../vectors/hessian_format.py. The shortest form of a value, and so the length that reading any
form of it tells, is sought here among all forms that stand for it, those of up to three bytes decoded one by one, and
held to the one that is said there. The shapes of stdin's and stdout's lines are described in src/main.rt.
"""
import datetime
import math
import os
import struct
import sys

sys.dont_write_bytecode = True
sys.path.insert(0, os.path.join(os.path.dirname(os.path.abspath(__file__)), "../vectors"))
from hessian_cases import arguments, write_files  # noqa: E402
from hessian_format import (  # noqa: E402
    BYTE, COMPACT, CUT, DATE, DOUBLE, FALSE, FIRST_BYTES, INT, LONG, NULL, NUMBER_FORMS, NUMBERS, TRUE, WORD, bits,
    from_word, number_form, widened,
)

READ, WRITE, CHART, READ_AT = range(4)


def read(sort, message, at):
    """('value', value, size), or ('refused', number, place)."""
    if at >= len(message):
        return "refused", CUT, len(message)
    kind, follow, worth = NUMBERS.get(message[at], (None, 0, None))
    if kind != sort:
        return "refused", BYTE, at
    if at + 1 + follow > len(message):
        return "refused", CUT, len(message)
    return "value", worth(message[at], message[at + 1 : at + 1 + follow]) % WORD, 1 + follow


# ---- the shortest form
# of each sort and value, all forms of up to three bytes, the shorter first
SHORT = {sort: {} for sort in range(DATE + 1)}
for kind, first, last, follow, worth in sorted(NUMBER_FORMS, key=lambda form: form[3]):
    for code in range(first, last + 1) if follow <= 2 else ():
        for n in range(256**follow):
            rest = n.to_bytes(follow, "big")
            SHORT[kind].setdefault(worth(code, rest) % WORD, []).append(bytes([code]) + rest)


def nearest_float(value):
    """The four bytes of a 32-bit float that the double with these bits may be."""
    sign, fraction = value >> 63, value & (2**52 - 1)
    if value >> 52 & 0x7FF == 0x7FF:
        return (sign << 31 | 0xFF << 23 | fraction >> 29).to_bytes(4, "big")
    try:
        return struct.pack(">f", struct.unpack(">d", value.to_bytes(8, "big"))[0])
    except OverflowError:
        return bytes(4)


def longer(sort, value):
    """Forms of five and nine bytes that may hold the value, the shorter first."""
    whole = value.to_bytes(8, "big")
    low = whole[4:]
    if sort == INT:
        return [b"\x49" + low]
    if sort == LONG:
        return [b"\x59" + low, b"\x4c" + whole]
    if sort == DOUBLE:
        return [b"\x5f" + nearest_float(value), b"\x44" + whole]
    if sort == DATE:
        return [b"\x4b" + (from_word(value) // 60000 % 2**32).to_bytes(4, "big"), b"\x4a" + whole]
    return []


def forms_of(sort, value):
    """All forms of the value."""
    forms = SHORT[sort].get(value, []) + longer(sort, value)
    return [f for f in forms if read(sort, f, 0) == ("value", value, len(f))]


def shortest(sort, value):
    """The bytes of the shortest form, or None."""
    form = min(forms_of(sort, value), key=len, default=b"")
    assert form == number_form(sort, value), (sort, value)
    return form or None


# ---- cases
CASES = {}


def add(operation, sort, n, data):
    CASES.setdefault(bytes([operation * 16 + sort, n]) + bytes(data) + bytes(10 - len(data)))


def read_case(sort, message):
    add(READ, sort, len(message), message)


def read_at(sort, message, at):
    assert len(message) < 10
    add(READ_AT, sort, len(message), message + bytes(9 - len(message)) + bytes([at]))


def write_case(sort, value):
    add(WRITE, sort, 0, (value % WORD).to_bytes(8, "big"))


def every_form(sort, value):
    """Writes the value, and reads each of its forms."""
    write_case(sort, value)
    for form in forms_of(sort, value % WORD):
        read_case(sort, form)


def both(sort, message):
    """Reads the message, and writes what it reads."""
    read_case(sort, message)
    answer = read(sort, message, 0)
    if answer[0] == "value":
        write_case(sort, answer[1])


def example(sort, text, value):
    """A printed form and the value that it is said to be."""
    message = bytes.fromhex(text)
    assert read(sort, message, 0) == ("value", value % WORD, len(message)), text
    both(sort, message)


def rewritten(sort, text, form):
    message = bytes.fromhex(text)
    assert shortest(sort, read(sort, message, 0)[1]) == bytes.fromhex(form), text
    both(sort, message)


def spelled(sort, value, form):
    assert shortest(sort, value % WORD) == bytes.fromhex(form), value
    write_case(sort, value)


def milliseconds(*when):
    return int(datetime.datetime(*when, tzinfo=datetime.timezone.utc).timestamp()) * 1000


# The draft's examples, section by section, as 01 corrects them.
example(TRUE, "54", 0)
example(FALSE, "46", 0)
example(NULL, "4e", 0)
example(DATE, "4a 00 00 00 d0 4b 92 84 b8", milliseconds(1998, 5, 8, 9, 51, 31))
example(DATE, "4a 00 00 00 d0 4b 92 0b a0", milliseconds(1998, 5, 8, 9, 51))
example(DATE, "4b 00 e3 83 8f", milliseconds(1998, 5, 8, 9, 51))
example(DATE, "4b 4b 92 0b a0", 0x4B920BA0 * 60000)
for text, x in [
    ("5b", 0.0), ("5c", 1.0), ("5d 00", 0.0), ("5d 80", -128.0), ("5d 7f", 127.0), ("5e 00 00", 0.0), ("5e 80 00", -32768.0),
    ("5e 7f ff", 32767.0), ("44 40 28 80 00 00 00 00 00", 12.25),
]:
    example(DOUBLE, text, bits(x))
for text, n in [
    ("90", 0), ("80", -16), ("bf", 47), ("c8 00", 0), ("c0 00", -2048), ("c7 00", -256), ("cf ff", 2047), ("d4 00 00", 0),
    ("d0 00 00", -262144), ("d7 ff ff", 262143), ("49 00 00 00 00", 0), ("49 00 00 01 2c", 300), ("c0 03", -2045),
    ("91", 1), ("92", 2), ("93", 3), ("94", 4), ("a0", 16), ("c9 00", 256), ("49 00 01 00 00", 65536),
]:
    example(INT, text, n)
for text, n in [
    ("e0", 0), ("d8", -8), ("d9", -7), ("ef", 15), ("f8 00", 0), ("f0 00", -2048), ("f0 01", -2047), ("f7 00", -256),
    ("ff ff", 2047), ("3c 00 00", 0), ("38 00 00", -262144), ("38 00 01", -262143), ("3f ff ff", 262143),
    ("59 00 00 00 00", 0), ("59 00 00 01 2c", 300), ("4c 00 00 00 00 00 00 01 2c", 300),
]:
    example(LONG, text, n)
# 4c has eight bytes: the draft's two with four are cut.
both(LONG, bytes.fromhex("4c 00 00 00 00"))
both(LONG, bytes.fromhex("4c 00 00 01 2c"))

# The examples of 01 that are single values.
rewritten(INT, "49 00 00 01 2c", "c9 2c")
spelled(INT, 47, "bf")
spelled(INT, 48, "c8 30")
spelled(INT, -17, "c7 ef")
spelled(INT, 262144, "49 00 04 00 00")
rewritten(LONG, "59 00 00 01 2c", "f9 2c")
rewritten(DATE, "4a 00 00 00 d0 4b 92 0b a0", "4b 00 e3 83 8f")
rewritten(DOUBLE, "44 40 28 80 00 00 00 00 00", "5f 41 44 00 00")
rewritten(DOUBLE, "5d 00", "5b")
spelled(DOUBLE, bits(-0.0), "5f 80 00 00 00")
both(INT, bytes.fromhex("90 90"))
for sort in range(7):
    read_case(sort, b"")
    read_case(sort, b"\x5a")

# ---- both sides of each boundary
for edge in (-(2**63), -(2**32), -(2**31), -(2**18), -(2**11), -16, -8, 0, 16, 48, 2**11, 2**18, 2**31, 2**32, 2**63):
    for value in range(edge - 1, edge + 2):
        every_form(INT, value)
        every_form(LONG, value)
for value in (0x0123456789ABCDEF, 0xFEDCBA9876543210, 2**62, -(2**62), 10**9, -(10**9), 3 * 10**9, -3 * 10**9, 10**18, -(10**18)):
    every_form(INT, value)
    every_form(LONG, value)
for sort in (NULL, FALSE, TRUE):
    for value in (0, 1, 0x4E, 2**31, 2**32, 2**63, -1):
        every_form(sort, value)

for minutes in (0, 1, -1, 60, 14910351, -14910351, 2**31 - 1, 2**31, -(2**31), -(2**31) - 1, 2**32 - 1, 2**32, -(2**32), 2**40):
    for off in (-1, 0, 1, 32, 59999):
        every_form(DATE, minutes * 60000 + off)
# the last whole minutes of 64 bits
for value in ((2**63 - 1) // 60000 * 60000, -(2**63 // 60000 * 60000)):
    for off in (-1, 0, 1):
        every_form(DATE, value + off)
for u in (0, 1, 0xFFFFFFFF, 0x7FFFFFFF, 0x80000000, 0x80000001, 0x00FFFFFF, 0x01000000):
    both(DATE, b"\x4b" + u.to_bytes(4, "big"))
for u in (0, 1, 59999, 60000, 60001, 2**63 - 1, 2**63, 2**64 - 1, 2**64 - 60000):
    both(DATE, b"\x4a" + u.to_bytes(8, "big"))

ZERO = {(sort, follow): zero for sort, forms in COMPACT.items() for _, _, zero, follow in forms}
for sort, first, last, follow, _ in NUMBER_FORMS:
    if sort in (INT, LONG):
        zero = ZERO.get((sort, follow), first)
        for code in sorted({first, max(first, zero - 1), zero, last}):
            top = 256**follow - 1
            for n in (0, top // 2, (top + 1) // 2, top):
                both(sort, bytes([code]) + n.to_bytes(follow, "big"))

# ---- doubles
whole = [0, 1, 2, 3, 100, 126, 127, 128, 129, 255, 256, 257, 32766, 32767, 32768, 32769, 65535, 65536]
whole += [2**24 - 1, 2**24, 2**24 + 1, 2**24 + 2, 2**31 - 1, 2**31, 2**32 - 1, 2**32, 2**32 + 1, 2**32 + 127, 2**53 - 1, 2**53, 10**15]
for n in whole:
    for x in (float(n), -float(n)):
        every_form(DOUBLE, bits(x))
for n in (1, 127, 128, 32767, 32768):
    for x in (float(n), -float(n)):
        for off in (-1, 1, 2**28, 2**29, 2**36, 2**37):
            every_form(DOUBLE, bits(x) + off)
for x in (
    0.5, 0.25, 0.75, 1.5, 126.5, 127.5, 128.5, 32767.5, 32768.5, 0.1, 0.3, 12.25, math.pi, 1e-5, 1e10, 1e38, 1e39, 1e300, 1e-300,
    1e-38, 1e-40, 1e-45, 1e-46,
):
    every_form(DOUBLE, bits(x))

# floats of 32 bits: each as a double, and the doubles next to it
floats = [
    0x00000000, 0x00000001, 0x00000002, 0x00000003, 0x00000004, 0x000000FF, 0x00000100, 0x00012345, 0x003FFFFF, 0x00400000,
    0x00400001, 0x007FFFFE, 0x007FFFFF, 0x00800000, 0x00800001, 0x00FFFFFF, 0x01000000, 0x3DCCCCCD, 0x3E800000, 0x3F000000,
    0x3F7FFFFF, 0x3F800000, 0x3F800001, 0x41440000, 0x42FE0000, 0x43000000, 0x46FFFE00, 0x47000000, 0x4B7FFFFF, 0x4B800000,
    0x7F000000, 0x7F7FFFFE, 0x7F7FFFFF, 0x7F800000, 0x7F800001, 0x7F800002, 0x7FBFFFFF, 0x7FC00000, 0x7FC00001, 0x7FE00000,
    0x7FFFFFFF,
]
for u in floats:
    for sign in (0, 0x80000000):
        rest = (u + sign).to_bytes(4, "big")
        both(DOUBLE, b"\x5f" + rest)
    value = widened(u.to_bytes(4, "big"))
    every_form(DOUBLE, value + 1)
    every_form(DOUBLE, value + 2**28)
    if value:
        every_form(DOUBLE, value - 1)
# powers of two: the least doubles and floats, where the normal ones begin, and past the last float
for power in (
    -1074, -1073, -1023, -1022, -151, -150, -149, -148, -147, -127, -126, -125, -1, 33, 63, 126, 127, 128, 129, 1023,
):
    write_case(DOUBLE, bits(2.0**power if power % 2 else -(2.0**power)))
# what would round to the next float, or past the last
last = widened(bytes.fromhex("7f7fffff"))
for value in (last, last + 1, last + 2**28 - 1, last + 2**28, last + 2**29 - 1, last + 2**29):
    every_form(DOUBLE, value)
    every_form(DOUBLE, value + 2**63)
# below the normal range of doubles, and the last of all
for value in (1, 2, 3, 2**29, 2**51, 2**52 - 1, 2**52, 2**52 + 1, 0x7FEFFFFFFFFFFFFF):
    every_form(DOUBLE, value)
    every_form(DOUBLE, value + 2**63)
# NaNs: those whose last 29 bits are 0 narrow, unless nothing is left of the fraction
for fraction in (
    1, 2, 2**28, 2**29 - 1, 2**29, 2**29 + 1, 3 * 2**28, 2**30, 2**50, 2**51 - 2**29, 2**51 - 1, 2**51, 2**51 + 1, 2**51 + 2**28,
    2**51 + 2**29, 2**52 - 2**29, 2**52 - 2**28, 2**52 - 1, 0x123456789ABCD, 0x5555540000000, 0xAAAAAA0000000, 0xAAAAAB0000000,
):
    for sign in (0, 2**63):
        write_case(DOUBLE, sign + (0x7FF << 52) + fraction)
for text in (
    "5d 01", "5d ff", "5d 81", "5d 7e", "5e 00 01", "5e ff ff", "5e 00 80", "5e ff 7f", "5e ff 80", "5e 01 00", "5e 80 01", "5e 7f fe",
):
    both(DOUBLE, bytes.fromhex(text))
for value in (0, 1, 2**63, bits(1.0), bits(-1.0), bits(0.1), 0x7FF0000000000001, 0x7FF0000020000000, 0xFFF8000000000000, 2**64 - 1):
    both(DOUBLE, b"\x44" + value.to_bytes(8, "big"))

# ---- each first byte as each of four sorts, whole; each form cut at each length
for code in range(256):
    for sort in (INT, LONG, DOUBLE, DATE):
        read_case(sort, bytes([code, 0x9C, 0x45, 0x80, 0x01, 0xFE, 0x00, 0x33, 0xA7, 0x10]))
    kind, follow = FIRST_BYTES[code]
    if kind in (INT, LONG, DOUBLE, DATE):
        for size in range(1, follow + 1):
            read_case(kind, bytes([code, 0x81, 0x02, 0x83, 0x04, 0x85, 0x06, 0x87, 0x08])[:size])
    add(CHART, 0, 0, bytes([code]))
for sort in (NULL, FALSE, TRUE):
    for code in (0x4E, 0x46, 0x54, 0x4D, 0x4F, 0x45, 0x47, 0x53, 0x55, 0x00, 0x90, 0xFF):
        read_case(sort, bytes([code]))

# ---- at a place
message = bytes.fromhex("4e c9 2c 59 00 00 01 2c e0")
for sort in range(7):
    for at in list(range(11)) + [255]:
        read_at(sort, message, at)
for sort, text in (
    (INT, "80 49 ff ff ff ff bf"), (LONG, "00 4c 80 00 00 00 00 00 00"), (DOUBLE, "5b 5f 00 00 00 01 5c 5d 80"),
    (DATE, "00 4b ff ff ff ff 4b 00 00"), (TRUE, "46 54"),
):
    for at in range(10):
        read_at(sort, bytes.fromhex(text), at)
read_at(INT, b"", 0)
read_at(INT, b"", 1)


def shown(case):
    """The line that is to be printed for a case."""
    operation, sort, n, data = case[0] >> 4, case[0] & 15, case[1], case[2:]
    if sort > DATE or operation > READ_AT or operation in (READ, READ_AT) and n > 10:
        return "bad"
    if operation == CHART:
        kind, follow = FIRST_BYTES[data[0]]
        return str(10 * kind + follow)
    if operation == WRITE:
        form = shortest(sort, int.from_bytes(data[:8], "big"))
        if form is None:
            return "none 0 short ok rest ok"
        return f"{form.hex()} {len(form)} short ok rest ok back ok"
    what, first, second = read(sort, data[:n], data[9] if operation == READ_AT else 0)
    if what == "refused":
        return f"refused {first} {second}"
    return f"{first:016x} {second} {len(shortest(sort, first))}"


lines = [(case.hex(), shown(case)) for case in CASES]
# what is no case
good = bytes([READ * 16 + INT, 1, 0x90]).hex() + "00" * 9
bad = [good.replace("9", c) for c in "/:@AG`g"] + [good[:-1] + " "]
bad += ["07" + good[2:], "0f" + good[2:], "43" + good[2:], "f3" + good[2:], "030b" + good[4:], "33ff" + good[4:]]
lines[5:5] = [(line, "bad") for line in bad]

write_files(arguments(__file__).to, lines)
