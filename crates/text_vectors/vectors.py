#!/usr/bin/env python3
"""Writes the cases of text_vectors, stdin, and what it is to print, stdout: `python3 vectors.py` rewrites both, and
with `--to FOLDER` writes them there. `python3 vectors.py N K` writes each N-th of the short cases, from the K-th on:
the interpreter of `rt try` stops after so many steps, which are too few for all, and enough for each part of six.

What a string stands for, and its shortest form, say ../vectors/hessian_format.py. Here that is held to Unicode's table
of byte sequences, with a row for pairs of halves, and to the least length that any cut into chunks has, which is the
length that reading says. The shapes of stdin's and stdout's lines are described in src/main.rt.
"""
import collections
import os
import sys

sys.dont_write_bytecode = True
sys.path.insert(0, os.path.join(os.path.dirname(os.path.abspath(__file__)), "../vectors"))
from hessian_cases import Chance, arguments, write_files  # noqa: E402
from hessian_format import (  # noqa: E402
    BYTES, HEADS, LONGEST_CHUNK, ONE, PART, TEXT, THREE, TWO, Message, Refused, halves, head, joined, last_form, pieces,
    sixteen, string, string_form, units_of,
)

LARGEST = 270000
INPUT = 65536
LETTERS = {TEXT: "u", BYTES: "b"}

# ---- UTF-8
# Unicode, table 3-7: the ranges of the bytes of a character
TABLE = [
    [(0x00, 0x7F)],
    [(0xC2, 0xDF), (0x80, 0xBF)],
    [(0xE0, 0xE0), (0xA0, 0xBF), (0x80, 0xBF)],
    [(0xE1, 0xEC), (0x80, 0xBF), (0x80, 0xBF)],
    [(0xED, 0xED), (0x80, 0x9F), (0x80, 0xBF)],
    [(0xEE, 0xEF), (0x80, 0xBF), (0x80, 0xBF)],
    [(0xF0, 0xF0), (0x90, 0xBF), (0x80, 0xBF), (0x80, 0xBF)],
    [(0xF1, 0xF3), (0x80, 0xBF), (0x80, 0xBF), (0x80, 0xBF)],
    [(0xF4, 0xF4), (0x80, 0x8F), (0x80, 0xBF), (0x80, 0xBF)],
    # 2026-04: a pair of halves in six bytes
    [(0xED, 0xED), (0xA0, 0xAF), (0x80, 0xBF), (0xED, 0xED), (0xB0, 0xBF), (0x80, 0xBF)],
]


def in_six(content):
    """The text with each character of two units as a pair of halves."""
    return halves(content.decode())


def begins(row, piece):
    return all(lo <= b <= hi for b, (lo, hi) in zip(piece, row))


def by_table(message, at, units):
    """The bytes that characters of so many units take; or a refusal's number and place."""
    here = at
    while units:
        if here == len(message):
            return 2, here
        rows = [row for row in TABLE if begins(row, message[here : here + len(row)])]
        if not rows:
            return 4, here
        size = len(rows[0])
        # two units for one that is left: known by the first byte of four, by the second of six
        if units == 1 and (size == 4 or size == 6 and len(message) - here > 1):
            return 4, here
        if len(message) - here < size:
            return 2, len(message)
        here += size
        units -= 2 if size >= 4 else 1
    return here - at


# ---- reading
def sized(kind, message, at):
    """The bytes that a string takes, by the table; or a refusal's number and place."""
    here = at
    while True:
        if here >= len(message):
            return 2, len(message)
        forms = [f for f in range(4) if HEADS[kind][f][0] <= message[here] <= HEADS[kind][f][1]]
        if not forms:
            return 3, here
        first, _, more = HEADS[kind][forms[0]]
        if len(message) - here <= more:
            return 2, len(message)
        n = int.from_bytes(message[here : here + 1 + more], "big") - first * 256**more
        here += 1 + more
        size = n if kind == BYTES else by_table(message, here, n)
        if isinstance(size, tuple):
            return size
        if here + size > len(message):
            return 2, len(message)
        here += size
        if forms[0] != PART:
            return here - at


def read(kind, message, at):
    """('content', the content, the bytes taken), or ('refused', number, place)."""
    m = Message(message, at)
    try:
        answer = "content", string(m, kind), m.at - at
    except Refused as r:
        answer = "refused", r.number, r.place
    if len(message) < 10000:
        assert sized(kind, message, at) == (answer[2] if answer[0] == "content" else answer[1:]), message.hex()
    return answer


# ---- the shortest form
def cuts(kind, content):
    """For each number of units from 0 on, whether a chunk may end behind so many."""
    if kind == BYTES:
        return [True] * (len(content) + 1)
    high = sixteen(content)[1::2]
    return [True] + [not 0xD8 <= b <= 0xDB for b in high]


HEAD_SIZES = {kind: [len(head(kind, last_form(kind, n), n)) for n in range(LONGEST_CHUNK + 1)] for kind in HEADS}


def heads_take(kind, may):
    """The fewest bytes that the heads of any cut into chunks take."""
    n = len(may) - 1
    # least[i]: of chunks that are not the last, behind i units. The queue has the candidates for the chunk's start
    least, queue = [0] * (n + 1), collections.deque([0])
    for i in range(1, n + 1):
        while queue[0] < i - LONGEST_CHUNK:
            queue.popleft()
        least[i] = least[queue[0]] + 3 if may[i] else 10**9
        while queue and least[queue[-1]] >= least[i]:
            queue.pop()
        queue.append(i)
    return min(least[i] + HEAD_SIZES[kind][n - i] for i in range(max(0, n - LONGEST_CHUNK), n + 1))


def least(kind, content):
    """The fewest bytes that any chunks of the content take."""
    return len(content) + heads_take(kind, cuts(kind, content))


def shortest(kind, content):
    form = string_form(kind, content)
    assert len(form) == least(kind, content)
    assert read(kind, form, 0) == ("content", content, len(form))
    return form


# ---- lines
def segments(data):
    """The bytes in segments, a space before each."""
    shown, at, plain = [], 0, False
    while at < len(data):
        width = next((w for w in (1, 2, 3, 4) if data[at : at + w] * 4 == data[at : at + 4 * w]), 0)
        if width:
            unit, end = data[at : at + width], at
            while data.startswith(unit, end):
                end += width
            shown.append(f" {unit.hex()}*{(end - at) // width}")
            at, plain = end, False
        else:
            shown.append(f"{'' if plain else ' '}{data[at]:02x}")
            at, plain = at + 1, True
    return "".join(shown)


def shown(kind, message, at):
    """The line that is to be printed."""
    answer = read(kind, message, at)
    if answer[0] == "refused":
        return f"refused {answer[1]} {answer[2]} none ok"
    _, content, size = answer
    form = shortest(kind, content)
    sizes = f"{units_of(kind, content)} {len(content)} {size} {least(kind, content)} {len(form)}"
    return f"{sizes}{segments(form)} rest ok back ok short ok"


CASES = {}


def add(line, kind, message, at):
    assert len(message) <= LARGEST
    CASES.setdefault(line, (kind, message, at))


def case(kind, message, at=0):
    add(f"{LETTERS[kind]} {at}{segments(message)}", kind, message, at)


def spelled(kind, *parts, at=0):
    """A case whose segments are these: bytes, and how often they stand there."""
    words = [data.hex() + (f"*{times}" if times != 1 else "") for data, times in parts]
    add(" ".join([LETTERS[kind], str(at)] + words), kind, b"".join(data * times for data, times in parts), at)


def whole(kind, message, content, form):
    """A printed string, its content, and its shortest form."""
    message, form = bytes.fromhex(message), bytes.fromhex(form)
    assert read(kind, message, 0) == ("content", content, len(message)), message
    assert shortest(kind, content) == form, message
    case(kind, message)


def refused(kind, message, number, place):
    message = bytes.fromhex(message)
    assert read(kind, message, 0) == ("refused", number, place), message
    case(kind, message)


def strings(kind, content):
    """The content as one chunk, in each form that holds it, and behind an empty chunk."""
    n = units_of(kind, content)
    for form in range(last_form(kind, n), THREE + 1):
        case(kind, joined(kind, [content], form))
    case(kind, joined(kind, [content, b""]))
    case(kind, joined(kind, [b"", content]))


def cut_into(kind, content, *counts):
    """The content in chunks of so many units, and the rest last."""
    rest, parts = content if kind == BYTES else sixteen(content), []
    for n in counts:
        step = n if kind == BYTES else 2 * n
        parts.append(rest[:step])
        rest = rest[step:]
    parts.append(rest)
    return joined(kind, parts if kind == BYTES else [part.decode("utf-16-le").encode() for part in parts])


SMILE = "\U0001f600".encode()
EURO = "\u20ac".encode()
ACUTE = "\u00e9".encode()

# ---- the draft's examples, as 01 corrects them
whole(TEXT, "00", b"", "00")
whole(TEXT, "05 68656c6c6f", b"hello", "05 68656c6c6f")
whole(TEXT, "01 c3 83", "\u00c3".encode(), "01 c3 83")
whole(TEXT, "53 00 05 68656c6c6f", b"hello", "05 68656c6c6f")
whole(TEXT, "52 00 07 68656c6c6f2c20 05 776f726c64", b"hello, world", "0c 68656c6c6f2c20776f726c64")
for name in (b"com.caucho.test.Car", b"color", b"aquamarine", b"model", b"Beetle", b"mileage", b"example.Color", b"[int"):
    whole(TEXT, f"{len(name):02x}" + name.hex(), name, f"{len(name):02x}" + name.hex())
whole(BYTES, "20", b"", "20")
whole(BYTES, "23 01 02 03", b"\x01\x02\x03", "23 01 02 03")
whole(BYTES, "42 10 00" + "73" * 4096, b"s" * 4096, "42 10 00" + "73" * 4096)
whole(BYTES, "41 04 00" + "73" * 1024 + "20", b"s" * 1024, "42 04 00" + "73" * 1024)
refused(BYTES, "41 04 00" + "73" * 1024, 2, 1027)
whole(BYTES, "2a" + "73" * 10, b"s" * 10, "2a" + "73" * 10)
whole(BYTES, "34 19" + "73" * 25, b"s" * 25, "34 19" + "73" * 25)
whole(BYTES, "42 04 01" + "73" * 1025, b"s" * 1025, "42 04 01" + "73" * 1025)
whole(BYTES, "41 0f fd" + "73" * 4093 + "42 08 03" + "73" * 2051, b"s" * 6144, "42 18 00" + "73" * 6144)
# the slips of its grammar: 62 is no chunk of bytes, and 34 none of text
refused(BYTES, "62 04 00" + "73" * 1024, 3, 0)
refused(TEXT, "34 05 68656c6c6f", 3, 0)
whole(TEXT, "33 00" + "61" * 768, b"a" * 768, "33 00" + "61" * 768)
whole(BYTES, "37 00" + "61" * 768, b"a" * 768, "37 00" + "61" * 768)

# ---- the examples of 01, and the points decided
refused(TEXT, "", 2, 0)
refused(BYTES, "", 2, 0)
refused(TEXT, "5a", 3, 0)
refused(BYTES, "5a", 3, 0)
refused(TEXT, "01 c3", 2, 2)
refused(TEXT, "01 80", 4, 1)
refused(TEXT, "01 f0 9f 98 80", 4, 1)
whole(TEXT, "02 f0 9f 98 80", SMILE, "02 f0 9f 98 80")
refused(TEXT, "53 ff ff 80", 4, 3)
refused(TEXT, "01 f0", 4, 1)
refused(TEXT, "02 f0", 2, 2)
refused(TEXT, "01 e0", 2, 2)
refused(TEXT, "01 e0 80", 4, 1)
refused(TEXT, "01 c1", 4, 1)
refused(TEXT, "02 f4 90", 4, 1)

# ---- characters: the first and the last of each length and of each row of the table, next to the surrogates, noncharacters
EDGES = [0x00, 0x01, 0x1F, 0x20, 0x7F, 0x80, 0xBF, 0xC0, 0x7FF, 0x800, 0xFFF, 0x1000, 0xCFFF, 0xD000, 0xD7FF, 0xE000, 0xEFFF, 0xF000]
EDGES += [0xFDCF, 0xFDD0, 0xFDEF, 0xFDF0, 0xFEFF, 0xFFFD, 0xFFFE, 0xFFFF, 0x10000, 0x1FFFE, 0x1FFFF, 0x3FFFF, 0x40000, 0x7FFFF]
EDGES += [0xBFFFF, 0xC0000, 0xFFFFF, 0x100000, 0x10FFFE, 0x10FFFF]
for code in EDGES:
    c = chr(code).encode()
    case(TEXT, joined(TEXT, [c]))
    case(TEXT, joined(TEXT, [b"a" + c, c + b"z"]))
strings(TEXT, "".join(map(chr, EDGES)).encode())
strings(TEXT, "".join(map(chr, reversed(EDGES))).encode() * 3)

# ---- characters that are none: surrogates, too long, too large
for broken in ("ed a0 80", "ed af bf", "ed b0 80", "ed bf bf", "ed a0 bd ed b8 80", "c0 80", "c1 bf", "e0 80 80", "e0 9f bf"):
    refused(TEXT, "01" + broken, 4, 1)
    refused(TEXT, "03" + "41 42" + broken, 4, 3)
for broken in ("f0 80 80 80", "f0 8f bf bf", "f4 90 80 80", "f5 80 80 80", "f7 bf bf bf", "f8 88 80 80 80", "fc 84 80 80 80 80"):
    refused(TEXT, "02" + broken, 4, 1)
    refused(TEXT, "02" + "41" + broken, 4, 2)

# ---- 2026-04: pairs of halves. The first is what a Java library writes for U+1F600, written down by hand
whole(TEXT, "02 eda0bdedb880", SMILE, "02 f09f9880")
whole(TEXT, "52 0003 41eda0bdedb880 03 f09f98807a", b"A" + SMILE * 2 + b"z", "06 41f09f9880f09f98807a")
whole(BYTES, "26 eda0bdedb880", bytes.fromhex("eda0bdedb880"), "26 eda0bdedb880")
# one unit is left
for text, number, place in (("ed", 2, 2), ("eda0", 4, 1), ("eda080", 4, 1), ("eda080edb080", 4, 1), ("edb0", 4, 1)):
    refused(TEXT, "01" + text, number, place)
# the message ends before the low half does
for text, place in (("ed", 2), ("eda0", 3), ("eda080", 4), ("eda080ed", 5), ("eda080edb0", 6)):
    refused(TEXT, "02" + text, 2, place)
# another byte follows than those of a low half
for text in ("a041", "a08041", "a08080", "a080ff", "a080ed9f", "a080eda0", "a080edc0", "a080edb041", "a080f09f9880"):
    refused(TEXT, "02 ed" + text, 4, 1)
    refused(TEXT, "04 41 ed" + text + "42", 4, 2)
# a low half first, or behind a pair
for text, place in (("edb080eda080", 1), ("edb0", 1), ("eda080edb080edb080", 7), ("eda080edb080eda08041", 7)):
    refused(TEXT, "04" + text, 4, place)
# not in the same chunk
for chunks, place in (("0001 eda080 01 edb080", 3), ("0002 41eda080 01 edb080", 4), ("0002 eda080 01 edb080", 3)):
    refused(TEXT, "52" + chunks, 4, place)
for chunks, place in (("0002 eda080edb080 01 edb080", 10), ("0000 01 eda080edb080", 4), ("0003 eda080edb080eda0", 9)):
    refused(TEXT, "52" + chunks, 4, place)
for code in [code for code in EDGES if code > 0xFFFF] + [0x103FF, 0x10400, 0x1F600, 0xFFC00, 0x10FC00]:
    c = chr(code).encode()
    case(TEXT, joined(TEXT, [c], spell=in_six))
    case(TEXT, joined(TEXT, [b"a" + c, c + b"z"], spell=in_six))
# each byte on both sides of each bound, and each cut
for at, near in ((1, "9fa0afb0bfc0"), (2, "7f80bfc0"), (3, "ecedeef0"), (4, "afb0bfc0"), (5, "7f80bfc0")):
    c = bytes.fromhex("edaf80edbfbf")
    for b in bytes.fromhex(near):
        case(TEXT, b"\x02" + c[:at] + bytes([b]) + c[at + 1 :])
    for units in (1, 2, 3):
        case(TEXT, bytes([units]) + c[:at])

# each kind of first byte with second, third and fourth bytes on both sides of each bound
LEADS = [0xC2, 0xDF, 0xE0, 0xE1, 0xEC, 0xED, 0xEE, 0xEF, 0xF0, 0xF1, 0xF3, 0xF4]
SECONDS = [0x00, 0x41, 0x7F, 0x80, 0x8F, 0x90, 0x9F, 0xA0, 0xBF, 0xC0, 0xE0, 0xFF]
for lead in LEADS:
    more = 1 if lead < 0xE0 else 2 if lead < 0xF0 else 3
    for second in SECONDS:
        case(TEXT, bytes([1 + more // 3, lead, second]) + b"\x80" * (more - 1))
STARTS = ["e0 a0", "e1 80", "ed 9f", "ef bf", "f0 90", "f1 80", "f4 8f", "f0 bf 80", "f3 80 bf", "f4 80 80"]
for start in map(bytes.fromhex, STARTS):
    more = (2 if start[0] < 0xF0 else 3) - len(start)
    for b in (0x00, 0x7F, 0x80, 0xBF, 0xC0, 0xFF):
        case(TEXT, bytes([1 + start[0] // 0xF0]) + start + bytes([b]) + b"\xbf" * more)

# cut behind each byte, with one unit left and with two
for text in ("c2 80", "e0 a0 80", "e1 80 80", "ed 9f bf", "ee 80 80", "f0 90 80 80", "f1 80 80 80", "f4 8f bf bf"):
    c = bytes.fromhex(text)
    for size in range(1, len(c)):
        for units in (1, 2):
            case(TEXT, bytes([units]) + c[:size])
    case(TEXT, b"\x03" + c)
    case(TEXT, b"\x52\x00\x02" + c)
for start in ("e0 9f", "ed a0", "ed bf", "f0 8f", "f0 80 80", "f4 90", "f4 bf bf", "e1 80 00", "e1 c0", "f1 80 c0", "f1 80 80 00", "f1 7f"):
    case(TEXT, b"\x02" + bytes.fromhex(start))
    case(TEXT, b"\x01" + bytes.fromhex(start))

# bytes that begin no character
for lead in [0x80, 0x8F, 0x90, 0x9F, 0xA0, 0xBF, 0xC0, 0xC1] + list(range(0xF5, 0x100)):
    for units in (1, 2):
        case(TEXT, bytes([units, lead]))
        case(TEXT, bytes([units, lead]) + b"\x80\x80\x80")

# units: a pair counts two and stands whole in its chunk
for units, text in ((3, SMILE), (3, SMILE + b"a"), (3, b"a" + SMILE), (2, b"a" + SMILE), (4, SMILE * 2), (3, SMILE * 2), (5, SMILE * 2)):
    case(TEXT, bytes([units]) + text)
    case(TEXT, b"\x52\x00" + bytes([units]) + text + b"\x01z")
for text in (
    "52 0001 f09f9880 0161", "52 0001 61 52 0001 f09f9880 00", "52 0002 f09f9880 01 f09f9880", "52 0001 f09f 01 9880",
    "52 0002 f09f 00 9880", "52 0001 c3 01 83", "52 0001 e282 01 ac", "52 0001 c3", "52 0001 c383 01", "52 0001 c383 01 83", "52 0001 eda0bd 01 edb880",
    "52 0003 61f09f9880 02 f09f9880", "52 0002 61f09f9880 02 f09f9880", "52 0003 e282ac62c3a9 03 e282acf09f9880",
    "52 0003 f09f9880 01 61", "52 0002 f09f9880 52 0000 52 0001 61 00", "03 61e282ac80", "03 61e282 61", "04 61e282ac62 80",
):
    case(TEXT, bytes.fromhex(text))

# ---- heads: each code, and each code behind a chunk
for code in range(256):
    for kind in (TEXT, BYTES):
        case(kind, bytes([code, 0, 0]) + b"a" * 40)
        case(kind, head(kind, PART, 0) + bytes([code]) + b"a" * 31)
# cut
for kind in (TEXT, BYTES):
    for form in range(4):
        for start in (b"", joined(kind, [b"a", b""])[:-1], joined(kind, [b"a", b"", b"b", b""])[:-1]):
            for n in (0, 1):
                h = head(kind, form, n)
                for size in range(len(h) + 1):
                    case(kind, start + h[:size])
                case(kind, start + h + b"c")
                case(kind, start + h + b"c" + head(kind, ONE, 1))
                case(kind, start + h + b"c" + head(kind, ONE, 1) + b"d")
    for n in (0xFF, 0x100, 0x1FF, 0x3FF):
        case(kind, head(kind, TWO, n) + b"a" * (n - 1))
        case(kind, head(kind, TWO, n) + b"a" * (n + 1))
    for n in (0x100, 0x101, 0x201, 0xFFFF):
        case(kind, head(kind, THREE, n) + b"a" * 0x100)
        case(kind, head(kind, PART, n) + b"a" * 0x100)

# empty chunks: first, in the middle, last, and nothing else
for kind, c in ((TEXT, ACUTE), (BYTES, b"\x00")):
    for parts in ([b"", c], [c, b""], [c, b"", c], [b"", b""], [b"", b"", b""], [b"", c, b"", b"", c, b""], [c] * 5, [b""] * 20 + [c]):
        for form in (ONE, TWO, THREE):
            case(kind, joined(kind, parts, form))
# a chunk of the other kind
for text in ("52 0001 61 2161", "52 0000 20", "52 0001 61 41 0001 6120", "41 0001 61 0161", "41 0000 00", "41 0001 61 52 0001 6100"):
    case(TEXT, bytes.fromhex(text))
    case(BYTES, bytes.fromhex(text))

# ---- lengths on both sides of each bound
for n in (0, 1, 2, 14, 15, 16, 17, 30, 31, 32, 33, 255, 256, 257):
    for kind in (TEXT, BYTES):
        strings(kind, b"s" * n)
    strings(TEXT, ACUTE * n)
    strings(TEXT, EURO * n)
    strings(TEXT, SMILE * (n // 2) + b"x" * (n % 2))
for n in (1022, 1023, 1024, 1025):
    for kind in (TEXT, BYTES):
        strings(kind, b"s" * n)
    strings(TEXT, EURO * n)
    strings(TEXT, b"x" * (n % 2) + SMILE * (n // 2))

# ---- places
texts = bytes.fromhex("4e 52 0002 61c3a9 52 0000 30 03 f09f988061 90 23 410061")
in_halves = bytes.fromhex("03 eda0bdedb88061 52 0002 edafbfedbfbf 00")
octets = bytes.fromhex("90 41 0003 010203 41 0001 52 34 02 2161 05 42 0001 23 00")
for message in (texts, octets):
    for kind in (TEXT, BYTES):
        for at in range(len(message) + 3):
            case(kind, message, at)
        for at in (255, 256, 65536, 2**31, 2**32 - 1, 2**63, 2**64 - 1):
            case(kind, message, at)
for at in range(len(in_halves)):
    case(TEXT, in_halves, at)
for size in range(len(texts)):
    case(TEXT, texts[:size], 1)
for size in range(len(octets)):
    case(BYTES, octets[:size], 1)
case(TEXT, b"", 1)
case(BYTES, b"", 2**64 - 1)

# ---- strings and faults in them by chance
chance = Chance(1).below


def some_part(kind):
    if kind == BYTES:
        return bytes(chance(256) for _ in range(chance(6)))
    return "".join(chr(EDGES[chance(len(EDGES))]) for _ in range(chance(4))).encode()


for turn in range(160):
    kind = (TEXT, TEXT, TEXT, BYTES)[turn // 2 % 4]
    parts = [some_part(kind) for _ in range(1 + chance(4))]
    spell = in_six if kind == TEXT and turn % 5 < 2 else bytes
    message = joined(kind, parts, last_form(kind, units_of(kind, parts[-1])) if turn % 3 else THREE, spell)
    spot = chance(len(message))
    if turn % 2:
        message = message[:spot] + bytes([chance(256)]) + message[spot + chance(2) :]
    case(kind, message)


# ---- long ones
def marked(n):
    """n bytes that differ next to each place where a chunk may have to end."""
    near = [k * LONGEST_CHUNK + off for k in range(1, 5) for off in range(-3, 4)]
    content = bytearray(b"s" * n)
    for i in near:
        if i < n:
            content[i] = 0x61 + i % 23
    return bytes(content)


for kind, few in ((TEXT, 31), (BYTES, 15)):
    case(kind, joined(kind, [marked(LONGEST_CHUNK)]))
    case(kind, cut_into(kind, marked(LONGEST_CHUNK + 1), 1))
    for n in (LONGEST_CHUNK + 1, LONGEST_CHUNK + few + 1, 2 * LONGEST_CHUNK):
        case(kind, cut_into(kind, marked(n), LONGEST_CHUNK))
    case(kind, cut_into(kind, marked(2 * LONGEST_CHUNK + 1), LONGEST_CHUNK, LONGEST_CHUNK))
    # an empty last chunk goes
    case(kind, joined(kind, [marked(LONGEST_CHUNK), b""], THREE))
    # many short chunks, and many empty ones
    spelled(kind, (joined(kind, [b"xyz", b""])[:-1], 22000), (head(kind, THREE, 0), 1))
    spelled(kind, (head(kind, PART, 0), 5000), (head(kind, TWO, 2) + b"ok", 1))
    # cut behind a long chunk
    case(kind, joined(kind, [b"s" * LONGEST_CHUNK, b""])[:-1])
    case(kind, joined(kind, [b"s" * LONGEST_CHUNK, b"t" * LONGEST_CHUNK])[: LONGEST_CHUNK + 10])
case(BYTES, cut_into(BYTES, marked(3 * LONGEST_CHUNK), 50000, 0, 60000, 7, 60000))

# pairs next to the first place where a chunk may have to end
example = b"a" * 65534 + SMILE
assert pieces(TEXT, example) == [b"a" * 65534, SMILE]
case(TEXT, joined(TEXT, [b"a" * 65534, SMILE]))
case(TEXT, cut_into(TEXT, example, 32768))
for p in (LONGEST_CHUNK - 2, LONGEST_CHUNK - 1, LONGEST_CHUNK):
    case(TEXT, cut_into(TEXT, b"a" * p + SMILE + b"bc", 32768))
case(TEXT, cut_into(TEXT, b"a" * (LONGEST_CHUNK - 1) + SMILE + b"b" * (LONGEST_CHUNK - 1), 32768, 40000))
# and next to the second, where the first chunk has 65,535 units and where it has one less
for p in (2 * LONGEST_CHUNK - 2, 2 * LONGEST_CHUNK - 1):
    case(TEXT, cut_into(TEXT, b"a" * p + SMILE + b"bc", 50000, 50000))
for p in (2 * LONGEST_CHUNK - 3, 2 * LONGEST_CHUNK - 2):
    first = b"a" * (LONGEST_CHUNK - 1) + SMILE
    case(TEXT, cut_into(TEXT, first + b"b" * (p - LONGEST_CHUNK - 1) + SMILE + b"c", 50000, 50000))
# the same in six bytes, and with one unit left for the high half
case(TEXT, joined(TEXT, [b"a" * 65534, SMILE], spell=in_six))
case(TEXT, joined(TEXT, [b"a" * 32768, b"a" * 32766 + SMILE], spell=in_six))
case(TEXT, joined(TEXT, [b"a" * 65533 + SMILE, b"b" + SMILE], spell=in_six))
refused(TEXT, "52 ffff" + "61" * 65534 + "eda080 edb080", 4, 65537)
# nothing but pairs in six bytes: a chunk has 65,534 units; a half that is left alone
for n in (1, 2, 7000):
    assert shortest(TEXT, SMILE * (32767 + n)) == head(TEXT, PART, 65534) + SMILE * 32767 + joined(TEXT, [SMILE * n])
    spelled(TEXT, (b"\x52\xff\xfe", 1), (in_six(SMILE), 32767), (head(TEXT, THREE, 2 * n), 1), (in_six(SMILE), n))
parted, last = head(TEXT, PART, 20000), head(TEXT, THREE, 50000)
spelled(TEXT, (parted, 1), (in_six(SMILE), 10000), (last, 1), (in_six(SMILE), 25000))
spelled(TEXT, (head(TEXT, THREE, LONGEST_CHUNK), 1), (in_six(SMILE), 32767), (b"\xed\xa0\xbd", 1), (b"\xed\xb8\x80", 1))
# nothing but pairs; characters of two and three bytes
case(TEXT, cut_into(TEXT, SMILE * 32768, 30000))
case(TEXT, cut_into(TEXT, b"a" + SMILE * 32767, 30001))
case(TEXT, cut_into(TEXT, b"a" * 65000 + ACUTE * 534 + SMILE + ACUTE, 65200))
case(TEXT, cut_into(TEXT, b"a" * 65000 + EURO * 600, 65200))
# a fault behind much that is none
case(TEXT, joined(TEXT, [EURO * 20000, EURO * 20000])[:-1])
case(TEXT, joined(TEXT, [EURO * 20000, EURO * 20000])[:-1] + b"\x00")
case(TEXT, joined(TEXT, [SMILE * 10000, SMILE * 12000])[:-4])
case(TEXT, head(TEXT, PART, LONGEST_CHUNK) + SMILE * 32768 + b"\x00")
case(TEXT, b"a" * 66000, 65000)

# ---- 2026-06: where the parts of the shortest form are cut, whatever the chunks that are read
# byte strings, in odd chunks
for n, *counts in (
    (LONGEST_CHUNK, 1, 0, 65533), (LONGEST_CHUNK + 1, 3, 65532), (LONGEST_CHUNK + 1, 65534, 1), (131070, 1, LONGEST_CHUNK),
    (131070, 65534, 65534, 1), (131071, 7, LONGEST_CHUNK), (131071, LONGEST_CHUNK, 65534, 1), (131071, 32767, 32769, 65534),
):
    case(BYTES, cut_into(BYTES, marked(n), *counts))
# a pair at the cut, in the middle of a chunk, and where a chunk ends one or two units before the cut or at it
for p in (LONGEST_CHUNK - 1, LONGEST_CHUNK, LONGEST_CHUNK + 1):
    for first in (first for first in (5, 65533, 65534, LONGEST_CHUNK) if first != p + 1):
        case(TEXT, cut_into(TEXT, b"a" * p + SMILE + b"bc", first))
# where the first part has one unit less, so has the second cut; and a pair there
for p, *counts in ((131068, 1, LONGEST_CHUNK), (131069, 40000, 65000), (131070, 65534, 65000)):
    start = b"a" * (LONGEST_CHUNK - 1) + SMILE
    case(TEXT, cut_into(TEXT, start + b"b" * (p - LONGEST_CHUNK - 1) + SMILE + EURO, *counts))
# the same pairs in six bytes, and runs of other characters before them
for text in (b"a" * 25534 + SMILE + b"z", b"a" * 25535 + SMILE, EURO + b"a" * 25533 + SMILE * 2):
    case(TEXT, joined(TEXT, [b"a" * 40000, text], spell=in_six))
for odd in (b"", b"a"):
    begun, ended = head(TEXT, PART, 36000), head(TEXT, THREE, 36000 + len(odd)) + odd
    spelled(TEXT, (begun, 1), (in_six(SMILE), 18000), (ended, 1), (in_six(SMILE), 18000))
# a fault before the cut, at it, and behind it
for fault in (b"\x80", SMILE[:3] + b"a", b"\xed\xb0\x80", b"\xed\xa0\xbda", b"\xed"):
    case(TEXT, joined(TEXT, [b"a" * 65530, b""])[:-1] + head(TEXT, THREE, 20) + b"b" * 4 + fault + b"c" * 12)
    case(TEXT, joined(TEXT, [b"a" * 65530, b""])[:-1] + head(TEXT, THREE, 20) + b"b" * 4 + SMILE + fault + b"c" * 12)
case(TEXT, joined(TEXT, [b"a" * 65530, b""])[:-1] + head(TEXT, THREE, 6) + b"b" * 4 + SMILE[:2])
case(TEXT, joined(TEXT, [b"a" * 65530, b""])[:-1] + head(TEXT, THREE, 5) + b"b" * 4 + SMILE)
case(TEXT, joined(TEXT, [b"a" * 65530, b""])[:-1] + head(TEXT, THREE, 5) + b"b" * 4 + in_six(SMILE))

# ---- what is a case in other words, and what is none
spelled(TEXT, (b"\x0c", 1), (b"ab", 6))
spelled(TEXT, (b"\x0c", 1), (b"ab", 0), (b"c", 1), (b"abcdefghijk", 1))
spelled(BYTES, (b"\x25", 1), (b"abcde", 2))
spelled(BYTES, (b"\x25\x01", 3), (b"\x02", 3))
spelled(TEXT, (b"\x20", 0))
spelled(BYTES, (b"\x20", 0), (b"\x00", 0))
spelled(BYTES, (b"\x20", LARGEST))
spelled(BYTES, (b"\x20", 1), (b"abc", 89999), (b"de", 1))

BAD = ["", "u", "u ", "b", "b ", "u0", "u  0", " u 0", "u 0 ", "u 0  00", "u 0 0", "u 0 000", "u 0 00 ", "u 0 00 0", "u 0 0g", "u 0 g0"]
BAD += ["u 0 0A", "u 0 A0", "u 0 /0", "u 0 :0", "u 0 `0", "u 0 @0", "U 0 00", "c 0 00", "t 0 00", "u -1 00", "u x 00", "u a 00", "u 0x 00"]
BAD += ["u 0 00*", "u 0 *3", "u 0 00*a", "u 0 00*3a", "u 0 00*3 *3", "u 0 00*3*3", "u 0 00,00", "u\t0 00", "u 0\t00", "u 0 00\r"]
BAD += [f"b 0 20*{2**64}", f"b {2**64} 20", "b 100000000000000000000 20", "b 0 20*99999999999999999999", "u 0 00 01*2 0"]
BAD += ["uu 0 00", "u,0 00"]
TOO_LONG = [f"b 0 20*{LARGEST + 1}", f"b 0 20*{LARGEST} 20", "b 0 616263*90001", f"u 0 00*{10**18}"]

given = arguments(__file__)
if given.part:
    many, first = given.part
    CASES = {line: what for line, what in CASES.items() if len(what[1]) <= 100}
    TOO_LONG = []
else:
    many, first = 1, 0
lines = [(line, shown(*what)) for line, what in CASES.items()] + [(line, "bad") for line in BAD + TOO_LONG]
lines = lines[first::many]
assert sum(len(line) + 1 for line, _ in lines) < INPUT
write_files(given.to, lines)
