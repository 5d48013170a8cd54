"""What the generators of vectors share: how messages are spelled in them, random messages, messages that more than one
of them uses, and the files that they write."""
import argparse
import functools
import os
import re
import struct

from hessian_format import (
    BYTES, CLASS, CLASS_NAME, COLLECTIONS, DATE, DOUBLE, FIELD_NAME, INT, LONG, MINUTE, MOST_OPEN, OBJECT, PART,
    REFERENCE, TEXT, TYPE_NAME, TYPE_NUMBER, WORD, bits, halves, head, head_forms, int_form, int_forms, long_forms,
    text_form, units_of, wide,
)


# ---- the files
def arguments(script):
    """The words of the command line: the folder that `--to` names, or the script's own, and numbers."""
    parser = argparse.ArgumentParser()
    parser.add_argument("--to", metavar="FOLDER", default=os.path.dirname(os.path.abspath(script)))
    parser.add_argument("part", nargs="*", type=int)
    return parser.parse_args()


def write_files(folder, lines):
    """Writes stdin and stdout: of each case its line, and the line that is to be printed for it."""
    for name, which in (("stdin", 0), ("stdout", 1)):
        with open(os.path.join(folder, name), "w") as f:
            f.write("".join(line[which] + "\n" for line in lines))
    print(len(lines), "cases")


def checksum(numbers, s=7):
    """The checksum s with these numbers added."""
    for n in numbers:
        s = (s * 1000003 + n) % (2**31 - 1)
    return s


# ---- messages as lines spell them
# of each width: as often as may be the same bytes
REPEATED = {width: re.compile(rb"(.{%d})\1*" % width, re.DOTALL) for width in range(1, 17)}


@functools.lru_cache(maxsize=16)
def groups(data):
    """The message in groups. Bytes are repeated where that is shorter."""
    words, plain, at = [], b"", 0
    while at < len(data):
        best = 4, 0, 0
        for width, pattern in REPEATED.items():
            if found := pattern.match(data, at):
                times = (found.end() - at) // width
                best = max(best, (2 * width * (times - 1) - len(f"* {times}"), width, found.end() - at))
        _, width, size = best
        if width:
            words += ([plain.hex()] if plain else []) + [f"{data[at : at + width].hex()}*{size // width}"]
            plain, at = b"", at + size
        else:
            plain, at = plain + data[at : at + 1], at + 1
    return words + ([plain.hex()] if plain else [])


# ---- messages as the scripts spell them
# what stands for a class definition without fields, and with one
CLASSES = {"D": b"\x43\x00\x90", "F": b"\x43\x00\x91\x00"}
NO_FIELDS, ONE_FIELD = CLASSES.values()


def raw(spelled):
    """Bytes, spelled in hexadecimal digits, quoted plain characters, D and F."""
    parts = re.findall(r"'([^']*)'|([0-9a-f]{2})|([DF])|(\S)", spelled)
    assert not any(stray for *_, stray in parts), spelled
    return b"".join(CLASSES.get(name) or bytes.fromhex(digits) or quoted.encode() for quoted, digits, name, _ in parts)


def each(spelled):
    """Messages with a bar between."""
    return [raw(message) for message in spelled.split("|")]


def data_of(message):
    return raw(message) if isinstance(message, str) else message


def text_of(content):
    """A text in its shortest form."""
    return text_form(content.encode())


def class_of(fields):
    """A class definition with so many fields; no name has a character."""
    return b"\x43\x00" + int_form(fields) + b"\x00" * fields


def chunked(size, kind):
    """A text or bytes that take so many bytes, with chunks as long as may be."""
    found = b""
    while size - len(found) > 65538:
        found += head(kind, PART, 65535) + b"a" * 65535
    rest = size - len(found) - 3
    return found + head_forms(kind, rest)[-1] + b"a" * rest


# ---- messages that record_vectors and write_vectors use
SMILE = "\U0001f600"
BEETLE = "4d 13 'com.caucho.test.Car' 05 'color' 0a 'aquamarine' 05 'model' 06 'Beetle' 07 'mileage' 49 00010000 5a"
CARS = "7a 43 0b 'example.Car' 92 05 'color' 05 'model' 4f 90 03 'red' 08 'corvette' 60 05 'green' 05 'civic'"
COLORS = "7c 43 0d 'example.Color' 91 04 'name' 60 03 'RED' 60 05 'GREEN' 60 04 'BLUE' 51 92"
LINKED = "43 0a 'LinkedList' 92 04 'head' 04 'tail' 4f 90 91 51 90"
# each form
TOUR = """57 4e 46 54 91 c930 d50000 49 00040000 e1 f900 3d0000 59 00040000 4c 0001020304050607
    4a 0001020304050607 4b 00010203 5b 5c 5d 7f 5e 0100 5f 41440000 44 4028800000000000 01 'a' 30 02 c3a9 e282ac
    52 0002 f09f9880 53 0001 'b' 02 eda0bdedb880 21 ff 34 01 fe 41 0001 fd 42 0001 fc 58 91 90 79 91
    55 01 't' 92 5a 56 90 91 93 71 90 94 48 95 96 5a 4d 90 97 98 5a 43 01 'C' 91 01 'f' 60 99 4f 90 9a 51 90 5a"""
# a text of the most bytes that a message has, most of them in pairs of halves
PAIRS = raw("52 fffe") + halves(SMILE) * 32767 + raw("53 5558 'abcd'") + halves(SMILE) * 10922

# numbers at the bounds of forms: how long the shortest form of each int, long, double, and double by its bits is
INT_LENGTHS = {0: 1, 47: 1, 48: 2, 2047: 2, 2048: 3, 262143: 3, 262144: 5, 2**31 - 1: 5}
INT_LENGTHS.update({-1: 1, -16: 1, -17: 2, -2048: 2, -2049: 3, -262144: 3, -262145: 5, -(2**31): 5})
LONG_LENGTHS = {0: 1, 15: 1, 16: 2, 2047: 2, 2048: 3, 262143: 3, 262144: 5, 2**31 - 1: 5, 2**31: 9, 2**63 - 1: 9}
LONG_LENGTHS.update({-1: 1, -8: 1, -9: 2, -2048: 2, -2049: 3, -262144: 3, -262145: 5, -(2**31): 5, -(2**31) - 1: 9})
DOUBLE_LENGTHS = {0.0: 1, 1.0: 1, -1.0: 2, 2.0: 2, 127.0: 2, 128.0: 3, -128.0: 2, -129.0: 3, 32767.0: 3, 32768.0: 5}
DOUBLE_LENGTHS.update({-32768.0: 3, -32769.0: 5, 0.5: 5, -0.5: 5, 12.25: 5, 0.1: 9, 2.0**127: 5, 2.0**128: 9})
DOUBLE_LENGTHS.update({2.0**-149: 5, 2.0**-150: 9, 16777215.0: 5, 16777217.0: 9, 1e300: 9, 5e-324: 9, -(2.0**-126): 5})
DOUBLE_LENGTHS.update({3 * 2.0**-149: 5, 3 * 2.0**-150: 9, float("inf"): 5, float("-inf"): 5})
DOUBLE_LENGTHS.update({2.0**-126 - 2.0**-149: 5, 2.0**-126 - 2.0**-150: 9, 127.5: 5, 1.1: 9})
NAN_LENGTHS = {0x7FF0000020000000: 5, 0x7FF0000010000000: 9, 0xFFF8000000000000: 5, 0x7FF8000000000001: 9}

# characters of each size
EDGES = [0x00, 0x7F, 0x80, 0x7FF, 0x800, 0xFFF, 0x1000, 0xCFFF, 0xD000, 0xD7FF, 0xE000, 0xFFFF]
EDGES += [0x10000, 0x3FFFF, 0x40000, 0xFFFFF, 0x100000, 0x10FFFF]
# characters that are none
BROKEN = "80 | bf | c0 80 | c1 bf | c2 00 | c2 c0 | df 7f | e0 9f bf | e1 80 00 | e1 7f 80"
BROKEN += "| ef bf c0 | f0 8f bf bf | f0 90 00 80 | f0 90 80 00 | f1 7f 80 80 | f4 90 80 80 | f4 8f bf c0 | f5 80 80 80"
# halves that are no pair: a high one, a low one, two high ones, the wrong order, a fault inside the second
BROKEN += "| ed a0 80 41 | ed bf bf | ed a0 80 ed a0 80 | ed b0 80 ed a0 80 | ed a0 80 ed b0 41"
# texts with such halves, and how they are refused: with one unit left, and with the end before the low half is complete
LONE = {"01 ed": (2, 2), "01 eda0": (4, 1), "01 eda080": (4, 1), "01 eda080edb080": (4, 1), "01 edb0": (4, 1)}
LONE.update({"02 ed": (2, 2), "02 eda0": (2, 3), "02 eda080": (2, 4), "02 eda080ed": (2, 5), "02 eda080edb0": (2, 6)})
# another byte follows; a low half; not in the same chunk
LONE.update({"02 eda041": (4, 1), "02 eda08041": (4, 1), "02 eda08080": (4, 1), "02 eda080ff": (4, 1)})
LONE.update({"02 eda080ed9f": (4, 1), "02 eda080eda0": (4, 1), "02 eda080edb041": (4, 1), "02 eda080f09f9880": (4, 1)})
LONE.update({"01 edb080": (4, 1), "02 edb080eda080": (4, 1), "02 edb080edb080": (4, 1), "02 eda080eda080": (4, 1)})
LONE.update({"03 eda080edb080edb080": (4, 7), "03 eda080edb080eda0": (4, 7), "02 'a' eda080edb080": (4, 2)})
LONE.update({"52 0001 eda080 01 edb080": (4, 3), "52 0002 'a' eda080 01 edb080": (4, 4), "52 0001 eda0": (4, 3)})

SOME = each("90 | 4e | 01 'a' | e1 | 54 | 21 00 | 5c | 78")


def some(n):
    """So many values."""
    return b"".join(SOME[i % len(SOME)] for i in range(n))


# what stands before a list or map, and its type: with BEFORE the types 0 and 1 are given, and one more element is due
BEFORE = raw("7b 70 00 4d 02 'ab' 5a")
TYPES = [(b"", form) for form in each("04 '[int' | 52 0001 '[' 30 03 'int'")]
TYPES += [(BEFORE, form) for form in each("00 | 91 | d40000")]
# each kind of code
CODES = [0x00, 0x1F, 0x20, 0x2F, 0x33, 0x37, 0x38, *range(0x40, 0x61), 0x6F, 0x70, 0x77, 0x78, 0x7F]
CODES += [0x80, 0x8F, 0x90, 0xBF, 0xC7, 0xC8, 0xD0, 0xD7, 0xD8, 0xEF, 0xF0, 0xFF]


# ---- random messages
class Chance:
    """Random numbers, the same in each run."""

    def __init__(self, seed):
        self.seed = seed

    def below(self, n):
        self.seed = (self.seed * 6364136223846793005 + 1442695040888963407) % WORD
        return (self.seed >> 33) % n

    def choice(self, things):
        return things[self.below(len(things))]

    def byte(self):
        return bytes([self.choice((self.below(256), self.choice(CODES)))])

    def number(self, size):
        """A number that fits so many bits with its sign; a small one more often."""
        n = self.below(2**31) << 33 | self.below(2**31) << 2 | self.below(4)
        return (n >> self.below(64) & 2 ** (size - 1) - 1) * self.choice((1, -1))


class Maker:
    """A random message in random spellings, the rows that it is to be read as, and their fifth numbers."""

    def __init__(self, chance, values):
        self.chance, self.choice = chance, chance.choice
        self.data, self.rows, self.ends, self.values = b"", [], [], values
        self.references, self.types, self.fields = 0, 0, []

    def row(self, *numbers):
        """A row; what it opens ends with it, unless `end` says that it ends later."""
        self.rows.append([*numbers])
        self.ends.append(len(self.rows))
        return self.rows[-1]

    def end(self, start):
        """Here ends what the row `start` opens."""
        self.ends[start] = len(self.rows)

    def int(self, n):
        self.data += self.choice(int_forms(n))

    def chunks(self, kind):
        """A random text or byte string: its units and its bytes."""
        below, choice = self.chance.below, self.choice
        units = size = 0
        more = True
        while more:
            if kind == TEXT:
                piece = "".join(choice((chr(0x61 + below(26)), chr(choice(EDGES)))) for _ in range(below(6)))
                content, spelled = piece.encode(), choice((str.encode, halves))(piece)
            else:
                content = spelled = bytes(below(256) for _ in range(below(6)))
            n = units_of(kind, content)
            more = below(4) == 0
            self.data += (head(kind, PART, n) if more else choice(head_forms(kind, n))) + spelled
            units, size = units + n, size + len(content)
        return units, size

    def text(self, kind):
        place = len(self.data)
        self.row(kind, place, *self.chunks(TEXT))

    def type(self):
        """A type, and its number."""
        if self.types and self.chance.below(2):
            n = self.chance.below(self.types)
            self.row(TYPE_NUMBER, len(self.data), n, 0)
            self.int(n)
            return n
        self.text(TYPE_NAME)
        self.types += 1
        return self.types - 1

    def definition(self):
        n, start = self.choice((0, 1, 1, 2, 2, 3)), len(self.rows)
        self.row(CLASS, len(self.data), n, 0)
        self.data += b"\x43"
        self.text(CLASS_NAME)
        self.int(n)
        for _ in range(n):
            self.text(FIELD_NAME)
        self.end(start)
        self.fields.append(n)

    def number(self):
        place, kind = len(self.data), self.chance.below(10)
        if kind < 3:
            n = 0
            self.data += b"\x4e\x46\x54"[kind : kind + 1]
        elif kind < 6:
            kind, n = INT, self.chance.number(32)
            self.data += self.choice(int_forms(n))
        elif kind < 8:
            kind, n = LONG, self.chance.number(64)
            self.data += self.choice(long_forms(n))
        elif kind == 8:
            kind, n = DATE, self.chance.number(32)
            self.data += wide(0x4B, n, 4)
            n *= MINUTE
        else:
            kind, n = DOUBLE, self.chance.number(16)
            x = bits(float(n))
            spelled = [wide(0x44, x, 8), wide(0x5E, n, 2), b"\x5f" + struct.pack(">f", n)]
            spelled += [wide(0x5D, n, 1)] if -128 <= n < 128 else []
            self.data += self.choice(spelled)
            n = x
        self.row(kind, place, n, 0)

    def container(self, allowance):
        below, choice = self.chance.below, self.choice
        place, start, n = len(self.data), len(self.rows), choice((below(3), below(9)))
        row = self.row(0, place, 0, 0)
        self.references += 1
        form = choice([0x57, 0x58, 0x78, 0x55, 0x56, 0x70, 0x48, 0x4D] + [0x60, 0x60] * bool(self.fields))
        n = min(n, 7) if form in (0x78, 0x70) else n
        if form == 0x60:
            k = below(len(self.fields))
            n = self.fields[k]
            row[:] = OBJECT, place, k, n
            if k < 16 and below(2):
                self.data += bytes([0x60 + k])
            else:
                self.data += b"\x4f"
                self.int(k)
        else:
            self.data += bytes([form + n if form in (0x78, 0x70) else form])
            kind, typed, width, _ = COLLECTIONS[form]
            row[:] = kind, place, n, self.type() if typed else 0
            if form in (0x58, 0x56):
                self.int(n)
            n *= width
        for _ in range(n):
            self.value(allowance - 1)
        self.end(start)
        if form in (0x57, 0x55, 0x48, 0x4D):
            self.data += b"\x5a"

    def value(self, allowance):
        below = self.chance.below
        self.values -= 1
        while below(12) == 0:
            self.definition()
        # the outermost value is a container as a rule
        kind = 0 if allowance == MOST_OPEN and below(8) else below(10)
        if kind < 4 and allowance and self.values > 0:
            self.container(allowance)
        elif kind < 6:
            self.text(TEXT)
        elif kind == 6:
            place = len(self.data)
            self.row(BYTES, place, self.chunks(BYTES)[0], 0)
        elif kind == 7 and self.references:
            n = below(self.references)
            self.row(REFERENCE, len(self.data), n, 0)
            self.data += b"\x51"
            self.int(n)
        else:
            self.number()
