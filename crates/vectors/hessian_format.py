"""The format of Hessian 2.0 records: what each form stands for, the rows of a message, the shortest message of rows.

The generators of vectors, crates/*_vectors/vectors.py, take it from here. It is written from 01, 2026-04, 2026-06,
2026-07, 2026-11 and docs/DECISIONS.md, and shares nothing with the code that is tested. UTF-8, UTF-16 and doubles are
Python's own. What is said here is held to other computations by the generators: number_vectors seeks the shortest of
all forms of a number, text_vectors goes by Unicode's table and by the least length of any cut into chunks,
record_vectors makes random messages together with their rows, and write_vectors reads back what is written.

A row has four numbers here, kind, place, first and second; `ends` gives the fifth ones.
"""
import functools
import math
import re
import struct
from fractions import Fraction

# ---- limits: bytes of a message, units of a chunk, open containers, and classes, types, or fields of one class
LONGEST = 262144
LONGEST_CHUNK = 65535
MOST_OPEN = 32
MOST = 256
WORD = 2**64

# ---- kinds of rows
NULL, FALSE, TRUE, INT, LONG, DOUBLE, DATE, TEXT, BYTES = range(9)
LIST, TYPED_LIST, MAP, TYPED_MAP, OBJECT, REFERENCE, CLASS = range(9, 16)
CLASS_NAME, FIELD_NAME, TYPE_NAME, TYPE_NUMBER = range(16, 20)
TEXTS = (TEXT, CLASS_NAME, FIELD_NAME, TYPE_NAME)
STRINGS = (BYTES, *TEXTS)

# ---- refusals
LENGTH, CUT, BYTE, UTF8, NEGATIVE, UNGIVEN, CEILING, AFTER, ROOM, NO_RECORD = range(1, 11)


class Refused(Exception):
    """A refusal: its number and its place."""

    def __init__(self, number, place):
        super().__init__(number, place)
        self.number, self.place = number, place


# ---- numbers and their bits
def signed(data):
    return int.from_bytes(data, "big", signed=True)


def from_word(n):
    """The number that 64 bits in two's complement are."""
    return n - WORD if n >> 63 else n


def fits(n, size):
    """Whether so many bits hold n in two's complement."""
    return -(2 ** (size - 1)) <= n < 2 ** (size - 1)


def bits(x):
    """The 64 bits of a Python float, which is no NaN."""
    return int.from_bytes(struct.pack(">d", x), "big")


def wide(code, n, size):
    """A code and so many bytes of n."""
    return bytes([code]) + (n % 256**size).to_bytes(size, "big")


# ---- 5f: four bytes that stand for a double, by the main rule, or of a logger that counts thousandths (2026-11)
FLOAT, THOUSANDTHS = range(2)


def widened(data):
    """The bits of the double that a 32-bit float stands for. A NaN goes by its bits."""
    whole = int.from_bytes(data, "big")
    sign, exponent, fraction = whole >> 31, whole >> 23 & 0xFF, whole & 0x7FFFFF
    if exponent == 0xFF:
        return sign << 63 | 0x7FF << 52 | fraction << 29
    size = math.ldexp(fraction + (2**23 if exponent else 0), max(exponent, 1) - 150)
    return bits(-size if sign else size)


def narrowed(double):
    """The 32-bit float that stands for these bits of a double; or None."""
    sign, fraction = double >> 63, double % 2**52
    if double >> 52 & 0x7FF == 0x7FF:
        return None if fraction % 2**29 else sign << 31 | 0xFF << 23 | fraction >> 29
    eight = double.to_bytes(8, "big")
    try:
        single = struct.pack(">f", *struct.unpack(">d", eight))
    except OverflowError:
        return None
    return int.from_bytes(single, "big") if struct.pack(">d", *struct.unpack(">f", single)) == eight else None


def rounded(x):
    """The bits of the double nearest to a rational, of two the even one. It is 0, or not too small for 53 bits."""
    size, exponent = abs(x), 0
    while size >= 2**53:
        size, exponent = size / 2, exponent + 1
    while 0 < size < 2**52:
        size, exponent = size * 2, exponent - 1
    # a fraction is rounded exactly, halves to even
    size = math.ldexp(round(size), exponent)
    return bits(-size if x < 0 else size)


# the double nearest to a thousandth
THOUSANDTH = 0.001
assert rounded(Fraction(1, 1000)) == bits(THOUSANDTH) == 0x3F50624DD2F1A9FC


@functools.lru_cache(maxsize=4096)
def counted(data):
    """The bits of the double that a count of thousandths stands for: the count times THOUSANDTH, rounded once."""
    n = signed(data)
    double = rounded(n * Fraction(THOUSANDTH))
    assert double == bits(n * THOUSANDTH)
    return double


# ---- single numbers
# compact ints and longs: the first and the last code, the code whose own part is 0, and how many bytes follow
COMPACT = {
    INT: [(0x80, 0xBF, 0x90, 0), (0xC0, 0xCF, 0xC8, 1), (0xD0, 0xD7, 0xD4, 2)],
    LONG: [(0xD8, 0xEF, 0xE0, 0), (0xF0, 0xFF, 0xF8, 1), (0x38, 0x3F, 0x3C, 2)],
}
MINUTE = 60000


def compact_worth(zero):
    return lambda code, b: (code - zero) * 256 ** len(b) + int.from_bytes(b, "big")


def compact_rows(kind):
    return [(kind, first, last, more, compact_worth(zero)) for first, last, zero, more in COMPACT[kind]]


# kind, first and last code, how many bytes follow, and the worth by code and following bytes
NUMBER_FORMS = [
    (NULL, 0x4E, 0x4E, 0, lambda code, b: 0),
    (FALSE, 0x46, 0x46, 0, lambda code, b: 0),
    (TRUE, 0x54, 0x54, 0, lambda code, b: 0),
    *compact_rows(INT),
    (INT, 0x49, 0x49, 4, lambda code, b: signed(b)),
    *compact_rows(LONG),
    (LONG, 0x59, 0x59, 4, lambda code, b: signed(b)),
    (LONG, 0x4C, 0x4C, 8, lambda code, b: signed(b)),
    (DOUBLE, 0x5B, 0x5B, 0, lambda code, b: bits(0.0)),
    (DOUBLE, 0x5C, 0x5C, 0, lambda code, b: bits(1.0)),
    (DOUBLE, 0x5D, 0x5D, 1, lambda code, b: bits(float(signed(b)))),
    (DOUBLE, 0x5E, 0x5E, 2, lambda code, b: bits(float(signed(b)))),
    (DOUBLE, 0x5F, 0x5F, 4, lambda code, b: widened(b)),
    (DOUBLE, 0x44, 0x44, 8, lambda code, b: int.from_bytes(b, "big")),
    (DATE, 0x4A, 0x4A, 8, lambda code, b: signed(b)),
    (DATE, 0x4B, 0x4B, 4, lambda code, b: MINUTE * signed(b)),
]
# by code: the kind, how many bytes follow, and the worth
NUMBERS = {c: (kind, more, worth) for kind, first, last, more, worth in NUMBER_FORMS for c in range(first, last + 1)}
INTS = {code: form for code, form in NUMBERS.items() if form[0] == INT}
# the same by each rule of 5f
BY_RULE = {FLOAT: NUMBERS, THOUSANDTHS: {**NUMBERS, 0x5F: (DOUBLE, 4, lambda code, b: counted(b))}}


# of each compact form: the least number, the one after the greatest, its bytes for 0, and how many they are
BOUNDS = {
    kind: [
        ((first - zero) * 256**more, (last + 1 - zero) * 256**more, zero * 256**more, 1 + more)
        for first, last, zero, more in forms
    ]
    for kind, forms in COMPACT.items()
}


def compact_forms(kind, n):
    """The compact forms that hold an int or long, the shortest first."""
    return [(zero + n).to_bytes(size, "big") for low, high, zero, size in BOUNDS[kind] if low <= n < high]


def int_forms(n):
    """All forms of an int, the shortest first."""
    return compact_forms(INT, n) + [wide(0x49, n, 4)]


def long_forms(n):
    """All forms of a long."""
    return compact_forms(LONG, n) + [wide(0x4C, n, 8)] + ([wide(0x59, n, 4)] if fits(n, 32) else [])


def int_form(n):
    return int_forms(n)[0]


def long_form(n):
    return min(long_forms(n), key=len)


def date_form(n):
    minutes, rest = divmod(n, MINUTE)
    return wide(0x4B, minutes, 4) if rest == 0 and fits(minutes, 32) else wide(0x4A, n, 8)


# the bits of the doubles that are whole numbers of 16 bits
WHOLE = {bits(float(n)): n for n in range(-32768, 32768)}


def double_form(double):
    for n in (0, 1):
        if double == bits(float(n)):
            return bytes([0x5B + n])
    if double in WHOLE:
        n = WHOLE[double]
        return wide(0x5D, n, 1) if fits(n, 8) else wide(0x5E, n, 2)
    single = narrowed(double)
    return wide(0x44, double, 8) if single is None else wide(0x5F, single, 4)


def number_form(kind, first):
    """The shortest form of a number of this kind and these 64 bits; nothing where there is none."""
    if kind < INT:
        return b"NFT"[kind : kind + 1] if first == 0 else b""
    if kind == INT:
        return int_form(from_word(first)) if fits(from_word(first), 32) else b""
    if kind == DOUBLE:
        return double_form(first)
    return (long_form if kind == LONG else date_form)(from_word(first))


# ---- texts and bytes
# the head of a last chunk in one, two and three bytes, and of a chunk that is not the last: first code, last code,
# bytes that follow
ONE, TWO, THREE, PART = range(4)
HEADS = {
    TEXT: [(0x00, 0x1F, 0), (0x30, 0x33, 1), (0x53, 0x53, 2), (0x52, 0x52, 2)],
    BYTES: [(0x20, 0x2F, 0), (0x34, 0x37, 1), (0x42, 0x42, 2), (0x41, 0x41, 2)],
}
# by code: the first code of its form, how many bytes follow, whether the chunk is the last
CHUNKS = {
    kind: {
        code: (first, more, form != PART)
        for form, (first, last, more) in enumerate(heads)
        for code in range(first, last + 1)
    }
    for kind, heads in HEADS.items()
}


def head(kind, form, n):
    """The head in this form of a chunk of n units."""
    first, last, more = HEADS[kind][form]
    assert n < (last - first + 1) * 256**more
    return (first * 256**more + n).to_bytes(1 + more, "big")


def last_form(kind, n):
    """The shortest form of a last chunk's head."""
    for form in (ONE, TWO, THREE):
        first, last, more = HEADS[kind][form]
        if n < (last - first + 1) * 256**more:
            return form
    raise ValueError(n)


def head_forms(kind, n):
    """All heads of a last chunk, the shortest first."""
    return [head(kind, form, n) for form in range(last_form(kind, n), PART)]


def text_heads(n):
    return head_forms(TEXT, n)


def bytes_heads(n):
    return head_forms(BYTES, n)


def sixteen(content):
    """The UTF-16 units of a text's content."""
    return content.decode().encode("utf-16-le")


def units_of(kind, content):
    """The units of a text's content, or the length of bytes."""
    return len(content) if kind == BYTES else len(sixteen(content)) // 2


def halves(text):
    """The text with each character beyond the 16-bit range as a pair of halves in six bytes, as 2026-04 has it."""
    units = text.encode("utf-16-be")
    numbers = (int.from_bytes(units[i : i + 2], "big") for i in range(0, len(units), 2))
    return b"".join(chr(n).encode("utf-8", "surrogatepass") for n in numbers)


def pieces(kind, content):
    """The content in chunks, each as long as may be."""
    if kind == BYTES:
        return [content[i : i + LONGEST_CHUNK] for i in range(0, len(content), LONGEST_CHUNK)] or [b""]
    if len(content) <= LONGEST_CHUNK:
        return [content]
    found, rest = [], sixteen(content)
    while len(rest) > 2 * LONGEST_CHUNK:
        # the first half of a pair goes with the second
        n = LONGEST_CHUNK - 1 if 0xD8 <= rest[2 * LONGEST_CHUNK - 1] <= 0xDB else LONGEST_CHUNK
        found.append(rest[: 2 * n].decode("utf-16-le").encode())
        rest = rest[2 * n :]
    return found + [rest.decode("utf-16-le").encode()]


def joined(kind, parts, form=None, spell=bytes):
    """A string of these chunks; the last with its shortest head, or one of this form; the contents so spelled."""
    counts = [units_of(kind, part) for part in parts]
    form = last_form(kind, counts[-1]) if form is None else form
    forms = [PART] * (len(parts) - 1) + [form]
    return b"".join(head(kind, f, n) + spell(part) for f, n, part in zip(forms, counts, parts))


def string_form(kind, content):
    """The shortest form."""
    return joined(kind, pieces(kind, content))


def text_form(content):
    return string_form(TEXT, content)


# what some character begins with and is longer than: 64 characters at a time differ in the last byte only
CHARACTERS = [chr(c) for c in range(0x80, 0x110000, 64) if not 0xD800 <= c <= 0xDFFF]
SPELLED = [c.encode() for c in CHARACTERS] + [halves(c) for c in CHARACTERS]
BEGINNINGS = {c[:n] for c in SPELLED for n in range(1, len(c))}
PLAIN = re.compile(rb"[\x00-\x7f]*")

# ---- lists, maps and objects
# of a list or map: the row's kind, whether a type follows, how many values are in an element, and how many elements
COUNT, OPEN = "a count follows", "up to 5a"
COLLECTIONS = {
    0x57: (LIST, False, 1, OPEN),
    0x58: (LIST, False, 1, COUNT),
    0x48: (MAP, False, 2, OPEN),
    0x55: (TYPED_LIST, True, 1, OPEN),
    0x56: (TYPED_LIST, True, 1, COUNT),
    0x4D: (TYPED_MAP, True, 2, OPEN),
    **{0x70 + n: (TYPED_LIST, True, 1, n) for n in range(8)},
    **{0x78 + n: (LIST, False, 1, n) for n in range(8)},
}
OBJECTS = {0x4F, *range(0x60, 0x70)}

# ---- first bytes: of each, the kind of what it opens, and how many bytes of a number or of a chunk's length follow;
# the end of a list or map, and a byte that opens nothing, have kinds of their own
END, RESERVED = 20, 21
FIRST_BYTES = {
    **{code: (RESERVED, 0) for code in range(256)},
    **{code: (kind, more) for code, (kind, more, _) in NUMBERS.items()},
    **{code: (kind, more) for kind, chart in CHUNKS.items() for code, (_, more, _) in chart.items()},
    **{code: (form[0], 0) for code, form in COLLECTIONS.items()},
    **{code: (OBJECT, 0) for code in OBJECTS},
    0x51: (REFERENCE, 0),
    0x43: (CLASS, 0),
    0x5A: (END, 0),
}


# ---- reading
class Message:
    """A message, how far it is read, its numbers by a rule of 5f, and what it has given so far."""

    def __init__(self, data, at=0, rule=FLOAT):
        self.data, self.at, self.numbers = data, at, BY_RULE[rule]
        self.references, self.types, self.fields = 0, 0, []

    def take(self, n):
        if n > len(self.data) - self.at:
            raise Refused(CUT, len(self.data))
        self.at += n
        return self.data[self.at - n : self.at]

    def next(self):
        """The next byte, which is not taken."""
        if self.at >= len(self.data):
            raise Refused(CUT, len(self.data))
        return self.data[self.at]

    def due(self, chart):
        """The next byte and its entry in this chart."""
        if self.next() not in chart:
            raise Refused(BYTE, self.at)
        code = self.take(1)[0]
        return code, chart[code]


def number(m, chart):
    """The row of a number."""
    place = m.at
    code, (kind, more, worth) = m.due(chart)
    return kind, place, worth(code, m.take(more)), 0


def integer(m):
    return number(m, INTS)[2]


def two_units(piece):
    """Whether these bytes begin a character of two units: the first byte tells, or of a pair of halves the second."""
    return 0xF0 <= piece[0] <= 0xF4 or piece[0] == 0xED and piece[1:2] >= b"\xa0"


def characters(m, units):
    """Takes characters of so many units; their content in UTF-8."""
    content = bytearray()
    while units:
        plain = m.take(PLAIN.match(m.data, m.at, m.at + units).end() - m.at)
        content += plain
        units -= len(plain)
        if not units:
            break
        place, piece = m.at, m.take(1)
        while piece in BEGINNINGS and not (two_units(piece) and units == 1):
            piece += m.take(1)
        try:
            # a half is a character of its own, until UTF-16 joins it to the other one
            joint = piece.decode("utf-8", "surrogatepass").encode("utf-16-be", "surrogatepass")
            content += joint.decode("utf-16-be").encode()
        except UnicodeDecodeError:
            raise Refused(UTF8, place) from None
        units -= len(joint) // 2
    return bytes(content)


@functools.lru_cache(maxsize=256)
def string_from(data, place, kind):
    """The content of the text, or bytes, that opens at this place of a message, and the place after it."""
    m, content, last = Message(data, place), [], False
    while not last:
        code, (first, more, last) = m.due(CHUNKS[kind])
        n = int.from_bytes(bytes([code - first]) + m.take(more), "big")
        content.append(characters(m, n) if kind == TEXT else m.take(n))
    return b"".join(content), m.at


def string(m, kind):
    """The content of a text or of bytes."""
    content, m.at = string_from(m.data, m.at, kind)
    return content


def text(m, kind):
    """The row of a text."""
    place = m.at
    content = string(m, TEXT)
    return kind, place, units_of(TEXT, content), len(content)


def count(m):
    """A count, and the place of its first byte."""
    place = m.at
    n = integer(m)
    if n < 0:
        raise Refused(NEGATIVE, place)
    return n, place


def type_of(m):
    """The row of a type, and its number."""
    place = m.at
    if m.next() in CHUNKS[TEXT]:
        if m.types == MOST:
            raise Refused(CEILING, place)
        m.types += 1
        return text(m, TYPE_NAME), m.types - 1
    n = integer(m)
    if not 0 <= n < m.types:
        raise Refused(UNGIVEN, place)
    return (TYPE_NUMBER, place, n, 0), n


def definition(m):
    """The rows of a class definition."""
    place = m.at
    if len(m.fields) == MOST:
        raise Refused(CEILING, place)
    m.take(1)
    name = text(m, CLASS_NAME)
    n, where = count(m)
    if n > MOST:
        raise Refused(CEILING, where)
    names = [text(m, FIELD_NAME) for _ in range(n)]
    m.fields.append(n)
    return [(CLASS, place, n, 0), name, *names]


def values(m, n, allowance):
    return [row for _ in range(n) for row in value(m, allowance)]


def container(m, allowance):
    """The rows of a list, map or object; so many may open."""
    place, code = m.at, m.next()
    if not allowance:
        raise Refused(CEILING, place)
    m.take(1)
    m.references += 1
    if code in OBJECTS:
        which = integer(m) if code == 0x4F else code - 0x60
        if not 0 <= which < len(m.fields):
            raise Refused(UNGIVEN, place)
        n = m.fields[which]
        return [(OBJECT, place, which, n), *values(m, n, allowance - 1)]
    kind, typed, width, n = COLLECTIONS[code]
    rows, second = [], 0
    if typed:
        row, second = type_of(m)
        rows.append(row)
    if n == OPEN:
        n = 0
        while m.next() != 0x5A:
            rows += values(m, width, allowance - 1)
            n += 1
        m.take(1)
    else:
        if n == COUNT:
            n, _ = count(m)
        rows += values(m, n * width, allowance - 1)
    return [(kind, place, n, second), *rows]


def value(m, allowance):
    """The rows of a value, with the definitions before it."""
    rows = []
    while m.next() == 0x43:
        rows += definition(m)
    place, code = m.at, m.next()
    if code in m.numbers:
        return rows + [number(m, m.numbers)]
    if code in CHUNKS[TEXT]:
        return rows + [text(m, TEXT)]
    if code in CHUNKS[BYTES]:
        return rows + [(BYTES, place, len(string(m, BYTES)), 0)]
    if code == 0x51:
        m.take(1)
        n = integer(m)
        if not 0 <= n < m.references:
            raise Refused(UNGIVEN, place)
        return rows + [(REFERENCE, place, n, 0)]
    if code in COLLECTIONS or code in OBJECTS:
        return rows + container(m, allowance)
    raise Refused(BYTE, place)


@functools.lru_cache(maxsize=16)
def judged(data, rule=FLOAT):
    """The rows of a message by a rule of 5f; or a refusal's number and place."""
    if not 1 <= len(data) <= LONGEST:
        return LENGTH, 0
    m = Message(data, 0, rule)
    try:
        rows = value(m, MOST_OPEN)
        if m.at < len(data):
            raise Refused(AFTER, m.at)
        return rows
    except Refused as r:
        return r.number, r.place


def ends(rows):
    """The fifth numbers by kinds and counts: the row after what each row opens. Of what is no record, some numbers."""
    found = [k + 1 for k in range(len(rows))]

    def value(k):
        """The row after the value that begins at k, with the definitions before it."""
        while k < len(rows) and rows[k][0] == CLASS:
            found[k] = k + 2 + rows[k][2]
            k = found[k]
        if k >= len(rows):
            return len(rows)
        kind, _, first, second = rows[k]
        end = k + 1 + (kind in (TYPED_LIST, TYPED_MAP))
        held = {LIST: first, TYPED_LIST: first, MAP: 2 * first, TYPED_MAP: 2 * first, OBJECT: second}
        for _ in range(held.get(kind, 0)):
            if end >= len(rows):
                break
            end = value(end)
        found[k] = end
        return end

    value(0)
    return found


def tabled(rows):
    """The rows of a message as a table has them: with their fifth numbers, each number in 64 bits."""
    return [tuple(n % WORD for n in (*row, end)) for row, end in zip(rows, ends(rows))]


# ---- writing
@functools.lru_cache(maxsize=4096)
def string_at(source, place, kind):
    """The content of the text, or bytes, that opens at this place, and its shortest form; or None."""
    try:
        content, _ = string_from(source, place, kind)
    except Refused:
        return None
    return content, string_form(kind, content)


class NoRecord(Exception):
    """The rows are no record."""


def need(met):
    if not met:
        raise NoRecord


def opening(write):
    """Writes what the next row opens, whose fifth number is to be that of the row after it."""

    @functools.wraps(write)
    def judged(walk, *rest):
        start = walk.at
        write(walk, *rest)
        need(walk.rows[start][4] == walk.at)

    return judged


class Walk:
    """Rows of five numbers, how many of them are written, and what they have given so far."""

    def __init__(self, source, rows):
        self.source, self.rows, self.at = source, rows, 0
        self.references, self.types, self.fields = 0, 0, []
        self.pieces = []

    def kind(self):
        """The next row's kind."""
        need(self.at < len(self.rows))
        return self.rows[self.at][0]

    def take(self, *kinds):
        """The next row, but for its fifth number."""
        need(self.kind() in kinds)
        self.at += 1
        return self.rows[self.at - 1][:4]

    def put(self, piece):
        self.pieces.append(piece)

    @opening
    def text(self, kind):
        _, place, units, size = self.take(kind)
        found = string_at(self.source, place, TEXT)
        need(found and len(found[0]) == size and units_of(TEXT, found[0]) == units)
        self.put(found[1])

    @opening
    def bytes(self):
        _, place, size, zero = self.take(BYTES)
        found = string_at(self.source, place, BYTES)
        need(found and len(found[0]) == size and zero == 0)
        self.put(found[1])

    @opening
    def number(self):
        kind, _, first, zero = self.take(*range(DATE + 1))
        form = number_form(kind, first)
        need(form and zero == 0)
        self.put(form)

    @opening
    def type(self, number):
        """The type of a list or map whose row has this type number."""
        if self.kind() == TYPE_NAME:
            need(number == self.types and self.types < MOST)
            self.types += 1
            self.text(TYPE_NAME)
        else:
            _, _, named, zero = self.take(TYPE_NUMBER)
            need(zero == 0 and named == number and named < self.types)
            self.put(int_form(named))

    @opening
    def definition(self):
        _, _, fields, zero = self.take(CLASS)
        need(zero == 0 and fields <= MOST and len(self.fields) < MOST)
        self.put(b"C")
        self.text(CLASS_NAME)
        self.put(int_form(fields))
        for _ in range(fields):
            self.text(FIELD_NAME)
        self.fields.append(fields)

    @opening
    def reference(self):
        _, _, number, zero = self.take(REFERENCE)
        need(zero == 0 and number < self.references)
        self.put(b"Q" + int_form(number))

    def values(self, n, allowance):
        while n:
            self.value(allowance)
            n -= 1

    @opening
    def list(self, allowance):
        kind, _, n, number = self.take(LIST, TYPED_LIST)
        typed = kind == TYPED_LIST
        if n < 8:
            self.put(bytes([(0x70 if typed else 0x78) + n]))
        elif n < 48:
            self.put(b"V" if typed else b"X")
        else:
            self.put(b"U" if typed else b"W")
        if typed:
            self.type(number)
        else:
            need(number == 0)
        if 8 <= n < 48:
            self.put(int_form(n))
        self.values(n, allowance)
        if 48 <= n:
            self.put(b"Z")

    @opening
    def map(self, allowance):
        kind, _, pairs, number = self.take(MAP, TYPED_MAP)
        self.put(b"M" if kind == TYPED_MAP else b"H")
        if kind == TYPED_MAP:
            self.type(number)
        else:
            need(number == 0)
        self.values(2 * pairs, allowance)
        self.put(b"Z")

    @opening
    def object(self, allowance):
        _, _, number, fields = self.take(OBJECT)
        need(number < len(self.fields) and fields == self.fields[number])
        self.put(bytes([0x60 + number]) if number < 16 else b"O" + int_form(number))
        self.values(fields, allowance)

    def value(self, allowance):
        """A value and the definitions before it; so many lists, maps and objects may open."""
        while self.kind() == CLASS:
            self.definition()
        kind = self.kind()
        if kind <= DATE:
            self.number()
        elif kind == TEXT:
            self.text(TEXT)
        elif kind == BYTES:
            self.bytes()
        elif kind == REFERENCE:
            self.reference()
        else:
            need(LIST <= kind <= OBJECT and allowance)
            self.references += 1
            (self.list if kind <= TYPED_LIST else self.map if kind <= TYPED_MAP else self.object)(allowance - 1)


def shortest(source, rows):
    """The shortest message of rows of five numbers, however long it is. NoRecord, where they are none."""
    walk = Walk(source, rows)
    walk.value(MOST_OPEN)
    need(walk.at == len(rows))
    return b"".join(walk.pieces)


def written(source, rows, claimed):
    """The shortest message of the first rows; or the refusal 1 or 10, whatever output is lent."""
    if len(source) > LONGEST:
        return LENGTH
    try:
        need(claimed <= len(rows))
        found = shortest(source, rows[:claimed])
    except NoRecord:
        return NO_RECORD
    return found if len(found) <= LONGEST else LENGTH


@functools.lru_cache(maxsize=16)
def shortest_length(data, rule=FLOAT):
    """The length of the shortest message of what is read by a rule of 5f (2026-06); 0 of what is refused."""
    rows = judged(data, rule)
    return len(shortest(data, tabled(rows))) if isinstance(rows, list) else 0
