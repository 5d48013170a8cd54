#!/usr/bin/env python3
"""Makes the records of samples/: `samples.py FOLDER` writes them there, and removes nothing.

Each is spelled out by hand here, form by form, so that their spellings can differ: what is the same record and what is
not is said beside each.
"""
import struct
import sys
from pathlib import Path

sys.dont_write_bytecode = True
sys.path.append(str(Path(__file__).resolve().parent.parent / "crates/vectors"))
from hessian_format import (  # noqa: E402
    BYTES, TEXT, THREE, halves, int_form, joined, string_form, text_form, units_of, wide,
)


# ---- forms: short ones, and wide ones that say the same

int_ = int_form


def wide_int(n):
    return wide(0x49, n, 4)


def long_(n):
    return wide(0x4C, n, 8)


def double(x):
    return b"\x44" + struct.pack(">d", x)


def date(milliseconds):
    return wide(0x4A, milliseconds, 8)


def minutes(n):
    return wide(0x4B, n, 4)


def text(s):
    return text_form(s.encode())


def parted_text(*parts):
    """A text in chunks, each with a head of three bytes."""
    return joined(TEXT, [s.encode() for s in parts], THREE)


def halved(s):
    """A short text as Java libraries spell it, where each half of a pair has three bytes."""
    return bytes([units_of(TEXT, s.encode())]) + halves(s)


def binary(b):
    return string_form(BYTES, b)


def parted_binary(size, b):
    """A byte string in chunks of `size`."""
    return joined(BYTES, [b[i:i + size] for i in range(0, len(b), size)])


def class_(name, *fields, text=text):
    return b"\x43" + text(name) + int_(len(fields)) + b"".join(map(text, fields))


def open_list(*values):
    return b"\x57" + b"".join(values) + b"\x5a"


def counted_list(*values):
    return b"\x58" + int_(len(values)) + b"".join(values)


def open_map(*values):
    return b"\x48" + b"".join(values) + b"\x5a"


NULL, FALSE, TRUE = b"\x4e", b"\x46", b"\x54"


def reference(n):
    return b"\x51" + int_(n)


# ---- sweeps: a header, and blocks of samples

def samples(block):
    """A block of 96 samples of 8 bits, not the same for any two blocks."""
    return bytes((17 * i + 31 * block + i * i // 7) % 256 for i in range(96))


HEADER = class_("drive.Sweep", "vehicle", "started", "channel", "rate", "blocks")


def sweep(blocks):
    return HEADER + b"\x60" + text("Prüfwagen 7") + date(894621091000) + int_(3) + double(12.25) + \
        bytes([0x78 + len(blocks)]) + b"".join(map(binary, blocks))


def sweep_wide(blocks):
    """The same record as sweep, in another spelling."""
    return HEADER + b"\x4f" + wide_int(0) + parted_text("Prüf", "wagen 7") + date(894621091000) + wide_int(3) + \
        b"\x5f" + struct.pack(">f", 12.25) + counted_list(*(parted_binary(40, b) for b in blocks))


def plain(size):
    """So many characters below U+0080."""
    lines = (f"{i:05d} lane {i % 4} speed {100 + i * 7 % 60} gear {i % 6} ok\n" for i in range(size))
    return "".join(lines)[:size]


BLOCKS = [samples(k) for k in range(4)]
OTHER_BLOCKS = BLOCKS[:2] + [samples(9)] + BLOCKS[3:]

MARK = class_("drive.Mark", "lane", "at", "sweep")
DRIVE = class_("drive.Drive", "name", "marks", "next")


def signs(text):
    """Characters beyond the 16-bit range in the name of a class, of a field and of a type, and in values."""
    return class_("drive.🚦", "🚗", "lanes", text=text) + b"\x60" + text("at the 🚦, 🚗 waits") + \
        b"\x72" + text("[🛣") + text("🚗") + text("𝄞")


RECORDS = {
    # 01's example of a class and an object, and the same record in a wider spelling
    "car.rec": class_("Car", "color") + b"\x60" + text("red"),
    "car_wide.rec": b"\x43" + parted_text("C", "ar") + wide_int(1) + parted_text("color") + b"\x4f\x90" + parted_text("r", "", "ed"),
    # two sweeps that share their header and differ in the third of four blocks; the first once more, in another spelling
    "sweep_1.rec": sweep(BLOCKS),
    "sweep_2.rec": sweep(OTHER_BLOCKS),
    "sweep_1_again.rec": sweep_wide(BLOCKS),
    # the first, cut off within its last block
    "sweep_1_cut.rec": sweep(BLOCKS)[:-30],
    # an object that holds a list of objects; one of these, and the list, are referred to; an object that holds itself
    "nested.rec": DRIVE + b"\x60" + text("night drive") +
    open_list(MARK + b"\x61" + int_(2) + minutes(14910351) + NULL,
              b"\x61" + int_(-1) + date(-1) + open_map(text("of"), reference(2), text("all"), reference(1))) +
    b"\x60" + text("day drive") + b"\x78" + reference(5),
    # lists and maps with types, spelled out and by number
    "types.rec": open_list(b"\x72" + text("[int") + int_(1) + int_(2), b"\x73" + int_(0) + int_(300) + int_(-300) + int_(70000),
                           b"\x4d" + text("drive.Lanes") + int_(1) + text("left") + int_(2) + text("right") + b"\x5a",
                           b"\x55" + int_(1) + b"\x5a"),
    # numbers at the edges of their forms
    "numbers.rec": open_list(int_(-16), int_(47), int_(48), int_(-2048), int_(262143), int_(262144), wide_int(-2**31),
                             long_(-8), long_(15), long_(16), long_(2047), long_(-2**31), long_(-2**63), double(0.0), double(-0.0),
                             double(1.0), double(-128.0), double(0.1), double(float("inf")), b"\x5f\x7f\x80\x00\x01",
                             double(5e-324), NULL, FALSE, TRUE, date(0), date(2**63 - 1), minutes(-2**31)),
    # characters of one to four bytes, characters that are not to be seen, a text in chunks, an empty one
    "texts.rec": open_list(text(""), text("Grüße, 東京 🚗"), text('"quoted" \\ tab\t line\n bell\x07 mark\u202e'),
                           parted_text("one text ", "in ", "three parts"), binary(b""), binary(bytes(range(80)))),
    # characters beyond the 16-bit range in four bytes; and the same record with each of them as a pair of halves
    "pairs.rec": signs(text),
    "pairs_java.rec": signs(halved),
    # 50,000 plain characters, in lines of a logbook
    "plain.rec": text(plain(50000)),
    # 60 elements: their count is spelled out here, and the open form is a byte shorter
    "long_list.rec": counted_list(*(int_(n * n) for n in range(60))),
    # what is no record: a reserved byte, a character that is not UTF-8, a half alone, a second record, a reference to
    # nothing, nothing
    "bad_byte.rec": open_list(int_(1), text("two"), b"\x40", int_(4)),
    "bad_text.rec": open_list(text("fine"), b"\x03a\xffb"),
    "bad_half.rec": open_list(halved("fine 🚗"), b"\x03a\xed\xa0\xbdb"),
    "bad_after.rec": int_(1) + int_(2),
    "bad_reference.rec": b"\x79" + reference(1),
    "bad_empty.rec": b"",
}


def main():
    if len(sys.argv) != 2:
        sys.exit("usage: samples.py FOLDER")
    folder = Path(sys.argv[1])
    folder.mkdir(exist_ok=True)
    for name, record in RECORDS.items():
        (folder / name).write_bytes(record)


if __name__ == "__main__":
    main()
