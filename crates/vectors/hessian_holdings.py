"""Holdings files (2026-01): what the bytes of a file list as, and what adding to it answers and leaves.

It is written from 2026-01 and docs/DECISIONS.md, over hessian_format.py, and shares nothing with the code that is
tested. An answer is three numbers: number, count and place.
"""
import functools

import hessian_format
from hessian_format import LONGEST, ROOM, Refused

WRONG_MARK, UNKNOWN_VERSION, CUT_ENTRY, REFUSED_ENTRY, NOT_SHORTEST, REPEATED_ENTRY = range(20, 26)
MARK = b"SWP"
NEWEST = 1
LENGTH_SIZE = 4
ROW_NUMBERS = 5
LISTED_SIZE = 16
# what has to be lent to work with: numbers, and bytes
WORKING = (ROW_NUMBERS * LONGEST, LONGEST)


# ---- the layout
def header(version=NEWEST):
    return MARK + version.to_bytes(2, "big")


def entry(message):
    return len(message).to_bytes(LENGTH_SIZE, "big") + message


def file_of(*messages):
    """A file with these messages, whatever they are."""
    return header() + b"".join(map(entry, messages))


def entries(data):
    """The messages of entries, one after the other; None for a last one that is cut off."""
    while data:
        size = int.from_bytes(data[:LENGTH_SIZE], "big")
        if len(data) < LENGTH_SIZE + size:
            yield None
            return
        yield data[LENGTH_SIZE:LENGTH_SIZE + size]
        data = data[LENGTH_SIZE + size:]


# ---- what a file lists as
@functools.lru_cache(maxsize=4096)
def shortest(message):
    """The shortest message of a message's record. Refused, where it has none, as 01's reader refuses it."""
    rows = hessian_format.judged(message)
    if isinstance(rows, tuple):
        raise Refused(*rows)
    return hessian_format.shortest(message, hessian_format.tabled(rows))


def fault(message, before):
    """What is wrong with an entry after others; 0 is nothing."""
    if message is None:
        return CUT_ENTRY
    try:
        if shortest(message) != message:
            return NOT_SHORTEST
    except Refused:
        return REFUSED_ENTRY
    return REPEATED_ENTRY if message in before else 0


def listing(file, used):
    """The messages of the first bytes of a buffer. Refused, with the place of the first fault."""
    if used > len(file):
        raise Refused(CUT_ENTRY, 0)
    file = file[:used]
    if file[:len(MARK)] != MARK:
        raise Refused(WRONG_MARK, 0)
    if len(file) < len(header()) or not 1 <= int.from_bytes(file[len(MARK):len(header())], "big") <= NEWEST:
        raise Refused(UNKNOWN_VERSION, 0)
    place, found = len(header()), []
    for message in entries(file[place:]):
        if number := fault(message, found):
            raise Refused(number, place)
        found.append(message)
        place += len(entry(message))
    return found


def placements(messages):
    """The bytes of a list: of each entry its message's place and length."""
    place, found = len(header()), b""
    for message in messages:
        found += (place + LENGTH_SIZE).to_bytes(8, "big") + len(message).to_bytes(8, "big")
        place += len(entry(message))
    return found


# ---- calls: the answer, and what they write
def checked(file, used, lent, adding):
    """The messages of a file, which may be a new one, of no byte, where it is added to. Refused, where it is faulty."""
    if lent[0] // ROW_NUMBERS < LONGEST or lent[1] < LONGEST:
        raise Refused(ROOM, 0)
    return [] if adding and used == 0 else listing(file, used)


def answers(call):
    """A call that may be refused: then it writes nothing."""
    @functools.wraps(call)
    def answered(*arguments, **others):
        try:
            return call(*arguments, **others)
        except Refused as r:
            return (r.number, 0, r.place), b"", []

    return answered


@answers
def list_file(file, used, list_len, lent=WORKING):
    """The answer, and the bytes that the list begins with."""
    found = checked(file, used, lent, False)
    if list_len // LISTED_SIZE < len(found):
        return (ROOM, len(found), 0), b"", []
    return (0, len(found), used), placements(found), []


def addition(room, used, found, record):
    """The answer for a record that is accepted, and the bytes that are appended to a file with these messages."""
    message = shortest(record)
    if message in found:
        return (0, found.index(message), used), b""
    new = entry(message) if used else file_of(message)
    if used + len(new) > room:
        return (ROOM, used + len(new), 0), b""
    return (0, len(found), used + len(new)), new


@answers
def add(file, used, record, lent=WORKING):
    """The answer, and the bytes that are appended."""
    return *addition(len(file), used, checked(file, used, lent, True), record), []


@answers
def add_all(file, used, records, lent=WORKING):
    """The answer, the bytes that are appended, and the numbers of the entries of the records that were added."""
    found, appended, numbers = checked(file, used, lent, True), b"", []
    for record in entries(records):
        if record is None:
            return (CUT_ENTRY, len(numbers), used), appended, numbers
        try:
            (number, count, place), new = addition(len(file), used, found, record)
        except Refused as r:
            number, new = r.number, b""
        if number:
            return (number, len(numbers), used), appended, numbers
        if new:
            found.append(shortest(record))
        appended, used = appended + new, place
        numbers.append(count)
    return (0, len(numbers), used), appended, numbers
