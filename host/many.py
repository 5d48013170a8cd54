"""Records in folders, of which some are copies: for check_copies and bench_copies."""
import os

import samples

LARGE = 250_000  # bytes, about


def spellings(n):
    """Three spellings of a list of an int and a text; all are one record."""
    word = f"record {n}"
    return [b"\x7a" + samples.int_(n) + samples.text(word),
            samples.open_list(samples.wide_int(n), samples.parted_text(word[:3], word[3:])),
            samples.counted_list(samples.wide_int(n), samples.parted_text(word))]


def make_many(folder, count):
    """Small records: every fifth is the one before it in another spelling, every thousandth is cut off."""
    for n in range(count):
        if n % 1000 == 0:
            os.makedirs(folder / f"{n // 1000:04}")
        data = spellings(n - 1)[2] if n % 5 == 4 else spellings(n)[n % 2]
        with open(folder / f"{n // 1000:04}/record-of-a-drive-{n:07}", "wb") as f:
            f.write(data[:-1] if n % 1000 == 500 else data)


def large(n):
    """A record of some 250,000 bytes: a list of lines of a logbook, each a number and a text."""
    line = b"".join(samples.int_(k * (n + 1) % 100_000) + samples.text(f"lane {k % 4}") for k in range(LARGE // 10))
    return samples.open_list(samples.int_(n), line)


def make_large(folder, count, distinct):
    """Large records, each of the distinct ones equally often, in the same bytes."""
    records = [large(n) for n in range(distinct)]
    os.makedirs(folder, exist_ok=True)
    for n in range(count):
        with open(folder / f"sweep-{n:05}", "wb") as f:
            f.write(records[n % distinct])


def roomy_folder():
    """Files in memory, where there is room for many: making and removing them is faster."""
    try:
        about = os.statvfs("/dev/shm")
        return "/dev/shm" if about.f_bavail * about.f_frsize > 2**30 and os.access("/dev/shm", os.W_OK) else None
    except OSError:
        return None
