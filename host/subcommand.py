"""What the checks of the subcommands of `hessian` share: running one, comparing, and what people get wrong everywhere.

BUILD names the folder of the programs, host/build if it is not given. All cases run twice: as built, and under
AddressSanitizer and UndefinedBehaviorSanitizer (BUILD/sanitized/hessian).
"""
import os
import random
import shutil
import signal
import subprocess
import sys
import tempfile
import time
from fractions import Fraction
from pathlib import Path

HOST = Path(__file__).resolve().parent
ROOT = HOST.parent
BUILD = Path(os.environ.get("BUILD") or HOST / "build").resolve()
NOBODY = 65534
MOST_SECONDS = 300  # that a program may take

sys.dont_write_bytecode = True
sys.path[:0] = [str(HOST), str(ROOT / "crates/vectors")]
import hessian_format  # noqa: E402
import samples  # noqa: E402


class Check:
    """Cases of one subcommand, and how many of them come out otherwise."""

    def __init__(self, command):
        self.command, self.program, self.cases, self.differences = command, BUILD / "hessian", 0, 0

    def expect(self, what, seen, expected):
        self.cases += 1
        if seen != expected:
            self.differences += 1
            print(f"check_{self.command}: {what}\n    expected {cut(expected)}\n    seen     {cut(seen)}")

    def arguments(self, *more):
        return [self.program, *self.command.split(), *more]

    def run(self, *arguments, stdin=b"", cwd=ROOT, **others):
        """Status, standard output, standard error."""
        streams = {"stdout": subprocess.PIPE, "stderr": subprocess.PIPE, **others}
        done = subprocess.run(self.arguments(*arguments), input=stdin, cwd=cwd, timeout=MOST_SECONDS, **streams)
        return done.returncode, done.stdout, done.stderr

    def said(self, text):
        """What stands on standard error."""
        return f"hessian {self.command}: {text}\n".encode()

    def wrong(self, why):
        """What wrong usage comes to."""
        return 2, b"", self.said(f"{why}; hessian {self.command} --help says how")

    def of_both(self, *checks):
        """Runs each check, with a folder of its own, on both programs; the status."""
        for self.program in (BUILD / "hessian", BUILD / "sanitized/hessian"):
            for check in checks:
                with tempfile.TemporaryDirectory(prefix="hessian") as folder:
                    check(Path(folder))
        print(f"check_{self.command}: {self.cases} cases, {self.differences} differences")
        return 1 if self.differences else 0


class Verb(Check):
    """A word behind a subcommand; its cases are among those of the subcommand."""

    def __init__(self, check, word):
        self.check, self.command, self.expect = check, f"{check.command} {word}", check.expect

    @property
    def program(self):
        return self.check.program


def cut(value):
    text = repr(value)
    return text if len(text) < 2000 else f"{text[:1500]} .. {text[-400:]} ({len(text)} characters)"


# ---- messages

def numbered_rows(message, thousandths=False):
    """The rows of a message with five numbers each; or a refusal's number and place."""
    rows = hessian_format.judged(message)
    if isinstance(rows, tuple):
        return rows
    rows = [(*(n % hessian_format.WORD for n in row), end) for row, end in zip(rows, hessian_format.ends(rows))]
    return [counted_row(message, row) for row in rows] if thousandths else rows


def shortest_form(message, rows):
    """The shortest message of the rows of a message, however long it is."""
    walk = hessian_format.Walk(message, rows)
    walk.value(hessian_format.MOST_OPEN)
    return b"".join(walk.pieces)


def vectors(most=None):
    """The messages of record_vectors, each once; those of at most so many bytes."""
    found = {}
    for line in (ROOT / "crates/record_vectors/stdin").read_text().splitlines():
        groups = (group.partition("*") for group in line.split()[1:])
        found[b"".join(bytes.fromhex(digits) * int(times or 1) for digits, _, times in groups)] = True
    return [m for m in found if most is None or len(m) <= most]


def longest(size=hessian_format.LONGEST):
    """A record of so many bytes that has no shorter form: ints in an open list."""
    return b"\x57" + b"\x90" * (size - 2) + b"\x5a"


# ---- messages of loggers that count thousandths

THOUSANDTH = Fraction(0.001)  # the double nearest to 0.001, exactly


def count_form(m):
    return b"\x5f" + m.to_bytes(4, "big", signed=True)


def bits_of_count(m):
    """The bits of m times that double: the exact product, rounded once to nearest, ties to even."""
    product = float(m * THOUSANDTH)
    assert product == m * 0.001
    return hessian_format.bits(product)


def counted_row(message, row):
    """A row of the main rule as it is by that of thousandths: of a 5f the bits are others."""
    kind, place, _, *rest = row
    if kind != hessian_format.DOUBLE or message[place] != 0x5F:
        return row
    return (kind, place, bits_of_count(int.from_bytes(message[place + 1:place + 5], "big", signed=True)), *rest)


def counts():
    """Small ones, whole numbers, powers of two and the edges of 32 bits with their neighbours, and some by chance."""
    choose = random.Random(11)
    some = [n + d for n in (0, 1000, 1500, 127000, 128000, 32767000, 32768000, *(2**k for k in range(5, 32)))
            for d in (-1, 0, 1)] + list(range(100))
    some += [choose.getrandbits(31) for _ in range(200)]
    return sorted({m for n in some for m in (n, -n) if hessian_format.fits(m, 32)})


def all_counts():
    """A list of them."""
    return samples.open_list(*map(count_form, counts()))


def growing(size):
    """A record in thousandths whose shortest form has so many bytes: doubles, nine for five, and ints in a list."""
    doubles, ints = divmod(size - 2, 9)
    return b"\x57" + count_form(9) * doubles + b"\x90" * ints + b"\x5a"


# ---- processes

def as_nobody():
    """Root may read and write everything: then a case runs as nobody."""
    if os.getuid() == 0:
        os.setgroups([])
        os.setgid(NOBODY)
        os.setuid(NOBODY)


def open_to_all(check, folder):
    """A folder that nobody may use, with a copy of the program there."""
    os.chmod(folder, 0o777)
    shutil.copy(check.program, folder / "program")
    os.chmod(folder / "program", 0o755)
    return [folder / "program", *check.command.split()]


def contents(folder):
    """All that is in a folder, so that nothing is left behind."""
    return {name: (folder / name).read_bytes() for name in sorted(os.listdir(folder)) if (folder / name).is_file()}


def heed_signals(*ignored):
    """Before a program starts: what ends it does so, though it be ignored where this runs, as behind & it is."""
    for number in (signal.SIGHUP, signal.SIGINT, signal.SIGTERM):
        signal.signal(number, signal.SIG_IGN if number in ignored else signal.SIG_DFL)


def wait_until_asleep(process):
    """Until a program waits for a pipe."""
    asleep = 0
    while process.poll() is None and asleep < 3:
        state = Path(f"/proc/{process.pid}/stat").read_text().rpartition(")")[2].split()[0]
        asleep = asleep + 1 if state == "S" else 0
        time.sleep(0.01)


# ---- what every subcommand does with what people get wrong

def check_unread(check, folder, behind=(), standard=()):
    """Files that cannot be read: nothing of them on standard output, and why on standard error. Words may be needed
    behind a name, and to have standard input read."""
    os.mkfifo(folder / "pipe")
    os.mkdir(folder / "folder")
    (folder / "shut").write_bytes(b"\x4e")
    os.chmod(folder / "shut", 0)
    program = open_to_all(check, folder)
    missing = "there is no such file or folder"
    for name, shown, why in [("none", "none", missing), ("folder", "folder", "it is a folder"),
                             ("pipe", "pipe", "it is not a regular file"), ("shut", "shut", "permission is denied"),
                             ("shut/x", "shut/x", "a part of its path is no folder"),
                             ("a\u200bb c", '"a\\u{200b}b c"', missing)]:
        done = subprocess.run([*program, name, *behind], capture_output=True, cwd=folder, preexec_fn=as_nobody)
        check.expect(f"{name} cannot be read", (done.returncode, done.stdout, done.stderr),
                     (2, b"", check.said(f"cannot read {shown}: {why}")))
    closed = subprocess.run(check.arguments(*standard), preexec_fn=lambda: os.close(0), capture_output=True)
    check.expect("no standard input", (closed.returncode, closed.stdout, closed.stderr),
                 (2, b"", check.said("cannot read standard input: Bad file descriptor")))


def check_unwritten(check, folder, words=None):
    """Standard output that is full, closed, or a pipe that no one reads: of records, or of what these words say."""
    (folder / "long").write_bytes(longest())
    failed = check.said("standard output cannot be written")
    for record in words or ([ROOT / "samples/car.rec"], [folder / "long"]):
        with open("/dev/full", "wb") as full:
            check.expect("no room for output", check.run(*record, stdout=full), (2, None, failed))
        check.expect("standard output is closed", check.run(*record, preexec_fn=lambda: os.close(1)), (2, b"", failed))
        unread, output = os.pipe()
        os.close(unread)
        with open(output, "wb") as pipe:
            check.expect("a closed pipe", check.run(*record, stdout=pipe), (-signal.SIGPIPE, None, b""))
            ignored = {"restore_signals": False, "preexec_fn": lambda: signal.signal(signal.SIGPIPE, signal.SIG_IGN)}
            check.expect("a closed pipe, and no signal", check.run(*record, stdout=pipe, **ignored), (2, None, failed))


def check_interrupted(check, folder, reads=(), prints=None):
    """A signal while the program waits for its input, and while its output waits for a reader."""
    (folder / "long").write_bytes(longest())
    pipes = {"stdin": subprocess.PIPE, "stdout": subprocess.PIPE, "stderr": subprocess.PIPE}
    for number in (signal.SIGINT, signal.SIGTERM):
        for what, names in (("input", reads), ("output", prints or [folder / "long"])):
            with subprocess.Popen(check.arguments(*names), preexec_fn=heed_signals, **pipes) as process:
                wait_until_asleep(process)
                process.send_signal(number)
                process.wait()
                check.expect(f"signal {number} while it waits for {what}", (process.returncode, process.stderr.read()),
                             (-number, b""))


def check_options(check, folder, file=samples.RECORDS["car.rec"], behind=()):
    """What is no option is the name of a file, which has these bytes, with words behind it."""
    status, page, errors = check.run("--help")
    usage = f"usage: hessian {check.command.split()[0]} ".encode()
    check.expect("help", (status, page.startswith(usage), errors), (0, True, b""))
    check.expect("help is short for", check.run("-h"), (0, page, b""))
    check.expect("help behind a name", check.run("none", "--help"), (0, page, b""))
    check.expect("help by its beginning", check.run("--he"), (0, page, b""))
    check.expect("help within 110 columns", max(map(len, page.decode().splitlines())) <= 110, True)
    with open("/dev/full", "wb") as full:
        failed = check.said("standard output cannot be written")
        check.expect("no room for help", check.run("-h", stdout=full), (2, None, failed))
    check.expect("no such option", check.run("--x"), check.wrong("there is no option --x, or it is short for several"))
    check.expect("no such letter", check.run("-x"), check.wrong("there is no option -x"))
    check.expect("no such letter behind another", check.run("none", "-xh"), check.wrong("there is no option -x"))
    check.expect("a value too many", check.run("--help=1"), check.wrong("option --help=1 takes no value"))
    (folder / "-h").write_bytes(file)
    check.expect("a name like an option", check.run("--", "-h", *behind, cwd=folder)[::2], (0, b""))


def check_thousandths_option(check, folder):
    """--thousandths anywhere, by its beginning, twice; and what is not that option."""
    (folder / "count").write_bytes(count_form(1500))
    (folder / "--thousandths").write_bytes(count_form(1500))
    by_main_rule, seen = (check.run(*options, stdin=count_form(1500)) for options in ([], ["--thousandths"]))
    check.expect("another rule", (seen[::2], seen[1] == by_main_rule[1]), ((0, b""), False))
    for words in (["-", "--thousandths"], ["--thou"], ["--thousandths", "--thousandths", "-"]):
        check.expect(f"{words}", check.run(*words, stdin=count_form(1500)), seen)
    named = check.run("count", cwd=folder)[1].replace(b"count", b"--thousandths")
    check.expect("a file of this name", check.run("--", "--thousandths", cwd=folder), (0, named, b""))
    check.expect("a value", check.run("--thousandths=1"), check.wrong("option --thousandths=1 takes no value"))
    check.expect("no letter", check.run("-t"), check.wrong("there is no option -t"))


def edges(check):
    """The checks above, for one subcommand."""
    def bound(function):
        return lambda folder: function(check, folder)

    return [bound(function) for function in (check_unread, check_unwritten, check_interrupted, check_options,
                                               check_thousandths_option)]
