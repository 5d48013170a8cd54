#!/usr/bin/env python3
"""Counts the places that docs/DESIGN-PASS.md speaks of, in crates/*/src of a commit or of this tree.

    tools/places.py [COMMIT] [--list]

A line for each point, with its counts; --list also names each place. What is counted is said beside each count.
"""
import collections, re, subprocess, sys

args = [a for a in sys.argv[1:] if not a.startswith("--")]
LIST = "--list" in sys.argv
COMMIT = args[0] if args else None


def run(*words):
    return subprocess.run(words, capture_output=True, text=True, check=True).stdout


def tree():
    if COMMIT:
        names = run("git", "ls-tree", "-r", "--name-only", COMMIT, "crates").split()
    else:
        names = run("git", "ls-files", "-co", "--exclude-standard", "crates").split()
    for name in sorted(names):
        if re.fullmatch(r"crates/\w+/src/\w+\.rt", name):
            yield name, (run("git", "show", f"{COMMIT}:{name}") if COMMIT else open(name).read())


SOURCES = dict(tree())


def code(text):
    """The text with comments blanked, so that lines keep their numbers."""
    return re.sub(r"//[^\n]*", "", text)


def line_of(text, at):
    return text.count("\n", 0, at) + 1


def braces(text, at):
    """The end of the block whose `{` is at or after `at`."""
    at = text.index("{", at)
    depth = 0
    for k in range(at, len(text)):
        depth += {"{": 1, "}": -1}.get(text[k], 0)
        if depth == 0:
            return k + 1
    return len(text)


FN = re.compile(r"^ *(?:pub(?:\(crate\))? )?(?:extern \"C\" )?fn (\w+)(?:<[^(]*>)?\(", re.M)


def functions():
    """Each function: file, line, name, signature with its clauses, body."""
    for name, text in SOURCES.items():
        bare = code(text)
        for m in FN.finditer(bare):
            # A function's body is the first block that begins a line of its own, or ends the signature's line.
            body = re.compile(r"\n *\{\n|\) (?:-> [^{\n;]+ )?\{\n").search(bare, m.start())
            if not body:
                continue
            start = body.end() - 2
            yield name, line_of(bare, m.start()), m[1], bare[m.start():start], bare[start:braces(bare, start)]


FUNCTIONS = list(functions())


def enums():
    for name, text in SOURCES.items():
        bare = code(text)
        for m in re.finditer(r"enum (\w+) \{", bare):
            yield name, line_of(bare, m.start()), m[1], bare[m.end() - 1:braces(bare, m.start())]


NONE_NAMES = r"No\w+|Absent|Nothing|End|Stuck|Unnamed|Refused|Faulty|Stopped|TooFew|TooLong"


def variants(body):
    found, depth, word = [], 0, ""
    for c in body[1:-1]:
        depth += {"{": 1, "(": 1, "}": -1, ")": -1}.get(c, 0)
        if c == "," and depth == 0:
            found.append(word.strip())
            word = ""
        else:
            word += c
    return [it for it in found + [word.strip()] if it]


def own_results():
    """1a: enums with a variant for a refusal, or for nothing beside variants that hold a value."""
    for name, line, enum, body in enums():
        if re.search(r"Error\b|Unwritten|Refusal\b", enum):
            continue
        them = variants(body)
        plain = [it for it in them if re.fullmatch(r"\w+( = \d+)?", it)]
        empty = [it for it in them if re.match(rf"(?:{NONE_NAMES})\b", it)]
        holds = [it for it in them if it not in plain and it not in empty]
        if empty and holds and enum not in ("CharLead", "Lead"):
            yield name, line, enum


def numbers_for_kinds():
    """1b: constants and parameters that are numbers of refusals, kinds or shapes."""
    for name, text in SOURCES.items():
        for k, row in enumerate(code(text).split("\n"), 1):
            if re.match(r"\s*pub(\(crate\))? const (?!LONGEST|MARK_SIZE)\w+: (u8|u64) = \d+;", row):
                if re.search(r"refusals|kinds|heads", name):
                    yield name, k, row.strip()
            elif re.search(r"\b(number: u8|kind: u64|shape: u64|number: u64, place)", row):
                yield name, k, row.strip()


def none_by_number():
    """1c: numbers that stand for nothing, by their comments: 0 where .., 0 is nothing, 16 for any other."""
    for name, text in SOURCES.items():
        for k, row in enumerate(text.split("\n"), 1):
            if re.search(r"//.*\b(0|16) (where|is nothing|for any|if)|^// 0\.|; or$", row) and "DESIGN" not in row:
                if re.search(r"\b(0|16)\b", row):
                    yield name, k, row.strip()


KEYWORDS = set("""as break const continue else enum extern false fn for if impl in let loop match mod move mut pub ref return self
static struct trait true type unsafe use where while usize u64 u32 u16 u8 i64 i32 i16 bool""".split())


def shape(body):
    words = re.findall(r"0x[0-9a-f_]+|\d[\d_]*|\w+|=>|==|!=|<=|>=|\S", body)
    names = {}
    out = []
    for it in words:
        if it in KEYWORDS and not re.fullmatch(r"(usize|[ui]\d+)", it):
            out.append(it)
        elif re.match(r"\d", it):
            out.append("N")
        elif re.match(r"\w", it):
            out.append("T" if re.fullmatch(r"(usize|[ui]\d+)|[A-Z]\w*", it) else "x")
        else:
            out.append(it)
    return " ".join(out)


def twins():
    """2a: functions whose bodies, of 14 words or more, differ only in names, types and numbers (all but the first of each shape)."""
    by = collections.defaultdict(list)
    for name, line, fn, head, body in FUNCTIONS:
        it = shape(body)
        if len(it.split()) >= 14:
            by[it].append((name, line, fn))
    for group in by.values():
        yield from [(n, k, f"{fn} as {group[0][2]}") for n, k, fn in group[1:]]


def said_twins():
    """2b: functions whose comment says that they are the same as another."""
    for name, text in SOURCES.items():
        for m in re.finditer(r"^// [^\n]*\b(The same|As \w+,|likewise)[^\n]*\n(?:// [^\n]*\n)*(?:#\[[^\n]*\n)*( *(?:pub(?:\(crate\))? )?(?:extern \"C\" )?fn \w+)", text, re.M):
            yield name, line_of(text, m.start(2)), m[2].strip()


def index_loops():
    """3: `while` and `loop` loops (all; those that count an index are among them)."""
    for name, line, fn, head, body in FUNCTIONS:
        for m in re.finditer(r"\b(while (?!let)[^{\n]+|loop) \{", body):
            inner = body[m.end() - 1:braces(body, m.start())]
            if re.search(r"\b\w+ [+-]= ", inner):
                yield name, line + head.count("\n") + body.count("\n", 0, m.start()), f"{fn}: {m[1]}"


def by_hand():
    """4: functions that compare, copy, convert or print by hand, by their names."""
    for name, line, fn, head, body in FUNCTIONS:
        if re.fullmatch(r"same\w*|is_value|is_refused|blank|kind_of|sort_of|numbers_of\w*|copy_\w+|put_bytes|block_at|put_block|"
                        r"say_number|say|least|bits_of|of_bits|wide|four\w*|eight_\w+|number_at|store_number|line_end|fill|clear", fn):
            yield name, line, fn


def repeated_facts():
    """5a: facts of `requires` (names of arguments aside) in the contracts of three functions or more, in one crate."""
    by = collections.defaultdict(list)
    for name, line, fn, head, body in FUNCTIONS:
        for clause in re.findall(r"requires \{(.*?)\}\n", head + "\n", re.S):
            for fact in re.split(r"×", clause):
                words = re.sub(r"\s+", " ", fact.replace("(", " ").replace(")", " ")).strip()
                key = re.sub(r"\b(\w+)\.(?!size|next|at\b|row)\w+", r"\1", words)
                by[(name.split("/")[1], key)].append((name, line, fn))
    for (crate, fact), where in by.items():
        if len(where) >= 3:
            yield where[0][0], where[0][1], f"{len(where)} times: {fact}"


def together():
    """5b: three parameters, or two slices, that follow each other in the signatures of three functions or more of a crate."""
    by = collections.defaultdict(set)
    for name, line, fn, head, body in FUNCTIONS:
        m = re.match(r"[^(]*\((.*?)\)\s*(->|requires|ensures|$)", re.sub(r"\s+", " ", head))
        if not m:
            continue
        them = [re.sub(r"\s+", " ", it).strip() for it in m[1].split(",") if it.strip()]
        for k in range(len(them) - 2):
            by[(name.split("/")[1], tuple(them[k:k + 3]))].add((name, line, fn))
    for (crate, group), where in by.items():
        if len(where) >= 3:
            first = sorted(where)[0]
            yield first[0], first[1], f"{len(where)} functions: {', '.join(group)}"


def two_slices():
    """6: two slices or buffers of which one is empty; an array with its counts in it; empty arrays lent for nothing."""
    for name, text in SOURCES.items():
        bare = code(text)
        for m in re.finditer(r"numbers: &(?:mut )?\[u64\],\s*bytes: &(?:mut )?\[u8\]|pairs: &mut \[u64\],\s*encoded: &mut \[u8\]|"
                             r"\[u64; KNOWN\]|let (?:mut )?\w+(?:: \[u\d+; 0\])? = (?:\[0u?\d*; 1\]|\[\]);", bare):
            yield name, line_of(bare, m.start()), re.sub(r"\s+", " ", m[0])


def steps():
    """7: tables of functions, function pointers, and switches whose every arm calls one function with the same arguments."""
    for name, line, fn, head, body in FUNCTIONS:
        if re.search(r"\[fn\(|: fn\(", head + body):
            yield name, line, fn
        for m in re.finditer(r"match [^{]+\{", body):
            inner = body[m.end():braces(body, m.start()) - 1]
            calls = re.findall(r"=> ([\w:]+)\(([^()]*)\),", inner)
            arms = inner.count("=>")
            if arms >= 3 and len(calls) == arms and len({c for c, _ in calls}) == arms and len({a for _, a in calls}) == 1:
                yield name, line, f"{fn}: {m[0].strip()}"


def answers():
    """8: lines of proofs/*/Answers.antt and Invariants.antt, and answers in them."""
    if COMMIT:
        names = [n for n in run("git", "ls-tree", "-r", "--name-only", COMMIT, "crates").split()]
        read = lambda n: run("git", "show", f"{COMMIT}:{n}")
    else:
        names = run("git", "ls-files", "-co", "--exclude-standard", "crates").split()
        read = lambda n: open(n).read()
    for n in sorted(names):
        if re.search(r"/proofs/.*(Answers|Invariants)\.antt$", n):
            text = read(n)
            yield n, 1, f"{len(re.findall(r'^pub [a-z].* : goal', text, re.M))} answers, {text.count(chr(10))} lines"


POINTS = [
    ("1a own enums shaped like Option or Result", own_results),
    ("1b numbers for kinds, shapes and refusals", numbers_for_kinds),
    ("1c numbers that stand for nothing", none_by_number),
    ("2a functions of one shape", twins),
    ("2b functions that say they are the same", said_twins),
    ("3  loops that count by hand", index_loops),
    ("4  comparing, copying, converting, printing by hand", by_hand),
    ("5a facts in three contracts or more", repeated_facts),
    ("5b parameters that travel together", together),
    ("6  two slices of which one is empty, counts in an array", two_slices),
    ("7  switches on a step, tables of functions", steps),
    ("8  files of answers", answers),
]

for title, find in POINTS:
    them = list(find())
    print(f"{len(them):4}  {title}")
    if LIST:
        for name, line, what in them:
            print(f"        {name}:{line}: {what}")
