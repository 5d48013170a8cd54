#!/usr/bin/env python3
"""Brings the repository's own definitions and lemmas to today's spelling: words in snake case, types in camel case.

usage: python3 tools/respell.py     at the top of the repository, once, after port.py, with everything committed

It reads which names the files of specs/ and proofs/ declare (files Proof.antt apart), and respells each that has a dash
or a capital inside: `itemRow` and `number-length` become `item_row` and `number_length`, `Value-here` becomes
`ValueHere`. Where a definition and a lemma fall together, as `itemRow` and `item-row`, the lemma gets `_law` after it.
It rewrites specs/, proofs/, contracts in src/, must-fail edits and, in quotes, README.md and docs/. Names of the kit,
functions of src/, exported C names, strings, inputs and outputs keep their names. In comments and pages only quoted
names and names with a capital inside are respelled.
"""

import collections
import glob
import re
import sys

NAME = r"[^\s(){}.;,@\"«»]+"
DECLARED = re.compile(
    r"^\s*(?:abbrev |unfoldable |pub |ruleset )*(" + NAME + r")(?: " + NAME + r")* :(?= |$)"
)
TYPE = re.compile(r"^\s*(?:pub )?(?:data|record) (" + NAME + r")")
FIELDS = re.compile(r"record \{([^{}]*)\}")
FIELD = re.compile(r"(?:^|;)\s*(" + NAME + r")\s*:")
USE = re.compile(r"\buse\s+([\w.·'-]+?)\.\{([^}]*)\}", re.S)


# Where a constructor or a field falls together with a definition, it gets a name of its own.
APART = {
    "record_of": "the_record",
    "reads_as": "reads_record",
    "same_row": "row_same",
    "type-name": "type_spelled",
    "type-number": "type_numbered",
    "few-typed": "few_of_type",
    "few-object": "few_fields",
    "counted-typed": "counted_typed_head",
    "open-list": "open_list_head",
    "open-typed": "open_typed_head",
    "typed-map": "typed_map_head",
    "Row-here": "RowStanding",
    # the kit has a word of this name
    "are-bytes": "bytes_test",
}


def read(path):
    with open(path, encoding="utf-8", newline="") as f:
        return f.read()


def antt():
    for part in ("specs", "proofs"):
        yield from glob.glob(f"crates/*/{part}/**/*.antt", recursive=True)


def plain(word):
    """Whether a word is of today's spelling already, or no name."""
    if not re.match(r"[A-Za-z]", word):
        return True
    if word[0].isupper():
        return "-" not in word
    return not re.search(r"[A-Z]|\w-\w", word)


def respelled(word):
    if word[0].isupper():
        head, *rest = word.split("-")
        return head + "".join(r[:1].upper() + r[1:] for r in rest)
    word = re.sub(r"(?<=[a-z0-9])([A-Z])", lambda m: "_" + m[1].lower(), word)
    return word.replace("-", "_")


def declared():
    names = set()
    for path in antt():
        if path.endswith("Proof.antt"):
            continue
        text = read(path)
        for line in text.splitlines():
            line = line.split(" -- ")[0]
            for pattern in (DECLARED, TYPE):
                m = pattern.match(line)
                if m:
                    names.add(m[1])
                    for more in line[: line.find(" :")].split() if pattern is DECLARED and " :" in line else []:
                        names.add(more)
        for body in FIELDS.findall(text):
            names.update(FIELD.findall(body))
    return {n for n in names if n not in ("abbrev", "pub", "unfoldable", "ruleset", "data", "record")}


def table():
    """Old name to new name."""
    names = declared()
    groups = collections.defaultdict(list)
    for n in names:
        groups[respelled(n)].append(n)
    new = {}
    for to, of in groups.items():
        if len(of) == 1:
            if not plain(of[0]) and of[0] != to:
                new[of[0]] = to
            continue
        # a definition has a capital inside; the others are laws
        camel = [n for n in of if re.search(r"[a-z0-9][A-Z]", n)]
        if not camel:
            camel = [n for n in of if plain(n)]
        for n in of:
            if n in camel:
                if n != to:
                    new[n] = to
            else:
                new[n] = to + "_law"
    new.update((k, v) for k, v in APART.items() if k in names)
    return new


def of_source(new):
    """The names for src/, comments and pages: a function may have the name of a lemma in snake case, and keeps it."""
    return {k: v for k, v in new.items() if not plain(k)}


def kit_names(text):
    """The words that a file takes from the kit's modules."""
    kit = set()
    for module, names in USE.findall(text):
        own = re.match(r"Rattle\.(\w+)\.", module)
        if own and own[1] in OWN:
            continue
        for n in names.split(","):
            n = n.strip().split(" as ")[-1].strip()
            kit.add(n.split(".")[-1])
            kit.add(n)
    return kit


def own_imports(text):
    own = set()
    for module, names in USE.findall(text):
        m = re.match(r"Rattle\.(\w+)\.", module)
        if m and m[1] in OWN:
            own.update(n.strip().split(" as ")[0].strip() for n in names.split(","))
    return own


TOKEN = re.compile(r"--[^\n]*|\"(?:[^\"\\]|\\.)*\"|" + NAME)
RUST_TOKEN = re.compile(r"//[^\n]*|b?\"(?:[^\"\\]|\\.)*\"|b'(?:\\.[^']*|[^'\\])'|" + NAME)
QUOTED = re.compile(r"`[^`\n]*`")
BARE = re.compile(r"[A-Za-z][\w'?₀-₉-]*")


def in_prose(text, new):
    """A comment or a page: quoted names, and names with a capital inside."""
    text = QUOTED.sub(lambda m: BARE.sub(lambda k: new.get(k[0], k[0]), m[0]), text)
    camel = re.compile(r"(?<![\w.-])[a-z][a-z0-9]*(?:[A-Z][a-z0-9]*)+(?:-[a-z0-9]+)*(?![\w-])")
    return camel.sub(lambda k: new.get(k[0], k[0]), text)


def in_code(text, new, token=TOKEN):
    kit = kit_names(text)
    prose = of_source(new)

    def turned(m):
        t = m[0]
        if t.startswith(("--", "//")):
            return in_prose(t, prose)
        if t.startswith(('"', 'b"', "b'")):
            return t
        return t if t in kit else new.get(t, t)

    return token.sub(turned, text)


def main():
    global OWN
    OWN = {p.split("/")[1] for p in glob.glob("crates/*/src")}
    new = table()
    in_source = of_source(new)
    changed = 0

    def put(path, text, old):
        nonlocal changed
        if text != old:
            with open(path, "w", encoding="utf-8", newline="") as f:
                f.write(text)
            changed += 1

    for path in antt():
        old = read(path)
        if path.endswith("Proof.antt"):
            own = own_imports(old)
            put(path, in_code(old, {k: v for k, v in new.items() if k in own}), old)
        else:
            put(path, in_code(old, new), old)
    for path in glob.glob("crates/*/src/**/*.rt", recursive=True):
        old = read(path)
        put(path, in_code(old, in_source, RUST_TOKEN), old)
    for path in glob.glob("crates/*/must-fail/*.edit"):
        old = read(path)
        is_source = ".rt" in old.split("file: ")[1].split("\n")[0]
        put(path, "".join(
            (in_code(l, in_source, RUST_TOKEN) if is_source else in_code(l, new))
            if l.startswith(("old:", "new:")) else in_prose(l, in_source)
            for l in old.splitlines(keepends=True)), old)
    for path in ["README.md", "CONTRIBUTING.md", *glob.glob("docs/*.md")]:
        old = read(path)
        put(path, in_prose(old, in_source), old)
    print(f"respell: {len(new)} names in {changed} files")
    for k, v in sorted(new.items()):
        if v.endswith("_law") or k in APART:
            print(f"apart: {k} -> {v}")
    return 0


if __name__ == "__main__":
    sys.exit(main())
