#!/usr/bin/env python3
"""Prints what changed since a commit, old and new side by side, as the second half of docs/DESIGN-PASS.md.

    tools/beside.py COMMIT

Types, signatures and clauses of crates/*/src; definitions and theorems of crates/*/specs, and of the proofs/ of scalar, record
and holdings, whose laws stood in specs/ once. A name is looked for in its crate; a name that is gone or new is listed as such.
"""
import collections, difflib, os, re, subprocess, sys

OLD = sys.argv[1]


def run(*words):
    return subprocess.run(words, capture_output=True, text=True, check=True).stdout


def old_files():
    for n in sorted(run("git", "ls-tree", "-r", "--name-only", OLD, "crates").split()):
        if n.endswith((".rt", ".antt")):
            yield n, run("git", "show", f"{OLD}:{n}")


def new_files():
    for n in sorted(run("git", "ls-files", "-co", "--exclude-standard", "crates").split()):
        if n.endswith((".rt", ".antt")) and os.path.exists(n):
            yield n, open(n).read()


def bare(text, mark):
    return "\n".join(l for l in text.split("\n") if not l.strip().startswith(mark))


def dedent(lines):
    least = min((len(l) - len(l.lstrip()) for l in lines if l.strip()), default=0)
    return "\n".join(l[least:].rstrip() for l in lines).strip("\n")


def source_items(text):
    """Functions (signature and clauses), structs, enums, traits and constants of a source: kind, name, text."""
    lines = bare(text, "//").split("\n")
    owner, k = "", 0
    while k < len(lines):
        l = lines[k]
        m = re.match(r"^(?:pub )?(impl\b.*|trait \w+.*|pub trait \w+.*)\{$", l)
        if m:
            owner = re.sub(r"^impl(<[^>]*>)? ", "", l.rstrip("{ ").replace("pub ", "")).strip() + " "
        if l == "}":
            owner = ""
        m = re.match(r"^( *)((?:pub(?:\(crate\))? )?(?:extern \"C\" )?(?:const )?fn (\w+).*)$", l)
        if m and not re.match(r" *(pub )?const \w+:", l):
            ind, body = m[1], [l]
            one = l.rstrip().endswith("{") or l.rstrip().endswith(";")
            j = k
            while not one and j + 1 < len(lines):
                j += 1
                if lines[j].rstrip() == ind + "{" or (lines[j].startswith(ind) and lines[j].rstrip().endswith("> {") and ")" in lines[j]) \
                        or re.match(rf"^{ind}\).*\{{$", lines[j]):
                    if lines[j].rstrip() != ind + "{":
                        body.append(lines[j].rstrip()[:-1].rstrip())
                    break
                body.append(lines[j])
                if lines[j].rstrip().endswith("};") or lines[j].rstrip().endswith(");"):
                    break
            if one:
                body = [l.rstrip("{ ").rstrip()]
            yield ("pub fn" if re.match(r" *(pub (?!\()|.*extern)", l) else "fn"), owner + m[3], dedent(body)
            k = j + 1
            continue
        m = re.match(r"^(?:pub(?:\(crate\))? )?(struct|enum) (\w+).*$", l)
        if m:
            body, j = [l], k
            if not l.rstrip().endswith(";"):
                while lines[j] != "}":
                    j += 1
                    body.append(lines[j])
            yield ("pub type" if l.startswith("pub ") else "type"), m[2], dedent(body)
            k = j + 1
            continue
        m = re.match(r"^ *(ghost (\w+).*)$", l)
        if m and owner and not l.strip().startswith("ghost use"):
            body, j = [l], k
            while not lines[j].rstrip().endswith(";"):
                j += 1
                body.append(lines[j])
            yield "ghost", owner + m[2], dedent(body)
            k = j + 1
            continue
        m = re.match(r"^(?:pub(?:\(crate\))? )?const (\w+): .*;$", l)
        if m:
            yield ("pub const" if l.startswith("pub ") else "const"), m[1], l.strip()
        k += 1


def spec_items(text):
    """Definitions (with their cases) and theorems (their statements) of a file: kind, name, text."""
    lines = [re.sub(r"(^|\s)--.*$", "", l).rstrip() for l in text.split("\n")]
    k = 0
    while k < len(lines):
        l = lines[k]
        ind = len(l) - len(l.lstrip())
        m = re.match(r"^\s*(pub )?(record|data) ([^\s({]+)", l)
        if m:
            body, j = [l], k
            while j + 1 < len(lines) and (not lines[j + 1].strip() or len(lines[j + 1]) - len(lines[j + 1].lstrip()) > ind):
                j += 1
                body.append(lines[j])
            yield "definition", m[3], dedent([b for b in body if b.strip()])
            k = j + 1
            continue
        m = re.match(r"^\s*((?:abbrev |unfoldable )*)(pub )?([^\s:(){}.]+) : (.*)$", l)
        if m and m[3] not in ("let", "in", "pub"):
            body, j = [l], k
            while j + 1 < len(lines) and lines[j + 1].strip() and len(lines[j + 1]) - len(lines[j + 1].lstrip()) > ind \
                    and lines[j + 1].strip() != "where":
                j += 1
                body.append(lines[j])
            if m[1]:
                at = j + 1
                while at < len(lines) and lines[at].strip() and (lines[at].strip().startswith(m[3] + " ") or lines[at].strip() == m[3]
                        or lines[at].strip().startswith("unfolding") or len(lines[at]) - len(lines[at].lstrip()) > ind):
                    body.append(lines[at])
                    at += 1
                j = at - 1
                yield "definition", m[3], dedent(body)
            else:
                yield "theorem", m[3], dedent(body)
            k = j + 1
            continue
        k += 1


def gather(files):
    found = collections.defaultdict(list)
    for n, text in files:
        crate = n.split("/")[1]
        if re.search(r"/src/\w+\.rt$", n):
            for kind, name, it in source_items(text):
                found[(crate, kind.replace("pub ", ""), name)].append((n, kind, it))
        elif re.search(r"/specs/.*\.antt$", n) or (re.search(r"/proofs/.*\.antt$", n) and not re.search(r"(Answers|Invariants)\.antt$", n)):
            for kind, name, it in spec_items(text):
                found[(crate, kind, name)].append((n, kind, it))
    return found


def told(it):
    """The same to a reader: line breaks and spaces aside."""
    return re.sub(r"\s+", " ", re.sub(r",(\s*[)}\]])", r"\1", it))


was, now = gather(old_files()), gather(new_files())
# Theorems and definitions of proofs/ count where they stood in specs/ before, or stand in the crates whose laws moved.
believed = lambda n: "/specs/" in n or "/src/" in n or re.search(r"crates/(scalar|record|holdings)/proofs/", n)


def beside(left, right):
    """Lines of the old with `-`, of the new with `+`, of both with a space."""
    print("```diff")
    rows = difflib.ndiff("\n".join(it[2] for it in left).split("\n"), "\n".join(it[2] for it in right).split("\n"))
    print("\n".join(f"{row[0]}{row[2:]}".rstrip() for row in rows if row[0] in "-+ "))
    print("```\n")


SECTIONS = [("type", "Types"), ("const", "Constants"), ("fn", "Signatures and clauses"), ("ghost", "Ghost members"),
            ("definition", "Definitions"), ("theorem", "Theorems")]
for kind, title in SECTIONS:
    print(f"## {title}\n")
    names = sorted({k for k in [*was, *now] if k[1] == kind})
    gone, fresh = [], []
    for key in names:
        crate, _, name = key
        before = [it for it in was.get(key, []) if believed(it[0])]
        after = now.get(key, [])
        if not before:
            if key not in was and any(believed(it[0]) for it in after):
                fresh.append(key)
            continue
        if not after:
            gone.append(key)
            continue
        left = [it for it in before if not any(told(it[2]) == told(x[2]) for x in after)]
        right = [it for it in after if not any(told(it[2]) == told(x[2]) for x in before)]
        if not left:
            continue
        public = "" if kind not in ("fn", "type", "const") or left[0][1].startswith("pub") else " (not public)"
        where = sorted({"/".join(it[0].split("/")[2:]) for it in left + (right or after)})
        print(f"### {crate}: {name}{public}\n\n{', '.join(f'`{w}`' for w in where)}\n")
        beside(left, right or after)
    for label, them in (("New", fresh), ("Gone", gone)):
        if them:
            print(f"{label}: " + "; ".join(f"{c} `{n}`" for c, _, n in them) + ".\n")
