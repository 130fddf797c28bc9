#!/usr/bin/env python3
"""Spells the repository's own names of definitions and lemmas as today's Rattle does: words in snake case, types in camel case.

usage: tools/respell.py [--check]

It was run once, after /opt/rattle/port/port.py, and goes by text: each name that the .antt files of crates/ declare, with a dash or in camel
case, gets its new spelling in the .antt and .rt files (in clauses and ghost items alone, since Rust's names have neither) and in the must-fail
edits. A name behind a dot stays in a Proof.antt where Rattle makes it. Names that would fall together stop the script.
"""

import collections
import glob
import re
import sys

WORD = re.compile(r'[^\s(){}.;,@"«»]+')
QUIET = re.compile(r'"(?:[^"\\\n]|\\.)*"|(?<![^\s(){}.;,@"«»])--[^\n]*|\{-.*?-\}', re.S)
DECLARED = re.compile(
    r"(?m)^ *(?:(?:abbrev|unfoldable|pub|data|record|where) )*([^\s(){}.;,@\"«»]+(?: [^\s(){}.;,@\"«»:]+)*)(?: \{[^{}\n]*\})* *:(?=\s)"
)
# Local names and parameters of modules and types: (x-y : T), {x-y : T}, let x-y =, λ x-y.
LOCAL = re.compile(r"[({]([^(){}:=→]*) : |\blet ([^\s(){}.;,=]+) |λ ([^.(){}]*)\.|(?<=\S as )([^\s,;{}]+)(?=[,}])")
TYPE = re.compile(r":(?:[^\n]|\n +)*?Type 0\s*(?:where\s*)?$")
# What Rattle makes, and what has two parts by a rule of its own.
KEPT = {"is_IsLeaf"}
# Lemmas that port.py spelled like a definition's new name.
PORTED = {"all_in": "all_in_law", "count_at": "count_at_law", "first_cell": "first_cell_law", "holds_at": "holds_at_law"}
# Fields of a record beside the definitions of those names.
CHOSEN = {"givens-at": "givens_placed", "identifiers-at": "identifiers_placed", "nodes-at": "nodes_placed", "some-refused": "some_refused", **PORTED}
# Operators that port.py respelled where they are used, and not where they are declared.
OPERATORS = {"and_then", "or_else"}
# A function's proof that walks the code: what it declares stands nowhere else.
WALK = re.compile(r"/proofs/[^/]+/.*Proof")


def texts():
    for part in ("specs", "proofs"):
        yield from sorted(glob.glob(f"crates/*/{part}/**/*.antt", recursive=True))


def is_old(word):
    dash = "-" in word and re.search(r"[a-zA-Z]-|-[a-zA-Z]", word)
    return bool(dash) or bool(word[:1].islower() and re.search(r"[a-z0-9][A-Z]", word))


def is_type(name, text):
    head = re.compile(r"(?m)^ *(?:(?:abbrev|unfoldable|pub|data|record) )*" + re.escape(name) + r"(?: [({][^\n]*[)}])? *:((?:[^\n]|\n +(?=\S))*)")
    m = head.search(text)
    return bool(m and re.search(r"Type 0( where)?\s*$", m.group(1).split("\n")[0].strip()))


def respelled(name, a_type):
    if a_type and name[0].isupper():
        return "".join(p[:1].upper() + p[1:] for p in name.split("-"))
    name = name[0].lower() + name[1:] if "-" in name else name
    name = re.sub(r"(?<=[a-z0-9])[A-Z]", lambda m: "_" + m[0].lower(), name)
    return name.replace("-", "_")


def table():
    """Old names with their new ones. A lemma whose new name would be that of a definition gets '_law' behind it."""
    rows, words, walked = {}, set(), set()
    for path in texts():
        text = QUIET.sub("", open(path, encoding="utf-8").read())
        walk = bool(WALK.search(path))
        if not walk:
            words |= set(WORD.findall(text)) - OPERATORS
        found = [w for m in DECLARED.finditer(text) for w in m.group(1).split()]
        found += [w for m in LOCAL.finditer(text) for part in m.groups() if part for w in part.split()]
        found += [part for name in found if "◌" in name for part in name.split("◌") if part]
        for name in found:
            if is_old(name.strip("◌")) and name not in KEPT and WORD.fullmatch(name):
                new = respelled(name, is_type(name, text))
                if rows.get(name, new) != new:
                    new = max(new, rows[name], key=lambda it: it[0].isupper())
                if walk and name not in rows:
                    walked.add(name)
                if not walk:
                    walked.discard(name)
                rows[name] = new
    back = collections.defaultdict(set)
    for old, new in rows.items():
        back[new].add(old)
    for new, olds in back.items():
        for old in olds:
            if len(olds) == 1 and new not in words:
                continue
            if old in walked:
                del rows[old]
            elif "-" in old:
                rows[old] = new + "_law"
    rows.update(CHOSEN)
    return rows, words


def turned(text, rows, walk):
    """The text with its names turned. In a walk a name behind a dot is one that Rattle makes, but behind a module's name."""
    modules = set(re.findall(r" as ([^\s();{}]+)", text)) - {"tie"}

    def word(m):
        old, at = m.group(0), m.start()
        if old not in rows:
            return old
        if walk and text[at - 1 : at] == ".":
            head = re.search(r"([^\s(){};,.]*)\.$", text[max(0, at - 60) : at])
            if not head or head.group(1) not in modules:
                return old
        return rows[old]

    return WORD.sub(word, text)


def main(check):
    rows, words = table()
    back = collections.defaultdict(set)
    for old, new in rows.items():
        back[new].add(old)
    met = [f"{new}: {' '.join(sorted(olds))}" for new, olds in sorted(back.items()) if len(olds) > 1 or new in words - set(rows)]
    if met:
        print("\n".join(met))
        return 1
    paths = list(texts()) + sorted(glob.glob("crates/*/src/*.rt")) + sorted(glob.glob("crates/*/must-fail/*.edit"))
    n = 0
    for path in paths:
        with open(path, encoding="utf-8") as f:
            old = f.read()
        use = rows if path.endswith(".antt") else {o: w for o, w in rows.items() if o not in PORTED}
        new = turned(old, use, bool(WALK.search(path)))
        n += new != old
        if new != old and not check:
            with open(path, "w", encoding="utf-8") as f:
                f.write(new)
    print(f"{len(rows)} names, {n} files")
    return 0


if __name__ == "__main__":
    sys.exit(main(sys.argv[1:] == ["--check"]))
