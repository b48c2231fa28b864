#!/usr/bin/env python3
"""Respells this repository's own definitions and lemmas: words in snake case, types in camel case.

usage: python3 tools/respell.py          at the top of the repository, once, right after the kit's port.py

A name is one that specs/*.antt or proofs/*.antt declares (or binds) with a hyphen, and does not import from
the kit. Turned are whole words in the .antt files, and in the clauses, ghost items and `code spans` of the .rt
files. Generated names of a function's goals (behind 'c.', 'l.' and 'goal.') keep their hyphens, but for those
that are a function's own name. It prints the table of names.
"""
import collections
import glob
import re

PART = r"[A-Za-z_ℤℕ'][A-Za-z0-9_ℤℕ']*"
NAME = re.compile(rf"(?<![\w'ℤℕ-]){PART}(?:-[A-Za-z0-9_ℤℕ']+)+(?![\w'ℤℕ-])")
USE = re.compile(r"^\s*(?:pub )?use ([\w.'·]+)\.\{([^}]*)\}", re.M)
COMMENT = re.compile(r"--.*")
LOCAL = {"B-lots": "b_lots", "S-lots": "s_lots"}


def respelled(name):
    """The new spelling: a type's first letter is a capital, a word's is not."""
    if name in LOCAL:
        return LOCAL[name]
    parts = name.split("-")
    if name[0].isupper():
        return "".join(p[0].upper() + p[1:] for p in parts)
    return "_".join(parts)


def read(path):
    with open(path, encoding="utf-8") as f:
        return f.read()


def imports(text):
    """The names that a file imports, by the module's first word."""
    for module, items in USE.findall(text):
        for item in items.split(","):
            yield module, item.strip().split(" as ")[-1].strip()


def declared():
    names = set()
    for path in glob.glob("crates/*/specs/*.antt") + glob.glob("crates/*/proofs/*.antt"):
        text = COMMENT.sub("", read(path))
        imported = {n for _, n in imports(text)}
        names |= set(NAME.findall(USE.sub("", text))) - imported
    return names


def functions():
    return {f for p in glob.glob("crates/*/src/*.rt") for f in re.findall(r"\bfn (\w+)", read(p))}


def turn(text, table, fns):
    """Turns the names of a text of antt."""
    own = {n for m, n in imports(text) if not re.match(r"Rattle\.(sorchuqe|notation|lookup|sweep|terms|rows|moves|book|ledger)\.", m)}

    def one(m):
        old = m.group(0)
        if old not in table or old in own:
            return old
        before = text[max(0, m.start() - 12):m.start()]
        if re.search(r"(?<![\w.])(c|l|goal)\.$", before) and table[old] not in fns:
            return old
        return table[old]

    return NAME.sub(one, text)


# Of Rust: quoted text and comments, which stay, but for code spans in comments.
RUST = re.compile(r'"(?:\\.|[^"\\])*"|//[^\n]*')


def turn_rust(text, table):
    out, at = [], 0
    plain = lambda t: NAME.sub(lambda m: table.get(m.group(0), m.group(0)), t)
    for m in RUST.finditer(text):
        out.append(plain(text[at:m.start()]))
        piece = m.group(0)
        out.append(re.sub(r"`[^`]*`", lambda s: plain(s.group(0)), piece) if piece.startswith("//") else piece)
        at = m.end()
    return "".join(out) + plain(text[at:])


def main():
    table = {n: respelled(n) for n in declared()}
    fns = functions()
    back = collections.defaultdict(set)
    for old, new in table.items():
        back[new].add(old)
    for new, olds in back.items():
        if len(olds) > 1:
            raise SystemExit(f"two names fall together: {new}")
    for path in glob.glob("crates/**/*.antt", recursive=True):
        text = read(path)
        with open(path, "w", encoding="utf-8") as f:
            f.write(turn(text, table, fns))
    for path in glob.glob("crates/*/src/*.rt"):
        text = read(path)
        with open(path, "w", encoding="utf-8") as f:
            f.write(turn_rust(text, table))
    for old in sorted(table):
        print(f"{old}\t{table[old]}")


main()
