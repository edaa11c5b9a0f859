#!/usr/bin/env python3
"""Brings the names of the repository's own definitions and lemmas to today's spelling: words in snake case. Run once from the repository's root, after port.py.

A definition `rowAt` is now `row_at`. A lemma's dash stays where it joins two names of definitions, as in `length-over`, and is `_` elsewhere. Where two names
fall together, or a name of the code's fields and parameters would hide one, the lemma gets `_lem` and the definition `_value`. Names of src/, exported names
and strings keep their spelling. It turns specs/, proofs/, the clauses of src/, must-fail edits, and what docs/ and the tests' scripts cite.
It prints the pairs of names that it kept apart.
"""
import glob
import re
import sys

STD = {"length", "take", "drop", "append", "set", "map", "reverse", "sum", "zero", "suc", "min", "max", "get_or", "slice_index", "bit_and", "bit_or", "bit_xor"}
HEAD = re.compile(r"^( *)(abbrev |unfoldable )?(pub )?(record |data )?([^\s:({,;.]+)(?: +\{[^}]*\})* *:(?= |$)")
NAMED = re.compile(r"^( *)(abbrev |unfoldable )?(pub )?(record |data )([^\s:({,;]+)")
TOKEN = re.compile(r"[^\s(){}\[\];,.`\"⌜⌝]+")
# a line of a function's own proof answers a goal by its name, and such a name is Rattle's
GOAL = re.compile(r"^(returns|loop|if|in|then|else|same-length|shared-slice|slice-|add-|sub-|mul-|cast-|rem-|div-|overflow|bounds|nonzero)|-(requires|spec)(-\d+)?$")


def read(path):
    with open(path, encoding="utf-8") as f:
        return f.read()


def own_files():
    """The files of definitions and lemmas; the files that belong to a function's proof."""
    lemmas = glob.glob("crates/*/specs/**/*.antt", recursive=True) + glob.glob("crates/*/proofs/*.antt")
    return sorted(lemmas), sorted(set(glob.glob("crates/*/proofs/**/*.antt", recursive=True)) - set(lemmas))


def declared(path):
    for line in read(path).split("\n"):
        head = HEAD.match(line) or NAMED.match(line)
        if head and not head.group(5).startswith("--"):
            yield head.group(5), bool(head.group(2))


def words(name):
    """The parts between dashes, each in snake case."""
    parts = [re.sub(r"(?<=[a-z0-9])(?=[A-Z])", "_", p) for p in name.split("-")]
    return [p if re.match(r"[A-Z]+[a-z]", p) else p.lower() for p in parts]


def source_names():
    """Fields, parameters and constants of src/, which a definition may not be called."""
    found = set()
    for path in glob.glob("crates/*/src/*.rt"):
        text = read(path)
        found |= set(re.findall(r"(?:pub )?(\w+): ", text)) | set(re.findall(r"(?:const|type) (\w+)", text))
    return found


def mapping():
    lemmas, proofs = own_files()
    made, defined = {}, set()
    for path in lemmas:
        for name, is_definition in declared(path):
            made.setdefault(name, False)
            made[name] = made[name] or is_definition
    for path in proofs:
        for name, is_definition in declared(path):
            if not GOAL.search(name) and not re.match(r"invariant-|decreases-", name):
                made.setdefault(name, is_definition)
    defined = {"_".join(words(n)) for n, d in made.items() if d} | STD
    taken = {n for n in made if re.match(r"[A-Z]", n) or "_".join(words(n)) == n}
    fields, turned, apart = source_names(), {}, []
    # definitions first, so that where two fall together the lemma gives way
    for name in sorted(made, key=lambda n: (not made[n], n)):
        if name in taken or re.match(r"[A-Z]", name) or not re.search(r"[A-Za-z]", name):
            continue
        parts = words(name)
        new = parts[0]
        for before, part in zip(parts, parts[1:]):
            new += ("-" if not made[name] and before in defined and part in defined else "_") + part
        if new == name:
            continue
        while new in taken or new in fields:
            new += "_value" if made[name] else "_lem"
        if new.endswith(("_value", "_lem")):
            apart.append((name, new))
        turned[name] = new
        taken.add(new)
    # what a `use` line or a pattern calls something by
    for path in lemmas + proofs:
        for name in re.findall(r"\b[a-z]+(?:[A-Z][a-z]+)+\b", "\n".join(x.split("--")[0] for x in read(path).split("\n"))):
            new = "_".join(words(name))
            if name not in turned and new not in taken:
                turned[name] = new
            elif name not in turned:
                turned[name] = new + "_value"
    return turned, apart


def turn(text, turned):
    return TOKEN.sub(lambda m: turned.get(m.group(0), m.group(0)), text)


def turn_line(line, turned, mark):
    """Code is turned; of a comment only what is in backticks or has a hump."""
    code, sign, comment = line.partition(mark)
    if sign:
        comment = TOKEN.sub(lambda m: turned.get(m.group(0), m.group(0)) if re.match(r"[a-z]\w*[A-Z]", m.group(0)) else m.group(0), comment)
    return turn(code, turned) + sign + quoted(comment, turned)


def quoted(text, turned):
    return re.sub(r"`[^`\n]*`", lambda m: turn(m.group(0), turned), text)


def main():
    turned, apart = mapping()
    for path in glob.glob("crates/**/*.antt", recursive=True):
        write(path, "\n".join(turn_line(x, turned, "--") for x in read(path).split("\n")))
    for path in glob.glob("crates/*/src/*.rt"):
        write(path, "\n".join(turn_line(x, turned, "//") for x in read(path).split("\n")))
    for path in glob.glob("crates/*/must-fail/*.edit"):
        write(path, "\n".join(turn(x, turned) if re.match(r"old: |new:", x) else quoted(x, turned) for x in read(path).split("\n")))
    for path in ["README.md"] + glob.glob("docs/*.md"):
        write(path, quoted(read(path), turned))
    for name, new in apart:
        print(f"{name} is {new}")
    print(f"{len(turned)} names turned")


def write(path, text):
    if text != read(path):
        with open(path, "w", encoding="utf-8") as f:
            f.write(text)


if __name__ == "__main__":
    sys.exit(main())
