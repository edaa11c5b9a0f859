#!/usr/bin/env python3
"""Tries each must-fail edit on a copy of the repository and reads what the prover says of it. Run from the repository's root, after the proofs.

An edit holds wrong bodies or definitions; before each, lines say who must refuse it by a fact of its own, not because something below it is refused.
`# refused: fn NAME`, a function: the log has an error in its own proof files, or says that a search did not prove one of its goals.
`# refused: specs/FILE`, a file of laws or theorems: the log has an error in it.
Where a definition is the only wrong thing in its edit, the file that is named first has the log's first error, and docs/PROMISES.md, 'Definitions that ..',
names the same files if it has the edit.
An error that says that a goal, a field or a name is missing does not count: then the proof does not fit the code, and nothing was refused for its own sake.
No function has such errors alone, named or not: then the shape was changed.
Every public function is named by two edits of its crate, each with a wrong thing in that function's own body.
The logs stay in target/must-fail.
"""
import concurrent.futures
import glob
import os
import queue
import re
import shutil
import subprocess
import sys
import tempfile
from collections import namedtuple

import listed

Wrong = namedtuple("Wrong", "places file old new")  # one replacement
Log = namedtuple("Log", "first own functions unfit proved")

ERROR = re.compile(r"^(?:\./)?(\S+):\d+:\d+: error: (.*)")
BELOW = re.compile(r"declarations? that depends? on .*, which was (?:rejected|not admitted)")
VERDICT = re.compile(r"^fn \w+::([\w:]+): (not proved|no proof: .*`search` did not prove)")
UNFIT = re.compile(r"has no field `|has no `[^`]*` that can be named|is not in scope")


# ---- the tries

def tree():
    """A copy of the sources, in which an edit is tried."""
    root = tempfile.mkdtemp(prefix="refused-")
    for path in ["crates.txt", "HANDLES"] + glob.glob("crates/*/*/"):
        if os.path.basename(path.rstrip("/")) in ("src", "specs", "proofs"):
            shutil.copytree(path, os.path.join(root, path))
        elif os.path.isfile(path):
            shutil.copy(path, root)
    return root


def attempt(trees, edit):
    """What the prover says with the edit's texts in place of the crate's own."""
    root = trees.get()
    crate = os.path.join(root, "crates", edit.split("/")[1])
    was = {}
    for w in wrongs(edit):
        path = os.path.join(crate, w.file)
        text = listed.read(path)
        was.setdefault(path, text)
        if text.count(w.old) != 1:
            raise SystemExit(f"refused: {edit}: {w.old}: {text.count(w.old)} times in {w.file}")
        write(path, text.replace(w.old, w.new))
    said = subprocess.run(["rt", "check"], cwd=crate, stdout=subprocess.PIPE, stderr=subprocess.STDOUT, encoding="utf-8", errors="replace").stdout
    for path, text in was.items():
        write(path, text)
    trees.put(root)
    log = logged(edit)
    os.makedirs(os.path.dirname(log), exist_ok=True)
    write(log, said)


def write(path, text):
    with open(path, "w", encoding="utf-8") as f:
        f.write(text)


def logged(edit):
    crate, label = edit.split("/")[1], os.path.basename(edit)[: -len(".edit")]
    return os.path.join("target/must-fail", crate, label + ".log")


def attempts(edits):
    trees = queue.Queue()
    roots = [tree() for _ in range(os.cpu_count() or 1)]
    for root in roots:
        trees.put(root)
    shutil.rmtree("target/must-fail", ignore_errors=True)
    try:
        with concurrent.futures.ThreadPoolExecutor(len(roots)) as pool:
            list(pool.map(lambda edit: attempt(trees, edit), edits))
    finally:
        for root in roots:
            shutil.rmtree(root, ignore_errors=True)


# ---- what they say

def wrongs(edit):
    found, places, file, old = [], [], "", ""
    for line in listed.read(edit).split("\n"):
        word, _, rest = line.partition(": ")
        if word == "# refused":
            places.append(rest)
        elif word == "file":
            file = rest
        elif word == "old":
            old = rest
        elif line.startswith("new:"):
            found.append(Wrong(places, file, old, line[len("new:"):].removeprefix(" ")))
            places = []
    return found


def said(path):
    """The file of the first error; the files with an error of their own; the functions not proved: whether a search failed; the folders of proofs that do
    not fit; whether all is proved."""
    first, own, functions, unfit, proved = "", set(), {}, set(), False
    for line in listed.read(path).split("\n"):
        error, verdict = ERROR.match(line), VERDICT.match(line)
        if error:
            file = error.group(1)
            first = first or file
            if UNFIT.search(error.group(2)):
                unfit.add(os.path.dirname(file))
            elif not BELOW.search(error.group(2)):
                own.add(file)
        if verdict:
            functions[verdict.group(1)] = verdict.group(2) != "not proved"
        proved = line.startswith("logic=proved")
    return Log(first, own, functions, unfit - {os.path.dirname(file) for file in own}, proved)


def refuses(place, log):
    if not place.startswith("fn "):
        return place in log.own
    name = place[len("fn "):]
    folders = [os.path.join("proofs", *name.split("::")), os.path.join("proofs", *name.split("::")[:-1], "+" + name.split("::")[-1])]
    return name in log.functions and (log.functions[name] or any(os.path.dirname(file) in folders for file in log.own))


def bodies(crate, wrong):
    """The functions that this names and whose own body holds the text replaced."""
    path = os.path.join("crates", crate, wrong.file)
    found = listed.functions(path) if path.endswith(".rt") else {}
    names = [p[len("fn "):] for p in wrong.places if p.startswith("fn ")]
    return {n for n in names if n in found and wrong.old in found[n].body}


def judge(wrong, log):
    """What is not as one edit says."""
    faults = [f"{w.old}: no line 'refused:' before it" for w in wrong if not w.places]
    if log.proved:
        faults.append("is not refused")
    faults += [f"{folder} does not fit: the shape was changed" for folder in sorted(log.unfit)]
    faults += [f"{p} does not refuse it" for w in wrong for p in w.places if not refuses(p, log)]
    if len(wrong) == 1 and wrong[0].file.startswith("specs/") and [log.first] != wrong[0].places[:1]:
        faults.append(f"{log.first} refuses it first")
    return faults


def table(page):
    """What the table of definitions says otherwise than the edits."""
    section = re.search(r"^## Definitions that .*?(?=^## )", listed.read(page), re.M | re.S)
    for line in section.group(0).split("\n"):
        cells = [re.findall(r"`([^`]+)`", c) for c in line.strip("|").split("|")]
        for edit in cells[0] if line.startswith("| `") else []:
            wrong, crate = wrongs(os.path.join("crates", edit)), edit.split("/")[0]
            if [os.path.join(crate, p) for w in wrong for p in w.places] != cells[1]:
                yield f"{page}: {edit} says otherwise"


def main():
    faults, count, named = list(table("docs/PROMISES.md")), 0, {}
    edits = sorted(glob.glob("crates/*/must-fail/*.edit"))
    attempts(edits)
    for edit in edits:
        crate, wrong = edit.split("/")[1], wrongs(edit)
        faults += [f"{edit}: {f}" for f in judge(wrong, said(logged(edit)))]
        count += sum(not w.file.startswith("proofs/") for w in wrong)  # the proof that a body's form needs is no wrong thing
        for name in set().union(*(bodies(crate, w) for w in wrong)):
            named[crate, name] = named.get((crate, name), 0) + 1
    public = [(c, n) for c, fs in listed.source().items() for n, f in fs.items() if f.public and listed.clause(f.contract, "ensures")]
    faults += [f"{c}::{n}: {named.get((c, n), 0)} edits with a wrong body of it" for c, n in public if named.get((c, n), 0) < 2]
    right = f"{len(edits)} edits, {count} wrong bodies and definitions, each refused where it says; {len(public)} public functions with two wrong bodies or more"
    return listed.told("refused", faults, right)


if __name__ == "__main__":
    sys.exit(main())
