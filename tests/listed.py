#!/usr/bin/env python3
"""Holds docs/CONTRACTS.md and docs/PROMISES.md against the source. Run from the repository's root.

CONTRACTS.md: a section `## CRATE` has a line 'Definitions in `FILE`, ..' and rows `| `function` | .. `definition` .. | form | requires | met by |`.
The form `prints` is that of a program's function that has no ensures: it writes to the output, itself or by a function that it calls, and gives no result
but an output error.
Both pages: a name cited as `name` (`file`), files under crates/, is declared in that file; `Record.field` is a field of it; `x.edit` exists.
PROMISES.md, 'Statements and proofs': a row's second name is declared with its first as type.
The files of definitions (those that CONTRACTS.md names, all that is under WHOLE, and FURTHER): above each public definition stands the rule that it says.
"""
import glob
import os
import re
import sys
from collections import namedtuple

faults = []


def fault(text):
    faults.append(text)


def read(path):
    with open(path, encoding="utf-8") as f:
        return f.read()


# ---- the source: crate -> {qualified name: function}

Function = namedtuple("Function", "public exported contract body")

FUNCTION = re.compile(r'^(\s*)(pub |pub\(crate\) )?(extern "C" )?fn (\w+)')

# A heading's last line with the whole body on it: `fn f(..) -> T { .. }`, `) -> T { .. }` or `{ .. }`; a clause's braces are none.
SHORT = re.compile(r"^(\s*(?:(?:\)|.*\bfn ).*?)?\{)(.*)\}\s*$")

IMPL = re.compile(r"^impl(?:<.*?>)? (?:(?:\w+::)*(?P<trait>\w+)(?:<(?P<of>\w+)>)? for )?(?P<type>\w+)")


def capital(name):
    return name[:1].upper() + name[1:]


def owned(line):
    """How the prover names what a line opens, and whether what stands in it is public without `pub`: an `impl` of a trait, or a public trait."""
    impl = IMPL.match(line)
    if impl:
        of, trait = capital(impl["of"] or ""), impl["trait"] or ""
        return (capital(impl["type"]) + trait + of if trait else impl["type"]) + "::", bool(trait)
    trait = re.match(r"^(pub )?trait (\w+)", line)
    return (trait[2] + "::", bool(trait[1])) if trait else None


def functions(path):
    """A method of a trait's `impl` promises what the ghost members above it say: that is its ensures, and no function's behind the `impl`. A method without a
    body is its trait's to promise."""
    module = os.path.basename(path)[: -len(".rt")]
    prefix = "" if module == "lib" else module + "::"
    found, owner, shown, ghosts, lines = {}, "", False, [], read(path).split("\n")
    for at, line in enumerate(lines):
        opened = owned(line)
        if opened:
            (owner, shown), ghosts = opened, []
        elif line.startswith("}"):
            owner, shown, ghosts = "", False, []
        ghost = re.match(r"^    ghost (\w+) = \{ (.*) \};$", line)
        if ghost and shown:
            ghosts.append(ghost[2])
        head = FUNCTION.match(line)
        if not head:
            continue
        begin = next(k for k in range(at, len(lines)) if lines[k].rstrip().endswith(("{", ";")) or SHORT.match(lines[k])) + 1
        opens, short = lines[begin - 1].rstrip(), SHORT.match(lines[begin - 1])
        if opens.endswith(";"):
            continue
        end = begin if short else next(k for k in range(begin, len(lines)) if lines[k].startswith(head.group(1) + "}"))
        contract, body = "\n".join(lines[at : begin - 1] + [short[1] if short else lines[begin - 1]]), short[2] if short else "\n".join(lines[begin:end])
        if ghosts:
            contract = contract.rstrip("{") + "\n    ensures { " + " × ".join(ghosts) + " }\n    {"
        found[prefix + owner + head.group(4)] = Function(head.group(2) == "pub " or shown, bool(head.group(3)), contract, body)
    return found


def source():
    crates = {}
    for path in sorted(glob.glob("crates/*/src/*.rt")):
        crates.setdefault(path.split("/")[1], {}).update(functions(path))
    return crates


def calls(name, body):
    """What a body calls, each with its module: the function's own where none is written."""
    module = name.rpartition("::")[0]
    return {c if "::" in c else f"{module}::{c}" for c in re.findall(r"([\w:]+)\(", body)}


def printing(crate, found):
    """The functions of a program that write to the output; none of a library."""
    prints = {"io::writer"} if os.path.isfile(f"crates/{crate}/src/main.rt") else set()
    while True:
        more = {name for name, f in found.items() if calls(name, f.body) & prints} - prints
        if not more:
            return prints
        prints |= more


def clause(contract, word):
    at = re.search(r"^\s*" + word + r"\b", contract, re.M)
    if not at:
        return ""
    rest = contract[at.end():]
    end = re.search(r"\n\s*(requires|ensures|\{)", rest)
    return rest[: end.start()] if end else rest


def fields(crate, ensures):
    """Those of the crate's records that an ensures names."""
    for path in glob.glob(f"crates/{crate}/specs/**/*.antt", recursive=True):
        for name, block in re.findall(r"^pub record (\w+).* where\n((?:  .*\n)+)", read(path), re.M):
            if re.search(rf"\b{name}\b", ensures):
                yield block


OUTPUT = ("", "io::Result<()> {", "io::Result<()>")


def form(crate, found, name):
    ensures = clause(found[name].contract, "ensures")
    if ensures and "≡" not in ensures:
        ensures = "".join(fields(crate, ensures))
    if not ensures:
        return "prints" if name in printing(crate, found) and found[name].contract.partition(" -> ")[2].split("\n")[0] in OUTPUT else "none"
    return str(ensures.count("≡")) + (" + bound" if re.search(r"[<≤]", ensures) else "")


# ---- declarations

def declared(path, name):
    text = read(path)
    if path.endswith(".rt"):
        return re.search(r"\b(fn|const|struct|enum) " + re.escape(name) + r"\b", text) is not None
    first, *fields = name.split(".")
    head = re.search(r"^( *)(?:(?:abbrev|unfoldable) )?pub (?:(record|data) )?" + re.escape(first) + r"(?=[\s:({]|$)", text, re.M)
    if not head:
        return False
    block = []
    for line in text[head.start():].split("\n")[1:]:
        if line.strip() and len(line) - len(line.lstrip()) <= len(head.group(1)):
            break
        block.append(line)
    return all(head.group(2) == "record" and re.search(r"^ +pub " + re.escape(f) + r" *:", "\n".join(block), re.M) for f in fields)


CITED = re.compile(r"`([^`\s]+)`\s+\(`([^`\s]+)`\)")


def citations(page):
    cited = set(CITED.findall(read(page)))
    for name, file in sorted(cited):
        path = os.path.join("crates", file)
        if not os.path.isfile(path):
            fault(f"{page}: {name}: no file {path}")
        elif not declared(path, name):
            fault(f"{page}: {name} is not declared in {path}")
    for edit in re.findall(r"`([^`\s]+\.edit)`", read(page)):
        if not os.path.isfile(os.path.join("crates", edit)):
            fault(f"{page}: no file crates/{edit}")
    return cited


def proofs(page):
    section = re.search(r"^## Statements and proofs\n(.*?)(?=^## )", read(page), re.M | re.S)
    if not section:
        fault(f"{page}: no section 'Statements and proofs'")
        return
    for line in section.group(1).split("\n"):
        pair = CITED.findall(line)
        if len(pair) < 2:
            continue
        (statement, _), (proof, file) = pair[0], pair[1]
        path = os.path.join("crates", file)
        if os.path.isfile(path) and not re.search(r"^pub " + re.escape(proof) + r" : (?:\w+\.)?" + re.escape(statement) + r"$", read(path), re.M):
            fault(f"{page}: {path} has no '{proof} : {statement}'")


# ---- docs/CONTRACTS.md

def defining(text):
    """The files that a paragraph of the page names: 'Definitions in `FILE`, ..'."""
    said = re.search(r"Definitions in(.*?)(?:\n\n|\Z)", text, re.S)
    return [os.path.join("crates", f) for f in re.findall(r"`([^`]+\.antt)`", said.group(1))] if said else []


def contracts(page, crates):
    """The functions that the page lists."""
    return set().union(*(rows(page, crates, section) for section in re.split(r"^(?=## )", read(page), flags=re.M)))


def rows(page, crates, section):
    """Those of one section."""
    lines, files, listed = section.split("\n"), defining(section), set()
    crate = lines[0][len("## "):].strip()
    for line in lines:
        cells = [c.strip() for c in line.strip().strip("|").split("|")]
        name = re.fullmatch(r"`([\w:]+)`", cells[0])
        if not line.startswith("|") or not name or len(cells) != 5:
            continue
        name, what, shape, needs, callers = name.group(1), *cells[1:]
        where = f"{page}: {crate}::{name}"
        listed.add((crate, name))
        found = crates.get(crate, {})
        if name not in found or not found[name].public:
            fault(f"{where}: no such public function")
            continue
        ensures = clause(found[name].contract, "ensures")
        if form(crate, found, name) != shape:
            fault(f"{where}: the form is {form(crate, found, name)}, not {shape}")
        if (needs != "-") != bool(clause(found[name].contract, "requires")):
            fault(f"{where}: {'has no' if needs != '-' else 'has a'} requires")
        if (needs != "-") != (callers != "-"):
            fault(f"{where}: who meets its requires?")
        for definition in re.findall(r"`([^`]+)`", what):
            if not re.search(r"(?<![\w.-])" + re.escape(definition) + r"(?![\w-])", ensures):
                fault(f"{where}: {definition} is not in its ensures")
            if not any(os.path.isfile(f) and declared(f, definition) for f in files):
                fault(f"{where}: {definition} is in none of {files}")
        for other, caller in re.findall(r"`(\w+)::([\w:]+)`", callers):
            if caller not in crates.get(other, {}):
                fault(f"{where}: no function {other}::{caller}")
    return listed


# ---- the definitions, and the rules that they say

FURTHER = ["base/specs/Pick", "command/specs/Numbers", "crc/specs/Table18", "promises/specs/ByteRuns", "state/specs/Channel", "state/specs/Sound"]
FURTHER += ["wires/specs/Below", "wires/specs/Table", "wires/specs/Turn", "housefile/specs/Statements"]
FURTHER += ["playback/specs/Lines", "playback/specs/Places", "playback/specs/Spelt", "playback/specs/Statements"]
WHOLE = ["rules/specs/Rules", "rules/specs/Statements", "promises/specs/Statements", "code/specs"]
PUBLIC = re.compile(r"^( *(?:abbrev|unfoldable) | +(?=pub (?:record|data) ))?pub (record |data )?(?!use |mod )([^\s:({]+)")
RULE = re.compile(r'"[^"]+"|\b00, demand \d|\b01, [A-Z]|\b02, Q-\d|\b004, (?:tables? )?\d|\bdocs/STATE\.md')


FACT = re.compile(r"(?:.*\} :)?\s*(?!(List|Bool|Type)\b)[A-Z]")


def definitions(path):
    """The public ones, with the comment directly above. A law is none: its name has a hyphen, or it has no mark and its type ends in an equation, an order
    or, where the name has two words, another fact."""
    lines = read(path).split("\n")
    for at, line in enumerate(lines):
        head = PUBLIC.match(line)
        if not head or "-" in head.group(3):
            continue
        top, end = at, at + 1
        while end < len(lines) and lines[end].startswith("  "):
            end += 1
        result = " ".join(lines[at:end]).split("→")[-1]
        if not head.group(1) and not head.group(2) and (re.search(r"[≡≤<]", result) or "_" in head.group(3) and FACT.match(result)):
            continue
        while top > 0 and lines[top - 1].lstrip().startswith("--"):
            top -= 1
        yield head.group(3), " ".join(text.strip(" -") for text in lines[top:at])


def cited_definitions(page):
    """Each quotes its rule, or has its place in 00, 01, 02, 004 or docs/STATE.md, or a number of docs/DECISIONS.md; how many there are."""
    files = {f"crates/{name}.antt" for name in FURTHER}
    for directory in WHOLE:
        files |= set(glob.glob(f"crates/{directory}/**/*.antt", recursive=True))
    for section in re.split(r"^(?=## )", read(page), flags=re.M):
        files |= set(defining(section))
    decided, found = re.findall(r"^(\d+)\. \*\*", read("docs/DECISIONS.md"), re.M), 0
    for path in sorted(files):
        for name, comment in definitions(path):
            found += 1
            if not RULE.search(comment) and not set(re.findall(r"DECISIONS\.md, (\d+)", comment)) & set(decided):
                fault(f"{path}: {name}: which rule does it say?")
    return found


# ---- widths

def narrow(limit=160):
    """Pages, comments, code and specs keep to the width; rows of tables and `use` lines apart, which cannot be broken."""
    sources = [p for part in ("src", "specs", "proofs") for p in glob.glob(f"crates/*/{part}/**/*.*t*", recursive=True)]
    for path in ["README.md"] + glob.glob("docs/*.md") + sorted(p for p in sources if p.endswith((".rt", ".antt"))):
        for at, line in enumerate(read(path).split("\n")):
            if len(line) > limit and not re.match(r"\||\s*(ghost |pub )?use ", line):
                fault(f"{path}:{at + 1}: {len(line)} characters")


def told(name, faults, right):
    """Prints the faults, or what is right; the exit status."""
    for text in faults or [right + ": ok"]:
        print(f"{name}: {text}")
    return 1 if faults else 0


def main():
    crates = source()
    listed = contracts("docs/CONTRACTS.md", crates)
    for crate, found in crates.items():
        for name, function in found.items():
            if not function.public:
                continue
            if (crate, name) not in listed:
                fault(f"{crate}::{name} is not in docs/CONTRACTS.md")
            if form(crate, found, name) == "none":
                fault(f"{crate}::{name} has no ensures")
            if function.exported and clause(function.contract, "requires"):
                fault(f"{crate}::{name} is exported and has a requires")
    cited = citations("docs/PROMISES.md") | citations("docs/CONTRACTS.md") | citations("docs/RULES.md")
    proofs("docs/PROMISES.md")
    defined = cited_definitions("docs/CONTRACTS.md")
    narrow()
    return told("listed", faults, f"{len(listed)} public functions, {len(cited)} statements, {defined} definitions")


if __name__ == "__main__":
    sys.exit(main())
