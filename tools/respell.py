#!/usr/bin/env python3
"""Brings the names of this repository's own definitions and lemmas to today's spelling: words in snake case, types in camel case.

usage: python3 tools/respell.py      at the top of a checkout in which the kit's port.py has run, once

port.py respells only the names that a library had in the same spelling. This script turns the rest: each name that specs/ or proofs/ declare, in
specs/, proofs/, the clauses of src/ and the texts of must-fail edits. Functions of src/, exported names, strings, inputs and outputs keep theirs,
and so do the names that Rattle makes. Where a lemma's name falls together with that of a definition, the lemma gets `_lem`.
"""
import os
import re
import sys

# A name is what stands between blanks, brackets and points.
TOKEN = re.compile(r"[^\s(){}\[\].;,`\"]+")
DECLARED = re.compile(r"^\s*((?:pub |abbrev |unfoldable |record |data |ruleset )*)([^\s:{(]+)(?:\s*\{[^}]*\}|\s*\([^)]*\))*\s*(?::\s|=\s|where)(.*)$")
IMPORT = re.compile(r"^\s*(?:pub |ghost )*use ([^\s{]+?)\.\{([^}]*)\}")
# These stood for a fact, and a fact is spelled as a type.
TYPES = {"small": ("Rattle.steps.specs.Columns", "Small")}
# Lemmas that port.py put into snake case already, and whose names are those of definitions now: the module, the name.
TOGETHER = [
    ("Rattle.circle.proofs.PeriodLaws", "same_place"),
    ("Rattle.marks.proofs.HeldLaws", "none_above"),
    ("Rattle.records.proofs.Unique", "read_back"),
    ("Rattle.steps.proofs.HeardLaws", "first_bit"),
]
# Numbers and symbols of the document inside a name.
OWN = {"twoTo64": "two_to_64", "threeToFive": "three_to_five"}


def snake(name):
    if name in OWN:
        return OWN[name]
    parts = re.sub(r"([a-z0-9])([A-Z])", r"\1_\2", name).replace("-", "_").split("_")
    return "_".join(p if p == "E" else p.lower() for p in parts)


def walk(crate, part):
    for folder, dirs, files in os.walk(os.path.join("crates", crate, part)):
        dirs.sort()
        for f in sorted(files):
            if f.endswith((".antt", ".rt", ".edit")):
                yield os.path.join(folder, f)


def is_answer(path):
    """A function's own proof: the names that it declares are Rattle's."""
    return "/proofs/" in path and os.path.basename(path) in ("Proof.antt", "Answers.antt", "Invariants.antt")


def module_of(path):
    parts = path[: -len(".antt")].split("/")
    return "Rattle." + ".".join(parts[1:])


def declared(path):
    with open(path, encoding="utf-8") as f:
        for line in f:
            if line.lstrip().startswith(("--", "use ", "pub use ", "let ", "|", "module ", "unfolding ")):
                continue
            m = DECLARED.match(line)
            if m and (m.group(1) or ":" in line):
                yield m.group(2), line


def names():
    """Each name to turn, and whether specs/ declare it as a definition in camel case."""
    found, plain = {}, set()
    for crate in sorted(os.listdir("crates")):
        for part in ("specs", "proofs"):
            for path in walk(crate, part):
                if is_answer(path):
                    continue
                for name, _ in declared(path):
                    if "-" in name or (name[0].islower() and re.search("[A-Z]", name)):
                        found[name] = snake(name)
                    elif part == "specs":
                        plain.add(name)
    definitions = {found[n] for n in found if "-" not in n} | plain
    fields = {"runs-before"}
    for name in found:
        if "-" in name and found[name] in definitions and name not in fields:
            found[name] += "_lem"
    return found


def imported(text):
    """What a file imports: name to module."""
    got = {}
    for line in text.split("\n"):
        m = IMPORT.match(line)
        if m:
            for name in m.group(2).split(","):
                got[name.strip()] = m.group(1)
    return got


def own(module, crates):
    parts = module.split(".")
    return len(parts) > 2 and parts[0] == "Rattle" and parts[1] in crates and parts[2] in ("specs", "proofs")


def respelled(path, found, crates):
    with open(path, encoding="utf-8") as f:
        text = f.read()
    got = imported(text)
    here = module_of(path) if path.endswith(".antt") else ""
    table = {n: new for n, new in found.items() if n not in got or own(got[n], crates)}
    for name, (module, new) in TYPES.items():
        if got.get(name) == module or here == module:
            table[name] = new
    for module, name in TOGETHER:
        if got.get(name) == module or here == module:
            table[name] = name + "_lem"
    answer = is_answer(path)
    out = []
    clause = 0
    for line in text.split("\n"):
        code, dash, comment = line, "", ""
        mark = "//" if path.endswith(".rt") else "--"
        if path.endswith((".rt", ".antt")):
            at = re.search(r"(?:^|\s)" + mark + r"(?:\s|$)", line)
            if at:
                code, comment = line[: at.start()], line[at.start():]
        ghost = not path.endswith(".rt") or clause > 0 or bool(re.match(r"\s*(pub )?(ghost|requires|ensures)\b", code))
        if path.endswith(".rt") and ghost:
            clause = max(0, clause + code.count("{") - code.count("}"))

        def turn(m):
            token = m.group(0)
            new = table.get(token)
            if new is None or (not ghost and ("-" in token or token in TYPES)):
                return token
            return new

        if not (path.endswith(".rt") and '"' in code):
            code = TOKEN.sub(turn, code)
        comment = re.sub(r"`([^`]+)`", lambda m: "`" + TOKEN.sub(lambda k: table.get(k.group(0), k.group(0)), m.group(1)) + "`", comment)
        out.append(code + comment)
    new = "\n".join(out)
    if new != text:
        with open(path, "w", encoding="utf-8") as f:
            f.write(new)
        return True
    return False


def clashes(path, crates):
    """Names that one file has twice after the turn."""
    with open(path, encoding="utf-8") as f:
        text = f.read()
    seen = {}
    for line in text.split("\n"):
        m = IMPORT.match(line)
        if m:
            for name in (n.strip() for n in m.group(2).split(",")):
                if name in seen and seen[name] != m.group(1):
                    yield name, seen[name], m.group(1)
                seen[name] = m.group(1)
    if path.endswith(".antt") and not is_answer(path):
        for name, line in declared(path):
            if name in seen and not line.startswith(" "):
                yield name, seen[name], "here"


def main():
    if not os.path.isdir("crates"):
        sys.exit("respell: run it at the top of a checkout")
    found = names()
    crates = set(os.listdir("crates"))
    turned = 0
    for crate in sorted(crates):
        for part in ("specs", "proofs", "src", "must-fail"):
            for path in walk(crate, part):
                turned += respelled(path, found, crates)
    for crate in sorted(crates):
        for part in ("specs", "proofs", "src"):
            for path in walk(crate, part):
                for name, a, b in clashes(path, crates):
                    print(f"look: {path}: {name} is of {a} and of {b}")
    print(f"respell: {len(found)} names, {turned} files")
    for name in sorted(found):
        print(f"{name} {found[name]}")


main()
