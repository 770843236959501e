#!/usr/bin/env python3
"""Spells the repository's own names as the library does, once, after port.py and before any edit by hand.

usage: python3 tools/respell.py        at the top of the repository

- The crate `json` becomes `json_model`: the kit has a library of the old name.
- Definitions, lemmas, fields and constructors of specs/ and proofs/ are in snake case; names that begin with a capital
  (types and facts) stay as they are. Functions of src/ keep their names.
- A name that another one would meet gets `_lem`.
It prints the names that met, and writes each old name with its new one into tools/respelled.tsv; where that file is
there, its rows stand.
"""

import glob
import os
import re
import sys

WORD = r"[A-Za-z0-9_'₀-₉ᵢⱼ-]"
OWN = sorted(os.path.basename(c) for c in glob.glob("crates/*") if os.path.isdir(c))
TABLE = "tools/respelled.tsv"


def modules():
    """The files that define: all of specs/, and the modules of lemmas right in proofs/."""
    for f in sorted(glob.glob("crates/*/specs/**/*.antt", recursive=True) + glob.glob("crates/*/proofs/*.antt")):
        yield f


DEF = re.compile(
    r"^\s*(?:(?:abbrev|unfoldable|pub|data|record)\s+)*(" + WORD + r"+)(?:\s*[({][^=]*[)}])*\s*:(?:\s|$)"
)
MANY = re.compile(r"^\s+(?:pub\s+)?([a-z]" + WORD + r"*(?: [a-z]" + WORD + r"*)+) : ")
KEYWORDS = {"pub", "abbrev", "unfoldable", "data", "record"}
RULESET = re.compile(r"^\s*(?:pub\s+)?ruleset\s+(" + WORD + r"+)")


def defined():
    names = {}
    for f in modules():
        with open(f, encoding="utf-8") as it:
            for line in it:
                if line.lstrip().startswith("--"):
                    continue
                m = DEF.match(line) or RULESET.match(line)
                if m:
                    names.setdefault(m.group(1), set()).add(f)
                m = MANY.match(line)
                for n in m.group(1).split() if m else []:
                    if n not in KEYWORDS:
                        names.setdefault(n, set()).add(f)
    return names


def foreign():
    """Names that the files take from libraries."""
    names = set()
    for f in glob.glob("crates/**/*.antt", recursive=True) + glob.glob("crates/**/*.rt", recursive=True):
        with open(f, encoding="utf-8") as it:
            for m in re.finditer(r"use ([A-Za-z·._0-9]+)\.\{([^}]*)\}", it.read()):
                path = m.group(1).split(".")
                if path[0] == "Rattle" and len(path) > 1 and path[1] in OWN + ["json_model"]:
                    continue
                names |= {x.strip().split(" as ")[-1] for x in m.group(2).split(",")}
    return names


def snake(name):
    if not name[0].islower():
        return name
    parts = [re.sub(r"(?<=[a-z0-9])(?=[A-Z])", "_", p).lower() if p[:1].islower() or p[:1].isdigit() else p for p in name.split("-")]
    return "_".join(parts)


TOKEN = re.compile(r"(?<![A-Za-z0-9_'₀-₉-])[a-z]" + WORD + "*")


def together(names):
    """For each name the files that have it."""
    found = {n: set() for n in names}
    for f in glob.glob("crates/**/*.antt", recursive=True):
        with open(f, encoding="utf-8") as it:
            for t in set(TOKEN.findall(it.read())):
                if t in found:
                    found[t].add(f)
    return found


def rank(name, files):
    """A definition that contracts cite comes first, then a function, then what claims says, then a lemma."""
    if any("/specs/" in f and "/claims/" not in f for f in files):
        return 0
    if re.search("[a-z][A-Z]", name):
        return 1
    return 2 if any("/specs/" in f for f in files) else 3


def table(names):
    old = {}
    if os.path.exists(TABLE):
        with open(TABLE, encoding="utf-8") as it:
            old = dict(line.rstrip("\n").split("\t") for line in it)
    lib = foreign()
    found = together(names)
    groups = {}
    for n in names:
        groups.setdefault(snake(n), []).append(n)
    rows = {}
    met = []
    for plain, group in sorted(groups.items()):
        # a function keeps the plain name where a lemma meets it
        group.sort(key=lambda n: (rank(n, names[n]), n))
        kept = []
        for n in group:
            new = plain
            if any(found[n] & found[k] for k in kept) or (plain != n and plain in lib):
                new += "_lem"
                met.append((n, new))
            else:
                kept.append(n)
            if n in old:
                new = old[n]
            if new != n:
                rows[n] = new
    return {**old, **rows}, met


def main():
    names = defined()
    rows, met = table(names)
    for n, new in met:
        print(f"met: {n} is {new}")
    # the library's names of the same spelling in a file keep theirs
    changed = 0
    files = [f for e in ("antt", "rt") for f in glob.glob(f"crates/**/*.{e}", recursive=True)]
    files += glob.glob("crates/*/must-fail/*.edit")
    for f in sorted(files):
        with open(f, encoding="utf-8") as it:
            text = it.read()
        skip = set()
        local = None
        if f.endswith(".antt"):
            for m in re.finditer(r"use ([A-Za-z·._0-9]+)\.\{([^}]*)\}", text):
                path = m.group(1).split(".")
                if not (path[0] == "Rattle" and len(path) > 1 and path[1] in OWN + ["json_model"]):
                    skip |= {x.strip() for x in m.group(2).split(",")}
        if f.count("/") > 3 and "/proofs/" in f:
            # a function's proof: only what it takes from modules, and fields
            local = set()
            for m in re.finditer(r"use (Rattle\.[A-Za-z·._0-9+]+)\.\{([^}]*)\}", text):
                local |= {x.strip() for x in m.group(2).split(",")}

        def turn(m):
            t = m.group(0)
            if t in skip or t not in rows:
                return t
            line = text[text.rfind("\n", 0, m.start()) + 1 : m.start()]
            if re.fullmatch(r"(pub )?use [^{ ]*", line):
                return t
            if local is not None and t not in local and text[m.start() - 1 : m.start()] != ".":
                return t
            return rows[t]

        if f.endswith(".antt"):
            new = TOKEN.sub(turn, text)
        else:
            # in code only names that no code has
            new = TOKEN.sub(lambda m: rows[m.group(0)] if m.group(0) in rows and re.search("[A-Z-]", m.group(0)) else m.group(0), text)
        new = re.sub(r"\bRattle\.json\.", "Rattle.json_model.", new)
        new = re.sub(r"\bRattle·json\b", "Rattle.json_model", new)
        if f.endswith((".rt", ".edit")):
            new = re.sub(r"(?<![\w.:])json::", "json_model::", new)
        if new != text:
            changed += 1
            with open(f, "w", encoding="utf-8") as it:
                it.write(new)
    if os.path.isdir("crates/json"):
        os.rename("crates/json", "crates/json_model")
    with open("crates.txt", encoding="utf-8") as it:
        text = it.read()
    with open("crates.txt", "w", encoding="utf-8") as it:
        it.write("".join(line if line.startswith("#") else re.sub(r"\bjson\b", "json_model", line) for line in text.splitlines(keepends=True)))
    with open(TABLE, "w", encoding="utf-8") as it:
        it.write("".join(f"{a}\t{b}\n" for a, b in sorted(rows.items())))
    print(f"{len(rows)} names, {changed} files")


if __name__ == "__main__":
    sys.exit(main())
