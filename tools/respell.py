#!/usr/bin/env python3
"""Brings the names of this repository's own definitions and lemmas to today's spelling: snake case, with plain underscores.

usage: tools/respell.py        at the top, once, after the kit's port.py

A name is one that an .antt file of the repository declares: `minOf` becomes `min_of`, `le-at` becomes `le_at`, types and modules
keep their capitals. Functions of src/, exported C names, strings, inputs and outputs keep their names, and so does what Rattle makes:
steps, goals and loops in a file of proofs/F. The specs of `floats` that have the name of a module that Rattle makes get another.
It prints the names that fall together.
"""
import collections
import glob
import os
import re
import sys

TOKEN = r"[^\s(){}\[\].;,@\"«»:]+"
DECLARED = re.compile(rf"^[ ]*(?:(?:pattern|unfoldable|abbrev|pub|axiom)\s+)*({TOKEN})(?: \{{[^{{}}\n]*\}})* :(?= |$)")
USE = re.compile(r"^\s*(?:pub |unfoldable )*use (\S+?)\.\{([^}]*)\}")
WALK = re.compile(r"/proofs/.+/Proof\.antt$")
# A module of this name and the one that Rattle makes for contracts would differ in case alone.
MODULES = {"Contracts": "Tightness"}
OURS = re.compile(r"Rattle\.(\w+)\.")


def respelled(name):
    if not re.search(r"-|[a-z0-9][A-Z]", name) or name[0].isupper():
        return name
    words = re.sub(r"(?<=[a-z0-9])[A-Z]+", lambda m: "_" + m[0].lower(), name)
    return words.replace("-", "_")


def antt():
    return sorted(glob.glob("crates/*/specs/**/*.antt", recursive=True) + glob.glob("crates/*/proofs/**/*.antt", recursive=True))


def read(path):
    with open(path, encoding="utf-8") as f:
        return f.read()


def declared(text):
    for line in text.split("\n"):
        if not line.lstrip().startswith("--"):
            m = DECLARED.match(line)
            if m:
                yield m[1]


def borrowed(text, crates):
    """The names that a file has from a library of the kit."""
    for m in re.finditer(r"(?m)^\s*(?:ghost )?(?:pub |unfoldable )*use ([^\s;{]+?)\.\{([^}]*)\}", text):
        own = OURS.match(m[1] + ".")
        if not (own and own[1] in crates):
            for it in m[2].split(","):
                yield it.strip().split(" as ")[-1]
    for m in re.finditer(r"(?m)^\s*(?:ghost )?use ([^\s;{]+) as (\S+)", text):
        yield m[2].rstrip(";")


def main():
    if not os.path.isdir("crates"):
        sys.exit(__doc__.split("\n\n")[1])
    crates = set(os.listdir("crates"))
    texts = {p: read(p) for p in antt()}
    names, where = {}, collections.defaultdict(set)
    for p, text in texts.items():
        if WALK.search(p):
            continue
        for name in declared(text):
            if respelled(name) != name:
                names[name] = respelled(name)
            where[respelled(name)].add(name)
    for new, olds in sorted(where.items()):
        if len(olds) > 1:
            # A lemma that would have its function's name ends in _lem.
            for old in olds:
                if "-" in old:
                    names[old] = new + "_lem"
            print("together:", new, *(f"{old} as {names.get(old, old)}" for old in sorted(olds)))
    token = re.compile(TOKEN)
    sources = sorted(glob.glob("crates/*/src/**/*.rt", recursive=True))
    for p in list(texts) + sources:
        text = read(p)
        theirs = set(borrowed(text, crates))
        mine = dict(names)
        walk = WALK.search(p)
        if walk:
            for name in declared(text):
                if respelled(name) != name and not re.search(rf"(?m)^(?:abbrev |pub )*{re.escape(name)} : tie\.", text):
                    mine[name] = respelled(name)
        rust = p.endswith(".rt")

        def turned(m):
            name = m[0]
            if name not in mine or name in theirs and name not in set(declared(text)):
                return name
            if "-" in name and (rust or walk and text[m.start() - 1 : m.start()] == "."):
                return name
            return mine[name]

        lines = []
        for line in text.split("\n"):
            if rust and '"' in line and "ghost use" not in line:
                lines.append(line)
                continue
            lines.append(line)
        out = token.sub(turned, text) if not rust else "\n".join(line if re.search(r'"', line) else re.sub(r"\b[a-z]\w*\b", turned, line) for line in text.split("\n"))
        for old, new in MODULES.items():
            out = re.sub(rf"(Rattle\.floats\.(?:specs|proofs))\.{old}\b", rf"\1.{new}", out)
            if p in ("crates/floats/specs/Lib.antt", "crates/floats/proofs/Lib.antt"):
                out = re.sub(rf"\bmod {old}\b", f"mod {new}", out)
        if out != text:
            with open(p, "w", encoding="utf-8") as f:
                f.write(out)
    for old, new in MODULES.items():
        for kind in ("specs", "proofs"):
            if os.path.exists(f"crates/floats/{kind}/{old}.antt"):
                os.rename(f"crates/floats/{kind}/{old}.antt", f"crates/floats/{kind}/{new}.antt")


main()
