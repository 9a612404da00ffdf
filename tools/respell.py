#!/usr/bin/env python3
"""Brings the repository's own definitions and lemmas to today's spelling, once, after port.py.

usage: python3 tools/respell.py        at the top of the repository

A word is in snake case (`isFree` is `is_free`). A dash stays where it joins two names (`length-in_order`), and is `_` where
what it joins is a plain word (`one-address` is `one_address`). Types, modules, names from Rust sources and names that the
kit makes keep their spelling. The crate `log` is `replayed`, since the kit has a library `log`.
"""
import glob
import os
import re
import sys

TOKEN = re.compile(r"[^\s(){}\[\],;.:«»⌜⌝`\"|=]+")
HEAD = re.compile(r"^( {0,2})((?:abbrev |unfoldable |pub )*)(data |record )?([^\s(){}\[\],;.:«»]+)(.*)$")
WORDS = {"use", "open", "module", "mod", "unfolding", "where", "let", "in", "mutual", "infix", "ruleset", "pub"}
RENAMED_CRATES = {"log": "replayed"}


def lemma_files():
    """Specs, and the lemmas of proofs/: the files of one function's proof have names that the kit makes."""
    for path in sorted(glob.glob("crates/*/specs/*.antt") + glob.glob("crates/*/proofs/*.antt")):
        if os.path.basename(path) != "Lib.antt":
            yield path


def read(path):
    with open(path, encoding="utf-8") as f:
        return f.read()


def declared(paths):
    names = set()
    for path in paths:
        for line in read(path).splitlines():
            head = HEAD.match(line)
            if not head or head[4] in WORDS or head[4].startswith("--"):
                continue
            if head[3] or head[5].lstrip().startswith(":"):
                names.add(head[4])
    return names


def from_kit():
    names = set()
    for path in glob.glob("crates/**/*.antt", recursive=True) + glob.glob("crates/**/*.rt", recursive=True):
        for found in re.finditer(r"use ((?:Rattle\.std|borrow|native|lib|mathlib|denote|logic|Prim)[\w.]*)\.\{([^}]*)\}", read(path)):
            names.update(w.strip().split(" as ")[0] for w in found[2].split(","))
    return names


def snake(part):
    if part[:1].isupper():
        return part
    return re.sub(r"(?<=[a-z0-9])([A-Z])", lambda m: "_" + m[1].lower(), part)


# Two names that would fall together: the lemma is `.._lem`. A file that is not named takes the row of "".
LEMMAS = {
    "": {w: w.replace("-", "_") + "_lem" for w in ("in-claim", "loaded-good", "open-good", "p4-lost", "record-good")},
    "crates/settle/proofs/EarlyRank.antt": {"at_head": "at_head_lem"},
}


def new_names(names, kit):
    table = {}
    known = {snake(n) for n in names if "-" not in n} | kit
    for name in names:
        if name in kit or name[:1].isupper() and "-" not in name:
            continue
        parts = [snake(p) for p in name.split("-")]
        new = parts[0]
        for before, part in zip(parts, parts[1:]):
            new += ("-" if before in known and part in known else "_") + part
        if new != name:
            table[name] = new
    return table


def turned(text, table):
    return TOKEN.sub(lambda m: table.get(m[0], m[0]), text)


def crates_turned(text):
    for old, new in RENAMED_CRATES.items():
        text = re.sub(rf"\bRattle\.{old}\.", f"Rattle.{new}.", text)
        text = re.sub(rf"\bRattle·{old}\b", f"Rattle·{new}", text)
        text = re.sub(rf"\buse {old}::", f"use {new}::", text)
        text = re.sub(rf"(?<![\w:.]){old}::(?=[A-Z])", f"{new}::", text)
        text = re.sub(rf"\bcrates/{old}/", f"crates/{new}/", text)
    return text


def table_of(path, table):
    """A function's proof has names that the kit makes; a line of `outcome` has its function's name."""
    if path.startswith("crates/outcome/proofs/"):
        own = {n: n.replace("-", "_") for n in declared([path])}
        return {**table, **own}
    parts = path.split("/")
    if len(parts) > 4 and parts[2] == "proofs":
        return table
    return {**table, **LEMMAS[""], **LEMMAS.get(path, {})}


def rewrite(path, table):
    old = read(path)
    new = crates_turned(turned(old, table))
    if new != old:
        with open(path, "w", encoding="utf-8") as f:
            f.write(new)


def main():
    outcome = set(glob.glob("crates/outcome/proofs/*.antt"))
    names, kit = declared(p for p in lemma_files() if p not in outcome), from_kit()
    table = new_names(names, kit)
    if "--table" in sys.argv:
        for old, new in sorted(table.items()):
            print(old, new)
        return
    for path in glob.glob("crates/**/*.antt", recursive=True):
        rewrite(path, table_of(path, table))
    # A dash in a Rust source is a minus, and in a document it may be a hyphen: there only the words with a capital turn.
    words = {old: new for old, new in table.items() if "-" not in old}
    for path in glob.glob("crates/**/*.rt", recursive=True):
        rewrite(path, words)
    for path in glob.glob("crates/*/must-fail/*.edit"):
        rewrite(path, words)
    for path in ["README.md", *glob.glob("docs/*.md"), "tests/README.md", *glob.glob("tests/faults/**/*", recursive=True)]:
        if os.path.isfile(path):
            rewrite(path, words)
    for old, new in RENAMED_CRATES.items():
        os.rename(f"crates/{old}", f"crates/{new}")
        with open("crates.txt", encoding="utf-8") as f:
            lines = f.read().splitlines()
        lines = [l if l.startswith("#") else re.sub(rf"\b{old}\b", new, l) for l in lines]
        with open("crates.txt", "w", encoding="utf-8") as f:
            f.write("\n".join(lines) + "\n")


if __name__ == "__main__":
    sys.exit(main())
