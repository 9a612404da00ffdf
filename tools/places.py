#!/usr/bin/env python3
"""Counts the places of older forms in src/, one list for each point of docs/DESIGN-PASS.md.

    python3 tools/places.py [FOLDER]     FOLDER has crates/ (default: this repository)

It goes by text: a row is a place to read, and the page says of each row that is left why it is left.
"""
import collections
import itertools
import pathlib
import re
import sys

root = pathlib.Path(sys.argv[1]) if len(sys.argv) > 1 else pathlib.Path(__file__).resolve().parent.parent
FN = re.compile(r"^ *(?:pub(?:\(crate\))? )?fn (\w+)(?:<[^>]*>)?\(", re.M)


def items(text, head):
    """The items whose head matches: name, and text up to the brace that closes at the head's own depth."""
    for m in re.finditer(head, text, re.M):
        end = re.compile(r"^%s\}" % re.match(r" *", m.group(0)).group(0), re.M).search(text, m.end())
        yield m, text[m.start() : end.end() if end else len(text)]


def code(text):
    return re.sub(r"//.*", "", text)


files = {p: p.read_text() for p in sorted((root / "crates").glob("*/src/*.rt"))}
funs = []  # file, name, parameters, result, whole text
for p, text in files.items():
    name = f"{p.parts[-3]}/{p.name}"
    for m, whole in items(text, FN.pattern):
        inner = re.match(r"(?s).*?fn \w+(?:<[^>]*>)?\((.*?)\)(?: -> ([^\n{]+?))?\s*\n?\s*(?:\{|requires|ensures|$)", whole)
        args = [re.sub(r"^mut ", "", a.strip()).replace("&mut ", "&") for a in re.split(r",(?![^<(\[]*[>)\]])", inner.group(1)) if a.strip()] if inner else []
        funs.append((name, m.group(1), args, (inner.group(2) or "") if inner else "", code(whole)))


def show(title, rows):
    rows = list(rows)
    print(f"{title}: {len(rows)}")
    for r in rows:
        print("   ", r)


def arms(body):
    return re.findall(r"^ +([^\n=]+?) => (.+?),?$", body, re.M)


# 1
def kinds():
    for p, text in files.items():
        for m, whole in items(text, r"^(?:pub(?:\(crate\))? )?enum (\w+)"):
            cases = re.findall(r"^    (\w+)(\(.*\))?,", code(whole), re.M)
            bare = [c for c, v in cases if not v]
            if (len(cases) == 2 and len(bare) == 1) or any("Refusal" in v for _, v in cases):
                yield f"{p.parts[-3]}/{p.name} enum {m.group(1)}"
        for m in re.finditer(r"const (\w+): \w+ = (?:18446744073709551615|\w+::MAX|4500);", text):
            yield f"{p.parts[-3]}/{p.name} const {m.group(1)}"
    for name, f, args, res, body in funs:
        found = arms(body)
        if re.fullmatch(r"u\d+|usize", res.strip()) and len([1 for _, v in found if re.fullmatch(r"\d+", v)]) > 1:
            yield f"{name} {f}: a number for each case"
        if len([1 for a, _ in found if re.match(r"(Some\()?\d+\)?$|b'.'", a)]) > 1 or len(re.findall(r"letter [=!]= b'|letter < b'", body)) > 1:
            yield f"{name} {f}: cases of a number or a letter"


# 2
def twins():
    for name, f, _, _, body in funs:
        same = collections.Counter(v for a, v in arms(body) if a != "_" and v != "{")
        if any(n > 1 and not re.fullmatch(r"true|false|\d+", v) for v, n in same.items()):
            yield f"{name} {f}: arms that are the same"
    consts = collections.defaultdict(list)
    for p, text in files.items():
        for m in re.finditer(r"const (\w+): \w+ = ([^;]+);", text):
            consts[m.group(2).strip() if len(m.group(2)) > 2 else (m.group(1), m.group(2))].append(f"{p.parts[-3]}::{m.group(1)}")
    for value, where in consts.items():
        if len(where) > 1:
            yield f"{value}: {', '.join(where)}"
    shapes = collections.defaultdict(list)
    for name, f, _, _, body in funs:
        shape = re.sub(r"\s+", " ", re.sub(r"\b[A-Za-z_]\w*|\d+", "x", body.split("\n", 1)[1] if "\n" in body else body))
        if body.count("\n") > 4:
            shapes[shape].append(f"{name} {f}")
    for where in shapes.values():
        if len(where) > 1:
            yield "same shape: " + ", ".join(where)


# 3
def loops():
    for name, f, _, _, body in funs:
        for _ in re.findall(r"^ +while ", body, re.M):
            yield f"{name} {f}: while"
        if re.search(r"\b%s\([^;]*\+ 1\)" % f, body.split("{", 1)[-1]):
            yield f"{name} {f}: calls itself with an index more"


# 4
def hand():
    own = {m.group(1) for t in files.values() for m in re.finditer(r"^(?:pub(?:\(crate\))? )?(?:enum|struct) (\w+)", t, re.M)}
    for name, f, args, res, body in funs:
        if re.search(r"\.raw (==|!=)|\.raw / 2 ==", body):
            yield f"{name} {f}: compares by hand"
        found = arms(body)
        if res.strip() == "bool" and len(found) > 2 and all(v in ("true", "false") for _, v in found):
            yield f"{name} {f}: a case told by hand"
        if len(args) == 1 and args[0] != "self":
            t = args[0].split(": ")[-1]
            if t in own and (res.strip() in own or res.strip() == "u64") and res.strip() != t and f not in ("from",):
                yield f"{name} {f}: {t} to {res.strip()}"
    for p, text in files.items():
        n = len(re.findall(r"say::(?:text|number\w*|line)\(|\btext\(out, b|print::put_|number_and\(|word_and\(", code(text)))
        if n:
            yield f"{p.parts[-3]}/{p.name}: {n} pieces printed by hand"


# 5
def together():
    facts = collections.defaultdict(list)
    for name, f, _, _, body in funs:
        for fact in re.findall(r"^ +requires (?:\w+ )?\{(.*)\}", body, re.M):
            facts[fact.strip()].append(f)
    for fact, where in facts.items():
        if len(where) > 2:
            yield f"{fact}: {', '.join(where)}"
    single, pair = collections.Counter(), collections.Counter()
    for _, _, args, _, _ in funs:
        single.update(set(args))
        pair.update(itertools.combinations(sorted(set(args)), 2))
    for (a, b), n in sorted(pair.items()):
        if n > 2 and (n == single[a] or n == single[b]) and single[a] < 2 * n and single[b] < 2 * n:
            yield f"{a} and {b}: in {n} functions"


# 6
def buffers():
    for p, text in files.items():
        for m, whole in items(text, r"^(?:pub(?:\(crate\))? )?struct (\w+)"):
            fields = re.findall(r"(\w+): ([^,\n]+),", code(whole))
            if any(t.startswith("[") for _, t in fields) and any(t in ("u64", "usize") for _, t in fields):
                yield f"{p.parts[-3]}/{p.name} struct {m.group(1)}: an array with a count beside it"
    for name, f, args, res, _ in funs:
        names = [a.split(":")[0] for a in args]
        for a, b in (("out", "at"), ("out", "written"), ("line", "held"), ("piece", "end"), ("numbers", "count")):
            if a in names and b in names:
                yield f"{name} {f}: {a} with {b}"
        if re.match(r"\[\w+; \d+\]", res) and "count" in f:
            yield f"{name} {f}: an array with a count in it"


# 7
def switches():
    for name, f, _, _, body in funs:
        calls = [v for _, v in arms(body) if re.match(r"(return |made = )?\w+(::\w+)?\(", v) and not re.match(r"(return )?(Some|Ok|Err|fits)\(", v)]
        if len(calls) > 2:
            yield f"{name} {f}: {len(calls)} arms"


show("1 own Option or Result, numbers for nothing or for kinds", kinds())
show("2 twins", twins())
show("3 loops by hand", loops())
show("4 by hand what a derive or an impl says", hand())
show("5 facts in three contracts or more, parameters that never stand apart", together())
show("6 buffers with a length beside them", buffers())
show("7 a switch on which step to run", switches())
proofs = [p for c in (root / "crates").iterdir() for p in (c / "proofs").rglob("*.antt") if p.name in ("Answers.antt", "Invariants.antt")]
print("8 proof files of functions:", len(proofs), "with", sum(len(p.read_text().splitlines()) for p in proofs), "lines")
