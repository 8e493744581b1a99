#!/usr/bin/env python3
"""places.py [ROOT]: the places in src/ that docs/DESIGN-PASS.md counts, point by point. With -l each place is listed."""
import pathlib
import re
import sys

args = [a for a in sys.argv[1:] if a != "-l"]
listed = "-l" in sys.argv
root = pathlib.Path(args[0] if args else ".")
files = {p: p.read_text() for p in sorted(root.glob("crates/*/src/**/*.rt"))}


def bare(text):
    """the code without ghost imports, clauses and comments"""
    return re.sub(r"(?m)^\s*(//|ghost use |requires |ensures ).*$", "", text)


def enums():
    for p, text in files.items():
        for m in re.finditer(r"(?m)^(?:pub )?enum (\w+)[^{]*\{\n(.*?)^\}", text, re.S):
            variants = re.findall(r"(?m)^    (\w+)(\(.*\))?,", m.group(2))
            yield p, m.group(1), variants


def functions():
    for p, text in files.items():
        for m in re.finditer(r"(?m)^ *(?:pub )?fn (\w+)(?:<[^>]*>)?\(([^)]*)\)( -> [^\n{]+)?", text):
            yield p, m.group(1), [a for a in re.split(r",\s*", m.group(2).strip()) if a], (m.group(3) or "")[4:].strip()


def lines(pattern):
    for p, text in files.items():
        for line in bare(text).split("\n"):
            if re.search(pattern, line):
                yield p, line.strip()


def option_shaped():
    for p, name, variants in enums():
        if len(variants) == 2 and any(v[1] for v in variants):
            yield p, name


def travelling():
    groups = [{"store", "index"}, {"numbers", "strings", "words"}, {"log", "asked"}, {"text", "printed"}]
    for p, name, params, _ in functions():
        names = {a.split(":")[0].split()[-1] for a in params}
        if sum(g <= names for g in groups) >= 2:
            yield p, name


def lengths_beside():
    pairs = [("store", "len"), ("buffer", "length"), ("starts", "count"), ("places", "count"), ("log", "asked"), ("text", "printed")]
    for p, name, params, _ in functions():
        names = {a.split(":")[0].split()[-1] for a in params}
        if any(set(q) <= names for q in pairs):
            yield p, name


def twins():
    """functions of one crate whose bodies are the same but for their words and numbers"""
    seen = {}
    for p, text in files.items():
        for m in re.finditer(r"(?m)^(?:pub )?fn (\w+).*?^\}", text, re.S):
            body = bare(m.group(0))
            shape = re.sub(r"\b[A-Za-z_]\w*\b|\d[\d_]*|b?\"[^\"]*\"|b'.'", "x", body)
            shape = re.sub(r"\s+", " ", shape)
            if len(shape) > 120:
                seen.setdefault((p.parts[-3], shape), []).append((p, m.group(1)))
    for group in seen.values():
        if len(group) > 1:
            yield from group


POINTS = [
    ("1 enums of the shape of Option or Result", option_shaped),
    ("1 an end beside a value (`end: Ended` in a struct)", lambda: lines(r"^\s*pub end: Ended,")),
    ("1 tests of a number that stands for a kind (`if k == ..`, `if kind == ..`)", lambda: lines(r"\bif (k|name|kind|store\[at\]) (==|<|!=) ")),
    ("1 a match that hands an Err or a None on", lambda: lines(r"(Refused|NoNumber|NoString|Err)\(e\) => (return )?(\w+::)?(Refused|Err)\(e\)")),
    ("2 functions whose bodies differ in names and numbers alone", twins),
    ("3 loops that count by hand (`while`)", lambda: lines(r"^\s*while ")),
    ("4 conversions by a function of their own", lambda: ((p, n) for p, n, a, r in functions() if n in ("wide", "size", "wide_place", "signed", "small") and len(a) == 1)),
    ("4 comparisons by hand, false where a step fails (`return false;`)", lambda: lines(r"^\s*return false;")),
    ("5 functions whose parameters travel in two groups or more", travelling),
    ("6 a buffer with its length beside", lengths_beside),
    ("7 numbers or enums that say which step to run", lambda: lines(r"\b(Along|Sought|Inputs)::\w+ =>")),
]

for title, places in POINTS:
    found = list(places())
    print(f"{len(found):4}  {title}")
    if listed:
        for place in found:
            print("         ", place[0].relative_to(root / "crates"), place[1])

proofs = sorted(root.glob("crates/*/proofs/**/Answers.antt"))
goals = sum(len(re.findall(r"(?m)^pub [\w.-]+ : goal\.", p.read_text())) for p in proofs)
print(f"{goals:4}  8 answers, in {len(proofs)} files")
