#!/usr/bin/env python3
"""Brings the repository's own definitions, lemmas and folders of specs/ to the kit's spelling: words in snake case, modules in camel case.

usage: tools/spelling.py            at the top, once, right after the kit's port.py

A name is the repository's own where a file of specs/ or proofs/ defines it. In each file it is turned wherever it stands, but where the
file imports the same name from a library of the kit. Pages, must-fail edits and tests that cite names are turned with them. It prints
where two names would fall together in one file.
"""
import glob
import os
import re
import subprocess
import sys

WORD = r"[^\s(){}.;,@\"«»\[\]\\:`|/<>=!?]+"
DEFINED = re.compile(r"(?m)^\s*(?:(?:abbrev|unfoldable|pub|record|data|ruleset|private|rule) +)*((?:%s +)*%s) *(?:[({][^\n]*?[)}] *)*(?::|=)(?= |$)" % (WORD, WORD))
IMPORT = re.compile(r"(?m)^(?:pub |ghost )*use ([^\s{;]+?)(?:\.\{([^}]*)\})?(?: as (\S+?))?;?$")
FOLDERS = {"inner": "Inner", "readers": "Readers"}
# Names whose snake case stands for something else already, or would be a reserved word.
TAKEN = {
    "at-else": "at_an_else",
    "line-end": "a_line_end",
    "new-page": "new_page_line",
    "no-heading": "no_heading_line",
    "string-target": "string_as_target",
    "variable-index": "variable_as_index",
    "entry-of": "entry_cell_of",
    "recordOf": "record_read_of",
    "known-of": "known_of_law",
    "pair-at": "pair_at_law",
    "key-at": "key_at_law",
    "quadAt": "quad_from",
    "row-val": "row_value",
}


def snake(name):
    """fooBar and foo-bar become foo_bar; getD is the library's get_or."""
    name = re.sub(r"getD", "get_or", name)
    name = re.sub(r"(?<=[a-z0-9])([A-Z])", r"_\1", name).lower() if re.match(r"[a-z]", name) else name
    return name.replace("-", "_")


def texts(root, ends):
    for folder, dirs, files in os.walk(root):
        dirs[:] = sorted(d for d in dirs if d not in ("out", "target", ".git"))
        for f in sorted(files):
            if f.endswith(ends):
                yield os.path.join(folder, f)


def read(path):
    with open(path, encoding="utf-8") as it:
        return it.read()


def bare(text):
    return re.sub(r"--[^\n]*", "", text)


def is_ours(module, crates):
    m = re.match(r"Rattle\.(\w+)\.", module + ".")
    return bool(m) and m.group(1) in crates


def is_generated(path):
    return os.path.basename(path) in ("Proof.antt", "Answers.antt", "Invariants.antt")


def own_names(crates):
    """The names to turn, and all names that files of specs/ and proofs/ define."""
    names, known = set(), set()
    for path in texts("crates", ".antt"):
        text = bare(read(path))
        needs = set(re.findall(r"(?m)^(\S+) : (?:tie|goal)\.", text)) if is_generated(path) else set()
        for m in DEFINED.finditer(text):
            for name in m.group(1).split():
                known.add(name)
                if name in needs or (is_generated(path) and name.endswith("-spec")):
                    continue
                if re.match(r"[a-z]", name) and (re.search("[A-Z]", name) or "-" in name):
                    names.add(name)
    return names, known


def foreign(text, crates):
    """Names that a file imports from the kit's libraries."""
    out = set()
    for module, items, alias in IMPORT.findall(text):
        if not is_ours(module, crates):
            out.update(re.split(r" as ", it.strip())[-1] for it in items.split(",") if it.strip())
    return out


def main():
    os.chdir(subprocess.run(["git", "rev-parse", "--show-toplevel"], capture_output=True, text=True).stdout.strip())
    crates = set(os.listdir("crates"))
    names, known = own_names(crates)
    turn = {n: TAKEN.get(n, snake(n)) for n in names}
    # A definition keeps its name, and the lemma that was called like it, with dashes, is its law.
    for n in names:
        if "-" in n and n not in TAKEN and any("-" not in m and turn[m] == turn[n] for m in names):
            turn[n] += "_law"
    token = re.compile(r"(?<![\w\-'′])(%s)(?![\w\-'′])" % "|".join(sorted(map(re.escape, names), key=len, reverse=True)))
    # What port.py has turned already in the code still stands in pages, edits and tests as it was.
    known |= set(turn.values())
    older = re.compile(r"(?<![\w\-'′])([a-z][a-z0-9]*(?:[A-Z][A-Za-z0-9]*)+|[a-z][a-z0-9]*(?:-[a-z0-9]+)+)(?![\w\-'′])")
    said = []
    paths = list(texts("crates", (".antt", ".rt", ".edit"))) + list(texts("docs", ".md")) + list(texts("tests", ".rs")) + ["README.md"]
    for path in paths:
        text = read(path)
        kit = foreign(text, crates) if path.endswith(".antt") else set()
        code = path.endswith((".antt", ".rt"))

        def one(m):
            n = m.group(1)
            return n if n in kit else turn[n]

        parts = re.split(r"(`[^`\n]*`)", text) if path.endswith((".md", ".rs")) else [text]
        for i, part in enumerate(parts):
            if path.endswith((".md", ".rs")) and i % 2 == 0:
                continue
            parts[i] = token.sub(one, part)
            if not path.endswith((".antt", ".rt")):
                parts[i] = older.sub(lambda m: snake(m[0]) if snake(m[0]) in known else m[0], parts[i])
        new = "".join(parts)
        if code:
            before = set(re.findall(r"(?<![\w\-'′])%s(?![\w\-'′])" % WORD, bare(text)))
            used = {n for n in before & names if n not in kit}
            seen = {}
            for n in used:
                if turn[n] in before:
                    said.append(f"{path}: {n} falls together with {turn[n]}")
                if seen.setdefault(turn[n], n) != n:
                    said.append(f"{path}: {n} and {seen[turn[n]]} fall together")
        if path.endswith((".antt", ".rt")):
            new = re.sub(r"(?<=specs\.)(inner|readers)(?=\.)", lambda m: FOLDERS[m.group(1)], new)
            if re.search(r"specs/Lib\.antt$", path):
                new = re.sub(r"(?m)^(pub mod )(inner|readers)$", lambda m: m.group(1) + FOLDERS[m.group(2)], new)
        else:
            new = re.sub(r"(?<=specs/)(inner|readers)(?=[/`\s.)]|$)", lambda m: FOLDERS[m.group(1)], new)
            new = re.sub(r"(?<=specs\.)(inner|readers)(?=\.)", lambda m: FOLDERS[m.group(1)], new)
        if new != text:
            with open(path, "w", encoding="utf-8") as it:
                it.write(new)
    for c in sorted(crates):
        for old, new in FOLDERS.items():
            for end in ("", ".antt"):
                if os.path.exists(f"crates/{c}/specs/{old}{end}"):
                    subprocess.run(["git", "mv", f"crates/{c}/specs/{old}{end}", f"crates/{c}/specs/{new}{end}"], check=True)
    for line in sorted(set(said)):
        print(line)
    print(f"{len(names)} names, {len(said)} places where names fall together")


if __name__ == "__main__":
    main()
